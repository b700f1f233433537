/* bench [TURNS]: how many bytes a second N_TTY by itself, a port and a pseudoterminal receive and hand to a reader, in
   one run.

   Each row is for one set of modes. Lines of 64 bytes come in pieces of 2,048, and what was echoed is taken away after
   each piece. The port has its line, and takes 256 bytes in by a call; in `raw, two ends` they are put by a jw_line, on
   the same thread. `write` is output of a program, with output processing. Of `raw, two threads` one thread is the
   line, and the other reads. A round trip is a line of 64 bytes that one thread sends and another reads and writes
   back; the two wake each other by semaphores, and those at the pseudoterminal by what the kernel does. All are played
   in turns, 60 unless told, and each number is the best of all turns, which other programs disturb least. Beside the
   time that passed stands the processor time of this program; of a pseudoterminal, a worker of the kernel does a part
   that it lacks. */
#define _GNU_SOURCE
#include "jinthwyr.h"

#include <errno.h>
#include <fcntl.h>
#include <pthread.h>
#include <semaphore.h>
#include <stdio.h>
#include <stdlib.h>
#include <string.h>
#include <termios.h>
#include <time.h>
#include <unistd.h>

enum { PIECE = 2048, TAKEN = 256, HELD = 4096, TOTAL = 256 * 1024, ROUNDS = 1000, MESSAGE = 64 };

static int turns = 60;

static uint8_t text[PIECE], place[2 * PIECE];

struct rate {
    double passed, used;
};

static double seconds(clockid_t clock) {
    struct timespec t;
    clock_gettime(clock, &t);
    return (double)t.tv_sec + (double)t.tv_nsec / 1e9;
}

static struct rate now(void) {
    return (struct rate){seconds(CLOCK_MONOTONIC), seconds(CLOCK_PROCESS_CPUTIME_ID)};
}

static struct rate times_since(struct rate start, double count) {
    struct rate end = now();
    return (struct rate){count / (end.passed - start.passed), count / (end.used - start.used)};
}

/* Million bytes a second since then. */
static struct rate rate_since(struct rate start) {
    return times_since(start, TOTAL / 1e6);
}

static void check(bool holds, const char *what) {
    if (!holds) {
        fprintf(stderr, "bench: %s\n", what);
        exit(1);
    }
}

static struct rate library_input(const char *const *words) {
    jw_tty tty = {0};
    check(jw_new(&tty) == 0, "jw_new");
    for (; *words != NULL; words++)
        check(jw_set(&tty, (const uint8_t *)*words, strlen(*words)) == 1, *words);
    struct rate start = now();
    for (size_t total = 0; total < TOTAL; total += PIECE) {
        for (size_t done = 0; done < PIECE;) {
            int64_t count = jw_receive_bytes(&tty, text + done, PIECE - done);
            check(count > 0, "jw_receive_bytes");
            done += (size_t)count;
        }
        for (size_t got = 0; got < PIECE;) {
            int64_t count = jw_read(&tty, false, 0, place, sizeof place);
            check(count > 0, "jw_read");
            got += (size_t)count;
        }
        while (jw_take_wire(&tty, place, sizeof place) > 0)
            continue;
    }
    struct rate rate = rate_since(start);
    check(jw_free(&tty) == 0, "jw_free");
    return rate;
}

static struct rate library_output(void) {
    jw_tty tty = {0};
    check(jw_new(&tty) == 0, "jw_new");
    struct rate start = now();
    for (size_t total = 0; total < TOTAL; total += PIECE) {
        for (size_t done = 0; done < PIECE;)
            done += (size_t)jw_write(&tty, text + done, PIECE - done);
        while (jw_take_wire(&tty, place, sizeof place) > 0)
            continue;
    }
    struct rate rate = rate_since(start);
    check(jw_free(&tty) == 0, "jw_free");
    return rate;
}

/* ---- a port ---- */

static void set_up(jw_port *port, const char *const *words) {
    check(jw_port_open(port, 0, 0, O_RDWR, true) == 0, "jw_port_open");
    for (; *words != NULL; words++)
        check(jw_port_set(port, 0, 0, TCSANOW, (const uint8_t *)*words, strlen(*words)) == 0, *words);
}

static void open_port(jw_port *port, jw_line *line, const char *const *words) {
    check(jw_port_new(port, line, 1, HELD) == 0, "jw_port_new");
    set_up(port, words);
}

static void free_port(jw_port *port, jw_line *line) {
    check(jw_port_free(port) == 0 && jw_line_free(line) == 0, "jw_port_free");
}

/* Hands over what was pushed, and reads what is there. */
static size_t read_port(jw_port *port) {
    while (jw_port_receive(port, 256) == 256)
        continue;
    int64_t got = jw_port_read(port, 0, 0, place, sizeof place);
    check(got > 0 || got == -EAGAIN, "jw_port_read");
    return got > 0 ? (size_t)got : 0;
}

/* Takes a piece in, and reads it. */
static void whole_piece(jw_port *port) {
    for (size_t done = 0; done < PIECE; done += TAKEN)
        check(jw_port_take_in(port, text + done, TAKEN, JW_NORMAL) == TAKEN, "jw_port_take_in");
    for (size_t got = 0; got < PIECE;) {
        int64_t count = jw_port_read(port, 0, 0, place, sizeof place);
        check(count > 0 || (count == -EAGAIN && jw_port_receive(port, TAKEN) > 0), "jw_port_read");
        got += count > 0 ? (size_t)count : 0;
    }
}

static struct rate port_input(const char *const *words) {
    jw_port port = {0};
    check(jw_port_new_whole(&port, 1, HELD) == 0, "jw_port_new_whole");
    set_up(&port, words);
    struct rate start = now();
    for (size_t total = 0; total < TOTAL; total += PIECE) {
        whole_piece(&port);
        while (jw_port_take_wire(&port, place, sizeof place) > 0)
            continue;
    }
    struct rate rate = rate_since(start);
    check(jw_port_free(&port) == 0, "jw_port_free");
    return rate;
}

static struct rate port_ends(const char *const *words) {
    jw_port port = {0};
    jw_line line = {0};
    open_port(&port, &line, words);
    struct rate start = now();
    for (size_t total = 0; total < TOTAL; total += PIECE) {
        check(jw_line_put(&line, text, PIECE, JW_NORMAL) == PIECE && jw_line_push(&line) == 0, "jw_line_put");
        for (size_t got = 0; got < PIECE;)
            got += read_port(&port);
        while (jw_port_take_wire(&port, place, sizeof place) > 0)
            continue;
    }
    struct rate rate = rate_since(start);
    free_port(&port, &line);
    return rate;
}

static struct rate port_output(void) {
    static const char *const none[] = {NULL};
    jw_port port = {0};
    jw_line line = {0};
    open_port(&port, &line, none);
    struct rate start = now();
    for (size_t total = 0; total < TOTAL; total += PIECE) {
        for (size_t done = 0; done < PIECE;)
            done += (size_t)jw_port_write(&port, 0, 0, text + done, PIECE - done);
        while (jw_port_take_wire(&port, place, sizeof place) > 0)
            continue;
    }
    struct rate rate = rate_since(start);
    free_port(&port, &line);
    return rate;
}

/* ---- two threads: one is the line, and this one reads ---- */

static void *feed_line(void *line) {
    for (size_t total = 0; total < TOTAL;) {
        size_t room = HELD - (size_t)jw_line_waiting(line);
        size_t count = room < PIECE ? room : PIECE;
        total += (size_t)jw_line_put(line, text, count < TOTAL - total ? count : TOTAL - total, JW_NORMAL);
        jw_line_push(line);
    }
    return NULL;
}

static struct rate port_threads(const char *const *words) {
    jw_port port = {0};
    jw_line line = {0};
    pthread_t thread;
    open_port(&port, &line, words);
    struct rate start = now();
    check(pthread_create(&thread, NULL, feed_line, &line) == 0, "pthread_create");
    for (size_t got = 0; got < TOTAL;)
        got += read_port(&port);
    check(pthread_join(thread, NULL) == 0, "pthread_join");
    struct rate rate = rate_since(start);
    free_port(&port, &line);
    return rate;
}

static void *feed_master(void *master) {
    for (size_t total = 0; total < TOTAL; total += PIECE)
        check(write(*(int *)master, text, PIECE) == PIECE, "write");
    return NULL;
}

/* ---- a round trip: one thread is the line, and another has the port ---- */

struct trip {
    jw_port port;
    jw_line line;
    sem_t came, went;
    uint8_t back[MESSAGE];
};

static void *answer_port(void *of) {
    struct trip *trip = of;
    uint8_t bytes[MESSAGE];
    for (int k = 0; k < ROUNDS; k++) {
        while (sem_wait(&trip->came) != 0)
            continue;
        check(jw_port_receive(&trip->port, MESSAGE) == MESSAGE, "jw_port_receive");
        check(jw_port_read(&trip->port, 0, 0, bytes, MESSAGE) == MESSAGE, "jw_port_read");
        check(jw_port_write(&trip->port, 0, 0, bytes, MESSAGE) == MESSAGE, "jw_port_write");
        check(jw_port_take_wire(&trip->port, trip->back, MESSAGE) == MESSAGE, "jw_port_take_wire");
        sem_post(&trip->went);
    }
    return NULL;
}

static struct rate port_trips(const char *const *words) {
    struct trip trip = {0};
    pthread_t thread;
    open_port(&trip.port, &trip.line, words);
    check(sem_init(&trip.came, 0, 0) == 0 && sem_init(&trip.went, 0, 0) == 0, "sem_init");
    check(pthread_create(&thread, NULL, answer_port, &trip) == 0, "pthread_create");
    struct rate start = now();
    for (int k = 0; k < ROUNDS; k++) {
        check(jw_line_put(&trip.line, text, MESSAGE, JW_NORMAL) == MESSAGE, "jw_line_put");
        jw_line_push(&trip.line);
        sem_post(&trip.came);
        while (sem_wait(&trip.went) != 0)
            continue;
        check(memcmp(trip.back, text, MESSAGE) == 0, "what came back");
    }
    struct rate rate = times_since(start, ROUNDS / 1e3);
    check(pthread_join(thread, NULL) == 0, "pthread_join");
    sem_destroy(&trip.came);
    sem_destroy(&trip.went);
    free_port(&trip.port, &trip.line);
    return rate;
}

/* ---- a pseudoterminal ---- */

static void open_pair(int *master, int *slave, bool is_canonical, bool echoes) {
    struct termios modes;
    *master = posix_openpt(O_RDWR | O_NOCTTY);
    check(*master >= 0 && grantpt(*master) == 0 && unlockpt(*master) == 0, "posix_openpt");
    *slave = open(ptsname(*master), O_RDWR | O_NOCTTY);
    check(*slave >= 0 && tcgetattr(*slave, &modes) == 0, "open");
    if (!is_canonical)
        cfmakeraw(&modes);
    modes.c_lflag = echoes ? modes.c_lflag | ECHO : modes.c_lflag & ~(tcflag_t)ECHO;
    check(tcsetattr(*slave, TCSANOW, &modes) == 0, "tcsetattr");
}

static void take(int fd, size_t bytes) {
    for (size_t got = 0; got < bytes;) {
        ssize_t count = read(fd, place, sizeof place);
        check(count > 0, "read");
        got += (size_t)count;
    }
}

static struct rate kernel_input(bool is_canonical, bool echoes) {
    int master, slave;
    open_pair(&master, &slave, is_canonical, echoes);
    size_t echoed = !echoes ? 0 : is_canonical ? PIECE + PIECE / 64 : PIECE;
    struct rate start = now();
    for (size_t total = 0; total < TOTAL; total += PIECE) {
        check(write(master, text, PIECE) == PIECE, "write");
        take(slave, PIECE);
        take(master, echoed);
    }
    struct rate rate = rate_since(start);
    close(master);
    close(slave);
    return rate;
}

static struct rate kernel_output(void) {
    int master, slave;
    open_pair(&master, &slave, true, false);
    struct rate start = now();
    for (size_t total = 0; total < TOTAL; total += PIECE) {
        check(write(slave, text, PIECE) == PIECE, "write");
        take(master, PIECE + PIECE / 64);
    }
    struct rate rate = rate_since(start);
    close(master);
    close(slave);
    return rate;
}

static struct rate kernel_threads(void) {
    int master, slave;
    pthread_t thread;
    open_pair(&master, &slave, false, false);
    struct rate start = now();
    check(pthread_create(&thread, NULL, feed_master, &master) == 0, "pthread_create");
    take(slave, TOTAL);
    check(pthread_join(thread, NULL) == 0, "pthread_join");
    struct rate rate = rate_since(start);
    close(master);
    close(slave);
    return rate;
}

static void *answer_slave(void *slave) {
    uint8_t bytes[MESSAGE];
    for (int k = 0; k < ROUNDS; k++) {
        for (size_t got = 0; got < MESSAGE;) {
            ssize_t count = read(*(int *)slave, bytes + got, MESSAGE - got);
            check(count > 0, "read");
            got += (size_t)count;
        }
        check(write(*(int *)slave, bytes, MESSAGE) == MESSAGE, "write");
    }
    return NULL;
}

static struct rate kernel_trips(void) {
    int master, slave;
    pthread_t thread;
    open_pair(&master, &slave, false, false);
    check(pthread_create(&thread, NULL, answer_slave, &slave) == 0, "pthread_create");
    struct rate start = now();
    for (int k = 0; k < ROUNDS; k++) {
        check(write(master, text, MESSAGE) == MESSAGE, "write");
        take(master, MESSAGE);
    }
    struct rate rate = times_since(start, ROUNDS / 1e3);
    check(pthread_join(thread, NULL) == 0, "pthread_join");
    close(master);
    close(slave);
    return rate;
}

static void keep_best(struct rate *best, struct rate rate) {
    best->passed = rate.passed > best->passed ? rate.passed : best->passed;
    best->used = rate.used > best->used ? rate.used : best->used;
}

static void print_rate(double rate) {
    if (rate > 0)
        printf("%10.1f", rate);
    else
        printf("%10s", "");
}

static void print(const char *name, struct rate tty, struct rate port, struct rate kernel) {
    const double rates[] = {tty.passed, port.passed, kernel.passed, tty.used, port.used, kernel.used};
    printf("%-22s", name);
    for (size_t k = 0; k < sizeof rates / sizeof *rates; k++)
        print_rate(rates[k]);
    printf("\n");
}

static void print_input(const char *name, const char *const *words, bool is_canonical, bool echoes) {
    struct rate tty = {0}, port = {0}, kernel = {0};
    for (int turn = 0; turn < turns; turn++) {
        keep_best(&tty, library_input(words));
        keep_best(&port, port_input(words));
        keep_best(&kernel, kernel_input(is_canonical, echoes));
    }
    print(name, tty, port, kernel);
}

static void print_ends(const char *name, const char *const *words) {
    struct rate port = {0}, kernel = {0};
    for (int turn = 0; turn < turns; turn++) {
        keep_best(&port, port_ends(words));
        keep_best(&kernel, kernel_input(false, false));
    }
    print(name, (struct rate){0}, port, kernel);
}

static void print_output(const char *name) {
    struct rate tty = {0}, port = {0}, kernel = {0};
    for (int turn = 0; turn < turns; turn++) {
        keep_best(&tty, library_output());
        keep_best(&port, port_output());
        keep_best(&kernel, kernel_output());
    }
    print(name, tty, port, kernel);
}

static void print_threads(const char *name, const char *const *words) {
    struct rate port = {0}, kernel = {0};
    for (int turn = 0; turn < turns; turn++) {
        keep_best(&port, port_threads(words));
        keep_best(&kernel, kernel_threads());
    }
    print(name, (struct rate){0}, port, kernel);
}

static void print_trips(const char *name, const char *const *words) {
    struct rate port = {0}, kernel = {0};
    for (int turn = 0; turn < turns; turn++) {
        keep_best(&port, port_trips(words));
        keep_best(&kernel, kernel_trips());
    }
    print(name, (struct rate){0}, port, kernel);
}

int main(int argc, char **argv) {
    static const char *const raw[] = {"raw", NULL}, *const quiet[] = {"-echo", NULL}, *const sane[] = {NULL};
    static const char columns[] = "     N_TTY      port    kernel     N_TTY      port    kernel";
    if (argc > 1)
        turns = atoi(argv[1]);
    for (size_t i = 0; i < PIECE; i++)
        text[i] = i % 64 == 63 ? '\n' : (uint8_t)('a' + i % 26);
    printf("million bytes a second, of the time that passed, and of this program's processor time\n");
    printf("%22s%s\n", "", columns);
    print_input("raw", raw, false, false);
    print_input("canonical", quiet, true, false);
    print_input("canonical, with echo", sane, true, true);
    print_output("write");
    print_ends("raw, two ends", raw);
    print_threads("raw, two threads", raw);
    printf("thousand round trips a second\n");
    print_trips("raw, two threads", raw);
    return 0;
}
