/* threads: the two ends of a port on two threads.

   threads [N]    N characters (10,000,000 unless told) through a line that waits for room, each of which is read once
                  and in order; then N more through a line that does not always wait, while the port is purged, hung up,
                  opened again and given another discipline. A hundred times both threads stop, and the account must
                  hold. */
#define _XOPEN_SOURCE 700
#include "check.h"

#include <errno.h>
#include <fcntl.h>
#include <pthread.h>
#include <sched.h>
#include <stdatomic.h>

enum { CAPACITY = 1024, STOPS = 100, PIECE = 96, PERIOD = 251, HASTE = 50 };

struct feed {
    jw_line *line;
    int64_t count;
    bool is_whole; /* it always waits for room, so that nothing is refused; else now and then it does not */
    atomic_bool stands;
    pthread_barrier_t stop, go;
};

static size_t least(int64_t one, int64_t other) {
    return (size_t)(one < other ? one : other);
}

/* Puts characters that count from 0 to 250 and again. */
static void feed_up_to(struct feed *feed, int64_t from, int64_t to) {
    unsigned pieces = 0;
    static uint8_t some[PERIOD + PIECE];
    for (size_t k = 0; k < sizeof some; k++)
        some[k] = (uint8_t)(k % PERIOD);
    while (from < to) {
        size_t count = least(to - from, 1 + from % PIECE);
        if (feed->is_whole || ++pieces % HASTE != 0) {
            count = least((int64_t)count, CAPACITY - jw_line_waiting(feed->line));
            if (count == 0)
                sched_yield();
        }
        int64_t put = jw_line_put(feed->line, some + from % PERIOD, count, JW_NORMAL);
        IS(put < 0 || (feed->is_whole && put != (int64_t)count), 0);
        IS(jw_line_push(feed->line), 0);
        from += (int64_t)count;
    }
}

static void *feed_all(void *of) {
    struct feed *feed = of;
    for (int64_t k = 0; k < STOPS; k++) {
        feed_up_to(feed, feed->count * k / STOPS, feed->count * (k + 1) / STOPS);
        atomic_store(&feed->stands, true);
        pthread_barrier_wait(&feed->stop);
        pthread_barrier_wait(&feed->go);
    }
    return NULL;
}

static void open_raw(jw_port *port) {
    IS(jw_port_open(port, 0, 3, O_RDWR, true), 0);
    set_all(port, 0, 3, "raw");
}

/* What was read must go on where it left off. */
static void look_at(const uint8_t *bytes, int64_t count, int64_t *read) {
    for (int64_t k = 0; k < count; k++, ++*read)
        if (bytes[k] != *read % PERIOD)
            IS(bytes[k], *read % PERIOD);
}

/* Hands over and reads; answers whether there was anything. */
static bool take(jw_port *port, bool is_whole, int64_t *read) {
    static uint8_t place[4096];
    int64_t took = jw_port_receive(port, 256);
    int64_t got = jw_port_read(port, 0, 3, place, sizeof place);
    IS(took < 0 || (got < 0 && got != -EAGAIN && got != -EIO), 0);
    if (is_whole && got > 0)
        look_at(place, got, read);
    return took > 0 || got > 0;
}

/* What drops characters, and what keeps them in the buffer for a while. */
static void disturb(jw_port *port, uint64_t turn) {
    if (turn % 997 == 0)
        IS(jw_port_flush(port, 0, 3, TCIFLUSH), 0);
    if (turn % 5003 == 0)
        IS(jw_port_setd(port, 0, 3, turn / 5003 % 2), 0);
    if (turn % 9973 == 0) {
        IS(jw_port_hang_up(port), 0);
        IS(jw_port_close(port, 0, 3), 0);
        open_raw(port);
    }
}

static void play(int64_t count, bool is_whole) {
    jw_port port = {0};
    jw_line line = {0};
    struct feed feed = {.line = &line, .count = count, .is_whole = is_whole};
    pthread_t thread;
    int64_t read = 0;
    uint64_t turn = 0;
    IS(jw_port_new(&port, &line, 1, CAPACITY), 0);
    open_raw(&port);
    IS(pthread_barrier_init(&feed.stop, NULL, 2) + pthread_barrier_init(&feed.go, NULL, 2), 0);
    IS(pthread_create(&thread, NULL, feed_all, &feed), 0);
    for (int stop = 0; stop < STOPS;) {
        bool stands = atomic_load(&feed.stands);
        bool took = take(&port, is_whole, &read);
        if (!is_whole)
            disturb(&port, ++turn);
        if (!stands || (took && is_whole)) {
            if (!took)
                sched_yield();
            continue;
        }
        pthread_barrier_wait(&feed.stop);
        look_at_account(&port, &line);
        IS(jw_line_sent(&line) + jw_line_overruns(&line), count * (stop + 1) / STOPS);
        atomic_store(&feed.stands, false);
        pthread_barrier_wait(&feed.go);
        stop++;
    }
    IS(pthread_join(thread, NULL), 0);
    IS(is_whole ? read : 0, is_whole ? count : 0);
    IS(pthread_barrier_destroy(&feed.stop) + pthread_barrier_destroy(&feed.go), 0);
    printf("%s: %" PRId64 " put, %" PRId64 " refused", is_whole ? "in order" : "disturbed", jw_line_sent(&line),
        jw_line_overruns(&line));
    printf(", %" PRId64 " received, %" PRId64 " dropped; the account held %d times\n", jw_port_received(&port),
        jw_port_dropped(&port), STOPS);
    IS(jw_line_free(&line), 0);
    IS(jw_port_free(&port), 0);
}

int main(int argc, char **argv) {
    int64_t count = argc > 1 ? atoll(argv[1]) : 10000000;
    play(count, true);
    play(count, false);
    return 0;
}
