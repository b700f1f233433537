/* jwtty [-w WORD].. COMMAND [ARGUMENT]..: runs a command under a terminal in user space.

   The user's terminal goes raw. The command reads records of a socket and has no terminal of its own; between them
   stands N_TTY, which edits lines, echoes, stops and starts output, and raises signals. -w makes a change of its
   modes. */
#define _GNU_SOURCE
#include "jinthwyr.h"

#include <errno.h>
#include <fcntl.h>
#include <linux/sockios.h>
#include <poll.h>
#include <signal.h>
#include <stdio.h>
#include <stdlib.h>
#include <string.h>
#include <sys/ioctl.h>
#include <sys/socket.h>
#include <sys/wait.h>
#include <termios.h>
#include <time.h>
#include <unistd.h>

enum { PIECE = 4096 };

struct buffer {
    uint8_t bytes[PIECE];
    size_t at, len;
};
static struct termios users;

static void fail(const char *what) {
    perror(what);
    exit(126);
}

static void restore(void) {
    tcsetattr(0, TCSADRAIN, &users);
}

static void go_raw(void) {
    struct termios raw;
    if (tcgetattr(0, &users) != 0)
        return;
    cfmakeraw(memcpy(&raw, &users, sizeof raw));
    atexit(restore);
    tcsetattr(0, TCSADRAIN, &raw);
}

/* An answer that says that memory is wanting ends the program. */
static int64_t sure(int64_t answer) {
    if (answer == JW_NO_MEMORY)
        fail("jwtty");
    return answer;
}

static uint64_t tick_of_now(void) {
    struct timespec now;
    clock_gettime(CLOCK_MONOTONIC, &now);
    return (uint64_t)now.tv_sec * 10 + (uint64_t)now.tv_nsec / 100000000;
}

static pid_t run(char **command, int *input, int *output) {
    int records[2], pipes[2];
    pid_t child;
    if (socketpair(AF_UNIX, SOCK_SEQPACKET | SOCK_CLOEXEC, 0, records) != 0 || pipe2(pipes, O_CLOEXEC) != 0)
        fail("jwtty");
    child = fork();
    if (child < 0)
        fail("jwtty");
    if (child == 0) {
        setsid();
        dup2(records[1], 0);
        dup2(pipes[1], 1);
        dup2(pipes[1], 2);
        execvp(command[0], command);
        perror(command[0]);
        _exit(127);
    }
    close(records[1]);
    close(pipes[1]);
    *input = records[0], *output = pipes[0];
    return child;
}

static bool fill(struct buffer *buffer, int fd) {
    ssize_t count = read(fd, buffer->bytes, PIECE);
    buffer->at = 0;
    buffer->len = count > 0 ? (size_t)count : 0;
    return count > 0 || (count < 0 && errno == EINTR);
}

/* Whether a record may be sent: an empty one only where the command has read all, or it would be sent for ever by
   MIN 0. */
static bool has_room(jw_tty *tty, int input) {
    int left = 1;
    struct pollfd room = {input, POLLOUT, 0};
    return jw_unread(tty) > 0 ? poll(&room, 1, 0) == 1 : ioctl(input, SIOCOUTQ, &left) == 0 && left == 0;
}

/* What went out goes to the user, and signals go to the command's group. */
static void pass_on(jw_tty *tty, pid_t child) {
    uint8_t wire[PIECE];
    for (int64_t count; (count = sure(jw_take_wire(tty, wire, PIECE))) > 0;)
        for (ssize_t done = 0, wrote; done < count; done += wrote)
            if ((wrote = write(1, wire + done, (size_t)(count - done))) < 0)
                fail("write");
    for (int64_t number; (number = sure(jw_take_signal(tty))) > 0;)
        kill(-child, (int)number);
}

int main(int argc, char **argv) {
    jw_tty tty = {0};
    int at = 1, input, output, status;
    sure(jw_new(&tty));
    while (at + 1 < argc && strcmp(argv[at], "-w") == 0 &&
           sure(jw_set(&tty, (uint8_t *)argv[at + 1], strlen(argv[at + 1]))) == 1)
        at += 2;
    if (at >= argc || strcmp(argv[at], "-w") == 0) {
        fputs("usage: jwtty [-w WORD].. COMMAND [ARGUMENT]..\n", stderr);
        return 2;
    }
    pid_t child = run(argv + at, &input, &output);
    go_raw();

    static struct buffer typed, written;
    uint8_t record[PIECE];
    uint64_t since = tick_of_now();
    for (bool at_keyboard = true, runs = true; runs;) {
        jw_advance(&tty, tick_of_now());
        for (int64_t n = 1; n > 0 && typed.at < typed.len; typed.at += (size_t)n)
            n = sure(jw_receive_bytes(&tty, typed.bytes + typed.at, typed.len - typed.at));
        for (int64_t n = 1; n > 0 && written.at < written.len; written.at += (size_t)n)
            n = sure(jw_write(&tty, written.bytes + written.at, written.len - written.at));
        pass_on(&tty, child);
        /* The command reads all the time: each record is what one read of 4,096 bytes is given, an empty one is ^D. */
        for (; jw_ready(&tty, false, since, PIECE) == 1 && has_room(&tty, input); since = tick_of_now())
            send(input, record, (size_t)sure(jw_read(&tty, false, since, record, PIECE)), MSG_NOSIGNAL);
        pass_on(&tty, child);
        if (!at_keyboard && typed.at == typed.len && jw_ready(&tty, false, since, PIECE) == 0)
            shutdown(input, SHUT_WR);
        struct pollfd fds[] = {
            {at_keyboard && typed.at == typed.len ? 0 : -1, POLLIN, 0},
            {written.at == written.len ? output : -1, POLLIN, 0},
        };
        if (poll(fds, 2, 50) > 0) {
            at_keyboard = fds[0].revents == 0 ? at_keyboard : fill(&typed, 0);
            runs = fds[1].revents == 0 || fill(&written, output);
        }
    }
    jw_free(&tty);
    if (waitpid(child, &status, 0) < 0)
        fail("waitpid");
    return WIFEXITED(status) ? WEXITSTATUS(status) : 128 + WTERMSIG(status);
}
