/* portloop: what loop does, with a whole port: a serial line on standard input and output, and behind it a program
   that says each line again. The line goes through a flip buffer, a ^D ends the program, and the end of the line is a
   hangup. docs/EMBEDDING.md explains it. */
#define _POSIX_C_SOURCE 200809L
#include "jinthwyr.h"

#include <fcntl.h>
#include <poll.h>
#include <time.h>
#include <unistd.h>

enum { CALLER = 0, NUMBER = 3, CAPACITY = 4096 };

static uint64_t tenths(void) {
    struct timespec now;
    clock_gettime(CLOCK_MONOTONIC, &now);
    return (uint64_t)now.tv_sec * 10 + (uint64_t)now.tv_nsec / 100000000;
}

/* What went out: echo and output. */
static void send_wire(jw_port *port) {
    uint8_t bytes[4096];
    for (int64_t n; (n = jw_port_take_wire(port, bytes, sizeof bytes)) > 0;)
        if (write(1, bytes, (size_t)n) != n)
            _exit(1);
}

/* What the program has left to say, as far as it is taken: 64 bytes at most, and none while output is halted. */
static uint8_t said[CAPACITY];
static size_t said_from, said_to;

static bool says(jw_port *port) {
    size_t left = said_to - said_from;
    int64_t n = left > 0 ? jw_port_write(port, CALLER, NUMBER, said + said_from, left) : 0;
    said_from += n > 0 ? (size_t)n : 0;
    return n > 0;
}

static void serve(jw_port *port, jw_line *line) {
    uint8_t bytes[CAPACITY];
    for (;;) {
        jw_port_advance(port, tenths());
        send_wire(port);
        if (says(port) || jw_port_receive(port, 64) > 0)
            continue; /* what went out goes first */
        if (said_from == said_to) {
            int64_t n = jw_port_read(port, CALLER, NUMBER, said, sizeof said);
            if (n == 0)
                return; /* ^D */
            said_from = 0;
            said_to = n > 0 ? (size_t)n : 0;
            if (n > 0)
                continue;
        }
        size_t room = CAPACITY - (size_t)jw_line_waiting(line);
        struct pollfd in = {.fd = room > 0 ? 0 : -1, .events = POLLIN};
        if (poll(&in, 1, 100) <= 0)
            continue; /* a tick: a read may be ready by TIME */
        ssize_t came = read(0, bytes, room);
        if (came <= 0) {
            jw_port_hang_up(port); /* the carrier is gone */
            return;
        }
        jw_line_put(line, bytes, (size_t)came, JW_NORMAL);
        jw_line_push(line);
    }
}

int main(void) {
    jw_port port = {0};
    jw_line line = {0};
    if (jw_port_new(&port, &line, 1, CAPACITY) != 0 || jw_port_open(&port, CALLER, NUMBER, O_RDWR, true) != 0)
        return 1;
    serve(&port, &line);
    send_wire(&port);
    return jw_port_free(&port) == 0 && jw_line_free(&line) == 0 ? 0 : 1;
}
