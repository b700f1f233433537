/* loop: a serial line on standard input and output, and behind it a program that says each line again.

   The loop that every program around a jw_tty has: what went out is taken and written, a line that is complete is
   read, what the program says is written in pieces, and only where nothing else is to be done more of the line is
   received. */
#define _GNU_SOURCE
#include "jinthwyr.h"

#include <poll.h>
#include <unistd.h>

struct bytes {
    uint8_t at[4096];
    size_t from, to;
};

/* Gives what is there to a call that may take less. Answers whether it took any. */
static bool passed(struct bytes *bytes, int64_t (*take)(jw_tty *, const uint8_t *, size_t), jw_tty *tty) {
    int64_t count = bytes->from < bytes->to ? take(tty, bytes->at + bytes->from, bytes->to - bytes->from) : 0;
    bytes->from += count > 0 ? (size_t)count : 0;
    return count > 0;
}

int main(void) {
    static struct bytes line, said;
    uint8_t wire[512];
    jw_tty tty = {0};
    if (jw_new(&tty) != 0)
        return 1;
    for (;;) {
        int64_t sent = jw_take_wire(&tty, wire, sizeof wire);
        if (sent < 0 || (sent > 0 && write(1, wire, (size_t)sent) != sent))
            return 1;
        bool busy = sent > 0 || passed(&said, jw_write, &tty) || passed(&line, jw_receive_bytes, &tty);
        if (!busy && said.from == said.to) {
            int64_t got = jw_read(&tty, true, 0, said.at, sizeof said.at);
            if (got == 0)
                break; /* ^D */
            said.from = 0;
            said.to = got > 0 ? (size_t)got : 0;
            busy = got > 0;
        }
        /* While the discipline has no room for all of the line, and nobody can read, there is nothing to wait for. */
        struct pollfd input = {.fd = 0, .events = POLLIN};
        bool is_empty = line.from == line.to;
        if (!busy && poll(&input, is_empty, is_empty ? -1 : 100) > 0) {
            ssize_t came = read(0, line.at, sizeof line.at);
            if (came <= 0)
                break;
            line.from = 0;
            line.to = (size_t)came;
        }
    }
    return jw_free(&tty) == 0 ? 0 : 1;
}
