/* check.h: what the tests of the library share. */
#ifndef CHECK_H
#define CHECK_H

#include "../jinthwyr.h"

#include <inttypes.h>
#include <stdio.h>
#include <stdlib.h>
#include <string.h>
#include <termios.h>

/* Ends the program where a call does not answer what it is to. */
#define IS(call, wanted) is((call), (wanted), #call, __FILE__, __LINE__)

static inline void is(int64_t got, int64_t wanted, const char *call, const char *file, int line) {
    if (got != wanted) {
        fprintf(stderr, "%s:%d: %s: %" PRId64 ", and not %" PRId64 "\n", file, line, call, got, wanted);
        exit(1);
    }
}

static inline const uint8_t *bytes_of(const char *text) {
    return (const uint8_t *)text;
}

/* Sets modes by the words of a text that one blank parts. */
static inline void set_all(jw_port *port, size_t caller, uint8_t h, const char *words) {
    for (size_t len; *words != '\0'; words += len + (words[len] == ' ')) {
        len = strcspn(words, " ");
        IS(jw_port_set(port, caller, h, TCSANOW, bytes_of(words), len), 0);
    }
}

/* Each character that was put and pushed is received, dropped or waiting, as each end says by itself and as both say
   together; for a moment at which nobody puts or takes. */
static inline void look_at_account(jw_port *port, jw_line *line) {
    jw_account account;
    IS(jw_port_received(port) + jw_port_dropped(port) + jw_port_waiting(port), jw_line_sent(line));
    IS(jw_line_waiting(line), jw_port_waiting(port));
    IS(jw_port_account(port, line, &account), 0);
    IS((int64_t)account.sent, jw_line_sent(line));
    IS((int64_t)account.overruns, jw_line_overruns(line));
    IS((int64_t)account.received, jw_port_received(port));
    IS((int64_t)account.dropped, jw_port_dropped(port));
    IS((int64_t)account.waiting, jw_port_waiting(port));
}

#endif
