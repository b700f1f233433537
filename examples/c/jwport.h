/* jwport.h: the terminal of jwrun: a port, its opens, and the calls of the programs that have it. */
#ifndef JWPORT_H
#define JWPORT_H

#include <poll.h>
#include <stdbool.h>
#include <stddef.h>
#include <stdint.h>

enum {
    PORT_OPENS = 31,                    /* open k has the number k of the port */
    PORT_CALLS = 128,                   /* calls that are under way */
    PORT_FDS = 1 + PORT_OPENS + PORT_CALLS
};

/* Makes the terminal: its socket, and its window size, 65,536 * rows + columns. Says what went wrong, and answers
   false. */
bool port_make(const char *name, uint32_t size);
void port_end(void);

/* One word of stty(1); 0 where it is one. */
int64_t port_set(const char *word);

/* A descriptor of the terminal, open to read and to write, or a negated errno. */
int port_open(void);

/* How many characters the line may bring now, and those that it brought. */
size_t port_room(void);
void port_hear(const uint8_t *bytes, size_t len);

/* What goes out; so many bytes went. */
const uint8_t *port_out(size_t *len);
void port_sent(size_t len);

/* What it waits for, and what has happened of that. */
void port_watch(struct pollfd fds[PORT_FDS]);
void port_attend(const struct pollfd fds[PORT_FDS]);

/* Does all that can be done, at a tick of a tenth of a second. */
void port_work(uint64_t tick);

/* Hangs it up: every open is dead. */
void port_hang_up(void);

#endif
