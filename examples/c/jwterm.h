/* jwterm.h: what libjwterm.so and jwrun say to one another.

   Each descriptor of the terminal is one end of a pair of sockets (SOCK_SEQPACKET). The other end is jwrun's, and has
   an abstract name: a zero, "jwterm:", the number of the open, ":" and the name of the terminal. So a descriptor tells
   by getpeername(2) of what terminal and of what open it is, wherever it was passed. What is written to it past the
   library is written to the terminal; what is read from it past the library is what jwrun has read ahead.

   A call of the terminal is one connection to the socket that has the terminal's name: a request, as long as its bytes
   are, and answers, of which the last ends it. The process that calls is the one that connected. */
#ifndef JWTERM_H
#define JWTERM_H

#include <stdint.h>

/* The environment variable that has the name of the terminal, and what stands before the number of an open. */
#define JWTERM_NAME "JWTERM"
#define JWTERM_PREFIX "jwterm:"

enum { JWTERM_BYTES = 4096, JWTERM_CHARACTERS = 15 };

/* Calls, and what is the argument of each. */
enum jwterm_call {
    JWTERM_OPEN,           /* O_RDONLY, O_WRONLY or O_RDWR; the answer brings the descriptor */
    JWTERM_READ,           /* how many bytes at most */
    JWTERM_WRITE,
    JWTERM_READY,          /* POLLIN, POLLOUT: which of them; the answer is poll's */
    JWTERM_GET_MODES,      /* the answer's bytes are a jwterm_modes */
    JWTERM_SET_MODES,      /* TCSANOW, TCSADRAIN, TCSAFLUSH; the bytes are a jwterm_modes */
    JWTERM_DRAIN,
    JWTERM_FLUSH,          /* TCIFLUSH, TCOFLUSH, TCIOFLUSH */
    JWTERM_FLOW,           /* TCOOFF, TCOON, TCIOFF, TCION */
    JWTERM_BREAK,
    JWTERM_UNREAD,         /* FIONREAD */
    JWTERM_HELD,           /* TIOCOUTQ */
    JWTERM_EXCLUDE,        /* TIOCEXCL, TIOCNXCL */
    JWTERM_ADMIT,
    JWTERM_GET_DISCIPLINE, /* TIOCGETD, TIOCSETD */
    JWTERM_SET_DISCIPLINE,
    JWTERM_HANG_UP,        /* TIOCVHANGUP */
    JWTERM_TAKE,           /* TIOCSCTTY, TIOCNOTTY */
    JWTERM_GIVE_UP,
    JWTERM_GET_FOREGROUND, /* TIOCGPGRP, TIOCSPGRP: a group */
    JWTERM_SET_FOREGROUND,
    JWTERM_GET_SESSION,    /* TIOCGSID */
    JWTERM_GET_SIZE,       /* 65,536 * rows + columns */
    JWTERM_SET_SIZE,
    JWTERM_ACCOUNT,        /* the counts, as text in the answer's bytes */
    JWTERM_INTERRUPT       /* a signal came: the call is to end, and is answered once more */
};

enum {
    JWTERM_NONBLOCK = 1,   /* the descriptor does not block */
    JWTERM_PASSES = 2,     /* the process ignores or blocks the signal that would stop it */
    JWTERM_CONTROLLING = 4 /* of an open: of the controlling terminal */
};

struct jwterm_request {
    uint32_t call, open, flags, unused;
    uint64_t argument;
    uint8_t bytes[JWTERM_BYTES];
};

enum jwterm_kind {
    JWTERM_DONE,      /* `number` is 0 or more, or a negated errno */
    JWTERM_AGAIN,     /* a signal was sent: the call is to be made again when it was met */
    JWTERM_LATER      /* of JWTERM_READY: nothing is ready; JWTERM_DONE follows when it is */
};

struct jwterm_answer {
    uint32_t kind, unused;
    int64_t number;
    uint8_t bytes[JWTERM_BYTES];
};

/* Flag k and character k are those that jinthwyr.h numbers so, from JW_IGNBRK and from JW_VINTR on. */
struct jwterm_modes {
    uint32_t flags;
    uint8_t characters[JWTERM_CHARACTERS];
};

#endif
