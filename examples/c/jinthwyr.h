/* jinthwyr.h: a terminal, proved, for programs in C.

   Four things, each behind a handle that the program owns:

   jw_tty    the line discipline N_TTY by itself, with its modes, its output, its signals and a clock
   jw_port   a whole port: opens with numbers, both line disciplines (N_TTY, and N_SLIP for packets), hangups, and a
             flip buffer between its line and the rest
   jw_line   the end of a port's flip buffer that a driver puts characters into, from another thread if need be
   jw_uart   the receive side of a 16550, to face a guest

   All do what termios(3), ioctl_tty(2), vhangup(2), RFC 1055 and the 16550 data sheet say, in the profile of
   docs/PROFILE.md. No call sleeps, and none has a thread of its own: a call that would have to wait answers so.

   Link libjinthwyr.a. Its heap is malloc, realloc and free, unless the program has three functions like those of
   heap.c. A jw_tty takes 33 KB when it is made, and 80 KB once its store and its wire were full. A jw_port takes 42 KB
   with a flip buffer of 4,096 characters, and 55 KB once it was at work; two bytes for each character of the buffer
   more or less, 50 bytes for each caller, and up to 280 KB under N_SLIP. What went out stands in memory until it is
   taken. A jw_uart takes 72 bytes.

   What a program owes, which nothing checks:

   - a handle is zero before its first call, as in `jw_port port = {0};`, and nobody but these calls writes its fields;
   - it is not copied while it owns something: a copy is of use only where the original is used no more;
   - one call at a time for a handle; the jw_line of a port may be used on another thread than the port, at the same
     time; jw_port_account has both, and is given the port and the line that one jw_port_new made;
   - bytes and places that are passed are there for their whole length, and not null, also for a length of 0; no two
     arguments overlap;
   - one allocator serves all calls; none comes from a signal handler, or from the child of a fork of a program with
     threads.

   What it need not know: there is no state in which a call may not be made, and no number of calls that ends a
   handle. */
#ifndef JINTHWYR_H
#define JINTHWYR_H

#define JINTHWYR_VERSION "0.2.0"
#define JINTHWYR_VERSION_NUMBER 200 /* 10000 * major + 100 * minor + patch */

#include <stdbool.h>
#include <stddef.h>
#include <stdint.h>

#ifdef __cplusplus
extern "C" {
#endif

typedef struct jw_tty {
    void *at;
    bool live;
} jw_tty;

/* Each call answers a number from 0 on, or the negated number of an error: those of errno.h on Linux, of which these
   have names of their own. JW_NO_MEMORY, JW_NO_TERMINAL and JW_MADE have changed nothing. After JW_WAITS of a port the
   call is under way. */
enum {
    JW_NO_MEMORY = -12,   /* ENOMEM: no memory was left; the call may be made again */
    JW_NO_TERMINAL = -19, /* ENODEV: the handle was never made, or is freed */
    JW_NO_FLAG = -22,     /* EINVAL: an argument that the call does not know */
    JW_MADE = -114,       /* EALREADY: the handle is made already */
    JW_WAITS = -115       /* EINPROGRESS: the call has to wait; ask again */
};

/* ---- N_TTY by itself ---- */

/* How a character came: 0 for a good one. An overrun is a mark: characters were lost before it. */
enum { JW_NORMAL = 0, JW_BREAK = 1, JW_PARITY = 2, JW_FRAME = 3, JW_OVERRUN = 4 };

/* Makes a terminal with the default modes. Answers 0. */
int64_t jw_new(jw_tty *tty);

/* Frees it; jw_new may make it again. Answers 0. */
int64_t jw_free(jw_tty *tty);

/* Receives one character from the line. Answers 1 where it was accepted, and 0 where there is no room for it until
   something is read: nothing has changed then, and it is to be offered again. */
int64_t jw_receive(jw_tty *tty, uint8_t byte, uint8_t flag);

/* Receives good characters, the first 64 at most, up to the first that is not accepted. Answers how many were: where
   fewer than 64 and fewer than len, there is no room for the next until something is read. Want of memory refuses
   them all. */
int64_t jw_receive_bytes(jw_tty *tty, const uint8_t *bytes, size_t len);

/* Sets the clock to a tick, a tenth of a second, the unit of TIME. It does not go back. Answers 0. */
int64_t jw_advance(jw_tty *tty, uint64_t tick);

/* Answers 1 where jw_read would give bytes, or the end of the input, to a read of at most len bytes. A blocking read
   has waited since a tick; with nonblock it does not wait. */
int64_t jw_ready(jw_tty *tty, bool nonblock, uint64_t since, size_t len);

/* Reads at most len bytes, and at most 4,096, and answers how many: in canonical mode of the first line, where 0 is
   the end of the input (^D). JW_WAITS where a blocking read waits, and one with nonblock is refused. */
int64_t jw_read(jw_tty *tty, bool nonblock, uint64_t since, uint8_t *place, size_t len);

/* Writes at most 64 of the bytes, after output processing, and answers how many. Fewer, or 0, are taken only where
   output is halted and no more can be held. */
int64_t jw_write(jw_tty *tty, const uint8_t *bytes, size_t len);

/* Makes the change of modes of one word of stty(1), as "-echo", "icrnl", "raw", "sane", "min=1", "intr=3". Answers
   1, or 0 for another text. */
int64_t jw_set(jw_tty *tty, const uint8_t *word, size_t len);

/* Takes the first bytes that went out, echo and output, as many as are there and as the place holds. Answers how
   many. */
int64_t jw_take_wire(jw_tty *tty, uint8_t *place, size_t len);

/* Takes the first signal that was raised: 2 (INT), 3 (QUIT), 20 (TSTP), or 0 where there is none. */
int64_t jw_take_signal(jw_tty *tty);

/* Answers how many bytes are unread, those of the line that is being edited included. */
int64_t jw_unread(jw_tty *tty);

/* ---- a port ----

   Beside what each call names, a call by a number h answers -EBADF where no open has that number, or not that access,
   and -EIO where a hangup came since. Numbers are from 0 to 31, and the program chooses them.

   A caller is who makes a call: one of as many as jw_port_new was told, from 0 on; another is answered -EINVAL. A
   call that answers JW_WAITS is under way until it is asked again: the same call, by the same caller, on the same
   number. TIME runs from its first wait, and a hangup meets it. Another call of that caller gives it up, and so does
   jw_port_cancel. When it is worth asking again: after characters were received, output was let go, another caller's
   call, or a tick. */

typedef struct jw_port {
    void *at;
    bool live;
} jw_port;

typedef struct jw_line {
    void *at;
    bool live;
} jw_line;

/* Makes a port, closed, with the default modes, for so many callers; and the end of its flip buffer that characters
   are put into. The buffer holds `capacity` characters, 64 at least and 65,536 at most. Answers 0. */
int64_t jw_port_new(jw_port *port, jw_line *line, size_t callers, size_t capacity);

/* Makes such a port that has its end itself: bytes come in by jw_port_take_in, and there is no jw_line. It is for a
   program that has its line and the rest on one thread. Answers 0. */
int64_t jw_port_new_whole(jw_port *port, size_t callers, size_t capacity);

/* Frees a port, or an end, in any order. Answers 0. */
int64_t jw_port_free(jw_port *port);
int64_t jw_line_free(jw_line *line);

/* Opens it under a number: access is O_RDONLY, O_WRONLY or O_RDWR of fcntl.h, which are 0, 1 and 2. With nonblock a
   read and a write never wait: they answer -EAGAIN. -EEXIST where the number is in use, also after a hangup; -EBUSY
   under exclusive use. Answers 0. The last close leaves N_TTY anew and lets out what was held; the modes stay. */
int64_t jw_port_open(jw_port *port, size_t caller, uint8_t h, uint8_t access, bool nonblock);
int64_t jw_port_close(jw_port *port, size_t caller, uint8_t h);

/* Reads at most len bytes, and at most 4,096, and answers how many; 0 is the end of the input: ^D, or a hangup. -EIO
   under N_SLIP. */
int64_t jw_port_read(jw_port *port, size_t caller, uint8_t h, uint8_t *place, size_t len);

/* Writes at most 64 of the bytes, after output processing, and answers how many: the rest is to be written by
   another call. JW_WAITS, or -EAGAIN, where output is halted and no more can be held. -EIO under N_SLIP. */
int64_t jw_port_write(jw_port *port, size_t caller, uint8_t h, const uint8_t *bytes, size_t len);

/* Makes the change of modes of one word of stty(1), as "-echo", "raw", "min=1", now or when no output is held (TCSANOW,
   TCSADRAIN, TCSAFLUSH of termios.h: 0, 1, 2; the last drops input as well). -EINVAL for another text. Answers 0.

   A word is a flag's name, which sets it; `-` and the name, which clears it; NAME=N for a character, N from 0 (none)
   to 255; `raw`, which clears ignbrk brkint parmrk istrip inlcr igncr icrnl ixon opost echo echonl icanon isig
   iexten; or `sane`, which sets the defaults: icrnl ixon opost onlcr isig icanon echo echoe echok echoke echoctl
   iexten and no other flag, intr=3 quit=28 erase=127 kill=21 eof=4 time=0 min=1 start=17 stop=19 susp=26 eol=0
   reprint=18 werase=23 lnext=22 eol2=0. The names are those of the two lists below, in lower case. jw_set knows the
   same words. */
int64_t jw_port_set(jw_port *port, size_t caller, uint8_t h, uint8_t when, const uint8_t *word, size_t len);

/* Answers 1 where a flag of the modes is set, and else 0 (of JW_IGNBRK to JW_TOSTOP); a control character, MIN or
   TIME (of JW_VINTR to JW_VEOL2). A number above is a flag that is clear, a character of 0. */
int64_t jw_port_flag(jw_port *port, size_t caller, uint8_t h, uint32_t flag);
int64_t jw_port_character(jw_port *port, size_t caller, uint8_t h, uint8_t place);

enum {
    JW_IGNBRK, JW_BRKINT, JW_IGNPAR, JW_PARMRK, JW_INPCK, JW_ISTRIP, JW_INLCR, JW_IGNCR, JW_ICRNL, JW_IXON,
    JW_IXANY, JW_IXOFF, JW_OPOST, JW_ONLCR, JW_OCRNL, JW_ONOCR, JW_TAB3, JW_ISIG, JW_ICANON, JW_ECHO,
    JW_ECHOE, JW_ECHOK, JW_ECHOKE, JW_ECHONL, JW_ECHOCTL, JW_NOFLSH, JW_IEXTEN, JW_IUTF8, JW_TOSTOP
};

enum {
    JW_VINTR, JW_VQUIT, JW_VERASE, JW_VKILL, JW_VEOF, JW_VTIME, JW_VMIN, JW_VSTART, JW_VSTOP, JW_VSUSP, JW_VEOL,
    JW_VREPRINT, JW_VWERASE, JW_VLNEXT, JW_VEOL2
};

/* The number of the line discipline: 0 is N_TTY, 1 is N_SLIP. Another one drops what was unread. -EINVAL for others. */
int64_t jw_port_getd(jw_port *port, size_t caller, uint8_t h);
int64_t jw_port_setd(jw_port *port, size_t caller, uint8_t h, uint32_t number);

/* Drops input, also what waits in the flip buffer, or output that is held, or both (TCIFLUSH, TCOFLUSH, TCIOFLUSH of
   termios.h: 0, 1, 2). Answers 0. */
int64_t jw_port_flush(jw_port *port, size_t caller, uint8_t h, uint8_t queue);

/* Halts output or lets it go on, or sends STOP or START (TCOOFF, TCOON, TCIOFF, TCION of termios.h: 0, 1, 2, 3).
   Answers 0. */
int64_t jw_port_flow(jw_port *port, size_t caller, uint8_t h, uint8_t action);

/* How many bytes can be read: in canonical mode those of complete lines, under N_SLIP those of the first packet
   (FIONREAD). How many bytes of output are held (TIOCOUTQ). */
int64_t jw_port_inq(jw_port *port, size_t caller, uint8_t h);
int64_t jw_port_outq(jw_port *port, size_t caller, uint8_t h);

/* Exclusive use, on and off (TIOCEXCL, TIOCNXCL): while it is on nobody opens the port. Answers 0. */
int64_t jw_port_exclude(jw_port *port, size_t caller, uint8_t h);
int64_t jw_port_admit(jw_port *port, size_t caller, uint8_t h);

/* Answers 0 where no output is held, and else JW_WAITS, also with nonblock. */
int64_t jw_port_drain(jw_port *port, size_t caller, uint8_t h);

/* One of the counts: what has happened since the port was made. */
enum {
    JW_MARKS,        /* marks of characters that a receiver lost */
    JW_PARITIES,     /* characters with a parity error */
    JW_FRAMES,       /* with a framing error */
    JW_BREAKS,       /* breaks */
    JW_CUTS,         /* characters that a full edited line did not take */
    JW_ECHOES,       /* bytes of echo that found no room */
    JW_PACKETS_IN,   /* packets received */
    JW_PACKETS_OUT,  /* packets sent */
    JW_PACKETS_BAD,  /* dropped because they were flagged or too long */
    JW_PACKETS_FULL  /* dropped because 64 waited */
};
int64_t jw_port_count(jw_port *port, size_t caller, uint8_t h, uint8_t count);

/* Hangs it up through an open of it: each open is dead from then on, and has to be closed. Answers 0. */
int64_t jw_port_vhangup(jw_port *port, size_t caller, uint8_t h);

/* Packets, under N_SLIP; -ENOTTY under N_TTY. One of up to 1,006 bytes is sent, and 0 answered: -EMSGSIZE for a
   longer one, -EAGAIN where it does not fit in what can be held. The oldest that came is taken: the answer is its
   length, and the place has as much of it as it holds, so it should hold 1,006; -EAGAIN where there is none. */
int64_t jw_port_send(jw_port *port, size_t caller, uint8_t h, const uint8_t *bytes, size_t len);
int64_t jw_port_take(jw_port *port, size_t caller, uint8_t h, uint8_t *place, size_t len);

/* Gives up a caller's call that waits. Answers 0. */
int64_t jw_port_cancel(jw_port *port, size_t caller);

/* ---- a port and its line ---- */

/* Hands characters that were pushed over to the line discipline, `most` at most and 256 at most, as long as it
   accepts and the port is open. Answers how many. */
int64_t jw_port_receive(jw_port *port, size_t most);

/* Of a port that jw_port_new_whole made: jw_line_put, jw_line_push and jw_port_receive with 256, in one call. Answers
   how many bytes were put: the others are overruns. What was put and not handed over waits for the next call, or for
   jw_port_receive. Up to 256 good bytes at a time go past the buffer's memory where nothing waits. -EINVAL (JW_NO_FLAG)
   of a port that has no end of its own; JW_NO_MEMORY has put nothing. */
int64_t jw_port_take_in(jw_port *port, const uint8_t *bytes, size_t len, uint8_t flag);

/* Sets the clock to a tick, a tenth of a second, the unit of TIME. It does not go back. Answers 0. */
int64_t jw_port_advance(jw_port *port, uint64_t tick);

/* Hangs it up, as where the line's carrier goes, and drops what waits in the flip buffer. Answers 0. */
int64_t jw_port_hang_up(jw_port *port);

/* Takes the first bytes that went out, and the first signal that was raised, as jw_take_wire and jw_take_signal do. */
int64_t jw_port_take_wire(jw_port *port, uint8_t *place, size_t len);
int64_t jw_port_take_signal(jw_port *port);

/* The account: how many characters the discipline has received, how many were dropped with a purge or a hangup, and
   how many are pushed and wait. Where the line has pushed all, and puts none meanwhile, their sum is jw_line_sent. */
int64_t jw_port_received(jw_port *port);
int64_t jw_port_dropped(jw_port *port);
int64_t jw_port_waiting(jw_port *port);

/* The same of both ends at once, where neither is in a call on another thread: the line pushes all that it put, so that
   received, dropped and waiting are sent in all, and those that were taken are the first of those that were put.
   Answers 0. */
typedef struct jw_account {
    uint64_t sent;     /* were put */
    uint64_t overruns; /* were refused: the buffer was full */
    uint64_t received, dropped, waiting;
} jw_account;
int64_t jw_port_account(jw_port *port, jw_line *line, jw_account *account);

/* Puts bytes, each with the same flag, up to the first for which there is no room, and answers how many. The others
   are overruns: they are counted, and gone. */
int64_t jw_line_put(jw_line *line, const uint8_t *bytes, size_t len, uint8_t flag);

/* Makes all that was put visible to the port. Answers 0. */
int64_t jw_line_push(jw_line *line);

/* How many characters were put, how many were refused, and how many were put and are not taken. */
int64_t jw_line_sent(jw_line *line);
int64_t jw_line_overruns(jw_line *line);
int64_t jw_line_waiting(jw_line *line);

/* ---- the receive side of a 16550 ----

   A guest's driver reads and writes its registers by their offsets from the base address, 0 to 7; its line lets
   characters arrive, or time pass. It is set up as a driver leaves it: FIFO of 16, trigger 8, received data and line
   status interrupts. An offset above 7 is answered -EINVAL. */

typedef struct jw_uart {
    void *at;
    bool live;
} jw_uart;

int64_t jw_uart_new(jw_uart *uart);
int64_t jw_uart_free(jw_uart *uart);

/* A character arrives, with its flag: JW_NORMAL, JW_BREAK, JW_PARITY or JW_FRAME. Where 16 stand in the FIFO it is
   lost, and line status says so. Answers 0. */
int64_t jw_uart_arrive(jw_uart *uart, uint8_t byte, uint8_t flag);

/* So many character times pass in which none arrives; after four, what stands in the FIFO is a timeout. Answers 0. */
int64_t jw_uart_idle(jw_uart *uart, uint32_t times);

/* A register's value; a register is written. */
int64_t jw_uart_read(jw_uart *uart, uint8_t reg);
int64_t jw_uart_write(jw_uart *uart, uint8_t reg, uint8_t value);

/* Answers 1 where an interrupt is pending, and else 0. */
int64_t jw_uart_pending(jw_uart *uart);

#ifdef __cplusplus
}
#endif

#endif
