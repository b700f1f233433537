/* jwterm.c: libjwterm.so, which answers a program's terminal calls out of jwrun's port.

   LD_PRELOAD=libjwterm.so JWTERM=NAME COMMAND, as jwrun sets them.

   A descriptor is the terminal's where it is one end of a pair whose other end has its name (jwterm.h): nothing is
   remembered here, so what is duplicated, passed on or inherited is known as well. Everything else is the kernel's. */
#define _GNU_SOURCE
#include "jinthwyr.h"
#include "jwterm.h"

#include <dlfcn.h>
#include <errno.h>
#include <fcntl.h>
#include <limits.h>
#include <poll.h>
#include <pthread.h>
#include <signal.h>
#include <stdarg.h>
#include <stdio.h>
#include <stdlib.h>
#include <string.h>
#include <sys/ioctl.h>
#include <sys/select.h>
#include <sys/socket.h>
#include <sys/uio.h>
#include <sys/un.h>
#include <termios.h>
#include <time.h>
#include <unistd.h>

/* What the program would have called without this library. */
#define NEXT(name) ((__typeof__(&name))dlsym(RTLD_NEXT, #name))

enum { SHORT_TERMIOS = 36 }; /* the kernel's termios has fewer characters than that of libc */

/* An open of a terminal. */
struct place {
    unsigned open;
    struct sockaddr_un at;
};

/* ---- which descriptors are the terminal's ---- */

static bool find_place(int fd, struct place *place) {
    struct sockaddr_un peer;
    socklen_t len = sizeof peer;
    const size_t from = offsetof(struct sockaddr_un, sun_path), prefix = sizeof JWTERM_PREFIX - 1;
    int before = errno;
    bool is = fd >= 0 && getpeername(fd, (struct sockaddr *)&peer, &len) == 0 && peer.sun_family == AF_UNIX
        && len > from + 1 + prefix && len < sizeof peer && memcmp(peer.sun_path, "\0" JWTERM_PREFIX, 1 + prefix) == 0;
    errno = before;
    if (!is)
        return false;
    ((char *)&peer)[len] = '\0';
    char *name;
    place->open = (unsigned)strtoul(peer.sun_path + 1 + prefix, &name, 10);
    if (*name != ':')
        return false;
    memset(&place->at, 0, sizeof place->at);
    place->at.sun_family = AF_UNIX;
    strcpy(place->at.sun_path, name + 1);
    return true;
}

static bool is_ours(int fd) {
    struct place place;
    return find_place(fd, &place);
}

/* ---- a call ---- */

/* A handler that jumped out of a call has left its connection behind: the stack has shrunk since. */
static _Thread_local struct {
    int fd;
    const char *frame;
} under_way = {.fd = -1};

/* The number may be another file's by now. */
static bool is_call(int fd) {
    struct sockaddr_un peer;
    socklen_t len = sizeof peer;
    const char *name = getenv(JWTERM_NAME);
    return fd >= 0 && name != NULL && getpeername(fd, (struct sockaddr *)&peer, &len) == 0 && len < sizeof peer
        && peer.sun_family == AF_UNIX && strncmp(peer.sun_path, name, sizeof peer.sun_path) == 0;
}

static void leave_what_was_jumped_out_of(const char *frame) {
    if (under_way.fd < 0 || frame < under_way.frame)
        return;
    if (is_call(under_way.fd))
        close(under_way.fd);
    under_way.fd = -1;
}

static int call_server(const struct place *place) {
    int fd = socket(AF_UNIX, SOCK_SEQPACKET | SOCK_CLOEXEC, 0);
    if (fd < 0)
        return -1;
    while (connect(fd, (const struct sockaddr *)&place->at, sizeof place->at) != 0) {
        if (errno == EINTR)
            continue;
        close(fd);
        errno = EIO; /* the terminal is gone */
        return -1;
    }
    return fd;
}

static ssize_t hear(int fd, struct jwterm_answer *answer, int *passed) {
    union {
        struct cmsghdr align;
        char bytes[CMSG_SPACE(sizeof(int))];
    } with;
    struct iovec part = {.iov_base = answer, .iov_len = sizeof *answer};
    struct msghdr message = {.msg_iov = &part, .msg_iovlen = 1, .msg_control = with.bytes,
        .msg_controllen = sizeof with.bytes};
    ssize_t len = recvmsg(fd, &message, passed != NULL ? MSG_CMSG_CLOEXEC : 0);
    struct cmsghdr *control = len > 0 ? CMSG_FIRSTHDR(&message) : NULL;
    if (passed != NULL && control != NULL)
        memcpy(passed, CMSG_DATA(control), sizeof *passed);
    return len;
}

/* Waits for an answer. After a signal the call is to end, and what it has come to by then is its answer: -EINTR where
   that is nothing. Answers how long it is. */
static ssize_t await_answer(int fd, struct jwterm_answer *answer, int *passed) {
    static const struct jwterm_request interrupt = {.call = JWTERM_INTERRUPT};
    bool was_interrupted = false;
    ssize_t len;
    while ((len = hear(fd, answer, passed)) < 0 && errno == EINTR) {
        if (!was_interrupted)
            send(fd, &interrupt, offsetof(struct jwterm_request, bytes), MSG_NOSIGNAL);
        was_interrupted = true;
    }
    if (len > 0 && was_interrupted && answer->kind == JWTERM_AGAIN)
        *answer = (struct jwterm_answer){.kind = JWTERM_DONE, .number = -EINTR};
    return len;
}

/* Begins a call: the connection, and its first answer. It is made again as long as a signal stopped it. */
static int begin(const struct place *place, const struct jwterm_request *request, size_t len,
    struct jwterm_answer *answer, int *passed) {
    char frame;
    leave_what_was_jumped_out_of(&frame);
    for (;;) {
        int fd = call_server(place);
        if (fd < 0)
            return -1;
        int outer = under_way.fd;
        const char *outer_frame = under_way.frame;
        under_way.fd = fd;
        under_way.frame = &frame;
        ssize_t got = -1;
        if (send(fd, request, offsetof(struct jwterm_request, bytes) + len, MSG_NOSIGNAL) >= 0)
            got = await_answer(fd, answer, passed);
        under_way.fd = outer;
        under_way.frame = outer_frame;
        if (got > 0 && answer->kind != JWTERM_AGAIN)
            return fd;
        close(fd);
        if (got <= 0) {
            errno = EIO;
            return -1;
        }
    }
}

static int64_t ask(const struct place *place, const struct jwterm_request *request, size_t len,
    struct jwterm_answer *answer) {
    int fd = begin(place, request, len, answer, NULL);
    if (fd < 0)
        return -1;
    close(fd);
    if (answer->number >= 0)
        return answer->number;
    errno = (int)-answer->number;
    return -1;
}

/* Whether a signal of job control would pass this thread by. */
static uint32_t passing(int number) {
    struct sigaction action;
    sigset_t blocked;
    bool passes = sigaction(number, NULL, &action) == 0 && action.sa_handler == SIG_IGN;
    passes = passes || (pthread_sigmask(SIG_BLOCK, NULL, &blocked) == 0 && sigismember(&blocked, number));
    return passes ? JWTERM_PASSES : 0;
}

static uint32_t blocking(int fd) {
    return fcntl(fd, F_GETFL) & O_NONBLOCK ? JWTERM_NONBLOCK : 0;
}

/* A call with a number, and no bytes either way. */
static int64_t ask_number(const struct place *place, enum jwterm_call call, uint64_t argument) {
    struct jwterm_request request = {.call = call, .open = place->open, .flags = passing(SIGTTOU),
        .argument = argument};
    struct jwterm_answer answer;
    return ask(place, &request, 0, &answer);
}

/* ---- open ---- */

/* The lowest number that is free, as open(2) gives it. */
static int lowered(int fd, bool is_kept) {
    int lower = fcntl(fd, is_kept ? F_DUPFD : F_DUPFD_CLOEXEC, 0);
    if (lower >= 0 && lower < fd) {
        close(fd);
        return lower;
    }
    if (lower >= 0)
        close(lower);
    fcntl(fd, F_SETFD, is_kept ? 0 : FD_CLOEXEC);
    return fd;
}

static int open_terminal(const struct place *place, int flags, bool is_controlling) {
    struct jwterm_request request = {.call = JWTERM_OPEN, .flags = is_controlling ? JWTERM_CONTROLLING : 0,
        .argument = (uint64_t)(flags & O_ACCMODE)};
    struct jwterm_answer answer;
    int fd = -1, call = begin(place, &request, 0, &answer, &fd);
    if (call < 0)
        return -1;
    close(call);
    if (answer.number < 0 || fd < 0) {
        errno = answer.number < 0 ? (int)-answer.number : EMFILE;
        return -1;
    }
    if (flags & O_NONBLOCK)
        fcntl(fd, F_SETFL, O_NONBLOCK);
    return lowered(fd, !(flags & O_CLOEXEC));
}

/* Whether a path is that of the terminal, or of the controlling terminal where it is this one. Answers the descriptor
   or an error then, and else NOT_OURS. */
enum { NOT_OURS = -2 };

static int open_by_name(const char *path, int flags) {
    const char *name = getenv(JWTERM_NAME);
    struct place place = {.at.sun_family = AF_UNIX};
    if (path == NULL || name == NULL || strlen(name) >= sizeof place.at.sun_path)
        return NOT_OURS;
    bool is_controlling = strcmp(path, "/dev/tty") == 0;
    if (!is_controlling && strcmp(path, name) != 0)
        return NOT_OURS;
    strcpy(place.at.sun_path, name);
    int before = errno, fd = open_terminal(&place, flags, is_controlling);
    if (fd >= 0 || !is_controlling || errno != ENXIO)
        return fd;
    errno = before;
    return NOT_OURS;
}

static mode_t mode_of(int flags, va_list rest) {
    return flags & O_CREAT || (flags & O_TMPFILE) == O_TMPFILE ? va_arg(rest, mode_t) : 0;
}

#define OPENS(name) \
    int name(const char *path, int flags, ...) { \
        va_list rest; \
        va_start(rest, flags); \
        mode_t mode = mode_of(flags, rest); \
        va_end(rest); \
        int fd = open_by_name(path, flags); \
        return fd != NOT_OURS ? fd : NEXT(name)(path, flags, mode); \
    }
#define OPENS_AT(name) \
    int name(int at, const char *path, int flags, ...) { \
        va_list rest; \
        va_start(rest, flags); \
        mode_t mode = mode_of(flags, rest); \
        va_end(rest); \
        int fd = open_by_name(path, flags); \
        return fd != NOT_OURS ? fd : NEXT(name)(at, path, flags, mode); \
    }
#define OPENS_CHECKED(name) \
    int name(const char *path, int flags); \
    int name(const char *path, int flags) { \
        int fd = open_by_name(path, flags); \
        return fd != NOT_OURS ? fd : NEXT(name)(path, flags); \
    }

OPENS(open)
OPENS(open64)
OPENS_AT(openat)
OPENS_AT(openat64)
OPENS_CHECKED(__open_2)
OPENS_CHECKED(__open64_2)

/* ---- read and write ---- */

static ssize_t read_terminal(int fd, const struct place *place, void *bytes, size_t len) {
    struct jwterm_request request = {.call = JWTERM_READ, .open = place->open,
        .flags = passing(SIGTTIN) | blocking(fd), .argument = len};
    struct jwterm_answer answer;
    int64_t got = len > 0 ? ask(place, &request, 0, &answer) : 0;
    if (got > 0)
        memcpy(bytes, answer.bytes, (size_t)got);
    return (ssize_t)got;
}

ssize_t read(int fd, void *bytes, size_t len) {
    struct place place;
    return find_place(fd, &place) ? read_terminal(fd, &place, bytes, len) : NEXT(read)(fd, bytes, len);
}

ssize_t __read_chk(int fd, void *bytes, size_t len, size_t room);
ssize_t __read_chk(int fd, void *bytes, size_t len, size_t room) {
    struct place place;
    return len <= room && find_place(fd, &place) ? read_terminal(fd, &place, bytes, len)
                                                 : NEXT(__read_chk)(fd, bytes, len, room);
}

/* In pieces; where one was not taken whole, what was taken so far is the answer. */
static ssize_t write_terminal(int fd, const struct place *place, const void *bytes, size_t len) {
    size_t done = 0;
    while (done < len) {
        size_t piece = len - done < JWTERM_BYTES ? len - done : JWTERM_BYTES;
        struct jwterm_request request = {.call = JWTERM_WRITE, .open = place->open,
            .flags = passing(SIGTTOU) | blocking(fd)};
        struct jwterm_answer answer;
        memcpy(request.bytes, (const char *)bytes + done, piece);
        int64_t took = ask(place, &request, piece, &answer);
        if (took < 0)
            return done > 0 ? (ssize_t)done : -1;
        done += (size_t)took;
        if ((size_t)took < piece)
            break;
    }
    return (ssize_t)done;
}

ssize_t write(int fd, const void *bytes, size_t len) {
    struct place place;
    return find_place(fd, &place) ? write_terminal(fd, &place, bytes, len) : NEXT(write)(fd, bytes, len);
}

ssize_t readv(int fd, const struct iovec *parts, int count) {
    struct place place;
    if (!find_place(fd, &place))
        return NEXT(readv)(fd, parts, count);
    int k = 0;
    while (k < count && parts[k].iov_len == 0)
        k++;
    return k < count ? read_terminal(fd, &place, parts[k].iov_base, parts[k].iov_len) : 0;
}

ssize_t writev(int fd, const struct iovec *parts, int count) {
    struct place place;
    ssize_t done = 0;
    if (!find_place(fd, &place))
        return NEXT(writev)(fd, parts, count);
    for (int k = 0; k < count; k++) {
        ssize_t took = write_terminal(fd, &place, parts[k].iov_base, parts[k].iov_len);
        if (took < 0)
            return done > 0 ? done : -1;
        done += took;
        if ((size_t)took < parts[k].iov_len)
            break;
    }
    return done;
}

/* ---- poll and select ---- */

/* What is watched in the place of a descriptor: its call, or what was ready at once. */
struct watched {
    bool is_ours;
    short ready;
};

/* Asks for a descriptor: what is ready of it now, or 0 with the call under way in `call`. */
static short ask_ready(const struct place *place, short events, int *call) {
    struct jwterm_request request = {.call = JWTERM_READY, .open = place->open};
    struct jwterm_answer answer;
    if (events & (POLLIN | POLLRDNORM))
        request.argument |= POLLIN;
    if (events & (POLLOUT | POLLWRNORM))
        request.argument |= POLLOUT;
    *call = begin(place, &request, 0, &answer, NULL);
    if (*call < 0)
        return POLLHUP | POLLERR;
    if (answer.kind == JWTERM_LATER)
        return 0;
    close(*call);
    *call = -1;
    return answer.number < 0 ? POLLNVAL : (short)answer.number;
}

/* What a call that was under way has been answered. */
static short hear_ready(int call) {
    struct jwterm_answer answer;
    if (hear(call, &answer, NULL) <= 0)
        return POLLHUP | POLLERR;
    return answer.kind == JWTERM_DONE && answer.number >= 0 ? (short)answer.number : 0;
}

/* poll has two names for the same. */
static short in_both_names(short ready, short events) {
    int more = (ready & POLLIN ? events & POLLRDNORM : 0) | (ready & POLLOUT ? events & POLLWRNORM : 0);
    return (short)(ready | more);
}

/* Puts the call in the place of each descriptor of the terminal. Whether one is ready at once. */
static bool replace_ours(struct pollfd *fds, struct watched *watched, nfds_t count) {
    bool has_ready = false;
    for (nfds_t k = 0; k < count; k++) {
        struct place place;
        watched[k] = (struct watched){.is_ours = find_place(fds[k].fd, &place)};
        if (!watched[k].is_ours)
            continue;
        watched[k].ready = ask_ready(&place, fds[k].events, &fds[k].fd);
        fds[k].events = POLLIN;
        has_ready = has_ready || watched[k].ready != 0;
    }
    return has_ready;
}

/* Ends the calls, and tells of each descriptor what is ready. Answers how many are. */
static int tell_ready(struct pollfd *fds, const struct pollfd *instead, const struct watched *watched, nfds_t count,
    bool ended_well) {
    int ready = 0;
    for (nfds_t k = 0; k < count; k++) {
        short got = watched[k].is_ours ? watched[k].ready : instead[k].revents;
        if (watched[k].is_ours && instead[k].fd >= 0) {
            if (ended_well && instead[k].revents != 0)
                got = hear_ready(instead[k].fd);
            close(instead[k].fd);
        }
        if (ended_well)
            fds[k].revents = watched[k].is_ours ? in_both_names(got, fds[k].events) : got;
        ready += got != 0;
    }
    return ready;
}

static bool has_ours(const struct pollfd *fds, nfds_t count) {
    for (nfds_t k = 0; k < count; k++)
        if (is_ours(fds[k].fd))
            return true;
    return false;
}

static int poll_with_ours(struct pollfd *fds, nfds_t count, const struct timespec *limit, const sigset_t *mask) {
    static const struct timespec at_once;
    struct pollfd *instead = malloc(count * sizeof *instead);
    struct watched *watched = malloc(count * sizeof *watched);
    int ended = -1, because = ENOMEM, ready = 0;
    if (instead != NULL && watched != NULL) {
        memcpy(instead, fds, count * sizeof *fds);
        bool has_ready = replace_ours(instead, watched, count);
        ended = NEXT(ppoll)(instead, count, has_ready ? &at_once : limit, mask);
        because = errno;
        ready = tell_ready(fds, instead, watched, count, ended >= 0);
    }
    free(instead);
    free(watched);
    errno = because;
    return ended < 0 ? -1 : ready;
}

int ppoll(struct pollfd *fds, nfds_t count, const struct timespec *limit, const sigset_t *mask) {
    return has_ours(fds, count) ? poll_with_ours(fds, count, limit, mask) : NEXT(ppoll)(fds, count, limit, mask);
}

int poll(struct pollfd *fds, nfds_t count, int milliseconds) {
    struct timespec limit = {.tv_sec = milliseconds / 1000, .tv_nsec = milliseconds % 1000 * 1000000L};
    if (!has_ours(fds, count))
        return NEXT(poll)(fds, count, milliseconds);
    return poll_with_ours(fds, count, milliseconds < 0 ? NULL : &limit, NULL);
}

int __poll_chk(struct pollfd *fds, nfds_t count, int milliseconds, size_t room);
int __poll_chk(struct pollfd *fds, nfds_t count, int milliseconds, size_t room) {
    bool fits = count <= room / sizeof *fds;
    return fits ? poll(fds, count, milliseconds) : NEXT(__poll_chk)(fds, count, milliseconds, room);
}

/* The descriptors of three sets as poll has them, and how many those are. */
static nfds_t of_sets(int count, fd_set *const sets[3], struct pollfd *fds) {
    static const short events[] = {POLLIN, POLLOUT, POLLPRI};
    nfds_t many = 0;
    for (int fd = 0; fd < count && fd < FD_SETSIZE; fd++) {
        struct pollfd it = {.fd = fd};
        for (int k = 0; k < 3; k++)
            if (sets[k] != NULL && FD_ISSET(fd, sets[k]))
                it.events |= events[k];
        if (it.events != 0)
            fds[many++] = it;
    }
    return many;
}

/* What was ready as select has it. Answers how many bits those are, or -1 where a descriptor is none. */
static int to_sets(const struct pollfd *fds, nfds_t many, fd_set *const sets[3]) {
    static const short ready[] = {POLLIN | POLLHUP | POLLERR, POLLOUT | POLLERR, POLLPRI};
    static const short asked[] = {POLLIN, POLLOUT, POLLPRI};
    int bits = 0;
    for (nfds_t k = 0; k < many; k++) {
        if (fds[k].revents & POLLNVAL) {
            errno = EBADF;
            return -1;
        }
        for (int set = 0; set < 3; set++) {
            if (!(fds[k].events & asked[set]))
                continue;
            if (fds[k].revents & ready[set])
                bits++;
            else
                FD_CLR(fds[k].fd, sets[set]);
        }
    }
    return bits;
}

/* NOT_OURS where no descriptor is the terminal's. */
static int select_with_ours(int count, fd_set *const sets[3], const struct timespec *limit, const sigset_t *mask) {
    struct pollfd fds[FD_SETSIZE];
    nfds_t many = of_sets(count, sets, fds);
    if (!has_ours(fds, many))
        return NOT_OURS;
    return poll_with_ours(fds, many, limit, mask) < 0 ? -1 : to_sets(fds, many, sets);
}

int pselect(int count, fd_set *in, fd_set *out, fd_set *other, const struct timespec *limit, const sigset_t *mask) {
    int ready = select_with_ours(count, (fd_set *const[]){in, out, other}, limit, mask);
    return ready != NOT_OURS ? ready : NEXT(pselect)(count, in, out, other, limit, mask);
}

/* As on Linux, the time that is left is told. */
static void pass_time(struct timeval *limit, const struct timespec *since) {
    struct timespec now;
    clock_gettime(CLOCK_MONOTONIC, &now);
    long long left = limit->tv_sec * 1000000LL + limit->tv_usec
        - ((now.tv_sec - since->tv_sec) * 1000000LL + (now.tv_nsec - since->tv_nsec) / 1000);
    left = left > 0 ? left : 0;
    *limit = (struct timeval){.tv_sec = left / 1000000, .tv_usec = left % 1000000};
}

/* As on Linux, a million microseconds and more are seconds; less than none is refused. */
static struct timespec in_nanoseconds(const struct timeval *limit) {
    if (limit->tv_usec < 0)
        return (struct timespec){.tv_nsec = -1};
    return (struct timespec){
        .tv_sec = limit->tv_sec + limit->tv_usec / 1000000,
        .tv_nsec = limit->tv_usec % 1000000 * 1000,
    };
}

int select(int count, fd_set *in, fd_set *out, fd_set *other, struct timeval *limit) {
    struct timespec time, since;
    if (limit != NULL)
        time = in_nanoseconds(limit);
    clock_gettime(CLOCK_MONOTONIC, &since);
    int ready = select_with_ours(count, (fd_set *const[]){in, out, other}, limit != NULL ? &time : NULL, NULL);
    if (ready == NOT_OURS)
        return NEXT(select)(count, in, out, other, limit);
    int because = errno;
    if (limit != NULL)
        pass_time(limit, &since);
    errno = because;
    return ready;
}

/* ---- names ---- */

int isatty(int fd) {
    return is_ours(fd) ? 1 : NEXT(isatty)(fd);
}

int ttyname_r(int fd, char *name, size_t room) {
    struct place place;
    if (!find_place(fd, &place))
        return NEXT(ttyname_r)(fd, name, room);
    if (strlen(place.at.sun_path) >= room)
        return ERANGE;
    strcpy(name, place.at.sun_path);
    return 0;
}

char *ttyname(int fd) {
    static struct place place;
    return find_place(fd, &place) ? place.at.sun_path : NEXT(ttyname)(fd);
}

/* ---- modes ---- */

/* Each flag of the profile: which word of termios it is in, and its bits there. */
static const struct {
    size_t word;
    tcflag_t bits;
} flag_bits[] = {
#define IN offsetof(struct termios, c_iflag)
#define TO offsetof(struct termios, c_oflag)
#define OF offsetof(struct termios, c_lflag)
    [JW_IGNBRK] = {IN, IGNBRK}, [JW_BRKINT] = {IN, BRKINT}, [JW_IGNPAR] = {IN, IGNPAR}, [JW_PARMRK] = {IN, PARMRK},
    [JW_INPCK] = {IN, INPCK}, [JW_ISTRIP] = {IN, ISTRIP}, [JW_INLCR] = {IN, INLCR}, [JW_IGNCR] = {IN, IGNCR},
    [JW_ICRNL] = {IN, ICRNL}, [JW_IXON] = {IN, IXON}, [JW_IXANY] = {IN, IXANY}, [JW_IXOFF] = {IN, IXOFF},
    [JW_OPOST] = {TO, OPOST}, [JW_ONLCR] = {TO, ONLCR}, [JW_OCRNL] = {TO, OCRNL}, [JW_ONOCR] = {TO, ONOCR},
    [JW_TAB3] = {TO, TABDLY}, [JW_ISIG] = {OF, ISIG}, [JW_ICANON] = {OF, ICANON}, [JW_ECHO] = {OF, ECHO},
    [JW_ECHOE] = {OF, ECHOE}, [JW_ECHOK] = {OF, ECHOK}, [JW_ECHOKE] = {OF, ECHOKE}, [JW_ECHONL] = {OF, ECHONL},
    [JW_ECHOCTL] = {OF, ECHOCTL}, [JW_NOFLSH] = {OF, NOFLSH}, [JW_IEXTEN] = {OF, IEXTEN}, [JW_IUTF8] = {IN, IUTF8},
    [JW_TOSTOP] = {OF, TOSTOP},
#undef IN
#undef TO
#undef OF
};
static const uint8_t character_places[JWTERM_CHARACTERS] = {
    [JW_VINTR] = VINTR, [JW_VQUIT] = VQUIT, [JW_VERASE] = VERASE, [JW_VKILL] = VKILL, [JW_VEOF] = VEOF,
    [JW_VTIME] = VTIME, [JW_VMIN] = VMIN, [JW_VSTART] = VSTART, [JW_VSTOP] = VSTOP, [JW_VSUSP] = VSUSP,
    [JW_VEOL] = VEOL, [JW_VREPRINT] = VREPRINT, [JW_VWERASE] = VWERASE, [JW_VLNEXT] = VLNEXT, [JW_VEOL2] = VEOL2,
};
enum { FLAGS = sizeof flag_bits / sizeof *flag_bits };

static tcflag_t *word_of(struct termios *modes, int flag) {
    return (tcflag_t *)((char *)modes + flag_bits[flag].word);
}

/* The profile has no control modes: they are those of a pseudoterminal. */
static int get_modes(const struct place *place, struct termios *modes) {
    struct jwterm_request request = {.call = JWTERM_GET_MODES, .open = place->open};
    struct jwterm_answer answer;
    struct jwterm_modes told;
    if (ask(place, &request, 0, &answer) < 0)
        return -1;
    memcpy(&told, answer.bytes, sizeof told);
    *modes = (struct termios){.c_cflag = CS8 | CREAD | B38400, .c_ispeed = B38400, .c_ospeed = B38400};
    for (int flag = 0; flag < FLAGS; flag++)
        if (told.flags >> flag & 1)
            *word_of(modes, flag) |= flag_bits[flag].bits;
    for (int k = 0; k < JWTERM_CHARACTERS; k++)
        modes->c_cc[character_places[k]] = told.characters[k];
    return 0;
}

static int set_modes(const struct place *place, int when, const struct termios *modes) {
    struct jwterm_request request = {.call = JWTERM_SET_MODES, .open = place->open, .flags = passing(SIGTTOU),
        .argument = (uint64_t)when};
    struct jwterm_answer answer;
    struct jwterm_modes wanted = {0};
    struct termios copy = *modes;
    for (int flag = 0; flag < FLAGS; flag++)
        if ((*word_of(&copy, flag) & flag_bits[flag].bits) == flag_bits[flag].bits)
            wanted.flags |= UINT32_C(1) << flag;
    for (int k = 0; k < JWTERM_CHARACTERS; k++)
        wanted.characters[k] = modes->c_cc[character_places[k]];
    memcpy(request.bytes, &wanted, sizeof wanted);
    return (int)ask(place, &request, sizeof wanted, &answer);
}

int tcgetattr(int fd, struct termios *modes) {
    struct place place;
    return find_place(fd, &place) ? get_modes(&place, modes) : NEXT(tcgetattr)(fd, modes);
}

int tcsetattr(int fd, int when, const struct termios *modes) {
    struct place place;
    return find_place(fd, &place) ? set_modes(&place, when, modes) : NEXT(tcsetattr)(fd, when, modes);
}

/* ---- the other calls of termios(3) ---- */

int tcdrain(int fd) {
    struct place place;
    return find_place(fd, &place) ? (int)ask_number(&place, JWTERM_DRAIN, 0) : NEXT(tcdrain)(fd);
}

int tcflush(int fd, int queue) {
    struct place place;
    return find_place(fd, &place) ? (int)ask_number(&place, JWTERM_FLUSH, (unsigned)queue) : NEXT(tcflush)(fd, queue);
}

int tcflow(int fd, int action) {
    struct place place;
    return find_place(fd, &place) ? (int)ask_number(&place, JWTERM_FLOW, (unsigned)action) : NEXT(tcflow)(fd, action);
}

int tcsendbreak(int fd, int duration) {
    struct place place;
    return find_place(fd, &place) ? (int)ask_number(&place, JWTERM_BREAK, 0) : NEXT(tcsendbreak)(fd, duration);
}

pid_t tcgetpgrp(int fd) {
    struct place place;
    return find_place(fd, &place) ? (pid_t)ask_number(&place, JWTERM_GET_FOREGROUND, 0) : NEXT(tcgetpgrp)(fd);
}

int tcsetpgrp(int fd, pid_t group) {
    struct place place;
    if (!find_place(fd, &place))
        return NEXT(tcsetpgrp)(fd, group);
    return (int)ask_number(&place, JWTERM_SET_FOREGROUND, (uint64_t)group);
}

pid_t tcgetsid(int fd) {
    struct place place;
    return find_place(fd, &place) ? (pid_t)ask_number(&place, JWTERM_GET_SESSION, 0) : NEXT(tcgetsid)(fd);
}

/* ---- ioctl ---- */

/* A number that a call answers, to where it is wanted. */
static int tell_number(const struct place *place, enum jwterm_call call, int *to) {
    int64_t number = ask_number(place, call, 0);
    if (number >= 0)
        *to = (int)number;
    return number < 0 ? -1 : 0;
}

static int ioctl_size(const struct place *place, unsigned long name, struct winsize *size) {
    if (name == TIOCSWINSZ)
        return (int)ask_number(place, JWTERM_SET_SIZE, (uint64_t)size->ws_row << 16 | size->ws_col);
    int64_t got = ask_number(place, JWTERM_GET_SIZE, 0);
    if (got >= 0)
        *size = (struct winsize){.ws_row = (unsigned short)(got >> 16), .ws_col = (unsigned short)got};
    return got < 0 ? -1 : 0;
}

/* The kernel's termios is the front of that of libc. */
static int ioctl_modes(const struct place *place, unsigned long name, void *at) {
    struct termios modes = {0};
    if (name == TCGETS) {
        int got = get_modes(place, &modes);
        if (got == 0)
            memcpy(at, &modes, SHORT_TERMIOS);
        return got;
    }
    memcpy(&modes, at, SHORT_TERMIOS);
    return set_modes(place, (int)(name - TCSETS), &modes);
}

/* NOT_OURS for what the kernel is to answer for the socket. */
static int ioctl_terminal(const struct place *place, unsigned long name, void *at) {
    uint64_t number = (uint64_t)(uintptr_t)at;
    switch (name) {
    case TCGETS: case TCSETS: case TCSETSW: case TCSETSF: return ioctl_modes(place, name, at);
    case TIOCGWINSZ: case TIOCSWINSZ: return ioctl_size(place, name, at);
    case TCSBRK: return (int)ask_number(place, number != 0 ? JWTERM_DRAIN : JWTERM_BREAK, 0);
    case TCSBRKP: return (int)ask_number(place, JWTERM_BREAK, 0);
    case TCFLSH: return (int)ask_number(place, JWTERM_FLUSH, number);
    case TCXONC: return (int)ask_number(place, JWTERM_FLOW, number);
    case FIONREAD: return tell_number(place, JWTERM_UNREAD, at);
    case TIOCOUTQ: return tell_number(place, JWTERM_HELD, at);
    case TIOCEXCL: return (int)ask_number(place, JWTERM_EXCLUDE, 0);
    case TIOCNXCL: return (int)ask_number(place, JWTERM_ADMIT, 0);
    case TIOCGETD: return tell_number(place, JWTERM_GET_DISCIPLINE, at);
    case TIOCSETD: return (int)ask_number(place, JWTERM_SET_DISCIPLINE, (uint32_t)*(int *)at);
    case TIOCVHANGUP: return (int)ask_number(place, JWTERM_HANG_UP, 0);
    case TIOCSCTTY: return (int)ask_number(place, JWTERM_TAKE, 0);
    case TIOCNOTTY: return (int)ask_number(place, JWTERM_GIVE_UP, 0);
    case TIOCGPGRP: return tell_number(place, JWTERM_GET_FOREGROUND, at);
    case TIOCSPGRP: return (int)ask_number(place, JWTERM_SET_FOREGROUND, (uint64_t)*(pid_t *)at);
    case TIOCGSID: return tell_number(place, JWTERM_GET_SESSION, at);
    default: return NOT_OURS;
    }
}

int ioctl(int fd, unsigned long name, ...) {
    struct place place;
    va_list rest;
    va_start(rest, name);
    void *at = va_arg(rest, void *);
    va_end(rest);
    int done = find_place(fd, &place) ? ioctl_terminal(&place, name, at) : NOT_OURS;
    return done != NOT_OURS ? done : NEXT(ioctl)(fd, name, at);
}

/* ---- programs that are begun ---- */

/* The library and the name, as this program found them. */
static char *preloaded, *named;

static bool has_word(char *const *words, const char *start) {
    for (; *words != NULL; words++)
        if (strncmp(*words, start, strlen(start)) == 0)
            return true;
    return false;
}

static size_t count_words(char *const *words) {
    size_t count = 0;
    while (words[count] != NULL)
        count++;
    return count;
}

/* login makes its environment anew: who has the terminal's descriptors keeps the library all the same. */
int execve(const char *path, char *const *words, char *const *environment) {
    bool is_to_keep = preloaded != NULL && named != NULL && (is_ours(0) || is_ours(1) || is_ours(2));
    if (!is_to_keep || environment == NULL || has_word(environment, "LD_PRELOAD="))
        return NEXT(execve)(path, words, environment);
    size_t count = count_words(environment);
    char *longer[count + 3];
    memcpy(longer, environment, count * sizeof *longer);
    longer[count] = preloaded;
    longer[count + 1] = named;
    longer[count + 2] = NULL;
    return NEXT(execve)(path, words, longer);
}

int execle(const char *path, const char *word, ...) {
    va_list rest;
    size_t count = 1;
    va_start(rest, word);
    while (va_arg(rest, char *) != NULL)
        count++;
    va_end(rest);
    char *words[count + 1];
    words[0] = (char *)word;
    va_start(rest, word);
    for (size_t k = 1; k <= count; k++)
        words[k] = va_arg(rest, char *);
    char *const *environment = va_arg(rest, char *const *);
    va_end(rest);
    return execve(path, words, environment);
}

/* ---- the beginning ---- */

static char *as_word(const char *name) {
    const char *value = getenv(name);
    size_t room = value != NULL ? strlen(name) + strlen(value) + 2 : 0;
    char *word = value != NULL ? malloc(room) : NULL;
    if (word != NULL)
        snprintf(word, room, "%s=%s", name, value);
    return word;
}

/* stdio makes lines of what is a character device: a socket is none, so it is told. */
__attribute__((constructor)) static void begin_program(void) {
    preloaded = as_word("LD_PRELOAD");
    named = as_word(JWTERM_NAME);
    if (is_ours(0))
        setvbuf(stdin, NULL, _IOLBF, 0);
    if (is_ours(1))
        setvbuf(stdout, NULL, _IOLBF, 0);
}
