/* jwport.c: the terminal of jwrun. Each open of it is a number of one port, each call that is under way a caller.

   What a program reads past the library is made ready for it: where the port has input, and nobody asked for it within
   PATIENCE ticks, it is read ahead and put into the descriptor that the session began with, each byte as a record,
   since nobody knows how many at a time are read. A later call through the library takes back what is left of it before
   it goes on, so all is read in its order either way. */
#define _GNU_SOURCE
#include "jwport.h"
#include "jinthwyr.h"
#include "jwjobs.h"
#include "jwterm.h"

#include <errno.h>
#include <fcntl.h>
#include <stdio.h>
#include <stdlib.h>
#include <string.h>
#include <sys/ioctl.h>
#include <sys/socket.h>
#include <sys/stat.h>
#include <sys/un.h>
#include <termios.h>
#include <unistd.h>

enum {
    OWN = 31,                             /* the number of jwrun's own open, which does not block */
    OWN_CALLER = PORT_CALLS + PORT_OPENS, /* after those of calls and of opens */
    CAPACITY = 4096,
    OUT = 8192,                           /* that stand before a line that takes none */
    RECORD = 262144,                      /* more than a socket takes at once */
    PATIENCE = 2,
    STOPPED = -512                        /* a call that is to be made again after a signal */
};

struct open {
    int fd; /* -1 where the number is free */
    uint8_t access;
    bool is_dead;
    uint8_t rest[RECORD]; /* what was written past the library, and is not taken yet */
    size_t from, to;
};

struct call {
    int fd; /* -1 where there is none */
    pid_t process;
    bool is_heard, is_judged, is_drained, is_later;
    struct jwterm_request request;
    size_t len, done; /* of its bytes */
};

static jw_port port;
static jw_line line;
static struct open opens[PORT_OPENS];
static struct call calls[PORT_CALLS];
static uint8_t out[OUT];
static size_t out_len;
static int listen_fd;
static const char *terminal_name;
static uint32_t window;

/* What was read ahead, how much of it was put into the descriptor of the session, of which jwrun has a duplicate, and
   whether some may be there still. An end of the input has no bytes. */
static uint8_t ahead[JWTERM_BYTES];
static size_t ahead_from, ahead_put, ahead_to;
static bool ahead_ends, is_away, is_patient = true;
static int session_end = -1;
static uint64_t now, asked;

static const char *const flag_words[] = {
    "ignbrk", "brkint", "ignpar", "parmrk", "inpck", "istrip", "inlcr", "igncr", "icrnl", "ixon",
    "ixany", "ixoff", "opost", "onlcr", "ocrnl", "onocr", "tab3", "isig", "icanon", "echo",
    "echoe", "echok", "echoke", "echonl", "echoctl", "noflsh", "iexten", "iutf8", "tostop",
};
static const char *const character_words[JWTERM_CHARACTERS] = {
    "intr", "quit", "erase", "kill", "eof", "time", "min", "start", "stop", "susp", "eol",
    "reprint", "werase", "lnext", "eol2",
};
enum { FLAGS = sizeof flag_words / sizeof *flag_words };

static bool has_flag(uint32_t flag) {
    return jw_port_flag(&port, OWN_CALLER, OWN, flag) == 1;
}

static int64_t set_word(size_t caller, uint8_t h, uint8_t when, const char *word) {
    return jw_port_set(&port, caller, h, when, (const uint8_t *)word, strlen(word));
}

int64_t port_set(const char *word) {
    return set_word(OWN_CALLER, OWN, TCSANOW, word);
}

/* ---- what was read ahead ---- */

static bool has_ahead(void) {
    return ahead_from < ahead_to || ahead_ends;
}

static void drop_ahead(void) {
    ahead_from = ahead_put = ahead_to = 0;
    ahead_ends = is_away = false;
}

/* Takes back what was put into the session's descriptor and nobody has read. */
static void take_back(void) {
    size_t left = 0;
    uint8_t byte;
    while (is_away && recv(session_end, &byte, 1, MSG_DONTWAIT) >= 0)
        left++;
    if (ahead_ends ? left == 0 : ahead_put - left == ahead_to)
        drop_ahead();
    ahead_from = ahead_put -= ahead_ends ? 0 : left;
    is_away = false;
}

/* Where it was all read, what follows is for such a reader too. */
static void look_ahead(void) {
    uint8_t byte;
    if (!is_away || recv(session_end, &byte, 1, MSG_DONTWAIT | MSG_PEEK) >= 0)
        return;
    take_back();
    is_patient = false;
}

static int64_t read_ahead(uint8_t *place, size_t most) {
    size_t len = ahead_to - ahead_from < most ? ahead_to - ahead_from : most;
    memcpy(place, ahead + ahead_from, len);
    ahead_put = ahead_from += len;
    if (ahead_from == ahead_to)
        drop_ahead();
    return (int64_t)len;
}

/* Whether a read would give something. An end of the input is no byte that could be counted: it is read ahead. */
static bool is_readable(void) {
    uint8_t none;
    if (ahead_ends && !has_flag(JW_ICANON))
        ahead_ends = false;
    if (has_ahead())
        return true;
    int64_t unread = jw_port_inq(&port, OWN_CALLER, OWN);
    if (has_flag(JW_ICANON)) {
        ahead_ends = unread == 0 && jw_port_read(&port, OWN_CALLER, OWN, &none, 0) == 0;
        return unread > 0 || ahead_ends;
    }
    int64_t least = jw_port_character(&port, OWN_CALLER, OWN, JW_VMIN);
    bool by_time = jw_port_character(&port, OWN_CALLER, OWN, JW_VTIME) > 0;
    return unread >= (by_time || least < 1 ? 1 : least);
}

static bool wants_input(const struct jwterm_request *request) {
    return request->call == JWTERM_READ || request->call == JWTERM_UNREAD
        || (request->call == JWTERM_READY && request->argument & POLLIN)
        || (request->call == JWTERM_FLUSH && request->argument != TCOFLUSH)
        || (request->call == JWTERM_SET_MODES && request->argument == TCSAFLUSH);
}

static bool waits_for_input(void) {
    for (int k = 0; k < PORT_CALLS; k++)
        if (calls[k].fd >= 0 && calls[k].is_heard && wants_input(&calls[k].request))
            return true;
    return false;
}

static bool put_record(size_t len) {
    return send(opens[0].fd, ahead + ahead_put, len, MSG_DONTWAIT | MSG_NOSIGNAL) == (ssize_t)len;
}

/* Reads ahead for a reader past the library, where nobody else wants it. */
static void put_ahead(void) {
    look_ahead();
    bool is_early = is_patient && now - asked < PATIENCE;
    if (session_end < 0 || opens[0].is_dead || is_away || is_early || waits_for_input() || !is_readable())
        return;
    if (!has_ahead()) {
        int64_t got = jw_port_read(&port, OWN_CALLER, OWN, ahead, sizeof ahead);
        ahead_to = got > 0 ? (size_t)got : 0;
        ahead_ends = got == 0;
        if (got < 0)
            return;
    }
    is_away = ahead_ends && put_record(0);
    while (ahead_put < ahead_to && put_record(1)) {
        ahead_put++;
        is_away = true;
    }
}

/* ---- opens ---- */

static void close_number(size_t caller, uint8_t h) {
    while (jw_port_close(&port, caller, h) == JW_NO_MEMORY)
        poll(NULL, 0, 100);
}

static void open_own(void) {
    while (jw_port_open(&port, OWN_CALLER, OWN, O_RDWR, true) == JW_NO_MEMORY)
        poll(NULL, 0, 100);
}

/* Gives jwrun's end of a pair its name, by which the other end is known. */
static bool bind_open(int fd, int k) {
    struct sockaddr_un address = {.sun_family = AF_UNIX};
    size_t room = sizeof address.sun_path - 1;
    size_t len = (size_t)snprintf(address.sun_path + 1, room, JWTERM_PREFIX "%d:%s", k, terminal_name);
    socklen_t whole = (socklen_t)(offsetof(struct sockaddr_un, sun_path) + 1 + len);
    return len < room && bind(fd, (struct sockaddr *)&address, whole) == 0;
}

/* Opens it for a caller: the program's end, or a negated errno. */
static int new_open(size_t caller, uint64_t access) {
    int ends[2], k = 0;
    while (k < PORT_OPENS && opens[k].fd >= 0)
        k++;
    if (k == PORT_OPENS)
        return -ENFILE;
    if (access > O_RDWR)
        return -EINVAL;
    int64_t opened = jw_port_open(&port, caller, (uint8_t)k, (uint8_t)access, false);
    if (opened != 0)
        return (int)opened;
    if (socketpair(AF_UNIX, SOCK_SEQPACKET | SOCK_CLOEXEC, 0, ends) != 0) {
        close_number(caller, (uint8_t)k);
        return -ENFILE;
    }
    if (!bind_open(ends[0], k)) {
        close(ends[0]);
        close(ends[1]);
        close_number(caller, (uint8_t)k);
        return -EADDRNOTAVAIL;
    }
    opens[k].fd = ends[0];
    opens[k].access = (uint8_t)access;
    opens[k].is_dead = false;
    opens[k].from = opens[k].to = 0;
    return ends[1];
}

int port_open(void) {
    int fd = new_open(OWN_CALLER, O_RDWR);
    session_end = fd < 0 ? -1 : fcntl(fd, F_DUPFD_CLOEXEC, 0);
    return fd;
}

static void close_open(int k) {
    close_number((size_t)(PORT_CALLS + k), (uint8_t)k);
    close(opens[k].fd);
    opens[k].fd = -1;
}

/* ---- answers ---- */

static void end_call(int k) {
    struct call *call = &calls[k];
    jw_port_cancel(&port, (size_t)k);
    close(call->fd);
    call->fd = -1;
}

/* Answers a call; the last answer ends it. One that finds no room is for nobody who waits for it. */
static void answer(int k, uint32_t kind, int64_t number, const void *bytes, size_t len) {
    struct jwterm_answer told = {.kind = kind, .number = number};
    memcpy(told.bytes, bytes, len);
    ssize_t sent = send(calls[k].fd, &told, offsetof(struct jwterm_answer, bytes) + len, MSG_DONTWAIT | MSG_NOSIGNAL);
    if (sent < 0 || kind == JWTERM_DONE || kind == JWTERM_AGAIN)
        end_call(k);
}

/* The answer of an open brings the descriptor with it. */
static void answer_open(int k, int fd) {
    struct jwterm_answer told = {.kind = JWTERM_DONE};
    struct iovec part = {.iov_base = &told, .iov_len = offsetof(struct jwterm_answer, bytes)};
    union {
        struct cmsghdr align;
        char bytes[CMSG_SPACE(sizeof fd)];
    } with = {0};
    struct msghdr message = {.msg_iov = &part, .msg_iovlen = 1, .msg_control = with.bytes,
        .msg_controllen = sizeof with.bytes};
    struct cmsghdr *passed = CMSG_FIRSTHDR(&message);
    passed->cmsg_level = SOL_SOCKET;
    passed->cmsg_type = SCM_RIGHTS;
    passed->cmsg_len = CMSG_LEN(sizeof fd);
    memcpy(CMSG_DATA(passed), &fd, sizeof fd);
    sendmsg(calls[k].fd, &message, MSG_DONTWAIT | MSG_NOSIGNAL);
    close(fd);
    end_call(k);
}

/* ---- calls ---- */

static bool is_clogged(void) {
    return out_len == sizeof out;
}

static bool take_out(void) {
    int64_t took = is_clogged() ? 0 : jw_port_take_wire(&port, out + out_len, sizeof out - out_len);
    out_len += took > 0 ? (size_t)took : 0;
    return took > 0;
}

/* A call on a descriptor that does not block goes by jwrun's own open, where the port would let it go on. */
static bool goes_by_own(const struct call *call, uint8_t refused) {
    const struct open *open = &opens[call->request.open];
    return call->request.flags & JWTERM_NONBLOCK && !open->is_dead && open->access != refused;
}

static size_t caller_of(int k, bool by_own) {
    return by_own ? OWN_CALLER : (size_t)k;
}

static uint8_t number_of(int k, bool by_own) {
    return by_own ? OWN : (uint8_t)calls[k].request.open;
}

static int64_t try_read(int k) {
    struct call *call = &calls[k];
    uint8_t place[JWTERM_BYTES];
    size_t most = call->request.argument < sizeof place ? (size_t)call->request.argument : sizeof place;
    bool by_own = goes_by_own(call, O_WRONLY);
    const struct open *open = &opens[call->request.open];
    int64_t got;
    if (!open->is_dead && open->access != O_WRONLY && has_ahead())
        got = read_ahead(place, most);
    else
        got = jw_port_read(&port, caller_of(k, by_own), number_of(k, by_own), place, most);
    if (got >= 0)
        answer(k, JWTERM_DONE, got, place, (size_t)got);
    return got >= 0 || got == JW_NO_MEMORY ? JW_WAITS : got;
}

static int64_t try_write(int k) {
    struct call *call = &calls[k];
    bool by_own = goes_by_own(call, O_RDONLY);
    while (call->done < call->len) {
        int64_t took = by_own && is_clogged() ? -EAGAIN : JW_WAITS;
        if (!is_clogged())
            took = jw_port_write(&port, caller_of(k, by_own), number_of(k, by_own), call->request.bytes + call->done,
                call->len - call->done);
        if (took == JW_WAITS || took == JW_NO_MEMORY)
            return JW_WAITS;
        if (took < 0)
            return call->done > 0 ? (int64_t)call->done : took;
        call->done += (size_t)took;
        take_out();
    }
    return (int64_t)call->len;
}

/* What poll(2) tells of an open, as far as it was asked for. */
static int64_t try_ready(int k) {
    struct call *call = &calls[k];
    short events = (short)call->request.argument, ready = 0;
    if (opens[call->request.open].is_dead)
        return (events & (POLLIN | POLLOUT)) | POLLHUP | POLLERR;
    if (events & POLLIN && is_readable())
        ready |= POLLIN;
    if (events & POLLOUT && !is_clogged() && jw_port_outq(&port, OWN_CALLER, OWN) < 4096)
        ready |= POLLOUT;
    if (ready == 0 && !call->is_later) {
        call->is_later = true;
        answer(k, JWTERM_LATER, 0, "", 0);
    }
    return ready == 0 ? JW_WAITS : ready;
}

static int64_t try_get_modes(int k) {
    uint8_t h = (uint8_t)calls[k].request.open;
    struct jwterm_modes modes = {0};
    for (uint32_t flag = 0; flag < FLAGS; flag++) {
        int64_t is_set = jw_port_flag(&port, (size_t)k, h, flag);
        if (is_set < 0)
            return is_set;
        modes.flags |= (uint32_t)is_set << flag;
    }
    for (uint8_t place = 0; place < JWTERM_CHARACTERS; place++)
        modes.characters[place] = (uint8_t)jw_port_character(&port, (size_t)k, h, place);
    answer(k, JWTERM_DONE, 0, &modes, sizeof modes);
    return JW_WAITS;
}

/* Word by word what is to be otherwise, at once. */
static int64_t apply_modes(int k, const struct jwterm_modes *modes) {
    uint8_t h = (uint8_t)calls[k].request.open;
    char word[32];
    for (uint32_t flag = 0; flag < FLAGS; flag++) {
        bool is_set = modes->flags >> flag & 1;
        snprintf(word, sizeof word, "%s%s", is_set ? "" : "-", flag_words[flag]);
        if (has_flag(flag) != is_set && set_word((size_t)k, h, TCSANOW, word) == JW_NO_MEMORY)
            return JW_WAITS;
    }
    for (uint8_t place = 0; place < JWTERM_CHARACTERS; place++) {
        snprintf(word, sizeof word, "%s=%d", character_words[place], modes->characters[place]);
        if (jw_port_character(&port, (size_t)k, h, place) != modes->characters[place]
            && set_word((size_t)k, h, TCSANOW, word) == JW_NO_MEMORY)
            return JW_WAITS;
    }
    return 0;
}

/* A word that changes nothing waits for the time, and drops what is to be dropped, under the old modes. */
static int64_t try_set_modes(int k) {
    struct call *call = &calls[k];
    struct jwterm_modes modes;
    char word[32];
    if (call->len != sizeof modes || call->request.argument > TCSAFLUSH)
        return -EINVAL;
    memcpy(&modes, call->request.bytes, sizeof modes);
    if (!call->is_drained) {
        int64_t least = jw_port_character(&port, OWN_CALLER, OWN, JW_VMIN);
        snprintf(word, sizeof word, "min=%d", (int)least);
        int64_t met = set_word((size_t)k, (uint8_t)call->request.open, (uint8_t)call->request.argument, word);
        if (met != 0)
            return met == JW_NO_MEMORY ? JW_WAITS : met;
        if (call->request.argument == TCSAFLUSH)
            drop_ahead();
        call->is_drained = true;
    }
    return apply_modes(k, &modes);
}

static int64_t try_flush(int k) {
    const struct jwterm_request *request = &calls[k].request;
    uint8_t queue = request->argument > UINT8_MAX ? UINT8_MAX : (uint8_t)request->argument;
    int64_t done = jw_port_flush(&port, (size_t)k, (uint8_t)request->open, queue);
    if (done == 0 && queue != TCOFLUSH)
        drop_ahead();
    return done;
}

static int64_t try_unread(int k) {
    int64_t unread = jw_port_inq(&port, (size_t)k, (uint8_t)calls[k].request.open);
    return unread < 0 ? unread : unread + (int64_t)(ahead_to - ahead_from);
}

static int64_t try_account(int k) {
    char text[256];
    int len = snprintf(text, sizeof text, "sent=%lld overruns=%lld received=%lld dropped=%lld waiting=%lld opens=",
        (long long)jw_line_sent(&line), (long long)jw_line_overruns(&line), (long long)jw_port_received(&port),
        (long long)jw_port_dropped(&port), (long long)jw_port_waiting(&port));
    int count = 0;
    for (int at = 0; at < PORT_OPENS; at++)
        count += opens[at].fd >= 0;
    len += snprintf(text + len, sizeof text - (size_t)len, "%d", count);
    answer(k, JWTERM_DONE, 0, text, (size_t)len);
    return JW_WAITS;
}

/* The size is set once: by jwrun, or else by the first who sets it. */
static int64_t try_set_size(uint64_t size) {
    if (window != 0 || size > UINT32_MAX)
        return window == size ? 0 : -EINVAL;
    window = (uint32_t)size;
    return 0;
}

static int64_t try_open(int k) {
    const struct jwterm_request *request = &calls[k].request;
    if (request->flags & JWTERM_CONTROLLING && !jobs_controls(calls[k].process))
        return -ENXIO;
    int fd = new_open((size_t)k, request->argument);
    if (fd < 0)
        return fd == JW_NO_MEMORY ? JW_WAITS : fd;
    answer_open(k, fd);
    return JW_WAITS;
}

static void hang_up_opens(void);

static int64_t try_hang_up(int k) {
    int64_t done = jw_port_vhangup(&port, (size_t)k, (uint8_t)calls[k].request.open);
    if (done == 0) {
        hang_up_opens();
        jobs_hang_up();
    }
    return done;
}

/* Who was stopped while it waited for input asks again when it goes on: what comes meanwhile is for others. */
static void stand_back(void) {
    for (int k = 0; k < PORT_CALLS; k++)
        if (calls[k].fd >= 0 && calls[k].is_heard && calls[k].request.call == JWTERM_READ
            && jobs_is_stopped(calls[k].process))
            answer(k, JWTERM_AGAIN, 0, "", 0);
}

/* What a call of job control comes to; through a dead open it is EIO, and of TIOCSPGRP ENOTTY. */
static int64_t try_jobs(int k) {
    const struct jwterm_request *request = &calls[k].request;
    pid_t process = calls[k].process;
    if (opens[request->open].is_dead)
        return request->call == JWTERM_SET_FOREGROUND ? -ENOTTY : -EIO;
    switch (request->call) {
    case JWTERM_TAKE: return jobs_take(process);
    case JWTERM_GIVE_UP: return jobs_give_up(process);
    case JWTERM_GET_FOREGROUND: return jobs_foreground(process);
    case JWTERM_GET_SESSION: return jobs_session(process);
    default: break;
    }
    bool passes = request->flags & JWTERM_PASSES;
    pid_t group = request->argument > INT32_MAX ? -1 : (pid_t)request->argument;
    int64_t done = jobs_set_foreground(process, group, passes);
    if (done == 0)
        stand_back();
    return done > 0 ? STOPPED : done;
}

/* What a call meets on an open. */
static int64_t try_on_open(int k) {
    const struct jwterm_request *request = &calls[k].request;
    size_t caller = (size_t)k;
    uint8_t h = (uint8_t)request->open, small = request->argument > UINT8_MAX ? UINT8_MAX : (uint8_t)request->argument;
    uint32_t number = request->argument > UINT32_MAX ? UINT32_MAX : (uint32_t)request->argument;
    switch (request->call) {
    case JWTERM_READ: return try_read(k);
    case JWTERM_WRITE: return try_write(k);
    case JWTERM_READY: return try_ready(k);
    case JWTERM_GET_MODES: return try_get_modes(k);
    case JWTERM_SET_MODES: return try_set_modes(k);
    case JWTERM_DRAIN: return jw_port_drain(&port, caller, h);
    case JWTERM_BREAK: return opens[h].is_dead ? -EIO : 0; /* no line here has one */
    case JWTERM_FLUSH: return try_flush(k);
    case JWTERM_FLOW: return jw_port_flow(&port, caller, h, small);
    case JWTERM_UNREAD: return try_unread(k);
    case JWTERM_HELD: return jw_port_outq(&port, caller, h);
    case JWTERM_EXCLUDE: return jw_port_exclude(&port, caller, h);
    case JWTERM_ADMIT: return jw_port_admit(&port, caller, h);
    case JWTERM_GET_DISCIPLINE: return jw_port_getd(&port, caller, h);
    case JWTERM_SET_DISCIPLINE: return jw_port_setd(&port, caller, h, number);
    case JWTERM_HANG_UP: return try_hang_up(k);
    case JWTERM_GET_SIZE: return opens[h].is_dead ? -EIO : (int64_t)window;
    case JWTERM_SET_SIZE: return opens[h].is_dead ? -EIO : try_set_size(request->argument);
    case JWTERM_ACCOUNT: return try_account(k);
    default: return request->call >= JWTERM_TAKE && request->call <= JWTERM_GET_SESSION ? try_jobs(k) : -EINVAL;
    }
}

/* The background check, once for a call: 0 where it goes on. */
static int64_t judge(struct call *call) {
    const struct open *open = &opens[call->request.open];
    enum jobs_act act = JOBS_CHANGES;
    switch (call->request.call) {
    case JWTERM_READ: act = JOBS_READS; break;
    case JWTERM_WRITE: act = JOBS_WRITES; break;
    case JWTERM_SET_MODES: case JWTERM_DRAIN: case JWTERM_FLUSH: case JWTERM_FLOW: case JWTERM_BREAK:
    case JWTERM_SET_DISCIPLINE: break;
    default: return 0;
    }
    if (call->is_judged || open->is_dead || (act == JOBS_READS && open->access == O_WRONLY)
        || (act == JOBS_WRITES && open->access == O_RDONLY))
        return 0;
    call->is_judged = true;
    int met = jobs_judge(call->process, act, has_flag(JW_TOSTOP), call->request.flags & JWTERM_PASSES);
    return met > 0 ? STOPPED : met;
}

/* A call that wants input has it before who reads past the library. */
static void come_first(const struct jwterm_request *request) {
    if (!wants_input(request))
        return;
    take_back();
    asked = now;
    is_patient = true;
}

/* What was written past the library comes before a call that follows it. */
static bool waits_for_rest(const struct call *call) {
    const struct open *open = &opens[call->request.open];
    switch (call->request.call) {
    case JWTERM_WRITE: case JWTERM_DRAIN: return open->from < open->to;
    case JWTERM_SET_MODES: return call->request.argument != TCSANOW && open->from < open->to;
    default: return false;
    }
}

/* Who calls may have been killed: its call takes nothing then. */
static bool is_left(const struct call *call) {
    struct pollfd it = {.fd = call->fd};
    return poll(&it, 1, 0) > 0 && it.revents & (POLLHUP | POLLERR);
}

static void try_call(int k) {
    struct call *call = &calls[k];
    int64_t met;
    if (is_left(call)) {
        end_call(k);
        return;
    }
    if (call->request.call == JWTERM_OPEN) {
        met = try_open(k);
    } else if (call->request.open >= PORT_OPENS || opens[call->request.open].fd < 0) {
        met = -EBADF;
    } else {
        met = judge(call);
        if (met == 0)
            come_first(&call->request);
        if (met == 0)
            met = waits_for_rest(call) ? JW_WAITS : try_on_open(k);
    }
    if (met == STOPPED)
        answer(k, JWTERM_AGAIN, 0, "", 0);
    else if (met != JW_WAITS && met != JW_NO_MEMORY)
        answer(k, JWTERM_DONE, met, "", 0);
}

static void try_calls(void) {
    for (int k = 0; k < PORT_CALLS; k++)
        if (calls[k].fd >= 0 && calls[k].is_heard)
            try_call(k);
}

/* ---- what calls say ---- */

/* A signal came to who calls. What was written of a write is told. */
static void interrupt(int k) {
    answer(k, JWTERM_DONE, calls[k].done > 0 ? (int64_t)calls[k].done : -EINTR, "", 0);
}

static void hear_call(int k) {
    struct call *call = &calls[k];
    struct jwterm_request request;
    const ssize_t least = offsetof(struct jwterm_request, bytes);
    ssize_t len = recv(call->fd, &request, sizeof request, MSG_DONTWAIT | MSG_TRUNC);
    if (len < 0 && (errno == EAGAIN || errno == EINTR))
        return;
    if (len <= 0) {
        end_call(k);
    } else if (len < least || len > (ssize_t)sizeof request) {
        answer(k, JWTERM_DONE, -EINVAL, "", 0);
    } else if (!call->is_heard) {
        memcpy(&call->request, &request, (size_t)len);
        call->len = (size_t)(len - least);
        call->is_heard = true;
    } else {
        interrupt(k);
    }
}

/* Where all places are taken, one that has said nothing yet gives its place up. */
static int free_place(void) {
    for (int k = 0; k < PORT_CALLS; k++)
        if (calls[k].fd < 0)
            return k;
    for (int k = 0; k < PORT_CALLS; k++) {
        if (!calls[k].is_heard) {
            end_call(k);
            return k;
        }
    }
    return -1;
}

static bool come(void) {
    struct ucred who;
    socklen_t len = sizeof who;
    int fd = accept4(listen_fd, NULL, NULL, SOCK_CLOEXEC);
    if (fd < 0)
        return false;
    int k = free_place();
    if (k < 0 || getsockopt(fd, SOL_SOCKET, SO_PEERCRED, &who, &len) != 0) {
        close(fd);
        return true;
    }
    memset(&calls[k], 0, sizeof calls[k]);
    calls[k].fd = fd;
    calls[k].process = who.pid;
    return true;
}

/* ---- what is written past the library ---- */

static bool write_rest(int k) {
    struct open *open = &opens[k];
    bool wrote = false;
    while (open->from < open->to && !is_clogged()) {
        size_t caller = (size_t)(PORT_CALLS + k), left = open->to - open->from;
        int64_t took = jw_port_write(&port, caller, (uint8_t)k, open->rest + open->from, left);
        if (took == JW_WAITS || took == JW_NO_MEMORY)
            return wrote;
        open->from += took > 0 ? (size_t)took : left; /* nobody could be told why not */
        wrote = true;
        take_out();
    }
    return wrote;
}

/* Takes the next record of an open, or notes that nobody has it any more. */
static bool hear_open(int k) {
    struct open *open = &opens[k];
    struct pollfd it = {.fd = open->fd, .events = POLLIN};
    if (open->from < open->to || poll(&it, 1, 0) <= 0)
        return false;
    ssize_t len = it.revents & POLLIN ? recv(open->fd, open->rest, sizeof open->rest, MSG_DONTWAIT) : 0;
    if (len <= 0 && it.revents & (POLLHUP | POLLERR)) {
        close_open(k);
        return true;
    }
    open->from = 0;
    open->to = len > 0 ? (size_t)len : 0;
    return len > 0;
}

static bool hear_opens(void) {
    bool busy = false;
    for (int k = 0; k < PORT_OPENS; k++) {
        while (opens[k].fd >= 0 && (write_rest(k) || hear_open(k)))
            busy = true;
    }
    return busy;
}

/* ---- the line, signals and hangups ---- */

size_t port_room(void) {
    return CAPACITY - (size_t)jw_line_waiting(&line);
}

void port_hear(const uint8_t *bytes, size_t len) {
    jw_line_put(&line, bytes, len, JW_NORMAL);
    jw_line_push(&line);
}

const uint8_t *port_out(size_t *len) {
    *len = out_len;
    return out;
}

void port_sent(size_t len) {
    out_len -= len;
    memmove(out, out + len, out_len);
}

/* A call that waits in the group that gets a signal is made again afterwards, so that it takes nothing that comes while
   the signal is met. */
static bool send_signals(void) {
    int64_t number, count = 0;
    for (; (number = jw_port_take_signal(&port)) > 0; count++) {
        jobs_signal((int)number);
        for (int k = 0; k < PORT_CALLS; k++) {
            bool waits = calls[k].fd >= 0 && calls[k].is_heard && calls[k].done == 0;
            if (waits && calls[k].request.call != JWTERM_READY && jobs_is_in_front(calls[k].process))
                answer(k, JWTERM_AGAIN, 0, "", 0);
        }
    }
    return count > 0;
}

/* Who reads an open that is dead reads the end of the input. */
static void hang_up_opens(void) {
    drop_ahead();
    for (int k = 0; k < PORT_OPENS; k++) {
        if (opens[k].fd >= 0) {
            shutdown(opens[k].fd, SHUT_WR);
            opens[k].is_dead = true;
        }
    }
    close_number(OWN_CALLER, OWN);
    open_own();
}

void port_hang_up(void) {
    while (jw_port_hang_up(&port) == JW_NO_MEMORY)
        poll(NULL, 0, 100);
    hang_up_opens();
    jobs_hang_up();
}

/* ---- the work ---- */

void port_watch(struct pollfd fds[PORT_FDS]) {
    fds[0] = (struct pollfd){.fd = listen_fd, .events = POLLIN};
    for (int k = 0; k < PORT_OPENS; k++)
        fds[1 + k] = (struct pollfd){.fd = opens[k].from < opens[k].to ? -1 : opens[k].fd, .events = POLLIN};
    for (int k = 0; k < PORT_CALLS; k++)
        fds[1 + PORT_OPENS + k] = (struct pollfd){.fd = calls[k].fd, .events = POLLIN};
}

/* What was written past the library, and opens that ended, are there before a call that came after them: the calls are
   taken in first, and tried last. */
void port_attend(const struct pollfd fds[PORT_FDS]) {
    for (int k = 0; k < PORT_CALLS; k++)
        if (fds[1 + PORT_OPENS + k].revents != 0 && calls[k].fd == fds[1 + PORT_OPENS + k].fd)
            hear_call(k);
    while (fds[0].revents != 0 && come())
        continue;
}

static bool is_settled(void) {
    for (int k = 0; k < PORT_OPENS; k++)
        if (opens[k].fd >= 0 && opens[k].from < opens[k].to)
            return false;
    return true;
}

void port_work(uint64_t tick) {
    static bool has_ended;
    now = tick;
    has_ended = jobs_has_ended() || has_ended;
    jw_port_advance(&port, tick);
    for (bool busy = true; busy;) {
        busy = take_out();
        busy = (!is_clogged() && jw_port_receive(&port, 64) > 0) || busy;
        busy = send_signals() || busy;
        busy = hear_opens() || busy;
        try_calls();
    }
    put_ahead();
    if (has_ended && is_settled()) { /* what its leader has written is out */
        has_ended = false;
        port_hang_up();
    }
}

static bool listen_at(const char *name) {
    struct sockaddr_un address = {.sun_family = AF_UNIX};
    if (strlen(name) >= sizeof address.sun_path - sizeof JWTERM_PREFIX - 4) {
        fprintf(stderr, "%s: %s\n", name, strerror(ENAMETOOLONG));
        return false;
    }
    strcpy(address.sun_path, name);
    mode_t mask = umask(S_IRWXG | S_IRWXO);
    listen_fd = socket(AF_UNIX, SOCK_SEQPACKET | SOCK_CLOEXEC | SOCK_NONBLOCK, 0);
    bool listens = listen_fd >= 0 && bind(listen_fd, (struct sockaddr *)&address, sizeof address) == 0
        && listen(listen_fd, PORT_CALLS) == 0;
    umask(mask);
    if (!listens)
        perror(name);
    return listens;
}

bool port_make(const char *name, uint32_t size) {
    terminal_name = name;
    window = size;
    for (int k = 0; k < PORT_OPENS; k++)
        opens[k].fd = -1;
    for (int k = 0; k < PORT_CALLS; k++)
        calls[k].fd = -1;
    if (jw_port_new(&port, &line, OWN_CALLER + 1, CAPACITY) != 0) {
        fprintf(stderr, "no memory for a terminal\n");
        return false;
    }
    open_own();
    return listen_at(name);
}

void port_end(void) {
    unlink(terminal_name);
    jw_port_free(&port);
    jw_line_free(&line);
}
