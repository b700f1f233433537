/* jwserve: a console server. A serial line is served to several clients over a Unix socket; jwserve.h has what they
   say.

   jwserve [-c] [-w WORD].. LINE SOCKET

   LINE is a device, a Unix socket to connect to, or `pty` for a new pseudoterminal, whose name is printed. Each client
   is an open of one port, and a call of its own; the server has one more open, and reads for all. The port is hung up
   where the line ends: at the end of a socket, where nobody has the pseudoterminal open any more, and with -c where the
   device's carrier goes. It goes on when the line is there again; after the end of a socket the server ends.

   No client holds up another: what it does not read in time is lost to it, and counted; an answer waits for it, and
   until it is gone the client is not heard. A line that takes nothing holds up what is written to it, and nothing
   else. */
#define _GNU_SOURCE
#include "jwserve.h"
#include "jinthwyr.h"

#include <errno.h>
#include <fcntl.h>
#include <poll.h>
#include <signal.h>
#include <stdio.h>
#include <stdlib.h>
#include <string.h>
#include <sys/ioctl.h>
#include <sys/socket.h>
#include <sys/stat.h>
#include <sys/un.h>
#include <termios.h>
#include <time.h>
#include <unistd.h>

enum {
    CLIENTS = 31,       /* client k is caller k, and has the number k */
    OWN = 31,           /* the server's own caller and number */
    CAPACITY = 4096,    /* of the flip buffer */
    OUT = 65536,        /* bytes that stand before a line that takes none */
    ANSWER = 512,
    MOST_WORDS = 32,
    PAUSE = 100         /* milliseconds: a tick of the port's clock */
};

struct client {
    int fd;
    bool is_open, types, excludes;
    uint64_t missing;                 /* records that it was too slow for, and was not told of */
    uint8_t rest[JWSERVE_RECORD];     /* of a write that goes on */
    size_t from, to;
    char answer[ANSWER];              /* that it has not got yet */
    size_t answer_len;
};

static jw_port port;
static jw_line line;
static struct client clients[CLIENTS];
static uint8_t out[OUT], heard[JWSERVE_RECORD];
static size_t out_len, heard_len;
static int line_fd, listen_fd;
static bool is_socket, by_carrier, is_up = true;
static const char *words[MOST_WORDS];
static size_t word_count;
static volatile sig_atomic_t is_over;

static void fail(const char *what) {
    perror(what);
    exit(1);
}

/* ---- to clients ---- */

static bool send_record(struct client *client, const void *record, size_t len) {
    return send(client->fd, record, len, MSG_DONTWAIT | MSG_NOSIGNAL) == (ssize_t)len;
}

/* Where a client is too slow for a record it is told how many are missing before the next that it gets. */
static void tell(struct client *client, char kind, const void *bytes, size_t len) {
    uint8_t record[1 + JWSERVE_RECORD];
    char missing[32];
    if (client->fd < 0 || !client->is_open)
        return;
    if (client->missing > 0) {
        int count = snprintf(missing, sizeof missing, "l%llu", (unsigned long long)client->missing);
        if (!send_record(client, missing, (size_t)count)) {
            client->missing++;
            return;
        }
        client->missing = 0;
    }
    record[0] = (uint8_t)kind;
    memcpy(record + 1, bytes, len);
    if (!send_record(client, record, 1 + len))
        client->missing++;
}

static void tell_all(char kind, const void *bytes, size_t len) {
    for (int k = 0; k < CLIENTS; k++)
        tell(&clients[k], kind, bytes, len);
}

/* Reads are gathered into records, so that a client has fewer to read. */
static void tell_heard(void) {
    if (heard_len > 0)
        tell_all('r', heard, heard_len);
    heard_len = 0;
}

/* Answers a record. An answer that finds no room waits, and so does what else its client says. */
static void answer(struct client *client, int64_t number, const char *text) {
    int len = snprintf(client->answer, sizeof client->answer, "=%lld%s%s", (long long)number, *text ? " " : "", text);
    client->answer_len = (size_t)len < sizeof client->answer ? (size_t)len : sizeof client->answer - 1;
    if (send_record(client, client->answer, client->answer_len))
        client->answer_len = 0;
}

static bool has_rest(const struct client *client) {
    return client->from < client->to;
}

/* ---- the opens of the port ---- */

static void set_words(void) {
    for (size_t k = 0; k < word_count; k++)
        jw_port_set(&port, OWN, OWN, TCSANOW, (const uint8_t *)words[k], strlen(words[k]));
}

static int64_t open_own(void) {
    return jw_port_open(&port, OWN, OWN, O_RDWR, true);
}

static int64_t open_client(int k, bool types) {
    return jw_port_open(&port, (size_t)k, (uint8_t)k, types ? O_RDWR : O_RDONLY, false);
}

/* Exclusive use ends with the client that took it: the server's own open keeps the port from a last close. */
static void close_client(int k) {
    struct client *client = &clients[k];
    jw_port_cancel(&port, (size_t)k);
    if (client->excludes)
        jw_port_admit(&port, OWN, OWN);
    jw_port_close(&port, (size_t)k, (uint8_t)k);
    client->is_open = client->types = client->excludes = false;
    client->from = client->to = 0;
}

static void leave(int k) {
    if (clients[k].is_open)
        close_client(k);
    close(clients[k].fd);
    clients[k] = (struct client){.fd = -1};
}

/* After a hangup each number is dead: all are closed, and opened again. */
static void open_again(void) {
    jw_port_close(&port, OWN, OWN);
    while (open_own() == JW_NO_MEMORY)
        poll(NULL, 0, PAUSE);
    set_words();
    tell_heard();
    tell_all('h', "", 0);
    for (int k = 0; k < CLIENTS; k++) {
        struct client *client = &clients[k];
        bool types = client->types;
        if (!client->is_open)
            continue;
        if (has_rest(client))
            answer(client, client->from > 0 ? (int64_t)client->from : -EIO, "");
        close_client(k);
        if (open_client(k, types) != 0) {
            leave(k);
            continue;
        }
        client->is_open = true;
        client->types = types;
    }
}

static bool somebody(bool (*is)(const struct client *)) {
    for (int k = 0; k < CLIENTS; k++)
        if (clients[k].fd >= 0 && is(&clients[k]))
            return true;
    return false;
}

static bool does_type(const struct client *client) {
    return client->types;
}

/* ---- what a client asks for ---- */

static int64_t ask_open(int k, const uint8_t *bytes, size_t len) {
    struct client *client = &clients[k];
    if (len != 1 || (bytes[0] != 'r' && bytes[0] != 'w'))
        return -EINVAL;
    if (client->is_open)
        return -EEXIST;
    bool types = bytes[0] == 'w';
    if (types && somebody(does_type))
        return -EBUSY;
    int64_t opened = open_client(k, types);
    client->is_open = opened == 0;
    client->types = types && opened == 0;
    return opened;
}

static int64_t ask_exclusive(int k, bool excludes) {
    int64_t (*use)(jw_port *, size_t, uint8_t) = excludes ? jw_port_exclude : jw_port_admit;
    int64_t done = use(&port, (size_t)k, (uint8_t)k);
    if (done == 0)
        clients[k].excludes = excludes;
    return done;
}

static int64_t ask_discipline(int k, const uint8_t *bytes, size_t len) {
    return len == 1 ? jw_port_setd(&port, (size_t)k, (uint8_t)k, (uint32_t)bytes[0] - '0') : -EINVAL;
}

static int64_t ask_hangup(int k) {
    int64_t done = jw_port_vhangup(&port, (size_t)k, (uint8_t)k);
    if (done == 0)
        open_again();
    return done;
}

static void answer_counts(struct client *client) {
    static const char *const names[] = {
        "mark", "parity", "frame", "break", "cut", "echo", "pin", "pout", "pbad", "pfull",
    };
    const struct {
        const char *name;
        int64_t number;
    } account[] = {
        {"sent", jw_line_sent(&line)}, {"overruns", jw_line_overruns(&line)}, {"received", jw_port_received(&port)},
        {"dropped", jw_port_dropped(&port)}, {"waiting", jw_port_waiting(&port)},
        {"unread", jw_port_inq(&port, OWN, OWN)}, {"held", jw_port_outq(&port, OWN, OWN)},
    };
    char text[ANSWER - 32] = "";
    int len = 0;
    for (size_t k = 0; k < sizeof account / sizeof *account && len < (int)sizeof text; k++)
        len += snprintf(text + len, sizeof text - (size_t)len, "%s%s=%lld", k > 0 ? " " : "", account[k].name,
            (long long)account[k].number);
    for (uint8_t k = 0; k < sizeof names / sizeof *names && len < (int)sizeof text; k++)
        len += snprintf(text + len, sizeof text - (size_t)len, " %s=%lld", names[k],
            (long long)jw_port_count(&port, OWN, OWN, k));
    answer(client, 0, text);
}

/* What is for who types. */
static int64_t do_for_typist(int k, uint8_t letter, const uint8_t *bytes, size_t len) {
    size_t caller = (size_t)k;
    uint8_t h = (uint8_t)k;
    if (clients[k].is_open && !clients[k].types)
        return -EPERM;
    switch (letter) {
    case 'm': return jw_port_set(&port, caller, h, TCSANOW, bytes, len);
    case 'p': return jw_port_send(&port, caller, h, bytes, len);
    case 'd': return ask_discipline(k, bytes, len);
    case 'x': return len == 0 ? ask_exclusive(k, true) : -EINVAL;
    case 'n': return len == 0 ? ask_exclusive(k, false) : -EINVAL;
    case 'f': return len == 0 ? jw_port_flush(&port, caller, h, TCIFLUSH) : -EINVAL;
    case 'h': return len == 0 ? ask_hangup(k) : -EINVAL;
    default: return -EINVAL;
    }
}

static void hear(int k, const uint8_t *record, size_t len) {
    struct client *client = &clients[k];
    const uint8_t *bytes = record + 1;
    len--;
    switch (record[0]) {
    case 'o':
        answer(client, ask_open(k, bytes, len), "");
        return;
    case 'c':
        answer_counts(client);
        return;
    case 'w':
        if (!client->is_open || !client->types || len == 0) {
            answer(client, !client->is_open ? -EBADF : !client->types ? -EPERM : 0, "");
            return;
        }
        memcpy(client->rest, bytes, len);
        client->from = 0;
        client->to = len;
        return;
    default:
        answer(client, do_for_typist(k, record[0], bytes, len), "");
    }
}

/* One record at a time: its answer is gone before the next is heard. An empty one has no letter. */
static void hear_next(int k, bool has_left) {
    static uint8_t record[1 + JWSERVE_RECORD];
    ssize_t len = recv(clients[k].fd, record, sizeof record, MSG_DONTWAIT | MSG_TRUNC);
    if (len < 0 && (errno == EAGAIN || errno == EINTR))
        return;
    if (len < 0 || (len == 0 && has_left))
        leave(k);
    else if (len == 0 || len > (ssize_t)sizeof record)
        answer(&clients[k], len == 0 ? -EINVAL : -EMSGSIZE, "");
    else
        hear(k, record, (size_t)len);
}

static void come(void) {
    int fd = accept4(listen_fd, NULL, NULL, SOCK_CLOEXEC);
    if (fd < 0)
        return;
    for (int k = 0; k < CLIENTS; k++) {
        if (clients[k].fd < 0) {
            clients[k] = (struct client){.fd = fd};
            return;
        }
    }
    send(fd, "=-24", 4, MSG_DONTWAIT | MSG_NOSIGNAL); /* EMFILE */
    close(fd);
}

/* ---- between the port and the clients ---- */

static bool is_clogged(void) {
    return out_len == sizeof out;
}

/* Writes what is left of a client's record, as far as it is taken. */
static bool write_rest(int k) {
    struct client *client = &clients[k];
    if (client->fd < 0 || !has_rest(client) || is_clogged())
        return false;
    int64_t took = jw_port_write(&port, (size_t)k, (uint8_t)k, client->rest + client->from, client->to - client->from);
    if (took == JW_WAITS || took == JW_NO_MEMORY)
        return false;
    client->from += took > 0 ? (size_t)took : 0;
    if (took < 0 || !has_rest(client)) {
        answer(client, client->from > 0 ? (int64_t)client->from : took, "");
        client->from = client->to = 0;
    }
    return true;
}

static bool write_rests(void) {
    bool wrote = false;
    for (int k = 0; k < CLIENTS; k++)
        wrote = write_rest(k) || wrote;
    return wrote;
}

/* A packet that came is taken once, and told to all. */
static bool take_for_all(void) {
    uint8_t packet[JWSERVE_RECORD];
    int64_t got = jw_port_take(&port, OWN, OWN, packet, sizeof packet);
    if (got <= 0)
        return false;
    tell_heard();
    tell_all('p', packet, (size_t)got);
    return true;
}

/* What the line brought is read once, for all. An end of the input, ^D, reads nothing, and more may stand behind it. */
static bool read_for_all(void) {
    if (jw_port_getd(&port, OWN, OWN) == 1)
        return take_for_all();
    int64_t got = jw_port_read(&port, OWN, OWN, heard + heard_len, sizeof heard - heard_len);
    heard_len += got > 0 ? (size_t)got : 0;
    if (heard_len == sizeof heard)
        tell_heard();
    return got > 0 || (got == 0 && jw_port_inq(&port, OWN, OWN) > 0);
}

static void tell_signals(void) {
    char text[8];
    for (int64_t number; (number = jw_port_take_signal(&port)) > 0;) {
        tell_heard();
        tell_all('s', text, (size_t)snprintf(text, sizeof text, "%d", (int)number));
    }
}

/* ---- the line ---- */

/* Takes what goes out, as far as there is room, and offers it to the line. */
static bool send_out(void) {
    int64_t took = is_clogged() ? 0 : jw_port_take_wire(&port, out + out_len, sizeof out - out_len);
    out_len += took > 0 ? (size_t)took : 0;
    ssize_t sent = out_len > 0 && is_up ? write(line_fd, out, out_len) : 0;
    if (!is_up || (sent < 0 && errno != EAGAIN && errno != EINTR))
        out_len = 0; /* nobody is there to get it */
    if (sent > 0) {
        out_len -= (size_t)sent;
        memmove(out, out + sent, out_len);
    }
    return took > 0;
}

static void hang_up(void) {
    while (jw_port_hang_up(&port) == JW_NO_MEMORY)
        poll(NULL, 0, PAUSE);
    is_up = false;
    out_len = 0;
    open_again();
    is_over = is_over || is_socket;
}

/* Puts what came, and no more than the buffer has room for: the rest stays with the system, and nothing is refused. */
static void hear_line(void) {
    uint8_t bytes[CAPACITY];
    size_t room = CAPACITY - (size_t)jw_line_waiting(&line);
    if (room == 0)
        return;
    ssize_t len = read(line_fd, bytes, room);
    if (len > 0) {
        jw_line_put(&line, bytes, (size_t)len, JW_NORMAL);
        jw_line_push(&line);
    } else if (len == 0 || (errno != EAGAIN && errno != EINTR)) {
        hang_up();
    }
}

static bool has_carrier(void) {
    int lines;
    return !by_carrier || ioctl(line_fd, TIOCMGET, &lines) != 0 || (lines & TIOCM_CAR) != 0;
}

/* A line that was gone is there again where it is not hung up any more. */
static void look_at_line(void) {
    struct pollfd it = {.fd = line_fd, .events = POLLIN};
    if (is_up && !has_carrier())
        hang_up();
    else if (!is_up && !is_socket)
        is_up = has_carrier() && poll(&it, 1, 0) >= 0 && !(it.revents & (POLLHUP | POLLERR | POLLNVAL));
}

/* ---- the loop ---- */

static uint64_t tenths(void) {
    struct timespec now;
    clock_gettime(CLOCK_MONOTONIC, &now);
    return (uint64_t)now.tv_sec * 10 + (uint64_t)now.tv_nsec / 100000000;
}

/* All that can be done is done, one thing after the other. */
static void work(void) {
    jw_port_advance(&port, tenths());
    for (bool busy = true; busy;) {
        busy = send_out();
        busy = jw_port_receive(&port, 64) > 0 || busy;
        busy = read_for_all() || busy;
        busy = write_rests() || busy;
        tell_signals();
    }
    tell_heard();
}

static struct pollfd of_client(const struct client *client) {
    short events = client->answer_len > 0 ? POLLOUT : has_rest(client) ? 0 : POLLIN;
    return (struct pollfd){.fd = client->fd, .events = events};
}

static void attend(int k, short happened) {
    struct client *client = &clients[k];
    bool has_left = (happened & (POLLHUP | POLLERR)) != 0;
    if (happened & POLLOUT && client->answer_len > 0 && send_record(client, client->answer, client->answer_len))
        client->answer_len = 0;
    if (happened & POLLIN)
        hear_next(k, has_left);
    else if (has_left)
        leave(k);
}

static void serve_once(void) {
    struct pollfd fds[2 + CLIENTS];
    bool hears = !is_clogged() && jw_line_waiting(&line) < CAPACITY;
    fds[0] = (struct pollfd){.fd = -1, .events = (hears ? POLLIN : 0) | (out_len > 0 ? POLLOUT : 0)};
    if (is_up && fds[0].events != 0)
        fds[0].fd = line_fd;
    fds[1] = (struct pollfd){.fd = listen_fd, .events = POLLIN};
    for (int k = 0; k < CLIENTS; k++)
        fds[2 + k] = of_client(&clients[k]);
    if (poll(fds, 2 + CLIENTS, PAUSE) < 0)
        return;
    for (int k = 0; k < CLIENTS; k++)
        if (fds[2 + k].fd >= 0 && fds[2 + k].revents != 0)
            attend(k, fds[2 + k].revents);
    if (fds[1].revents & POLLIN)
        come();
    if (hears && fds[0].revents & POLLIN)
        hear_line();
    else if (hears && fds[0].revents & (POLLHUP | POLLERR | POLLNVAL))
        hang_up();
    look_at_line();
}

/* ---- the beginning ---- */

static struct sockaddr_un address_of(const char *path) {
    struct sockaddr_un address = {.sun_family = AF_UNIX};
    if (strlen(path) >= sizeof address.sun_path) {
        errno = ENAMETOOLONG;
        fail(path);
    }
    strcpy(address.sun_path, path);
    return address;
}

static int new_socket(int type) {
    int fd = socket(AF_UNIX, type | SOCK_CLOEXEC, 0);
    if (fd < 0)
        fail("socket");
    return fd;
}

static bool connects(int fd, const char *path) {
    struct sockaddr_un address = address_of(path);
    return connect(fd, (struct sockaddr *)&address, sizeof address) == 0;
}

static int open_pseudoterminal(void) {
    int fd = posix_openpt(O_RDWR | O_NOCTTY | O_CLOEXEC);
    if (fd < 0 || grantpt(fd) != 0 || unlockpt(fd) != 0)
        fail("pty");
    printf("%s\n", ptsname(fd));
    fflush(stdout);
    return fd;
}

static int open_line(const char *path) {
    struct stat what;
    struct termios modes;
    int fd;
    if (strcmp(path, "pty") == 0) {
        fd = open_pseudoterminal();
    } else if (stat(path, &what) == 0 && S_ISSOCK(what.st_mode)) {
        is_socket = true;
        fd = new_socket(SOCK_STREAM);
        if (!connects(fd, path))
            fail(path);
    } else {
        fd = open(path, O_RDWR | O_NOCTTY | O_CLOEXEC | O_NONBLOCK);
    }
    if (fd < 0 || fcntl(fd, F_SETFL, O_NONBLOCK) != 0)
        fail(path);
    if (tcgetattr(fd, &modes) == 0) { /* the terminal is ours: the kernel's passes everything */
        cfmakeraw(&modes);
        tcsetattr(fd, TCSANOW, &modes);
    }
    return fd;
}

/* A socket that nobody listens on is taken away; one that is served stays. */
static int open_listener(const char *path) {
    struct sockaddr_un address = address_of(path);
    struct stat what;
    int trial = new_socket(SOCK_SEQPACKET);
    if (connects(trial, path)) {
        errno = EADDRINUSE;
        fail(path);
    }
    close(trial);
    if (stat(path, &what) == 0 && S_ISSOCK(what.st_mode))
        unlink(path);
    int fd = new_socket(SOCK_SEQPACKET);
    umask(S_IRWXG | S_IRWXO);
    if (bind(fd, (struct sockaddr *)&address, sizeof address) != 0 || listen(fd, CLIENTS) != 0)
        fail(path);
    fcntl(fd, F_SETFL, O_NONBLOCK);
    return fd;
}

static void end(int number) {
    (void)number;
    is_over = 1;
}

static int usage(void) {
    fprintf(stderr, "usage: jwserve [-c] [-w WORD].. LINE SOCKET\n");
    return 2;
}

static bool add_word(const char *word) {
    if (word_count == MOST_WORDS)
        return false;
    words[word_count++] = word;
    return jw_port_set(&port, OWN, OWN, TCSANOW, (const uint8_t *)word, strlen(word)) == 0;
}

int main(int argc, char **argv) {
    if (jw_port_new(&port, &line, OWN + 1, CAPACITY) != 0 || open_own() != 0) {
        fprintf(stderr, "jwserve: no memory\n");
        return 1;
    }
    for (int option; (option = getopt(argc, argv, "cw:")) != -1;) {
        by_carrier = by_carrier || option == 'c';
        if (option == '?' || (option == 'w' && !add_word(optarg)))
            return usage();
    }
    if (argc - optind != 2)
        return usage();
    for (int k = 0; k < CLIENTS; k++)
        clients[k].fd = -1;
    sigaction(SIGTERM, &(struct sigaction){.sa_handler = end}, NULL);
    sigaction(SIGINT, &(struct sigaction){.sa_handler = end}, NULL);
    sigaction(SIGPIPE, &(struct sigaction){.sa_handler = SIG_IGN}, NULL); /* a line may end in a write */
    line_fd = open_line(argv[optind]);
    listen_fd = open_listener(argv[optind + 1]);
    while (!is_over) {
        work();
        serve_once();
    }
    unlink(argv[optind + 1]);
    for (int k = 0; k < CLIENTS; k++)
        if (clients[k].fd >= 0)
            leave(k);
    return jw_port_free(&port) == 0 && jw_line_free(&line) == 0 ? 0 : 1;
}
