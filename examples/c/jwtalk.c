/* jwtalk: a client of jwserve.

   jwtalk [-r] SOCKET

   Opens the port to type, or with -r to watch. What the line brings comes to standard output. Each line of standard
   input goes to the line; one that begins with `~` is a record of jwserve.h, as `~m raw`, `~d 1`, `~p packet`, `~x`,
   `~h`, `~c`. What else the server says comes to standard error. Status 1 where the port cannot be opened. */
#define _POSIX_C_SOURCE 200809L
#include "jwserve.h"

#include <errno.h>
#include <poll.h>
#include <stdbool.h>
#include <stdint.h>
#include <stdio.h>
#include <stdlib.h>
#include <string.h>
#include <sys/socket.h>
#include <sys/un.h>
#include <unistd.h>

static uint8_t typed[1 + JWSERVE_RECORD]; /* room for a letter before a line */
static size_t typed_len = 1;
static bool at_input = true, asks;

static void fail(const char *what) {
    perror(what);
    exit(1);
}

static int server_at(const char *path) {
    struct sockaddr_un address = {.sun_family = AF_UNIX};
    int fd = socket(AF_UNIX, SOCK_SEQPACKET, 0);
    if (strlen(path) >= sizeof address.sun_path) {
        errno = ENAMETOOLONG;
        fail(path);
    }
    strcpy(address.sun_path, path);
    if (fd < 0 || connect(fd, (struct sockaddr *)&address, sizeof address) != 0)
        fail(path);
    return fd;
}

static void say(int fd, const void *record, size_t len) {
    if (send(fd, record, len, MSG_NOSIGNAL) != (ssize_t)len)
        fail("jwtalk");
    asks = true;
}

/* The front of what was typed, up to a line's end, goes as one record; `~` is the letter that follows. */
static void say_line(int fd, size_t len) {
    if (typed[1] == '~' && len > 2) {
        size_t end = typed[len] == '\n' ? len : len + 1;
        size_t from = end > 3 && typed[3] == ' ' ? 4 : 3;
        uint8_t record[1 + JWSERVE_RECORD] = {typed[2]};
        memcpy(record + 1, typed + from, end - from);
        say(fd, record, 1 + end - from);
    } else {
        typed[0] = 'w';
        say(fd, typed, 1 + len);
    }
    typed_len -= len;
    memmove(typed + 1, typed + 1 + len, typed_len - 1);
}

static void say_next(int fd) {
    const uint8_t *end = memchr(typed + 1, '\n', typed_len - 1);
    if (end != NULL)
        say_line(fd, (size_t)(end - typed));
    else if (typed_len == sizeof typed || (!at_input && typed_len > 1))
        say_line(fd, typed_len - 1);
}

static void hear_input(void) {
    ssize_t len = read(0, typed + typed_len, sizeof typed - typed_len);
    if (len <= 0)
        at_input = false;
    else
        typed_len += (size_t)len;
}

static void hear_answer(const char *text) {
    long long number = strtoll(text, NULL, 10);
    const char *rest = strchr(text, ' ');
    asks = false;
    if (number < 0)
        fprintf(stderr, "[%s]\n", strerror((int)-number));
    else if (rest != NULL)
        fprintf(stderr, "[%s]\n", rest + 1);
}

static bool hear(int fd) {
    uint8_t record[2 + JWSERVE_RECORD];
    ssize_t len = recv(fd, record, sizeof record - 1, 0);
    if (len <= 0)
        return false;
    record[len] = '\0';
    const char *text = (const char *)record + 1;
    switch (record[0]) {
    case '=': hear_answer(text); break;
    case 'r': return write(1, text, (size_t)len - 1) == len - 1;
    case 'p': fprintf(stderr, "[packet of %zd: %s]\n", len - 1, text); break;
    case 's': fprintf(stderr, "[signal %s]\n", text); break;
    case 'h': fprintf(stderr, "[hangup]\n"); break;
    case 'l': fprintf(stderr, "[%s records missing]\n", text); break;
    default: break;
    }
    return true;
}

static void open_port(int fd, bool types) {
    char answer[64];
    say(fd, types ? "ow" : "or", 2);
    ssize_t len = recv(fd, answer, sizeof answer - 1, 0);
    answer[len > 0 ? len : 0] = '\0';
    if (len < 2 || answer[0] != '=' || atoi(answer + 1) != 0) {
        fprintf(stderr, "jwtalk: %s\n", len < 2 ? "the server is gone" : strerror(-atoi(answer + 1)));
        exit(1);
    }
    asks = false;
}

int main(int argc, char **argv) {
    bool watches = argc > 1 && strcmp(argv[1], "-r") == 0;
    if (argc != 2 + watches) {
        fprintf(stderr, "usage: jwtalk [-r] SOCKET\n");
        return 2;
    }
    int fd = server_at(argv[1 + watches]);
    open_port(fd, !watches);
    for (;;) {
        if (!asks)
            say_next(fd);
        if (!at_input && !asks && typed_len == 1 && !watches)
            return 0;
        struct pollfd fds[] = {
            {.fd = at_input && typed_len < sizeof typed ? 0 : -1, .events = POLLIN},
            {.fd = fd, .events = POLLIN},
        };
        if (poll(fds, 2, -1) < 0 && errno != EINTR)
            fail("poll");
        if (fds[1].revents != 0 && !hear(fd))
            return 0;
        if (fds[0].revents != 0)
            hear_input();
    }
}
