/* jwrun: runs a program that knows nothing of this on a terminal of ours.

   jwrun [-n NAME] [-w WORD].. [-z ROWSxCOLUMNS] COMMAND [ARGUMENT]..

   The line of the terminal is standard input and output, made raw where that is a terminal of the kernel. NAME is what
   programs open it by, a socket that is made and taken away again; without -n it stands in a new folder below /tmp. A
   WORD is one of stty(1) and is applied first. The window size is that of standard input, where -z says none.

   COMMAND leads a session of its own that has the terminal, and finds libjwterm.so, which stands beside jwrun, and the
   name in its environment. Signals of the terminal go to the session's foreground group. Where the line ends, the
   terminal is hung up. jwrun ends as COMMAND does, by 128 and the number where that was a signal. */
#define _GNU_SOURCE
#include "jwjobs.h"
#include "jwport.h"
#include "jwterm.h"

#include <errno.h>
#include <fcntl.h>
#include <signal.h>
#include <stdio.h>
#include <stdlib.h>
#include <string.h>
#include <sys/ioctl.h>
#include <sys/wait.h>
#include <termios.h>
#include <time.h>
#include <unistd.h>

enum {
    MOST_WORDS = 32,
    PAUSE = 100, /* milliseconds: a tick of the port's clock */
    LONGEST = 50 /* ticks for what is left to go out at the end */
};

static char folder[] = "/tmp/jwrun.XXXXXX", name[128], library[4096];
static struct termios modes_before;
static bool was_terminal, is_up = true, has_ended;
static volatile sig_atomic_t is_over;
static pid_t leader;
static int status, line_out;

static void fail(const char *what) {
    perror(what);
    exit(1);
}

static uint64_t tenths(void) {
    struct timespec now;
    clock_gettime(CLOCK_MONOTONIC, &now);
    return (uint64_t)now.tv_sec * 10 + (uint64_t)now.tv_nsec / 100000000;
}

/* ---- the line ---- */

static void make_raw(void) {
    struct termios modes;
    was_terminal = tcgetattr(0, &modes_before) == 0;
    if (!was_terminal)
        return;
    modes = modes_before;
    cfmakeraw(&modes);
    tcsetattr(0, TCSADRAIN, &modes);
}

/* A line that takes nothing must not hold up the rest. An open of our own does not change the flags of others'. */
static void open_line_out(void) {
    line_out = open("/proc/self/fd/1", O_WRONLY | O_NONBLOCK | O_NOCTTY | O_CLOEXEC);
    if (line_out >= 0)
        return;
    line_out = 1; /* a socket */
    fcntl(line_out, F_SETFL, fcntl(line_out, F_GETFL) | O_NONBLOCK);
}

static void end_line(void) {
    is_up = false;
    port_hang_up();
}

/* No more is read than there is room for: the rest stays with the system. */
static void hear_line(void) {
    uint8_t bytes[4096];
    size_t room = port_room();
    ssize_t len = read(0, bytes, room < sizeof bytes ? room : sizeof bytes);
    if (len > 0)
        port_hear(bytes, (size_t)len);
    else if (len == 0 || (errno != EAGAIN && errno != EINTR))
        end_line();
}

static void send_line(void) {
    size_t len;
    const uint8_t *bytes = port_out(&len);
    ssize_t sent = write(line_out, bytes, len);
    if (sent > 0)
        port_sent((size_t)sent);
    else if (sent < 0 && errno != EAGAIN && errno != EINTR)
        port_sent(len); /* nobody is there to get it */
}

/* Waits for the line, for calls and for opens, and hears what they say. */
static void serve_once(void) {
    struct pollfd fds[2 + PORT_FDS];
    size_t len;
    port_out(&len);
    fds[0] = (struct pollfd){.fd = is_up && port_room() > 0 ? 0 : -1, .events = POLLIN};
    fds[1] = (struct pollfd){.fd = len > 0 ? line_out : -1, .events = POLLOUT};
    port_watch(fds + 2);
    if (poll(fds, 2 + PORT_FDS, PAUSE) <= 0)
        return;
    if (fds[1].revents != 0)
        send_line();
    if (fds[0].revents != 0)
        hear_line();
    port_attend(fds + 2);
}

/* ---- the session ---- */

/* In the child: a session, which jwrun gives the terminal to before the command begins. */
static void begin_session(int fd, int ready[2], int given[2], char **command) {
    char byte = 0;
    signal(SIGHUP, SIG_DFL); /* what comes before the command begins must not end in a handler of jwrun */
    signal(SIGTERM, SIG_DFL);
    setsid();
    if (write(ready[1], &byte, 1) != 1 || read(given[0], &byte, 1) != 1)
        _exit(1);
    for (int k = 0; k < 3; k++)
        dup2(fd, k);
    signal(SIGPIPE, SIG_DFL); /* the only one that jwrun ignores */
    setenv("LD_PRELOAD", library, 1);
    setenv(JWTERM_NAME, name, 1);
    execvp(command[0], command);
    perror(command[0]);
    _exit(127);
}

static void start_session(char **command) {
    int ready[2], given[2], fd = port_open();
    char byte;
    if (fd < 0 || pipe2(ready, O_CLOEXEC) != 0 || pipe2(given, O_CLOEXEC) != 0)
        fail("jwrun");
    leader = fork();
    if (leader < 0)
        fail("fork");
    if (leader == 0)
        begin_session(fd, ready, given, command);
    close(fd);
    if (read(ready[0], &byte, 1) != 1 || jobs_take(leader) != 0 || write(given[1], &byte, 1) != 1)
        fail("session");
    close(ready[0]);
    close(ready[1]);
    close(given[0]);
    close(given[1]);
}

static void reap(void) {
    int how;
    if (!has_ended && waitpid(leader, &how, WNOHANG) == leader) {
        has_ended = true;
        status = WIFEXITED(how) ? WEXITSTATUS(how) : 128 + WTERMSIG(how);
    }
}

/* ---- the beginning and the end ---- */

static void end(int number) {
    is_over = number;
}

static void wake(int number) {
    (void)number;
}

static int usage(void) {
    fprintf(stderr, "usage: jwrun [-n NAME] [-w WORD].. [-z ROWSxCOLUMNS] COMMAND [ARGUMENT]..\n");
    return 2;
}

/* A program may go to another folder, so a name begins with `/`. */
static void make_whole(void) {
    char given[sizeof name], here[4096];
    strcpy(given, name);
    if (getcwd(here, sizeof here) == NULL)
        fail("getcwd");
    if (snprintf(name, sizeof name, "%s/%s", here, given) < (int)sizeof name)
        return;
    errno = ENAMETOOLONG;
    fail(given);
}

/* The library stands beside this program, and the terminal in a folder of its own unless it has a name. */
static void find_places(void) {
    ssize_t len = readlink("/proc/self/exe", library, sizeof library - 32);
    char *end = len > 0 ? memrchr(library, '/', (size_t)len) : NULL;
    if (end == NULL)
        fail("/proc/self/exe");
    strcpy(end, "/libjwterm.so");
    if (*name == '\0' && mkdtemp(folder) == NULL)
        fail(folder);
    if (*name == '\0')
        snprintf(name, sizeof name, "%s/tty", folder);
    else
        *folder = '\0';
    if (*name != '/')
        make_whole();
}

static uint32_t size_of_line(void) {
    struct winsize size;
    return ioctl(0, TIOCGWINSZ, &size) == 0 ? (uint32_t)size.ws_row << 16 | size.ws_col : 0;
}

static bool is_size(const char *text, uint32_t *size) {
    unsigned rows, columns;
    char more;
    if (sscanf(text, "%ux%u%c", &rows, &columns, &more) != 2 || rows > UINT16_MAX || columns > UINT16_MAX)
        return false;
    *size = rows << 16 | columns;
    return true;
}

/* What is left goes out, as long as the line takes it. */
static void send_rest(void) {
    uint64_t until = tenths() + LONGEST;
    size_t len;
    for (port_work(tenths()); port_out(&len), len > 0 && tenths() < until; port_work(tenths())) {
        struct pollfd it = {.fd = line_out, .events = POLLOUT};
        if (poll(&it, 1, PAUSE) > 0)
            send_line();
    }
}

static void run(void) {
    for (bool is_told = false; !has_ended || is_told;) {
        reap();
        is_told = has_ended && !is_told;
        port_work(tenths());
        if (is_over && is_up)
            end_line();
        if (!has_ended)
            serve_once();
    }
    send_rest();
}

int main(int argc, char **argv) {
    const char *words[MOST_WORDS];
    size_t count = 0;
    uint32_t size = size_of_line();
    for (int option; (option = getopt(argc, argv, "+n:w:z:")) != -1;) {
        if (option == 'n' && strlen(optarg) < sizeof name)
            strcpy(name, optarg);
        else if (option == 'w' && count < MOST_WORDS)
            words[count++] = optarg;
        else if (option != 'z' || !is_size(optarg, &size))
            return usage();
    }
    if (optind == argc)
        return usage();
    find_places();
    if (!port_make(name, size))
        return 1;
    for (size_t k = 0; k < count; k++)
        if (port_set(words[k]) != 0)
            return usage();
    sigaction(SIGCHLD, &(struct sigaction){.sa_handler = wake}, NULL);
    sigaction(SIGTERM, &(struct sigaction){.sa_handler = end}, NULL);
    sigaction(SIGHUP, &(struct sigaction){.sa_handler = end}, NULL);
    sigaction(SIGPIPE, &(struct sigaction){.sa_handler = SIG_IGN}, NULL);
    make_raw();
    open_line_out();
    start_session(argv + optind);
    run();
    if (was_terminal)
        tcsetattr(0, TCSADRAIN, &modes_before);
    port_end();
    if (*folder != '\0')
        rmdir(folder);
    return status;
}
