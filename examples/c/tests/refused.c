/* refused: what becomes of a call whose memory is refused.

   Plays a row once for each allocation that it makes, which is refused: the call answers JW_NO_MEMORY and has
   changed nothing, so that it is made again and all goes on as if nothing had been. Says how many were refused.
   Links the heap below in the place of heap.c. */
#define _XOPEN_SOURCE 700
#include "check.h"

#include <errno.h>
#include <fcntl.h>

/* ---- a heap that refuses one allocation ---- */

struct tried {
    bool ok;
    void *p;
};

struct tried rattle_alloc(size_t size, size_t align);
struct tried rattle_realloc(void *p, size_t kept, size_t size, size_t align);
void rattle_dealloc(void *p);

static uint64_t asked, refused;
static int64_t blocks;

static struct tried answer(void *p) {
    static char nothing;
    return p != NULL ? (struct tried){true, p} : (struct tried){false, &nothing};
}

struct tried rattle_alloc(size_t size, size_t align) {
    void *p = ++asked == refused ? NULL : malloc(size != 0 ? size : align);
    blocks += p != NULL;
    return answer(p);
}

struct tried rattle_realloc(void *p, size_t kept, size_t size, size_t align) {
    (void)kept;
    return answer(++asked == refused ? NULL : realloc(p, size != 0 ? size : align));
}

void rattle_dealloc(void *p) {
    blocks -= p != NULL;
    free(p);
}

/* ---- the rows ---- */

static uint64_t refusals;

/* Makes a call again where its memory was refused. */
#define AGAIN(answer, call)           \
    do {                              \
        (answer) = (call);            \
        refusals += (answer) == JW_NO_MEMORY; \
    } while ((answer) == JW_NO_MEMORY)

#define DOES(call, wanted)            \
    do {                              \
        int64_t answer_;              \
        AGAIN(answer_, call);         \
        IS(answer_, wanted);          \
    } while (0)

/* All that a play answers and leaves, folded into a number. */
static uint64_t seen;

static void see(int64_t number) {
    seen = (seen ^ (uint64_t)number) * 1099511628211u;
}

static void see_bytes(const uint8_t *bytes, int64_t count) {
    see(count);
    for (int64_t k = 0; k < count; k++)
        see(bytes[k]);
}

static void see_port(jw_port *port, jw_line *line) {
    static uint8_t place[300];
    int64_t count;
    do {
        AGAIN(count, jw_port_take_wire(port, place, sizeof place));
        see_bytes(place, count);
    } while (count > 0);
    do {
        AGAIN(count, jw_port_take_signal(port));
        see(count);
    } while (count > 0);
    see(jw_port_received(port));
    see(jw_port_dropped(port));
    look_at_account(port, line);
}

static void comes(jw_port *port, jw_line *line, const char *text) {
    IS(jw_line_put(line, bytes_of(text), strlen(text), JW_NORMAL), (int64_t)strlen(text));
    IS(jw_line_push(line), 0);
    for (int64_t took = 1; took > 0; see(took))
        AGAIN(took, jw_port_receive(port, 64));
}

static void reads(jw_port *port) {
    static uint8_t place[5000];
    int64_t count;
    AGAIN(count, jw_port_read(port, 0, 3, place, sizeof place));
    see(count);
    if (count > 0)
        see_bytes(place, count);
}

static void set(jw_port *port, const char *word) {
    DOES(jw_port_set(port, 0, 3, TCSAFLUSH, bytes_of(word), strlen(word)), 0);
}

static void writes(jw_port *port, const uint8_t *bytes, size_t len) {
    for (int64_t count; len > 0; bytes += count, len -= (size_t)count) {
        AGAIN(count, jw_port_write(port, 0, 3, bytes, len));
        see(count);
        if (count <= 0)
            return;
    }
}

static void play_discipline(jw_port *port, jw_line *line) {
    static uint8_t text[6000];
    memset(text, 'x', sizeof text);
    DOES(jw_port_open(port, 0, 3, O_RDWR, true), 0);
    comes(port, line, "a line\tand\177\027 one\025three\r\003\032second\r");
    reads(port);
    reads(port);
    DOES(jw_port_flow(port, 0, 3, TCOOFF), 0);
    writes(port, text, sizeof text);
    DOES(jw_port_flow(port, 0, 3, TCOON), 0);
    see_port(port, line);
    set(port, "raw");
    for (int k = 0; k < 70; k++)
        comes(port, line, "sixty-four characters, sixty-four characters, sixty-four charact");
    see_port(port, line);
    reads(port);
    DOES(jw_port_flush(port, 0, 3, TCIOFLUSH), 0);
    set(port, "sane");
    DOES(jw_port_count(port, 0, 3, JW_CUTS), 0);
    DOES(jw_port_flag(port, 0, 3, JW_ECHO), 1);
    DOES(jw_port_character(port, 0, 3, JW_VINTR), 3);
}

static void play_packets(jw_port *port, jw_line *line) {
    static uint8_t place[1006];
    int64_t count;
    DOES(jw_port_setd(port, 0, 3, 1), 0);
    comes(port, line, "packet\300another\300");
    AGAIN(count, jw_port_take(port, 0, 3, place, sizeof place));
    see_bytes(place, count);
    memset(place, 0xc0, sizeof place);
    DOES(jw_port_send(port, 0, 3, place, sizeof place), 0);
    see_port(port, line);
    DOES(jw_port_setd(port, 0, 3, 0), 0);
    DOES(jw_port_vhangup(port, 0, 3), 0);
    DOES(jw_port_close(port, 0, 3), 0);
    DOES(jw_port_open(port, 0, 3, O_RDWR, false), 0);
    DOES(jw_port_read(port, 0, 3, place, sizeof place), JW_WAITS);
    DOES(jw_port_hang_up(port), 0);
    DOES(jw_port_close(port, 0, 3), 0);
    see_port(port, line);
}

static void play_port(void) {
    jw_port port = {0};
    jw_line line = {0};
    DOES(jw_port_new(&port, &line, 3, 4096), 0);
    play_discipline(&port, &line);
    play_packets(&port, &line);
    IS(jw_line_free(&line), 0);
    IS(jw_port_free(&port), 0);
}

static void play_whole_port(void) {
    static uint8_t text[200], place[300];
    jw_port port = {0};
    int64_t count;
    memset(text, 'x', sizeof text);
    DOES(jw_port_new_whole(&port, 3, 4096), 0);
    DOES(jw_port_take_in(&port, bytes_of("early"), 5, JW_NORMAL), 5);
    DOES(jw_port_open(&port, 0, 3, O_RDWR, true), 0);
    DOES(jw_port_take_in(&port, bytes_of("\177 line\r"), 7, JW_NORMAL), 7);
    DOES(jw_port_take_in(&port, bytes_of("\003"), 1, JW_NORMAL), 1);
    DOES(jw_port_set(&port, 0, 3, TCSANOW, bytes_of("raw"), 3), 0);
    for (int k = 0; k < 24; k++)
        DOES(jw_port_take_in(&port, text, sizeof text, JW_NORMAL), 200);
    AGAIN(count, jw_port_read(&port, 0, 3, place, sizeof place));
    see_bytes(place, count);
    do {
        AGAIN(count, jw_port_take_wire(&port, place, sizeof place));
        see_bytes(place, count);
    } while (count > 0);
    DOES(jw_port_take_signal(&port), 2);
    see(jw_port_received(&port));
    see(jw_port_waiting(&port));
    IS(jw_port_free(&port), 0);
}

static void play_tty(void) {
    static uint8_t place[4096];
    jw_tty tty = {0};
    int64_t answer;
    memset(place, 'x', sizeof place);
    DOES(jw_new(&tty), 0);
    DOES(jw_receive(&tty, 'a', JW_NORMAL), 1);
    DOES(jw_receive_bytes(&tty, bytes_of("bc\tde\177\025xyz\003\r"), 13), 13);
    AGAIN(answer, jw_read(&tty, false, 0, place, sizeof place));
    see_bytes(place, answer);
    for (int k = 0; k < 80; k++)
        DOES(jw_write(&tty, place, 64), 64);
    do {
        AGAIN(answer, jw_take_wire(&tty, place, sizeof place));
        see_bytes(place, answer);
    } while (answer > 0);
    DOES(jw_take_signal(&tty), 2);
    DOES(jw_set(&tty, bytes_of("raw"), 3), 1);
    IS(jw_free(&tty), 0);
}

static void play_uart(void) {
    jw_uart uart = {0};
    DOES(jw_uart_new(&uart), 0);
    DOES(jw_uart_arrive(&uart, 'a', JW_NORMAL), 0);
    IS(jw_uart_free(&uart), 0);
}

/* Plays a row with nothing refused, and then once for each of its allocations. */
static void refuse_each(const char *name, void (*play)(void)) {
    asked = refused = refusals = seen = 0;
    play();
    uint64_t whole = seen, most = asked;
    for (refused = 1; refused <= most; refused++) {
        asked = refusals = seen = 0;
        play();
        IS((int64_t)refusals, 1);
        IS(seen == whole, 1);
        IS(blocks, 0);
    }
    printf("%s: each of %" PRIu64 " allocations refused\n", name, most);
}

int main(void) {
    refuse_each("N_TTY", play_tty);
    refuse_each("port", play_port);
    refuse_each("port that has its line", play_whole_port);
    refuse_each("16550", play_uart);
    return 0;
}
