/* calls: each call of the library once where it does its work, and each answer once. Says nothing where all is well. */
#define _XOPEN_SOURCE 700
#include "check.h"

#include <errno.h>
#include <fcntl.h>

/* ---- N_TTY by itself ---- */

static void no_terminal(void) {
    jw_tty tty = {0};
    uint8_t place[8];
    IS(jw_receive(&tty, 'a', JW_NORMAL), JW_NO_TERMINAL);
    IS(jw_receive_bytes(&tty, place, 0), JW_NO_TERMINAL);
    IS(jw_advance(&tty, 1), JW_NO_TERMINAL);
    IS(jw_ready(&tty, false, 0, 1), JW_NO_TERMINAL);
    IS(jw_read(&tty, false, 0, place, sizeof place), JW_NO_TERMINAL);
    IS(jw_write(&tty, place, 0), JW_NO_TERMINAL);
    IS(jw_set(&tty, bytes_of("raw"), 3), JW_NO_TERMINAL);
    IS(jw_take_wire(&tty, place, sizeof place), JW_NO_TERMINAL);
    IS(jw_take_signal(&tty), JW_NO_TERMINAL);
    IS(jw_unread(&tty), JW_NO_TERMINAL);
    IS(jw_free(&tty), JW_NO_TERMINAL);
}

static void a_terminal(void) {
    jw_tty tty = {0};
    uint8_t place[64];
    IS(jw_new(&tty), 0);
    IS(jw_new(&tty), JW_MADE);
    IS(jw_receive(&tty, 'a', JW_NORMAL), 1);
    IS(jw_receive(&tty, 'a', 9), JW_NO_FLAG);
    IS(jw_receive_bytes(&tty, bytes_of("b\rc"), 3), 3);
    IS(jw_unread(&tty), 4);
    IS(jw_ready(&tty, false, 0, 64), 1);
    IS(jw_read(&tty, false, 0, place, sizeof place), 3);
    IS(memcmp(place, "ab\n", 3), 0);
    IS(jw_read(&tty, false, 0, place, sizeof place), JW_WAITS);
    IS(jw_write(&tty, bytes_of("x\n"), 2), 2);
    IS(jw_take_wire(&tty, place, sizeof place), 8);
    IS(memcmp(place, "ab\r\ncx\r\n", 8), 0);
    IS(jw_receive(&tty, 3, JW_NORMAL), 1);
    IS(jw_take_signal(&tty), 2);
    IS(jw_take_signal(&tty), 0);
    IS(jw_set(&tty, bytes_of("-icanon"), 7), 1);
    IS(jw_set(&tty, bytes_of("min=0"), 5), 1);
    IS(jw_set(&tty, bytes_of("time=2"), 6), 1);
    IS(jw_set(&tty, bytes_of("-ican"), 5), 0);
    IS(jw_ready(&tty, false, 0, 1), 0);
    IS(jw_advance(&tty, 2), 0);
    IS(jw_ready(&tty, false, 0, 1), 1);
    IS(jw_free(&tty), 0);
    IS(jw_free(&tty), JW_NO_TERMINAL);
}

/* ---- a port ---- */

static void comes(jw_port *port, jw_line *line, const char *text) {
    IS(jw_line_put(line, bytes_of(text), strlen(text), JW_NORMAL), (int64_t)strlen(text));
    IS(jw_line_push(line), 0);
    while (jw_port_receive(port, 64) > 0)
        continue;
    look_at_account(port, line);
}

static void goes(jw_port *port, const char *wanted) {
    uint8_t place[256];
    IS(jw_port_take_wire(port, place, sizeof place), (int64_t)strlen(wanted));
    IS(memcmp(place, wanted, strlen(wanted)), 0);
}

static void no_port(void) {
    jw_port port = {0};
    jw_line line = {0};
    jw_account account = {.sent = 7};
    uint8_t place[8];
    IS(jw_port_open(&port, 0, 0, O_RDWR, false), JW_NO_TERMINAL);
    IS(jw_port_close(&port, 0, 0), JW_NO_TERMINAL);
    IS(jw_port_read(&port, 0, 0, place, sizeof place), JW_NO_TERMINAL);
    IS(jw_port_write(&port, 0, 0, place, 0), JW_NO_TERMINAL);
    IS(jw_port_cancel(&port, 0), JW_NO_TERMINAL);
    IS(jw_port_advance(&port, 1), JW_NO_TERMINAL);
    IS(jw_port_receive(&port, 64), JW_NO_TERMINAL);
    IS(jw_port_take_in(&port, place, 0, JW_NORMAL), JW_NO_TERMINAL);
    IS(jw_port_hang_up(&port), JW_NO_TERMINAL);
    IS(jw_port_take_wire(&port, place, sizeof place), JW_NO_TERMINAL);
    IS(jw_port_take_signal(&port), JW_NO_TERMINAL);
    IS(jw_port_received(&port), JW_NO_TERMINAL);
    IS(jw_port_dropped(&port), JW_NO_TERMINAL);
    IS(jw_port_waiting(&port), JW_NO_TERMINAL);
    IS(jw_port_account(&port, &line, &account), JW_NO_TERMINAL);
    IS((int64_t)account.sent, 7);
    IS(jw_line_put(&line, place, 0, JW_NORMAL), JW_NO_TERMINAL);
    IS(jw_line_push(&line), JW_NO_TERMINAL);
    IS(jw_line_sent(&line), JW_NO_TERMINAL);
    IS(jw_line_overruns(&line), JW_NO_TERMINAL);
    IS(jw_line_waiting(&line), JW_NO_TERMINAL);
    IS(jw_port_free(&port), JW_NO_TERMINAL);
    IS(jw_line_free(&line), JW_NO_TERMINAL);
}

static void opens(jw_port *port) {
    IS(jw_port_open(port, 0, 3, O_RDWR, false), 0);
    IS(jw_port_open(port, 0, 3, O_RDWR, false), -EEXIST);
    IS(jw_port_open(port, 0, 4, 7, false), JW_NO_FLAG);
    IS(jw_port_open(port, 9, 4, O_RDWR, false), -EINVAL);
    IS(jw_port_open(port, 0, 32, O_RDWR, false), -EBADF);
    IS(jw_port_exclude(port, 0, 3), 0);
    IS(jw_port_open(port, 1, 5, O_RDONLY, true), -EBUSY);
    IS(jw_port_admit(port, 0, 3), 0);
    IS(jw_port_open(port, 1, 5, O_RDONLY, true), 0);
    IS(jw_port_open(port, 1, 6, O_WRONLY, true), 0);
}

static void reads_and_writes(jw_port *port, jw_line *line) {
    uint8_t place[64];
    IS(jw_port_read(port, 0, 3, place, sizeof place), JW_WAITS);
    IS(jw_port_read(port, 1, 5, place, sizeof place), -EAGAIN);
    IS(jw_port_read(port, 1, 6, place, sizeof place), -EBADF);
    IS(jw_port_write(port, 1, 5, place, 1), -EBADF);
    comes(port, line, "hi\r");
    IS(jw_port_inq(port, 0, 3), 3);
    IS(jw_port_read(port, 0, 3, place, sizeof place), 3);
    IS(memcmp(place, "hi\n", 3), 0);
    goes(port, "hi\r\n");
    IS(jw_port_write(port, 0, 3, bytes_of("a\n"), 2), 2);
    goes(port, "a\r\n");
    comes(port, line, "\003");
    IS(jw_port_take_signal(port), 2);
    IS(jw_port_take_signal(port), 0);
    goes(port, "^C");
}

static void modes(jw_port *port) {
    IS(jw_port_flag(port, 0, 3, JW_ICANON), 1);
    IS(jw_port_flag(port, 0, 3, JW_ECHO), 1);
    IS(jw_port_character(port, 0, 3, JW_VINTR), 3);
    set_all(port, 0, 3, "-echo intr=24");
    IS(jw_port_flag(port, 0, 3, JW_ECHO), 0);
    IS(jw_port_character(port, 0, 3, JW_VINTR), 24);
    IS(jw_port_flag(port, 0, 3, JW_TOSTOP + 1), 0);
    IS(jw_port_flag(port, 0, 3, UINT32_MAX), 0);
    IS(jw_port_character(port, 0, 3, JW_VEOL2 + 1), 0);
    IS(jw_port_character(port, 0, 3, UINT8_MAX), 0);
    IS(jw_port_set(port, 0, 3, TCSADRAIN, bytes_of("sane"), 4), 0);
    IS(jw_port_set(port, 0, 3, TCSAFLUSH, bytes_of("-echo"), 5), 0);
    IS(jw_port_set(port, 0, 3, 3, bytes_of("echo"), 4), JW_NO_FLAG);
    IS(jw_port_set(port, 0, 3, TCSANOW, bytes_of("no word"), 7), JW_NO_FLAG);
}

static void output_and_purges(jw_port *port, jw_line *line) {
    IS(jw_port_flow(port, 0, 3, TCOOFF), 0);
    IS(jw_port_flow(port, 0, 3, 9), JW_NO_FLAG);
    IS(jw_port_write(port, 0, 3, bytes_of("held"), 4), 4);
    IS(jw_port_outq(port, 0, 3), 4);
    IS(jw_port_drain(port, 1, 3), JW_WAITS);
    IS(jw_port_cancel(port, 1), 0);
    IS(jw_port_flush(port, 0, 3, TCOFLUSH), 0);
    IS(jw_port_flush(port, 0, 3, 9), JW_NO_FLAG);
    IS(jw_port_drain(port, 1, 3), 0);
    IS(jw_port_flow(port, 0, 3, TCOON), 0);
    goes(port, "");
    IS(jw_port_flow(port, 0, 3, TCIOFF), 0);
    goes(port, "\023");
    int64_t dropped = jw_port_dropped(port);
    IS(jw_line_put(line, bytes_of("gone"), 4, JW_NORMAL), 4);
    IS(jw_line_push(line), 0);
    IS(jw_port_waiting(port), 4);
    look_at_account(port, line);
    IS(jw_port_flush(port, 0, 3, TCIFLUSH), 0);
    IS(jw_port_dropped(port), dropped + 4);
    look_at_account(port, line);
}

static void flags_and_counts(jw_port *port, jw_line *line) {
    static const uint8_t flags[] = {JW_OVERRUN, JW_PARITY, JW_FRAME, JW_BREAK};
    for (uint8_t k = 0; k < 4; k++)
        IS(jw_line_put(line, bytes_of("x"), 1, flags[k]), 1);
    IS(jw_line_put(line, bytes_of("x"), 1, 5), JW_NO_FLAG);
    comes(port, line, "");
    for (uint8_t k = JW_MARKS; k <= JW_BREAKS; k++)
        IS(jw_port_count(port, 0, 3, k), 1);
    for (uint8_t k = JW_CUTS; k <= JW_PACKETS_FULL + 1; k++)
        IS(jw_port_count(port, 0, 3, k), 0);
}

static void time_and_packets(jw_port *port, jw_line *line) {
    uint8_t place[64];
    set_all(port, 0, 3, "raw min=0 time=2");
    IS(jw_port_flush(port, 0, 3, TCIOFLUSH), 0);
    IS(jw_port_read(port, 0, 3, place, sizeof place), JW_WAITS);
    IS(jw_port_advance(port, 1), 0);
    IS(jw_port_read(port, 0, 3, place, sizeof place), JW_WAITS);
    IS(jw_port_advance(port, 2), 0);
    IS(jw_port_read(port, 0, 3, place, sizeof place), 0);
    IS(jw_port_send(port, 0, 3, bytes_of("p"), 1), -ENOTTY);
    IS(jw_port_getd(port, 0, 3), 0);
    IS(jw_port_setd(port, 0, 3, 1), 0);
    IS(jw_port_setd(port, 0, 3, 2), -EINVAL);
    IS(jw_port_getd(port, 0, 3), 1);
    IS(jw_port_read(port, 0, 3, place, sizeof place), -EIO);
    IS(jw_port_send(port, 0, 3, bytes_of("p"), 1), 0);
    goes(port, "\300p\300");
    static const uint8_t long_one[1007];
    IS(jw_port_send(port, 0, 3, long_one, sizeof long_one), -EMSGSIZE);
    IS(jw_port_take(port, 0, 3, place, sizeof place), -EAGAIN);
    comes(port, line, "abc\300");
    IS(jw_port_take(port, 0, 3, place, sizeof place), 3);
    IS(memcmp(place, "abc", 3), 0);
    IS(jw_port_count(port, 0, 3, JW_PACKETS_IN), 1);
    IS(jw_port_count(port, 0, 3, JW_PACKETS_OUT), 1);
}

static void hangups(jw_port *port) {
    uint8_t place[64];
    IS(jw_port_vhangup(port, 0, 3), 0);
    IS(jw_port_read(port, 0, 3, place, sizeof place), 0);
    IS(jw_port_write(port, 0, 3, place, 1), -EIO);
    IS(jw_port_close(port, 0, 3), 0);
    IS(jw_port_close(port, 1, 5), 0);
    IS(jw_port_close(port, 1, 6), 0);
    IS(jw_port_close(port, 1, 6), -EBADF);
    IS(jw_port_open(port, 0, 3, O_RDWR, false), 0);
    IS(jw_port_hang_up(port), 0);
    IS(jw_port_read(port, 0, 3, place, sizeof place), 0);
    IS(jw_port_close(port, 0, 3), 0);
}

/* What was put and not pushed is pushed, and told; without one of the two nothing is. */
static void account_of_both(jw_port *port, jw_line *line) {
    jw_account account, before;
    jw_port none = {0};
    jw_line no_line = {0};
    IS(jw_port_account(port, line, &before), 0);
    IS(jw_line_put(line, bytes_of("xyz"), 3, JW_NORMAL), 3);
    IS(jw_port_waiting(port), 0);
    IS(jw_port_account(port, line, &account), 0);
    IS((int64_t)(account.sent - before.sent), 3);
    IS((int64_t)account.waiting, 3);
    IS(jw_port_account(&none, line, &account), JW_NO_TERMINAL);
    IS(jw_port_account(port, &no_line, &account), JW_NO_TERMINAL);
    IS((int64_t)account.waiting, 3);
    look_at_account(port, line);
    IS(jw_port_hang_up(port), 0);
    look_at_account(port, line);
}

static void overruns(jw_port *port, jw_line *line) {
    static const uint8_t many[100];
    int64_t before = jw_line_sent(line);
    IS(jw_line_put(line, many, sizeof many, JW_NORMAL), 64);
    IS(jw_line_overruns(line), 36);
    IS(jw_line_push(line), 0);
    IS(jw_line_sent(line), before + 64);
    IS(jw_line_waiting(line), 64);
    IS(jw_port_receive(port, 64), 0); /* nobody has it open */
    look_at_account(port, line);
    IS(jw_port_hang_up(port), 0);
    IS(jw_line_waiting(line), 0);
    look_at_account(port, line);
}

static void a_port(void) {
    jw_port port = {0};
    jw_line line = {0};
    IS(jw_port_new(&port, &line, 2, 10), 0);
    IS(jw_port_new(&port, &line, 2, 10), JW_MADE);
    IS(jw_port_take_in(&port, bytes_of("a"), 1, JW_NORMAL), JW_NO_FLAG);
    opens(&port);
    reads_and_writes(&port, &line);
    modes(&port);
    output_and_purges(&port, &line);
    flags_and_counts(&port, &line);
    time_and_packets(&port, &line);
    hangups(&port);
    account_of_both(&port, &line);
    overruns(&port, &line);
    IS(jw_line_free(&line), 0);
    IS(jw_port_new(&port, &line, 2, 10), JW_MADE); /* its port is there */
    IS(jw_port_free(&port), 0);
}

/* ---- a port that has its line ---- */

/* Each character that came in was received, dropped, or waits. */
static void has_account(jw_port *port, int64_t received, int64_t dropped, int64_t waiting) {
    IS(jw_port_received(port), received);
    IS(jw_port_dropped(port), dropped);
    IS(jw_port_waiting(port), waiting);
}

static void takes_lines_in(jw_port *port) {
    uint8_t place[64];
    IS(jw_port_take_in(port, bytes_of("early\r"), 6, JW_NORMAL), 6); /* nobody has it open */
    has_account(port, 0, 0, 6);
    IS(jw_port_receive(port, 64), 0);
    IS(jw_port_open(port, 0, 3, O_RDWR, true), 0);
    IS(jw_port_take_in(port, bytes_of("ab\rc"), 4, JW_NORMAL), 4);
    has_account(port, 10, 0, 0);
    IS(jw_port_read(port, 0, 3, place, sizeof place), 6);
    IS(memcmp(place, "early\n", 6), 0);
    IS(jw_port_read(port, 0, 3, place, sizeof place), 3);
    IS(memcmp(place, "ab\n", 3), 0);
    goes(port, "early\r\nab\r\nc");
    IS(jw_port_take_in(port, bytes_of("x"), 1, JW_PARITY), 1);
    IS(jw_port_count(port, 0, 3, JW_PARITIES), 1);
    IS(jw_port_take_in(port, bytes_of("x"), 1, 5), JW_NO_FLAG);
    jw_port_take_wire(port, place, sizeof place);
    IS(jw_port_take_in(port, bytes_of(""), 0, JW_NORMAL), 0);
    IS(jw_port_take_in(port, bytes_of("\003"), 1, JW_NORMAL), 1);
    IS(jw_port_take_signal(port), 2);
    has_account(port, 12, 0, 0);
    goes(port, "^C");
}

/* The discipline holds 4,095 bytes, and the flip buffer as many as it has room for: the others are overruns. */
static void takes_in_until_full(jw_port *port) {
    static uint8_t many[8192], place[8192];
    int64_t before = jw_port_received(port);
    for (size_t k = 0; k < sizeof many; k++)
        many[k] = (uint8_t)(k % 251);
    set_all(port, 0, 3, "raw");
    int64_t taken = 0;
    while (jw_port_waiting(port) == 0)
        taken += jw_port_take_in(port, many + taken, 200, JW_NORMAL);
    IS(jw_port_received(port) - before + jw_port_waiting(port), taken);
    int64_t room = 1024 - jw_port_waiting(port);
    IS(jw_port_take_in(port, many + taken, (size_t)room + 100, JW_NORMAL), room);
    taken += room;
    IS(jw_port_take_in(port, many, 100, JW_NORMAL), 0);
    int64_t got = 0;
    for (int64_t count; (count = jw_port_read(port, 0, 3, place + got, sizeof place - (size_t)got)) > 0; got += count)
        while (jw_port_receive(port, 256) > 0)
            continue;
    IS(got, taken);
    IS(memcmp(place, many, (size_t)taken), 0);
    has_account(port, before + taken, 0, 0);
    IS(jw_port_take_in(port, many, 256, JW_NORMAL), 256); /* and on it goes */
    IS(jw_port_read(port, 0, 3, place, sizeof place), 256);
    IS(memcmp(place, many, 256), 0);
    has_account(port, before + taken + 256, 0, 0);
}

static void a_whole_port(void) {
    jw_port port = {0};
    IS(jw_port_new_whole(&port, 2, 1024), 0);
    IS(jw_port_new_whole(&port, 2, 1024), JW_MADE);
    takes_lines_in(&port);
    takes_in_until_full(&port);
    IS(jw_port_free(&port), 0);
    IS(jw_port_free(&port), JW_NO_TERMINAL);
}

/* ---- the receive side of a 16550 ---- */

enum { RBR = 0, IER = 1, IIR = 2, FCR = 2, LCR = 3, MCR = 4, LSR = 5, MSR = 6, SCR = 7 };

static void a_uart(void) {
    jw_uart uart = {0};
    IS(jw_uart_pending(&uart), JW_NO_TERMINAL);
    IS(jw_uart_arrive(&uart, 'a', JW_NORMAL), JW_NO_TERMINAL);
    IS(jw_uart_idle(&uart, 1), JW_NO_TERMINAL);
    IS(jw_uart_read(&uart, RBR), JW_NO_TERMINAL);
    IS(jw_uart_write(&uart, SCR, 1), JW_NO_TERMINAL);
    IS(jw_uart_free(&uart), JW_NO_TERMINAL);
    IS(jw_uart_new(&uart), 0);
    IS(jw_uart_new(&uart), JW_MADE);
    IS(jw_uart_read(&uart, IER), 0x05);
    IS(jw_uart_read(&uart, IIR), 0xc1);
    IS(jw_uart_read(&uart, LCR), 0x03);
    IS(jw_uart_read(&uart, MCR), 0x0b);
    IS(jw_uart_read(&uart, MSR), 0xb0);
    IS(jw_uart_write(&uart, SCR, 0x5a), 0);
    IS(jw_uart_read(&uart, SCR), 0x5a);
    IS(jw_uart_read(&uart, 8), JW_NO_FLAG);
    IS(jw_uart_write(&uart, 8, 0), JW_NO_FLAG);
    IS(jw_uart_arrive(&uart, 'a', JW_NORMAL), 0);
    IS(jw_uart_arrive(&uart, 'a', JW_OVERRUN), JW_NO_FLAG);
    IS(jw_uart_pending(&uart), 0);
    IS(jw_uart_idle(&uart, 4), 0);
    IS(jw_uart_pending(&uart), 1);
    IS(jw_uart_read(&uart, IIR), 0xcc);
    IS(jw_uart_read(&uart, LSR), 0x61);
    IS(jw_uart_read(&uart, RBR), 'a');
    IS(jw_uart_read(&uart, LSR), 0x60);
    IS(jw_uart_write(&uart, FCR, 0x01), 0); /* a trigger of 1 */
    IS(jw_uart_arrive(&uart, 'b', JW_PARITY), 0);
    IS(jw_uart_read(&uart, IIR), 0xc6);
    IS(jw_uart_read(&uart, LSR), 0xe5);
    IS(jw_uart_read(&uart, IIR), 0xc4);
    IS(jw_uart_free(&uart), 0);
    IS(jw_uart_free(&uart), JW_NO_TERMINAL);
}

int main(void) {
    no_terminal();
    a_terminal();
    no_port();
    a_port();
    a_whole_port();
    a_uart();
    return 0;
}
