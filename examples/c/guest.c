/* guest: a 16550 between a serial line and a guest's driver, as the console of a virtual machine has it.

   guest [-s]    Standard input is the line. Each byte of it arrives at the receiver; after a newline four character
                 times pass in which nothing comes. `!` arrives with a parity error, `?` with a framing error, `^` is a
                 break. The guest's driver, which this program plays, serves each interrupt; with -s it is slow, and has
                 interrupts masked while a line comes. Prints what the driver did, and the line that it received. */
#include "jinthwyr.h"

#include <stdio.h>
#include <string.h>

/* Registers by their offsets, and bits of them. */
enum { RBR = 0, IER = 1, IIR = 2, FCR = 2, LCR = 3, MCR = 4, LSR = 5, MSR = 6 };
enum { DATA = 0x01, OVERRUN = 0x02, PARITY = 0x04, FRAMING = 0x08, BREAK = 0x10 };
enum { LINE_STATUS = 0x06, TRIGGER = 0x04, TIMEOUT = 0x0c };

/* ---- the machine: what a virtual machine's monitor does at the guest's IN and OUT ---- */

static jw_uart uart;

static uint8_t in(uint8_t port) {
    return (uint8_t)jw_uart_read(&uart, port);
}

static void out(uint8_t port, uint8_t value) {
    jw_uart_write(&uart, port, value);
}

static void arrive(int byte) {
    uint8_t flag = byte == '!' ? JW_PARITY : byte == '?' ? JW_FRAME : byte == '^' ? JW_BREAK : JW_NORMAL;
    jw_uart_arrive(&uart, flag == JW_BREAK ? 0 : (uint8_t)byte, flag);
    if (byte == '\n')
        jw_uart_idle(&uart, 4);
}

/* ---- the guest: a driver ---- */

static char received[4096];
static size_t received_len;

/* A scratch register that keeps what is written, and FIFOs that are on: a 16550A. */
static bool probe(void) {
    out(7, 0xa5);
    out(FCR, 0x81); /* FIFOs on, a trigger of 8 */
    return in(7) == 0xa5 && (in(IIR) & 0xc0) == 0xc0;
}

static void set_up(void) {
    out(LCR, 0x83); /* the divisor latches */
    out(RBR, 0x01); /* 115,200 baud */
    out(IER, 0x00);
    out(LCR, 0x03); /* eight bits, no parity, one stop bit */
    out(MCR, 0x0b);
    out(IER, 0x05); /* received data, and line status */
}

static const char *reason_of(uint8_t identification) {
    switch (identification & 0x0f) {
    case LINE_STATUS: return "line status";
    case TRIGGER: return "trigger";
    case TIMEOUT: return "time-out";
    default: return "none";
    }
}

static void take(uint8_t status) {
    uint8_t byte = in(RBR);
    if (status & (PARITY | FRAMING | BREAK))
        printf("  %s\n", status & BREAK ? "break" : status & PARITY ? "parity error" : "framing error");
    if (!(status & BREAK) && received_len < sizeof received)
        received[received_len++] = (char)byte;
}

/* The interrupt handler: until none is pending. */
static void handle_interrupt(void) {
    for (uint8_t identification; !((identification = in(IIR)) & 0x01);) {
        size_t before = received_len;
        printf("interrupt: %s\n", reason_of(identification));
        for (uint8_t status; (status = in(LSR)) & DATA;) {
            if (status & OVERRUN)
                printf("  overrun: characters were lost\n");
            take(status);
        }
        printf("  %zu characters\n", received_len - before);
    }
}

int main(int argc, char **argv) {
    bool is_slow = argc > 1 && strcmp(argv[1], "-s") == 0;
    if (jw_uart_new(&uart) != 0 || !probe()) {
        fprintf(stderr, "guest: no 16550\n");
        return 1;
    }
    set_up();
    for (int byte; (byte = getchar()) != EOF;) {
        arrive(byte);
        if ((!is_slow || byte == '\n') && jw_uart_pending(&uart) == 1)
            handle_interrupt();
    }
    printf("received: %.*s\n", (int)received_len, received);
    return jw_uart_free(&uart) == 0 ? 0 : 1;
}
