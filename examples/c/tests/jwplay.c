/* jwplay: plays a session (docs/SESSIONS.md) on ports and 16550s of the library, in the order of `tty_prog run --one`.

   Reads a session that the program accepts from standard input, and tells its report without the lines of
   generations, which a port for ever does not count. After each piece of work it looks at the account, and at the
   end it says on standard error how many calls it made. Status 2 is an account that does not hold, or a text that is
   no session. */
#define _POSIX_C_SOURCE 200809L
#include "../jinthwyr.h"

#include <errno.h>
#include <fcntl.h>
#include <stdarg.h>
#include <stdio.h>
#include <stdlib.h>
#include <string.h>
#include <termios.h>

enum { MOST_PORTS = 8, MOST_WORDS = 80, MOST_READ = 65536, FIFO = 16, TIMEOUT = 4, PIECE = 64 };

struct bytes {
    char *at;
    size_t len, room;
};

struct call {
    char *words[MOST_WORDS];
    int count;
    struct bytes told;
};

struct script {
    size_t caller;
    struct call *calls;
    size_t count, next, written;
    bool waits;
};

struct phase {
    char **steps;
    size_t step_count, script_count;
    struct script *scripts;
    unsigned long ticks;
};

struct station {
    jw_port port;
    jw_line line;
    jw_uart uart;
    struct phase *phases;
    char *names[1024];
    unsigned long steps[1024];
    size_t name_count, flip;
    bool is_masked;
    uint64_t tick;
    unsigned long arrived, handed;
    struct bytes report, wire, signals;
};

static struct station stations[MOST_PORTS];
static unsigned long calls_made;
static int version, port_count;
static size_t phase_count;

static void fail(const char *what) {
    fprintf(stderr, "jwplay: %s\n", what);
    exit(2);
}

static int64_t sure(int64_t answer, const char *what) {
    calls_made++;
    if (answer < 0)
        fail(what);
    return answer;
}

static void *grown(void *at, size_t size) {
    at = realloc(at, size);
    if (at == NULL)
        fail("no memory");
    return at;
}

static void add(struct bytes *to, const char *bytes, size_t len) {
    if (to->len + len + 1 > to->room)
        to->at = grown(to->at, to->room = 2 * (to->len + len + 1));
    if (len > 0)
        memcpy(to->at + to->len, bytes, len);
    to->len += len;
    to->at[to->len] = '\0';
}

__attribute__((format(printf, 2, 3))) static void say(struct bytes *to, const char *format, ...) {
    char text[256];
    va_list rest;
    va_start(rest, format);
    int len = vsnprintf(text, sizeof text, format, rest);
    va_end(rest);
    add(to, text, (size_t)len);
}

static void say_hex(struct bytes *to, const uint8_t *bytes, size_t len) {
    static const char digits[] = "0123456789abcdef";
    for (size_t k = 0; k < len; k++)
        add(to, (char[]){digits[bytes[k] >> 4], digits[bytes[k] & 15]}, 2);
}

/* ---- a session's text ---- */

static int words_of(char *text, char **words) {
    int count = 0;
    for (char *word = strtok(text, " \t\r"); word != NULL; word = strtok(NULL, " \t\r")) {
        if (count == MOST_WORDS)
            fail("a line has too many words");
        words[count++] = word;
    }
    return count;
}

static unsigned long number(const char *word) {
    return word != NULL ? strtoul(word, NULL, 10) : 0;
}

static size_t bytes_of(const char *hex, uint8_t *bytes) {
    size_t len = strlen(hex) / 2;
    for (size_t k = 0; k < len; k++)
        bytes[k] = (uint8_t)strtoul((char[]){hex[2 * k], hex[2 * k + 1], '\0'}, NULL, 16);
    return len;
}

static size_t caller_of(struct station *s, char *name) {
    for (size_t k = 0; k < s->name_count; k++)
        if (strcmp(s->names[k], name) == 0)
            return k;
    if (s->name_count == sizeof s->names / sizeof *s->names)
        fail("too many callers");
    s->names[s->name_count] = name;
    return s->name_count++;
}

static void add_phase(void) {
    for (int p = 0; p < port_count; p++) {
        stations[p].phases = grown(stations[p].phases, (phase_count + 1) * sizeof(struct phase));
        stations[p].phases[phase_count] = (struct phase){0};
    }
    phase_count++;
}

/* Where the lines of a block belong to: a line, a clock or a caller's script. */
struct block {
    struct phase *phase;
    bool is_line;
};

static void add_call(struct phase *phase, const struct call *call) {
    struct script *script = &phase->scripts[phase->script_count - 1];
    script->calls = grown(script->calls, (script->count + 1) * sizeof *call);
    script->calls[script->count++] = *call;
}

static void add_script(struct phase *phase, size_t caller) {
    phase->scripts = grown(phase->scripts, (phase->script_count + 1) * sizeof *phase->scripts);
    phase->scripts[phase->script_count++] = (struct script){.caller = caller};
}

static struct station *station_of(const char *word) {
    unsigned long p = number(word);
    if (word == NULL || p >= (unsigned long)port_count)
        fail("no such port");
    return &stations[p];
}

/* What opens a block, or stands outside of all. */
static bool hear_frame(const struct call *line, struct block *block) {
    char *const *w = line->words;
    if (strcmp(w[0], "tty-session") == 0) {
        version = (int)number(w[1]);
    } else if (strcmp(w[0], "ports") == 0) {
        port_count = (int)number(w[1]);
        if (port_count < 1 || port_count > MOST_PORTS)
            fail("no such number of ports");
    } else if (strcmp(w[0], "flip") == 0) {
        station_of(w[1])->flip = number(w[2]);
    } else if (strcmp(w[0], "phase") == 0) {
        add_phase();
    } else if (strcmp(w[0], "line") == 0 || strcmp(w[0], "clock") == 0) {
        *block = (struct block){&station_of(w[1])->phases[phase_count - 1], true};
    } else if (strcmp(w[0], "caller") == 0) {
        struct station *s = station_of(w[2]);
        *block = (struct block){&s->phases[phase_count - 1], false};
        add_script(block->phase, caller_of(s, w[1]));
    } else {
        return strcmp(w[0], "end") == 0;
    }
    return true;
}

static void hear(char *text, struct block *block) {
    struct call line = {0};
    if (strncmp(text, "rx", 2) != 0 && ((line.count = words_of(text, line.words)) == 0 || line.words[0][0] == '#'))
        return;
    if (line.count > 0 && hear_frame(&line, block))
        return;
    if (block->phase == NULL)
        fail("a line before all blocks");
    if (!block->is_line) {
        add_call(block->phase, &line);
    } else if (line.count > 0 && strcmp(line.words[0], "tick") == 0) {
        block->phase->ticks += number(line.words[1]);
    } else {
        char *step = line.count > 0 ? line.words[0] : text;
        if (line.count > 1)
            step[strlen(step)] = ' '; /* a step keeps its words in one text */
        block->phase->steps = grown(block->phase->steps, (block->phase->step_count + 1) * sizeof step);
        block->phase->steps[block->phase->step_count++] = step;
    }
}

static void hear_all(void) {
    static struct bytes text; /* the words of the session stand in it */
    struct block block = {0};
    char piece[65536];
    for (size_t len; (len = fread(piece, 1, sizeof piece, stdin)) > 0;)
        add(&text, piece, len);
    add(&text, "", 0);
    for (char *line = text.at, *next; line != NULL; line = next) {
        next = strchr(line, '\n');
        if (next != NULL)
            *next++ = '\0';
        hear(line, &block);
    }
    if (port_count == 0)
        fail("no session");
}

/* ---- the line: a 16550, and an interrupt handler that puts what it takes ---- */

static void look_at_account(struct station *s) {
    int64_t sent = sure(jw_line_sent(&s->line), "jw_line_sent");
    int64_t received = sure(jw_port_received(&s->port), "jw_port_received");
    int64_t dropped = sure(jw_port_dropped(&s->port), "jw_port_dropped");
    if (sent != received + dropped + sure(jw_port_waiting(&s->port), "jw_port_waiting"))
        fail("the account does not hold");
}

/* What went out and was raised is kept for the report. */
static void keep_output(struct station *s) {
    static const char *const names[] = {[2] = "INT", [3] = "QUIT", [20] = "SUSP"};
    uint8_t place[4096];
    for (int64_t n; (n = sure(jw_port_take_wire(&s->port, place, sizeof place), "jw_port_take_wire")) > 0;)
        say_hex(&s->wire, place, (size_t)n);
    for (int64_t n; (n = sure(jw_port_take_signal(&s->port), "jw_port_take_signal")) > 0;)
        say(&s->signals, " %s", names[n]);
}

static uint8_t flag_of(int64_t status) {
    return status & 0x10 ? JW_BREAK : status & 0x04 ? JW_PARITY : status & 0x08 ? JW_FRAME : JW_NORMAL;
}

static size_t run_handler(struct station *s) {
    int64_t before = jw_line_sent(&s->line);
    if (s->is_masked || sure(jw_uart_pending(&s->uart), "jw_uart_pending") == 0)
        return 0;
    for (int64_t status; (status = sure(jw_uart_read(&s->uart, 5), "line status")) & 0x01;) {
        uint8_t byte = (uint8_t)sure(jw_uart_read(&s->uart, 0), "receiver buffer");
        sure(jw_line_put(&s->line, &byte, 1, flag_of(status)), "jw_line_put");
        s->handed++;
        if (status & 0x02)
            sure(jw_line_put(&s->line, &(uint8_t){0}, 1, JW_OVERRUN), "jw_line_put");
    }
    sure(jw_line_push(&s->line), "jw_line_push");
    return (size_t)(jw_line_sent(&s->line) - before);
}

/* After each step what the handler has put goes to the discipline, as far as it is accepted. */
static void after_step(struct station *s) {
    size_t put = run_handler(s);
    if (put > 0)
        sure(jw_port_receive(&s->port, put < PIECE ? put : PIECE), "jw_port_receive");
}

static void arrive(struct station *s, uint8_t byte, uint8_t flag) {
    sure(jw_uart_arrive(&s->uart, byte, flag), "jw_uart_arrive");
    s->arrived++;
    after_step(s);
}

static void arrive_all(struct station *s, const char *hex, uint8_t flag) {
    for (; hex[0] != '\0' && hex[1] != '\0'; hex += 2) {
        uint8_t byte = 0;
        bytes_of((char[]){hex[0], hex[1], '\0'}, &byte);
        arrive(s, byte, flag);
    }
}

static uint8_t control_of(unsigned long trigger) {
    return trigger == 1 ? 0x01 : trigger == 4 ? 0x41 : trigger == 8 ? 0x81 : 0xc1;
}

static void play_step(struct station *s, char *text) {
    char *words[MOST_WORDS] = {""};
    int count = words_of(text, words);
    const char *verb = words[0], *what = count > 1 ? words[1] : "";
    if (strcmp(verb, "rx") == 0 || strcmp(verb, "rxp") == 0 || strcmp(verb, "rxf") == 0) {
        arrive_all(s, what, verb[2] == 'p' ? JW_PARITY : verb[2] == 'f' ? JW_FRAME : JW_NORMAL);
        return;
    }
    if (strcmp(verb, "break") == 0) {
        arrive(s, 0, JW_BREAK);
        return;
    }
    if (strcmp(verb, "idle") == 0)
        sure(jw_uart_idle(&s->uart, (uint32_t)number(what)), "jw_uart_idle");
    else if (strcmp(verb, "trigger") == 0)
        sure(jw_uart_write(&s->uart, 2, control_of(number(what))), "jw_uart_write");
    else
        s->is_masked = strcmp(verb, "mask") == 0;
    after_step(s);
}

static void play_line(struct station *s, struct phase *phase) {
    for (size_t k = 0; k < phase->step_count; k++)
        play_step(s, phase->steps[k]);
    s->is_masked = false;
    after_step(s);
    sure(jw_uart_idle(&s->uart, TIMEOUT), "jw_uart_idle");
    after_step(s);
    keep_output(s);
    look_at_account(s);
}

/* ---- calls ---- */

static const char *const flag_names[] = {
    [JW_IGNBRK] = "ignbrk", [JW_BRKINT] = "brkint", [JW_IGNPAR] = "ignpar", [JW_PARMRK] = "parmrk",
    [JW_INPCK] = "inpck", [JW_ISTRIP] = "istrip", [JW_INLCR] = "inlcr", [JW_IGNCR] = "igncr",
    [JW_ICRNL] = "icrnl", [JW_IXON] = "ixon", [JW_IXANY] = "ixany", [JW_IXOFF] = "ixoff", [JW_OPOST] = "opost",
    [JW_ONLCR] = "onlcr", [JW_OCRNL] = "ocrnl",
    [JW_ONOCR] = "onocr", [JW_TAB3] = "tab3", [JW_ISIG] = "isig", [JW_ICANON] = "icanon", [JW_ECHO] = "echo",
    [JW_ECHOE] = "echoe", [JW_ECHOK] = "echok", [JW_ECHOKE] = "echoke", [JW_ECHONL] = "echonl",
    [JW_ECHOCTL] = "echoctl", [JW_NOFLSH] = "noflsh", [JW_IEXTEN] = "iexten", [JW_IUTF8] = "iutf8",
    [JW_TOSTOP] = "tostop",
};

static const char *const character_names[] = {
    [JW_VINTR] = "intr", [JW_VQUIT] = "quit", [JW_VERASE] = "erase", [JW_VKILL] = "kill", [JW_VEOF] = "eof",
    [JW_VTIME] = "time", [JW_VMIN] = "min", [JW_VSTART] = "start", [JW_VSTOP] = "stop", [JW_VSUSP] = "susp",
    [JW_VEOL] = "eol", [JW_VREPRINT] = "reprint", [JW_VWERASE] = "werase", [JW_VLNEXT] = "lnext", [JW_VEOL2] = "eol2",
};

static const char *const count_names[] = {
    [JW_MARKS] = "mark", [JW_PARITIES] = "parity", [JW_FRAMES] = "frame", [JW_BREAKS] = "break", [JW_CUTS] = "cut",
    [JW_ECHOES] = "echo", [JW_PACKETS_IN] = "pin", [JW_PACKETS_OUT] = "pout", [JW_PACKETS_BAD] = "pbad",
    [JW_PACKETS_FULL] = "pfull",
};

#define COUNT_OF(list) (sizeof(list) / sizeof *(list))

static const char *error_name(int64_t answer) {
    switch (answer) {
    case -EBADF: return "EBADF";
    case -EEXIST: return "EEXIST";
    case -EBUSY: return "EBUSY";
    case -EAGAIN: return "EAGAIN";
    case -EIO: return "EIO";
    case -EINVAL: return "EINVAL";
    case -ENOTTY: return "ENOTTY";
    case -EMSGSIZE: return "EMSGSIZE";
    default: fail("an answer that is none"); return "";
    }
}

static uint8_t place_in(const char *word, const char *const *names, uint8_t count) {
    for (uint8_t k = 0; k < count; k++)
        if (strcmp(word, names[k]) == 0)
            return k;
    fail("a word that is none");
    return 0;
}

static int64_t tell_modes(struct station *s, size_t caller, uint8_t h, struct bytes *told) {
    for (uint32_t k = 0; k < COUNT_OF(flag_names); k++) {
        int64_t is_set = jw_port_flag(&s->port, caller, h, k);
        calls_made++;
        if (is_set < 0)
            return is_set;
        if (is_set == 1)
            say(told, " %s", flag_names[k]);
    }
    for (uint8_t k = 0; k < COUNT_OF(character_names); k++)
        say(told, " %s=%lld", character_names[k],
            (long long)sure(jw_port_character(&s->port, caller, h, k), "jw_port_character"));
    return 0;
}

static int64_t tell_counts(struct station *s, size_t caller, uint8_t h, struct bytes *told) {
    for (uint8_t k = 0; k < COUNT_OF(count_names); k++) {
        int64_t count = jw_port_count(&s->port, caller, h, k);
        calls_made++;
        if (count < 0)
            return count;
        say(told, " %s=%lld", count_names[k], (long long)count);
    }
    return 0;
}

/* The first word is set when it is to be, and the others then. */
static int64_t set_modes(struct station *s, size_t caller, uint8_t h, const struct call *call) {
    static const char *const whens[] = {[TCSANOW] = "now", [TCSADRAIN] = "drain", [TCSAFLUSH] = "flush"};
    uint8_t when = place_in(call->words[2], whens, COUNT_OF(whens));
    for (int k = 3; k < call->count; k++) {
        const char *word = call->words[k];
        int64_t answer = jw_port_set(&s->port, caller, h, when, (const uint8_t *)word, strlen(word));
        calls_made++;
        if (answer != 0)
            return answer;
        when = TCSANOW;
    }
    return 0;
}

static int64_t transfer(struct station *s, size_t caller, uint8_t h, const struct call *call, struct script *script) {
    static uint8_t place[MOST_READ];
    const char *verb = call->words[0];
    int64_t answer;
    if (strcmp(verb, "read") == 0 || strcmp(verb, "take") == 0) {
        answer = verb[0] == 't' ? jw_port_take(&s->port, caller, h, place, sizeof place)
                                : jw_port_read(&s->port, caller, h, place, number(call->words[2]));
        if (answer >= 0)
            say(&script->calls[script->next].told, " %lld%s", (long long)answer, answer > 0 ? " " : "");
        if (answer > 0)
            say_hex(&script->calls[script->next].told, place, (size_t)answer);
        return answer < 0 ? answer : 0;
    }
    size_t len = bytes_of(call->words[2], place);
    if (verb[0] == 's')
        return jw_port_send(&s->port, caller, h, place, len);
    answer = jw_port_write(&s->port, caller, h, place + script->written, len - script->written);
    if (answer == JW_WAITS || (answer < 0 && script->written == 0))
        return answer;
    script->written += answer > 0 ? (size_t)answer : 0;
    if (answer > 0 && script->written < len)
        return 1; /* a part: the write goes on */
    say(&script->calls[script->next].told, " %zu", script->written);
    return 0;
}

static int64_t tell_number(int64_t answer, struct bytes *told) {
    if (answer >= 0)
        say(told, " %lld", (long long)answer);
    return answer < 0 ? answer : 0;
}

static uint8_t access_of(const char *word) {
    return strcmp(word, "r") == 0 ? O_RDONLY : strcmp(word, "w") == 0 ? O_WRONLY : O_RDWR;
}

static int64_t make_call(struct station *s, size_t c, const struct call *call, struct script *script) {
    static const char *const queues[] = {[TCIFLUSH] = "in", [TCOFLUSH] = "out", [TCIOFLUSH] = "both"};
    static const char *const acts[] = {[TCOOFF] = "ooff", [TCOON] = "oon", [TCIOFF] = "ioff", [TCION] = "ion"};
    struct bytes *told = &script->calls[script->next].told;
    char *const *w = call->words;
    uint8_t h = (uint8_t)number(w[1]);
#define IS(word) (strcmp(w[0], (word)) == 0)
    if (IS("open")) return jw_port_open(&s->port, c, h, access_of(w[2]), call->count > 3);
    if (IS("close")) return jw_port_close(&s->port, c, h);
    if (IS("getm")) return tell_modes(s, c, h, told);
    if (IS("modes")) return set_modes(s, c, h, call);
    if (IS("getd")) return tell_number(jw_port_getd(&s->port, c, h), told);
    if (IS("setd")) return jw_port_setd(&s->port, c, h, (uint32_t)number(w[2]));
    if (IS("flush")) return jw_port_flush(&s->port, c, h, place_in(w[2], queues, COUNT_OF(queues)));
    if (IS("xonc")) return jw_port_flow(&s->port, c, h, place_in(w[2], acts, COUNT_OF(acts)));
    if (IS("inq")) return tell_number(jw_port_inq(&s->port, c, h), told);
    if (IS("outq")) return tell_number(jw_port_outq(&s->port, c, h), told);
    if (IS("excl")) return jw_port_exclude(&s->port, c, h);
    if (IS("nxcl")) return jw_port_admit(&s->port, c, h);
    if (IS("drain")) return jw_port_drain(&s->port, c, h);
    if (IS("counts")) return tell_counts(s, c, h, told);
    if (IS("vhangup")) return jw_port_vhangup(&s->port, c, h);
    return transfer(s, c, h, call, script);
#undef IS
}

/* The call is over: its answer is told, and the next one of the caller comes. */
static void end_call(struct script *script, int64_t answer) {
    struct call *call = &script->calls[script->next++];
    script->waits = false;
    script->written = 0;
    if (answer < 0)
        say(&call->told, " %s", answer == JW_WAITS ? "idle" : error_name(answer));
    else if (call->told.len == 0)
        say(&call->told, " ok");
}

/* Tries the next call of a caller; answers false where it must wait. */
static bool try_call(struct station *s, struct script *script) {
    int64_t answer;
    do {
        calls_made++;
        answer = make_call(s, script->caller, &script->calls[script->next], script);
        keep_output(s);
        if (answer == JW_WAITS) {
            bool began = !script->waits;
            script->waits = true;
            return began;
        }
    } while (answer > 0);
    end_call(script, answer);
    return true;
}

static bool somebody_goes_on(struct station *s, struct phase *phase) {
    for (size_t k = 0; k < phase->script_count; k++) {
        struct script *script = &phase->scripts[k];
        if (script->next < script->count && try_call(s, script))
            return true;
    }
    return false;
}

/* The first that waits is told that nothing will happen any more. */
static bool somebody_is_idle(struct station *s, struct phase *phase) {
    for (size_t k = 0; k < phase->script_count; k++) {
        struct script *script = &phase->scripts[k];
        if (script->waits) {
            sure(jw_port_cancel(&s->port, script->caller), "jw_port_cancel");
            end_call(script, JW_WAITS);
            return true;
        }
    }
    return false;
}

static void play_after_line(struct station *s, struct phase *phase) {
    for (unsigned long ticks = phase->ticks;;) {
        while (sure(jw_port_receive(&s->port, PIECE), "jw_port_receive") > 0)
            continue;
        keep_output(s);
        if (somebody_goes_on(s, phase))
            continue;
        look_at_account(s);
        if (ticks > 0) {
            ticks--;
            sure(jw_port_advance(&s->port, ++s->tick), "jw_port_advance");
        } else if (!somebody_is_idle(s, phase)) {
            return;
        }
    }
}

/* ---- the report ---- */

static void tell_calls(struct station *s, int p) {
    for (size_t phase = 0; phase < phase_count; phase++)
        for (size_t k = 0; k < s->phases[phase].script_count; k++) {
            struct script *script = &s->phases[phase].scripts[k];
            for (size_t n = 0; n < script->count; n++)
                printf("%d.%s.%lu %s%s\n", p, s->names[script->caller], s->steps[script->caller]++,
                    script->calls[n].words[0], script->calls[n].told.at);
        }
}

static void tell_port(struct station *s, int p, const char *counts) {
    printf("port %d line arrived=%lu lost=%lu sent=%lld overrun=%lld", p, s->arrived, s->arrived - s->handed,
        (long long)jw_line_sent(&s->line), (long long)jw_line_overruns(&s->line));
    if (version == 2)
        printf(" flip=%zu", s->flip);
    printf("\nport %d input taken=%lld dropped=%lld\n", p, (long long)jw_port_received(&s->port),
        (long long)jw_port_dropped(&s->port));
    printf("port %d counts%s\n", p, counts);
    printf("port %d signals%s\n", p, s->signals.len > 0 ? s->signals.at : " -");
    printf("port %d wire %s\n", p, s->wire.len > 0 ? s->wire.at : "-");
}

static void play(struct station *s, struct bytes *counts) {
    sure(jw_port_new(&s->port, &s->line, s->name_count + 1, s->flip), "jw_port_new");
    sure(jw_uart_new(&s->uart), "jw_uart_new");
    for (size_t phase = 0; phase < phase_count; phase++) {
        play_line(s, &s->phases[phase]);
        play_after_line(s, &s->phases[phase]);
    }
    sure(jw_port_hang_up(&s->port), "jw_port_hang_up");
    keep_output(s);
    look_at_account(s);
    /* A hangup leaves the port open to be opened: under numbers that are dead one after the other is tried. */
    for (uint8_t h = 0; h < 32; h++)
        jw_port_close(&s->port, s->name_count, h);
    sure(jw_port_open(&s->port, s->name_count, 0, O_RDWR, true), "jw_port_open");
    sure(tell_counts(s, s->name_count, 0, counts), "jw_port_count");
}

int main(void) {
    for (int p = 0; p < MOST_PORTS; p++)
        stations[p].flip = 4096;
    hear_all();
    static struct bytes counts[MOST_PORTS];
    for (int p = 0; p < port_count; p++) {
        play(&stations[p], &counts[p]);
        tell_calls(&stations[p], p);
    }
    for (int p = 0; p < port_count; p++) {
        tell_port(&stations[p], p, counts[p].at);
        sure(jw_port_free(&stations[p].port), "jw_port_free");
        sure(jw_line_free(&stations[p].line), "jw_line_free");
        sure(jw_uart_free(&stations[p].uart), "jw_uart_free");
    }
    printf("done\n");
    fprintf(stderr, "%lu calls\n", calls_made);
    return 0;
}
