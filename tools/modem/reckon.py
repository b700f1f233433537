"""What the program is to tell of a session of ports with modem lines: their lines here, the terminal by the model of
`tools/linux`, which knows nothing of modem lines.

A session is (ports, phases): of each phase (lines, ticks, pins, blocks), where the first three have a list of items for
each port and a block is [name, port, calls]; a call, and an item of a modem block, is its words.
"""

import pathlib
import sys

sys.path.insert(0, str(pathlib.Path(__file__).resolve().parents[1] / "linux"))
import terminal as model

OWN = ("mget", "mset", "mbis", "mbic", "softcar", "getcar", "hupcl", "msr")
DTR, RTS, CTS, CAR, RNG, DSR = 2, 4, 32, 64, 128, 256
COUNTS = "mark=0 parity=0 frame=0 break=0 cut=0 echo=0 pin=0 pout=0 pbad=0 pfull=0"


class Lines:
    """The modem lines of a port, after ioctl_tty(2) and the modem status register of the 16550."""

    def __init__(self):
        self.up = {"dcd": False, "dsr": False, "cts": False, "ri": False}
        self.changed = set()
        self.out = 0
        self.clocal, self.hupcl = False, True

    def set(self, pin, up):
        """Whether the carrier was lost."""
        if self.up[pin] == up:
            return False
        self.up[pin] = up
        if pin != "ri" or not up:
            self.changed.add(pin)
        return pin == "dcd" and not up and not self.clocal

    def bits(self):
        named = {"cts": CTS, "dcd": CAR, "ri": RNG, "dsr": DSR}
        return self.out | sum(bit for pin, bit in named.items() if self.up[pin])

    def status(self):
        levels = {"cts": 16, "dsr": 32, "ri": 64, "dcd": 128}
        changes = {"cts": 1, "dsr": 2, "ri": 4, "dcd": 8}
        told = sum(bit for pin, bit in levels.items() if self.up[pin]) + sum(changes[pin] for pin in self.changed)
        self.changed.clear()
        return told

    def opened(self):
        self.out = DTR | RTS

    def shut(self):
        if self.hupcl:
            self.out = 0

    def lets_in(self):
        return self.clocal or self.up["dcd"]


class Terminal(model.Terminal):
    """The terminal of the profile, with its modem lines, and what became of the characters."""

    def __init__(self):
        super().__init__(frozenset())
        self.lines = Lines()
        self.arrived = self.taken = self.generation = 0

    def receive(self, data):
        self.arrived += len(data)
        super().receive(data)

    def flush(self):
        there = len(self.flip)
        super().flush()
        self.taken += there - len(self.flip)

    def install(self, other):
        self.generation += 1
        super().install(other)

    def open(self, words):
        first = not self.is_live()
        answer = super().open(words)
        if answer == "ok" and first:
            self.lines.opened()
        return answer

    def close(self, number):
        was_live = self.is_live()
        answer = super().close(number)
        if was_live and not self.is_live():
            self.lines.shut()
        return answer

    def do_vhangup(self, words):
        self.lines.shut()
        return super().do_vhangup(words)

    def do_mget(self, words):
        return str(self.lines.bits())

    def do_mset(self, words):
        self.lines.out = int(words[2]) & (DTR | RTS)
        return "ok"

    def do_mbis(self, words):
        self.lines.out |= int(words[2]) & (DTR | RTS)
        return "ok"

    def do_mbic(self, words):
        self.lines.out &= ~int(words[2])
        return "ok"

    def do_softcar(self, words):
        self.lines.clocal = words[2] == "1"
        return "ok"

    def do_getcar(self, words):
        return "1" if self.lines.clocal else "0"

    def do_hupcl(self, words):
        self.lines.hupcl = words[2] == "1"
        return "ok"

    def do_msr(self, words):
        return str(self.lines.status())


class Play(model.Play):
    """The order of one thread, in which an open waits for the carrier, and the items of a modem block come where no
    caller can go on."""

    def __init__(self, terminal, blocks, pins, ticks):
        super().__init__(terminal, blocks, ticks)
        self.pins = list(pins)
        self.passed = [[] for _ in blocks]
        self.hangups = []

    def play(self):
        while True:
            self.terminal.flush()
            if any(caller.words() and not self.is_held(caller) and self.go_on(caller) for caller in self.callers):
                continue
            if self.pins:
                self.set_pin(*self.pins.pop(0))
            elif self.ticks:
                self.ticks -= 1
                self.terminal.tick += 1
            elif held := [caller for caller in self.callers if self.is_held(caller)]:
                super().answer(held[0], "idle")
            elif waiting := [caller for caller in self.callers if caller.waits]:
                self.answer(waiting[0], "idle")
            else:
                return self.told

    def is_held(self, caller):
        """Whether its open waits for the carrier."""
        words, terminal = caller.words(), self.terminal
        return (words is not None and words[0] == "open" and len(words) == 3 and not terminal.lines.lets_in()
                and words[1] not in terminal.handles and not terminal.exclusive)

    def set_pin(self, pin, level):
        terminal = self.terminal
        if terminal.lines.set(pin, level == "1"):
            live = sorted((int(number) for number, handle in terminal.handles.items() if handle.live))
            if live:
                self.hangups.append(["vhangup", str(live[0])])
                terminal.do_vhangup(self.hangups[-1])

    def answer(self, caller, answer):
        if caller.words()[0] not in OWN:
            self.passed[caller.number].append(caller.words())
        super().answer(caller, answer)


class Port:
    """A port, phase by phase: what each block was answered and passed down, and the hangups of lost carriers."""

    def __init__(self, session, number):
        self.number, self.terminal = number, Terminal()
        self.told, self.passed, self.hangups = [], [], []
        for lines, ticks, pins, blocks in session[1]:
            for item in lines[number]:
                model.receive(self.terminal, bytes.fromhex(item.split()[1]))
            count = sum(int(item.split()[1]) for item in ticks[number])
            own = [(name, calls) for name, port, calls in blocks if port == number]
            play = Play(self.terminal, own, pins[number], count)
            self.told.append(play.play())
            self.passed.append(play.passed)
            self.hangups.append(play.hangups)

    def ends(self):
        """What a report says of it, behind the hangup of the session."""
        terminal = self.terminal
        yield "line arrived=%d lost=0 sent=%d overrun=0" % (terminal.arrived, terminal.arrived)
        yield "input taken=%d dropped=%d" % (terminal.taken, terminal.arrived - terminal.taken)
        yield "counts " + COUNTS
        yield "signals " + (" ".join(terminal.signals) or "-")
        yield "generation %d" % (terminal.generation + 1)
        yield "wire " + (bytes(terminal.wire).hex() or "-")


def derived_text(session, ports):
    """The session that the ports were played: the calls that were passed down, and last the caller `carrier`."""
    count, phases = session
    text = ["tty-session 1", "ports %d" % count]
    for k, (lines, ticks, _, blocks) in enumerate(phases):
        text.append("phase")
        for p in range(count):
            text += (["line %d" % p] + lines[p] if lines[p] else []) + (["clock %d" % p] + ticks[p] if ticks[p] else [])
        places = [0] * count
        for name, p, _ in blocks:
            text += ["caller %s %d" % (name, p)] + [" ".join(call) for call in ports[p].passed[k][places[p]]]
            places[p] += 1
        for p in range(count):
            text += ["caller carrier %d" % p] + [" ".join(call) for call in ports[p].hangups[k]]
    return ("\n".join(text + ["end"]) + "\n").encode()


def reckoned(session):
    """The report that is to be told of a session, and the text of the session that its ports are to be played."""
    ports = [Port(session, number) for number in range(session[0])]
    told = []
    for port in ports:
        steps = {}
        for k, phase in enumerate(session[1]):
            own = [(name, calls) for name, number, calls in phase[3] if number == port.number]
            for (name, calls), answers in zip(own, port.told[k]):
                for call, answer in zip(calls, answers, strict=True):
                    step = steps[name] = steps.get(name, -1) + 1
                    told.append("%d.%s.%d %s %s" % (port.number, name, step, call[0], answer))
    for port in ports:
        told += ["port %d %s" % (port.number, line) for line in port.ends()]
    return ("\n".join(told + ["done"]) + "\n").encode(), derived_text(session, ports)
