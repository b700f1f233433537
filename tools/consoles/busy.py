"""Sessions of eight consoles with four operators and ten thousand keys. `python3 busy.py NUMBER` prints one.

All consoles are raw. The first half of the keys is typed while no console is open, so that nothing is taken from the
flip buffers, and one of them may be full. The rest is typed in phases with callers that write, each followed by one in
which each console's keys are read.
"""

import random
import sys

CONSOLES = 8
OPERATORS = ["o", "p", "q", "r"]

# How many keys are typed ahead, and then in each of so many phases.
AHEAD, ROUNDS, ROUND = 5000, 5, 1000

# How many calls an operator makes in a phase, and how often a caller writes.
CALLS, WRITES = 6, 4

# What is written: rows that scroll and are overwritten, and what a screen does not show.
WRITTEN = [b"hello", b"\r\n", b"\n", b"0123456789" * 9, b"\b\b", b"\t", b"\x07", b"\xff\x00", b"  "]


class Typed:
    """A phase in which keys are typed: the keys, and each operator's calls, as lines."""

    def __init__(self, dice, keys):
        self.keys = bytes(dice.choices(range(256), k=keys))
        # Console 8 is none, so that some calls are refused.
        calls = ["state"] * 8 + ["activate %d" % console for console in range(CONSOLES + 1)]
        self.operators = {name: dice.choices(calls, k=CALLS) for name in OPERATORS}

    def lines(self):
        half = len(self.keys) // 2
        lines = ["keys " + self.keys[:half].hex()]
        for name, calls in self.operators.items():
            lines += ["operator " + name] + calls
        return lines + ["keys " + self.keys[half:].hex()]


class Session:
    """The session of a number: its phases in which keys are typed, what each console's caller writes in each round, and
    its lines."""

    def __init__(self, number):
        dice = random.Random(number)
        self.typed = [Typed(dice, keys) for keys in [AHEAD] + [ROUND] * ROUNDS]
        self.written = [[self._texts(dice) for _ in range(ROUNDS)] for _ in range(CONSOLES)]
        self.lines = ["vt-session 1", "consoles %d" % CONSOLES]
        self._phase([["open 0 rw", "modes 0 now raw", "close 0"]] * CONSOLES)
        self._phase([], self.typed[0])
        self._phase([["open 0 rw"]] * CONSOLES)
        # A discipline holds two characters less than a flip buffer: these come to the second read.
        self._phase([["read 0 4096"]] * CONSOLES)
        self._phase([["read 0 4096"]] * CONSOLES)
        for place, typed in enumerate(self.typed[1:]):
            self._phase([["write 0 " + text.hex() for text in rounds[place]] for rounds in self.written], typed)
            self._phase([["read 0 4096"]] * CONSOLES)
        self.lines += ["end"]

    def _texts(self, dice):
        return [b"".join(dice.choices(WRITTEN, k=3)) for _ in range(WRITES)]

    def _phase(self, calls, typed=None):
        """A phase in which each console's caller makes these calls, and these keys are typed."""
        self.lines += ["phase"]
        for console, lines in enumerate(calls):
            self.lines += ["caller a %d" % console] + lines
        self.lines += typed.lines() if typed else []

    def text(self):
        return ("\n".join(self.lines) + "\n").encode()

    def answers_of(self, console):
        """What the caller of a console is answered, call by call; nothing stands where it reads."""
        answers = ["open ok", "modes ok", "close ok", "open ok", None, None]
        for texts in self.written[console]:
            answers += ["write %d" % len(text) for text in texts] + [None]
        return answers


if __name__ == "__main__":
    sys.stdout.buffer.write(Session(int(sys.argv[1])).text())
