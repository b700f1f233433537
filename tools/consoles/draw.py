"""Sessions of consoles that are drawn from a number. `python3 draw.py NUMBER` prints one."""

import random
import sys

NAMES = ["a", "b", "c"]
OPERATORS = ["o", "p", "q"]

# What is typed: text, the ends of lines, editing, signals and flow control, bytes of every kind.
TEXT = [b"ls", b"echo hello", b"x", b" ", b"\t", b"abc def", b"0123456789" * 9]
ENDS = [b"\r", b"\r", b"\n", b"\x04"]
CONTROLS = [b"\x7f", b"\x15", b"\x17", b"\x16", b"\x03", b"\x1a", b"\x13", b"\x11", b"\x12"]
BYTES = [b"\xff", b"\x00", b"\x08", b"\xc3\xa9", b"\x80", b"\x1b[m"]

# What is written, so that cursors go everywhere: rows that are full, rows that scroll, blanks.
WRITTEN = TEXT + ENDS + BYTES + [b"\n", b"\r", b"\b\b", b"\t", b"\n" * 26, b"-" * 80, b"=" * 79, b"  \b ", b"\x07~"]

MODES = "raw sane -echo echo -icanon icanon -opost opost tab3 onlcr ocrnl onocr -ixon ixany ixoff noflsh".split()
MODES += "iutf8 min=0 min=3 -icrnl -isig erase=8 -echoctl".split()

# Calls, with how often each comes beside the others.
CALLS = {
    "write H BYTES": 30, "read H N": 20, "modes H now WORDS": 8, "modes H drain WORDS": 1, "modes H flush WORDS": 2,
    "open H rw nonblock": 6, "open H rw": 2, "open H w nonblock": 1, "open H r": 1, "close H": 2, "inq H": 3,
    "outq H": 2, "getm H": 1, "flush H in": 1, "flush H out": 1, "flush H both": 1, "xonc H ooff": 1, "xonc H oon": 2,
    "xonc H ioff": 1, "xonc H ion": 1, "setd H 1": 1, "setd H 0": 2, "getd H": 1, "vhangup H": 1, "counts H": 1,
    "excl H": 1, "nxcl H": 1, "drain H": 1, "send H BYTES": 1, "take H": 1,
}

# How many keys are typed at once where a flip buffer is to be full: it and the discipline hold 4,096 each.
FLOOD = 9000


def pieces(dice, kinds, most):
    """Up to so many pieces of these kinds, one behind the other."""
    return b"".join(dice.choice(dice.choice(kinds)) for _ in range(dice.randint(1, most)))


def call_of(dice):
    """A call, as a line."""
    words = []
    for word in dice.choices(list(CALLS), list(CALLS.values()))[0].split():
        if word == "H":
            word = str(dice.choice([0, 0, 0, 0, 1, 2]))
        elif word == "N":
            word = str(dice.choice([1, 2, 8, 64, 64, 4096]))
        elif word == "BYTES":
            word = pieces(dice, [WRITTEN], 6).hex()
        elif word == "WORDS":
            word = " ".join(dice.choice(MODES) for _ in range(dice.randint(1, 3)))
        words.append(word)
    return " ".join(words)


def caller_blocks(dice, consoles, opens):
    """The blocks of the callers of a phase, each of which opens handle 0 first, or not."""
    blocks = []
    for console in range(consoles):
        for name in dice.sample(NAMES, dice.choice([0, 1, 1, 2])):
            calls = ["open 0 rw nonblock"] if opens else []
            calls += [call_of(dice) for _ in range(dice.randint(0, 5))]
            blocks.append(["caller %s %d" % (name, console)] + calls)
    return blocks


def operator_blocks(dice, consoles):
    """The blocks of the operators of a phase. Some of what they activate is no console."""
    blocks = []
    for name in dice.sample(OPERATORS, dice.choice([0, 1, 1, 2, 3])):
        calls = ["state", "activate %d" % dice.choice([consoles, 255])]
        calls += ["activate %d" % dice.randrange(consoles) for _ in range(3)]
        blocks.append(["operator " + name] + [dice.choice(calls) for _ in range(dice.randint(0, 4))])
    return blocks


def key_blocks(dice):
    """What is typed in a phase, in up to three items."""
    kinds = dice.choice([[TEXT, ENDS], [TEXT, ENDS, CONTROLS], [TEXT, ENDS, CONTROLS, BYTES]])
    typed = [pieces(dice, kinds, 8) for _ in range(dice.choice([0, 1, 1, 2, 3]))]
    if dice.random() < 0.02:
        typed.append(bytes(dice.choices(b"abc\r", k=FLOOD)))
    return [["keys " + keys.hex()] for keys in typed]


def drawn(number):
    """The lines of the session of a number."""
    dice = random.Random(number)
    consoles = dice.choice([1, 2, 2, 3, 4, 8])
    lines = ["vt-session 1", "consoles %d" % consoles]
    for phase in range(dice.randint(2, 7)):
        blocks = caller_blocks(dice, consoles, phase == 0) + operator_blocks(dice, consoles) + key_blocks(dice)
        dice.shuffle(blocks)
        lines += ["phase"] + [line for block in blocks for line in block]
    return lines + ["end"]


def text_of(lines):
    return ("\n".join(lines) + "\n").encode()


if __name__ == "__main__":
    sys.stdout.buffer.write(text_of(drawn(int(sys.argv[1]))))
