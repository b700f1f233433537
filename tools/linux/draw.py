"""Sessions drawn from a number, of the kinds of the cases. `python3 draw.py NUMBER` prints one."""

import random
import sys

LETTERS = b"abcxyz01_"
# What is typed, with how often it is. A character is a string of bytes.
EDITING = {b"\x7f": 10, b"\x17": 5, b"\x15": 3, b"\x16": 4, b"\t": 6, b" ": 5, b".": 2, b"\x01": 3, b"\x12": 1}
ENDS = {b"\n": 10, b"\r": 4, b"\x04": 5, b";": 2, b",": 2}
UTF8 = {"\u00e9".encode(): 4, "\u20ac".encode(): 3, "\U0001f600".encode(): 1, b"\x80": 2, b"\xc3": 1, b"\xe9": 1}
FLOW = {b"\x13": 5, b"\x11": 6}
SIGNALS = {b"\x03": 4, b"\x1c": 1, b"\x1a": 1}
PLAIN = {b"\x7f": 3, b"\x16": 1, b"\t": 1, b"a": 3}
WIDE = {b"a" * 50: 2, b"bc " * 20: 1, b"\t" * 3: 2, b"d" * 7: 3, "\u00e9".encode() * 30: 1}
STRANGE = {b"\xff": 3, b"\x00": 3, b"\x1f": 1, b"\x08": 2, b"\xa1": 1, b"\x8d": 1}

MODE_WORDS = {
    "editing": "-echoe -echok -echoke -echoctl -echo -iexten erase=35 kill=64 werase=1 lnext=92 kill=23 erase=8 "
               "werase=127",
    "utf8": "iutf8 iutf8 iutf8 -echoctl",
    "echo": "-echo echonl -echoctl -icanon -opost tab3 -onlcr echo",
    "reads": "-icanon raw min=0 min=3 min=5 time=1 icanon eof=33 eol=59 eol2=44 min=70",
    "maps": "-icrnl igncr inlcr istrip parmrk inpck -icanon raw",
    "flow": "-ixon ixany ixon stop=1 start=2 -icanon",
    "signals": "noflsh -isig intr=33 quit=3 -echo -icanon isig",
    "output": "tab3 tab3 -opost opost -onlcr ocrnl onocr iutf8 -echo",
    "changes": "-icanon icanon raw -echo noflsh tab3",
    "waiting": "raw -icanon min=2 min=3 time=1 time=2 min=0 icanon min=1 time=0",
    "wide": "tab3 iutf8 -echoctl -echo echo -echoke -opost",
    "full": "-echo -echo raw icanon -icanon eol=59",
}
# How often a session is of the kind of full lines and buffers, which takes long to explain.
FULL = 0.01
TYPED = {
    "editing": [EDITING, EDITING, ENDS], "utf8": [UTF8, UTF8, EDITING, ENDS], "echo": [EDITING, ENDS, STRANGE],
    "reads": [ENDS, ENDS, EDITING, STRANGE], "maps": [ENDS, STRANGE, STRANGE, EDITING],
    "flow": [FLOW, FLOW, ENDS, EDITING],
    "signals": [SIGNALS, SIGNALS, EDITING, ENDS, FLOW], "output": [EDITING, ENDS, UTF8],
    "changes": [EDITING, ENDS, FLOW, SIGNALS], "waiting": [ENDS, EDITING], "wide": [EDITING, WIDE, WIDE, ENDS],
    "full": [PLAIN, ENDS, FLOW, STRANGE, SIGNALS],
}
CALLS = {
    "reads": ["inq H", "read H 1", "read H 3", "flush H in"],
    "flow": ["xonc H ooff", "xonc H oon", "xonc H ioff", "xonc H ion", "outq H", "flush H out", "drain H",
             "write H 6162"],
    "signals": ["inq H", "flush H both"],
    "output": ["WRITE", "WRITE", "WRITE", "WRITE"],
    "echo": ["WRITE", "flush H in"],
    "editing": ["WRITE", "flush H in"],
    "changes": ["setd H 1\nsetd H 0", "vhangup H\nclose H\nopen H rw nonblock", "close H\nopen H rw nonblock",
                "xonc H ooff", "xonc H oon", "vhangup H\nread H 8\nwrite H 61\nclose H\nopen H rw",
                "setd H 1\ngetd H\nread H 8\nsetd H 0"],
    "waiting": ["read H 2", "read H 5", "inq H", "setd H 1\nsetd H 0", "close H\nopen H rw"],
    "wide": ["WRITE", "read H 50"],
    "full": ["read H 65536", "read H 65536", "inq H", "read H 4000", "flush H in", "modes H flush -echo"],
}
WRITTEN = [b"ab", b"\t", b"\r", b"\n", b"\x08", b"x\ty", b"\xc3\xa9", b"\x07", b"abc\n", b"|"]
RARE = ["setd H 1\nsetd H 0", "vhangup H\nclose H\nopen H rw nonblock", "close H\nopen H rw nonblock",
        "excl H\nopen 9 r\nnxcl H",
        "getm H", "modes H flush MODE", "modes H drain MODE", "getd H", "open 9 r nonblock\nread 9 4\nclose 9"]


def picked(draws, weights):
    return draws.choices(list(weights), list(weights.values()))[0]


def typed(draws, kind):
    """A piece of input of a kind."""
    out = b""
    for _ in range(draws.randint(1, 8)):
        if draws.random() < 0.45:
            out += bytes([draws.choice(LETTERS)])
        else:
            out += picked(draws, draws.choice(TYPED[kind]))
    return out


def many(draws):
    """Nearly as much as there is room for, or a little more."""
    piece = draws.choice([b"a", b"a", b"bc", b"0123456\n", b"\xff"])
    return piece * (draws.choice([4080, 4090, 4094, 4095, 4096, 4100, 4150, 2045, 2050]) // len(piece))


def mode_words(draws, kind):
    words = MODE_WORDS[kind].split()
    return " ".join(draws.choice(words) for _ in range(draws.randint(1, 3)))


def call(draws, kind, handle):
    chance = draws.random()
    if chance < 0.45:
        line = "read H 64"
    elif chance < 0.6:
        line = "modes H now " + mode_words(draws, kind)
    elif chance < 0.68:
        line = draws.choice(RARE).replace("MODE", mode_words(draws, kind))
    else:
        line = draws.choice(CALLS.get(kind, ["inq H", "read H 64"]))
    if line == "WRITE":
        line = "write H " + b"".join(draws.choice(WRITTEN) for _ in range(draws.randint(1, 3))).hex()
    return line.replace("H", handle).split("\n")


def text(number):
    draws = random.Random(number)
    kind = "full" if draws.random() < FULL else draws.choice(sorted(MODE_WORDS.keys() - {"full"}))
    blocking = draws.random() < (0.9 if kind == "waiting" else 0.2)
    lines = ["# drawn from %d: %s" % (number, kind), "tty-session 1", "ports 1", "phase", "caller a 0",
             "open 0 rw" + ("" if blocking else " nonblock")]
    if draws.random() < 0.75:
        lines.append("modes 0 now " + mode_words(draws, kind))
    for _ in range(draws.randint(2, 6)):
        lines.append("phase")
        if draws.random() < 0.85:
            lines += ["line 0"] + ["rx " + many(draws).hex()] * (kind == "full" and draws.random() < 0.5)
            lines += ["rx " + typed(draws, kind).hex() for _ in range(draws.randint(1, 3))]
        for name in ["a", "b"] if kind == "waiting" else ["a"]:
            if draws.random() < 0.8:
                lines.append("caller %s 0" % name)
                for _ in range(draws.randint(1, 3)):
                    lines += call(draws, kind, "0")
        if blocking and draws.random() < 0.3:
            lines += ["clock 0", "tick %d" % draws.randint(1, 3)]
    return "\n".join(lines + ["end"]) + "\n"


if __name__ == "__main__":
    print(text(int(sys.argv[1])), end="")
