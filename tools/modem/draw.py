"""Sessions of ports with modem lines that are drawn from numbers."""

import random

NAMES = ("login", "dialer", "pppd", "watch")
KEYS = ("68690d", "610a", "03", "04", "6162", "0a")
WORDS = ("raw", "sane", "-echo", "noflsh", "-icanon", "icanon")
BITS = ("0", "2", "4", "6", "511")


def call_of(draw):
    """A call, mostly through handle 0."""
    handle = draw.choice("0000112")
    return draw.choice((
        ["open", handle, draw.choice(("r", "rw", "rw"))],
        ["open", handle, "rw"],
        ["open", handle, draw.choice(("w", "rw", "rw")), "nonblock"],
        ["close", handle],
        ["close", handle],
        ["read", handle, draw.choice(("1", "8", "64"))],
        ["read", handle, "8"],
        ["write", handle, draw.choice(("61", "6f6b0a", "2420"))],
        ["modes", handle, draw.choice(("now", "drain", "flush")), draw.choice(WORDS)],
        ["flush", handle, draw.choice(("in", "out", "both"))],
        ["xonc", handle, draw.choice(("ooff", "oon", "ioff", "ion"))],
        ["drain", handle],
        ["excl", handle],
        ["nxcl", handle],
        ["inq", handle],
        ["getm", handle],
        ["vhangup", handle],
        ["mget", handle],
        ["mget", handle],
        ["mset", handle, draw.choice(BITS)],
        ["mbis", handle, draw.choice(BITS)],
        ["mbic", handle, draw.choice(BITS)],
        ["softcar", handle, draw.choice("001")],
        ["getcar", handle],
        ["hupcl", handle, draw.choice("011")],
        ["msr", handle],
        ["msr", handle],
    ))


def pin_of(draw):
    """An item of a modem block: mostly the carrier."""
    return [draw.choice(("dcd", "dcd", "dcd", "dsr", "cts", "ri")), draw.choice("01")]


def drawn(number):
    """The session of a number: how many ports, and of each phase lines, ticks and pins by port, and blocks."""
    draw = random.Random(number)
    ports = draw.choice((1, 1, 1, 2, 3))
    phases = []
    for k in range(draw.randint(2, 7)):
        lines = [["rx " + draw.choice(KEYS) for _ in range(draw.choice((0, 0, 1, 2)))] for _ in range(ports)]
        ticks = [["tick 2"] if draw.random() < 0.1 else [] for _ in range(ports)]
        pins = [[pin_of(draw) for _ in range(draw.choice((0, 1, 1, 2, 4)))] for _ in range(ports)]
        if k == 0:
            for port in range(ports):
                pins[port] += [["dcd", "1"]] * (draw.random() < 0.6)
        blocks = []
        for port in range(ports):
            for name in draw.sample(NAMES, draw.randint(1, 3)):
                blocks.append([name, port, [call_of(draw) for _ in range(draw.randint(0, 5))]])
            if k == 0:
                blocks.insert(0, ["getty", port, [["open", "0", "rw"] + ["nonblock"] * (draw.random() < 0.2)]])
        phases.append((lines, ticks, pins, blocks))
    return ports, phases


def text_of(session):
    """The text of a session of ports with modem lines."""
    ports, phases = session
    text = ["tty-session 1", "ports %d" % ports]
    for lines, ticks, pins, blocks in phases:
        text.append("phase")
        for port in range(ports):
            text += ["line %d" % port] + lines[port] if lines[port] else []
            text += ["clock %d" % port] + ticks[port] if ticks[port] else []
            text += ["modem %d" % port] + [" ".join(pin) for pin in pins[port]] if pins[port] else []
        for name, port, calls in blocks:
            text += ["caller %s %d" % (name, port)] + [" ".join(call) for call in calls]
    return ("\n".join(text + ["end"]) + "\n").encode()
