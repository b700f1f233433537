"""Sessions of processes that are drawn from numbers."""

import random

NAMES = ("sh", "cat", "make", "vi", "less", "cc", "top")
KEYS = ("03", "1c", "1a", "68690d", "610a", "0a", "04", "6162")
WORDS = ("tostop", "-tostop", "raw", "sane", "-echo", "noflsh", "-isig", "isig")


def procs_of(draw):
    """The processes of a port: one to seven, in one or two sessions, mostly each under an earlier one."""
    procs, led = [], set()
    for name in NAMES[:draw.randint(1, len(NAMES))]:
        session = draw.choice((1, 1, 1, 2))
        leads = session not in led and draw.random() < 0.8
        led |= {session} if leads else set()
        procs.append({
            "name": name,
            "session": session,
            "group": draw.randint(1, 4),
            "parent": draw.randrange(len(procs)) if procs and draw.random() < 0.8 else None,
            "leader": leads,
            "nottin": draw.random() < 0.1,
            "nottou": draw.random() < 0.15,
        })
    return procs


def call_of(draw):
    """A call, mostly through handle 0."""
    handle = draw.choice("00000112")
    return draw.choice((
        ["read", handle, draw.choice(("1", "8", "64"))],
        ["read", handle, "8"],
        ["write", handle, draw.choice(("61", "6f6b0a", "2420"))],
        ["write", handle, "62"],
        ["modes", handle, "now", draw.choice(WORDS)],
        ["modes", handle, draw.choice(("drain", "flush")), draw.choice(WORDS)],
        ["open", handle, draw.choice(("r", "w", "rw", "rw")), "nonblock"],
        ["open", handle, "rw"],
        ["close", handle],
        ["flush", handle, draw.choice(("in", "out", "both"))],
        ["xonc", handle, draw.choice(("ooff", "oon", "ioff", "ion"))],
        ["drain", handle],
        ["setd", handle, draw.choice("0015")],
        ["getm", handle],
        ["inq", handle],
        ["vhangup", handle],
        ["sctty", handle],
        ["sctty", handle],
        ["notty", handle],
        ["gpgrp", handle],
        ["gpgrp", handle],
        ["spgrp", handle, str(draw.randint(1, 5))],
        ["spgrp", handle, str(draw.randint(1, 4))],
        ["spgrp", handle, str(draw.randint(1, 4))],
        ["exit"],
    ))


def block_of(draw, proc, port, exited):
    """What a process calls in a phase: nothing once it has exited."""
    calls = []
    for _ in range(draw.randint(0, 5)):
        call = call_of(draw)
        if call == ["exit"] and draw.random() < 0.6:
            continue
        calls.append(call)
        if call == ["exit"]:
            exited.add((port, proc["name"]))
            break
    return [proc["name"], port, calls]


def drawn(number):
    """The session of a number."""
    draw = random.Random(number)
    ports = draw.choice((1, 1, 1, 2, 3))
    procs = [procs_of(draw) for _ in range(ports)]
    exited, phases = set(), []
    for k in range(draw.randint(2, 7)):
        lines = [["rx " + draw.choice(KEYS) for _ in range(draw.choice((0, 0, 1, 2)))] for _ in range(ports)]
        ticks = [["tick 2"] if draw.random() < 0.1 else [] for _ in range(ports)]
        blocks = []
        for port in range(ports):
            for proc in draw.sample(procs[port], draw.randint(0, len(procs[port]))):
                if (port, proc["name"]) not in exited:
                    blocks.append(block_of(draw, proc, port, exited))
        if k == 0:
            for port in range(ports):
                first = procs[port][0]
                blocks = [b for b in blocks if b[:2] != [first["name"], port]]
                exited.discard((port, first["name"]))
                blocks.insert(0, [first["name"], port, [["open", "0", "rw", "nonblock"], ["sctty", "0"]]])
        phases.append((lines, ticks, blocks))
    return procs, phases


def text_of(session):
    """The text of a session of processes."""
    procs, phases = session
    text = ["tty-session 1", "ports %d" % len(procs)]
    for port, own in enumerate(procs):
        for proc in own:
            parent = "-" if proc["parent"] is None else own[proc["parent"]]["name"]
            words = [word for word in ("leader", "nottin", "nottou") if proc[word]]
            text.append(" ".join(["proc", proc["name"], str(port), str(proc["session"]), str(proc["group"]), parent, *words]))
    for lines, ticks, blocks in phases:
        text.append("phase")
        for port in range(len(procs)):
            text += ["line %d" % port] + lines[port] if lines[port] else []
            text += ["clock %d" % port] + ticks[port] if ticks[port] else []
        for name, port, calls in blocks:
            text += ["caller %s %d" % (name, port)] + [" ".join(call) for call in calls]
    return ("\n".join(text + ["end"]) + "\n").encode()
