"""The report of a session: the lines of our program's, and those of Linux in the same words."""

import subprocess

import player

# How long the program may play a session, in seconds.
LONGEST = 60


def of_program(program, text):
    done = subprocess.run([program, "run", "--one"], input=text.encode(), stdout=subprocess.PIPE, timeout=LONGEST)
    if done.returncode != 0:
        raise ValueError(done.stdout.decode().strip() or "status %d" % done.returncode)
    return done.stdout.decode().splitlines()


def of_linux(session, pause):
    """What Linux answered, in the order of a report; a line or an answer that a pseudoterminal does not have is "?"."""
    calls, ends = [], []
    for port in range(session.ports):
        told = player.play(phases_of(session, port), pause)
        if told is None:
            raise RuntimeError("the player of port %d did not end" % port)
        calls += calls_text(session, port, told["answers"])
        ends += end_text(port, told)
    return calls + ends + ["done"]


def phases_of(session, port):
    """What happens on a port in each phase: on its line, by its callers, and how many ticks."""
    return [(phase.lines.get(port, []), phase.callers_of(port), phase.ticks.get(port, 0)) for phase in session.phases]


def calls_text(session, port, answers):
    return ["%d.%s.%d %s %s" % (port, name, step, words[0], answers[phase][block][place])
            for phase, block, place, step, name, words in session.calls_of(port)]


def end_text(port, told):
    signals, wire = " ".join(told["signals"]) or "-", told["wire"] or "-"
    if told["unplayed"]:
        signals = wire = "?"
    words = ["line ?", "input ?", "counts ?", "signals " + signals, "generation ?", "wire " + wire]
    return ["port %d %s" % (port, word) for word in words]
