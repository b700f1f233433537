"""Whether a report can be what is told of a busy session, in whatever order its keys and operators' calls were made.

A report tells what each console received and what each operator was answered. So an order is looked for in which each
key goes to the console that is active then, where it is the next that this console received, or finds the flip buffer
full; and in which each call is answered as the report says.
"""

import re

from busy import CALLS, CONSOLES, OPERATORS
from reckon import BLANK, rows_of

# How many characters a flip buffer holds.
FULL = 4096

# A console's last close, and the hangup at the end.
GENERATION = 2


class Wrong(Exception):
    """What is wrong with a report."""


class Report:
    """The lines of a report, one after the other."""

    def __init__(self, text):
        self._lines = iter(text.decode().splitlines())

    def found(self, pattern):
        """What a pattern finds in the next line, which it must match."""
        line = next(self._lines, "")
        match = re.fullmatch(pattern, line)
        if match is None:
            raise Wrong("%r is not %s" % (line, pattern))
        return match.groups()

    def expect(self, line):
        self.found(re.escape(line))

    def ends(self):
        if next(self._lines, None) is not None:
            raise Wrong("there are further lines")


def read_in(report, call):
    """What a read was answered."""
    _, length, read = report.found(re.escape(call) + r" read (idle|(\d+) ([0-9a-f]+))")
    if length is None:
        return b""
    if len(read) != 2 * int(length):
        raise Wrong("a read is answered %s bytes, and these are %s" % (length, read))
    return bytes.fromhex(read)


def received_in(report, session, console):
    """What a console received in each phase in which keys are typed."""
    reads = []
    for step, answer in enumerate(session.answers_of(console)):
        call = "%d.a.%d" % (console, step)
        if answer is None:
            reads.append(read_in(report, call))
        else:
            report.expect(call + " " + answer)
    return [reads[0] + reads[1]] + reads[2:]


def answer_in(report, name, step, call):
    """What an operator's call says of the active console: its verb, and the console; nothing where it is refused."""
    place = "vt.%s.%d " % (name, step)
    if call == "state":
        return call, int(report.found(re.escape(place) + r"state (\d)")[0])
    verb, number = call.split()
    refused = int(number) >= CONSOLES
    report.expect(place + verb + (" ENXIO" if refused else " ok"))
    return None if refused else (verb, int(number))


def answered_in(report, session):
    """In each phase in which keys are typed, for each operator, what its calls say of the active console."""
    phases = []
    for phase, typed in enumerate(session.typed):
        first = phase * CALLS
        said = [[answer_in(report, name, first + place, call) for place, call in enumerate(calls)]
                for name, calls in typed.operators.items()]
        phases.append([[answer for answer in answers if answer is not None] for answers in said])
    return phases


def reachable(answers, starts, active):
    """How many calls each operator can have made, and which console is active then, from how many they may have made
    while this one is active."""
    found = {(made, active) for made in starts}
    left = list(found)
    while left:
        made, console = left.pop()
        for operator, count in enumerate(made):
            if count == len(answers[operator]):
                continue
            verb, number = answers[operator][count]
            after = (made[:operator] + (count + 1,) + made[operator + 1:], number)
            if (verb == "activate" or number == console) and after not in found:
                found.add(after)
                left.append(after)
    return found


def behind(received, counts, console, key):
    """How much each console has received when this one was typed a key: nothing where it can not have been."""
    count = counts[console]
    if count == FULL:
        return counts
    if count < len(received[console]) and received[console][count] == key:
        return counts[:console] + (count + 1,) + counts[console + 1:]
    return None


def orders_behind(orders, received, answers, key):
    """Where orders stand behind a key, from where they stand before it.

    An order stands where each console has received so much, and a console is active; what each operator may have called
    then is kept with it. Calls between two keys of one console may as well be made behind the second: so operators go
    on only where the next key goes to another console.
    """
    after = {}
    for (counts, active), starts in orders.items():
        into = {console: behind(received, counts, console, key) for console in range(CONSOLES)}
        into = {console: counts for console, counts in into.items() if counts is not None}
        reached = reachable(answers, starts, active) if into.keys() - {active} else ()
        for console, counts in into.items():
            made = starts if console == active else {made for made, now in reached if now == console}
            if made:
                after.setdefault((counts, console), set()).update(made)
    return after


def active_behind(typed, received, answers, actives):
    """The consoles that can be active behind a phase, from those that can be active before it."""
    orders = {((0,) * CONSOLES, active): {(0,) * len(OPERATORS)} for active in actives}
    for key in typed.keys:
        orders = orders_behind(orders, received, answers, key)
    whole = tuple(map(len, received))
    all_made = tuple(map(len, answers))
    ends = [reachable(answers, starts, active) for (counts, active), starts in orders.items() if counts == whole]
    return {active for reached in ends for made, active in reached if made == all_made}


def lost_on(console, typed, received):
    """How many keys of a phase a console lost: those that no console received went to the one that is full."""
    return len(typed.keys) - sum(map(len, received)) if len(received[console]) == FULL else 0


def judge_console(report, session, console, phases):
    """Judges the lines of a console, of which it is known what each received. How many keys it lost."""
    taken = sum(len(received[console]) for received in phases)
    lost = sum(lost_on(console, typed, received) for typed, received in zip(session.typed, phases))
    counts = (console, taken + lost, lost, taken, GENERATION)
    report.expect("console %d keys=%d overrun=%d taken=%d dropped=0 generation=%d" % counts)
    wire = b"".join(text for texts in session.written[console] for text in texts)
    for number, row in enumerate(rows_of(wire)):
        if row.rstrip(BLANK):
            report.expect("console %d row %d %s" % (console, number, row.rstrip(BLANK).hex()))
    return lost


def judge(session, text):
    """Judges the report of a session. How many keys were lost."""
    report = Report(text)
    phases = list(zip(*[received_in(report, session, console) for console in range(CONSOLES)]))
    actives = {0}
    for typed, received, answers in zip(session.typed, phases, answered_in(report, session)):
        actives = active_behind(typed, received, answers, actives)
        if not actives:
            raise Wrong("no order of keys and calls comes to what is told of a phase")
    lost = sum(judge_console(report, session, console, phases) for console in range(CONSOLES))
    if int(report.found(r"active (\d)")[0]) not in actives:
        raise Wrong("another console is active at the end")
    report.expect("done")
    report.ends()
    return lost
