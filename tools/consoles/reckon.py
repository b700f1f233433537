"""What is to be told of a session of consoles on one thread, reckoned without the program.

The board and the screens are reckoned here. What the callers are answered, and what becomes of the keys of a console,
the plain player tells of a session of ports, one for each console, on whose lines the keys come.
"""

import re

ROWS, COLUMNS = 25, 80
BLANK = b" "

# The longest item of a line, in bytes.
LONGEST_ITEM = 65536


class Phase:
    """The calls of a phase as they stand, the keys that are typed in it, and its operators."""

    def __init__(self):
        self.callers = []
        self.keys = b""
        self.operators = []


class Session:
    """A session's text, taken apart. Only good ones are read."""

    def __init__(self, lines):
        self.consoles = int(lines[1].split()[1])
        self.phases = []
        block = []
        for line in lines[2:-1]:
            item, *words = line.split()
            if item == "phase":
                self.phases.append(Phase())
            elif item == "keys":
                self.phases[-1].keys += bytes.fromhex(words[0])
            elif item == "operator":
                block = []
                self.phases[-1].operators.append((words[0], block))
            elif item == "caller":
                block = self.phases[-1].callers
                block.append(line)
            else:
                block.append(line)


class Board:
    """Which console is active; what each operator was answered, in the text's order; and each phase's keys, with the
    console to which they go: the one that is active when the phase begins."""

    def __init__(self, session):
        self.active = 0
        self.answers = []
        self.typed = []
        steps = {}
        for phase in session.phases:
            self.typed.append((self.active, phase.keys))
            for name, calls in phase.operators:
                for call in calls:
                    step = steps.get(name, 0)
                    steps[name] = step + 1
                    self.answers.append("vt.%s.%d %s" % (name, step, self._answered(call, session.consoles)))

    def _answered(self, call, consoles):
        """What a call is answered, behind its verb."""
        if call == "state":
            return "state %d" % self.active
        number = int(call.split()[1])
        if number >= consoles:
            return "activate ENXIO"
        self.active = number
        return "activate ok"

    def keys_of(self, console):
        return b"".join(keys for active, keys in self.typed if active == console)


def as_ports(session, board):
    """The session of ports that the consoles play: each key is handed over as it comes."""
    lines = ["tty-session 1", "ports %d" % session.consoles]
    for phase, (active, keys) in zip(session.phases, board.typed):
        lines += ["phase"]
        for port in range(session.consoles):
            lines += ["line %d" % port, "trigger 1"]
            here = keys if port == active else b""
            for first in range(0, len(here), LONGEST_ITEM):
                lines.append("rx " + here[first:first + LONGEST_ITEM].hex())
        lines += phase.callers
    return ("\n".join(lines + ["end"]) + "\n").encode()


def rows_of(wire):
    """The rows of the screen of what was printed: an endless sheet's last rows, up to the cursor's."""
    sheet, column = [bytearray(BLANK * COLUMNS)], 0
    for byte in wire:
        if 0x20 <= byte <= 0x7E or byte >= 0x80:
            sheet[-1][column] = byte
            column += 1
        if byte == 0x0A or column == COLUMNS:
            sheet.append(bytearray(BLANK * COLUMNS))
        if byte == 0x0D or column == COLUMNS:
            column = 0
        elif byte == 0x08:
            column = max(column - 1, 0)
        elif byte == 0x09:
            column = min(column // 8 * 8 + 8, COLUMNS - 1)
    return sheet[-ROWS:]


def console_lines(console, keys, told):
    """What is told of a console with so many keys, from what the plain player told of its port."""

    def found(pattern):
        return re.search(r"^port %d %s$" % (console, pattern), told, re.MULTILINE).groups()

    (overrun,) = found(r"line arrived=\d+ lost=0 sent=\d+ overrun=(\d+)")
    taken, dropped = found(r"input taken=(\d+) dropped=(\d+)")
    (generation,) = found(r"generation (\d+)")
    (wire,) = found(r"wire (\S+)")
    counts = (console, keys, overrun, taken, dropped, generation)
    lines = ["console %d keys=%d overrun=%s taken=%s dropped=%s generation=%s" % counts]
    for number, row in enumerate(rows_of(b"" if wire == "-" else bytes.fromhex(wire))):
        if row.rstrip(BLANK):
            lines.append("console %d row %d %s" % (console, number, row.rstrip(BLANK).hex()))
    return lines


def reckoned(lines, play):
    """The report of a session; `play` tells what the plain player tells of a text."""
    session = Session(lines)
    board = Board(session)
    told = play(as_ports(session, board)).decode()
    report = told[:told.index("port 0 line")].splitlines() + board.answers
    for console in range(session.consoles):
        report += console_lines(console, len(board.keys_of(console)), told)
    return ("\n".join(report + ["active %d" % board.active, "done"]) + "\n").encode()
