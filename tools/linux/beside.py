"""One session on both sides: where they differ, and which entries of docs/PROFILE.md own it."""

import collections
import os
import sys

import report
import session
import terminal

HERE = os.path.dirname(os.path.abspath(__file__))
PROGRAM = os.environ.get("PROGRAM", os.path.join(HERE, "..", "..", "crates", "tty_prog", "out", "tty_prog"))

# How long Linux is waited for until nothing moves, in seconds.
PAUSE = float(os.environ.get("PAUSE", "0.02"))

# A difference is believed where it stands also with these longer pauses.
PATIENCE = (1, 5, 20)


def read_owners():
    with open(os.path.join(HERE, "owners")) as table:
        return dict(line.split() for line in table if line.strip() and not line.startswith("#"))


OWNERS = read_owners()
ALL = frozenset(OWNERS)
# Signals of one kind that wait are merged, and taken in the order of their numbers: of the report, not of the model.
MERGED = "signals-merge"

# What Linux does at one time and not at another.
RACES = frozenset(["hangup-flip-buffer", "signal-drops-sent"])


def look_around():
    """Ends where the program is not there, or an owner is no entry of the profile."""
    if not os.access(PROGRAM, os.X_OK):
        sys.exit("no program %s" % PROGRAM)
    with open(os.path.join(HERE, "..", "..", "docs", "PROFILE.md")) as profile:
        text = profile.read()
    for entry in OWNERS.values():
        if "\n| `%s`" % entry not in text:
            sys.exit("docs/PROFILE.md has no entry %s" % entry)


def of_model(played, switches):
    """The model's lines, and the switches that made a difference to it."""
    calls, ends, used = [], [], set()
    for port in range(played.ports):
        told = terminal.play(report.phases_of(played, port), switches)
        calls += report.calls_text(played, port, told["answers"])
        ends += report.end_text(port, told)
        used |= told["used"]
    return calls + ends + ["done"], used


def differences(ours, theirs):
    """The pairs of lines that differ, but for what was not played."""
    if len(ours) != len(theirs):
        return [("%d lines" % len(ours), "%d lines" % len(theirs))]
    return [pair for pair in zip(ours, theirs) if pair[0] != pair[1] and "?" not in (pair[0][-1], pair[1][-1])]


def are_merged(ours, theirs):
    """Whether the same signals were raised, but for those that came while one of their kind still waited."""
    front, _, told = ours.partition(" signals ")
    other_front, _, other_told = theirs.partition(" signals ")
    count, other = collections.Counter(told.split()), collections.Counter(other_told.split())
    return front == other_front and count.keys() == other.keys() and all(other[name] <= count[name] for name in count)


def explained_by(played, theirs, switches):
    """The switches that were looked at where the model answers as Linux did, else None."""
    lines, used = of_model(played, switches)
    left = differences(lines, theirs)
    if left and MERGED in switches:
        left = [pair for pair in left if not are_merged(*pair)]
        used = used | {MERGED}
    return None if left else switches & used


def owners_of(played, theirs):
    """The switches without which the model does not answer as Linux did, or None where it does not with all of them."""
    for switches in [ALL] + [ALL - {race} for race in RACES] + [ALL - RACES]:
        used = explained_by(played, theirs, switches)
        if used is not None:
            return fewest(played, theirs, used)
    return None


def fewest(played, theirs, switches):
    for switch in OWNERS:
        if switch in switches and explained_by(played, theirs, switches - {switch}) is not None:
            switches -= {switch}
    return [switch for switch in OWNERS if switch in switches]


class Beside:
    """What came of a session: the lines of both, those that differ, and their owners."""

    def __init__(self, text):
        played = session.Session(text)
        self.ours = report.of_program(PROGRAM, text)
        self.model_is_wrong = differences(self.ours, of_model(played, frozenset())[0])
        self.owners = []
        for times in PATIENCE:
            self.theirs = report.of_linux(played, PAUSE * times)
            self.differ = differences(self.ours, self.theirs)
            if not self.differ:
                self.owners = []
                return
            self.owners = owners_of(played, self.theirs)
            if self.owners is not None:
                return

    def is_good(self):
        return not self.model_is_wrong and self.owners is not None
