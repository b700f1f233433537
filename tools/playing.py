"""What scripts that play sessions share: programs, plays, and what a play takes."""

import os
import pathlib
import re
import subprocess
import sys

TOP = pathlib.Path(__file__).resolve().parent.parent

# How long a play may take, in seconds.
LONGEST = 60


def built(crate, words):
    """A crate's program, which is built where it is not there; that proves it."""
    program = TOP / "crates" / crate / "out" / crate
    if not program.exists():
        subprocess.run(["rt", "run", "--", *words], cwd=TOP / "crates" / crate, check=True, stdout=sys.stderr)
    return str(program)


def our_player():
    """The proved program."""
    return built("tty_prog", ["gen", "0"])


def plain_player():
    """The plain player, as it is now."""
    folder = TOP / "bench" / "players" / "plain"
    subprocess.run(["cargo", "build", "--release", "--quiet"], cwd=folder, check=True)
    return str(folder / "target" / "release" / "plain_player")


def told(words, text=b""):
    """The status of a play, and what it told."""
    done = subprocess.run(words, input=text, stdout=subprocess.PIPE, timeout=LONGEST)
    return done.returncode, done.stdout


def journals_in(text):
    """What was told from the journals on."""
    return text[text.index(b"journals\n"):]


def seconds_of(words, path):
    """The seconds of the processor that a play of a file takes."""
    with open(path, "rb") as source, open(os.devnull, "wb") as sink:
        child = subprocess.Popen(words, stdin=source, stdout=sink)
        _, status, usage = os.wait4(child.pid, 0)
    child.returncode = os.waitstatus_to_exitcode(status)
    if child.returncode != 0:
        sys.exit("%s: status %d" % (words, child.returncode))
    return usage.ru_utime + usage.ru_stime


def instructions_of(words, path):
    """The instructions of a play of a file, as valgrind's callgrind counts them."""
    counted = ["valgrind", "--tool=callgrind", "--callgrind-out-file=/dev/null", *words]
    with open(path, "rb") as source:
        done = subprocess.run(counted, stdin=source, stdout=subprocess.DEVNULL, stderr=subprocess.PIPE)
    if done.returncode != 0:
        sys.exit("%s: status %d" % (words, done.returncode))
    return int(re.search(rb"Collected : (\d+)", done.stderr).group(1))
