"""Mode words, and the modes of a Linux terminal."""

import fcntl
import struct
import termios

# The size of the kernel's struct termios, its four words of flags, the discipline's byte and the characters.
LAYOUT = "4IB19s"

IUTF8 = 0o40000
XTABS = 0o14000
INPUT, OUTPUT, LOCAL = 0, 1, 3

FLAGS = {name: (place, getattr(termios, name.upper(), None)) for place, names in [
    (INPUT, "ignbrk brkint ignpar parmrk inpck istrip inlcr igncr icrnl ixon ixany ixoff"),
    (OUTPUT, "opost onlcr ocrnl onocr"),
    (LOCAL, "isig icanon echo echoe echok echoke echonl echoctl noflsh iexten tostop"),
] for name in names.split()}
FLAGS |= {"tab3": (OUTPUT, XTABS), "iutf8": (INPUT, IUTF8)}

# The order in which flags and characters are told.
FLAG_ORDER = """ignbrk brkint ignpar parmrk inpck istrip inlcr igncr icrnl ixon ixany ixoff opost onlcr ocrnl onocr tab3
isig icanon echo echoe echok echoke echonl echoctl noflsh iexten iutf8 tostop""".split()
CHARACTERS = "intr quit erase kill eof time min start stop susp eol reprint werase lnext eol2".split()
PLACES = {name: getattr(termios, "V" + name.upper()) for name in CHARACTERS}

SANE_FLAGS = "icrnl ixon opost onlcr isig icanon echo echoe echok echoke echoctl iexten".split()
SANE_CHARACTERS = {"intr": 3, "quit": 28, "erase": 127, "kill": 21, "eof": 4, "time": 0, "min": 1, "start": 17,
                   "stop": 19, "susp": 26, "eol": 0, "reprint": 18, "werase": 23, "lnext": 22, "eol2": 0}
RAW_CLEARS = "ignbrk brkint parmrk istrip inlcr igncr icrnl ixon opost echo echonl icanon isig iexten".split()


class Modes:
    """The flags that are set, and the characters."""

    def __init__(self, flags=SANE_FLAGS, characters=None):
        self.flags = set(flags)
        self.characters = dict(characters or SANE_CHARACTERS)

    def copy(self):
        return Modes(self.flags, self.characters)

    def apply(self, word):
        name, is_character, value = word.partition("=")
        if is_character:
            self.characters[name] = int(value)
        elif word == "raw":
            self.flags -= set(RAW_CLEARS)
        elif word == "sane":
            self.flags, self.characters = set(SANE_FLAGS), dict(SANE_CHARACTERS)
        elif word.startswith("-"):
            self.flags.discard(word[1:])
        else:
            self.flags.add(word)

    def with_words(self, words):
        new = self.copy()
        for word in words:
            new.apply(word)
        return new

    def text(self):
        return " ".join([flag for flag in FLAG_ORDER if flag in self.flags]
                        + ["%s=%d" % (name, self.characters[name]) for name in CHARACTERS])


def get(fd):
    """The modes of a terminal, and all that TCGETS tells."""
    whole = fcntl.ioctl(fd, termios.TCGETS, bytes(struct.calcsize(LAYOUT)))
    fields = struct.unpack(LAYOUT, whole)
    flags = [name for name, (place, bits) in FLAGS.items() if fields[place] & bits == bits]
    characters = {name: fields[5][place] for name, place in PLACES.items()}
    return Modes(flags, characters), fields


def put(fd, request, modes, fields):
    """Sets these modes; what else TCGETS told stays."""
    words = list(fields[:4])
    for name, (place, bits) in FLAGS.items():
        words[place] = words[place] & ~bits | (bits if name in modes.flags else 0)
    characters = bytearray(fields[5])
    for name, place in PLACES.items():
        characters[place] = modes.characters[name]
    fcntl.ioctl(fd, request, struct.pack(LAYOUT, *words, fields[4], bytes(characters)))
