"""Plays one port of a session on a Linux pseudoterminal.

The line is the master's side. A process of its own, the leader of a session whose terminal the port is, opens the
handles and makes the calls, each caller in a thread of it. What a pseudoterminal cannot play is answered "?", and so is
all that comes after it on this port, where it would have changed something.
"""

import ctypes
import errno
import fcntl
import json
import os
import pwd
import queue
import select
import signal
import struct
import sys
import termios
import threading
import time

import modes

# The discipline that stands for N_SLIP: this kernel may have no other beside N_TTY. It reads and writes nothing.
N_NULL = 27
CROWDED = 3500
# A number that is no open file's.
NO_HANDLE = 1 << 20
TIOCSPTLCK, TIOCGPTN, TIOCVHANGUP = 0x40045431, 0x80045430, 0x5437
PR_SET_PDEATHSIG, PR_SET_DUMPABLE = 1, 4

SIGNALS = {signal.SIGINT: "INT", signal.SIGQUIT: "QUIT", signal.SIGTSTP: "SUSP"}
WAKE = signal.SIGUSR1
TICK = 0.1
# How much of a tick we look late, so that what comes with it has come.
LATE = 0.4
# The longest time between two looks whether a call waits: well below a tick, so that TIME does not pass.
LONGEST_LOOK = 0.01
# How long a call may take that neither waits nor is answered, in seconds.
LONGEST_CALL = 5

ACCESS = {"r": os.O_RDONLY, "w": os.O_WRONLY, "rw": os.O_RDWR}
WHEN = {"now": termios.TCSETS, "drain": termios.TCSETSW, "flush": termios.TCSETSF}
QUEUE = {"in": termios.TCIFLUSH, "out": termios.TCOFLUSH, "both": termios.TCIOFLUSH}
ACT = {"ooff": termios.TCOOFF, "oon": termios.TCOON, "ioff": termios.TCIOFF, "ion": termios.TCION}
UNPLAYED_CALLS = {"counts", "send", "take"}
# What the discipline that stands for N_SLIP has no answer of its own for.
UNPLAYED_IN_STAND_IN = {"getm", "modes", "flush", "xonc", "inq", "outq", "drain"}
UNPLAYED_STEPS = {"rxp", "rxf", "break", "mask"}
ASKS_ONLY = {"counts", "getm", "inq", "outq", "take"}

libc = ctypes.CDLL(None, use_errno=True)


class CannotBePlayed(Exception):
    pass


class Caller:
    """A thread that makes one call after the other and tells what each was answered."""

    def __init__(self, number, answers):
        self.number = number
        self.jobs = queue.SimpleQueue()
        self.answers = answers
        self.waits = False
        self.next = 0
        self.fd = NO_HANDLE
        self.begun = 0
        self.thread = threading.Thread(target=self._work, daemon=True)
        self.thread.start()

    def _work(self):
        while True:
            job = self.jobs.get()
            if job is None:
                return
            try:
                answer = job()
            except CannotBePlayed:
                answer = "?"
            except OSError as error:
                answer = "idle" if error.errno == errno.EINTR else errno.errorcode[error.errno]
            self.answers.put((self.number, answer))

    def begin(self, fd, job):
        self.waits = True
        self.fd = fd
        self.begun = time.monotonic()
        self.jobs.put(job)

    def is_blocked(self):
        """Whether the thread sleeps in a system call on its handle: the kernel tells the number and arguments."""
        try:
            with open("/proc/self/task/%d/syscall" % self.thread.native_id) as file:
                words = file.read().split()
        except OSError:
            return time.monotonic() - self.begun > LONGEST_LOOK
        return len(words) > 1 and int(words[1], 16) == self.fd

    def wake(self):
        signal.pthread_kill(self.thread.ident, WAKE)


class Port:
    """A pseudoterminal, its handles, and what was seen of it."""

    def __init__(self, pause):
        self.pause = pause
        self.handles = {}
        self.signals = []
        self.wire = bytearray()
        self.stand_in = False
        self.unplayed = False
        # How many characters have come. Past CROWDED some may wait for room, and come when a call has made some.
        self.received = 0
        self.master = os.open("/dev/ptmx", os.O_RDWR | os.O_NOCTTY | os.O_NONBLOCK)
        fcntl.ioctl(self.master, TIOCSPTLCK, struct.pack("i", 0))
        number, = struct.unpack("I", fcntl.ioctl(self.master, TIOCGPTN, bytes(4)))
        self.name = "/dev/pts/%d" % number

    # What is seen from outside.

    def take_output(self):
        """What has come out. An empty read has waited for the kernel's work on the way."""
        took = False
        while True:
            try:
                piece = os.read(self.master, 65536)
            except OSError:
                return took
            if not piece:
                return took
            self.wire += piece
            took = True

    def take_signals(self):
        while True:
            info = signal.sigtimedwait(SIGNALS.keys(), 0)
            if info is None:
                return
            self.signals.append(SIGNALS[info.si_signo])

    def seen(self):
        self.take_output()
        self.take_signals()
        return [len(self.wire), len(self.signals)] + [self.waiting_on(fd) for fd in self.handles.values()]

    def waiting_on(self, fd):
        try:
            return number_of(fd, termios.FIONREAD)
        except OSError:
            return None

    def input_is_taken(self):
        """Whether the kernel has taken all input: a look at a handle that has nothing to read waits for that."""
        for fd in self.handles.values():
            poll = select.poll()
            poll.register(fd, select.POLLIN)
            if not poll.poll(0):
                return True
        return False

    def settle(self):
        """Waits until nothing moves any more."""
        if not self.input_is_taken():
            before = None
            while before != (now := self.seen()):
                before = now
                time.sleep(self.pause)
        self.seen()

    # The line.

    def receive(self, data):
        """Characters arrive by one write, that ends behind each signal character: signals that wait are merged."""
        self.received += len(data)
        for piece in cut_behind(data, self.signal_characters()):
            while piece:
                try:
                    piece = piece[os.write(self.master, piece):]
                except BlockingIOError:
                    raise CannotBePlayed from None
                self.settle()

    def signal_characters(self):
        now, _ = modes.get(self.master)
        return {now.characters[name] for name in ("intr", "quit", "susp")} - {0} if "isig" in now.flags else set()

    # The calls. Each is made in its caller's thread, and answers in the words of a report.

    def fd(self, words):
        return self.handles.get(words[1], NO_HANDLE)

    def call(self, words):
        verb = words[0]
        not_answered = self.stand_in and verb in UNPLAYED_IN_STAND_IN and self.is_live(words)
        if self.unplayed or verb in UNPLAYED_CALLS or not_answered:
            raise CannotBePlayed
        return getattr(self, "do_" + verb)(words)

    def is_live(self, words):
        try:
            fcntl.ioctl(self.fd(words), termios.TIOCGETD, bytes(4))
        except OSError:
            return False
        return True

    def do_open(self, words):
        if words[1] in self.handles:
            return "EEXIST"
        flags = ACCESS[words[2]] | os.O_NOCTTY | (os.O_NONBLOCK if words[3:] else 0)
        fd = os.open(self.name, flags)
        self.handles[words[1]] = fd
        self.become_leader(fd, words[2])
        return "ok"

    def become_leader(self, fd, access):
        """Makes the port the terminal of this session, which a handle that only writes cannot do."""
        try:
            reader = fd if access != "w" else os.open(self.name, os.O_RDONLY | os.O_NOCTTY | os.O_NONBLOCK)
            fcntl.ioctl(reader, termios.TIOCSCTTY, 0)
            if reader != fd:
                os.close(reader)
        except OSError:
            pass

    def do_close(self, words):
        os.close(self.fd(words))
        del self.handles[words[1]]
        return "ok"

    def do_read(self, words):
        room = ctypes.create_string_buffer(int(words[2]))
        count = libc.read(self.fd(words), room, int(words[2]))
        if count < 0:
            return self.refused()
        return "%d %s" % (count, room.raw[:count].hex()) if count else "0"

    def do_write(self, words):
        data = bytes.fromhex(words[2])
        count = libc.write(self.fd(words), data, len(data))
        return self.refused() if count < 0 else str(count)

    def refused(self):
        error = ctypes.get_errno()
        if self.stand_in and error == errno.EOPNOTSUPP:
            error = errno.EIO
        raise OSError(error, "")

    def do_getm(self, words):
        return modes.get(self.fd(words))[0].text()

    def do_modes(self, words):
        now, fields = modes.get(self.fd(words))
        new = now.with_words(words[3:])
        if "ixoff" in new.flags:
            raise CannotBePlayed
        modes.put(self.fd(words), WHEN[words[2]], new, fields)
        return "ok"

    def do_getd(self, words):
        number, = struct.unpack("i", fcntl.ioctl(self.fd(words), termios.TIOCGETD, bytes(4)))
        return "1" if number == N_NULL else str(number)

    def do_setd(self, words):
        number = int(words[2])
        if number == N_NULL:
            raise CannotBePlayed
        fcntl.ioctl(self.fd(words), termios.TIOCSETD, struct.pack("I", N_NULL if number == 1 else number))
        self.stand_in = number == 1
        return "ok"

    def do_flush(self, words):
        fcntl.ioctl(self.fd(words), termios.TCFLSH, QUEUE[words[2]])
        return "ok"

    def do_xonc(self, words):
        fcntl.ioctl(self.fd(words), termios.TCXONC, ACT[words[2]])
        return "ok"

    def do_inq(self, words):
        return str(number_of(self.fd(words), termios.FIONREAD))

    def do_outq(self, words):
        return str(number_of(self.fd(words), termios.TIOCOUTQ))

    def do_excl(self, words):
        fcntl.ioctl(self.fd(words), termios.TIOCEXCL)
        return "ok"

    def do_nxcl(self, words):
        fcntl.ioctl(self.fd(words), termios.TIOCNXCL)
        return "ok"

    def do_drain(self, words):
        fcntl.ioctl(self.fd(words), termios.TCSBRK, 1)
        return "ok"

    def do_vhangup(self, words):
        """A hangup, which only root may make; a pseudoterminal then has fresh modes, so the old ones are set again."""
        now, _ = modes.get(self.master)
        if os.getresuid()[2] != 0:
            raise CannotBePlayed
        child = os.fork()
        if child == 0:
            os._exit(hang_up(self.fd(words)))
        status = os.waitstatus_to_exitcode(os.waitpid(child, 0)[1])
        if status:
            raise OSError(status, "")
        _, fields = modes.get(self.master)
        modes.put(self.master, termios.TCSETS, now, fields)
        self.stand_in = False
        return "ok"


def hang_up(fd):
    try:
        os.seteuid(0)
        fcntl.ioctl(fd, TIOCVHANGUP)
    except OSError as error:
        return error.errno
    return 0


def number_of(fd, request):
    return struct.unpack("i", fcntl.ioctl(fd, request, bytes(4)))[0]


def cut_behind(data, characters):
    begun = 0
    for place, byte in enumerate(data):
        if byte in characters:
            yield data[begun:place + 1]
            begun = place + 1
    if begun < len(data):
        yield data[begun:]


class Phase:
    """The calls of a phase in the order of one thread: who can go on first, then a tick, then who waits is woken."""

    def __init__(self, port, blocks, ticks):
        self.port = port
        self.look = min(port.pause, LONGEST_LOOK)
        self.blocks = blocks
        self.ticks = ticks
        self.answers = queue.SimpleQueue()
        self.callers = [Caller(number, self.answers) for number in range(len(blocks))]
        self.told = [[] for _ in blocks]

    def play(self):
        while True:
            caller = next((c for c in self.callers if not c.waits and c.next < len(self.calls(c))), None)
            if caller:
                self.go_on(caller)
            elif waiting := [c for c in self.callers if c.waits]:
                if self.ticks:
                    self.pass_ticks()
                else:
                    self.give_up(waiting[0])
            else:
                break
        for caller in self.callers:
            caller.jobs.put(None)
        return self.told

    def calls(self, caller):
        return self.blocks[caller.number][1]

    def go_on(self, caller):
        words = self.calls(caller)[caller.next]
        caller.begin(self.port.fd(words), lambda: self.port.call(words))
        self.hear()
        if self.port.received > CROWDED:
            self.port.settle()

    def hear(self):
        """Takes answers and output until each call that is not answered waits, and nothing comes any more."""
        end = time.monotonic() + LONGEST_CALL
        calm = 0
        while calm < 2 and time.monotonic() < end:
            moved = self.take_answers(self.look if calm else 0.001)
            waiting = [c for c in self.callers if c.waits]
            if not waiting:
                break
            calm = 0 if moved or not all(c.is_blocked() for c in waiting) else calm + 1
        self.port.seen()

    def take_answers(self, seconds):
        """Takes what comes within a time, and tells whether something did."""
        try:
            self.note(*self.answers.get(timeout=seconds))
            moved = True
        except queue.Empty:
            moved = False
        return self.port.take_output() or moved

    def note(self, number, answer):
        caller = self.callers[number]
        words = self.calls(caller)[caller.next]
        if answer == "?" and words[0] not in ASKS_ONLY:
            self.port.unplayed = True
        self.told[number].append(answer)
        caller.next += 1
        caller.waits = False

    def pass_ticks(self):
        """Lets ticks pass from the latest call on, until a caller can go on."""
        begun = max(c.begun for c in self.callers if c.waits)
        passed = 0
        while passed < self.ticks:
            passed += 1
            while (left := begun + (passed + LATE) * TICK - time.monotonic()) > 0:
                self.take_answers(left)
            if any(not c.waits and c.next < len(self.calls(c)) for c in self.callers):
                break
        self.ticks -= passed
        self.hear()

    def give_up(self, caller):
        for _ in range(500):
            caller.wake()
            self.take_answers(0.002)
            if not caller.waits:
                self.hear()
                return
        raise RuntimeError("a call goes on waiting")


def play_line(port, steps):
    for words in steps:
        if words[0] in UNPLAYED_STEPS:
            raise CannotBePlayed
        if words[0] == "rx":
            port.receive(bytes.fromhex(words[1]))


def play_here(phases, pause):
    port = Port(pause)
    told = []
    for steps, blocks, ticks in phases:
        try:
            if not port.unplayed:
                play_line(port, steps)
        except CannotBePlayed:
            port.unplayed = True
        told.append(Phase(port, blocks, ticks).play())
    port.settle()
    return {"answers": told, "signals": port.signals, "wire": bytes(port.wire).hex(), "unplayed": port.unplayed}


def become_user(parent):
    """Leaves root's rights, which would pass an exclusive port, but for a hangup's; and does not outlive the parent."""
    os.setsid()
    if os.geteuid() == 0:
        nobody = pwd.getpwnam("nobody")
        os.setgroups([])
        os.setresgid(nobody.pw_gid, nobody.pw_gid, nobody.pw_gid)
        os.setresuid(nobody.pw_uid, nobody.pw_uid, 0)
    libc.prctl(PR_SET_PDEATHSIG, signal.SIGKILL, 0, 0, 0)
    # With other rights than before, a process may not look at its own threads.
    libc.prctl(PR_SET_DUMPABLE, 1, 0, 0, 0)
    if os.getppid() != parent:
        os._exit(1)
    signal.pthread_sigmask(signal.SIG_BLOCK, SIGNALS.keys())
    signal.signal(signal.SIGHUP, signal.SIG_IGN)
    signal.signal(WAKE, lambda number, frame: None)


def play(phases, pause):
    """Plays a port in a process of its own, and gives what it told."""
    source, sink = os.pipe()
    parent = os.getpid()
    child = os.fork()
    if child == 0:
        try:
            become_user(parent)
            with os.fdopen(sink, "w") as told:
                json.dump(play_here(phases, pause), told)
        except BaseException as error:
            print("linux: %r" % error, file=sys.stderr, flush=True)
            os._exit(1)
        os._exit(0)
    os.close(sink)
    limit = 20 + sum(ticks for _, _, ticks in phases) * TICK
    told = take_all(source, limit)
    os.close(source)
    os.kill(child, signal.SIGKILL)
    os.waitpid(child, 0)
    return json.loads(told) if told else None


def take_all(source, seconds):
    told = b""
    end = time.monotonic() + seconds
    while (left := end - time.monotonic()) > 0:
        if select.select([source], [], [], left)[0]:
            piece = os.read(source, 65536)
            if not piece:
                return told
            told += piece
    return b""
