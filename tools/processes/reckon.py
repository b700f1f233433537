"""What the program is to tell of a session of processes: job control here, the ports by a player of plain sessions.

A session is (procs, phases): of each port its processes, and of each phase (lines, ticks, blocks), where `lines` and
`ticks` have a list of items for each port and a block is [name, port, calls]; a call is its words.
"""

READS, WRITES = ("r", "rw"), ("w", "rw")
SIGNALS = {3: "INT", 28: "QUIT", 26: "SUSP"}
OWN = ("sctty", "notty", "gpgrp", "spgrp", "exit")
CHANGES = ("modes", "flush", "xonc", "setd", "drain")


def plain_text(lines_of, blocks_of, ports, phases):
    """The text of a plain session: of each phase the items of each line and clock, and the blocks."""
    text = ["tty-session 1", "ports %d" % ports]
    for k in range(phases):
        text.append("phase")
        lines, ticks = lines_of(k)
        for p in range(ports):
            text += (["line %d" % p] + lines[p] if lines[p] else []) + (["clock %d" % p] + ticks[p] if ticks[p] else [])
        for name, port, calls in blocks_of(k):
            text += ["caller %s %d" % (name, port)] + [" ".join(call) for call in calls]
    return ("\n".join(text + ["end"]) + "\n").encode()


class Handles:
    """The handles of a port, its flag tostop, and whether its characters raise signals."""

    def __init__(self):
        self.handles, self.tostop, self.isig, self.is_tty = {}, False, True, True

    def usable(self, handle, accesses):
        access, live = self.handles.get(handle, ("", False))
        return live and access in accesses

    def live(self):
        return [handle for handle, (_, live) in sorted(self.handles.items()) if live]

    def answered(self, call, answer):
        """What a call has done that was answered so."""
        if answer != "ok":
            return
        verb, handle = call[0], int(call[1])
        if verb == "open":
            self.handles[handle] = (call[2], True)
        elif verb == "close":
            was_live = self.handles.pop(handle)[1]
            self.is_tty = self.is_tty or (was_live and not self.live())
        elif verb == "vhangup":
            self.handles = {h: (access, False) for h, (access, _) in self.handles.items()}
            self.is_tty = True
        elif verb == "setd":
            self.is_tty = call[2] == "0"
        elif verb == "modes":
            for word in call[3:]:
                self.tostop = {"tostop": True, "-tostop": False, "sane": False}.get(word, self.tostop)
                self.isig = {"isig": True, "-isig": False, "sane": True, "raw": False}.get(word, self.isig)

    def raised(self, characters):
        """The signals that the characters of a flush raise, as a journal writes them: n03 is a good 3."""
        if not (self.isig and self.is_tty) or characters == "-":
            return []
        codes = [characters[at:at + 3] for at in range(0, len(characters), 3)]
        return [SIGNALS[int(code[1:], 16)] for code in codes if code[0] == "n" and int(code[1:], 16) in SIGNALS]


class Jobs:
    """Who holds a port, and what its processes may do."""

    def __init__(self, procs):
        self.procs = procs
        self.holder = None      # the leader's place, and the group in the foreground
        self.exited, self.given_up = set(), set()

    def holds(self, place):
        return self.holder is not None and self.procs[self.holder[0]]["session"] == self.procs[place]["session"]

    def controls(self, place):
        return self.holds(place) and place not in self.given_up

    def leads(self, place):
        return self.holds(place) and self.procs[place]["leader"]

    def is_orphaned(self, group):
        for place, proc in enumerate(self.procs):
            if place in self.exited or proc["group"] != group or proc["parent"] is None:
                continue
            parent = self.procs[proc["parent"]]
            if proc["parent"] not in self.exited and parent["group"] != group and parent["session"] == proc["session"]:
                return False
        return True

    def judged(self, place, ignores, signal):
        """None where a process goes on, else EIO or the signal that stops it."""
        proc = self.procs[place]
        if not self.controls(place) or proc["group"] == self.holder[1]:
            return None
        if proc[ignores]:
            return "EIO" if signal == "TTIN" else None
        return "EIO" if self.is_orphaned(proc["group"]) else signal

    def foreground(self):
        return "-" if self.holder is None else "group %d" % self.holder[1]


class PortPlay:
    """A port of a session of processes, call by call: what is passed down is played by the player of plain sessions."""

    def __init__(self, session, port, play):
        procs, self.phases = session
        self.port, self.play = port, play
        self.jobs, self.handles = Jobs(procs[port]), Handles()
        self.place = {proc["name"]: place for place, proc in enumerate(procs[port])}
        self.blocks = [[block for block in phase[2] if block[1] == port] for phase in self.phases]
        self.passed = [[[] for _ in blocks] for blocks in self.blocks]
        self.made = [[0 for _ in blocks] for blocks in self.blocks]
        self.answers, self.signals, self.waiting = {}, [], {}

    def journal(self):
        def lines_of(k):
            lines, ticks, _ = self.phases[k]
            return [lines[self.port]], [ticks[self.port]]

        def blocks_of(k):
            return [(block[0], 0, calls) for block, calls in zip(self.blocks[k], self.passed[k])]

        text = self.play(plain_text(lines_of, blocks_of, 1, len(self.phases)), True).decode()
        lines = text.split("\njournals\n")[1].split("\n")
        return [line.split(" ") for line in lines[1:1 + int(lines[0].split(" ")[2])]]

    def send(self, signal, target):
        self.signals.append("job %d %s %s" % (self.port, signal, target))

    def answer(self, name, answer):
        self.answers.setdefault(name, []).append(answer)

    def let_go(self):
        self.jobs.holder = None

    def run(self):
        seen, phase = 0, 0
        again = True
        while again:
            again = False
            for entry in self.journal()[seen:]:
                if entry[4] == "caller_end" and self.goes_on(phase, entry[0]):
                    again = True
                    break
                seen += 1
                phase += entry[4] == "phase_end"
                self.see(entry)

    def see(self, entry):
        """An entry of the journal."""
        who, kind = entry[0], entry[4]
        if kind == "flush":
            for signal in self.handles.raised(entry[5]):
                self.send(signal, self.jobs.foreground())
        elif kind == "answer":
            call, is_down = self.waiting.pop(who)
            answer = " ".join(entry[5:]).split(" drop ")[0]
            self.handles.answered(call, answer)
            if is_down:
                return
            self.answer(who, answer)
            if call[0] == "vhangup" and answer == "ok" and self.jobs.holder is not None:
                leader = self.jobs.procs[self.jobs.holder[0]]["name"]
                self.send("HUP", "process " + leader)
                self.send("CONT", "process " + leader)
                self.let_go()

    def goes_on(self, phase, name):
        """Whether a caller passes a call down that has come to the end of those that it has passed."""
        at = [block[0] for block in self.blocks[phase]].index(name)
        calls = self.blocks[phase][at][2]
        while self.made[phase][at] < len(calls):
            call = calls[self.made[phase][at]]
            self.made[phase][at] += 1
            down = self.own(name, self.place[name], call) if call[0] in OWN else self.checked(name, self.place[name], call)
            if down is not None:
                self.passed[phase][at].append(down[0])
                self.waiting[name] = down
                return True
        return False

    def checked(self, name, place, call):
        """A call for the port: what is passed down, where it goes on."""
        verb, handle = call[0], int(call[1])
        judged = None
        if verb == "read" and self.handles.usable(handle, READS):
            judged = self.jobs.judged(place, "nottin", "TTIN")
        elif verb == "write" and self.handles.usable(handle, WRITES) and self.handles.tostop:
            judged = self.jobs.judged(place, "nottou", "TTOU")
        elif verb in CHANGES and self.handles.usable(handle, ("r", "w", "rw")):
            judged = self.jobs.judged(place, "nottou", "TTOU")
        if judged is None:
            return call, False
        self.stop(name, place, judged, "EIO")
        return None

    def stop(self, name, place, judged, orphaned):
        if judged == "EIO":
            self.answer(name, orphaned)
        else:
            self.answer(name, "stopped " + judged)
            self.send(judged, "group %d" % self.jobs.procs[place]["group"])

    def own(self, name, place, call):
        """A call of job control: what an end passes down."""
        if call[0] == "exit":
            self.answer(name, "ok")
            down = None
            if self.jobs.leads(place):
                self.send("HUP", self.jobs.foreground())
                live = self.handles.live()
                down = (["vhangup", str(live[0])], True) if live else None
                self.let_go()
            self.jobs.exited.add(place)
            return down
        handle = self.handles.handles.get(int(call[1]))
        if handle is None:
            self.answer(name, "EBADF")
        elif not handle[1]:
            self.answer(name, "ENOTTY" if call[0] == "spgrp" else "EIO")
        else:
            getattr(self, call[0])(name, place, call)
        return None

    def sctty(self, name, place, call):
        jobs = self.jobs
        if jobs.leads(place):
            return self.answer(name, "ok")
        if not jobs.procs[place]["leader"] or jobs.holder is not None:
            return self.answer(name, "EPERM")
        jobs.holder, jobs.given_up = (place, jobs.procs[place]["group"]), set()
        return self.answer(name, "ok")

    def notty(self, name, place, call):
        if not self.jobs.controls(place):
            return self.answer(name, "ENOTTY")
        self.answer(name, "ok")
        if self.jobs.leads(place):
            self.send("HUP", self.jobs.foreground())
            self.send("CONT", self.jobs.foreground())
            self.let_go()
        else:
            self.jobs.given_up.add(place)
        return None

    def gpgrp(self, name, place, call):
        self.answer(name, str(self.jobs.holder[1]) if self.jobs.controls(place) else "ENOTTY")

    def spgrp(self, name, place, call):
        jobs, group = self.jobs, int(call[2])
        if not jobs.controls(place):
            return self.answer(name, "ENOTTY")
        judged = jobs.judged(place, "nottou", "TTOU")
        if judged is not None:
            return self.stop(name, place, judged, "ENOTTY")
        session = jobs.procs[place]["session"]
        others = [p for at, p in enumerate(jobs.procs) if at not in jobs.exited and p["session"] == session]
        if group not in [p["group"] for p in others]:
            return self.answer(name, "EPERM")
        jobs.holder = (jobs.holder[0], group)
        return self.answer(name, "ok")


def reckoned(session, play):
    """The report that is to be told of a session, and the text of the session that its ports are to be played."""
    procs, phases = session
    ports = [PortPlay(session, port, play) for port in range(len(procs))]
    for port in ports:
        port.run()
    steps, told = {}, []
    for number in range(len(ports)):
        for phase in phases:
            for name, port, calls in phase[2]:
                for call in calls if port == number else ():
                    step = steps[name, port] = steps.get((name, port), -1) + 1
                    told.append("%d.%s.%d %s %s" % (port, name, step, call[0], ports[port].answers[name][step]))

    def blocks_of(k):
        places = [0] * len(ports)
        for name, port, _ in phases[k][2]:
            yield name, port, ports[port].passed[k][places[port]]
            places[port] += 1

    derived = plain_text(lambda k: phases[k][:2], blocks_of, len(ports), len(phases))
    lines = play(derived, False).decode().split("\n")
    told += [line for line in lines if line.startswith("port ")]
    for port in ports:
        told += port.signals
    return ("\n".join(told + ["done"]) + "\n").encode(), derived
