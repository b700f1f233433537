"""A session's text, taken apart. It is the program that refuses wrong texts; here only good ones are read."""


class Phase:
    def __init__(self):
        self.lines = {}
        self.ticks = {}
        self.callers = []

    def callers_of(self, port):
        """The blocks of a port in the text's order: a name, and its calls as lists of words."""
        return [(name, calls) for name, at, calls in self.callers if at == port]


class Session:
    def __init__(self, text):
        self.ports = 0
        self.phases = []
        self._block = None
        for line in text.splitlines():
            words = line.split()
            if words and not words[0].startswith("#"):
                self._add(words)

    def _add(self, words):
        item = words[0]
        if item == "ports":
            self.ports = int(words[1])
        elif item == "phase":
            self.phases.append(Phase())
        elif item == "line":
            self._block = self.phases[-1].lines.setdefault(int(words[1]), [])
        elif item == "clock":
            self._block = int(words[1])
        elif item == "tick":
            ticks = self.phases[-1].ticks
            ticks[self._block] = ticks.get(self._block, 0) + int(words[1])
        elif item == "caller":
            self._block = []
            self.phases[-1].callers.append((words[1], int(words[2]), self._block))
        elif item not in ("tty-session", "flip", "end"):
            self._block.append(words)

    def calls_of(self, port):
        """The calls of a port in a report's order: phase, place of the block in it, of the call, step, name, words."""
        steps = {}
        for phase_number, phase in enumerate(self.phases):
            for block, (name, calls) in enumerate(phase.callers_of(port)):
                for place, words in enumerate(calls):
                    step = steps.get(name, 0)
                    steps[name] = step + 1
                    yield phase_number, block, place, step, name, words
