"""A state as the program printed it, and which atoms hold of it."""
from exploring.policy import named_by
from exploring.terms import COMPARISONS, compares

ROW = 16


class State:
    """The lines from `state` to `end`, as bytes. What has no line is empty."""

    def __init__(self, data):
        self.is_halted, self.is_stuck = False, True
        self.sleepers, self.processes, self.registers, self.rows = {}, {}, {}, {}
        self.endpoints, self.counts = {}, {}
        self.held = {}  # the capabilities in each object, by its kind and number
        for line in data.decode().splitlines():
            words = line.split()
            take = getattr(self, f"take_{words[0]}", None)
            if take:
                take(words[1:])

    def hold(self, kind, number, words):
        self.held.setdefault((kind, int(number)), []).extend(words)

    def take_hart(self, words):
        self.is_stuck = self.is_stuck and words[1] == "idle"

    def take_ready(self, _words):
        self.is_stuck = False

    def take_sleepers(self, words):
        self.sleepers.update((int(process), int(words[0])) for process in words[1:])

    def take_halted(self, _words):
        self.is_halted = True

    def take_page(self, words):
        self.rows[int(words[0]), int(words[1], 16)] = bytes.fromhex(words[2])

    def take_cap(self, words):
        self.hold("cappage", words[0], words[2:])

    def take_slot(self, words):
        self.hold("gpt", words[0], words[2:])

    def take_count(self, words):
        self.counts[words[0], int(words[1])] = int(words[2])

    def take_endpoint(self, words):
        self.endpoints[int(words[0])] = int(words[2], 16), int(words[3], 16)
        self.hold("endpoint", words[0], words[1:2])

    def take_process(self, words):
        self.processes[int(words[0])] = int(words[1], 16), words[5:]
        self.hold("process", words[0], words[2:5])

    def take_reg(self, words):
        self.registers[int(words[0]), int(words[1])] = int(words[2], 16)

    def take_capreg(self, words):
        self.hold("process", words[0], words[2:])

    # -- atoms

    def process(self, number):
        """The pc of a process, and what it does."""
        return self.processes.get(number, (0, ["stop"]))

    def holds_any(self, groups, policy):
        """Whether all atoms of one of some groups hold."""
        return any(all(self.holds(atom, policy) for atom in group) for group in groups)

    def holds(self, atom, policy):
        name, words = atom.words[0], atom.words[1:]
        holds = compares(name, atom.terms, self) if name in COMPARISONS else self.atom(name, words, policy)
        return holds != atom.negated

    def atom(self, name, words, policy):
        """Whether an atom without terms holds, without its `not`."""
        if name == "stuck":
            return self.is_stuck
        if name == "halted":
            return self.is_halted
        if name == "crossing":
            return policy.is_crossed(self)
        if name == "word":
            return self.number(int(words[0]), int(words[1], 16), 4) == int(words[2], 16)
        if name == "holds":
            held = self.held.get((words[0], int(words[1])), [])
            return any(is_held(capability, words[2:]) for capability in held)
        return self.process_atom(name, int(words[0]), words[1:])

    def process_atom(self, name, process, words):
        pc, doing = self.process(process)
        if name == "sleeps":
            return process in self.sleepers
        if name == "asks":
            return self.sleepers.get(process) == int(words[0])
        if name == "waits":
            found = self.endpoints.get(int(words[0]), (0, 0))[0]
            return doing[0] == "waiting" and (doing[1] == "open" or int(doing[1], 16) == found)
        if name == "accepts":
            return doing[0] == "waiting" and int(doing[2]) > 0
        if name == "pc":
            return int(words[0], 16) <= pc <= int(words[-1], 16)
        if name == "reg":
            return self.registers.get((process, int(words[0])), 0) == int(words[1], 16)
        if name == "faulted":
            return doing[0] == "faulted" and words in ([], doing[1:2])
        return doing[0] == {"running": "run", "receiving": "waiting"}[name]

    def number(self, page, offset, size):
        """So many bytes of a page, the least first."""
        row = self.rows.get((page, offset // ROW * ROW), bytes(ROW))
        return int.from_bytes(row[offset % ROW:offset % ROW + size], "little")


def is_held(capability, wanted):
    """Whether a capability is of a kind, or to an object; with `writable`, one that is not restricted to reading."""
    if len(wanted) == 1:
        return capability.split(":")[0] == wanted[0]
    letters = capability.partition("+")[2]
    return named_by(capability) == (wanted[0], int(wanted[1])) and not ("writable" in wanted and "r" in letters)
