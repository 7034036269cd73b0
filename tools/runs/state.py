"""The last state, as `run` and `trace` print it behind the records."""


class State:
    """What processes and harts have, and what memory holds. `lines` are those behind `state`, as text."""

    def __init__(self, lines):
        self.harts, self.ready, self.sleepers, self.is_halted = [], {}, {}, False
        self.processes, self.registers, self.held, self.endpoints = {}, {}, {}, {}
        self.gpts, self.slots, self.cappages, self.pages = {}, {}, {}, {}
        for line in lines:
            words = line.split()
            taker = getattr(self, f"take_{words[0]}", None) if words else None
            if taker:
                taker(words)

    def take_hart(self, words):
        self.harts.append(None if words[2] == "idle" else int(words[2]))

    def take_ready(self, words):
        for process in words[2:]:
            self.ready[int(process)] = int(words[1])

    def take_sleepers(self, words):
        for process in words[2:]:
            self.sleepers[int(process)] = int(words[1])

    def take_halted(self, _words):
        self.is_halted = True

    def take_process(self, words):
        self.processes[int(words[1])] = words[2:]

    def take_reg(self, words):
        self.registers.setdefault(int(words[1]), {})[int(words[2])] = int(words[3], 16)

    def take_capreg(self, words):
        self.held.setdefault(int(words[1]), {})[int(words[2])] = words[3]

    def take_endpoint(self, words):
        self.endpoints[int(words[1])] = words[2:]

    def take_gpt(self, words):
        self.gpts[int(words[1])] = int(words[2]), words[3:]

    def take_slot(self, words):
        self.slots.setdefault(int(words[1]), {})[int(words[2])] = words[3]

    def take_cap(self, words):
        self.cappages.setdefault(int(words[1]), {})[int(words[2])] = words[3]

    def take_page(self, words):
        self.pages.setdefault(int(words[1]), {})[int(words[2], 16)] = bytes.fromhex(words[3])

    # -- what follows from that

    def pc(self, process):
        return int(self.processes[process][0], 16)

    def register(self, process, number):
        return self.registers.get(process, {}).get(number, 0)

    def page_of(self, process, address):
        """The page that an address of a process leads to, and the offset in it, or None: GPTs and guards are followed,
        windows aren't."""
        return self.reached(self.processes[process][1], address, 32)

    def reached(self, capability, address, left):
        kind, _, rest = capability.partition(":")
        if not left or kind not in ("page", "gpt"):
            return None
        number, _, guard = rest.partition("@")
        size, match = guard.split("+")[0].split("/")
        if address >> int(size) != int(match, 16):
            return None
        address &= (1 << int(size)) - 1
        if kind == "page":
            return (int(number), address) if address < 4096 else None
        level, flags = self.gpts.get(int(number), (12, ()))
        slot = address >> level
        if slot > 15 or slot == 15 and "ha" in flags or slot == 14 and "bg" in flags:
            return None
        return self.reached(self.slots.get(int(number), {}).get(slot, "null"), address & (1 << level) - 1, left - 1)

    def word(self, process, address):
        """The word at an address of a process, or None."""
        found = self.page_of(process, address) if address % 4 == 0 else None
        if found is None:
            return None
        page, offset = found
        row = self.pages.get(page, {}).get(offset & ~15, bytes(16))
        return int.from_bytes(row[offset & 15:(offset & 15) + 4], "little")

    def holders(self, endpoint):
        """The processes that hold an entry to an endpoint in a register."""
        return [process for process, held in sorted(self.held.items())
                if any(word.startswith(f"entry:{endpoint}:") for word in held.values())]
