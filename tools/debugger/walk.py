"""Where an access through a space ends, by the capabilities that the program printed (docs/machine.md).

`tools/try-examples` holds it against `coyotos walk`.
"""
import re
from collections import namedtuple

MOST_MET = 32
DATA = ("fetch", "load", "store")
DENIED = {"fetch": "x", "store": "r", "capstore": "r"}
FORM = re.compile(r"(page|cappage|gpt|window|local):(?:(\d+):)?([0-9a-f]+)@(\d+)/([0-9a-f]+)(?:\+([rxwon]+))?")

# A capability of memory: for a window `number` is its offset, and for a local one `slot` its slot.
Memory = namedtuple("Memory", "kind number slot size match letters")
# Where a walk ended: `reach` with a kind, a number and an offset, or a fault's name with what was in the way.
End = namedtuple("End", "name kind number offset letters handler way")


def memory_of(word):
    """A printed capability as memory; None if it is another."""
    form = FORM.fullmatch(word)
    if not form:
        return None
    kind, slot, number, size, match, letters = form.groups()
    base = 16 if kind in ("window", "local") else 10
    return Memory(kind, int(number, base), int(slot or 0), int(size), int(match, 16), letters or "")


class Walk:
    """A walk on its way."""

    def __init__(self, state, kind, address):
        self.state, self.kind, self.address = state, kind, address
        self.holding = self.background = self.handler = None
        self.letters, self.way = set(), []

    def fault(self, name):
        handler = self.state.slot(self.handler, 15) if self.handler is not None else "none"
        return End(name, None, None, None, None, handler, self.way)

    def nothing(self):
        return self.fault("InvalidDataReference" if self.kind in DATA else "InvalidCapReference")

    def reach(self, memory):
        """The rules of pages and capability pages."""
        if self.address >= 4096:
            return self.nothing()
        if memory.kind == "page" and self.kind not in DATA:
            return self.fault("CapAccessTypeError")
        if memory.kind == "cappage" and self.kind in DATA:
            return self.fault("DataAccessTypeError")
        if DENIED.get(self.kind) in self.letters:
            return self.fault("AccessViolation")
        letters = "".join(letter for letter in "rxwon" if letter in self.letters)
        return End("reach", memory.kind, memory.number, self.address, letters or "-", None, self.way)

    def into(self, gpt):
        """The rule of GPTs: the slot that the address names, or an end."""
        level, flags = self.state.header(gpt)
        slot = self.address >> level
        if "ha" in flags and "n" not in self.letters:
            self.handler = gpt
        if slot > 15 or slot == 15 and "ha" in flags or slot == 14 and "bg" in flags:
            return self.nothing()
        if "bg" in flags:
            self.background = gpt
        self.holding, self.address = gpt, self.address & (1 << level) - 1
        return gpt, slot

    def through(self, memory):
        """The rules of windows: the slot behind one, or an end."""
        gpt, slot = (self.background, 14) if memory.kind == "window" else (self.holding, memory.slot)
        if gpt is None:
            return self.fault("MalformedSpace")
        flags = self.state.header(gpt)[1]
        if memory.kind == "local" and (slot == 15 and "ha" in flags or slot == 14 and "bg" in flags):
            return self.fault("MalformedSpace")
        self.holding, self.address = gpt, memory.number + self.address
        return gpt, slot

    def step(self, word):
        """What one capability makes of the walk: an end, or the slot to go on in."""
        memory = memory_of(word)
        if memory is None or self.address >> memory.size != memory.match:
            return self.nothing()
        self.letters.update(memory.letters)
        self.address &= (1 << memory.size) - 1
        if memory.kind in ("page", "cappage"):
            return self.reach(memory)
        return self.into(memory.number) if memory.kind == "gpt" else self.through(memory)


def walk(state, process, kind, address):
    """Where an access of a process ends. `way` has each capability that was met, with the slot that held it."""
    going, word, held = Walk(state, kind, address), state.process(process).space, "space"
    for _ in range(MOST_MET):
        going.way.append((held, word))
        found = going.step(word)
        if isinstance(found, End):
            return found
        word, held = state.slot(*found), f"slot {found[1]} of gpt {found[0]}"
    return going.fault("MalformedSpace")
