"""Which steps are quiet, in a printed state: by the rule of docs/explore.md, worked out here from the lines of the state."""
import re

from debugger.state import State
from debugger.walk import walk
from exploring.policy import named_by

MOST = 4096  # quiet steps behind the first step of a run
SIZES = {0: 1, 1: 2, 2: 4, 4: 1, 5: 2}  # of loads and stores, by funct3
STORES, IMMEDIATE, REGISTERS = (0, 1, 2), 0x13, 0x33
SHIFTS = {1: (0,), 5: (0, 0x20)}
OTHER = {0: (0, 0x20), 5: (0, 0x20)}  # funct7 of those with two registers, where it isn't 0 alone


def signed(value, bits):
    return value - (1 << bits) if value >> (bits - 1) & 1 else value


def compared(funct3, one, other):
    """Whether a branch is taken; None where no branch has this number."""
    low, high = signed(one, 32), signed(other, 32)
    return {0: one == other, 1: one != other, 4: low < high, 5: low >= high, 6: one < other, 7: one >= other}.get(funct3)


def jump(target):
    return ("goes on",) if target % 4 == 0 else None


def branch(word, pc, one, other):
    offset = (word >> 31) << 12 | (word >> 7 & 1) << 11 | (word >> 25 & 63) << 5 | (word >> 8 & 15) << 1
    taken = compared(word >> 12 & 7, one, other)
    return None if taken is None else jump(pc + signed(offset, 13)) if taken else ("goes on",)


def access(kind, funct3, address):
    """A load or a store: what it reaches for, if it is aligned."""
    address %= 1 << 32
    known = funct3 in (SIZES if kind == "load" else STORES)
    return (kind, address) if known and address % SIZES[funct3] == 0 else None


def performed(word, pc, registers):
    """What an instruction does: it goes on, or loads or stores at an address. None where it faults, or calls the kernel."""
    opcode, funct3, funct7 = word & 0x7f, word >> 12 & 7, word >> 25
    one, other = registers.get(word >> 15 & 31, 0), registers.get(word >> 20 & 31, 0)
    immediate = signed(word >> 20, 12)
    if opcode in (0x37, 0x17):
        return ("goes on",)
    if opcode == 0x6f:
        offset = (word >> 31) << 20 | (word >> 12 & 255) << 12 | (word >> 20 & 1) << 11 | (word >> 21 & 1023) << 1
        return jump(pc + signed(offset, 21))
    if opcode == 0x67:
        return jump((one + immediate) & ~1) if funct3 == 0 else None
    if opcode == 0x63:
        return branch(word, pc, one, other)
    if opcode == 0x03:
        return access("load", funct3, one + immediate)
    if opcode == 0x23:
        return access("store", funct3, one + signed(funct7 << 5 | word >> 7 & 31, 12))
    if opcode == IMMEDIATE and funct3 in SHIFTS and funct7 not in SHIFTS[funct3]:
        return None
    if opcode == REGISTERS and funct7 not in OTHER.get(funct3, (0,)):
        return None
    return ("goes on",) if opcode in (IMMEDIATE, REGISTERS) or opcode == 0x0f and funct3 == 0 else None


SLOT = re.compile(r"slot \d+ of gpt (\d+)")  # where a walk met a capability


class Holding:
    """Who comes to what by the capabilities of a state, and which pages may be written."""

    def __init__(self, state):
        self.within = {}
        for (gpt, _), word in state.slots.items():
            self.within.setdefault(gpt, []).append(word)
        self.holders = {}
        for process, printed in state.processes.items():
            self.go(("process", process), [*printed[1:4], *state.held.get(process, {}).values()])
        for page, slots in state.cappages.items():
            self.go(("cappage", page), slots.values())
        words = [word for _, word in places(state)]
        self.named = {named_by(word) for word in words}
        self.is_far_reaching = any(is_far_reaching(word) for word in words)
        words.extend(printed[0] for printed in state.endpoints.values())
        self.is_ranged = "range" in words
        self.written = {named_by(word)[1] for word in words if may_write(word)}

    def go(self, holder, words):
        """Puts down what a holder comes to, through GPTs or not."""
        left, seen = list(words), set()
        while left:
            named = named_by(left.pop())
            if named is None or named in seen:
                continue
            seen.add(named)
            self.holders.setdefault(named, set()).add(holder)
            if named[0] == "gpt":
                left.extend(self.within.get(named[1], []))

    def own(self, process, kind="page"):
        """The pages or GPTs to which this process comes, and nobody else."""
        alone = {("process", process)}
        return {number for (other, number), holders in self.holders.items() if other == kind and holders == alone}

    def is_settled(self, page):
        """Whether nobody can change a page any more."""
        return not self.is_ranged and page not in self.written

    def may_reach(self, process, kind, end):
        """Whether an access that ended so may belong to a quiet step."""
        if end.name != "reach":
            return False
        way = {int(found[1]) for found in map(SLOT.fullmatch, (held for held, _ in end.way)) if found}
        return end.number in self.own(process) or (
            kind != "store" and self.is_settled(end.number) and way <= self.own(process, "gpt"))


def places(state):
    """Each capability that processes, GPTs and capability pages hold, with the object that holds it."""
    for (gpt, _), word in state.slots.items():
        yield ("gpt", gpt), word
    for process, printed in state.processes.items():
        for word in (*printed[1:4], *state.held.get(process, {}).values()):
            yield ("process", process), word
    for page, slots in state.cappages.items():
        for word in slots.values():
            yield ("cappage", page), word


def is_far_reaching(word):
    """Whether one comes to more by a capability than it names."""
    return word == "range" or word.startswith("window:")


def may_write(word):
    """Whether a capability is one to a page by which that may be written."""
    return word.startswith("page:") and "r" not in word.partition("+")[2]


def is_quiet(data, hart, processes, pages):
    """Whether the next step of a hart is quiet in a state, as it is printed, for who looks at these processes and pages."""
    state = State(data)
    process = state.harts[hart]
    if state.halted or process is None or process in processes:
        return False
    stands = [*state.harts, *(other for queue in (state.ready, state.sleepers) for those in queue.values() for other in those)]
    holding = Holding(state)
    if (state.process(process).state != ["run"] or stands.count(process) != 1 or holding.is_far_reaching
            or ("process", process) in holding.named):
        return False
    return not holding.own(process) & pages and is_quiet_next(state, process, holding)


def is_quiet_next(state, process, holding):
    """Whether the next instruction of a process is performed, with pages alone that it may reach in a quiet step."""
    pc = state.process(process).pc
    word = read(state, process, pc, holding)
    does = None if word is None else performed(word, pc, state.registers.get(process, {}))
    if does is None or does == ("goes on",):
        return does is not None
    return holding.may_reach(process, does[0], walk(state, process, *does))


def read(state, process, address, holding):
    """The instruction at an address, if it may be fetched in a quiet step."""
    end = walk(state, process, "fetch", address)
    if not holding.may_reach(process, "fetch", end):
        return None
    return int.from_bytes(state.page(end.number)[end.offset:end.offset + 4], "little")
