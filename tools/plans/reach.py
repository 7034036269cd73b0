"""Which instructions the code of a program comes to, as far as that can be seen without running it."""
from plans import elf

EBREAK, ECALL = 0x00100073, 0x00000073
LUI, AUIPC, JAL, JALR, BRANCH, LOAD, STORE, IMMEDIATE, REGISTERS, FENCE, SYSTEM = (
    0x37, 0x17, 0x6f, 0x67, 0x63, 0x03, 0x23, 0x13, 0x33, 0x0f, 0x73)
FUNCTIONS = {JALR: {0}, BRANCH: {0, 1, 4, 5, 6, 7}, LOAD: {0, 1, 2, 4, 5}, STORE: {0, 1, 2}, IMMEDIATE: set(range(8)),
             REGISTERS: set(range(8)), FENCE: {0, 1}}
RETURNS = (1, 5)  # registers by which a function returns: ra, and t0 in the compiler's own functions
NUMBER = 17  # the register that has the number of a system call
FAR = 64  # how many instructions before a system call its number is looked for


def signed(value, bits):
    return value - (1 << bits) if value >> bits - 1 else value


def field(word, low, count):
    return word >> low & (1 << count) - 1


def is_instruction(word):
    """Whether it is one of RV32I."""
    opcode, function, more = field(word, 0, 7), field(word, 12, 3), field(word, 25, 7)
    if opcode in (LUI, AUIPC, JAL) or word in (ECALL, EBREAK):
        return True
    if opcode == REGISTERS or opcode == IMMEDIATE and function in (1, 5):
        return more == 0 or more == 0x20 and function in ((0, 5) if opcode == REGISTERS else (5,))
    return function in FUNCTIONS.get(opcode, ())


def jump(pc, word):
    """Where a JAL leads."""
    offset = (field(word, 31, 1) << 20 | field(word, 12, 8) << 12 | field(word, 20, 1) << 11 | field(word, 21, 10) << 1)
    return pc + signed(offset, 21) & 0xffffffff


def branch(pc, word):
    """Where a branch leads where it is taken."""
    offset = (field(word, 31, 1) << 12 | field(word, 7, 1) << 11 | field(word, 25, 6) << 5 | field(word, 8, 4) << 1)
    return pc + signed(offset, 13) & 0xffffffff


class Code:
    """The instructions of an ELF file, with those that are come to from the first one: by what stands after each, by
    jumps, and by calls of functions that return. `lost` is whether one jumps to where a register says, so that more may
    be come to."""

    def __init__(self, path):
        self.entry, segments = elf.read_program(path)
        self.words = {}
        for segment in segments:
            if segment.executable:
                for at in range(0, len(segment.content) - 3, 4):
                    self.words[segment.address + at] = int.from_bytes(segment.content[at:at + 4], "little")
        self.reached, self.lost = set(), False
        self.walk()

    def walk(self):
        todo, seen, returning, waiting = [(self.entry, self.entry)], set(), set(), {}
        while todo:
            function, pc = place = todo.pop()
            if place in seen or pc not in self.words:
                continue
            seen.add(place)
            called, follows, returns = self.step(pc)
            if called is not None:
                waiting.setdefault(called, []).append((function, pc + 4))
                todo.append((called, called))
                todo.extend([(function, pc + 4)] if called in returning else [])
            todo.extend((function, next_one) for next_one in follows)
            if returns and function not in returning:
                returning.add(function)
                todo.extend(waiting.get(function, ()))
        self.reached = {pc for _, pc in seen}

    def step(self, pc):
        """What an instruction calls, what may come after it in its function, and whether it returns."""
        word = self.words[pc]
        opcode, link = field(word, 0, 7), field(word, 7, 5)
        if not is_instruction(word) or word == EBREAK:
            return None, (), False
        if opcode == JAL:
            return (jump(pc, word), (), False) if link else (None, (jump(pc, word),), False)
        if opcode == JALR:
            return self.indirect(pc, word, link)
        if opcode == BRANCH:
            return None, (pc + 4, branch(pc, word)), False
        return None, (pc + 4,), False

    def indirect(self, pc, word, link):
        """The same of a jump to where a register says: a return, a far call, or one that leads nobody knows where."""
        base, offset = field(word, 15, 5), signed(field(word, 20, 12), 12)
        before = self.words.get(pc - 4, 0)
        if field(before, 0, 7) == AUIPC and field(before, 7, 5) == base:
            to = pc - 4 + (before & 0xfffff000) + offset & 0xffffffff
            return (to, (), False) if link else (None, (to,), False)
        if not link and base in RETURNS and not offset:
            return None, (), True
        self.lost = True
        return None, (pc + 4,) if link else (), not link

    def has(self, what):
        """Whether one is come to of which this is so."""
        return any(what(self.words[pc]) for pc in self.reached)

    def calls(self):
        """The numbers of the system calls that are come to; None of one whose number can't be seen."""
        return {self.number(pc) for pc in self.reached if self.words[pc] == ECALL}

    def number(self, pc):
        for at in range(pc - 4, pc - 4 * FAR, -4):
            word = self.words.get(at, 0)
            opcode = field(word, 0, 7)
            if opcode in (JAL, JALR) or not is_instruction(word):
                return None
            if opcode not in (BRANCH, STORE, SYSTEM, FENCE) and field(word, 7, 5) == NUMBER:
                is_number = opcode == IMMEDIATE and not field(word, 15, 5) and not field(word, 12, 3)
                return field(word, 20, 12) if is_number else None
        return None
