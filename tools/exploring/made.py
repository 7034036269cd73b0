"""Small machines and questions by chance, the same ones for the same number: to be gone through in two ways."""
import random

SENDS, RECEIVES = 0x20, 0x40
DATA, SHARED, CAPS = 0x1000, 0x2000, 0x3000  # where the GPT of each process has its page, one of all, and a capability page


class Made:
    """A machine of two or three processes, each with a page of code and one of data. Some may share code that is read-only."""

    def __init__(self, number):
        self.by = random.Random(number)
        self.processes, self.harts = self.by.randint(2, 3), self.by.randint(1, 3)
        self.lines = [f"coyotos 1\nmachine {self.harts} {2 * self.processes + 1} 1 {self.processes + 1} {self.processes} "
                      f"{self.processes}", f"slot {self.processes} 0 page:{2 * self.processes}@12/0"]
        for process in range(self.processes):
            self.add(process)
        self.lines.append("end")

    @property
    def listing(self):
        return "\n".join(self.lines) + "\n"

    def likely(self, share):
        return self.by.random() < share

    def other(self, process):
        return self.by.choice([other for other in range(self.processes) if other != process])

    def add(self, process):
        code = [insn for _ in range(self.by.randint(2, 4)) for insn in self.piece()]
        for place, insn in enumerate([*code, self.by.choice(["ebreak", f"jal x0 {-4 * len(code)}", "jal x0 0"])]):
            self.lines.append(f"code {process} {4 * place:x} {insn}")
        self.lines += [f"slot {process} 0 {self.code(process)}", f"slot {process} 1 page:{self.processes + process}@12/0",
                       f"endpoint {process} process:{process} {process} 0 plain", f"reg {process} 4 {DATA:x}",
                       f"reg {process} 5 {SHARED:x}", f"reg {process} 6 {CAPS:x}", f"reg {process} 11 2",
                       f"capreg {process} 1 entry:{self.other(process)}:{process:x}",
                       f"capreg {process} 2 {self.held(process)}"]
        if self.likely(0.5):
            self.lines.append(f"slot {process} 2 {self.shared(process)}")
        if self.likely(0.3):
            self.lines.append(f"slot {process} 3 cappage:0@12/0")
        state = "stop" if self.likely(0.1) else "run"
        self.lines.append(f"process {process} 0 gpt:{process}@16/0 schedule:{self.by.choice((3, 3, 3, 4))} null {state}")

    def code(self, process):
        """The page from which it is run: its own code, or with others that of process 0."""
        return self.by.choice([f"page:{process}@12/0", f"page:{process}@12/0+r", "page:0@12/0+r"])

    def held(self, process):
        """What stands in capability register 2."""
        other = self.other(process)
        return self.by.choice(["null"] * 4 + [
            f"page:{process}@12/0", f"page:{self.processes + process}@12/0", f"page:{self.processes + other}@12/0+rw",
            f"page:{other}@12/0", f"gpt:{other}@16/0", f"process:{other}", f"endpoint:{process}", "sysctl", "range",
            "window:0@12/0", "cappage:0@12/0"])

    def shared(self, process):
        other = self.other(process)
        return self.by.choice([f"page:{2 * self.processes}@12/0", f"page:{2 * self.processes}@12/0+r",
                               f"gpt:{self.processes}@16/0", f"page:{self.processes + other}@12/0+r", f"page:{other}@12/0"])

    def piece(self):
        """Some instructions that belong together."""
        register, base, call = self.by.randint(7, 9), self.by.choice((4, 4, 5, 6)), ["addi x17 x0 0"]
        head = self.by.choice((SENDS + 1, SENDS + 1, SENDS + 2, RECEIVES, SENDS + RECEIVES + 1, (1 << 16) + SENDS + 1))
        call += [f"lui x10 {head >> 12}", f"addi x10 x10 {head & 0xfff}", "addi x18 x0 2", "ecall"]
        return self.by.choice([
            [f"addi x{register} x{register} 1"], [f"addi x{register} x0 3", f"xori x{register} x{register} 1"],
            [f"sw x{register} 0(x{base})"], [f"lw x{register} 0(x{base})"], [f"lw x{register} 4(x{base})", "addi x8 x8 1"],
            [f"beq x{register} x0 8", f"addi x{register} x0 0"], [f"andi x{register} x{register} 1"],
            call, call, ["addi x17 x0 4", "ecall"], ["addi x10 x6 0", "addi x17 x0 2", "ecall"],
            ["addi x11 x0 8", *call], ["ebreak"]])

    def question(self):
        """Lines that ask something, but for choices."""
        process = self.by.randrange(self.processes)
        atoms = [f"faulted {process}", f"receiving {process}", f"sleeps {process}", "halted", "stuck", f"running {process}",
                 f"faulted {process} Breakpoint", f"holds process {process} page {self.by.randrange(self.processes)}",
                 f"waits {process} {self.other(process)}", f"accepts {process}", f"asks {process} {self.other(process)}",
                 f"holds process {process} {self.by.choice(('range', 'sysctl', 'schedule'))}",
                 f"holds process {process} page {self.processes + process} writable",
                 f"most payload {process} age process {self.other(process)}"]
        if self.likely(0.3):
            atoms += [f"pc {process} 8", f"reg {process} 7 1", f"word {self.by.randrange(2 * self.processes + 1)} 0 3",
                      *(self.comparison() for _ in range(3))]
        asked = [f"{'not ' * self.likely(0.3)}{atom}" for atom in self.by.sample(atoms, 6)]
        return [f"count {asked[0]} or {asked[4]} and {asked[5]}", f"never {asked[1]} and {asked[2]}",
                f"after {asked[0]} or {asked[2]} must {asked[1]} or {asked[4]}", f"ever {asked[3]} or {asked[5]}",
                f"must {asked[1]} and {asked[5]} or {asked[3]}"]

    def comparison(self):
        return f"{self.by.choice(('same', 'below', 'most', 'less'))} {self.term()} {self.term()}"

    def term(self, depth=0):
        """A term, in which few others stand."""
        process, page = self.by.randrange(self.processes), self.by.randrange(2 * self.processes + 1)
        if self.likely(0.4 - 0.1 * depth):
            return f"{self.by.choice(('plus', 'minus', 'both'))} {self.term(depth + 1)} {self.term(depth + 1)}"
        return self.by.choice([
            f"number {self.by.choice((0, 1, 3, 0x7fffffff, 0x80000000, 0xffffffff)):x}", f"reg {process} {self.by.randint(7, 10)}",
            f"pc {process}", f"word {page} 0", f"half {page} {self.by.choice((0, 2)):x}", f"byte {page} {self.by.randrange(4):x}",
            f"age page {page}", f"payload {process}"])
