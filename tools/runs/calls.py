"""The calls from which programs have not returned, followed through a trace."""
import re

MOST_CALLS = 1000  # calls that are kept
LINKS = (b"x1", b"x5")
RETURNS = (b"jalr x0 0(x1)", b"jalr x0 0(x5)")
# Instructions that call or return, in records with a line feed in front of each.
FOLLOWED = re.compile(rb"\ninsn (\d+) (\w{8}) (jalr? (?:x[15] [^\n]*|x0 0\(x[15]\)))")


class Calls:
    """Those of each process."""

    def __init__(self, programs):
        self.programs, self.stacks, self.first = programs, {}, {}

    def is_first(self, process, pc):
        """Whether a call stands where the program begins."""
        if (process, pc) not in self.first:
            self.first[process, pc] = pc == self.programs.entries.get(process) \
                or self.programs.function(process, pc)[0] == "_start"
        return self.first[process, pc]

    def follow(self, process, pc, insn):
        """An instruction that jumps and may link."""
        stack = self.stacks.setdefault(process, [])
        if insn.split(b" ", 2)[1] in LINKS:
            if stack and self.is_first(process, pc):
                stack.clear()  # it begins anew
            stack.append(pc)
            if len(stack) > MOST_CALLS:
                del stack[0]
        elif insn in RETURNS and stack:
            stack.pop()

    def of(self, process):
        """The places of the calls, the innermost first."""
        return self.stacks.get(process, [])[::-1]
