"""On which hart each step of a trace was, and which event of the schedule it was.

Records name neither. So it has to be found out which event each step was, and the event says its hart. Three things are
so of every run (docs/machine.md):

- a step of a hart that has a process begins with a record of that process, unless the process had to wait for a busy
  handler of the fault of its fetch;
- a hart that has none takes a process that is ready, if there is one;
- nothing makes a process ready but a step with records, or a tick of the hart that has it.

So the next step of the trace belongs to the next event whose hart has its process, or, where no hart has it, to the next
event whose hart has none: it was ready then, for there was no step in between. All that has to be known is which
processes left their harts at their last step. A fault, a receive phase, a wait for a busy receiver and a yield make them
leave. The first three show in what comes next of the process: that it was heard of, or that it performs the same
instruction again. A yield shows in x17, if the trace tells what is in it. What can't be told so is asked of the program,
with the schedule cut behind the event in question; and without a program, the harts of all that follows aren't known.
"""
import itertools
import re

from runs.asking import trace_of
from runs.steps import ACCESSES, BRANCHES, JUMPS, STORES

MOST_ASKED = 100  # runs of the program
UNKNOWN = -1  # what x17 has, where that is not known
SELF = re.compile(rb"(?:jal x\d+ 0|b\w+ x\d+ x\d+ 0|jalr .*)$")
CALL = re.compile(rb"addi x17 x0 (-?\d+)$")
X17 = re.compile(rb"\ninsn (\d+) \w{8} ((?!s[bhw] |b)\w+ x17 [^\n]*)")


class Asked:
    """The program, run on a listing whose schedule is cut."""

    def __init__(self, program, schedule):
        self.program, self.schedule, self.runs = program, schedule, 0

    def records(self, events):
        """How many records the first so many events make, or None where nobody knows."""
        if not self.program or self.runs == MOST_ASKED:
            return None
        self.runs += 1
        with trace_of(self.program, self.schedule.cut(events)) as run:
            count = sum(1 for _ in itertools.takewhile(lambda line: line != b"state\n", run.stdout))
        return count if run.returncode == 0 else None


class Powers:
    """Which processes may stop or resume others, as far as the listing and the records tell: those that hold a
    capability to a process, or a Range."""

    def __init__(self, listing):
        self.all = re.search(r"^(?:cap|slot) .*(?:process:|range)", listing, re.M) is not None
        self.some = {int(found) for found in re.findall(r"^capreg +(\d+) +\d+ +(?:process:|range)", listing, re.M)}

    def has(self, process):
        return self.all or process in self.some

    def message(self, words):
        """Capabilities that are sent may be such."""
        if words[-1] != b"caps=0" and self.has(int(words[1])):
            self.some.add(int(words[2]))

    def store(self, process):
        """Capabilities that are stored may be loaded by anybody."""
        self.all = self.all or self.has(process)


class Harts:
    """Follows the steps of a trace through the events of its schedule."""

    def __init__(self, listing, schedule, program=None):
        self.events, self.asked, self.powers = schedule.cursor(), Asked(program, schedule), Powers(listing)
        self.on = [None] * schedule.harts
        self.lost = self.is_too_long = False  # no longer known; and a step behind the last event
        self.place = {}  # the hart of each process that has one
        self.ended = {}  # of a process whose last step may have taken it off its hart: its pc and its call, or no call
        # x17 of processes, and of all of which nothing else is known
        self.calls, self.other_calls = {int(process): int(value, 16) for process, value in re.findall(
            r"^reg +(\d+) +17 +([0-9a-fA-F]+)", listing, re.M)}, 0
        self.silent, self.seen = 0, {}  # calls that may have stopped or resumed somebody, and how many at one's last step

    # -- which event a step was

    @property
    def event(self):
        """The event that the last step was, counted from 0 on; None where it isn't known."""
        return None if self.lost else self.events.number - 1

    def step(self, process, pc, at):
        """The hart of the next step, of this process at this address, with its first record at this place of the trace;
        None where it isn't known."""
        if self.lost:
            return None
        doubtful = process in self.place and self.may_have_left(process, pc)
        for is_step, hart in self.events:
            other = self.on[hart]
            if other == process and is_step:
                return hart
            if not is_step or other is not None:
                is_sure = not is_step or self.ended.get(other, (0, None))[1] is not None
                self.leave(other)  # a tick, or it would have had a record
                if not is_step or not is_sure and process not in self.place and not self.has_records(at):
                    if self.lost:
                        return None
                    continue
            if process in self.place:
                if not doubtful or not self.has_records(at):
                    if self.lost:
                        return None
                    continue
                self.leave(process)
            self.on[hart], self.place[process] = process, hart
            return hart
        self.lost = self.is_too_long = True
        return None

    def may_have_left(self, process, pc):
        """Whether a process may be off the hart on which it was, as its next step shows; it is taken off where it has to
        be."""
        others = self.silent - self.seen.get(process, 0)
        if process not in self.ended:
            return others >= 2  # who stops it has to resume it too
        ended_at, call = self.ended.pop(process)
        if pc == ended_at:
            self.leave(process)  # it performs the same again, so it had to wait
            return False
        return call == UNKNOWN or call == 0 and others >= 1

    def leave(self, process):
        """The process is on no hart from here on."""
        hart = self.place.pop(process, None)
        if hart is not None:
            self.on[hart] = None
            self.ended.pop(process, None)

    def has_records(self, at):
        """Whether the event that was reached has the record at this place: the program says so, or nobody knows."""
        count = self.asked.records(self.events.number)
        self.lost = count is None
        return not self.lost and count > at

    def are_quiet(self, records):
        """Takes many steps at once, with a line feed in front of each record, in which no process comes or goes: each is
        of a process that has a hart, and each hart makes as many as the schedule asks of it. Otherwise it takes none."""
        if self.lost:
            return True
        steps = {process: records.count(b"\nfetch %d " % process) for process in self.place}
        if sum(steps.values()) != records.count(b"\nfetch ") or not all(
                self.is_quiet(process, records) for process in self.place):
            return False
        before = self.events.line, self.events.done, self.events.number
        counts = self.events.skip(self.on, sum(steps.values()))
        if counts is None or any(steps[self.on[hart]] != count for hart, count in counts.items()):
            self.events.line, self.events.done, self.events.number = before
            return False
        for process, insn in X17.findall(records):
            self.write(int(process), insn)
        for process in self.place:
            if steps[process]:
                self.end_quiet(process, records)
        return True

    def is_quiet(self, process, records):
        """Whether nothing is open about the last step of a process, as its next one shows."""
        if self.silent - self.seen.get(process, 0) >= 2:
            return False
        if process not in self.ended:
            return True
        ended_at, call = self.ended[process]
        found = re.search(rb"\nfetch %d (\w+)" % process, records)
        return call is None and (not found or found[1] != ended_at)

    def end_quiet(self, process, records):
        """Takes note of how the last of many steps ended."""
        at = records.rfind(b"\ninsn %d " % process)
        _, _, pc, insn = records[at + 1:records.index(b"\n", at + 1)].split(b" ", 3)
        self.ended.pop(process, None)
        if insn[:3] in JUMPS and not SELF.match(insn):
            self.ended[process] = pc, None
        self.seen[process] = self.silent

    # -- what a step left

    def end(self, process, pc, insn, rest):
        """Takes note of how a step ended, given its records behind the instruction."""
        if rest:
            for line in rest:
                self.look_at(process, line)
        if insn is None or insn == b"ebreak" or insn[:3] in ACCESSES and not rest:
            self.leave(process)  # a fault, heard or not, or one for which it waits
        elif insn == b"ecall":
            self.call(process, pc, [line.split(b" ", 1)[0] for line in rest])
        elif insn[:3] in JUMPS and process in self.place and not SELF.match(insn):
            self.ended[process] = pc, None
        if insn and b" x17 " in insn[:9] and insn[:3] not in (*BRANCHES, *STORES):
            self.write(process, insn)
        self.seen[process] = self.silent

    def write(self, process, insn):
        """An instruction that writes x17."""
        found = CALL.match(insn)
        self.calls[process] = int(found[1]) if found else UNKNOWN

    def look_at(self, process, line):
        """What a record says of who was reached, and of who is gone."""
        words = line.split(b" ")
        if words[0] == b"msg":
            self.leave(int(words[2]))  # it had been waiting, if that was not known
            self.powers.message(words)
        elif words[0] == b"fault":
            self.leave(process)
            if words[4] == b"to":
                self.leave(int(words[5]))
                self.powers.some.add(int(words[5]))
        elif words[0] == b"destroy" and words[1] == b"process":
            self.leave(int(words[2]))
        elif words[0] == b"capstore":
            self.powers.store(process)

    def call(self, process, pc, kinds):
        """A system call, which is the one that x17 says, as far as that is known."""
        call = self.calls.get(process, self.other_calls)
        if call == 4:
            self.leave(process)
        elif b"log" not in kinds and b"capload" not in kinds and b"capstore" not in kinds:
            if b"msg" not in kinds and call in (0, UNKNOWN) and self.powers.has(process):
                self.silent += 1  # it may have written registers of others, too
                self.calls, self.other_calls = {process: call}, UNKNOWN
            if process in self.place:
                self.ended[process] = pc, call

    def agrees(self, harts, is_halted):
        """Whether the last state has what comes out here: the process of each hart, and whether the machine was halted."""
        for is_step, hart in self.events if not self.lost and not is_halted else ():
            if not is_step or self.on[hart] is not None:
                self.leave(self.on[hart])
        return not self.lost and all(
            self.on[hart] == process or process is None and self.ended.get(self.on[hart], (0, None))[1] is not None
            for hart, process in enumerate(harts))
