"""What `coyotos trace` or `run` wrote: its records, and what ran on which hart."""
from runs.harts import Harts
from runs.schedule import Schedule
from runs.steps import steps_of

ACCESSES = ("fetch", "load", "store", "capload", "capstore", "insn")
MARKS = ("msg", "fault", "log", "destroy", "halt")


def parted(text):
    """The records, and the lines of the last state."""
    lines = text.splitlines()
    if "state" not in lines:
        return lines, []
    at = lines.index("state")
    return lines[:at], lines[at + 1:]


def are_records(lines):
    """Whether each line begins as a record does."""
    return all(line.split(" ", 1)[0] in ACCESSES + MARKS for line in lines)


def harts_of(state):
    """The process of each hart in the last state, None where it has none."""
    words = [line.split() for line in state if line.startswith("hart ")]
    return [None if each[2] == "idle" else int(each[2]) for each in words]


class Steps:
    """The steps of a trace, as the page takes them: where each begins, and which event it was. Both are written as how much
    more they are than the last, 0 for an event that isn't known, seven bits to a byte, the least first."""

    def __init__(self):
        self.data, self.count, self.ran, self.first, self.event = bytearray(), 0, set(), 0, -1
        self.is_too_long = False  # whether one is behind the last event of the schedule

    def add(self, process, pc, first, event):
        self.put(first - self.first)
        self.put(0 if event is None else event - self.event)
        self.first, self.event = first, self.event if event is None else event
        self.count += 1
        self.ran.add((process, pc))

    def put(self, number):
        while number > 127:
            self.data.append(number & 127 | 128)
            number >>= 7
        self.data.append(number)

    def addresses(self, process):
        """Where instructions of a process ran."""
        return sorted(int(pc, 16) for other, pc in self.ran if other == process)


def stretches_of(listing, records, state, program):
    """The number of lanes, which of them has what ran on a hart that isn't known (or none), what ran on each: lane, process,
    first record, record behind the last; and the steps.

    There are none without fetches: what `run` writes doesn't tell the steps.
    """
    steps = Steps()
    if not any(line.startswith("fetch ") for line in records):
        return 0, None, [], steps
    schedule = Schedule(listing)
    harts, found, last, before = Harts(listing, schedule, program), [], {}, {}
    for process, pc, insn, rest, first, behind, _ in steps_of(line.encode() for line in records):
        lane = harts.step(process, pc, first)
        steps.add(process, pc, first, harts.event)
        harts.end(process, pc, insn, rest)
        lane = schedule.harts if lane is None else lane
        if lane in last and last[lane][1] == process and before.get(process) == lane:
            last[lane][3] = behind
        else:
            last[lane] = [lane, process, first, behind]
            found.append(last[lane])
        before[process] = lane
    if not harts.lost and state and not harts.agrees(harts_of(state), "halted" in state):
        found = [[schedule.harts, *each[1:]] for each in found]
    steps.is_too_long = harts.is_too_long
    are_known = all(each[0] < schedule.harts for each in found)
    lanes = (schedule.harts, None) if are_known else (schedule.harts + 1, schedule.harts)
    return *lanes, found, steps


def processes_of(records):
    """The numbers of all processes that records name."""
    found = set()
    for line in records:
        words = line.split(" ", 3)
        if words[0] != "destroy":
            found.add(int(words[1]))
        if words[0] == "msg":
            found.add(int(words[2]))
        elif words[0] == "fault" and " to " in line:
            found.add(int(line.rsplit(" ", 1)[1]))
    return found
