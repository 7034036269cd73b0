"""Places of a run: any of its events can be gone to, and the records of a stretch of it be had.

A run is a process of `coyotos trace` that waits for more of its schedule (places.c). Such a process stands at an event
and can be copied, so one that is kept at every so many events makes each event near. All that is told of the machine is
what the program writes: its records, and the state that it writes at the end of its input. The state at an event to which
none has come yet is that of a process of `coyotos run`, which writes no steps, and so is there sooner.
"""
import bisect
import collections
import os
import pathlib
import select
import shutil
import socket
import struct
import subprocess
import tempfile

from debugger.state import State

HERE = pathlib.Path(__file__).resolve().parent
APART, MOST_KEPT = 100_000, 128  # events between two that are kept at first, and how many
MOST_NEAR, STATES = 48, 64
FAR = 1_000_000  # events behind the last one that is kept, from which on a state is asked for at a run without steps
MOST_AHEAD = 20_000_000  # how many events are gone through while gdb asks nothing
STEPS_BACK = (4096, 256)  # where a way of more events leaves a process too
COMPILERS = ("cc", "gcc", "clang")
WAIT = 60  # seconds for a process to answer
UNPROVED = {"ASAN_OPTIONS": "detect_leaks=0"}  # a program of ./try looks for leaks at its end, which takes a copy long


class Trouble(Exception):
    """Why there is no run, in a sentence."""


def compiler():
    """A C compiler that is there; None if there is none."""
    return next(filter(shutil.which, COMPILERS), None)


def compile_places(library):
    if compiler() is None:
        raise Trouble(f"a C compiler is needed: {', '.join(COMPILERS[:-1])} or {COMPILERS[-1]}")
    made = subprocess.run([compiler(), "-O2", "-shared", "-fPIC", "-o", library, str(HERE / "places.c")],
                          capture_output=True, text=True)
    if made.returncode:
        raise Trouble(f"{HERE / 'places.c'} was not compiled: {made.stderr.strip()}")


class Process:
    """A process of the program at an event, before it."""

    def __init__(self, run, at):
        self.run, self.at, self.told = run, at, None
        try:
            self.socket, _ = run.listener.accept()
            self.socket.settimeout(WAIT)
            self.written, self.lines = struct.unpack("<QQ", self.take(16))
        except OSError:
            raise Trouble(f"the program {run.program} doesn't answer")

    def take(self, count):
        data = b""
        while len(data) < count:
            came = self.socket.recv(count - len(data))
            if not came:
                raise OSError
            data += came
        return data

    def feed(self, data):
        self.socket.sendall(b"F" + struct.pack("<I", len(data)) + data)

    def copy(self):
        """Another process at the same event."""
        self.socket.sendall(b"C")
        return Process(self.run, self.at)

    def go(self, to):
        """Performs the events up to `to`."""
        if to > self.at:
            self.feed(self.run.schedule.text(self.at, to))
            self.at, self.told = to, None

    def end(self, loud=True):
        """Ends the input; the output from where it became loud. The process is gone behind it."""
        self.socket.sendall(b"LE" if loud else b"E")
        pieces = []
        while True:
            came = self.socket.recv(1 << 20)
            if not came:
                break
            pieces.append(came)
        self.socket.close()
        return b"".join(pieces)

    def until_state(self):
        """How many bytes of records the run has up to here, and how many records: those of a copy that ends here."""
        other = self.copy()
        other.socket.sendall(b"LE")
        data = b""
        while True:
            at = place_of_state(data)
            if at is not None:
                other.socket.close()
                return other.written + at, other.lines + data.count(b"\n", 0, at)
            came = other.socket.recv(1 << 16)
            if not came:
                raise Trouble("the program ended without a state")
            data += came

    def has_told(self):
        self.told = self.told or self.until_state()
        return self.told

    def record_bytes(self):
        return self.has_told()[0]

    def record_count(self):
        return self.has_told()[1]

    def close(self):
        self.socket.close()


def place_of_state(data):
    """Where the line `state` begins."""
    if data.startswith(b"state\n"):
        return 0
    at = data.find(b"\nstate\n")
    return None if at < 0 else at + 1


class Stretch:
    """The records of the events from `first` to the one before `behind`, and the state behind them. `base` is how many
    bytes of records stand before them in the run; the text has a line feed in front of each record."""

    def __init__(self, first, behind, base, text, state):
        self.first, self.behind, self.base, self.text, self.state = first, behind, base, text, state
        self.before = None

    def fetches(self):
        """How many instructions were fetched; an event fetches one at most."""
        return self.text.count(b"\nfetch ")

    def upto(self, place):
        """The same with the text before a place alone."""
        part = Stretch(self.first, self.behind, self.base, self.text[:place], self.state)
        part.before, part.fetches = self.before, self.fetches
        return part


class Run:
    """A listing with its schedule, as it runs."""

    def __init__(self, program, listing, schedule):
        self.program, self.schedule = program, schedule
        self.room = tempfile.TemporaryDirectory(prefix="coyotos-gdb-")
        library = f"{self.room.name}/places.so"
        compile_places(library)
        self.listener = socket.socket(socket.AF_UNIX, socket.SOCK_STREAM)
        self.listener.bind(f"{self.room.name}/line")
        self.listener.listen(16)
        self.listener.settimeout(WAIT)
        self.library, self.listing, self.children = library, listing, []
        self.kept, self.apart, self.quick = [self.begun("trace")], APART, []
        self.near, self.states = collections.OrderedDict(), collections.OrderedDict()

    def begun(self, word):
        """Starts the program, and gives it the listing: a process at the first event."""
        self.children.append(subprocess.Popen(
            [self.program, word], stdin=subprocess.DEVNULL, stdout=subprocess.DEVNULL, start_new_session=True,
            env={**os.environ, **UNPROVED, "LD_PRELOAD": self.library, "COYOTOS_PLACES": f"{self.room.name}/line"}))
        self.wait_for(self.children[-1])
        first = Process(self, 0)
        first.feed(self.listing)
        return first

    def wait_for(self, child):
        """Waits until a program connects; not for one that has ended."""
        while not select.select([self.listener], [], [], 0.1)[0]:
            if child.poll() is not None:
                raise Trouble(f"the program {self.program} doesn't answer")

    def close(self):
        for process in [*self.kept, *self.near.values(), *self.quick]:
            process.close()
        for child in self.children:
            child.wait()
        self.listener.close()
        self.room.cleanup()

    # -- processes that are kept

    def look_ahead(self):
        """Keeps one process more, if there is one to keep; whether it did."""
        behind = self.kept[-1].at + self.apart
        if behind > min(self.schedule.count, MOST_AHEAD):
            return False
        self.keep_up_to(behind)
        return True

    def keep_up_to(self, at):
        """Keeps a process at every so many events up to this one."""
        while self.kept[-1].at + self.apart <= at:
            made = self.kept[-1].copy()
            made.go(self.kept[-1].at + self.apart)
            self.kept.append(made)
            if len(self.kept) > MOST_KEPT:
                for process in self.kept[1::2]:
                    process.close()
                self.kept, self.apart = self.kept[::2], 2 * self.apart

    def nearest(self, at):
        """The process that is kept at the last event up to this one."""
        self.keep_up_to(at)
        i = bisect.bisect_right([process.at for process in self.kept], at) - 1
        near = [process for process in self.near.values() if self.kept[i].at < process.at <= at]
        return max(near, key=lambda process: process.at, default=self.kept[i])

    def remember(self, process):
        self.near[process.at] = process
        if len(self.near) > MOST_NEAR:
            self.near.popitem(last=False)[1].close()

    def at(self, at):
        """A process at this event, which is kept for a while: only copies of it go on."""
        process = self.nearest(at)
        for back in STEPS_BACK:
            if process.at < at - 2 * back:
                process = process.copy()
                process.go(at - back)
                self.remember(process)
        if process.at < at:
            process = process.copy()
            process.go(at)
            self.remember(process)
        elif at in self.near:
            self.near.move_to_end(at)
        return process

    def quick_at(self, at):
        """A process without steps at this event, of which the state alone can be asked for. One is kept at every so many
        events up to here."""
        self.quick = self.quick or [self.begun("run")]
        apart = max(FAR, self.schedule.count // MOST_KEPT)
        while self.quick[-1].at + apart <= at:
            made = self.quick[-1].copy()
            made.go(made.at + apart)
            self.quick.append(made)
        process = self.quick[min(at // apart, len(self.quick) - 1)].copy()
        process.go(at)
        return process

    # -- what is told

    def state(self, at):
        """The state before an event."""
        if at not in self.states:
            is_far = at - self.kept[-1].at > FAR
            data = (self.quick_at(at) if is_far else self.at(at).copy()).end()
            self.hold_state(at, State(data[place_of_state(data):]))
        self.states.move_to_end(at)
        return self.states[at]

    def hold_state(self, at, state):
        self.states[at] = state
        if len(self.states) > STATES:
            self.states.popitem(last=False)

    def stretch(self, first, behind):
        """The records of the events from `first` on, and the state behind them."""
        from_here = self.at(first)
        base = from_here.record_bytes()
        process = from_here.copy()
        process.socket.sendall(b"L")
        process.go(behind)
        data = process.end()
        place = place_of_state(data)
        state = State(data[place:])
        self.hold_state(behind, state)
        return Stretch(first, behind, base, b"\n" + data[base - process.written:place], state)

    def event_of(self, stretch, offset):
        """The event that wrote the record behind the line feed at this offset of a stretch.

        Where there are as many fetches as events, each event has one, which is its first record. Else it is found by how
        much was written before each event.
        """
        if stretch.fetches() == stretch.behind - stretch.first:
            return stretch.first + stretch.text.count(b"\nfetch ", 0, offset + len(b"\nfetch ")) - 1
        ends = stretch.base, stretch.base + len(stretch.text) - 1
        return self.writer(stretch.base + offset, stretch.first, stretch.behind, *ends, Process.record_bytes)

    def event_of_record(self, number):
        """The event that wrote a record, by its number from 1 on; None where there is no such record."""
        count = self.at(self.schedule.count).record_count()
        if not 0 < number <= count:
            return None
        return self.writer(number - 1, 0, self.schedule.count, 0, count, Process.record_count)

    def records_before(self, stretch, offset):
        """How many records stand in the run before the one behind the line feed at this offset of a stretch."""
        return self.at(stretch.first).record_count() + stretch.text.count(b"\n", 0, offset)

    def writer(self, wanted, first, behind, low, high, measure):
        """The event from `first` on and before `behind` by which more than `wanted` was written, by a measure of what a
        process wrote: that is `low` before the first and `high` at the end."""
        process, owned, by_half = self.at(first), False, False
        while behind - first > 1:
            middle = (first + behind) // 2 if by_half else likely(wanted, first, behind, low, high)
            other = process.copy()
            other.go(middle)
            length = measure(other)
            if length <= wanted:
                if owned:
                    process.close()
                process, owned, first, low = other, True, middle, length
            else:
                other.close()
                behind, high = middle, length
            by_half = not by_half
        if owned:
            process.close()
        return first


def likely(wanted, first, behind, low, high):
    """An event between the two, which wrote what is wanted if all write as much."""
    middle = first + (behind - first) * (wanted - low) // max(high - low, 1)
    return min(max(middle, first + 1), behind - 1)
