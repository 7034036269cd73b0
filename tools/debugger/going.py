"""How a session goes on: one process, or all, to where something happens; and what is said of a stop."""
from debugger.search import Arrivals, Faults, Search, Steps

# gdb's numbers of signals
SIGNALS = {"Breakpoint": 5, "BadOpcode": 4, "BadAlign": 10, "MalformedSyscall": 12, "NoSchedule": 24}
SEGMENTATION, TRAP, INTERRUPTED = 11, 5, 2
WORDS = {"write": "watch", "read": "rwatch", "access": "awatch"}


class Going:
    """The part of a session that goes on and stops: forwards, backwards, for all processes or for one alone."""

    def go_alone(self, process, want):
        """Goes on for one process alone; without a want, up to one of its breakpoints.

        So gdb takes a process past a breakpoint, and past an instruction that touched watched bytes. Here the others
        take their turns all the same, but gdb can't bear to be told of them then: what they came to is said, and is a
        stop as soon as all go on. That instruction was performed already when its watch was told, so nothing is left
        to do for it.
        """
        watched, self.watched = self.watched, None
        if self.goal is not None:
            self.at = self.goal
        if self.goal is not None or watched == process:
            return self.stopped(process, TRAP)
        wants = [want or Arrivals(self.breakpoints, lambda other: other == process)]
        others = self.breakpoints | self.set_before
        hit = self.search([*wants, Faults(self.is_passed)], others,
                          lambda other: other != process and self.is_meant(other)).forwards(self.at)
        if hit.process not in (process, None):
            self.late = hit
            self.say(self.words_of(hit))
            own = [one for one in self.watches.values() if one.process == process]
            hit = Search(self.run, [*wants, Faults(self.is_passed, process), *own],
                         self.line.is_interrupted).forwards(self.at)
            self.leaving = (process, hit.at - 1) if isinstance(want, Steps) else None
        return self.stop(hit._replace(process=process))

    def step(self, want):
        """Goes on until a process did something, if nothing else happens before.

        gdb takes out a breakpoint where a process steps over it; for other processes it stays.
        """
        if self.late:
            return self.stop_late()
        search = self.search([want, Faults(self.is_passed)], self.breakpoints | self.set_before,
                             lambda process: process != want.process and self.is_meant(process))
        return self.stop(search.forwards(self.at))

    def go_on(self, backwards):
        """Goes on to where something happens, or to an event that was asked for."""
        if self.goal is not None:
            self.at, self.goal, self.late, self.leaving = self.goal, None, None, None
            return self.stopped(self.selected, INTERRUPTED)
        if self.late:
            return self.stop_late()
        search = self.search([Faults(self.is_passed)], self.breakpoints, self.is_meant)
        return self.stop(search.backwards(self.at) if backwards else search.forwards(self.at))

    def search(self, wants, breakpoints, is_meant):
        """What to look for, with all that gdb has set. It takes out all at each stop and sets it again to go on; a watch
        that is set again is of the same process."""
        self.set_before, self.bound = set(self.breakpoints), dict(self.watches)
        leaving = self.leaving[0] if self.leaving and self.at <= self.leaving[1] else None
        wants = wants + [Arrivals(breakpoints, is_meant, leaving)] + list(self.watches.values())
        return Search(self.run, wants, self.line.is_interrupted)

    def is_meant(self, process):
        return self.only is None or process == self.only

    def is_passed(self, name):
        return SIGNALS.get(name, SEGMENTATION) in self.passed

    # -- stopping

    def stop(self, hit):
        """Stands where something happened, and says what."""
        self.say(self.words_of(hit))
        return self.stand(hit)

    def stop_late(self):
        """Stands where something happened that was said before."""
        late, self.late = self.late, None
        return self.stand(late)

    def words_of(self, hit):
        """What there is to say of a stop beyond what gdb says."""
        if hit.why[0] == "fault":
            return [self.fault_in_words(hit.at, hit.more)]
        return self.writer_in_words(hit.why[1], hit.more) if hit.why[0] == "watch" else []

    def stand(self, hit):
        """Stands where something happened."""
        self.at = hit.at
        process = self.going if hit.process is None else hit.process
        if hit.why[0] == "fault":
            return self.stopped(process, SIGNALS.get(hit.why[1], SEGMENTATION))
        if hit.why[0] == "watch":
            self.watched = process
            return self.stopped(process, TRAP, f"{WORDS[hit.why[1].how]}:{hit.why[1].address:x};")
        if hit.why[0] == "interrupt":
            return self.stopped(process, INTERRUPTED)
        more = {"break": "swbreak:;", "end": "replaylog:end;", "begin": "replaylog:begin;"}.get(hit.why[0], "")
        return self.stopped(process, TRAP, more)

    def stopped(self, process, signal, more=""):
        self.selected = self.going = process
        hart = self.state.hart_of(process)
        core = "" if hart is None else f"core:{hart:x};"
        self.why = f"T{signal:02x}thread:{self.thread(process)};{core}{more}"
        return self.why

    def fault_in_words(self, at, line):
        """A record of a fault, with who hears of it and where the process stood before this event."""
        _, process, name, address, *to = line.split()
        heard = f"{self.names.process(int(to[1]))} hears of it" if len(to) > 1 else "nobody hears of it"
        stood = self.run.state(at - 1).process(int(process)).pc
        return (f"{self.names.process(int(process))} faults: {name} {address} at "
                f"{self.names.place(int(process), stood)}; {heard}")

    def writer_in_words(self, watch, line):
        """Who touched watched bytes, if it was another process or the kernel."""
        if line is None:
            return [f"the bytes at {watch.address:08x} of {self.names.process(watch.process)} changed by the kernel"]
        kind, process, address, _, page = line.split()
        if int(process) == watch.process:
            return []
        did = "reads" if kind == "load" else "writes"
        return [f"{self.names.process(int(process))} {did} it: {kind} of {address}, "
                f"{self.names.object('page', int(page))}"]

    def say(self, lines):
        """Text for gdb's user."""
        for line in lines:
            self.line.answer(b"O" + f"{line}\n".encode().hex().encode())
