"""What `monitor` answers in gdb."""
from debugger.names import standing
from debugger.search import last_records
from debugger.walk import DENIED, memory_of, walk

MOST_BACK = 1_000_000  # events that are looked at for the last messages and the last fault
MESSAGES = 10
LOAD, STORE, SYSTEM = 0x03, 0x23, 0x73  # opcodes
LETTERS = {"r": "no stores", "x": "no fetches", "w": "weakened", "o": "opaque", "n": "no handlers behind it"}
HELP = """\
monitor event [N]       the number of the event that comes next; with N the next continue goes there
monitor record [N]      the number of the record that comes next; with N the next continue goes to the event that writes it
monitor caps [NAME]     what a process holds: the selected one, or the one of this name or number
monitor queues          harts, ready queues, and who sleeps on whom
monitor messages        the last ten messages, with faults that were heard
monitor why             who waits for whom, and why the last fault came
monitor walk ADDRESS    how the selected process gets to an address
monitor found           with --found: what the answer of `explore` says, and where its choices and its loop begin
monitor process [NAME]  breakpoints count for this process alone; with `all` for each"""


def kind_of_access(state, process):
    """The kind of access that the next instruction of a process may fault at; None if it makes none."""
    pc = state.process(process).pc
    if walk(state, process, "fetch", pc).name != "reach":
        return "fetch"
    opcode = state.memory(process, pc, 1)[0] & 127
    call = state.register_values(process)[17]
    return {LOAD: "load", STORE: "store", SYSTEM: {0: "load", 1: "capload", 2: "capstore"}.get(call)}.get(opcode)


class Monitor:
    """Answers of one session."""

    def __init__(self, session):
        self.found = None  # the answer of `explore` whose run this is
        self.session, self.run, self.names = session, session.run, session.names

    def answer(self, words):
        """The lines for a command."""
        do = getattr(self, f"do_{words[0]}", None) if words else None
        if do is None or len(words) > 2:
            return HELP.splitlines()
        return list(do(*words[1:]))

    @property
    def state(self):
        return self.run.state(self.session.at)

    def named(self, word):
        """The process of this name or number; None if there is none."""
        return self.names.number_of(word, self.session.process_count)

    # -- where

    def do_event(self, number=None):
        count = self.run.schedule.count
        if number is None:
            yield f"event {self.session.at} of {count} comes next: {self.run.schedule.told(self.session.at)}"
        elif not number.isdecimal() or int(number) > count:
            yield f"an event is a number from 0 to {count}"
        else:
            self.session.goal = int(number)
            yield f"the next continue or reverse-continue goes to event {number}"

    def do_record(self, number=None):
        if number is None:
            yield f"record {self.run.at(self.session.at).record_count() + 1} comes next"
            return
        event = self.run.event_of_record(int(number)) if number.isdecimal() else None
        if event is None:
            yield f"a record is a number from 1 to {self.run.at(self.run.schedule.count).record_count()}"
        else:
            self.session.goal = event
            yield f"event {event} writes record {int(number)}: the next continue or reverse-continue goes there"

    def do_process(self, word="all"):
        number = None if word == "all" else self.named(word)
        if word != "all" and number is None:
            yield f"there is no process {word}"
            return
        self.session.only = number
        yield f"breakpoints count for {'each process' if number is None else f'{self.names.process(number)} alone'}"

    def do_found(self):
        if self.found is None:
            yield "this run is of a schedule of its own: --found names an answer of `explore`"
            return
        yield self.found.sentence()
        yield f"its choices begin with event {self.found.events()[0]}"
        if self.found.loop:
            yield f"the loop begins with event {self.found.loop_begins()}"

    # -- what is held

    def do_caps(self, word=None):
        number = self.session.selected if word is None else self.named(word)
        if number is None:
            yield f"there is no process {word}"
            return
        process = self.state.process(number)
        yield f"{self.names.process(number)} holds"
        for name, capability in (("space", process.space), ("schedule", process.schedule),
                                 ("handler", process.handler)):
            yield f"  {name:<8} {self.names.capability(capability)}"
        for register, capability in sorted(self.state.held.get(number, {}).items()):
            yield f"  c{register:<7} {self.names.capability(capability)}"

    def do_queues(self):
        state = self.state
        if state.halted:
            yield "the machine is halted"
        for hart, process in enumerate(state.harts):
            yield f"hart {hart}: {'idle' if process is None else self.names.process(process)}"
        for priority, those in sorted(state.ready.items(), reverse=True):
            yield f"ready at priority {priority}: {', '.join(map(self.names.process, those))}"
        for other, those in sorted(state.sleepers.items()):
            yield f"asleep until {self.names.process(other)} receives: {', '.join(map(self.names.process, those))}"

    def do_messages(self):
        found = [*last_records(self.run, self.session.at, b"msg", MESSAGES, MOST_BACK),
                 *(one for one in last_records(self.run, self.session.at, b"fault", MESSAGES, MOST_BACK)
                   if " to " in one[1])]
        if not found:
            yield f"no message in the last {min(self.session.at, MOST_BACK)} events"
        for event, line, number in sorted(found)[-MESSAGES:]:
            yield f"event {event}, record {number}: {self.message(line.split())}"

    def message(self, words):
        """A record of a message, or of a fault that was heard, in words."""
        process = self.names.process
        if words[0] == "fault":
            return f"{process(int(words[1]))} to {process(int(words[5]))}, its fault {words[2]} {words[3]}"
        fields = dict(word.split("=") for word in words[3:])
        return (f"{process(int(words[1]))} to {process(int(words[2]))} through "
                f"{self.names.object('endpoint', int(fields['endpoint']))}, payload {fields['payload']}, words "
                f"{fields['words']}, {fields['len']} bytes, {fields['caps']} capabilities")

    # -- why

    def do_why(self):
        state = self.state
        for number in self.session.processes():
            yield f"{self.names.process(number)}: {standing(state, self.names, number)}"
        found = last_records(self.run, self.session.at, b"fault", 1, MOST_BACK)
        if not found:
            yield f"no fault in the last {min(self.session.at, MOST_BACK)} events"
            return
        event, line, number = found[0]
        yield f"the last fault, at event {event}, record {number}: {self.session.fault_in_words(event + 1, line)}"
        yield from self.reason(event, line.split())

    def reason(self, event, words):
        """How a walk came to the fault of a record, if it is one of a walk."""
        process, name, address = int(words[1]), words[2], int(words[3], 16)
        before = self.run.state(event)
        kind = kind_of_access(before, process)
        end = walk(before, process, kind, address) if kind else None
        if end and end.name == name:
            yield f"a {kind} of {address:08x} by {self.names.process(process)} meets"
            yield from self.way(end, kind)

    def way(self, end, kind):
        """The capabilities that a walk met, and how it ended."""
        for held, word in end.way:
            memory = memory_of(word)
            letters = "".join(f", {LETTERS[letter]}" for letter in memory.letters) if memory else ""
            yield f"  {held}: {self.names.capability(word)}{letters}"
        if end.name == "reach":
            yield f"  it reaches {self.names.object(end.kind, end.number)} at offset {end.offset:03x}"
        else:
            denied = f": {LETTERS[DENIED[kind]]}" if end.name == "AccessViolation" else ""
            yield f"  it ends in {end.name}{denied}"

    def do_walk(self, address=""):
        try:
            place = int(address, 16)
        except ValueError:
            place = -1
        if not 0 <= place < 1 << 32:
            yield "monitor walk ADDRESS, in hexadecimal"
            return
        for kind in ("load", "store", "fetch"):
            yield f"{kind} of {place:08x} by {self.names.process(self.session.selected)}"
            yield from self.way(walk(self.state, self.session.selected, kind, place), kind)
