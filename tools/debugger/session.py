"""A session with gdb: what its packets ask for, of one run."""
import sys
from xml.sax.saxutils import escape, quoteattr

from debugger.going import TRAP, Going
from debugger.monitor import Monitor
from debugger.names import standing
from debugger.packets import INTERRUPT, Closed
from debugger.search import Leaves, Steps, Watch

REFUSED = "a recording can't be changed: neither registers nor memory can be written"
WATCHES = {"2": "write", "3": "read", "4": "access"}
FEATURES = ("PacketSize=4000;QStartNoAckMode+;qXfer:features:read+;qXfer:threads:read+;ReverseStep+;ReverseContinue+;"
            "vContSupported+;swbreak+;hwbreak+;QPassSignals+")
ALL_GO_ON = "say `set schedule-multiple on`: all programs go on together, and without that gdb takes the others to stand still"
OF_INFERIORS = ";multiprocess+;qXfer:exec-file:read+"
REGISTERS = ("zero ra sp gp tp t0 t1 t2 fp s1 a0 a1 a2 a3 a4 a5 a6 a7 s2 s3 s4 s5 s6 s7 s8 s9 s10 s11 t3 t4 t5 t6 pc"
             .split())
POINTERS = {"ra": "code_ptr", "sp": "data_ptr", "gp": "data_ptr", "tp": "data_ptr", "fp": "data_ptr", "pc": "code_ptr"}


def target_description():
    registers = "".join(f'<reg name="{name}" bitsize="32" type="{POINTERS.get(name, "int")}" regnum="{i}"/>'
                        for i, name in enumerate(REGISTERS))
    return ('<?xml version="1.0"?><!DOCTYPE target SYSTEM "gdb-target.dtd"><target version="1.0">'
            '<architecture>riscv:rv32</architecture><osabi>none</osabi>'
            f'<feature name="org.gnu.gdb.riscv.cpu">{registers}</feature></target>')


def part(text, words):
    """A part of a text, as the packet qXfer asks for it."""
    offset, length = (int(word, 16) for word in words.split(","))
    piece = text.encode()[offset:offset + length]
    return (b"l" if offset + length >= len(text.encode()) else b"m") + piece


def thread_of(word):
    """The number in a thread's name; 0 where any is meant. With inferiors, `p2.2`, it is that of the inferior, which has one
    thread."""
    number = word[1:].split(".")[0] if word.startswith("p") else word
    return 0 if number in ("-1", "") else int(number, 16)


def is_of_all(word):
    """Whether a thread's name means all, or all of an inferior."""
    return word in ("", "-1") or word.startswith("p") and word.endswith(".-1")


def greet(line, with_inferiors):
    """Answers what needs no run, since gdb waits but two seconds for the first answers; the first packet that does, or
    None where gdb is gone. Each process is an inferior of gdb where that is wanted and gdb can do it."""
    try:
        while True:
            packet = line.packet()
            word = packet.decode("latin-1").split(":")[0]
            if word == "QStartNoAckMode":
                line.answer("OK")
                line.acknowledges = False
            elif word == "qSupported":
                line.has_inferiors = with_inferiors and b"multiprocess+" in packet
                line.answer(FEATURES + (OF_INFERIORS if line.has_inferiors else ""))
            elif word == "vMustReplyEmpty":
                line.answer("")
            else:
                return packet
    except Closed:
        return None


class Session(Going):
    """gdb's view of a run: the event that comes next, the process that is selected, and where to stop."""

    def __init__(self, line, run, names, process_count, at=0, only=None):
        self.line, self.run, self.names, self.process_count = line, run, names, process_count
        self.has_inferiors, self.has_warned = line.has_inferiors, False  # each process is one of gdb's, with its own file
        self.at, self.only, self.goal = at, only, None
        self.selected = only if only is not None else 0  # whose registers and memory are asked for
        self.going = self.selected  # who steps
        self.breakpoints, self.watches, self.passed = set(), {}, set()  # a breakpoint is a process, or None, and an address
        self.set_before, self.bound = set(), {}  # breakpoints and watches when gdb last went on
        self.watched = None  # the process that was just told of watched bytes
        self.late = None  # what another process came to while one went on alone, until all go on
        self.leaving = None  # a process that gdb took past a breakpoint, and the event of that instruction
        self.monitor, self.ended = Monitor(self), False
        line.while_idle = run.look_ahead
        self.why = f"T05thread:{self.thread(self.selected)};"

    def thread(self, process):
        """The name of a process as a thread of gdb."""
        return f"p{process + 1:x}.{process + 1:x}" if self.has_inferiors else f"{process + 1:x}"

    @property
    def state(self):
        return self.run.state(self.at)

    def processes(self):
        """Those that there are, or that have a name."""
        named = {number for first, last, _ in self.names.found["process"] for number in range(first, last + 1)}
        return sorted(named | set(self.state.processes)) or [0]

    # -- packets

    def serve(self, packet):
        """Answers this packet and all others until gdb is gone."""
        try:
            while packet is not None:
                answer = None if packet == INTERRUPT else self.answer(packet.decode("latin-1"))
                if answer is not None:
                    self.line.answer(answer)
                packet = None if self.ended else self.line.packet()
        except Closed:
            return

    def answer(self, packet):
        """The answer to a packet; an empty one to what isn't known."""
        letter, rest = packet[:1], packet[1:]
        if letter in ("v", "q", "Q"):
            word = packet.split(":")[0].split(",")[0].split(";")[0].rstrip("?")
            do = getattr(self, f"take_{word}", None)
            return do(packet[len(word):]) if do else ""
        do = {"?": self.take_reason, "g": self.take_registers, "p": self.take_register, "m": self.take_memory,
              "H": self.take_thread, "T": self.take_alive, "Z": self.take_stop, "z": self.take_go, "b": self.take_back,
              "s": self.take_step, "c": self.take_continue, "k": self.take_end, "D": self.take_detach}.get(letter)
        if letter in ("G", "P", "M"):
            if letter == "M":  # of which gdb doesn't tell what was answered
                print(f"tools/gdb: {REFUSED}", file=sys.stderr, flush=True)
            return f"E.{REFUSED}"
        return do(rest) if do else ""

    def take_qSupported(self, _rest):
        return FEATURES

    def take_QPassSignals(self, rest):
        self.passed = {int(word, 16) for word in rest[1:].split(";") if word}
        return "OK"

    def take_qXfer(self, rest):
        words = rest[1:].split(":")
        if words[:3] == ["features", "read", "target.xml"]:
            return part(target_description(), words[3])
        if words[:2] == ["threads", "read"]:
            self.forget_late()
            return part(self.threads(), words[3])
        if words[:2] == ["exec-file", "read"]:
            path = self.names.file(int(words[2], 16) - 1)
            return part(path, words[3]) if path else "E01"
        return ""

    def threads(self):
        """The processes, with where each stands."""
        made = ['<?xml version="1.0"?><threads>']
        for number in self.processes():
            hart = self.state.hart_of(number)
            core = "" if hart is None else f' core="{hart}"'
            made.append(f'<thread id="{self.thread(number)}"{core} name={quoteattr(self.names.process(number))}>'
                        f'{escape(standing(self.state, self.names, number))}</thread>')
        return "".join([*made, "</threads>"])

    def forget_late(self):
        """gdb lists the threads where it stops for its user, who has read what came late."""
        self.watched = self.late = None

    def take_qfThreadInfo(self, _rest):
        self.forget_late()
        return "m" + ",".join(map(self.thread, self.processes()))

    def take_qsThreadInfo(self, _rest):
        return "l"

    def take_qThreadExtraInfo(self, rest):
        number = thread_of(rest[1:]) - 1
        return f"{self.names.process(number)}: {standing(self.state, self.names, number)}".encode().hex()

    def take_qC(self, _rest):
        return f"QC{self.thread(self.selected)}"

    def take_qAttached(self, _rest):
        return "1"

    def take_qSymbol(self, _rest):
        return "OK"

    def take_qRcmd(self, rest):
        words = bytes.fromhex(rest[1:]).decode("utf-8", "replace").split()
        self.say(self.monitor.answer(words))
        return "OK"

    def take_reason(self, _rest):
        return self.why

    def take_thread(self, rest):
        number = thread_of(rest[1:])
        if number > self.process_count:
            return "E01"
        if number and rest[0] == "g":
            self.selected = number - 1
        elif number:
            self.going = number - 1
        return "OK"

    def take_alive(self, rest):
        return "OK" if thread_of(rest) - 1 in self.processes() else "E01"

    def take_end(self, _rest):
        self.ended = True

    def take_detach(self, _rest):
        self.ended = not self.has_inferiors  # one alone goes; gdb hangs up behind the last
        return "OK"

    def take_vKill(self, _rest):
        return self.take_detach(_rest)

    # -- registers and memory

    def take_registers(self, _rest):
        return b"".join(value.to_bytes(4, "little") for value in self.state.register_values(self.selected)).hex()

    def take_register(self, rest):
        values = self.state.register_values(self.selected)
        number = int(rest, 16)
        return values[number].to_bytes(4, "little").hex() if number < len(values) else ""

    def take_memory(self, rest):
        address, count = (int(word, 16) for word in rest.split(","))
        data = self.state.memory(self.selected, address, count)
        return data.hex() if data or not count else "E01"

    # -- where to stop

    def take_stop(self, rest):
        kind, address, count = self.place_of(rest)
        if kind in ("0", "1"):
            self.breakpoints.add((self.owner(), address))
        elif kind in WATCHES:
            self.watched, key = None, (kind, address, count)
            self.watches[key] = self.bound.setdefault(key, Watch(self.selected, address, count, WATCHES[kind]))
        else:
            return ""
        return "OK"

    def take_go(self, rest):
        kind, address, count = self.place_of(rest)
        if kind in ("0", "1"):
            self.breakpoints.discard((self.owner(), address))
        elif kind in WATCHES:
            self.watches.pop((kind, address, count), None)
        else:
            return ""
        return "OK"

    def owner(self):
        """Whose breakpoint gdb speaks of: with inferiors that of the selected one."""
        return self.selected if self.has_inferiors else None

    @staticmethod
    def place_of(rest):
        kind, address, count = rest.split(";")[0].split(",")
        return kind, int(address, 16), int(count, 16)

    # -- going on

    def take_vCont(self, rest):
        if rest == "?":
            return "vCont;c;C;s;S;r"
        action, _, thread = rest[1:].split(";")[0].partition(":")
        if thread.endswith(".-1") and not self.has_warned:
            self.has_warned = True
            self.say([ALL_GO_ON])
        process, want = thread_of(thread) - 1 if thread_of(thread) else self.going, None
        if action[0] in "sS":
            want = Steps(process)
        if action[0] == "r":
            first, behind = (int(word, 16) for word in action[1:].split(","))
            stands = self.state.process(process).pc
            want = Leaves(process, first, behind) if first <= stands < behind else Steps(process)
        if not is_of_all(thread) and ";" not in rest[1:]:
            return self.go_alone(process, want)
        return self.go_on(False) if want is None else self.step(want)

    def take_step(self, _rest):
        return self.step(Steps(self.going))

    def take_continue(self, _rest):
        return self.go_on(False)

    def take_back(self, rest):
        if rest not in ("s", "c"):
            return ""
        watched, self.watched, self.late, self.leaving = self.watched, None, None, None
        if rest == "c":
            return self.go_on(True)
        if watched == self.going:
            return self.stopped(self.going, TRAP)
        search = self.search([Steps(self.going)], self.breakpoints, self.is_meant)
        return self.stop(search.backwards(self.at))
