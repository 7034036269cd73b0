"""Requests of a run that were refused: invocations that were answered by a code other than 0.

They are no records. So the calls of a trace that may be such are put down, and the program is asked for the registers
behind each of them, and for those that held before the refused ones."""
import collections
import time

from runs.moments import Trouble, states
from runs.programs import short

REPLIED, DONE = 2, 0  # x10 after the kernel's reply, and its code in x11
HEAD, CODE, CALL, TARGET = 10, 11, 17, 31
TOLD = (b"msg", b"log", b"halt", b"fault", b"destroy", b"capload", b"capstore")
MOST_SECONDS = 3  # for what nobody asked for
MOST_KINDS = 3  # that are told in a line
CODES = {1: "nobody is there", 2: "there is no such request", 3: "the capability doesn't allow it", 4: "an argument is wrong",
         5: "the object's count is at its end", 6: "the receiver is busy"}
OF_MEMORY = {1: "reduce", 2: "getguard", 3: "setguard", 4: "getrestr"}
REQUESTS = {
    "page": {**OF_MEMORY, 8: "clear", 9: "copy"}, "cappage": {**OF_MEMORY, 8: "clear", 9: "get", 10: "set"},
    "gpt": {**OF_MEMORY, 8: "getslot", 9: "setslot", 10: "getheader", 11: "setheader", 12: "setwindow"},
    "window": OF_MEMORY, "local": OF_MEMORY,
    "endpoint": {8: "setrecipient", 9: "getid", 10: "setid", 11: "setmatch", 12: "makeentry", 13: "setpayload"},
    "process": {8: "getreg", 9: "setreg", 10: "getcapreg", 11: "setcapreg", 12: "getslot", 13: "setslot",
                14: "getstate", 15: "resume", 16: "stop"},
    "schedule": {8: "priority", 9: "lower"}, "range": {8: "getcap", 9: "destroy"}, "discrim": {8: "classify"},
    "kernlog": {8: "log"}, "sysctl": {8: "halt"}}

# A call of a trace: its event, its record, its process, its pc, and where the calls around it stand.
Call = collections.namedtuple("Call", "event record process pc around")


class Refused:
    """The calls that may have been refused, and those that were."""

    def __init__(self, programs):
        self.programs, self.calls, self.looked_at = programs, [], 0

    def add(self, *parts):
        self.calls.append(Call(*parts))

    def found(self, program, listing, seconds=None):
        """Those that were refused, each with a sentence; within so many seconds, if that is said."""
        if not self.calls:
            return []
        begun, refused = time.monotonic(), []
        for call, state in zip(self.calls, states(program, listing, [call.event + 1 for call in self.calls])):
            registers = state.register_values(call.process)
            if registers[HEAD] & 0xff == REPLIED and registers[CODE] != DONE and registers[CALL] == 0:
                refused.append((call, registers[CODE]))
            self.looked_at += 1
            if seconds is not None and time.monotonic() - begun > seconds:
                break
        before = states(program, listing, [call.event for call, _ in refused]) if refused else ()
        return [(call, self.sentence(call, code, state)) for (call, code), state in zip(refused, before)]

    # -- words

    def sentence(self, call, code, state):
        """What was asked, why that was refused, and where."""
        registers = state.register_values(call.process)
        register = registers[HEAD] & TARGET
        word = state.held.get(call.process, {}).get(register, "null")
        why = CODES.get(code, f"code {code}")
        return f"{self.asked(register, word, registers[CODE], why)}, at {self.place(call)}"

    def asked(self, register, word, request, why):
        kind, _, rest = word.partition("@")[0].partition(":")
        if kind == "null":
            return f"invoked c{register}, which is null"
        if kind == "entry":
            return f"sent to c{register}, an entry to {self.programs.called('endpoint', int(rest.split(':')[0]))}: {why}"
        named = kind in ("page", "cappage", "gpt", "endpoint", "process")
        what = self.programs.called(kind, int(rest)) if named else kind
        does = "kind" if request == 0 else REQUESTS.get(kind, {}).get(request, f"request {request}")
        return f"asked c{register}, {what}, for {does}: {why}"

    def place(self, call):
        """The line of a program that calls, if that is known: not one of the header."""
        lines = (self.programs.own_line(call.process, at) for at in (call.pc, *call.around))
        return short(next(filter(None, lines), "")) or self.programs.place(call.process, call.pc)


def grouped(found):
    """Those of one program with one sentence together: the program, the sentence, and the calls."""
    groups = {}
    for call, sentence in found:
        groups.setdefault((call.process, sentence), []).append(call)
    return [(process, sentence, calls) for (process, sentence), calls in groups.items()]


def in_a_line(refused, found):
    """How many requests were refused, with those that came first."""
    groups, count = grouped(found), len(found)
    told = [f"{refused.programs.process(process)} {sentence}"
            + (f" ({len(calls)} times)" if len(calls) > 1 < len(groups) else "")
            for process, sentence, calls in groups[:MOST_KINDS]]
    more = f"; and {len(groups) - MOST_KINDS} more, which --refused lists" if len(groups) > MOST_KINDS else ""
    few = "" if refused.looked_at == len(refused.calls) else f" of the first {refused.looked_at:,} that were looked at"
    were = "request was" if count == 1 else "requests were"
    return f"{count:,} {were} refused{few}: {'; '.join(told)}{more}"


__all__ = ["Refused", "Trouble", "grouped", "in_a_line", "MOST_SECONDS", "TOLD"]
