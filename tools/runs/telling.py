"""Records told in words, one by one."""
from runs.calls import Calls
from runs.programs import Programs
from runs.records import message, text_of, told

MOST_TOLD = 20  # calls that are told
LOG_PIECE = 512  # digits of a full piece of the log, behind which its line may go on
MOST_KNOWN = 1000  # records of which the words are kept, as the same often come again
OF_STEPS = 21  # letters in front of what a record of a trace has below it


class Teller:
    """Tells records that are wanted, of the processes that are asked for (of all where that is None)."""

    def __init__(self, listing, symbols, out):
        self.programs, self.out, self.lines, self.has_told = Programs(listing, symbols), out, [], False
        self.calls, self.open, self.known, self.fronts = Calls(self.programs), {}, {}, {}
        self.wanted, self.who = set(), None
        self.width = max((len(self.programs.process(first)) for first, _, _ in self.programs.names["process"]), default=9)

    def record(self, line, number, process=None, pc=None, insn=None):
        """Tells a record, if it is wanted, behind its number, with what is known of its step."""
        if line in self.known and not self.open:
            self.lines.append(number + self.known[line])
            return
        words = line.split(b" ") if self.who else line.split(b" ", 2)
        kind = words[0]
        if kind not in self.wanted:
            return
        owner = process if kind == b"destroy" else int(words[1])
        if self.who and not self.is_asked_for(kind, words, owner):
            return
        front = self.front(owner)
        if kind == b"log":
            text, is_full = text_of(words[2]), len(words[2]) == LOG_PIECE
            if is_full or owner in self.open or "\n" in text[:-1]:
                self.log(number + front, owner, text, is_full)
                return
            behind = 'log "{}"\n'.format(text.rstrip("\n"))
        elif kind == b"msg":
            behind = f"{message(line, self.programs)}\n"
        else:
            behind = f'{told(line, self.programs, b"" if pc and insn is None else insn)}\n'
        self.has_told = True
        self.lines.append(f"{number}{front}{behind}")
        if kind == b"fault" and pc is not None:
            self.say(f"{'':>{OF_STEPS}}at {self.programs.place(owner, int(pc, 16))}")
            self.tell_calls(owner, self.calls.of(owner), OF_STEPS)
        elif kind in (b"msg", b"log"):
            self.keep(line, front + behind)

    def front(self, owner):
        """The program of a record, as it stands in front of it."""
        if owner not in self.fronts:
            self.fronts[owner] = (self.programs.process(owner) if owner is not None else "").ljust(self.width + 2)
        return self.fronts[owner]

    def keep(self, line, told_line):
        """Keeps how a record was told that is told the same wherever it stands, for the first of them."""
        if len(self.known) < MOST_KNOWN:
            self.known[line] = told_line

    def is_asked_for(self, kind, words, owner):
        heard = kind == b"msg" and int(words[2]) in self.who or kind == b"fault" and words[4] == b"to" \
            and int(words[5]) in self.who
        return owner in self.who or heard

    def tell_calls(self, process, places, indent=11):
        """The places of calls, the innermost first."""
        self.programs.look_up(process, places[:MOST_TOLD])
        for place in places[:MOST_TOLD]:
            self.say(f"{'':>{indent}}called from {self.programs.place(process, place)}")
        if len(places) > MOST_TOLD:
            self.say(f"{'':>{indent}}and {len(places) - MOST_TOLD:,} calls further out")

    def log(self, front, process, piece, is_full):
        """A piece of the log as lines; a full piece without an end of a line waits for the next one."""
        begun, text = self.open.pop(process, (front, ""))
        *whole, last = (text + piece).split("\n")
        for line in whole:
            self.say(f'{begun}log "{line}"')
            begun = front
        if last and is_full:
            self.open[process] = begun, last
        elif last:
            self.say(f'{begun}log "{last}"')

    def say(self, line):
        self.has_told = True
        self.lines.append(f"{line}\n")

    def say_all(self, lines):
        for line in lines:
            self.say(line)

    def flush(self):
        if self.lines:
            self.out(self.lines)
            self.lines = []
