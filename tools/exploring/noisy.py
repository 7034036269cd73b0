"""What keeps the steps of a process from being quiet, by a listing and a question: by the rule of docs/explore.md."""
from debugger.state import State
from debugger.walk import memory_of, walk
from exploring.policy import named_by
from exploring.question import Question
from exploring.quiet import Holding, is_far_reaching, may_write, places
from exploring.terms import looked_at
from runs.programs import Programs


class Noisy:
    """The processes of an input, and what keeps each of them from quiet steps where the listing begins."""

    def __init__(self, text):
        self.question = Question(text)
        listing = "".join(f"{line}\n" for line in self.question.listing)
        self.state, self.programs = State(listing.encode()), Programs(listing)
        self.holding = Holding(self.state)
        self.placed = sorted(set(places(self.state)))
        self.recipients = [(("endpoint", number), printed[0]) for number, printed in sorted(self.state.endpoints.items())]
        self.texts = text.splitlines()

    def lines(self):
        for process in sorted(self.state.processes):
            why = [*self.for_all(), *self.of(process)]
            yield f"{self.programs.called('process', process)}: " + ("its steps may be quiet" if not why else "no step of it is quiet")
            yield from (f"    {one}" for one in why)

    def for_all(self):
        """What makes no step of any process quiet."""
        for holder, word in self.placed:
            if is_far_reaching(word):
                yield f"{self.called(holder)} holds {'a range' if word == 'range' else f'{word}, a window to a background'}"

    def of(self, process):
        """What makes no step of this process quiet."""
        if self.state.process(process).state != ["run"]:
            yield "it doesn't run"
        for holder, word in self.placed:
            if named_by(word) == ("process", process):
                yield f"{self.called(holder)} holds a capability to it, {word}"
        for line, atom in self.looks(process):
            yield f"line {line.number} looks at it: {atom} ({self.texts[line.number - 1].strip()})"
        yield from self.code(process)

    def looks(self, process):
        """The lines of the question that look at its registers, or at a page of its own, with their atoms."""
        own = self.holding.own(process)
        for line in self.question.lines:
            for atom in [atom for group in line.groups + (line.first or []) for atom in group]:
                processes, pages = seen_by(atom)
                if process in processes or own & pages:
                    yield line, " ".join(atom.words)

    def code(self, process):
        """Why an instruction where the process begins isn't fetched in a quiet step."""
        pc = self.state.process(process).pc
        end = walk(self.state, process, "fetch", pc)
        if end.name != "reach":
            yield f"its pc, {pc:x}, leads to no page: {end.name}"
        elif not self.holding.may_reach(process, "fetch", end):
            page = self.programs.called("page", end.number)
            yield f"its code is in {page}" + self.too(process, ("page", end.number))
            yield from (f"{page} isn't settled: {why}" for why in self.unsettled(end.number))
            for gpt in sorted({named_by(word)[1] for _, word in end.way if (memory_of(word) or (None,))[0] == "gpt"}):
                if self.others(process, ("gpt", gpt)):
                    yield f"{self.programs.called('gpt', gpt)} is on the way there" + self.too(process, ("gpt", gpt))

    def unsettled(self, page):
        """Who may change a page: whoever has a capability to it that isn't restricted to reading, or a range."""
        for holder, word in self.placed + self.recipients:
            if may_write(word) and named_by(word) == ("page", page):
                yield f"{self.called(holder)} has {word}, without r"
            elif word == "range":
                yield f"{self.called(holder)} has a range"

    def too(self, process, named):
        """Who else comes to a page or a GPT."""
        others = self.others(process, named)
        return f", to which {', '.join(map(self.called, others))} come{'s' * (len(others) == 1)} too" if others else ""

    def others(self, process, named):
        return sorted(self.holding.holders.get(named, set()) - {("process", process)})

    def called(self, holder):
        return self.programs.called(*holder)


def seen_by(atom):
    """The processes whose pc or registers an atom is about, and the pages of whose bytes it is."""
    seen = [looked_at(term) for term in atom.terms]
    if atom.words[0] in ("pc", "reg") and not atom.terms:
        seen.append(({int(atom.words[1])}, set()))
    if atom.words[0] == "word" and not atom.terms:
        seen.append((set(), {int(atom.words[1])}))
    return tuple(set().union(*(one[part] for one in seen)) for part in (0, 1))
