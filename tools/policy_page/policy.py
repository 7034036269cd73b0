"""The policy that an input of `separation` states: its domains, their objects, and what its lines let them do."""
from exploring.policy import Policy as Judge
from rules.behind import Policy as Rules
from rules.listing import Reader, header, machine, visible
from rules.words import Refused, words_of

KINDS = ("process", "endpoint", "page", "cappage", "gpt")
PAIRED = ("reads", "writes")
RIGHTS = (*PAIRED, "halts", "logs")


class NoPicture(Exception):
    """Why there is nothing to draw, in a sentence."""


class Policy:
    """Domains, each known by its number in the order in which they were made; `rest` is the first. A line is the word with
    which it begins and the numbers of its domains."""

    def __init__(self, text, name):
        self.judge, self.lines, self.rules, self.number = Judge(), [], None, 0
        try:
            self.read(text)
        except Refused as refused:
            raise NoPicture(f"{name} is no input of `separation`: line {self.number} is refused ({refused.fault}), wanted: "
                            f"{refused.wanted}") from refused
        self.names, self.sizes = self.rules.domains, self.rules.terms.sizes
        self.lines = in_order(tuple([word, *map(self.names.index, names)]) for word, *names in self.lines)
        self.owners = {kind: [0] * self.sizes[kind] for kind in KINDS}
        for domain, _, kind, first, last in self.rules.assigned:
            self.owners[kind][first:last + 1] = [self.names.index(domain)] * (last - first + 1)

    # -- the input

    def read(self, text):
        """Reads all up to the line `end` of the policy. The statements of the listing are passed over."""
        place, version = "header", None
        for self.number, line in enumerate(lines_of(text), 1):
            words = list(filter(None, line.split(" ")))
            if not words or words[0].startswith("#") or place == "statements" and words != ["end"]:
                continue
            words = words_of(visible(line.encode("utf-8", "surrogatepass")))
            if place == "header":
                version, place = header(words), "machine"
            elif place == "machine":
                self.rules, place = Rules(machine(words, version)), "statements"
            elif place == "statements":
                place = "policy"
            elif self.take(words):
                return
        self.number += 1
        reader = Reader("policy")
        reader.place = place
        raise reader.missing()

    def take(self, words):
        """Takes a line of the policy; whether it is the last."""
        is_over = self.rules.line(words, self.number)
        if words[0] in ("domain", *RIGHTS):
            self.judge.take(list(map(str, words)))
        if words[0] in RIGHTS:
            self.lines.append(list(map(str, words)))
        return is_over

    # -- what follows from it

    def owner(self, kind, number):
        return self.owners[kind][number]

    def objects(self, domain):
        """The numbers of a domain's objects, by their kind."""
        return {kind: [number for number, owner in enumerate(owners) if owner == domain]
                for kind, owners in self.owners.items()}


class Ways:
    """Who may read, write and learn of whom, by lines."""

    def __init__(self, lines, count):
        self.read, self.written = [set() for _ in range(count)], [set() for _ in range(count)]
        learned = [set() for _ in range(count)]
        for word, one, *others in lines:
            for other in others:
                (self.read if word == "reads" else self.written)[one].add(other)
                learned[one].add(other)
                if word == "writes":
                    learned[other].add(one)
        self.reads = [reached(self.read, one) for one in range(count)]
        self.writes = self.written
        self.views = [reached(learned, one) for one in range(count)]


def lines_of(text):
    """The lines of a text; the last may lack its line feed."""
    return text.removesuffix("\n").split("\n") if text else []


def reached(leads, one):
    """All to which one comes, itself among them."""
    found, left = {one}, [one]
    while left:
        new = leads[left.pop()] - found
        found |= new
        left.extend(new)
    return found


def in_order(lines):
    """Lines as `separation` orders them, each once."""
    return sorted(set(lines), key=lambda line: (RIGHTS.index(line[0]), line[1:]))


def line_text(line, names):
    """A line as a policy has it."""
    return " ".join([line[0], *(names[domain] for domain in line[1:])])
