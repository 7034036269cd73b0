"""What the atoms of a question's line are along the run that an answer tells."""
import re
from collections import namedtuple

from exploring.policy import Policy
from exploring.state import State
from exploring.terms import compares, terms_of, value
from run_page.remarks import names_of
from runs.moments import states

COMPARISONS = ("same", "below", "most", "less")
CONNECTED = {"and", "or"}
MOST_STATES, MOST_ROWS = 2000, 40  # states that are asked for, and rows that are told as text: the last ones

# An atom without its `not`: its words, what it is called, and whether that says the opposite, as `a != b` does of `same`.
Atom = namedtuple("Atom", "words name is_opposite")


def atoms_of(line):
    """The words of the atoms of a line, one after the other."""
    found = [[]]
    for word in line.split()[1:]:
        if word in CONNECTED or word == "must":
            found.append([])
        else:
            found[-1].append(word)
    return [words for words in found if words]


def named_atoms(line, plan):
    """The atoms of a line, each named as the plan has it, where that has as many."""
    atoms, names = atoms_of(line), atoms_of(plan)
    names = names if len(names) == len(atoms) else atoms
    found = []
    for words, name in zip(atoms, names):
        negated, is_called_so = words[0] == "not", name[0] == "not"
        atom = Atom(words[negated:], " ".join(name[is_called_so:]), negated != is_called_so)
        if all(atom.words != other.words for other in found):
            found.append(atom)
    return found


class Values:
    """The columns of a table: for each atom what is read of a state, else whether it holds."""

    def __init__(self, found):
        self.policy, self.columns, self.names = Policy(), [], names_of(found.listing)
        for words in found.policy:
            self.policy.take(words)
        for atom in named_atoms(found.line, found.plan):
            have = {name for name, _ in self.columns}
            self.columns += [column for column in self.columns_of(atom) if column[0] not in have]

    def columns_of(self, atom):
        """What an atom is called, and how its value is had of a state as the program wrote it, and of that as it is read
        for questions."""
        word, fields = atom.words[0], atom.words[1:]
        if word == "word" and len(fields) == 3:
            page, offset = int(fields[0]), int(fields[1], 16)
            return [(self.label(atom, "page"), lambda state, _: hexadecimal(state.page(page)[offset:offset + 4]))]
        if word == "reg" and len(fields) == 3:
            process, register = int(fields[0]), int(fields[1])
            return [(self.label(atom, "process"), lambda state, _: f"{state.register_values(process)[register]:x}")]
        if word in COMPARISONS:
            return self.of_terms(atom)
        return [(atom.name, lambda _, state: told(state.atom(word, fields, self.policy) != atom.is_opposite))]

    def of_terms(self, atom):
        """Those of a comparison: each of its terms that is no number, and whether it holds."""
        terms = terms_of(atom.words[1:])
        found = [(self.words_of(term), lambda _, state, term=term: f"{value(term, state):x}")
                 for outer in terms for term in within(outer) if term.word != "number"]
        return [*found, (atom.name, lambda _, state: told(compares(atom.words[0], terms, state) != atom.is_opposite))]

    def label(self, atom, kind):
        """What the value of an atom is called: as the plan has it, or with the name of its page or process."""
        words = without_value(atom).split()
        return " ".join([words[0], self.named(kind, words[1]), *words[2:]] if atom.name.split() == atom.words else words)

    def named(self, kind, number):
        return next((name for first, last, name in self.names[kind] if first == last == int(number)), number)

    def words_of(self, term):
        """A term, with the names of processes and pages."""
        kind = {"reg": "process", "pc": "process", "word": "page", "half": "page", "byte": "page"}.get(term.word)
        fields = list(term.fields)
        if kind:
            fields[0] = self.named(kind, fields[0])
        return " ".join([term.word, *fields, *map(self.words_of, term.terms)])

    def of(self, state):
        read = State(state.data)
        return [value(state, read) for _, value in self.columns]


def told(holds):
    return "yes" if holds else "no"


def hexadecimal(data):
    return f"{int.from_bytes(data, 'little'):x}"


def without_value(atom):
    """The name of an atom without the value that is asked for, which is its last word."""
    return re.sub(r" *([=!]=)? *\S+$", "", atom.name)


def within(term):
    """A term and all that it is made of."""
    yield term
    for inner in term.terms:
        yield from within(inner)


def table_of(program, found):
    """The names of the columns, and a row where a value is another than before: the number of the event that comes next,
    and the values. Nothing where the input doesn't have the line."""
    if not found.line:
        return [], []
    values, rows = Values(found), []
    lines = found.events()
    events = range(lines[0], lines[-1] + 1)[-MOST_STATES - 1:]
    for event, state in zip(events, states(program, found.listing, events)):
        row = values.of(state)
        if not rows or rows[-1][1:] != row:
            rows.append([event, *row])
    return [name for name, _ in values.columns], rows


def lines_of_table(names, rows):
    """The table as text, the last rows of one that is long."""
    widths = [max(len(name), *(len(row[i]) for row in rows)) for i, name in enumerate(names, 1)]
    yield "    event  " + "  ".join(name.ljust(width) for name, width in zip(names, widths)).rstrip()
    if len(rows) > MOST_ROWS:
        yield f"{'..':>9}  {len(rows) - MOST_ROWS:,} changes come before these"
    for event, *values in rows[-MOST_ROWS:]:
        yield f"{event:>9}  " + "  ".join(value.ljust(width) for value, width in zip(values, widths)).rstrip()
