"""Terms: numbers of 32 bits that are read of a printed state. What the words say is taken from docs/explore.md."""
from collections import namedtuple

Term = namedtuple("Term", "word fields terms")

DEEPEST, BITS = 16, 1 << 32
SIZES = {"byte": 1, "half": 2, "word": 4}
# How many words stand behind the first of a term that has no terms in it.
FIELDS = {"number": 1, "reg": 2, "pc": 1, "word": 2, "half": 2, "byte": 2, "age": 2, "payload": 1}
OPERATORS = {"plus": lambda one, other: (one + other) % BITS, "minus": lambda one, other: (one - other) % BITS,
             "both": lambda one, other: one & other}


def signed(number):
    return number - BITS if number >= BITS // 2 else number


COMPARISONS = {"same": lambda one, other: one == other, "below": lambda one, other: one < other,
               "most": lambda one, other: one <= other, "less": lambda one, other: signed(one) < signed(other)}


def take_term(words, depth=1):
    """Takes a term from the front of some words."""
    if depth > DEEPEST:
        raise ValueError
    word = words.pop(0)
    if word in OPERATORS:
        return Term(word, [], [take_term(words, depth + 1), take_term(words, depth + 1)])
    fields = [words.pop(0) for _ in range(FIELDS[word])]
    return Term(word, fields, [])


def terms_of(words):
    """The two terms that some words are."""
    left = list(words)
    terms = [take_term(left), take_term(left)]
    if left:
        raise ValueError
    return terms


def looked_at(term):
    """The processes whose pc or registers a term reads, and the pages whose bytes it does."""
    number = int(term.fields[0]) if term.word in ("reg", "pc", *SIZES) else None
    processes = {number} if term.word in ("reg", "pc") else set()
    pages = {number} if term.word in SIZES else set()
    for inner in term.terms:
        more = looked_at(inner)
        processes, pages = processes | more[0], pages | more[1]
    return processes, pages


def value(term, state):
    """The 32 bits of a term in a state."""
    if term.terms:
        return OPERATORS[term.word](*(value(inner, state) for inner in term.terms))
    fields = term.fields
    if term.word == "number":
        return int(fields[0], 16)
    if term.word == "reg":
        return state.registers.get((int(fields[0]), int(fields[1])), 0)
    if term.word == "pc":
        return state.process(int(fields[0]))[0]
    if term.word == "age":
        return state.counts.get((fields[0], int(fields[1])), 0)
    if term.word == "payload":
        return state.endpoints.get(int(fields[0]), (0, 0))[1]
    return state.number(int(fields[0]), int(fields[1], 16), SIZES[term.word])


def compares(word, terms, state):
    """Whether two terms stand so to each other in a state."""
    return COMPARISONS[word](*(value(term, state) for term in terms))
