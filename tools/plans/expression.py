"""What a line of a question asks, in the way people write it: comparisons of numbers, `not`, `and`, `or` and parentheses.

It is brought into groups joined by `or`, of atoms joined by `and`, each of which has a `not` in front or none."""
import re

from plans.words import need

MOST_ATOMS, MOST_LINE, DEEPEST = 64, 512, 16
TOKEN = re.compile(r"\s*([<>]=?s(?!\w)|[=!<>]=|[<>()+&]|-(?=\s)|(?:[^\s()+&<>=!])+|\S)")
# What each comparison is of its two terms: whether it is negated, the atom, and whether the terms change places.
COMPARISONS = {
    "==": (False, "same", False), "!=": (True, "same", False), "<": (False, "below", False), "<=": (False, "most", False),
    ">": (False, "below", True), ">=": (False, "most", True), "<s": (False, "less", False), ">s": (False, "less", True),
    "<=s": (True, "less", True), ">=s": (True, "less", False)}
OPERATORS = {"+": "plus", "-": "minus", "&": "both"}
ENDS = ("and", "or", ")", None)
MASK = 0xffffffff


class Atom:
    """An atom: its line for `explore`, and its words in the plan; of a comparison that is true or false in every state also
    which of the two, and why."""

    def __init__(self, told, words, is_true=None, why=""):
        self.told, self.words, self.is_true, self.why = told, words, is_true, why


class Term:
    """A term: its words for `explore`, how deep terms stand in one another there, its value where it is a number, and the
    largest that it can have."""

    def __init__(self, told, depth=1, value=None, narrow="", most=MASK):
        self.told, self.depth, self.value, self.narrow, self.most = told, depth, value, narrow, most

    @property
    def least(self):
        return self.value or 0


def number(value):
    return Term(f"number {value & MASK:08x}", value=value & MASK, most=value & MASK)


def always(word, one, two):
    """Whether a comparison without a sign is true in every state (True), or false (False); None where that can't be seen."""
    if word == "same":
        return False if one.least > two.most or two.least > one.most else None
    if word == "below":
        return True if one.most < two.least else False if one.least >= two.most else None
    if word == "most":
        return True if one.most <= two.least else False if one.least > two.most else None
    return None


def why_always(left, right):
    """The reason, of the side that is no number."""
    side, other, name = (left, right, "left") if left.value is None else (right, left, "right")
    sign = f": {side.narrow} is a number of less than four bytes, which has no sign here" if side.narrow and other.least > MASK // 2 \
        else ""
    return f"its {name} side is from 0 to {side.most:#x}{sign}"


def joined(operator, one, two):
    """Two terms as one."""
    if one.value is not None and two.value is not None:
        return number({"+": one.value + two.value, "-": one.value - two.value, "&": one.value & two.value}[operator])
    most = {"+": min(one.most + two.most, MASK), "-": MASK, "&": min(one.most, two.most)}[operator]
    return Term(f"{OPERATORS[operator]} {one.told} {two.told}", 1 + max(one.depth, two.depth), None, one.narrow or two.narrow, most)


class Line:
    """The words of a line, as they are gone through. `names` says what words mean: `atom(words)` of an atom, `is_atom(word)`
    whether one begins with it, `verb(words)` of one with its verb behind a name, and `term(word, rest)` of a name or a
    number, with how many of the words behind belong to it."""

    def __init__(self, words, names):
        self.kind, self.names, self.at = words[0], names, 0
        self.tokens = TOKEN.findall(" ".join(words[1:]))

    def peek(self, ahead=0):
        return self.tokens[self.at + ahead] if self.at + ahead < len(self.tokens) else None

    def next(self):
        self.at += 1
        return self.tokens[self.at - 1]

    def groups(self):
        """The groups of the line, each of pairs: whether the atom is negated, and the atom."""
        tree = self.either()
        need(self.peek() is None, f"nothing opens what `{self.peek()}` closes" if self.peek() == ")" else
             f"`and` or `or` is missing before {self.peek()}")
        found = groups_of(tree, False)
        need(sum(map(len, found)) <= MOST_ATOMS, f"as groups joined by `or` the line has {sum(map(len, found))} atoms, and at "
             f"most {MOST_ATOMS}")
        return found

    # -- what is joined

    def either(self):
        parts = [self.both()]
        while self.peek() == "or":
            self.next()
            parts.append(self.both())
        return ("or", parts)

    def both(self):
        parts = [self.part()]
        while self.peek() == "and":
            self.next()
            parts.append(self.part())
        return ("and", parts)

    def part(self):
        if self.peek() == "not":
            self.next()
            return ("not", self.part())
        need(self.peek() not in ENDS, f"{self.kind} [not] ATOM [and [not] ATOM ..] [or ..]")
        if self.peek() == "(" and not self.is_term():
            self.next()
            inner = self.either()
            need(self.peek() == ")", "a parenthesis isn't closed")
            self.next()
            return inner
        return self.atom()

    def is_term(self):
        """Whether what a parenthesis closes is a part of a term: an operator or a comparison comes behind it."""
        depth = 0
        for i in range(self.at, len(self.tokens)):
            depth += {"(": 1, ")": -1}.get(self.tokens[i], 0)
            if not depth:
                return i + 1 < len(self.tokens) and (self.tokens[i + 1] in COMPARISONS or self.tokens[i + 1] in OPERATORS)
        return False

    # -- atoms

    def atom(self):
        words = self.tokens[self.at:self.stop()]
        if not any(word in COMPARISONS for word in words):
            self.at += len(words)
            is_verb = len(words) > 1 and not self.names.is_atom(words[0]) and self.names.is_verb(words[1])
            return Atom(self.names.verb(words) if is_verb else self.names.atom(words), words)
        begin, left = self.at, self.term()
        need(self.peek() in COMPARISONS, f"a comparison is missing before {self.peek()}")
        sign, right = self.next(), self.term()
        is_negated, word, changed = COMPARISONS[sign]
        need(self.peek() in ENDS, f"`and` or `or` is missing before {self.peek()}")
        need(max(left.depth, right.depth) <= DEEPEST, f"terms stand in one another {DEEPEST} deep, and no deeper")
        narrow = left.narrow or right.narrow
        need(word != "less" or not narrow, f"{narrow} is a signed number of less than four bytes, which has no sign here")
        one, two = (right, left) if changed else (left, right)
        is_true = None if left.value is not None and right.value is not None else always(word, one, two)
        made = Atom(f"{word} {one.told} {two.told}", self.tokens[begin:self.at], None if is_true is None else is_true != is_negated,
                    why_always(left, right))
        return ("not", made) if is_negated else made

    def stop(self):
        """Where the words of an atom end."""
        depth = 0
        for i in range(self.at, len(self.tokens)):
            depth += {"(": 1, ")": -1}.get(self.tokens[i], 0)
            if depth < 0 or self.tokens[i] in ("and", "or"):
                return i
        return len(self.tokens)

    # -- terms

    def term(self):
        found = self.sum()
        while self.peek() == "&":
            self.next()
            found = joined("&", found, self.sum())
        return found

    def sum(self):
        found = self.operand()
        while self.peek() in ("+", "-"):
            found = joined(self.next(), found, self.operand())
        return found

    def operand(self):
        need(self.peek() not in ENDS and self.peek() not in COMPARISONS and self.peek() not in OPERATORS, "a number is missing "
             + (f"before {self.peek()}" if self.peek() else "at the end"))
        if self.peek() == "(":
            self.next()
            found = self.term()
            need(self.peek() == ")", "a parenthesis isn't closed")
            self.next()
            return found
        word = self.next()
        if re.fullmatch(r"-?(?:[0-9]+|0x[0-9a-fA-F]+)", word):
            value = int(word, 16 if "x" in word else 10) if len(word) < 20 else MASK + 1
            need(-(1 << 31) <= value <= MASK, f"a number has 32 bits: {word}")
            return number(value)
        found, taken = self.names.term(word, self.tokens[self.at:self.stop()])
        self.at += taken
        return found


def groups_of(tree, negated):
    """The groups of what is joined."""
    if isinstance(tree, Atom):
        return [[(negated, tree)]]
    if tree[0] == "not":
        return groups_of(tree[1], not negated)
    parts = [groups_of(part, negated) for part in tree[1]]
    if (tree[0] == "or") != negated:
        return [group for part in parts for group in part]
    found = [[]]
    for part in parts:
        need(len(found) * len(part) <= MOST_ATOMS, f"as groups joined by `or` the line has more than {MOST_ATOMS} of them")
        found = [[*one, *two] for one in found for two in part]
    return found


def line_of(*parts):
    """The line for `explore`, of words with the groups behind each."""
    told = " ".join(f"{word} " + " or ".join(" and ".join("not " * negated + atom.told for negated, atom in group)
                                             for group in groups) for word, groups in parts)
    need(len(told) <= MOST_LINE, f"for `explore` the line has {len(told)} bytes, and at most {MOST_LINE}")
    return told
