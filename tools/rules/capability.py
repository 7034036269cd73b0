"""Capabilities as words: docs/formats.md, \"A capability as one word\"."""
import re

from rules.words import HEXADECIMAL, NAME, Refused, Word, decimal_seen, hexadecimal_seen, is_name, name_seen

PLAIN = ("null", "range", "discrim", "kernlog", "sysctl")
FORMS = {
    "schedule": "schedule:P, with a priority 0 to 7", "endpoint": "endpoint:N", "process": "process:N",
    "entry": "entry:N:PAYLOAD, with the payload in hexadecimal", "page": "page:N@L/M", "cappage": "cappage:N@L/M",
    "gpt": "gpt:N@L/M", "window": "window:OFFSET@L/M, with the offset in hexadecimal",
    "local": "local:S:OFFSET@L/M, with a slot 0 to 15 and the offset in hexadecimal"}
KINDS = {"endpoint": "endpoint", "entry": "endpoint", "process": "process", "page": "page", "cappage": "cappage",
         "gpt": "gpt"}
LETTERS = "rxwon"
ORDER = "restrictions: letters of rxwon in this order, each at most once"
OTHER_NAMES = {"entry": "e", "capability": "cap", "thread": "process", "task": "process", "cap": "cappage",
               "log": "kernlog", "kernel": "kernlog", "halt": "sysctl", "none": "null", "nil": "null", "0": "null"}


def bad(word, wanted, seen=""):
    return Refused("BadCap", word, wanted, seen)


def number(word, wanted, most=None):
    """A decimal number within a capability word."""
    if not (re.fullmatch("[0-9]{1,10}", word) and int(word) < 1 << 32):
        raise bad(word, wanted, decimal_seen(word))
    if most is not None and int(word) > most:
        raise bad(word, wanted, f"{int(word)} is too large")
    return int(word)


def hexadecimal(word, wanted=HEXADECIMAL):
    if not re.fullmatch("[0-9a-fA-F]{1,8}", word):
        raise bad(word, wanted, hexadecimal_seen(word))
    return int(word, 16)


def letters_seen(letters):
    if not letters:
        return "no letter stands behind the +"
    other = next((letter for letter in letters if letter not in LETTERS), None)
    if other:
        if letters.lower() != letters and set(letters.lower()) <= set(LETTERS):
            return "they are small letters"
        return f"{other} is none of them" + (": r says that there are no stores" if other in "RW" else "")
    if len(set(letters)) < len(letters):
        return "a letter stands there twice"
    return "their order is another: +" + "".join(letter for letter in LETTERS if letter in letters)


def are_letters(letters):
    return bool(re.fullmatch("r?x?w?o?n?", letters)) and letters != ""


def guard_of(word):
    """L, M behind the `@`, each with its place."""
    size, rest = word.cut("/")
    if rest is None:
        raise bad(word, "a guard: L/M, as 12/0", "there is no /")
    digits, letters = rest.cut("+")
    level = number(size, "the guard's size L in decimal, 12 to 32")
    match = hexadecimal(digits, "the guard's match M in hexadecimal")
    if letters is not None and not are_letters(letters):
        raise bad(letters if letters else rest.part(-1), ORDER, letters_seen(letters))
    return (size, level), (digits, match)


def object_of(terms, kind, word):
    """The number of an object, or the name that stands for it, as it is looked up later."""
    if terms.has_names and word.startswith("$"):
        if not is_name(word[1:]):
            raise bad(word.part(1) if len(word) > 1 else word, NAME, name_seen(word[1:]))
        return word
    return number(word, f"the number of {terms.called(kind)}" + (" or $NAME" if terms.has_names else ""))


def spelled(terms, word):
    """Kind, object, guard and offset of a word that spells a capability."""
    head, rest = word.cut(":")
    if rest is None:
        if word in PLAIN:
            return word, None, None, None
        raise bad(word, "a capability, as null, page:0@12/0 or entry:2:00000001", plain_seen(word))
    if head not in FORMS:
        raise bad(head, "the kind of a capability: " + ", ".join([*FORMS, *PLAIN]), head_seen(head))
    if head == "schedule":
        return head, number(rest, "a priority, 0 to 7", 7), None, None
    if head in ("endpoint", "process"):
        return head, object_of(terms, head, rest), None, None
    if head == "entry":
        name, payload = rest.cut(":")
        if payload is None:
            raise bad(end(word), FORMS[head], "the payload is missing")
        found = object_of(terms, "endpoint", name)
        hexadecimal(payload, "the payload, in hexadecimal: one to eight digits")
        return head, found, None, None
    if head == "local":
        slot, offset = rest.cut(":")
        if offset is None:
            raise bad(end(word), FORMS[head], "the offset is missing")
        number(slot, "a slot, 0 to 15", 15)
        rest = offset
    name, guard = rest.cut("@")
    if guard is None:
        raise bad(end(word), FORMS[head], "the guard is missing: @12/0 lets one page pass")
    if head in ("window", "local"):
        offset = name, hexadecimal(name, "an offset, in hexadecimal")
        return head, None, guard_of(guard), offset
    found = object_of(terms, head, name)
    return head, found, guard_of(guard), None


def end(word):
    return Word(" ", word.at + len(word))


def plain_seen(word):
    if word.lower() in PLAIN:
        return f"it has large letters: {word.lower()}"
    if word.startswith("+"):
        return "restrictions stand right behind the guard, with no space between"
    if word in FORMS:
        return f"it is written {FORMS[word]}"
    if word in OTHER_NAMES and OTHER_NAMES[word] in PLAIN:
        return f"it is called {OTHER_NAMES[word]}"
    return ""


def head_seen(head):
    if head.lower() in FORMS:
        return f"it has large letters: {head.lower()}"
    if head in PLAIN:
        return f"nothing stands behind {head}"
    return f"here it is called {OTHER_NAMES[head]}" if OTHER_NAMES.get(head) in FORMS else ""


def capability_of(terms, word):
    """The kind of a capability; what is wrong with its word first, then with its object, then with its guard."""
    kind, named, guard, offset = spelled(terms, word)
    if kind in KINDS and named is not None:
        place = word.part(len(kind) + 1)
        terms.look_up(KINDS[kind], Word(re.match("[^:@]*", place).group(), place.at))
    if guard:
        (size, level), (digits, match) = guard
        if not 12 <= level <= 32:
            raise Refused("BadGuard", size, "the guard's size, 12 to 32: 12 is one page, 32 all addresses",
                          f"{level} is " + ("too small" if level < 12 else "too large"))
        if match >> (32 - level):
            wanted = "the guard's match: with size 32 it is 0" if level == 32 else \
                f"the guard's match, below {1 << (32 - level):x}: the bits of an address from {level} upwards"
            raise Refused("BadGuard", digits, wanted, f"{match:x} is too large")
        if offset and offset[1] % (1 << level):
            raise Refused("BadGuard", offset[0], f"an offset that is a multiple of {1 << level:x} (2^{level}), the size "
                          "of what passes the guard", f"{offset[1]:x} is none")
    return kind
