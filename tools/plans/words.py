"""What is wrong with a plan, and how its words are read."""
import re

PAGE = 4096
AREA = 16 * PAGE
TOP = 1 << 32
MOST_DIGITS = 20  # no number that means anything has more of them
MOST_SHOWN = 200  # letters of a word that a complaint shows


class Wrong(Exception):
    """What is wrong with a plan or a program, in a sentence."""


def complaint(path, line, wrong):
    """What is said of a plan that is wrong: of a line, or (0) of the whole."""
    return f"{path}{f', line {line}' if line else ''}: {wrong}"


def need(truth, sentence):
    if not truth:
        raise Wrong(re.sub(rf"(\S{{{MOST_SHOWN}}})\S+", r"\1..", sentence))


def number(word, what, most, base=10):
    """The number that a word spells, in decimal or (base 16) in hexadecimal digits, and at most `most`."""
    digits = "[0-9]+" if base == 10 else "[0-9a-fA-F]+"
    need(base == 10 or not word.lower().startswith("0x"), f"write hexadecimal without 0x: {word}")
    need(re.fullmatch(digits, word), f"{what} is no number: {word}")
    told = word.lstrip("0") or "0"
    value = int(told, base) if len(told) <= MOST_DIGITS else most + 1
    need(value <= most, f"{what} is over {f'{most:,}' if base == 10 else format(most, 'x')}: {word}")
    return value


def page_address(word):
    """The address of a page, from its word."""
    address = number(word, "an address", TOP - 1, 16)
    need(address % PAGE == 0, f"no multiple of 1000: {word}")
    return address


def letters(words):
    """The restrictions behind a capability, none or one word: letters of rxwon, each once."""
    need(len(words) <= 1, "too many words")
    word = words[0] if words else ""
    need(set(word) <= set("rxwon") and len(set(word)) == len(word),
         f"restrictions are letters of rxwon, each once: {word}")
    return set(word)


def restricted(found):
    """Restrictions as a capability word has them."""
    return "+" + "".join(letter for letter in "rxwon" if letter in found) if found else ""


def is_name(word):
    """Whether a word may be the name of something in a plan."""
    return re.fullmatch("[A-Za-z_][A-Za-z0-9_-]*", word) is not None


def is_file_name(word):
    """Whether a word may name a program's file: below the directory, in letters that a remark of a listing may have."""
    return re.fullmatch("[!-~]+", word) is not None and not word.startswith("/") and ".." not in word.split("/")


def is_domain_name(word):
    """Whether a word may be the name of a domain: the rule of names in a listing of version 2."""
    return re.fullmatch("[a-z][a-z0-9_]{0,15}", word) is not None


def span(first, last):
    """Two addresses, the last included."""
    return f"{first:08x} to {last:08x}"


def pages_for(size):
    """How many pages hold so many bytes."""
    return -(-size // PAGE)
