"""The words of a line with their places, numbers in them, and what is said where one is refused."""
import re

TOP = 1 << 32


class Refused(Exception):
    """Why a line is refused: the fault, the place of what is wrong with its length, what was wanted there, and what
    stands there in its place."""

    def __init__(self, fault, word, wanted, seen=""):
        super().__init__(fault)
        self.fault, self.at, self.length, self.wanted, self.seen = fault, word.at, len(word), wanted, seen


class Word(str):
    """A word or a part of one, with its place in the line."""

    def __new__(cls, text, at):
        found = super().__new__(cls, text)
        found.at = at
        return found

    def part(self, first, last=None):
        text = self[first:last]
        return Word(text, self.at + (first if first >= 0 else len(self) + first))

    def cut(self, mark):
        """What stands in front of the first such mark and behind it, or the whole and nothing."""
        at = self.find(mark)
        return (self, None) if at < 0 else (self.part(0, at), self.part(at + 1))


def words_of(line):
    return [Word(found.group(), found.start()) for found in re.finditer("[^ ]+", line)]


def end_of(words):
    """The place behind the last word, where something is missing."""
    return Word("", words[-1].at + len(words[-1]) + 1)


DECIMAL = "a decimal number: one to ten digits, below 4294967296"
HEXADECIMAL = "a hexadecimal number: one to eight digits, with nothing in front of them"


def decimal_of(word, fault="BadNumber", wanted=DECIMAL):
    """The decimal number that a word is."""
    if re.fullmatch("[0-9]{1,10}", word) and int(word) < TOP:
        return int(word)
    raise Refused(fault, word, wanted, decimal_seen(word))


def decimal_seen(word):
    if not word:
        return "there is nothing"
    if re.fullmatch("[0-9]+", word):
        return f"it has {len(word)} digits" if len(word) > 10 else "it is too large"
    if re.fullmatch("0[xX][0-9a-fA-F]{1,8}", word):
        return f"it looks hexadecimal: {int(word, 16)} in decimal"
    if re.fullmatch("[0-9a-fA-F]{1,8}", word):
        return f"it has hexadecimal digits: {int(word, 16)}, if it was meant so"
    if word.startswith("$"):
        return "names may stand for numbers in version 2 alone, where objects are named"
    if re.fullmatch("[0-9][0-9,._']*", word):
        return f"digits are not parted: {re.sub('[^0-9]', '', word)}"
    if re.fullmatch("[-+][0-9]+", word):
        return "numbers have no sign"
    return "it has other letters than digits"


def hexadecimal_of(word, fault="BadNumber", wanted=HEXADECIMAL):
    """The hexadecimal number that a word is."""
    if re.fullmatch("[0-9a-fA-F]{1,8}", word):
        return int(word, 16)
    raise Refused(fault, word, wanted, hexadecimal_seen(word))


def hexadecimal_seen(word):
    if not word:
        return "there is nothing"
    if re.match("0[xX]", word):
        return f"0x doesn't stand in front: {word[2:]}"
    if re.fullmatch("[0-9a-fA-F]+", word):
        return f"it has {len(word)} digits"
    if re.fullmatch("[0-9a-fA-F]+[hH]", word):
        return f"no h stands behind: {word[:-1]}"
    if re.fullmatch("[0-9a-fA-F][0-9a-fA-F,._']*", word):
        return f"digits are not parted: {re.sub('[^0-9a-fA-F]', '', word)}"
    if re.fullmatch("[-+][0-9a-fA-F]+", word):
        return "numbers have no sign"
    return "it has other letters than hexadecimal digits"


def between(word, least, most, fault="BadValue", what=""):
    """A decimal number in a range."""
    value = decimal_of(word)
    if least <= value <= most:
        return value
    raise Refused(fault, word, f"{what or 'a number'}, {least} to {most}", f"{value} is {beyond(value, least)}")


def beyond(value, least):
    return "too small" if value < least else "too large"


def is_name(word):
    return re.fullmatch("[a-z][a-z0-9_]{0,15}", word) is not None


NAME = "a name: a small letter, and up to 15 small letters, digits or _"


def name_of(word, fault="BadName"):
    if is_name(word):
        return str(word)
    raise Refused(fault, word, NAME, name_seen(word))


def name_seen(word):
    if not word:
        return "there is nothing"
    if word != word.lower() and is_name(word.lower()):
        return f"it has large letters: {word.lower()}"
    if len(word) > 16 and is_name(word[:16]):
        return f"it has {len(word)} letters"
    if not re.match("[a-z]", word):
        return f"it begins with {word[0]}"
    other = next((letter for letter in word if not re.match("[a-z0-9_]", letter)), "")
    return f"it has the letter {other}" if other else ""
