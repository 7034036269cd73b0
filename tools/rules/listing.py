"""An input of the program, line by line, up to the first that is refused: docs/formats.md."""
from rules.behind import Policy, cut, event
from rules.question import FORMS as QUESTION
from rules.question import Question
from rules.statement import Terms, count_words, statement
from rules.words import Refused, Word, decimal_seen, words_of

LINE_LIMIT, INPUT_LIMIT = 512, 16_777_216
MACHINE = (("harts", 1, 8), ("pages", 0, 4096), ("capability pages", 0, 256), ("GPTs", 0, 1024), ("processes", 0, 256),
           ("endpoints", 0, 1024))
FORM = "machine HARTS PAGES CAPPAGES GPTS PROCESSES ENDPOINTS"


class Line:
    """A line that is refused: its number from 1, its bytes, and why."""

    def __init__(self, number, data, refused):
        self.number, self.data, self.refused = number, data, refused


def visible(data):
    """Refuses a line that is too long or has other bytes than 32 to 126; its text."""
    if len(data) > LINE_LIMIT:
        raise Refused("LineTooLong", Word(" ", LINE_LIMIT), f"a line of at most {LINE_LIMIT} bytes",
                      f"it has {len(data):,}")
    for at, byte in enumerate(data):
        if not 32 <= byte <= 126:
            raise Refused("BadByte", Word(" ", at), "bytes 32 to 126, which are letters, digits, signs and the space",
                          byte_seen(data, at))
    return data.decode()


def byte_seen(data, at):
    """What a byte is that may not stand in a line."""
    if data[at] == 13 and at == len(data) - 1:
        return "the line ends with CR and LF: it has to end with LF alone"
    if data[at] == 9:
        return "a tab: words are spaces apart"
    if data[at:at + 3] == b"\xef\xbb\xbf" and at == 0:
        return "a byte order mark stands in front: the text has to begin without one"
    if data[:2] in (b"\xff\xfe", b"\xfe\xff"):
        return "the text is UTF-16: it has to be ASCII"
    for last in range(at + 2, at + 5):
        try:
            letter = data[at:last].decode()
        except UnicodeDecodeError:
            continue
        if data[at] > 127:
            return f"{letter}, which is no letter of ASCII" + (": a space, but another one" if letter.isspace() else "")
    return f"byte {data[at]:02x}"


def header(words):
    """The first line; the version."""
    wanted = "the first line: coyotos 1 or coyotos 2"
    if words[0] != "coyotos":
        seen = "it has large letters" if words[0].lower() == "coyotos" else "this is an image: `coyotos unpack` reads it" \
            if words[0].startswith("COYIMG") else "the version is missing, which stands in front of all" \
            if words[0] in ("machine", "page", "gpt") else "this is no listing" if words[0] in ("harts", "program") else ""
        raise Refused("BadHeader", words[0], wanted, seen)
    if len(words) != 2:
        raise Refused("BadHeader", words[2] if len(words) > 2 else Word(" ", words[0].at + 8), wanted,
                      "a word is too many" if len(words) > 2 else "the version is missing")
    if words[1] not in ("1", "2"):
        raise Refused("BadHeader", words[1], wanted, "there are two versions")
    return int(words[1])


def machine(words, version):
    """The second line; what statements are judged by."""
    if words[0] != "machine":
        raise Refused("BadMachine", words[0], f"the second line: {FORM}", "")
    try:
        count_words(words, 7, 7, FORM)
    except Refused as refused:
        refused.fault = "BadMachine"
        raise
    found = []
    for word, (what, least, most) in zip(words[1:], MACHINE):
        is_number = word.isascii() and word.isdigit() and len(word) <= 10
        if not is_number or not least <= int(word) <= most:
            raise Refused("BadMachine", word, f"the number of {what}, {least} to {most}",
                          f"{int(word)} is too " + ("small" if int(word) < least else "large") if is_number
                          else decimal_seen(word))
        found.append(int(word))
    return Terms(version, found[0], dict(zip(("page", "cappage", "gpt", "process", "endpoint"), found[1:])))


class Reader:
    """Judges lines one after the other; `place` says what the next one has to be."""

    def __init__(self, behind):
        self.place, self.behind, self.version, self.terms, self.asked = "header", behind, None, None, None

    def line(self, words, number):
        if self.place == "header":
            self.version, self.place = header(words), "machine"
        elif self.place == "machine":
            self.terms, self.place = machine(words, self.version), "statements"
        elif self.place == "statements":
            if statement(words, self.terms, number):
                self.place, self.asked = self.behind, (Question if self.behind == "question" else Policy)(self.terms)
        elif self.place == "cut":
            cut(words, self.terms)
        elif self.place == "nothing":
            raise Refused("EventInPack", words[0], "nothing behind `end`: an image has no schedule",
                          "take the lines behind `end` away")
        elif self.place in ("policy", "question"):
            if self.asked.line(words, number):
                self.place = "schedule"
        else:
            event(words, self.terms)

    def missing(self):
        """The fault of an input that ends too early, or None."""
        nothing = Word(" ", 0)
        return {"header": Refused("BadHeader", nothing, "the first line: coyotos 1 or coyotos 2", "there is no line"),
                "machine": Refused("BadMachine", nothing, f"the second line: {FORM}", "the input ends before it"),
                "statements": Refused("NoEnd", nothing, "a line `end`", "the input ends without it"),
                "policy": Refused("NoEnd", nothing, "a line `end` of the policy", "the input ends without it"),
                "question": Refused("NoEnd", nothing, "a line `end` of the question", "the input ends without it"),
                }.get(self.place)


def lines_of(data):
    """The lines of an input; the last may lack its line feed."""
    lines = data.split(b"\n")
    return lines[:-1] if lines[-1] == b"" else lines


def first_refused(data, behind):
    """The first line that is refused, or None. What stands behind the listing is a schedule, a cut, a policy, a question
    or nothing."""
    reader, lines = Reader(behind), lines_of(data)
    for number, line in enumerate(lines, 1):
        try:
            words = words_of(visible(line))
            if words and not words[0].startswith("#"):
                reader.line(words, number)
        except Refused as refused:
            return Line(number, line, refused)
    missing = reader.missing()
    return Line(len(lines) + 1, b"", missing) if missing else None


def behind_of(data):
    """What seems to stand behind the listing, by the first words of its lines there."""
    lines = iter(lines_of(data))
    for line in lines:
        if line.split() == [b"end"]:
            break
    firsts = [line.split()[0].decode("latin-1") for line in lines if line.split() and not line.strip().startswith(b"#")]
    if any(first in QUESTION and first not in Policy.FORMS for first in firsts):
        return "question"
    first = firsts[0] if firsts else ""
    return "cut" if first == "left" else "policy" if first in ("domains", "domain", "reads", "writes", "halts", "logs") else "schedule"
