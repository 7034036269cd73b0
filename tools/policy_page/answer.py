"""An answer of `separation`, read with the input that it is about."""
import re

from exploring.policy import HARMLESS, named_by
from policy_page.policy import RIGHTS, NoPicture, Ways, in_order, line_text, lines_of

NAME = "[a-z][a-z0-9_]{0,15}"
REFUSAL = re.compile(r"(refused \d+ \w+|too long|usage:.*)")
FORMS = {name: re.compile(form.replace("NAME", NAME)) for name, form in {
    "crossing": r"crossing (\w+) (\d+) (\d+) (\S+) (NAME) -> (NAME) (reads|writes|never)",
    "alone": r"(range|halts|logs) (\w+) (\d+) (\d+) (NAME)( never)?",
    "sleeper": r"sleeper (\d+) (NAME) -> (NAME) never", "count": r"crossings (\d+)", "head": r"separated domains=(\d+)",
    "domain": r"domain (NAME) (.*?)( halts)?( logs)?", "unused": r"unused ((?:reads|writes) NAME NAME)",
    "line": r"((?:reads|writes) NAME NAME|(?:halts|logs) NAME)"}.items()}
PLACES = {"cappage": 256, "gpt": 16, "endpoint": 1, "process": 35}  # how many places of capabilities an object has
HELD = {"range": "Range", "halts": "SysCtl", "logs": "KernLog"}


class Crossing:
    """A line of what crosses: its domains, the first of which holds it, and its words."""

    def __init__(self, line, sort, one, other, remedy):
        self.line, self.sort, self.one, self.other, self.remedy = line, sort, one, other, remedy
        self.words = line.split()


class Answer:
    """What was printed: that the policy holds, all that crosses, or the least lines. Each has to be one of this policy."""

    def __init__(self, text, name, policy, input_name):
        self.policy, self.name, self.input_name = policy, name, input_name
        self.marks, self.unused, self.crossings, self.lines = {}, [], [], policy.lines
        lines = lines_of(text)
        if lines and REFUSAL.fullmatch(lines[0]):
            more = f" (tools/why {input_name} says why)" if lines[0].startswith("refused") else ""
            raise NoPicture(f"{name} has no answer, but a refusal: {lines[0]}{more}")
        first = lines[0].split(" ") if lines else []
        self.sort = "holds" if first[:1] == ["separated"] else \
            "least" if not lines or first[0] in RIGHTS and len(first) <= 3 else "crosses"
        read = {"holds": self.read_domains, "least": self.read_least, "crosses": self.read_crossings}[self.sort]
        read(lines)
        if text and not text.endswith("\n"):
            raise self.cut("its last line has no line feed")
        self.ways = Ways(self.lines, len(policy.names))
        self.is_sure = bool(lines)  # nothing is written where no line is needed, and where the program failed

    # -- what is said where it is none

    def form(self, name, number, line):
        found = FORMS[name].fullmatch(line)
        if not found:
            raise self.none(number, f"is `{line[:100]}`")
        return found

    def none(self, number, why):
        return NoPicture(f"{self.name} is no answer of `separation`: line {number} {why}")

    def cut(self, why):
        return NoPicture(f"{self.name} is cut: {why}")

    def foreign(self, number, why):
        return NoPicture(f"{self.name} is no answer to {self.input_name}: line {number} {why}")

    def domain(self, name, number):
        if name not in self.policy.names:
            raise self.foreign(number, f"has the domain {name}, which the policy lacks")
        return self.policy.names.index(name)

    def line_of(self, text, number):
        """A line of a policy, by the numbers of its domains."""
        word, *names = text.split(" ")
        return (word, *(self.domain(name, number) for name in names))

    # -- a policy that holds

    def read_domains(self, lines):
        names = self.policy.names
        count = int(self.form("head", 1, lines[0])[1])
        if count != len(names):
            raise self.foreign(1, f"has {count} domains, and the policy {len(names)}")
        told, unused = lines[1:count + 1], lines[count + 1:]
        ways = Ways(self.lines, count)
        for number, line in enumerate(told, 2):
            found = self.form("domain", number, line)
            self.read_domain(number, self.domain(found[1], number), found, ways)
        if len(told) < count:
            raise self.cut(f"it has {len(told)} of {count} domains")
        for number, line in enumerate(unused, count + 2):
            one = self.line_of(self.form("unused", number, line)[1], number)
            if one not in self.lines:
                raise self.foreign(number, f"has the line `{line_text(one, names)}`, which the policy lacks")
            self.unused.append(one)

    def read_domain(self, number, domain, found, ways):
        """The line of a domain: what it says of the policy has to be so."""
        names, objects = self.policy.names, self.policy.objects(domain)
        if domain != number - 2:
            raise self.foreign(number, f"is of {names[domain]}, and the policy made {names[number - 2]} there")

        def others(among):
            return ",".join(names[other] for other in sorted(among - {domain})) or "-"
        wanted = {"objects": sum(map(len, objects.values())), "processes": len(objects["process"]),
                  "reads": others(ways.reads[domain]), "writes": others(ways.writes[domain]),
                  "view": others(ways.views[domain])}
        said = [word.partition("=") for word in found[2].split(" ")]
        if [word for word, *_ in said] != list(wanted):
            raise self.none(number, f"is `{found[0][:100]}`")
        for word, _, value in said:
            if value != str(wanted[word]):
                raise self.foreign(number, f"has {word}={value} of {names[domain]}, and the policy gives "
                                           f"{word}={wanted[word]}")
        self.marks[domain] = [word for word, is_said in zip(("halts", "logs"), found.groups()[2:]) if is_said]
        for word in self.marks[domain]:
            if (word, domain) not in self.lines:
                raise self.foreign(number, f"has {word} of {names[domain]}, and the policy has no line "
                                           f"`{word} {names[domain]}`")

    # -- the least lines

    def read_least(self, lines):
        found = [self.line_of(self.form("line", number, line)[1], number) for number, line in enumerate(lines, 1)]
        if found != in_order(found):
            raise NoPicture(f"{self.name} is no answer of `separation`: its lines aren't in the order in which it prints "
                            "them")
        self.lines = found

    # -- crossings

    def read_crossings(self, lines):
        for number, line in enumerate(lines[:-1], 1):
            self.crossings.append(self.crossing(number, line))
        last = FORMS["count"].fullmatch(lines[-1])
        if not last:
            self.crossing(len(lines), lines[-1])
            raise self.cut("it has no line that counts its crossings")
        if not self.crossings:
            raise self.none(1, f"is `{lines[-1][:100]}`")
        if int(last[1]) != len(self.crossings):
            raise self.cut(f"it counts {last[1]} crossings, and has {len(self.crossings)}")

    def crossing(self, number, line):
        """One that crosses: its objects have to be of these domains, and the policy must not allow it."""
        sort = line.split(" ")[0] if line.split(" ")[0] in ("crossing", "sleeper") else "alone"
        found = self.form(sort, number, line)
        if sort == "sleeper":
            one = self.owned("process", int(found[1]), found[2], number)
            return Crossing(line, sort, one, self.domain(found[3], number), "never")
        if sort == "alone":
            return self.alone(number, line, *found.groups())
        kind, object_number, place, capability, *names, remedy = found.groups()
        one = self.place(kind, int(object_number), int(place), names[0], number)
        named = named_by(capability)
        if named is None:
            raise self.none(number, f"has {capability}, which names no object")
        other = self.owned(*named, names[1], number)
        if remedy != remedy_of(capability):
            raise self.none(number, f"ends with {remedy}, and for {capability} that is {remedy_of(capability)}")
        if one == other or self.policy.judge.may_hold(names[0], capability):
            raise self.foreign(number, f"is no crossing: the policy lets {names[0]} hold {capability}")
        return Crossing(line, sort, one, other, remedy)

    def alone(self, number, line, word, kind, object_number, place, name, never):
        """A Range, SysCtl or KernLog, which names no object."""
        if bool(never) != (word == "range"):
            raise self.none(number, f"is `{line[:100]}`")
        one = self.place(kind, int(object_number), int(place), name, number)
        if (word, one) in self.lines:
            raise self.foreign(number, f"is no crossing: the policy has the line `{word} {name}`")
        return Crossing(line, word, one, None, "never" if never else word)

    def place(self, kind, object_number, place, name, number):
        """The domain of an object that has such a place."""
        if kind not in PLACES or place >= PLACES[kind]:
            raise self.none(number, f"has place {place} of {kind} {object_number}, and no such object has it")
        return self.owned(kind, object_number, name, number)

    def owned(self, kind, object_number, name, number):
        """The domain of this name, of which an object is."""
        domain = self.domain(name, number)
        size = self.policy.sizes[kind]
        if object_number >= size:
            raise self.foreign(number, f"has {kind} {object_number}, and the machine has {size}")
        owner = self.policy.owner(kind, object_number)
        if owner != domain:
            raise self.foreign(number, f"has {kind} {object_number} in {name}, and the policy in "
                                       f"{self.policy.names[owner]}")
        return domain


def remedy_of(capability):
    """The line that would allow a capability which may not stand where it does."""
    kind, letters = capability.split(":")[0], capability.partition("+")[2]
    if kind in HARMLESS and set(HARMLESS[kind]) <= set(letters):
        return "reads"
    return "writes" if kind == "page" else "never"
