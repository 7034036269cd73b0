"""What the lines of a plan say."""
import re

from plans.program import MACHINE_PAGES, MOST_PAGES, Program
from plans.device import input_line, sender_line
from plans.names import Files
from plans.question import ASKING, asked
from plans.words import (AREA, PAGE, TOP, Wrong, is_domain_name, is_name, letters, need, number, page_address,
                         pages_for, restricted)

LIMITS = {"pages": MACHINE_PAGES, "capability pages": 256, "GPTs": 1024, "processes": 256, "endpoints": 1024}


class Endpoint:
    kind = "endpoint"

    def __init__(self, name, number, recipient, ident, flag):
        self.name, self.number, self.recipient, self.ident, self.flag = name, number, recipient, ident, flag


class Memory:
    """Pages by themselves, or a capability page. Behind a group's name stands which of it, as in `table.3`. Pages may hold
    something of a type."""

    def __init__(self, name, kind, first, count, group, held=""):
        self.name, self.kind, self.first, self.count, self.group, self.type = name, kind, first, count, group, held

    def capabilities(self):
        return [f"{self.kind}:{self.first + i}" for i in range(self.count)]


class Domain:
    def __init__(self, name):
        self.name, self.members = name, []


class Plan:
    """A plan as it is read. Its lines are gone through at once, and what rests on other lines waits for its turn:
    places that are said, places that are chosen, and then all that names something. Without a directory the programs'
    files aren't looked at, nor is what rests on them."""

    TURNS = ("said places", "chosen places", "names")

    def __init__(self, folder, directory):
        self.folder, self.directory = folder, directory
        self.at, self.harts, self.gpts, self.cappages = 0, None, 0, 0
        self.things, self.lines, self.domains, self.allowed = {}, {}, {}, []
        self.question, self.program_files, self.devices, self.setup = [], Files(self), [], []
        self.pages, self.named_pages, self.schedule, self.mapped = [], [], [], []
        self.placed, self.payloads, self.writable = [], [], set()
        self.page_count, self.said, self.passed = 0, {}, {}
        self.waiting = {turn: [] for turn in self.TURNS}

    # -- things and their names

    def add(self, thing):
        """Gives a thing its name, which nothing else has."""
        need(is_name(thing.name), f"a name is a letter and letters, digits, _ or -: {thing.name}")
        other = self.things.get(thing.name)
        need(other is None, f"line {self.lines.get(thing.name)} has {other and other.kind} {thing.name}")
        self.things[thing.name], self.lines[thing.name] = thing, self.at

    def once(self, what):
        """Refuses what a line before this one says already."""
        need(what not in self.said, f"line {self.said.get(what)} says {what}")
        self.said[what] = self.at

    def all(self, kind):
        return [thing for thing in self.things.values() if thing.kind == kind]

    def thing(self, name, kind):
        found = self.things.get(name)
        need(found and found.kind == kind, f"no {kind} was named {name}")
        return found

    def program(self, name):
        return self.thing(name, "program")

    def memory(self, word, kinds=("page", "cappage"), alone=False):
        """What a word names: pages by themselves, one of a group, or a capability page."""
        name, dot, index = word.partition(".")
        found = self.things.get(name)
        need(found and found.kind in kinds, f"no {kinds[0]} was named {name}")
        if dot:
            need(found.group, f"{name} is a page and no group of pages")
            which = number(index, f"which page of {name}", found.count - 1)
            return Memory(word, found.kind, found.first + which, 1, False)
        need(not (alone and found.group), f"{name} has {found.count} pages: say which, from {name}.0 on")
        return found

    def entry(self, words, *sender):
        """An entry, and who sends by it."""
        need(len(words) == 2, "an entry is an endpoint and a payload")
        found, payload = self.thing(words[0], "endpoint"), number(words[1], "a payload", TOP - 1, 16)
        self.payloads.append((found.name, sender, payload))
        return f"entry:{found.number}:{payload:08x}"

    def wait(self, turn, function):
        self.waiting[turn].append((self.at, function))

    def new_gpt(self):
        self.gpts += 1
        return self.gpts - 1

    def room(self):
        """How many pages a machine has beside those that were counted so far."""
        return LIMITS["pages"] - self.page_count

    def new_pages(self, count, contents, about):
        """Numbers pages with these contents and this name; the first number. Beyond what a machine has they are counted
        and no more."""
        first = self.page_count
        if count <= self.room():
            self.pages.extend(contents)
            self.named_pages.extend([about] * count)
        self.count_pages(count)
        return first

    def count_pages(self, count):
        """Counts pages, and puts down the line with which they became more than a machine has."""
        self.page_count += count
        self.pass_limit("pages", self.page_count)

    def pass_limit(self, what, count):
        if count > LIMITS[what]:
            self.passed.setdefault(what, self.at)

    # -- programs

    def program_line(self, words):
        made = Program(len(self.all("program")), words)
        self.add(made)
        self.pass_limit("processes", made.number + 1)
        other = next(one for one in self.all("program") if one.file == made.file)
        made.agree(other, self.lines[other.name])
        if self.directory is None:
            return
        made.load(self)
        self.wait("said places", made.place_said)
        self.wait("chosen places", made.place_chosen)
        self.wait("chosen places", lambda: made.begin(self))

    def input_line(self, words):
        input_line(self, words)

    def sender_line(self, words):
        sender_line(self, words)

    def write(self, first, offset, block):
        """Writes bytes into pages, from an offset of the first of them on."""
        for i in range(offset // PAGE, pages_for(offset + len(block))):
            start = offset - i * PAGE
            self.pages[first + i] = (bytes(max(0, start)) + block[max(0, -start):])[:PAGE]

    # -- other things

    def endpoint_line(self, words):
        need(len(words) in (5, 6) and words[1] == "to" and words[3] == "id", "endpoint NAME to PROGRAM id ID [match]")
        need(words[5:] in ([], ["match"]), f"unknown: {' '.join(words[5:])}")
        made = Endpoint(words[0], len(self.all("endpoint")), None, number(words[4], "an id", TOP - 1, 16),
                        "match" if words[5:] else "plain")
        self.add(made)
        self.pass_limit("endpoints", made.number + 1)

        def recipient():
            made.recipient = self.program(words[2])
            other = next((one for one in self.all("endpoint") if one is not made and one.recipient is made.recipient
                          and one.ident == made.ident), None)
            need(not other, f"line {other and self.lines[other.name]} has an endpoint to {words[2]} with id {words[4]}: "
                 "the program couldn't tell at which of them a message came")
        self.wait("names", recipient)

    def held_type(self, words):
        """The words in front of `holds`, and the type behind it."""
        if "holds" not in words[1:]:
            return words, ""
        at = words.index("holds", 1)
        held = words[at + 1:]
        need(len(held) == 1 or len(held) == 2 and held[0] in ("struct", "union"),
             "behind holds stands a type of the programs: struct NAME, union NAME, or the name of a typedef")
        return words[:at], " ".join(held)

    def page_line(self, words):
        words, held = self.held_type(words)
        need(words and words[1:2] in ([], ["from"]) and len(words) != 2, "page NAME [from FILE [OFFSET]] [holds TYPE]")
        contents = self.contents(words[2:], 1)
        self.add(Memory(words[0], "page", self.new_pages(1, contents, words[0]), 1, False, held))

    def pages_line(self, words):
        words, held = self.held_type(words)
        need(len(words) >= 2 and words[2:3] in ([], ["from"]) and len(words) != 3, "pages NAME N [from FILE [OFFSET]] "
             "[holds TYPE]")
        count = number(words[1], "the number of pages", MOST_PAGES)
        need(count > 0, "there is at least one page")
        need(count <= MACHINE_PAGES, f"pages {words[0]} {count}: a machine has {MACHINE_PAGES:,} pages in all")
        contents = self.contents(words[3:], count)
        self.add(Memory(words[0], "page", self.new_pages(count, contents, words[0]), count, True, held))

    def contents(self, words, count):
        """What pages have from a file, which stands beside the plan."""
        if not words:
            return (b"" for _ in range(count))
        need(len(words) <= 2, f"too many words behind {words[0]}")
        offset = number(words[1], "an offset", TOP - 1, 16) if words[1:] else 0
        try:
            found = (self.folder / words[0]).read_bytes()
        except OSError as error:
            raise Wrong(f"{words[0]}: {error.strerror}")
        need(offset < len(found), f"{words[0]} has {len(found):x} bytes (hexadecimal), and none at {offset:x}")
        return (found[offset + i * PAGE:offset + (i + 1) * PAGE] for i in range(count))

    def cappage_line(self, words):
        need(len(words) == 1, "cappage NAME")
        self.add(Memory(words[0], "cappage", self.cappages, 1, False))
        self.cappages += 1
        self.pass_limit("capability pages", self.cappages)

    # -- places

    def area_line(self, words):
        need(len(words) in (2, 5) and words[2:3] in ([], ["handler"]),
             "area PROGRAM ADDRESS [handler ENDPOINT PAYLOAD]")
        address = page_address(words[1])
        need(address % AREA == 0, f"an area begins at a multiple of 10000: {words[1]}")

        def place():
            made = self.program(words[0])
            made.space.claim(address, AREA, "---", "area", ("page ", "cappage "))
            made.space.area(address).empty = True
            self.mapped.append((made, address // AREA))
            self.placed.append((made, "area", address))
            if words[2:]:
                made.space.area(address).handler = self.entry(words[3:], "area", words[0])
        self.wait("said places", place)
        self.wait("names", lambda: self.keep_handler(words, address))

    def keep_handler(self, words, address):
        slots = self.program(words[0]).space.area(address).slots
        need(not (words[2:] and 15 in slots),
             f"the area of {words[1]} keeps its last page for its handler, and there stands a page")

    def map_line(self, words):
        need(len(words) in (3, 4), "map PROGRAM ADDRESS PAGE [LETTERS]")
        address, limits = page_address(words[1]), letters(words[3:])

        def place():
            made, found = self.program(words[0]), self.memory(words[2])
            rights = "---" if found.kind == "cappage" else "r--" if "r" in limits else "rw-"
            made.space.claim(address, found.count * PAGE, rights, f"{found.kind} {words[2]}", ("area",))
            self.placed.append((made, words[2], address))
            if rights == "rw-":
                self.writable.add(words[2].split(".")[0])
            for i, capability in enumerate(found.capabilities()):
                made.space.put(address // PAGE + i, capability, "x", limits)
                self.mapped.append((made, (address + i * PAGE) // AREA))
        self.wait("said places", place)

    # -- who holds what

    def handler_line(self, words):
        need(len(words) == 3, "handler PROGRAM ENDPOINT PAYLOAD")
        self.once(f"handler {words[0]}")

        def name():
            self.program(words[0]).handler = self.entry(words[1:], "handler", words[0])
        self.wait("names", name)

    def hold_line(self, words):
        need(len(words) >= 3, "hold PROGRAM REGISTER WHAT")
        register = number(words[1], "a capability register", 31)
        need(register > 0, "capability register 0 is always null")

        def name():
            made = self.program(words[0])
            _, other = made.held.get(register, (None, ""))
            need(not other, f"{made.name} holds {other} in register {register}")
            made.held[register] = self.capability(words[2], words[3:], made.name), " ".join(words[2:])
        self.wait("names", name)

    def capability(self, kind, words, holder):
        """What the words of a `hold` line name, as a capability word."""
        if kind in ("range", "discrim", "kernlog", "sysctl"):
            need(not words, f"unknown behind {kind}: {' '.join(words)}")
            return kind
        need(words, f"{kind} of what?")
        if kind == "entry":
            return self.entry(words, holder)
        if kind in ("page", "cappage"):
            found = self.memory(words[0], (kind,), alone=True)
            return f"{found.capabilities()[0]}@12/0{restricted(letters(words[1:]))}"
        if kind == "area":
            return self.area_capability(words)
        if kind == "space":
            return self.program(words[0]).space.capability(letters(words[1:]))
        need(len(words) == 1, f"one word behind {kind}")
        if kind == "endpoint":
            return f"endpoint:{self.thing(words[0], 'endpoint').number}"
        if kind == "process":
            return f"process:{self.program(words[0]).number}"
        if kind == "schedule":
            return f"schedule:{number(words[0], 'a priority', 7)}"
        raise Wrong(f"no capability is called {kind}")

    def area_capability(self, words):
        need(len(words) >= 2, "area PROGRAM ADDRESS [LETTERS]")
        space, place = self.program(words[0]).space, page_address(words[1]) // AREA
        if self.directory is None:
            return f"gpt@16/0{restricted(letters(words[2:]))}"
        need(place in space.areas, f"{words[0]} has no area at {words[1]}")
        return f"gpt:{space.areas[place].gpt}@16/0{restricted(letters(words[2:]))}"

    # -- domains

    def domain_line(self, words):
        need(len(words) >= 2, "domain NAME PROGRAM ..")
        need(is_domain_name(words[0]),
             f"a domain is named by a small letter and up to 15 small letters, digits or _: {words[0]}")
        made = self.domains.setdefault(words[0], Domain(words[0]))
        need(len(self.domains.keys() | {"rest"}) <= 64, "there are at most 64 domains, rest among them")

        def name():
            for word in words[1:]:
                found = self.things.get(word)
                need(found, f"nothing was named {word}")
                other = next((one.name for one in self.domains.values() if found in one.members), None)
                need(other is None, f"{found.kind} {word} is of domain {other}")
                made.members.append(found)
        self.wait("names", name)

    def allow(self, line, words, form):
        """A line of the policy that stands in it as it does in the plan, behind the domains."""
        need(len(words) + 1 == len(form.split()), form)

        def name():
            for word in words:
                need(word in self.domains or word == "rest", f"no domain was named {word}")
            self.allowed.append(" ".join([line, *words]))
        self.wait("names", name)

    def reads_line(self, words):
        self.allow("reads", words, "reads A B")

    def writes_line(self, words):
        self.allow("writes", words, "writes A B")

    def halts_line(self, words):
        self.allow("halts", words, "halts A")

    def logs_line(self, words):
        self.allow("logs", words, "logs A")

    # -- what is asked of all its runs

    def ask(self, words):
        def name():
            if self.directory is None:
                return
            self.question.append(asked(self, words))
        self.wait("names", name)

    # -- the machine and its schedule

    def harts_line(self, words):
        need(len(words) == 1, "harts N")
        self.once("harts")
        self.harts = number(words[0], "the number of harts", TOP - 1)
        need(self.harts > 0, "there is at least one hart")
        need(self.harts <= 8, f"the plan asks for {self.harts:,} harts, a machine has 8")

    def setup_line(self, words):
        self.event_line(words, self.setup)

    def schedule_line(self, words):
        self.event_line(words, self.schedule)

    def event_line(self, words, lines):
        """A line of a schedule, which goes to these."""
        lengths = {"step": 3, "tick": 2, "round": 2}
        need(words and lengths.get(words[0]) == len(words), "a line of the schedule is step H N, tick H or round N")
        numbers = []
        if words[0] != "round":
            numbers.append(number(words[1], "a hart", TOP - 1))
        if words[0] != "tick":
            numbers.append(number(words[-1], f"the times of a {words[0]}", 1_000_000))
            need(numbers[-1] > 0, f"a {words[0]} is done at least once")

        def name():
            if words[0] != "round":
                need(numbers[0] < self.harts,
                     f"there is no hart {numbers[0]}: the machine has {self.harts}, from 0 on")
            lines.append(" ".join([words[0], *map(str, numbers)]))
        self.wait("names", name)

    # -- the whole

    def lines_of(self, data):
        """The words of each line of a plan that has some, from its bytes: they stand between spaces, and # begins a
        remark. Each line is the one that is looked at while its words are gone through."""
        for self.at, line in enumerate(data.removeprefix(b"\xef\xbb\xbf").split(b"\n"), 1):
            try:
                words = line.decode().split("#")[0].split()
            except UnicodeDecodeError:
                raise Wrong("the line is no text in UTF-8")
            if words:
                yield words

    def read(self, data):
        for words in self.lines_of(data):
            if words[0] in ASKING:
                self.ask(words)
                continue
            method = getattr(self, words[0] + "_line", None) if re.fullmatch("[a-z]+", words[0]) else None
            need(method, f"no line of a plan begins with {words[0]}")
            method(words[1:])
        self.harts = self.harts or 1
        self.at = 0
        self.within_limits({"pages": self.page_count})
        for turn in ("said places", "chosen places"):
            self.take(turn)
        self.number_gpts()
        self.take("names")
        for self.at, made in self.devices:
            need(self.harts > len(self.devices), f"{made.name} never rests, so it takes a hart of its own: beside {len(self.devices)} "
                 f"such the plan has no hart for others, of {self.harts}")
        self.at = 0
        need(self.all("program"), "the plan has no program")
        self.within_limits({"capability pages": self.cappages, "GPTs": self.gpts,
                            "processes": len(self.all("program")), "endpoints": len(self.all("endpoint"))})

    def take(self, turn):
        for self.at, function in self.waiting[turn]:
            function()

    def number_gpts(self):
        """Numbers the GPTs of spaces: first the areas of programs, then those of plan lines, then those above areas."""
        for made in self.all("program"):
            made.space.root = self.new_gpt()
            made.space.number_areas(made.space.own_places(), self.new_gpt)
        for made, place in self.mapped:
            made.space.number_areas([place], self.new_gpt)
        for made in self.all("program"):
            made.space.build(self.new_gpt)

    def within_limits(self, counts):
        for what, count in counts.items():
            self.at = self.passed.get(what, 0)
            need(count <= LIMITS[what], f"the system needs {count:,} {what}, a machine has {LIMITS[what]:,}")

    def files(self, data):
        """The ELF files of a plan, each once, with how it is made behind it: its other lines are passed over."""
        found = {}
        for words in self.lines_of(data):
            if words[0] == "program":
                made = Program(0, words[1:])
                made.agree(*found.setdefault(made.file, (made, self.at)))
        self.at = 0
        need(found, "the plan has no program")
        return [" ".join([file, *made.manner()]) for file, (made, _) in found.items()]
