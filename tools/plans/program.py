"""A program of a plan: its process, its pages, and what is on its stack when it begins."""
import struct

from plans import elf
from plans.space import Space
from plans.words import AREA, PAGE, TOP, is_file_name, need, number, page_address

DATA = AREA  # where data stand that a plan adds to a program without any
MOST_PAGES = TOP // PAGE
MACHINE_PAGES = 4096
MANNERS = {"libc": "linked both with the C library and without it", "debug": "compiled both with `debug` and without it"}
FORM = ("program NAME FILE [libc] [debug] priority P [data PAGES] [stack PAGES [at ADDRESS] | stack none] "
        "[heap PAGES [at ADDRESS]] [stop] [args WORD ..]")


class Program:
    """A process with its space. Parts of it are its segments, its stack and its heap."""

    kind = "program"

    def __init__(self, number_of_process, words):
        need(len(words) >= 4, FORM)
        self.number, self.name, self.file = number_of_process, words[0], words[1]
        need(is_file_name(self.file),
             f"a program's file is named by printable letters of ASCII, and lies below the directory: {self.file}")
        self.begin_bare()
        self.priority, self.data, self.args = None, None, None
        self.sizes, self.places, self.first = {"stack": 1, "heap": 0}, {}, {}
        rest = words[2:]
        while rest:
            rest = self.option(rest[0], rest[1:])
        need(self.priority is not None, FORM)

    def begin_bare(self):
        """What each process has, whatever it runs."""
        self.priority, self.state, self.handler = 3, "run", "null"
        self.pages, self.held, self.said = [], {}, set()
        self.space = Space(self.name)

    def option(self, word, rest):
        """Takes an option; the words behind it."""
        need(word not in self.said, f"{word} is said twice")
        self.said.add(word)
        if word in MANNERS:
            return rest
        if word == "stop":
            self.state = "stop"
            return rest
        if word == "args":
            self.args = rest
            return []
        need(word in ("priority", "data", "stack", "heap"), f"unknown: {word}")
        need(rest, f"a number is missing behind {word}")
        if word == "priority":
            self.priority = number(rest[0], "a priority", 7)
        elif word == "data":
            self.data = number(rest[0], "data pages", MOST_PAGES)
        else:
            return self.size_and_place(word, rest)
        return rest[1:]

    def size_and_place(self, word, rest):
        """The size of the stack or the heap, and where it begins if that is said; the words behind it."""
        if word == "stack" and rest[0] == "none":
            self.sizes[word] = 0
            return rest[1:]
        size = self.sizes[word] = number(rest[0], f"{word} pages", MOST_PAGES)
        need(size or word != "stack", "a stack has at least one page; a program that stores nothing there has `stack none`")
        need(size <= MACHINE_PAGES, f"{word} {size}: a machine has {MACHINE_PAGES:,} pages in all")
        if rest[1:2] != ["at"]:
            return rest[1:]
        need(len(rest) > 2, "an address is missing behind at")
        self.places[word] = page_address(rest[2])
        return rest[3:]

    # -- how its file is made

    def manner(self):
        """The words for that."""
        return [word for word in MANNERS if word in self.said]

    def agree(self, other, line):
        """Refuses a file that another line has made in another way."""
        for word, sentence in MANNERS.items():
            need((word in self.said) == (word in other.said),
                 f"{self.file} is to be {sentence}: line {line} says the other")

    # -- pages

    def load(self, plan):
        """Puts the segments into the space, and numbers all pages of the program."""
        path = plan.directory / self.file
        self.entry, segments = elf.read_program(path)
        if self.data is not None:
            segments = sorted(segments + elf.more_data(segments, self.data, path, DATA), key=lambda one: one.address)
            elf.no_overlap(path, segments)
        self.behind = segments[-1].end()
        for one in segments:
            rights = "r" + ("w" if one.writable else "-") + ("x" if one.executable else "-")
            size = (one.last_page() - one.first_page() + 1) * PAGE
            self.space.claim(one.first_page() * PAGE, size, rights, one.name, ("segment", "image", "more"))
        count = elf.count_of(segments)
        if count > plan.room():
            plan.count_pages(count)  # they are told, and not made
            segments = []
        for at, content, writable, executable, names in elf.pages_of(segments):
            page = self.own_pages(plan, 1, [content], " and ".join(names))
            self.space.put(at, f"page:{page}", ("" if writable else "r") + ("" if executable else "x"))
        for part, size in self.sizes.items():
            self.first[part] = self.own_pages(plan, size, (b"" for _ in range(size)), part)

    def own_pages(self, plan, count, contents, part):
        """Numbers pages of a part of the program; the first number."""
        first = plan.new_pages(count, contents, f"{part} of {self.name}")
        self.pages.extend(range(first, first + count))
        return first

    # -- the stack and the heap

    def place(self, part):
        """Puts the stack or the heap where it belongs."""
        if self.sizes[part]:
            self.space.claim(self.places[part], self.sizes[part] * PAGE, "rw-", part)
        for i in range(self.sizes[part]):
            self.space.put(self.places[part] // PAGE + i, f"page:{self.first[part] + i}", "x")

    def place_said(self):
        for part in self.places:
            self.place(part)

    def place_chosen(self):
        """Chooses places for what has none: first for the stack, then for the heap."""
        for part, choose in (("stack", self.space.stack_place), ("heap", self.space.heap_place)):
            if part not in self.places and (part == "stack" or self.sizes[part]):
                self.places[part] = choose(self.sizes[part] * PAGE, self.behind)
                self.place(part)

    def end_of(self, part):
        """The address behind it; behind the last one is 0."""
        return (self.places[part] + self.sizes[part] * PAGE) % TOP

    # -- the beginning

    def begin(self, plan):
        """Writes the words for `main` at the end of the stack, and says what the registers are."""
        end = self.end_of("stack")
        self.registers = {2: end}
        if "libc" in self.said or self.args is not None:
            texts = [word.encode() + b"\0" for word in (self.name, *(self.args or []))]
            array = 4 * (len(texts) + 1)
            taken = array + sum(map(len, texts)) + 15 & ~15
            need(self.sizes["stack"], f"the words for {self.name} stand on its stack, and it has none")
            need(taken <= self.sizes["stack"] * PAGE,
                 f"the words for {self.name} take {taken} bytes, and its stack has {self.sizes['stack'] * PAGE}")
            start = (end - taken) % TOP
            places = [start + array + sum(map(len, texts[:i])) for i in range(len(texts))]
            block = struct.pack(f"<{len(places) + 1}I", *places, 0) + b"".join(texts)
            plan.write(self.first["stack"], self.sizes["stack"] * PAGE - taken, block)
            self.registers = {2: start, 10: len(texts), 11: start}
        if self.sizes["heap"]:
            self.registers.update({12: self.places["heap"], 13: self.end_of("heap")})
