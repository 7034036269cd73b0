"""Whether a run can be one of a listing: its sizes, where its first step is, and the bytes that nobody can change."""
import re

from runs.assembler import word_of

ROW, PAGE = 16, 4096
SIZES = ("harts", "page", "cappage", "gpt", "process", "endpoint")
FETCH = re.compile(rb"fetch (\d+) (\w{8}) page (\d+)\ninsn \1 \2 ([^\n]*)")
OWNERS = re.compile(rb"^(?!destroy)\w+ (\d+)(?: (?=\d+ endpoint)(\d+))?", re.M)
TOO_LONG = "it has a step behind the last event of the schedule"
FAR_REACHING = ("range", "window", "local")


class Machine:
    """What a listing says of a machine."""

    def __init__(self, text):
        self.sizes, self.bytes, self.processes, self.slots, self.held, self.stored = {}, {}, {}, {}, {}, {}
        self.is_plain = True  # no object is named by a name
        for line in text.splitlines():
            words = line.split()
            if words == ["end"]:
                break
            take = getattr(self, f"take_{words[0]}", None) if words else None
            self.is_plain = self.is_plain and not (take and "$" in line)
            if take and self.is_plain:
                take(words[1:])

    def take_machine(self, words):
        self.sizes = dict(zip(SIZES, map(int, words)))

    def take_page(self, words):
        at = int(words[1], 16)
        data = bytes.fromhex(words[2])
        self.content(int(words[0]))[at:at + len(data)] = data

    def take_code(self, words):
        at = int(words[1], 16)
        self.content(int(words[0]))[at:at + 4] = word_of(" ".join(words[2:])).to_bytes(4, "little")

    def content(self, page):
        return self.bytes.setdefault(page, bytearray(PAGE))

    def take_process(self, words):
        self.processes[int(words[0])] = int(words[1], 16), words[2], words[4], words[5]

    def take_slot(self, words):
        self.slots.setdefault(int(words[0]), []).append(words[2])

    def take_region(self, words):
        letters = f"+{words[4]}" if words[4:] else ""
        for page in range(int(words[3]), int(words[3]) + int(words[2])):
            self.slots.setdefault(int(words[0]), []).append(f"page:{page}@12/0{letters}")

    def take_capreg(self, words):
        self.held.setdefault(int(words[0]), []).append(words[2])

    def take_cap(self, words):
        self.stored.setdefault(int(words[0]), []).append(words[2])

    # -- who can change a page

    def fixed(self):
        """The pages that nobody can change in any run: each capability by which one may store is followed from all that
        processes have, and from what they may get out of GPTs and processes that they hold."""
        every = [word for words in (*self.slots.values(), *self.held.values(), *self.stored.values()) for word in words]
        if not self.is_plain or any(word.startswith(FAR_REACHING) for word in every):
            return set()
        self.changed, self.seen = set(), set()
        for process, (_, space, handler, _) in self.processes.items():
            self.follow(space, False, "r" in letters_of(space))
            if handler != "null":
                self.take_over(process)  # who hears of its faults gets it as a capability
        for word in every:
            if word.startswith("process:"):
                self.take_over(int(word.split(":")[1]))
        for words in (*self.held.values(), *self.stored.values()):
            for word in words:
                self.follow(word, True, False)
        return set(range(self.sizes["page"])) - self.changed

    def take_over(self, process):
        self.follow(self.processes.get(process, (0, "null"))[1], True, False)

    def follow(self, word, is_held, is_limited):
        """A capability that is held itself, or one of a space, with whether stores through it are refused; and all that it
        leads to."""
        left = [(word, is_limited)]
        while left:
            word, is_limited = left.pop()
            kind, _, rest = word.partition(":")
            letters = letters_of(word)
            is_limited = is_limited or "r" in letters and not (is_held and kind == "gpt") or is_held and "w" in letters
            if kind == "page" and not is_limited:
                self.changed.add(int(rest.split("@")[0]))
            if kind == "gpt" and (word, is_held, is_limited) not in self.seen:
                self.seen.add((word, is_held, is_limited))
                left += [(inner, is_limited) for inner in self.slots.get(int(rest.split("@")[0]), [])]


def letters_of(word):
    return word.partition("+")[2]


class Belonging:
    """What a run has to have to be one of a listing."""

    def __init__(self, listing):
        self.machine = Machine(listing)
        self.fixed = self.machine.fixed()

    def of_records(self, data):
        """Why the first records of a run can't be those of this listing, in a sentence; None where they can."""
        count = self.machine.sizes.get("process", 0)
        for found in OWNERS.finditer(data):
            for process in filter(None, found.groups()):
                if int(process) >= count:
                    return f"it has a record of process {process.decode()}, and the listing has {count} processes"
        first = FETCH.match(data)
        if first and self.machine.is_plain:
            pc, _, _, state = self.machine.processes.get(int(first[1]), (0, "", "", "stop"))
            if state != "run":
                return f"its first step is of process {first[1].decode()}, which the listing doesn't let run"
            if int(first[2], 16) != pc:
                return f"its first step is at {first[2].decode()}, and process {first[1].decode()} begins at {pc:08x}"
        return self.of_words(data)

    def of_words(self, data):
        """The same of the instructions in pages that nobody can change."""
        for process, pc, page, insn in {found.groups() for found in FETCH.finditer(data)} if self.fixed else ():
            offset = int(pc, 16) % PAGE
            if int(page) not in self.fixed:
                continue
            there = bytes(self.machine.bytes.get(int(page), bytes(PAGE))[offset:offset + 4])
            if insn != b"fence" and word_of(insn.decode()).to_bytes(4, "little") != there:
                return f"process {process.decode()} performs `{insn.decode()}` at {pc.decode()}, and the listing has " \
                    f"another word there, {there[::-1].hex()}"
        return None

    def of_state(self, lines):
        """Why the last state can't be one of this listing; None where it can."""
        rows = {}
        for line in lines:
            words = line.split()
            if words[0] == "page":
                rows[int(words[1]), int(words[2], 16)] = words[3]
            if words[0] in SIZES[1:] and int(words[1]) >= self.machine.sizes.get(words[0], 0):
                return f"its last state has {words[0]} {words[1]}, and the listing has {self.machine.sizes.get(words[0], 0)}"
        harts = sum(1 for line in lines if line.startswith("hart "))
        if harts != self.machine.sizes.get("harts"):
            return f"it has {harts} harts, and the listing has {self.machine.sizes.get('harts')}"
        return self.of_rows(rows)

    def of_rows(self, rows):
        """The same of the bytes of pages that nobody can change."""
        for page in sorted(self.fixed & {page for page, _ in rows} | self.fixed & set(self.machine.bytes)):
            content = self.machine.bytes.get(page, bytes(PAGE))
            for offset in range(0, PAGE, ROW):
                there = content[offset:offset + ROW].hex()
                if rows.get((page, offset), "0" * 2 * ROW) != there:
                    return f"page {page} has other bytes at {offset:03x} in its last state, and nobody can change it"
        return None
