"""A state as the program printed it: who is where, registers, capabilities, and memory as a process sees it."""
import re
from collections import namedtuple

from debugger.walk import walk

Printed = namedtuple("Printed", "pc space schedule handler state")
NOTHING = Printed(0, "null", "null", "null", ["empty"])


class State:
    """The lines from `state` to `end`."""

    def __init__(self, data):
        self.data = data
        self.harts, self.ready, self.sleepers, self.halted = [], {}, {}, False
        self.processes, self.registers, self.held = {}, {}, {}
        self.headers, self.slots, self.cappages, self.endpoints = {}, {}, {}, {}
        self.pages = {}
        for line in self.lines():
            words = line.split()
            take = getattr(self, f"take_{words[0]}", None)
            if take:
                take(words[1:])

    def lines(self):
        """All lines but those of pages, which stand one behind the other."""
        first, last = self.data.find(b"\npage "), self.data.rfind(b"\npage ")
        rest = self.data if first < 0 else self.data[:first] + self.data[self.data.index(b"\n", last + 1):]
        return rest.decode().splitlines()

    # -- lines

    def take_hart(self, words):
        self.harts.append(None if words[1] == "idle" else int(words[1]))

    def take_ready(self, words):
        self.ready[int(words[0])] = [int(word) for word in words[1:]]

    def take_sleepers(self, words):
        self.sleepers[int(words[0])] = [int(word) for word in words[1:]]

    def take_halted(self, _words):
        self.halted = True

    def take_process(self, words):
        self.processes[int(words[0])] = Printed(int(words[1], 16), *words[2:5], words[5:])

    def take_reg(self, words):
        self.registers.setdefault(int(words[0]), {})[int(words[1])] = int(words[2], 16)

    def take_capreg(self, words):
        self.held.setdefault(int(words[0]), {})[int(words[1])] = words[2]

    def take_gpt(self, words):
        self.headers[int(words[0])] = int(words[1]), words[2:]

    def take_slot(self, words):
        self.slots[int(words[0]), int(words[1])] = words[2]

    def take_cap(self, words):
        self.cappages.setdefault(int(words[0]), {})[int(words[1])] = words[2]

    def take_endpoint(self, words):
        self.endpoints[int(words[0])] = words[1:]

    # -- objects

    def process(self, number):
        return self.processes.get(number, NOTHING)

    def header(self, gpt):
        """Bits of a slot's part of an address, and flags."""
        return self.headers.get(gpt, (12, []))

    def slot(self, gpt, slot):
        return self.slots.get((gpt, slot), "null")

    def page(self, number):
        """The bytes of a page."""
        if number not in self.pages:
            content = bytearray(4096)
            for offset, row in re.findall(rb"^page %d ([0-9a-f]{3}) ([0-9a-f]+)$" % number, self.data, re.M):
                at, row = int(offset, 16), bytes.fromhex(row.decode())
                content[at:at + len(row)] = row
            self.pages[number] = bytes(content)
        return self.pages[number]

    # -- a process

    def hart_of(self, process):
        return self.harts.index(process) if process in self.harts else None

    def queue_of(self, process):
        return next((priority for priority, those in self.ready.items() if process in those), None)

    def sleeps_on(self, process):
        return next((other for other, those in self.sleepers.items() if process in those), None)

    def register_values(self, process):
        """x0 to x31, and the pc."""
        values = self.registers.get(process, {})
        return [values.get(i, 0) for i in range(32)] + [self.process(process).pc]

    def piece(self, process, address, count, kind="load"):
        """The page, offset and number of bytes of a piece of memory that begins here; no page where there is none."""
        end = walk(self, process, kind, address)
        count = min(count, 4096 - address % 4096)
        return (end.number, end.offset, count) if end.name == "reach" else (None, 0, count)

    def pieces(self, process, address, count):
        """Those of all these bytes, page by page."""
        found = []
        while count > 0 and address < 1 << 32:
            piece = self.piece(process, address, count)
            found.append(piece)
            address, count = address + piece[2], count - piece[2]
        return found

    def memory(self, process, address, count):
        """Bytes as a process reads them, up to the first that it can't."""
        data = b""
        for page, offset, size in self.pieces(process, address, count):
            if page is None:
                break
            data += self.page(page)[offset:offset + size]
        return data
