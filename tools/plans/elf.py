"""The loadable segments of an ELF file for RV32I."""
import itertools
import re
import struct

from plans.words import PAGE, TOP, Wrong, need, span

LOAD, DYNAMIC, INTERPRETER, ATTRIBUTES = 1, 2, 3, 0x70000003


class Segment:
    """Bytes at an address, zeros behind them up to a size, and whether they may be written and executed."""

    def __init__(self, name, address, content, size, writable, executable):
        self.name, self.address, self.content, self.size = name, address, content, size
        self.writable, self.executable = writable, executable

    def end(self):
        return self.address + self.size

    def first_page(self):
        return self.address // PAGE

    def last_page(self):
        return (self.end() - 1) // PAGE

    def page(self, number):
        """The bytes of a page of this segment, as they stand in that page."""
        start = number * PAGE - self.address
        return bytes(max(0, -start)) + self.content[max(0, start):max(0, start + PAGE)]

    def named(self):
        return f"{self.name} ({span(self.address, self.end() - 1)})"


def read_program(path):
    """The entry and the segments of an ELF file, by their addresses."""
    try:
        entry, segments = read_elf(path, path.read_bytes())
    except OSError as error:
        raise Wrong(f"{path}: {error.strerror}")
    except (struct.error, ValueError, IndexError):
        raise Wrong(f"{path} is a damaged ELF file")
    need(segments, f"{path} has no segment to load")
    no_overlap(path, segments)
    need(entry % 4 == 0 and any(s.executable and s.address <= entry < s.end() for s in segments),
         f"{path} begins at {entry:08x}, where it has no code")
    return entry, segments


def read_elf(path, data):
    """The same from the file's bytes, as far as they go."""
    need(data[:4] == b"\x7fELF" and len(data) >= 52, f"{path} is no ELF file")
    need(data[4] == 1 and data[5] == 1, f"{path} is no 32-bit little-endian ELF file")
    kind, machine, _, entry, table, _, flags, _, size, count = struct.unpack_from("<HHIIIIIHHH", data, 16)
    need(machine == 243, f"{path} is not for RISC-V")
    need(kind == 2, f"{path} is not linked (no executable file)" if kind == 1 else
         f"{path} has no place of its own: link it with -static and -no-pie")
    need(flags & 1 == 0, f"{path} has compressed instructions: compile it with -march=rv32i")
    need(flags & 6 == 0, f"{path} passes numbers in floating-point registers: compile it with -mabi=ilp32")
    found = []
    for i in range(count):
        form, offset, address, load, held, whole, rights, _ = struct.unpack_from("<IIIIIIII", data, table + i * size)
        need(form not in (DYNAMIC, INTERPRETER), f"{path} needs a dynamic linker: link it with -static")
        if form == ATTRIBUTES:
            look_at_attributes(path, data[offset:offset + held])
        if form == LOAD and whole:
            need(offset + held <= len(data) and held <= whole and max(address, load) + whole <= TOP,
                 f"{path} is a damaged ELF file")
            content, name = data[offset:offset + held], f"segment {len(found) + 1}"
            found.append([Segment(name, address, content, whole, bool(rights & 2), bool(rights & 1))])
            if load != address and held:
                found[-1].append(Segment(f"image of {name}", load, content, held, False, False))
    return entry, sorted((s for some in found for s in some), key=lambda segment: segment.address)


def look_at_attributes(path, data):
    """Refuses instructions beyond RV32I, where the file says which it has."""
    found = re.search(rb"rv32[a-z0-9_]+", data)
    if found:
        parts = [re.sub("[0-9]+p[0-9]+$", "", part) for part in found.group().decode().split("_")]
        need(parts[0] == "rv32i" and set(parts[1:]) <= {"zicsr", "zifencei"},
             f"{path} is for {'_'.join(parts)}: compile it with -march=rv32i")


def no_overlap(path, segments):
    """Refuses segments that overlap, or that share a page which only one of them may write."""
    for one, two in zip(segments, segments[1:]):
        need(one.end() <= two.address, f"{path}: {one.named()} overlaps {two.named()}")
        need(one.writable == two.writable or one.last_page() < two.first_page(),
             f"{path}: {one.named()} and {two.named()} share the page at {two.first_page() * PAGE:08x}, and one of "
             "them alone is to be written: link them to pages of their own")


def count_of(segments):
    """How many pages segments take that stand in order."""
    count = behind = 0
    for one in segments:
        count += one.last_page() + 1 - max(behind, one.first_page())
        behind = one.last_page() + 1
    return count


def pages_of(segments):
    """The pages of segments in order: number, bytes, whether it may be written and executed, names of segments."""
    found = {}
    for segment in segments:
        for number in range(segment.first_page(), segment.last_page() + 1):
            content, writable, executable, names = found.get(number, (b"", False, False, ()))
            both = itertools.zip_longest(content, segment.page(number), fillvalue=0)
            found[number] = (bytes(one | two for one, two in both) if content else segment.page(number),
                             writable or segment.writable, executable or segment.executable, (*names, segment.name))
    return [(number, *found[number]) for number in sorted(found)]


def more_data(segments, wanted, path, base):
    """Zero pages behind what is written, so that there are as many as wanted, or none."""
    written = {n for s in segments if s.writable for n in range(s.first_page(), s.last_page() + 1)}
    need(len(written) <= wanted, f"{path} has {len(written)} pages of data, and the plan gives {wanted}")
    first = max(written) + 1 if written else base // PAGE
    size = (wanted - len(written)) * PAGE
    return [Segment("more data", first * PAGE, b"", size, True, False)] if size else []
