"""How often each instruction of a trace ran, by function and by line of the sources."""
import collections
import pathlib
import re
import struct

INSN = re.compile(rb"insn (\d+ \w{8}) ")
EXECUTED = 4  # of a section's flags


def code_addresses(data):
    """The addresses of the instructions in an ELF file, by its sections."""
    table, = struct.unpack_from("<I", data, 32)
    size, number = struct.unpack_from("<HH", data, 46)
    for i in range(number):
        _, _, flags, address, _, length, *_ = struct.unpack_from("<10I", data, table + i * size)
        if flags & EXECUTED:
            yield from range(address, address + length, 4)


class Counts:
    """Instructions by process and address: there are as many of them as a program has, however long it runs."""

    def __init__(self, programs):
        self.programs, self.found = programs, collections.Counter()

    def add(self, data):
        self.found.update(INSN.findall(data))

    def places(self):
        """Process, address and count of each instruction that ran."""
        for place, count in self.found.items():
            process, address = place.split()
            yield int(process), int(address, 16), count

    def profile(self):
        """The functions, those that ran most first."""
        sums = collections.Counter()
        for process, address, count in self.places():
            sums[process, self.programs.function(process, address)[0] or "(no name)"] += count
        total = sum(sums.values())
        width = max([len(self.programs.process(process)) for process, _ in sums] + [7])
        yield f"{'instructions':>14}  {'share':>6}  {'program'.ljust(width)}  function"
        for (process, function), count in sorted(sums.items(), key=lambda each: (-each[1], each[0])):
            yield f"{count:>14,}  {count / total:>6.1%}  {self.programs.process(process).ljust(width)}  {function}"
        yield f"{total:>14,}  in all"

    def coverage(self):
        """The sources, each line with how often it ran."""
        lines = self.counted_lines()
        if not lines:
            yield "There is no line to tell of: name the ELF files by --symbols; they need -g."
        for file in sorted(lines, key=lambda name: (name.endswith(".h"), name)):
            yield from source(file, lines[file])

    def counted_lines(self):
        """Of each file that can be read, its lines with code, and how often their instructions ran."""
        counts, found = {}, {}
        for process, address, count in self.places():
            counts.setdefault(process, {})[address] = count
        for process, path in self.programs.files.items():
            addresses = list(code_addresses(path.read_bytes()))
            self.programs.look_up(process, addresses)
            for address in addresses:
                count = counts.get(process, {}).get(address, 0)
                for _, place in self.programs.known[process, address]:
                    file, _, line = place.rpartition(":")
                    numbers = found.setdefault(file, {})
                    numbers[int(line)] = max(numbers.get(int(line), 0), count)
        return {file: numbers for file, numbers in found.items() if pathlib.Path(file).is_file()}


def source(file, counts):
    """A source with counts in front of its lines, as gcov has them."""
    ran = sum(1 for count in counts.values() if count)
    yield f"== {file}: {ran} of {len(counts)} lines with code ran"
    for number, line in enumerate(pathlib.Path(file).read_text(errors="replace").splitlines(), 1):
        count = counts.get(number)
        front = "-" if count is None else f"{count:,}" if count else "#####"
        yield f"{front:>12}:{number:>5}: {line}"
