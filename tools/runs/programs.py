"""What things are called: programs, objects, functions, and lines of sources."""
import bisect
import pathlib
import re
import shutil
import subprocess

from run_page.remarks import names_of
from run_page.symbols import read_symbols
from runs.records import count

# The first of these that is there: that of binutils 2.40 names the file of some inlined functions wrong.
READERS = ("llvm-addr2line", "llvm-addr2line-14", "riscv64-unknown-elf-addr2line")
DEMANGLERS = ("riscv64-unknown-elf-c++filt", "c++filt", "llvm-cxxfilt")
HEADER = "coyotos.h:"
MEMORY = re.compile(r"([0-9a-f]{8}) to ([0-9a-f]{8}) \S+ (.*)")
PAGE, NEAR_STACK = 4096, 65_536  # bytes; so far below a stack an address is meant to be one of it
KINDS = {"page": "page", "cappage": "capability page", "gpt": "GPT", "endpoint": "endpoint", "process": "process"}


class Programs:
    """The names of a listing, and with a directory of ELF files those of functions and lines."""

    def __init__(self, listing, directory=None):
        self.names = names_of(listing)
        self.files, self.symbols, self.starts, self.known, self.given, self.ways = {}, {}, {}, {}, {}, {}
        self.reader = first_there(READERS)
        self.entries = {int(number): int(pc, 16) for number, pc
                        in re.findall(r"^process +(\d+) +([0-9a-fA-F]+)", listing, re.M)}
        if directory:
            folder = pathlib.Path(directory)
            self.symbols = {process: demangled(found) for process, found
                            in read_symbols(folder, self.names["file"]).items()}
            self.files = {process: folder / self.names["file"][process] for process in self.symbols}
            self.starts = {process: [one[0] for one in found] for process, found in self.symbols.items()}

    # -- objects

    def name_of(self, kind, number):
        """The name that the listing gives to an object; there are not more of them than a machine has objects."""
        if (kind, number) not in self.given:
            self.given[kind, number] = next((name if first == last or " " in name else f"{name}.{number - first}"
                                             for first, last, name in self.names[kind] if first <= number <= last), "")
        return self.given[kind, number]

    def process(self, number):
        return self.name_of("process", number) or f"process {number}"

    def called(self, kind, number):
        name = self.name_of(kind, number)
        return f"{KINDS[kind]} {number}" + (f" ({name})" if name else "")

    def message_to(self, process, endpoint):
        """To whom a message goes, and by which endpoint; both as a record has them."""
        if (process, endpoint) not in self.ways:
            self.ways[process, endpoint] = f"message to {self.process(int(process))} by " \
                f"{self.called('endpoint', int(endpoint))}"
        return self.ways[process, endpoint]

    def numbers_of(self, word):
        """The processes that a name or a number means."""
        found = {n for first, last, name in self.names["process"] for n in range(first, last + 1)
                 if word in (name, self.process(n))}
        return found or ({int(word)} if word.isascii() and word.isdigit() else set())

    def there(self, process, address):
        """What the plan put at an address, or that it is a little below the program's stack."""
        below = ""
        for line in self.names["memory"].get(process, ()):
            found = MEMORY.match(line)
            first, last, what = (int(found[1], 16), int(found[2], 16), found[3]) if found else (0, -1, "")
            if first <= address <= last:
                return what
            if what == "stack" and 0 < first - address <= NEAR_STACK:
                below = self.below_stack(process, first, last, address)
        return below

    def below_stack(self, process, first, last, address):
        """How far an address is below a stack, and how large a stack would have it."""
        pages = -((address - last - 1) // PAGE)
        return f"{count(first - address, 'byte')} below the stack of {self.process(process)}, {last + 1 - first:,} bytes; " \
            f"`stack {pages}` in the plan gives it {count(pages, 'page')}"

    # -- functions and lines

    def function(self, process, address):
        """The function at an address, and how far it is from its beginning."""
        starts = self.starts.get(process)
        at = bisect.bisect_right(starts, address) - 1 if starts else -1
        if at < 0:
            return "", 0
        start, size, name = self.symbols[process][at]
        if size and address - start >= size:  # what is written in assembler has no size, and goes on to the next one
            return "", 0
        return name, address - start

    def look_up(self, process, addresses):
        """Reads the lines of sources at addresses: for each its functions and places, those that were inlined first."""
        wanted = sorted({each for each in addresses if (process, each) not in self.known})
        for each in wanted:
            self.known[process, each] = []
        if not wanted or process not in self.files or not self.reader:
            return
        done = subprocess.run([self.reader, "-a", "-i", "-f", "-C", "-e", str(self.files[process])], text=True,
                              input="".join(f"{each:#x}\n" for each in wanted), capture_output=True)
        found = None
        lines = iter(done.stdout.splitlines())
        for line in lines:
            if line.startswith("0x"):
                found = self.known[process, int(line, 16)]
            elif found is not None:
                place = re.sub(r" \(discriminator \d+\)$", "", next(lines, ""))
                if not place.startswith("??") and not place.endswith((":?", ":0")):
                    found.append((line, place))

    def own_line(self, process, address):
        """The file and line of the program's own source at an address, and not one of the header, if that is known."""
        self.look_up(process, [address])
        places = [place for _, place in self.known[process, address]]
        return next((place for place in places if not short(place).startswith(HEADER)), "")

    def place(self, process, address):
        """An address with its function and line, as far as they are known."""
        self.look_up(process, [address])
        name, past = self.function(process, address)
        told = f"{address:08x}" + (f" {name}" if name else "") + (f"+{past:x}" if past else "")
        found = self.known[process, address]
        if found:
            told += ", " + ", in ".join((f"{function} " if len(found) > 1 else "") + short(place)
                                        for function, place in found)
        return told


def first_there(names):
    """The first of these commands that is there, or None."""
    return next(filter(None, map(shutil.which, names)), None)


def demangled(symbols):
    """Symbols of a program in C++ as they are written there."""
    names = sorted({name for _, _, name in symbols if name.startswith("_Z")})
    tool = first_there(DEMANGLERS)
    if not names or not tool:
        return symbols
    lines = subprocess.run([tool], input="".join(f"{name}\n" for name in names), capture_output=True,
                           text=True).stdout.splitlines()
    written = dict(zip(names, lines))
    return [(value, size, written.get(name, name)) for value, size, name in symbols]


def short(place):
    """A place without the folders of its file."""
    return place.rsplit("/", 1)[-1]
