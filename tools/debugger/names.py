"""What objects and addresses are called: by the remarks of a listing, and by the ELF files of its programs."""
import os
import pathlib
import subprocess

from run_page.remarks import names_of
from run_page.symbols import read_symbols
from runs.programs import READERS, first_there

LINES = first_there(READERS)


class Names:
    """The names in a listing; with a folder of ELF files, those of functions and lines too."""

    def __init__(self, listing, folder=None):
        self.found, self.folder = names_of(listing), pathlib.Path(folder) if folder else None
        self.symbols = read_symbols(self.folder, self.found["file"]) if folder else {}

    def file(self, process):
        """The ELF file of a process, as gdb finds it: from the folder in which both were started; None where there is none."""
        name = self.found["file"].get(process)
        path = self.folder / name if self.folder and name else None
        return os.path.relpath(path) if path and path.is_file() else None

    def name(self, kind, number):
        return next((text for first, last, text in self.found[kind] if first <= number <= last), None)

    def process(self, number):
        return self.name("process", number) or f"process {number}"

    def object(self, kind, number):
        """An object with its number, and with its name if it has one."""
        name = self.name(kind, number)
        return f"{kind} {number} ({name})" if name else f"{kind} {number}"

    def number_of(self, word, count):
        """The process of this name or number; None if there is none."""
        if word.isdecimal():
            return int(word) if int(word) < count else None
        return next((first for first, _, text in self.found["process"] if text == word), None)

    def place(self, process, address):
        """An address of a process's code, with its function and its line where they are known."""
        first, size, function = next((one for one in reversed(self.symbols.get(process, [])) if one[0] <= address),
                                     (0, 0, None))
        if size and address >= first + size:
            function = None
        told = f"{address:08x}" + (f", {function}" if function else "")
        line = self.line(process, address) if function else None
        return f"{told} ({line})" if line else told

    def line(self, process, address):
        if not LINES:
            return None
        told = subprocess.run([LINES, "-s", "-e", str(self.folder / self.found["file"][process]), f"{address:x}"],
                              capture_output=True, text=True).stdout.split(" ")[0].strip()
        return None if not told or "?" in told else told

    def capability(self, word):
        """A printed capability with the name of what it leads to."""
        parts = word.split("@")[0].split(":")
        kind = {"entry": "endpoint"}.get(parts[0], parts[0])
        if kind in ("page", "cappage", "gpt", "endpoint", "process") and len(parts) > 1:
            name = self.name(kind, int(parts[1]))
            return f"{word}  {name}" if name else word
        return word


def standing(state, names, process):
    """In words where a process stands: on a hart, in a queue, asleep, waiting, stopped or faulted."""
    words = state.process(process).state
    if words[0] == "waiting":
        if words[1] == "open":
            return "receives from any endpoint"
        ident = next((number for number, those in state.endpoints.items() if int(those[1], 16) == int(words[1], 16)),
                     None)
        told = f" ({names.name('endpoint', ident)})" if ident is not None and names.name("endpoint", ident) else ""
        return f"receives from endpoint id {words[1]}{told}"
    if words[0] == "faulted":
        return " ".join(words)
    if words[0] != "run":
        return {"stop": "stopped"}.get(words[0], words[0])
    hart, queue, other = state.hart_of(process), state.queue_of(process), state.sleeps_on(process)
    if hart is not None:
        return f"on hart {hart}"
    if queue is not None:
        return f"ready at priority {queue}"
    return f"sleeps until {names.process(other)} receives" if other is not None else "run"
