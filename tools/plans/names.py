"""The names that a line of a question has for numbers: fields of pages, variables and registers of programs, constants."""
import re
import struct

from plans.expression import Term, number
from plans.types import Types
from plans.words import AREA, PAGE, Wrong, need
from run_page.symbols import DATA, entries_of

WIDTHS = {1: "byte", 2: "half", 4: "word"}
REGISTER = re.compile(r"x([0-9]|[12][0-9]|3[01])")
WHOLE = re.compile(r"([A-Za-z_][A-Za-z0-9_-]*)((?:\.[A-Za-z0-9_]+|\[[0-9]+\])*)")


class Files:
    """The programs of a plan, with what their files say."""

    def __init__(self, plan):
        self.plan, self.types, self.data = plan, {}, {}

    def bytes_of(self, file):
        if file not in self.data:
            self.data[file] = (self.plan.directory / file).read_bytes()
        return self.data[file]

    def types_of(self, file):
        if file not in self.types:
            try:
                self.types[file] = Types(self.bytes_of(file))
            except (KeyError, struct.error, ValueError, IndexError):
                raise Wrong(f"{self.plan.directory / file} has debug information that can't be read")
        return self.types[file]

    def all(self):
        """Each file by itself."""
        return list(dict.fromkeys(made.file for made in self.plan.all("program") if made.file))


def path_of(text):
    """The steps behind a name: fields by their names, elements by their numbers."""
    return [int(step[1:-1]) if step[0] == "[" else step[1:] for step in re.findall(r"\.[A-Za-z0-9_]+|\[[0-9]+\]", text)]


def term(files, word):
    """What a name says."""
    found = WHOLE.fullmatch(word)
    need(found, f"no number is written {word}")
    name, path = found[1], path_of(found[2])
    thing = files.plan.things.get(name)
    if thing is None and not path:
        return constant(files, name)
    need(thing is not None, f"nothing was named {name}")
    need(path, f"{name} is {'an' if thing.kind == 'endpoint' else 'a'} {thing.kind}: which number of it?")
    if thing.kind == "page":
        return field(files, thing, path)
    if thing.kind == "endpoint":
        need(path == ["payload"], f"an endpoint has a payload: {name}.payload")
        return Term(f"payload {thing.number}")
    need(thing.kind == "program", f"a {thing.kind} has no number")
    return of_program(files, thing, path)


def constant(files, name):
    """A constant of an enum, on whose value all programs that have it agree."""
    values = {file: files.types_of(file).constants[name] for file in files.all() if name in files.types_of(file).constants}
    need(values, f"nothing was named {name}, and no program has a constant {name}")
    need(len(set().union(*values.values())) == 1, f"{name} isn't the same in " + " and ".join(
        f"{file} ({', '.join(map(str, sorted(each)))})" for file, each in values.items()))
    return number(next(iter(values.values())).copy().pop())


def field(files, page, path):
    """A field of a page, by the type that the plan says it holds."""
    name, first = page.name, page.first
    if page.group:
        need(isinstance(path[0], str) and path[0].isdigit(), f"{name} has {page.count} pages: say which, from {name}.0 on")
        need(int(path[0]) < page.count, f"which page of {name} is over {page.count - 1}: {path[0]}")
        name, first, path = f"{name}.{path[0]}", first + int(path[0]), path[1:]
        need(path, f"{name} is a page: which number of it?")
    need(page.type, f"the plan doesn't say what {page.name} holds: `{'pages' if page.group else 'page'} {page.name} .. holds TYPE`")
    typed = {file: files.types_of(file) for file in files.all() if page.type in files.types_of(file).named}
    need(typed, f"no program has {page.type} in its debug information")
    found = {file: types.field(types.named[page.type], path, name) for file, types in typed.items()}
    need(len(set(found.values())) == 1, f"{page.type} isn't the same in {' and '.join(found)}")
    offset, size, signed = next(iter(found.values()))
    return of_page(first, offset, size, signed, ".".join([name, *map(str, path)]))


def of_page(page, offset, size, signed, name):
    need(size in WIDTHS, f"{name} has {size} bytes: a number has 1, 2 or 4")
    need(offset + size <= PAGE, f"{name} stands behind the end of the page")
    need(offset % size == 0, f"{name} stands at {offset:03x}, which is no multiple of {size}")
    return Term(f"{WIDTHS[size]} {page} {offset:03x}", narrow=name if signed and size < 4 else "",
                most=(1 << 8 * size) - 1)


def of_program(files, made, path):
    """A register or a variable of a program."""
    if path == ["pc"]:
        return Term(f"pc {made.number}")
    if len(path) == 1 and isinstance(path[0], str) and REGISTER.fullmatch(path[0]):
        return Term(f"reg {made.number} {int(path[0][1:])}")
    name, whole = path[0], f"{made.name}.{path[0]}"
    need(made.file, f"{made.name} has no variables")
    places = {(value, length) for value, length, form, told in entries_of(files.bytes_of(made.file)) if form == DATA and told == name}
    need(places, f"{made.name} has no variable {name}: one that the compiler keeps in registers, or left out, has no place")
    need(len(places) == 1, f"{made.name} has {len(places)} variables {name}")
    (address, size), = places
    types, offset, signed = files.types_of(made.file), 0, False
    if name in types.variables:
        offset, size, signed = types.field(types.variables[name], path[1:], whole)
    need(len(path) == 1 or name in types.variables, f"{whole} has no debug information")
    at = address + offset
    slot = made.space.areas[at // AREA].slots.get(at % AREA // PAGE) if at // AREA in made.space.areas else None
    need(slot and slot[0].startswith("page:"), f"{whole} stands in no page")
    return of_page(int(slot[0].removeprefix("page:")), at % PAGE, size, signed, ".".join([made.name, *map(str, path)]))
