"""What the debug information of a program says of its types: fields of structs, constants of enums, and variables."""
import struct

from plans.words import need
from run_page.symbols import sections_of, text_at

ARRAY, ENUM, MEMBER, POINTER, COMPILED, STRUCT, TYPEDEF, UNION, RANGE, BASE, CONST, CONSTANT, VARIABLE, VOLATILE = (
    0x01, 0x04, 0x0d, 0x0f, 0x11, 0x13, 0x16, 0x17, 0x21, 0x24, 0x26, 0x28, 0x34, 0x35)
NAME, SIZE, BITS, VALUE, BOUND, COUNT, PLACE, DECLARED, ENCODING, ORIGIN, TYPE, FIRST_BIT = (
    0x03, 0x0b, 0x0d, 0x1c, 0x2f, 0x37, 0x38, 0x3c, 0x3e, 0x47, 0x49, 0x6b)
SIGNED = (5, 6)  # the encodings of signed numbers and letters
FIXED = {0x01: "I", 0x05: "H", 0x06: "I", 0x07: "Q", 0x0b: "B", 0x0c: "B", 0x0e: "I", 0x10: "I", 0x11: "B", 0x12: "H", 0x13: "I",
         0x17: "I", 0x1f: "I"}
BLOCKS = {0x03: "H", 0x04: "I", 0x0a: "B"}
STRINGS = {0x0e: ".debug_str", 0x1f: ".debug_line_str"}
LOCAL = (0x11, 0x12, 0x13)  # references within a unit


class Entry:
    """An entry of the debug information: its tag, its attributes, and the entries in it."""

    def __init__(self, tag, attributes):
        self.tag, self.attributes, self.inner = tag, attributes, []

    def get(self, attribute, otherwise=None):
        return self.attributes.get(attribute, otherwise)


class Reader:
    """The entries of an ELF file, by their offsets."""

    def __init__(self, data):
        self.data, self.entries, self.tops = data, {}, []
        self.sections = named_sections(data)
        for self.first, self.end, self.abbreviations in self.units():
            self.at, nested = self.first[1], []
            while self.at < self.end:
                nested = self.entry(nested)

    def take(self, form):
        value, = struct.unpack_from(f"<{form}", self.data, self.at)
        self.at += struct.calcsize(f"<{form}")
        return value

    def leb(self, signed=False):
        value = shift = 0
        while True:
            byte = self.take("B")
            value |= (byte & 0x7f) << shift
            shift += 7
            if byte < 0x80:
                return value - (1 << shift) if signed and byte & 0x40 else value

    # -- units

    def units(self):
        """Each unit: where it and its entries begin, where it ends, and its abbreviations."""
        begin, size = self.sections.get(".debug_info", (0, 0))
        self.base, at = begin, begin
        while at < begin + size:
            self.at = at
            length, version = self.take("I"), self.take("H")
            need(version in (4, 5), f"debug information of version {version} isn't known: compile with -gdwarf-5")
            if version == 5:
                self.take("H")
                place = self.take("I")
            else:
                place = self.take("I")
                self.take("B")
            first, end = (at, self.at), at + 4 + length
            yield first, end, self.abbreviated(place)
            at = end

    def abbreviated(self, place):
        self.at, found = self.sections[".debug_abbrev"][0] + place, {}
        while code := self.leb():
            tag, has_inner, forms = self.leb(), self.take("B"), []
            while True:
                attribute, form = self.leb(), self.leb()
                constant = self.leb(True) if form == 0x21 else None
                if not attribute and not form:
                    break
                forms.append((attribute, form, constant))
            found[code] = tag, has_inner, forms
        return found

    # -- entries

    def entry(self, nested):
        """Reads an entry into the innermost of those that are open; those that are open then."""
        offset, code = self.at - self.base, self.leb()
        if not code:
            return nested[:-1]
        tag, has_inner, forms = self.abbreviations[code]
        made = Entry(tag, {attribute: self.value(form, constant) for attribute, form, constant in forms})
        self.entries[offset] = made
        (nested[-1].inner if nested else self.tops).append(made)
        return [*nested, made] if has_inner else nested

    def value(self, form, constant):
        """What an attribute has: a number, a text, or where another entry is; None where that is of no use here."""
        if form in STRINGS:
            return text_at(self.data, self.sections[STRINGS[form]][0] + self.take("I"))
        if form in FIXED:
            value = self.take(FIXED[form])
            return value + self.first[0] - self.base if form in LOCAL else value
        if form in (0x0d, 0x0f):
            return self.leb(form == 0x0d)
        if form == 0x08:
            text = text_at(self.data, self.at)
            self.at += len(text.encode()) + 1
            return text
        if form in (0x19, 0x21):
            return 1 if form == 0x19 else constant
        if form == 0x15:
            return self.leb() + self.first[0] - self.base
        need(form in BLOCKS or form in (0x09, 0x18, 0x1e), f"debug information of form {form:x} isn't known")
        length = 16 if form == 0x1e else self.take(BLOCKS[form]) if form in BLOCKS else self.leb()
        self.at += length
        return None


def named_sections(data):
    """Offset and size of each section, by its name."""
    table, = struct.unpack_from("<I", data, 32)
    names, = struct.unpack_from("<H", data, 50)
    sections = sections_of(data)
    heads = [struct.unpack_from("<I", data, table + 40 * i)[0] for i in range(len(sections))]
    begin = sections[names][1] if sections else 0
    return {text_at(data, begin + head): (offset, size) for head, (_, offset, size, _, _) in zip(heads, sections)}


class Types:
    """The types of a program."""

    def __init__(self, data):
        reader = Reader(data)
        self.entries, self.named, self.constants, self.variables = reader.entries, {}, {}, {}
        for unit in reader.tops:
            for one in unit.inner:
                self.add(one)

    def add(self, one):
        name = one.get(NAME)
        if one.tag in (STRUCT, UNION) and not one.get(DECLARED):
            self.named.setdefault(f"{'struct' if one.tag == STRUCT else 'union'} {name}", one)
        elif one.tag == TYPEDEF:
            self.named.setdefault(name, one)
        elif one.tag == VARIABLE and name and one.get(TYPE) is not None:
            self.variables.setdefault(name, self.entries[one.get(TYPE)])
        if one.tag == ENUM:
            for constant in one.inner:
                self.constants.setdefault(constant.get(NAME), set()).add(constant.get(VALUE) & 0xffffffff)

    def plain(self, one):
        """A type without its names and qualifiers."""
        while one is not None and one.tag in (TYPEDEF, CONST, VOLATILE):
            one = self.entries.get(one.get(TYPE))
        return one

    def field(self, one, path, name):
        """Where what a path leads to from a type stands in it, how many bytes it has, and whether it is a signed number."""
        offset = 0
        for step in path:
            one = self.plain(one)
            need(one is not None, f"{name} has no type")
            more, one = self.element(one, step, name) if isinstance(step, int) else self.member(one, step, name)
            offset, name = offset + more, f"{name}[{step}]" if isinstance(step, int) else f"{name}.{step}"
        one = self.plain(one)
        need(one is not None and one.tag in (BASE, ENUM, POINTER), f"{name} is no number: it has "
             + ("fields" if one is not None and one.tag in (STRUCT, UNION) else "elements" if one is not None else "no type"))
        return offset, one.get(SIZE, 4), one.tag == BASE and one.get(ENCODING) in SIGNED

    def member(self, one, step, name):
        need(one.tag in (STRUCT, UNION), f"{name} has no fields")
        found = [each for each in one.inner if each.tag == MEMBER and each.get(NAME) == step]
        names = [each.get(NAME) for each in one.inner if each.tag == MEMBER and each.get(NAME)]
        need(found, f"{name} has no field {step}: there are {', '.join(names)}")
        need(found[0].get(BITS) is None, f"{name}.{step} is a field of bits")
        return found[0].get(PLACE, 0), self.entries.get(found[0].get(TYPE))

    def element(self, one, index, name):
        need(one.tag == ARRAY, f"{name} has no elements")
        ranges = [each for each in one.inner if each.tag == RANGE]
        need(len(ranges) == 1, f"{name} has elements of elements")
        bound, count = ranges[0].get(BOUND), ranges[0].get(COUNT)
        most = bound if bound is not None else count - 1 if count is not None else None
        need(most is None or index <= most, f"{name} has elements 0 to {most}")
        inner = self.entries.get(one.get(TYPE))
        return index * self.size(inner), inner

    def size(self, one):
        one = self.plain(one)
        if one.tag == ARRAY:
            bound = next(each.get(BOUND) for each in one.inner if each.tag == RANGE)
            return (bound + 1) * self.size(self.entries.get(one.get(TYPE)))
        return one.get(SIZE, 4)
