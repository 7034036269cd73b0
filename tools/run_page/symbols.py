"""The names of functions and data in an ELF file for RV32I."""
import struct

TABLE, NOTHING, DATA, FUNCTION, ABSOLUTE = 2, 0, 1, 2, 0xFFF1


def text_at(data, offset):
    return data[offset:data.index(0, offset)].decode("utf-8", "replace")


def sections_of(data):
    """Type, offset, size, link and size of an entry, of each section."""
    table, = struct.unpack_from("<I", data, 32)
    size, count = struct.unpack_from("<HH", data, 46)
    sections = [struct.unpack_from("<10I", data, table + i * size) for i in range(count)]
    return [(section[1], section[4], section[5], section[6], section[9]) for section in sections]


def entries_of(data):
    """Address, size, form and name of each entry for a function or a datum, as they stand in the file."""
    if data[:6] != b"\x7fELF\x01\x01":
        raise ValueError
    sections = sections_of(data)
    for kind, offset, size, link, entry in sections:
        if kind != TABLE:
            continue
        for at in range(offset, offset + size, entry):
            name, value, length, info, _, place = struct.unpack_from("<IIIBBH", data, at)
            told, form = text_at(data, sections[link][1] + name), info & 15
            if place not in (0, ABSOLUTE) and form in (NOTHING, DATA, FUNCTION) and told and told[0] not in "$.":
                yield value, length, form, told


def symbols_of(data):
    """Address, size and name of each function and datum, by address; one name for an address."""
    found = {}
    for value, length, form, told in entries_of(data):
        found[value] = max(found.get(value, (0, 0, "")), (form, length, told))
    return [(value, length, told) for value, (_, length, told) in sorted(found.items())]


def read_symbols(folder, files):
    """Those of each process whose file is in the folder; it has to have one of them."""
    found = {}
    for process, name in files.items():
        path = folder / name
        if path.is_file():
            try:
                found[process] = symbols_of(path.read_bytes())
            except (ValueError, IndexError, ZeroDivisionError, struct.error):
                raise OSError(f"{path} is no ELF file that can be read")
    if not found:
        raise OSError(f"{folder} has no file of a process of the listing")
    return found
