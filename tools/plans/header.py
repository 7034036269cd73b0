"""What a plan says to its programs, as a header in C."""
import re

FREE = "[^A-Za-z0-9_]"


def macro(text):
    return re.sub(FREE, "_", text).upper()


def numbered(pairs):
    """Names with their values, in order. Of a name that is given to several, all but the first have _2, _3 .. behind it."""
    found = {}
    for name, value in pairs:
        again = (name if i == 1 else f"{name}_{i}" for i in range(1, len(pairs) + 1))
        found[next(each for each in again if each not in found)] = value
    return found


def register_name(about):
    """The name of a capability register, from what the plan puts there."""
    kind, *rest = about.split()
    return macro("_".join([kind, *rest[:1]]) if kind != "schedule" else kind)


def of_program(plan, made):
    """The capability registers and the addresses of a program."""
    registers = numbered([(register_name(about), register) for register, (_, about) in made.held.items()])
    places = numbered([(macro(f"at_{name}"), address) for one, name, address in plan.placed if one is made])
    return registers, places


def common(tables):
    """What several programs of one file agree on, and the names on which they don't."""
    first, *others = tables
    agreed = {name: value for name, value in first.items() if all(other.get(name) == value for other in others)}
    return agreed, sorted({name for table in tables for name in table} - set(agreed))


def file_lines(plan, file):
    """The part of the header for the programs of a file."""
    programs = [made for made in plan.all("program") if made.file == file]
    who = " and ".join(made.name for made in programs)
    tables = [of_program(plan, made) for made in programs]
    registers, apart = common([one for one, _ in tables])
    places, elsewhere = common([one for _, one in tables])
    yield f"#ifdef PROGRAM_{re.sub(FREE, '_', file)}"
    if registers:
        yield f"/* capability registers of {who} */"
        yield "enum {"
        yield from (f"    {name} = {value}," for name, value in registers.items())
        yield "};"
    if places:
        yield f"/* addresses in {who} */"
        yield from (f"#define {name} 0x{value:08x}u" for name, value in places.items())
    if apart or elsewhere:
        yield f"/* not the same in {who}: {', '.join(apart + elsewhere)} */"
    yield "#endif"


def header_lines(plan, name):
    """The header of a plan."""
    ids = numbered([(macro(f"id_{made.name}"), made.ident) for made in plan.all("endpoint")])
    payloads = numbered([(macro("_".join(["payload", endpoint, *sender])), payload)
                         for endpoint, sender, payload in plan.payloads])
    yield f"/* What {name} says to its programs, made by tools/listing-of. A source that includes this is compiled with"
    yield "   PROGRAM_ and the name of its file defined. */"
    yield "#ifndef COY_PLAN_H"
    yield "#define COY_PLAN_H"
    for about, table in (("ids of endpoints", ids), ("payloads, by which a receiver knows who sent", payloads)):
        if table:
            yield f"/* {about} */"
            yield from (f"#define {each} 0x{value:x}u" for each, value in table.items())
    for file in dict.fromkeys(made.file for made in plan.all("program") if made.file):
        yield from file_lines(plan, file)
    yield "#endif"
