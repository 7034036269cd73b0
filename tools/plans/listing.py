"""A plan as a listing, with the names of the plan as remarks."""
from plans.words import AREA, need, span

MOST_BYTES, MOST_REMARK = 16_777_216, 500


def remark(text):
    """A line that readers of a listing skip, in the letters that it may have."""
    told = "".join(letter if " " <= letter <= "~" else ascii(letter)[1:-1] for letter in text)
    return f"# {told}" if len(told) <= MOST_REMARK else f"# {told[:MOST_REMARK]}.."


def numbered(kind, first, last, text):
    """The remark that objects have a name."""
    return remark(f"{kind} {first}: {text}" if first == last else f"{kind} {first} to {last}: {text}")


def runs(numbers):
    """Numbers as runs, each with its first and its last."""
    found = []
    for number in sorted(numbers):
        if found and found[-1][1] == number - 1:
            found[-1][1] = number
        else:
            found.append([number, number])
    return found


def page_rows(number, content):
    """The lines of a page's bytes, 64 to a line; lines of zeros are left out."""
    for offset in range(0, len(content), 64):
        row = content[offset:offset + 64]
        if any(row):
            yield f"page {number} {offset:03x} {row.hex()}"


def page_lines(plan):
    """All pages, those of one name behind the remark that says it."""
    first, names = 0, plan.named_pages
    while first < len(plan.pages):
        last = first
        while last + 1 < len(plan.pages) and names[last + 1] == names[first]:
            last += 1
        yield numbered("page", first, last, names[first])
        for number in range(first, last + 1):
            yield from page_rows(number, plan.pages[number])
        first = last + 1


def space_lines(made):
    """The GPTs of a space, with the names of what stands there."""
    space = made.space
    yield numbered("gpt", space.root, space.root, f"space of {made.name}")
    for claim in sorted(space.claims, key=lambda one: (one.first, -one.last)):
        yield remark(f"memory of process {made.number}: {span(claim.first, claim.last)} {claim.rights} {claim.what}")
    for node in space.nodes[1:]:
        last = node.first + (1 << node.level) - 1
        yield numbered("gpt", node.gpt, node.gpt, f"{span(node.first, last)} of {made.name}")
    for place, area in sorted(space.areas.items()):
        yield numbered("gpt", area.gpt, area.gpt, f"{place * AREA:08x} of {made.name}")
    yield from space.lines()


def process_lines(made):
    """A process with its registers."""
    yield numbered("process", made.number, made.number, made.name)
    if made.file:
        yield remark(f"file of process {made.number}: {made.file}")
    yield (f"process {made.number} {made.entry:08x} {made.space.capability()} schedule:{made.priority} {made.handler} "
           f"{made.state}")
    for register, value in made.registers.items():
        yield f"reg {made.number} {register} {value:08x}"
    for register, (capability, about) in sorted(made.held.items()):
        yield remark(f"capreg {made.number} {register}: {about}")
        yield f"capreg {made.number} {register} {capability}"


def statements(plan):
    """The statements of a plan."""
    programs, endpoints = plan.all("program"), plan.all("endpoint")
    yield "coyotos 1"
    yield f"machine {plan.harts} {len(plan.pages)} {plan.cappages} {plan.gpts} {len(programs)} {len(endpoints)}"
    yield from page_lines(plan)
    for memory in plan.all("cappage"):
        yield numbered("cappage", memory.first, memory.first, memory.name)
    for made in programs:
        yield from space_lines(made)
    for made in endpoints:
        yield numbered("endpoint", made.number, made.number, made.name)
        yield f"endpoint {made.number} process:{made.recipient.number} {made.ident:08x} 00000000 {made.flag}"
    for made in programs:
        yield from process_lines(made)
    yield "end"


def listing_lines(plan, name):
    """The listing of a plan, with its schedule."""
    lines = [remark(f"Made by tools/listing-of from {name}."), *statements(plan), *plan.schedule]
    size = sum(len(line) + 1 for line in lines)
    need(size <= MOST_BYTES, f"the listing has {size:,} bytes, and an input has at most {MOST_BYTES:,}")
    return lines
