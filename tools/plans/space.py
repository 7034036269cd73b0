"""The space of a program: what stands where in it, and the GPTs that this needs."""
from plans.words import AREA, PAGE, TOP, Wrong, need, restricted, span

FIRST_LEVEL = 20  # a space has at least 1 MiB
STACK_END = 3 * AREA  # where a stack ends, if that is free


class Claim:
    """Addresses that something takes, with the rights to them."""

    def __init__(self, first, size, rights, what):
        self.first, self.last, self.rights, self.what = first, first + size - 1, rights, what


class Area:
    """A GPT of sixteen pages, and what stands in its slots."""

    def __init__(self):
        self.gpt, self.slots, self.handler, self.empty = None, {}, None, False

    def common(self):
        """The restrictions that all of it has, which stand at the area in place of its pages."""
        found = [implied for _, implied, _ in self.slots.values()] + ([{"x"}] if self.empty else [])
        return set.intersection(*found)


class Node:
    """A GPT above areas: its slots have a GPT each, with the size of its guard and its match."""

    def __init__(self, first, level):
        self.first, self.level, self.gpt, self.slots = first, level, None, {}


class Space:
    """What stands in the space of a program."""

    def __init__(self, program):
        self.program, self.claims, self.areas, self.root, self.nodes = program, [], {}, None, []

    # -- places

    def clash(self, first, size, passed=()):
        """The first claim that takes some of these addresses; what begins with one of `passed` doesn't count."""
        return next((claim for claim in self.claims if claim.first < first + size and first <= claim.last
                     and not claim.what.startswith(passed)), None)

    def claim(self, first, size, rights, what, passed=()):
        """Takes addresses, which have to be free."""
        need(first + size <= TOP, f"{what} of {self.program} at {first:08x} goes past the end of the space")
        other = self.clash(first, size, passed)
        if other:
            raise Wrong(f"{what} ({span(first, first + size - 1)}) overlaps {other.what} "
                        f"({span(other.first, other.last)}) in {self.program}")
        self.claims.append(Claim(first, size, rights, what))

    def is_free(self, first, size):
        """Whether these addresses and the pages around them are free."""
        return first >= PAGE and first + size + PAGE <= TOP and not self.clash(first - PAGE, size + 2 * PAGE)

    def stack_place(self, size, _behind):
        """Where a stack begins whose place isn't said: it ends at 00030000, or at the next multiple of 10000 that has
        room beneath it."""
        for end in range(STACK_END, TOP, AREA):
            if end >= size + PAGE and not self.clash(end - size - PAGE, size + PAGE):
                return end - size
        raise Wrong(f"{self.program} has no room for a stack of {size // PAGE} pages")

    def heap_place(self, size, behind):
        """Where a heap begins whose place isn't said: the first multiple of 10000 behind the segments that has room, or
        the first of all if there is none."""
        start = -(-behind // AREA) * AREA
        for first in (*range(start, TOP, AREA), *range(AREA, start, AREA)):
            if self.is_free(first, size):
                return first
        raise Wrong(f"{self.program} has no room for a heap of {size // PAGE} pages")

    # -- contents

    def area(self, address):
        return self.areas.setdefault(address // AREA, Area())

    def put(self, page_number, capability, implied, letters=frozenset()):
        """Puts a capability where a page stands. The implied restrictions may stand at the area in its place."""
        self.area(page_number * PAGE).slots[page_number % 16] = capability, set(implied), set(letters)

    # -- GPTs

    def own_places(self):
        """The places of areas in which something of the program itself stands."""
        return sorted({place for claim in self.claims if not claim.what.startswith(("area", "page ", "cappage "))
                       for place in range(claim.first // AREA, claim.last // AREA + 1)})

    def number_areas(self, places, new_gpt):
        for place in places:
            if self.areas[place].gpt is None:
                self.areas[place].gpt = new_gpt()

    def level(self):
        """The size of the space, as a power of two."""
        top = (max(self.areas, default=0) + 1) * AREA
        return next(level for level in (FIRST_LEVEL, 24, 28, 32) if top <= 1 << level)

    def build(self, new_gpt):
        """The GPTs above the areas. One that would have a single slot is left out: the guard of what stands there does
        its work."""
        self.tree = self.node(sorted(self.areas), self.level(), new_gpt)

    def node(self, places, level, new_gpt):
        """The GPT of the areas at these places, which agree from bit `level` of their addresses upwards."""
        made = Node(places[0] * AREA >> level << level if places else 0, level)
        if not self.nodes:
            made.gpt = self.root
        else:
            made.gpt = new_gpt()
        self.nodes.append(made)
        below, groups = level - 4, {}
        for place in places:
            groups.setdefault(place * AREA >> below & 15, []).append(place)
        for slot, group in groups.items():
            size = next(size for size in (16, 20, 24, 28) if group[0] * AREA >> size == group[-1] * AREA >> size)
            child = self.areas[group[0]] if size == 16 else self.node(group, size, new_gpt)
            made.slots[slot] = child, size, (group[0] * AREA & (1 << below) - 1) >> size
        return made

    # -- lines

    def capability(self, restrictions=frozenset()):
        """The capability of the whole space."""
        return f"gpt:{self.root}@{self.level()}/0{restricted(restrictions)}"

    def lines(self):
        """The statements of all its GPTs."""
        for node in self.nodes:
            yield f"gpt {node.gpt} {node.level - 4}"
            for slot, (child, size, match) in sorted(node.slots.items()):
                limits = child.common() if isinstance(child, Area) else ()
                yield f"slot {node.gpt} {slot} gpt:{child.gpt}@{size}/{match:x}{restricted(limits)}"
        for place in sorted(self.areas):
            yield from area_lines(self.areas[place])

    def gpts(self):
        return [node.gpt for node in self.nodes] + [area.gpt for area in self.areas.values()]


def area_lines(area):
    """The statements of an area."""
    common = area.common()
    yield f"gpt {area.gpt} 12{' ha' if area.handler else ''}"
    for slot, (capability, implied, letters) in sorted(area.slots.items()):
        yield f"slot {area.gpt} {slot} {capability}@12/0{restricted(letters | implied - common)}"
    if area.handler:
        yield f"slot {area.gpt} 15 {area.handler}"
