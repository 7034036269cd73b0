"""Going forwards and backwards through a run to where something happens.

What happens is found in the records, and the event that wrote a record by how much the program had written before each
event. What records don't tell (the kernel clears or copies a page, or another page is put in a space) shows where
the bytes that are watched differ between two events; the event between them is found by halves.
"""
import re
from collections import namedtuple

FIRST_LOOK, MOST_LOOK = 64, 65_536  # events whose records are looked at together
SIZES = {"sb": 1, "lb": 1, "lbu": 1, "sh": 2, "lh": 2, "lhu": 2, "sw": 4, "lw": 4}

# Where the run stops, which process is told of, why, and what more there is to say of it.
Hit = namedtuple("Hit", "at process why more")


def line_at(text, feed):
    """The record behind the line feed at this offset."""
    end = text.find(b"\n", feed + 1)
    return text[feed + 1:end if end >= 0 else len(text)].decode()


class Arrivals:
    """A process is about to perform an instruction at one of these places, each a process and an address, or an address
    alone where any process is meant; for the process `leaving`, behind its next instruction."""

    def __init__(self, places, is_meant, leaving=None):
        self.places, self.is_meant = places, is_meant
        self.needles = [b" %08x page " % address for address in {address for _, address in places}]
        self.leaving, self.left = leaving, -1

    def process_at(self, text, place):
        """The process of the record that a needle was found in, if it is a fetch of one that is meant."""
        feed = text.rfind(b"\n", 0, place)
        word, process, address, *_ = line_at(text, feed).split()
        process, address = int(process) if process.isdigit() else None, int(text[place + 1:place + 9], 16)
        is_one = {(process, address), (None, address)} & self.places
        return process if word == "fetch" and feed != self.left and is_one and self.is_meant(process) else None

    def first(self, stretch):
        self.left = -1 if self.leaving is None else stretch.text.find(b"\nfetch %d " % self.leaving)
        self.leaving = None if self.left >= 0 else self.leaving
        return min(filter(None, (self.one(stretch.text, needle, False) for needle in self.needles)), default=None)

    def last(self, stretch):
        return max(filter(None, (self.one(stretch.text, needle, True) for needle in self.needles)), default=None)

    def one(self, text, needle, backwards):
        place = text.rfind(needle) if backwards else text.find(needle)
        while place >= 0:
            process = self.process_at(text, place)
            if process is not None:
                return text.rfind(b"\n", 0, place), process
            place = text.rfind(needle, 0, place) if backwards else text.find(needle, place + 1)
        return None

    def hit(self, event, process, _line):
        return Hit(event, process, ("break",), None)

    def hit_back(self, event, process, _line):
        return Hit(event, process, ("break",), None)


class Faults:
    """A process, or one alone, faults in a way that isn't passed over."""

    def __init__(self, is_passed, alone=None):
        self.is_passed, self.alone = is_passed, alone

    def first(self, stretch):
        return self.one(stretch.text, stretch.text.find, lambda text, place: text.find(b"\nfault ", place + 1))

    def last(self, stretch):
        return self.one(stretch.text, stretch.text.rfind, lambda text, place: text.rfind(b"\nfault ", 0, place))

    def one(self, text, begin, go_on):
        place = begin(b"\nfault ")
        while place >= 0:
            words = line_at(text, place).split()
            if not self.is_passed(words[2]) and self.alone in (None, int(words[1])):
                return place, int(words[1])
            place = go_on(text, place)
        return None

    def hit(self, event, process, line):
        return Hit(event + 1, process, ("fault", line.split()[2]), line)

    def hit_back(self, event, process, line):
        return self.hit(event, process, line)


class Steps:
    """A process performs an instruction, or can't fetch one."""

    def __init__(self, process):
        self.process, self.needles = process, (b"\nfetch %d " % process, b"\nfault %d " % process)

    def first(self, stretch):
        found = [place for place in map(stretch.text.find, self.needles) if place >= 0]
        return (min(found), self.process) if found else None

    def last(self, stretch):
        place = max(map(stretch.text.rfind, self.needles))
        return (place, self.process) if place >= 0 else None

    def hit(self, event, process, _line):
        return Hit(event + 1, process, ("step",), None)

    def hit_back(self, event, process, _line):
        return Hit(event, process, ("step",), None)


class Leaves(Steps):
    """A process performs an instruction after which it stands outside of these addresses."""

    def __init__(self, process, first, behind):
        super().__init__(process)
        self.low, self.high = first, behind

    def is_inside(self, address):
        return self.low <= address < self.high

    def first(self, stretch):
        """Its last instruction before it fetches elsewhere, or before the end of the stretch if it stands elsewhere."""
        last, text = None, stretch.text
        place = text.find(self.needles[0])
        while place >= 0:
            if last is not None and not self.is_inside(int(line_at(text, place).split()[2], 16)):
                return last, self.process
            last, place = place, text.find(self.needles[0], place + 1)
        stands = stretch.state.process(self.process).pc
        return (last, self.process) if last is not None and not self.is_inside(stands) else None


class Watch:
    """Some bytes as a process sees them are written, or read."""

    def __init__(self, process, address, count, how):
        self.process, self.address, self.count, self.how = process, address, count, how
        self.kinds = {"write": ("store",), "read": ("load",), "access": ("store", "load")}[how]

    def value(self, state):
        """The bytes; None where there is no page."""
        return [page is not None and state.page(page)[offset:offset + count]
                for page, offset, count in state.pieces(self.process, self.address, self.count)]

    def accesses(self, stretch, state):
        """The places of accesses to the bytes, where these are in this state."""
        for page, offset, count in state.pieces(self.process, self.address, self.count):
            if page is None:
                continue
            near = "|".join(f"{place:03x}" for place in range(max(offset - 3, 0), offset + count))
            form = rf"\n({'|'.join(self.kinds)}) (\d+) [0-9a-f]{{5}}({near}) page {page}(?=\n)"
            for found in re.finditer(form.encode(), stretch.text):
                if int(found[3], 16) + self.size_at(stretch.text, found.start()) > offset:
                    yield found.start(), self.process

    @staticmethod
    def size_at(text, feed):
        """How many bytes an access takes, by the instruction before it."""
        words = line_at(text, text.rfind(b"\n", 0, feed)).split()
        return SIZES.get(words[3] if words and words[0] == "insn" else "", 1)

    def first(self, stretch):
        return min(self.accesses(stretch, stretch.before), default=None)

    def last(self, stretch):
        return max(self.accesses(stretch, stretch.state), default=None)

    def hit(self, event, process, line):
        return Hit(event + 1, process, ("watch", self), line)

    def hit_back(self, event, process, line):
        return Hit(event, process, ("watch", self), line)


class Search:
    """What is looked for in a run, and asked whether to break off."""

    def __init__(self, run, wants, is_interrupted):
        self.run, self.wants, self.is_interrupted = run, wants, is_interrupted
        watches = [want for want in wants if isinstance(want, Watch)]
        self.needs_before, self.watches = bool(watches), [want for want in watches if want.how != "read"]

    def look(self, first, behind):
        stretch = self.run.stretch(first, behind)
        if self.needs_before:
            stretch.before = self.run.state(first)
        return stretch

    # -- forwards

    def forwards(self, at):
        """Where it happens first from this event on."""
        size, count = FIRST_LOOK, self.run.schedule.count
        while at < count:
            behind = min(at + size, count)
            hit = self.first_in(self.look(at, behind))
            if hit:
                return hit
            if self.is_interrupted():
                return Hit(behind, None, ("interrupt",), None)
            at, size = behind, min(4 * size, MOST_LOOK)
        return Hit(count, None, ("end",), None)

    def first_in(self, stretch):
        found = [(*place, want) for want in self.wants for place in [want.first(stretch)] if place]
        hit = self.of(stretch, min(found, key=lambda one: one[0]), False) if found else None
        if hit and hit.why[0] == "step":
            hit = self.more_of_step(stretch, found, hit)
        return self.changed_before(stretch, hit)

    def of(self, stretch, found, backwards):
        """The hit of a record that was found."""
        place, process, want = found
        event = self.run.event_of(stretch, place)
        return (want.hit_back if backwards else want.hit)(event, process, line_at(stretch.text, place))

    def more_of_step(self, stretch, found, hit):
        """A step in whose event something else is found is that."""
        limit = self.run.at(hit.at).record_bytes() - stretch.base
        more = [one for one in found if one[0] < limit and not isinstance(one[2], (Steps, Arrivals))]
        return self.of(stretch, min(more, key=lambda one: one[0]), False) if more else hit

    def changed_before(self, stretch, hit):
        """The hit, or the first event before it by which watched bytes changed without a record."""
        upto = stretch.behind if hit is None else hit.at - (hit.why[0] == "watch")
        for watch in self.watches:
            value = watch.value(stretch.before)
            if upto > stretch.first and watch.value(self.run.state(upto)) != value:
                upto = self.by_halves(watch, stretch.first, upto, value)
                hit = Hit(upto, watch.process, ("watch", watch), None)
        return hit

    def by_halves(self, watch, low, high, value):
        """An event behind which the bytes are no longer this value, as they are at `low`, and not at `high`."""
        while high - low > 1:
            middle = (low + high) // 2
            if watch.value(self.run.state(middle)) == value:
                low = middle
            else:
                high = middle
        return high

    # -- backwards

    def backwards(self, at):
        """Where it happened last before this event."""
        size, here = FIRST_LOOK, at
        while at > 0:
            first = max(at - size, 0)
            hit = self.last_in(self.look(first, at), here)
            if hit:
                return hit
            if self.is_interrupted():
                return Hit(first, None, ("interrupt",), None)
            at, size = first, min(4 * size, MOST_LOOK)
        return Hit(0, None, ("begin",), None)

    def last_in(self, stretch, here):
        found = [(*place, want) for want in self.wants for place in [want.last(stretch)] if place]
        hit = None
        while found and hit is None:
            latest = max(found, key=lambda one: one[0])
            hit = self.of(stretch, latest, True)
            if hit.at >= here:
                hit = None
                found = self.found_before(stretch, latest[0])
        return self.changed_behind(stretch, hit)

    def found_before(self, stretch, place):
        """What is found before a place."""
        part = stretch.upto(place)
        return [(*place, want) for want in self.wants for place in [want.last(part)] if place]

    def changed_behind(self, stretch, hit):
        """The hit, or the last event behind it by which watched bytes changed without a record."""
        after = stretch.first if hit is None else hit.at + (hit.why[0] == "watch")
        for watch in self.watches:
            value = watch.value(stretch.state)
            if after < stretch.behind and watch.value(self.run.state(after)) != value:
                low, high = after, stretch.behind
                while high - low > 1:
                    middle = (low + high) // 2
                    low, high = (low, middle) if watch.value(self.run.state(middle)) == value else (middle, high)
                after, hit = low, Hit(low, watch.process, ("watch", watch), None)
        return hit


def last_records(run, at, word, count, most):
    """The last records with this word in the `most` events before one: each with its event and its number."""
    found, size, lowest = [], FIRST_LOOK, max(at - most, 0)
    while at > lowest and len(found) < count:
        stretch = run.stretch(max(at - size, lowest), at)
        place = stretch.text.rfind(b"\n%s " % word)
        while place >= 0 and len(found) < count:
            found.append((run.event_of(stretch, place), line_at(stretch.text, place),
                          run.records_before(stretch, place) + 1))
            place = stretch.text.rfind(b"\n%s " % word, 0, place)
        at, size = stretch.first, min(4 * size, MOST_LOOK)
    return found
