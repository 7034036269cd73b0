"""The schedule of a listing: its events, one after the other."""


class Schedule:
    """The machine's harts, and the lines behind `end` as triples: a word, a hart, and how often."""

    def __init__(self, listing):
        self.head, self.lines, self.harts = [], [], 1
        behind = False
        for line in listing.splitlines():
            words = line.split()
            if not behind:
                self.head.append(line)
                behind = words == ["end"]
                if words[:1] == ["machine"]:
                    self.harts = int(words[1])
            elif words and not words[0].startswith("#"):
                self.lines.append(self.line(words))

    @staticmethod
    def line(words):
        if words[0] == "round" and len(words) == 2:
            return "round", 0, int(words[1])
        if words[0] == "step" and len(words) == 3:
            return "step", int(words[1]), int(words[2])
        if words[0] == "tick" and len(words) == 2:
            return "tick", int(words[1]), 1
        raise ValueError(f"{' '.join(words)} is no line of a schedule")

    @property
    def count(self):
        """How many events there are."""
        return sum(times * (self.harts if word == "round" else 1) for word, _, times in self.lines)

    def events(self):
        """Each event: whether it is a step, and its hart."""
        for word, hart, times in self.lines:
            if word == "round":
                for _ in range(times):
                    for each in range(self.harts):
                        yield True, each
            else:
                for _ in range(times):
                    yield word == "step", hart

    def cursor(self):
        return Cursor(self)

    def cut(self, count):
        """The listing with the first so many events alone."""
        lines = list(self.head)
        for word, hart, times in self.lines:
            each = self.harts if word == "round" else 1
            whole = min(times, count // each)
            if whole:
                lines.append("tick %d" % hart if word == "tick" else "round %d" % whole if word == "round"
                             else f"step {hart} {whole}")
            count -= whole * each
            if whole < times:
                lines.extend(f"step {each} 1" for each in range(count))
                break
        return "".join(f"{line}\n" for line in lines)


class Cursor:
    """A place between the events of a schedule."""

    def __init__(self, schedule):
        self.lines, self.harts = schedule.lines, schedule.harts
        self.line, self.done = 0, 0  # the line, and how many of its events are over
        self.number = 0  # how many events are over in all

    def __iter__(self):
        return self

    def __next__(self):
        """The next event: whether it is a step, and its hart."""
        if self.line == len(self.lines):
            raise StopIteration
        word, hart, times = self.lines[self.line]
        if word == "round":
            hart, times = self.done % self.harts, times * self.harts
        self.number += 1
        self.done += 1
        if self.done == times:
            self.line, self.done = self.line + 1, 0
        return word != "tick", hart

    def skip(self, on, steps):
        """Goes on until the harts that have a process made so many steps; how many each of them made. None, and no event
        is over, where a tick or the end stands in between."""
        before, counts = (self.line, self.done, self.number), dict.fromkeys(
            (hart for hart, process in enumerate(on) if process is not None), 0)
        while steps:
            word, hart, times = self.lines[self.line] if self.line < len(self.lines) else ("tick", 0, 1)
            if word == "tick":
                self.line, self.done, self.number = before
                return None
            rounds = 0
            if word == "step":
                rounds = min(times - self.done, steps if hart in counts else times)
                self.pass_over(rounds, times)
                if hart in counts:
                    counts[hart], steps = counts[hart] + rounds, steps - rounds
                continue
            if self.done % self.harts == 0:
                rounds = min(times - self.done // self.harts, steps // len(counts))
            if rounds:
                counts = {hart: count + rounds for hart, count in counts.items()}
                steps -= rounds * len(counts)
                self.pass_over(rounds * self.harts, times * self.harts)
            else:
                _, hart = next(self)
                if hart in counts:
                    counts[hart], steps = counts[hart] + 1, steps - 1
        return counts

    def pass_over(self, events, of_line):
        self.number += events
        self.done += events
        if self.done == of_line:
            self.line, self.done = self.line + 1, 0
