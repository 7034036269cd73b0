"""The schedule of a listing as events with numbers, from 0 on."""
import bisect

MOST = 1_000_000  # times of one line


class Schedule:
    """Lines of a schedule, each with the number of its first event."""

    def __init__(self, lines, harts):
        self.harts, self.lines, self.firsts, at = harts, [], [], 0
        for words in lines:
            kind, hart, times = words[0], 0, 1
            if kind == "round":
                times = int(words[1])
            else:
                hart, times = int(words[1]), int(words[2]) if kind == "step" else 1
            self.lines.append((kind, hart, times))
            self.firsts.append(at)
            at += times * (harts if kind == "round" else 1)
        self.count = at

    def event(self, number):
        """What an event is: `step` or `tick`, and its hart."""
        i = bisect.bisect_right(self.firsts, number) - 1
        kind, hart, _ = self.lines[i]
        return ("step", (number - self.firsts[i]) % self.harts) if kind == "round" else (kind, hart)

    def told(self, number):
        """An event in words."""
        if number >= self.count:
            return "the end"
        kind, hart = self.event(number)
        return f"a {kind} of hart {hart}"

    def text(self, first, behind):
        """Lines that have the events from `first` to the one before `behind`."""
        made, i = [], bisect.bisect_right(self.firsts, first) - 1
        while first < behind:
            kind, hart, _ = self.lines[i]
            end = self.firsts[i + 1] if i + 1 < len(self.firsts) else self.count
            upto = min(end, behind)
            if kind == "round":
                made.extend(self.rounds(first - self.firsts[i], upto - self.firsts[i]))
            else:
                made.append(f"step {hart} {upto - first}" if kind == "step" else f"tick {hart}")
            first, i = upto, i + 1
        return "".join(f"{line}\n" for line in made).encode()

    def rounds(self, first, behind):
        """Lines for a part of a line of rounds: single steps up to a whole round, rounds, and single steps."""
        harts = self.harts
        whole, last = -(-first // harts), behind // harts
        if whole >= last:
            yield from (f"step {at % harts} 1" for at in range(first, behind))
            return
        yield from (f"step {at % harts} 1" for at in range(first, whole * harts))
        yield f"round {last - whole}"
        yield from (f"step {at % harts} 1" for at in range(last * harts, behind))
