"""What `run` or `trace` wrote, a piece at a time."""
import re

PIECE = 1 << 20  # bytes that are read at once
REFUSAL = re.compile(r"(refused \d+ \w+|too long|usage: .*)")


class Output:
    """A stream of records, with what stands behind them: a last state, or a refusal."""

    def __init__(self, stream):
        self.stream, self.rest, self.refusal = stream, [], ""

    def pieces(self):
        """The records, as pieces of whole lines; what stands behind them is kept. A line that is cut is none."""
        left = b""
        while data := self.stream.read(PIECE):
            data = left + data
            cut = data.rfind(b"\n") + 1
            left, data = data[cut:], data[:cut]
            at = 0 if data.startswith(b"state\n") else data.find(b"\nstate\n") + 1
            if data.startswith(b"state\n") or at:
                yield from self.records(data[:at])
                self.rest = (data[at:] + left + self.stream.read()).decode().splitlines()[1:]
                return
            yield from self.records(data)
        if REFUSAL.fullmatch(left.decode("ascii", "replace")):
            self.refusal = left.decode()

    def records(self, data):
        """A piece, if it has lines; a refusal at the end is none."""
        last = data.rfind(b"\n", 0, -1) + 1
        if REFUSAL.fullmatch(data[last:-1].decode("ascii", "replace")):
            self.refusal, data = data[last:-1].decode(), data[:last]
        if data:
            yield data

    @property
    def is_whole(self):
        """Whether the last state is there to its end."""
        return self.rest[-1:] == ["end"]
