"""A listing as a run takes it: its statements, and its schedule as events with numbers."""
from debugger.schedule import Schedule


class Listing:
    """A text that the program accepts."""

    def __init__(self, text):
        lines = list(lines_of(text))
        machine = next(words for words, _ in lines if words[0] == "machine")
        self.statements = "".join(f"{' '.join(words)}\n" for words, behind in lines if not behind).encode()
        self.schedule = Schedule([words for words, behind in lines if behind], int(machine[1]))
        self.process_count = int(machine[5])


def lines_of(text):
    """The words of each line that isn't skipped, and whether it stands behind the listing."""
    behind = False
    for line in text.splitlines():
        words = line.split()
        if words and words[0][0] != "#":
            yield words, behind
            behind = behind or words == ["end"]
