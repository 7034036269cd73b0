"""The loop of an answer `avoided`, checked by running it: choice by choice, with what the program prints behind each."""
from collections import namedtuple

from exploring.question import Wrong
from exploring.search import joined
from exploring.state import State
from runs.found import NoRun, choices_of

# A place on a way through the lines that are told: the process there and the state that it prints, the place before with the
# choice between (by its number) and its line of a schedule, and how many choices and lines are over; of the line that comes
# next so many steps are over, too.
Place = namedtuple("Place", "process text before choice line choices lines steps")


class Lasso:
    """An answer, with the question that it is about and the states of its machine."""

    def __init__(self, question, places, answer, name):
        try:
            word, self.number, self.depth, self.loop, self.lines = choices_of(answer, name)
        except NoRun as wrong:
            raise Wrong(str(wrong))
        if word != "avoided":
            raise Wrong(f"{name} tells no loop")
        self.question, self.places = question, places
        self.line = next((line for line in question.lines if line.number == self.number and line.asks == "must"), None)

    def complaint(self):
        """What is wrong with the loop, in a sentence; None where nothing is."""
        if self.line is None:
            return f"line {self.number} is no line `must`"
        why = "its lines are no such choices of the question, one after the other, with the loop at a line of its own"
        for place in self.ends():
            why = self.judge(*self.way(place))
            if why is None:
                return None
        return why

    def ends(self):
        """The places behind all lines: more than one, where lines can be told in more ways as choices."""
        process = self.places.first.copy()
        left = [Place(process, self.places.text_of(process.copy()), None, None, None, 0, 0, 0)]
        try:
            while left:
                place = left[-1]
                behind = self.behind(place)
                place.process.close()
                left[-1:] = behind
                if place.lines == len(self.lines) and place.choices == self.depth + self.loop:
                    yield place
        finally:
            for place in left:
                place.process.close()

    def behind(self, place):
        """The places behind one more choice."""
        return [] if self.is_last(place) else list(self.next(place))

    def is_last(self, place):
        """Whether no choice can follow: all lines are over, or the loop would begin within a line."""
        return place.lines == len(self.lines) or place.choices == self.depth and place.steps

    def next(self, place):
        word, hart, *times = self.lines[place.lines].split()
        for number, choice in enumerate(self.question.choices):
            if choice.split()[1] != hart or (choice.split()[0] == "tick") != (word == "tick"):
                continue
            line = self.places.counted(place.process, choice)
            steps = 0 if word == "tick" else place.steps + int(line.split()[2])
            if word == "tick" or steps <= int(times[0]):
                process = self.places.chosen(place.process, line)
                is_over = word == "tick" or steps == int(times[0])
                yield Place(process, self.places.text_of(process.copy()), place, number, line, place.choices + 1,
                            place.lines + is_over, 0 if is_over else steps)

    @staticmethod
    def way(place):
        """The texts of the states, and the numbers and the lines of the choices, that led to a place."""
        found = []
        while place:
            found.append((place.text, place.choice, place.line))
            place = place.before
        texts, choices, lines = zip(*found[::-1])
        return texts, choices[1:], lines[1:]

    def judge(self, texts, choices, lines):
        """What is wrong with a way, in a sentence."""
        if [*joined(lines[:self.depth]), *joined(lines[self.depth:])] != self.lines:
            return "steps of one hart that could be one line are two"
        if texts[self.depth] != texts[-1]:
            return "the loop doesn't lead back to where it begins"
        if set(choices[self.depth:]) != set(range(len(self.question.choices))):
            return "a choice of the question is missing from the loop"
        states = [State(text) for text in texts]
        has = [state.holds_any(self.line.groups, self.question.policy) for state in states]
        asked = [not self.line.first or state.holds_any(self.line.first, self.question.policy) for state in states]
        firsts = range(self.depth + 1 if self.line.first else 1)
        if not any(asked[first] and not any(has[first:]) for first in firsts):
            return "a state on the way has the atoms, or none from which they must come is passed"
        return None
