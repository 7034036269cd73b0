"""What is in a domain, in words: its objects by kind, with the names that the plan gave."""
from policy_page.policy import KINDS
from runs.records import count

ONE, SEVERAL = {"cappage": "capability page", "gpt": "GPT"}, {"process": "processes"}
MOST_NAMES = 40  # letters of names in a box


def kind_text(kind, number):
    """So many objects of a kind."""
    one = ONE.get(kind, kind)
    return count(number, one, SEVERAL.get(kind))


def counted(objects):
    """How many objects there are of each kind."""
    return [kind_text(kind, len(objects[kind])) for kind in KINDS if objects[kind]]


class Contents:
    """The objects of domains, with the names of a listing."""

    def __init__(self, policy, names):
        self.policy, self.given = policy, {}
        for kind in KINDS:
            for first, last, name in names[kind]:
                for number in range(first, min(last + 1, policy.sizes[kind])):
                    self.given.setdefault((kind, number), (name, first, last))

    def short(self, objects):
        """The names of the plan, without those that the plan's tools made: programs first, and a group once."""
        found = (self.given.get((kind, number), (" ",))[0] for kind in KINDS for number in objects[kind])
        return list(dict.fromkeys(name for name in found if " " not in name))

    def runs(self, kind, numbers):
        """Numbers in a row that have no name, or one name together: the first, the last and the name."""
        found = []
        for number in numbers:
            given = self.given.get((kind, number))
            if found and found[-1][1] == number - 1 and found[-1][2] == given:
                found[-1][1] = number
            else:
                found.append([number, number, given])
        return found

    def listed(self, objects):
        """For each kind its title, and a line for each run of its numbers."""
        for kind in filter(objects.get, KINDS):
            yield kind_text(kind, len(objects[kind])), [run_text(*run) for run in self.runs(kind, objects[kind])]


def run_text(first, last, given):
    """A run of objects, with its name."""
    return f"{first}" + (f" to {last}" if last > first else "") + (f" ({name_of(given, first, last)})" if given else "")


def name_of(given, first, last):
    """The name of a run of objects: of a group with the numbers in it, unless all of it is there."""
    name, begin, end = given
    if " " in name or (first, last) == (begin, end):
        return name
    return f"{name}.{first - begin}" + (f" to {last - begin}" if last > first else "")


def cut_names(names):
    """As many names as a box has room for."""
    kept = []
    for name in names:
        if kept and len(", ".join([*kept, name])) > MOST_NAMES:
            return ", ".join([*kept, ".."])
        kept.append(name)
    return ", ".join(kept)
