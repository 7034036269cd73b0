"""What `separation` tells, with the names of the listing."""
import re

from runs.records import LIMITS

SLOTS = ("its space", "its schedule", "its fault handler")
COUNTED = {"page": "page", "cappage": "cappage", "gpt": "gpt", "endpoint": "endpoint", "entry": "endpoint",
           "process": "process"}
FIRST = ("crossing ", "crossings ", "range ", "halts ", "logs ", "sleeper ", "separated ")
REMEDIES = {"reads": "; a line `reads {} {}` would allow it", "writes": "; a line `writes {} {}` would allow it",
            "never": "; no line would allow it"}


def is_told(line):
    return line.startswith(FIRST)


def place(kind, number):
    """The place of an object in which a capability stands."""
    if kind == "endpoint":
        return "its recipient"
    if kind == "process":
        return SLOTS[number] if number < 3 else f"capability register {number - 3}"
    return f"slot {number}"


def capability(word, programs):
    """A capability in words."""
    head, _, letters = word.partition("+")
    kind, _, rest = head.partition(":")
    number = re.match(r"\d*", rest).group()
    told = kind if kind not in COUNTED else programs.called(COUNTED[kind], int(number))
    told = f"an entry to {told}" if kind == "entry" else told
    limits = ", ".join(LIMITS[letter] for letter in letters)
    if kind in ("page", "cappage", "gpt", "window", "local"):
        return f"{told} ({limits or 'it may be written'})"
    return told


def crossing(words, programs):
    """`crossing KIND N PLACE CAP NAME -> NAME REMEDY`."""
    kind, number, at, cap, one, _, other, remedy = words[1:]
    held = programs.names["given"].get(int(number), {}).get(int(at) - 3) if kind == "process" else None
    told = f"{one} -> {other}: {programs.called(kind, int(number))} has {capability(cap, programs)} in {place(kind, int(at))}"
    return told + (f", which the plan gave it as {held}" if held else "") + REMEDIES.get(remedy, "").format(one, other)


def told(line, programs):
    """A line of `separation` in words; what says enough stands as it is."""
    words = line.split()
    if words[0] == "crossing" and len(words) == 9:
        return crossing(words, programs)
    if words[0] == "range" and len(words) == 6:
        return f"{words[4]}: {programs.called(words[1], int(words[2]))} holds a Range in " \
            f"{place(words[1], int(words[3]))}, and may make capabilities to anything"
    if words[0] in ("halts", "logs") and len(words) == 5:
        held, may = ("SysCtl", "halt the machine") if words[0] == "halts" else ("KernLog", "write to the log")
        return f"{words[4]}: {programs.called(words[1], int(words[2]))} holds {held} in " \
            f"{place(words[1], int(words[3]))}, and may {may}; a line `{words[0]} {words[4]}` would allow it"
    if words[0] == "sleeper" and len(words) == 6:
        return f"{words[2]} -> {words[4]}: {programs.called('process', int(words[1]))} waits until a process of " \
            f"{words[4]} receives"
    if words[0] == "crossings":
        return f"the policy doesn't hold: {words[1]} " + ("crossing" if words[1] == "1" else "crossings")
    if words[0] == "separated":
        return f"the policy holds, of {words[1].split('=')[1]} domains"
    if words[0] == "domain":
        return domain(words)
    if words[0] == "unused" and len(words) == 4:
        return f"the policy would hold as well without its line `{' '.join(words[1:])}`"
    return line


def domain(words):
    """`domain NAME objects=N processes=P reads=A,B writes=C view=A,B,C [halts] [logs]`."""
    objects, processes, *related = (word.split("=")[1] for word in words[2:7])
    told = f"{words[1]}: {objects} objects, {processes} of them processes" + "".join(
        f"; {what} " + ("nobody" if names == "-" else names.replace(",", ", "))
        for what, names in zip(("reads", "writes", "may learn of"), related))
    shared = {"halts": "may halt the machine", "logs": "may write to the log"}
    return told + "".join(f"; {shared[word]}" for word in words[7:])
