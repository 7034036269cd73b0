"""The names in a listing: what tools/listing-of writes as remarks. A listing without them has no names."""
import re

KINDS = "page|cappage|gpt|endpoint|process"
FORMS = re.compile(rf"""\#\ (?:(?P<kind>{KINDS})\ (?P<first>\d+)(?:\ to\ (?P<last>\d+))?
                           |(?P<what>file|memory)\ of\ process\ (?P<process>\d+)
                           |capreg\ (?P<holder>\d+)\ (?P<register>\d+)):\ (?P<text>.*)""", re.X)
OLDER = re.compile(r"^# (\w+)\nprocess (\d+) ", re.M)


def names_of(listing):
    """Names of objects by kind, and of each process its file, what is in its memory and what it was given to hold."""
    found = {"page": [], "cappage": [], "gpt": [], "endpoint": [], "process": [], "file": {}, "memory": {}, "given": {}}
    for name, number in OLDER.findall(listing):
        found["process"].append((int(number), int(number), name))
        found["file"][int(number)] = name
    for line in listing.splitlines():
        form = FORMS.fullmatch(line) if line.startswith("# ") else None
        if not form:
            continue
        if form["kind"]:
            first = int(form["first"])
            found[form["kind"]].append((first, int(form["last"] or first), form["text"]))
        elif form["what"] == "file":
            found["file"][int(form["process"])] = form["text"]
        elif form["what"]:
            found["memory"].setdefault(int(form["process"]), []).append(form["text"])
        else:
            found["given"].setdefault(int(form["holder"]), {})[int(form["register"])] = form["text"]
    return found
