"""The page of a policy: domains as boxes, what each may do as arrows and marks, and what crosses in red.

It has no script. Whose view is shown is a choice among buttons of a form, of which each box is a label, and the style sheet
dims what isn't in it.
"""
from html import escape

from policy_page.answer import HELD, Answer
from policy_page.contents import Contents, counted, cut_names
from policy_page.layout import FEW, Picture
from policy_page.policy import PAIRED, Policy, line_text
from runs import crossings
from runs.programs import Programs
from runs.records import count

WIDE, SMALL = 232, 126  # pixels of a box, and of one among many
ROW, LEAD, FOOT = 16, 24, 22  # of a row of a box, of its first row, and of its last with the space around
RADIUS, GAP, SMALL_GAP = 210, 26, 8
LETTER = 6.2  # pixels of a letter of a label
MOST_LABELS, MOST_IN_BOX, MOST_TOLD = 12, 2, 1000
MEANS = {"reads": "reads: from who may read", "writes": "writes: from who may write pages, and read them",
         "unused": "a line without which the policy would hold as well", "allowed": "a crossing that a line would allow",
         "never": "a crossing that no line would allow"}
EMPTY = "The answer is empty, as `separation least` leaves it where no line is needed and its status is 0. Where it failed, its " \
    "output is empty, too, and its status another."


class Drawing:
    """All parts of the page."""

    def __init__(self, text, text_name, answer, answer_name):
        self.policy = Policy(text, text_name)
        self.answer = Answer(answer, answer_name, self.policy, text_name)
        self.programs, self.names = Programs(text), self.policy.names
        self.contents = Contents(self.policy, self.programs.names)
        self.objects = [self.policy.objects(domain) for domain in range(len(self.names))]
        self.order = [*range(1, len(self.names)), 0]  # `rest` stands last
        self.are_small = len(self.names) > FEW
        # Domains with one view have it by one class.
        views = sorted({tuple(sorted(view)) for view in self.answer.ways.views})
        self.view_of = [views.index(tuple(sorted(view))) for view in self.answer.ways.views]
        self.views = [set(view) for view in views]
        self.boxes = [self.box_lines(domain) for domain in range(len(self.names))]
        high = LEAD + ROW * max(map(len, self.boxes)) + FOOT
        self.picture = Picture(len(self.names), SMALL if self.are_small else WIDE, high, max(RADIUS, 1.5 * high),
                               SMALL_GAP if self.are_small else GAP)

    def parts(self, style):
        """What stands at the marks of the page, in their order, with the style of all such pages."""
        title = self.title()
        arrows, labels = self.arrows()
        return [("title", escape(title)), ("style", style + self.style()), ("title", escape(title)), ("said", self.said()),
                ("choices", self.choices()), ("width", str(self.picture.width)), ("height", str(self.picture.height)),
                ("picture", "\n".join([self.svg(arrows), *map(self.box, range(len(self.names))), *labels])),
                ("key", self.key()), ("rest", self.rest())]

    # -- sentences

    def title(self):
        domains = count(len(self.names), "domain")
        if self.answer.sort == "holds":
            return f"A policy that holds: {domains}"
        if self.answer.sort == "least":
            return f"The least lines of a policy: {domains}, {count(len(self.answer.lines), 'line')}"
        return f"A policy that doesn't hold: {domains}, {count(len(self.answer.crossings), 'crossing')}"

    def said(self):
        """What the answer says beside the picture."""
        names, found = self.names, []
        if self.answer.sort == "least":
            own = [line for line in self.policy.lines if line not in self.answer.lines]
            found.append("With these lines in the place of its own the policy holds, and it needs each of them."
                         if self.answer.lines else EMPTY)
            if own:
                found.append("Lines of the policy that aren't among them, and count for nothing here: "
                             + ", ".join(f"`{line_text(line, names)}`" for line in own) + ".")
        if self.answer.unused:
            found.append("The policy would hold as well without " + " or ".join(f"`{line_text(line, names)}`" for line
                         in self.answer.unused) + (", each by itself: of two that replace each other one has to stay."
                                                   if self.answer.unused[1:] else "."))
        return "\n".join(f"<p>{escape(each)}</p>" for each in found)

    def view_text(self, domain):
        """Who is in a domain's view, and what that means."""
        ways, name = self.answer.ways, self.names[domain]
        others = self.others(ways.views[domain], domain)
        told = f"The view of {name}: {', '.join(others)} and itself." if others else f"The view of {name}: itself alone."
        told += f" It reads {', '.join(self.others(ways.reads[domain], domain)) or 'nobody else'}, and writes " \
            f"{', '.join(self.others(ways.writes[domain], domain)) or 'nobody else'}."
        if self.answer.sort == "crosses":
            return told + " The policy doesn't hold, so this is what its lines ask for, and nothing follows from it."
        return told + (" What it sees depends only on the domains of its view and their turns." if self.answer.is_sure else "")

    def others(self, among, domain):
        return [self.names[other] for other in sorted(among - {domain})]

    def choices(self):
        """A button for each view, and a line of words for each."""
        buttons = ['<input type="radio" name="view" id="all" checked><label for="all">all</label>']
        told = ['<p class="view" id="t">Choose a domain, here or in the picture, to see its view.</p>']
        for domain in self.order:
            name = self.names[domain]
            buttons.append(f'<input type="radio" name="view" id="v{domain}"><label for="v{domain}">{name}</label>')
            told.append(f'<p class="view" id="t{domain}">{escape(self.view_text(domain))}</p>')
        return "\n".join([*buttons, *told])

    def style(self):
        """What is dimmed in each view, behind the style of all pages."""
        found = ["#all:checked ~ #t { display: block; }"]
        for domain, view in enumerate(self.view_of):
            at = f"#v{domain}:checked ~"
            found += [f"{at} #t{domain} {{ display: block; }}",
                      f"{at} .sheet .part:not(.in{view}) {{ opacity: .15; }}",
                      f"{at} .sheet #d{domain} {{ outline: 3px solid var(--chosen); }}"]
        return "\n".join(found)

    def classes(self, domains, crosses=False):
        """The views in which something of some domains is: those that have all of them, or of what crosses one of them."""
        return " ".join(["part", *(f"in{number}" for number, view in enumerate(self.views)
                                   if (domains & view if crosses else domains <= view))])

    # -- boxes

    def box_lines(self, domain):
        """The rows of a box below its name, each with its class."""
        objects = self.objects[domain]
        rows = [] if self.are_small else [("", text) for text in halves(counted(objects))]
        names = cut_names(self.contents.short(objects))
        if names and not self.are_small:
            rows.append(("place", names))
        alone = [crossing for crossing in self.answer.crossings if crossing.other is None and crossing.one == domain]
        if self.are_small and alone:
            return [*rows, ("bad", count(len(alone), "crossing"))]
        for crossing in alone[:MOST_IN_BOX]:
            rows += [("bad", f"{HELD[crossing.sort]} in {self.programs.called(*object_of(crossing))},"),
                     ("bad never" if crossing.remedy == "never" else "bad", f"{self.place(crossing)}: {crossing.remedy}")]
        if alone[MOST_IN_BOX:]:
            rows.append(("bad", f"and {len(alone) - MOST_IN_BOX:,} more"))
        return rows

    def box(self, domain):
        """A domain as a box."""
        x, y = self.picture.centers[self.order.index(domain)]
        wide, high = self.picture.wide, self.picture.high
        crossed = any(crossing.one == domain and crossing.other is None for crossing in self.answer.crossings)
        total = sum(map(len, self.objects[domain].values()))
        kinds = f"domain {self.classes({domain})}" + " small" * self.are_small + " crossed" * crossed + " empty" * (not total)
        rows = "".join(f'<span class="{kind}" title="{escape(text)}">{escape(text)}</span>'
                       for kind, text in self.boxes[domain])
        return f'<div class="{kinds}" id="d{domain}" style="left:{x - wide / 2:.0f}px;top:{y - high / 2:.0f}px;' \
            f'width:{wide}px;height:{high}px"><label for="v{domain}"><b>{self.names[domain]}</b>{rows}' \
            f'<span class="marks">{self.marks(domain)}</span></label>{self.folded(domain, total)}</div>'

    def marks(self, domain):
        """Whether it may hold SysCtl and KernLog, and whether it does, where the answer tells that."""
        found = ""
        for word, held in (("halts", "SysCtl"), ("logs", "KernLog")):
            if (word, domain) not in self.answer.lines:
                continue
            holds = self.answer.sort == "least" or word in self.answer.marks.get(domain, [])
            says = f"the line `{word} {self.names[domain]}`" + (
                f", and an object of it holds {held}" if holds else
                f", and no object of it holds {held}" if self.answer.sort == "holds" else "")
            found += f'<i class="mark {word}{" held" if holds else ""}" title="{says}">{word}</i>'
        return found

    def folded(self, domain, total):
        """What is in it, folded."""
        if not total:
            return "<details><summary>no objects</summary></details>"
        lists = "".join(f"<h3>{title}</h3><ul>{''.join(f'<li>{escape(line)}</li>' for line in lines)}</ul>"
                        for title, lines in self.contents.listed(self.objects[domain]))
        return f'<details><summary>{count(total, "object")}</summary><div class="contents">{lists}</div></details>'

    # -- arrows

    def arrows(self):
        """The curves, each with what it says, and the labels of those that cross."""
        found = [(line[1], line[2], line[0] + " unused" * (line in self.answer.unused), self.line_told(line), None)
                 for line in self.answer.lines if line[0] in PAIRED and line[1] != line[2]]
        groups = self.groups()
        found += [(one, other, "crossing never" if several[0].remedy == "never" else "crossing",
                   "\n".join(crossings.told(each.line, self.programs) for each in several[:MOST_LABELS]), several)
                  for (one, other), several in groups.items()]
        curves = self.picture.curves([(self.order.index(one), self.order.index(other)) for one, other, *_ in found])
        paths, labels = [], []
        for (one, other, kinds, told, several), curve in zip(found, curves):
            classes = self.classes({one, other}, bool(several))
            paths.append(f'<path class="arrow {kinds} {classes}" d="{curve.path}" marker-end="url(#{kinds.split(" ")[0]})">'
                         f"<title>{escape(told)}</title></path>")
            if several:
                labels.append(self.label(curve, several, classes, len(groups) > MOST_LABELS))
        return paths, labels

    def line_told(self, line):
        return f"{self.names[line[1]]} {line[0]} {self.names[line[2]]}" + ", unused" * (line in self.answer.unused)

    def groups(self):
        """The crossings from one domain to another, those first that no line would allow."""
        found = {}
        for crossing in sorted(self.answer.crossings, key=lambda crossing: crossing.remedy != "never"):
            if crossing.other is not None:
                found.setdefault((crossing.one, crossing.other), []).append(crossing)
        return found

    def label(self, curve, several, classes, is_brief):
        """For each remedy the first crossing that has it; or how many have it."""
        rows = []
        for remedy in dict.fromkeys(crossing.remedy for crossing in several):
            first, *others = [crossing for crossing in several if crossing.remedy == remedy]
            if is_brief:
                rows.append((f"{len(others) + 1:,} ", remedy, ""))
            else:
                rows += [(f"{self.programs.called(*object_of(first))},", "", ""),
                         (f"{self.place(first)}: ", remedy, f", and {len(others):,} more" if others else "")]
        wide, high = 14 + LETTER * max(len("".join(row)) for row in rows), 6 + 14 * len(rows)
        x, y = self.picture.label(curve, wide, high)
        text = "<br>".join(escape(front) + (f"<b>{remedy}</b>" if remedy == "never" else remedy) + more
                           for front, remedy, more in rows)
        return f'<div class="told {classes}" style="left:{x:.0f}px;top:{y:.0f}px;width:{wide:.0f}px">{text}</div>'

    def place(self, crossing):
        if crossing.sort == "sleeper":
            return f"sleeps on a process of {self.names[crossing.other]}"
        return crossings.place(crossing.words[1], int(crossing.words[3]))

    def svg(self, paths):
        heads = "".join(head_of(name) for name in (*PAIRED, "crossing"))
        sizes = f'width="{self.picture.width}" height="{self.picture.height}"'
        return "\n".join([f"<svg {sizes}><defs>{heads}</defs>", *paths, "</svg>"])

    def key(self):
        """What is drawn, for what there is of it."""
        lines, found = self.answer.lines, []
        shown = [word for word in PAIRED if any(line[0] == word for line in lines)]
        remedies = {several[0].remedy == "never" for several in self.groups().values()}
        shown += ["unused"] * bool(self.answer.unused) + ["allowed"] * (False in remedies) + ["never"] * (True in remedies)
        drawn = {"unused": "reads unused", "allowed": "crossing", "never": "crossing never"}
        for name in shown:
            kinds = drawn.get(name, name)
            found.append(f'<span><svg width="44" height="12"><path class="arrow {kinds}" d="M2 6H40" '
                         f'marker-end="url(#{kinds.split(" ")[0]})"/></svg> {escape(MEANS[name])}</span>')
        for word, held in (("halts", "SysCtl"), ("logs", "KernLog")):
            if any(line[0] == word for line in lines):
                found.append(f'<span><i class="mark {word}">{word}</i> may hold {held}</span>')
                if self.answer.sort != "crosses":
                    found.append(f'<span><i class="mark {word} held">{word}</i> holds it</span>')
        return "".join(found)

    # -- below

    def rest(self):
        return "\n".join(filter(None, [self.crossing_table(), self.domain_table()]))

    def crossing_table(self):
        if not self.answer.crossings:
            return ""
        rows = "".join(f'<tr><td>{number}</td><td class="{"never" if each.remedy == "never" else ""}">{each.remedy}</td>'
                       f"<td>{escape(crossings.told(each.line, self.programs))}</td></tr>"
                       for number, each in enumerate(self.answer.crossings[:MOST_TOLD], 1))
        more = len(self.answer.crossings) - MOST_TOLD
        behind = f"<p>and {more:,} more</p>" if more > 0 else ""
        return f"<h2>What crosses</h2>\n<table><tr><th></th><th>remedy</th><th></th></tr>{rows}</table>{behind}"

    def domain_table(self):
        ways, rows = self.answer.ways, ""
        for domain, name in enumerate(self.names):
            rights = [word for word in ("halts", "logs") if (word, domain) in self.answer.lines]
            related = [", ".join(self.others(among[domain], domain)) or "-" for among in (ways.reads, ways.writes, ways.views)]
            cells = [name, ", ".join(counted(self.objects[domain])) or "no objects", *related, ", ".join(rights) or "-"]
            rows += f"<tr>{''.join(f'<td>{escape(cell)}</td>' for cell in cells)}</tr>\n"
        head = "".join(f"<th>{word}</th>" for word in ("domain", "objects", "reads", "writes", "view", "may"))
        return f"<h2>Domains</h2>\n<table><tr>{head}</tr>\n{rows}</table>"


def head_of(name):
    """The head of an arrow."""
    return f'<marker id="{name}" viewBox="0 0 10 10" refX="9" refY="5" markerWidth="11" markerHeight="11" ' \
        f'markerUnits="userSpaceOnUse" orient="auto"><path class="{name}" d="M0 0L10 5L0 10z"/></marker>'


def object_of(crossing):
    """The kind and number of the object that holds it."""
    if crossing.sort == "sleeper":
        return "process", int(crossing.words[1])
    return crossing.words[1], int(crossing.words[2])


def halves(words):
    """Words in two rows, where they are many."""
    if len(", ".join(words)) <= 36:
        return [", ".join(words)] if words else []
    middle = (len(words) + 1) // 2
    return [", ".join(words[:middle]) + ",", ", ".join(words[middle:])]
