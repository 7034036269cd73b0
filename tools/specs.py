"""What the scripts of this folder read of the crates: definitions in specs/, and contracts in src/."""
import pathlib
import re
import textwrap

TOP = pathlib.Path(__file__).resolve().parent.parent
CRATES = TOP / "crates"
# the line on which a public definition begins, and its name
DEFINED = re.compile(r"^(\s*)(?:abbrev |unfoldable |opaque )*pub (?:abbrev |unfoldable |opaque )*(?:(?:record|data|class) )?([^\s:(){]+)")
# the line on which an item of Rust begins, its sort and its name
ITEM = re.compile(r"^(\s*)(?:pub(?:\(crate\))? )?(fn|enum|struct|trait) (\w+)")
CLAUSE = re.compile(r"^\s*(requires|ensures)(?: (\w+))? \{")


class Missing(Exception):
    """What was asked for isn't there."""


def crates():
    """The crates in the order of crates.txt, lowest first."""
    for line in (TOP / "crates.txt").read_text().splitlines():
        words = line.split("#")[0].split(":")[0].split()
        if words:
            yield words[0]


def layers():
    """The layers of crates.txt, lowest first: the name of each, and its crates with those that each stands on."""
    found = []
    for line in (TOP / "crates.txt").read_text().splitlines():
        if line.startswith("#"):
            found.append((line.lstrip("# ").partition(":")[0], {}))
        elif ":" in line:
            head, _, below = line.partition(":")
            found[-1][1][head.split()[0]] = below.split()
    return found


def top_comment(crate):
    """The comment at the top of a crate, by its paragraphs."""
    paragraphs = [[]]
    root = next((path for path in (CRATES / crate / "src" / name for name in ("lib.rt", "main.rt")) if path.is_file()), None)
    for line in root.read_text().splitlines() if root else ():
        if not line.startswith("//!"):
            break
        words = line[len("//!"):].split()
        if words:
            paragraphs[-1] += words
        elif paragraphs[-1]:
            paragraphs.append([])
    return [" ".join(words) for words in paragraphs if words]


def spec_files(crate):
    """The files of specs/ in their reading order, which is that of Lib.antt."""
    folder = CRATES / crate / "specs"
    yield from listed_files(folder / "Lib.antt", folder)


def listed_files(listing, folder):
    """The files of a folder in the order in which a file lists their modules, each with those that it lists itself, which
    stand in the folder of its name."""
    for module in re.findall(r"^pub mod (\w+)", listing.read_text(), re.M) if listing.is_file() else ():
        file = folder / f"{module}.antt"
        if file.is_file():
            yield file
            yield from listed_files(file, folder / module)


def spec_name(crate, file):
    """A file of specs/ as a reader names it: `Cut`, or of a module `isolation/Agree`."""
    return file.relative_to(CRATES / crate / "specs").with_suffix("").as_posix()


def heading(text):
    """The first comment of a file: what its words describe."""
    lines = []
    for line in text.splitlines():
        if not line.startswith("--"):
            break
        lines.append(line.lstrip("-").strip())
    return " ".join(lines)


class Definition:
    """A public word, the comment above it, and the lines that define it. `line` is where the comment begins."""

    def __init__(self, name, comment, body, line):
        self.name, self.comment, self.body, self.line = name, comment, body, line

    def english(self):
        return " ".join(line.strip().lstrip("-").strip() for line in self.comment)

    def text(self):
        return textwrap.dedent("\n".join(self.comment + self.body)).splitlines()


def blocks(text):
    """The parts of a file between blank lines, each with the number of its first line."""
    block, first = [], 1
    for number, line in enumerate(text.splitlines() + [""], 1):
        if line.strip():
            if not block:
                first = number
            block.append(line)
        elif block:
            yield first, block
            block = []


def definitions(text):
    """Each public definition of a file. Some stand one behind the other below one comment."""
    for first, block in blocks(text):
        comment, body, found, began = [], [], None, first
        for number, line in enumerate(block, first):
            at = DEFINED.match(line)
            starts = at and not re.match(r"\s*pub (use|mod) ", line) and (found is None or at.group(1) == found[1])
            if starts:
                if found:
                    yield Definition(found[0], comment, body, began)
                    comment, body, began = [], [], number
                found = (at.group(2), at.group(1))
            if not found and line.strip().startswith("--"):
                if not line.strip().startswith("-- ----"):
                    comment.append(line)
            elif found:
                body.append(line)
            else:
                comment = []
        if found:
            yield Definition(found[0], comment, body, began)


class Item:
    """A function with its contract, or a type, of Rust. `clauses` has pairs of a clause's name and its lines."""

    def __init__(self, sort, name, line, comment, head, clauses):
        self.sort, self.name, self.line = sort, name, line
        self.comment, self.head, self.clauses = comment, head, clauses

    def names(self):
        return [name for kind, name, _ in self.clauses if kind == "ensures"]

    def text(self, wanted=None):
        """The item with all of its clauses, or without its arguments and with those of these names."""
        indent = re.match(r"\s*", self.head[0]).group()
        if wanted is None:
            lines = self.comment + self.head + [line for _, _, clause in self.clauses for line in clause]
        else:
            lines = self.comment + [f"{indent}{self.head[0].split(self.name)[0].strip()} {self.name}(..)"]
            lines += [line for _, name, clause in self.clauses for line in clause if name in wanted]
        return textwrap.dedent("\n".join(lines)).splitlines()


def depth(line):
    return line.count("{") - line.count("}")


def contract(lines, at, indent):
    """The lines of a signature from `at` on, and its clauses, up to the body or the end of a trait's method."""
    head, clauses, remarks, i = [], [], [], at
    while i < len(lines):
        line = lines[i]
        if line in (indent + "{", indent + "{}"):
            break
        begins = CLAUSE.match(line)
        if begins:
            clause, level, remarks = remarks + [line], depth(line), []
            while level > 0 and i + 1 < len(lines):
                i += 1
                clause.append(lines[i])
                level += depth(lines[i])
            ended = clause[-1].rstrip().endswith(";")
            clauses.append((begins.group(1), begins.group(2) or "", clause))
            if ended:
                break
        elif line.strip().startswith("//"):
            remarks.append(line)
        elif line.strip():
            if clauses:
                break
            head.append(line)
            if line.rstrip().endswith((";", "{}")) or (line.rstrip().endswith("{") and "fn " in line):
                break
        i += 1
    return head, clauses


def items(text):
    """Each function and type of a file."""
    lines = text.splitlines()
    for at, line in enumerate(lines):
        found = ITEM.match(line)
        if not found:
            continue
        indent, sort, name = found.groups()
        above = at
        while above and lines[above - 1].strip().startswith(("///", "#[")):
            above -= 1
        comment = [each for each in lines[above:at] if each.strip().startswith("///")]
        if sort == "fn":
            head, clauses = contract(lines, at, indent)
        else:
            end = at
            while end < len(lines) - 1 and not lines[end].rstrip().endswith(";") and lines[end] != indent + "}":
                end += 1
            head, clauses = lines[at:end + 1], []
        yield Item(sort, name, at + 1, comment, head, clauses)


def sources(crate):
    """The files of a crate's code, in the order of their names."""
    return sorted((CRATES / crate / "src").rglob("*.rt"))


def module_sources(crate, module):
    """Those of one of its modules: the module's own file, and what stands in the folder of its name."""
    folder = CRATES / crate / "src"
    return [file for file in sources(crate) if file == folder / f"{module}.rt" or folder / module in file.parents]


def lines_of(files, sign):
    """How many lines are neither blank nor a comment."""
    texts = (line.strip() for file in files for line in file.read_text().splitlines())
    return sum(1 for line in texts if line and not line.startswith(sign))


def sizes(crate):
    """The lines of a crate's code, definitions and proofs, and how many edits it has."""
    folder = CRATES / crate
    return (lines_of(folder.glob("src/**/*.rt"), "//"), lines_of(folder.glob("specs/**/*.antt"), "--"),
            lines_of(folder.glob("proofs/**/*.antt"), "--"), len(list(folder.glob("must-fail/*.edit"))))
