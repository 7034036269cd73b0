"""Lines of a plan's question that say nothing: a `never` or an `after` about what no program can do, and comparisons that are
true in every state, or in none."""
from plans.question import place_of_pc
from plans.reach import EBREAK, JALR, LOAD, STORE, Code, field, is_instruction

INVOKE, LOADCAP, STORECAP = 0, 1, 2


def warnings(plan):
    """The lines of a plan's question that say nothing, each with a sentence that says why."""
    codes = {}
    for one in plan.question:
        for _, atom in (pair for group in [*one.first, *one.groups] for pair in group):
            if atom.is_true is not None:
                yield one, f"`{' '.join(atom.words)}` is {'always' if atom.is_true else 'never'} true, since {atom.why}"
        about = {"never": one.groups, "after": one.first}.get(one.kind(), ())
        for negated, atom in (pair for group in about for pair in group):
            why = None if negated or atom.words[0] not in CAUSES or not atom.told.startswith(atom.words[0]) else \
                cause(plan, atom.words, codes)
            if why:
                yield one, f"this says nothing: `{' '.join(atom.words)}` can't be, since {why}"


def cause(plan, words, codes):
    """Why an atom holds in no state, where that can be seen."""
    about = CAUSES[words[0]]
    if about in (halted, word):
        return about(plan, words)
    made = plan.program(words[1])
    if not made.file:
        return None
    code = codes.setdefault(made.file, Code(plan.directory / made.file))
    return about(plan, words, made, code)


def halted(plan, _words):
    if not any(about == "sysctl" for made in plan.all("program") for _, about in made.held.values()):
        return "no program holds sysctl"
    return None


def word(plan, words):
    """A page that all have read-only, and for which nobody holds a range."""
    name = words[1].split(".")[0]
    held = [about.split() for made in plan.all("program") for _, about in made.held.values()]
    writable = [about for about in held if about[0] == "range" or about[0] == "page" and about[1].split(".")[0] == name
                and "r" not in "".join(about[2:])]
    if not writable and name not in plan.writable:
        return f"nobody may write to {name}, so its words stay as they are"
    return None


def faulted(plan, words, made, code):
    """A fault that no instruction makes."""
    if len(words) != 3 or code.lost:
        return None
    calls, name, fault = code.calls(), made.name, words[2]
    caps = bool(calls & {LOADCAP, STORECAP, None})
    if fault == "Breakpoint" and not code.has(lambda one: one == EBREAK):
        return f"{name} comes to no breakpoint: it never ends"
    if fault == "BadOpcode" and not code.has(lambda one: not is_instruction(one)):
        return f"all that {name} comes to are instructions; coy_fail() is none"
    if fault == "MalformedSyscall" and not calls:
        return f"{name} comes to no system call"
    if fault in ("InvalidCapReference", "CapAccessTypeError") and not caps:
        return f"{name} comes to no loadcap and no storecap"
    if fault == "BadAlign" and not caps and not code.has(is_aligned):
        return f"{name} comes to no access and no jump that has to be aligned"
    if fault == "NoSchedule" and not changes(plan, name):
        return f"nobody but {name} can take its schedule away"
    return None


def is_aligned(word):
    """Whether an instruction asks for an address that is a multiple of something."""
    opcode, function = field(word, 0, 7), field(word, 12, 3)
    return opcode == JALR or opcode in (LOAD, STORE) and function & 3 != 0


def changes(plan, name):
    """Whether somebody may have a capability to a program's process: one that holds it, or a range, or hears its faults."""
    return any(about in (f"process {name}", "range") for made in plan.all("program") for _, about in made.held.values()) \
        or any(sender[-1] == name and len(sender) == 2 for _, sender, _ in plan.payloads)


def pc(plan, words, made, code):
    first, last = place_of_pc(plan, words)
    if not code.lost and not any(first <= at <= last for at in code.reached):
        return f"{made.name} never comes there"
    return None


def receiving(_plan, _words, made, code):
    if not code.lost and not code.calls() & {INVOKE, None}:
        return f"{made.name} comes to no invocation"
    return None


CAUSES = {"faulted": faulted, "pc": pc, "receiving": receiving, "halted": halted, "word": word}
