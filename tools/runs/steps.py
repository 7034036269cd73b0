"""The steps of a trace: which records belong to one instruction of one process."""
STORES = (b"sb ", b"sh ", b"sw ")
ACCESSES = (b"lb ", b"lh ", b"lw ", b"lbu", b"lhu", *STORES)
BRANCHES = (b"beq", b"bne", b"blt", b"bge")
JUMPS = (b"jal", *BRANCHES)
OVER = (b"msg", b"log", b"destroy", b"halt", b"fault", b"capload", b"capstore")


def is_of_next_step(insn, rest, fault):
    """Whether a fault of the process whose step is looked at is that of its next fetch: this step was over before."""
    kinds = [line.split(b" ", 1)[0] for line in rest]
    if insn is None or insn == b"ebreak":
        return b"fault" in kinds
    if insn == b"ecall":
        return any(kind in OVER for kind in kinds)
    if insn[:3] in ACCESSES:
        return bool(kinds)
    return insn[:3] not in JUMPS or b"fault" in kinds or b" BadAlign " not in fault


def steps_of(lines, at=0):
    """Each step of the records: its process, its pc, its instruction (None where none was decoded), the records behind
    that, the places of its first record and behind its last one, and the page from which was fetched (None where none
    was)."""
    process = pc = insn = page = None
    rest, first = [], at
    for at, line in enumerate(lines, at):
        kind = line[:2]
        if kind == b"fe":
            if process is not None:
                yield process, pc, insn, rest, first, at, page
            _, number, pc, page = line.split(b" ", 3)
            process, insn, rest, first = int(number), None, [], at
        elif kind == b"in":
            insn = line.split(b" ", 3)[3]
        elif kind == b"fa":
            words = line.split(b" ", 4)
            number = int(words[1])
            if number != process or is_of_next_step(insn, rest, line):
                if process is not None:
                    yield process, pc, insn, rest, first, at, page
                process, pc, insn, rest, first, page = number, words[3], None, [], at, None
            rest.append(line)
        else:
            rest.append(line)
    if process is not None:
        yield process, pc, insn, rest, first, at + 1, page
