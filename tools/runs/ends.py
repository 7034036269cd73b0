"""How each program stands in the last state, in a line."""
ENDINGS = ("_start", "_exit")  # where a program's last breakpoint is: examples/lib/start.s, and libc.c
ABORTED = 128 + 6
CALL = 4  # bytes of a system call: the pc of a process that waits for a message is behind it


def signed(word):
    return word - (1 << 32) if word >> 31 else word


def is_end(programs, state, process):
    """Whether a process stands at the breakpoint with which the programs of examples/lib end."""
    pc = state.pc(process)
    name, _ = programs.function(process, pc)
    if name:
        return name in ENDINGS
    return process in programs.entries and pc - programs.entries[process] in (4, 8)


def ended(programs, state, process):
    status = signed(state.register(process, 10))
    return f"ended with status {status}" + (": aborted" if status == ABORTED else "")


def waits(programs, state, process, words):
    """A process that waits for a message: at which endpoints, and who holds entries to them."""
    ident = None if words[0] == "open" else int(words[0], 16)
    own = [number for number, (recipient, its, *_) in sorted(state.endpoints.items())
           if recipient == f"process:{process}" and ident in (None, int(its, 16))]
    if not own:
        return "waits for a message, and receives at no endpoint"
    from_whom = sorted({other for number in own for other in state.holders(number) if other != process})
    told = "waits for a message at " + " or ".join(programs.name_of("endpoint", number) or f"endpoint {number}"
                                                   for number in own)
    names = " and ".join(programs.process(other) for other in from_whom)
    return told + (f", to which {names} may send" if names else "")


def standing(programs, state, process):
    """How a process stands."""
    words = state.processes[process]
    what = words[4]
    if what == "faulted" and words[5] == "Breakpoint" and is_end(programs, state, process):
        return ended(programs, state, process)
    if what == "faulted":
        there = programs.there(process, int(words[6], 16))
        return f"stands at a fault: {words[5]} {words[6]}" + (f" ({there})" if there else "")
    if what == "waiting":
        return waits(programs, state, process, words[5:])
    if what == "stop":
        return "is stopped, and runs when somebody resumes it"
    if process in state.harts:
        return f"runs on hart {state.harts.index(process)}"
    if process in state.ready:
        return f"is ready to run, with priority {state.ready[process]}"
    if process in state.sleepers:
        return f"waits until {programs.process(state.sleepers[process])} receives"
    return what


def ends(programs, state):
    """A line for each process, by number; behind it the calls from which it has not returned, if it stands at a fault."""
    for process in sorted(state.processes):
        told = standing(programs, state, process)
        if not told.startswith("ended"):
            told += f"; at {programs.place(process, state.pc(process) - CALL * (state.processes[process][4] == 'waiting'))}"
        yield process, told
