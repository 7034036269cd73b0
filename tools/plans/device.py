"""Processes that stand for devices: a plan says what they do, and makes their code."""
import struct

from plans.program import Program
from plans.words import AREA, PAGE, TOP, need, number

WORDS_FORM = "sender NAME to ENDPOINT [payload PAYLOAD] words W [W ..] or words W .."
INPUT_FORM = "input NAME in PAGE OFFSET VALUE [VALUE ..]"
CODE, DATA = 0, PAGE  # where they stand in the space
AT, FIRST_VALUE, VALUE = 6, 7, 5  # registers: an address, the first of the values that stand in registers, one that doesn't
SENDS, TARGET = 1 << 5, 1  # an invocation with a send phase, of capability register 1
MOST_VALUES, MOST_SENT = 300, 4


def immediate(to, source, value):
    """ADDI."""
    return (value & 0xfff) << 20 | source << 15 | to << 7 | 0x13


def load(to, value):
    """The instructions that put a value into a register."""
    low = (value & 0xfff) - ((value & 0x800) << 1)
    high = value - low & 0xfffff000
    return ([high | to << 7 | 0x37] if high else []) + ([immediate(to, to if high else 0, low)] if low or not high else [])


def store(register):
    """SW to the address in register AT."""
    return register << 20 | AT << 15 | 2 << 12 | 0x23


def back(count):
    """A JAL over so many instructions back, from behind them to the first."""
    offset = -4 * count
    return ((offset >> 20 & 1) << 31 | (offset >> 1 & 0x3ff) << 21 | (offset >> 11 & 1) << 20 | (offset >> 12 & 0xff) << 12 | 0x6f)


def values_of(words):
    """The values that words spell; A..B are all from A to B."""
    found = []
    for word in words:
        first, dots, last = word.partition("..")
        low = number(first, "a value", TOP - 1, 16)
        high = number(last, "a value", TOP - 1, 16) if dots else low
        need(low <= high, f"the last value is below the first: {word}")
        need(len(found) + high - low < MOST_VALUES, f"there are at most {MOST_VALUES} values")
        found.extend(range(low, high + 1))
    return found


class Device(Program):
    """A process with code of its own, and neither a stack nor a file. It goes round without end."""

    def __init__(self, number_of_process, name):
        self.number, self.name, self.file = number_of_process, name, ""
        self.begin_bare()
        self.entry, self.registers = CODE, {}

    def code(self, plan, instructions):
        """Puts the code into the space, with a jump back to its first instruction."""
        need(len(instructions) < PAGE // 4, f"{self.name} has more instructions than a page")
        content = struct.pack(f"<{len(instructions) + 1}I", *instructions, back(len(instructions)))
        self.space.claim(CODE, PAGE, "r-x", "code")
        self.space.put(CODE, f"page:{self.own_pages(plan, 1, [content], 'code')}", "r")


def input_line(plan, words):
    """`input NAME in PAGE OFFSET VALUES ..`: a process that stores each of the values in turn."""
    need(len(words) >= 5 and words[1] == "in", INPUT_FORM)
    offset = number(words[3], "an offset", PAGE - 1, 16)
    need(offset % 4 == 0, f"an offset is a multiple of 4: {words[3]}")
    values = values_of(words[4:])
    made = add(plan, words[0])
    made.registers[AT] = DATA + offset
    rest = range(FIRST_VALUE, 32)
    if len(values) <= len(rest):  # each value has a register, so it takes one instruction
        made.registers.update(zip(rest, values))
        made.code(plan, [store(register) for register, _ in zip(rest, values)])
    else:
        made.code(plan, [one for value in values for one in [*load(VALUE, value), store(VALUE)]])

    def place():
        page = plan.memory(words[2], ("page",), alone=True)
        made.space.claim(DATA, PAGE, "rw-", f"page {words[2]}")
        made.space.put(DATA // PAGE, page.capabilities()[0], "x")
        plan.placed.append((made, words[2], DATA))
        plan.mapped.append((made, DATA // AREA))
        plan.writable.add(words[2].split(".")[0])
    plan.wait("said places", place)


def sender_line(plan, words):
    """`sender NAME to ENDPOINT [payload P] words .. or words ..`: a process that sends each of the messages in turn."""
    need(len(words) >= 5 and words[1] == "to", WORDS_FORM)
    payload, rest = ("0", words[3:]) if words[3] != "payload" else (words[4], words[5:])
    messages = []
    for word in ["or", *rest]:
        if word == "or":
            messages.append([])
        else:
            messages[-1].append(word)
    need(all(message[:1] == ["words"] and 2 <= len(message) <= 1 + MOST_SENT for message in messages), WORDS_FORM)
    made = add(plan, words[0])
    instructions = []
    for message in messages:
        sent = [number(word, "a word", TOP - 1, 16) for word in message[1:]] + [0] * (1 + MOST_SENT - len(message))
        for register, value in zip(range(10, 15), [SENDS | TARGET, *sent]):
            instructions.extend(load(register, value))
        instructions.append(0x73)
    made.code(plan, instructions)

    def hold():
        made.held[TARGET] = plan.entry([words[2], payload], made.name), f"entry {words[2]} {payload}"
    plan.wait("names", hold)


def add(plan, name):
    """A device by this name."""
    made = Device(len(plan.all("program")), name)
    plan.add(made)
    plan.pass_limit("processes", made.number + 1)
    plan.devices.append((plan.at, made))
    return made
