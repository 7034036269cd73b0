"""Instructions as words: docs/formats.md, \"Instructions\"."""
import re

from rules.words import Refused, Word, end_of

FORMS = {
    "rd rs1 rs2": "add sub sll slt sltu xor srl sra or and",
    "rd rs1 imm": "addi slti sltiu xori ori andi",
    "rd rs1 sh": "slli srli srai",
    "rd imm(rs1)": "lb lh lw lbu lhu jalr",
    "rs2 imm(rs1)": "sb sh sw",
    "rs1 rs2 off": "beq bne blt bge bltu bgeu",
    "rd joff": "jal",
    "rd upper": "lui auipc",
    "": "fence ecall ebreak"}
FORM_OF = {mnemonic: form for form, mnemonics in FORMS.items() for mnemonic in mnemonics.split()}
RANGES = {"imm": (-2048, 2047), "sh": (0, 31), "off": (-4096, 4094), "joff": (-1048576, 1048574), "upper": (0, 1048575)}
SHORT = {  # what an assembler writes for short, and what it stands for
    "nop": "addi x0 x0 0", "mv": "addi RD RS 0", "li": "addi RD x0 IMM, or lui and addi", "not": "xori RD RS -1",
    "neg": "sub RD x0 RS", "seqz": "sltiu RD RS 1", "snez": "sltu RD x0 RS", "j": "jal x0 OFF", "jr": "jalr x0 0(RS)",
    "ret": "jalr x0 0(x1)", "call": "jal x1 OFF, or auipc and jalr", "la": "auipc and addi", "beqz": "beq RS x0 OFF",
    "bnez": "bne RS x0 OFF", "blez": "bge x0 RS OFF", "bgez": "bge RS x0 OFF", "bltz": "blt RS x0 OFF",
    "bgtz": "blt x0 RS OFF", "bgt": "blt RT RS OFF", "ble": "bge RT RS OFF", "bgtu": "bltu RT RS OFF",
    "bleu": "bgeu RT RS OFF", "sltz": "slt RD RS x0", "sgtz": "slt RD x0 RS", "subi": "addi with the opposite number",
    "scall": "ecall", "sbreak": "ebreak"}
BEYOND = (  # mnemonics of extensions, and what these are called
    ("mul|mulh|mulhsu|mulhu|div|divu|rem|remu", "M (multiplying and dividing)"), (r"c\..*", "C (compressed)"),
    (r"(lr|sc|amo\w+)\..*", "A (atomic)"), ("csr.*", "Zicsr (control registers)"),
    (r"f(?!ence).*", "F or D (floating point)"), (r"fence\.i", "Zifencei"), ("ld|sd|lwu|.*w", "RV64I (64 bits)"))
ABI = {"zero": 0, "ra": 1, "sp": 2, "gp": 3, "tp": 4, "t0": 5, "t1": 6, "t2": 7, "s0": 8, "fp": 8, "s1": 9,
       **{f"a{i}": 10 + i for i in range(8)}, **{f"s{i}": 16 + i for i in range(2, 12)},
       **{f"t{i}": 25 + i for i in range(3, 7)}}


def bad(word, wanted, seen=""):
    return Refused("BadInstruction", word, wanted, seen)


def mnemonic_seen(word):
    if word.lower() in FORM_OF:
        return f"it has large letters: {word.lower()}"
    if word.rstrip(",").lower() in FORM_OF:
        return "no comma stands between words"
    if word in SHORT:
        return f"an assembler writes it for short: {SHORT[word]}"
    for form, what in BEYOND:
        if re.fullmatch(form, word):
            return f"it is of {what}, and a machine has RV32I alone"
    if word in ("unimp", ".word", ".insn", "wfi", "mret", "sret"):
        return "what is no instruction of RV32I is written by `page`, as its bytes"
    return ""


def register(word):
    """A register, x0 to x31."""
    if re.fullmatch("x(0|[1-9][0-9]?)", word) and int(word[1:]) < 32:
        return
    if word.endswith(","):
        seen = "no comma stands between operands"
    elif word.lower() in ABI:
        seen = f"that is x{ABI[word.lower()]}"
    elif re.fullmatch("x[0-9]+", word):
        seen = f"no 0 stands in front: x{int(word[1:])}" if int(word[1:]) < 32 else "there are 32 registers"
    elif re.fullmatch("X[0-9]+", word):
        seen = f"it has a large letter: {word.lower()}"
    elif re.fullmatch("-?[0-9].*", word):
        seen = "a number stands where a register is wanted"
    elif re.fullmatch("f[a-z]*[0-9]+", word):
        seen = "there are no registers for floating point"
    elif "," in word:
        seen = "operands are a space apart, with no comma"
    else:
        seen = ""
    raise bad(word, "a register, x0 to x31", seen)


def value_of(word):
    """An immediate of any size, or None."""
    if re.fullmatch("-?[0-9]{1,10}", word) and abs(int(word)) < 1 << 32:
        return int(word)
    return int(word, 16) if re.fullmatch("0x[0-9a-fA-F]{1,8}", word) else None


def immediate(word, kind):
    """A number in the range of its kind; a distance is even."""
    least, most = RANGES[kind]
    even = "an even number" if kind in ("off", "joff") else "a number"
    wanted = f"{even}, {least} to {most}"
    value = value_of(word)
    if value is None:
        raise bad(word, wanted, immediate_seen(word, kind))
    if not least <= value <= most:
        raise bad(word, wanted, range_seen(value, kind))
    if "off" in kind and value % 2:
        raise bad(word, wanted, f"{value} is odd")


def range_seen(value, kind):
    if kind == "upper" and value % 4096 == 0:
        return f"these are the upper twenty bits alone: {value >> 12}, or {value >> 12:#x}"
    if kind == "imm" and (1 << 32) - 2048 <= value:
        return f"a number below 0 has a -: {value - (1 << 32)}"
    return f"{value} is " + ("too small" if value < 0 else "too large")


def immediate_seen(word, kind):
    if word.endswith(","):
        return "no comma stands between operands"
    if re.fullmatch("-0x[0-9a-fA-F]+", word):
        return f"hexadecimal digits have no sign: {int(word, 16)}"
    if re.fullmatch("0X[0-9a-fA-F]+", word):
        return f"the x is small: {word.lower()}"
    if re.fullmatch("[+][0-9]+", word):
        return f"no + stands in front: {word[1:]}"
    if re.fullmatch("[0-9a-fA-F]*[a-fA-F][0-9a-fA-F]*", word) and word not in ABI:
        return f"hexadecimal digits stand behind 0x: 0x{word}"
    if word.lower() in ABI or re.fullmatch("x[0-9]+", word):
        return "a register stands where a number is wanted"
    if kind in ("off", "joff") and re.fullmatch(r"[.A-Za-z_][\w.]*", word):
        return "there are no labels: a distance in bytes from this instruction"
    return ""


def address(word):
    """`imm(rs1)`."""
    number, rest = word.cut("(")
    if rest is None or not rest.endswith(")") or ")" in rest[:-1]:
        seen = "no comma stands between operands" if "," in word else "there is no space before the (" \
            if value_of(word) is not None else ""
        raise bad(word, "a number and a register in parentheses, as 8(x2)", seen)
    if not number:
        raise bad(word, "a number and a register in parentheses, as 8(x2)", f"the number is missing: 0{word}")
    immediate(number, "imm")
    register(rest.part(0, len(rest) - 1))


def instruction(words):
    """The words of an instruction; what is wrong from left to right."""
    form = FORM_OF.get(words[0])
    if form is None:
        raise bad(words[0], "an instruction of RV32I, in small letters, as addi, lw or beq", mnemonic_seen(words[0]))
    operands = form.split()
    shown = f"{words[0]} {form.replace('joff', 'off').replace('upper', 'imm')}".strip()
    for word, operand in zip(words[1:], operands):
        if operand in RANGES:
            immediate(word, operand)
        elif "(" in operand:
            address(word)
        else:
            register(word)
    if len(words) - 1 != len(operands):
        extra = words[len(operands) + 1] if len(words) - 1 > len(operands) else None
        seen = "the instruction ends before it" if extra else "an operand is missing"
        if extra and extra[0] in "#;/":
            seen = "no remark stands behind a statement"
        raise bad(extra or Word(" ", end_of(words).at), shown, seen)
