"""Instructions of RV32I as words: the spelling is that of docs/formats.md, the numbers are those of the RISC-V manual."""
import re

REGISTERS = dict(zip("add sub sll slt sltu xor srl sra or and".split(),
                     ((0, 0), (0, 32), (1, 0), (2, 0), (3, 0), (4, 0), (5, 0), (5, 32), (6, 0), (7, 0))))
IMMEDIATES = {"addi": 0, "slti": 2, "sltiu": 3, "xori": 4, "ori": 6, "andi": 7}
SHIFTS = {"slli": (1, 0), "srli": (5, 0), "srai": (5, 32)}
LOADS = {"lb": 0, "lh": 1, "lw": 2, "lbu": 4, "lhu": 5}
STORES = {"sb": 0, "sh": 1, "sw": 2}
BRANCHES = {"beq": 0, "bne": 1, "blt": 4, "bge": 5, "bltu": 6, "bgeu": 7}
UPPER = {"lui": 0x37, "auipc": 0x17}
ALONE = {"fence": 0x0000000f, "ecall": 0x00000073, "ebreak": 0x00100073}


def bits(value, high, low):
    return value >> low & (1 << high - low + 1) - 1


def word_of(text):
    """The word of an instruction."""
    name, *operands = text.replace("(", " ").replace(")", " ").split()
    if name in ALONE:
        return ALONE[name]
    one, *rest = (int(re.sub("^x(?=[0-9])", "", each), 0) for each in operands)
    if name in REGISTERS:
        three, seven = REGISTERS[name]
        return seven << 25 | rest[1] << 20 | rest[0] << 15 | three << 12 | one << 7 | 0x33
    if name in SHIFTS:
        three, seven = SHIFTS[name]
        return seven << 25 | rest[1] << 20 | rest[0] << 15 | three << 12 | one << 7 | 0x13
    if name in IMMEDIATES:
        return bits(rest[1], 11, 0) << 20 | rest[0] << 15 | IMMEDIATES[name] << 12 | one << 7 | 0x13
    if name in LOADS or name == "jalr":
        return bits(rest[0], 11, 0) << 20 | rest[1] << 15 | LOADS.get(name, 0) << 12 | one << 7 | (
            0x67 if name == "jalr" else 0x03)
    if name in STORES:
        return (bits(rest[0], 11, 5) << 25 | one << 20 | rest[1] << 15 | STORES[name] << 12 | bits(rest[0], 4, 0) << 7 | 0x23)
    if name in UPPER:
        return rest[0] << 12 | one << 7 | UPPER[name]
    if name in BRANCHES:
        far = rest[1]
        return (bits(far, 12, 12) << 31 | bits(far, 10, 5) << 25 | rest[0] << 20 | one << 15 | BRANCHES[name] << 12
                | bits(far, 4, 1) << 8 | bits(far, 11, 11) << 7 | 0x63)
    if name == "jal":
        far = rest[0]
        return (bits(far, 20, 20) << 31 | bits(far, 10, 1) << 21 | bits(far, 11, 11) << 20 | bits(far, 19, 12) << 12
                | one << 7 | 0x6f)
    raise ValueError(f"{text} is no instruction")
