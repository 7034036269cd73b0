"""The calls that a process has not returned from, by the frame rules that the compiler wrote into its ELF file.

For each address they say where the caller's stack pointer is, and where its registers were saved. They are read from the
table that `readelf` prints of them. Where an address has none, as in code written in assembler, the way ends.
"""
import re
import shutil
import subprocess

READER = "riscv64-unknown-elf-readelf"
MOST = 64  # calls that are followed
NUMBERS = {"ra": 1, "sp": 2, "gp": 3, "tp": 4, "t0": 5, "t1": 6, "t2": 7, "s0": 8, "s1": 9,
           **{f"a{i}": 10 + i for i in range(8)}, **{f"s{i}": 16 + i for i in range(2, 12)},
           **{f"t{i}": 25 + i for i in range(3, 7)}}


class Rules:
    """The frame rules of a file: rows with the first address, the rule of the frame, and of saved registers."""

    def __init__(self, path):
        self.rows = []
        if not shutil.which(READER):
            return
        text = subprocess.run([READER, "--debug-dump=frames-interp", str(path)], capture_output=True, text=True).stdout
        last, names, initial = 0, [], "sp+0"
        for line in text.splitlines():
            begins = re.search(r"FDE .*pc=([0-9a-f]+)\.\.([0-9a-f]+)$", line)
            words = line.split()
            if begins:  # a function whose frame is the same all along has no further row
                last, names = int(begins[2], 16), []
                self.rows.append((int(begins[1], 16), last, initial, {}))
            elif " CIE " in line:
                last = 0
            elif words[:2] == ["LOC", "CFA"]:
                names = words[2:]
            elif len(words) >= 2 and re.fullmatch("[0-9a-f]{8,16}", words[0]):
                if last:
                    self.rows.append((int(words[0], 16), last, words[1], dict(zip(names, words[2:]))))
                else:
                    initial = words[1]
        self.rows.sort(key=lambda row: row[0])

    def at(self, pc):
        """The rules at an address: those of the last row at it or in front, if its function goes on to there."""
        found = None
        for first, last, frame, saved in self.rows:
            if first > pc:
                break
            found = (frame, saved) if pc < last else None
        return found


def calls(state, process, rules):
    """The return addresses of a process, the innermost first."""
    registers = {number: state.register(process, number) for number in range(32)}
    pc, found = state.pc(process), []
    while len(found) < MOST:
        rule = rules.at(pc)
        base = re.fullmatch(r"(\w+)\+(\d+)", rule[0]) if rule else None
        if not base or base[1] not in NUMBERS:
            break
        frame = registers[NUMBERS[base[1]]] + int(base[2])
        for name, place in rule[1].items():
            saved = re.fullmatch(r"c([-+]\d+)", place)
            if saved and name in NUMBERS:
                value = state.word(process, frame + int(saved[1]))
                if value is None:
                    return found
                registers[NUMBERS[name]] = value
        registers[2], caller = frame, registers[1]
        if caller == 0:
            break
        found.append(caller)
        pc, registers[1] = caller - 4, 0  # who called it has saved where it goes on
    return found
