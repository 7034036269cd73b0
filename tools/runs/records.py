"""Records in words."""
import re

FAULTS = {
    "InvalidDataReference": "nothing is there", "InvalidCapReference": "nothing is there for a capability",
    "DataAccessTypeError": "a capability page is there, which has no bytes",
    "CapAccessTypeError": "a page of bytes is there, which has no capabilities",
    "MalformedSpace": "the space is made so that no walk ends", "NoSchedule": "it has no schedule",
    "MalformedSyscall": "the call has no such form", "BadAlign": "the address is no multiple of what it has to be",
    "BadOpcode": "that is no instruction of RV32I", "Breakpoint": "a breakpoint"}
VIOLATIONS = {b"s": "it may not be written", b"e": "it may not be written", b"": "it may not be executed"}
LIMITS = {"r": "no stores", "x": "no fetches", "w": "weak", "o": "opaque", "n": "no handlers"}
MESSAGE = re.compile(r"msg \d+ (\d+) endpoint=(\d+) payload=0*(\w+) words=0*(\w+),0*(\w+),0*(\w+),0*(\w+) "
                     r"len=(\d+) caps=(\d+)")
LETTERS = ["\n" if byte == 10 else chr(byte) if 32 <= byte < 127 else f"\\x{byte:02x}" for byte in range(256)]


def count(number, one, several=None):
    return f"{number:,} {one if number == 1 else several or one + 's'}"


def text_of(digits):
    """The bytes of a piece of the log as text: in UTF-8, if they are, else what isn't printed by its number."""
    data = bytes.fromhex(digits.decode())
    try:
        text = data.decode()
    except UnicodeDecodeError:
        return "".join(LETTERS[byte] for byte in data)
    if text.replace("\n", "").isprintable():
        return text
    return "".join(letter if letter == "\n" or letter.isprintable() else f"\\x{ord(letter):02x}" for letter in text)


def message(line, programs):
    """`msg FROM TO endpoint=E payload=X words=X,X,X,X len=L caps=C`."""
    to, endpoint, payload, one, two, three, four, length, caps = MESSAGE.fullmatch(line.decode()).groups()
    told = f"{programs.message_to(to, endpoint)}, payload {payload}: {one} {two} {three} {four}"
    if length != "0":
        told += f", {count(int(length), 'byte')}"
    return told if caps == "0" else f"{told}, {count(int(caps), 'capability', 'capabilities')}"


def fault(words, programs, insn):
    """`fault P NAME ADDR to Q` or `fault P NAME ADDR unheard`."""
    process, name, address = int(words[1]), words[2].decode(), int(words[3], 16)
    meaning = FAULTS.get(name, "")
    if name == "AccessViolation":
        meaning = VIOLATIONS.get(insn and insn[:1], "it may not be written, or not executed")
    there = programs.there(process, address)
    told = f"fault {name} at {address:08x}" + (f" ({there})" if there else "") + (f": {meaning}" if meaning else "")
    return told + (f"; {programs.process(int(words[5]))} hears of it" if words[4] == b"to" else "; nobody hears of it")


def access(words, programs):
    """`fetch P ADDR page N` and its like, and `insn P ADDR TEXT`."""
    address = int(words[2], 16)
    name, past = programs.function(int(words[1]), address)
    where = f"{address:08x}" + (f" {name}" + (f"+{past:x}" if past else "") if name else "")
    if words[0] == b"insn":
        return f"{where}  {b' '.join(words[3:]).decode()}"
    return f"{words[0].decode()} {where}, {programs.called(words[3].decode(), int(words[4]))}"


def told(line, programs, insn=None):
    """A record in words, but for those of the log. Of a fault the instruction may be known, which is empty where none
    was fetched."""
    words = line.split(b" ")
    kind = words[0]
    if kind == b"msg":
        return message(line, programs)
    if kind == b"fault":
        return fault(words, programs, insn)
    if kind == b"destroy":
        return f"{programs.called(words[1].decode(), int(words[2]))} is destroyed"
    if kind == b"halt":
        return "halts the machine"
    return access(words, programs)
