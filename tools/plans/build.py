"""Compiles the programs of a plan."""
import script
from plans.header import header_lines

ENDINGS = (".c", ".cpp", ".s", ".S")
COMPILE = script.TOP / "examples/lib/compile"


class NoSource(Exception):
    """A program has no source, in a sentence."""


def sources_of(folder, file):
    """The sources of a program's file: those of its name in a folder, or all in the folder of its name."""
    own = folder / file
    if own.is_dir():
        return [source for ending in ENDINGS for source in sorted(own.glob(f"*{ending}")) if source.is_file()]
    return [source for ending in ENDINGS if (source := folder / f"{file}{ending}").is_file()]


def write_header(plan, name, made):
    """Writes the header of a plan that was read to the folder `made`."""
    made.mkdir(parents=True, exist_ok=True)
    (made / "plan.h").write_text("".join(f"{line}\n" for line in header_lines(plan, name)))


def compile_programs(folder, made, files):
    """Compiles these files of a plan from the sources in a folder into the folder `made`, where the plan's header is;
    whether all went well. What the compiler says goes to standard error."""
    for line in files:
        file, *manner = line.split()
        sources = sources_of(folder, file)
        if not sources:
            raise NoSource(f"there is no {folder / file}.c, .cpp, .s or .S, nor a folder {folder / file} with such files")
        out = made / file
        out.parent.mkdir(parents=True, exist_ok=True)
        if script.called([COMPILE, out, *manner, "plan", made, *sources]).returncode:
            return False
    return True
