"""What the scripts of this folder have in common: the answer to --help, what is said where the output can't be written,
how a signal ends them, and which program they call where none is named.

A script imports this module first and calls `run(main, __doc__)`. From then on Ctrl-C, SIGTERM and SIGHUP end it without
a word, and as a signal does: what is open in a `with` or a `finally` is closed, and each folder of `tempfile` is removed.
"""
import atexit
import os
import pathlib
import signal
import subprocess
import sys

TOP = pathlib.Path(__file__).resolve().parent.parent
BUILT = TOP / "crates" / "coyotos" / "out"
NOT_BUILT = "coyotos isn't built: ./coyotos or ./try builds it, and --program names another"
GONE = 141  # the status of a shell where a reader has gone away
PATIENCE = 2  # seconds for a command to end at Ctrl-C
SIGNALS = (signal.SIGINT, signal.SIGTERM, signal.SIGHUP)


class Stopped(KeyboardInterrupt):
    """A signal came, by its number."""


def stop(number, _frame):
    """Takes the first signal; those that come after it change nothing."""
    for other in SIGNALS:
        signal.signal(other, signal.SIG_IGN)
    raise Stopped(number)


def without_word(kind, error, trace):
    """Tells what ended a script, unless a signal did."""
    if issubclass(kind, Stopped):
        ended_by.append(error.args[0])
    else:
        sys.__excepthook__(kind, error, trace)


def end_by_signal():
    """Gives a script that a signal ended the same signal once more: so who called it sees which one it was, and a loop of
    a shell ends with it."""
    for number in ended_by:
        signal.signal(number, signal.SIG_DFL)
        os.kill(os.getpid(), number)


def heed_signals():
    """Sees to the signals that aren't ignored."""
    sys.excepthook = without_word
    atexit.register(end_by_signal)  # it comes behind all that is registered later, as what tempfile has to remove
    for number in SIGNALS:
        if signal.getsignal(number) is not signal.SIG_IGN:
            signal.signal(number, stop)


ended_by = []
heed_signals()


def built_program():
    """The program of this repository as it was built, proved or not, if it was."""
    return next((path for path in (BUILT / "coyotos", BUILT / "coyotos-unproved") if path.is_file()), None)


def end(status):
    """Ends the script; what was left to be written is dropped."""
    with open(os.devnull, "wb") as nowhere:
        os.dup2(nowhere.fileno(), 1)
    sys.exit(status)


def fail(sentence, status=2):
    """Ends the script with a sentence; what was left to be written is dropped."""
    print(f"{pathlib.Path(sys.argv[0]).name}: {sentence}", file=sys.stderr, flush=True)
    end(status)


def unwritten(error):
    """Ends the script where its output can't be written; without a word if its reader has gone away."""
    if isinstance(error, BrokenPipeError):
        end(GONE)
    fail(f"standard output: {error.strerror}")


def flushed():
    """Hands on all that was written."""
    try:
        sys.stdout.flush()
    except OSError as error:
        unwritten(error)


def text_out(parts):
    """Writes parts of a text to standard output."""
    try:
        sys.stdout.writelines(parts)
    except OSError as error:
        unwritten(error)


def lines_out(lines):
    """Writes lines to standard output."""
    text_out(f"{line}\n" for line in lines)


def called(words, **options):
    """Runs a command that may have folders to remove; the process when it has ended. A signal is handed on to it and to
    all that it runs, and it is waited for."""
    with subprocess.Popen([str(word) for word in words], start_new_session=True, **options) as child:
        try:
            child.wait()
        except Stopped:
            stop_group(child)
            raise
    return child


def stop_group(child):
    """Ends a command and all that it runs."""
    os.killpg(child.pid, signal.SIGINT)
    try:
        child.wait(PATIENCE)
    except subprocess.TimeoutExpired:
        os.killpg(child.pid, signal.SIGTERM)  # it was told to ignore the first one


def run(main, about):
    """Runs a script on its words, where --help asks what it is about, and ends with its status."""
    if sys.stdout is None:
        fail("standard output is closed")
    if sys.argv[1:] == ["--help"]:
        lines_out(about.strip().splitlines())
        status = 0
    else:
        try:
            status = main(sys.argv[1:])
        except BrokenPipeError as error:
            unwritten(error)
    flushed()
    sys.exit(status)
