"""The program, asked for the trace of a listing."""
import contextlib
import subprocess
import tempfile
import threading


@contextlib.contextmanager
def trace_of(program, listing, seconds=None):
    """The program as it writes the trace of a listing; it has ended behind this. It is killed when so many seconds are over,
    if that is said."""
    with tempfile.TemporaryFile() as text:
        text.write(listing.encode())
        text.seek(0)
        with subprocess.Popen([program, "trace"], stdin=text, stdout=subprocess.PIPE) as run:
            timer = threading.Timer(seconds or 0, run.kill)
            if seconds:
                timer.start()
            try:
                yield run
                run.stdout.read()
            finally:
                timer.cancel()
