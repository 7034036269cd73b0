"""The packets of gdb's remote protocol over two streams of bytes."""
import os
import select

INTERRUPT = b"\x03"


class Closed(Exception):
    """The other side is gone."""


class Line:
    """Packets from one file descriptor and to another."""

    def __init__(self, come, go):
        self.come, self.go, self.data, self.acknowledges = come, go, b"", True
        self.has_inferiors = False  # whether gdb takes each process for an inferior
        self.while_idle = lambda: False  # something to do until a packet comes; whether there was something

    def is_there(self):
        return bool(select.select([self.come], [], [], 0)[0])

    def more(self):
        while not self.is_there() and self.while_idle():
            pass
        data = os.read(self.come, 1 << 16)
        if not data:
            raise Closed
        self.data += data

    def byte(self):
        while not self.data:
            self.more()
        first, self.data = self.data[:1], self.data[1:]
        return first

    def packet(self):
        """The next packet; an interrupt is a packet of its own. One whose sum is wrong is asked for again."""
        while True:
            first = self.byte()
            if first == INTERRUPT:
                return INTERRUPT
            if first != b"$":
                continue
            while b"#" not in self.data or len(self.data) < self.data.index(b"#") + 3:
                self.more()
            end = self.data.index(b"#")
            body, total, self.data = self.data[:end], self.data[end + 1:end + 3], self.data[end + 3:]
            is_whole = total.lower() == b"%02x" % (sum(body) & 255)
            if self.acknowledges:
                self.send(b"+" if is_whole else b"-")
            if is_whole:
                return unescaped(body)

    def is_interrupted(self):
        """Whether an interrupt came meanwhile, which is taken."""
        while self.is_there():
            self.more()
        if INTERRUPT in self.data:
            self.data = self.data.replace(INTERRUPT, b"", 1)
            return True
        return False

    def send(self, data):
        try:
            while data:
                data = data[os.write(self.go, data):]
        except OSError:
            raise Closed

    def answer(self, body):
        body = escaped(body if isinstance(body, bytes) else body.encode())
        self.send(b"$" + body + b"#%02x" % (sum(body) & 255))


def escaped(body):
    return b"".join(bytes([ord("}"), byte ^ 32]) if byte in b"}$#*" else bytes([byte]) for byte in body)


def unescaped(body):
    parts = body.split(b"}")
    return parts[0] + b"".join(bytes([part[0] ^ 32]) + part[1:] for part in parts[1:] if part)
