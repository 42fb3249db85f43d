"""A client of NBD that is independent of the program: it opens the disk by EXPORT_NAME, and makes one request at a time."""
import socket
import subprocess

from expecting import expect

OPEN = bytes.fromhex("00000003 49484156454f5054 00000001 00000000")
READ, WRITE, DISC, FLUSH, TRIM, WRITE_ZEROES = 0, 1, 2, 3, 4, 6
FUA, NO_HOLE = 1, 2
FLAGS = bytes.fromhex("016d")


class Connection:
    """A connection: a file that is written to, and one that is read from."""

    def __init__(self, sent, received):
        self.sent, self.received = sent, received
        self.cookie = 0

    def open(self):
        self.send(OPEN)
        greeting = self.receive(28)
        expect("the greeting", (greeting[:18], greeting[26:]), (b"NBDMAGICIHAVEOPT\0\3", FLAGS))
        self.size = int.from_bytes(greeting[18:26], "big")

    def send(self, given):
        self.sent.write(given)
        self.sent.flush()

    def receive(self, count):
        return self.received.read(count)

    def ask(self, kind, offset=0, length=0, body=b"", flags=0):
        """One request: the error of its reply, and what it read."""
        self.cookie += 1
        self.send(bytes.fromhex("25609513") + flags.to_bytes(2, "big") + kind.to_bytes(2, "big")
                  + self.cookie.to_bytes(8, "big") + offset.to_bytes(8, "big") + length.to_bytes(4, "big") + body)
        head = self.receive(16)
        if len(head) < 16:
            raise ConnectionError("no reply")
        expect("a reply", (head[:4], head[8:]), (bytes.fromhex("67446698"), self.cookie.to_bytes(8, "big")))
        error = int.from_bytes(head[4:8], "big")
        return error, self.receive(length) if kind == READ and error == 0 else b""

    def read(self, offset, length):
        return self.ask(READ, offset, length)

    def write(self, offset, body, flags=0):
        return self.ask(WRITE, offset, len(body), body, flags)[0]

    def flush(self):
        return self.ask(FLUSH)[0]

    def trim(self, offset, length, flags=0):
        return self.ask(TRIM, offset, length, flags=flags)[0]

    def write_zeroes(self, offset, length, flags=0):
        return self.ask(WRITE_ZEROES, offset, length, flags=flags)[0]

    def disconnect(self):
        self.send(bytes.fromhex("25609513 0000 0002") + bytes(20))


class Client(Connection):
    """A connection to a run of the program with these words."""

    def __init__(self, *words, user=None):
        self.process = subprocess.Popen(words, stdin=subprocess.PIPE, stdout=subprocess.PIPE, stderr=subprocess.PIPE, user=user)
        super().__init__(self.process.stdin, self.process.stdout)
        self.open()

    def end(self):
        """Disconnects: the status, and what stands on standard error."""
        self.disconnect()
        _, errors = self.process.communicate(timeout=120)
        return self.process.returncode, errors

    def kill(self):
        self.process.kill()
        self.process.communicate(timeout=60)


class TcpClient(Connection):
    """A connection to a server at a port of this machine."""

    def __init__(self, port, opened=True):
        self.socket = socket.create_connection(("127.0.0.1", port), timeout=60)
        self.socket.setsockopt(socket.IPPROTO_TCP, socket.TCP_NODELAY, 1)
        super().__init__(self.socket.makefile("wb"), self.socket.makefile("rb"))
        if opened:
            self.open()

    def end(self):
        """Disconnects, and sees the server close the connection."""
        self.disconnect()
        expect("behind DISC", self.receive(1), b"")
        self.close()

    def close(self):
        for part in self.sent, self.received, self.socket:
            try:
                part.close()
            except OSError:
                pass
