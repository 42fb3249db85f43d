"""Requests to a disk that a program serves on standard input and output, and the time that they take beside another's."""
import random, statistics, subprocess, time

SIZE = 8 << 20
BLOCK = 4096
READ, WRITE, DISC, FLUSH = 0, 1, 2, 3


class Server:
    def __init__(self, words, environment=None):
        self.process = subprocess.Popen(words, stdin=subprocess.PIPE, stdout=subprocess.PIPE, env=environment)
        self.process.stdin.write(bytes.fromhex("00000003 49484156454f5054 00000001 00000000"))
        self.process.stdin.flush()
        greeting = self.process.stdout.read(28)
        assert int.from_bytes(greeting[18:26], "big") == SIZE, greeting

    def ask(self, kind, offset=0, length=0, body=b""):
        self.process.stdin.write(bytes.fromhex("25609513 0000") + kind.to_bytes(2, "big") + bytes(8)
                                 + offset.to_bytes(8, "big") + length.to_bytes(4, "big") + body)
        self.process.stdin.flush()
        head = self.process.stdout.read(16)
        assert head[:8] == bytes.fromhex("67446698 00000000"), head
        return self.process.stdout.read(length) if kind == READ else b""

    def end(self):
        self.process.stdin.write(bytes.fromhex("25609513 0000 0002") + bytes(20))
        self.process.communicate()


def places(length, count, seed, size=SIZE):
    choice = random.Random(seed)
    return [length * choice.randrange(size // length) for _ in range(count)]


def writes(length, count, size=SIZE, flush=True):
    def work(server):
        body = random.Random(1).randbytes(length)
        for place in places(length, count, 2, size):
            server.ask(WRITE, place, length, body)
        if flush:
            server.ask(FLUSH)
    return work


def flushed_writes(length, count):
    def work(server):
        body = random.Random(3).randbytes(length)
        for place in places(length, count, 4):
            server.ask(WRITE, place, length, body)
            server.ask(FLUSH)
    return work


def fill(server):
    for place in range(0, SIZE, 1 << 20):
        server.ask(WRITE, place, 1 << 20, random.Random(place).randbytes(1 << 20))
    server.ask(FLUSH)


def reads(length, count, size=SIZE):
    def work(server):
        for place in places(length, count, 5, size):
            assert len(server.ask(READ, place, length)) == length
    return work


def each_block(size):
    def work(server):
        for place in range(0, size, BLOCK):
            assert len(server.ask(READ, place, BLOCK)) == BLOCK
    return work


def nothing(server):
    pass


def seconds(words, before, work):
    """The time of some work on a server of its own, after some that isn't timed."""
    server = Server(words)
    before(server)
    begin = time.perf_counter()
    work(server)
    took = time.perf_counter() - begin
    server.end()
    return took


def compare(ours, theirs, works, runs):
    """A row of a table for each work, with the medians of so many runs, which take turns."""
    for name, (before, work) in works.items():
        times = [(seconds(ours, before, work), seconds(theirs, before, work)) for _ in range(runs)]
        mine, other = (statistics.median(time[at] for time in times) for at in (0, 1))
        print(f"| {name} | {mine * 1000:,.1f} | {other * 1000:,.1f} | {mine / other:.2f} |", flush=True)
