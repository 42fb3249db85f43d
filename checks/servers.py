#!/usr/bin/env python3
"""Sees a server with several clients at once, and how it ends. Usage: servers.py PROGRAM [SEED]

Its standard input is a pipe, whose end ends it. The program runs over a directory.
"""
import collections, os, random, signal, socket, subprocess, sys, tempfile, threading, time
from expecting import ends, expect
from nbd_client import DISC, OPEN, READ, WRITE, TcpClient
from registers import Call, faults, last_values
from serving import Server

program = os.path.abspath(sys.argv[1])
SCRIPT = os.path.join(os.path.dirname(os.path.dirname(os.path.abspath(__file__))), "s3backer")
BLOCK = 4096
CLIENTS = 4  # served at once
EIO = 5


def block_of(value):
    return value.to_bytes(8, "big") * (BLOCK // 8)


def value_of(block):
    """The value of a block, and nothing for one that is of no single value."""
    value = int.from_bytes(block[:8], "big")
    return value if block == block_of(value) else None


def stored(directory, block):
    """The value that the store has of a block."""
    try:
        with open(os.path.join(directory, f"{block:08x}"), "rb") as file:
            return value_of(file.read())
    except FileNotFoundError:
        return 0


def side_by_side(works):
    """Runs each in a thread of its own."""
    threads = [threading.Thread(target=work) for work in works]
    for thread in threads:
        thread.start()
    for thread in threads:
        thread.join(120)
        expect("a thread ends", thread.is_alive(), False)


def check_several(directory):
    """Clients at once write blocks of their own and read each other's; one more has to wait."""
    server = Server(program, directory)
    expect("the line of a server", server.line, f"s3backer: serving 1048576 bytes in blocks of 4096 at 127.0.0.1:{server.port}\n")
    clients = [TcpClient(server.port) for _ in range(CLIENTS)]
    for number, client in enumerate(clients):
        expect("the size", client.size, 1 << 20)
        expect("a write", client.write(number * BLOCK, block_of(number + 1)), 0)
    for client in clients:
        for number in range(CLIENTS):
            expect("a block of another client", client.read(number * BLOCK, BLOCK), (0, block_of(number + 1)))
    waiting = TcpClient(server.port, opened=False)
    waiting.send(OPEN)
    waiting.socket.settimeout(1)
    try:
        expect("a client too many", waiting.socket.recv(1), "nothing")
    except TimeoutError:
        pass
    clients[0].end()
    waiting.socket.settimeout(60)
    served = TcpClient.__new__(TcpClient)
    served.__dict__.update(waiting.__dict__)
    served.received = served.socket.makefile("rb")
    expect("the one that waited", served.receive(18), b"NBDMAGICIHAVEOPT\0\3")
    served.close()
    expect("a flush", clients[1].flush(), 0)
    expect("what was flushed", [stored(directory, number) for number in range(CLIENTS)], [1, 2, 3, 4])
    for client in clients[1:]:
        client.end()
    expect("the end", server.end()[:2], (0, b""))


def check_bad_clients(directory):
    """Clients that send garbage, hang, or close in the middle of a request while another goes on."""
    server = Server(program, directory)
    good = TcpClient(server.port)
    expect("a write", good.write(0, block_of(7)), 0)
    for begin in [b"\xff" * 64, OPEN[:3], OPEN + b"\0" * 28, OPEN + bytes.fromhex("25609513 0000 0001") + bytes(16) + b"\0\1\0\0" + b"x" * 100,
                  OPEN + bytes.fromhex("25609513 0000 0001") + bytes(16) + b"\xff\xff\xff\xff"]:
        bad = TcpClient(server.port, opened=False)
        bad.send(begin)
        expect("while another is bad", good.read(0, BLOCK), (0, block_of(7)))
        bad.close()
        expect("when another is gone", good.write(BLOCK, block_of(8)), 0)
    hanging = TcpClient(server.port)
    hanging.send(bytes.fromhex("25609513 0000 0001") + bytes(16) + b"\0\0\x10\0" + b"y" * 1000)
    expect("while another hangs", good.read(BLOCK, BLOCK), (0, block_of(8)))
    good.end()
    status, errors, took = server.end()
    expect("the end with a client that hangs", (status, errors, took < 30), (0, b"", True))
    hanging.close()
    expect("what was written", [stored(directory, 0), stored(directory, 1)], [7, 8])


def check_end_in_flight(directory, end):
    """A server is ended while writes are in flight: each that was answered is in the store."""
    server = Server(program, directory, "4m") if end is None else Server(SCRIPT, directory, "4m", is_held=True)
    answered = [dict() for _ in range(CLIENTS)]

    def write(number):
        client = TcpClient(server.port)
        value = 1
        try:
            while True:
                block = number + CLIENTS * (value % 64)
                if client.write(block * BLOCK, block_of(value)) == 0:
                    answered[number][block] = value
                value += 1
        except (OSError, ConnectionError, ValueError):
            client.close()

    threads = [threading.Thread(target=write, args=[number]) for number in range(CLIENTS)]
    for thread in threads:
        thread.start()
    time.sleep(2)
    if end is None:
        status, errors, took = server.end()
    else:
        begun = time.monotonic()
        server.process.send_signal(end)
        status, took = server.process.wait(timeout=60), time.monotonic() - begun
        errors = server.process.stderr.read()
    for thread in threads:
        thread.join(60)
    name = "the end in flight" if end is None else f"the end in flight by {end.name}"
    expect(name, (status, errors, took < 30), (0, b"", True))
    for blocks in answered:
        expect(f"{name}: writes that were answered", len(blocks) > 0, True)
        for block, value in blocks.items():
            # the last one sent may have been done and not answered
            expect(f"{name}: block {block}", stored(directory, block) in (value, value + 64), True)


def check_kills(directory, rounds=24):
    """Kills the server behind a flush: each block has a value that it had at or behind the flush."""
    flushed = {}
    value = 0
    for _ in range(rounds):
        server = Server(program, directory)
        client = TcpClient(server.port)
        for block, possible in flushed.items():
            found = value_of(client.read(block * BLOCK, BLOCK)[1])
            expect("a block behind a crash", found in possible, True)
        later = collections.defaultdict(set)
        for step in range(24):
            value += 1
            block = random.randrange(16)
            expect("a write", client.write(block * BLOCK, block_of(value)), 0)
            later[block].add(value)
            if step == 11:
                expect("a flush", client.flush(), 0)
                last = {block: {max(values)} for block, values in later.items()}
                later = collections.defaultdict(set)
        server.kill()
        client.close()
        for block in set(flushed) | set(last) | set(later):
            flushed[block] = last.get(block, flushed.get(block, {0})) | later.get(block, set())


def check_registers(directory, rounds=300):
    """Clients at random: each block is a register to them."""
    server = Server(program, directory)
    calls, lock = [], threading.Lock()

    def work(number):
        client = TcpClient(server.port)
        chosen = random.Random(number + seed)
        for round in range(rounds):
            block = chosen.randrange(6)
            kind = chosen.choice(["read", "read", "write", "write", "flush"])
            value = (number + 1) << 32 | round
            begun = time.monotonic_ns()
            if kind == "read":
                error, body = client.read(block * BLOCK, BLOCK)
                value = value_of(body)
            elif kind == "write":
                error = client.write(block * BLOCK, block_of(value))
            else:
                error = client.flush()
            call = Call(kind, block, value, begun, time.monotonic_ns(), "good")
            expect("an error", error, 0)
            with lock:
                calls.append(call)
        client.end()

    side_by_side([lambda number=number: work(number) for number in range(CLIENTS)])
    expect("the end", server.end()[:2], (0, b""))
    blocks = collections.defaultdict(list)
    for call in calls:
        if call.kind != "flush":
            blocks[call.block].append(call)
    for block, made in sorted(blocks.items()):
        expect(f"block {block}", list(faults(made)), [])
        expect(f"block {block} in the store", stored(directory, block) in last_values(made), True)


def check_refusals(directory):
    """An address that is taken, and those that are none."""
    with socket.create_server(("127.0.0.1", 0)) as taken:
        address = f"127.0.0.1:{taken.getsockname()[1]}"
        ran = subprocess.run([program, "--test", "--size=1m", directory, address], stdin=subprocess.DEVNULL, capture_output=True, timeout=60)
    expect("a port that is taken", (ran.returncode, ran.stdout, ran.stderr), (10, b"", b"s3backer: listen fault\n"))
    for address in "127.0.0.1", ":1", "host:65536", "host:", "host:1x", "ho_st:1", "":
        ran = subprocess.run([program, "--test", "--size=1m", directory, address], stdin=subprocess.DEVNULL, capture_output=True, timeout=60)
        expect(f"the address {address!r}", (ran.returncode, ran.stderr), (2, f"s3backer: usage: not HOST:PORT: {address}\n".encode()))
    expect("the directory", os.listdir(directory), [])


seed = int(sys.argv[2]) if len(sys.argv) > 2 else time.time_ns() % 2**32
random.seed(seed)
works = [check_several, check_bad_clients, lambda at: check_end_in_flight(at, None),
         lambda at: check_end_in_flight(at, signal.SIGTERM), lambda at: check_end_in_flight(at, signal.SIGINT),
         check_kills, check_registers, check_refusals]
for work in works:
    with tempfile.TemporaryDirectory() as directory:
        work(directory)
sys.exit(ends("servers", f"seed {seed}: "))
