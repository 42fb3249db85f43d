#!/usr/bin/env python3
"""Serves disks from directories with the built program, over several runs. Usage: directories.py PROGRAM

What one run flushed has to be there in the next, also where the first was killed. The client here is independent of the
program; a library for NBD is used beside it where it is installed.
"""
import filecmp, hashlib, os, random, re, shutil, signal, subprocess, sys, tempfile, threading, time

program = os.path.abspath(sys.argv[1])
OPEN = bytes.fromhex("00000003 49484156454f5054 00000001 00000000")
READ, WRITE, DISC, FLUSH, TRIM, WRITE_ZEROES = 0, 1, 2, 3, 4, 6
BLOCK = 4096
CACHED_BLOCKS = 1000
failed = 0


def expect(name, found, wanted):
    global failed
    if found != wanted:
        failed += 1
        print(f"{name}: found {str(found)[:300]}, wanted {str(wanted)[:300]}")


class Client:
    """A connection to a run of the program."""

    def __init__(self, size, directory, *options, under=(), runs=program, user=None):
        self.process = subprocess.Popen([*under, runs, "--stdio", "--test", *options, f"--size={size}", directory],
                                        stdin=subprocess.PIPE, stdout=subprocess.PIPE, stderr=subprocess.PIPE, user=user)
        self.cookie = 0
        self.send(OPEN)
        greeting = self.receive(28)
        expect("the greeting", (greeting[:18], greeting[26:]), (b"NBDMAGICIHAVEOPT\0\3", b"\1\x6d"))
        self.size = int.from_bytes(greeting[18:26], "big")

    def send(self, given):
        self.process.stdin.write(given)
        self.process.stdin.flush()

    def receive(self, count):
        return self.process.stdout.read(count)

    def ask(self, kind, offset=0, length=0, body=b""):
        """One request: the error of its reply, and what it read."""
        self.cookie += 1
        self.send(bytes.fromhex("25609513 0000") + kind.to_bytes(2, "big") + self.cookie.to_bytes(8, "big")
                  + offset.to_bytes(8, "big") + length.to_bytes(4, "big") + body)
        head = self.receive(16)
        expect("a reply", (head[:4], head[8:]), (bytes.fromhex("67446698"), self.cookie.to_bytes(8, "big")))
        error = int.from_bytes(head[4:8], "big")
        return error, self.receive(length) if kind == READ and error == 0 else b""

    def read(self, offset, length):
        return self.ask(READ, offset, length)

    def write(self, offset, body):
        return self.ask(WRITE, offset, len(body), body)[0]

    def trim(self, offset, length):
        return self.ask(TRIM, offset, length)[0]

    def zero(self, offset, length):
        return self.ask(WRITE_ZEROES, offset, length)[0]

    def flush(self):
        return self.ask(FLUSH)[0]

    def end(self):
        """Disconnects: the status, and what stands on standard error."""
        self.send(bytes.fromhex("25609513 0000 0002") + bytes(20))
        _, errors = self.process.communicate(timeout=60)
        return self.process.returncode, errors

    def kill(self):
        self.process.kill()
        self.process.communicate(timeout=60)


def run(words, given=OPEN):
    done = subprocess.run([program, *words], input=given, capture_output=True, timeout=60)
    return done.returncode, done.stdout, done.stderr


def name_of(block, prefix, hashed):
    digits = f"{block:08x}"
    return prefix + (hashlib.md5(digits.encode()).hexdigest()[:8] + "-" if hashed else "") + digits


def names_of(disk, prefix, hashed):
    """The files that a directory has to have: those of the blocks that aren't zeros."""
    return {name_of(at // BLOCK, prefix, hashed): disk[at:at + BLOCK]
            for at in range(0, len(disk), BLOCK) if disk[at:at + BLOCK] != bytes(BLOCK)}


def files_in(directory):
    return {name: open(os.path.join(directory, name), "rb").read() for name in os.listdir(directory)}


def several_runs(top, prefix, hashed):
    """A disk of 4 MiB over five runs, one of which is killed."""
    directory = os.path.join(top, "above", "disk")
    options = ([f"--prefix={prefix}"] if prefix else []) + (["--blockHashPrefix"] if hashed else [])
    choice, disk = random.Random(7), bytearray(1 << 22)
    kind = f"prefix {prefix!r}, hashed {hashed}"

    def fill(client, count):
        for _ in range(count):
            length = choice.choice([1, 512, BLOCK, 2 * BLOCK, 10000, 32768])
            offset = choice.randrange(len(disk) - length)
            body = choice.choice([choice.randbytes(length), bytes(length)])
            expect("a write", client.write(offset, body), 0)
            disk[offset:offset + length] = body

    client = Client("4m", directory, *options)
    expect("the size", client.size, len(disk))
    fill(client, 15)
    expect("a flush", client.flush(), 0)
    expect(f"the files after a flush, {kind}", files_in(directory), names_of(disk, prefix, hashed))
    expect("the end", client.end(), (0, b""))

    client = Client("4m", directory, *options)
    expect(f"the next run, {kind}", client.read(0, len(disk)) == (0, bytes(disk)), True)
    fill(client, 15)
    expect("the end without a flush", client.end(), (0, b""))

    client = Client("4m", directory, *options)
    expect(f"what the last flush put, {kind}", client.read(0, len(disk)) == (0, bytes(disk)), True)
    fill(client, 15)
    expect("a flush", client.flush(), 0)
    flushed, later = bytes(disk), bytes([1]) * BLOCK
    expect("a write that isn't flushed", client.write(0, later), 0)
    client.kill()

    client = Client("4m", directory, *options)
    error, found = client.read(0, len(disk))
    expect(f"what was flushed before a kill, {kind}", (error, found[BLOCK:] == flushed[BLOCK:]), (0, True))
    expect("the block that wasn't", found[:BLOCK] in (flushed[:BLOCK], later), True)
    expect("zeros over all", (client.write(0, bytes(1 << 20)), client.trim(1 << 20, 1 << 20), client.zero(1 << 21, 1 << 21)), (0, 0, 0))
    expect("the end", client.end(), (0, b""))
    expect("a disk of zeros has no file", {name for name in os.listdir(directory) if not name.endswith(".tmp")}, set())


def faults(top):
    """Directories that can't be had, and ones that fail later."""
    unreachable = (3, b"", b"s3backer: cannot reach the store\n")
    path = os.path.join(top, "file")
    open(path, "wb").close()
    expect("a path that is a file", run(["--stdio", "--test", "--size=64k", path]), unreachable)
    expect("a path below a file", run(["--stdio", "--test", "--size=64k", os.path.join(path, "below")]), unreachable)

    directory = os.path.join(top, "odd")
    os.mkdir(directory)
    open(os.path.join(os.fsencode(directory), b"\xff\xfe"), "wb").close()
    os.mkdir(os.path.join(directory, "00000001"))
    with open(os.path.join(directory, "00000002"), "wb") as short:
        short.write(b"short")
    with open(os.path.join(directory, "00000003.tmp"), "wb") as left:
        left.write(bytes([9]) * BLOCK)
    client = Client("64k", directory)
    expect("a block beside odd names", client.read(0, BLOCK), (0, bytes(BLOCK)))
    expect("a block that is a directory", client.read(BLOCK, 1), (5, b""))
    expect("a block of another length", client.read(2 * BLOCK, 1), (5, b""))
    expect("a block whose write was cut off", client.read(3 * BLOCK, BLOCK), (0, bytes(BLOCK)))
    expect("the end", client.end(), (0, b""))

    directory = os.path.join(top, "gone")
    client = Client("64k", directory)
    expect("a write", client.write(0, b"A" * BLOCK), 0)
    shutil.rmtree(directory)
    expect("a flush of a directory that is gone", client.flush(), 5)
    expect("its end", client.end(), (3, b"s3backer: store fault 605\n"))


def moved(top):
    """A directory that isn't at its path any more has no files, and isn't a disk of zeros."""
    directory, away = os.path.join(top, "moved"), os.path.join(top, "away")
    client = Client("64k", directory)
    expect("a write", client.write(0, b"A" * BLOCK), 0)
    expect("the end", client.end(), (0, b""))

    client = Client("64k", directory)
    os.rename(directory, away)
    expect("a read where the directory was moved", client.read(0, BLOCK), (5, b""))
    expect("a write of zeros there", client.write(0, bytes(BLOCK)), 0)
    expect("its flush", client.flush(), 5)
    os.mkdir(directory)
    expect("a read where another directory stands", client.read(BLOCK, BLOCK), (5, b""))
    expect("a flush there", client.flush(), 5)
    os.rmdir(directory)
    expect("its end", client.end(), (3, b"s3backer: store fault 605\n"))
    expect("the block", files_in(away), {"00000000": b"A" * BLOCK})

    os.rename(away, directory)
    client = Client("64k", directory)
    os.rename(directory, away)
    expect("a read where the directory was moved", client.read(0, BLOCK), (5, b""))
    os.rename(away, directory)
    expect("a read where it was moved back", client.read(0, BLOCK), (0, b"A" * BLOCK))
    shutil.rmtree(directory)
    expect("a read of a directory that was removed", client.read(BLOCK, BLOCK), (5, b""))
    expect("the end", client.end(), (0, b""))


def other_types(top):
    """A name of a block that is no file is a fault: nothing is opened, waited for, or followed out of the directory."""
    directory, outside = os.path.join(top, "types"), os.path.join(top, "outside")
    os.mkdir(directory)
    with open(outside, "wb") as file:
        file.write(b"O" * BLOCK)
    os.mkfifo(os.path.join(directory, "00000001"))
    os.symlink(outside, os.path.join(directory, "00000002"))
    os.symlink("/dev/zero", os.path.join(directory, "00000003"))
    client = Client("64k", directory)
    for block, kind in [(1, "a pipe"), (2, "a link"), (3, "a link to a device")]:
        expect(f"a block that is {kind}", client.read(block * BLOCK, BLOCK), (5, b""))
    expect("the end", client.end(), (0, b""))

    for block, make in [(4, os.mkfifo), (5, lambda path: os.symlink(outside, path))]:
        make(os.path.join(directory, f"{block:08x}.tmp"))
        client = Client("64k", directory)
        expect("a write", client.write(block * BLOCK, b"A" * BLOCK), 0)
        expect("its flush, where its temporary file can't be written", client.flush(), 5)
        expect("its end", client.end(), (3, b"s3backer: store fault 605\n"))
    expect("the file outside", open(outside, "rb").read(), b"O" * BLOCK)


def unreadable(top):
    """A file that can't be opened is a fault, and not a block of zeros."""
    directory = os.path.join(top, "unreadable")
    user = "nobody" if os.getuid() == 0 else None
    os.mkdir(directory)
    os.chmod(directory, 0o777)
    os.chmod(top, 0o755)
    # the other user may not reach the program where it was built
    copy = os.path.join(top, "s3backer")
    shutil.copy(program, copy)
    os.chmod(copy, 0o755)
    try:
        reached = subprocess.run([copy], stdin=subprocess.DEVNULL, capture_output=True, user=user).returncode == 2
    except (OSError, ValueError, KeyError):
        reached = False
    if not reached:
        return print("skipped: another user")
    client = Client("64k", directory, runs=copy, user=user)
    expect("a write", client.write(0, b"A" * BLOCK), 0)
    expect("the end", client.end(), (0, b""))
    os.chmod(os.path.join(directory, "00000000"), 0)
    client = Client("64k", directory, runs=copy, user=user)
    expect("a block that may not be read", client.read(0, BLOCK), (5, b""))
    expect("the end", client.end(), (0, b""))
    expect("the file is still there", os.path.getsize(os.path.join(directory, "00000000")), BLOCK)


def refused_words(top):
    """Words that are refused have status 2, and no directory is made."""
    directory = os.path.join(top, "refused")
    expect("no words", run([])[0], 2)
    expect("an option that isn't built", run(["--stdio", "--test", "--readOnly", "--size=64k", directory])[0], 2)
    expect("a word that is not UTF-8", run([b"\xff"]), (2, b"", b"s3backer: usage: a word is not UTF-8\n"))
    expect("no directory", os.path.exists(directory), False)


def failing_streams(top):
    """Standard input that fails isn't an end, and standard output that fails isn't taken as written."""
    words = [program, "--stdio", "--test", "--size=64k", os.path.join(top, "streams")]
    folder = os.open(top, os.O_RDONLY)
    done = subprocess.run(words, stdin=folder, capture_output=True, timeout=60)
    os.close(folder)
    expect("an input that fails", (done.returncode, done.stderr), (7, b"s3backer: session: read fault\n"))
    with open("/dev/full", "wb") as full:
        done = subprocess.run(words, input=OPEN, stdout=full, stderr=subprocess.PIPE, timeout=60)
    expect("an output that fails", (done.returncode, done.stderr), (7, b"s3backer: session: write fault\n"))


CALL = re.compile(r"(\w+)\((.*)\) += (\d+)$")


def calls_in(log):
    """The system calls of a log of strace that came back without an error: name, arguments and result."""
    lines = (re.sub(r"^\[pid +\d+\] |^\d+ +", "", line.rstrip()) for line in open(log))
    return [found.groups() for found in map(CALL.match, lines) if found]


def synced(top):
    """A put syncs the file, renames it, syncs the directory, and is answered then; a delete syncs the directory."""
    if shutil.which("strace") is None:
        return print("skipped: strace")
    directory, log = os.path.join(top, "synced"), os.path.join(top, "strace.log")
    traced = "trace=open,openat,write,fsync,fdatasync,rename,renameat,renameat2,unlink,unlinkat"
    client = Client("64k", directory, under=["strace", "-f", "-o", log, "-e", traced])
    client.write(0, b"A" * BLOCK)
    expect("a flush", client.flush(), 0)
    client.write(0, bytes(BLOCK))
    expect("a flush of zeros", client.flush(), 0)
    expect("the end", client.end(), (0, b""))

    files, steps = {}, []
    for name, arguments, result in calls_in(log):
        if name.startswith("open"):
            files[result] = os.path.basename(re.search(r'"([^"]*)"', arguments)[1].rstrip("/"))
        elif name in ("fsync", "fdatasync"):
            steps.append("sync " + files[arguments])
        elif name.startswith("rename"):
            steps.append("rename")
        elif name.startswith("unlink"):
            steps.append("remove")
        elif arguments.startswith("1, "):
            steps.append("reply")
    # from the reply to the write on: what the flush did, and the same again for zeros
    expect("what was synced when", steps[-9:], ["reply", "sync 00000000.tmp", "rename", "sync synced", "reply",
                                                "reply", "remove", "sync synced", "reply"])


def spaced_puts(top):
    """Two puts of one block are at least 500 ms apart."""
    client = Client("64k", os.path.join(top, "spaced"))
    client.write(0, b"A" * BLOCK)
    asked = time.monotonic()
    expect("a flush", client.flush(), 0)
    client.write(0, b"B" * BLOCK)
    expect("a flush soon after", client.flush(), 0)
    expect("the puts are 500 ms apart", time.monotonic() - asked >= 0.5, True)
    expect("the end", client.end(), (0, b""))


def old_versions(top):
    """A block's file is made an old one behind the program's back: for a while, and then for good."""
    directory = os.path.join(top, "stale")
    path = os.path.join(directory, "00000000")
    os.mkdir(directory)
    # the other blocks aren't zeros, as the cache has no entry for what is known to be zeros
    for block in range(1, CACHED_BLOCKS + 1):
        with open(os.path.join(directory, f"{block:08x}"), "wb") as other:
            other.write(b"O" * BLOCK)
    client = Client("8m", directory)
    client.write(0, b"A" * BLOCK)
    expect("a flush", client.flush(), 0)
    old = open(path, "rb").read()
    client.write(0, b"B" * BLOCK)
    expect("a flush", client.flush(), 0)
    new = open(path, "rb").read()
    expect("the versions", (old, new), (b"A" * BLOCK, b"B" * BLOCK))

    def show(body):
        with open(path + ".other", "wb") as other:
            other.write(body)
        os.rename(path + ".other", path)

    def read_others():
        """As many other blocks as the cache holds, so that block 0 leaves it."""
        read = {client.read(block * BLOCK, 1) for block in range(1, CACHED_BLOCKS + 1)}
        expect("other blocks", read, {(0, b"O")})

    show(old)
    expect("a block that is cached", client.read(0, BLOCK), (0, new))
    read_others()
    later = threading.Timer(0.35, show, [new])
    later.start()
    expect("a block whose store shows an old version for a while", client.read(0, BLOCK), (0, new))
    later.join()
    read_others()
    show(old)
    begun = time.monotonic()
    expect("a block whose store shows an old version for good", client.read(0, BLOCK), (5, b""))
    expect("it was asked anew for seconds", 2 < time.monotonic() - begun < 7, True)
    expect("the end", client.end(), (0, b""))


def cached_reads(top):
    """Reads of what was just written, and of what was just read, make no file access."""
    if shutil.which("strace") is None:
        return print("skipped: strace")
    directory, log = os.path.join(top, "cached"), os.path.join(top, "cached.log")
    client = Client("1m", directory, under=["strace", "-f", "-o", log, "-e", "trace=%file,write"])
    for block in range(16):
        client.write(block * BLOCK, bytes([block + 1]) * BLOCK)
    expect("a block of a hole", client.read(100 * BLOCK, 1), (0, b"\0"))
    for turn in range(2):
        for block in range(16):
            expect("a written block", client.read(block * BLOCK, BLOCK), (0, bytes([block + 1]) * BLOCK))
        expect("a block of a hole", client.read(100 * BLOCK, 1), (0, b"\0"))
    expect("no file but the block of the hole", block_files(log), ["00000064"])
    expect("a flush", client.flush(), 0)
    expect("the end", client.end(), (0, b""))
    put = {f"{block:08x}" for block in range(16)}
    expect("the files of the flush", {name.removesuffix(".tmp") for name in block_files(log)[1:]}, put)


def block_files(log):
    """The names of the objects that the calls of a log of strace have, in the order of time."""
    return re.findall(r'"[^"]*?/?([0-9a-f]{8}(?:\.tmp)?)"', open(log).read())


def image(top):
    """A file system of 64 MiB goes through the disk and comes back whole."""
    path = "/sbin:/usr/sbin:" + os.environ.get("PATH", "")
    make, check = shutil.which("mkfs.ext4", path=path), shutil.which("e2fsck", path=path)
    if make is None or check is None:
        return print("skipped: mkfs.ext4")
    size, step, sources = 64 << 20, 128 << 10, os.path.dirname(os.path.abspath(__file__))
    made, back = os.path.join(top, "made.img"), os.path.join(top, "back.img")
    subprocess.run([make, "-q", "-d", sources, made, "64M"], check=True, capture_output=True)
    client = Client("64m", os.path.join(top, "image"))
    with open(made, "rb") as whole:
        for place in range(0, size, step):
            client.write(place, whole.read(step))
    expect("a flush", client.flush(), 0)
    expect("the end", client.end(), (0, b""))
    client = Client("64m", os.path.join(top, "image"))
    with open(back, "wb") as whole:
        for place in range(0, size, step):
            error, body = client.read(place, step)
            expect("a read of the image", error, 0)
            whole.write(body)
    expect("the end", client.end(), (0, b""))
    expect("the image", filecmp.cmp(made, back, shallow=False), True)
    found = subprocess.run([check, "-fn", back], capture_output=True)
    expect("the file system", found.returncode, 0)


def by_a_library(top):
    """The same disk by libnbd, where a Python has it."""
    for python in ("python3", "/usr/bin/python3"):
        if subprocess.run([python, "-c", "import nbd"], capture_output=True).returncode == 0:
            directory = os.path.join(top, "library")
            script = """
import nbd, sys
for turn in range(2):
    disk = nbd.NBD()
    disk.set_handshake_flags(0)
    disk.connect_command(sys.argv[1:])
    assert disk.get_size() == 1 << 22 and not disk.is_read_only() and disk.can_flush()
    body = bytes(range(256)) * 512
    if turn == 0:
        disk.pwrite(body, 4000)
        disk.flush()
    assert disk.pread(len(body), 4000) == body and disk.pread(4000, 0) == bytes(4000)
    disk.shutdown()
"""
            done = subprocess.run([python, "-c", script, program, "--stdio", "--test", "--size=4m", directory],
                                  capture_output=True, timeout=60)
            expect("libnbd", (done.returncode, done.stderr), (0, b""))
            return
    print("skipped: libnbd")


signal.alarm(300)
top = tempfile.mkdtemp()
memory = tempfile.mkdtemp(dir="/dev/shm" if os.path.isdir("/dev/shm") else None)
try:
    several_runs(os.path.join(top, "plain"), "", False)
    several_runs(os.path.join(top, "prefixed"), "p+", False)
    several_runs(os.path.join(top, "hashed"), "disk.", True)
    faults(top)
    moved(top)
    other_types(top)
    unreadable(top)
    refused_words(top)
    failing_streams(top)
    synced(top)
    spaced_puts(top)
    old_versions(top)
    cached_reads(top)
    image(memory)
    by_a_library(top)
finally:
    shutil.rmtree(top)
    shutil.rmtree(memory)
print(f"directories: {'ok' if failed == 0 else f'{failed} failed'}")
sys.exit(1 if failed else 0)
