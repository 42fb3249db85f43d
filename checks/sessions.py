#!/usr/bin/env python3
"""Runs sessions of the built program and compares bytes, statuses and peak memory. Usage: sessions.py PROGRAM"""
import concurrent.futures, os, random, shutil, subprocess, sys, tempfile

program = sys.argv[1]
memory = "/dev/shm" if os.access("/dev/shm", os.W_OK) else None
GREETING = bytes.fromhex("4e42444d41474943 49484156454f5054 0003")
NAME, ABORT, LIST, STARTTLS, INFO, GO = 1, 2, 3, 5, 6, 7
ACK, SERVER, INFO_REPLY = 1, 2, 3
UNSUP, POLICY, INVALID, UNKNOWN = 0x80000001, 0x80000002, 0x80000003, 0x80000006
NO_ZEROES = bytes.fromhex("00000003")
DISC = bytes.fromhex("25609513 0000 0002 0000000000000000 0000000000000000 00000000")


READ, WRITE, FLUSH, TRIM, CACHE, WRITE_ZEROES = 0, 1, 3, 4, 5, 6
FUA, NO_HOLE = 1, 2
BLOCK = 4096
EINVAL, ENOSPC = 22, 28
LARGEST, LARGEST_OPTION = 33554432, 65536
FLAGS = bytes.fromhex("016d")


def option(number, body=b""):
    return bytes.fromhex("49484156454f5054") + number.to_bytes(4, "big") + len(body).to_bytes(4, "big") + body


def asking(name=b"", *kinds):
    """What INFO and GO carry."""
    return (len(name).to_bytes(4, "big") + name + len(kinds).to_bytes(2, "big")
            + b"".join(kind.to_bytes(2, "big") for kind in kinds))


def answer(number, kind, body=b""):
    return (bytes.fromhex("0003e889045565a9") + number.to_bytes(4, "big") + kind.to_bytes(4, "big")
            + len(body).to_bytes(4, "big") + body)


def details(number, size, *kinds):
    """The answer to INFO or GO that asks for these kinds."""
    sizes = answer(number, INFO_REPLY, bytes.fromhex("0003 00000001 00001000 02000000")) if 3 in kinds else b""
    return answer(number, INFO_REPLY, bytes(2) + size.to_bytes(8, "big") + FLAGS) + sizes + answer(number, ACK)


EXPORT_NAME = option(NAME)


def request(kind, cookie, offset, length, flags=0):
    return (bytes.fromhex("25609513") + flags.to_bytes(2, "big") + kind.to_bytes(2, "big") + cookie.to_bytes(8, "big")
            + offset.to_bytes(8, "big") + length.to_bytes(4, "big"))


def read(cookie, offset, length):
    return request(READ, cookie, offset, length)


def write(cookie, offset, body, flags=0):
    return request(WRITE, cookie, offset, len(body), flags) + body


def trim(cookie, offset, length, flags=0):
    return request(TRIM, cookie, offset, length, flags)


def write_zeroes(cookie, offset, length, flags=0):
    return request(WRITE_ZEROES, cookie, offset, length, flags)


def flush(cookie):
    return request(FLUSH, cookie, 0, 0)


def error(number, cookie):
    return bytes.fromhex("67446698") + number.to_bytes(4, "big") + cookie.to_bytes(8, "big")


def reply(cookie, body):
    return bytes.fromhex("67446698 00000000") + cookie.to_bytes(8, "big") + body


def run(size, given):
    """A session of an empty disk over a directory that isn't there yet: status, output and the line on standard error."""
    top = tempfile.mkdtemp(dir=memory)
    try:
        words = ["--stdio", "--test", f"--size={size}", os.path.join(top, "disk")]
        done = subprocess.run([program, *words], input=given, capture_output=True, timeout=60)
        return done.returncode, done.stdout, done.stderr
    finally:
        shutil.rmtree(top)


def export(size):
    return GREETING + size.to_bytes(8, "big") + FLAGS


failed = 0


def expect(name, found, wanted):
    global failed
    if found != wanted:
        failed += 1
        print(f"{name}: found {found!r}, wanted {wanted!r}")


SMALL = "64k"
OPEN = NO_ZEROES + EXPORT_NAME

expect("a disconnected session", run(SMALL, OPEN + DISC), (0, export(65536), b""))
expect("the end between messages", run(SMALL, OPEN), (0, export(65536), b""))
expect("the client wants zeroes", run(SMALL, bytes(4) + EXPORT_NAME + DISC), (0, export(65536) + bytes(124), b""))
expect("reads", run(SMALL, OPEN + read(1, 0, 512) + read(2, 4095, 2) + read(3, 65535, 1) + read(4, 65536, 0) + DISC),
       (0, export(65536) + reply(1, bytes(512)) + reply(2, bytes(2)) + reply(3, bytes(1)) + reply(4, b""), b""))


def ends(text):
    return f"s3backer: session: {text}\n".encode()


expect("a read past the end", run(SMALL, OPEN + read(1, 65536, 1) + DISC), (0, export(65536) + error(22, 1), b""))
expect("a wrong magic", run(SMALL, OPEN + bytes.fromhex("25609514") + bytes(24)), (7, export(65536), ends("magic")))
expect("a cut request", run(SMALL, OPEN + read(1, 0, 512)[:10]), (7, export(65536), ends("cut")))
expect("unknown flags", run(SMALL, bytes.fromhex("00000004")), (7, GREETING, ends("flags")))
expect("GO", run(SMALL, NO_ZEROES + option(GO, asking()) + DISC), (0, GREETING + details(GO, 65536), b""))
expect("GO that asks for block sizes", run(SMALL, NO_ZEROES + option(GO, asking(b"", 3)) + DISC),
       (0, GREETING + details(GO, 65536, 3), b""))
expect("more first", run(SMALL, NO_ZEROES + option(11) + option(8) + option(GO, asking(b"", 3)) + request(READ, 1, 0, 512, FUA) + DISC),
       (0, GREETING + answer(11, UNSUP) + answer(8, UNSUP) + details(GO, 65536, 3) + reply(1, bytes(512)), b""))
expect("INFO and then EXPORT_NAME", run(SMALL, NO_ZEROES + option(INFO, asking(b"", 0, 7, 3)) + EXPORT_NAME + DISC),
       (0, GREETING + details(INFO, 65536, 3) + export(65536)[18:], b""))
expect("LIST", run(SMALL, NO_ZEROES + option(LIST) + option(LIST, b"a")),
       (0, GREETING + answer(LIST, SERVER, bytes(4)) + answer(LIST, ACK) + answer(LIST, INVALID), b""))
expect("ABORT", run(SMALL, NO_ZEROES + option(ABORT) + option(LIST)), (0, GREETING + answer(ABORT, ACK), b""))
expect("STARTTLS and an unknown option", run(SMALL, NO_ZEROES + option(STARTTLS) + option(9)),
       (0, GREETING + answer(STARTTLS, POLICY) + answer(9, UNSUP), b""))
expect("GO with another name", run(SMALL, NO_ZEROES + option(GO, asking(b"disk", 3)) + option(GO, asking()[:5])),
       (0, GREETING + answer(GO, UNKNOWN) + answer(GO, INVALID), b""))
expect("EXPORT_NAME with another name", run(SMALL, NO_ZEROES + option(NAME, b"disk") + DISC), (7, GREETING, ends("no such export")))
expect("an option that is too long", run(SMALL, NO_ZEROES + option(9, bytes(LARGEST_OPTION + 1))), (7, GREETING, ends("too big")))
expect("the longest option", run(SMALL, NO_ZEROES + option(9, bytes(LARGEST_OPTION))), (0, GREETING + answer(9, UNSUP), b""))
expect("a write with FUA", run(SMALL, OPEN + write(1, 4095, b"AB", FUA) + read(2, 4095, 2) + DISC),
       (0, export(65536) + reply(1, b"") + reply(2, b"AB"), b""))
expect("a write, a flush and a read", run(SMALL, OPEN + write(1, 0, b"A" * 4096) + flush(2) + read(3, 4095, 2) + DISC),
       (0, export(65536) + reply(1, b"") + reply(2, b"") + reply(3, b"A\0"), b""))
expect("ranges at the end", run(SMALL, OPEN + write(1, 65535, b"B") + write(2, 65536, b"C") + write(3, 65535, b"DE")
                                + read(4, 65535, 1) + read(5, 65535, 2) + write(6, 65536, b"") + read(7, 2**64 - 1, 1) + DISC),
       (0, export(65536) + reply(1, b"") + error(ENOSPC, 2) + error(ENOSPC, 3) + reply(4, b"B") + error(EINVAL, 5)
        + reply(6, b"") + error(EINVAL, 7), b""))
expect("requests that are not known", run(SMALL, OPEN + request(CACHE, 1, 0, 512) + trim(2, 0, 512, NO_HOLE)
                                          + request(99, 3, 0, 0) + request(READ, 4, 0, 512, NO_HOLE)
                                          + write_zeroes(5, 0, 512, 4) + DISC),
       (0, export(65536) + b"".join(error(EINVAL, cookie) for cookie in (1, 2, 3, 4, 5)), b""))
THREE = write(1, 0, b"A" * 3 * BLOCK)
expect("a trim of one whole block and parts of two", run(SMALL, OPEN + THREE + trim(2, 2048, 2 * BLOCK) + read(3, 0, 3 * BLOCK) + DISC),
       (0, export(65536) + reply(1, b"") + reply(2, b"") + reply(3, b"A" * BLOCK + bytes(BLOCK) + b"A" * BLOCK), b""))
expect("a trim up to the last block", run(SMALL, OPEN + write(1, 65536 - BLOCK, b"A" * BLOCK) + trim(2, 1, 65535, FUA)
                                          + read(3, 65536 - BLOCK, BLOCK) + DISC),
       (0, export(65536) + reply(1, b"") + reply(2, b"") + reply(3, bytes(BLOCK)), b""))
expect("zeros over a border", run(SMALL, OPEN + THREE + write_zeroes(2, 2048, BLOCK, FUA | NO_HOLE) + read(3, 0, 3 * BLOCK) + DISC),
       (0, export(65536) + reply(1, b"") + reply(2, b"") + reply(3, b"A" * 2048 + bytes(BLOCK) + b"A" * 6144), b""))
expect("zeros past the end", run(SMALL, OPEN + trim(1, 65535, 2) + write_zeroes(2, 65535, 2) + trim(3, 65536, 0)
                                 + write_zeroes(4, 65536, 0) + DISC),
       (0, export(65536) + error(EINVAL, 1) + error(ENOSPC, 2) + reply(3, b"") + reply(4, b""), b""))
expect("a read that is too long", run("64m", OPEN + read(1, 0, LARGEST + 1) + DISC),
       (0, export(67108864) + error(EINVAL, 1), b""))
expect("a write that is too long", run("64m", OPEN + request(WRITE, 1, 0, LARGEST + 1)),
       (7, export(67108864), ends("too big")))
expect("no size", run("64q", b""), (2, b"", b"s3backer: usage: --size: not a size: 64q\n"))
expect("an empty disk", run("0", b"")[0], 2)
expect("no words", subprocess.run([program], input=b"", capture_output=True, timeout=60).returncode, 2)


def trimmed(disk, offset, length):
    """Zeros in each block that lies wholly in a range."""
    for block in range(len(disk) // BLOCK):
        if offset <= block * BLOCK and (block + 1) * BLOCK <= offset + length:
            disk[block * BLOCK:(block + 1) * BLOCK] = bytes(BLOCK)


def model(given, size):
    """What a session of a disk of zeros has to come to: status, output and the line on standard error."""
    out, disk, at = bytearray(GREETING), bytearray(size), 0

    def take(count):
        nonlocal at
        at += count
        return given[at - count:at] if at <= len(given) else None

    def well():
        return 0, bytes(out), b""

    def ill(text="cut"):
        return 7, bytes(out), ends(text)

    if not given:
        return well()
    flags = take(4)
    if flags is None:
        return ill()
    if int.from_bytes(flags, "big") > 3:
        return ill("flags")
    while True:
        if at == len(given):
            return well()
        magic = take(8)
        if magic is not None and magic != bytes.fromhex("49484156454f5054"):
            return ill("magic")
        head = take(8)
        if magic is None or head is None:
            return ill()
        number, length = int.from_bytes(head[:4], "big"), int.from_bytes(head[4:], "big")
        if length > LARGEST_OPTION:
            return ill("too big")
        body = take(length)
        if body is None:
            return ill()
        if number == NAME:
            if body:
                return ill("no such export")
            out += export(size)[len(GREETING):] + (b"" if flags[3] & 2 else bytes(124))
            break
        if number == ABORT:
            out += answer(ABORT, ACK)
            return well()
        if number == LIST:
            out += answer(LIST, INVALID) if body else answer(LIST, SERVER, bytes(4)) + answer(LIST, ACK)
        elif number == STARTTLS:
            out += answer(STARTTLS, POLICY)
        elif number not in (INFO, GO):
            out += answer(number, UNSUP)
        else:
            length = int.from_bytes(body[:4], "big")
            kinds = [int.from_bytes(body[i:i + 2], "big") for i in range(6 + length, len(body) - 1, 2)]
            if body != asking(body[4:4 + length], *kinds):
                out += answer(number, INVALID)
            elif length:
                out += answer(number, UNKNOWN)
            else:
                out += details(number, size, *kinds)
                if number == GO:
                    break
    while at < len(given):
        magic = take(4)
        if magic is not None and magic != bytes.fromhex("25609513"):
            return ill("magic")
        asked = take(24)
        if magic is None or asked is None:
            return ill()
        flags, kind, cookie, offset, length = (int.from_bytes(part, "big") for part in (asked[:2], asked[2:4], asked[4:12], asked[12:20], asked[20:]))
        if kind == WRITE and length > LARGEST:
            return ill("too big")
        body = take(length) if kind == WRITE else b""
        if body is None:
            return ill()
        past = offset + length > size
        if kind == 2:
            return well()
        allowed = FUA | NO_HOLE if kind == WRITE_ZEROES else FUA
        if (kind not in (READ, WRITE, FLUSH, TRIM, WRITE_ZEROES) or flags & ~allowed
                or kind == READ and length > LARGEST or kind in (READ, TRIM) and past):
            out += error(EINVAL, cookie)
        elif kind in (WRITE, WRITE_ZEROES) and past:
            out += error(ENOSPC, cookie)
        else:
            if kind == WRITE:
                disk[offset:offset + length] = body
            elif kind == WRITE_ZEROES:
                disk[offset:offset + length] = bytes(length)
            elif kind == TRIM:
                trimmed(disk, offset, length)
            out += error(0, cookie) + (bytes(disk[offset:offset + length]) if kind == READ else b"")
    return well()


SEVERAL = OPEN + write(1, 4090, b"several") + read(2, 4090, 7) + flush(3) + read(4, 0, 3) + DISC
ZEROED = (OPEN + write(1, 4090, b"several") + write_zeroes(2, 4089, 3, NO_HOLE) + read(3, 4090, 7) + trim(4, 4096, 4096, FUA)
          + read(5, 4090, 7) + DISC)
HAGGLING = (NO_ZEROES + option(LIST) + option(STARTTLS) + option(INFO, asking(b"", 3)) + option(9, b"nine") + option(GO, asking(b"", 0, 3))
            + write(1, 4095, b"AB", FUA) + read(2, 4095, 2) + DISC)
ABORTED = NO_ZEROES + option(GO, asking(b"a")) + option(ABORT) + option(LIST)
for name, whole in (("session", SEVERAL), ("session with zeros", ZEROED), ("session with options", HAGGLING), ("session that is aborted", ABORTED)):
    for cut in range(len(whole) + 1):
        expect(f"a {name} cut at {cut}", run(SMALL, whole[:cut]), model(whole[:cut], 65536))
    for place in range(len(whole)):
        for value in {0, 1, 127, 255, whole[place] ^ 2}:
            changed = whole[:place] + bytes([value]) + whole[place + 1:]
            expect(f"a {name} with byte {place} made {value}", run(SMALL, changed), model(changed, 65536))
LONGEST = OPEN + write(1, 4096, random.Random(1).randbytes(LARGEST)) + read(2, 4096, LARGEST) + read(3, 0, LARGEST + 1) + DISC
expect("the longest write and read", run("64m", LONGEST) == model(LONGEST, 67108864), True)


def random_session(seed, size, count):
    """The requests of a session that a seed gives, and the replies that an array of bytes would make."""
    choice = random.Random(seed)
    disk, given, wanted = bytearray(size), bytearray(OPEN), bytearray(export(size))
    for cookie in range(count):
        length = choice.choice([0, 1, 511, 512, 4096, 4097, 9000, choice.randrange(2 * 4096)])
        offset = choice.choice([choice.randrange(size), size - length, size - 1, 4096 * choice.randrange(size // 4096)])
        kind = choice.choice([READ, READ, READ, WRITE, WRITE, WRITE, FLUSH, TRIM, WRITE_ZEROES])
        past = offset + length > size
        if kind == WRITE:
            body = choice.choice([bytes(length), choice.randbytes(length)])
            given += write(cookie, offset, body, choice.choice([0] * 7 + [FUA]))
            if not past:
                disk[offset:offset + length] = body
            wanted += error(ENOSPC if past else 0, cookie)
        elif kind == READ:
            given += read(cookie, offset, length)
            wanted += error(EINVAL, cookie) if past else reply(cookie, bytes(disk[offset:offset + length]))
        elif kind == FLUSH:
            given += request(FLUSH, cookie, offset, length)
            wanted += error(0, cookie)
        elif kind == TRIM:
            given += trim(cookie, offset, length, choice.choice([0] * 7 + [FUA]))
            if not past:
                trimmed(disk, offset, length)
            wanted += error(EINVAL if past else 0, cookie)
        else:
            given += write_zeroes(cookie, offset, length, choice.choice([0] * 5 + [FUA, NO_HOLE, FUA | NO_HOLE]))
            if not past:
                disk[offset:offset + length] = bytes(length)
            wanted += error(ENOSPC if past else 0, cookie)
    return bytes(given + DISC), bytes(wanted)


def holds(seed):
    given, wanted = random_session(seed, 65536, 120)
    return run(SMALL, given) == (0, wanted, b"")


with concurrent.futures.ThreadPoolExecutor() as pool:
    for seed, held in enumerate(pool.map(holds, range(16))):
        expect(f"the random session {seed}", held, True)


def peak(size, length):
    """The peak memory of a session that reads the first bytes of an empty disk, and reads them right, and zeroes up to 4 MiB."""
    top = tempfile.mkdtemp(dir=memory)
    child = subprocess.Popen(["/usr/bin/env", "python3", "-c",
                              "import resource, subprocess, sys; "
                              "done = subprocess.run(sys.argv[1:], input=sys.stdin.buffer.read(), stdout=subprocess.PIPE); "
                              "print(resource.getrusage(resource.RUSAGE_CHILDREN).ru_maxrss, done.returncode, "
                              "done.stdout.hex())",
                              program, "--stdio", "--test", f"--size={size}", os.path.join(top, "disk")],
                             stdin=subprocess.PIPE, stdout=subprocess.PIPE)
    out, _ = child.communicate(OPEN + read(1, 0, 512) + write_zeroes(2, 0, min(length, 1 << 22)) + DISC, timeout=60)
    shutil.rmtree(top)
    most, status, output = out.split()
    expect(f"a session of {size}", (int(status), bytes.fromhex(output.decode())),
           (0, export(length) + reply(1, bytes(512)) + reply(2, b"")))
    return int(most)


small, large = peak("64k", 65536), peak("1t", 2**40)
# a bit for each block says whether it is known to be zeros, and 1,000 blocks are cached
marks, cached = 2**40 // BLOCK // 8 // 1024, 1000 * BLOCK // 1024
if large - small >= marks + cached + 1024:
    failed += 1
    print(f"peak memory: {small} KiB for 64k, {large} KiB for 1t")


def without_memory():
    """A start that gets no memory for its buffers."""
    top = tempfile.mkdtemp(dir=memory)
    words = ["--stdio", "--test", "--size=64k", os.path.join(top, "disk")]
    done = subprocess.run(["prlimit", "--as=20000000", program, *words], input=OPEN + DISC, capture_output=True, timeout=60)
    shutil.rmtree(top)
    expect("without memory", (done.returncode, done.stdout, done.stderr), (12, b"", b"s3backer: out of memory\n"))


if shutil.which("prlimit"):
    without_memory()
else:
    print("skipped: prlimit")

print(f"sessions: {'ok' if failed == 0 else f'{failed} failed'}")
sys.exit(1 if failed else 0)
