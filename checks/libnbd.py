#!/usr/bin/env python3
"""Opens disks of the built program by libnbd: flags, block sizes, FUA, TRIM, zeros, and errors as the client's errno. Usage: libnbd.py PROGRAM

It prints `skipped: libnbd` where Python has no module nbd.
"""
import errno, os, sys, tempfile

try:
    import nbd
except ImportError:
    print("skipped: libnbd")
    sys.exit(0)

program = os.path.abspath(sys.argv[1])
failed = 0


def expect(name, found, wanted):
    global failed
    if found != wanted:
        failed += 1
        print(f"{name}: found {found!r}, wanted {wanted!r}")


def error_of(call, *words):
    """The errno by which a call fails."""
    try:
        call(*words)
    except nbd.Error as fault:
        return fault.errnum
    return 0


def opened(top, prepare=lambda client: None):
    """A client of the disk of a folder, prepared so before it connects."""
    client = nbd.NBD()
    # it is to ask for ranges past the end, which else it refuses itself
    client.set_strict_mode(client.get_strict_mode() & ~nbd.STRICT_BOUNDS)
    prepare(client)
    client.connect_command([program, "--stdio", "--test", "--size=1m", os.path.join(top, "disk")])
    return client


def check(name, client, protocol="newstyle-fixed"):
    expect(f"{name}: protocol", client.get_protocol(), protocol)
    expect(f"{name}: size", client.get_size(), 1 << 20)
    expect(f"{name}: flush, FUA, read-only", (client.can_flush(), client.can_fua(), client.is_read_only()), (True, True, False))
    expect(f"{name}: TRIM, ZEROES, several clients", (client.can_trim(), client.can_zero(), client.can_multi_conn()), (True, True, True))
    client.pwrite(b"A" * 5000, 4000, nbd.CMD_FLAG_FUA)
    expect(f"{name}: what was written", bytes(client.pread(5002, 3999)), b"\0" + b"A" * 5000 + b"\0")
    client.flush()
    expect(f"{name}: a write past the end", error_of(client.pwrite, b"AB", (1 << 20) - 1), errno.ENOSPC)
    expect(f"{name}: a read past the end", error_of(client.pread, 2, (1 << 20) - 1), errno.EINVAL)
    expect(f"{name}: after these", bytes(client.pread(1, 4000)), b"A")
    client.trim(8192, 2048, nbd.CMD_FLAG_FUA)
    expect(f"{name}: behind a trim", bytes(client.pread(5002, 3999)), b"\0" + b"A" * 96 + bytes(4096) + b"A" * 808 + b"\0")
    client.zero(100, 4050)
    client.zero(4, 8200, nbd.CMD_FLAG_NO_HOLE | nbd.CMD_FLAG_FUA)
    expect(f"{name}: behind zeros", bytes(client.pread(5002, 3999)),
           b"\0" + b"A" * 50 + bytes(46 + 4096) + b"A" * 8 + bytes(4) + b"A" * 796 + b"\0")
    expect(f"{name}: a trim past the end", error_of(client.trim, 2, (1 << 20) - 1), errno.EINVAL)
    expect(f"{name}: zeros past the end", error_of(client.zero, 2, (1 << 20) - 1), errno.ENOSPC)
    client.shutdown()


with tempfile.TemporaryDirectory() as top:
    client = opened(top)
    expect("GO: block sizes", [client.get_block_size(kind) for kind in (nbd.SIZE_MINIMUM, nbd.SIZE_PREFERRED, nbd.SIZE_MAXIMUM)],
           [1, 4096, 33554432])
    check("GO", client)

# without fixed newstyle a client opens the disk by EXPORT_NAME, with zeros behind the export or none
for flags in (nbd.HANDSHAKE_FLAG_NO_ZEROES, 0):
    with tempfile.TemporaryDirectory() as top:
        check(f"EXPORT_NAME with flags {flags}", opened(top, lambda client: client.set_handshake_flags(flags)), "newstyle")

with tempfile.TemporaryDirectory() as top:
    client = opened(top, lambda client: client.set_opt_mode(True))
    names = []
    client.opt_list(lambda name, description: names.append(name))
    expect("LIST", names, [""])
    client.opt_info()
    expect("INFO: size", client.get_size(), 1 << 20)
    client.set_export_name("other")
    expect("INFO of another export", error_of(client.opt_info) != 0, True)
    client.set_export_name("")
    client.opt_go()
    check("GO behind other options", client)

with tempfile.TemporaryDirectory() as top:
    client = opened(top, lambda client: client.set_opt_mode(True))
    client.opt_abort()
    expect("ABORT", client.aio_is_closed() or client.aio_is_dead(), True)

print(f"libnbd: {'ok' if failed == 0 else f'{failed} failed'}")
sys.exit(1 if failed else 0)
