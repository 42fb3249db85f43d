#!/usr/bin/env python3
"""Has other people's clients use a server of the built program. Usage: clients.py PROGRAM

The clients are nbdinfo, nbdcopy with four connections, qemu-img, qemu-io, fio with its engine for NBD, and libnbd from Python. One
that isn't installed is skipped by name.
"""
import filecmp, json, os, shutil, subprocess, sys, tempfile

from expecting import ends, expect
from serving import Server

program = os.path.abspath(sys.argv[1])
SIZE = 8 << 20


def ran(*words):
    """The status and the output of a command."""
    done = subprocess.run(words, stdin=subprocess.DEVNULL, stdout=subprocess.PIPE, stderr=subprocess.STDOUT, timeout=120)
    return done.returncode, done.stdout.decode("utf-8", "replace")


def check_nbdinfo(uri, folder):
    status, told = ran("nbdinfo", "--json", uri)
    expect("nbdinfo", status, 0)
    export = json.loads(told)["exports"][0]
    wanted = {"export-size": SIZE, "is_read_only": False, "can_multi_conn": True, "can_flush": True, "can_fua": True,
              "can_trim": True, "can_zero": True}
    expect("nbdinfo", {name: export.get(name) for name in wanted}, wanted)
    expect("nbdinfo --list", ran("nbdinfo", "--list", uri)[0], 0)


def check_nbdcopy(uri, folder):
    image, back = os.path.join(folder, "image"), os.path.join(folder, "back")
    with open(image, "wb") as made:
        made.write(os.urandom(3 << 20) + bytes(2 << 20) + os.urandom(3 << 20))
    expect("nbdcopy in", ran("nbdcopy", "--connections=4", "--flush", image, uri), (0, ""))
    expect("nbdcopy out", ran("nbdcopy", "--connections=4", uri, back), (0, ""))
    expect("the bytes by nbdcopy", filecmp.cmp(image, back, shallow=False), True)


def check_qemu_img(uri, folder):
    image, back = os.path.join(folder, "image"), os.path.join(folder, "back.qcow2")
    with open(image, "wb") as made:
        made.write(os.urandom(1 << 20) + bytes(6 << 20) + os.urandom(1 << 20))
    expect("qemu-img convert in", ran("qemu-img", "convert", "-n", "-f", "raw", "-O", "raw", image, uri), (0, ""))
    expect("qemu-img compare", ran("qemu-img", "compare", "-f", "raw", "-F", "raw", image, uri), (0, "Images are identical.\n"))
    expect("qemu-img convert out", ran("qemu-img", "convert", "-f", "raw", "-O", "qcow2", uri, back), (0, ""))
    expect("qemu-img compare", ran("qemu-img", "compare", "-f", "raw", "-F", "qcow2", image, back), (0, "Images are identical.\n"))


def check_qemu_io(uri, folder):
    commands = ["write -P 17 1000 5000", "write -z 8k 12k", "discard 24k 8k", "write -P 18 -f 20k 4k", "flush", "read -P 17 1000 5000",
                "read -P 0 8k 12k", "read -P 0 24k 8k", "read -P 18 20k 4k"]
    status, told = ran("qemu-io", "-f", "raw", *[word for command in commands for word in ("-c", command)], uri)
    expect("qemu-io", (status, "failed" in told.lower()), (0, False))
    status, told = ran("qemu-io", "-f", "raw", "-c", "read -P 17 0 4k", uri)
    expect("qemu-io with other bytes", "verification failed" in told, True)


def check_fio(uri, folder):
    for how, depth in ("write", 1), ("randwrite", 16):
        status, told = ran("fio", "--name=verified", "--ioengine=nbd", f"--uri={uri}", f"--rw={how}", "--bs=4k", f"--size={SIZE // 2}",
                           f"--iodepth={depth}", "--verify=crc32c", "--verify_fatal=1", "--verify_state_save=0", "--output-format=json",
                           "--allow_file_create=0")
        jobs = json.loads(told[told.index("{"):])["jobs"] if status == 0 else []
        expect(f"fio {how}", (status, [job["error"] for job in jobs]), (0, [0]))


def check_libnbd(uri, folder):
    script = os.path.join(folder, "script.py")
    with open(script, "w", encoding="utf-8") as made:
        made.write("import nbd, sys\n"
                   "one, two = nbd.NBD(), nbd.NBD()\n"
                   "for handle in one, two: handle.connect_uri(sys.argv[1])\n"
                   "one.pwrite(b'm' * 4096, 4096)\n"
                   "assert two.pread(4096, 4096) == b'm' * 4096\n"
                   "two.zero(4096, 4096); two.flush()\n"
                   "assert one.pread(4096, 4096) == bytes(4096)\n"
                   "for handle in one, two: handle.shutdown()\n")
    expect("libnbd", ran("/usr/bin/python3", script, uri), (0, ""))


def has_libnbd():
    return os.path.exists("/usr/bin/python3") and ran("/usr/bin/python3", "-c", "import nbd")[0] == 0


def has_fio():
    return shutil.which("fio") is not None and ran("fio", "--enghelp=nbd")[0] == 0


CHECKS = {
    "nbdinfo": (lambda: shutil.which("nbdinfo"), check_nbdinfo),
    "nbdcopy": (lambda: shutil.which("nbdcopy"), check_nbdcopy),
    "qemu-img": (lambda: shutil.which("qemu-img"), check_qemu_img),
    "qemu-io": (lambda: shutil.which("qemu-io"), check_qemu_io),
    "fio": (has_fio, check_fio),
    "libnbd": (has_libnbd, check_libnbd),
}

for name, (is_there, check) in CHECKS.items():
    if not is_there():
        print(f"skipped: {name} isn't installed")
        continue
    with tempfile.TemporaryDirectory() as folder:
        server = Server(program, os.path.join(folder, "disk"), "8m")
        check(f"nbd://127.0.0.1:{server.port}", folder)
        expect(f"the end behind {name}", server.end()[:2], (0, b""))
sys.exit(ends("clients"))
