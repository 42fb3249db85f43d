#!/usr/bin/env python3
"""Copies images of file systems into disks of the built program and back, by nbdcopy. Usage: nbdcopy.py PROGRAM

Each run serves one connection, so nbdcopy is told to make one. The holes of an image are written as zeros, over blocks that are new
and over blocks that have other bytes. Where nbdcopy or mkfs.ext4 isn't installed, the script prints that it is skipped.
"""
import filecmp, os, shutil, socket, subprocess, sys, tempfile, threading

from expecting import ends, expect

program = os.path.abspath(sys.argv[1])
BLOCK = 4096
PATH = "/sbin:/usr/sbin:" + os.environ.get("PATH", "")
TOOLS = {name: shutil.which(name, path=PATH) for name in ("nbdcopy", "mkfs.ext4", "e2fsck")}


class Disk:
    """The disk of a directory, which a run of the program serves to the first that connects to a socket of the file system."""

    def __init__(self, top, directory, size):
        self.path = os.path.join(top, "socket")
        self.listener = socket.socket(socket.AF_UNIX)
        self.listener.bind(self.path)
        self.listener.listen()
        self.listener.settimeout(60)
        self.words = [program, "--stdio", "--test", f"--size={size}", directory]
        self.thread = threading.Thread(target=self.serve)

    def serve(self):
        connection, _ = self.listener.accept()
        with connection:
            process = subprocess.Popen(self.words, stdin=connection, stdout=connection, stderr=subprocess.PIPE)
        _, errors = process.communicate(timeout=240)
        expect("the end of a run", (process.returncode, errors), (0, b""))

    def __enter__(self):
        self.thread.start()
        return "nbd+unix:///?socket=" + self.path

    def __exit__(self, *fault):
        self.thread.join()
        self.listener.close()
        os.remove(self.path)


def copy(source, target):
    done = subprocess.run([TOOLS["nbdcopy"], "--connections=1", source, target], capture_output=True, timeout=240)
    expect("nbdcopy", (done.returncode, done.stderr), (0, b""))


def image_of(path, size, content):
    subprocess.run([TOOLS["mkfs.ext4"], "-q", "-E", "discard", "-d", content, path, size], check=True, capture_output=True)
    return path


def blocks_of(path):
    """How many blocks of a file aren't zeros."""
    with open(path, "rb") as whole:
        return sum(body != bytes(BLOCK) for body in iter(lambda: whole.read(BLOCK), b""))


def main():
    if None in TOOLS.values():
        print("skipped: nbdcopy")
        return 0
    sources = os.path.dirname(os.path.abspath(__file__))
    memory = "/dev/shm" if os.access("/dev/shm", os.W_OK) else None
    with tempfile.TemporaryDirectory(dir=memory) as top:
        directory, back = os.path.join(top, "disk"), os.path.join(top, "back.img")
        # the second image has other files, so that it has holes where the first one has bytes
        for name, content in [("first", sources), ("second", os.path.join(os.path.dirname(sources), "docs"))]:
            made = image_of(os.path.join(top, f"{name}.img"), "16M", content)
            with Disk(top, directory, "16m") as address:
                copy(made, address)
            expect(f"the blocks of the {name} image", len(os.listdir(directory)), blocks_of(made))
            with Disk(top, directory, "16m") as address:
                copy(address, back)
            expect(f"the {name} image", filecmp.cmp(made, back, shallow=False), True)
            found = subprocess.run([TOOLS["e2fsck"], "-fn", back], capture_output=True)
            expect(f"the file system of the {name} image", found.returncode, 0)
    return ends("nbdcopy")


sys.exit(main())
