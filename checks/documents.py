#!/usr/bin/env python3
"""Runs the commands of README.md and docs/MANUAL.md with the built program. Usage: documents.py PROGRAM

Lines that begin with '    $ ' are a command, which goes on over lines that end with a backslash; the lines behind it are what
it prints. The commands of one document run in one new folder, in their order, with the program as ./s3backer. A document whose
commands need a tool that isn't installed is skipped from that command on. Paths of the repository that a document names have to
exist.
"""
import os, re, shutil, subprocess, sys, tempfile

program = os.path.abspath(sys.argv[1])
top = os.path.dirname(os.path.dirname(os.path.abspath(__file__)))
TOOLS = ["nbdsh", "xxd", "cmp", "head", "printf", "ls", "mkfs.ext4", "e2fsck", "qemu-img", "nbdcopy"]
# the system's own Python has the module that nbdsh asks for
ENVIRONMENT = {**os.environ, "PATH": "/usr/bin:" + os.environ.get("PATH", "")}
failed = 0


def expect(name, found, wanted):
    global failed
    if found != wanted:
        failed += 1
        print(f"{name}: found {found[:500]!r}, wanted {wanted[:500]!r}")


def commands(text):
    """Each command of a document with what it prints."""
    lines = [line[4:].rstrip("\n") if line.startswith("    ") else None for line in text.splitlines()]
    at = 0
    while at < len(lines):
        line = lines[at]
        at += 1
        if line is None or not line.startswith("$ "):
            continue
        command = line[2:]
        while command.endswith("\\"):
            command = command[:-1] + " " + lines[at].strip()
            at += 1
        printed = []
        while at < len(lines) and lines[at] is not None and not lines[at].startswith("$ "):
            printed.append(lines[at] + "\n")
            at += 1
        yield command, "".join(printed)


def missing_tool(command):
    """The first tool of a command that isn't installed."""
    for tool in TOOLS:
        if re.search(rf"(^|[ |;]){re.escape(tool)}( |$)", command) and not shutil.which(tool, path=ENVIRONMENT["PATH"]):
            return tool
    return None


def run_document(name):
    text = open(os.path.join(top, name), encoding="utf-8").read()
    count = 0
    with tempfile.TemporaryDirectory() as folder:
        os.symlink(program, os.path.join(folder, "s3backer"))
        status = 0
        for command, printed in commands(text):
            # one that isn't run for want of a tool counts, too
            count += 1
            tool = missing_tool(command)
            if tool:
                print(f"skipped: {name} from its command with {tool} on")
                break
            done = subprocess.run(["bash", "-c", f"(exit {status}); {command}"], cwd=folder, env=ENVIRONMENT, timeout=100,
                                  stdin=subprocess.DEVNULL, stdout=subprocess.PIPE, stderr=subprocess.STDOUT)
            status = done.returncode
            expect(f"{name}: {command}", done.stdout.decode("utf-8", "replace"), printed)
    if count == 0:
        expect(name, "no command", "commands")


def check_paths():
    """Each path of the repository that a document names exists."""
    documents = ["README.md", "CHANGELOG.md"] + [f"docs/{name}" for name in sorted(os.listdir(os.path.join(top, "docs")))]
    for document in documents:
        if not document.endswith(".md"):
            continue
        text = open(os.path.join(top, document), encoding="utf-8").read()
        for path in re.findall(r"\b(?:docs|crates|checks|bench)/[A-Za-z0-9_./-]*[A-Za-z0-9_]", text):
            if "NAME" in path:
                continue
            if not os.path.exists(os.path.join(top, path)):
                expect(document, path, "a path that exists")


run_document("README.md")
run_document("docs/MANUAL.md")
check_paths()
if failed:
    sys.exit(f"documents: {failed} failed")
print("documents: ok")
