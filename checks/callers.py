#!/usr/bin/env python3
"""Sees whether each block of a disk with many callers is a register. Usage: callers.py [PROGRAM [SEED]]

The program of crates/bench_disks lets 16 threads read, write and flush at random, and tells each call with its begin and
its end. A write that failed has changed nothing, so no read may give its value. In the end each object of the store has the value that was
written last. It is tried over a store that always answers, over one that fails one request in eight, and over one that
shows old versions too. Without PROGRAM it is built, without SEED the seed comes from the clock.
"""
import collections, os, subprocess, sys, time
from expecting import ends, expect
from registers import Call, faults, last_values

CRATE = os.path.join(os.path.dirname(os.path.dirname(os.path.abspath(__file__))), "crates", "bench_disks")
THREADS, ROUNDS = 16, 150
# The rounds, one request in how many fails, and for how many milliseconds old versions are shown.
TRIALS = {"a store that answers": (400, 0, 0), "a store that fails": (150, 8, 0), "old versions": (100, 0, 15),
          "old versions and faults": (60, 8, 15)}


def told(program, rounds, seed, fails, lag):
    """The calls of a trial, and the values of the store's objects by their block."""
    words = [str(word) for word in ("mixed", THREADS, rounds, seed, fails, lag)]
    ran = subprocess.run([program, *words], capture_output=True, text=True, check=True, timeout=120)
    calls, objects = [], {}
    for line in ran.stdout.splitlines():
        first, *rest = line.split()
        if first == "object":
            objects[int(rest[0], 16)] = int(rest[1])
        else:
            calls.append(Call(first, *map(int, rest[:4]), rest[4]))
    return calls, objects


def tried(name, program, rounds, seed, fails, lag):
    calls, objects = told(program, rounds, seed, fails, lag)
    expect(f"{name}: calls", len(calls), THREADS * rounds)
    good = [call for call in calls if call.outcome == "good"]
    if fails == 0:
        expect(f"{name}: failed calls", len(calls) - len(good), 0)
    blocks = collections.defaultdict(list)
    for call in good:
        if call.kind != "flush":
            blocks[call.block].append(call)
    for block, made in sorted(blocks.items()):
        expect(f"{name}: block {block}", list(faults(made)), [])
        # in the end each caller has flushed
        expect(f"{name}: block {block} in the store", objects.get(block, 0) in last_values(made), True)
    print(f"callers: {name}: {len(good)} calls went well, {len(calls) - len(good)} failed", flush=True)


def main():
    if len(sys.argv) > 1:
        program = sys.argv[1]
    else:
        subprocess.run(["rt", "run", "--", "reads", "1", "1"], cwd=CRATE, check=True, stdout=subprocess.DEVNULL)
        program = os.path.join(CRATE, "out", "bench_disks")
    seed = int(sys.argv[2]) if len(sys.argv) > 2 else time.time_ns() % 2**32
    for name, (rounds, fails, lag) in TRIALS.items():
        tried(name, program, rounds, seed, fails, lag)
    return ends("callers", f"seed {seed}: ")


if __name__ == "__main__":
    sys.exit(main())
