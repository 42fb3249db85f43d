"""Decides whether a block was a register to those who read and wrote it.

No two writes write the same value, so that it can be decided for each block whether some order of its calls explains what the
reads gave, where no call comes before one that ended before it began (Gibbons and Korach, 1997). A block has the value 0 before
the first call.
"""
import collections

Call = collections.namedtuple("Call", "kind block value begun ended outcome")


def zones(calls):
    """For each value of a block the first end of its calls and their last begin."""
    # each block is zeros before the first call
    zones = {0: (-1, -1)}
    for call in calls:
        end, begin = zones.get(call.value, (call.ended, call.begun))
        zones[call.value] = min(end, call.ended), max(begin, call.begun)
    return zones


def faults(calls):
    """What is wrong with the good calls of one block."""
    writes = {call.value: call for call in calls if call.kind == "write"}
    for call in calls:
        if call.kind == "read" and call.value != 0:
            if call.value not in writes:
                yield f"a read gave {call.value}, which no good write wrote"
            elif call.ended < writes[call.value].begun:
                yield f"a read gave {call.value} before it was written"
    forward = sorted((end, begin) for end, begin in zones(calls).values() if end < begin)
    backward = [(begin, end) for end, begin in zones(calls).values() if begin <= end]
    for (_, last), (first, _) in zip(forward, forward[1:]):
        if first <= last:
            yield f"two values were both seen before and behind {first}"
    for begin, end in backward:
        if any(first < begin and end < last for first, last in forward):
            yield f"a value was seen from {begin} to {end}, while another one was seen before and behind"


def last_values(calls):
    """The values that a block may have in the end: those whose calls no other write's calls are behind."""
    found = zones(calls)
    return {value for value, (end, _) in found.items()
            if not any(end < writes for writes in (call.begun for call in calls if call.kind == "write"))}
