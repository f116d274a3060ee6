"""How a case of `feed` and its answer stand in the files: several calls, one after the other, on one work list.

A case is the number of places of the work list (u32), its first bytes (a list of u8; behind them entry k holds (5k + 3) mod 256), the count of
bytes received so far (u64), the capacities of the four lists for a result and, as far as the case goes, the steps: a byte 1 and the burst (a list
of u8), or a byte 0 for the end.

An answer holds for each step the refusal number (u32) and the count afterwards (u64). Behind an end's stands what `read_job` has behind its number:
degree, points, radius and clamps, or the place, then the four lists whole; an end finds them as the end before it left them. At last comes the fingerprint
of the work list (u64): what is left of it, read as one number low byte first, on division by 2^56 - 5. So no case grows by a whole work list, and one
expression makes it here.
"""

import struct

from . import feeding
from .fault import answering
from .vectors import CALLS, Case, before, entries, lent_list, told_of_reading, u32

END = None  # the step that tells the end; every other is the bytes of a burst
KINDS = ("u16", "i32", "i32", "i32")
MODULUS = 2**56 - 5
FILL = bytes(before("u8", k) for k in range(256))  # it repeats from here on


def u64(number):
    return struct.pack("<Q", number)


def work_list(places, front):
    return front + (FILL * (places // len(FILL) + 1))[len(front) : places]


def fingerprint(work):
    return int.from_bytes(work, "little") % MODULUS


def step_bytes(step):
    return b"\0" if step is END else b"\1" + u32(len(step)) + step


def results(curve, clamps):
    return curve.knots, curve.xs, curve.ys, [side for clamp in clamps for side in clamp]


def after_end(number, place, curve, clamps, radius, lists):
    """What stands behind the number and the count of an end; its result goes to the front of the lists."""
    counts = ()
    if number == 0:
        counts = curve.degree, len(curve.xs), radius, len(clamps)
        for one, result in zip(lists, results(curve, clamps)):
            one[: len(result)] = result
    return told_of_reading(number, place, *counts) + b"".join(entries(kind, one) for kind, one in zip(KINDS, lists))


@answering
def feed(places, front, received, room, steps, points):
    """The case and its answer; number and place are those of the last step."""
    body = bytes([CALLS.index("feed") + 1]) + u32(places) + lent_list("u8", front) + u64(received) + u32(*room)
    work, answer, numbers, place = work_list(places, front), b"", [], None
    lists = [[before(kind, k) for k in range(have)] for kind, have in zip(KINDS, room)]
    for step in steps:
        behind, place = b"", None
        if step is END:
            number, place, curve, clamps, radius, received = feeding.feed_end(work, received, room)
            behind = after_end(number, place, curve, clamps, radius, lists)
        else:
            number, work, received = feeding.feed(work, received, step)
        numbers.append(number)
        answer += u32(number) + u64(received) + behind
    body += b"".join(step_bytes(step) for step in steps)
    return Case("feed", numbers[-1], body, answer + u64(fingerprint(work)), points, place=place, numbers=numbers)
