"""Cases of `feed` with inputs that fill the work list, just not or more than that: the list's end lies in a burst, between two, or behind all."""

from .broken_cases import wrong_length, wrong_tag
from .curve import MOST_POINTS
from .expected import each_one_short, expect, expect_at, largest_curve
from .fed_vectors import END, feed
from .feeding import LONGEST_JOB
from .fields import CLAMP, LAST_CLAMP, fields_of, joined
from .record import MOST_CLAMPS

ROOM = (1028, 1024, 1024, 256)
LITTLE = (3, 2, 0, 5)


def longest_fields(dice):
    """1,024 points and 64 clamps: the longest job."""
    return fields_of(largest_curve(dice, 3), [(k, k + 9, -k, 5) for k in range(MOST_CLAMPS)])


def in_parts(data, *sizes):
    """Bursts of these sizes, and what is left in a last one."""
    bursts = []
    for size in sizes:
        bursts.append(data[:size])
        data = data[size:]
    return [*bursts, data]


def in_equal_parts(data, size):
    return in_parts(data, *[size] * ((len(data) - 1) // size))


def whole_cases(longest):
    """The longest job, in lists that it fills or that are longer."""
    for places, steps in (
        (LONGEST_JOB, [longest]),
        (LONGEST_JOB, in_parts(longest, 1, 0, LONGEST_JOB - 2) + [b""]),
        (LONGEST_JOB + 1, in_equal_parts(longest, 1000)),
        (20000, in_parts(longest, LONGEST_JOB)),
    ):
        yield expect(0, feed(places, b"", 0, ROOM, [*steps, END], MOST_POINTS))
    for short in each_one_short(ROOM)[1::2]:
        yield expect(15, feed(LONGEST_JOB, b"", 0, short, [longest, END], MOST_POINTS))
    steps = [longest, END, b"\1", END]
    yield expect_at(16, 1, feed(LONGEST_JOB, b"", 0, ROOM, steps, MOST_POINTS))


def total_cases(longest):
    """Inputs that end just before the longest job does, with it, or just behind it."""
    for total in range(LONGEST_JOB - 1, LONGEST_JOB + 4):
        data = (longest + b"\5\x10\0\0")[:total]
        number, place = (16, total) if total < LONGEST_JOB else (21, LONGEST_JOB) if total > LONGEST_JOB else (15, None)
        for places, steps in (
            (LONGEST_JOB, [data]),
            (LONGEST_JOB, in_parts(data, LONGEST_JOB - 7, 6, 1, 0, 1)),
            (LONGEST_JOB + 2, in_parts(data, 5000, LONGEST_JOB - 5000)),
        ):
            yield expect_at(number, place, feed(places, b"", 0, LITTLE, [*steps, END], MOST_POINTS))


def straddling_cases(longest):
    """The last burst lies across the list's end, however long it is; what does not fit is counted and not kept."""
    for places, fed, extra in (
        (LONGEST_JOB, LONGEST_JOB - 1, 2),
        (LONGEST_JOB, LONGEST_JOB, 1),
        (LONGEST_JOB, LONGEST_JOB - 77, 900),
        (LONGEST_JOB, 0, 12000),
        (LONGEST_JOB + 1, LONGEST_JOB - 7, 8),
        (LONGEST_JOB + 1, LONGEST_JOB - 7, 9),
        (LONGEST_JOB + 523, LONGEST_JOB, 523),
        (LONGEST_JOB + 523, LONGEST_JOB, 524),
    ):
        data = (longest + bytes(7 * k % 251 for k in range(1000)))[: fed + extra]
        steps = [*in_parts(data, fed), b"", b"\1\2\3", END]
        yield expect_at(21, LONGEST_JOB, feed(places, b"", 0, LITTLE, steps, MOST_POINTS))


def broken_cases(fields):
    """A fault anywhere in an input that fills the list, or more, is told as it is; nothing behind it matters."""
    for extra, (number, place, data) in enumerate(
        (
            wrong_tag(fields, 0, 0),
            wrong_length(fields, 0, 2),
            wrong_length(fields, 1, 2058),
            wrong_tag(fields, 3, 3),
            wrong_tag(fields, CLAMP, 1),
            wrong_length(fields, CLAMP + 31, 15),
            wrong_tag(fields, LAST_CLAMP, 4),
            wrong_length(fields, LAST_CLAMP, 17),
        )
    ):
        steps = in_parts(data + bytes(extra % 4), place, 1, 9000)
        yield expect_at(number, place, feed(LONGEST_JOB + extra // 4, b"", 0, LITTLE, [*steps, END], MOST_POINTS))


def endless_cases(longest):
    """70,000 bytes in bursts of 1,000, then a small job on the same list."""
    data = longest + bytes(k // 251 % 256 for k in range(70000 - len(longest)))
    for places in (LONGEST_JOB, 30500):
        steps = [*in_equal_parts(data, 1000), END, b"\1", b"\1\0", END]
        yield expect_at(16, 3, feed(places, b"", 0, LITTLE, steps, MOST_POINTS))


def given_cases(longest):
    """The list is full before the first call: with what count, is all that tells a sound job from one that goes on."""
    yield expect(0, feed(LONGEST_JOB, longest, LONGEST_JOB, ROOM, [b"", END], MOST_POINTS))
    yield expect_at(16, LONGEST_JOB - 1, feed(LONGEST_JOB, longest, LONGEST_JOB - 1, LITTLE, [END], MOST_POINTS))
    yield expect(15, feed(LONGEST_JOB, longest, LONGEST_JOB - 1, LITTLE, [longest[-1:], END], MOST_POINTS))
    for received in (LONGEST_JOB + 1, 2**63, 2**64 - 1):
        yield expect_at(21, LONGEST_JOB, feed(LONGEST_JOB, longest, received, LITTLE, [b"", b"\1\1", END], MOST_POINTS))
    yield expect_at(21, LONGEST_JOB, feed(LONGEST_JOB, longest, LONGEST_JOB, LITTLE, [b"\0", END], MOST_POINTS))
    yield expect_at(21, LONGEST_JOB, feed(LONGEST_JOB + 1, longest, 2**64 - 1, LITTLE, [END], MOST_POINTS))
    yield expect(15, feed(LONGEST_JOB + 1, longest, LONGEST_JOB, LITTLE, [END], MOST_POINTS))
    yield expect_at(16, 0, feed(LONGEST_JOB, longest, 2**64 - 1, LITTLE, [END, END], MOST_POINTS))


def long_feed_cases(dice):
    fields = longest_fields(dice)
    longest = joined(fields)
    assert len(longest) == LONGEST_JOB
    yield from whole_cases(longest)
    yield from total_cases(longest)
    yield from straddling_cases(longest)
    yield from broken_cases(fields)
    yield from endless_cases(longest)
    yield from given_cases(longest)
