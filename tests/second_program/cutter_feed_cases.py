"""Cases of `feed` with a cutter that is wider than a line: its field cut by the end of a burst, jobs of another radius one after the other, and inputs that
fill a list which the radius has made longer."""

from .cutter_job_cases import TOO_LARGE, room_cases, told_or_read
from .expected import WORKED_A, any_room, expect, expect_at
from .fed_vectors import END, feed
from .feed_cases import bytewise, enough_places, one_job
from .feeding import LONGEST_JOB
from .fields import CLAMP, RADIUS, fields_of, joined, place_of
from .spans import MOST_RADIUS

CLAMPS = [(2, 3, 5, 9), (11, 20, -9, -4)]
ROOM = (8, 4, 4, 8)
RADII = (0, 5, 256, MOST_RADIUS)


def small(radius):
    return joined(fields_of(WORKED_A, CLAMPS, radius))


def in_the_field():
    """The places where a burst may end between the record and the clamps."""
    fields = fields_of(WORKED_A, CLAMPS)
    return range(place_of(fields, RADIUS), place_of(fields, CLAMP) + 1)


def split_cases(dice):
    """The radius cut by the end of a burst, or of the input, wherever that is possible; and a byte at a time."""
    for radius, number in ((MOST_RADIUS, 0), (MOST_RADIUS + 1, 22)):
        data = small(radius)
        for at in in_the_field():
            yield expect(number, feed(enough_places(dice), b"", 0, ROOM, [data[:at], *[b""] * dice.between(0, 1), data[at:], END], 4))
        yield expect(number, feed(LONGEST_JOB, b"", 0, ROOM, [*bytewise(data), END], 4))
        for at in in_the_field()[:-1]:
            yield expect_at(16, at, feed(enough_places(dice), b"", 0, any_room(dice, 4), [data[: at - 1], data[at - 1 : at], END], 4))


def followed_cases(dice):
    """Each job is told with its own radius, whatever that before it had and however it ended."""
    for first in (*RADII, MOST_RADIUS + 1, 65535):
        for second in RADII:
            steps = [small(first), END, small(second), END]
            yield expect(0, feed(enough_places(dice), b"", 0, ROOM, steps, 4))
        yield expect(22, feed(enough_places(dice), b"", 0, ROOM, [small(first), END, small(dice.pick(TOO_LARGE)), END], 4))


def short_cases(dice):
    """A list that was long enough for jobs without a radius is not."""
    for places in range(LONGEST_JOB - 5, LONGEST_JOB):
        for radius in (0, MOST_RADIUS + 1):
            yield expect(15, feed(places, b"", 0, ROOM, [small(radius), END], 4))


def cutter_feed_cases(dice):
    make = lambda data, room, points: one_job(dice, data, any_room(dice, 4) if room is None else room, points)
    yield from told_or_read(dice, make, MOST_RADIUS)
    yield from room_cases(dice, make)
    yield from split_cases(dice)
    yield from followed_cases(dice)
    yield from short_cases(dice)
