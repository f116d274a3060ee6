"""Cases of `read_job` and of the text of `clampcheck` with a cutter that is wider than a line, and what `feed` is asked of them too."""

from . import vectors
from .broken_radii import broken_radii
from .clamp_cases import bad_rectangle
from .curve import MOST_POINTS
from .cutter_cases import some_radius, wide_rectangle
from .expected import EACH_REFUSAL, any_room, each_one_short, expect, expect_at, expect_checked, one_short, room_for, spare_room
from .job_cases import job_of, longest_job
from .random_curves import SPOILERS, random_curve, spoiled_curve
from .spans import MOST_RADIUS

RADII = (0, 1, 255, 256, 258, MOST_RADIUS - 1, MOST_RADIUS)
TOO_LARGE = (MOST_RADIUS + 1, 4098, 4352, 8192, 32768, 65280, 65535)
LONGEST_ROOM = (1028, 1024, 1024, 256)


def wide_job(dice, radius, least=0, most=5, points=None):
    """A curve and clamps that a cutter of this radius just reaches, or does not."""
    curve = random_curve(dice, m=dice.between(1, 3), points=points)
    return curve, [wide_rectangle(dice, curve, min(radius, MOST_RADIUS)) for _ in range(dice.between(least, most))]


def with_one_bad(dice, clamps):
    at = dice.between(0, len(clamps))
    return [*clamps[:at], bad_rectangle(dice), *clamps[at:]]


def sound_jobs(dice, make):
    """Every radius of note and others; make takes bytes, the room that a good job needs, or None, and its points."""
    for radius in (*RADII, *RADII, *(some_radius(dice) for _ in range(16))):
        curve, clamps = wide_job(dice, radius, least=dice.pick((0, 1, 2)))
        yield expect(0, make(job_of(curve, clamps, radius), (*room_for(curve), 4 * len(clamps)), len(curve.xs)))


def refused_jobs(dice, make):
    """22 with clamps, with none and with one that is refused; before it 1 to 7; and 14 with a radius that is taken."""
    for radius in TOO_LARGE:
        for least, most in ((1, 4), (0, 0)):
            curve, clamps = wide_job(dice, radius, least, most)
            yield expect(22, make(job_of(curve, clamps, radius), (*room_for(curve), 4 * len(clamps)), len(curve.xs)))
        for _ in range(2):
            curve, clamps = wide_job(dice, radius)
            yield expect(22, make(job_of(curve, with_one_bad(dice, clamps), radius), None, len(curve.xs)))
    for number in SPOILERS:
        for radius in (MOST_RADIUS, MOST_RADIUS + 1, dice.pick(TOO_LARGE)):
            curve = spoiled_curve(dice, number, byte=True)
            yield expect_checked(curve, make(job_of(curve, [bad_rectangle(dice)] * dice.between(0, 2), radius), None, vectors.size(curve)))
    for _ in range(EACH_REFUSAL // 2):
        radius = some_radius(dice)
        curve, clamps = wide_job(dice, radius)
        yield expect(14, make(job_of(curve, with_one_bad(dice, clamps), radius), None, len(curve.xs)))


def longest_jobs(dice, make, radius):
    """11,482 bytes; with a radius that is too large, one byte more is told first."""
    yield expect(0, make(longest_job(dice, radius), LONGEST_ROOM, MOST_POINTS))
    longest = longest_job(dice, MOST_RADIUS + 1)
    yield expect(22, make(longest, LONGEST_ROOM, MOST_POINTS))
    yield expect_at(21, len(longest), make(longest + b"\6", None, MOST_POINTS))


def told_or_read(dice, make, radius):
    yield from sound_jobs(dice, make)
    yield from refused_jobs(dice, make)
    for number, place, data in broken_radii(dice):
        yield expect_at(number, place, make(data, None, 30))
    yield from longest_jobs(dice, make, radius)


def room_cases(dice, ask):
    """Room that is just enough, or one place short in each list by turns; where the radius is too large, that is told."""
    for radius, clamps in ((0, 1), (5, 2), (MOST_RADIUS, 9)):
        curve, sides = wide_job(dice, radius, clamps, clamps, points=6)
        data, wider = job_of(curve, sides, radius), job_of(curve, sides, dice.pick(TOO_LARGE))
        room = (*room_for(curve), 4 * clamps)
        yield expect(0, ask(data, room, 6))
        for short in each_one_short(room):
            yield expect(15, ask(data, short, 6))
            yield expect(22, ask(wider, short, 6))
    for radius in TOO_LARGE:
        curve, sides = wide_job(dice, radius, 1, 3)
        yield expect(22, ask(job_of(curve, sides, radius), one_short(dice, (*room_for(curve), 4 * len(sides))), len(curve.xs)))


def cutter_read_cases(dice):
    make = lambda data, room, points: vectors.read_job(data, any_room(dice, 4) if room is None else spare_room(dice, room), points)
    yield from told_or_read(dice, make, MOST_RADIUS)
    yield from room_cases(dice, vectors.read_job)


def cutter_text_cases(dice):
    """The longest job has a smaller radius here, for a text that is not too long."""
    yield from told_or_read(dice, lambda data, room, points: vectors.clampcheck_text(data, points), 150)
