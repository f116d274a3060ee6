"""Cases of `read_job` and of the text of `clampcheck`, and bytes that are no job."""

from . import vectors
from .broken_cases import at_the_end, broken_jobs, overlong_jobs
from .clamp_cases import bad_rectangle, good_rectangle
from .curve import FARTHEST, MOST_POINTS, Curve
from .expected import (
    EACH_REFUSAL,
    SUCCESSES,
    WORKED_A,
    any_room,
    each_one_short,
    expect,
    expect_at,
    expect_broken,
    one_short,
    refused_curves,
    room_for,
    spare_room,
)
from .fields import fields_of, joined, radius_field
from .random_curves import random_curve, random_knots, spoiled_curve
from .record import MOST_CLAMPS, field
from .record_cases import clamp_fields, damaged_record


def good_job(dice, most, m=None):
    curve = random_curve(dice, m=m)
    return curve, [good_rectangle(dice, curve) for _ in range(dice.between(0, most))]


def job_of(curve, clamps, radius=0):
    return joined(fields_of(curve, clamps, radius))


def longest_job(dice, radius=0):
    """1,024 points in small steps, so that each of the 64 clamps meets few spans."""
    axes = [[0], [0]]
    for axis in axes:
        while len(axis) < MOST_POINTS:
            axis.append(axis[-1] + dice.between(-90, 200))
    curve = Curve(3, random_knots(dice, 3, MOST_POINTS, 16383), *axes)
    return job_of(curve, [good_rectangle(dice, curve) for _ in range(63)] + [(-9, -8, FARTHEST, FARTHEST)], radius)


def damaged_job(dice):
    """Broken at its clamps, whatever else is wrong with it."""
    curve, clamps = good_job(dice, 3)
    if dice.chance(3):
        curve = spoiled_curve(dice, dice.between(2, 7))
    data = job_of(curve, clamps)
    one = clamp_fields([bad_rectangle(dice) if dice.chance(3) else (0, 1, 0, 1)])
    kind = dice.between(0, 6)
    if kind == 0:
        return data + bytes([dice.pick((0, 1, 4, 6, 255))]) + one[1:]
    if kind == 1:
        return data + field(5, one[3:-1])
    if kind == 2:
        return data + field(5, one[3:] + bytes(1))
    if kind == 3:
        return data + one[: dice.between(1, len(one) - 1)]
    if kind == 4:
        return job_of(curve, [(0, 1, 0, 1)] * 64) + dice.pick((one, bytes(1), bytes([5])))
    if kind == 5:
        return data + dice.pick((one, one + one)) + bytes([dice.between(0, 255)])
    return data + field(5, b"") + one


def with_bad_clamp(dice):
    curve, clamps = good_job(dice, 4)
    clamps.insert(dice.between(0, len(clamps)), bad_rectangle(dice))
    return curve, clamps


def told_or_read(dice, make, successes):
    """The cases of reading a job and of telling it: make takes bytes, the room that a good job needs, and its points."""
    yield expect_broken(make(b"", None, 0))
    for k in range(successes):
        curve, clamps = good_job(dice, dice.pick((0, 3, 5)), m=1 + k % 3)
        yield expect(0, make(job_of(curve, clamps), (*room_for(curve), 4 * len(clamps)), len(curve.xs)))
    yield expect(0, make(longest_job(dice), (1028, 1024, 1024, 256), MOST_POINTS))
    from_bytes = lambda curve: make(job_of(curve, [bad_rectangle(dice)] * dice.between(0, 2)), None, vectors.size(curve))
    yield from refused_curves(dice, from_bytes, byte=True)
    for _ in range(EACH_REFUSAL):
        curve, clamps = with_bad_clamp(dice)
        yield expect(14, make(job_of(curve, clamps), None, len(curve.xs)))
    behind = radius_field(0).data() + clamp_fields([(0, 1, 0, 1)])
    for _ in range(EACH_REFUSAL):
        yield expect_broken(make(damaged_record(dice) + behind, None, 30))
    for _ in range(2 * EACH_REFUSAL):
        yield expect_broken(make(damaged_job(dice), None, 30))


def broken_job_cases(dice, make):
    """Jobs that break at a known place, and the longest job at its end."""
    for number, place, data in broken_jobs(dice):
        yield expect_at(number, place, make(data, None, 30))
    for number, place, data in overlong_jobs(dice):
        yield expect_at(number, place, make(data, None, len(data) // 4))
    for number, place, data in at_the_end(longest_job(dice)):
        yield expect_at(number, place, make(data, None, MOST_POINTS))


def full_job_cases(dice):
    """64 clamps, with room that is just enough or one place short."""
    curve = random_curve(dice, points=6)
    data = job_of(curve, [good_rectangle(dice, curve) for _ in range(MOST_CLAMPS)])
    room = (*room_for(curve), 4 * MOST_CLAMPS)
    yield expect(0, vectors.read_job(data, room, 6))
    for short in each_one_short(room):
        yield expect(15, vectors.read_job(data, short, 6))


def read_job_cases(dice):
    def make(data, room, points):
        room = any_room(dice, 4) if room is None else spare_room(dice, room)
        return vectors.read_job(data, room, points)

    yield from told_or_read(dice, make, SUCCESSES)
    for _ in range(EACH_REFUSAL):
        curve, clamps = good_job(dice, 4)
        room = one_short(dice, (*room_for(curve), 4 * len(clamps)))
        if room[3] == 4 * len(clamps) and room[:3] == room_for(curve):
            room = (*room[:2], room[2] - 1, room[3])
        yield expect(15, vectors.read_job(job_of(curve, clamps), room, len(curve.xs)))
    yield from broken_job_cases(dice, make)
    yield from full_job_cases(dice)


def clampcheck_text_cases(dice):
    make = lambda data, room, points: vectors.clampcheck_text(data, points)
    worked = job_of(WORKED_A, [(2, 3, 5, 9), (9, 12, 0, 4), (8, 10, 8, 9)])
    yield expect(0, make(worked, None, 4))
    yield from told_or_read(dice, make, 2 * SUCCESSES)
    yield expect_broken(make(longest_job(dice) + bytes(1), None, MOST_POINTS))
    yield from broken_job_cases(dice, make)
