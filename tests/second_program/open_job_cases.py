"""Cases of records, jobs and the text of `clampcheck` with curves whose ends are open: they are written and read as they stand, and the text counts and names
the spans of the domain alone."""

from . import vectors
from .clamp_cases import good_rectangle
from .cutter_cases import some_radius
from .expected import any_room, expect, room_for, spare_room
from .feed_cases import one_job
from .job_cases import job_of
from .open_cases import OPEN_ROWS, unmet_outside
from .open_curves import either_curve, refused_open_curves
from .record import record_of

EACH = 24


def open_write_cases(dice):
    for k in range(EACH):
        curve = either_curve(dice, 1 + k % 3)
        size = len(record_of(curve))
        yield expect(0, vectors.write_record(curve, size + dice.pick((0, 0, 9))))
        if k % 4 == 0:
            yield expect(15, vectors.write_record(curve, size - 1))
    yield from refused_open_curves(dice, lambda curve: vectors.write_record(curve, 60), OPEN_ROWS)


def open_read_cases(dice):
    make = vectors.read_record
    for k in range(EACH):
        curve = either_curve(dice, 1 + k % 3)
        yield expect(0, make(record_of(curve), spare_room(dice, room_for(curve)), len(curve.xs)))
    from_bytes = lambda curve: make(record_of(curve), any_room(dice, 3), vectors.size(curve))
    yield from refused_open_curves(dice, from_bytes, OPEN_ROWS, byte=True)


def open_jobs(dice, make):
    """Jobs to be read or told; make takes bytes, the room that a good job needs, or None, and its points."""
    for k in range(EACH):
        curve, radius = either_curve(dice, 1 + k % 3), some_radius(dice)
        clamps = [good_rectangle(dice, curve) for _ in range(dice.between(0, 3))]
        yield expect(0, make(job_of(curve, clamps, radius), (*room_for(curve), 4 * len(clamps)), len(curve.xs)))
    for k in range(EACH // 2):
        curve, clamp = unmet_outside(dice, 1 + k % 3)
        yield expect(0, make(job_of(curve, [clamp], 5), (*room_for(curve), 4), len(curve.xs)))
    from_bytes = lambda curve: make(job_of(curve, []), None, vectors.size(curve))
    yield from refused_open_curves(dice, from_bytes, OPEN_ROWS, byte=True)


def open_job_cases(dice):
    make = lambda data, room, points: vectors.read_job(data, spare_room(dice, room) if room else any_room(dice, 4), points)
    yield from open_jobs(dice, make)


def open_text_cases(dice):
    yield from open_jobs(dice, lambda data, room, points: vectors.clampcheck_text(data, points))


def open_feed_cases(dice):
    yield from open_jobs(dice, lambda data, room, points: one_job(dice, data, room or any_room(dice, 4), points))
