"""Cases of `write_record` and `read_record`, and bytes that are no record."""

from . import vectors
from .broken_cases import at_the_end, broken_records, overlong_records
from .curve import MOST_POINTS, Curve
from .expected import (
    EACH_REFUSAL,
    SUCCESSES,
    WIDE,
    WORKED_A,
    any_room,
    each_one_short,
    expect,
    expect_at,
    expect_broken,
    largest_curve,
    one_short,
    refused_curves,
    room_for,
    spare_room,
    too_many_points,
)
from .fields import clamp_field, joined
from .random_curves import random_curve, spoiled_curve
from .record import PLACED, field, read_record, record_of


def write_record_cases(dice):
    make = vectors.write_record
    yield expect(0, make(WORKED_A, 96))
    for k in range(SUCCESSES):
        curve = random_curve(dice, m=1 + k % 3)
        yield expect(0, make(curve, len(record_of(curve)) + dice.pick((0, 0, 1, 20))))
    curve = largest_curve(dice, 3)
    yield expect(0, make(curve, len(record_of(curve))))
    yield from refused_curves(dice, lambda curve: make(curve, dice.pick((0, 5, 60))))
    for _ in range(EACH_REFUSAL):
        curve = random_curve(dice)
        yield expect(15, make(curve, dice.pick((len(record_of(curve)) - 1, dice.between(0, 9)))))


def fields_of(curve):
    data, fields = record_of(curve), []
    while data:
        length = 3 + data[1] + 256 * data[2]
        fields.append(data[:length])
        data = data[length:]
    return fields


def damaged_field(dice, one):
    """Another tag or length, or contents cut in the middle of an entry."""
    tag, contents = one[0], one[3:]
    kind = dice.between(0, 4)
    if kind == 0:
        return field(dice.pick((0, tag + 1, tag - 1, 6, 255)), contents)
    if kind == 1:
        return field(tag, contents[:-1])
    if kind == 2:
        return field(tag, contents + bytes(1))
    length = len(contents)
    wrong = (length + (4 if kind == 3 else 256)) % 65536
    return bytes([tag, wrong % 256, wrong // 256]) + contents


def overlong(dice, fields):
    """One knot more than a field may hold."""
    return fields[0] + field(2, bytes(2058)) + fields[2] + fields[3]


def damaged_record(dice):
    """Bytes that are no record."""
    while True:
        data = perhaps_damaged(dice)
        if read_record(data, WIDE)[0] in PLACED:
            return data


def perhaps_damaged(dice):
    """A record with one field changed, moved, lost or doubled, or with its end cut off."""
    fields = fields_of(spoiled_curve(dice, dice.between(2, 7)) if dice.chance(3) else random_curve(dice))
    data = b"".join(fields)
    kind = dice.between(0, 9)
    if kind < 4:
        fields[kind] = damaged_field(dice, fields[kind])
        return b"".join(fields)
    if kind == 4:
        return data[: dice.between(0, len(data) - 1)]
    if kind == 5:
        place = sum(len(one) for one in fields[: dice.between(0, 3)])
        return data[: place + dice.between(0, 3)]
    if kind == 6:
        a, b = dice.pick(((0, 1), (1, 2), (2, 3), (0, 3)))
        fields[a], fields[b] = fields[b], fields[a]
        return b"".join(fields)
    if kind == 7:
        fields.pop(dice.between(0, 3))
        return b"".join(fields)
    if kind == 8:
        return b"".join(fields[:2] + fields[1:])
    return overlong(dice, fields)


def hollow_record(dice):
    """Fields of length 0 are whole numbers of entries: their length is right, and 2 is told."""
    m = dice.between(1, 3)
    curve = random_curve(dice, m)
    return record_of(dice.pick((Curve(m, [], [], []), curve._replace(xs=[]), curve._replace(ys=[]))))


def clamp_fields(clamps):
    return joined(map(clamp_field, clamps))


def read_record_cases(dice):
    make = vectors.read_record
    yield expect_broken(make(b"", (4, 4, 4), 0))
    for k in range(SUCCESSES):
        curve = random_curve(dice, m=1 + k % 3)
        yield expect(0, make(record_of(curve), spare_room(dice, room_for(curve)), len(curve.xs)))
    curve = largest_curve(dice, 3)
    yield expect(0, make(record_of(curve), (1028, 1024, 1024), MOST_POINTS))
    yield expect_broken(make(record_of(too_many_points(dice, 2)), (2, 2, 2), MOST_POINTS + 1))
    from_bytes = lambda curve: make(record_of(curve), any_room(dice, 3), vectors.size(curve))
    yield from refused_curves(dice, from_bytes, byte=True)
    for _ in range(4):
        yield expect(2, make(hollow_record(dice), any_room(dice, 3), 20))
    for _ in range(3 * EACH_REFUSAL):
        yield expect_broken(make(damaged_record(dice), any_room(dice, 3), 30))
    for _ in range(EACH_REFUSAL):
        curve = random_curve(dice)
        extra = dice.pick((bytes(1), bytes([5]), record_of(curve), clamp_fields([(0, 1, 0, 1)])))
        yield expect_broken(make(record_of(curve) + extra, room_for(curve), 30))
    for _ in range(EACH_REFUSAL):
        curve = random_curve(dice)
        yield expect(15, make(record_of(curve), one_short(dice, room_for(curve)), len(curve.xs)))
    yield from broken_record_cases(dice)


def broken_record_cases(dice):
    """Records that break at a known place, the longest record at its end, and room that is just enough or one place short."""
    make = vectors.read_record
    for number, place, data in broken_records(dice):
        yield expect_at(number, place, make(data, any_room(dice, 3), 30))
    for number, place, data in overlong_records(dice):
        yield expect_at(number, place, make(data, any_room(dice, 3), len(data) // 4))
    for number, place, data in at_the_end(record_of(largest_curve(dice, 3))):
        yield expect_at(number, place, make(data, any_room(dice, 3), MOST_POINTS))
    curve = random_curve(dice, points=6)
    yield expect(0, make(record_of(curve), room_for(curve), 6))
    for room in each_one_short(room_for(curve)):
        yield expect(15, make(record_of(curve), room, 6))
