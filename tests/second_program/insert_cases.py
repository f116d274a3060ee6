"""Cases of `insert_knot`, and curves into which a knot can be inserted in whole numbers."""

from collections import Counter
from math import gcd

from . import vectors
from .curve import FARTHEST, MOST_POINTS, Curve, domain
from .expected import (
    EACH_REFUSAL,
    SUCCESSES,
    WIDE,
    WORKED_B,
    any_room,
    expect,
    largest_curve,
    one_short,
    refused_curves,
    room_for,
    spare_room,
)
from .knots import insert_knot, place_of
from .random_curves import outside_parameter, random_curve


def insertable_value(dice, curve):
    """A value that row 9 lets in, or None."""
    low, high = domain(curve)
    times = Counter(curve.knots)
    free = [v for v in range(low + 1, high) if times[v] < curve.degree]
    doubled = [v for v in free if times[v]]
    if not free:
        return None
    return dice.pick(doubled) if doubled and dice.chance(2) else dice.pick(free)


def window(curve, v):
    """The first and the last index of the points that take part in inserting v."""
    i = place_of(curve.degree, curve.knots, v)
    return i - curve.degree, i


def insertable(dice, reach=FARTHEST, m=None, points=None, make=random_curve):
    """A curve and a value such that every new coordinate is whole: points of the window lie a multiple apart."""
    while True:
        curve = make(dice, m=m, points=points, gap=dice.pick((2, 3, 4, 8)))
        v = insertable_value(dice, curve)
        if v is None:
            continue
        ts, degree = curve.knots, curve.degree
        first, last = window(curve, v)
        apart = 1
        for j in range(first + 1, last + 1):
            divisor = ts[j + degree] - ts[j]
            apart = apart * divisor // gcd(apart, divisor)
        axes = []
        for axis in (curve.xs, curve.ys):
            axis = list(axis)
            offset = dice.between(-apart, apart)
            most = (reach - apart) // apart
            for j in range(first, last + 1):
                axis[j] = offset + apart * dice.pick((dice.between(-most, most), dice.between(-3, 3)))
            axes.append(axis)
        return Curve(degree, ts, *axes), v


def not_whole(dice, make=random_curve):
    """A curve and a value such that some new coordinate is not whole, of one axis alone in most cases."""
    while True:
        curve, v = insertable(dice, make=make)
        axes = [list(curve.xs), list(curve.ys)]
        first, last = window(curve, v)
        dice.pick(axes)[dice.between(first, last)] += dice.pick((-2, -1, 1, 2))
        spoiled = Curve(curve.degree, curve.knots, *axes)
        if insert_knot(spoiled, v, WIDE)[0] == 11:
            return spoiled, v


def insert_knot_cases(dice):
    make = vectors.insert_knot
    for v, number in ((1, 0), (2, 0), (0, 9), (4, 9)):
        yield expect(number, make(WORKED_B, v, (9, 6, 5)))
    yield expect(11, make(WORKED_B._replace(ys=[0, 7, 8, 0]), 1, (8, 5, 5)))
    for k in range(2 * SUCCESSES):
        curve, v = insertable(dice, m=1 + k % 3)
        yield expect(0, make(curve, v, spare_room(dice, room_for(insert_knot(curve, v, WIDE)[1]))))
    yield expect(0, make(*insertable(dice, m=3, points=MOST_POINTS - 1), (1028, 1024, 1025)))
    yield from refused_curves(dice, lambda curve: make(curve, dice.between(0, 9), any_room(dice, 3)))
    for _ in range(EACH_REFUSAL):
        curve = random_curve(dice)
        full = [t for t, times in Counter(curve.knots).items() if times >= curve.degree]
        v = dice.pick((outside_parameter(dice, curve), *domain(curve), dice.pick(full)))
        yield expect(9, make(curve, v, any_room(dice, 3)))
    for k in range(EACH_REFUSAL):
        curve = largest_curve(dice, 1 + k % 3)
        v = insertable_value(dice, curve)
        yield expect(10, make(curve, v, any_room(dice, 3)))
    for _ in range(EACH_REFUSAL):
        curve, v = not_whole(dice)
        yield expect(11, make(curve, v, any_room(dice, 3) if dice.chance(2) else (40, 40, 40)))
    for _ in range(EACH_REFUSAL):
        curve, v = insertable(dice)
        yield expect(15, make(curve, v, one_short(dice, room_for(insert_knot(curve, v, WIDE)[1]))))
