"""What the makers of cases share: the number that a case is meant to get, room for results, refused curves."""

from .curve import FARTHEST, MOST_POINTS, Curve, check
from .fault import PLANTED
from .random_curves import random_curve, spoiled_curve
from .record import PLACED

EACH_REFUSAL = 21
SUCCESSES = 80
WIDE = (1100, 1100, 1100)
WORKED_A = Curve(3, [0, 0, 0, 0, 4, 4, 4, 4], [0, 0, 8, 8], [0, 8, 8, 0])
WORKED_B = Curve(2, [0, 0, 0, 2, 4, 4, 4], [0, 4, 8, 12], [0, 8, 8, 0])
WORKED_U = Curve(2, [0, 1, 2, 3, 4, 5, 6], [0, 4, 8, 12], [0, 8, 8, 0])
WORKED_V = Curve(3, [0, 1, 2, 3, 4, 5, 6, 7], [0, 6, 12, 18], [0, 12, -12, 6])
WORKED_W = Curve(1, [0, 1, 1, 2, 3], [100, 0, 8], [100, 0, 4])  # its first point carries nothing


class Unexpected(Exception):
    """A case does not get the number that it was made for."""


def expect(number, case):
    if case.number != number and not PLANTED:
        raise Unexpected("%s answers %d, and %d was meant" % (case.call, case.number, number))
    return case


def expect_checked(curve, case):
    """A case of a curve that was spoiled: told by the check's own number; where only its ends are not full, the rest of the call decides."""
    number = check(curve)
    return expect(number, case) if number else case


def expect_broken(case):
    """A case of bytes that are no record, or no job, wherever they break."""
    if case.number not in PLACED and not PLANTED:
        raise Unexpected("%s answers %d on broken bytes" % (case.call, case.number))
    return case


def expect_at(number, place, case):
    """A case of bytes that break at a known place."""
    if case.place != place and not PLANTED:
        raise Unexpected("%s tells place %s, and %s was meant" % (case.call, case.place, place))
    return expect(number, case)


def largest_curve(dice, m, points=MOST_POINTS):
    return random_curve(dice, m, points, gap=16383, reach=FARTHEST)


def room_for(curve):
    return len(curve.knots), len(curve.xs), len(curve.ys)


def one_short(dice, room):
    """The room with one place fewer in one list, sometimes in several."""
    short = dice.between(0, len(room) - 1)
    return tuple(max(0, have - 1) if k == short or dice.chance(4) else have for k, have in enumerate(room))


def each_one_short(room):
    """The room with one place fewer in each list by turns."""
    return [tuple(have - (k == short) for k, have in enumerate(room)) for short in range(len(room))]


def spare_room(dice, room):
    """Just enough, or some places more."""
    if dice.chance(2):
        return tuple(room)
    return tuple(have + dice.between(0, 5) for have in room)


def any_room(dice, places):
    """Room for a call that is refused: none, a little, or much."""
    top = dice.pick((0, 4, 24))
    return tuple(dice.between(0, top) for _ in range(places))


def refused_curves(dice, make, numbers=range(1, 8), byte=False):
    """EACH_REFUSAL cases for each number of the check; make turns a curve into a case."""
    for number in numbers:
        for _ in range(EACH_REFUSAL):
            curve = spoiled_curve(dice, number, byte)
            yield expect_checked(curve, make(curve))


def too_many_points(dice, m):
    """1,025 points with all the knots they need."""
    curve = largest_curve(dice, m)
    ts = [k // m if m > 1 else k for k in range(MOST_POINTS + 1 - m - 1)]
    knots = [0] * (m + 1) + [t + 1 for t in ts] + [ts[-1] + 2] * (m + 1)
    return Curve(m, knots, curve.xs + [0], curve.ys + [0])
