"""Cases of `list_spans_met`, and rectangles that touch a box, hold an exact point or are refused."""

from fractions import Fraction
from math import ceil, floor

from . import vectors
from .curve import FARTHEST, domain, exact_point
from .expected import (
    EACH_REFUSAL,
    SUCCESSES,
    WORKED_A,
    any_room,
    expect,
    largest_curve,
    one_short,
    refused_curves,
    spare_room,
)
from .random_curves import random_coordinates, random_curve
from .spans import box, spans


def limited(side):
    return max(-FARTHEST, min(FARTHEST, side))


def touching(dice, curve):
    """A rectangle that shares a side or a corner with a span's box, or keeps one step away from it."""
    low_x, high_x, low_y, high_y = box(curve, dice.pick(spans(curve)))
    off = dice.pick((0, 0, 0, 1))
    width, height = dice.pick((0, 1, 50)), dice.pick((0, 1, 50))
    x = dice.pick((high_x + off, low_x - off - width, dice.between(low_x, high_x)))
    y = dice.pick((high_y + off, low_y - off - height, dice.between(low_y, high_y)))
    return tuple(limited(side) for side in (x, x + width, y, y + height))


def random_fraction(dice, curve):
    """A fraction of the domain, now and then one of its ends."""
    low, high = domain(curve)
    whole = dice.between(2, 97)
    return low + (high - low) * Fraction(dice.pick((0, whole, dice.between(0, whole), dice.between(0, whole))), whole)


def round_exact_point(dice, curve):
    """The smallest rectangle on the grid that holds the exact point at a random fraction."""
    x, y = exact_point(curve, random_fraction(dice, curve))
    return floor(x), ceil(x), floor(y), ceil(y)


def random_rectangle(dice):
    reach = dice.pick((10, 2000, FARTHEST))
    sides = sorted(random_coordinates(dice, 2, reach)) + sorted(random_coordinates(dice, 2, reach))
    return tuple(sides)


def good_rectangle(dice, curve):
    kind = dice.between(0, 4)
    if kind < 2:
        return touching(dice, curve)
    if kind < 4 or len(curve.xs) > 40:
        return round_exact_point(dice, curve)
    return random_rectangle(dice)


def bad_rectangle(dice):
    """Refused with 14."""
    sides = list(random_rectangle(dice))
    kind = dice.between(0, 2)
    if kind == 0:
        sides[1] = limited(sides[0]) - dice.pick((1, 9))
    elif kind == 1:
        sides[3] = limited(sides[2]) - 1
    else:
        sides[dice.between(0, 3)] = dice.pick((FARTHEST + 1, -FARTHEST - 1, 2**31 - 1, -(2**31)))
    return tuple(sides)


def list_spans_met_cases(dice):
    make = lambda curve, rectangle, room: vectors.list_spans_met(curve, rectangle, 0, room)
    for clamp in ((2, 3, 5, 9), (9, 12, 0, 4), (8, 10, 8, 9)):
        yield expect(0, make(WORKED_A, clamp, (1, 2)))
    for k in range(3 * SUCCESSES):
        curve = random_curve(dice, m=1 + k % 3)
        room = spare_room(dice, [len(spans(curve))] * 2)
        yield expect(0, make(curve, good_rectangle(dice, curve), room))
    curve = largest_curve(dice, 1)
    yield expect(0, make(curve, (-FARTHEST, FARTHEST, 0, 900), (len(spans(curve)),) * 2))
    yield from refused_curves(dice, lambda curve: make(curve, bad_rectangle(dice), any_room(dice, 2)), range(1, 4))
    yield from refused_curves(dice, lambda curve: make(curve, random_rectangle(dice), any_room(dice, 2)), range(4, 8))
    for _ in range(EACH_REFUSAL):
        yield expect(14, make(random_curve(dice), bad_rectangle(dice), any_room(dice, 2)))
    for _ in range(EACH_REFUSAL):
        curve = random_curve(dice)
        yield expect(15, make(curve, good_rectangle(dice, curve), one_short(dice, [len(spans(curve))] * 2)))
