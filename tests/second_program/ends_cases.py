"""Cases of `clamp_ends` and `unclamp_right`: every degree, ends that are open, full or in between, one call behind the other, every refusal, and the limits of
knots, coordinates, points and lent lists with one past each."""

from . import vectors
from .curve import FARTHEST, HIGHEST_KNOT, MOST_POINTS, Curve
from .ends import clamp_ends, unclamp_right
from .expected import (
    EACH_REFUSAL,
    SUCCESSES,
    WIDE,
    WORKED_A,
    WORKED_B,
    WORKED_U,
    WORKED_V,
    WORKED_W,
    any_room,
    each_one_short,
    expect,
    one_short,
    room_for,
    spare_room,
)
from .open_curves import (
    clampable,
    either_curve,
    ending_at,
    even_knots,
    found,
    open_curve,
    openable,
    reaching,
    refused_open_curves,
    right_full,
)
from .random_curves import random_curve

SAME = 12


def done(dice, make, function, curve):
    """A case with lists that are just long enough, or longer."""
    return expect(0, make(curve, spare_room(dice, room_for(function(curve, WIDE)[1]))))


def short_of(dice, make, function, curve):
    """Lists that are just long enough, and each one place short by turns."""
    room = room_for(function(curve, WIDE)[1])
    yield expect(0, make(curve, room))
    for short in each_one_short(room):
        yield expect(15, make(curve, short))


def one_coordinate_off(dice, curve):
    """The curve with one coordinate moved by a step or two."""
    axes = [list(curve.xs), list(curve.ys)]
    dice.pick(axes)[dice.between(0, len(curve.xs) - 1)] += dice.pick((-2, -1, 1, 2))
    return Curve(curve.degree, curve.knots, *axes)


def refused_by(dice, number, function, make):
    """A curve that is made and gets this number with any room."""

    def tried():
        curve = make()
        return curve if function(curve, WIDE)[0] == number else None

    return found(tried)


def no_matter(dice):
    """Lists of any length, where a call is refused for something else."""
    return any_room(dice, 3) if dice.chance(2) else (40, 40, 40)


def full_of_points(dice, m, times=6):
    """An evenly spaced curve of 1,024 points, all of them so many times a number, which makes its ends whole."""
    axis = lambda: [times * dice.between(-FARTHEST // 6, FARTHEST // 6) for _ in range(MOST_POINTS)]
    return Curve(m, even_knots(dice, m, MOST_POINTS), axis(), axis())


def at_the_edge(dice, m):
    """Every point at the edge of the range, and the last knot at the limit."""
    curve = open_curve(dice, m, left=False, right=False, gap=3)
    off = HIGHEST_KNOT - curve.knots[-1]
    sides = [dice.pick((-FARTHEST, FARTHEST)) for _ in range(2)]
    return Curve(m, [t + off for t in curve.knots], *[[side] * len(curve.xs) for side in sides])


def clamp_ends_cases(dice):
    make = vectors.clamp_ends
    for curve in (WORKED_U, WORKED_V, WORKED_W, WORKED_A, WORKED_B):
        yield from short_of(dice, make, clamp_ends, curve)
    for k in range(SUCCESSES + 40):
        yield done(dice, make, clamp_ends, clampable(dice, 1 + k % 3))
    for k in range(SAME):
        yield done(dice, make, clamp_ends, random_curve(dice, 1 + k % 3, points=4 + k))
        yield done(dice, make, clamp_ends, at_the_edge(dice, 1 + k % 3))
    for m in (2, 3):
        yield done(dice, make, clamp_ends, full_of_points(dice, m))
    for k in range(SAME):
        yield done(dice, make, clamp_ends, refused_by(dice, 0, clamp_ends, lambda: unclamp_right(openable(dice, 1 + k % 3), WIDE)[1]))
    for k in range(EACH_REFUSAL):
        m = 2 + k % 2
        yield expect(11, make(refused_by(dice, 11, clamp_ends, lambda: one_coordinate_off(dice, clampable(dice, m))), no_matter(dice)))
        yield expect(11, make(refused_by(dice, 11, clamp_ends, lambda: either_curve(dice, m)), no_matter(dice)))
    for k in range(EACH_REFUSAL):
        curve = clampable(dice, 1 + k % 3)
        yield expect(15, make(curve, one_short(dice, room_for(clamp_ends(curve, WIDE)[1]))))
    yield from refused_open_curves(dice, lambda curve: make(curve, any_room(dice, 3)))


def last_knots_differ(dice, m):
    """A curve with an open right end."""
    return open_curve(dice, m, right=False)


def edge_cases(dice, make):
    """A new point at the edge of the range and one step past it, the last new knot at the limit and one past it."""
    for k in range(EACH_REFUSAL):
        m = 2 + k % 2
        yield done(dice, make, unclamp_right, found(lambda: reaching(dice, openable(dice, m), 0)))
        yield expect(23, make(found(lambda: reaching(dice, openable(dice, m), 1)), no_matter(dice)))
    for k in range(EACH_REFUSAL):
        m = 1 + k % 3
        yield done(dice, make, unclamp_right, found(lambda: ending_at(openable(dice, m), HIGHEST_KNOT)))
        yield expect(23, make(found(lambda: ending_at(openable(dice, m), HIGHEST_KNOT + 1)), no_matter(dice)))


def not_opened_cases(dice, make):
    """Last knots that differ, and points that would not be whole, on either axis or on both; below degree 3 they always are."""
    for k in range(EACH_REFUSAL):
        yield expect(23, make(last_knots_differ(dice, 1 + k % 3), no_matter(dice)))
        yield expect(23, make(refused_by(dice, 23, unclamp_right, lambda: one_coordinate_off(dice, openable(dice, 3))), no_matter(dice)))
        yield expect(23, make(refused_by(dice, 23, unclamp_right, lambda: right_full(dice, 3, reach=30)), no_matter(dice)))


def unclamp_right_cases(dice):
    make = vectors.unclamp_right
    for curve in (WORKED_A, WORKED_B, *(clamp_ends(curve, WIDE)[1] for curve in (WORKED_U, WORKED_V, WORKED_W))):
        yield from short_of(dice, make, unclamp_right, curve)
    for k in range(SUCCESSES + 40):
        yield done(dice, make, unclamp_right, openable(dice, 1 + k % 3))
    for k in range(SAME):
        curve = refused_by(dice, 0, unclamp_right, lambda: clamp_ends(clampable(dice, 1 + k % 3), WIDE)[1])
        yield done(dice, make, unclamp_right, curve)
    yield done(dice, make, unclamp_right, found(lambda: openable(dice, 2, MOST_POINTS)))
    yield from edge_cases(dice, make)
    yield from not_opened_cases(dice, make)
    for k in range(EACH_REFUSAL):
        curve = openable(dice, 1 + k % 3)
        yield expect(15, make(curve, one_short(dice, room_for(curve))))
    yield from refused_open_curves(dice, lambda curve: make(curve, any_room(dice, 3)))
