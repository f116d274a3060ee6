"""Cases of `remove_knot` and `compact`, and curves that nearly let a knot go."""

from fractions import Fraction

from . import vectors
from .curve import FARTHEST, MOST_POINTS, Curve, check, domain
from .expected import (
    EACH_REFUSAL,
    SUCCESSES,
    WIDE,
    WORKED_B,
    any_room,
    expect,
    one_short,
    refused_curves,
    room_for,
    spare_room,
)
from .insert_cases import insertable, insertable_value, window
from .joining import THREE_TIMES, join
from .knots import compact, insert_knot, polygon_with, remove_knot
from .random_curves import outside_parameter, random_curve, random_knots


# where the third derivative of a joined curve changes, and by how much: one knot is left at each
SMOOTH = ((), ((6, 2),), ((9, -1),), ((3, 1), (12, -2)), ((3, 1), (6, -1), (15, 3)))


def removable(dice, m=None, make=random_curve):
    """A curve, made by inserting, and the value that can be removed again."""
    curve, v = insertable(dice, m=m, make=make)
    return insert_knot(curve, v, WIDE)[1], v


def fractional_polygon(dice):
    """A curve and a value whose polygon without it exists, but not in whole numbers: fractions of a half or a third,
    all scaled by what makes the points with the value whole."""
    while True:
        m = dice.between(2, 3)
        ts = random_knots(dice, m, m + dice.between(2, 4), dice.pick((2, 3, 4)))
        polygon = [Fraction(dice.between(-12, 12)) for _ in range(len(ts) - m - 1)]
        v = insertable_value(dice, Curve(m, ts, polygon, polygon))
        if v is None:
            continue
        first, last = window(Curve(m, ts, polygon, polygon), v)
        for j in range(first + 1, last):
            polygon[j] += Fraction(dice.between(0, 5), dice.pick((2, 3)))
        new = polygon_with(m, ts, polygon, v)
        scale = 1
        for q in new:
            scale *= (scale * q).denominator
        if any((scale * p).denominator != 1 for p in polygon):
            axes = [[int(scale * q) for q in new], [5] * len(new)]
            return Curve(m, sorted(ts + [v]), *dice.pick((axes, axes[::-1]))), v


def far_polygon(dice):
    """A curve and a value whose polygon without it is whole but leaves the range."""
    while True:
        curve, v = insertable(dice, reach=2 * FARTHEST, m=dice.between(2, 3))
        new = Curve(
            curve.degree,
            sorted(curve.knots + [v]),
            *[[int(q) for q in polygon_with(curve.degree, curve.knots, axis, v)] for axis in (curve.xs, curve.ys)],
        )
        if check(curve) == 7 and check(new) == 0:
            return new, v


def nearly_removable(dice, make=random_curve):
    """A removable curve with one coordinate moved by one step."""
    curve, v = removable(dice, make=make)
    axes = [list(curve.xs), list(curve.ys)]
    last = max(j for j in range(len(curve.xs)) if curve.knots[j] < v)
    j = min(len(curve.xs) - 1, last + dice.between(-curve.degree, 1))
    dice.pick(axes)[max(0, j)] += dice.pick((-1, 1))
    return Curve(curve.degree, curve.knots, *axes), v


def with_inner_knot(dice):
    while True:
        curve = random_curve(dice)
        low, high = domain(curve)
        inner = [t for t in curve.knots if low < t < high]
        if inner:
            return curve, dice.pick(inner)


def irremovable(dice, kind):
    while True:
        curve, v = (nearly_removable, with_inner_knot, fractional_polygon, far_polygon)[kind % 4](dice)
        if remove_knot(curve, v, WIDE)[0] == 13:
            return curve, v


def remove_knot_cases(dice):
    make = vectors.remove_knot
    yield expect(13, make(WORKED_B, 2, (9, 9, 9)))
    yield expect(0, make(WORKED_B._replace(xs=[0, 4, 10, 12]), 2, (6, 3, 3)))
    for k in range(2 * SUCCESSES):
        curve, v = removable(dice, m=1 + k % 3)
        yield expect(0, make(curve, v, spare_room(dice, room_for(remove_knot(curve, v, WIDE)[1]))))
    curve, v = insertable(dice, m=2, points=MOST_POINTS - 1)
    yield expect(0, make(insert_knot(curve, v, WIDE)[1], v, (1026, 1023, 1023)))
    yield from refused_curves(dice, lambda curve: make(curve, dice.between(0, 9), any_room(dice, 3)))
    for _ in range(EACH_REFUSAL):
        curve = random_curve(dice)
        low, high = domain(curve)
        absent = [low, high] + sorted(set(range(low, high)) - set(curve.knots))
        yield expect(12, make(curve, dice.pick((dice.pick(absent), outside_parameter(dice, curve))), any_room(dice, 3)))
    for kind in range(4 * EACH_REFUSAL):
        curve, v = irremovable(dice, kind)
        yield expect(13, make(curve, v, any_room(dice, 3) if dice.chance(2) else (30, 30, 30)))
    for _ in range(EACH_REFUSAL):
        curve, v = removable(dice)
        yield expect(15, make(curve, v, one_short(dice, room_for(remove_knot(curve, v, WIDE)[1]))))


def knotted(dice, m, make=random_curve):
    """A curve into which up to six knots were inserted, sometimes with one coordinate moved afterwards."""
    curve = make(dice, m=m, points=m + dice.between(1, 4), gap=dice.pick((2, 4, 6)))
    scale = dice.pick((12, 720, 5040, 4096))
    axes = [[scale * (c % 41 - 20) for c in axis] for axis in (curve.xs, curve.ys)]
    curve = Curve(m, curve.knots, *axes)
    for _ in range(dice.between(1, 9)):
        v = insertable_value(dice, curve)
        if v is not None:
            number, new = insert_knot(curve, v, WIDE)
            curve = curve if number else new
    if dice.chance(3):
        axes = [list(curve.xs), list(curve.ys)]
        dice.pick(axes)[dice.between(0, len(curve.xs) - 1)] += dice.pick((-1, 1, scale))
        curve = Curve(m, curve.knots, *axes)
    return curve


def smooth_joined(bends, times=THREE_TIMES):
    """Spline points at 0, 3, .., 18 joined: a cubic whose third derivative changes at the bends and nowhere else."""
    params = list(range(0, 21, 3))
    jumps = [(0, 1)] + list(bends)
    px = [sum(a * (s - b) ** 3 for b, a in jumps if b <= s) - 40 * s for s in params]
    tx = [sum(3 * a * (s - b) ** 2 for b, a in jumps if b <= s) - 40 for s in params]
    py = [7 * s * s - 90 * s for s in params]
    ty = [14 * s - 90 for s in params]
    number, curve = join(params, px, py, tx, ty, WIDE, times)
    assert number == 0
    return curve


def compact_cases(dice):
    make = vectors.compact
    for bends in SMOOTH:
        curve = smooth_joined(bends)
        yield expect(0, make(curve, room_for(compact(curve, WIDE)[1])))
    second_pass = [3, -2, 1, 3, 4, 4]
    yield expect(0, make(Curve(2, [0, 0, 0, 1, 2, 3, 4, 4, 4], second_pass, second_pass), (9, 6, 6)))
    for k in range(2 * SUCCESSES):
        curve = knotted(dice, 1 + k % 3)
        yield expect(0, make(curve, spare_room(dice, room_for(compact(curve, WIDE)[1]))))
    flat = Curve(1, [0] + list(range(1024)) + [1023], [4 * k for k in range(1024)], [-7 * k for k in range(1024)])
    yield expect(0, make(flat, (4, 2, 2)))
    yield from refused_curves(dice, lambda curve: make(curve, any_room(dice, 3)))
    for k in range(EACH_REFUSAL):
        curve = knotted(dice, 1 + k % 3)
        yield expect(15, make(curve, one_short(dice, room_for(compact(curve, WIDE)[1]))))
