"""Curves that can be cut into pieces in whole numbers, and curves that nearly can. Two ways lead to the first: points on any knots, chosen so that every row of
the triangle is whole, and random points, all multiplied by what makes the pieces whole."""

from math import gcd

from .curve import FARTHEST, HIGHEST_KNOT, MOST_POINTS, Curve, check
from .knots import polygon_with
from .pieces import missing_knots
from .random_curves import random_coordinates, random_knots

MOST_TRIES = 200
GAPS = {1: (1, 40, 16383), 2: (1, 2, 6, 40, 900), 3: (1, 2, 6, 40)}


def knots_of(dice, m, times, gap):
    """Knots that begin anywhere; each inner value stands as often as is told, and neighbours are at most gap apart."""
    gap = min(gap, HIGHEST_KNOT // (len(times) + 1))
    widths = [dice.between(1, gap) for _ in range(len(times) + 1)]
    slack = HIGHEST_KNOT - sum(widths)
    value = dice.pick((0, slack, dice.between(0, slack)))
    ts = [value] * (m + 1)
    for width, often in zip(widths, [*times, m + 1]):
        value += width
        ts += [value] * often
    return ts


def whole_axis(dice, m, ts, rows):
    """Points of one axis such that every insertion is whole, or None where they would leave the range. Every d_j = (P_j - P_{j-1}) / (t_{j+m} - t_j) is whole;
    with two rows, as a cubic needs them, d_{j-1} and d_j leave the same on division by t_{j+2} - t_j too."""
    points, d, most = random_coordinates(dice, 1, dice.pick((0, 9, 2000, 250000))), 0, dice.pick((1, 9, 300))
    for j in range(1, len(ts) - m - 1):
        apart = ts[j + 2] - ts[j]
        bound = rows == 2 and apart and ts[0] < ts[j + 1] < ts[-1]
        choices = [d % apart, d % apart - apart] if bound else [dice.between(-most, most), dice.between(-most, most), 0]
        inside = [one for one in choices if abs(points[-1] + (ts[j + m] - ts[j]) * one) <= FARTHEST]
        if not inside:
            return None
        d = dice.pick(inside)
        points.append(points[-1] + (ts[j + m] - ts[j]) * d)
    factor = dice.pick((1, 1, max(1, FARTHEST // max(1, *map(abs, points)))))
    ends = random_coordinates(dice, 2, dice.pick((9, 2000, FARTHEST)))
    return ends[:1] + [factor * c for c in points[1:-1]] + ends[1:]


def whole_on(dice, m, ts, rows=None):
    """A curve on these knots such that every insertion is whole; of a cubic with one row, such that the first knot more of a single value is."""
    axes = []
    while len(axes) < 2:
        axis = whole_axis(dice, m, ts, rows or m - 1) if m > 1 else random_coordinates(dice, len(ts) - 2, dice.pick((9, 2000, FARTHEST)))
        axes += [axis] if axis else []
    return Curve(m, ts, *axes)


def stretched(curve):
    """The curve on knots that lie as far apart as there is room for, in the same proportions; what is whole stays whole."""
    first, last = curve.knots[0], curve.knots[-1]
    factor = HIGHEST_KNOT // (last - first)
    start = min(first, HIGHEST_KNOT - factor * (last - first))
    return curve._replace(knots=[start + factor * (t - first) for t in curve.knots])


def whole_curve(dice, m, points=None, rows=None):
    points = points or m + dice.pick((1, 2, 3, 5, 8, dice.between(1, 24)))
    curve = whole_on(dice, m, random_knots(dice, m, points, dice.pick(GAPS[m])), rows)
    return stretched(curve) if dice.chance(3) else curve


def fractions_cut(m, ts, points):
    """One axis with every inner value m times, in fractions, after each insertion by turns."""
    for v in missing_knots(Curve(m, ts, points, points)):
        points, ts = polygon_with(m, ts, points, v), sorted(ts + [v])
        yield points


def first_unwhole(curve):
    """The index of the first insertion that gives a coordinate which is not whole, however many points there are; None for none."""
    m, ts, xs, ys = curve
    for k, axes in enumerate(zip(fractions_cut(m, ts, xs), fractions_cut(m, ts, ys))):
        if any(q.denominator != 1 for axis in axes for q in axis):
            return k
    return None


def scaled_curve(dice, m):
    """Random points, multiplied by what makes all points of the pieces whole and moved."""
    while True:
        ts = random_knots(dice, m, m + dice.between(2, 7), dice.pick((1, 2, 3, 5)))
        axes = [random_coordinates(dice, len(ts) - m - 1, dice.pick((3, 30))) for _ in range(2)]
        scale = 1
        for axis in axes:
            for q in [axis, *fractions_cut(m, ts, axis)][-1]:
                scale *= q.denominator // gcd(scale, q.denominator)
        if 30 * scale <= FARTHEST - 999:
            return Curve(m, ts, *[[scale * c + off for c in axis] for axis, off in zip(axes, random_coordinates(dice, 2, 999))])


def moved(dice, curve, axis=None):
    """The curve with one coordinate, of this axis where one is told, moved by a step or two."""
    axes = [list(curve.xs), list(curve.ys)]
    j = dice.between(0, len(curve.xs) - 1)
    (dice.pick(axes) if axis is None else axes[axis])[j] += dice.pick((-2, -1, 1, 2))
    return Curve(curve.degree, curve.knots, *axes)


def repeats(dice, m, values, points):
    """How often each inner value stands, where there are so many of them and so many points."""
    times = [m] * values
    while sum(times) > points - m - 1:
        k = dice.between(0, values - 1)
        times[k] -= times[k] > 1
    return times


def large_curve(dice, m, values, points):
    """A curve with so many inner values and points, such that every insertion is whole."""
    return whole_on(dice, m, knots_of(dice, m, repeats(dice, m, values, points), 16))


def moves_of(curve, j):
    """How far point j may be moved so that something is not whole: by one step, or by so many that the first rows stay whole beside it."""
    m, ts = curve.degree, curve.knots
    return 1, (ts[j + m] - ts[j]) * (ts[j + m + 1] - ts[j + 1])


def unwhole_from(dice, curve, k):
    """The curve with one coordinate moved, so that insertion k is the first that is not whole."""
    at = curve.knots.index(missing_knots(curve)[k])
    for _ in range(MOST_TRIES):
        axes = [list(curve.xs), list(curve.ys)]
        j = dice.between(max(1, at - 3), min(at, len(curve.xs) - 2))
        dice.pick(axes)[j] += dice.pick((-1, 1)) * dice.pick(moves_of(curve, j))
        spoiled = Curve(curve.degree, curve.knots, *axes)
        if check(spoiled) == 0 and first_unwhole(spoiled) == k:
            return spoiled
    raise ValueError("no coordinate was found that spoils insertion %d alone" % k)


def free_places(curve):
    """How many insertions the curve has room for."""
    return MOST_POINTS - len(curve.xs)
