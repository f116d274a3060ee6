"""The scope, "Inserting and removing a knot". Insertion follows the formula over fractions. Removal solves for the one
rational polygon by elimination, whatever the weights are, and then inserts the knot again and looks at every point."""

from fractions import Fraction

from .curve import MOST_POINTS, Curve, check, domain, within
from .fault import planted, planted_anywhere


def refused_room(curve, room):
    """15 where a lent list (knots, x, y) is shorter than the curve that goes there."""
    needs = (len(curve.knots), len(curve.xs), len(curve.ys))
    return 15 if any(have < need for have, need in zip(room, needs)) else 0


def place_of(m, ts, v):
    """The i with t_i <= v < t_{i+1}."""
    return next(i for i in range(m, len(ts) - 1) if ts[i] <= v < ts[i + 1])


def polygon_with(m, ts, points, v):
    """The points of one axis after inserting v, the new ones as fractions; ts are the knots before."""
    i = place_of(m, ts, v)
    new = points[: i - m + 1]
    for j in range(i - m + 1, i + 1):
        new.append(((v - ts[j]) * points[j] + (ts[j + m] - v) * points[j - 1]) / Fraction(ts[j + m] - ts[j]))
    return new + points[i:]


def insert_judged(curve, v):
    """Number and the new curve, of a curve that passes the check."""
    m, ts = curve.degree, curve.knots
    low, high = domain(curve)
    if not low - planted("insert_knot:at_left_end") < v < high or ts.count(v) >= m:
        return 9, None
    if len(curve.xs) == MOST_POINTS:
        return 10, None
    axes = [polygon_with(m, ts, axis, v) for axis in (curve.xs, curve.ys)]
    if any(q.denominator != 1 for axis in axes for q in axis) and not planted("insert_knot"):
        return 11, None
    return 0, Curve(m, sorted(ts + [v]), *[[int(q) for q in axis] for axis in axes])


def insert_knot(curve, v, room):
    """Number and the new curve."""
    number = check(curve)
    number, new = (number, None) if number else insert_judged(curve, v)
    return (number, None) if number else (refused_room(new, room), new)


def solved(rows, unknowns):
    """The solution of equations (coefficients.., right side) that determine every unknown; None where they disagree."""
    rows = [list(row) for row in rows]
    for column in range(unknowns):
        pivot = next(k for k in range(column, len(rows)) if rows[k][column] != 0)
        rows[column], rows[pivot] = rows[pivot], rows[column]
        rows[column] = [entry / rows[column][column] for entry in rows[column]]
        for k in range(len(rows)):
            if k != column:
                factor = rows[k][column]
                rows[k] = [a - factor * b for a, b in zip(rows[k], rows[column])]
    if any(row[-1] != 0 for row in rows[unknowns:]) and not planted("remove_knot"):
        return None
    return [row[-1] for row in rows[:unknowns]]


def polygon_without(m, ts, points, v):
    """The one polygon of fractions on ts (v taken out already) that gives points when v is inserted, or None."""
    i = place_of(m, ts, v)
    before, behind = points[: i - m + 1], points[i + 1 :]
    first, unknowns = i - m + 1, m - 1
    rows = []
    for j in range(i - m + 1, i + 1):
        row = [Fraction(0)] * unknowns + [Fraction(points[j])]
        for k, weight in ((j, v - ts[j]), (j - 1, ts[j + m] - v)):
            share = Fraction(weight, ts[j + m] - ts[j])
            if first <= k < first + unknowns:
                row[k - first] += share
            else:
                known = before[k] if k < first else behind[k - first - unknowns]
                row[-1] -= share * known
        rows.append(row)
    middle = solved(rows, unknowns)
    if middle is None:
        return None
    polygon = before + middle + behind
    return polygon if planted("remove_knot") or polygon_with(m, ts, polygon, v) == points else None


def without(curve, v):
    """The curve with one v fewer, or None where removal is refused with 13; v is an inner knot."""
    ts = list(curve.knots)
    ts.remove(v)
    axes = [polygon_without(curve.degree, ts, axis, v) for axis in (curve.xs, curve.ys)]
    if any(axis is None for axis in axes):
        return None
    if any(p.denominator != 1 or not within(p) for axis in axes for p in axis):
        return None
    return Curve(curve.degree, ts, *[[int(p) for p in axis] for axis in axes])


def inner_values(curve):
    """The values strictly inside the domain, rising."""
    low, high = domain(curve)
    if planted_anywhere("doubled_end") and curve.knots[curve.degree + 1] == low:
        low -= 1
    return sorted(set(t for t in curve.knots if low < t < high))


def remove_knot(curve, v, room):
    """Number and the new curve."""
    number = check(curve)
    if number:
        return number, None
    if v not in inner_values(curve):
        return 12, None
    new = without(curve, v)
    if new is None:
        return 13, None
    return refused_room(new, room), new


def compact(curve, room):
    """Number, the new curve, and how many knots went."""
    number = check(curve)
    if number:
        return number, None, None
    new = curve
    for v in inner_values(curve):
        while v in inner_values(new):
            smaller = without(new, v)
            if smaller is None:
                break
            new = smaller
            if planted("compact"):
                break
    return refused_room(new, room), new, len(curve.xs) - len(new.xs)
