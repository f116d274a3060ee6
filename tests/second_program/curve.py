"""The scope, "The curve on the grid" and "The point at a parameter", by the letter: the check, the span,
the computed point in binary64, the carrying coordinates, and the exact point over fractions."""

from collections import Counter
from fractions import Fraction
from typing import List, NamedTuple

from .fault import planted, planted_anywhere

HIGHEST_KNOT = 16383
FARTHEST = 262144
MOST_POINTS = 1024
NO_WEIGHT = Fraction(0)


class Curve(NamedTuple):
    degree: int
    knots: List[int]
    xs: List[int]
    ys: List[int]


def within(coordinate):
    return -FARTHEST <= coordinate <= FARTHEST


def domain(curve):
    """t_m and t_{n+1}."""
    return curve.knots[curve.degree], curve.knots[len(curve.xs)]


def full_ends(curve):
    """Whether the first m+1 knots are equal, and the last m+1."""
    m, ts = curve.degree, curve.knots
    return len(set(ts[: m + 1])) == len(set(ts[-m - 1 :])) == 1


def no_domain(curve):
    """Row 5."""
    low, high = domain(curve)
    if planted("check:first_and_last"):
        low, high = curve.knots[0], curve.knots[-1]
    return low >= high or planted("check:full_ends") and not full_ends(curve)


def most_times(curve, value):
    """How often a value may stand among all the knots: m times strictly inside the domain, once more at its ends and outside."""
    low, high = domain(curve)
    inside = low < value < high
    more = planted("check:inner_too_often") if inside else 1 + (planted("check:end_too_often") and value in (low, high))
    return curve.degree + more


def check(curve):
    """Rows 1 to 7 of the table; 0 where the curve passes."""
    m, ts, xs, ys = curve
    if m not in (1, 2, 3):
        return 1
    if len(xs) != len(ys) or not m + 1 <= len(xs) <= MOST_POINTS:
        return 2
    if len(ts) != len(xs) + m + 1:
        return 3
    if any(t > HIGHEST_KNOT for t in ts) or any(b < a for a, b in zip(ts, ts[1:])):
        return 4
    if no_domain(curve):
        return 5
    if any(times > most_times(curve, value) for value, times in Counter(ts).items()):
        return 6
    farthest = FARTHEST - 1 if planted("check") else FARTHEST
    if any(abs(coordinate) > farthest for coordinate in xs + ys):
        return 7
    return 0


def span_of(curve, t):
    """The last index, of those from m to n, whose span is not empty and does not begin above t, a whole number or a fraction."""
    ts = curve.knots
    return max(i for i in range(curve.degree, len(curve.xs)) if ts[i] <= t and ts[i] < ts[i + 1])


def refused_at(curve, t):
    """Rows 1 to 8."""
    number = check(curve)
    if number:
        return number
    low, high = domain(curve)
    if planted_anywhere("to_last_knot"):
        high = curve.knots[-1]
    return 0 if low <= t <= high else 8


def computed(curve, i, t, coordinates):
    """The last entry of the triangle in binary64, for one axis."""
    m, ts = curve.degree, curve.knots
    row = {j: float(coordinates[j]) for j in range(i - m, i + 1)}
    for r in range(1, m + 1):
        above = row
        row = {}
        for j in range(i - m + r, i + 1):
            w = ts[j + m - r + 1]
            left = float(w - t) * above[j - 1]
            right = float(t - ts[j]) * above[j]
            if planted("point_at"):
                row[j] = left / float(w - ts[j]) + right / float(w - ts[j])
            else:
                row[j] = (left + right) / float(w - ts[j])
    return row[i]


def point_at(curve, t):
    """Number, x, y."""
    number = refused_at(curve, t)
    if number:
        return number, None, None
    i = span_of(curve, t)
    return 0, computed(curve, i, t, curve.xs), computed(curve, i, t, curve.ys)


def carrying(curve, t, axis):
    """Number and the m+1 carrying coordinates of axis 0 (x) or 1 (y)."""
    number = refused_at(curve, t)
    if number:
        return number, []
    i = span_of(curve, t)
    if planted("carrying") and t == domain(curve)[1]:
        i -= 1
    coordinates = curve.ys if axis else curve.xs
    return 0, coordinates[i - curve.degree : i + 1]


def basis(ts, i, j, r, t):
    """N_{j,r}(t) over fractions, i being the span of t; a term with divisor zero counts as zero."""
    if not j <= i <= j + r:
        return NO_WEIGHT
    if r == 0:
        return Fraction(1)
    value = NO_WEIGHT
    if ts[j + r] != ts[j]:
        value += (t - ts[j]) / Fraction(ts[j + r] - ts[j]) * basis(ts, i, j, r - 1, t)
    if ts[j + r + 1] != ts[j + 1]:
        value += (ts[j + r + 1] - t) / Fraction(ts[j + r + 1] - ts[j + 1]) * basis(ts, i, j + 1, r - 1, t)
    return value


def exact_point(curve, t):
    """The sum of N_{j,m}(t) P_j over all j, as two fractions."""
    t = Fraction(t)
    i = span_of(curve, t)
    weights = [basis(curve.knots, i, j, curve.degree, t) for j in range(len(curve.xs))]
    carriers = [(weight, j) for j, weight in enumerate(weights) if weight]
    return tuple(sum((w * axis[j] for w, j in carriers), Fraction(0)) for axis in (curve.xs, curve.ys))
