"""A curve as its pieces. Its ends are made full, and then every inner value is inserted, from left to right, until it stands as often as the degree says; the
points that then carry a span are those of its piece. What fails first decides: 11 for the ends; of an insertion 10 where the curve is full already, then 11."""

from collections import Counter
from typing import List, NamedTuple, Tuple

from .curve import MOST_POINTS, Curve
from .ends import clamped
from .fault import planted
from .knots import inner_values, insert_judged, polygon_with
from .spans import spans

HELD = 4  # points of a piece, whatever the degree


class Piece(NamedTuple):
    low: int
    high: int
    points: List[Tuple[int, int]]  # one more than the degree are in use, the others are (0, 0)


def missing_knots(curve):
    """The values to insert, each as often as it is missing, in their order."""
    often, times = curve.degree - planted("svg:one_less"), Counter(curve.knots)
    values = [v for v in inner_values(curve) for _ in range(often - times[v])]
    return values[::-1] if planted("svg:from_right") else values


def misjudged(number, curve, v):
    """What comes of an insertion that is refused by this number: planted faults alone make something else of it."""
    axes = [polygon_with(curve.degree, curve.knots, axis, v) for axis in (curve.xs, curve.ys)]
    x_is_whole, y_is_whole = (all(q.denominator == 1 for q in axis) for axis in axes)
    if number == 10 and planted("svg:whole_first") and not (x_is_whole and y_is_whole):
        return 11, None
    overlooked = (
        planted("svg:x_alone") and x_is_whole
        or planted("svg:third_unjudged") and curve.knots.count(v) == 2
        or planted("svg:last_unjudged") and v == inner_values(curve)[-1]
    )
    if number == 11 and overlooked:
        return 0, Curve(curve.degree, sorted(curve.knots + [v]), *[[int(q) for q in axis] for axis in axes])
    return number, None


def inserted(curve, v):
    """Number and the curve with v once more."""
    number, new = insert_judged(curve, v)
    return misjudged(number, curve, v) if number else (0, new)


def held(points):
    return points + [(0, 0)] * (HELD - len(points))


def carried(curve):
    """Of every non-empty span its two knots and the points that carry it, as a piece."""
    m, ts, points = curve.degree, curve.knots, list(zip(curve.xs, curve.ys))
    indices = range(m, len(points)) if planted("svg:empty_pieces") else spans(curve)
    return [Piece(ts[i], ts[i + 1], held(points[i - m : i + 1])) for i in indices]


def cut(curve):
    """Number and the pieces, in rising order, of a curve that passes the check."""
    number, curve = (0, curve) if planted("svg:open_ends") else clamped(curve)
    if number:
        return number, None
    values = missing_knots(curve)
    if planted("svg:counted_first") and len(curve.xs) + len(values) > MOST_POINTS:
        return 10, None
    for v in values:
        number, curve = inserted(curve, v)
        if number:
            return number, None
    return 0, carried(curve)
