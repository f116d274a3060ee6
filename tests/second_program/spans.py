"""The scope, "Spans to check": the non-empty spans whose closed box of carrying points meets a closed rectangle that is widened by the cutter's radius."""

from .curve import check, within
from .fault import planted, planted_anywhere

MOST_RADIUS = 4096


def radius_ok(radius):
    """Row 22."""
    return radius <= MOST_RADIUS + planted_anywhere("past_most") - planted_anywhere("most_refused")


def rectangle_ok(rectangle):
    """Row 14; a rectangle is low x, high x, low y, high y."""
    low_x, high_x, low_y, high_y = rectangle
    return low_x <= high_x and low_y <= high_y and all(within(side) for side in rectangle)


def refused_clamps(radius, rectangles):
    """22, then 14 for any of the rectangles; 0 for neither."""
    found = {22: not radius_ok(radius), 14: not all(rectangle_ok(one) for one in rectangles)}
    order = (14, 22) if planted_anywhere("radius_last") else (22, 14)
    return next((number for number in order if found[number]), 0)


def spans(curve):
    """The indices of the non-empty spans, rising; those of the domain alone."""
    ts = curve.knots
    first = 0 if planted_anywhere("left_spans") else curve.degree
    behind = len(ts) - 1 if planted_anywhere("right_spans") else len(curve.xs)
    return [i for i in range(first, behind) if ts[i] < ts[i + 1]]


def box(curve, i):
    """The closed box of the points that carry span i, written as a rectangle."""
    xs, ys = (axis[max(0, i - curve.degree) : i + 1] for axis in (curve.xs, curve.ys))
    return min(xs), max(xs), min(ys), max(ys)


def widened(rectangle, radius):
    """Every side moved outward by the radius, past the range too."""
    low_x, high_x, low_y, high_y = rectangle
    if planted_anywhere("half_radius"):
        radius //= 2
    lowest = 0 if planted_anywhere("three_sides") else radius
    return low_x - radius, high_x + radius, low_y - lowest, high_y + radius


def meet(one, other, strictly=False):
    """Whether two closed rectangles have a point in common. Strictly, at a side across x, plays a part in planted faults alone."""
    if strictly:
        return one[0] < other[1] and other[0] < one[1] and one[2] <= other[3] and other[2] <= one[3]
    return one[0] <= other[1] and other[0] <= one[1] and one[2] <= other[3] and other[2] <= one[3]


def met(curve, rectangle, radius):
    """The knots (low, high) of each span listed for a rectangle and a radius that are accepted."""
    ts, wide = curve.knots, widened(rectangle, radius)
    strictly = planted("list_spans_met") or planted_anywhere("strict_when_wide") and radius > 0
    return [(ts[i], ts[i + 1]) for i in spans(curve) if meet(box(curve, i), wide, strictly)]


def list_spans_met(curve, rectangle, radius, room):
    """Number and the spans; both lists need a place for every non-empty span."""
    number = check(curve) or refused_clamps(radius, [rectangle])
    if number:
        return number, None
    if min(room) < len(spans(curve)):
        return 15, None
    return 0, met(curve, rectangle, radius)
