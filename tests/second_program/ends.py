"""Ends of a curve that are made full, or open again. Both calls ask for the polygon on other knots that has the same exact curve over the domain; here it is
solved for, span by span, from exact points of the curve."""

from fractions import Fraction

from .curve import HIGHEST_KNOT, Curve, basis, check, domain, within
from .fault import planted
from .knots import refused_room, solved
from .spans import spans


def weights(ts, m, i, t):
    """The weights at t of the points that carry span i; all others have none there."""
    return [basis(ts, i, j, m, t) for j in range(i - m, i + 1)]


def solved_span(curve, i, us, k):
    """Of each axis the m+1 points which on the knots us carry span k, so that there it is span i of the curve: they give m+1 exact points of it. Where the
    knots that its weights hang on are the same, the points are."""
    m, ts = curve.degree, curve.knots
    if us[k - m + 1 : k + m + 1] == ts[i - m + 1 : i + m + 1]:
        return [[Fraction(c) for c in axis[i - m : i + 1]] for axis in (curve.xs, curve.ys)]
    tried = [ts[i] + Fraction((ts[i + 1] - ts[i]) * part, m + 1) for part in range(m + 1)]
    old, new = ([weights(knots, m, span, t) for t in tried] for knots, span in ((ts, i), (us, k)))
    exact = lambda axis: [sum(w * c for w, c in zip(row, axis[i - m : i + 1])) for row in old]
    return [solved([row + [e] for row, e in zip(new, exact(axis))], m + 1) for axis in (curve.xs, curve.ys)]


def polygon_on(us, curve):
    """Of each axis the points on the knots us, by index, that carry the same exact curve over the same domain; None where spans that share a point disagree."""
    m, found = curve.degree, ({}, {})
    empty = [0] * (len(us) - m - 1)
    for i, k in zip(spans(curve), spans(Curve(m, us, empty, empty))):
        for points, span in zip(found, solved_span(curve, i, us, k)):
            for j, point in enumerate(span, k - m):
                if points.setdefault(j, point) != point:
                    return None
    return found


def is_whole(axes):
    return all(c.denominator == 1 for axis in axes for c in axis)


def in_whole_numbers(m, ts, axes):
    return Curve(m, ts, *[[int(c) for c in axis] for axis in axes])


def clamped_knots(curve):
    """Each end value of the domain m+1 times, and between them the knots strictly inside."""
    m, ts = curve.degree, curve.knots
    low, high = domain(curve)
    right = ts[len(curve.xs) :] if planted("clamp_ends:left_alone") else [high] * (m + 1)
    return [low] * (m + 1) + [t for t in ts if low < t < high] + right


def clamped_axes(curve):
    """The points on the clamped knots, as fractions."""
    us = clamped_knots(curve)
    if us == curve.knots:
        return [[Fraction(c) for c in axis] for axis in (curve.xs, curve.ys)]
    axes = [[points[j] for j in sorted(points)] for points in polygon_on(us, curve)]
    if planted("clamp_ends:keeps_outer"):
        axes = [[Fraction(old[0]), *new[1:]] for old, new in zip((curve.xs, curve.ys), axes)]
    return axes


def clamped(curve):
    """Number and the curve with full ends, of a curve that passes the check."""
    axes = clamped_axes(curve)
    if not is_whole(axes) and not planted("clamp_ends"):
        return 23 if planted("clamp_ends:tells_23") else 11, None
    return 0, in_whole_numbers(curve.degree, clamped_knots(curve), axes)


def clamp_ends(curve, room):
    """Number and the new curve: 1 to 7, then 11, then 15."""
    number = check(curve)
    number, new = (number, None) if number else clamped(curve)
    return (number, None) if number else (refused_room(new, room), new)


def open_knots(curve):
    """The knots with the last m moved apart, as far as the last span is wide; None where the last m+1 differ or one would be too large."""
    m, ts, behind = curve.degree, curve.knots, len(curve.xs)
    if len(set(ts[behind:])) > 1:
        return None
    width = ts[behind] - ts[behind - 1]
    if planted("unclamp_right:other_span"):
        width = ts[m + 1] - ts[m]
    us = ts[: behind + 1] + [ts[behind] + k * width for k in range(1, m + 1)]
    return us if us[-1] <= HIGHEST_KNOT + planted("unclamp_right:past_most") else None


def opened_axes(curve, us):
    """The points on these knots, as fractions: all but the last m are the old ones. None where these do not carry the same exact curve."""
    found, kept = polygon_on(us, curve), len(curve.xs) - curve.degree
    if found is None:
        return None
    axes = []
    for old, new in zip((curve.xs, curve.ys), found):
        if any(new[j] != old[j] for j in new if j < kept):
            return None
        axes.append([Fraction(c) for c in old[:kept]] + [new[j] for j in range(kept, len(old))])
    if planted("unclamp_right:keeps_last"):
        axes = [axis[:-1] + [Fraction(old[-1])] for old, axis in zip((curve.xs, curve.ys), axes)]
    return axes


def opened(curve):
    """Number and the curve that is open at its right end, of a curve that passes the check."""
    us = open_knots(curve)
    axes = opened_axes(curve, us) if us else None
    if axes is None:
        return 23, None
    if not is_whole(axes) and not planted("unclamp_right"):
        return 11 if planted("unclamp_right:tells_11") else 23, None
    if not all(within(c) for axis in axes for c in axis) and not planted("unclamp_right:any_range"):
        return 23, None
    return 0, in_whole_numbers(curve.degree, us, axes)


def unclamp_right(curve, room):
    """Number and the new curve: 1 to 7, then 23, then 15."""
    number = check(curve)
    if not number and planted("unclamp_right:room_first") and refused_room(curve, room):
        return 15, None
    number, new = (number, None) if number else opened(curve)
    return (number, None) if number else (refused_room(new, room), new)
