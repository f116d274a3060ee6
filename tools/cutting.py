"""A curve cut at its inner knots, as docs/SCOPE.md tells under "Out to SVG": its ends are made full, so that it begins and ends at its own first and last
point; then each inner knot is inserted, from left to right, until it stands as often as the degree says, or until an insertion fails."""

from bisect import bisect_right
from collections import Counter
from fractions import Fraction
from math import floor

import shape
from job_bytes import MOST, Job

FULL, BETWEEN_LINES = 10, 11


class Uncut(Exception):
    """A curve that cannot be cut on the grid: the number of the refusal; the message says why."""

    def __init__(self, number, words):
        super().__init__(words)
        self.number = number


def missing(job):
    """The inner knots in their order, each as often as it has to be inserted."""
    low, high = shape.domain(job)
    often = Counter(knot for knot in job.knots if low < knot < high)
    return [knot for knot in sorted(often) for _ in range(job.degree - often[knot])]


def in_pieces(points, degree):
    """The points of a cut curve, piece by piece; neighbours share the point where they meet."""
    return [points[at : at + degree + 1] for at in range(0, len(points) - 1, degree)]


def on_grid(point, when):
    """A point that comes of something that is done, in whole numbers, or Uncut."""
    for name, number in zip("xy", point):
        if number != int(number):
            low = floor(number)
            words = "%s the curve would have a point between %s %d and %s %d"
            raise Uncut(BETWEEN_LINES, words % (when, name, low, name, low + 1))
    return tuple(map(int, point))


def with_full_ends(job):
    """The same curve with both ends of its domain standing once more than the degree says and no knots outside, or Uncut."""
    m, (low, high) = job.degree, shape.domain(job)
    ts = [low] * (m + 1) + [knot for knot in job.knots if low < knot < high] + [high] * (m + 1)
    if ts == job.knots:
        return job
    begins, points = {span[1]: span[0] for span in shape.spans(job)}, []
    for j in range(len(ts) - m - 1):
        i = next(begins[ts[k]] for k in range(j, j + m + 1) if ts[k] < ts[k + 1])
        points.append(on_grid(shape.blossom(job, i, ts[j + 1 : j + m + 1]), "at an open end"))
    return Job(m, ts, points, job.radius, job.clamps)


def fresh_points(m, ts, points, i, knot):
    """The points that inserting a knot of span i brings."""
    parts = [Fraction(knot - ts[j], ts[j + m] - ts[j]) for j in range(i - m + 1, i + 1)]
    return [on_grid(shape.between(part, *points[j - 1 : j + 1]), "cut at knot %d" % knot) for j, part in enumerate(parts, i - m + 1)]


def cut(job):
    """The points of the curve, which passes the check, with full ends and cut at all its inner knots, or Uncut."""
    job = with_full_ends(job)
    m, ts, points = job.degree, list(job.knots), list(job.points)
    for knot in missing(job):
        if len(points) == MOST["points"]:
            words = "its %d pieces of degree %d take %s points, and a curve has at most 1,024"
            pieces = len(shape.spans(job))
            raise Uncut(FULL, words % (pieces, m, format(m * pieces + 1, ",")))
        i = bisect_right(ts, knot) - 1
        points[i - m + 1 : i] = fresh_points(m, ts, points, i, knot)
        ts.insert(i + 1, knot)
    return points
