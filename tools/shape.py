"""The shape of a checked curve: its domain, its spans, their boxes, their Bezier points, and whether the cut along a piece reaches a clamp. All exact."""

from fractions import Fraction

HALVINGS = 40


def domain(job):
    """The knots from which and to which the curve goes: as many lie in front of them, and behind, as the degree says."""
    return job.knots[job.degree], job.knots[len(job.points)]


def spans(job):
    """Index and two knots of each span of the domain that is not empty."""
    ts = job.knots
    return [(i, ts[i], ts[i + 1]) for i in range(job.degree, len(job.points)) if ts[i] < ts[i + 1]]


def box(points):
    """The closed box round some points: low x, high x, low y, high y."""
    xs, ys = zip(*points)
    return min(xs), max(xs), min(ys), max(ys)


def carrying(job, i):
    """The points that carry span i."""
    return job.points[i - job.degree : i + 1]


def between(part, a, b):
    """The point at a part of the way from a to b."""
    return tuple(p + part * (q - p) for p, q in zip(a, b))


def blossom(job, i, parameters):
    """De Boor's triangle on span i, with a parameter of its own in each row."""
    m, ts = job.degree, job.knots
    row = carrying(job, i)
    for r, t in enumerate(parameters, 1):
        places = range(i - m + r, i + 1)
        parts = [Fraction(t - ts[j], ts[j + m - r + 1] - ts[j]) for j in places]
        row = [between(part, a, b) for part, a, b in zip(parts, row, row[1:])]
    return row[0]


def bezier(job, span):
    """The degree + 1 Bezier points of a span."""
    i, low, high = span
    m = job.degree
    return [blossom(job, i, [low] * (m - k) + [high] * k) for k in range(m + 1)]


def bezier_at(points, part):
    """The point at a part, 0 to 1, of a Bezier piece."""
    while len(points) > 1:
        points = [between(part, a, b) for a, b in zip(points, points[1:])]
    return points[0]


def halves(points):
    """The Bezier points of both halves of a piece."""
    first, second, half = [], [], Fraction(1, 2)
    while points:
        first.append(points[0])
        second.insert(0, points[-1])
        points = [between(half, a, b) for a, b in zip(points, points[1:])]
    return first, second


def meet(one, other):
    """Whether two closed boxes share a point."""
    return one[0] <= other[1] and other[0] <= one[1] and one[2] <= other[3] and other[2] <= one[3]


def widened(clamp, radius):
    """A clamp moved outward by the radius on all four sides, as clampcheck widens it."""
    return clamp[0] - radius, clamp[1] + radius, clamp[2] - radius, clamp[3] + radius


def square(point, clamp):
    """The square of a point's distance from a clamp."""
    gaps = [max(low - at, at - high, 0) for at, low, high in zip(point, clamp[::2], clamp[1::2])]
    return gaps[0] ** 2 + gaps[1] ** 2


def distance(point, clamp):
    """How far a point lies from a clamp, in steps of the grid."""
    return square(point, clamp) ** 0.5


def square_to_line(point, a, b):
    """The square of a point's distance from the straight line between a and b."""
    along, off = (b[0] - a[0], b[1] - a[1]), (point[0] - a[0], point[1] - a[1])
    size = along[0] ** 2 + along[1] ** 2
    part = min(max(Fraction(along[0] * off[0] + along[1] * off[1], size), 0), 1) if size else 0
    return (off[0] - part * along[0]) ** 2 + (off[1] - part * along[1]) ** 2


def crosses(a, b, clamp):
    """Whether the straight line between a and b has a point in or on a clamp: the boxes meet, and its corners are not all on one side."""
    turns = [(b[0] - a[0]) * (y - a[1]) - (b[1] - a[1]) * (x - a[0]) for x in clamp[:2] for y in clamp[2:]]
    return meet(box([a, b]), clamp) and min(turns) <= 0 <= max(turns)


def line_square(a, b, clamp):
    """The square of the distance between a straight line and a clamp: where they are apart, an end or a corner is nearest."""
    if crosses(a, b, clamp):
        return 0
    corners = [(x, y) for x in clamp[:2] for y in clamp[2:]]
    return min([square(a, clamp), square(b, clamp)] + [square_to_line(corner, a, b) for corner in corners])


def bulge(points):
    """A length that a Bezier piece nowhere exceeds in leaving the straight line between its ends."""
    last = len(points) - 1
    chord = [between(Fraction(k, last), points[0], points[-1]) for k in range(last + 1)]
    return max(abs(p[0] - q[0]) + abs(p[1] - q[1]) for p, q in zip(points, chord))


def reaches(points, clamp, radius):
    """Whether a Bezier piece has a point no further than the radius from a clamp. A gap too small for so many halvings counts as none."""
    waiting = [(points, HALVINGS)]
    while waiting:
        piece, left = waiting.pop()
        if any(square(end, clamp) <= radius**2 for end in (piece[0], piece[-1])):
            return True
        apart, slack = line_square(piece[0], piece[-1], clamp), bulge(piece)
        if apart > (radius + slack) ** 2:
            continue
        if left == 0 or (slack <= radius and apart <= (radius - slack) ** 2):
            return True
        waiting += [(half, left - 1) for half in halves(piece)]
    return False
