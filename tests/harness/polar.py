"""Points of a span by the triangle with a parameter of its own in each row, in fractions: what the points of any polygon of the same curve are."""

from fractions import Fraction


def polar(curve, i, arguments):
    """The point of span i by the triangle with another parameter in each row, in fractions."""
    m, ts = curve.degree, curve.knots
    row = {j: (Fraction(curve.xs[j]), Fraction(curve.ys[j])) for j in range(i - m, i + 1)}
    for r, t in enumerate(arguments, 1):
        above, row = row, {}
        for j in range(i - m + r, i + 1):
            w = ts[j + m - r + 1]
            row[j] = tuple(((w - t) * a + (t - ts[j]) * b) / (w - ts[j]) for a, b in zip(above[j - 1], above[j]))
    return row[i]


def polar_points(curve, i):
    """The Bezier points of span i: its right knot in more and more rows, its left one in the others."""
    m, low, high = curve.degree, curve.knots[i], curve.knots[i + 1]
    return [polar(curve, i, [low] * (m - k) + [high] * k) for k in range(m + 1)]
