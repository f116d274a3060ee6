"""Pieces held against the curve that they were cut from: one for each non-empty span, over its knots, four points of which those beyond the degree are (0, 0);
each ends where the next begins; and at fractions of its closed span the point by Bernstein's polynomials is the exact point of the curve."""

from fractions import Fraction
from math import comb

from .curve import exact_point
from .pieces import HELD
from .spans import spans

MANY = 100


def bezier(points, u):
    """The point at the share u, from 0 to 1, of the Bezier curve of these points."""
    m = len(points) - 1
    weights = [comb(m, k) * u**k * (1 - u) ** (m - k) for k in range(m + 1)]
    return tuple(sum(weight * point[axis] for weight, point in zip(weights, points)) for axis in (0, 1))


def some_share(dice):
    """A fraction from 0 to 1."""
    whole = dice.between(2, 97)
    return Fraction(dice.between(0, whole), whole)


def to_be_tried(dice, pieces):
    """All pieces; of very many the first, the last and some between."""
    return pieces if len(pieces) < MANY else [pieces[0], pieces[-1]] + [dice.pick(pieces) for _ in range(MANY // 3)]


def misheld(curve, pieces):
    """What is wrong with the number of pieces, their knots, their unused points or where they meet; None for nothing."""
    m, ts = curve.degree, curve.knots
    if [(piece.low, piece.high) for piece in pieces] != [(ts[i], ts[i + 1]) for i in spans(curve)]:
        return "the pieces do not lie over the spans"
    if any(len(piece.points) != HELD or any(point != (0, 0) for point in piece.points[m + 1 :]) for piece in pieces):
        return "a piece does not hold four points, the unused ones (0, 0)"
    if any(piece.points[m] != after.points[0] for piece, after in zip(pieces, pieces[1:])):
        return "two pieces do not meet"
    return None


def inexact(dice, curve, pieces):
    """Where one of these pieces is not the exact curve; None for nowhere."""
    for piece in pieces:
        for u in (Fraction(0), Fraction(1), some_share(dice), some_share(dice)):
            t = piece.low + (piece.high - piece.low) * u
            if bezier(piece.points[: curve.degree + 1], u) != exact_point(curve, t):
                return "a piece is not the exact curve at %s" % t
    return None
