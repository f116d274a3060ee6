"""The third demand, tried on the curves of the cases: a computed coordinate lies within 2^-30 of the exact one, and where an exact point lies no farther
from a point of a clamp than the cutter's radius, a span that holds its parameter is listed. The pieces of every curve that is written as path data are the
exact curve. And a curve that is made of another, by a knot more or fewer or by its ends, has the same domain and the same exact points.

reach_cases.py has the points of clamps, and contacts that are made to lie exactly at the radius; exact_pieces.py says what is asked of pieces."""

from collections import Counter
from fractions import Fraction

from .clamp_cases import random_fraction
from .curve import domain, exact_point, point_at
from .cutter_cases import some_radius
from .dice import Dice
from .exact_pieces import inexact, misheld, to_be_tried
from .pieces import cut
from .random_curves import whole_parameter
from .reach_cases import clamp_points, made_contacts
from .spans import met

BOUND = Fraction(1, 2**30)
# How often all cases together have to hit: in a clamp, within the radius of one of its points, exactly at it from a side and from a corner; and how many pieces
# and exact points of a curve that was made of another are to be tried.
LEAST = dict(inside=6000, within=3000, at_side=2500, at_corner=2500, pieces=800, kept=4000)


class Broken(Exception):
    """A curve on which the demand does not hold, or too few tries to say so."""


def try_closeness(curve, t):
    number, *computed = point_at(curve, t)
    if number or any(abs(Fraction(c) - e) >= BOUND for c, e in zip(computed, exact_point(curve, t))):
        raise Broken("the computed point is not close at %d on %r" % (t, curve))


def square_of(one, other):
    """The square of the distance of two points."""
    return sum((a - b) ** 2 for a, b in zip(one, other))


def try_listing(curve, clamp, radius, u, square, listed):
    """Whether the exact point at u lies within the radius of a point of the clamp, the square of whose distance is given; then a listed span must hold u."""
    if square > radius**2:
        return False
    if not any(low <= u <= high for low, high in listed(curve, clamp, radius)):
        raise Broken("no listed span holds %s for clamp %r and radius %d on %r" % (u, clamp, radius, curve))
    return True


def grid_round(curve, u):
    """The smallest rectangle on the grid that holds the exact point at u."""
    return [side for c in exact_point(curve, u) for side in (c.__floor__(), c.__ceil__())]


def try_points(dice, curve, clamp, radius, u, hits, listed=met):
    """The points of one clamp against the exact point at u."""
    exact = exact_point(curve, u)
    for point in clamp_points(dice, clamp, exact):
        if try_listing(curve, clamp, radius, u, square_of(exact, point), listed):
            hits["inside" if point == exact else "within"] += 1


def try_contacts(dice, curve, hits, listed=met):
    """Clamps that the curve passes exactly at the radius, at a side and at a corner."""
    for kind, passing, clamp, radius, u, point in made_contacts(dice, curve):
        square = square_of(exact_point(passing, u), point)
        if square != radius**2 or not try_listing(passing, clamp, radius, u, square, listed):
            raise Broken("no contact at the radius %d was made on %r" % (radius, passing))
        hits[kind] += 1


def try_pieces(dice, curve, hits, cutting=cut):
    """The pieces of a curve that can be cut."""
    number, pieces = cutting(curve)
    wrong = "refused by %d" % number if number else misheld(curve, pieces)
    tried = [] if wrong else to_be_tried(dice, pieces)
    wrong = wrong or inexact(dice, curve, tried)
    if wrong:
        raise Broken("%s: cutting %r" % (wrong, curve))
    hits["pieces"] += len(tried)


def try_kept(dice, curve, made, hits):
    """The exact points before and after."""
    tried = [Fraction(u) for u in domain(curve)] + [random_fraction(dice, curve) for _ in range(3)]
    if domain(made) != domain(curve) or any(exact_point(made, u) != exact_point(curve, u) for u in tried):
        raise Broken("%r is not the same curve as %r" % (made, curve))
    hits["kept"] += len(tried)


def try_case(dice, case, hits):
    """The number of parameters that were tried; what was hit is counted in hits."""
    curve = case.curve
    asked = [*case.asked, *domain(curve), whole_parameter(dice, curve), dice.between(*domain(curve))]
    for t in asked:
        try_closeness(curve, t)
    for clamp in case.clamps[:4]:
        for u in [*domain(curve)] + [random_fraction(dice, curve) for _ in range(3)]:
            try_points(dice, curve, clamp, case.radius, Fraction(u), hits)
    u = random_fraction(dice, curve)
    try_points(dice, curve, grid_round(curve, u), 0, u, hits)
    try_points(dice, curve, grid_round(curve, random_fraction(dice, curve)), some_radius(dice), u, hits)
    try_contacts(dice, curve, hits)
    if case.call == "svg":
        try_pieces(dice, curve, hits)
    if case.made is not None:
        try_kept(dice, curve, case.made, hits)
    return len(asked)


def try_demands(cases):
    """The number of parameters that were tried, and the hits of each kind."""
    dice, hits, near = Dice(30), Counter(), 0
    for case in cases:
        if case.curve is not None:
            near += try_case(dice, case, hits)
    return near, hits


def too_few_hits(hits):
    return ["only %d were tried: %s" % (hits[kind], kind) for kind, least in LEAST.items() if hits[kind] < least]
