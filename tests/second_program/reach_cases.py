"""What the third demand is tried on: points of a clamp, and clamps that a curve passes exactly at the cutter's radius."""

from fractions import Fraction
from math import gcd

from .clamp_cases import random_fraction
from .curve import FARTHEST, Curve, basis, domain, exact_point, span_of, within
from .cutter_cases import CORNERS, QUADRANTS, SIDES, some_radius
from .spans import MOST_RADIUS


def share(dice, low, high):
    """A fraction from low to high, now and then one of them."""
    whole = dice.between(1, 9)
    return low + (high - low) * Fraction(dice.between(0, whole), whole)


def nearest(clamp, point):
    low_x, high_x, low_y, high_y = clamp
    x, y = point
    return min(max(x, low_x), high_x), min(max(y, low_y), high_y)


def clamp_points(dice, clamp, exact):
    """Points of the clamp: its corners, one of each pair of sides, one anywhere, and the one that lies nearest to the exact point of the curve."""
    low_x, high_x, low_y, high_y = clamp
    x, y = share(dice, low_x, high_x), share(dice, low_y, high_y)
    corners = [(a, b) for a in (low_x, high_x) for b in (low_y, high_y)]
    return [*corners, (dice.pick((low_x, high_x)), y), (x, dice.pick((low_y, high_y))), (x, y), nearest(clamp, exact)]


def common_divisor(curve, u):
    """What all weights of the exact point at u are fractions of."""
    i, m, common = span_of(curve, u), curve.degree, 1
    for j in range(i - m, i + 1):
        divisor = basis(curve.knots, i, j, m, Fraction(u)).denominator
        common = common * divisor // gcd(common, divisor)
    return common


def whole_within(dice, curve):
    """A curve on the same knots whose exact point at some fraction is whole, and that fraction; None where the weights there have too large divisors."""
    u = random_fraction(dice, curve)
    apart = common_divisor(curve, u)
    most = FARTHEST // apart
    if most < 3:
        return None
    some = lambda: [apart * dice.between(-most, most) for _ in curve.xs]
    return Curve(curve.degree, curve.knots, some(), some()), u


def beside(dice, x, y, radius):
    """A clamp that has (x, y) at this distance from one of its sides, and its nearest point."""
    axis, direction = dice.pick(SIDES)
    near = [x, y]
    near[axis] += direction * radius
    far = [c + dice.between(0, 9) for c in near]
    far[axis] = near[axis] + direction * dice.between(0, 9)
    low = [c - dice.between(0, 9) for c in near]
    low[axis] = near[axis]
    sides = [*sorted((low[0], far[0])), *sorted((low[1], far[1]))]
    return tuple(sides), radius, tuple(near)


def across_corner(dice, x, y):
    """A clamp whose corner is the point of it that lies nearest to (x, y), at a whole distance."""
    a, b, c = dice.pick(CORNERS)
    times = dice.between(1, MOST_RADIUS // c)
    across, up = dice.pick(QUADRANTS)
    near = x + across * a * times, y + up * b * times
    far = near[0] + across * dice.between(0, 9), near[1] + up * dice.between(0, 9)
    return (*sorted((near[0], far[0])), *sorted((near[1], far[1]))), c * times, near


def contacts_at(dice, curve, u):
    """Contacts of the exact point at u, where it is whole: kind, curve, clamp, radius, parameter and the point of the clamp. Clamps beyond the range are left out."""
    exact = exact_point(curve, u)
    if any(c.denominator != 1 for c in exact):
        return
    x, y = map(int, exact)
    for kind, (clamp, radius, point) in (("at_side", beside(dice, x, y, some_radius(dice))), ("at_corner", across_corner(dice, x, y))):
        if all(within(side) for side in clamp):
            yield kind, curve, clamp, radius, Fraction(u), point


def made_contacts(dice, curve):
    """Contacts at an end of the curve and, on another curve of the same knots, at a fraction."""
    yield from contacts_at(dice, curve, dice.pick(domain(curve)))
    found = whole_within(dice, curve)
    if found:
        yield from contacts_at(dice, *found)
