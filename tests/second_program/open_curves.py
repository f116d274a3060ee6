"""Random curves whose ends are open: evenly spaced knots, values that stand several times at the ends of the domain and outside it, points that carry nothing;
curves whose ends can be made full or open in whole numbers; and open curves spoiled so that one row of the check refuses them."""

from math import lcm

from .curve import FARTHEST, HIGHEST_KNOT, Curve, check, domain
from .ends import clamped_axes, open_knots, opened_axes
from .expected import EACH_REFUSAL, expect
from .random_curves import SPOILERS, knots_standing, random_coordinates

MOST_SCALE = 40000


def parts_of(dice, count, most):
    """Numbers from 1 to most that are so many together."""
    parts = []
    while count:
        parts.append(min(count, dice.pick((1, 1, 2, most)), most))
        count -= parts[-1]
    return parts


def end_times(dice, m, free, full=None):
    """Of one end of the domain: how often its value stands there and outside, how often inside, and how often each value outside stands. So many knots are
    free to stand inside; full tells whether the end is to be full, where it matters."""
    there = m + 1 if full else dice.pick((1, 1, 1, dice.between(1, m + 1 - (full is False))))
    inside = dice.between(0, min(free, m + 1 - there)) if dice.chance(3) else 0
    return there, inside, parts_of(dice, m + 1 - there, m)


def open_times(dice, m, points, left=None, right=None):
    """How often each value stands; left and right say whether that end is full, where it matters."""
    free = points - m - 1
    at_left, inside_left, before = end_times(dice, m, free, left)
    at_right, inside_right, behind = end_times(dice, m, free - inside_left, right)
    inner = parts_of(dice, free - inside_left - inside_right, m)
    return [*before, at_left + inside_left, *inner, at_right + inside_right, *behind]


def some_points(dice, m):
    return m + dice.pick((1, 1, 2, 3, 5, 8))


def open_curve(dice, m=None, points=None, gap=None, reach=None, left=None, right=None):
    """Like random_curve, with ends that may be open."""
    m = m or dice.between(1, 3)
    points = points or some_points(dice, m)
    ts = knots_standing(dice, open_times(dice, m, points, left, right), gap or dice.pick((1, 2, 4, 40, 900)))
    reach = reach or dice.pick((2, 30, 1000, FARTHEST))
    return Curve(m, ts, *[random_coordinates(dice, points, reach) for _ in range(2)])


def even_knots(dice, m, points, most=900):
    """Knots that rise by the same step from the first to the last."""
    step = dice.between(1, min(most, HIGHEST_KNOT // (points + m)))
    slack = HIGHEST_KNOT - step * (points + m)
    start = dice.pick((0, slack, dice.between(0, slack)))
    return [start + step * k for k in range(points + m + 1)]


def even_curve(dice, m=None, points=None, reach=None):
    m = m or dice.between(1, 3)
    points = points or some_points(dice, m)
    reach = reach or dice.pick((2, 30, 1000, FARTHEST))
    return Curve(m, even_knots(dice, m, points), *[random_coordinates(dice, points, reach) for _ in range(2)])


def either_curve(dice, m=None, points=None, gap=None, reach=None):
    """One of both kinds."""
    return even_curve(dice, m, points, reach) if dice.chance(3) else open_curve(dice, m, points, gap, reach)


def outside_values(curve):
    """The whole numbers from the first knot to the last that lie outside the domain, or some of them."""
    low, high = domain(curve)
    first, last = curve.knots[0], curve.knots[-1]
    return sorted({*range(max(first, low - 9), low), *range(high + 1, min(last, high + 9) + 1), *(t for t in curve.knots if not low <= t <= high)})


def with_outside(dice, make=either_curve):
    """A curve that has knots outside its domain, and a whole number there."""
    while True:
        curve = make(dice)
        outside = outside_values(curve)
        if outside:
            return curve, dice.pick(outside)


def scaled(dice, curve, made):
    """The curve with its points multiplied by what makes all the fractions whole that are made of it, and moved; None where they would leave the range."""
    fractions = made(curve)
    scale = lcm(*[c.denominator for axis in fractions for c in axis])
    most = max(1, *[abs(c) for axis in (curve.xs, curve.ys, *fractions) for c in axis])
    if scale > MOST_SCALE or most * scale > FARTHEST:
        return None
    offsets = random_coordinates(dice, 2, min(999, FARTHEST - int(most * scale)))
    return curve._replace(**{name: [scale * c + off for c in axis] for name, axis, off in zip(("xs", "ys"), (curve.xs, curve.ys), offsets)})


def found(make):
    """The first thing that is made."""
    while True:
        one = make()
        if one is not None:
            return one


def clampable(dice, m=None, points=None):
    """A curve whose ends can be made full in whole numbers."""
    reach = lambda: dice.pick((3, 30))
    make = lambda: even_curve(dice, m, points, reach()) if dice.chance(3) else open_curve(dice, m, points, dice.pick((1, 2, 3, 6)), reach())
    return found(lambda: scaled(dice, make(), clamped_axes))


def right_full(dice, m=None, points=None, reach=None):
    """A curve whose right end is full and has room behind it."""
    while True:
        curve = open_curve(dice, m, points, dice.pick((1, 2, 3, 6, 40)), reach or dice.pick((2, 30)), right=True)
        if open_knots(curve):
            return curve


def axes_opened(curve):
    return opened_axes(curve, open_knots(curve))


def openable(dice, m=None, points=None):
    """A curve whose right end can be opened in whole numbers."""
    return found(lambda: scaled(dice, right_full(dice, m, points), axes_opened))


def moved_by(curve, x, y):
    return curve._replace(xs=[c + x for c in curve.xs], ys=[c + y for c in curve.ys])


def reaching(dice, curve, past):
    """The curve, which can be opened, moved along one axis so that a coordinate of it opened reaches the edge of the range, or lies so many steps past it; None
    where one of its own would leave the range."""
    k, side = dice.between(0, 1), dice.pick((-1, 1))
    farthest = max(side * c for c in axes_opened(curve)[k])
    off = [0, 0]
    off[k] = side * int(FARTHEST + past - farthest)
    moved = moved_by(curve, *off)
    return moved if check(moved) == 0 else None


def ending_at(curve, last):
    """The curve moved along the knots so that its last knot, when its right end is opened, is this one; None where the first would fall below 0."""
    off = last - open_knots(curve)[-1]
    return curve._replace(knots=[t + off for t in curve.knots]) if curve.knots[0] + off >= 0 else None


def spoil_domain(dice, curve, byte):
    """The domain is a single value; knots outside it may differ."""
    m, ts = curve.degree, list(curve.knots)
    behind = len(curve.xs)
    ts[m : behind + 1] = [dice.pick((ts[m], ts[behind]))] * (behind + 1 - m)
    ts[:m] = [min(t, ts[m]) for t in ts[:m]]
    return curve._replace(knots=ts)


def spoil_open_repeats(dice, curve, byte):
    """A value at an end of the domain stands m+2 times, or one inside m+1 times."""
    m, kind = curve.degree, dice.between(0, 2)
    there, inner = [dice.between(1, m + 1), dice.between(1, m + 1)], [dice.between(1, m) for _ in range(dice.between(0, 2))]
    often = [m + 2 if kind == k else there[k] for k in (0, 1)]
    if kind == 2:
        inner.insert(dice.between(0, len(inner)), m + 1)
    times = [*parts_of(dice, m + 1 - there[0], m), often[0], *inner, often[1], *parts_of(dice, m + 1 - there[1], m)]
    axes = [random_coordinates(dice, sum(times) - m - 1, dice.pick((9, FARTHEST))) for _ in range(2)]
    return Curve(m, knots_standing(dice, times, dice.pick((1, 9, 900))), *axes)


OPEN_SPOILERS = {**SPOILERS, 5: spoil_domain, 6: spoil_open_repeats}


def spoiled_open_curve(dice, number, byte=False):
    """An open curve that is refused with this number, often with a later fault as well."""
    while True:
        curve = either_curve(dice)
        later = [other for other in OPEN_SPOILERS if other > number]
        if later and dice.chance(2):
            curve = OPEN_SPOILERS[dice.pick(later)](dice, curve, byte)
        curve = OPEN_SPOILERS[number](dice, curve, byte)
        if check(curve) == number:
            return curve


def refused_open_curves(dice, make, numbers=range(1, 8), byte=False):
    """EACH_REFUSAL cases for each number of the check; make turns a curve into a case."""
    for number in numbers:
        for _ in range(EACH_REFUSAL):
            yield expect(number, make(spoiled_open_curve(dice, number, byte)))
