"""Cases of `svg` where an insertion fails: curves that are full before the last, and coordinates that are not whole, each alone and both together in either
order; beside them curves that just have room for every insertion. svg_cases.py has all other cases."""

from . import vectors
from .curve import FARTHEST, Curve, check
from .cut_curves import first_unwhole, free_places, large_curve, moved, unwhole_from, whole_curve
from .expected import any_room, expect, largest_curve
from .knots import inner_values
from .path_data import LONGEST, svg
from .pieces import missing_knots
from .random_curves import random_curve

# Degree, inner values and points: of curves that have at most 1,024 points when they are cut, and of curves that get more.
JUST_ENOUGH = ((3, 340, 344), (3, 340, 1020), (3, 340, 1023), (3, 340, 1024), (2, 510, 980), (2, 510, 1022), (2, 510, 1023))
TOO_MANY = (
    (3, 341, 345),
    (3, 341, 960),
    (3, 341, 1020),
    (3, 341, 1023),
    (3, 341, 1024),
    (3, 380, 1021),
    (3, 1020, 1024),
    (2, 511, 514),
    (2, 511, 1000),
    (2, 511, 1023),
    (2, 511, 1024),
    (2, 1021, 1024),
)


def length_of(curve):
    return len(svg(curve, LONGEST)[1])


def written(dice, curve):
    """A case with a list that is just long enough, or longer."""
    return expect(0, vectors.svg(curve, length_of(curve) + dice.pick((0, 0, 1, 2, 30))))


def no_matter(dice):
    """A list of any length, where a call is refused for something else."""
    return dice.pick((*any_room(dice, 1), dice.between(0, 200)))


def full_cases(dice):
    """Every insertion would be whole."""
    for m, values, points in JUST_ENOUGH:
        yield written(dice, large_curve(dice, m, values, points))
    for m, values, points in TOO_MANY:
        yield expect(10, vectors.svg(large_curve(dice, m, values, points), no_matter(dice)))


def full_first_cases(dice):
    """The curve is full at the insertion that would not be whole, or before it, or from the start."""
    for m, values, points in ((3, 341, 1020), (3, 345, 1023), (3, 341, 1024), (2, 511, 1023), (2, 520, 1024)):
        curve = large_curve(dice, m, values, points)
        yield expect(10, vectors.svg(unwhole_from(dice, curve, free_places(curve)), no_matter(dice)))
    for m, values, points in ((3, 341, 1021), (3, 350, 1023), (2, 520, 1022)):
        curve = large_curve(dice, m, values, points)
        yield expect(10, vectors.svg(unwhole_from(dice, curve, len(missing_knots(curve)) - 2), no_matter(dice)))
    for m in (2, 3, 3, 2):
        yield expect(10, vectors.svg(largest_curve(dice, m), no_matter(dice)))


def unwhole_first_cases(dice):
    """The curve would get full, but the last insertion that it has room for, or the very first, is not whole."""
    for m, values, points in ((3, 341, 1019), (3, 344, 1023), (2, 511, 1023), (2, 540, 1000)):
        curve = large_curve(dice, m, values, points)
        yield expect(11, vectors.svg(unwhole_from(dice, curve, free_places(curve) - 1), no_matter(dice)))
    for m, values, points in ((3, 341, 345), (2, 511, 514)):
        yield expect(11, vectors.svg(unwhole_from(dice, large_curve(dice, m, values, points), 0), no_matter(dice)))


def is_unwhole(curve):
    return first_unwhole(curve) is not None


def unwhole_x(curve):
    """Whether x alone is not whole somewhere."""
    return is_unwhole(curve._replace(ys=curve.xs)) and not is_unwhole(curve._replace(xs=curve.ys))


def unwhole_y(curve):
    return unwhole_x(curve._replace(xs=curve.ys, ys=curve.xs))


def unwhole_last(curve):
    """Whether the last of several inner values is the only one that is not whole."""
    k = first_unwhole(curve)
    return k is not None and len(inner_values(curve)) > 2 and missing_knots(curve)[k] == inner_values(curve)[-1]


def unwhole_again(curve):
    """Whether the first insertion that is not whole is the second one of its value."""
    k, values = first_unwhole(curve), missing_knots(curve)
    return bool(k) and values[k] == values[k - 1]


def nearly_whole(dice):
    return moved(dice, whole_curve(dice, dice.between(2, 3)))


def whole_at_first(dice):
    """A cubic for which the first knot more of a single value is whole."""
    return whole_curve(dice, 3, rows=1)


def below_zero(dice):
    """A curve with all its points below zero on both axes."""
    m, ts, xs, ys = random_curve(dice, m=dice.between(2, 3), points=dice.between(5, 9), reach=dice.pick((3, 900, FARTHEST - 1)))
    return Curve(m, ts, *[[-abs(c) - 1 for c in axis] for axis in (xs, ys)])


def far_out(dice):
    return random_curve(dice, m=dice.between(2, 3), reach=FARTHEST)


def found(dice, make, holds):
    """A curve of a kind for which something holds."""
    while True:
        curve = make(dice)
        if check(curve) == 0 and holds(curve):
            return curve


def unwhole_cases(dice):
    """Curves with room for all insertions."""
    kinds = ((5, nearly_whole, unwhole_x), (5, nearly_whole, unwhole_y), (5, nearly_whole, unwhole_last))
    kinds += ((6, whole_at_first, unwhole_again), (5, below_zero, is_unwhole), (9, far_out, is_unwhole))
    for count, make, holds in kinds:
        for _ in range(count):
            yield expect(11, vectors.svg(found(dice, make, holds), no_matter(dice)))


def uncut_cases(dice):
    for cases in (full_cases, full_first_cases, unwhole_first_cases, unwhole_cases):
        yield from cases(dice)
