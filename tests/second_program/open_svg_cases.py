"""Cases of `svg` with curves whose ends are open: they are made full in a copy, with 11 where a point of it is not whole, and then cut."""

from . import vectors
from .curve import HIGHEST_KNOT, MOST_POINTS, Curve
from .cut_curves import fractions_cut
from .ends import clamped_axes, clamped_knots
from .ends_cases import full_of_points, one_coordinate_off, refused_by
from .expected import EACH_REFUSAL, expect
from .open_curves import even_curve, found, open_curve, refused_open_curves, scaled
from .path_data import LONGEST, svg
from .uncut_cases import no_matter, written

EACH = 40


def cut_axes(curve):
    """Of both axes the points of the curve with full ends and those of its pieces, as fractions."""
    us = clamped_knots(curve)
    return [[*axis, *[axis, *fractions_cut(curve.degree, us, axis)][-1]] for axis in clamped_axes(curve)]


def some_curve(dice, m):
    points = m + dice.between(1, 5)
    return even_curve(dice, m, points, 20) if dice.chance(2) else open_curve(dice, m, points, dice.pick((1, 2, 3)), 20)


def cuttable(dice, m):
    return found(lambda: scaled(dice, some_curve(dice, m), cut_axes))


def number_of(curve, room):
    return svg(curve, LONGEST)[0], None


def fewer_when_full(dice):
    """A cubic of 1,024 points which loses six when its ends are made full, those that carry nothing, and then has room for three cuts."""
    inner = [3] * 337
    for often in (1, 2):
        inner.insert(dice.between(0, len(inner)), often)
    times = [1, 1, 1, 4, *inner, 4, 1, 1, 1]
    step = dice.between(1, HIGHEST_KNOT // len(times))
    axis = lambda: [12 * dice.between(-8, 8) for _ in range(MOST_POINTS)]
    return Curve(3, [step * k for k, often in enumerate(times) for _ in range(often)], axis(), axis())


def large_cases(dice):
    """A curve of 1,024 points has no room for a cut, but where its ends are not whole when they are made full, that is told; and one gets smaller first."""
    for m in (2, 3):
        curve = full_of_points(dice, m)
        yield expect(10, vectors.svg(curve, no_matter(dice)))
        yield expect(11, vectors.svg(curve._replace(xs=[curve.xs[0] + 1, *curve.xs[1:]]), no_matter(dice)))
    yield written(dice, fewer_when_full(dice))


def open_svg_cases(dice):
    for k in range(EACH):
        curve = cuttable(dice, 1 + k % 3)
        yield written(dice, curve)
        if k % 2:
            yield expect(15, vectors.svg(curve, len(svg(curve, LONGEST)[1]) - 1))
    for k in range(EACH_REFUSAL):
        yield expect(11, vectors.svg(refused_by(dice, 11, number_of, lambda: one_coordinate_off(dice, cuttable(dice, 2 + k % 2))), no_matter(dice)))
    yield from large_cases(dice)
    yield from refused_open_curves(dice, lambda curve: vectors.svg(curve, no_matter(dice)), (5, 6))
