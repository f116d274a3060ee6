"""Cases of `svg`: every degree with inner values that stand as often as they may, curves that are joined or compacted, every refusal, and lists that are just long
enough or one place short. uncut_cases.py has the insertions that fail."""

from . import vectors
from .curve import FARTHEST, MOST_POINTS, Curve
from .cut_curves import first_unwhole, knots_of, scaled_curve, stretched, unwhole_from, whole_curve, whole_on
from .doubled_cases import some_widths, uneven_points
from .expected import EACH_REFUSAL, SUCCESSES, WIDE, WORKED_A, WORKED_B, expect, largest_curve, refused_curves
from .joining import THREE_TIMES, TWICE, join
from .knots import compact
from .path_data import LONGEST
from .remove_cases import SMOOTH, knotted, smooth_joined
from .uncut_cases import length_of, no_matter, uncut_cases, written

DIGITS = [0] + [10**k + off for k in range(1, 6) for off in (-1, 0)] + [FARTHEST - 1, FARTHEST]  # 13: the points of 12, 6 or 4 pieces


def worked_cases(dice):
    for curve in (WORKED_A, WORKED_B):
        for more in (0, 1, 9):
            yield expect(0, vectors.svg(curve, length_of(curve) + more))
        yield expect(15, vectors.svg(curve, length_of(curve) - 1))
    yield expect(11, vectors.svg(WORKED_B._replace(ys=[0, 7, 8, 0]), 40))
    yield expect(11, vectors.svg(WORKED_B._replace(xs=[0, 4, 7, 12]), 40))


def digit_cases(dice):
    """Numbers of every length, with a sign and without."""
    for m in (1, 2, 3):
        for sign in (1, -1):
            xs, ts = [sign * c for c in DIGITS], knots_of(dice, m, [m] * ((len(DIGITS) - 1) // m - 1), 30)
            yield written(dice, Curve(m, ts, xs, [-c for c in xs[::-1]]))


def repeated_cases(dice):
    """All inner values once, twice or three times, and some of each."""
    for m in (1, 2, 3):
        for times in range(1, m + 1):
            for count in (1, 2, 5):
                yield written(dice, whole_on(dice, m, knots_of(dice, m, [times] * count, dice.pick((1, 7, 40)))))
        for order in ((1, m), (m, 1), (1, 2, m, 2, 1), (m, 1, m)):
            yield written(dice, whole_on(dice, m, knots_of(dice, m, [min(m, times) for times in order], 9)))


def whole_cases(dice):
    for k in range(SUCCESSES // 2):
        yield written(dice, whole_curve(dice, 1 + k % 3))
    for k in range(SUCCESSES // 4):
        yield written(dice, scaled_curve(dice, 2 + k % 2))


def far_and_wide(dice, m, count):
    """Even spans, as wide as they can be, and points near the edge of the range, all 12 times a number, which makes every insertion whole."""
    ts = knots_of(dice, m, [1] * count, 1)
    far = lambda: [12 * dice.pick((-1, 1)) * (FARTHEST // 12 - dice.between(0, 2)) for _ in range(len(ts) - m - 1)]
    return stretched(Curve(m, ts, far(), far()))


def wide_cases(dice):
    """A difference of knots times a coordinate needs more than 32 bits; and the same with one coordinate moved, so that something is not whole."""
    for m in (2, 3):
        for count in (1, 2, 3, 6):
            curve = far_and_wide(dice, m, count)
            yield written(dice, curve)
            yield expect(11, vectors.svg(unwhole_from(dice, curve, dice.between(0, count - 1) * (m - 1)), no_matter(dice)))


def joined_cases(dice):
    """Joined curves whose inner knots stand twice or three times, compacted ones, and curves with some knots inserted, of which not all can be cut."""
    for k in range(12):
        points = uneven_points(dice, some_widths(dice))
        yield written(dice, join(*points, WIDE, (TWICE, THREE_TIMES)[k % 2])[1])
    for bends in SMOOTH:
        yield written(dice, smooth_joined(bends))
        yield written(dice, compact(smooth_joined(bends), WIDE)[1])
    for k in range(12):
        curve = knotted(dice, 2 + k % 2)
        yield expect(0 if first_unwhole(curve) is None else 11, vectors.svg(curve, 900))


def longest_cases(dice):
    """The longest text there is, and another of 1,024 points of degree 1, which need no insertion."""
    far = [-FARTHEST] * MOST_POINTS
    for room, number in ((LONGEST, 0), (LONGEST - 1, 15), (LONGEST + 5, 0)):
        yield expect(number, vectors.svg(Curve(1, [0, *range(MOST_POINTS), MOST_POINTS - 1], far, far), room))
    yield written(dice, largest_curve(dice, 1))


def short_cases(dice):
    """A list that is one place short, or any shorter, or has no place; of every fourth curve also one that is just long enough."""
    for k in range(EACH_REFUSAL + 3):
        curve = whole_curve(dice, 1 + k % 3)
        length = length_of(curve)
        yield expect(15, vectors.svg(curve, (length - 1, dice.between(0, length - 1), 0)[k // 3 % 3]))
        if k % 4 == 0:
            yield expect(0, vectors.svg(curve, length))


def svg_cases(dice):
    for cases in (worked_cases, digit_cases, repeated_cases, whole_cases, wide_cases, joined_cases, longest_cases, uncut_cases, short_cases):
        yield from cases(dice)
    yield from refused_curves(dice, lambda curve: vectors.svg(curve, no_matter(dice)))
