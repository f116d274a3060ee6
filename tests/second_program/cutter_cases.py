"""Cases of `list_spans_met` with a cutter that is wider than a line: clamps that a span's box just meets when they are widened, or misses by a step, and
radii that are too large."""

from . import vectors
from .clamp_cases import bad_rectangle, good_rectangle, limited
from .curve import FARTHEST, Curve
from .expected import EACH_REFUSAL, Unexpected, any_room, expect, expect_checked, one_short, spare_room
from .fault import PLANTED
from .random_curves import SPOILERS, random_curve, spoiled_curve
from .spans import MOST_RADIUS, box, spans

TOO_LARGE = (MOST_RADIUS + 1, 4098, 8192, 65535, 65536, 65536 + 5, 2**31 - 1, 2**31, 2**32 - 4096, 2**32 - 1)
CORNERS = ((3, 4, 5), (4, 3, 5), (5, 12, 13), (20, 21, 29), (2457, 3276, 4095), (0, 1, 1), (4096, 0, 4096))  # of each a^2 + b^2 is c^2
SIDES = ((0, -1), (0, 1), (1, -1), (1, 1))  # axis and direction
QUADRANTS = ((1, 1), (1, -1), (-1, 1), (-1, -1))


def some_radius(dice):
    return dice.pick((0, 1, 2, 5, MOST_RADIUS - 1, MOST_RADIUS, MOST_RADIUS, dice.between(0, 60), dice.between(0, MOST_RADIUS)))


def extent(curve):
    """The rectangle of all control points."""
    return min(curve.xs), max(curve.xs), min(curve.ys), max(curve.ys)


def answered(dice, curve, rectangle, radius):
    return expect(0, vectors.list_spans_met(curve, rectangle, radius, spare_room(dice, [len(spans(curve))] * 2)))


def expect_listed(listed, case):
    """A case that is made so that some span is listed, or none."""
    if (case.answer[4:8] != bytes(4)) != listed and not PLANTED:
        raise Unexpected("%d spans are listed, and %s was meant" % (case.answer[4], "some" if listed else "none"))
    return case


def beyond(curve, axis, direction, gap, depth):
    """A clamp as long as the whole curve, which lies so many steps away from it beyond one side."""
    sides = list(extent(curve))
    near = sides[2 * axis + (direction > 0)] + direction * gap
    sides[2 * axis : 2 * axis + 2] = sorted((near, near + direction * depth))
    return tuple(sides)


def moved_to(curve, axis, direction, side):
    """The curve moved along an axis so that its extent ends at this side."""
    off = side - extent(curve)[2 * axis + (direction > 0)]
    axes = [curve.xs, curve.ys]
    axes[axis] = [c + off for c in axes[axis]]
    return Curve(curve.degree, curve.knots, *axes)


def side_cases(dice):
    """The widened side of a clamp is a side of a box, or one step off, on each of the four sides; at the end of the range as well, so that it is passed."""
    for axis, direction in SIDES:
        for radius in (1, dice.between(2, MOST_RADIUS - 1), MOST_RADIUS):
            for off in (0, 1):
                curve = random_curve(dice, reach=dice.pick((2, 900, FARTHEST - 9000)))
                clamp = beyond(curve, axis, direction, radius + off, dice.pick((0, 1, 70)))
                yield expect_listed(off == 0, answered(dice, curve, clamp, radius))
                small = random_curve(dice, reach=dice.pick((2, 900, 9000)))
                last = moved_to(small, axis, direction, direction * (FARTHEST - radius - off))
                yield expect_listed(off == 0, answered(dice, last, beyond(last, axis, direction, radius + off, 0), radius))


def cornered(x, y, a, b, quadrant):
    """A clamp whose nearest corner lies a and b steps from a point."""
    across, up = quadrant
    return (*sorted((x + across * a, x + across * (a + 9))), *sorted((y + up * b, y + up * (b + 5))))


def ending_at_corner(dice, quadrant):
    """A curve that ends at the corner of all its boxes that looks into this quadrant, and the point there."""
    curve = random_curve(dice, points=dice.pick((4, 5, 9)), reach=dice.pick((30, 1000, 200000)))
    low_x, high_x, low_y, high_y = extent(curve)
    x, y = high_x if quadrant[0] > 0 else low_x, high_y if quadrant[1] > 0 else low_y
    return Curve(curve.degree, curve.knots, curve.xs[:-1] + [x], curve.ys[:-1] + [y]), x, y


def corner_cases(dice):
    """A curve ends at a distance from a clamp's corner that is exactly the radius, or one step more on either axis; and the radius with which widened clamp
    and box share the corner alone, or miss it."""
    for quadrant in QUADRANTS:
        for a, b, c in CORNERS:
            curve, x, y = ending_at_corner(dice, quadrant)
            yield expect_listed(True, answered(dice, curve, cornered(x, y, a, b, quadrant), c))
        a, b, c = dice.pick(CORNERS[:5])
        clamp = cornered(x, y, a, b, quadrant)
        for more in ((1, 0), (0, 1)):
            yield answered(dice, curve, cornered(x, y, a + more[0], b + more[1], quadrant), c)
        yield expect_listed(True, answered(dice, curve, clamp, max(a, b)))
        yield expect_listed(False, answered(dice, curve, clamp, max(a, b) - 1))
        radius = dice.pick((1, 7, MOST_RADIUS))
        for far, listed in ((0, True), (1, False)):
            clamp = cornered(x, y, radius + far, radius, quadrant)
            yield expect_listed(listed, answered(dice, curve, clamp, radius))


def touching_when_widened(dice, curve, radius):
    """A clamp that shares a side or a corner with a span's box when it is widened, or keeps one step away from it."""
    low_x, high_x, low_y, high_y = box(curve, dice.pick(spans(curve)))
    gap = radius + dice.pick((0, 0, 0, 1))
    width, height = dice.pick((0, 1, 50)), dice.pick((0, 1, 50))
    x = dice.pick((high_x + gap, low_x - gap - width, dice.between(low_x, high_x)))
    y = dice.pick((high_y + gap, low_y - gap - height, dice.between(low_y, high_y)))
    return tuple(limited(side) for side in (x, x + width, y, y + height))


def wide_rectangle(dice, curve, radius):
    return good_rectangle(dice, curve) if dice.chance(3) else touching_when_widened(dice, curve, radius)


def some_cases(dice):
    for k in range(80):
        curve, radius = random_curve(dice, m=1 + k % 3), some_radius(dice)
        yield answered(dice, curve, wide_rectangle(dice, curve, radius), radius)
    for side in (-FARTHEST, FARTHEST):
        curve = random_curve(dice, reach=FARTHEST)
        for clamp in ((side, side, side, side), (side, side, -FARTHEST, FARTHEST), (-FARTHEST, FARTHEST, side, side)):
            yield answered(dice, curve, clamp, MOST_RADIUS)
    yield expect_listed(True, answered(dice, curve, (-FARTHEST, FARTHEST, -FARTHEST, FARTHEST), MOST_RADIUS))


def refused_cases(dice):
    """22, alone and with what is judged behind it; before it 1 to 7; and 14 and 15 with a radius that is taken."""
    make = vectors.list_spans_met
    for radius in 2 * TOO_LARGE:
        curve = random_curve(dice)
        yield expect(22, make(curve, good_rectangle(dice, curve), radius, spare_room(dice, [len(spans(curve))] * 2)))
    for radius in TOO_LARGE:
        curve = random_curve(dice)
        yield expect(22, make(curve, bad_rectangle(dice), radius, any_room(dice, 2)))
        yield expect(22, make(curve, good_rectangle(dice, curve), radius, one_short(dice, [len(spans(curve))] * 2)))
    for number in SPOILERS:
        for radius in (MOST_RADIUS, MOST_RADIUS + 1, dice.pick(TOO_LARGE)):
            rectangle = bad_rectangle(dice) if dice.chance(2) else (0, 1, 0, 1)
            curve = spoiled_curve(dice, number)
            yield expect_checked(curve, make(curve, rectangle, radius, any_room(dice, 2)))
    for _ in range(EACH_REFUSAL // 2):
        curve, radius = random_curve(dice), some_radius(dice)
        yield expect(14, make(curve, bad_rectangle(dice), radius, any_room(dice, 2)))
        yield expect(15, make(curve, wide_rectangle(dice, curve, radius), radius, one_short(dice, [len(spans(curve))] * 2)))


def cutter_cases(dice):
    for cases in (side_cases, corner_cases, some_cases, refused_cases):
        yield from cases(dice)
