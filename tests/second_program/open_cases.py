"""Cases of the calls on one curve whose ends are open: what lies outside the domain is no parameter, no place to insert, no inner knot and no span.
open_job_cases.py has those of records and jobs, ends_cases.py those of the calls that make ends full or open."""

from . import vectors
from .clamp_cases import good_rectangle
from .curve import FARTHEST, HIGHEST_KNOT, MOST_POINTS, Curve, domain
from .cutter_cases import answered, expect_listed, some_radius, wide_rectangle
from .expected import EACH_REFUSAL, WIDE, any_room, expect, one_short, room_for, spare_room
from .insert_cases import insert_knot, insertable, not_whole
from .knots import compact, inner_values, polygon_with, remove_knot
from .open_curves import (
    either_curve,
    even_curve,
    even_knots,
    found,
    knots_standing,
    open_curve,
    refused_open_curves,
    scaled,
    with_outside,
)
from .random_curves import random_coordinates, whole_parameter
from .remove_cases import knotted, nearly_removable, removable
from .spans import spans

EACH = 40
OPEN_ROWS = (5, 6)  # the rows of the check that speak of the domain


def standing(dice, m, times):
    """A curve whose knot values stand so often."""
    return Curve(m, knots_standing(dice, times, 9), *[random_coordinates(dice, sum(times) - m - 1, 900) for _ in range(2)])


def repeat_cases(dice):
    """Values that stand as often as they may, and once more: at either end of the domain, wherever it begins among them, and inside. Outside, a value stands at
    most m times, for there are no more knots."""
    for m in (1, 2, 3):
        ones = [1] * m
        for there in range(1, m + 2):
            beyond = [m + 1 - there] * (there <= m)
            for more, number in ((0, 0), (1, 6)):
                yield expect(number, vectors.check(standing(dice, m, [*beyond, m + 1 + more, 1, 1, *ones])))
                yield expect(number, vectors.check(standing(dice, m, [*ones, 1, 1, m + 1 + more, *beyond])))
                yield expect(number, vectors.check(standing(dice, m, [*beyond, there, 1, m + more, there, *beyond])))


def open_check_cases(dice):
    yield from repeat_cases(dice)
    for k in range(EACH):
        yield expect(0, vectors.check(either_curve(dice, 1 + k % 3)))
    for m in (1, 2, 3):
        points = m + 1
        for last, number in ((HIGHEST_KNOT, 0), (HIGHEST_KNOT + 1, 4)):
            ts = list(range(last - 2 * m - 1, last + 1))
            yield expect(number, vectors.check(Curve(m, ts, [0] * points, [FARTHEST] * points)))
    yield expect(0, vectors.check(Curve(3, even_knots(dice, 3, MOST_POINTS), [7] * MOST_POINTS, [-7] * MOST_POINTS)))
    yield from refused_open_curves(dice, vectors.check)


def outside_cases(dice, make):
    """Whole numbers between the knots outside the domain are refused with 8, and so is what lies beyond them."""
    for _ in range(EACH_REFUSAL):
        yield expect(8, make(*with_outside(dice)))
    yield from refused_open_curves(dice, lambda curve: make(curve, dice.pick((0, 1, 16384))), OPEN_ROWS)


def open_point_at_cases(dice):
    for k in range(2 * EACH):
        curve = either_curve(dice, 1 + k % 3)
        yield expect(0, vectors.point_at(curve, whole_parameter(dice, curve)))
    for k in range(EACH // 2):
        curve = either_curve(dice, 1 + k % 3)
        yield from (expect(0, vectors.point_at(curve, t)) for t in domain(curve))
    yield from outside_cases(dice, vectors.point_at)


def open_carrying_cases(dice):
    for k in range(EACH):
        curve = either_curve(dice, 1 + k % 3)
        yield expect(0, vectors.carrying(curve, dice.pick((*domain(curve), whole_parameter(dice, curve))), k % 2))
    yield from outside_cases(dice, lambda curve, t: vectors.carrying(curve, t, dice.between(0, 1)))


def open_insert_cases(dice):
    make = vectors.insert_knot
    for k in range(EACH):
        curve, v = insertable(dice, m=1 + k % 3, make=either_curve)
        yield expect(0, make(curve, v, spare_room(dice, room_for(insert_knot(curve, v, WIDE)[1]))))
    for _ in range(EACH_REFUSAL):
        yield expect(9, make(*with_outside(dice), (40, 40, 40)))
    for k in range(EACH_REFUSAL):
        curve = even_curve(dice, 1 + k % 3, reach=6)
        yield expect(9, make(curve, domain(curve)[k % 2], (40, 40, 40)))
        curve, v = not_whole(dice, either_curve)
        yield expect(11, make(curve, v, any_room(dice, 3)))
        curve, v = insertable(dice, make=either_curve)
        yield expect(15, make(curve, v, one_short(dice, room_for(insert_knot(curve, v, WIDE)[1]))))
    yield from refused_open_curves(dice, lambda curve: make(curve, dice.between(0, 9), any_room(dice, 3)), OPEN_ROWS)


def doubled_end(dice, m):
    """A curve whose left end value stands once more than before inside the domain, put there by the formula of insertion."""

    def tried():
        curve = open_curve(dice, m, m + dice.between(2, 5), dice.pick((1, 2, 3)), 9, left=False)
        low = domain(curve)[0]
        if curve.knots.count(low) > m:
            return None
        made = lambda one: [polygon_with(m, one.knots, axis, low) for axis in (one.xs, one.ys)]
        whole = scaled(dice, curve, made)
        return whole and Curve(m, sorted(curve.knots + [low]), *[[int(c) for c in axis] for axis in made(whole)])

    return found(tried)


def not_inner(dice):
    """A curve and a knot of it that is at an end of its domain or outside."""
    curve = either_curve(dice)
    return curve, dice.pick([t for t in curve.knots if t not in inner_values(curve)])


def open_remove_cases(dice):
    make = vectors.remove_knot
    for k in range(EACH):
        curve, v = removable(dice, m=1 + k % 3, make=either_curve)
        yield expect(0, make(curve, v, spare_room(dice, room_for(remove_knot(curve, v, WIDE)[1]))))
    for k in range(EACH_REFUSAL):
        yield expect(12, make(*not_inner(dice), (40, 40, 40)))
        curve = doubled_end(dice, 1 + k % 3)
        yield expect(12, make(curve, domain(curve)[0], (40, 40, 40)))
        curve, v = nearly_removable(dice, either_curve)
        yield expect(remove_knot(curve, v, WIDE)[0], make(curve, v, (40, 40, 40)))
    yield from refused_open_curves(dice, lambda curve: make(curve, dice.between(0, 9), any_room(dice, 3)), OPEN_ROWS)


def open_compact_cases(dice):
    make = vectors.compact
    for k in range(EACH):
        curve = knotted(dice, 1 + k % 3, either_curve)
        room = room_for(compact(curve, WIDE)[1])
        yield expect(0, make(curve, spare_room(dice, room)))
        if k % 2:
            yield expect(15, make(curve, one_short(dice, room)))
    for k in range(EACH_REFUSAL):
        yield expect(0, make(doubled_end(dice, 1 + k % 3), (40, 40, 40)))
    yield from refused_open_curves(dice, lambda curve: make(curve, any_room(dice, 3)), OPEN_ROWS)


def unmet_outside(dice, m):
    """A curve near the origin with a point far away that carries nothing, since the domain begins, or ends, with an empty span; and a clamp at that point."""
    times = [1] * m + [2] + [1] * dice.between(1, 4) + [1] + [1] * m
    at_left = dice.chance(2)
    curve = standing(dice, m, times if at_left else times[::-1])
    far = [dice.pick((-1, 1)) * dice.between(50000, FARTHEST) for _ in range(2)]
    axes = [[one, *axis[1:]] if at_left else [*axis[:-1], one] for one, axis in zip(far, (curve.xs, curve.ys))]
    return Curve(m, curve.knots, *axes), (far[0], far[0], far[1], far[1])


def open_spans_cases(dice):
    make = vectors.list_spans_met
    for k in range(2 * EACH):
        curve, radius = either_curve(dice, 1 + k % 3), dice.pick((0, 0, some_radius(dice)))
        yield answered(dice, curve, wide_rectangle(dice, curve, radius) if radius else good_rectangle(dice, curve), radius)
    for k in range(EACH):
        curve, clamp = unmet_outside(dice, 1 + k % 3)
        yield expect_listed(False, answered(dice, curve, clamp, some_radius(dice)))
        everywhere = (-FARTHEST, FARTHEST, -FARTHEST, FARTHEST)
        yield expect(0, make(curve, everywhere, 0, (len(spans(curve)),) * 2))
        if k % 2:
            yield expect(15, make(curve, clamp, 0, one_short(dice, [len(spans(curve))] * 2)))
    yield from refused_open_curves(dice, lambda curve: make(curve, (0, 1, 0, 1), 0, any_room(dice, 2)), OPEN_ROWS)
