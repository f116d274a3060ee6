"""Cases of `check`, `point_at` and `carrying`."""

from . import vectors
from .curve import domain
from .expected import (
    EACH_REFUSAL,
    SUCCESSES,
    WORKED_A,
    WORKED_B,
    expect,
    largest_curve,
    refused_curves,
    too_many_points,
)
from .random_curves import U32_TOP, outside_parameter, random_curve, whole_parameter


def check_cases(dice):
    yield from (expect(0, vectors.check(curve)) for curve in (WORKED_A, WORKED_B))
    yield from (expect(0, vectors.check(random_curve(dice))) for _ in range(SUCCESSES))
    yield from (expect(0, vectors.check(largest_curve(dice, m))) for m in (1, 3))
    yield expect(2, vectors.check(too_many_points(dice, 3)))
    yield from refused_curves(dice, vectors.check)


def parameter_cases(dice, make):
    """The refusals 1 to 8 of a call that takes a curve and a parameter."""
    yield from refused_curves(dice, lambda curve: make(curve, dice.pick((0, 1, 16384, U32_TOP))))
    for _ in range(EACH_REFUSAL):
        curve = random_curve(dice)
        yield expect(8, make(curve, outside_parameter(dice, curve)))


def point_at_cases(dice):
    for t in (0, 1, 2, 4):
        yield expect(0, vectors.point_at(WORKED_A, t))
    for t in (0, 1, 2, 3, 4):
        yield expect(0, vectors.point_at(WORKED_B, t))
    for k in range(3 * SUCCESSES):
        curve = random_curve(dice, m=1 + k % 3)
        yield expect(0, vectors.point_at(curve, whole_parameter(dice, curve)))
    curve = largest_curve(dice, 3)
    yield expect(0, vectors.point_at(curve, domain(curve)[1]))
    yield expect(2, vectors.point_at(too_many_points(dice, 2), 5))
    yield from parameter_cases(dice, vectors.point_at)


def carrying_cases(dice):
    for k in range(2 * SUCCESSES):
        curve = random_curve(dice, m=1 + k % 3)
        yield expect(0, vectors.carrying(curve, whole_parameter(dice, curve), k % 2))
    curve = largest_curve(dice, 2)
    yield expect(0, vectors.carrying(curve, domain(curve)[1], 1))
    yield from parameter_cases(dice, lambda curve, t: vectors.carrying(curve, t, dice.between(0, 1)))
