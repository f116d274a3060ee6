"""Cases of `join_through_points`, and of them those that `join` is asked too, with room for what the choice itself gives."""

from . import vectors
from .curve import FARTHEST, HIGHEST_KNOT
from .expected import EACH_REFUSAL, SUCCESSES, WIDE, any_room, expect, one_short, room_for, spare_room
from .joining import THREE_TIMES, TWICE, join
from .random_curves import random_coordinates


def number_of(points):
    """What joining answers where there is room, whichever choice is taken."""
    return join(*points, WIDE, TWICE)[0]


def room_of(points, times):
    """What the result of one choice needs."""
    return room_for(join(*points, WIDE, times)[1])


def spline_points(dice, count=None, reach=None, steep=None):
    """Parameters, points and tangents that join to whole control points in range."""
    while True:
        count = count or 1 + dice.pick((1, 1, 2, 3, 5, dice.between(1, 20)))
        params = sorted(set(dice.between(0, dice.pick((40, 900, HIGHEST_KNOT))) for _ in range(count)))
        while len(params) < count:
            params = sorted(set(params + [dice.between(0, HIGHEST_KNOT)]))
        px, py = (random_coordinates(dice, count, reach or dice.pick((9, 1000, FARTHEST // 2))) for _ in range(2))
        widest = max(b - a for a, b in zip(params, params[1:]))
        top = min(FARTHEST, (steep or FARTHEST // 2) // widest + 1)
        tx, ty = ([3 * dice.between(-(top // 3), top // 3) for _ in range(count)] for _ in range(2))
        points = params, px, py, tx, ty
        if steep or number_of(points) == 0:
            return points


def loosen(dice, points):
    """Tangents and parameters that need not be multiples of three, and still give whole control points."""
    params, px, py, tx, ty = points
    if len(params) == 2 and dice.chance(2):
        params = [params[0], params[0] + 3 * dice.between(1, 40)]
        if params[1] <= HIGHEST_KNOT:
            tx, ty = (random_coordinates(dice, 2, 50) for _ in range(2))
            if number_of((params, px, py, tx, ty)) == 0:
                return params, px, py, tx, ty
    return points


def spoil_spline_points(dice, points):
    """Refused with 17, perhaps with later faults as well."""
    lists = [list(one) for one in points]
    params = lists[0]
    kind = dice.between(0, 5)
    if kind == 0:
        lists = [one[:1] for one in lists]
    elif kind == 1:
        lists = [[] for _ in lists]
    elif kind == 2:
        dice.pick(lists).append(HIGHEST_KNOT)
    elif kind == 3:
        dice.pick(lists).pop()
    elif kind == 4:
        k = dice.between(1, len(params) - 1)
        params[k] = dice.pick((params[k - 1], max(0, params[k - 1] - 1)))
    else:
        params[-1] = dice.pick((HIGHEST_KNOT + 1, 65535))
    if lists[3] and dice.chance(3):
        lists[3][0] = FARTHEST + 1
    return lists


def spoil_thirds(dice, points):
    """One product of width and tangent is no multiple of three."""
    while True:
        lists = [list(one) for one in points]
        dice.pick(lists[3:])[dice.between(0, len(points[0]) - 1)] += dice.pick((-2, -1, 1, 2))
        if dice.chance(3):
            lists[1][0] = dice.pick((-FARTHEST, FARTHEST))
        if number_of(lists) == 11:
            return lists
        points = spline_points(dice)


def far_joined(dice):
    while True:
        points = spline_points(dice, reach=FARTHEST, steep=dice.pick((FARTHEST, 2**30, 2**32)))
        if number_of(points) == 18:
            return points


def either_choice_cases(dice, make, times):
    """What both choices are asked."""
    yield expect(0, make([0, 12], [0, 12], [0, 0], [1, 1], [1, -1], (8, 4, 4)))
    yield expect(11, make([0, 4], [0, 12], [0, 0], [1, 1], [1, -1], (8, 4, 4)))
    for _ in range(2 * SUCCESSES):
        points = loosen(dice, spline_points(dice))
        yield expect(0, make(*points, spare_room(dice, room_of(points, times))))
    points = spline_points(dice, count=342)
    yield expect(0, make(*points, room_of(points, times)))
    long = list(range(343))
    yield expect(17, make(long, long, long, [0] * 343, [0] * 343, (3, 2, 1)))
    for _ in range(2 * EACH_REFUSAL):
        yield expect(17, make(*spoil_spline_points(dice, spline_points(dice)), any_room(dice, 3)))
    for _ in range(EACH_REFUSAL):
        lists = [list(one) for one in spline_points(dice)]
        spoiled = dice.pick(lists[1:])
        far = dice.pick((FARTHEST + 1, -FARTHEST - 1, 2**31 - 1, -(2**31)))
        spoiled[dice.between(0, len(spoiled) - 1)] = far
        yield expect(7, make(*lists, any_room(dice, 3)))
    for _ in range(EACH_REFUSAL):
        yield expect(11, make(*spoil_thirds(dice, spline_points(dice)), any_room(dice, 3)))
    for _ in range(EACH_REFUSAL):
        yield expect(18, make(*far_joined(dice), any_room(dice, 3)))
    for _ in range(EACH_REFUSAL):
        points = spline_points(dice)
        yield expect(15, make(*points, one_short(dice, room_of(points, times))))


def join_through_points_cases(dice):
    yield from either_choice_cases(dice, vectors.join_through_points, THREE_TIMES)
