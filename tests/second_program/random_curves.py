"""Random curves with full ends that pass the check, and the same curves spoiled so that one row of the table refuses them, or so that their ends are not full.
open_curves.py has those whose ends are open."""

from .curve import FARTHEST, HIGHEST_KNOT, Curve, check, domain, full_ends

U32_TOP = 2**32 - 1


def knots_standing(dice, times, gap):
    """Knots that begin anywhere: as many values as are told, each so often, neighbours at most gap apart."""
    gap = min(gap, HIGHEST_KNOT // (len(times) - 1))
    values = [0]
    for _ in times[1:]:
        values.append(values[-1] + dice.between(1, gap))
    slack = HIGHEST_KNOT - values[-1]
    start = dice.pick((0, slack, dice.between(0, slack)))
    return [start + value for value, count in zip(values, times) for _ in range(count)]


def random_knots(dice, m, points, gap):
    """Knots with full ends; inner values stand one to m times, neighbours at most gap apart."""
    inner, times = points - m - 1, []
    while inner:
        times.append(min(inner, dice.pick((1, 1, 2, 3, m)), m))
        inner -= times[-1]
    return knots_standing(dice, [m + 1, *times, m + 1], gap)


def random_coordinates(dice, count, reach):
    """Coordinates from -reach to reach, both ends of it more often than by chance."""
    return [dice.pick((-reach, reach)) if dice.chance(9) else dice.between(-reach, reach) for _ in range(count)]


def random_curve(dice, m=None, points=None, gap=None, reach=None):
    m = m or dice.between(1, 3)
    points = points or m + dice.pick((1, 2, 3, 5, 8, dice.between(1, 250 if dice.chance(9) else 24)))
    gap = gap or dice.pick((1, 2, 4, 40, 900, 16383))
    reach = reach or dice.pick((2, 30, 1000, FARTHEST, FARTHEST))
    ts = random_knots(dice, m, points, gap)
    return Curve(m, ts, *[random_coordinates(dice, points, reach) for _ in range(2)])


def whole_parameter(dice, curve):
    """An end, a knot or another whole number of the domain."""
    low, high = domain(curve)
    inside = [t for t in curve.knots if low <= t <= high]
    return dice.pick((low, high, dice.pick(inside), dice.between(low, high), dice.between(low, high)))


def outside_parameter(dice, curve):
    low, high = domain(curve)
    return dice.pick(([low - 1] if low else []) + [high + 1, high + dice.between(1, 9999), 65536 + low, U32_TOP])


def spoil_degree(dice, curve, byte):
    wrong = (0, 4, 5, 255, 129) if byte else (0, 4, 5, 255, 256 + curve.degree, U32_TOP)
    return curve._replace(degree=dice.pick(wrong))


def spoil_number_of_points(dice, curve, byte):
    m, ts, xs, ys = curve
    kind = dice.between(0, 4)
    if kind == 0:
        return Curve(m, ts, xs, ys[:-1])
    if kind == 1:
        return Curve(m, ts, xs + [0], ys)
    if kind == 2:
        return Curve(m, ts[: m + 1] + ts[-m:], xs[:m], ys[:m])
    if kind == 3:
        return Curve(m, ts[: m + 1], [], [])
    return Curve(m, ts, [], ys)


def spoil_number_of_knots(dice, curve, byte):
    ts = curve.knots
    return curve._replace(knots=dice.pick((ts[:-1], ts + ts[-1:], [], ts[1:], ts[: curve.degree], ts + [1, 2, 3])))


def spoil_order(dice, curve, byte):
    ts = list(curve.knots)
    rises = [k for k in range(len(ts) - 1) if ts[k] < ts[k + 1]]
    kind = dice.between(0, 3)
    if kind == 0 and rises:
        k = dice.pick(rises)
        ts[k], ts[k + 1] = ts[k + 1], ts[k]
    elif kind == 1 and rises:
        ts[-1] = ts[rises[-1]]
    elif kind == 2:
        ts[-curve.degree - 1 :] = [HIGHEST_KNOT + 1] * (curve.degree + 1)
    else:
        ts[dice.between(0, len(ts) - 1)] = dice.pick((HIGHEST_KNOT + 1, 65535))
    return curve._replace(knots=ts)


def spoil_ends(dice, curve, byte):
    m, ts = curve.degree, list(curve.knots)
    kind = dice.between(0, 3)
    if kind == 0 and ts[0] > 0:
        ts[0] -= 1
    elif kind == 1 and ts[-1] < HIGHEST_KNOT:
        ts[-1] += 1
    elif kind == 2 and ts[m] < ts[m + 1]:
        ts[m] += 1
    else:
        ts = [ts[0]] * len(ts)
    return curve._replace(knots=ts)


def spoil_repeats(dice, curve, byte):
    """An end value or an inner one stands once too often; the curve gets 2m + 4 points for that."""
    m = curve.degree
    ends, inner = [m + 1, m + 1], [1] * (m + 2)
    kind = dice.between(0, 2)
    if kind < 2:
        ends[kind] += 1
    else:
        inner = dice.pick(([m + 1, 1, 1], [1, m + 1, 1], [1, 1, m + 1]))
    ts, value = [], dice.pick((0, 5, 16000))
    for times in ends[:1] + inner + ends[1:]:
        ts += [value] * times
        value += dice.between(1, 30)
    again = lambda axis: [axis[k % len(axis)] for k in range(2 * m + 4)]
    return Curve(m, ts, again(curve.xs), again(curve.ys))


def spoil_range(dice, curve, byte):
    axes = [list(curve.xs), list(curve.ys)]
    axis = dice.pick(axes)
    far = dice.pick((FARTHEST + 1, -FARTHEST - 1, 2**31 - 1, -(2**31), dice.between(FARTHEST + 1, 2**31 - 1)))
    axis[dice.pick((0, len(axis) - 1, dice.between(0, len(axis) - 1)))] = far
    return Curve(curve.degree, curve.knots, *axes)


SPOILERS = {
    1: spoil_degree,
    2: spoil_number_of_points,
    3: spoil_number_of_knots,
    4: spoil_order,
    5: spoil_ends,
    6: spoil_repeats,
    7: spoil_range,
}


def row_with_full_ends(curve):
    """The number that a curve is refused with where 5 asks for full ends as well."""
    number = check(curve)
    return number if number in (1, 2, 3, 4) or full_ends(curve) else 5


def spoiled_curve(dice, number, byte=False):
    """A curve that is refused with this number, or for 5 has ends that are not full; often with a later fault as well. Byte where the degree has one."""
    while True:
        curve = random_curve(dice)
        later = [other for other in SPOILERS if other > number]
        if later and dice.chance(2):
            curve = SPOILERS[dice.pick(later)](dice, curve, byte)
        curve = SPOILERS[number](dice, curve, byte)
        if row_with_full_ends(curve) == number:
            return curve
