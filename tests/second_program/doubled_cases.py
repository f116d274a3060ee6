"""Cases of `join`: those of either choice, and more of several uneven pieces: room that does for it and not for knots that stand three times, and
spline points of which a single control point decides, wherever it stands, or a point where two pieces meet, which is judged and then drops out."""

from . import vectors
from .curve import FARTHEST, HIGHEST_KNOT
from .expected import any_room, each_one_short, expect, spare_room
from .join_cases import either_choice_cases, room_of
from .joining import MOST_SPLINE_POINTS, THREE_TIMES, TWICE
from .random_curves import random_coordinates

EACH = 40
MOST_ROOM = (688, 684, 684)  # of 342 spline points, which have 341 pieces


def widths_of(dice, pieces):
    top = dice.pick((6, 40, 40 if pieces > 99 else 900))
    return [dice.between(1, top) for _ in range(pieces)]


def some_widths(dice):
    return widths_of(dice, dice.between(2, 12))


def uneven_tangents(dice, widths):
    """A tangent is a multiple of three where a width beside it is none, so that every control point is whole."""
    whole = [all(w % 3 == 0 for w in widths[max(0, k - 1) : k + 1]) for k in range(len(widths) + 1)]
    return [dice.between(-25, 25) * (1 if free else 3) for free in whole]


def uneven_points(dice, widths):
    """Spline points that join, with pieces of these widths; the parameters begin anywhere but at 0."""
    params = [dice.pick((1, HIGHEST_KNOT - sum(widths), dice.between(1, HIGHEST_KNOT - sum(widths))))]
    for width in widths:
        params.append(params[-1] + width)
    reach = dice.pick((9, 1000, FARTHEST // 2))
    px, py = (random_coordinates(dice, len(params), reach) for _ in range(2))
    return params, px, py, uneven_tangents(dice, widths), uneven_tangents(dice, widths)


def axis_of(dice, points):
    """The coordinates and the tangents of one axis."""
    _, px, py, tx, ty = points
    return dice.pick(((px, tx), (py, ty)))


def room_between(dice, points):
    """Enough for knots that stand twice, and in no list for three times."""
    return tuple(dice.between(two, three - 1) for two, three in zip(room_of(points, TWICE), room_of(points, THREE_TIMES)))


def each_just_enough(points):
    """By turns one list just long enough, and the others long enough for knots that stand three times too."""
    two, three = room_of(points, TWICE), room_of(points, THREE_TIMES)
    return [three[:k] + two[k : k + 1] + three[k + 1 :] for k in range(len(two))]


def one_unwhole(dice, widths, piece, inner):
    """Of all control points a single coordinate is not whole: that of the first or the second inner point of this piece. The tangent that it takes
    belongs to the neighbour too, whose width is therefore a multiple of three."""
    widths = list(widths)
    widths[piece] += widths[piece] % 3 == 0
    beside = piece - 1 if inner == 1 else piece + 1
    if 0 <= beside < len(widths):
        widths[beside] = 3 * (1 + widths[beside] // 3)
    points = uneven_points(dice, widths)
    axis_of(dice, points)[1][piece + inner - 1] += dice.pick((-1, 1))
    return points


def one_at_the_edge(dice, widths, piece, inner, past):
    """A single coordinate reaches the edge of the range, or one step past it: that of the first or the second inner point of this piece."""
    points = uneven_points(dice, widths)
    coordinates, tangents = axis_of(dice, points)
    side, steep, k = dice.pick((-1, 1)), dice.between(1, 9), piece + inner - 1
    coordinates[k] = side * (FARTHEST - widths[piece] * steep + past)
    tangents[k] = 3 * steep * (side if inner == 1 else -side)
    return points


def unwhole_and_far(dice, widths):
    """One coordinate is not whole, and another is past the range: at the start of the curve, or at its end where the start's tangent is the spoiled one."""
    piece, inner = dice.between(0, len(widths) - 1), dice.pick((1, 2))
    points = one_unwhole(dice, widths, piece, inner)
    coordinates, tangents = axis_of(dice, points)
    side, k = dice.pick((-1, 1)), 0 if piece + inner > 1 else -1
    coordinates[k] = side * FARTHEST
    tangents[k] = 3 * (side if k == 0 else -side)
    return points


def meeting_at_the_edge(dice, widths, past):
    """Two pieces meet at the edge of the range, or one step past it."""
    points = uneven_points(dice, widths)
    coordinates, tangents = axis_of(dice, points)
    k = dice.between(1, len(widths) - 1)
    coordinates[k] = dice.pick((-1, 1)) * (FARTHEST + past)
    tangents[k] = 0
    return points


def deciding_places(dice, widths):
    """The inner points of the first piece, of the last, and of one between."""
    return [(piece, inner) for piece in (0, dice.between(0, len(widths) - 1), len(widths) - 1) for inner in (1, 2)]


def room_cases(dice):
    make = vectors.join
    for _ in range(EACH):
        points = uneven_points(dice, some_widths(dice))
        yield expect(0, make(*points, spare_room(dice, room_of(points, TWICE))))
    for _ in range(EACH):
        points = uneven_points(dice, some_widths(dice))
        yield expect(0, make(*points, room_between(dice, points)))
    for _ in range(EACH // 5):
        points = uneven_points(dice, some_widths(dice))
        for k, room in enumerate(each_just_enough(points)):
            yield expect(0, make(*points, room))
            yield expect(15, make(*points, each_one_short(room)[k]))


def deciding_cases(dice):
    make = vectors.join
    for _ in range(EACH // 8):
        widths = some_widths(dice)
        for piece, inner in deciding_places(dice, widths):
            yield expect(11, make(*one_unwhole(dice, widths, piece, inner), any_room(dice, 3)))
            yield expect(18, make(*one_at_the_edge(dice, widths, piece, inner, 1), any_room(dice, 3)))
            points = one_at_the_edge(dice, widths, piece, inner, 0)
            yield expect(0, make(*points, room_of(points, TWICE)))
        for _ in range(4):
            yield expect(11, make(*unwhole_and_far(dice, widths), any_room(dice, 3)))
        yield expect(7, make(*meeting_at_the_edge(dice, widths, 1), any_room(dice, 3)))
        points = meeting_at_the_edge(dice, widths, 0)
        yield expect(0, make(*points, room_of(points, TWICE)))


def limit_cases(dice):
    """Two spline points and 342, with room that is just enough or one place short, the last piece of the longest, and one spline point more."""
    make = vectors.join
    for pieces, room in ((1, (8, 4, 4)), (MOST_SPLINE_POINTS - 1, MOST_ROOM)):
        points = uneven_points(dice, widths_of(dice, pieces))
        yield expect(0, make(*points, room))
        for short in each_one_short(room):
            yield expect(15, make(*points, short))
    widths = widths_of(dice, MOST_SPLINE_POINTS - 1)
    yield expect(11, make(*one_unwhole(dice, widths, len(widths) - 1, 2), MOST_ROOM))
    yield expect(18, make(*one_at_the_edge(dice, widths, len(widths) - 1, 2, 1), MOST_ROOM))
    yield expect(17, make(*uneven_points(dice, widths_of(dice, MOST_SPLINE_POINTS)), tuple(have + 2 for have in MOST_ROOM)))


def join_cases(dice):
    yield from either_choice_cases(dice, vectors.join, TWICE)
    yield from room_cases(dice)
    yield from deciding_cases(dice)
    yield from limit_cases(dice)
