"""The scope, "Joining spline points": from parameters, points and tangents to a cubic curve of Bezier pieces.

Where two pieces meet, their parameter stands twice among the knots, and the point where they meet drops out of the polygon; or it stands three times,
and the point stays. Whichever is chosen, all four points of each piece are judged."""

from fractions import Fraction

from .curve import HIGHEST_KNOT, Curve, within
from .fault import planted
from .knots import refused_room

MOST_SPLINE_POINTS = 342
TWICE, THREE_TIMES = 2, 3  # how often a parameter stands where two pieces meet
CALLED = {TWICE: "join", THREE_TIMES: "join_through_points"}


def spoiled(times, fault):
    """Whether this fault is planted in the call of this choice, and not in the other one."""
    return planted("%s:%s" % (CALLED[times], fault))


def pieces_of(params, points, tangents):
    """The four points of each piece on one axis, as fractions."""
    pieces = []
    for i in range(len(params) - 1):
        h = params[i + 1] - params[i]
        first = points[i] + Fraction(h * tangents[i], 3)
        second = points[i + 1] - Fraction(h * tangents[i + 1], 3)
        pieces.append([Fraction(points[i]), first, second, Fraction(points[i + 1])])
    return pieces


def remainders_dropped(pieces):
    """Plays a part in a planted fault alone."""
    return [[Fraction(int(c)) for c in piece] for piece in pieces]


def refused_points(params, lists):
    """17, then 7; 0 for neither."""
    if not 2 <= len(params) <= MOST_SPLINE_POINTS or any(len(one) != len(params) for one in lists):
        return 17
    if any(b <= a for a, b in zip(params, params[1:])) or params[-1] > HIGHEST_KNOT:
        return 17
    return 0 if all(within(entry) for one in lists for entry in one) else 7


def refused_pieces(axes, order=(11, 18)):
    """11, then 18, over all four points of each piece on both axes; 0 for neither."""
    coordinates = [c for pieces in axes for piece in pieces for c in piece]
    found = {11: any(c.denominator != 1 for c in coordinates), 18: not all(within(c) for c in coordinates)}
    return next((number for number in order if found[number]), 0)


def polygon(pieces, often):
    """The points of one axis; often tells of each place where two pieces meet how many times its parameter stands. A piece brings two inner points, and
    as the third the one where it meets the next."""
    front = [c for piece, times in zip(pieces, often) for c in piece[1 : times + 1]]
    return [int(c) for c in pieces[0][:1] + front + pieces[-1][1:]]


def joined(params, axes, times):
    """The curve of the pieces: end values four times, the parameters between as often as is chosen."""
    often = [times] * (len(params) - 2)
    if spoiled(times, "last_piece") and often:
        often[-1] = THREE_TIMES
    inner = [s for s, count in zip(params[1:-1], often) for _ in range(count)]
    kept = [THREE_TIMES] * len(often) if spoiled(times, "keeps_meeting") else often
    return Curve(3, params[:1] * 4 + inner + params[-1:] * 4, *[polygon(pieces, kept) for pieces in axes])


def join(params, px, py, tx, ty, room, times):
    """Number and the curve; judged 17, 7, 11, 18, 15."""
    number = refused_points(params, (px, py, tx, ty))
    if number:
        return number, None
    axes = [pieces_of(params, px, tx), pieces_of(params, py, ty)]
    if planted(CALLED[times]):
        axes = [remainders_dropped(pieces) for pieces in axes]
    judged = [pieces[:-1] for pieces in axes] if spoiled(times, "last_unjudged") else axes
    number = refused_pieces(judged, (18, 11) if spoiled(times, "range_first") else (11, 18))
    if number:
        return number, None
    new = joined(params, axes, times)
    needed = joined(params, axes, THREE_TIMES) if spoiled(times, "room_of_three") else new
    return refused_room(needed, room), new
