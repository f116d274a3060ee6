"""How a case and its answer stand in the files; all numbers low byte first.

A case is its length in 4 bytes and a body: the call's number in 1 byte, then the arguments. A list is its count in 4 bytes
and its entries (u8, u16 or i32); degree, t, v, a radius, a capacity and an axis (0 is x) are u32, a rectangle is four i32. The curve
comes first, what the call names beside it next, capacities last.
A lent result list is given by its capacity alone: before the call entry k of it holds 7k + 13 (u16), 9k - 5 (i32) or
(5k + 3) mod 256 (u8), and the number lent to `carrying` holds 77.

An answer is the refusal number in 4 bytes, 0 for none. After a success the answer's values follow: floats by their 8 bytes,
the number of points, spans or bytes as u32, of `compact` the number removed, of a reader the degree and the counts, a job's
radius between that of the points and that of the clamps. Behind a reader's 16, 19, 20 or 21, and behind no other number,
stands the place as u32. Then comes every lent result list whole, as it stands after the call. `carrying` has the lent number,
then the count and the entries of the part. The text of `clampcheck` stands behind its number with a byte 0 after it.

A case of `feed` is several calls: fed_vectors.py tells how it stands.
"""

import struct
from typing import NamedTuple, Optional, Sequence

from . import curve as curves
from . import ends, joining, knots, path_data, record, spans
from .fault import answering, must_be_of

CALLS = (
    "check",
    "point_at",
    "carrying",
    "insert_knot",
    "remove_knot",
    "compact",
    "join_through_points",
    "list_spans_met",
    "write_record",
    "read_record",
    "read_job",
    "clampcheck_text",
    "feed",
    "join",
    "svg",
    "clamp_ends",
    "unclamp_right",
)
must_be_of(CALLS)
FORMATS = {"u8": "B", "u16": "H", "i32": "i"}


class Case(NamedTuple):
    call: str
    number: int
    body: bytes
    answer: bytes
    points: int  # the longest list of points that was handed over
    curve: Optional[curves.Curve] = None  # what was accepted, with the parameters and rectangles that were asked
    asked: Sequence = ()
    clamps: Sequence = ()
    radius: int = 0
    place: Optional[int] = None  # where the bytes break, if they do
    numbers: Sequence = ()  # what each of its calls answers; all but `feed` have one
    made: Optional[curves.Curve] = None  # of an accepted curve another one that is to be the same exactly


def u32(*numbers):
    return struct.pack("<%dI" % len(numbers), *numbers)


def entries(kind, numbers):
    return struct.pack("<%d%s" % (len(numbers), FORMATS[kind]), *numbers)


def lent_list(kind, numbers):
    return u32(len(numbers)) + entries(kind, numbers)


def curve_bytes(curve):
    m, ts, xs, ys = curve
    return u32(m) + lent_list("u16", ts) + lent_list("i32", xs) + lent_list("i32", ys)


def before(kind, k):
    """What entry k of a lent result list holds before the call."""
    return {"u8": (5 * k + 3) % 256, "u16": 7 * k + 13, "i32": 9 * k - 5}[kind]


def after(kind, room, result):
    """A lent result list after the call; the result is empty where the call was refused."""
    return entries(kind, list(result) + [before(kind, k) for k in range(len(result), room)])


def case(call, number, arguments, answer, points, curve=None, asked=(), clamps=(), radius=0, place=None, made=None):
    body = bytes([CALLS.index(call) + 1]) + arguments
    return Case(call, number, body, u32(number) + answer, points, None if number else curve, asked, clamps, radius, place, (number,), made)


def size(curve):
    return max(len(curve.xs), len(curve.ys))


def lists_after(number, curve, room):
    """The three lent lists of a curve's result."""
    result = curve if number == 0 else curves.Curve(0, [], [], [])
    return (
        after("u16", room[0], result.knots) + after("i32", room[1], result.xs) + after("i32", room[2], result.ys)
    )


@answering
def check(curve):
    return case("check", curves.check(curve), curve_bytes(curve), b"", size(curve), curve)


@answering
def point_at(curve, t):
    number, x, y = curves.point_at(curve, t)
    answer = struct.pack("<2d", x, y) if number == 0 else b""
    return case("point_at", number, curve_bytes(curve) + u32(t), answer, size(curve), curve, [t])


@answering
def carrying(curve, t, axis):
    number, part = curves.carrying(curve, t, axis)
    arguments = curve_bytes(curve) + u32(t, axis)
    return case("carrying", number, arguments, lent_list("i32", part), size(curve), curve, [t])


def reshaping_call(call, function, curve, *rest):
    """A curve as another curve; rest is the value, if one is asked for, and the room."""
    number, new = function(curve, *rest)
    *asked, room = rest
    counts = u32(len(new.xs)) if number == 0 else b""
    arguments = curve_bytes(curve) + u32(*asked, *room)
    return case(call, number, arguments, counts + lists_after(number, new, room), size(curve), curve, made=new)


@answering
def insert_knot(curve, v, room):
    return reshaping_call("insert_knot", knots.insert_knot, curve, v, room)


@answering
def remove_knot(curve, v, room):
    return reshaping_call("remove_knot", knots.remove_knot, curve, v, room)


@answering
def clamp_ends(curve, room):
    return reshaping_call("clamp_ends", ends.clamp_ends, curve, room)


@answering
def unclamp_right(curve, room):
    return reshaping_call("unclamp_right", ends.unclamp_right, curve, room)


@answering
def compact(curve, room):
    number, new, removed = knots.compact(curve, room)
    counts = u32(removed) if number == 0 else b""
    arguments = curve_bytes(curve) + u32(*room)
    return case("compact", number, arguments, counts + lists_after(number, new, room), size(curve), curve, made=new)


def join_call(times, params, px, py, tx, ty, room):
    """Joining with the parameters where pieces meet so many times among the knots."""
    number, new = joining.join(params, px, py, tx, ty, room, times)
    counts = u32(len(new.xs)) if number == 0 else b""
    arguments = lent_list("u16", params) + b"".join(lent_list("i32", one) for one in (px, py, tx, ty)) + u32(*room)
    points = max(len(one) for one in (params, px, py, tx, ty))
    return case(joining.CALLED[times], number, arguments, counts + lists_after(number, new, room), points, new)


@answering
def join_through_points(params, px, py, tx, ty, room):
    return join_call(joining.THREE_TIMES, params, px, py, tx, ty, room)


@answering
def join(params, px, py, tx, ty, room):
    return join_call(joining.TWICE, params, px, py, tx, ty, room)


@answering
def list_spans_met(curve, rectangle, radius, room):
    number, hits = spans.list_spans_met(curve, rectangle, radius, room)
    counts = u32(len(hits)) if number == 0 else b""
    result = hits if number == 0 else []
    lists = after("u16", room[0], [low for low, _ in result]) + after("u16", room[1], [high for _, high in result])
    arguments = curve_bytes(curve) + struct.pack("<4i", *rectangle) + u32(radius, *room)
    return case("list_spans_met", number, arguments, counts + lists, size(curve), curve, (), [rectangle], radius)


def writing_call(call, function, curve, room):
    """A curve as bytes, in one lent list."""
    number, data = function(curve, room)
    counts = u32(len(data)) if number == 0 else b""
    answer = counts + after("u8", room, data if number == 0 else [])
    return case(call, number, curve_bytes(curve) + u32(room), answer, size(curve), curve)


@answering
def write_record(curve, room):
    return writing_call("write_record", record.write_record, curve, room)


@answering
def svg(curve, room):
    return writing_call("svg", path_data.svg, curve, room)


def told_of_reading(number, place, *counts):
    """What stands behind a reader's number: the degree and the counts, the place, or nothing."""
    if number == 0:
        return u32(*counts)
    return b"" if place is None else u32(place)


@answering
def read_record(data, room, points):
    number, place, curve = record.read_record(data, room)
    counts = (curve.degree, len(curve.xs)) if number == 0 else ()
    answer = told_of_reading(number, place, *counts) + lists_after(number, curve, room)
    return case("read_record", number, lent_list("u8", list(data)) + u32(*room), answer, points, curve, place=place)


@answering
def read_job(data, room, points):
    number, place, curve, clamps, radius = record.read_job(data, room)
    counts = (curve.degree, len(curve.xs), radius, len(clamps)) if number == 0 else ()
    sides = [side for clamp in clamps for side in clamp] if number == 0 else []
    lists = lists_after(number, curve, room[:3]) + after("i32", room[3], sides)
    arguments = lent_list("u8", list(data)) + u32(*room)
    answer = told_of_reading(number, place, *counts) + lists
    return case("read_job", number, arguments, answer, points, curve, (), clamps, radius, place)


@answering
def clampcheck_text(data, points):
    number, text = record.clampcheck_text(data)
    place = record.judged_job(data)[1]
    return case("clampcheck_text", number, lent_list("u8", list(data)), text.encode("ascii") + b"\0", points, place=place)


def case_file(cases):
    return b"".join(u32(len(one.body)) + one.body for one in cases)


def answer_file(cases):
    return b"".join(one.answer for one in cases)
