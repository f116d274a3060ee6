"""The scope, "The record on disk" and the text of `clampcheck`: records written and read, jobs read and told."""

import struct

from .curve import Curve, check
from .fault import planted, planted_anywhere
from .knots import refused_room
from .spans import met, refused_clamps, spans

MOST_KNOT_BYTES = 2056
MOST_COORDINATE_BYTES = 4096
MOST_CLAMPS = 64
PLACED = (16, 19, 20, 21)


def field(tag, contents):
    order = ">" if planted("write_record") else "<"
    return struct.pack(order + "BH", tag, len(contents)) + contents


def record_of(curve):
    """The bytes of a curve whose numbers fit their places."""
    return (
        field(1, bytes([curve.degree]))
        + field(2, struct.pack("<%dH" % len(curve.knots), *curve.knots))
        + field(3, struct.pack("<%di" % len(curve.xs), *curve.xs))
        + field(4, struct.pack("<%di" % len(curve.ys), *curve.ys))
    )


def write_record(curve, room):
    """Number and the bytes."""
    number = check(curve)
    if number:
        return number, None
    record = record_of(curve)
    return (15 if room < len(record) else 0), record


class Fault(Exception):
    """Bytes that are no record, or no job: the number of their leftmost fault and its place."""

    def __init__(self, number, place):
        super().__init__("%d at %d" % (number, place))
        self.number, self.place = number, place


def excluded(low, fits):
    """Whether no right length has this first byte. Plays a part in a planted fault alone."""
    return not any(fits(low + 256 * high) for high in range(256))


def take_length(data, at, fits):
    """The length of the field at this place, whose tag is right, or its Fault."""
    if planted("read_job:half_length") and len(data) == at + 2 and excluded(data[at + 1], fits):
        raise Fault(20, at + 1)
    if len(data) < at + 3:
        raise Fault(16, len(data))
    length = data[at + 1] + 256 * data[at + 2]
    if planted("read_record:ended_first") and len(data) < at + 3 + length:
        raise Fault(16, len(data))
    if not fits(length):
        raise Fault(20, at if planted("read_record:length_place") else at + 1)
    return length


def take_field(data, at, tag, fits):
    """The contents of the field at this place and the place behind it, or its Fault: tag first, then length, then contents."""
    if at == len(data):
        raise Fault(16, len(data))
    if data[at] != tag:
        raise Fault(19, at)
    length = take_length(data, at, fits)
    if len(data) < at + 3 + length:
        raise Fault(16, len(data))
    return data[at + 3 : at + 3 + length], at + 3 + length


def take_record(data):
    """The curve at the front and the place behind it, or the Fault; the curve is not checked."""
    coordinates = lambda length: length % 4 == 0 and length <= MOST_COORDINATE_BYTES
    kinds = (
        (1, lambda length: length == 1),
        (2, lambda length: length % 2 == 0 and length <= MOST_KNOT_BYTES),
        (3, coordinates),
        (4, coordinates),
    )
    parts, at = [], 0
    for tag, fits in kinds:
        contents, at = take_field(data, at, tag, fits)
        parts.append(contents)
    degree, knots, xs, ys = parts
    ints = [list(struct.unpack("<%di" % (len(part) // 4), part)) for part in (xs, ys)]
    return Curve(degree[0], list(struct.unpack("<%dH" % (len(knots) // 2), knots)), *ints), at


def take_lone_record(data):
    """The curve whose record all the bytes are, or the Fault."""
    curve, at = take_record(data)
    if at < len(data) and not planted("read_record"):
        raise Fault(21, at)
    return curve


def take_radius(data, at):
    """The cutter's radius at this place and the place behind its field, or the Fault."""
    if planted_anywhere("radius_optional") and data[at : at + 1] != b"\6":
        return 0, at
    contents, at = take_field(data, at, 6, lambda length: length == 2)
    return struct.unpack("<H", contents)[0], at


def take_clamps(data, at):
    """The clamps from this place to the end, or the Fault; and the end."""
    clamps = []
    while at < len(data):
        if planted_anywhere("radius_behind") and data[at] == 6:
            break
        if len(clamps) == MOST_CLAMPS:
            raise Fault(19 if planted("read_job:left_over") else 21, at)
        contents, at = take_field(data, at, 5, lambda length: length == 16)
        clamps.append(struct.unpack("<4i", contents))
    return clamps, at


def take_job(data):
    """The curve, the clamps and the cutter's radius, or the Fault."""
    curve, at = take_record(data)
    if planted_anywhere("radius_behind"):
        clamps, at = take_clamps(data, at)
        return curve, clamps, take_radius(data, at)[0]
    radius, at = take_radius(data, at)
    if planted_anywhere("radius_twice") and data[at : at + 1] == b"\6":
        radius, at = take_radius(data, at)
    return curve, take_clamps(data, at)[0], radius


def read_record(data, room):
    """Number, place and the curve: 16 and 19 to 21, which alone have a place, then 1 to 7, then 15."""
    try:
        curve = take_lone_record(data)
    except Fault as fault:
        return fault.number, fault.place, None
    return check(curve) or refused_room(curve, room), None, curve


def judged_job(data):
    """Number without 15, place, curve, clamps and radius: 16 and 19 to 21 over all, then 1 to 7, then 22, then 14."""
    try:
        curve, clamps, radius = take_job(data)
    except Fault as fault:
        return fault.number, fault.place, None, None, None
    if planted("read_job"):
        clamps = clamps[:1]
    return check(curve) or refused_clamps(radius, clamps), None, curve, clamps, radius


def read_job(data, room):
    """Number, place, curve, clamps and radius; room is for knots, x, y and the clamps' numbers, four each."""
    number, place, curve, clamps, radius = judged_job(data)
    if not number:
        number = refused_room(curve, room[:3])
    if not number and room[3] < 4 * len(clamps):
        number = 15
    return number, place, curve, clamps, 0 if planted_anywhere("radius_untold") else radius


def refusal_text(number, place):
    """The line on a refused job."""
    if place is None:
        return "refused %d\n" % number
    return "refused %d at %d\n" % (number, place + 1 if planted("clampcheck_text:one_too_far") else place)


def clampcheck_text(data):
    """Number and what the program prints."""
    number, place, curve, clamps, radius = judged_job(data)
    if number:
        return number, refusal_text(number, place)
    lines = ["curve degree %d points %d spans %d" % (curve.degree, len(curve.xs), len(spans(curve)))]
    for place, clamp in enumerate(clamps, 0 if planted("clampcheck_text") else 1):
        hits = met(curve, clamp, 0 if planted("clampcheck_text:narrow") else radius)
        lines += ["clamp %d may meet %d..%d" % (place, low, high) for low, high in hits]
        if not hits:
            lines.append("clamp %d clear" % place)
    return 0, "".join(line + "\n" for line in lines)
