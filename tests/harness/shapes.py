"""What the case and the answer of each call hold, by name, and how they become bytes and are read back.

The layout is that of second_program/vectors.py and fed_vectors.py. An argument or a value is a number, a list of numbers or, of clampcheck, a text, which is
read as a list of lines. A lent result list stands in the case by its number of places and in the answer whole; an entry that is as it was before the call is
None. A case of `feed` has steps, and its answer tells of each.
"""

import struct
from typing import NamedTuple, Sequence, Tuple

from second_program.fed_vectors import END
from second_program.record import PLACED
from second_program.vectors import CALLS, before

FORMATS = {"u8": "B", "u16": "H", "u32": "I", "u64": "Q", "i32": "i", "f64": "d"}
NUMBER = "the number of refusal"
CURVE = (("degree", "u32"), ("knots", "u16[]"), ("x", "i32[]"), ("y", "i32[]"))
LISTS = (("knots", "u16"), ("x", "i32"), ("y", "i32"))
SIDES = tuple((side, "i32") for side in ("low_x", "high_x", "low_y", "high_y"))
PLACE = (("place", "u32"),)
RADIUS = (("radius", "u32"),)
JOB = (("degree", "u32"), ("points", "u32"), *RADIUS, ("clamps", "u32"))
SIDES_LIST = (("sides", "i32"),)
SPLINE_POINTS = (("params", "u16[]"), ("px", "i32[]"), ("py", "i32[]"), ("tx", "i32[]"), ("ty", "i32[]"))


class Shape(NamedTuple):
    arguments: Tuple
    values: Tuple = ()  # what a success answers
    lists: Tuple = ()  # the lent result lists
    always: Tuple = ()  # what stands behind the number of refusal in any case
    broken: Tuple = ()  # what stands behind 16, 19, 20 and 21

    def told(self, number):
        """What stands behind this number of refusal, the lent lists left out."""
        return (self.values if number == 0 else self.broken if number in PLACED else ()) + self.always


JOINING = Shape(SPLINE_POINTS, (("points", "u32"),), LISTS)
SHAPES = dict(
    check=Shape(CURVE),
    point_at=Shape(CURVE + (("t", "u32"),), (("x", "f64"), ("y", "f64"))),
    carrying=Shape(CURVE + (("t", "u32"), ("axis", "u32")), always=(("part", "i32[]"),)),
    insert_knot=Shape(CURVE + (("v", "u32"),), (("points", "u32"),), LISTS),
    remove_knot=Shape(CURVE + (("v", "u32"),), (("points", "u32"),), LISTS),
    compact=Shape(CURVE, (("removed", "u32"),), LISTS),
    join_through_points=JOINING,
    list_spans_met=Shape(CURVE + SIDES + RADIUS, (("spans", "u32"),), (("lows", "u16"), ("highs", "u16"))),
    write_record=Shape(CURVE, (("length", "u32"),), (("bytes", "u8"),)),
    read_record=Shape((("bytes", "u8[]"),), (("degree", "u32"), ("points", "u32")), LISTS, broken=PLACE),
    read_job=Shape((("bytes", "u8[]"),), JOB, LISTS + SIDES_LIST, broken=PLACE),
    clampcheck_text=Shape((("bytes", "u8[]"),), always=(("text", "text"),)),
    feed=Shape((("places", "u32"), ("front", "u8[]"), ("received", "u64")), JOB, LISTS + SIDES_LIST, broken=PLACE),
    join=JOINING,
    svg=Shape(CURVE, (("length", "u32"),), (("path", "u8"),)),
    clamp_ends=Shape(CURVE, (("points", "u32"),), LISTS),
    unclamp_right=Shape(CURVE, (("points", "u32"),), LISTS),
)
assert tuple(SHAPES) == CALLS
EXPORTED = tuple(call for call in CALLS if call != "clampcheck_text")  # the text of clampcheck has no export


class Broken(Exception):
    """Bytes that are no cases, or no answers to them."""


class Reader:
    """Bytes that are taken from the front."""

    def __init__(self, data):
        self.data, self.at = data, 0

    def take(self, size):
        if self.at + size > len(self.data):
            raise Broken("the bytes end at %d, and %d more are wanted" % (len(self.data), self.at + size - len(self.data)))
        self.at += size
        return self.data[self.at - size : self.at]

    def numbers(self, kind, count):
        form = "<%d%s" % (count, FORMATS[kind])
        return list(struct.unpack(form, self.take(struct.calcsize(form))))

    def number(self, kind="u32"):
        return self.numbers(kind, 1)[0]

    def value(self, kind):
        if kind == "text":
            end = self.data.find(b"\0", self.at)
            if end < 0:
                raise Broken("a text has no end")
            return self.take(end + 1 - self.at)[:-1].decode("latin-1").splitlines(True)
        if kind.endswith("[]"):
            return self.numbers(kind[:-2], self.number())
        return self.number(kind)

    def more(self):
        return self.at < len(self.data)


def packed(kind, value):
    if kind.endswith("[]"):
        return struct.pack("<I%d%s" % (len(value), FORMATS[kind[:-2]]), len(value), *value)
    return struct.pack("<" + FORMATS[kind], value)


class Case(NamedTuple):
    name: str
    call: str
    body: bytes
    places: Sequence  # of each lent result list
    answer: bytes = b""  # the right one
    steps: Sequence = ()  # of `feed`: the bytes of a burst, or END

    @property
    def numbers(self):
        """What each call of the case answers."""
        return [value for name, value in told_in(self, Reader(self.answer)) if name.endswith(NUMBER)]


def body_of(call, arguments, places):
    shape = SHAPES[call]
    parts = [packed(kind, arguments[name]) for name, kind in shape.arguments]
    return bytes([CALLS.index(call) + 1]) + b"".join(parts) + b"".join(packed("u32", count) for count in places)


def answer_of(call, number, values, lists):
    shape = SHAPES[call]
    parts = [packed("u32", number)] + [packed(kind, values[name]) for name, kind in shape.told(number)]
    for name, kind in shape.lists:
        entries = [before(kind, k) if entry is None else entry for k, entry in enumerate(lists[name])]
        parts.append(struct.pack("<%d%s" % (len(entries), FORMATS[kind]), *entries))
    return b"".join(parts)


def read_case(name, body):
    """A case from its bytes, without its answer."""
    reader = Reader(body)
    number = reader.number("u8")
    if not 1 <= number <= len(CALLS):
        raise Broken("%s asks for call %d" % (name, number))
    call = CALLS[number - 1]
    for _, kind in SHAPES[call].arguments:
        reader.value(kind)
    places = reader.numbers("u32", len(SHAPES[call].lists))
    steps = read_steps(reader) if call == "feed" else ()
    if reader.more():
        raise Broken("%s has bytes left over" % name)
    return Case(name, call, body, places, steps=steps)


def read_steps(reader):
    """The steps of `feed`, which reach to the end of the case."""
    steps = []
    while reader.more():
        kind = reader.number("u8")
        if kind > 1:
            raise Broken("a step begins with %d" % kind)
        steps.append(reader.take(reader.number()) if kind else END)
    return steps


def told_behind(case, number, reader):
    """What stands behind a number of refusal: values and lent lists."""
    shape = SHAPES[case.call]
    for name, kind in shape.told(number):
        yield name, reader.value(kind)
    for (name, kind), count in zip(shape.lists, case.places):
        yield name, reader.numbers(kind, count)


def told_in(case, reader):
    """What the next answer says, one by one, as pairs of a name and a value."""
    if case.call != "feed":
        number = reader.number()
        yield NUMBER, number
        yield from told_behind(case, number, reader)
        return
    for k, step in enumerate(case.steps, 1):
        number = reader.number()
        yield "step %d: %s" % (k, NUMBER), number
        yield "step %d: received" % k, reader.number("u64")
        if step is END:
            for name, value in told_behind(case, number, reader):
                yield "step %d: %s" % (k, name), value
    yield "the fingerprint of the work list", reader.number("u64")


def read_answer(case, reader):
    """All that the next answer says."""
    return list(told_in(case, reader))


def read_cases(cases, answers):
    """All cases of tests/vectors with their answers."""
    from_cases, from_answers, read = Reader(cases), Reader(answers), []
    try:
        while from_cases.more():
            case = read_case("case %d of tests/vectors" % (len(read) + 1), from_cases.take(from_cases.number()))
            start = from_answers.at
            read_answer(case, from_answers)
            read.append(case._replace(answer=answers[start : from_answers.at]))
    except Broken as fault:
        raise Broken("case %d of tests/vectors or its answer: %s" % (len(read) + 1, fault)) from None
    if from_answers.more():
        raise Broken("tests/vectors/answers has bytes behind the last answer")
    return read


def case_bytes(cases):
    return b"".join(packed("u32", len(case.body)) + case.body for case in cases)
