"""The fields of a record and of a job, apart and joined, so that a maker of cases can change one of them."""

from typing import NamedTuple

from .record import MOST_CLAMPS, record_of

RECORD = range(4)  # the fields of a record: degree, knots, x, y
RADIUS = 4  # the field of a job behind its record
CLAMP = 5  # the first clamp
LAST_CLAMP = CLAMP + MOST_CLAMPS - 1


class Field(NamedTuple):
    tag: int
    length: int
    contents: bytes

    def data(self):
        return bytes([self.tag]) + self.length.to_bytes(2, "little") + self.contents


def record_fields(curve):
    data, fields = record_of(curve), []
    while data:
        length = data[1] + 256 * data[2]
        fields.append(Field(data[0], length, data[3 : 3 + length]))
        data = data[3 + length :]
    return fields


def radius_field(radius):
    return Field(6, 2, radius.to_bytes(2, "little"))


def clamp_field(clamp):
    return Field(5, 16, b"".join(side.to_bytes(4, "little", signed=True) for side in clamp))


def fields_of(curve, clamps, radius=0):
    """The fields of a job."""
    return [*record_fields(curve), radius_field(radius), *map(clamp_field, clamps)]


def joined(fields):
    return b"".join(one.data() for one in fields)


def place_of(fields, k):
    """Where field k begins."""
    return len(joined(fields[:k]))


def changed(fields, k, **parts):
    """The fields with one changed."""
    return [*fields[:k], fields[k]._replace(**parts), *fields[k + 1 :]]
