"""The bytes of a job and of the record in front of it, as docs/SCOPE.md lays them out under "The record on disk": written, and read field by
field to the first fault."""

import struct
from collections import namedtuple

MOST = {"knots": 1028, "points": 1024, "clamps": 64}
MOST_BYTES = 11482
ENDED, TAG, LENGTH, LEFT_OVER = 16, 19, 20, 21
PLACED = (ENDED, TAG, LENGTH, LEFT_OVER)

# What a kind of field is called, with its verb, its tag, the form of an entry, and the least and most bytes of contents.
Kind = namedtuple("Kind", "name begins tag form least most")
RECORD = (
    Kind("the degree", "begins", 1, "B", 1, 1),
    Kind("the knots", "begin", 2, "H", 0, 2 * MOST["knots"]),
    Kind("the x coordinates", "begin", 3, "i", 0, 4 * MOST["points"]),
    Kind("the y coordinates", "begin", 4, "i", 0, 4 * MOST["points"]),
)
RADIUS = Kind("the cutter's radius", "begins", 6, "H", 2, 2)
CLAMP = Kind("clamp %d", "begins", 5, "i", 16, 16)

# A field where it stands: its kind and place, its length (None where that is missing or wrong) and the entries that are whole.
Field = namedtuple("Field", "kind at length numbers")


class BadJob(Exception):
    """Bytes that are no job: the number and the place of the first fault, and as much as stands there of its field, None for nothing."""

    def __init__(self, number, place, words, begun=None):
        super().__init__("byte %d: %s" % (place, words))
        self.number, self.place, self.begun = number, place, begun


class Unpaired(BadJob):
    """A job with unequal numbers of x and y, which has no points to speak of; its bytes are sound, so there is no place."""

    def __init__(self, degree, xs, ys):
        Exception.__init__(self, "there are %d x and %d y coordinates" % (xs, ys))
        self.number, self.place, self.begun = (2 if degree in (1, 2, 3) else 1), None, None


class Job:
    """A degree, knots, points (x, y), the cutter's radius and clamps (low x, high x, low y, high y), none of them checked.

    The radius is None in a job from before jobs had one, and in a lone record: such a job can be read and told, not written.
    """

    def __init__(self, degree, knots, points, radius, clamps):
        self.degree, self.knots, self.points, self.radius, self.clamps = degree, knots, points, radius, clamps

    def __eq__(self, other):
        return vars(self) == vars(other)


def field(tag, form, numbers):
    """Tag, length and contents, low byte first."""
    contents = struct.pack("<%d%s" % (len(numbers), form), *numbers)
    return struct.pack("<BH", tag, len(contents)) + contents


def write_job(job):
    """The bytes of a job."""
    parts = [field(1, "B", [job.degree]), field(2, "H", job.knots)]
    parts += [field(3 + axis, "i", [point[axis] for point in job.points]) for axis in (0, 1)]
    parts += [field(6, "H", [job.radius])] + [field(5, "i", clamp) for clamp in job.clamps]
    return b"".join(parts)


def width(kind):
    """The bytes of an entry."""
    return struct.calcsize("<" + kind.form)


def right_length(kind, length):
    return kind.least <= length <= kind.most and length % width(kind) == 0


def right_lengths(kind):
    """The lengths that a field of this kind may have, in words."""
    if kind.least == kind.most:
        return str(kind.most)
    return "%s up to %s" % ({2: "an even number", 4: "a multiple of 4"}[width(kind)], format(kind.most, ","))


def whole_entries(data, at, kind, length):
    """The entries of the field at a place that are there from their first byte to their last."""
    count = min(length, len(data) - at - 3) // width(kind)
    return list(struct.unpack_from("<%d%s" % (count, kind.form), data, at + 3))


def take_length(data, at, kind):
    """The length of the field at a place, whose tag is right, or BadJob."""
    begun = Field(kind, at, None, [])
    if len(data) == at + 1:
        raise BadJob(ENDED, len(data), "here stands the length of %s in two bytes, found the end" % kind.name, begun)
    if len(data) == at + 2:
        raise BadJob(ENDED, len(data), "here stands the second byte of the length of %s, found the end" % kind.name, begun)
    length = data[at + 1] + 256 * data[at + 2]
    if not right_length(kind, length):
        words = "here stands the length of %s, %s, found %d" % (kind.name, right_lengths(kind), length)
        raise BadJob(LENGTH, at + 1, words, begun)
    return length


def take_field(data, at, kind, instead=""):
    """The field of this kind at a place, or BadJob: its tag is judged first, then its length, then its contents."""
    due = "here %s %s with tag %d%s" % (kind.name, kind.begins, kind.tag, instead)
    if at == len(data):
        raise BadJob(ENDED, at, "%s, found the end" % due)
    if data[at] != kind.tag:
        raise BadJob(TAG, at, "%s, found %d" % (due, data[at]))
    length = take_length(data, at, kind)
    taken = Field(kind, at, length, whole_entries(data, at, kind, length))
    if behind(taken) > len(data):
        lacking = behind(taken) - len(data)
        words = "here the contents of %s go on, %d byte%s more, found the end" % (kind.name, lacking, "s" * (lacking > 1))
        raise BadJob(ENDED, len(data), words, taken)
    return taken


def behind(taken):
    """The place behind a field."""
    return taken.at + 3 + taken.length


def front_fields(data, kinds):
    """The fields of these kinds one after the other, the first of them at the first byte, and BadJob where the first fault stands."""
    at = 0
    for kind in kinds:
        taken = take_field(data, at, kind)
        yield taken
        at = behind(taken)


def fields(data, front=(*RECORD, RADIUS)):
    """The fields of a job one after the other, those in front of the clamps given by kind, and BadJob where the first fault stands."""
    for taken in front_fields(data, front):
        yield taken
    at, number = behind(taken), 0
    while at < len(data):
        if number == MOST["clamps"]:
            raise BadJob(LEFT_OVER, at, "here the job ends, behind its clamp %d, found %d" % (number, data[at]))
        number += 1
        taken = take_field(data, at, CLAMP._replace(name=CLAMP.name % number), " or the job ends")
        yield taken
        at = behind(taken)


def job_in(degree, knots, xs, ys, radius, clamps):
    """The job with these numbers. Coordinates that do not pair up are a fault here too."""
    if len(xs) != len(ys):
        raise Unpaired(degree[0], len(xs), len(ys))
    return Job(degree[0], knots, list(zip(xs, ys)), radius, [tuple(clamp) for clamp in clamps])


def read_job(data):
    """The job in some bytes, or BadJob."""
    degree, knots, xs, ys, radius, *clamps = [taken.numbers for taken in fields(data)]
    return job_in(degree, knots, xs, ys, radius[0], clamps)


def lacks_radius(data):
    """Whether these bytes are a job but for the radius, as jobs were before they had one."""
    try:
        list(fields(data, RECORD))
    except BadJob:
        return False
    return True


def read_without_radius(data):
    """The job in bytes that lack the radius."""
    degree, knots, xs, ys, *clamps = [taken.numbers for taken in fields(data, RECORD)]
    return job_in(degree, knots, xs, ys, None, clamps)


def read_record(data):
    """The curve in a lone record, as a job that has nothing but a curve, or BadJob."""
    parts = list(front_fields(data, RECORD))
    at = behind(parts[-1])
    if at < len(data):
        raise BadJob(LEFT_OVER, at, "here the record ends, found %d" % data[at])
    return job_in(*[taken.numbers for taken in parts], None, [])


def record_in(data):
    """What curvesvg is given of a file: of a job the record in front, of anything else all of it."""
    try:
        parts = list(fields(data))
    except BadJob:
        return data
    return data[: behind(parts[len(RECORD) - 1])]
