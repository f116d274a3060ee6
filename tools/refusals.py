"""The refusals that a job or its record can meet, in words, and which of them its bytes, its curve, its cutter or its clamps meet first, and where.

Clampcheck and curvesvg judge; this says the same of a description before there is a job, and says of a refused file what is wrong in it.
"""

import shlex
from collections import namedtuple

import cutting
import job_bytes
import shape
import text_kind

KNOT_MOST = 16383
FARTHEST = 262144
RADIUS_MOST = 4096
WORDS = {
    1: "the degree is not 1, 2 or 3",
    2: "there are too few points for the degree, or not as many x as y",
    3: "the number of knots does not go with points and degree",
    4: "a knot is above 16,383, or below the one before it",
    5: "the curve has no length: without the first knots, as many as the degree says, and as many last ones, the first that is left equals the last",
    6: "a knot value stands too often: at an end of the curve, or outside it, more than degree + 1 times, inside more than degree times",
    7: "a coordinate lies beyond 262,144 hundredths of a millimetre, about 2.6 metres, from the middle",
    10: "curvesvg cannot cut a curve into more than 341 pieces of degree 3 or 511 of degree 2: make two curves of it",
    11: "curvesvg cannot cut the curve: a point of a piece, or at an open end, would fall between two grid lines; with evenly spaced knots and all coordinates multiples of 12 none ever does",
    14: "a clamp's sides are crossed, low above high, or one of them lies beyond 262,144",
    16: "the file ends before the job does: it is cut short, or empty",
    19: "a part of the job begins with another tag than belongs there",
    20: "a part of the job has a length that it cannot have",
    21: "something stands behind the 64th clamp, the last that a job can have; for curvesvg, behind the record",
    22: "the cutter's radius is above 4,096 hundredths of a millimetre, about 41 mm",
}
TOLD = {"clampcheck": {*WORDS} - {10, 11}, "curvesvg": {*WORDS} - {14, 22}}

# The number of a refusal, what is wrong, and the word and place (from 0) of the line that it concerns, or None.
Fault = namedtuple("Fault", "number words line")


def counts_fault(job):
    """Rows 1 to 3."""
    m, points, knots = job.degree, len(job.points), len(job.knots)
    if m not in (1, 2, 3):
        return Fault(1, "degree %d is none of 1, 2, 3" % m, ("degree", 0))
    if points < m + 1:
        return Fault(2, "degree %d takes %d points or more, and here are %d" % (m, m + 1, points), None)
    if knots != points + m + 1:
        return Fault(3, "%d points of degree %d take %d knots, and here are %d" % (points, m, points + m + 1, knots), None)
    return None


def falling_fault(job):
    """Row 4."""
    for k, knot in enumerate(job.knots):
        if knot > KNOT_MOST:
            return Fault(4, "knot %d is %d; a knot is 0 to %s" % (k + 1, knot, format(KNOT_MOST, ",")), ("knots", k))
        if k and knot < job.knots[k - 1]:
            return Fault(4, "knot %d is %d, below the %d before it; knots never fall" % (k + 1, knot, job.knots[k - 1]), ("knots", k))
    return None


def domain_fault(job):
    """Row 5, where row 4 has passed."""
    low, high = shape.domain(job)
    if low == high:
        first, last = job.degree + 1, len(job.points) + 1
        return Fault(5, "the curve goes from knot %d to knot %d, and both are %d: it has no length" % (first, last, low), ("knots", last - 1))
    return None


def repeats_fault(job):
    """Row 6, where rows 4 and 5 have passed. Outside the domain there are no more than degree knots on either side."""
    m, ts = job.degree, job.knots
    low, high = shape.domain(job)
    for k in range(len(ts)):
        inside = low < ts[k] < high
        most = m if inside else m + 1
        if k >= most and ts[k - most] == ts[k]:
            words = "the knot value %d stands more than %d times, the most %s a curve of degree %d"
            return Fault(6, words % (ts[k], most, "inside" if inside else "at an end of", m), ("knots", k))
    return None


def range_fault(job):
    """Row 7."""
    for k, point in enumerate(job.points):
        for name, number in zip("xy", point):
            if abs(number) > FARTHEST:
                words = "point %d has %s %d; a coordinate is -%s to %s"
                return Fault(7, words % (k + 1, name, number, *[format(FARTHEST, ",")] * 2), ("point", k))
    return None


def radius_fault(job):
    """Row 22."""
    if job.radius > RADIUS_MOST:
        return Fault(22, "radius %d; the cutter's radius is 0 to %s" % (job.radius, format(RADIUS_MOST, ",")), ("radius", 0))
    return None


def clamps_fault(job):
    """Row 14."""
    for k, clamp in enumerate(job.clamps):
        for axis, (low, high) in zip("xy", (clamp[:2], clamp[2:])):
            if low > high:
                return Fault(14, "clamp %d has its low %s, %d, above its high %s, %d" % (k + 1, axis, low, axis, high), ("clamp", k))
            for side in (low, high):
                if abs(side) > FARTHEST:
                    words = "clamp %d has a side at %s %d; a side is -%s to %s"
                    return Fault(14, words % (k + 1, axis, side, *[format(FARTHEST, ",")] * 2), ("clamp", k))
    return None


def cut_fault(job):
    """Rows 10 and 11, where rows 1 to 7 have passed."""
    try:
        cutting.cut(job)
    except cutting.Uncut as uncut:
        return Fault(uncut.number, str(uncut), None)
    return None


OF_CURVE = (counts_fault, falling_fault, domain_fault, repeats_fault, range_fault)
OF_JOB = (*OF_CURVE, radius_fault, clamps_fault)
OF_PATH = (*OF_CURVE, cut_fault)


def fault_of(job, judges=OF_JOB):
    """The first fault in the order of judging, or None where clampcheck, or the program with these judges, takes the job."""
    for judge in judges:
        fault = judge(job)
        if fault:
            return fault
    return None


def judged(data, read=job_bytes.read_job, judges=OF_JOB):
    """The first refusal that these bytes meet: its number, its place (None where it has none) and what is wrong; None where clampcheck takes them."""
    try:
        fault = fault_of(read(data), judges)
    except job_bytes.BadJob as bad:
        return bad.number, bad.place, str(bad)
    return fault and (fault.number, None, fault.words)


def judged_record(data):
    """The same for curvesvg, which takes a lone record."""
    return judged(data, job_bytes.read_record, OF_PATH)


def line(number, place):
    """What either program prints on refused bytes, without the newline."""
    return "refused %d" % number if place is None else "refused %d at %d" % (number, place)


def mending(name):
    """What to do with a job that has no radius, in the file of this name."""
    lacks = "this job has no radius, like all that were made before jobs had one"
    todo = "add a line such as `radius 150` to its description and make it again"
    return "%s: %s; python3 tools/job.py show %s prints the description" % (lacks, todo, shlex.quote(name))


def particulars(number, place, data, name, judge):
    """What is wrong in these bytes, as far as it can be said, for the refusal that a program gave on the file of this name."""
    if place is not None and text_kind.is_text(data):
        return ["this is %s; python3 tools/job.py make turns a description into a job" % text_kind.kind(data)]
    found = judge(data)
    words = [found[2]] if found and found[:2] == (number, place) else []
    if words and place is not None and job_bytes.lacks_radius(data):
        words.append(mending(name))
    elif place is not None and data:
        words.append("python3 tools/job.py explain %s shows what stands at which byte" % shlex.quote(name))
    return words


def told(number, place, data, name="JOB", judge=judged):
    """Lines that say a refusal: what the number means, what is wrong in these bytes, and where more is said."""
    return ["%s: %s" % (line(number, place), WORDS[number])] + particulars(number, place, data, name, judge)
