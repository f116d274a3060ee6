"""The readable description of a curve, its cutter and its clamps: read into a job with the line of each thing, and written from one."""

import re

import refusals
import text_kind
from job_bytes import MOST, Job

LONGEST_SHOWN = 24
SAVE = "save it as UTF-8, which plain English letters and digits are already"
COORDINATE = "-%s to %s" % ((format(refusals.FARTHEST, ","),) * 2)
KNOT = "0 to %s" % format(refusals.KNOT_MOST, ",")
RADIUS = "0 to %s hundredths of a millimetre" % format(refusals.RADIUS_MOST, ",")
NO_RADIUS = "no radius: write a line such as `radius 150`, half the cutter's width in hundredths of a millimetre; `radius 0` for a pen"

# For each word: how many numbers, the least and the most that a job can store, and what it takes, in words.
TAKES = {
    "degree": (1, 0, 255, "one number, 1, 2 or 3"),
    "knots": (None, 0, 65535, "whole numbers, each %s" % KNOT),
    "point": (2, -(2**31), 2**31 - 1, "two numbers, x and y, each %s" % COORDINATE),
    "radius": (1, 0, 65535, "one number, %s" % RADIUS),
    "clamp": (4, -(2**31), 2**31 - 1, "four numbers, low x, high x, low y, high y, each %s" % COORDINATE),
}
ONCE = ("degree", "radius")


class BadText(Exception):
    """A description that cannot be made a job; the message says where and why."""


def text_of(data):
    """The text in some bytes, or BadText that names what they are."""
    found = text_kind.kind(data)
    if found == text_kind.EMPTY:
        raise BadText("the file is empty; examples/sign.txt shows a description")
    if found == text_kind.JOB:
        raise BadText("this is a job already; `show` turns it into a description")
    if found == text_kind.BYTES:
        raise BadText("this is no text; a description is UTF-8 text as in examples/sign.txt")
    if found in (text_kind.UTF16, text_kind.UTF32):
        raise BadText("this is %s; %s" % (found, SAVE))
    try:
        return data.decode("utf-8-sig")
    except UnicodeDecodeError as fault:
        line = data[: fault.start].count(b"\n") + 1
        raise BadText("line %d: byte %#x is no UTF-8; this is %s; %s" % (line, data[fault.start], found, SAVE)) from None


def shown(part):
    """A word of the text, cut where it is long."""
    if len(part) <= LONGEST_SHOWN:
        return repr(part)
    return "%r... (%s characters)" % (part[:LONGEST_SHOWN], format(len(part), ","))


def hint(word, part):
    """What somebody who writes 0.5 wants to know."""
    decimal = re.fullmatch(r"([+-]?)([0-9]{0,5})[.,]([0-9]{1,2})0*", part)
    if not decimal and not re.fullmatch(r"[+-]?[0-9]*[.,][0-9]*", part):
        return ""
    if word == "knots":
        return "; to have knots between, multiply all of them by one number"
    if word == "degree":
        return ""
    sign, whole, hundredths = decimal.groups() if decimal else ("", "0", "5")
    number = int(sign + (whole or "0") + hundredths.ljust(2, "0"))
    example = part if decimal else "0.5"
    what = "the radius is in" if word == "radius" else "coordinates are"
    return "; %s whole hundredths of a millimetre: %s mm is %d" % (what, example, number)


def number_of(place, word, part):
    """One number, or BadText. A number is measured before it is worked out: it may have thousands of digits."""
    _, least, most, takes = TAKES[word]
    if not re.fullmatch("[+-]?[0-9]+", part):
        raise BadText("line %d: %s is no whole number; %s takes %s%s" % (place, shown(part), word, takes, hint(word, part)))
    digits = part.lstrip("+-0") or "0"
    number = int(digits) if len(digits) <= 10 else 2**40
    number = -number if part.startswith("-") else number
    if not least <= number <= most:
        raise BadText("line %d: %s does not fit; %s takes %s" % (place, shown(part).replace("'", ""), word, takes))
    return number


def numbers_of(place, word, rest):
    """The numbers of one line, or BadText."""
    count, _, _, takes = TAKES[word]
    numbers = [number_of(place, word, part) for part in rest]
    if (count is not None and len(numbers) != count) or not numbers:
        raise BadText("line %d: %s takes %s, and here are %d" % (place, word, takes, len(numbers)))
    return numbers


class Reading:
    """What has been read of a description: the numbers under each word, and the line of each."""

    def __init__(self):
        self.found = {word: [] for word in TAKES}
        self.lines = {word: [] for word in TAKES}

    def take(self, place, word, entries):
        self.found[word] += entries
        self.lines[word] += [place] * len(entries)
        name = {"point": "points", "clamp": "clamps"}.get(word, word)
        if word in ONCE and len(self.found[word]) > 1:
            raise BadText("line %d: the %s is given a second time" % (place, word))
        if word not in ONCE and len(self.found[word]) > MOST[name]:
            raise BadText("line %d: %d %s are more than the %d that a job can hold" % (place, len(self.found[word]), name, MOST[name]))

    def job(self):
        if not self.found["degree"]:
            raise BadText("there is no line with the degree")
        if not self.found["radius"]:
            raise BadText(NO_RADIUS)
        return Job(self.found["degree"][0], self.found["knots"], self.found["point"], self.found["radius"][0], self.found["clamp"])


def read_lines(text):
    """The job that a description tells of and the lines of its entries under each word, or BadText."""
    reading = Reading()
    for place, line in enumerate(re.split("\r\n|\r|\n", text), 1):
        word, *rest = line.split("#", 1)[0].split() or [""]
        if not word:
            continue
        if word not in TAKES:
            raise BadText("line %d: %s is none of %s" % (place, shown(word), ", ".join(TAKES)))
        numbers = numbers_of(place, word, rest)
        reading.take(place, word, [tuple(numbers)] if word in ("point", "clamp") else numbers)
    return reading.job(), reading.lines


def read_text(text):
    """The job that a description tells of, or BadText."""
    return read_lines(text)[0]


def refused(job, lines):
    """What clampcheck would refuse in a description, with its line, or None."""
    fault = refusals.fault_of(job)
    if fault is None:
        return None
    line = "line %d: " % lines[fault.line[0]][fault.line[1]] if fault.line else ""
    return "%s%s (clampcheck would say: refused %d)" % (line, fault.words, fault.number)


def write_text(job):
    """The description of a job; where the job has no radius, a remark tells what to write."""
    lines = ["degree %d" % job.degree, ""]
    lines += ["knots " + " ".join(map(str, job.knots[at : at + 16])) for at in range(0, len(job.knots), 16)] + [""]
    lines += ["point %d %d" % point for point in job.points] + [""]
    lines.append("# " + NO_RADIUS if job.radius is None else "radius %d" % job.radius)
    if job.clamps:
        lines += ["", "# low x, high x, low y, high y"]
    lines += ["clamp %d %d %d %d" % clamp for clamp in job.clamps]
    return "\n".join(lines) + "\n"
