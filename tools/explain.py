"""Says what stands in a job, field by field with the place of each, and at the first fault what was expected there and what was found."""

import refusals
import text_kind
from job_bytes import CLAMP, RADIUS, RECORD, BadJob, fields, lacks_radius, width

ON_A_LINE = 8
SIDES = ("low x", "high x", "low y", "high y")


def counted(count, thing):
    return "%d %s%s" % (count, thing, "" if count == 1 else "s")


def is_clamp(taken):
    return taken.kind.tag == CLAMP.tag


def head_line(taken):
    """Place, tag, length and meaning of a field, as far as they stand there."""
    head = "byte %d: tag %d" % (taken.at, taken.kind.tag)
    if taken.length is None:
        return "%s: %s" % (head, taken.kind.name)
    count, single = taken.length // width(taken.kind), is_clamp(taken) or taken.kind in (RECORD[0], RADIUS)
    return "%s, length %d: %s%s" % (head, taken.length, taken.kind.name, "" if single else ", %d of them" % count)


def entry_lines(taken):
    """The entries of a field, with the place of the first on each line."""
    if is_clamp(taken):
        shown = ["%s %d" % pair for pair in zip(SIDES, taken.numbers)]
        return ["    byte %d: %s" % (taken.at + 3, ", ".join(shown))] if shown else []
    lines = []
    for first in range(0, len(taken.numbers), ON_A_LINE):
        place = taken.at + 3 + first * width(taken.kind)
        lines.append("    byte %d: %s" % (place, " ".join(map(str, taken.numbers[first : first + ON_A_LINE]))))
    return lines


def field_lines(taken):
    return [head_line(taken), *entry_lines(taken)]


def end_line(data, whole):
    """What a job without a fault in its bytes holds."""
    degree, knots, xs, ys, radius, *clamps = [taken.numbers for taken in whole]
    points = counted(len(xs), "point") if len(xs) == len(ys) else "%d x, %d y" % (len(xs), len(ys))
    parts = ("degree %d" % degree[0], counted(len(knots), "knot"), points, "radius %d" % radius[0], counted(len(clamps), "clamp"))
    return "byte %d: here the job ends: %s" % (len(data), ", ".join(parts))


def walk_lines(data):
    """The fields, and the fault or the end."""
    lines, whole = [], []
    try:
        for taken in fields(data):
            whole.append(taken)
            lines += field_lines(taken)
    except BadJob as bad:
        return lines + (field_lines(bad.begun) if bad.begun else []) + [str(bad)]
    return lines + [end_line(data, whole)]


def verdict_lines(data, name):
    """What clampcheck says of the bytes in the file of this name: the refusal in words, or that they are taken."""
    found = refusals.judged(data)
    if found is None:
        return ["clampcheck takes this job"]
    number, place, words = found
    lines = ["clampcheck would say: %s: %s" % (refusals.line(number, place), refusals.WORDS[number])]
    if place is None:
        lines.append(words)
    elif text_kind.is_text(data):
        lines.append("this is %s; python3 tools/job.py make turns a description into a job" % text_kind.kind(data))
    elif lacks_radius(data):
        lines.append(refusals.mending(name))
    return lines


def explained(data, name="JOB"):
    """The lines that explain a job's bytes, sound or not."""
    return walk_lines(data) + verdict_lines(data, name)
