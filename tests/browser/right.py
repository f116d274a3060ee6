"""What is right for a job: text and path data of the built programs, or of the second program where they are not built; and comparing with it."""

import re

import program
from job_bytes import record_in
from second_program.path_data import curvesvg_text
from second_program.record import clampcheck_text

LONGEST_SHOWN = 120


def printed(name, data, instead):
    """What a built program prints; where there is none, what stands in for it."""
    try:
        return program.run(name, data).decode("ascii")
    except program.NotBuilt:
        return instead()


def clampcheck(job):
    return printed("clampcheck", job, lambda: clampcheck_text(job)[1])


def curvesvg(job):
    return printed("curvesvg", record_in(job), lambda: curvesvg_text(record_in(job)))


def unbuilt():
    """The programs that are not built."""
    return [name for name in ("clampcheck", "curvesvg") if not program.built(name).is_file()]


def verdicts(text):
    """The verdict on each clamp in its order, as the page's list names it."""
    found = {}
    for number, word in re.findall(r"^clamp (\d+) (clear|may meet)", text, re.MULTILINE):
        found[int(number)] = "clear" if word == "clear" else "meets"
    return found


def shown(value):
    text = repr(value)
    return text if len(text) <= LONGEST_SHOWN else text[:LONGEST_SHOWN] + "..."


def differing(got, right):
    """Of two texts the first lines that differ; other things whole."""
    if not isinstance(got, str) or not isinstance(right, str):
        return got, right
    ones, others = got.splitlines(True) + [""], right.splitlines(True) + [""]
    return next(((one, other) for one, other in zip(ones, others) if one != other), (got, right))


def equal(what, got, right):
    """Ends a try where something is not what is right."""
    if got != right:
        one, other = map(shown, differing(got, right))
        raise AssertionError("%s: %s, where %s is right" % (what, one, other))


def unequal(what, got, other):
    """Ends a try where two things are equal, so that comparing them would show nothing."""
    assert got != other, "%s: there is no difference to be seen between %s and the other" % (what, shown(got))
