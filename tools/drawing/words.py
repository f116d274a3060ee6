"""What a picture says in words of each clamp: clear, entered by the drawn cut, or listed for a box alone."""

from collections import namedtuple

import shape
from answer import NotUnderstood
from drawing.view import length

CLEAR, ENTERED, BOXED = "clear", "entered", "boxed"
MOST_NAMED = 6

# The kind of a clamp, the spans whose cut enters it, the spans that are listed for their box alone, and whether the line itself stays out.
Finding = namedtuple("Finding", "kind entered boxed missed")


def findings(job, listed, pieces):
    """For each clamp what the drawing shows, from the spans that clampcheck listed and the Bezier points of the spans."""
    boxes = {span: shape.box(shape.carrying(job, span[0])) for span in pieces}

    def reaching(clamp, radius):
        outline = shape.widened(clamp, radius)
        return [span for span in pieces if shape.meet(boxes[span], outline) and shape.reaches(pieces[span], clamp, radius)]

    found = []
    for number, (clamp, spans) in enumerate(zip(job.clamps, listed), 1):
        entered = reaching(clamp, job.radius)
        if not set(entered) <= set(spans):
            raise NotUnderstood("the drawn cut enters clamp %d where the text does not list it: %s" % (number, named(entered)))
        boxed = sorted(set(spans) - set(entered))
        kind = ENTERED if entered else BOXED if boxed else CLEAR
        found.append(Finding(kind, entered, boxed, not reaching(clamp, 0)))
    return found


def runs(spans):
    """Spans that follow each other, taken together: low knot, high knot and how many."""
    taken = []
    for _, low, high in spans:
        if taken and taken[-1][1] == low:
            taken[-1] = taken[-1][0], high, taken[-1][2] + 1
        else:
            taken.append((low, high, 1))
    return taken


def named(spans):
    """Spans by their knots; where they are many, those that follow each other together."""
    if len(spans) <= MOST_NAMED:
        return ", ".join("%d..%d" % span[1:] for span in spans)
    together = runs(spans)
    names = ["%d..%d" % run[:2] + (" (%d spans)" % run[2] if run[2] > 1 else "") for run in together[:MOST_NAMED]]
    left = sum(run[2] for run in together[MOST_NAMED:])
    return ", ".join(names) + (" and %d more" % left if left else "")


def listing(numbers):
    """Numbers, with three or more that follow each other as `a to b`."""
    taken = []
    for number in numbers:
        if taken and taken[-1][1] == number - 1:
            taken[-1] = taken[-1][0], number
        else:
            taken.append((number, number))
    parts = []
    for low, high in taken:
        parts += ["%d to %d" % (low, high)] if high > low + 1 else map(str, range(low, high + 1))
    return ", ".join(parts)


def count(many, thing):
    """So many of a thing."""
    return "%s %s%s" % (format(many, ","), thing, "" if many == 1 else "s")


def cutter(radius):
    """The cutter by its width."""
    return "a cutter %s wide (radius %d)" % (length(2 * radius), radius) if radius else "a pen (radius 0)"


def outside(job):
    """What is said where there are knots outside the domain; None where there are none."""
    low, high = shape.domain(job)
    if low == job.knots[0] and high == job.knots[-1]:
        return None
    return "the curve goes from knot %d to knot %d; the knots outside, %d to %d, are there for its ends alone" % (low, high, job.knots[0], job.knots[-1])


def numbers_of(found, kind):
    return [number for number, finding in enumerate(found, 1) if finding.kind == kind]


def heading(kind, numbers):
    """The line over the clamps of one kind."""
    which = "clamp" if len(numbers) == 1 else "clamps"
    if kind == CLEAR:
        return "clear, proved for the whole cut: %s %s" % (which, listing(numbers))
    if kind == ENTERED:
        return "the drawn cut runs into, or touches, %s %s" % (which, listing(numbers))
    return "listed for a box alone: %s %s; the drawn cut stays out (seen here, not proved)" % (which, listing(numbers))


def lines(found, kind):
    """A line for each clamp of a kind; clamps of which the same is said share one."""
    told = {}
    for number in numbers_of(found, kind):
        told.setdefault(said(found[number - 1]), []).append(number)
    return ["clamp%s %s: %s" % ("s" if len(numbers) > 1 else "", listing(numbers), words) for words, numbers in told.items()]


def said(finding):
    """What is said of a clamp that is not clear."""
    if finding.kind == BOXED:
        return "the box of %s" % named(finding.boxed)
    width = " by the cutter's width, the line itself stays out" if finding.missed else ""
    more = "; the box alone of %s" % named(finding.boxed) if finding.boxed else ""
    return "the cut of %s%s%s" % (named(finding.entered), width, more)


def title(found):
    """The picture in a sentence."""
    kinds = ((CLEAR, "clear"), (ENTERED, "run into or touched by the cut"), (BOXED, "listed for a box alone"))
    counts = ["%d %s" % (len(numbers_of(found, kind)), word) for kind, word in kinds]
    return "A curve and %s: %s" % (count(len(found), "clamp"), ", ".join(counts))
