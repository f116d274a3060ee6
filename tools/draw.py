#!/usr/bin/env python3
"""Draws a job with what clampcheck says of it, as an SVG picture.

    python3 tools/draw.py JOB PICTURE.svg                 runs the built clampcheck and curvesvg on the job
    python3 tools/draw.py JOB PICTURE.svg OUTPUT          takes what clampcheck printed from the file OUTPUT
    python3 tools/draw.py JOB PICTURE.svg OUTPUT PATH     and what curvesvg printed from the file PATH

The curve is drawn over its domain, from the knot with as many knots in front of it as the degree says to the one with as many behind
it, and as curvesvg printed it, piece by piece. Where curvesvg cannot cut it on the grid (refused 10 or 11), or is not built and
no PATH is given, the pieces are worked out here, and the picture says so.

The cut is a band as wide as the cutter, and each clamp has a second outline, widened by the cutter's radius. Clear clamps are
plain green. Of the others, those that the drawn cut runs into are crossed red, and those that are listed for a box round control
points alone are striped amber. Knots stand on the curve with their values; clamps that lie far off are pointed at from the
border. A refused job gives a picture that says why. The same job and texts give the same bytes.
"""

import os
import sys
import textwrap

import answer
import asking
import cutting
import program
import shape
from drawing import legend, naming, picture, words
from drawing.sheet import Sheet
from drawing.view import View

FOOT = 16


def pieces_of(job, data, path):
    """The Bezier points of each span, as curvesvg printed them; where it printed none they are worked out here, and the second answer says why."""
    spans = shape.spans(job)
    found = None if path is None else asking.CURVESVG.understood(path, data)
    if found and not found.refusal:
        return dict(zip(spans, found.pieces)), None
    if found and found.refusal not in (cutting.FULL, cutting.BETWEEN_LINES):
        raise answer.NotUnderstood("curvesvg refuses, by %d, a curve that clampcheck takes" % found.refusal)
    why = "curvesvg cannot cut this curve on the grid (refused %d)" % found.refusal if found else "curvesvg is not built (tools/try.sh --svg builds it)"
    return {span: shape.bezier(job, span) for span in spans}, why


def draw_answer(job, listed, pieces, why):
    """The picture of a job, with the spans that clampcheck listed for each clamp, and the pieces of the curve, or why they are not curvesvg's."""
    sheet, view = Sheet(), View(job)
    found = words.findings(job, listed, pieces)
    counts = ((len(job.points), "point"), (len(pieces), "span"), (len(found), "clamp"))
    head = ", ".join(["degree %d" % job.degree] + [words.count(*count) for count in counts])
    sheet.text(legend.LEFT, 28, "%s, %s" % (head, words.cutter(job.radius)), legend.SIZE, fill="black")
    drawn = picture.Picture(sheet, view, job, pieces, found)
    drawn.draw()
    naming.Names(drawn).draw()
    under = legend.Legend(sheet, view.bottom + 54)
    under.scale(view)
    under.curve(why, words.outside(job))
    under.signs(drawn)
    under.clamps(found)
    under.beyond(drawn)
    return sheet.svg(under.y + FOOT, words.title(found))


def draw_refusal(found, data):
    """The picture of a refused job: words alone."""
    sheet, y = Sheet(), 50
    lines = asking.CLAMPCHECK.told(found, data, "JOB")
    for place, line in enumerate(["clampcheck refuses this job, so there is no curve to draw", *lines]):
        for part in textwrap.wrap(line, 88):
            sheet.text(legend.LEFT, y, part, 18, fill="black", font_weight="normal" if place else "bold")
            y += 28
        y += 6
    return sheet.svg(y + FOOT, lines[0])


def draw(data, printed, path):
    """The picture of a job's bytes, of what clampcheck printed on them and of what curvesvg printed, None for nothing."""
    found = asking.CLAMPCHECK.understood(printed, data)
    if found.refusal:
        return draw_refusal(found, data)
    return draw_answer(found.job, found.listed, *pieces_of(found.job, data, path))


def texts(data, names):
    """What clampcheck and curvesvg print on a job, from the files that are named; None for a curvesvg that is not built."""
    kept = []
    for name in names:
        with open(name, "rb") as text:
            kept.append(text.read())
    if not kept:
        kept.append(asking.CLAMPCHECK.prints(data))
    if len(kept) == 2:
        return kept
    try:
        return kept[0], asking.CURVESVG.prints(data)
    except program.NotBuilt:
        return kept[0], None


def main(arguments):
    if len(arguments) not in (2, 3, 4):
        sys.exit(__doc__)
    source, target, *names = arguments
    try:
        data = program.read_input(source)
        made = draw(data, *texts(data, names))
        if os.path.exists(target) and any(os.path.samefile(target, name) for name in (source, *names)):
            sys.exit("%s: this is a file that is read; nothing is drawn over it" % target)
        with open(target, "w", encoding="utf-8") as out:
            out.write(made)
    except (program.NotRun, answer.NotUnderstood) as fault:
        sys.exit("%s: %s" % (source, fault))
    except OSError as fault:
        sys.exit("%s: %s" % (fault.filename, fault.strerror))


if __name__ == "__main__":
    main(sys.argv[1:])
