"""Opens path data of the built curvesvg in a real SVG reader and holds the outline that it draws against points of the proved point call.

It is no part of the gate, for the reader is not in the kit: rsvg-convert, in Debian's package librsvg2-bin, draws the path as a PNG picture. It needs the
crates proved, with crates/curvesvg/out/curvesvg built, and takes some seconds behind the building of the archive.

Curves of every degree that can be cut, and the sample, are drawn as README.md draws a path. The points come from tsb_point in the archive, at so many
whole parameters that they lie close together. Every point has to lie on the drawn line, and no place of the line far from all points. Then wrong paths
are drawn: each must be noticed. Curves that are nearly a straight line or turn back within the width of the line are left out: there the reader draws
a wide line with gaps, whatever the path.
"""

import pathlib
import re
import shutil
import subprocess
import sys
from typing import List, NamedTuple, Tuple

TOP = pathlib.Path(__file__).resolve().parents[1]
sys.dont_write_bytecode = True
sys.path[:0] = [str(TOP / "tools"), str(TOP / "tests")]

import program  # noqa: E402
from harness import driver  # noqa: E402
from harness.png import opaque  # noqa: E402
from harness.shapes import Case, Reader, body_of, read_answer  # noqa: E402
from second_program.curve import domain, point_at  # noqa: E402
from second_program.cut_curves import scaled_curve, stretched, whole_curve  # noqa: E402
from second_program.dice import Dice  # noqa: E402
from second_program.pieces import cut  # noqa: E402
from second_program.record import record_of, take_job  # noqa: E402
from second_program.spans import spans  # noqa: E402

READER = "rsvg-convert"
EACH = 5  # curves of each degree
SIZE, LINE = 500, 5  # pixels: the longer side of the picture, and how wide the line is
MARGIN = 0.05
CLOSE = 1.5  # pixels: neighbours among the points are no further apart
FLATTEST = 0.2  # the shorter side of a curve's box, of the longer
ROUGHLY = 300  # parameters for a first look at a curve
TURN = 3  # pixels: in a way of twice this length a curve does not turn back
SLACK = 1.5  # pixels: what the reader may smear at the edge of a line
COVERED = 200  # of 255
TURNED = 'transform="scale(1,-1)"'


class Shown(NamedTuple):
    """The part of the grid that a picture shows: its left side and its upper one, pixels for a step, and the picture's size."""

    left: float
    top: float
    scale: float
    wide: int
    high: int

    def at(self, point):
        return (point[0] - self.left) * self.scale, (self.top - point[1]) * self.scale


class Drawn(NamedTuple):
    """A curve with the path that curvesvg printed, and computed points that lie close together."""

    name: str
    path: str
    points: List[Tuple[float, float]]
    shown: Shown


def shown_round(points):
    """What a picture of some points shows."""
    xs, ys = zip(*points)
    margin = max(MARGIN * max(max(xs) - min(xs), max(ys) - min(ys)), 1)
    wide, high = max(xs) - min(xs) + 2 * margin, max(ys) - min(ys) + 2 * margin
    scale = SIZE / max(wide, high)
    return Shown(min(xs) - margin, max(ys) + margin, scale, int(wide * scale) + 1, int(high * scale) + 1)


def computed(curve, parameters):
    """The points of a curve at whole parameters, by the archive."""
    given = dict(degree=curve.degree, knots=curve.knots, x=curve.xs, y=curve.ys)
    cases = [Case("", "point_at", body_of("point_at", dict(given, t=t), ()), ()) for t in parameters]
    status, answers, faults = driver.run("first", cases)
    assert status == 0 and not faults, "the driver ended with status %d: %s" % (status, faults[:3])
    reader, points = Reader(answers), []
    for case in cases:
        (_, number), (_, x), (_, y) = read_answer(case, reader)
        assert number == 0, "a point is refused by %d" % number
        points.append((x, y))
    return points


def apart(shown, points):
    """How far neighbours are apart in a picture, at most, in pixels."""
    places = [shown.at(point) for point in points]
    return max(max(abs(a - b) for a, b in zip(one, other)) for one, other in zip(places, places[1:]))


def thinned(places, least):
    """Of some places the first and those that are so far, or further, from the one kept before."""
    kept = places[:1]
    for place in places[1:]:
        if (place[0] - kept[-1][0]) ** 2 + (place[1] - kept[-1][1]) ** 2 >= least**2:
            kept.append(place)
    return kept


def turns_back(places):
    """Whether the way through some places turns by a right angle or more between one step and the next but one."""
    kept = thinned(places, TURN)
    steps = [(b[0] - a[0], b[1] - a[1]) for a, b in zip(kept, kept[1:])]
    return any(a[0] * b[0] + a[1] * b[1] <= 0 for a, b in zip(steps, steps[2:]))


def plain(curve):
    """Whether the reader draws such a curve without gaps: it fills a picture both ways, neighbours in its path are further apart than the line is wide, and
    it does not turn back."""
    low, high = domain(curve)
    points = [point_at(curve, t)[1:] for t in (*range(low, high, max(1, (high - low) // ROUGHLY)), high)]
    shown = shown_round(points)
    sides = sorted(max(axis) - min(axis) for axis in zip(*points))
    legs = [shown.at(point) for piece in cut(curve)[1] for point in piece.points[: curve.degree]]
    if sides[0] < FLATTEST * sides[1] or len(thinned(legs, LINE)) < len(legs):
        return False
    return curve.degree == 1 or not turns_back([shown.at(point) for point in points])


def parameters(curve):
    """Whole parameters that are close enough, or None where a span is too short for it. The second program chooses, the archive computes."""
    low, high = domain(curve)
    rough = [point_at(curve, t)[1:] for t in range(low, high + 1)]
    shown = shown_round(rough)
    for step in (8, 4, 2, 1):
        chosen = [*range(0, high - low, step), high - low]
        if apart(shown, [rough[k] for k in chosen]) <= CLOSE:
            return [low + k for k in chosen]
    return None


def drawn_curve(name, curve):
    """A curve on its own knots for the path, and on knots further apart, where it has the same points, for the parameters."""
    wide = stretched(curve)
    chosen = parameters(wide) if plain(wide) else None
    if chosen is None:
        return None
    printed = program.run("curvesvg", record_of(curve)).decode("ascii")
    assert re.fullmatch("M[^\n]*\n", printed), "%s: curvesvg prints %r" % (name, printed[:60])
    points = computed(wide, chosen)
    return Drawn(name, printed[:-1], points, shown_round(points))


def curves():
    sample, _, _ = take_job((TOP / "examples" / "sign.job").read_bytes())
    yield drawn_curve("the sample", sample)
    dice = Dice(2718)
    for m in (1, 2, 3):
        found = 0
        while found < EACH:
            curve = scaled_curve(dice, m) if m > 1 and dice.chance(2) else whole_curve(dice, m, m + dice.between(3, 9))
            drawn = drawn_curve("curve %d of degree %d" % (found + 1, m), curve) if len(spans(curve)) > 2 else None
            if drawn:
                found += 1
                yield drawn


def picture(path, shown, turn):
    """The opacity of each pixel, where the reader draws the path."""
    sides = (shown.left, -shown.top, shown.wide / shown.scale, shown.high / shown.scale)
    head = '<svg xmlns="http://www.w3.org/2000/svg" width="%d" height="%d" viewBox="%r %r %r %r">' % (shown.wide, shown.high, *sides)
    style = 'fill="none" stroke="black" stroke-width="%r" stroke-linecap="round" stroke-linejoin="round"' % (LINE / shown.scale)
    text = '%s<path d="%s" %s %s/></svg>' % (head, path, turn, style)
    ended = subprocess.run([READER], input=text.encode("ascii"), stdout=subprocess.PIPE, check=True, timeout=60)
    wide, high, rows = opaque(ended.stdout)
    assert (wide, high) == (shown.wide, shown.high), "the reader draws %d by %d pixels" % (wide, high)
    return rows


def near(places, wide, high):
    """For each pixel whether its middle is as near to some place as a line along the places reaches, and some slack."""
    reach = LINE / 2 + CLOSE + SLACK
    marked = [bytearray(wide) for _ in range(high)]
    for x, y in {(int(x), int(y)) for x, y in places}:
        for row in range(max(0, int(y - reach)), min(high, int(y + reach) + 2)):
            half = max(0, reach**2 - (row - y) ** 2) ** 0.5
            first, last = max(0, int(x - half)), min(wide, int(x + half) + 1)
            marked[row][first:last] = b"\1" * (last - first)
    return marked


def disagreement(drawn, path, turn=TURNED):
    """Where the outline of a path and the computed points part, in words; None where they agree."""
    rows, places = picture(path, drawn.shown, turn), [drawn.shown.at(point) for point in drawn.points]
    for point, (x, y) in zip(drawn.points, places):
        if rows[int(y)][int(x)] < COVERED:
            return "the point %r is not on the line" % (point,)
    for y, (row, marked) in enumerate(zip(rows, near(places, drawn.shown.wide, drawn.shown.high))):
        for x, (there, known) in enumerate(zip(row, marked)):
            if there and not known:
                return "the line is drawn at pixel %d %d, far from every point" % (x, y)
    return None


def wrong_paths(drawn):
    """Paths that are not the curve's, by what is wrong with each."""
    start, *pieces = re.split(" (?=[LQC])", drawn.path)
    yield "its pieces in the other order", " ".join([start, *pieces[::-1]]), TURNED
    yield "one piece short", " ".join([start, *pieces[:-1]]), TURNED
    yield "y not turned", drawn.path, ""
    yield "x and y exchanged", re.sub(r"(-?\d+) (-?\d+)", r"\2 \1", drawn.path), TURNED
    if pieces[0].startswith("C"):
        yield "quadratic for cubic", " ".join([start, *[re.sub(r"^C (\S+ \S+) \S+ \S+", r"Q \1", piece) for piece in pieces]]), TURNED
    if pieces[0].startswith("Q"):
        yield "straight for quadratic", " ".join([start, *[re.sub(r"^Q \S+ \S+", "L", piece) for piece in pieces]]), TURNED


def main():
    if not shutil.which(READER):
        sys.exit("%s is not here; Debian has it in the package librsvg2-bin" % READER)
    faults, noticed, points, count = [], 0, 0, 0
    try:
        driver.build()
        for drawn in curves():
            count, points = count + 1, points + len(drawn.points)
            differs = disagreement(drawn, drawn.path)
            if differs:
                faults.append("%s: %s" % (drawn.name, differs))
            for what, path, turn in wrong_paths(drawn) if count % 3 == 1 else ():
                noticed += 1
                if disagreement(drawn, path, turn) is None:
                    faults.append("%s, %s: it passes" % (drawn.name, what))
    except (driver.Failed, program.NotRun) as fault:
        sys.exit(str(fault))
    for fault in faults:
        print(fault)
    print("%s: %d curves against %d computed points, %d wrong paths, %d faults" % (READER, count, points, noticed, len(faults)))
    sys.exit(bool(faults))


if __name__ == "__main__":
    main()
