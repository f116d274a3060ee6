"""tools/draw.py: what a picture shows is so, nothing small is covered, far clamps do not shrink it, and it never ends in a traceback.

The pictures are read back as XML. Points of the curve come from the second program's exact curve.
"""

import pathlib
import random
import sys
import xml.etree.ElementTree as xml
from fractions import Fraction
from itertools import product

sys.dont_write_bytecode = True
sys.path[:0] = [str(pathlib.Path(__file__).resolve().parents[1])]

from pretended import in_folder, run_parts  # noqa: E402
import draw  # noqa: E402
import refusals  # noqa: E402
import shape  # noqa: E402
from drawing import labels, words  # noqa: E402
from harness.drawn import SIGN, all_of, bands, curve_of, frame, picture, place, scale_and_origin, texts, texts_on  # noqa: E402
from job_bytes import Job, write_job  # noqa: E402
from second_program.curve import exact_point  # noqa: E402
from second_program.record import clampcheck_text  # noqa: E402

FILLS = {"#cfe8dc": words.CLEAR, "url(#crossed)": words.ENTERED, "url(#striped)": words.BOXED}
PART = 16


def clamp_places(drawn):
    """The drawn clamps, without the signs of the legend: each place with its kind."""
    bottom = frame(drawn)[3]
    return {(place(rect), FILLS[rect["fill"]]) for rect in all_of(drawn, "rect") if rect.get("fill") in FILLS and place(rect)[1] < bottom}


def label_places(drawn):
    return [place(rect) for rect in all_of(drawn, "rect") if rect.get("rx") == "3"]


def overlap(one, other, slack=0.05):
    return one[0] + slack < other[2] and other[0] + slack < one[2] and one[1] + slack < other[3] and other[1] + slack < one[3]


def random_job(dice, clamps=62):
    """A curve of any degree, long or flat, a pen or a cutter, and clamps of many sizes round it, some far off, some twice."""
    m, size, flat = dice.choice((1, 2, 3)), dice.choice((100, 3000, 20000)), dice.choice((1, 30))
    count = dice.randint(m + 1, 25)
    knots = [0] * (m + 1) + sorted(dice.sample(range(1, 999), count - m - 1)) + [1000] * (m + 1)
    points = [(dice.randint(0, size), dice.randint(0, size // flat)) for _ in range(count)]
    found = []
    for _ in range(clamps):
        x, y = dice.randint(-size // 9, size), dice.randint(-size // 9, size)
        wide = dice.choice((0, 1, size // 90, size // 20, size // 6))
        far = dice.choice((0,) * 12 + (9 * size,))
        found.append((x + far, x + far + wide, y, y + dice.choice((wide, wide // 9, 0))))
    return Job(m, knots, points, dice.choice((0, size // 60, size // 15)), found + found[:2])


def shapes():
    """Bezier points are exact, and the cut counts as reaching a clamp where the exact curve has a point so near, and only about there."""
    dice = random.Random(3)
    kinds = set()
    for _ in range(6):
        job = random_job(dice, 8)
        for span in shape.spans(job):
            points = shape.bezier(job, span)
            sampled = [exact_point(curve_of(job), span[1] + Fraction(span[2] - span[1], PART) * k) for k in range(PART + 1)]
            assert [shape.bezier_at(points, Fraction(k, PART)) for k in range(PART + 1)] == sampled, "a piece is not the curve's"
            step = max(abs(a - b) for one, other in zip(sampled, sampled[1:]) for a, b in zip(one, other)) + Fraction(1, 100)
            for clamp, radius in product(job.clamps, (0, job.radius, 700)):
                reached = shape.reaches(points, clamp, radius)
                kinds.add((reached, shape.meet(shape.box(shape.carrying(job, span[0])), shape.widened(clamp, radius))))
                nearest = min(shape.distance(point, clamp) for point in sampled)
                assert reached or nearest > radius, "a clamp is reached and does not count so"
                assert not reached or nearest <= radius + 2 * step, "a clamp counts as reached and is not"
    assert kinds == {(True, True), (False, True), (False, False)}, "not every kind was met: %s" % kinds


def distances():
    """Worked by hand: an arch, and straight lines past a corner, where the distance is that of the 3-4-5 triangle."""
    arch, above = [(0, 0), (0, 8), (8, 8), (8, 0)], (0, 8, 8, 9)
    assert shape.reaches(arch, (0, 8, 6, 9), 0) and not shape.reaches(arch, (0, 8, 7, 9), 0), "the arch is 6 high"
    assert shape.reaches(arch, (3, 3, 0, 9), 0), "a clamp without width"
    assert shape.reaches(arch, above, 2) and not shape.reaches(arch, above, 1), "the arch ends 2 below"
    assert shape.reaches(arch, (4, 4, 1, 1), 4) and not shape.reaches(arch, (4, 4, 1, 1), 3), "inside the arch"
    corner = (13, 20, 4, 9)
    assert shape.line_square((0, 0), (10, 0), corner) == 25 and shape.line_square((10, 0), (10, 0), corner) == 25, "past an end"
    assert shape.reaches([(0, 0), (10, 0)], corner, 5) and not shape.reaches([(0, 0), (10, 0)], (14, 20, 4, 9), 5), "past an end"
    assert shape.reaches(arch, (4, 4, -40, -40), 41) and not shape.reaches(arch, (4, 4, -40, -40), 40), "between the feet of the arch"
    slope = (-5, 10), (11, -2)  # 3x + 4y = 25, which is 5 from the origin
    assert shape.line_square(*slope, (-9, 0, -9, 0)) == 25 and shape.line_square(*slope, (-9, 1, -9, 1)) == Fraction(324, 25), "along a slope"
    assert shape.reaches(slope, (-9, 0, -9, 0), 5) and not shape.reaches(slope, (-9, 0, -9, 0), 4), "along a slope"
    assert shape.line_square((0, 0), (9, 9), (2, 3, 5, 9)) == 2 and shape.line_square((0, 0), (9, 9), (2, 3, 3, 9)) == 0, "a diagonal"


def sign():
    """The sample: kinds in words and by pattern, each knot's value beside its place, and the scale."""
    drawn = picture(SIGN)
    said = texts(drawn)
    for line in (
        "degree 3, 12 points, 9 spans, 5 clamps, a cutter 3.0 mm wide (radius 150)",
        "the cut: the wood that a cutter 3.0 mm wide takes away along the curve",
        "round a clamp: the clamp widened by the cutter's radius, 1.5 mm, on all four sides; clampcheck lists",
        "the drawn cut runs into, or touches, clamps 1, 2, 5",
        "clamp 1: the cut of 0..10 by the cutter's width, the line itself stays out",
        "clamp 2: the cut of 20..30, 30..40; the box alone of 10..20, 40..50",
        "clamp 5: the cut of 80..90",
        "listed for a box alone: clamp 3; the drawn cut stays out (seen here, not proved)",
        "clamp 3: the box of 10..20",
        "clear, proved for the whole cut: clamp 4",
    ):
        assert line in said, "the picture does not say %r" % line
    kinds = sorted(kind for _, kind in clamp_places(drawn))
    assert kinds == sorted([words.CLEAR] + [words.ENTERED] * 3 + [words.BOXED]), kinds
    scale, origin = scale_and_origin(drawn)
    bar = next(line for line in all_of(drawn, "polyline") if line["points"].startswith("60,"))["points"].split()
    assert "20 mm" in said and abs(float(bar[-1].split(",")[0]) - 60 - 2000 * scale) < 0.1, "the scale is wrong"
    values = {part.text: part.attrib for part in drawn.iter("{http://www.w3.org/2000/svg}text") if part.get("font-size") == "12"}
    assert set(values) == {str(knot) for knot in SIGN.knots}, "not every knot has its value: %s" % sorted(values)
    for value, label in values.items():
        x, y = (float(c) for c in exact_point(curve_of(SIGN), int(value)))
        x, y = origin[0] + x * scale, origin[1] - y * scale
        away = ((float(label["x"]) - x) ** 2 + (float(label["y"]) - y) ** 2) ** 0.5
        assert away < 60, "the value %s stands %.0f away from its knot" % (value, away)


def outlines(drawn):
    """The places of the widened clamps, without the sign in the legend."""
    return [place(rect) for rect in all_of(drawn, "rect") if rect.get("clip-path")]


def with_radius(radius, clamps=SIGN.clamps):
    return Job(SIGN.degree, SIGN.knots, SIGN.points, radius, clamps)


def on_sheet(drawn, sides, radius):
    """Where a box of the grid, widened by a radius, belongs in a picture with the sample's points: left, top, right, bottom."""
    scale, (x, y) = scale_and_origin(drawn)
    low_x, high_x, low_y, high_y = sides
    return x + (low_x - radius) * scale, y - (high_y + radius) * scale, x + (high_x + radius) * scale, y - (low_y - radius) * scale


def inside(one, other):
    """Whether a place lies in another."""
    return other[0] <= one[0] and other[1] <= one[1] and one[2] <= other[2] and one[3] <= other[3]


def band(drawn, radius):
    """One line along the whole curve, as wide as the cutter, that can be looked through, with room for it."""
    (cut,) = bands(drawn)
    assert abs(float(cut["stroke-width"]) - 2 * radius * scale_and_origin(drawn)[0]) < 0.02, "the band is %s wide" % cut["stroke-width"]
    assert cut["stroke-linejoin"] == "round" and 0 < float(cut["stroke-opacity"]) < 1, "the band is drawn as %s" % cut
    assert cut["d"].count("C") == 9 and cut["d"].count("M") == 1, "the band is not the whole curve"
    assert inside(on_sheet(drawn, shape.box(SIGN.points), radius), frame(drawn)), "the band leaves the frame"


def cutter():
    """The cut as a band, an outline round each clamp, with room for both; a pen has neither."""
    for radius in (1, 150, 4096):
        drawn, bare = picture(with_radius(radius)), picture(with_radius(radius, []))
        band(drawn, radius)
        band(bare, radius)
        for found, clamp in zip(outlines(drawn), SIGN.clamps):
            right = on_sheet(drawn, clamp, radius)
            assert all(abs(a - b) < 0.03 for a, b in zip(found, right)), "clamp %s is widened to %s and not to %s" % (clamp, found, right)
            assert inside(found, frame(drawn)), "the outline of clamp %s leaves the frame" % (clamp,)
        assert len(outlines(drawn)) == 5 and not outlines(bare), "not every clamp has an outline"
        assert not any("widened" in line for line in texts(bare)), "an outline without a clamp is explained"
    pen = picture(with_radius(0))
    assert not bands(pen) and not outlines(pen) and not any("widened" in line or "the cut:" in line for line in texts(pen)), "a pen has a width"
    assert "degree 3, 12 points, 9 spans, 5 clamps, a pen (radius 0)" in texts(pen)


def kinds():
    """The kind of a clamp by true distance: a cutter of radius 5 at the end of a line touches a corner 3 and 4 away, and no corner 4 and 4 away."""
    line = lambda radius, *clamps: Job(1, [0, 0, 1, 1], [(0, 0), (10, 0)], radius, list(clamps))
    for radius, clamp, kind, missed in (
        (5, (13, 20, 4, 9), words.ENTERED, True),
        (5, (14, 20, 4, 9), words.BOXED, None),
        (5, (16, 20, -9, 9), words.CLEAR, None),
        (5, (15, 20, 0, 0), words.ENTERED, True),
        (5, (8, 9, 0, 0), words.ENTERED, False),
        (4, (13, 20, 4, 9), words.BOXED, None),
        (3, (13, 20, 4, 9), words.CLEAR, None),
        (0, (10, 20, 0, 9), words.ENTERED, False),
        (0, (11, 20, 0, 9), words.CLEAR, None),
    ):
        drawn = picture(line(radius, clamp))
        assert [found for _, found in clamp_places(drawn)] == [kind], "radius %d, clamp %s: %s" % (radius, clamp, clamp_places(drawn))
        if kind == words.ENTERED:
            told = "clamp 1: the cut of 0..1" + (" by the cutter's width, the line itself stays out" if missed else "")
            assert told in texts(drawn), "radius %d, clamp %s: %s" % (radius, clamp, texts(drawn))


def open_ends():
    """A curve over its domain alone: from 2 to 4 of the knots 0 to 6, with its ends between control points; what only knots outside would list is clear."""
    job = Job(2, list(range(7)), [(0, 0), (400, 800), (800, 800), (1200, 0)], 10, [(590, 610, 790, 810)])
    drawn = picture(job)
    assert "the curve goes from knot 2 to knot 4; the knots outside, 0 to 6, are there for its ends alone" in texts(drawn), texts(drawn)
    values = {part.text for part in drawn.iter("{http://www.w3.org/2000/svg}text") if part.get("font-size") == "12"}
    assert values == {"2", "3", "4"}, "knots outside the domain are drawn: %s" % values
    dots = [(float(dot["cx"]), float(dot["cy"])) for dot in all_of(drawn, "circle")]
    halfway = [tuple((a + b) / 2 for a, b in zip(*pair)) for pair in (dots[:2], dots[1:3], dots[2:4])]
    (cut,) = bands(drawn)
    places = [tuple(map(float, pair.split(","))) for pair in cut["d"].replace("M", "").replace("Q", "").split()]
    for found, right in zip(places[::2], halfway):
        assert all(abs(a - b) < 0.03 for a, b in zip(found, right)), "the curve passes %s and not %s" % (found, right)
    assert len(places) == 5 and [kind for _, kind in clamp_places(drawn)] == [words.ENTERED]
    idle = Job(1, [0, 1, 1, 2, 3], [(5000, 5000), (0, 0), (800, 400)], 10, [(4900, 5100, 4900, 5100)])
    assert [kind for _, kind in clamp_places(picture(idle))] == [words.CLEAR], "a span outside the domain is listed"
    assert not any("outside" in line for line in texts(picture(SIGN))), "the sample has no knots outside"


def crowded():
    """No label on a small clamp or on another label, every number is there, and everything lies on the sheet."""
    dice = random.Random(8)
    for _ in range(5):
        job = random_job(dice)
        drawn = picture(job)
        clamps, named_there = clamp_places(drawn), label_places(drawn)
        small = [at for at, _ in clamps if min(at[2] - at[0], at[3] - at[1]) < 15]
        assert len(small) > 5 and len(named_there) > 30
        for k, label in enumerate(named_there):
            assert not any(overlap(label, at) for at in small), "a small clamp is covered"
            assert not any(overlap(label, other) for other in named_there[:k]), "two labels cover each other"
            assert 0 <= label[0] and label[2] <= 1000 and 0 <= label[1], "a label lies off the sheet"
        bold = [part for part in drawn.iter("{http://www.w3.org/2000/svg}text") if part.get("font-weight")]
        named = [part.text for part in bold if part.get("text-anchor")]
        left = set(range(1, 65)) - {number for words_there in named for number in numbers_in(words_there)}
        assert not left, "clamps without a number: %s" % left


def beside_outlines():
    """A label stands off the sides of an outline, where it would stand on them if they were not marked."""
    home, outline = (400, 400, 450, 430), (389, 389, 461, 441)
    crossed = lambda box: overlap(box, outline) and not overlap(box, home)
    plain, marked = (labels.Labels((0, 0, 999, 999)) for _ in range(2))
    marked.mark_sides(outline)
    assert crossed(plain.find(home, 20, 19, 400)) and not crossed(marked.find(home, 20, 19, 400)), "a label stands on an outline"


def numbers_in(label):
    """The clamps that a label names: `3`, `3, 4`, `3 to 5`; arrows name the first three, and the legend all."""
    names, found = label.split(":")[0].split(" and ")[0], []
    for part in names.split(", "):
        ends = [int(end) for end in part.split(" to ")]
        found += range(ends[0], ends[-1] + 1)
    if " and " in label:
        found = range(1, 65)
    return found


def curve_width(drawn):
    paths = [path["d"].replace("M", "").replace("C", "") for path in all_of(drawn, "path") if " C" in path["d"]]
    xs = [float(pair.split(",")[0]) for path in paths for pair in path.split()]
    return max(xs) - min(xs)


def far():
    """A far clamp gets an arrow with its distance, and a long one is cut; the curve stays large."""
    plain = curve_width(picture(SIGN))
    away = (200000, 210000, 100000, 110000)
    drawn = picture(with_radius(150, SIGN.clamps + [away, (-262144, 262144, 8000, 9000)]))
    assert curve_width(drawn) > 330 and plain > 600, "the curve is a dot: %s" % curve_width(drawn)
    distance = min(shape.distance(exact_point(curve_of(SIGN), Fraction(k, 9)), away) for k in range(811)) / 100000
    assert "6: %.2f m" % distance in texts(drawn), "the arrow does not tell %.2f m" % distance
    assert "beyond the picture, measured from the curve: clamp 6 about %.2f m" % distance in texts(drawn)
    assert "cut off at the frame, and going on beyond it: clamp 7" in texts(drawn)
    left, top, right, bottom = frame(drawn)
    (window,) = (part for part in drawn.iter("{http://www.w3.org/2000/svg}clipPath") if part.get("id") == "frame")
    assert place(window[0].attrib) == (left, top, right, bottom), "the window of the outlines is not the frame"
    assert len(outlines(drawn)) == 6 and outlines(drawn)[5][0] < left, "an outline that goes on beyond the frame ends at it"
    assert all(left - 0.1 <= at[0] and at[2] <= right + 0.1 for at, _ in clamp_places(drawn)), "a clamp sticks out of the frame"


def long_curve():
    """1,024 points: the ends of what is listed are marked, and the picture stays readable and short."""
    points = [(40 * k, (k * k) % 97 * 20) for k in range(1024)]
    knots = [0] * 4 + [16 * k for k in range(1, 1021)] + [16336] * 4
    job = Job(3, knots, points, 30, [(20000, 20400, 0, 3000), (0, 9, 5000, 5009)])
    data = write_job(job)
    listed = [line.split()[-1] for line in clampcheck_text(data)[1].splitlines() if "clamp 1 " in line]
    drawn = draw.draw(data, *texts_on(data))
    said = texts(xml.fromstring(drawn))
    assert len(listed) > 8 and {listed[0].split("..")[0], listed[-1].split("..")[1]} <= set(said), "what is listed cannot be found"
    assert len(drawn) < 500000


def odd():
    """Curves and clamps at the limits of what is drawn at all."""
    for job in (
        Job(1, [0, 0, 1, 1], [(5, 5), (5, 5)], 0, [(100, 200, 5, 5), (5, 5, 5, 5)]),
        Job(1, [0, 0, 1, 1], [(5, 5), (5, 5)], 4096, [(100, 200, 5, 5), (5, 5, 5, 5)]),
        Job(1, [0, 0, 1, 1], [(-262144, 0), (262144, 0)], 0, [(0, 0, 0, 0)] * 64),
        Job(1, [0, 0, 1, 1], [(-262144, 0), (262144, 0)], 4096, [(262144, 262144, -262144, 262144)] * 64),
        Job(2, [0, 0, 0, 16383, 16383, 16383], [(0, 0), (0, 262144), (0, -262144)], 1, []),
    ):
        drawn = picture(job)
        for line in all_of(drawn, "polyline"):
            assert all(-1 <= float(pair.split(",")[0]) <= 1001 for pair in line["points"].split()), "a line leaves the sheet"


def refused():
    """Every refusal gives a picture with its words."""
    broken = {16: 4, 19: 0, 20: 1, 21: 3}
    for number in refusals.TOLD["clampcheck"]:
        line = refusals.line(number, broken.get(number))
        drawn = xml.fromstring(draw.draw(b"\x01\x01\x00\x05", line.encode() + b"\n", None))
        said = " ".join(texts(drawn))
        assert "%s: %s" % (line, refusals.WORDS[number]) in said, "refusal %d is told as %r" % (number, said)
        assert ("job.py explain" in said) == (number in broken), "refusal %d: %r" % (number, said)


@in_folder
def commands(folder):
    """The same job gives the same bytes, whatever the seed of Python's sets; wrong texts are told of in a line."""
    job = folder.top / "job"
    job.write_bytes(write_job(random_job(random.Random(1))))
    (folder.top / "text").write_text(clampcheck_text(job.read_bytes())[1])
    made = []
    for seed in "12":
        ended = folder.run("sh", "-c", "PYTHONHASHSEED=%s; export PYTHONHASHSEED; python3 tools/draw.py job made.svg text" % seed)
        assert ended.returncode == 0, ended.stderr
        made.append((folder.top / "made.svg").read_bytes())
    assert made[0] == made[1], "two runs give two pictures"
    before = job.read_bytes()
    (folder.top / "cut").write_text("curve degree 3\n")
    (folder.top / "hid").write_text("curve degree 3 points 12 spans 9\n" + "".join("clamp %d clear\n" % k for k in range(1, 6)))
    for rest in (
        ("job", "job", "text"),
        ("job", "text", "text"),
        ("job", "made.svg", "cut"),
        ("none", "made.svg", "text"),
        ("job", "made.svg", "none"),
        ("job", "tools", "text"),
        ("examples/sign.job", "made.svg", "text"),
        ("examples/sign.job", "made.svg", "hid"),
        ("job", "made.svg"),
    ):
        ended = folder.run("python3", "tools/draw.py", *rest)
        assert ended.returncode == 1 and ended.stderr.count(b"\n") == 1, "%s: %r" % (rest, ended.stderr)
    assert job.read_bytes() == before and (folder.top / "made.svg").read_bytes() == made[0], "something was written over"
    (folder.top / "refused").write_text("refused 4\n")
    assert folder.run("python3", "tools/draw.py", "job", "made.svg", "refused").returncode == 0, "a refused job gives no picture"


DONE = "tools/draw.py: shapes, distances, the sample, cutters, kinds of clamps, open ends, 5 crowded sheets, far clamps, 1,024 points, %d refusals"
run_parts(DONE % len(refusals.TOLD["clampcheck"]), shapes, distances, sign, cutter, kinds, open_ends, crowded, beside_outlines, far, long_curve, odd, refused, commands)
