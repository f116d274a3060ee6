"""tools/curvesvg and what it stands on: a path is passed on only where it is that of the file's own curve, a refusal is told in words, and what is
no answer gives 3. What is right is what the second program says.
"""

import pathlib
import re
import sys
import xml.etree.ElementTree as xml

sys.dont_write_bytecode = True
sys.path[:0] = [str(pathlib.Path(__file__).resolve().parents[1])]

from pretended import TOP, in_folder, prints, run_parts  # noqa: E402
import answer  # noqa: E402
import asking  # noqa: E402
import description  # noqa: E402
import path_answer  # noqa: E402
import refusals  # noqa: E402
import shape  # noqa: E402
from harness.changed import changed  # noqa: E402
from job_bytes import PLACED, read_record, record_in, write_job  # noqa: E402
from second_program.broken_cases import broken_records  # noqa: E402
from second_program.curve import Curve  # noqa: E402
from second_program.cut_curves import knots_of, large_curve, moved, scaled_curve, unwhole_from, whole_curve  # noqa: E402
from second_program.dice import Dice  # noqa: E402
from second_program.job_cases import job_of  # noqa: E402
from second_program.path_data import curvesvg_text  # noqa: E402
from second_program.open_curves import either_curve, open_times, spoiled_open_curve  # noqa: E402
from second_program.open_svg_cases import cuttable as open_cuttable  # noqa: E402
from second_program.record import record_of  # noqa: E402

SIGN = (TOP / "examples" / "sign.job").read_bytes()
SIGN_TEXT = curvesvg_text(record_in(SIGN)).encode()
LINE = Curve(1, [0, 0, 3, 5, 5], [-7, 40, 0], [12, 0, -300])
ARCH = Curve(3, [0, 0, 0, 0, 4, 4, 4, 4], [0, 0, 8, 8], [0, 8, 8, 0])
HILL = Curve(2, [0, 0, 0, 2, 4, 4, 4], [0, 4, 8, 12], [0, 8, 8, 0])
UNCUT = HILL._replace(ys=[0, 7, 8, 0])
ARCH_TEXT = b"M 0 0 C 0 8 8 8 8 0\n"
HILL_TEXT = b"M 0 0 Q 4 8 6 8 Q 8 8 12 0\n"
LINE_TEXT = b"M -7 12 L 40 0 L 0 -300\n"
UNCUT_WORDS = """refused 11: %s
cut at knot 2 the curve would have a point between y 7 and y 8
""" % refusals.WORDS[11]
OLD_WORDS = """refused 21 at 61: %s
byte 61: here the record ends, found 5
%s
""" % (refusals.WORDS[21], refusals.mending("my old.job"))
BROKEN_WORDS = """refused 19 at 4: %s
byte 4: here the knots begin with tag 2, found 7
python3 tools/job.py explain 'my broken.job' shows what stands at which byte
""" % refusals.WORDS[19]

# Paths of the hill that SVG readers take, or nearly, and that curvesvg does not print.
WRONG = (
    b"M 0 0 Q 8 8 12 0 Q 4 8 6 8\n",
    b"M 12 0 Q 8 8 6 8 Q 4 8 0 0\n",
    b"M 0 0 Q 4 8 6 8\n",
    b"M 0 0 Q 4 8 6 8 Q 8 8 12 0 Q 8 8 12 0\n",
    b"M 0 0 Q 4 8 6 8 8 8 12 0\n",
    b"M 0 0 q 4 8 6 8 q 2 0 6 -8\n",
    b"M 0 0 Q 4 8 6 8 T 12 0\n",
    b"M 0 0 L 4 8 L 6 8 L 8 8 L 12 0\n",
    b"M 0,0 Q 4,8 6,8 Q 8,8 12,0\n",
    b"M0 0Q4 8 6 8Q8 8 12 0\n",
    b"M 0 0 Q 4 -8 6 -8 Q 8 -8 12 0\n",
    b"M 0 0 Q +4 8 6 8 Q 8 8 12 0\n",
    b"M -0 0 Q 4 8 6 8 Q 8 8 12 0\n",
    b"M 0 0 Q 4.0 8 6 8 Q 8 8 12 0\n",
    b"M 0 0 Q 4 8 6 8 Q 8 8 12 0\nM 0 0 Q 4 8 6 8 Q 8 8 12 0\n",
    b"M 0 0\n",
)


def word(printed, data):
    """What a text says of a file, None where it is not understood."""
    try:
        return asking.CURVESVG.understood(printed, data).word()
    except answer.NotUnderstood:
        return None


def texts():
    """Whatever is changed in a path, it is the path of that curve no more."""
    for curve, text in ((ARCH, ARCH_TEXT), (HILL, HILL_TEXT), (LINE, LINE_TEXT)):
        record = record_of(curve)
        assert curvesvg_text(record) == text.decode() and word(text, record) == path_answer.WRITTEN, "the path is not understood"
        for other in changed(text, b"0149 \n-+,.MLQCc\x00\xff"):
            assert other == text or word(other, record) is None, "%r counts as a path of the curve" % other
    for text in WRONG:
        assert word(text, record_of(HILL)) is None, "%r counts as a path of the hill" % text
    pieces = re.findall(rb" C(?: [0-9]+){6}", SIGN_TEXT)
    start = SIGN_TEXT.split(b" C")[0]
    assert len(pieces) == 9 and start + b"".join(pieces) + b"\n" == SIGN_TEXT
    for k in range(9):
        for others in (pieces[:k] + pieces[k + 1 :], pieces[:k] + pieces[k : k + 1] + pieces[k:], pieces[:k] + pieces[k:][::-1]):
            assert others == pieces or word(start + b"".join(others) + b"\n", SIGN) is None, "another path of the sample is understood"
    assert word(b"M 0 0 Q 4 7 6 7 Q 8 8 12 0\n", record_of(UNCUT)) is None, "a curve is cut that cannot be"
    assert word(ARCH_TEXT, record_of(ARCH)[:-1]) is None and word(ARCH_TEXT, record_of(ARCH) + b"\0") is None, "broken records are cut"


def refused():
    """A refusal is understood with a place where its number has one, and with no other place than one of the record."""
    record = record_of(ARCH)
    for number in range(31):
        for place in (None, 0, 4, len(record) - 1, len(record), len(record) + 1):
            text = b"refused %d" % number + (b"" if place is None else b" at %d" % place) + b"\n"
            if number in (1, 2, 3, 4, 5, 6, 7, 10, 11):
                right = place is None
            else:
                right = place is not None and (place == len(record) if number == 16 else number in (19, 20, 21) and place < len(record))
            assert (word(text, record) == answer.REFUSED) == right, "%r is %s" % (text, word(text, record))
            assert right or word(text, job_of(ARCH, [])) is None, "the place is not held against the record in a job"


def given():
    """Of a job the record in front, of anything else every byte."""
    for clamps in ([], [(9, 12, 0, 4)], [(9, 12, 0, 4)] * 64):
        job, record = job_of(ARCH, clamps, 150), record_of(ARCH)
        assert record_in(job) == record_in(record) == record, "another record is taken out of a job"
        for other in (job[:-1], job + b"\7", record + b"\7", record[:-1], b"", b"degree 3\n", record + job[66:] if clamps else b""):
            assert record_in(other) == other, "%r is taken for a job" % other


def records(dice):
    """Curves that can be cut and that nearly can, with full ends and with open ones, one for each refusal, full ones, and bytes that break in every way."""
    for k in range(150):
        yield record_of(whole_curve(dice, 1 + k % 3))
        yield record_of(moved(dice, whole_curve(dice, 1 + k % 3)))
    for k in range(20):
        yield record_of(scaled_curve(dice, 2 + k % 2))
        yield record_of(spoiled_open_curve(dice, 1 + k % 7, byte=True))
    for k in range(60):
        yield record_of(open_cuttable(dice, 1 + k % 3))
        yield record_of(either_curve(dice, 1 + k % 3))
    for m, values, points in ((3, 340, 344), (3, 341, 345), (2, 510, 1023), (2, 511, 514), (2, 1021, 1024), (3, 1020, 1024)):
        yield record_of(large_curve(dice, m, values, points))
    full = large_curve(dice, 3, 341, 1020)
    for insertion in (2, 3, 4, 5):
        yield record_of(unwhole_from(dice, full, insertion))
    yield from (data for _, _, data in broken_records(dice))
    unpaired = record_of(ARCH._replace(ys=[0, 8, 8]))
    yield from (unpaired, record_of(ARCH._replace(degree=4, ys=[0, 8, 8])), record_of(ARCH) + b"\6\2\0\0")


def judged():
    """Number, place and path are the second program's; of a refusal it is told what is wrong, and every piece is the curve's own."""
    seen = set()
    for data in records(Dice(1406)):
        text = curvesvg_text(data)
        number = int(text.split()[1]) if text.startswith("refused ") else 0
        seen.add(number)
        found = refusals.judged_record(data)
        assert (refusals.line(*found[:2]) + "\n" if found else "") == (text if number else ""), "%r: %r where %r is right" % (data[:60], found, text)
        understood = path_answer.read_path(text.encode(), data)
        if number:
            told = asking.CURVESVG.told(understood, data, "a file")
            assert told[:2] == ["%s: %s" % (text[:-1], refusals.WORDS[number]), found[2]] and len(told) == 2 + (number in PLACED and data != b""), told
        else:
            curve = read_record(data)
            right = [shape.bezier(curve, span) for span in shape.spans(curve)[:40]]
            assert understood.pieces[:40] == right and len(understood.pieces) == len(shape.spans(curve)), "a piece is not the curve's"
    assert seen == {0, *refusals.TOLD["curvesvg"]}, "a refusal is not reached: %s" % seen
    told = refusals.judged_record(record_of(large_curve(Dice(3), 3, 341, 345)))
    assert told == (10, None, "its 342 pieces of degree 3 take 1,027 points, and a curve has at most 1,024"), told
    below = refusals.judged_record(record_of(HILL._replace(xs=[0, -4, -9, -12])))
    assert below == (11, None, "cut at knot 2 the curve would have a point between x -7 and x -6"), below
    open_end = refusals.judged_record(record_of(Curve(2, list(range(7)), [-1, -4, -8, -12], [0, 8, 8, 0])))
    assert open_end == (11, None, "at an open end the curve would have a point between x -3 and x -2"), open_end


def advice():
    """What is told to help with 11 does help: even knots, which may stand several times, at open ends too, and multiples of 12."""
    dice, needed = Dice(12), 0
    for k in range(400):
        m = 2 + k % 2
        knots = knots_of(dice, m, [dice.between(1, m) for _ in range(dice.between(1, 9))], 1)
        if k % 4 > 1:
            knots = [value for value, often in enumerate(open_times(dice, m, m + dice.between(1, 9))) for _ in range(often)]
        wide = dice.pick((1, 3, 10))
        points = len(knots) - m - 1
        axes = [[dice.between(-20000, 20000) for _ in range(points)] for _ in "xy"]
        curve = Curve(m, [wide * (knot - knots[0]) for knot in knots], *axes)
        needed += curvesvg_text(record_of(curve)) == "refused 11\n"
        helped = curve._replace(xs=[12 * x for x in curve.xs], ys=[12 * y for y in curve.ys])
        assert curvesvg_text(record_of(helped)).startswith("M "), "%s cannot be cut" % (helped,)
    assert needed > 200 and "multiples of 12" in refusals.WORDS[11], "the advice is not needed"


# What the program does, the file, and the status that is right.
PRETENDED = [
    (prints(ARCH_TEXT), record_of(ARCH), 0),
    (prints(ARCH_TEXT), job_of(ARCH, [(9, 12, 0, 4)], 150), 0),
    (prints(SIGN_TEXT), SIGN, 0),
    ("cat >given; " + prints(HILL_TEXT), job_of(HILL, [(9, 12, 0, 4)], 150), 0),
    (prints(b"refused 11\n"), record_of(UNCUT), 2),
    (prints(b"refused 10\n"), SIGN, 2),
    (prints(b"refused 21 at 61\n"), record_of(ARCH) + b"\7", 2),
    (prints(b"refused 16 at 61\n"), job_of(ARCH, []), 2),
    (prints(b"refused 16 at 66\n"), job_of(ARCH, []), 3),
    (prints(b"refused 14\n"), job_of(ARCH, []), 3),
    (prints(b"refused 22\n"), job_of(ARCH, []), 3),
    (prints(b"refused 11 at 4\n"), record_of(UNCUT), 3),
    (prints(b"refused 11"), record_of(UNCUT), 3),
    (prints(SIGN_TEXT[:-1]), SIGN, 3),
    (prints(SIGN_TEXT[:90]), SIGN, 3),
    (prints(SIGN_TEXT[:90] + b"\n"), SIGN, 3),
    (prints(ARCH_TEXT), SIGN, 3),
    (prints(ARCH_TEXT), record_of(ARCH)[:-1], 3),
    (prints(ARCH_TEXT) + "; exit 1", record_of(ARCH), 3),
    (prints(ARCH_TEXT) + "; kill -9 $$", record_of(ARCH), 3),
    (prints(b"curve degree 3 points 4 spans 1\n"), job_of(ARCH, []), 3),
    ("true", record_of(ARCH), 3),
]


@in_folder
def programs(folder):
    """As a process: the status, what the program is given, and that a text which is no answer is not passed on."""
    for text, data, right in PRETENDED:
        folder.pretend_program(text, "curvesvg")
        ended = folder.run("tools/curvesvg", given=data)
        assert ended.returncode == right, "%s: status %d and not %d; %r" % (text, ended.returncode, right, ended.stderr)
        assert bool(ended.stdout) == (right != 3), "%s: printed %r" % (text, ended.stdout)
        assert bool(ended.stderr) == (right != 0) and b"Traceback" not in ended.stderr, "%s: said %r" % (text, ended.stderr)
    assert (folder.top / "given").read_bytes() == record_of(HILL), "the program is not given the record alone"
    old = record_of(ARCH) + job_of(ARCH, [(9, 12, 0, 4)])[66:]
    for name, data, said, words in (
        ("my curve.job", job_of(UNCUT, []), b"refused 11\n", UNCUT_WORDS),
        ("my old.job", old, b"refused 21 at 61\n", OLD_WORDS),
        ("my broken.job", record_of(ARCH)[:4] + b"\7", b"refused 19 at 4\n", BROKEN_WORDS),
    ):
        (folder.top / name).write_bytes(data)
        folder.pretend_program(prints(said), "curvesvg")
        ended = folder.run("tools/curvesvg", name)
        assert (ended.returncode, ended.stdout, ended.stderr.decode()) == (2, said, words), ended


@in_folder
def surroundings(folder):
    """No file, no output, no program, no Python: 3. The kit is not needed, and not there."""
    folder.pretend_program(prints(SIGN_TEXT), "curvesvg")
    ended = folder.run("tools/curvesvg", "examples/sign.job")
    assert (ended.returncode, ended.stdout) == (0, SIGN_TEXT), "a file is not read"
    link = folder.top / "link"
    link.symlink_to(folder.top / "tools" / "curvesvg")
    assert folder.run(link, "examples/sign.job").returncode == 0, "it does not run by way of a link"
    for words, said in (
        (("tools/curvesvg", "none.job"), b"none.job: No such file"),
        (("tools/curvesvg", "a", "b"), b"Give a job: tools/curvesvg JOB, or tools/curvesvg < JOB\n"),
        (("sh", "-c", "tools/curvesvg examples/sign.job >/dev/full"), b"No space left"),
    ):
        ended = folder.run(*words)
        assert ended.returncode == 3 and said in ended.stderr, "%s: %d %r" % (words, ended.returncode, ended.stderr)
    folder.built("curvesvg").unlink()
    ended = folder.run("tools/curvesvg", "examples/sign.job")
    assert ended.returncode == 3 and b"crates/curvesvg/out/curvesvg is not there: tools/try.sh --svg proves and builds it" in ended.stderr, ended
    (folder.commands / "python3").unlink()
    assert folder.run("tools/curvesvg", "examples/sign.job").returncode == 3, "no Python"


def readme():
    """The drawing in README.md holds the path of the description there, with y upward, and has room for it."""
    text = (TOP / "README.md").read_text()
    described = re.search(r"^    degree 3\n(    .*\n)+", text, re.M)[0].replace("    ", "", 1).replace("\n    ", "\n")
    job = description.read_text(described)
    drawn = xml.fromstring(re.search(r"^    <svg (.|\n)*?^    </svg>\n", text, re.M)[0])
    (path,) = drawn.iter("{http://www.w3.org/2000/svg}path")
    assert path.get("d") + "\n" == curvesvg_text(record_in(write_job(job))), "README.md draws another path: %s" % path.get("d")
    assert path.get("transform") == "scale(1,-1)" and path.get("fill") == "none" and path.get("stroke"), "README.md does not turn it"
    left, top, wide, high = map(float, drawn.get("viewBox").split())
    assert all(left < x < left + wide and top < -y < top + high for x, y in job.points), "the path of README.md is not seen"


DONE = "tools/curvesvg: changed paths, refusals, records in jobs, curves judged, advice, %d pretended programs, 8 surroundings, README.md"
run_parts(DONE % len(PRETENDED), texts, refused, given, judged, advice, programs, surroundings, readme)
