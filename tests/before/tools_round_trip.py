"""tools/job.py: a description becomes the job that the second program would write, comes back unchanged, and bad ones are
told of with their line. The jobs and pictures in examples/ are those of their descriptions."""

import pathlib
import random
import subprocess
import sys
import tempfile

TOP = pathlib.Path(__file__).resolve().parents[2]
sys.dont_write_bytecode = True
sys.path[:0] = [str(TOP / "tools"), str(TOP / "tests")]

import description  # noqa: E402
import draw  # noqa: E402
import job as jobs  # noqa: E402
import job_bytes  # noqa: E402
import shape  # noqa: E402
from second_program.curve import Curve  # noqa: E402
from second_program.path_data import curvesvg_text  # noqa: E402
from second_program.record import clampcheck_text, record_of, take_job  # noqa: E402
from second_program.record_cases import clamp_fields  # noqa: E402

BARE = "degree 1\nknots 0 0 1 1\npoint 0 0\npoint 5 5\n"
SOUND = BARE + "radius 7\n"
BAD = [
    ("", "no line with the degree"),
    ("knots 0 0 1 1\n", "no line with the degree"),
    (SOUND + "degree 2\n", "line 6: the degree is given a second time"),
    (SOUND + "diameter 3\n", "line 6: 'diameter' is none of degree, knots, point, radius, clamp"),
    (SOUND + "point 3\n", "line 6: point takes two numbers"),
    (SOUND + "point 3 4 5\n", "line 6: point takes two numbers"),
    (SOUND + "clamp 1 2 3\n", "line 6: clamp takes four numbers"),
    (SOUND + "clamp 1 2 3 4.5\n", "line 6: '4.5' is no whole number"),
    (SOUND + "point 1 --2\n", "line 6: '--2' is no whole number"),
    (SOUND + "# fine\n\nknots\n", "line 8: knots takes whole numbers"),
    (SOUND + "knots 65536\n", "line 6: 65536 does not fit"),
    (SOUND + "knots -1\n", "line 6: -1 does not fit"),
    (SOUND + "point 2147483648 0\n", "line 6: 2147483648 does not fit"),
    (BARE, "no radius: write a line such as `radius 150`, half the cutter's width in hundredths of a millimetre; `radius 0` for a pen"),
    (BARE + "# radius 7\n", "no radius: write a line"),
    (SOUND + "point 1 1\nradius 7\n", "line 7: the radius is given a second time"),
    (BARE + "radius\n", "line 5: radius takes one number, 0 to 4,096 hundredths of a millimetre, and here are 0"),
    (BARE + "radius 7 8\n", "line 5: radius takes one number, 0 to 4,096 hundredths of a millimetre, and here are 2"),
    (BARE + "radius 65536\n", "line 5: 65536 does not fit; radius takes one number, 0 to 4,096"),
    (BARE + "radius -1\n", "line 5: -1 does not fit; radius takes one number, 0 to 4,096"),
    (BARE + "radius 3mm\n", "line 5: '3mm' is no whole number; radius takes one number, 0 to 4,096"),
    (BARE + "radius 1.5\n", "the radius is in whole hundredths of a millimetre: 1.5 mm is 150"),
    ("degree 256\n", "line 1: 256 does not fit"),
    ("degree\n", "line 1: degree takes one number"),
    (SOUND + "clamp 0 1 0 1\n" * 65, "line 70: 65 clamps are more than the 64"),
    (SOUND + "point 0 0\n" * 1023, "line 1028: 1025 points are more than the 1024"),
    (SOUND + "knots 1 1 1 1\n" * 257, "line 262: 1032 knots are more than the 1028"),
]
OPEN_TEXT = """curve degree 3 points 10 spans 6
clamp 1 clear
clamp 2 clear
clamp 3 may meet 50..60
clamp 3 may meet 60..70
clamp 3 may meet 70..80
clamp 3 may meet 80..90
clamp 4 may meet 80..90
"""
HEAD = b"\x01\x01\x00\x03"
HOLLOW = HEAD + b"\x02\x00\x00\x03\x00\x00\x04\x00\x00"
READY = HOLLOW + b"\x06\x02\x00\x96\x00"
BAD_JOBS = [
    (b"", "byte 0: here the degree begins with tag 1, found the end"),
    (b"\x02\x01\x00\x03", "byte 0: here the degree begins with tag 1, found 2"),
    (b"\x01", "byte 1: here stands the length of the degree in two bytes, found the end"),
    (b"\x01\x02", "byte 2: here stands the second byte of the length of the degree, found the end"),
    (b"\x01\x02\x00\x03\x03", "byte 1: here stands the length of the degree, 1, found 2"),
    (b"\x01\x01\x00", "byte 3: here the contents of the degree go on, 1 byte more, found the end"),
    (HEAD + b"\x07", "byte 4: here the knots begin with tag 2, found 7"),
    (HEAD + b"\x02\x01\x00\x07", "byte 5: here stands the length of the knots, an even number up to 2,056, found 1"),
    (HEAD + b"\x02\x02\x00\x07", "byte 8: here the contents of the knots go on, 1 byte more, found the end"),
    (HEAD + b"\x02\x0a\x08" + bytes(2058), "byte 5: here stands the length of the knots, an even number up to 2,056, found 2058"),
    (HEAD + b"\x02\x00\x00\x03\x04\x10" + bytes(4100), "byte 8: here stands the length of the x coordinates, a multiple of 4 up to 4,096, found 4100"),
    (HEAD + b"\x02\x00\x00\x03\x00\x00\x04\x06\x00", "byte 11: here stands the length of the y coordinates, a multiple of 4 up to 4,096, found 6"),
    (HEAD + b"\x02\x00\x00\x03\x04\x00" + bytes(4) + b"\x04\x00\x00" + READY[13:], "there are 1 x and 0 y"),
    (HOLLOW, "byte 13: here the cutter's radius begins with tag 6, found the end"),
    (HOLLOW + b"\x05\x10\x00" + bytes(16), "byte 13: here the cutter's radius begins with tag 6, found 5"),
    (READY[:14], "byte 14: here stands the length of the cutter's radius in two bytes, found the end"),
    (READY[:15], "byte 15: here stands the second byte of the length of the cutter's radius, found the end"),
    (HOLLOW + b"\x06\x04\x00" + bytes(4), "byte 14: here stands the length of the cutter's radius, 2, found 4"),
    (READY[:16], "byte 16: here the contents of the cutter's radius go on, 2 bytes more, found the end"),
    (READY[:17], "byte 17: here the contents of the cutter's radius go on, 1 byte more, found the end"),
    (READY + READY[13:], "byte 18: here clamp 1 begins with tag 5 or the job ends, found 6"),
    (READY + b"\x05\x0c\x00" + bytes(12), "byte 19: here stands the length of clamp 1, 16, found 12"),
    (READY + b"\x04", "byte 18: here clamp 1 begins with tag 5 or the job ends, found 4"),
    (jobs.write_job(jobs.Job(3, [], [], 0, [(0, 0, 0, 0)] * 65)), "byte 1234: here the job ends, behind its clamp 64, found 5"),
]


def random_job(dice):
    wide = lambda: dice.choice((0, -1, 1, -(2**31), 2**31 - 1, dice.randint(-(2**31), 2**31 - 1)))
    return jobs.Job(
        dice.randint(0, 255),
        [dice.randint(0, 65535) for _ in range(dice.choice((0, 1, 16, 17, 1028)))],
        [(wide(), wide()) for _ in range(dice.choice((0, 1, 5, 1024)))],
        dice.choice((0, 1, 150, 256, 4096, 65535, dice.randint(0, 65535))),
        [(wide(), wide(), wide(), wide()) for _ in range(dice.choice((0, 1, 64)))],
    )


def expect_fault(read, given, words):
    try:
        read(given)
    except (jobs.BadText, jobs.BadJob) as fault:
        assert words in str(fault), "%r is told as %r and not as %r" % (given[:40], str(fault), words)
    else:
        raise AssertionError("%r was accepted" % (given[:60],))


def round_trips():
    dice = random.Random(1024)
    for _ in range(60):
        job = random_job(dice)
        data = jobs.write_job(job)
        curve = Curve(job.degree, job.knots, *([point[axis] for point in job.points] for axis in (0, 1)))
        front, behind = record_of(curve), clamp_fields(job.clamps)
        assert data == front + bytes([6, 2, 0, job.radius % 256, job.radius // 256]) + behind, "the job is not what the second program writes"
        assert take_job(data) == (curve, job.clamps, job.radius), "the second program reads another job"
        text = jobs.write_text(job)
        assert jobs.read_text(text) == job and jobs.read_job(data) == job, "a job came back changed"
        assert jobs.write_text(jobs.read_job(jobs.write_job(jobs.read_text(text)))) == text, "a text came back changed"
        assert jobs.read_text("radius %d\n" % job.radius + text.replace("radius", "#")) == job, "the radius has to stand in one place"
        mended(front + behind, job)


def longest():
    """The tools read as many bytes as the longest job has."""
    job = jobs.Job(3, [0] * 1028, [(0, 0)] * 1024, 4096, [(0, 0, 0, 0)] * 64)
    assert len(jobs.write_job(job)) == job_bytes.MOST_BYTES == 11482 and jobs.read_job(jobs.write_job(job)) == job, "the longest job"


def mended(old, job):
    """A job from before there was a radius: its description lacks that line alone, and says so."""
    assert jobs.lacks_radius(old) and not jobs.lacks_radius(jobs.write_job(job)), "an old job is not told from others"
    text = jobs.write_text(jobs.read_without_radius(old))
    expect_fault(jobs.read_text, text, "no radius: write a line")
    assert text.count("\n# no radius: write a line such as `radius 150`") == 1, "the description does not say what it lacks"
    assert jobs.read_text(text + "radius %d\n" % job.radius) == job, "an old job came back changed"


def examples():
    texts = sorted((TOP / "examples").glob("*.txt"))
    assert texts, "there are no examples"
    for text in texts:
        data = text.with_suffix(".job").read_bytes()
        assert data == jobs.write_job(jobs.read_text(text.read_text())), "%s is not the job of its text" % text.name
        number, output = clampcheck_text(data)
        assert number == 0, "%s is refused" % text.name
        path = curvesvg_text(job_bytes.record_in(data))
        assert path.startswith("M "), "the curve of %s cannot be cut" % text.name
        picture = draw.draw(data, output.encode(), path.encode())
        kept = text.with_suffix(".svg")
        assert not kept.exists() or kept.read_text() == picture, "%s is not what tools/draw.py makes" % kept.name
    assert all((TOP / "examples" / name).exists() for name in ("sign.svg", "open.svg")), "a sample has no picture"
    shown = (TOP / "README.md").read_text().replace("    ", "")
    sample = clampcheck_text((TOP / "examples" / "sign.job").read_bytes())[1]
    assert sample in shown, "README.md does not show what clampcheck says of examples/sign.job"


def open_ends():
    """The example with open ends: what clampcheck says of it, worked out by hand; the boxes in front of its domain meet the first clamp, which is clear."""
    data = (TOP / "examples" / "open.job").read_bytes()
    assert clampcheck_text(data) == (0, OPEN_TEXT), clampcheck_text(data)
    job = jobs.read_job(data)
    first = shape.widened(job.clamps[0], job.radius)
    before = [shape.box(job.points[: i + 1]) for i in range(job.degree)]
    assert shape.domain(job) == (30, 90) and all(shape.meet(box, first) for box in before), "nothing outside the domain comes near the first clamp"


def commands():
    with tempfile.TemporaryDirectory() as folder:
        out, back = pathlib.Path(folder, "out.job"), pathlib.Path(folder, "back.txt")
        sample = TOP / "examples" / "worked"
        run = lambda *words: subprocess.run([sys.executable, TOP / "tools" / "job.py", *map(str, words)], capture_output=True)
        assert run("make", sample.with_suffix(".txt"), out).returncode == 0
        assert out.read_bytes() == sample.with_suffix(".job").read_bytes(), "make wrote another job"
        assert run("show", out, back).returncode == 0
        assert jobs.read_text(back.read_text()) == jobs.read_job(out.read_bytes()), "show wrote another text"
        assert run("show", out).stdout.decode() == back.read_text(), "show prints another text than it writes"
        data = out.read_bytes()
        out.write_bytes(data[:61] + data[66:])
        text = run("show", out).stdout.decode()
        assert text == back.read_text().replace("radius 0", "# " + description.NO_RADIUS), "show does not read a job without a radius"
        out.write_bytes(data[:-1])
        ended = run("show", out)
        assert ended.returncode == 1 and b"byte 122: here the contents of clamp 3 go on" in ended.stderr, "a cut job is shown"
        out.write_text("degree x\n")
        ended = run("make", out, back)
        assert ended.returncode == 1 and b"line 1: 'x' is no whole number" in ended.stderr, "a bad text is not told of"
        assert run("make", pathlib.Path(folder, "none"), back).returncode == 1
        shown = run("explain", sample.with_suffix(".job"))
        assert shown.returncode == 0 and shown.stdout.decode().endswith("4 points, radius 0, 3 clamps\nclampcheck takes this job\n"), shown


round_trips()
longest()
for given, words in BAD:
    expect_fault(jobs.read_text, given, words)
for given, words in BAD_JOBS:
    expect_fault(jobs.read_job, given, words)
examples()
open_ends()
commands()
print("tools/job.py: 60 round trips, with and without a radius, %d bad texts, %d bad jobs, the examples" % (len(BAD), len(BAD_JOBS)))
