"""tools/job.py says what is wrong with a description, in words and with its line, and what is wrong with a job, with its byte; it never ends in a traceback.

What it says of a wrong curve, and of broken bytes, is what the second program says of the job; the words are those of README.md.
"""

import pathlib
import random
import re
import sys

sys.dont_write_bytecode = True
sys.path[:0] = [str(pathlib.Path(__file__).resolve().parents[1])]

from pretended import TOP, in_folder, run_parts  # noqa: E402
import description  # noqa: E402
import explain  # noqa: E402
import refusals  # noqa: E402
import text_kind  # noqa: E402
from harness.explained import disagreement  # noqa: E402
from job_bytes import PLACED, BadJob, Job, read_job, write_job  # noqa: E402
from second_program.broken_cases import broken_jobs  # noqa: E402
from second_program.curve import Curve  # noqa: E402
from second_program.dice import Dice  # noqa: E402
from second_program.job_cases import damaged_job, good_job, job_of, longest_job, with_bad_clamp  # noqa: E402
from second_program.open_curves import either_curve, spoiled_open_curve  # noqa: E402
from second_program.random_curves import spoiled_curve  # noqa: E402
from second_program.record import clampcheck_text  # noqa: E402

BARE = "degree 1\nknots 0 0 9 9\npoint 0 0\npoint 5 5\n"
SOUND = BARE + "radius 150\n"
POINT = "two numbers, x and y, each -262,144 to 262,144"
HUNDREDTHS = "coordinates are whole hundredths of a millimetre"
CUBIC = "degree 3\nknots %s\npoint 0 0\npoint 0 8\npoint 8 8\npoint 8 0\nradius 0\n"

# A description and what is said of it; the number is that of the refusal, None where there is no job to be refused.
SAID = [
    (SOUND + "point 0.5 1\n", None, "line 6: '0.5' is no whole number; point takes %s; %s: 0.5 mm is 50" % (POINT, HUNDREDTHS)),
    (SOUND + "clamp 0 1 0 -12,25\n", None, "-12,25 mm is -1225"),
    (SOUND + "clamp 0 1 0 .125\n", None, "0.5 mm is 50"),
    (SOUND + "knots 0.5\n", None, "knots takes whole numbers, each 0 to 16,383; to have knots between, multiply all"),
    (SOUND + "point 1e3 0\n", None, "line 6: '1e3' is no whole number; point takes " + POINT),
    (SOUND + "point %s 0\n" % ("7" * 5000), None, "line 6: 777777777777777777777777... (5,000 characters) does not fit"),
    (SOUND + "point -%s 0\n" % ("7" * 5000), None, "does not fit; point takes " + POINT),
    (SOUND + "knots 70000\n", None, "line 6: 70000 does not fit; knots takes whole numbers, each 0 to 16,383"),
    (SOUND + "%s\n" % ("(" * 9000), None, "line 6: '%s'... (9,000 characters) is none of degree, knots, point, radius, clamp" % ("(" * 24)),
    ("degree 4\n" + SOUND[9:], 1, "line 1: degree 4 is none of 1, 2, 3"),
    ("degree 2\n" + SOUND[9:], 2, "degree 2 takes 3 points or more, and here are 2"),
    (SOUND.replace("9 9", "9"), 3, "2 points of degree 1 take 4 knots, and here are 3"),
    (SOUND.replace("9 9", "16384 16384"), 4, "line 2: knot 3 is 16384; a knot is 0 to 16,383"),
    (SOUND.replace("knots 0 0 9 9", "knots 0 0 9\n\nknots 8"), 4, "line 4: knot 4 is 8, below the 9 before it; knots never fall"),
    (CUBIC % "4 4 4 4 4 4 4 4", 5, "line 2: the curve goes from knot 4 to knot 5, and both are 4: it has no length"),
    (CUBIC % "0 1 2 3 3 4 5 6", 5, "line 2: the curve goes from knot 4 to knot 5, and both are 3"),
    ((CUBIC % "0 1 2 3 3\nknots 3 4 5 6") + "point 1 1\n", 5, "line 3: the curve goes from knot 4 to knot 6, and both are 3"),
    (SOUND.replace("0 0 9 9", "0 0 5 5 9 9") + "point 1 1\n" * 2, 6, "line 2: the knot value 5 stands more than 1 times, the most inside"),
    (SOUND.replace("0 0 9 9", "0 0 0 9 9") + "point 1 1\n", 6, "the knot value 0 stands more than 2 times, the most at an end of"),
    (SOUND.replace("0 0 9 9", "0 0 9 9 9") + "point 1 1\n", 6, "line 2: the knot value 9 stands more than 2 times"),
    (SOUND.replace("0 0 9 9", "0 1 1 1 2 9") + "point 1 1\n" * 2, 6, "the knot value 1 stands more than 2 times, the most at an end of"),
    (SOUND.replace("0 0 9 9", "0 1 2 2 3 9") + "point 1 1\n" * 2, 6, "the knot value 2 stands more than 1 times, the most inside"),
    (SOUND.replace("5 5", "5 -262145"), 7, "line 4: point 2 has y -262145; a coordinate is -262,144 to 262,144"),
    (BARE + "\nradius 4097\n", 22, "line 6: radius 4097; the cutter's radius is 0 to 4,096"),
    (BARE + "radius 65535\nclamp 1 0 0 0\n", 22, "line 5: radius 65535; the cutter's radius is 0 to 4,096"),
    (BARE.replace("5 5", "5 262145") + "radius 4097\n", 7, "line 4: point 2 has y 262145"),
    (BARE + "radius %s\n" % ("7" * 5000), None, "line 5: 777777777777777777777777... (5,000 characters) does not fit"),
    (BARE + "radius 3.175\n", None, "the radius is in whole hundredths of a millimetre: 0.5 mm is 50"),
    (SOUND + "clamp 0 1 0 1\nclamp 2 1 0 1\n", 14, "line 7: clamp 2 has its low x, 2, above its high x, 1"),
    (SOUND + "clamp 0 1 9 8\n", 14, "line 6: clamp 1 has its low y, 9, above its high y, 8"),
    (SOUND + "clamp 0 262145 9 8\n", 14, "line 6: clamp 1 has a side at x 262145; a side is -262,144 to 262,144"),
]

# Bytes and what they are called.
NAMED = [
    (SOUND.encode("utf-16"), "this is UTF-16 text; save it as UTF-8"),
    (SOUND.encode("utf-16-le"), "this is UTF-16 text; save it as UTF-8"),
    (SOUND.encode("utf-16-be"), "this is UTF-16 text; save it as UTF-8"),
    (SOUND.encode("utf-32"), "this is UTF-32 text; save it as UTF-8"),
    ((SOUND + "# für später\n").encode("latin-1"), "line 6: byte 0xfc is no UTF-8; this is Latin-1 or Windows-1252 text; save it"),
    (b"", "the file is empty; examples/sign.txt shows a description"),
    (b"\x89PNG\r\n\x1a\n\0\0\0\rIHDR", "this is no text"),
    ((TOP / "examples" / "sign.job").read_bytes(), "this is a job already; `show` turns it into a description"),
]


def said(text):
    """What is said of a description, and the number of its refusal."""
    try:
        job, lines = description.read_lines(text)
    except description.BadText as fault:
        return None, str(fault)
    fault = refusals.fault_of(job)
    return fault and fault.number, description.refused(job, lines)


def messages():
    for text, number, words in SAID:
        found = said(text)
        assert found[0] == number and words in found[1], "%r is told as %r and not as %r" % (text[:60], found, words)
        assert len(found[1]) < 400, "the message is as long as the nonsense"
        if number:
            assert clampcheck_text(write_job(description.read_text(text)))[0] == number, "the second program says another number"
            assert "refused %d" % number in found[1]
    assert {number for _, number, _ in SAID} == {None, *refusals.TOLD["clampcheck"]} - {*PLACED}, "a refusal is not tried"
    assert said(SOUND) == (None, None) and said(SOUND + "clamp 0 0 -262144 262144\n") == (None, None)
    for knots in ("0 1 2 3 4 5 6 7", "0 0 0 1 4 4 4 4", "0 0 0 0 3 4 4 4", "0 0 0 1 2 9 9 9"):
        assert said(CUBIC % knots) == (None, None), "open ends are refused: %s" % knots
    assert said(BARE + "radius 4096\n") == (None, None) and description.read_text(BARE + "radius 4096\n").radius == 4096, "the widest cutter"
    assert said("\ufeff" + SOUND)[0] is None and description.text_of(("\ufeff" + SOUND).encode()) == SOUND
    assert said(SOUND.replace("\n", "\r\n")) == said(SOUND.replace("\n", "\r")) == (None, None), "line ends"
    for data, words in NAMED:
        try:
            description.text_of(data)
        except description.BadText as fault:
            assert words in str(fault), "%r is told as %r" % (data[:20], str(fault))
        else:
            raise AssertionError("%r counts as text" % data[:20])


def judged():
    """On sound, spoiled and damaged jobs, the second program's number and place, and words for each."""
    dice, seen = Dice(4711), set()
    for k in range(400):
        curve, clamps = good_job(dice, 4) if k % 4 else with_bad_clamp(dice)
        if k % 3 == 0:
            curve = (spoiled_open_curve, spoiled_curve)[k % 2](dice, 1 + k // 3 % 7, byte=True)
        elif k % 3 == 1:
            curve = either_curve(dice)
        radius = dice.pick((0, 1, 150, 4096)) if k % 7 else dice.pick((4097, 65535))
        data = damaged_job(dice) if k % 5 == 0 else job_of(curve, clamps, radius)
        number, text = clampcheck_text(data)
        seen.add(number)
        found = refusals.judged(data)
        assert (refusals.line(*found[:2]) + "\n" if found else "") == (text if number else ""), "%r: %r where %r is right" % (data[:60], found, text)
        if number:
            told = refusals.told(*found[:2], data, "a job")
            assert told[:2] == ["%s: %s" % (text[:-1], refusals.WORDS[number]), found[2]], told
            assert told[2:] == ["python3 tools/job.py explain 'a job' shows what stands at which byte"] * (number in PLACED), told
    assert seen == {0, *refusals.TOLD["clampcheck"]}, "a refusal is not reached: %s" % seen
    for number, place, old in ((19, 61, OLD), (16, 61, OLD[:61])):
        assert clampcheck_text(old) == (number, "refused %d at %d\n" % (number, place)), "the second program says something else"
        told = refusals.told(number, place, old, "my old.job")
        assert len(told) == 3 and told[1].startswith("byte 61: here the cutter's radius begins with tag 6, found "), told
        assert told[2] == MENDING % "'my old.job'", told
    assert "no radius" not in " ".join(refusals.told(19, 4, OLD)), "an old job is mended where clampcheck refused something else"
    other = refusals.told(19, 3, b"\1\1\0\3\7")
    assert len(other) == 2 and "explain JOB" in other[1], "another place than clampcheck's is told: %s" % other
    for degree, number in ((3, 2), (4, 1)):
        unpaired = job_of(Curve(degree, [0] * 4 + [4] * 4, [0, 0, 8, 8], [0, 8, 8]), [])
        assert refusals.judged(unpaired) == (number, None, "there are 4 x and 3 y coordinates")
        assert clampcheck_text(unpaired)[0] == number


WORKED = job_of(Curve(3, [0] * 4 + [4] * 4, [0, 0, 8, 8], [0, 8, 8, 0]), [(2, 3, 5, 9), (9, 12, 0, 4)], 150)
OLD = WORKED[:61] + WORKED[66:]
MENDING = "this job has no radius, like all that were made before jobs had one: add a line such as `radius 150` to its description and make it again; "
MENDING += "python3 tools/job.py show %s prints the description"
WORKED_LINES = """byte 0: tag 1, length 1: the degree
    byte 3: 3
byte 4: tag 2, length 16: the knots, 8 of them
    byte 7: 0 0 0 0 4 4 4 4
byte 23: tag 3, length 16: the x coordinates, 4 of them
    byte 26: 0 0 8 8
byte 42: tag 4, length 16: the y coordinates, 4 of them
    byte 45: 0 8 8 0
byte 61: tag 6, length 2: the cutter's radius
    byte 64: 150
byte 66: tag 5, length 16: clamp 1
    byte 69: low x 2, high x 3, low y 5, high y 9
byte 85: tag 5, length 16: clamp 2
    byte 88: low x 9, high x 12, low y 0, high y 4
byte 104: here the job ends: degree 3, 8 knots, 4 points, radius 150, 2 clamps
clampcheck takes this job
""".splitlines()

# Bytes, how many lines of the worked job stand in front, the lines on the fault, and what clampcheck says.
EXPLAINED = [
    (b"", 0, ["byte 0: here the degree begins with tag 1, found the end"], "refused 16 at 0"),
    (WORKED[:4] + b"\7" + WORKED[5:], 2, ["byte 4: here the knots begin with tag 2, found 7"], "refused 19 at 4"),
    (
        WORKED[:5] + b"\x11" + WORKED[6:],
        2,
        ["byte 4: tag 2: the knots", "byte 5: here stands the length of the knots, an even number up to 2,056, found 17"],
        "refused 20 at 5",
    ),
    (WORKED[:5], 2, ["byte 4: tag 2: the knots", "byte 5: here stands the length of the knots in two bytes, found the end"], "refused 16 at 5"),
    (
        WORKED[:6],
        2,
        ["byte 4: tag 2: the knots", "byte 6: here stands the second byte of the length of the knots, found the end"],
        "refused 16 at 6",
    ),
    (
        WORKED[:38],
        4,
        [
            "byte 23: tag 3, length 16: the x coordinates, 4 of them",
            "    byte 26: 0 0 8",
            "byte 38: here the contents of the x coordinates go on, 4 bytes more, found the end",
        ],
        "refused 16 at 38",
    ),
    (WORKED[:61] + b"\7" + WORKED[62:], 8, ["byte 61: here the cutter's radius begins with tag 6, found 7"], "refused 19 at 61"),
    (
        WORKED[:62],
        8,
        ["byte 61: tag 6: the cutter's radius", "byte 62: here stands the length of the cutter's radius in two bytes, found the end"],
        "refused 16 at 62",
    ),
    (
        WORKED[:62] + b"\4" + WORKED[63:],
        8,
        ["byte 61: tag 6: the cutter's radius", "byte 62: here stands the length of the cutter's radius, 2, found 4"],
        "refused 20 at 62",
    ),
    (
        WORKED[:65],
        8,
        ["byte 61: tag 6, length 2: the cutter's radius", "byte 65: here the contents of the cutter's radius go on, 1 byte more, found the end"],
        "refused 16 at 65",
    ),
    (WORKED[:66] + WORKED[61:], 10, ["byte 66: here clamp 1 begins with tag 5 or the job ends, found 6"], "refused 19 at 66"),
    (
        WORKED[:80],
        10,
        [
            "byte 66: tag 5, length 16: clamp 1",
            "    byte 69: low x 2, high x 3",
            "byte 80: here the contents of clamp 1 go on, 5 bytes more, found the end",
        ],
        "refused 16 at 80",
    ),
    (WORKED + b"\6", 14, ["byte 104: here clamp 3 begins with tag 5 or the job ends, found 6"], "refused 19 at 104"),
    (
        WORKED[:86] + b"\x0c" + WORKED[87:],
        12,
        ["byte 85: tag 5: clamp 2", "byte 86: here stands the length of clamp 2, 16, found 12"],
        "refused 20 at 86",
    ),
]


def damaged_jobs():
    """Cuts and changed bytes of a job, jobs that break in every way, and the longest job with something behind it."""
    for at in range(len(WORKED)):
        yield WORKED[:at]
        yield from (WORKED[:at] + bytes([WORKED[at] ^ mask]) + WORKED[at + 1 :] for mask in (1, 6, 128, 255))
    yield from (OLD[:at] for at in range(61, len(OLD) + 1))
    yield from (data for _, _, data in broken_jobs(Dice(15)))
    longest = longest_job(Dice(7))
    yield from (longest, longest + b"\0", longest + bytes(100), longest[:-1])


def explained():
    """Whole explanations worked out by hand, and number and place of every damaged job."""
    assert explain.explained(WORKED) == WORKED_LINES, explain.explained(WORKED)
    for data, kept, lines, says in EXPLAINED:
        number = int(says.split()[1])
        right = WORKED_LINES[:kept] + lines + ["clampcheck would say: %s: %s" % (says, refusals.WORDS[number])]
        assert explain.explained(data) == right, "%r is explained as %r" % (data, explain.explained(data))
        assert clampcheck_text(data)[1] == says + "\n", "the second program says something else"
    for old, found, says in ((OLD, "5", "refused 19 at 61"), (OLD[:61], "the end", "refused 16 at 61")):
        lines = ["byte 61: here the cutter's radius begins with tag 6, found " + found]
        lines.append("clampcheck would say: %s: %s" % (says, refusals.WORDS[int(says.split()[1])]))
        assert explain.explained(old, "old.job") == WORKED_LINES[:8] + lines + [MENDING % "old.job"], explain.explained(old, "old.job")
    wide = explain.explained(WORKED[:64] + b"\1\x10" + WORKED[66:])
    assert wide[-2] == "clampcheck would say: refused 22: " + refusals.WORDS[22] and wide[-1] == "radius 4097; the cutter's radius is 0 to 4,096", wide
    behind = job_of(Curve(3, [], [], []), [(0, 1, 0, 1)] * 64) + b"\5\x10"
    assert explain.explained(behind)[-2:] == [
        "byte 1234: here the job ends, behind its clamp 64, found 5",
        "clampcheck would say: refused 21 at 1234: " + refusals.WORDS[21],
    ]
    long = explain.explained(job_of(Curve(1, [0, 0, 1, 2, 3, 4, 5, 6, 7, 7], [5] * 8, [-6] * 8), []))
    assert long[2:5] == ["byte 4: tag 2, length 20: the knots, 10 of them", "    byte 7: 0 0 1 2 3 4 5 6", "    byte 23: 7 7"], long
    far = explain.explained(job_of(Curve(1, [0, 0, 9, 9], [0, 262145], [0, 5]), []))
    assert far[-2] == "clampcheck would say: refused 7: " + refusals.WORDS[7] and far[-1].startswith("point 2 has x 262145"), far
    assert explain.explained(b"degree 3\n")[-1] == "this is UTF-8 text; python3 tools/job.py make turns a description into a job"
    for data in damaged_jobs():
        differs = disagreement(data, clampcheck_text(data)[1])
        assert not differs, "%r is %s" % (data[:60], differs)


def readme():
    text = (TOP / "README.md").read_text()
    rows = re.findall(r"^\| (\d+) \| (.*) \|$", text, re.M)
    assert {int(number): words for number, words in rows} == refusals.WORDS, "README.md tells the refusals in other words"
    assert refusals.TOLD["clampcheck"] | refusals.TOLD["curvesvg"] == {*refusals.WORDS}, "a refusal is told that no program gives"
    shown = "".join("    %s\n" % line for line in explain.explained(WORKED[:4] + b"\7" + WORKED[5:]))
    assert shown in text, "README.md shows another explanation"


def nonsense():
    """Random bytes and random words: BadText, BadJob or an answer, nothing else; an explanation of any bytes."""
    dice = random.Random(5)
    words = ["degree", "knots", "point", "radius", "clamp", "0", "-1", "9" * 30, "0.5", "#", "\n", "\n", "\0", "\u2028", "٣", "1_0", "é", "-", "+"]
    for k in range(3000):
        if k % 2:
            data = bytes(dice.choices(range(256), k=dice.randint(0, 40)))
        else:
            data = " ".join(dice.choices(words, k=dice.randint(0, 30))).encode(dice.choice(("utf-8", "utf-16", "utf-16-le")))
        for read in (lambda: said(description.text_of(data)), lambda: read_job(data), lambda: explain.explained(data), lambda: text_kind.kind(data)):
            try:
                read()
            except (description.BadText, BadJob):
                pass


@in_folder
def commands(folder):
    """The command line: what is written, what is not, and no traceback."""
    run = lambda *words: folder.run("python3", "tools/job.py", *words)
    bad, good, out = folder.top / "bad.txt", folder.top / "good.txt", folder.top / "out.job"
    bad.write_text(SOUND.replace("5 5", "5 262145"))
    good.write_text(SOUND)
    ended = run("make", bad, out)
    assert ended.returncode == 1 and b"bad.txt: line 4: point 2 has y 262145" in ended.stderr and b"--anyway" in ended.stderr
    assert not out.exists(), "a refused job was written"
    ended = run("make", "--anyway", bad, out)
    assert ended.returncode == 0 and b"refused 7" in ended.stderr, ended
    assert out.read_bytes() == write_job(Job(1, [0, 0, 9, 9], [(0, 0), (5, 262145)], 150, [])), "another job was written"
    ended = run("make", good, good)
    assert ended.returncode == 1 and b"nothing is written over it" in ended.stderr and good.read_text() == SOUND, "the source is gone"
    (folder.top / "twin.txt").symlink_to(good)
    assert run("make", good, folder.top / "twin.txt").returncode == 1 and good.read_text() == SOUND, "the source is gone by a link"
    bad.write_text(BARE + "radius 4097\n")
    ended = run("make", bad, folder.top / "wide.job")
    assert ended.returncode == 1 and b"bad.txt: line 5: radius 4097; the cutter's radius is 0 to 4,096 (clampcheck would say: refused 22)" in ended.stderr, ended
    (folder.top / "old.job").write_bytes(OLD)
    assert (MENDING % "old.job").encode() in run("explain", "old.job").stdout, "explain does not tell how an old job is mended"
    job = out.read_bytes()
    assert run("show", out, out).returncode == 1 and out.read_bytes() == job, "the job is gone"
    assert b"this is UTF-8 text, not a job" in run("show", good).stderr
    ended = run("explain", good)
    assert ended.returncode == 0 and ended.stdout.startswith(b"byte 0: here the degree begins with tag 1, found 100\n"), ended
    assert run("explain", "/dev/zero").stdout.startswith(b"byte 0: here the degree begins with tag 1, found 0\n"), "a file without end"
    wrong = [("explain", "none"), ("explain", "tools"), ("make", "none", out), ("make", good, "tools"), ("make", "/dev/zero", out), ("show", "none"), ("show", "tools"), ("show", bad)]
    for words in wrong:
        ended = folder.run("sh", "-c", 'ulimit -v 1000000; exec python3 tools/job.py "$@"', "sh", *words)
        assert ended.returncode == 1 and ended.stderr.count(b"\n") == 1, "%s: %r" % (words, ended.stderr)
    for words in ((), ("make",), ("make", good), ("show",), ("show", "--anyway", out), ("draw", good, out), ("explain",), ("explain", out, bad)):
        ended = run(*words)
        assert ended.returncode == 1 and b"python3 tools/job.py make" in ended.stderr, "%s: %r" % (words, ended.stderr)
    ended = folder.run("sh", "-c", "python3 tools/job.py show out.job >/dev/full")
    assert ended.returncode and b"No space left" in ended.stderr and b"Traceback" not in ended.stderr, "a full disk: %r" % ended.stderr


DONE = "tools/job.py: %d messages, %d kinds of bytes, 400 jobs judged, %d explained, 3,000 pieces of nonsense, 26 commands"
EXPLANATIONS = len(EXPLAINED) + len(list(damaged_jobs()))
run_parts(DONE % (len(SAID), len(NAMED), EXPLANATIONS), messages, judged, explained, readme, nonsense, commands)
