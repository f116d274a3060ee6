"""Runs the built clampcheck on sound, damaged, short, long and slowly arriving jobs and compares what it prints with the
second program's answer; the outcomes that matter most are written out here besides.

Every cut and every byte of two jobs changed in three ways, a full job at its end, jobs that break in every other way, each refusal that a
job can reach, cutters that just reach a clamp or do not, curves with open ends, the longest job and one byte more, the longest text, input in pieces, an empty pipe, a
closed and an unreadable standard input.
Of every job that is handed over at once, tools/job.py explain must tell the number and the place that clampcheck printed. At the end the
comparison itself is tried: programs that print nothing, one fixed text, or every place one too far must be noticed.
"""

import pathlib
import sys
import time

TOP = pathlib.Path(__file__).resolve().parents[2]
sys.dont_write_bytecode = True
sys.path[:0] = [str(TOP / "tools"), str(TOP / "tests")]

import program  # noqa: E402
from harness.explained import disagreement  # noqa: E402
from harness.program_runs import (  # noqa: E402
    answers_to,
    damaged,
    farther,
    from_file,
    in_pieces,
    lost,
    passing_fixed,
    unnoticed,
    whole,
    without_bytes,
    wrong_in_words,
)
from harness.refused_curves import REFUSED_CURVES  # noqa: E402
from second_program.broken_cases import broken_jobs  # noqa: E402
from second_program.broken_radii import broken_radii  # noqa: E402
from second_program.clamp_cases import good_rectangle  # noqa: E402
from second_program.curve import Curve  # noqa: E402
from second_program.cutter_cases import some_radius  # noqa: E402
from second_program.cutter_job_cases import wide_job  # noqa: E402
from second_program.dice import Dice  # noqa: E402
from second_program.expected import WORKED_U, WORKED_W  # noqa: E402
from second_program.job_cases import damaged_job, good_job, job_of, longest_job, with_bad_clamp  # noqa: E402
from second_program.open_curves import either_curve, spoiled_open_curve  # noqa: E402
from second_program.record import clampcheck_text  # noqa: E402

MOST_SECONDS = 150
LONGEST = 11482
LONGEST_OF_CLAMP = 31713
CURVE_A = Curve(3, [0, 0, 0, 0, 4, 4, 4, 4], [0, 0, 8, 8], [0, 8, 8, 0])
WORKED = job_of(CURVE_A, [(2, 3, 5, 9), (9, 12, 0, 4), (8, 10, 8, 9)])
WORKED_TEXT = """curve degree 3 points 4 spans 1
clamp 1 may meet 0..4
clamp 2 clear
clamp 3 may meet 0..4
"""
NO_BYTES = "refused 16 at 0\n"
ONE_MORE = "refused 21 at 11482\n"
OTHER_CURVE = Curve(2, [0, 0, 0, 300, 4000, 4000, 4000], [-5, 70000, -262144, 262144], [1000, -1, 65536, 0])
OTHER = job_of(OTHER_CURVE, [(-70000, -300, 2, 65536), (0, 0, 0, 0)], 300)
FULL = job_of(CURVE_A, [(9, 12, 0, 4)] * 64)
RECORD, CLAMPS = WORKED[:61], WORKED[66:]  # of the worked job; the radius stands between them
CORNER = (11, 20, -9, -4)  # the curve ends 3 and 4 steps from it, so 5 away


def expected(job):
    return clampcheck_text(job)[1]


def refusals():
    """A job for each number that a job can reach, with the line that is right, worked out by hand."""
    for number, curve in REFUSED_CURVES:
        yield "refused %d" % number, job_of(curve, [(9, 2, 0, 0)])
    yield "refused 14", job_of(CURVE_A, [(2, 3, 5, 9), (3, 2, 5, 9)])
    yield "refused 14", job_of(CURVE_A, [(2, 3, 5, 262145)])
    yield "refused 14", job_of(CURVE_A, [(3, 2, 5, 9)], 4096)
    yield "refused 19 at 4", WORKED[:4] + b"\7" + WORKED[5:]
    yield "refused 19 at 123", WORKED + b"\0"
    yield "refused 19 at 66", job_of(CURVE_A._replace(degree=9), []) + b"\6\0\0"
    yield "refused 20 at 1", b"\1\0\0" + WORKED[3:]
    yield "refused 20 at 5", WORKED[:5] + b"\x0f" + WORKED[6:]
    yield "refused 20 at 5", WORKED[:5] + b"\x0f\0"
    yield "refused 16 at 6", WORKED[:5] + b"\x0f"
    yield "refused 16 at 86", job_of(CURVE_A, [(3, 2, 0, 0)]) + b"\5"
    yield "refused 16 at 122", WORKED[:-1]
    yield "refused 19 at 1263", FULL[:-19] + b"\0"
    yield "refused 20 at 1264", FULL[:-18] + b"\x11" + FULL[-17:]
    yield "refused 21 at 1282", FULL + b"\0"
    yield "refused 21 at 1282", FULL + b"\5"


def refusals_of_radius():
    """The same for the cutter's radius: too large, with faults that are told before it or behind it, missing, doubled, cut and of a wrong length."""
    yield "refused 22", job_of(CURVE_A, [(2, 3, 5, 9)], 4097)
    yield "refused 22", job_of(CURVE_A, [], 65535)
    yield "refused 22", job_of(CURVE_A, [(3, 2, 5, 9)], 4097)
    yield "refused 7", job_of(CURVE_A._replace(xs=[0, 0, 8, 262145]), [(2, 3, 5, 9)], 4097)
    yield "refused 19 at 66", job_of(CURVE_A, [], 4097) + b"\0"
    yield "refused 21 at 1282", job_of(CURVE_A, [(9, 12, 0, 4)] * 64, 4097) + b"\6"
    yield "refused 19 at 61", RECORD + CLAMPS
    yield "refused 16 at 61", RECORD
    yield "refused 19 at 66", WORKED[:66] + WORKED[61:66] + CLAMPS
    yield "refused 19 at 61", RECORD + CLAMPS + WORKED[61:66]
    yield "refused 19 at 123", WORKED + WORKED[61:66]
    for kept in range(1, 5):
        yield "refused 16 at %d" % (61 + kept), WORKED[: 61 + kept]
    for length in (0, 1, 3, 4):
        yield "refused 20 at 62", RECORD + bytes([6, length, 0]) + bytes(length) + CLAMPS
    yield "refused 20 at 62", RECORD + b"\6\0\2\0\0" + CLAMPS


def texts():
    """Jobs that are taken, with the text that is right, worked out by hand: the curve's end, its box, and a clamp at the end of the range."""
    first = WORKED_TEXT.splitlines(True)[0]
    met, clear = "clamp 1 may meet 0..4\n", "clamp 1 clear\n"
    yield "the worked job", WORKED, WORKED_TEXT
    yield "no clamps and a radius", job_of(CURVE_A, [], 4096), first
    for radius, line in ((0, clear), (3, clear), (4, met), (5, met), (4096, met)):
        yield "a corner 5 away and radius %d" % radius, job_of(CURVE_A, [CORNER], radius), first + line
    yield "the largest radius", job_of(CURVE_A, [(4104, 4104, 0, 0)], 4096), first + met
    yield "a step more", job_of(CURVE_A, [(4105, 4105, 0, 0)], 4096), first + clear
    line = Curve(1, [0, 0, 4, 4], [0, 258048], [0, 0])
    for radius, told in ((4096, met), (4095, clear)):
        yield "a clamp at the end of the range and radius %d" % radius, job_of(line, [(262144, 262144, 0, 0)], radius), (
            "curve degree 1 points 2 spans 1\n" + told
        )
    yield "even knots", job_of(WORKED_U, [(0, 0, 0, 0), (12, 12, 0, 0), (-9, -1, 0, 8)]), (
        "curve degree 2 points 4 spans 2\nclamp 1 may meet 2..3\nclamp 2 may meet 3..4\nclamp 3 clear\n"
    )
    yield "a point that carries nothing", job_of(WORKED_W, [(100, 100, 100, 100), (4, 4, 2, 2)]), (
        "curve degree 1 points 3 spans 1\nclamp 1 clear\nclamp 2 may meet 1..2\n"
    )


def written_refusals():
    return [*refusals(), *refusals_of_radius()]


def longest_text():
    """1,023 spans with knots of five digits, and 64 clamps that meet every one."""
    knots = [10000] + list(range(10000, 11024)) + [11023]
    curve = Curve(1, knots, [0] * 1024, [0] * 1024)
    return job_of(curve, [(-1, 1, -1, 1)] * 64)


def jobs():
    """Every job that is handed over at once, with a name."""
    yield "the worked job", WORKED
    yield "another job", OTHER
    yield "a full job", FULL
    yield "no bytes", b""
    yield from damaged("the worked job", WORKED, range(len(WORKED)))
    yield from damaged("another job", OTHER, range(len(OTHER)))
    yield from damaged("a full job", FULL, range(len(FULL) - 22, len(FULL)))
    for number, place, job in [*list(broken_jobs(Dice(8)))[::3], *list(broken_radii(Dice(9)))[::2]]:
        yield "a job with fault %d at %d" % (number, place), job
    for line, job in written_refusals():
        yield line, job
    yield "no clamps", job_of(CURVE_A, [])
    several = Curve(2, [0, 0, 0, 2, 4, 6, 6, 6], [0, 4, 8, 12, 16], [0, 8, 8, 8, 0])
    yield "a clamp that meets several spans", job_of(several, [(5, 9, 6, 9), (20, 30, 0, 9), (0, 16, 8, 8)])
    longest = longest_job(Dice(7))
    yield "the longest job", longest
    yield "one byte more", longest + b"\5"
    yield "a clamp more", longest + longest[-19:]
    yield "many bytes more", longest + bytes(100000)
    yield "the longest text", longest_text()
    dice = Dice(77)
    for k in range(30):
        yield "sound job %d" % k, job_of(*good_job(dice, 5))
        yield "damaged job %d" % k, damaged_job(dice)
        yield "bad clamp %d" % k, job_of(*with_bad_clamp(dice))
        yield "bad curve %d" % k, job_of(spoiled_open_curve(dice, 1 + k % 7, byte=True), [(0, 1, 0, 1)])
        curve = either_curve(dice)
        yield "open job %d" % k, job_of(curve, [good_rectangle(dice, curve) for _ in range(3)])
        radius = some_radius(dice)
        yield "wide job %d" % k, job_of(*wide_job(dice, radius), radius)
        yield "too wide job %d" % k, job_of(*wide_job(dice, radius), 4097 + 97 * k)


def runs(words):
    """Every run of the program that these words start."""
    for name, job in jobs():
        yield name, lambda job=job: whole(words, job), expected(job), job
    longest = longest_job(Dice(7))
    written_out = [("%s, written out" % line, job, line + "\n") for line, job in written_refusals()]
    written_out += [("%s, written out" % name, job, text) for name, job, text in texts()] + [("nothing, written out", b"", NO_BYTES)]
    written_out += [("one byte more, written out", longest + b"\5", ONE_MORE)]
    for name, job, right in written_out:
        yield name, lambda job=job: whole(words, job), right, job
    for name, run, right in (
        ("the worked job byte by byte", lambda: in_pieces(words, WORKED, 1, 0.002), WORKED_TEXT),
        ("the worked job in sevens", lambda: in_pieces(words, WORKED, 7, 0.01), WORKED_TEXT),
        ("a radius cut between its bytes", lambda: in_pieces(words, job_of(CURVE_A, [], 4097), 65, 0.01), "refused 22\n"),
        ("a broken job in fives", lambda: in_pieces(words, WORKED[:42] + b"\3" + WORKED[43:], 5, 0.01), "refused 19 at 42\n"),
        ("the longest job in pieces", lambda: in_pieces(words, longest, 997, 0.005), expected(longest)),
        ("one byte more in pieces", lambda: in_pieces(words, longest + b"\0", 4096, 0.005), ONE_MORE),
    ):
        yield name, run, right, None
    yield from without_bytes(words, NO_BYTES)
    yield "a full device", lambda: lost(words, WORKED), "", None
    for sample in sorted((TOP / "examples").glob("*.job")):
        yield sample.name, lambda sample=sample: from_file(words, sample), expected(sample.read_bytes()), None


def explained_otherwise(chosen, answers):
    """The jobs that are explained in another way than clampcheck answered."""
    found = [(run[0], disagreement(run[3], answer)) for run, answer in zip(chosen, answers) if run[3] is not None]
    return [one for one in found if one[1]]


def comparison_is_blind(chosen, answers):
    """Where a wrong program would pass: one that prints a fixed text, or every place one too far."""
    yield from passing_fixed(runs, ("", NO_BYTES, WORKED_TEXT))
    moved = farther(answers)
    if unnoticed(chosen, answers, moved, 200) or not explained_otherwise(chosen, moved):
        yield "a program that tells every place one too far would pass"


def main():
    began = time.monotonic()
    assert len(WORKED) == 123 and len(OTHER) == 102 and len(FULL) == 1282, "the jobs are not the ones that are meant"
    assert len(longest_job(Dice(7))) == LONGEST and expected(OTHER).startswith("curve degree 2 "), "the jobs are not the ones that are meant"
    of_last = [line for line in expected(longest_text()).splitlines(True) if line.startswith("clamp 64 ")]
    assert sum(map(len, of_last)) == LONGEST_OF_CLAMP, "the longest text is not the one that is meant"
    try:
        words = program.command("clampcheck")
    except program.NotBuilt as fault:
        sys.exit(str(fault))
    chosen = list(runs(words))
    answers = answers_to(chosen)
    faults = wrong_in_words(chosen, answers)
    faults += ["%s: %s" % one for one in explained_otherwise(chosen, answers)]
    faults += comparison_is_blind(chosen, answers)
    for fault in faults[:10]:
        print(fault)
    took = time.monotonic() - began
    told = sum(" at " in answer for answer in answers)
    print("clampcheck: %d runs, %d of them told with a place, %d faults, %.0f s" % (len(chosen), told, len(faults), took))
    if faults or took > MOST_SECONDS:
        sys.exit(1)


main()
