"""Runs the built curvesvg on records that are drawn, refused, damaged, too long or slow to come, and compares what it prints with the second program's
answer; the outcomes that matter most are written out here besides.

Some curves of the second program's cases of `svg` for each number, every cut and every byte of a record changed in three ways, records that break in
every other way, a job in place of a record, the longest record and one byte more, the longest text, input in pieces or none at all.
At the end the comparison itself is tried: programs that print one fixed text, no newline, or every place one too far must be noticed.
"""

import sys
import time
from functools import lru_cache
from pathlib import Path

TOP = Path(__file__).resolve().parents[2]
sys.dont_write_bytecode = True
sys.path[:0] = [str(TOP / "tools"), str(TOP / "tests")]

import program  # noqa: E402
from harness.program_runs import (  # noqa: E402
    answers_to,
    damaged,
    farther,
    from_file,
    in_pieces,
    lost,
    passing_fixed,
    unnoticed,
    whole,
    without_bytes,
    wrong_in_words,
)
from harness.refused_curves import REFUSED_CURVES  # noqa: E402
from harness.shapes import CURVE, Reader, read_cases  # noqa: E402
from second import ANSWERS, CASES, REFUSALS  # noqa: E402
from second_program.broken_cases import broken_records, overlong_records  # noqa: E402
from second_program.curve import FARTHEST, MOST_POINTS, Curve  # noqa: E402
from second_program.dice import Dice  # noqa: E402
from second_program.expected import WORKED_A, WORKED_B, WORKED_U, WORKED_V, WORKED_W  # noqa: E402
from second_program.job_cases import job_of  # noqa: E402
from second_program.path_data import LONGEST, curvesvg_text  # noqa: E402
from second_program.record import record_of  # noqa: E402

MOST_SECONDS = 60
EACH_NUMBER = 9
RECORD_A, RECORD_B = record_of(WORKED_A), record_of(WORKED_B)
TEXT_A, TEXT_B = "M 0 0 C 0 8 8 8 8 0\n", "M 0 0 Q 4 8 6 8 Q 8 8 12 0\n"
NO_BYTES = "refused 16 at 0\n"
ONE_MORE = "refused 21 at 10261\n"
# Each inner value three times, so that 1,024 points are cut already: every field is as long as it may be.
LONGEST_RECORD = record_of(Curve(3, [0] + [k for k in range(342) for _ in range(3)] + [341], list(range(1024)), list(range(0, -1024, -1))))
LONGEST_TEXT = record_of(Curve(1, [0, *range(MOST_POINTS), MOST_POINTS - 1], [-FARTHEST] * MOST_POINTS, [-FARTHEST] * MOST_POINTS))


def written_out():
    """Bytes with the text that is right, worked out by hand."""
    yield RECORD_A, TEXT_A
    yield RECORD_B, TEXT_B
    yield record_of(Curve(1, [0, 0, 3, 5, 5], [-5, 10, -262144], [0, -1, 262144])), "M -5 0 L 10 -1 L -262144 262144\n"
    yield record_of(WORKED_U), "M 2 4 Q 4 8 6 8 Q 8 8 10 4\n"
    yield record_of(WORKED_V), "M 6 6 C 8 4 10 -4 12 -5\n"
    yield record_of(WORKED_W), "M 0 0 L 8 4\n"
    yield record_of(WORKED_U._replace(xs=[1, 4, 8, 12])), "refused 11\n"
    for ys in ([0, 7, 8, 0], [0, -7, 8, 0]):
        yield record_of(WORKED_B._replace(ys=ys)), "refused 11\n"
    yield record_of(Curve(2, [0, 0, *range(1023), 1022, 1022], [0] * 1024, [0] * 1024)), "refused 10\n"
    for number, curve in REFUSED_CURVES:
        yield record_of(curve), "refused %d\n" % number
    yield b"", NO_BYTES
    yield RECORD_A[:-1], "refused 16 at 60\n"
    yield RECORD_A[:5] + b"\x0f", "refused 16 at 6\n"
    yield RECORD_A[:4] + b"\7" + RECORD_A[5:], "refused 19 at 4\n"
    yield RECORD_A[:5] + b"\x0f" + RECORD_A[6:], "refused 20 at 5\n"
    yield RECORD_A + b"\0", "refused 21 at 61\n"
    yield job_of(WORKED_A, [(2, 3, 5, 9)]), "refused 21 at 61\n"
    yield LONGEST_RECORD + b"\0", ONE_MORE
    yield LONGEST_RECORD + bytes(100000), ONE_MORE


def curve_of(case):
    reader = Reader(case.body)
    reader.number("u8")
    return Curve(*(reader.value(kind) for _, kind in CURVE))


def storable(curve):
    return curve.degree < 256 and len(curve.knots) <= 1028 and max(len(curve.xs), len(curve.ys)) <= MOST_POINTS


def drawn_or_refused():
    """Records of curves of the second program's cases, evenly taken from those that get each number; 15 is the list's that was lent there."""
    cases = [case for case in read_cases(CASES.read_bytes(), ANSWERS.read_bytes()) if case.call == "svg"]
    for number in (0, *REFUSALS["svg"]):
        curves = [curve for curve in (curve_of(case) for case in cases if case.numbers == [number]) if storable(curve)]
        assert len(curves) >= EACH_NUMBER, "there are too few cases of %d" % number
        for k in range(EACH_NUMBER):
            yield "curve %d that gets %d" % (k, number), record_of(curves[k * len(curves) // EACH_NUMBER])


def inputs():
    """All bytes that are handed over at once and have no text written out, with a name."""
    yield from drawn_or_refused()
    yield from damaged("a record", RECORD_B, range(len(RECORD_B)))
    for number, place, data in [*list(broken_records(Dice(8)))[::4], *overlong_records(Dice(9))]:
        yield "a record with fault %d at %d" % (number, place), data
    yield "the longest record", LONGEST_RECORD
    yield "the longest record without its last byte", LONGEST_RECORD[:-1]
    yield "the longest text", LONGEST_TEXT


@lru_cache(None)
def at_once():
    """Name, bytes and right text of everything that is handed over at once."""
    told = [("bytes %d, written out" % k, data, right) for k, (data, right) in enumerate(written_out())]
    return told + [(name, data, curvesvg_text(data)) for name, data in inputs()]


def runs(words):
    """Every run of the program that these words start."""
    for name, data, right in at_once():
        yield name, lambda data=data: whole(words, data), right, data
    for name, run, right in (
        ("a record byte by byte", lambda: in_pieces(words, RECORD_B, 1, 0.002), TEXT_B),
        ("a record in sevens", lambda: in_pieces(words, RECORD_A, 7, 0.01), TEXT_A),
        ("a broken record in fives", lambda: in_pieces(words, RECORD_A[:42] + b"\3" + RECORD_A[43:], 5, 0.01), "refused 19 at 42\n"),
        ("the longest record in pieces", lambda: in_pieces(words, LONGEST_RECORD, 997, 0.005), curvesvg_text(LONGEST_RECORD)),
        ("one byte more in pieces", lambda: in_pieces(words, LONGEST_RECORD + b"\0", 4096, 0.005), ONE_MORE),
        ("a file", lambda: from_file(words, TOP / "crates" / "curvesvg" / "stdin"), TEXT_B),
    ):
        yield name, run, right, None
    yield from without_bytes(words, NO_BYTES)
    yield "a full device", lambda: lost(words, RECORD_B), "", None


def comparison_is_blind(chosen, answers):
    """Where a wrong program would pass: one that prints a fixed text, no newline, or every place one too far."""
    yield from passing_fixed(runs, ("", NO_BYTES, TEXT_B))
    if unnoticed(chosen, answers, [answer[:-1] for answer in answers], len(answers) - 1):  # on a full device there is no newline to leave out
        yield "a program that prints no newline would pass"
    if unnoticed(chosen, answers, farther(answers), 150):
        yield "a program that tells every place one too far would pass"


def main():
    began = time.monotonic()
    assert len(LONGEST_RECORD) == 10261 and len(curvesvg_text(LONGEST_RECORD)) > 9000, "the longest record is not the one that is meant"
    assert len(curvesvg_text(LONGEST_TEXT)) == LONGEST + 1, "the longest text is not the one that is meant"
    try:
        words = program.command("curvesvg")
    except program.NotBuilt as fault:
        sys.exit(str(fault))
    chosen = list(runs(words))
    answers = answers_to(chosen)
    faults = [*wrong_in_words(chosen, answers), *comparison_is_blind(chosen, answers)]
    for fault in faults[:10]:
        print(fault)
    took = time.monotonic() - began
    drawn, placed = sum(answer.startswith("M ") for answer in answers), sum(" at " in answer for answer in answers)
    print("curvesvg: %d runs, %d of them drawn, %d told with a place, %d faults, %.0f s" % (len(chosen), drawn, placed, len(faults), took))
    if faults or took > MOST_SECONDS:
        sys.exit(1)


main()
