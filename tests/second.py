"""A second program for the calls of Tsaghnobir, written from the scope alone, and the cases that both programs answer.

    python3 tests/second.py write            writes tests/vectors/cases and tests/vectors/answers
    python3 tests/second.py compare          makes both anew and compares them with the files, with the demands and counts
    python3 tests/second.py compare CALL     the same for the cases of one call

The scripts tests/after/door_cases.py and text_cases.py run the cases through the proved library and the program, page_cases.py through the page's, and
hold what they answer to the same files. SECOND_FAULT=CALL plants one fault in that call here, and the comparison must then fail; a reader, feeding,
joining, the cutter's radius, path data and open ends have more faults, which second_program/fault.py lists. A name that is no fault, or none of the calls compared, is an error.
"""

import sys
from collections import Counter
from pathlib import Path

from second_program.cases import cases_of
from second_program.demands import Broken, too_few_hits, try_demands
from second_program.expected import Unexpected
from second_program.fault import PLANTED, must_be_of
from second_program.vectors import CALLS, answer_file, case_file

FOLDER = Path(__file__).resolve().parent / "vectors"
CASES = FOLDER / "cases"
ANSWERS = FOLDER / "answers"

LEAST_CASES = 2000
LEAST_OF_CALL = 50
LEAST_OF_REFUSAL = 20
MOST_LARGE = 172
LARGE = 256
AT_ONCE = 16  # cases that are made before the answers are looked at, while a fault is planted
MOST_BYTES = 9 * 512 * 1024
CHECK = (1, 2, 3, 4, 5, 6, 7)
BROKEN = (16, 19, 20, 21)
CLAMPS = (22, 14)
JOINING = (17, 7, 11, 18, 15)
REFUSALS = dict(
    check=CHECK,
    point_at=CHECK + (8,),
    carrying=CHECK + (8,),
    insert_knot=CHECK + (9, 10, 11, 15),
    remove_knot=CHECK + (12, 13, 15),
    compact=CHECK + (15,),
    join_through_points=JOINING,
    list_spans_met=CHECK + CLAMPS + (15,),
    write_record=CHECK + (15,),
    read_record=BROKEN + CHECK + (15,),
    read_job=BROKEN + CHECK + CLAMPS + (15,),
    clampcheck_text=BROKEN + CHECK + CLAMPS,
    feed=BROKEN + CHECK + CLAMPS + (15,),
    join=JOINING,
    svg=CHECK + (10, 11, 15),
    clamp_ends=CHECK + (11, 15),
    unclamp_right=CHECK + (23, 15),
)


def too_few(calls, cases):
    """What the cases lack, in words."""
    of_call = Counter(case.call for case in cases)
    of_refusal = Counter((case.call, number) for case in cases for number in set(case.numbers))
    for call in calls:
        if of_call[call] < LEAST_OF_CALL:
            yield "%s has %d cases" % (call, of_call[call])
        for number in REFUSALS[call]:
            if of_refusal[call, number] < LEAST_OF_REFUSAL:
                yield "%s has %d cases of refusal %d" % (call, of_refusal[call, number], number)
    if tuple(calls) == CALLS and len(cases) < LEAST_CASES:
        yield "there are %d cases in all" % len(cases)


def too_many(cases):
    large = sum(case.points > LARGE for case in cases)
    if large > MOST_LARGE:
        yield "%d cases have more than %d points" % (large, LARGE)
    size = len(case_file(cases)) + len(answer_file(cases))
    if size > MOST_BYTES:
        yield "the files have %d bytes" % size


def differences(calls, cases):
    """Where the files are not what is made anew; of a single call, or of the first cases, their part of them."""
    for file, anew in ((CASES, case_file(cases)), (ANSWERS, answer_file(cases))):
        kept = file.read_bytes()
        same = anew == kept if tuple(calls) == CALLS and not PLANTED else anew in kept
        if not same:
            yield "tests/vectors/%s differs from what is made anew" % file.name


def spoiled_cases(calls):
    """The cases as far as their answers are the kept ones, and some more: a planted fault is for the answers to notice, and has been by then."""
    kept, cases = ANSWERS.read_bytes(), []
    for case in (case for call in calls for case in cases_of(call)):
        cases.append(case)
        if len(cases) % AT_ONCE == 0 and answer_file(cases) not in kept:
            break
    return cases


def compare(calls):
    try:
        if PLANTED:
            return [*differences(calls, spoiled_cases(calls))]
        cases = [case for call in calls for case in cases_of(call)]
        near, hits = try_demands(cases)
    except (Unexpected, Broken) as fault:
        return [str(fault)]
    faults = [*too_few(calls, cases), *too_many(cases), *differences(calls, cases)]
    if tuple(calls) == CALLS:
        faults += too_few_hits(hits)
    if not faults:
        reached = "%(inside)d exact points in clamps, %(within)d within the radius of one, %(at_side)d at it from a side, %(at_corner)d from a corner" % hits
        kept = "%(pieces)d exact pieces, %(kept)d exact points before and after" % hits
        print("%d cases; %d computed points within 2^-30; %s; %s" % (len(cases), near, reached, kept))
    return faults


def write():
    cases = [case for call in CALLS for case in cases_of(call)]
    FOLDER.mkdir(exist_ok=True)
    CASES.write_bytes(case_file(cases))
    ANSWERS.write_bytes(answer_file(cases))


def main(arguments):
    if arguments == ["write"]:
        if PLANTED is not None:
            print("SECOND_FAULT=%s: nothing is written with a fault" % PLANTED, file=sys.stderr)
            return 2
        write()
        return 0
    if arguments[:1] == ["compare"] and all(call in CALLS for call in arguments[1:]):
        calls = arguments[1:] or CALLS
        must_be_of(calls)
        faults = compare(calls)
        for fault in faults:
            print(fault, file=sys.stderr)
        return 1 if faults else 0
    print(__doc__, file=sys.stderr)
    return 2


if __name__ == "__main__":
    sys.exit(main(sys.argv[1:]))
