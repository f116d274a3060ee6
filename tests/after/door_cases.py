"""Runs the cases of the second program and those worked by hand through the exports of libtsaghnobir.a, and compares every byte of the answers.

A driver in C (tests/driver) lends each list between guard bytes and tells what is written outside a list or into an input, and a place that is written
where none is told. Every job that is read is fed too, whole and in bursts, and has to be answered as it was read. Everything runs twice, with guards that
differ in every byte. Then the harness itself is tried: a changed answer, a lost one, an added byte and a spoiled guard must be told. Needs the crates
proved (after `rt ci`).
"""

import sys
import time
from collections import Counter
from concurrent.futures import ThreadPoolExecutor
from pathlib import Path

TESTS = Path(__file__).resolve().parents[1]
sys.dont_write_bytecode = True
sys.path.insert(0, str(TESTS))

from harness import driver  # noqa: E402
from harness.compare import first_difference  # noqa: E402
from harness.fed_jobs import fed_jobs, jobs_in, overlong  # noqa: E402
from harness.run_faults import run_faults  # noqa: E402
from harness.shapes import EXPORTED, NUMBER, PLACED, Broken, Reader, read_cases, told_in  # noqa: E402
from harness.worked import Unreadable, worked_cases  # noqa: E402
from second import ANSWERS, CASES, LEAST_CASES, too_few  # noqa: E402


def faults_of(word, cases):
    """What is wrong with one run over all cases."""
    return ["%s guards: %s" % (word, fault) for fault in run_faults(cases, *driver.run(word, cases))]


def last_of(case, name):
    """Where the last value of this name stands in the right answer."""
    reader, found, at = Reader(case.answer), None, 0
    for one, _ in told_in(case, reader):
        if one.endswith(name):
            found = at
        at = reader.at
    return found


def tried_answers(cases):
    """The index of an answer and a byte of it: both ends of one of each call, the place in one of each reader's refusals that have one, the number
    and the count of a feeding's last step, and the radius of a job that is read and of one that is fed."""
    for call in EXPORTED:
        at = next(k for k, case in enumerate(cases) if case.call == call)
        yield at, 0
        yield at, len(cases[at].answer) - 1
    for call in ("read_record", "read_job", "feed"):
        for number in PLACED:
            at = next(k for k, case in enumerate(cases) if case.call == call and case.numbers[-1] == number)
            for name in ("place",) if call != "feed" else ("place", "received", NUMBER):
                yield at, last_of(cases[at], name)
    for call in ("read_job", "feed"):
        at = next(k for k, case in enumerate(cases) if case.call == call and last_of(case, "radius") is not None)
        yield at, last_of(cases[at], "radius")


def comparison_is_blind(cases):
    """Where a wrong answer would pass: one changed byte of an answer, a lost answer, an added byte."""
    answers = [case.answer for case in cases]
    for at, place in tried_answers(cases):
        call = cases[at].call
        wrong = bytearray(answers[at])
        wrong[place] ^= 1
        differs = first_difference(cases, b"".join(answers[:at] + [bytes(wrong)] + answers[at + 1 :]))
        if not differs or not differs.startswith("%s (%s): " % (cases[at].name, call)):
            yield "a changed byte %d of an answer of %s is told as %r" % (place, call, differs)
    if not first_difference(cases, b"".join(answers[:-1])) or not first_difference(cases, b"".join(answers) + b"\0"):
        yield "a lost answer or an added byte is not told"


def guards_are_blind(cases):
    """Where a write outside a list would pass."""
    status, lines, _ = driver.run("selftest")
    if status != 0:
        yield "the guards fail their own test: %s" % lines.decode()
    status, _, faults = driver.run("spoiled", cases)
    if status != 1:
        yield "spoiled guards end the driver with status %d" % status
    calls = Counter({"case %d" % k: len(case.steps) or 1 for k, case in enumerate(cases, 1)})
    missed = calls - Counter(fault.partition(":")[0] for fault in faults)
    if missed:
        yield "a spoiled guard is not told after %d calls of %d cases" % (sum(missed.values()), len(missed))


def main():
    began = time.monotonic()
    try:
        vectors = [case for case in read_cases(CASES.read_bytes(), ANSWERS.read_bytes()) if case.call in EXPORTED]
        worked = worked_cases()
        driver.build()
        cases = vectors + worked
        jobs = jobs_in(cases)
        fed = fed_jobs(jobs)
        with ThreadPoolExecutor(2) as pool:
            faults = [fault for found in pool.map(lambda word: faults_of(word, cases + fed), ("first", "second")) for fault in found]
        faults += [*too_few(EXPORTED, vectors), *comparison_is_blind(cases), *guards_are_blind(cases)]
    except (Broken, Unreadable, driver.Failed) as fault:
        sys.exit(str(fault))
    if len(vectors) < LEAST_CASES:
        faults.append("there are %d cases of the second program" % len(vectors))
    if not overlong(jobs):
        faults.append("no job is fed that is longer than the longest")
    for fault in faults:
        print(fault)
    print(
        "exports: %d cases of the second program, %d worked by hand and %d feedings of their %d jobs (%d overlong), each twice, %d faults, %.0f s"
        % (len(vectors), len(worked), len(fed), len(jobs), overlong(jobs), len(faults), time.monotonic() - began)
    )
    sys.exit(1 if faults else 0)


if __name__ == "__main__":
    main()
