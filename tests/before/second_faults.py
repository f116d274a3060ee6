"""Plants each fault in the second program, by turns: the answers of its call must then differ from tests/vectors, and a fault that would be planted
nowhere must be refused."""

import os
import subprocess
import sys
from concurrent.futures import ThreadPoolExecutor
from pathlib import Path

TESTS = Path(__file__).resolve().parent.parent
sys.dont_write_bytecode = True
sys.path.insert(0, str(TESTS))

from second_program.fault import call_of, faults_of
from second_program.vectors import CALLS

FAULTS = faults_of(CALLS)
SPOILED = "tests/vectors/answers differs from what is made anew"
NOWHERE = (
    ("insert", ()),
    ("", ()),
    ("check", ("compact",)),
    ("Check", ("check",)),
    ("read_record:left_over", ()),
    ("read_job:left_over", ("read_record",)),
    ("join_through_points:keeps_meeting", ()),
    ("join:keeps_meeting", ("join_through_points",)),
    ("list_spans_met:radius_twice", ()),
    ("list_spans_met:three_sides", ("read_job",)),
    ("svg:keeps_meeting", ()),
    ("svg:comma", ("write_record",)),
)


def compare(fault, calls):
    return subprocess.run(
        [sys.executable, "-B", str(TESTS / "second.py"), "compare", *calls],
        env={**os.environ, "SECOND_FAULT": fault},
        stdout=subprocess.PIPE,
        stderr=subprocess.PIPE,
        text=True,
    )


def noticed(fault):
    """Whether the comparison fails for the answers, and for them alone."""
    run = compare(fault, [call_of(fault)])
    lines = run.stderr.splitlines()
    return run.returncode == 1 and lines == [SPOILED]


def refused(fault, calls):
    run = compare(fault, calls)
    return run.returncode == 2 and run.stderr.startswith("SECOND_FAULT=%s: no such fault" % fault)


with ThreadPoolExecutor(2) as pool:
    missed = [fault for fault, told in zip(FAULTS, pool.map(noticed, FAULTS)) if not told]
passed = [fault for fault, calls in NOWHERE if not refused(fault, calls)]
print("planted faults noticed: %d of %d; refused: %d of %d" % (len(FAULTS) - len(missed), len(FAULTS), len(NOWHERE) - len(passed), len(NOWHERE)))
for fault in missed:
    print("the planted fault %s was not noticed" % fault, file=sys.stderr)
for fault in passed:
    print("SECOND_FAULT=%s was not refused" % fault, file=sys.stderr)
sys.exit(1 if missed or passed else 0)
