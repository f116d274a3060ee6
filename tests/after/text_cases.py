"""Runs the second program's cases of `clampcheck_text` through the built clampcheck and compares every byte of the text; of every refused
job tools/job.py explain must tell the same number and place.

At the end the comparison itself is tried: one changed answer must be told, and a program that prints one fixed text too.
"""

import re
import struct
import subprocess
import sys
import time
from concurrent.futures import ThreadPoolExecutor
from pathlib import Path

TOP = Path(__file__).resolve().parents[2]
sys.dont_write_bytecode = True
sys.path[:0] = [str(TOP / "tools"), str(TOP / "tests")]

import program  # noqa: E402
from harness.compare import first_difference  # noqa: E402
from harness.explained import disagreement  # noqa: E402
from harness.shapes import Broken, Reader, read_cases  # noqa: E402
from second import ANSWERS, CASES, too_few  # noqa: E402

CALL = "clampcheck_text"
TIMEOUT = 40


def job_of(case):
    reader = Reader(case.body)
    reader.number("u8")
    return bytes(reader.value("u8[]"))


def answer_to(words, case):
    """The answer's bytes: the number that the text names, 0 for none, then the text and a byte 0."""
    text = subprocess.run(words, input=job_of(case), stdout=subprocess.PIPE, timeout=TIMEOUT).stdout
    refused = re.fullmatch(rb"refused (\d{1,9})(?: at \d{1,9})?\n", text)
    return struct.pack("<I", int(refused[1]) if refused else 0) + text + b"\0"


def answers_to(words, cases):
    with ThreadPoolExecutor(4) as pool:
        return list(pool.map(lambda case: answer_to(words, case), cases))


def explained_otherwise(cases, answers):
    """The cases whose job is explained in another way than clampcheck answered."""
    for case, answer in zip(cases, answers):
        differs = disagreement(job_of(case), answer[4:-1].decode("ascii"))
        if differs:
            yield "%s is %s" % (case.name, differs)


def comparison_is_blind(cases, answers):
    for at in (0, len(cases) // 2, len(cases) - 1):
        for place in (0, -2):
            right = bytearray(cases[at].answer)
            right[place] ^= 1
            changed = cases[:at] + [cases[at]._replace(answer=bytes(right))] + cases[at + 1 :]
            if not first_difference(changed, b"".join(answers)):
                yield "a changed answer to %s is not told" % cases[at].name
    few = cases[::40]
    fixed = ["sh", "-c", "cat >/dev/null; echo refused 16 at 0"]
    if not first_difference(few, b"".join(answers_to(fixed, few))):
        yield "a program that refuses everything is not told"


def main():
    began = time.monotonic()
    try:
        cases = [case for case in read_cases(CASES.read_bytes(), ANSWERS.read_bytes()) if case.call == CALL]
        answers = answers_to(program.command("clampcheck"), cases)
    except (Broken, program.NotBuilt) as fault:
        sys.exit(str(fault))
    differs = first_difference(cases, b"".join(answers))
    faults = [differs] if differs else []
    faults += [*too_few([CALL], cases), *explained_otherwise(cases, answers), *comparison_is_blind(cases, answers)]
    for fault in faults:
        print(fault)
    print("clampcheck: %d cases of the second program, %d faults, %.0f s" % (len(cases), len(faults), time.monotonic() - began))
    sys.exit(1 if faults else 0)


if __name__ == "__main__":
    main()
