"""Holds what the page makes of descriptions against tools/job.py: the same job, refused by the same number, or wrong in words for both.

Descriptions of the examples, of jobs of every kind among the second program's cases, and of lines that are written wrongly. Needs
target/page/library.wasm (after page/build.sh); where no JavaScript engine is on the PATH it says so, and that is no fault.
"""

import base64
import json
import shutil
import subprocess
import sys
from pathlib import Path

TOP = Path(__file__).resolve().parents[2]
sys.dont_write_bytecode = True
sys.path[:0] = [str(TOP / "tools"), str(TOP / "tests")]

import description  # noqa: E402
import job_bytes  # noqa: E402
import refusals  # noqa: E402
from harness.fed_jobs import job_in, jobs_in  # noqa: E402
from harness.shapes import read_cases  # noqa: E402
from second import ANSWERS, CASES  # noqa: E402

ENGINE = shutil.which("node") or shutil.which("nodejs")
LIBRARY = TOP / "target" / "page" / "library.wasm"
EXAMPLES = sorted((TOP / "examples").glob("*.txt"))
EVERY = 9  # of the second program's jobs, one in so many
SOUND = "degree 3\nknots 0 0 0 0 4 4 4 4\npoint 0 0\npoint 0 8\npoint 8 8\npoint 8 0\nradius 0\nclamp 2 3 5 9\n"

# Each is put in the place of a line of the sound description, and makes another job, a refused one or none.
LINES = {
    "degree 3": ["", "degree", "degree 3 3", "degree 3\ndegree 3", "degree three", "degree 0", "degree 255", "degree 256", "degree -1", "Degree 3", "degree +3", "degree 03"],
    "knots 0 0 0 0 4 4 4 4": ["", "knots", "knots 0 0 0 0\nknots 4 4 4 4", "knots 0 0 0 0 4 4 4 65535", "knots 0 0 0 0 4 4 4 65536", "knots 0 1 2 3 4 5 6 7 # open",
                              "knots 0 0 0 0 4 4 4 4.5", "knots " + "0 " * 1029, "knots " + "0 " * 200000, "knots 0 0 0 4 4 4 4 4"],
    "point 8 8": ["", "point 8", "point 8 8 8", "point 8,8", "point 8\t8", "point 262144 -262144", "point 262145 0", "point 2147483647 0", "point 2147483648 0",
                  "point -2147483648 0", "point -2147483649 0", "point 99999999999999999999999 0", "point 0x8 8", "point 8 8 # x and y", "#", "point 8 8\n" * 1022],
    "radius 0": ["", "radius", "radius 150", "radius 4096", "radius 4097", "radius 65535", "radius 65536", "radius 1.5", "radius -1", "radius 0\nradius 0"],
    "clamp 2 3 5 9": ["", "clamp 3 2 5 9", "clamp 2 3 5", "clamp 2 3 5 9 1", "clamp 2 3 5 9\n" * 64, "clamp 2 3 5 9\n" * 65, "clamp -262145 3 5 9", "clamps 2 3 5 9", "hello"],
}


def wrong_lines():
    for line, others in LINES.items():
        for other in others:
            yield SOUND.replace(line, other)


def texts():
    yield from (path.read_text(encoding="utf-8") for path in EXAMPLES)
    yield from (SOUND, "", "#\n", SOUND.replace("\n", "\r\n"), SOUND.replace("\n", "\r"), "\ufeff" + SOUND)
    yield from wrong_lines()
    for case in jobs_in(read_cases(CASES.read_bytes(), ANSWERS.read_bytes()))[::EVERY]:
        try:
            yield description.write_text(job_bytes.read_job(job_in(case)))
        except job_bytes.BadJob:
            continue


def right(text):
    """What tools/job.py makes of a text: the job's bytes, the number of its refusal, or None where it is no description."""
    try:
        job = description.read_text(text.removeprefix("\ufeff"))
    except description.BadText:
        return None
    fault = refusals.fault_of(job)
    return fault.number if fault else job_bytes.write_job(job)


def told(answer):
    """The same of the page's answer."""
    if "wrong" in answer:
        return None
    return answer["refusal"] if "refusal" in answer else base64.b64decode(answer["bytes"])


def faults(asked, answers):
    for text, answer in zip(asked, answers, strict=True):
        if told(answer) != right(text):
            yield "%r...: the page gives %r, tools/job.py %r" % (text[:200], answer, right(text))


def main():
    if ENGINE is None:
        print("page: no JavaScript engine here (Debian: nodejs), so no descriptions were read by the page's code")
        return
    asked = [text.removeprefix("\ufeff") for text in texts()]
    ran = subprocess.run([ENGINE, str(TOP / "tests" / "page" / "described.mjs"), str(LIBRARY)], input=json.dumps(asked), stdout=subprocess.PIPE, text=True, check=True)
    answers = json.loads(ran.stdout)
    found = [*faults(asked, answers)]
    kinds = {type(right(text)).__name__ for text in asked}
    if kinds != {"bytes", "int", "NoneType"} or not [*faults(asked, answers[1:] + answers[:1])]:
        found.append("the descriptions are not of every kind, or answers to others would pass")
    for fault in found:
        print(fault)
    print("page: %d descriptions read as tools/job.py reads them, %d faults" % (len(asked), len(found)))
    sys.exit(1 if found else 0)


if __name__ == "__main__":
    main()
