"""Builds libtsaghnobir.a and examples/c/tour.c over include/tsaghnobir.h, runs the example and compares what it prints with examples/c/tour.expected,
which was worked out by hand. Needs the crates proved (after `rt ci`)."""
import pathlib
import subprocess
import sys

root = pathlib.Path(__file__).resolve().parents[2]
example = root / "examples" / "c"
ran = subprocess.run([str(example / "build.sh"), "run"], stdout=subprocess.PIPE, stderr=subprocess.PIPE, text=True)
if ran.returncode != 0:
    sys.exit(f"the C example did not build or run (status {ran.returncode}):\n{ran.stdout}{ran.stderr}")
expected = (example / "tour.expected").read_text().splitlines()
printed = ran.stdout.splitlines()
for number, (want, got) in enumerate(zip(expected, printed), 1):
    if want != got:
        sys.exit(f"line {number} of the C example: {got!r}, expected {want!r}")
if len(expected) != len(printed):
    sys.exit(f"the C example printed {len(printed)} lines, expected {len(expected)}")
print(f"the C example printed the {len(expected)} expected lines")
