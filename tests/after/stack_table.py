"""The table of docs/BENCHMARKS.md under "Stack" is what bench/stack.sh prints of the archive and the program that were built, so a call whose stack has grown
is told here; and each export, called on a painted stack (tests/stack/seen.c), goes as deep as the table says, which counts in words of 8 bytes, and no deeper. Needs the crates proved
(after `rt ci`)."""

import pathlib
import re
import subprocess
import sys

TOP = pathlib.Path(__file__).resolve().parents[2]
sys.dont_write_bytecode = True
PAGE = TOP / "docs" / "BENCHMARKS.md"
HEADER = TOP / "include" / "tsaghnobir.h"
WORD = 8  # a figure is whole words: of the lowest word a call may write a half alone
# what the header tells of the stack: of most calls, of the one that clamps ends, of the one that cuts a copy into pieces, and of those that hold a curve
MOST = 304
HOLDERS = {"tsb_remove", "tsb_compact", "tsb_read_record", "tsb_read_job", "tsb_feed_end"}
MOST_OF = {"tsb_clamp_ends": 480, "tsb_svg": 12 * 1024, **dict.fromkeys(HOLDERS, 11 * 1024)}


def written():
    """The lines of the table."""
    block = re.search(r"^## Stack\n.*?^```\n(.*?)^```$", PAGE.read_text(encoding="utf-8"), re.S | re.M)
    if not block:
        sys.exit("docs/BENCHMARKS.md has no table under Stack")
    return block[1].splitlines()


def output_of(*words):
    ran = subprocess.run([str(word) for word in words], stdout=subprocess.PIPE, stderr=subprocess.PIPE, text=True, timeout=1800)
    if ran.returncode != 0:
        sys.exit("%s ended with status %d:\n%s" % (words[0].relative_to(TOP), ran.returncode, ran.stdout + ran.stderr))
    return ran.stdout.splitlines()


def main():
    page = written()
    now = output_of(TOP / "bench" / "stack.sh")
    faults = ["printed and not on the page: %s" % line for line in now if line not in page]
    faults += ["on the page and not printed: %s" % line for line in page if line not in now]

    told = {line.split()[0]: int(line.split()[1]) for line in now}
    seen = {}
    for line in output_of(TOP / "examples" / "c" / "build.sh", "run", "seen", TOP / "tests" / "stack" / "seen.c"):
        name, depth = line.split()
        seen[name] = max(-(-int(depth) // WORD) * WORD, seen.get(name, 0))
    exports = sorted(set(re.findall(r"\b(tsb_\w+)\(", HEADER.read_text(encoding="utf-8"))))
    for name in exports:
        if told.get(name) != seen.get(name):
            faults.append("%s: %s bytes told, %s seen on a painted stack" % (name, told.get(name), seen.get(name)))
        elif told[name] >= MOST_OF.get(name, MOST):
            faults.append("%s: %d bytes, more than the header tells" % (name, told[name]))
    print("\n".join(faults + ["the stack of %d exports told and seen, and the program's, %d faults" % (len(exports), len(faults))]))
    return 1 if faults else 0


if __name__ == "__main__":
    sys.exit(main())
