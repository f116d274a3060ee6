"""docs/READING.md lists every file of definitions that the promises or a public contract reach, and how many of its lines.

    python3 tests/before/reading_table.py          compares the page with what is made anew
    python3 tests/before/reading_table.py write    writes the tables and the sums into the page

What is reached is followed name by name: from crates/promises/specs/Promises.antt, and from the `ensures` of every public
call and export, through the definitions that each cites. Lines are counted with their comments, without imports and blanks.
"""

import pathlib
import re
import sys

TOP = pathlib.Path(__file__).resolve().parents[2]
sys.path.insert(0, str(TOP / "tests"))
sys.dont_write_bytecode = True

from trusted.reach import reached  # noqa: E402
from trusted.tables import tables  # noqa: E402

PAGE = TOP / "docs" / "READING.md"
MADE = re.compile(r"(<!-- made: (\w+) -->\n).*?(<!-- end -->)", re.S)
MOST_OF_CALLS = 1020


def main(words):
    made = tables(reached())
    text = PAGE.read_text()
    missing = [name for name in made if f"<!-- made: {name} -->" not in text]
    anew = MADE.sub(lambda part: part[1] + made[part[2]] + part[3], text)
    if words == ["write"]:
        PAGE.write_text(anew)
    faults = [f"docs/READING.md has no place for the made part {name}" for name in missing]
    if words != ["write"] and anew != text:
        faults.append("docs/READING.md is not what `python3 tests/before/reading_table.py write` makes")
    calls = int(re.search(r"\d+", made["calls_sum"].replace(",", ""))[0])
    if calls > MOST_OF_CALLS:
        faults.append(f"the calls' contracts and what they cite are {calls} lines, more than {MOST_OF_CALLS}")
    for fault in faults:
        print(fault)
    print(f"the calls and all that they cite: {calls} lines; {len(faults)} faults")
    return 1 if faults else 0


if __name__ == "__main__":
    sys.exit(main(sys.argv[1:]))
