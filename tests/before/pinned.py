"""Every definition that a public contract cites has a line in docs/PINS.md: what holds it beside its own text, and an edit that shows it.

The definitions are those of the first two tables of docs/READING.md. A line names them, then at least one theorem, sentence or
case that is none of them, then at least one must-fail edit. All that is named must exist.
"""

import pathlib
import re
import sys

TOP = pathlib.Path(__file__).resolve().parents[2]
sys.path.insert(0, str(TOP / "tests"))
sys.dont_write_bytecode = True

from before.cited_names import missing  # noqa: E402
from trusted.reach import reached  # noqa: E402

PAGE = TOP / "docs" / "PINS.md"
TOKEN = re.compile(r"`([^`]+)`")


def rows():
    """Of each line of a table its number and the names in its three cells."""
    for number, line in enumerate(PAGE.read_text().splitlines(), 1):
        cells = line.strip().strip("|").split("|")
        if line.startswith("| `") and len(cells) == 3:
            yield number, [TOKEN.findall(cell) for cell in cells]


def public():
    """The definitions that the contracts of the calls and of the exports reach, as crate::name."""
    parts = reached()
    for part in ("calls", "door"):
        for path, name in parts[part][1]:
            if not path.endswith("/src"):
                yield f"{path.split('/')[0]}::{name}"


def main():
    known, faults, pinned = {}, [], set()
    for number, (names, pins, edits) in rows():
        faults += [f"docs/PINS.md:{number}: `{token}`: {why}" for token in names + pins + edits if (why := missing(token, known))]
        if not [pin for pin in pins if "::" in pin and pin not in names]:
            faults.append(f"docs/PINS.md:{number}: nothing beside its own text holds {', '.join(names)}")
        if not [edit for edit in edits if "!" in edit]:
            faults.append(f"docs/PINS.md:{number}: no edit shows it")
        pinned.update(names)
    asked = set(public())
    faults += [f"docs/PINS.md has no line for {name}" for name in sorted(asked - pinned)]
    faults += [f"docs/PINS.md has a line for {name}, which no contract cites" for name in sorted(pinned - asked)]
    for fault in faults:
        print(fault)
    print(f"{len(asked)} definitions, {len(faults)} faults")
    return 1 if faults or not asked else 0


if __name__ == "__main__":
    sys.exit(main())
