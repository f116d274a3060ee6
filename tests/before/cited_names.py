"""Every name that docs/PROMISES.md cites exists, and every row cites a theorem or a clause.

A citation stands in backticks: `crate::name` is something that crates/crate declares, `crate!edit` is a must-fail edit,
and anything with a slash is a path of the repository.
"""

import pathlib
import re
import sys

TOP = pathlib.Path(__file__).resolve().parents[2]
MARKS = r"(?:(?:unfoldable|abbrev|pub(?:\(crate\))?|extern \"C\") )*"


def declared(crate):
    """The names that a crate's sources, definitions and proofs declare."""
    names = set()
    # what is beside these folders is rt's, which makes it anew while this looks
    for path in sorted(path for part in ("src", "specs", "proofs") for path in (TOP / "crates" / crate / part).rglob("*")):
        if path.suffix == ".antt":
            pattern = rf"^\s*{MARKS}(?:(?:data|record) )?([^\s(){{}}.;,@\"«»]+)(?: \{{[^}}]*\}})?(?: \(.*\))? :"
        elif path.suffix == ".rt":
            pattern = rf"^\s*{MARKS}(?:fn|struct|enum|const) (\w+)"
        else:
            continue
        names.update(re.findall(pattern, path.read_text(), re.M))
        if path.suffix == ".antt":
            names.update(re.findall(rf"^\s*{MARKS}(?:data|record) (\S+)", path.read_text(), re.M))
        if path.suffix == ".rt":
            names.update(re.findall(r"\bensures (\w+) \{", path.read_text()))
    return names


def missing(token, known):
    """Why a cited token does not exist, or nothing."""
    if "!" in token:
        crate, edit = token.split("!", 1)
        path = TOP / "crates" / crate / "must-fail" / f"{edit}.edit"
        return None if path.is_file() else "no such must-fail edit"
    if "::" in token:
        crate, name = token.split("::", 1)
        if crate not in known:
            if not (TOP / "crates" / crate).is_dir():
                return "no such crate"
            known[crate] = declared(crate)
        return None if all(part in known[crate] for part in name.split("::")) else "not declared there"
    if "/" in token:
        return None if (TOP / token).exists() else "no such path"
    return None


def main():
    text = (TOP / "docs" / "PROMISES.md").read_text()
    known, faults, rows = {}, [], 0
    for number, line in enumerate(text.splitlines(), 1):
        tokens = re.findall(r"`([^`]+)`", line)
        for token in tokens:
            why = missing(token, known)
            if why:
                faults.append(f"docs/PROMISES.md:{number}: `{token}`: {why}")
        cells = [cell.strip() for cell in line.strip().strip("|").split("|")]
        if line.startswith("|") and cells[0].isdigit():
            rows += 1
            if not any("::" in token for token in re.findall(r"`([^`]+)`", cells[3])):
                faults.append(f"docs/PROMISES.md:{number}: row {cells[0]} cites no theorem and no clause")
    if rows == 0:
        faults.append("docs/PROMISES.md: no rows")
    for fault in faults:
        print(fault)
    print(f"{rows} promises, {len(faults)} faults")
    return 1 if faults else 0


if __name__ == "__main__":
    sys.exit(main())
