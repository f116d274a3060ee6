"""The tables of docs/READING.md: a row for each file of definitions that is reached, with the lines that count."""

import re

from .source import CRATES, definitions, head

HEADINGS = re.compile(r" \(headings? .*?\)")


def purpose(path):
    """What a file is for, from its first lines: the first sentence, without the headings that it renders."""
    text = HEADINGS.sub("", " ".join(line[3:] for line in head(path)))
    sentence = re.split(r"(?<=[^.])\.(?: |$)|: ", text, maxsplit=1)[0]
    return sentence[:1].lower() + sentence[1:]


def counted(found):
    """Lines of the reached definitions of each file."""
    files = {}
    for (path, _), lines in sorted(found.items()):
        if not path.endswith("/src"):
            files[path] = files.get(path, 0) + len(lines)
    return files


def table(files):
    rows = ["| file | lines | what it says |", "|---|---|---|"]
    rows += [f"| `crates/{path}` | {count} | {purpose(path)} |" for path, count in sorted(files.items())]
    return "\n".join(rows) + "\n"


def types(found):
    """The types of arguments and answers that the code declares and the definitions cite."""
    return ", ".join(sorted(f"`{path.split('/')[0]}::{name}`" for path, name in found if path.endswith("/src")))


def summed(files, clauses, found):
    text = f"{sum(files.values()):,} lines in {len(files)} files"
    text += f", beside {len(clauses)} lines of contracts" if clauses else ""
    declared = types(found)
    kind = "types" if "," in declared else "type"
    return text + (f" and the {kind} {declared}.\n" if declared else ".\n")


def tables(parts):
    """The made parts of the page by their names: what each part adds to those before it."""
    made, seen, total = {}, set(), 0
    for name, (clauses, found) in parts.items():
        fresh = {place: lines for place, lines in found.items() if place not in seen}
        seen |= set(found)
        files = counted(fresh)
        total += sum(files.values())
        made[name] = table(files)
        made[f"{name}_sum"] = summed(files, clauses, fresh)
    listed = {path for path, _ in seen}
    made["inner"] = "".join(f"- `crates/{path}`\n" for path in spec_paths() if path not in listed)
    made["total"] = f"{total:,} lines of definitions.\n"
    return made


def spec_paths():
    for path in sorted(CRATES.glob("*/specs/*.antt")):
        name = path.relative_to(CRATES).as_posix()
        if path.name != "Lib.antt" and definitions(name):
            yield name
