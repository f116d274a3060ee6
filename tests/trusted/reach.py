"""What a reader must believe: everything that the promises or a public contract reach, name by name."""

import re

from .source import CRATES, WORD, contracts, declaration, definitions, imports

PROMISES = "promises/specs/Promises.antt"
CALLS = ("grid", "point_at", "carrying", "insert_knot", "remove_knot", "compact", "joining", "spans_met", "record", "job", "feed", "svg_out", "clamp_ends", "unclamp_right")
DOOR = "tsaghnobir_c"
PUBLIC = {"grid": {"check"}}  # of this crate the other functions are parts


def cited(path, lines, own):
    """The places of the names that some lines of a file cite: its own definitions, or what its `use` lines bring in."""
    names, files = imports(path)
    text = "\n".join(re.sub(r"(^|\s)-- .*", "", line) for line in lines)
    for word in set(WORD.findall(text)):
        bare = word.strip("«»")
        if bare in own:
            yield path, bare
        elif bare in names:
            yield names[bare]
    for alias, file in files.items():
        for name in definitions(file):
            if f"{alias}.{name}" in text:
                yield file, name


def follow(start):
    """All places that some reach, with their lines."""
    found, waiting = {}, list(start)
    while waiting:
        place = waiting.pop()
        if place in found:
            continue
        path, name = place
        if path.endswith("/src"):
            found[place] = declaration(path, name)
            continue
        if not (CRATES / path).is_file():
            continue
        own = definitions(path)
        if name in own:
            found[place] = own[name]
            waiting += cited(path, own[name], own)
    return found


def of_contracts(crates):
    """The contracts of crates: their own lines, and all that they cite."""
    lines, start = [], []
    for crate in crates:
        for path, name, clauses in contracts(crate):
            if name in PUBLIC.get(crate, {name}):
                lines += clauses
                start += cited(path, clauses, ())
    return lines, follow(start)


def reached():
    """What the calls reach, what the door adds to it, and what the promises add to both."""
    calls = of_contracts(CALLS)
    door = of_contracts([DOOR])
    promises = follow((PROMISES, name) for name in definitions(PROMISES))
    return {"calls": calls, "door": door, "promises": ([], promises)}
