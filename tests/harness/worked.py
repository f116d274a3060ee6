"""Reads tests/worked.txt, whose first lines tell how it is written, and turns each case into its bytes and those of its answer."""

import re
import struct
from pathlib import Path

from .notation import Unreadable, answer_from, of_kind, parts_of
from .shapes import EXPORTED, SHAPES, SIDES, Case, body_of
from .worked_feed import fed_case

FILE = Path(__file__).resolve().parents[1] / "worked.txt"


def arguments_of(call, text, curves):
    """The arguments by name, and the places of the lent lists."""
    shape = SHAPES[call]
    first, comma, rest = text.partition(",")
    parts = dict(curves.get(first.strip(), {}))
    given = rest if parts else text
    names = [name for name, _ in shape.arguments] + ["clamp"] * (SIDES[0] in shape.arguments) + ["places"] * bool(shape.lists)
    if given.strip():
        parts.update(parts_of(given, names))
    elif comma or not parts:
        raise Unreadable("a part is empty")
    sides = parts.pop("clamp", [])
    if sides and len(sides) != len(SIDES):
        raise Unreadable("a clamp has four sides")
    parts.update((name, [side]) for (name, _), side in zip(SIDES, sides))
    places = parts.pop("places", [])
    missing = [name for name, _ in shape.arguments if name not in parts]
    if missing or len(places) != len(shape.lists):
        raise Unreadable("%s is missing" % (missing[0] if missing else "the number of places"))
    return {name: of_kind(name, kind, parts[name]) for name, kind in shape.arguments}, places


def case_of(name, text, curves):
    question, equals, answer = text.partition("=")
    call, _, arguments = question.strip().partition(" ")
    if call not in EXPORTED or not equals:
        raise Unreadable("there is no call %r, or no answer" % call)
    if call == "feed":
        return fed_case("%r of tests/worked.txt" % name, text.strip()[len(call) :])
    given, places = arguments_of(call, arguments, curves)
    return Case("%r of tests/worked.txt" % name, call, body_of(call, given, places), places, answer_from(call, answer, places))


def blocks(text):
    """The number of the line that each block begins with, that line, and what is indented below it."""
    found = []
    for number, line in enumerate(text.splitlines(), 1):
        if line.startswith(" ") and found:
            found[-1][2].append(line.strip())
        elif line.strip() and not line.startswith("#"):
            found.append((number, line.strip(), []))
    return [(number, name, " ".join(lines)) for number, name, lines in found]


def worked_cases(text=None):
    """Every case of the file, in its order."""
    curves, cases, names = {}, [], set()
    for number, name, below in blocks(FILE.read_text() if text is None else text):
        try:
            if name in names:
                raise Unreadable("there is another case of this name")
            names.add(name)
            if name.startswith("curve "):
                curves[re.split(r"[ ,]+", name)[1]] = parts_of(below, ("degree", "knots", "x", "y"))
            else:
                cases.append(case_of(name, below, curves))
        except (Unreadable, struct.error) as fault:
            raise Unreadable("tests/worked.txt:%d: %s: %s" % (number, name, fault)) from None
    return cases
