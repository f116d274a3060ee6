"""How tests/worked.txt is written, whose first lines tell it: words, parts and answers."""

import re

from .shapes import SHAPES, answer_of

ENTRIES = re.compile(r"(?:(\d+)x)?(?:(_)|(-?\d+)\.\.(\d+)(?:/(\d+))?|(-?\d+(?:\.\d+)?))")


class Unreadable(Exception):
    """A place of the file that is not written as it should be."""


def number_of(text):
    return float(text) if "." in text else int(text)


def entries_of(word):
    """The entries that one word stands for."""
    match = ENTRIES.fullmatch(word)
    if not match:
        raise Unreadable("%r is no number and no list of them" % word)
    times, same, first, last, step, single = match.groups()
    if same:
        one = [None]
    elif single:
        one = [number_of(single)]
    else:
        one = list(range(int(first), int(last) + 1, int(step or 1)))
        if not one or one[-1] != int(last):
            raise Unreadable("%r does not end at %s" % (word, last))
    return [entry for entry in one for _ in range(int(times or 1))]


def written_out(text):
    """The text with the codes of what stands in quotes, and with what stands in brackets repeated as often as it says."""
    text = re.sub(r'"([ -~]*?)"', lambda quoted: " ".join(str(code) for code in quoted[1].encode("ascii")), text)
    return re.sub(r"(\d+)x\(([^(),]*)\)", lambda group: " ".join([group[2]] * int(group[1])), text)


def parts_of(text, kinds):
    """The parts of a line: lists by name, in which only the names of `kinds` stand, each once."""
    parts = {}
    for part in written_out(text).split(","):
        name, *words = part.split() or [""]
        if name not in kinds:
            raise Unreadable("there is no part %r here" % name)
        if name in parts:
            raise Unreadable("%r stands twice" % name)
        parts[name] = [entry for word in words for entry in entries_of(word)]
    return parts


def of_kind(name, kind, entries):
    """The value of a part: a list, or its only entry."""
    if kind.endswith("[]"):
        return entries
    if len(entries) != 1:
        raise Unreadable("%r is one number" % name)
    return float(entries[0]) if kind == "f64" else entries[0]


def answer_from(call, text, places):
    """The bytes of the answer that was worked out."""
    shape = SHAPES[call]
    first, comma, rest = text.partition(",")
    refused = re.fullmatch(r"\s*refused ([1-9]\d*)(?: at (\d+))?\s*", first)
    passes = call == "check" and first.strip() == "passes"
    number = int(refused[1]) if refused else 0
    if refused or passes:
        text = rest
    values = shape.told(number)
    kinds = dict(values + shape.lists)
    parts = parts_of(text, kinds.keys() - {"place"}) if comma or text.strip() else {}
    if refused and refused[2]:
        parts["place"] = [int(refused[2])]
    if set(parts) != set(kinds) or not (parts or refused or passes):
        raise Unreadable("the answer has to tell %s" % (", ".join(kinds) or "whether the curve passes"))
    for (name, _), count in zip(shape.lists, places):
        if len(parts[name]) != count:
            raise Unreadable("%s has %d entries and %d places" % (name, len(parts[name]), count))
    return answer_of(
        call,
        number,
        {name: of_kind(name, kind, parts[name]) for name, kind in values},
        parts,
    )
