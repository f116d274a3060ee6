"""The cases of `feed` in tests/worked.txt: what comes before the steps, the steps with their answers, and the work list after them, parted by semicolons."""

import re

from second_program.fed_vectors import END, fingerprint, step_bytes, u64, work_list
from second_program.vectors import entries, u32

from .notation import Unreadable, answer_from, of_kind, parts_of
from .shapes import SHAPES, Case, body_of


def state_of(text):
    """What comes before the steps: the arguments and the places of the result lists."""
    shape = SHAPES["feed"]
    names = ("work", "front", "received", "places")
    parts = {"front": [], **parts_of(text, names)}
    if set(parts) != set(names) or len(parts["places"]) != len(shape.lists):
        raise Unreadable("a feeding begins with the work list, what was received and the places of four lists")
    arguments = {**parts, "places": parts["work"]}
    return {name: of_kind(name, kind, arguments[name]) for name, kind in shape.arguments}, parts["places"]


def received_in(text):
    """The count that a step answers, and the rest of its answer."""
    match = re.match(r"\s*received (\d+)\s*(?:,|$)", text)
    if not match:
        raise Unreadable("the answer of a step begins with what was received")
    return int(match[1]), text[match.end() :]


def step_of(text, places):
    """A step and its answer."""
    question, equals, answer = text.partition("=")
    word, _, given = question.strip().partition(" ")
    if word not in ("burst", "end") or not equals or word == "end" and given:
        raise Unreadable("a step is a burst or the end, and its answer")
    received, rest = received_in(answer)
    if word == "end":
        told = answer_from("feed", rest, places)
        return END, told[:4] + u64(received) + told[4:]
    if rest.strip() not in ("", "refused 15"):
        raise Unreadable("a burst is refused by 15 or not at all")
    burst = entries("u8", parts_of(question, ["burst"])["burst"])
    return burst, u32(15 if rest.strip() else 0) + u64(received)


def work_after(text, places):
    """The work list after the last step; `_` is an entry as it was before the first, where that was not given."""
    work = parts_of(text, ["work"])["work"]
    if len(work) != places:
        raise Unreadable("the work list has %d entries and %d places" % (len(work), places))
    return entries("u8", [fill if entry is None else entry for entry, fill in zip(work, work_list(places, b""))])


def fed_case(name, text):
    head, *steps, last = text.split(";")
    arguments, places = state_of(head)
    if not steps:
        raise Unreadable("a feeding has steps")
    asked, answers = zip(*(step_of(step, places) for step in steps))
    body = body_of("feed", arguments, places) + b"".join(step_bytes(step) for step in asked)
    answer = b"".join(answers) + u64(fingerprint(work_after(last, arguments["places"])))
    return Case(name, "feed", body, places, answer, asked)
