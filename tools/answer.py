"""What clampcheck printed, held against the job that it was given: every line must be one that it can print on that job."""

import re

import refusals
import shape
from job_bytes import ENDED, PLACED, BadJob, read_job

ALL_CLEAR, MAY_MEET, REFUSED = "all clear", "may meet", "refused"
REFUSAL = re.compile(rb"refused ([1-9][0-9]?)(?: at (0|[1-9][0-9]{0,5}))?\n")


class NotUnderstood(Exception):
    """This is not what the program prints on the bytes that it was given; the message says why."""


class Answer:
    """The number of a refusal (0 for none) and its place (None for none), the job (None where refused), and for each clamp the listed spans."""

    def __init__(self, refusal, place=None, job=None, listed=()):
        self.refusal, self.place, self.job, self.listed = refusal, place, job, list(listed)

    def word(self):
        if self.refusal:
            return REFUSED
        return MAY_MEET if any(self.listed) else ALL_CLEAR


def can_be_told(number, place, data):
    """Whether this number goes with this place on so many bytes: four numbers have one, 16 that behind the last byte, the others that of a byte."""
    if number not in PLACED:
        return place is None
    return place is not None and (place == len(data) if number == ENDED else place < len(data))


def read_refusal(name, printed, data):
    """Number and place in a line that begins as a refusal by the program of this name, or NotUnderstood."""
    found = REFUSAL.fullmatch(printed)
    number, place = (int(found[1]), found[2] and int(found[2])) if found else (0, None)
    if number not in refusals.TOLD[name] or not can_be_told(number, place, data):
        raise NotUnderstood("%s does not refuse %d bytes so: %r" % (name, len(data), printed[:60]))
    return number, place


def read_lines(name, printed):
    """The lines of a text that the program of this name printed to its end, or NotUnderstood."""
    if not printed.endswith(b"\n") or not printed.isascii():
        raise NotUnderstood("what %s printed is cut off or no text: %r" % (name, printed[-60:]))
    return printed.decode("ascii").split("\n")[:-1]


def sound_job(data):
    """The job, where clampcheck has to take it."""
    try:
        job = read_job(data)
    except BadJob as fault:
        raise NotUnderstood("clampcheck took a job that it has to refuse: %s" % fault) from None
    fault = refusals.fault_of(job)
    if fault:
        raise NotUnderstood("clampcheck took a job that it has to refuse with %d: %s" % (fault.number, fault.words))
    return job


def spans_of_clamp(number, lines, spans):
    """The lines on one clamp: its listed spans, none where it is clear. The spans are given by name, in their order."""
    if lines == ["clamp %d clear" % number]:
        return []
    front = "clamp %d may meet " % number
    listed = [line[len(front) :] for line in lines if line.startswith(front)]
    if not listed or len(listed) < len(lines):
        raise NotUnderstood("clamp %d is not told as it should be: %r" % (number, lines[:2]))
    named = set(listed)
    if listed != [name for name in spans if name in named]:
        raise NotUnderstood("clamp %d: these are no spans of the curve, or not in their order: %r" % (number, listed[:2]))
    return [spans[name] for name in listed]


def lines_by_clamp(lines, clamps):
    """The lines on each clamp, which stand in the order of the clamps and leave nothing over."""
    parts = {str(number): [] for number in range(1, clamps + 1)}
    for line in lines:
        words = line.split(" ")
        if len(words) < 3 or words[0] != "clamp" or words[1] not in parts:
            raise NotUnderstood("this is no line on one of %d clamps: %r" % (clamps, line[:60]))
        parts[words[1]].append(line)
    if lines != [line for part in parts.values() for line in part]:
        raise NotUnderstood("the clamps are not in their order")
    return list(parts.values())


def read_answer(printed, data):
    """The answer in the bytes that clampcheck printed on a job's bytes, or NotUnderstood."""
    if printed.startswith(b"refused "):
        return Answer(*read_refusal("clampcheck", printed, data))
    lines = read_lines("clampcheck", printed)
    if not lines[0].startswith("curve "):
        raise NotUnderstood("this is no line on a curve: %r" % lines[0][:60])
    job = sound_job(data)
    spans = {"%d..%d" % span[1:]: span for span in shape.spans(job)}
    head = "curve degree %d points %d spans %d" % (job.degree, len(job.points), len(spans))
    if lines[0] != head:
        raise NotUnderstood("the line on the curve is %r and not %r" % (lines[0][:60], head))
    parts = lines_by_clamp(lines[1:], len(job.clamps))
    return Answer(0, None, job, [spans_of_clamp(number, part, spans) for number, part in enumerate(parts, 1)])
