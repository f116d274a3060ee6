"""What curvesvg printed, held against the record that it was given: a refusal, or the path of that very curve, piece by piece."""

import re

import cutting
import refusals
from answer import REFUSED, NotUnderstood, read_lines, read_refusal
from job_bytes import read_record

WRITTEN = "written"
LETTERS = {1: "L", 2: "Q", 3: "C"}
PAIR = " (?:0|-?[1-9][0-9]{0,5})" * 2


class PathAnswer:
    """The number of a refusal (0 for none) and its place (None for none), and the points of each piece, none where refused."""

    def __init__(self, refusal, place=None, pieces=()):
        self.refusal, self.place, self.pieces = refusal, place, list(pieces)

    def word(self):
        return REFUSED if self.refusal else WRITTEN


def sound_curve(data):
    """The curve, where curvesvg has to take the record."""
    found = refusals.judged_record(data)
    if found:
        raise NotUnderstood("curvesvg took a record that it has to refuse with %d: %s" % (found[0], found[2]))
    return read_record(data)


def read_points(text, degree):
    """The points in path data of this degree in their order, or NotUnderstood."""
    if not re.fullmatch("M%s(?: %s%s)+" % (PAIR, LETTERS[degree], PAIR * degree), text):
        raise NotUnderstood("this is no path of degree %d: %r" % (degree, text[:60]))
    numbers = [int(number) for number in re.findall("-?[0-9]+", text)]
    return list(zip(numbers[::2], numbers[1::2]))


def read_path(printed, data):
    """The answer in the bytes that curvesvg printed on a record's bytes, or NotUnderstood."""
    if printed.startswith(b"refused "):
        return PathAnswer(*read_refusal("curvesvg", printed, data))
    lines = read_lines("curvesvg", printed)
    curve = sound_curve(data)
    points, right = read_points("\n".join(lines), curve.degree), cutting.cut(curve)
    if points != right:
        words = "this is the path of another curve: %d pieces, where %d are right, or other points"
        raise NotUnderstood(words % tuple(len(cutting.in_pieces(found, curve.degree)) for found in (points, right)))
    return PathAnswer(0, None, cutting.in_pieces(points, curve.degree))
