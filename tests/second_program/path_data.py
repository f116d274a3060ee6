"""A curve as path data of SVG: `M` and the point where it starts, then for each piece the letter of its degree and its points behind the first. Single
spaces, whole numbers, nothing behind the last. And the text of `curvesvg`."""

from .curve import check
from .fault import planted
from .pieces import cut
from .record import Fault, refusal_text, take_lone_record

LETTERS = {1: "L", 2: "Q", 3: "C"}
SHORTEST, LONGEST = len("M 0 0 L 0 0"), 18431  # the longest has degree 1, 1,024 points and six digits with a sign everywhere


def written(letter, points):
    pair = "%d,%d" if planted("svg:comma") else "%d %d"
    return " ".join([letter] * (letter != "") + [pair % point for point in points])


def path_data(m, pieces):
    """The text of pieces of this degree, from the first point of the first on."""
    parts = [written("M", pieces[0].points[:1])]
    for k, piece in enumerate(pieces[:-1] if planted("svg") else pieces):
        points = piece.points[: m + 1][::-1] if planted("svg:backwards") else piece.points[: m + 1]
        letter = "" if k and planted("svg:one_letter") else LETTERS[m]
        parts.append(written(letter, points[1:]))
    return " ".join(parts) + ("\n" if planted("svg:newline") else "")


def svg(curve, room):
    """Number and the bytes: 1 to 7, then 10 or 11, then 15."""
    number = check(curve)
    if number:
        return number, None
    if planted("svg:room_first") and room < SHORTEST:
        return 15, None
    number, pieces = cut(curve)
    if number:
        return number, None
    text = path_data(curve.degree, pieces).encode("ascii")
    needed = LONGEST if planted("svg:room_of_longest") else len(text)
    return (15 if room < needed else 0), text


def curvesvg_text(data):
    """What the program prints: it has room for the longest text, so 15 never comes."""
    try:
        curve = take_lone_record(data)
    except Fault as fault:
        return refusal_text(fault.number, fault.place)
    number, text = svg(curve, LONGEST)
    return refusal_text(number, None) if number else text.decode("ascii") + "\n"
