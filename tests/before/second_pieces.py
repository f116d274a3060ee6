"""Cutting a curve and writing path data in the second program, held to laws that any right cutting keeps: the points of a piece are those of the triangle with
a knot of the span in each row, and they tell every refusal; what was inserted before changes nothing; path data can be read back. The try of pieces is held to
wrong cuttings, which it must tell."""

import re
import sys
import unittest
from collections import Counter
from pathlib import Path

sys.dont_write_bytecode = True
sys.path.insert(0, str(Path(__file__).resolve().parent.parent))

from harness.polar import polar_points
from second_program.curve import FARTHEST, MOST_POINTS, Curve
from second_program.cut_curves import large_curve, moved, scaled_curve, unwhole_from, whole_curve
from second_program.demands import Broken, try_pieces
from second_program.dice import Dice
from second_program.doubled_cases import some_widths, uneven_points
from second_program.expected import WIDE, largest_curve
from second_program.joining import THREE_TIMES, TWICE, join, pieces_of
from second_program.knots import inner_values, insert_knot
from second_program.path_data import LETTERS, LONGEST, SHORTEST, svg
from second_program.pieces import carried, cut, missing_knots
from second_program.random_curves import random_curve
from second_program.spans import spans

NUMBER = re.compile(r"0|-?[1-9][0-9]*")


def brought(m, stands, left, right):
    """The points that inserting a value brings which stands so often, between the points of the pieces on its left and on its right."""
    return [left[m]] if stands == m - 1 else [left[2], right[1]]


def foretold(curve):
    """The number that cutting is refused with, by the polar points and by counting; 0 for none."""
    m, points = curve.degree, [polar_points(curve, i) for i in spans(curve)]
    full_after = MOST_POINTS - len(curve.xs)
    for k, v in enumerate(inner_values(curve)):
        for stands in range(curve.knots.count(v), m):
            if full_after == 0:
                return 10
            full_after -= 1
            if any(c.denominator != 1 for point in brought(m, stands, points[k], points[k + 1]) for c in point):
                return 11
    return 0


def read_back(text):
    """The degree and the points of each piece, the first of which is where the piece before ended."""
    first, x, y, *words = text.decode("ascii").split(" ")
    assert first == "M" and words, text
    degrees, at, pieces = {letter: m for m, letter in LETTERS.items()}, (int(x), int(y)), []
    while words:
        m = degrees[words[0]]
        numbers, words = words[1 : 2 * m + 1], words[2 * m + 1 :]
        assert len(numbers) == 2 * m and all(NUMBER.fullmatch(one) for one in (x, y, *numbers)), text
        pieces.append([at, *zip(map(int, numbers[::2]), map(int, numbers[1::2]))])
        at = pieces[-1][-1]
    (m,) = {len(piece) - 1 for piece in pieces}
    return m, pieces


def some_curves(dice):
    """Curves that can be cut, curves that nearly can, and any."""
    for k in range(240):
        m = 1 + k % 3
        whole = scaled_curve(dice, m) if dice.chance(3) else whole_curve(dice, m)
        yield dice.pick((whole, moved(dice, whole), random_curve(dice, m=m), whole_curve(dice, m, rows=1)))


def large_curves(dice):
    """Curves that are full when they are cut, or before."""
    for m, values, points in ((3, 340, 1019), (3, 341, 1019), (3, 360, 1024), (2, 510, 1000), (2, 511, 1000)):
        curve = large_curve(dice, m, values, points)
        yield curve
        yield unwhole_from(dice, curve, 0)
        if m == 2:
            yield unwhole_from(dice, curve, len(missing_knots(curve)) - 1)


class Pieces(unittest.TestCase):
    def setUp(self):
        self.dice = Dice(5)

    def test_polar_points_and_counting_tell_it_all(self):
        told = Counter()
        for curve in [*some_curves(self.dice), *large_curves(self.dice)]:
            number, pieces = cut(curve)
            self.assertEqual(number, foretold(curve))
            if number == 0:
                self.assertEqual([piece.points[: curve.degree + 1] for piece in pieces], [polar_points(curve, i) for i in spans(curve)])
            told[number] += 1
        self.assertTrue(told.keys() == {0, 10, 11} and min(told.values()) > 3, told)

    def test_an_inner_value_inserted_before_changes_nothing(self):
        for k in range(60):
            curve = whole_curve(self.dice, 2 + k % 2, points=4 + k % 7)
            values = missing_knots(curve)
            if values:
                number, new = insert_knot(curve, self.dice.pick(values), WIDE)
                self.assertEqual((number, cut(new)), (0, cut(curve)))

    def test_pieces_of_joined_curves(self):
        for _ in range(30):
            points = uneven_points(self.dice, some_widths(self.dice))
            params, px, py, tx, ty = points
            right = [list(zip(xs, ys)) for xs, ys in zip(pieces_of(params, px, tx), pieces_of(params, py, ty))]
            for times in (TWICE, THREE_TIMES):
                self.assertEqual([piece.points for piece in cut(join(*points, WIDE, times)[1])[1]], right)

    def test_a_full_curve_of_degree_two_is_never_cut(self):
        """It has an odd number of points when it is cut."""
        for _ in range(3):
            self.assertEqual(cut(largest_curve(self.dice, 2))[0], 10)


class PathData(unittest.TestCase):
    def setUp(self):
        self.dice = Dice(6)

    def test_it_can_be_read_back(self):
        for k in range(120):
            curve = whole_curve(self.dice, 1 + k % 3)
            number, text = svg(curve, LONGEST)
            right = [piece.points[: curve.degree + 1] for piece in cut(curve)[1]]
            self.assertEqual((number, read_back(text)), (0, (curve.degree, right)))
            self.assertEqual([svg(curve, len(text) - short)[0] for short in (0, 1)], [0, 15])

    def test_lengths(self):
        line = lambda points, c: Curve(1, [0, *range(points), points - 1], [c] * points, [c] * points)
        self.assertEqual(len(svg(line(MOST_POINTS, -FARTHEST), LONGEST)[1]), LONGEST)
        self.assertEqual(len(svg(line(2, 0), LONGEST)[1]), SHORTEST)
        for m, pieces in ((2, 511), (3, 341)):
            ts, axis = [0] + [k for k in range(pieces + 1) for _ in range(m)] + [pieces], [-FARTHEST] * (m * pieces + 1)
            number, text = svg(Curve(m, ts, axis, axis), LONGEST)
            self.assertEqual((number, len(text)), (0, 17 + pieces * (2 + 16 * m)))


def changed(change):
    """A cutting that is wrong: what this makes of the right pieces."""
    return lambda curve: (0, change(cut(curve)[1], curve.degree))


def with_points(points_of):
    """A change of the points of each piece."""
    return lambda pieces, m: [piece._replace(points=points_of(piece.points, m)) for piece in pieces]


WRONG_CUTTINGS = dict(
    uncut=lambda curve: (0, carried(curve)),
    refused=lambda curve: (11, None),
    last_lost=changed(lambda pieces, m: pieces[:-1]),
    first_lost=changed(lambda pieces, m: pieces[1:]),
    from_the_end=changed(lambda pieces, m: pieces[::-1]),
    first_everywhere=changed(lambda pieces, m: [pieces[0]._replace(low=one.low, high=one.high) for one in pieces]),
    knots_of_the_first=changed(lambda pieces, m: [one._replace(low=pieces[0].low, high=pieces[0].high) for one in pieces]),
    backwards=changed(with_points(lambda points, m: points[: m + 1][::-1] + points[m + 1 :])),
    axes_exchanged=changed(with_points(lambda points, m: [point[::-1] for point in points])),
    one_step_off=changed(with_points(lambda points, m: [points[0], (points[1][0], points[1][1] + 1), *points[2:]])),
    unused_repeated=changed(with_points(lambda points, m: points[: m + 1] + points[m : m + 1] * (3 - m))),
    unused_left_out=changed(with_points(lambda points, m: points[: m + 1])),
)


class Tries(unittest.TestCase):
    def test_a_wrong_cutting_is_told(self):
        for name, cutting in {"right": cut, **WRONG_CUTTINGS}.items():
            dice, hits, told = Dice(7), Counter(), 0
            for k in range(60):
                try:
                    try_pieces(dice, whole_curve(dice, 1 + k % 3), hits, cutting)
                except Broken:
                    told += 1
            with self.subTest(name):
                self.assertTrue(told == 0 if name == "right" else told > 15, told)


if __name__ == "__main__":
    unittest.main()
