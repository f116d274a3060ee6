"""Open ends in the second program, held to laws that any right program keeps: where the ends are full, rows 5 and 6 say just that no value stands too often;
the points of a curve whose ends were made full are polar points, and those of an opened one follow the closed forms; a search over polygons finds no other; one
call undoes the other; a knot inserted before or behind is the same; and what carries nothing plays no part."""

import sys
import unittest
from collections import Counter
from fractions import Fraction
from itertools import product
from pathlib import Path

sys.dont_write_bytecode = True
sys.path.insert(0, str(Path(__file__).resolve().parent.parent))

from harness.polar import polar
from second_program.clamp_cases import good_rectangle, random_fraction
from second_program.curve import FARTHEST, Curve, check, domain, exact_point, full_ends, point_at, within
from second_program.demands import Broken, try_kept
from second_program.dice import Dice
from second_program.ends import clamp_ends, clamped_axes, clamped_knots, open_knots, opened_axes, unclamp_right
from second_program.expected import WIDE
from second_program.insert_cases import insertable
from second_program.knots import compact, inner_values, insert_knot, remove_knot
from second_program.open_curves import clampable, either_curve, even_curve, openable, right_full
from second_program.path_data import LONGEST, svg
from second_program.random_curves import random_curve, spoiled_curve
from second_program.spans import met, spans


def row_of_full_ends(curve):
    """Rows 5 and 6 for curves whose first and last m+1 knots are equal; 0 for neither."""
    m, ts = curve.degree, curve.knots
    if ts[0] == ts[-1]:
        return 5
    often = Counter(ts)
    ends = often.pop(ts[0]), often.pop(ts[-1])
    return 6 if max(ends) > m + 1 or max(often.values(), default=0) > m else 0


def polar_clamped(curve):
    """The points of a curve with full ends: of each the polar point of a span that it carries, at the knots between its first and its last."""
    m, us = curve.degree, clamped_knots(curve)
    begins = {curve.knots[i]: i for i in spans(curve)}
    points = []
    for k in range(len(us) - m - 1):
        low = next(us[j] for j in range(k, k + m + 1) if us[j] < us[j + 1])
        points.append(polar(curve, begins[low], us[k + 1 : k + m + 1]))
    return points


def closed_form(curve, axis):
    """The last points of one axis when the right end is opened, worked out by hand: one new point of degree 2, two of degree 3."""
    m, ts, n = curve.degree, curve.knots, len(axis) - 1
    if m == 1:
        return axis
    if m == 2:
        return axis[:-1] + [2 * axis[n] - axis[n - 1]]
    h, g = ts[n + 1] - ts[n], ts[n] - ts[n - 1]
    second = axis[n - 1] + Fraction(h * (axis[n - 1] - axis[n - 2]), g + h)
    return axis[: n - 1] + [second, 6 * axis[n] - 3 * axis[n - 1] - 2 * second]


def exact_points(curve):
    """Parameters with their exact points, of each span as many as determine it, from the last to the first."""
    ts, m = curve.knots, curve.degree
    tried = [ts[i] + Fraction((ts[i + 1] - ts[i]) * part, m + 1) for i in spans(curve) for part in range(m + 1)]
    return [(t, exact_point(curve, t)) for t in reversed(tried)]


def passes(curve, points):
    return all(exact_point(curve, t) == point for t, point in points)


def same_exactly(one, other):
    """Whether two curves of one degree and one domain are the same exactly."""
    return passes(other, exact_points(one))


class Check(unittest.TestCase):
    def test_full_ends_are_judged_by_counting(self):
        dice, told = Dice(11), Counter()
        for k in range(400):
            curve = random_curve(dice) if k % 4 == 0 else spoiled_curve(dice, 4 + k % 4)
            number = check(curve)
            if number in (0, 5, 6) and full_ends(curve):
                self.assertEqual(number, row_of_full_ends(curve))
                told[number] += 1
        self.assertTrue(told.keys() == {0, 5, 6} and min(told.values()) > 9, told)

    def test_every_small_knot_list(self):
        """Of degree 1 with three points: a domain, and no value too often."""
        told = Counter()
        for ts in product(range(4), repeat=5):
            if list(ts) == sorted(ts):
                low, high = ts[1], ts[3]
                right = 5 if low == high else 6 if any(ts.count(t) > (1 if low < t < high else 2) for t in ts) else 0
                self.assertEqual(check(Curve(1, list(ts), [0] * 3, [0] * 3)), right)
                told[right] += 1
        self.assertEqual(told.keys(), {0, 5, 6})


class Ends(unittest.TestCase):
    def setUp(self):
        self.dice = Dice(12)

    def test_points_of_full_ends_are_polar_points(self):
        for _ in range(200):
            curve = either_curve(self.dice)
            self.assertEqual(list(zip(*clamped_axes(curve))), polar_clamped(curve))

    def test_full_ends_keep_the_curve(self):
        for _ in range(80):
            curve = clampable(self.dice)
            number, new = clamp_ends(curve, WIDE)
            self.assertEqual((number, check(new), full_ends(new), domain(new)), (0, 0, True, domain(curve)))
            self.assertEqual(inner_values(new), inner_values(curve))
            self.assertTrue(same_exactly(curve, new) and len(new.xs) <= len(curve.xs))
            self.assertEqual(clamp_ends(new, WIDE), (0, new))

    def test_opened_points_follow_the_closed_forms(self):
        told = Counter()
        for k in range(200):
            curve = right_full(self.dice, 1 + k % 3)
            axes = [closed_form(curve, axis) for axis in (curve.xs, curve.ys)]
            self.assertEqual(opened_axes(curve, open_knots(curve)), axes)
            right = 0 if all(Fraction(c).denominator == 1 and within(c) for axis in axes for c in axis) else 23
            self.assertEqual(unclamp_right(curve, WIDE)[0], right)
            told[right] += 1
        self.assertTrue(min(told[0], told[23]) > 9, told)

    def test_a_search_finds_no_other_opening(self):
        found = 0
        for k in range(24):
            m, reach = (2, 9) if k % 2 else (3, 5)
            curve = right_full(self.dice, m, m + self.dice.between(1, 3), 2)
            curve = curve._replace(ys=curve.xs)
            kept, us = curve.xs[: len(curve.xs) - m], open_knots(curve)
            polygons = [kept + list(last) for last in product(range(-reach, reach + 1), repeat=m)]
            points = exact_points(curve)
            searched = [axis for axis in polygons if passes(Curve(m, us, axis, axis), points)]
            number, new = unclamp_right(curve, WIDE)
            if searched:
                found += 1
                self.assertEqual((number, [new.xs]), (0, searched))
            elif number == 0:
                self.assertTrue(any(abs(x) > reach for x in new.xs))
        self.assertGreater(found, 6)

    def test_opened_and_made_full_again(self):
        for _ in range(80):
            curve = openable(self.dice)
            number, new = unclamp_right(curve, WIDE)
            self.assertEqual((number, check(new), domain(new)), (0, 0, domain(curve)))
            self.assertTrue(same_exactly(curve, new))
            self.assertEqual(clamp_ends(new, WIDE), clamp_ends(curve, WIDE))
            self.assertEqual(unclamp_right(new, WIDE)[0], 23)

    def test_even_knots_made_full_and_opened_again(self):
        """The right end is as it was."""
        for k in range(40):
            m = 1 + k % 3
            curve = even_curve(self.dice, m, 2 * m + k % 4, 9)
            curve = curve._replace(xs=[6 * x for x in curve.xs], ys=[6 * y for y in curve.ys])
            number, new = unclamp_right(clamp_ends(curve, WIDE)[1], WIDE)
            self.assertEqual((number, new.knots[-m - 2 :]), (0, curve.knots[-m - 2 :]))
            self.assertEqual((new.xs[-m - 1 :], new.ys[-m - 1 :]), (curve.xs[-m - 1 :], curve.ys[-m - 1 :]))


class Domain(unittest.TestCase):
    def setUp(self):
        self.dice = Dice(13)

    def test_knots_come_and_go(self):
        for _ in range(60):
            curve, v = insertable(self.dice, make=either_curve)
            new = insert_knot(curve, v, WIDE)[1]
            self.assertTrue(same_exactly(curve, new))
            self.assertEqual(remove_knot(new, v, WIDE), (0, curve))
            number, smaller, removed = compact(new, WIDE)
            self.assertEqual((number, domain(smaller), removed), (0, domain(curve), len(new.xs) - len(smaller.xs)))
            self.assertTrue(same_exactly(smaller, new))

    def test_inserting_before_or_behind(self):
        both = 0
        for _ in range(200):
            curve, v = insertable(self.dice, make=either_curve)
            (one, full), (other, more) = clamp_ends(curve, WIDE), clamp_ends(insert_knot(curve, v, WIDE)[1], WIDE)
            if one == other == 0:
                both += 1
                self.assertEqual(insert_knot(full, v, WIDE), (0, more))
        self.assertGreater(both, 20)

    def test_path_data_is_that_of_full_ends(self):
        for _ in range(80):
            curve = clampable(self.dice)
            self.assertEqual(svg(curve, LONGEST), svg(clamp_ends(curve, WIDE)[1], LONGEST))

    def test_what_carries_nothing_plays_no_part(self):
        found = 0
        while found < 40:
            curve = either_curve(self.dice)
            m, idle = curve.degree, {*range(len(curve.xs))}
            for i in spans(curve):
                idle -= {*range(i - m, i + 1)}
            if not idle:
                continue
            found += 1
            move = lambda axis: [self.dice.pick((-FARTHEST, FARTHEST)) if j in idle else c for j, c in enumerate(axis)]
            other = Curve(m, curve.knots, move(curve.xs), move(curve.ys))
            clamp, t = good_rectangle(self.dice, curve), self.dice.between(*domain(curve))
            self.assertEqual((met(curve, clamp, 3), point_at(curve, t)), (met(other, clamp, 3), point_at(other, t)))
            u = random_fraction(self.dice, curve)
            self.assertEqual(exact_point(curve, u), exact_point(other, u))
            self.assertEqual(clamped_axes(curve), clamped_axes(other))


class Tries(unittest.TestCase):
    def test_another_curve_is_told(self):
        """Of the try of exact points before and after: a carrying point moved by a step, another domain, and the curve itself, which passes."""
        dice, told = Dice(14), Counter()
        for _ in range(60):
            curve = either_curve(dice)
            j = dice.pick(spans(curve)) - dice.between(0, curve.degree)
            wrong = dict(right=curve, moved=curve._replace(xs=[x + (k == j) for k, x in enumerate(curve.xs)]))
            wrong["shifted"] = curve._replace(knots=[t + 1 for t in curve.knots])
            for name, made in wrong.items():
                try:
                    try_kept(dice, curve, made, Counter())
                except Broken:
                    told[name] += 1
        self.assertTrue(told["right"] == 0 and told["shifted"] == 60 and told["moved"] > 40, told)


if __name__ == "__main__":
    unittest.main()
