"""The second program itself, held to the cases of the scope and of tests/worked.txt that are worked by hand, and to laws that any
right program keeps: insertion keeps the curve, joining is the Hermite cubic however often its knots stand, removal is what a search over polygons
finds, feeding is reading what was joined, a clamp is widened on all four sides. The try of the third demand is held to wrong lists, which it must tell."""

import sys
import unittest
from collections import Counter
from fractions import Fraction
from itertools import product
from pathlib import Path

sys.dont_write_bytecode = True
sys.path.insert(0, str(Path(__file__).resolve().parent.parent))

from harness.compare import difference
from harness.shapes import EXPORTED, JOINING, SHAPES, Reader
from harness.worked import Unreadable, worked_cases
from second_program import feeding, vectors
from second_program.broken_cases import broken_jobs, broken_records
from second_program.broken_radii import broken_radii
from second_program.clamp_cases import random_fraction
from second_program.curve import FARTHEST, Curve, basis, check, domain, exact_point, point_at, span_of, within
from second_program.cutter_cases import some_radius, wide_rectangle
from second_program.cutter_job_cases import wide_job
from second_program.demands import Broken, try_contacts
from second_program.dice import Dice
from second_program.doubled_cases import deciding_places, meeting_at_the_edge, one_at_the_edge, one_unwhole, some_widths, uneven_points, widths_of
from second_program.expected import WIDE, WORKED_A, WORKED_B, each_one_short
from second_program.fed_vectors import feed
from second_program.feed_cases import enough_places, in_bursts
from second_program.fields import changed, fields_of, joined
from second_program.insert_cases import insertable
from second_program.job_cases import good_job, job_of
from second_program.join_cases import spline_points
from second_program.joining import THREE_TIMES, TWICE, join, pieces_of
from second_program.knots import compact, insert_knot, polygon_with, remove_knot
from second_program.long_feed_cases import longest_fields
from second_program.path_data import curvesvg_text, svg
from second_program.pieces import Piece, cut
from second_program.random_curves import random_curve
from second_program.record import Fault, clampcheck_text, read_job, read_record, record_of, take_job, take_lone_record
from second_program.remove_cases import SMOOTH, smooth_joined
from second_program.spans import MOST_RADIUS, box, list_spans_met, met, spans

EMPTIEST = bytes([1, 1, 0, 3, 2, 0, 0, 3, 0, 0, 4, 0, 0])  # a record without entries
NO_RADIUS = bytes([6, 2, 0, 0, 0])  # of a job: a radius of 0
LONGEST_TRIED = 260  # bytes that a field of a tried record or job lacks at most
CLAMPS = [(2, 3, 5, 9), (9, 12, 0, 4), (8, 10, 8, 9)]
TEXT = "curve degree 3 points 4 spans 1\nclamp 1 may meet 0..4\nclamp 2 clear\nclamp 3 may meet 0..4\n"


class WorkedByHand(unittest.TestCase):
    def test_points(self):
        for t, place in ((0, (0, 0)), (1, (1.25, 4.5)), (2, (4, 6)), (4, (8, 0))):
            self.assertEqual(point_at(WORKED_A, t), (0, *place))
            self.assertEqual(exact_point(WORKED_A, t), place)
        self.assertEqual(point_at(WORKED_A, 5)[0], 8)
        for t, place in ((1, (3.5, 6)), (2, (6, 8))):
            self.assertEqual(point_at(WORKED_B, t), (0, *place))
            self.assertEqual(exact_point(WORKED_B, t), place)

    def test_insertion(self):
        number, one = insert_knot(WORKED_B, 1, WIDE)
        self.assertEqual((number, one.xs, one.ys), (0, [0, 2, 5, 8, 12], [0, 4, 8, 8, 0]))
        self.assertEqual(insert_knot(WORKED_B._replace(ys=[0, 7, 8, 0]), 1, WIDE)[0], 11)
        number, two = insert_knot(WORKED_B, 2, WIDE)
        self.assertEqual((number, two.xs, two.ys), (0, [0, 4, 6, 8, 12], [0, 8, 8, 8, 0]))
        self.assertEqual([insert_knot(curve, v, WIDE)[0] for curve, v in ((two, 2), (WORKED_B, 0), (WORKED_B, 4))], [9] * 3)

    def test_removal(self):
        self.assertEqual(remove_knot(WORKED_B, 2, WIDE)[0], 13)
        number, new = remove_knot(WORKED_B._replace(xs=[0, 4, 10, 12]), 2, WIDE)
        self.assertEqual((number, new.xs, new.ys), (0, [0, 8, 12], [0, 16, 0]))

    def test_second_pass_is_not_made(self):
        xs = [3, -2, 1, 3, 4, 4]
        number, new, removed = compact(Curve(2, [0, 0, 0, 1, 2, 3, 4, 4, 4], xs, xs), WIDE)
        self.assertEqual((number, removed, new.knots), (0, 1, [0, 0, 0, 1, 2, 4, 4, 4]))

    def test_joined_then_compacted(self):
        for bends in SMOOTH:
            for times in (TWICE, THREE_TIMES):
                curve = smooth_joined(bends, times)
                number, new, removed = compact(curve, WIDE)
                inner = [t for t in new.knots if 0 < t < 18]
                self.assertEqual((number, inner, removed), (0, [b for b, _ in bends], len(curve.xs) - len(new.xs)))
                for k in range(0, 18 * 4 + 1):
                    self.assertEqual(exact_point(new, Fraction(k, 4)), exact_point(curve, Fraction(k, 4)))

    def test_joining_two_points(self):
        for times in (TWICE, THREE_TIMES):
            number, new = join([0, 12], [0, 12], [0, 0], [1, 1], [1, -1], WIDE, times)
            self.assertEqual((number, new.xs, new.ys), (0, [0, 4, 8, 12], [0, 4, 4, 0]))
            self.assertEqual(new.knots, [0] * 4 + [12] * 4)
            self.assertEqual(join([0, 4], [0, 12], [0, 0], [1, 1], [1, -1], WIDE, times)[0], 11)

    def test_joining_three_points(self):
        """The pieces have x 0 1 5 6 and 6 8 10 12, y 0 -2 -6 -6 and -6 -6 -10 0."""
        points = [0, 3, 9], [0, 6, 12], [0, -6, 0], [1, 1, 1], [-2, 0, 5]
        two = Curve(3, [0] * 4 + [3, 3] + [9] * 4, [0, 1, 5, 8, 10, 12], [0, -2, -6, -6, -10, 0])
        three = Curve(3, [0] * 4 + [3, 3, 3] + [9] * 4, [0, 1, 5, 6, 8, 10, 12], [0, -2, -6, -6, -6, -10, 0])
        for times, curve, room in ((TWICE, two, (10, 6, 6)), (THREE_TIMES, three, (11, 7, 7))):
            self.assertEqual(join(*points, room, times), (0, curve))
            for short in each_one_short(room):
                self.assertEqual(join(*points, short, times)[0], 15)

    def test_limits(self):
        line = lambda points: Curve(1, [0, *range(points), points - 1], [0] * points, [0] * points)
        self.assertEqual([check(line(points)) for points in (1024, 1025)], [0, 2])
        ends = lambda last: Curve(1, [0, 0, last, last], [0, 1], [0, 1])
        self.assertEqual([check(ends(last)) for last in (16383, 16384)], [0, 4])
        far = lambda c: Curve(1, [0, 0, 1, 1], [0, c], [0, 1])
        self.assertEqual([check(far(c)) for c in (262144, 262145, -262144, -262145)], [0, 7, 0, 7])

    def test_jobs(self):
        self.assertEqual(clampcheck_text(job_of(WORKED_A, CLAMPS)), (0, TEXT))
        self.assertEqual(clampcheck_text(b""), (16, "refused 16 at 0\n"))
        self.assertEqual(clampcheck_text(job_of(WORKED_A, []))[1], TEXT[:32])
        self.assertEqual(read_job(job_of(WORKED_A, CLAMPS), (8, 4, 4, 12)), (0, None, WORKED_A, CLAMPS, 0))
        self.assertEqual(read_job(job_of(WORKED_A, CLAMPS), (8, 4, 4, 11))[0], 15)
        self.assertEqual([list_spans_met(WORKED_A, clamp, 0, (1, 1))[1] for clamp in CLAMPS], [[(0, 4)], [], [(0, 4)]])

    def test_radius(self):
        """The end (8, 0) of the worked curve lies 3 and 4 steps from the corner of a clamp."""
        corner = (11, 20, -9, -4)
        self.assertEqual([list_spans_met(WORKED_A, corner, radius, (1, 1)) for radius in (5, 3)], [(0, [(0, 4)]), (0, [])])
        self.assertEqual([list_spans_met(WORKED_A, corner, radius, (1, 1))[0] for radius in (4096, 4097)], [0, 22])
        self.assertEqual([list_spans_met(WORKED_A, (5, 4, 0, 1), radius, (1, 1))[0] for radius in (4096, 4097)], [14, 22])
        self.assertEqual([list_spans_met(WORKED_A, corner, radius, (0, 0))[0] for radius in (4096, 4097)], [15, 22])
        self.assertEqual(list_spans_met(WORKED_A._replace(ys=[0, 8, 8, 262145]), corner, 4097, (0, 0))[0], 7)
        self.assertEqual(clampcheck_text(job_of(WORKED_A, [corner], 5))[1], TEXT[:32] + "clamp 1 may meet 0..4\n")
        self.assertEqual(clampcheck_text(job_of(WORKED_A, [corner], 3))[1], TEXT[:32] + "clamp 1 clear\n")
        self.assertEqual(clampcheck_text(job_of(WORKED_A, CLAMPS, 4097)), (22, "refused 22\n"))
        self.assertEqual(clampcheck_text(record_of(WORKED_A) + job_of(WORKED_A, CLAMPS)[66:]), (19, "refused 19 at 61\n"))
        self.assertEqual(clampcheck_text(record_of(WORKED_A)), (16, "refused 16 at 61\n"))
        self.assertEqual(read_job(job_of(WORKED_A, CLAMPS, 4096), (8, 4, 4, 12)), (0, None, WORKED_A, CLAMPS, 4096))


    def test_pieces(self):
        self.assertEqual(cut(WORKED_A), (0, [Piece(0, 4, [(0, 0), (0, 8), (8, 8), (8, 0)])]))
        halves = [Piece(0, 2, [(0, 0), (4, 8), (6, 8), (0, 0)]), Piece(2, 4, [(6, 8), (8, 8), (12, 0), (0, 0)])]
        self.assertEqual(cut(WORKED_B), (0, halves))
        line = Curve(1, [7, 7, 10, 12, 12], [-7, 0, 5], [1, 2, -3])
        self.assertEqual(cut(line), (0, [Piece(7, 10, [(-7, 1), (0, 2), (0, 0), (0, 0)]), Piece(10, 12, [(0, 2), (5, -3), (0, 0), (0, 0)])]))

    def test_path_data(self):
        self.assertEqual(svg(WORKED_A, 19), (0, b"M 0 0 C 0 8 8 8 8 0"))
        self.assertEqual(svg(WORKED_B, 26), (0, b"M 0 0 Q 4 8 6 8 Q 8 8 12 0"))
        self.assertEqual([svg(WORKED_A, 18)[0], svg(WORKED_B, 25)[0]], [15, 15])
        self.assertEqual(svg(Curve(1, [7, 7, 10, 12, 12], [-7, 0, 5], [1, 2, -3]), 21), (0, b"M -7 1 L 0 2 L 5 -3"))
        once = Curve(3, [0, 0, 0, 0, 2, 4, 4, 4, 4], [0, 0, 4, 8, 8], [0, 4, 8, 4, 0])
        self.assertEqual(svg(once, 33), (0, b"M 0 0 C 0 4 2 6 4 6 C 6 6 8 4 8 0"))
        self.assertEqual([svg(WORKED_B._replace(ys=[0, 7, 8, 0]), 0)[0], svg(once._replace(xs=[0, 0, 2, 2, 8]), 0)[0]], [11, 11])
        full = Curve(2, [0, 0, *range(1023), 1022, 1022], [k % 2 for k in range(1024)], [0] * 1024)
        self.assertEqual(svg(full, 0)[0], 10)

    def test_program_of_path_data(self):
        self.assertEqual(curvesvg_text(record_of(WORKED_A)), "M 0 0 C 0 8 8 8 8 0\n")
        self.assertEqual(curvesvg_text(record_of(WORKED_B._replace(ys=[0, 7, 8, 0]))), "refused 11\n")
        self.assertEqual(curvesvg_text(b""), "refused 16 at 0\n")
        self.assertEqual(curvesvg_text(job_of(WORKED_A, CLAMPS)), "refused 21 at 61\n")


def by_second_program(case):
    """The same case, asked of the second program."""
    reader = Reader(case.body)
    reader.number("u8")
    given = [reader.value(kind) for _, kind in SHAPES[case.call].arguments]
    make, room = feed if case.call == "feed" else getattr(vectors, case.call), tuple(case.places)
    if SHAPES[case.call] is JOINING:
        return make(*given, room)
    if case.call in ("read_record", "read_job"):
        return make(bytes(given[0]), room, 0)
    if case.call == "feed":
        return make(given[0], bytes(given[1]), given[2], room, case.steps, 0)
    curve, rest = Curve(*given[:4]), given[4:]
    if case.call == "list_spans_met":
        rest = [tuple(rest[:4]), rest[4]]
    if case.call in ("write_record", "svg"):
        rest = [room[0]]
    elif room:
        rest.append(room)
    return make(curve, *rest)


class WorkedFile(unittest.TestCase):
    def test_second_program_agrees(self):
        cases = worked_cases()
        self.assertEqual({case.call for case in cases}, set(EXPORTED))
        for case in cases:
            with self.subTest(case.name):
                made = by_second_program(case)
                self.assertEqual(made.body, case.body)
                if made.answer != case.answer:
                    self.fail(difference(case, made.answer))

    def test_unreadable_texts_are_told(self):
        sound = "curve A\n    degree 1, knots 0 0 1 1, x 0 1, y 0 1\none\n    insert_knot A, v 1, places 5 3 3\n    = refused 9, knots 5x_, x 3x_, y 3x_\n"
        self.assertEqual(len(worked_cases(sound)), 1)
        for right, wrong in (
            ("insert_knot", "insert"),
            ("insert_knot", "clampcheck_text"),
            ("insert_knot A,", "insert_knot C,"),
            (", v 1", ""),
            (", v 1", ", v 1 2"),
            (", v 1", ", v 1, v 2"),
            (", v 1", ", w 1"),
            (", v 1", ", v -1"),
            (", v 1", ", v _"),
            (" 5 3 3", " 5 3"),
            (" 5 3 3", " 6 3 3"),
            ("    = ", "    "),
            ("refused 9, ", ""),
            ("refused 9", "passes"),
            ("refused 9", "refused 0"),
            ("5x_", "5x"),
            ("5x_", "0..5/4"),
            (", y 3x_", ""),
            ("one\n", "curve A\n"),
            ("refused 9", "refused 9 at 3"),
            ("5x_", '"4x"'),
            ("5x_", '"five"_'),
            ("5x_", '"five'),
        ):
            with self.subTest(wrong), self.assertRaises(Unreadable):
                worked_cases(sound.replace(right, wrong))

    def test_unreadable_feedings_are_told(self):
        sound = "one\n    feed work 3, front 1, received 0, places 1 0 0 0;\n    burst 2 = received 0, refused 15;\n    end = received 0, refused 15, knots _, x, y, sides;\n    work 1 2x_\n"
        self.assertEqual(len(worked_cases(sound)), 1)
        for right, wrong in (
            ("feed work 3, ", "feed "),
            ("work 3", "work 4"),
            ("received 0, places", "places"),
            ("received 0, places", "received -1, places"),
            (" 1 0 0 0;", " 1 0 0;"),
            ("front 1", "back 1"),
            ("burst 2", "burst 256"),
            ("burst 2", "burst _"),
            ("work 1 2x_", "work 256 2x_"),
            ("burst 2", "bursts 2"),
            ("burst 2 =", "burst 2"),
            ("= received 0, refused 15;", "= refused 15;"),
            ("refused 15;", "refused 16;"),
            ("refused 15;", "refused 15, knots _;"),
            ("end =", "end 1 ="),
            ("knots _", "knots 2x_"),
            (", sides;", ";"),
            ("refused 15, knots", "refused 16, knots"),
            ("1 2x_", "1 3x_"),
            ("    work 1 2x_\n", ""),
        ):
            with self.subTest(wrong), self.assertRaises(Unreadable):
                worked_cases(sound.replace(right, wrong))

    def test_places_are_told_with_four_numbers_alone(self):
        sound = "one\n    read_job bytes 2x(1 2x0), places 1 0 0 0\n    = refused 20 at 1, knots _, x, y, sides\n"
        self.assertEqual(len(worked_cases(sound)), 1)
        for wrong in ("refused 20", "refused 7 at 1", "refused 20, place 1", "refused 20 at", "refused 20 at -1", "refused 20 at 1 2"):
            with self.subTest(wrong), self.assertRaises(Unreadable):
                worked_cases(sound.replace("refused 20 at 1", wrong))


def fault_of(take, data):
    """Number and place, None for none."""
    try:
        take(data)
    except Fault as fault:
        return fault.number, fault.place
    return None


def completes(take, front):
    """Whether some zeros and the end of the emptiest record or job, or of a clamp, make the bytes a record, or a job; where any bytes do, some of these do."""
    emptiest = EMPTIEST + NO_RADIUS * (take is take_job)
    ends = [emptiest[at:] for at in range(len(emptiest) + 1)] + [bytes([16]) + bytes(17)]
    return any(fault_of(take, front + bytes(zeros) + end) is None for zeros in range(LONGEST_TRIED) for end in ends)


def ends_in_length(take, data):
    """Whether the bytes end between the two bytes of a length: a field begins two bytes before their end, so that 255 would be a wrong tag there."""
    return fault_of(take, data[:-2] + b"\xff") == (19, len(data) - 2)


def hermite(points, i, u):
    """The point at the share u of piece i, by the Hermite cubic of its two points and tangents."""
    params, px, py, tx, ty = points
    h = params[i + 1] - params[i]
    weights = (2 * u**3 - 3 * u**2 + 1, h * (u**3 - 2 * u**2 + u), 3 * u**2 - 2 * u**3, h * (u**3 - u**2))
    return tuple(sum(w * c for w, c in zip(weights, (p[i], d[i], p[i + 1], d[i + 1]))) for p, d in ((px, tx), (py, ty)))


def whole(c):
    return c.denominator == 1


def deciding(points, holds):
    """The places of the control points of which something does not hold: piece and point."""
    params, px, py, tx, ty = points
    axes = pieces_of(params, px, tx), pieces_of(params, py, ty)
    return [(i, k) for pieces in axes for i, piece in enumerate(pieces) for k, c in enumerate(piece) if not holds(c)]


def one_more_of_each(curve, values):
    """The curve with each of the values inserted once."""
    for v in values:
        number, curve = insert_knot(curve, v, WIDE)
        if number:
            return number
    return curve


class Joined(unittest.TestCase):
    """What both choices have in common, and what parts them."""

    def setUp(self):
        self.dice = Dice(2)

    def some_points(self):
        """Random spline points, and some that have uneven pieces and free tangents."""
        return [spline_points(self.dice) for _ in range(20)] + [uneven_points(self.dice, some_widths(self.dice)) for _ in range(20)]

    def longest(self):
        return uneven_points(self.dice, widths_of(self.dice, 341))

    def test_either_is_the_hermite_cubic(self):
        for points in [*self.some_points(), self.longest()]:
            params = points[0]
            for times in (TWICE, THREE_TIMES):
                curve = join(*points, WIDE, times)[1]
                for i in {0, len(params) - 2, self.dice.between(0, len(params) - 2)}:
                    for u in (Fraction(0), Fraction(1), Fraction(self.dice.between(1, 96), 97)):
                        self.assertEqual(exact_point(curve, params[i] + (params[i + 1] - params[i]) * u), hermite(points, i, u))

    def test_sizes(self):
        for points in [*self.some_points(), self.longest()]:
            k = len(points[0]) - 1
            for times, size in ((TWICE, 2 * k + 2), (THREE_TIMES, 3 * k + 1)):
                curve = join(*points, WIDE, times)[1]
                self.assertEqual((check(curve), len(curve.xs), len(curve.knots)), (0, size, size + 4))
                self.assertEqual([curve.knots.count(s) for s in points[0]], [4] + [times] * (k - 1) + [4])

    def test_one_more_of_each_inner_parameter(self):
        """Inserting makes of the one choice the other, and removing goes back; so the meeting points are on the curve."""
        for points in [*self.some_points(), self.longest()]:
            (_, two), (_, three) = (join(*points, WIDE, times) for times in (TWICE, THREE_TIMES))
            inner = points[0][1:-1]
            self.assertEqual(one_more_of_each(two, inner), three)
            self.assertEqual(one_more_of_each(two, inner[::-1]), three)
            self.assertEqual((three.xs[::3], three.ys[::3]), tuple(points[1:3]))
            for v in inner[:9]:
                three = remove_knot(three, v, WIDE)[1]
            self.assertEqual(three, one_more_of_each(two, inner[9:]))

    def test_compacting_ends_alike(self):
        for points in self.some_points():
            (_, two), (_, three) = (join(*points, WIDE, times) for times in (TWICE, THREE_TIMES))
            (number, one, removed), (_, other, more) = compact(two, WIDE), compact(three, WIDE)
            self.assertEqual((number, one, removed + len(points[0]) - 2), (0, other, more))

    def test_refusals_are_the_same(self):
        """But for 15, whose room is that of the choice itself."""
        told = set()
        for _ in range(200):
            points = [list(one) for one in spline_points(self.dice, steep=self.dice.pick((None, 2**30)))]
            self.dice.pick(points)[0] += self.dice.pick((0, 1, 2**18))
            two, three = (join(*points, WIDE, times)[0] for times in (TWICE, THREE_TIMES))
            self.assertEqual(two, three)
            told.add(two)
        self.assertEqual(told, {0, 7, 11, 17, 18})

    def test_one_point_decides(self):
        """Of the spline points that are made for it."""
        for _ in range(9):
            widths = some_widths(self.dice)
            for piece, inner in deciding_places(self.dice, widths):
                self.assertEqual(deciding(one_unwhole(self.dice, widths, piece, inner), whole), [(piece, inner)])
                self.assertEqual(deciding(one_at_the_edge(self.dice, widths, piece, inner, 1), within), [(piece, inner)])
                self.assertEqual(deciding(one_at_the_edge(self.dice, widths, piece, inner, 0), within), [])
            self.assertEqual(join(*meeting_at_the_edge(self.dice, widths, 1), WIDE, TWICE)[0], 7)


def moved_by(*steps):
    """A list of spans that is wrong: of the clamp's sides each is moved by what this makes of the radius."""
    return lambda curve, clamp, radius: met(curve, [side + step(radius) for side, step in zip(clamp, steps)], 0)


def strictly_met(axis):
    """A list of spans that is wrong: a side shared across this axis alone is no meeting."""

    def listed(curve, clamp, radius):
        low, high = clamp[2 * axis] - radius, clamp[2 * axis + 1] + radius
        inside = [i for i in spans(curve) if box(curve, i)[2 * axis] < high and low < box(curve, i)[2 * axis + 1]]
        return [(curve.knots[i], curve.knots[i + 1]) for i in inside]

    return listed


OUTWARD = (lambda radius: -radius, lambda radius: radius) * 2
STILL = lambda radius: 0
WRONG_LISTS = dict(
    unwidened=moved_by(*[STILL] * 4),
    halved=moved_by(*[lambda radius, step=step: step(radius // 2) for step in OUTWARD]),
    one_step_less=moved_by(*[lambda radius, step=step: step(max(0, radius - 1)) for step in OUTWARD]),
    inward=moved_by(*[lambda radius, step=step: -step(radius) for step in OUTWARD]),
    across_is_open=strictly_met(0),
    up_is_open=strictly_met(1),
    **{"still_%d" % k: moved_by(*OUTWARD[:k], STILL, *OUTWARD[k + 1 :]) for k in range(4)},
)


class Widened(unittest.TestCase):
    """What the radius does to the list of spans, and whether the try of the third demand would tell a wrong list."""

    def setUp(self):
        self.dice = Dice(3)

    def some(self):
        for _ in range(200):
            curve, radius = random_curve(self.dice), some_radius(self.dice)
            yield curve, wide_rectangle(self.dice, curve, radius), radius

    def test_a_radius_is_a_larger_clamp(self):
        """The same is listed as for the clamp that is as large already, whether or not the range has room for it."""
        for curve, clamp, radius in self.some():
            larger = (clamp[0] - radius, clamp[1] + radius, clamp[2] - radius, clamp[3] + radius)
            self.assertEqual(met(curve, clamp, radius), met(curve, larger, 0))
            held = [max(-FARTHEST, min(FARTHEST, side)) for side in larger]
            self.assertEqual(list_spans_met(curve, clamp, radius, (999, 999)), list_spans_met(curve, held, 0, (999, 999)))

    def test_more_is_listed_for_a_wider_cutter(self):
        for curve, clamp, radius in self.some():
            for wider in (radius, radius + 1, MOST_RADIUS):
                self.assertLessEqual(set(met(curve, clamp, radius)), set(met(curve, clamp, wider)))

    def test_a_wrong_list_is_told(self):
        for name, listed in {"right": met, **WRONG_LISTS}.items():
            dice, hits, told = Dice(4), Counter(), 0
            for _ in range(300):
                try:
                    try_contacts(dice, random_curve(dice), hits, listed)
                except Broken:
                    told += 1
            with self.subTest(name):
                self.assertTrue(told == 0 if name == "right" else told > 5, told)


class Laws(unittest.TestCase):
    def setUp(self):
        self.dice = Dice(1)

    def test_basis_adds_up_to_one(self):
        for _ in range(40):
            curve = random_curve(self.dice, points=9)
            for u in (*domain(curve), random_fraction(self.dice, curve)):
                i, m = span_of(curve, u), curve.degree
                self.assertEqual(sum(basis(curve.knots, i, j, m, Fraction(u)) for j in range(9)), 1)

    def test_insertion_keeps_the_curve_and_removal_undoes_it(self):
        for _ in range(40):
            curve, v = insertable(self.dice)
            new = insert_knot(curve, v, WIDE)[1]
            for u in (*domain(curve), v, random_fraction(self.dice, curve)):
                self.assertEqual(exact_point(curve, u), exact_point(new, u))
            self.assertEqual(remove_knot(new, v, WIDE), (0, curve))

    def test_records_come_back(self):
        for _ in range(40):
            curve = random_curve(self.dice)
            self.assertEqual(read_record(record_of(curve), WIDE), (0, None, curve))

    def test_a_fault_is_the_leftmost(self):
        """What stands in front of a place can be completed, and with what stands there it cannot: found by a search, not by reading on."""
        for take, broken in ((take_lone_record, broken_records), (take_job, broken_jobs), (take_job, broken_radii)):
            tried = [one for one in broken(self.dice) if len(one[2]) < 200]
            for number, place, data in tried[:: len(tried) // 40]:
                with self.subTest(data=data.hex()):
                    self.assertEqual(fault_of(take, data), (number, place))
                    judged = {16: 0, 19: 1, 20: 2, 21: 1}[number]
                    between = number == 16 and ends_in_length(take, data)
                    self.assertTrue(between or completes(take, data[:place]))
                    self.assertFalse(judged and completes(take, data[: place + judged]))
                    self.assertTrue(place < len(data) if judged else place == len(data))

    def test_no_fault_means_a_record(self):
        job_again = lambda taken: job_of(*taken)
        for take, broken, again in ((take_lone_record, broken_records, record_of), (take_job, broken_jobs, job_again), (take_job, broken_radii, job_again)):
            for _, _, data in broken(self.dice):
                for at in range(0, len(data), 1 + len(data) // 20):
                    if fault_of(take, data[:at]) is None:
                        self.assertEqual(again(take(data[:at])), data[:at])

    def test_feeding_is_reading_what_is_joined(self):
        """However the bytes are split and however long the list is; a burst tells nothing."""
        broken = [data for _, _, data in (*broken_jobs(self.dice), *broken_radii(self.dice))]
        longest = joined(longest_fields(self.dice))
        jobs = [job_of(*good_job(self.dice, 3)) for _ in range(40)] + [job_of(*wide_job(self.dice, r), r) for r in range(4090, 4100)] + broken[::9] + [longest[:-1], longest, longest + b"\0", longest + longest]
        for data in jobs:
            work, received = bytes(enough_places(self.dice)), 0
            for burst in in_bursts(self.dice, data):
                number, work, received = feeding.feed(work, received, burst)
                self.assertEqual(number, 0)
            self.assertEqual(feeding.feed_end(work, received, WIDE + (256,)), (*read_job(data, WIDE + (256,)), 0))
            self.assertEqual(work[: len(data)], data[: len(work)])

    def test_nothing_behind_the_longest_job_matters(self):
        """So the end need not know what came when the list was full."""
        fields = longest_fields(self.dice)
        small = fields_of(WORKED_A, CLAMPS)
        fronts = [joined(changed(fields, k, tag=9)) for k in (0, 3, 4, 68)] + [joined(changed(fields, k, length=15)) for k in (0, 2, 4, 68)]
        fronts += [joined(fields), joined(fields[:-1] + small), joined(small + fields), joined(fields[:3]) + bytes(9000), joined(small[:4] + fields[4:]), joined(fields[:4] + fields[5:] + fields[-1:])]
        tails = [bytes([byte]) for byte in range(0, 256, 5)] + [joined(small), bytes(40)]
        for front in (front.ljust(feeding.LONGEST_JOB, b"\5")[: feeding.LONGEST_JOB] for front in fronts):
            told = {fault_of(take_job, front + tail) for tail in tails}
            self.assertEqual(len(told), 1)
            self.assertNotIn(told.pop(), (None, (16, len(front) + 1)))

    def test_removal_is_what_a_search_finds(self):
        reach, found = 8, 0
        for k in range(160):
            m = 2 + k % 2
            inner = self.dice.between(1, 3)
            fewer = [0] * (m + 1) + [4] * (m + 1)
            points = [self.dice.between(-reach, reach) for _ in range(m + 1)]
            new = polygon_with(m, fewer, points, inner)
            if k % 4 and any(q.denominator != 1 for q in new):
                new = [round(q) for q in new]
            if any(q.denominator != 1 for q in new):
                continue
            axis = [int(q) for q in new]
            searched = [
                [axis[0], *middle, axis[-1]]
                for middle in product(range(-reach, reach + 1), repeat=m - 1)
                if polygon_with(m, fewer, [axis[0], *middle, axis[-1]], inner) == axis
            ]
            curve = Curve(m, sorted(fewer + [inner]), axis, [0] * len(axis))
            number, smaller = remove_knot(curve, inner, WIDE)
            if searched:
                found += 1
                self.assertEqual((number, smaller.xs), (0, searched[0]))
            elif number == 0:
                self.assertTrue(any(abs(x) > reach for x in smaller.xs))
        self.assertGreater(found, 10)


if __name__ == "__main__":
    unittest.main()
