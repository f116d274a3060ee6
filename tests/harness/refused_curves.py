"""Curves that the check refuses, with the number that is right, worked out by hand."""

from second_program.curve import Curve
from second_program.expected import WORKED_A

REFUSED_CURVES = (
    (1, WORKED_A._replace(degree=4)),
    (2, Curve(3, WORKED_A.knots, [0, 0, 8], [0, 8, 8])),
    (2, Curve(3, WORKED_A.knots, [0, 0, 8, 8], [0, 8, 8])),
    (3, WORKED_A._replace(knots=[0, 0, 0, 0, 4, 4, 4])),
    (4, WORKED_A._replace(knots=[0, 0, 0, 0, 4, 4, 4, 3])),
    (4, WORKED_A._replace(knots=[0, 0, 0, 0, 16384, 16384, 16384, 16384])),
    (5, WORKED_A._replace(knots=[0, 1, 2, 3, 3, 4, 5, 6])),
    (5, WORKED_A._replace(knots=[4] * 8)),
    (6, Curve(1, [0, 0, 2, 2, 4, 4], [0, 1, 2, 3], [0, 1, 2, 3])),
    (6, Curve(1, [0, 1, 1, 1, 2, 3], [0, 1, 2, 3], [0, 1, 2, 3])),
    (6, Curve(1, [0, 1, 2, 2, 3, 4], [0, 1, 2, 3], [0, 1, 2, 3])),
    (7, WORKED_A._replace(xs=[0, 0, 8, 262145])),
)
