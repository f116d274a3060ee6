"""The cases of each call: successes and every refusal it can give, with faults that stand together, and results that just
fit or are one place short. Each call has dice of its own, so its cases do not hang on those of another."""

from . import vectors
from .clamp_cases import list_spans_met_cases
from .curve_cases import carrying_cases, check_cases, point_at_cases
from .cutter_cases import cutter_cases
from .cutter_feed_cases import cutter_feed_cases
from .cutter_job_cases import cutter_read_cases, cutter_text_cases
from .dice import Dice
from .doubled_cases import join_cases
from .ends_cases import clamp_ends_cases, unclamp_right_cases
from .feed_cases import feed_cases
from .insert_cases import insert_knot_cases
from .job_cases import clampcheck_text_cases, read_job_cases
from .join_cases import join_through_points_cases
from .open_cases import (
    open_carrying_cases,
    open_check_cases,
    open_compact_cases,
    open_insert_cases,
    open_point_at_cases,
    open_remove_cases,
    open_spans_cases,
)
from .open_job_cases import open_feed_cases, open_job_cases, open_read_cases, open_text_cases, open_write_cases
from .open_svg_cases import open_svg_cases
from .record_cases import read_record_cases, write_record_cases
from .remove_cases import compact_cases, remove_knot_cases
from .svg_cases import svg_cases


def in_turn(*makers):
    return lambda dice: (case for maker in makers for case in maker(dice))


SECTIONS = dict(
    check=in_turn(check_cases, open_check_cases),
    point_at=in_turn(point_at_cases, open_point_at_cases),
    carrying=in_turn(carrying_cases, open_carrying_cases),
    insert_knot=in_turn(insert_knot_cases, open_insert_cases),
    remove_knot=in_turn(remove_knot_cases, open_remove_cases),
    compact=in_turn(compact_cases, open_compact_cases),
    join_through_points=join_through_points_cases,
    list_spans_met=in_turn(list_spans_met_cases, cutter_cases, open_spans_cases),
    write_record=in_turn(write_record_cases, open_write_cases),
    read_record=in_turn(read_record_cases, open_read_cases),
    read_job=in_turn(read_job_cases, cutter_read_cases, open_job_cases),
    clampcheck_text=in_turn(clampcheck_text_cases, cutter_text_cases, open_text_cases),
    feed=in_turn(feed_cases, cutter_feed_cases, open_feed_cases),
    join=join_cases,
    svg=in_turn(svg_cases, open_svg_cases),
    clamp_ends=clamp_ends_cases,
    unclamp_right=unclamp_right_cases,
)


def cases_of(call):
    """Every case of one call by turns, the same on every machine."""
    return SECTIONS[call](Dice(2026 + vectors.CALLS.index(call)))
