"""Planted faults: SECOND_FAULT names one call, or one and a fault of it that is listed here, and that call then answers wrongly in one known way.

Only answers are spoiled, never the cases, so that it is the comparison of answers that has to notice."""

import os
import sys
from functools import wraps

PLANTED = os.environ.get("SECOND_FAULT")
_answering = []

# Faults beside the one that each call has: of a reader's places, of what it tells first, of what is kept between bursts, of the points where
# joined pieces meet, of the cutter's radius, of the pieces and the text of path data, and of ends that are open.
MORE = (
    "read_record:length_place",  # the place of a length told as that of its tag
    "read_record:ended_first",  # 16 where the length is wrong and the contents run out too
    "read_job:left_over",  # a byte behind the 64th clamp told as an unexpected tag
    "read_job:half_length",  # 20 where the input ends between the two bytes of a length, the first of which fits none
    "clampcheck_text:one_too_far",  # every place one too far
    "feed:one_short",  # a work list that is one place short taken
    "feed:empty_ends",  # an empty burst taken for the end
    "feed:early",  # a fault told by the burst that brings it
    "feed:from_start",  # a burst kept from the start of the list on
    "feed:over_front",  # what does not fit written over the front of the list
    "feed:runs_on",  # the count not stopped behind the list
    "feed:full_is_whole",  # a full list read as if no byte had come behind it
    "feed:forgets",  # the count lost by an end that is refused for its work list
    "feed:stale",  # the count kept by an end that is refused otherwise
    "feed:room_is_room",  # the count kept by an end whose result does not fit
    "join:keeps_meeting",  # the points where pieces meet kept in the polygon, on knots that stand twice
    "join:last_piece",  # in front of the last piece the knot three times, and the point where it meets kept: the same exact curve
    "join:room_of_three",  # 15 judged by what knots that stand three times need
    "join:last_unjudged",  # 11 and 18 not judged over the last piece
    "join:range_first",  # 18 told before 11
    "list_spans_met:three_sides",  # a clamp not widened downward
    "list_spans_met:half_radius",  # widened by half the radius
    "list_spans_met:strict_when_wide",  # a shared side across x not counted where the clamp is widened
    "list_spans_met:most_refused",  # 22 for a radius of 4,096
    "list_spans_met:past_most",  # a radius of 4,097 taken
    "list_spans_met:radius_last",  # 14 told before 22
    "read_job:radius_twice",  # two fields of the radius taken
    "read_job:radius_optional",  # a job without its radius taken
    "read_job:radius_behind",  # the radius looked for behind the clamps
    "read_job:radius_untold",  # the radius not handed out
    "read_job:most_refused",
    "read_job:past_most",
    "read_job:radius_last",
    "clampcheck_text:narrow",  # no clamp widened
    "clampcheck_text:three_sides",
    "clampcheck_text:radius_optional",
    "feed:radius_twice",
    "feed:radius_untold",
    "feed:radius_last",
    "svg:one_less",  # inner values inserted until they stand once less than the degree
    "svg:from_right",  # inner values inserted from right to left
    "svg:whole_first",  # 11 told before 10 by an insertion that is refused for both
    "svg:counted_first",  # 10 told for all insertions together, before any is made
    "svg:x_alone",  # 11 judged over x alone
    "svg:third_unjudged",  # 11 not judged where a value gets its third knot
    "svg:last_unjudged",  # 11 not judged at the last inner value
    "svg:empty_pieces",  # a piece for every span, empty ones too
    "svg:backwards",  # the points of each piece in the other order
    "svg:comma",  # a comma between x and y
    "svg:one_letter",  # the letter of the degree with the first piece alone
    "svg:newline",  # a newline behind the text
    "svg:room_of_longest",  # 15 judged by what the longest text needs
    "svg:room_first",  # 15 told before 10 and 11
    "check:full_ends",  # 5 where the first or the last m+1 knots differ
    "check:first_and_last",  # 5 judged by the first and the last knot
    "check:end_too_often",  # an end value of the domain accepted that stands m+2 times
    "check:inner_too_often",  # a value inside accepted that stands m+1 times
    "point_at:to_last_knot",  # parameters taken up to the last knot
    "carrying:to_last_knot",
    "insert_knot:at_left_end",  # a knot inserted where the domain begins
    "remove_knot:doubled_end",  # a knot removed where the domain begins, if it stands there twice
    "compact:doubled_end",
    "list_spans_met:left_spans",  # spans left of the domain listed
    "list_spans_met:right_spans",  # spans right of it
    "clampcheck_text:left_spans",
    "clampcheck_text:right_spans",
    "svg:open_ends",  # a curve cut without its ends made full
    "clamp_ends:keeps_outer",  # the first point kept
    "clamp_ends:left_alone",  # the right end left as it is
    "clamp_ends:tells_23",  # 23 told for 11
    "unclamp_right:other_span",  # the new knots as far apart as the first span is wide
    "unclamp_right:past_most",  # a last knot of 16,384 taken
    "unclamp_right:keeps_last",  # the last point kept
    "unclamp_right:any_range",  # points beyond the range taken
    "unclamp_right:tells_11",  # 11 told for 23
    "unclamp_right:room_first",  # 15 told before 23
)


def call_of(fault):
    """The call that a fault is planted in."""
    return fault.partition(":")[0]


def faults_of(calls):
    """The names of all faults in these calls."""
    return [*calls, *(fault for fault in MORE if call_of(fault) in calls)]


def must_be_of(calls):
    """Ends the program where a fault is asked for in none of these calls: it would be planted nowhere, and nothing would tell."""
    if PLANTED is not None and PLANTED not in faults_of(calls):
        print("SECOND_FAULT=%s: no such fault among %s" % (PLANTED, " ".join(faults_of(calls))), file=sys.stderr)
        sys.exit(2)


def answering(function):
    """Marks a function that makes a case and its answer; a fault is alive while one runs."""

    @wraps(function)
    def marked(*arguments):
        _answering.append(function)
        try:
            return function(*arguments)
        finally:
            _answering.pop()

    return marked


def planted(fault):
    """Whether the fault of this name is switched on."""
    return PLANTED == fault and bool(_answering)


def planted_anywhere(fault):
    """Whether a fault that several calls can have is switched on, whichever call it is named with."""
    return PLANTED is not None and PLANTED.partition(":")[2] == fault and bool(_answering)
