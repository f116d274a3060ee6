"""Jobs that break between record and clamps: at the field of the cutter's radius, or because it is missing, doubled or somewhere else. As in
broken_cases.py a maker yields number, place and bytes, which are known without reading; the radius itself is now and then too large, and that is not told."""

from .broken_cases import ended, ended_in_length, left_over, past_the_most, some_wide_job, twice_broken, unexpected_tags, wrong_lengths
from .fields import CLAMP, RADIUS, joined, place_of, radius_field
from .record import MOST_CLAMPS


def fields_with(dice, clamps):
    """The fields of one job, and the field of its radius alone."""
    fields = some_wide_job(dice, clamps)()
    return fields, fields[RADIUS]


def told_from(fields, k):
    """An unexpected tag: that of field k."""
    return 19, place_of(fields, k), joined(fields)


def without_radius(dice):
    """A clamp stands where the radius belongs, or the end."""
    for clamps in (1, 2, 3, MOST_CLAMPS):
        fields, _ = fields_with(dice, clamps)
        yield told_from(fields[:RADIUS] + fields[CLAMP:], RADIUS)
    for _ in range(3):
        record = joined(fields_with(dice, 0)[0][:RADIUS])
        yield 16, len(record), record


def with_two(dice):
    """A second radius, the same or another one, where a clamp may stand or behind the last one."""
    for clamps in (0, 1, 2, MOST_CLAMPS - 1):
        fields, radius = fields_with(dice, clamps)
        for more in (radius, radius_field(dice.pick((0, 4096, 4097)))):
            for k in sorted({CLAMP, len(fields)}):
                yield told_from([*fields[:k], more, *fields[k:]], k)
    fields, radius = fields_with(dice, MOST_CLAMPS)
    yield left_over(fields, radius.data())


def moved(dice):
    """The only radius in front of a field of the record, or behind a clamp."""
    for clamps, k in ((0, 0), (1, 1), (1, 2), (2, 3)):
        fields, radius = fields_with(dice, clamps)
        rest = fields[:RADIUS] + fields[CLAMP:]
        yield told_from([*rest[:k], radius, *rest[k:]], k)
    for clamps, before in ((1, 1), (2, 1), (2, 2), (3, 3), (MOST_CLAMPS, MOST_CLAMPS)):
        fields, radius = fields_with(dice, clamps)
        rest = fields[:RADIUS] + fields[CLAMP:]
        yield told_from([*rest[: RADIUS + before], radius, *rest[RADIUS + before :]], RADIUS)


def broken_radii(dice):
    """Number, place and bytes of all these jobs."""
    for maker in (ended, ended_in_length, unexpected_tags, wrong_lengths):
        yield from maker(dice, some_wide_job(dice, dice.pick((0, 1, 2))), [RADIUS])
    for ks in ([RADIUS - 1, RADIUS], [RADIUS, CLAMP]):
        yield from twice_broken(dice, some_wide_job(dice, 1), ks)
    yield from past_the_most(some_wide_job(dice, 1), [RADIUS])
    for maker in (without_radius, with_two, moved):
        yield from maker(dice)
