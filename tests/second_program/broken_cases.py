"""Bytes that break at a known place, for the cases of `read_record`, `read_job` and the text of `clampcheck`.

Each is made from the fields of a sound record or job by putting a fault where it can be counted, so that number and place are known
without reading the bytes: a maker yields number, place and bytes. The curve or a clamp is often wrong too, and nothing is told of that.
"""

from .clamp_cases import bad_rectangle
from .fields import CLAMP, LAST_CLAMP, RADIUS, RECORD, Field, changed, fields_of, joined, place_of, record_fields
from .random_curves import random_curve, spoiled_curve
from .record import MOST_CLAMPS

TAGS = (1, 2, 3, 4, 6, 5)  # of the fields in their order, clamps last
# Lengths that a field of each kind cannot have, whatever its contents: just beside the right ones, past the most, the right bytes the wrong way round.
WRONG_LENGTHS = (
    (0, 2, 3, 256, 257, 65535),
    (1, 17, 2055, 2057, 2058, 2060, 4096, 65535),
    (1, 2, 3, 18, 4095, 4097, 4098, 4100, 65532, 65535),
    (1, 2, 3, 21, 4094, 4097, 4099, 4100, 8192, 65535),
    (1, 3, 0, 4, 16, 256, 258, 512, 4096, 65535),
    (0, 4, 12, 15, 17, 20, 32, 272, 4096, 65535),
)
# A degree, knot, x, y, radius or side more than a field may hold.
PAST_THE_MOST = (2, 2058, 4100, 4100, 4, 20)
# First bytes of a length that no right length has, and some that a right one may have.
EXCLUDED_FIRST = ((0, 2, 255), (1, 9, 255), (1, 2, 3, 255), (6, 17, 254), (0, 1, 3, 255), (0, 8, 15, 17))
POSSIBLE_FIRST = ((1,), (0, 2, 254), (0, 4, 252), (0, 16, 252), (2,), (16,))


def kind_of(k):
    """The kind of the field with this index: degree, knots, x, y, radius or a clamp."""
    return min(k, CLAMP)


def some_curve(dice):
    """A small curve, now and then one that is refused."""
    curve = spoiled_curve(dice, dice.between(2, 7)) if dice.chance(4) else None
    if curve is None or len(curve.xs) > 24:
        m = dice.between(1, 3)
        curve = random_curve(dice, m, m + dice.between(1, 6))
    return curve


def some_record(dice):
    return lambda: record_fields(some_curve(dice))


def some_fields(dice, clamps, radius=0):
    """The fields of a job with a small curve and so many clamps; the curve or a clamp is now and then one that is refused."""
    curve = some_curve(dice)
    rectangle = lambda: bad_rectangle(dice) if dice.chance(4) else (dice.between(-9, 0), 3, dice.between(-300, 5), 7)
    return fields_of(curve, [rectangle() for _ in range(clamps)], radius)


def some_job(dice, clamps):
    """Jobs with so many clamps and a radius of 0."""
    return lambda: some_fields(dice, clamps)


def some_wide_job(dice, clamps):
    """Jobs with so many clamps and a radius that is now and then refused."""
    return lambda: some_fields(dice, clamps, dice.pick((0, 1, 4096, 4097, 65535, dice.between(0, 4096))))


def cut(fields, k, kept):
    """The bytes end when so many bytes of field k have come."""
    data = joined(fields)[: place_of(fields, k) + kept]
    return 16, len(data), data


def wrong_tag(fields, k, tag):
    return 19, place_of(fields, k), joined(changed(fields, k, tag=tag))


def wrong_tag_last(fields, k, tag):
    """The bytes end with the wrong tag: it is told all the same."""
    number, place, data = wrong_tag(fields, k, tag)
    return number, place, data[: place + 1]


def wrong_length(fields, k, length):
    """The contents are as before, whatever the length says."""
    return 20, place_of(fields, k) + 1, joined(changed(fields, k, length=length))


def wrong_and_whole(fields, k, length):
    """There are as many contents as the wrong length says."""
    return 20, place_of(fields, k) + 1, joined(changed(fields, k, length=length, contents=bytes(length)))


def wrong_and_ended(fields, k, length):
    """The length is wrong, and the contents run out too."""
    place = place_of(fields, k)
    come = max(0, min(length - 1, len(fields[k].contents) // 2))
    return 20, place + 1, joined(changed(fields, k, length=length))[: place + 3 + come]


def half_length(fields, k, low):
    """The bytes end between the two bytes of a length: 16, whatever the first of them is."""
    data = joined(fields)[: place_of(fields, k) + 1] + bytes([low])
    return 16, len(data), data


def left_over(fields, extra):
    data = joined(fields)
    return 21, len(data), data + extra


# Each maker below spoils fields of what `make` hands out, which begins anew for every case: those with the indices `ks`.


def ended(dice, make, ks):
    """Every way to end early: where a field is missing, in its head and in its contents."""
    for k in ks:
        fields = make()
        size = len(fields[k].contents)
        for kept in sorted({0, 1, 2, 3, 3 + size // 2, 2 + size}):
            if kept < 3 + size and (kept or k < CLAMP):
                yield cut(fields, k, kept)


def ended_in_length(dice, make, ks):
    for k in ks:
        for low in (*EXCLUDED_FIRST[kind_of(k)], *POSSIBLE_FIRST[kind_of(k)]):
            yield half_length(make(), k, low)


def unexpected_tags(dice, make, ks):
    for k in ks:
        right = TAGS[kind_of(k)]
        for tag in (0, right - 1, right + 1, 5, 6, 128 + right, 255):
            if tag != right:
                yield wrong_tag(make(), k, tag)
        yield wrong_tag_last(make(), k, dice.pick((0, right + 1, 7, 255)))


def wrong_lengths(dice, make, ks):
    for k in ks:
        for length in WRONG_LENGTHS[kind_of(k)]:
            yield wrong_length(make(), k, length)
            yield wrong_and_ended(make(), k, length)
        for length in WRONG_LENGTHS[kind_of(k)][:2]:
            yield wrong_and_whole(make(), k, length)


def twice_broken(dice, make, ks):
    """Two faults: the first is told, whatever comes behind it, in the same field too."""
    for at, k in enumerate(ks[:-1], 1):
        behind = ks[dice.between(at, len(ks) - 1)]
        fields = make()
        tag, length = dice.pick((0, 7, 255)), dice.pick(WRONG_LENGTHS[kind_of(k)])
        spoiled = changed(fields, behind, tag=9)
        longer = changed(fields, behind, length=dice.pick(WRONG_LENGTHS[kind_of(behind)]))
        yield wrong_tag(spoiled, k, tag)
        yield wrong_tag(longer, k, tag)
        yield wrong_length(spoiled, k, length)
        yield wrong_length(longer, k, length)
        yield wrong_tag(changed(fields, k, length=length), k, tag)
        number, place, data = wrong_tag(fields, k, tag)
        yield number, place, data[: dice.between(place + 1, place + 3)]
        number, place, data = wrong_length(fields, k, length)
        yield number, place, data[: place + 2]


def left_overs(dice, make, ks):
    """Bytes behind a lone record or behind 64 clamps, tags and whole fields among them."""
    fields = make()
    one = Field(5, 16, bytes(16)).data()
    for extra in (b"\0", b"\1", b"\5", b"\6", b"\xff", b"\5\x10", b"\5\x10\0", one, one + b"\0", one + one, joined(fields[:RADIUS]), bytes(40)):
        yield left_over(make(), extra)


def past_the_most(make, ks):
    """A field with one entry more than it may hold, and all its contents."""
    for k in ks:
        yield wrong_and_whole(make(), k, PAST_THE_MOST[kind_of(k)])


def overlong_records(dice):
    return past_the_most(some_record(dice), RECORD)


def overlong_jobs(dice):
    return past_the_most(some_job(dice, 1), beside_radius(1))


def at_the_end(data):
    """The longest bytes that are sound, without their last byte and with one behind them."""
    return (16, len(data) - 1, data[:-1]), (21, len(data), data + b"\5")


def broken_records(dice):
    """Number, place and bytes of records that break in every way; nothing may stand behind a lone record."""
    for maker in (ended, ended_in_length, unexpected_tags, wrong_lengths, twice_broken, left_overs, left_overs):
        yield from maker(dice, some_record(dice), RECORD)


def beside_radius(clamps):
    """The indices of a job's fields, that of the radius left out."""
    return [*RECORD, *range(CLAMP, CLAMP + clamps)]


def broken_jobs(dice):
    """Number, place and bytes of jobs that break in every way, at the record, at a clamp or behind the last that may be; broken_radii has those that
    break between record and clamps."""
    for maker in (ended, ended_in_length, unexpected_tags, wrong_lengths, twice_broken):
        clamps = dice.pick((1, 2))
        yield from maker(dice, some_job(dice, clamps), beside_radius(clamps))
    for _ in range(2):
        yield from left_overs(dice, some_job(dice, MOST_CLAMPS), ())
    for kept in (1, 2, 3, 18):
        yield cut(some_fields(dice, MOST_CLAMPS), LAST_CLAMP, kept)
    for tag in (0, 4, 6, 255):
        yield wrong_tag(some_fields(dice, MOST_CLAMPS), LAST_CLAMP, tag)
    for length in (0, 15, 17, 272):
        yield wrong_length(some_fields(dice, MOST_CLAMPS), LAST_CLAMP, length)
