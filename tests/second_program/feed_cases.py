"""Cases of `feed`: jobs in bursts, some of them empty, one after the other on one list; work lists that are too short; states that nobody handed out.

long_feed_cases.py has those of inputs that fill the work list."""

from . import vectors
from .broken_cases import broken_jobs, cut, some_fields, wrong_length, wrong_tag
from .clamp_cases import bad_rectangle, random_rectangle
from .expected import EACH_REFUSAL, WORKED_A, any_room, each_one_short, expect, expect_at, refused_curves, room_for, spare_room
from .fed_vectors import END, feed
from .feeding import LONGEST_JOB
from .fields import CLAMP
from .job_cases import job_of
from .long_feed_cases import long_feed_cases
from .random_curves import random_curve
from .record import PLACED

TINY = job_of(WORKED_A, [(2, 3, 5, 9)])
TINY_ROOM = (8, 4, 4, 4)
SHORT = (LONGEST_JOB - 1, LONGEST_JOB - 1, LONGEST_JOB - 2, 10261, 200, 1, 0)
FAR = (LONGEST_JOB + 1, LONGEST_JOB + 2, 2**16, 2**31, 2**32, 2**32 + len(TINY), 2**63 - 1, 2**63, 2**64 - 2, 2**64 - 1)


def enough_places(dice):
    return LONGEST_JOB + dice.pick((0, 0, 0, 1, 2, 23, 523, 8523))


def in_bursts(dice, data):
    """The bytes in some bursts, cut anywhere; every other time at least one of them is empty."""
    cuts = [dice.between(0, len(data)) for _ in range(dice.between(0, 4))]
    if dice.chance(2):
        cuts += [dice.pick((0, len(data), *cuts))] * 2
    cuts.sort()
    return [data[low:high] for low, high in zip([0, *cuts], [*cuts, len(data)])]


def bytewise(data):
    return [data[k : k + 1] for k in range(len(data))]


def one_job(dice, data, room, points):
    return feed(enough_places(dice), b"", 0, room, [*in_bursts(dice, data), END], points)


def some_clamps(dice, most, least=0):
    return [random_rectangle(dice) for _ in range(dice.between(least, most))]


def small_job(dice, least=0):
    """Bytes, the room that they need, and the number of points; there are three clamps at most."""
    m = dice.between(1, 3)
    curve, clamps = random_curve(dice, m, m + dice.between(1, 9)), some_clamps(dice, 3, least)
    return job_of(curve, clamps), (*room_for(curve), 4 * len(clamps)), len(curve.xs)


def sound_cases(dice):
    yield expect(0, feed(LONGEST_JOB, b"", 0, TINY_ROOM, [TINY, END], 4))
    for k in range(24):
        curve, clamps = random_curve(dice, m=1 + k % 3), some_clamps(dice, dice.pick((0, 3, 64)))
        room = spare_room(dice, (*room_for(curve), 4 * len(clamps)))
        yield expect(0, one_job(dice, job_of(curve, clamps), room, len(curve.xs)))


def bytewise_cases(dice, broken):
    """A byte at a time, the shortest jobs and some of several hundred bytes."""
    yield expect(0, feed(LONGEST_JOB, b"", 0, TINY_ROOM, [*bytewise(TINY), END], 4))
    yield expect(0, feed(LONGEST_JOB, b"", 0, TINY_ROOM, [one for byte in bytewise(TINY) for one in (byte, b"")] + [END], 4))
    for points in (2, 5, 30, 60):
        curve = random_curve(dice, 1, points)
        data, room = job_of(curve, [(0, 1, 0, 1)] * 3), (*room_for(curve), 12)
        yield expect(0, feed(LONGEST_JOB, b"", 0, room, [*bytewise(data), END], points))
    for number, place, data in broken[7::61]:
        yield expect_at(number, place, feed(LONGEST_JOB, b"", 0, any_room(dice, 4), [*bytewise(data), END], 30))


def refused_cases(dice, broken):
    """1 to 7, 14 and the four of broken bytes; the room is often too small as well."""
    from_bytes = lambda curve: one_job(dice, job_of(curve, [bad_rectangle(dice)] * dice.between(0, 2)), any_room(dice, 4), vectors.size(curve))
    yield from refused_curves(dice, from_bytes, byte=True)
    for _ in range(EACH_REFUSAL):
        curve, clamps = random_curve(dice), [*some_clamps(dice, 2), bad_rectangle(dice), *some_clamps(dice, 2)]
        yield expect(14, one_job(dice, job_of(curve, clamps), any_room(dice, 4), len(curve.xs)))
    for number in PLACED:
        of_number = [one for one in broken if one[0] == number]
        for _, place, data in of_number[:: max(1, len(of_number) // EACH_REFUSAL)]:
            yield expect_at(number, place, one_job(dice, data, any_room(dice, 4), 30))


def placed_cases(dice):
    """The fault in the first byte, in a middle one or in the last, a burst that begins with it, and an input that ends with it."""
    judged = {16: 0, 19: 1, 20: 2}  # bytes that are looked at from the place on
    for _ in range(2):
        fields = some_fields(dice, 2)
        for k in (0, 1, CLAMP, CLAMP + 1):
            for number, place, data in (wrong_tag(fields, k, 9), wrong_length(fields, k, 3), cut(fields, k, dice.between(1, 3))):
                for end in sorted({len(data), place + judged[number]}):
                    steps = [data[:place], data[place:end], END]
                    yield expect_at(number, place, feed(enough_places(dice), b"", 0, any_room(dice, 4), steps, 30))


def room_cases(dice):
    """Just enough places for the result, and one too few in each list by turns: that is told last, and the next job finds a fresh state."""
    for _ in range(11):
        data, room, points = small_job(dice, least=1)
        steps = [*in_bursts(dice, data), END]
        yield expect(0, feed(enough_places(dice), b"", 0, room, steps, points))
        for short in each_one_short(room):
            yield expect(15, feed(enough_places(dice), b"", 0, short, dice.pick((steps, steps + steps)), points))


def followed_cases(dice, broken):
    """Jobs one after the other on one list: what is left of a longer one is not read, whether it was refused or not."""
    for _ in range(12):
        (one, room, points), (two, also, fewer) = small_job(dice), small_job(dice)
        number, place, spoiled = dice.pick(broken)
        wide, points = tuple(max(pair) for pair in zip(room, also)), max(points, fewer)
        make = lambda *jobs: feed(enough_places(dice), b"", 0, wide, [step for job in jobs for step in (*in_bursts(dice, job), END)], points)
        yield expect(0, make(one, two))
        yield expect(0, make(spoiled, one))
        yield expect_at(number, place, make(two, spoiled))
        yield expect_at(16, 10, make(one, two, one[:10]))


def bare_cases(dice):
    """Ends with no burst before them, two in a row, empty bursts alone, and bursts behind the last end."""
    for steps in ([END], [b"", END], [b"", b"", END], [END, END], [TINY, END, END], [TINY, END, b"", END], [TINY[:9], END, END]):
        yield expect_at(16, 0, feed(enough_places(dice), b"", 0, TINY_ROOM, steps, 4))
    for steps in ([b""], [TINY], [TINY, END, TINY[:20]], [END, TINY, b""], [TINY[:9], END, TINY]):
        yield expect(0, feed(enough_places(dice), b"", 0, TINY_ROOM, steps, 4))
    yield expect(0, feed(enough_places(dice), b"", 0, TINY_ROOM, [END, TINY[:7], TINY[7:], END], 4))


def short_cases(dice):
    """A work list that is too short is told at once, by a burst and by an end, and changes nothing: not the count either."""
    for k, places in enumerate(2 * SHORT):
        front = TINY[:places]
        received = dice.pick((0, 1, len(front), places, *FAR))
        room = dice.pick((TINY_ROOM, (0, 0, 0, 0)))
        steps = dice.pick(([TINY, END], [b"", END], [END, TINY[:3], END], [TINY, b"", END, TINY, END]))
        yield expect(15, feed(places, front, received, room, steps, 4))
        yield expect(15, feed(places, front, len(front), TINY_ROOM, [END], 4))
        yield expect(15, feed(places, b"", dice.pick((0, places)), TINY_ROOM, [TINY if k % 2 else b""], 4))


def given_state_cases(dice):
    """Any contents of the list and any count: what stands there is what was received."""
    for _ in range(4):
        data, room, points = small_job(dice)
        yield expect(0, feed(enough_places(dice), data, len(data), room, [END], points))
        yield expect(0, feed(enough_places(dice), data, 0, room, [data[:5], data[5:], END], points))
        half = dice.between(1, len(data) - 1)
        yield expect(0, feed(enough_places(dice), data[:half], half, room, [b"", data[half:], END, END, data, END], points))
        yield expect_at(16, half, feed(enough_places(dice), data[:half], half, room, [END], points))
        yield expect(0, feed(enough_places(dice), data[:half], half, room, [END, data, END], points))
        yield expect_at(19, len(data), feed(enough_places(dice), data, len(data) + dice.between(1, 9), room, [b"\7", END], points))
    for received in (LONGEST_JOB - 1, LONGEST_JOB, *FAR):
        yield expect_at(19, len(TINY), feed(LONGEST_JOB, TINY, received, TINY_ROOM, [END], 4))
        yield expect_at(19, len(TINY), feed(LONGEST_JOB, TINY, received, TINY_ROOM, [b"", TINY, END], 4))
        yield expect(0, feed(LONGEST_JOB, TINY, received, TINY_ROOM, [b"", b"\5", TINY], 4))
        yield expect(0, feed(LONGEST_JOB + 1, TINY, received, TINY_ROOM, [b"\5\5", END, TINY, END], 4))
        yield expect_at(19, 0, feed(LONGEST_JOB, b"", received, any_room(dice, 4), [TINY, END], 4))


def feed_cases(dice):
    broken = list(broken_jobs(dice))
    yield from sound_cases(dice)
    yield from bytewise_cases(dice, broken)
    yield from refused_cases(dice, broken)
    yield from placed_cases(dice)
    yield from room_cases(dice)
    yield from followed_cases(dice, broken)
    yield from bare_cases(dice)
    yield from short_cases(dice)
    yield from given_state_cases(dice)
    yield from long_feed_cases(dice)
