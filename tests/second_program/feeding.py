"""A job that comes in bursts: each burst is kept in the lent work list, and the end reads what was received.

The bytes of the work list and the count of bytes received are the whole state; both may be any."""

from .fault import planted
from .record import read_job

LONGEST_JOB = 11482  # a work list has at least as many places


def too_short(work):
    return len(work) < (LONGEST_JOB - 1 if planted("feed:one_short") else LONGEST_JOB)


def feed(work, received, burst):
    """Number, the work list and the count after a burst."""
    if too_short(work):
        return 15, work, received
    if not burst and planted("feed:empty_ends"):
        return read_job(work[:received], (0, 0, 0, 0))[0], work, 0
    if received > len(work):
        return 0, work, received
    if planted("feed"):
        burst = burst[:-1]
    at = 0 if planted("feed:from_start") else received
    kept = burst[: len(work) - at]
    work = work[:at] + kept + work[at + len(kept) :]
    if planted("feed:over_front"):
        lost = burst[len(kept) :][: len(work)]
        work = lost + work[len(lost) :]
    count = received + len(burst)
    return told_early(work[:count]), work, count if planted("feed:runs_on") else min(count, len(work) + 1)


def told_early(data):
    """A burst tells nothing of the bytes so far; only a planted fault lets it."""
    number = read_job(data, (0, 0, 0, 0))[0] if planted("feed:early") else 0
    return number if number in (19, 20, 21) else 0


def joined(work, received):
    """What the end reads. Of more than the list holds that is the list and one byte more, whichever: no job is as long, so its fault stands
    at that byte or in front of it."""
    if received <= len(work) or planted("feed:full_is_whole"):
        return work[: min(received, len(work))]
    return work + b"\0"


def feed_end(work, received, room):
    """Number, place, curve, clamps, radius and the count after the end."""
    if too_short(work):
        return 15, None, None, None, None, 0 if planted("feed:forgets") else received
    told = read_job(joined(work, received), room)
    stale = planted("feed:stale") and told[0] or planted("feed:room_is_room") and told[0] == 15
    return (*told, received if stale else 0)
