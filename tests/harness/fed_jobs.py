"""Turns every case of `read_job` into three of `feed`: the job whole, a byte at a time (of a long job only at both its ends), and in four bursts with empty ones
round them.

The right answer is the reading's own, so what is fed is held to what is read. Nothing of this stands in tests/vectors."""

import struct

from second_program.dice import Dice
from second_program.fed_vectors import END, fingerprint, step_bytes, u64, work_list
from second_program.feed_cases import bytewise
from second_program.feeding import LONGEST_JOB
from second_program.vectors import CALLS, u32

from .shapes import Case, Reader

SEED = 11482
LONG = 1000  # bytes of a job that takes too long to be fed a byte at a time
ENDS, BETWEEN = 100, 13  # of such a job so many bytes at each end one by one, and bursts of so many between


def job_in(case):
    reader = Reader(case.body)
    reader.number("u8")
    return reader.take(reader.number())


def in_small_bursts(data):
    if len(data) <= LONG:
        return bytewise(data)
    middle = data[ENDS:-ENDS]
    return [*bytewise(data[:ENDS]), *(middle[k : k + BETWEEN] for k in range(0, len(middle), BETWEEN)), *bytewise(data[-ENDS:])]


def in_four(dice, data):
    cuts = [0, *sorted(dice.between(0, len(data)) for _ in range(3)), len(data)]
    return [b"", *(step for low, high in zip(cuts, cuts[1:]) for step in (data[low:high], b""))]


def told_of_bursts(bursts, places):
    """The answers to them: never refused, and the count, which stops behind the list."""
    received, numbers = 0, []
    for burst in bursts:
        received = min(received + len(burst), places + 1)
        numbers += (0, received)
    return struct.pack("<" + "IQ" * len(bursts), *numbers)


def fed(case, how, bursts, places=LONGEST_JOB):
    """The case of `feed` that hands over these bursts and tells the end."""
    steps, work = [*bursts, END], b"".join(bursts)[:places]
    head = bytes([CALLS.index("feed") + 1]) + u32(places, 0) + u64(0) + u32(*case.places)
    end = case.answer[:4] + u64(0) + case.answer[4:]
    answer = told_of_bursts(bursts, places) + end + u64(fingerprint(work_list(places, work)))
    return Case("%s, fed %s" % (case.name, how), "feed", head + b"".join(map(step_bytes, steps)), case.places, answer, steps)


def jobs_in(cases):
    return [case for case in cases if case.call == "read_job"]


def overlong(jobs):
    """How many are longer than the longest job."""
    return sum(len(job_in(case)) > LONGEST_JOB for case in jobs)


def fed_jobs(jobs):
    """Every job in the three ways."""
    dice, made = Dice(SEED), []
    for case in jobs:
        data = job_in(case)
        made.append(fed(case, "whole", [data]))
        made.append(fed(case, "in small bursts", in_small_bursts(data)))
        made.append(fed(case, "in four bursts", in_four(dice, data)))
    return made
