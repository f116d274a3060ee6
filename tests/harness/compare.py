"""Compares answers with the right ones, byte for byte, and says in words where the first one differs."""

from .shapes import Broken, Reader, read_answer


def in_words(name, got, right):
    if isinstance(right, list):
        for k, (one, other) in enumerate(zip(got, right)):
            if one != other:
                return "%s holds %r at entry %d, and %r is right" % (name, one, k, other)
        return "%s has %d entries, and %d are right" % (name, len(got), len(right))
    return "%s is %r, and %r is right" % (name, got, right)


def difference(case, answer):
    """Where the answer to one case is not the right one."""
    try:
        got, right = read_answer(case, Reader(answer)), read_answer(case, Reader(case.answer))
    except Broken as fault:
        return str(fault)
    for (name, one), (also, other) in zip(got, right):
        if name != also or repr(one) != repr(other):
            return in_words(name, one, other)
    return "the bytes differ"


def first_difference(cases, answers):
    """The first case that is not answered rightly, in words; None where every byte is as it should be."""
    if answers == b"".join(case.answer for case in cases):
        return None
    reader = Reader(answers)
    for case in cases:
        start = reader.at
        try:
            read_answer(case, reader)
            answer = answers[start : reader.at]
        except Broken:
            return "%s (%s): its answer is missing or cut short" % (case.name, case.call)
        if answer != case.answer:
            return "%s (%s): %s" % (case.name, case.call, difference(case, answer))
    return "there are bytes behind the last answer"
