"""What is wrong with a run of all cases through a driver, in words: what it told of a case by its number, the first wrong answer, its status."""

from .compare import first_difference

MOST_TOLD = 10


def case_in(cases, fault):
    """The case that a fault names by its number, from 1 on; None where it names none."""
    word = fault.partition(":")[0]
    number = word[len("case ") :]
    if word.startswith("case ") and number.isdigit() and 1 <= int(number) <= len(cases):
        return cases[int(number) - 1]
    return None


def told(cases, fault):
    """A fault of the driver with the name of its case."""
    case = case_in(cases, fault)
    return "%s (%s):%s" % (case.name, case.call, fault.partition(":")[2]) if case else fault


def run_faults(cases, status, answers, faults):
    """All of it, of a run that ended with this status, wrote these answers and told these faults."""
    found = [told(cases, fault) for fault in faults[:MOST_TOLD]]
    differs = first_difference(cases, answers)
    if differs:
        found.append(differs)
    if status != 0:
        found.append("the driver ended with status %d" % status)
    return found
