"""Holds what tools/job.py says in explaining a job against what clampcheck prints on it: the same number and place, and the fault told at that byte."""

import sys
from pathlib import Path

sys.path.insert(0, str(Path(__file__).resolve().parents[2] / "tools"))

import explain  # noqa: E402


def disagreement(job, printed):
    """Where the explanation of a job says something else than clampcheck printed, in words; None where they agree."""
    lines = explain.explained(job)
    told = next(line for line in lines if line.startswith("clampcheck "))
    if not printed.startswith("refused "):
        return None if told == "clampcheck takes this job" else "explained by %r, and clampcheck takes it" % told
    if not told.startswith("clampcheck would say: %s: " % printed.rstrip("\n")):
        return "explained by %r, and clampcheck prints %r" % (told, printed)
    last = [line for line in lines if line.startswith("byte ")][-1]
    _, _, place = printed.rstrip("\n").partition(" at ")
    if place and not last.startswith("byte %s: here " % place):
        return "the fault at byte %s is explained by %r" % (place, last)
    return None
