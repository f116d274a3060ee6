#!/usr/bin/env python3
"""Turns a readable description of a curve, its cutter and its clamps into a job for clampcheck, a job back into a description, and says where a job is broken.

    python3 tools/job.py make sample.txt sample.job               text to job
    python3 tools/job.py make --anyway sample.txt sample.job      the same for a curve that clampcheck refuses
    python3 tools/job.py show sample.job                          job to text, on standard output
    python3 tools/job.py show sample.job sample.txt               job to text, into a file
    python3 tools/job.py explain sample.job                       what stands at which byte, and at the first fault what was due there

A description has one thing on a line; what stands behind a # is a remark:

    degree 3
    knots 0 0 0 0 4 4 4 4      on one line or on several, each 0 to 16,383
    point 0 0                  x and y in hundredths of a millimetre, each -262,144 to 262,144
    point 0 8
    point 8 8
    point 8 0
    radius 150                 the cutter's, half its width, in hundredths of a millimetre, 0 to 4,096: a 3 mm bit is 150, a pen 0
    clamp 2 3 5 9              low x, high x, low y, high y

The curve goes from the knot that has as many knots in front of it as the degree says to the one that has as many behind it. Where those knots are equal
to it, as here, the curve begins at its first point and ends at its last; where they are not, it is open there, and what lies outside is no part of it.

What clampcheck would refuse is said here, with its line, and then no job is written unless --anyway asks for it.
"""

import os
import sys

import description
import explain as explaining
import program
import text_kind
from description import BadText, read_text, write_text  # noqa: F401
from job_bytes import BadJob, Job, lacks_radius, read_job, read_without_radius, write_job  # noqa: F401

MOST_READ = 4 * 1024 * 1024


class Refused(Exception):
    """Something that is not done; the message says what and why."""


def read_file(name):
    """The bytes of a file; none that is longer than any description."""
    with open(name, "rb") as data:
        found = data.read(MOST_READ + 1)
    if len(found) > MOST_READ:
        raise Refused("more than %s bytes; no description is so long" % format(MOST_READ, ","))
    return found


def write_file(source, target, data):
    """Writes a file, but not over what it was made from."""
    if os.path.exists(target) and os.path.samefile(source, target):
        raise Refused("this is the file that is read; nothing is written over it")
    with open(target, "wb") as out:
        out.write(data)


def make(source, target, anyway):
    """Description to job."""
    job, lines = description.read_lines(description.text_of(read_file(source)))
    wrong = description.refused(job, lines)
    if wrong and not anyway:
        raise Refused(wrong + "; nothing was written (--anyway writes the job all the same)")
    write_file(source, target, write_job(job))
    if wrong:
        sys.stderr.write("%s: %s; the job was written all the same\n" % (source, wrong))


def show(source, target=None):
    """Job to description; of a job without a radius, one that says so."""
    data = read_file(source)
    if text_kind.is_text(data):
        raise Refused("this is %s, not a job; `make` turns a description into a job" % text_kind.kind(data))
    text = write_text(read_without_radius(data) if lacks_radius(data) else read_job(data))
    if target is None:
        sys.stdout.write(text)
        sys.stdout.flush()
    else:
        write_file(source, target, text.encode("ascii"))


def explain(source):
    """The fields of a job with their places, up to the first fault; of a file that is too long to be a job, no more than it takes to see that."""
    sys.stdout.write("".join(line + "\n" for line in explaining.explained(program.read_input(source), source)))
    sys.stdout.flush()


def main(arguments):
    words = [word for word in arguments if word != "--anyway"]
    anyway = len(words) < len(arguments)
    if len(words) == 3 and words[0] == "make":
        act = lambda: make(words[1], words[2], anyway)
    elif len(words) in (2, 3) and words[0] == "show" and not anyway:
        act = lambda: show(*words[1:])
    elif len(words) == 2 and words[0] == "explain" and not anyway:
        act = lambda: explain(words[1])
    else:
        sys.exit(__doc__)
    try:
        act()
    except (BadText, BadJob, Refused) as fault:
        sys.exit("%s: %s" % (words[1], fault))
    except OSError as fault:
        sys.exit("%s: %s" % (fault.filename or "standard output", fault.strerror))


if __name__ == "__main__":
    main(sys.argv[1:])
