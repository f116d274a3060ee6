"""The Python part of tools/clampcheck and tools/curvesvg: runs the program of that name on a file, passes its text on and ends with 10, 11 or 12, see there.

A text that is not the program's own goes nowhere: it might be cut off in front of the clamp that is met, or in the middle of the curve.
"""

import os
import sys

import answer
import asking
import path_answer
import program

ENDS = {answer.ALL_CLEAR: 10, path_answer.WRITTEN: 10, answer.MAY_MEET: 11, answer.REFUSED: 12}
NO_ANSWER = 3


def pass_on(text):
    """Writes everything to standard output, or fails."""
    while text:
        text = text[os.write(1, text) :]


def answered(asked, name):
    """Runs the program and passes its text on; the status to end with."""
    data = program.read_input(name)
    printed = asked.prints(data)
    found = asked.understood(printed, data)
    pass_on(printed)
    if found.refusal:
        sys.stderr.write("".join(line + "\n" for line in asked.told(found, data, name or "JOB")))
    return ENDS[found.word()]


def main(asked, arguments):
    if len(arguments) > 1 or (not arguments and sys.stdin is not None and sys.stdin.isatty()):
        sys.stderr.write("Give a job: tools/%s JOB, or tools/%s < JOB\n" % (asked.name, asked.name))
        return NO_ANSWER
    try:
        return answered(asked, arguments[0] if arguments else None)
    except (program.NotRun, answer.NotUnderstood) as fault:
        sys.stderr.write("%s\n" % fault)
    except OSError as fault:
        sys.stderr.write("%s: %s\n" % (fault.filename or "standard input or output", fault.strerror))
    return NO_ANSWER


if __name__ == "__main__":
    sys.exit(main(asking.BY_NAME[sys.argv[1]], sys.argv[2:]))
