"""The Python part of tools/try.sh: looks at the job, proves and builds clampcheck or curvesvg with a line for each crate, and runs it."""

import os
import shlex
import shutil
import subprocess
import sys

import answer
import asking
import crates
import program
import text_kind

SAMPLE = "examples/sign.job"
CHOICE = "--svg"
LAST_LINES = 20
ANSWERED, REFUSED, NO_ANSWER = 0, 2, 3


class NotTried(Exception):
    """There is nothing to show; the message says why."""


def say(words):
    """To standard error and at once: standard output is for what the program says."""
    sys.stderr.write(words + "\n")
    sys.stderr.flush()


def look(name, way):
    """The bytes of a job; NotTried for what a glance shows to be none, with advice to go the same way again."""
    try:
        data = program.read_input(name)
    except OSError as fault:
        raise NotTried("%s: %s" % (name, fault.strerror)) from None
    if text_kind.kind(data) == text_kind.EMPTY:
        raise NotTried("%s is empty. A job is made of a description such as examples/sign.txt: python3 tools/job.py make" % name)
    if text_kind.is_text(data):
        text, job = shlex.quote(name), shlex.quote(os.path.splitext(name)[0] + ".job")
        words = "%s is %s, not a job. Make a job of it, and try that:\n    python3 tools/job.py make %s %s\n    %s %s"
        raise NotTried(words % (name, text_kind.kind(data), text, job, way, job))
    return data


def tried(words, folder, what):
    """Runs `rt` in a folder; NotTried with the end of what it printed where that fails."""
    ended = subprocess.run(words, cwd=folder, stdin=subprocess.DEVNULL, stdout=subprocess.PIPE, stderr=subprocess.STDOUT, text=True, errors="replace")
    if ended.returncode:
        last = ended.stdout.splitlines(True)[-LAST_LINES:]
        raise NotTried("".join(last) + "%s is not proved: %s ended with status %d." % (what, " ".join(words), ended.returncode))


def prove(name):
    """Proves a program and the libraries below it, one after the other, and builds it; what is newer than all their files is left as it is."""
    if not shutil.which("rt"):
        raise NotTried("The Rattle kit (rt) is not on the PATH.")
    every = crates.under(name)
    if crates.is_newer(program.built(name), every):
        say("%s is proved and built: it is newer than all files of its %d crates." % (name, len(every)))
        return
    say("Proving and building %s, %d crates; the first time this takes a while." % (name, len(every)))
    for count, crate in enumerate(every, 1):
        # a program is run too; without input it soon ends
        tried(["rt", "run" if crate == name else "lib"], program.TOP / "crates" / crate, crate)
        say("proved %s (%d of %d)" % (crate, count, len(every)))


def show(asked, data, name):
    """Runs the program and prints what it says of the file of this name, a refusal in words; the status to end with."""
    printed = asked.prints(data)
    found = asked.understood(printed, data)
    told = asked.told(found, data, name) if found.refusal else []
    lines = told or printed.decode("ascii").splitlines()
    sys.stdout.write("".join(line + "\n" for line in lines))
    sys.stdout.flush()
    return REFUSED if found.refusal else ANSWERED


def main(arguments):
    jobs = [word for word in arguments if word != CHOICE]
    chosen = len(jobs) < len(arguments)
    asked = asking.CURVESVG if chosen else asking.CLAMPCHECK
    if len(jobs) > 1:
        say("Give one job: %s [JOB]" % program.WAY[asked.name])
        return NO_ANSWER
    name = jobs[0] if jobs else str(program.TOP / SAMPLE)
    try:
        data = look(name, program.WAY[asked.name])
        prove(asked.name)
        say("%s < %s%s" % (asked.name, "the curve in " * chosen, name if jobs else SAMPLE))
        return show(asked, data, name)
    except (NotTried, program.NotRun, answer.NotUnderstood) as fault:
        say(str(fault))
    except OSError as fault:
        say("%s: %s" % (fault.filename or "standard output", fault.strerror))
    except KeyboardInterrupt:
        say("Stopped.")
    return NO_ANSWER


if __name__ == "__main__":
    sys.exit(main(sys.argv[1:]))
