"""Knows where the kit, the built programs and the archive lie, and runs the programs, clampcheck and curvesvg."""

import pathlib
import shutil
import subprocess

import job_bytes

TOP = pathlib.Path(__file__).resolve().parents[1]
ARCHIVE = TOP / "target" / "staticlib" / "libtsaghnobir.a"
WAY = {"clampcheck": "tools/try.sh", "curvesvg": "tools/try.sh --svg"}  # to prove and build each
SECONDS = 60


class NotRun(Exception):
    """A program did not run to its end; the message says why."""


class NotBuilt(NotRun):
    """There is no program yet, or no kit to build it with."""


def kit():
    """The folder of the kit whose `rt` is on the PATH, or NotBuilt."""
    if not shutil.which("rt"):
        raise NotBuilt("the Rattle kit (`rt`) is not on the PATH")
    said = subprocess.run(["rt", "doc"], stdout=subprocess.PIPE, check=True, text=True).stdout.strip()
    return pathlib.Path(said).parent


def built(name):
    """Where `rt` leaves the program of this name."""
    return TOP / "crates" / name / "out" / name


def command(name):
    """The words that start the built program of this name, or NotBuilt."""
    if not built(name).is_file():
        raise NotBuilt("%s is not there: %s proves and builds it" % (built(name).relative_to(TOP), WAY[name]))
    return [str(built(name))]


def read_input(name):
    """The bytes of a file, or of standard input for None. Of a file that is too long to be a job, one byte too many."""
    with open(0 if name is None else name, "rb", closefd=name is not None) as data:
        return data.read(job_bytes.MOST_BYTES + 1)


def run(name, data):
    """What the program of this name prints on some bytes, or NotRun."""
    try:
        ended = subprocess.run(command(name), input=data, stdout=subprocess.PIPE, timeout=SECONDS)
    except subprocess.TimeoutExpired:
        raise NotRun("%s had not ended after %d seconds" % (name, SECONDS)) from None
    except OSError as fault:
        raise NotRun("%s could not be started: %s" % (name, fault.strerror)) from None
    if ended.returncode:
        raise NotRun("%s ended with status %d" % (name, ended.returncode))
    return ended.stdout
