"""Builds the driver of tests/driver over the header and the archive, and runs cases through it."""

import subprocess
from pathlib import Path

from .shapes import case_bytes

TOP = Path(__file__).resolve().parents[2]
SOURCES = sorted((TOP / "tests" / "driver").glob("*.c"))
BUILT = TOP / "target" / "c" / "driver"
TIMEOUT = 300  # a run takes some seconds, and more with other scripts beside it


class Failed(Exception):
    """The driver could not be built or started."""


def build():
    words = [TOP / "examples" / "c" / "build.sh", "driver", *SOURCES]
    ended = subprocess.run([str(word) for word in words], stdout=subprocess.PIPE, stderr=subprocess.STDOUT, text=True)
    if ended.returncode != 0:
        raise Failed("the driver was not built (status %d):\n%s" % (ended.returncode, ended.stdout))


def run(word, cases=()):
    """The driver's exit status, what it wrote, and the faults it told, a line for each. A call that does not come back is a fault too."""
    try:
        ended = subprocess.run([str(BUILT), word], input=case_bytes(cases), stdout=subprocess.PIPE, stderr=subprocess.PIPE, timeout=TIMEOUT)
    except subprocess.TimeoutExpired as late:
        return 1, late.stdout or b"", ["the driver did not end within %d s" % TIMEOUT]
    return ended.returncode, ended.stdout, ended.stderr.decode("utf-8", "replace").splitlines()
