"""tools/try.sh with a pretended `rt`: the job is looked at before any proof, crates are told as they come, refusals in words."""

import os
import pathlib
import subprocess
import sys

sys.dont_write_bytecode = True
sys.path[:0] = [str(pathlib.Path(__file__).resolve().parents[1])]

from pretended import TOP, in_folder, run_parts  # noqa: E402
from job_bytes import record_in  # noqa: E402
from refusals import WORDS, mending  # noqa: E402
from second_program.curve import Curve  # noqa: E402
from second_program.job_cases import job_of  # noqa: E402
from second_program.path_data import curvesvg_text  # noqa: E402

CRATES = "# what is listed\ngrid: refusal\nother: grid\nrefusal:\nclampcheck: io grid refusal\ncurvesvg: io refusal\n"
CALLS = "lib in refusal\nlib in grid\nrun in clampcheck\n"
PROVES = "printf '%s in %s\\n' \"$*\" \"${PWD##*/}\" >>../../calls"
FAILS = "; [ ${PWD##*/} != grid ] || { printf 'error: a fact fails\\n' >&2; exit 1; }"
WAITS = "[ ${PWD##*/} = grid ] || exit 0; n=0; while [ ! -e ../../go ]; do n=$((n+1)); [ $n -lt 200 ] || exit 1; sleep 0.05; done"
ADVICE = "    python3 tools/job.py make 'my sign.txt' 'my sign.job'\n    tools/try.sh%s 'my sign.job'\n"
SAMPLE = (TOP / "examples" / "sign.job").read_bytes()
SAMPLE_TEXT = b"""curve degree 3 points 12 spans 9
clamp 1 may meet 0..10
clamp 2 may meet 10..20
clamp 2 may meet 20..30
clamp 2 may meet 30..40
clamp 2 may meet 40..50
clamp 3 may meet 10..20
clamp 4 clear
clamp 5 may meet 80..90
"""
CUT = "byte 240: here the contents of clamp 5 go on, 1 byte more, found the end\n"
TAGGED = "byte 4: here the knots begin with tag 2, found 7\n"
MORE = "python3 tools/job.py explain cut.job shows what stands at which byte\n"
PATH = curvesvg_text(record_in(SAMPLE)).encode()
UNCUT = job_of(Curve(2, [0, 0, 0, 2, 4, 4, 4], [0, 4, 8, 12], [0, 7, 8, 0]), [])
OLD = "byte 141: here the cutter's radius begins with tag 6, found 5\n%s\n" % mending("cut.job")


@in_folder
def look(folder):
    """What is no job at a glance is told of in words, and `rt` is not started."""
    folder.pretend_kit("printf started >started; exit 1")
    (folder.top / "empty.job").write_bytes(b"")
    (folder.top / "my sign.txt").write_text("degree 1\n")
    (folder.top / "wide.txt").write_bytes("degree 1\n".encode("utf-16"))
    for name, words in (
        ("none.job", "none.job: No such file or directory"),
        ("tools", "tools: Is a directory"),
        ("empty.job", "empty.job is empty. A job is made of a description such as examples/sign.txt: python3 tools/job.py make"),
        ("my sign.txt", "my sign.txt is UTF-8 text, not a job. Make a job of it, and try that:\n" + ADVICE % ""),
        ("wide.txt", "wide.txt is UTF-16 text, not a job. Make a job of it"),
    ):
        ended = folder.run("tools/try.sh", name)
        assert (ended.returncode, ended.stdout) == (3, b"") and words in ended.stderr.decode(), "%s: %r" % (name, ended)
        assert not (folder.top / "started").exists(), "%s: a proof was started" % name
    ended = folder.run("tools/try.sh", "--svg", "my sign.txt")
    assert ended.returncode == 3 and (ADVICE % " --svg") in ended.stderr.decode(), "the advice goes another way: %r" % ended
    assert folder.run("tools/try.sh", "a", "b").returncode == 3
    ended = folder.run("tools/try.sh", "--svg", "a", "b")
    assert ended.returncode == 3 and b"Give one job: tools/try.sh --svg [JOB]" in ended.stderr, ended
    assert not (folder.top / "started").exists(), "a proof was started"


@in_folder
def prove(folder):
    """Each crate behind those that it stands on, with a line for each; a failure shows what `rt` printed last, and no answer."""
    folder.pretend_program("cat >/dev/null; cat sign.out")
    (folder.top / "sign.out").write_bytes(SAMPLE_TEXT)
    folder.list_crates(CRATES)
    folder.pretend_kit(PROVES)
    ended = folder.run("tools/try.sh")
    lines = ended.stderr.decode().splitlines()
    assert (ended.returncode, ended.stdout) == (0, SAMPLE_TEXT), ended
    assert lines[1:] == ["proved refusal (1 of 3)", "proved grid (2 of 3)", "proved clampcheck (3 of 3)", "clampcheck < examples/sign.job"], lines
    assert (folder.top / "calls").read_text() == CALLS, (folder.top / "calls").read_text()
    folder.pretend_kit(PROVES + FAILS)
    ended = folder.run("tools/try.sh")
    assert (ended.returncode, ended.stdout) == (3, b""), "an answer without a proof"
    assert b"(1 of 3)\nerror: a fact fails\ngrid is not proved: rt lib ended with status 1.\n" in ended.stderr, ended.stderr
    (folder.kit / "rt").unlink()
    ended = folder.run("tools/try.sh")
    assert ended.returncode == 3 and b"The Rattle kit (rt) is not on the PATH." in ended.stderr


@in_folder
def proved_before(folder):
    """A program that is newer than all files of its crates is not proved again; one that is older than any of them, or not there, is."""
    (folder.top / "sign.out").write_bytes(SAMPLE_TEXT)
    folder.list_crates(CRATES)
    folder.pretend_kit(PROVES)
    folder.pretend_program("cat >/dev/null; cat sign.out")
    at = folder.built().stat().st_mtime_ns
    for changed, later, starts in (
        (folder.source("grid"), -1, False),
        (folder.source("grid"), 0, True),
        (folder.source("grid"), 1, True),
        (folder.source("grid").parent, 1, True),
        (folder.source("other"), 1, False),
        (folder.top / "crates.txt", 1, True),
    ):
        for path in (folder.top / "crates.txt", *(folder.top / "crates").glob("*/src"), *(folder.top / "crates").glob("*/src/*")):
            os.utime(path, ns=(at - 10**9, at - 10**9))
        os.utime(changed, ns=(at + later * 10**9, at + later * 10**9))
        ended = folder.run("tools/try.sh")
        assert (ended.returncode, ended.stdout) == (0, SAMPLE_TEXT), ended
        assert ("clampcheck is proved and built: it is newer than all files of its 3 crates." in ended.stderr.decode()) != starts, (changed, ended.stderr)
        assert (folder.top / "calls").exists() == starts, "%s, %d s later than the program" % (changed, later)
        if starts:
            (folder.top / "calls").unlink()
    folder.built().unlink()
    ended = folder.run("tools/try.sh")
    assert ended.returncode == 3 and (folder.top / "calls").read_text() == CALLS, "what is not there counts as newer: %r" % ended


@in_folder
def at_once(folder):
    """The first crate is told of while the second is still being proved."""
    folder.pretend_program("cat >/dev/null; cat sign.out")
    (folder.top / "sign.out").write_bytes(SAMPLE_TEXT)
    folder.list_crates(CRATES)
    folder.pretend_kit(WAITS)
    with subprocess.Popen(["tools/try.sh"], cwd=folder.top, env={"PATH": folder.path()}, stdout=subprocess.PIPE, stderr=subprocess.PIPE) as child:
        seen = [child.stderr.readline(), child.stderr.readline()]
        (folder.top / "go").write_text("")
        child.stderr.read()
    assert seen[1] == b"proved refusal (1 of 3)\n" and child.returncode == 0, "the crates are told of only at the end: %r" % seen


@in_folder
def refusal(folder):
    """A refusal is told in words, with what is wrong in the job."""
    for job, said, words in (
        (SAMPLE[:-1], "refused 16 at 240", "the file ends before the job does: it is cut short, or empty\n" + CUT + MORE),
        (SAMPLE[:4] + b"\7" + SAMPLE[5:], "refused 19 at 4", "a part of the job begins with another tag than belongs there\n" + TAGGED + MORE),
        (SAMPLE[:141] + SAMPLE[146:], "refused 19 at 141", "a part of the job begins with another tag than belongs there\n" + OLD),
    ):
        folder.pretend_program("cat >/dev/null; printf '%s\\n'" % said)
        folder.pretend_kit(PROVES)
        (folder.top / "cut.job").write_bytes(job)
        ended = folder.run("tools/try.sh", "cut.job")
        assert (ended.returncode, ended.stdout.decode()) == (2, "%s: %s" % (said, words)), ended
    folder.pretend_program("cat >/dev/null; printf 'curve degr'")
    folder.pretend_kit(PROVES)
    ended = folder.run("tools/try.sh")
    assert (ended.returncode, ended.stdout) == (3, b"") and b"cut off" in ended.stderr, ended


@in_folder
def svg(folder):
    """With --svg the other program is proved, built and run, on the curve alone."""
    folder.pretend_program("exit 1")
    folder.pretend_program("cat >given; cat sign.out", "curvesvg")
    (folder.top / "sign.out").write_bytes(PATH)
    folder.list_crates(CRATES)
    folder.pretend_kit(PROVES)
    ended = folder.run("tools/try.sh", "--svg")
    assert (ended.returncode, ended.stdout) == (0, PATH), ended
    assert ended.stderr.decode().splitlines() == [
        "Proving and building curvesvg, 2 crates; the first time this takes a while.",
        "proved refusal (1 of 2)",
        "proved curvesvg (2 of 2)",
        "curvesvg < the curve in examples/sign.job",
    ], ended.stderr
    assert (folder.top / "calls").read_text() == "lib in refusal\nrun in curvesvg\n", "another crate is proved"
    assert (folder.top / "given").read_bytes() == record_in(SAMPLE) == SAMPLE[:141], "curvesvg is given something else than the record"
    (folder.top / "uncut.job").write_bytes(UNCUT)
    (folder.top / "sign.out").write_bytes(b"refused 11\n")
    ended = folder.run("tools/try.sh", "uncut.job", "--svg")
    words = "refused 11: %s\ncut at knot 2 the curve would have a point between y 7 and y 8\n" % WORDS[11]
    assert (ended.returncode, ended.stdout.decode()) == (2, words), ended
    (folder.top / "sign.out").write_bytes(PATH[:-9])
    ended = folder.run("tools/try.sh", "--svg")
    assert (ended.returncode, ended.stdout) == (3, b"") and b"cut off" in ended.stderr, ended
    folder.pretend_kit("exit 1")
    ended = folder.run("tools/try.sh", "--svg")
    assert ended.returncode == 3 and b"refusal is not proved: rt lib ended with status 1." in ended.stderr, ended


run_parts("tools/try.sh: 8 jobs looked at, 12 proofs, 5 refusals", look, prove, proved_before, at_once, refusal, svg)
