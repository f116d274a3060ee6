"""tools/clampcheck, tools/curvesvg, tools/try.sh and tools/draw.py with the built programs: each status on real jobs, and the text passed on as it is.

tests/before/tools_status.py and tools_curvesvg.py try the same with programs that die, print nothing, half a line or something else.
"""

import pathlib
import subprocess
import sys
import tempfile

sys.dont_write_bytecode = True
sys.path[:0] = [str(pathlib.Path(__file__).resolve().parents[1])]

from pretended import TOP, Folder  # noqa: E402
from second_program.broken_cases import broken_jobs, broken_records  # noqa: E402
from second_program.broken_radii import broken_radii  # noqa: E402
from second_program.curve import Curve  # noqa: E402
from second_program.cut_curves import large_curve, moved, whole_curve  # noqa: E402
from second_program.dice import Dice  # noqa: E402
from second_program.job_cases import damaged_job, good_job, job_of, longest_job, with_bad_clamp  # noqa: E402
from second_program.path_data import curvesvg_text  # noqa: E402
from second_program.open_curves import spoiled_open_curve  # noqa: E402
from second_program.record import PLACED, Fault, clampcheck_text, record_of, take_job  # noqa: E402

CURVE = Curve(3, [0, 0, 0, 0, 4, 4, 4, 4], [0, 0, 8, 8], [0, 8, 8, 0])
EMPTY = "// Nothing stands here.\n#![tactic(auto)]\n"
ONE_TEXT = """// Prints one text, whatever it is given.
#![tactic(auto)]

use std::io::Write;

fn main(rt: HostRuntime) {
    let mut out = rt.stdout();
    let _ = out.write_all(b"%s");
}
"""


def jobs():
    """Jobs with names, of every status."""
    yield "no clamps", job_of(CURVE, [])
    yield "no radius", record_of(CURVE)
    yield "a clamp that the cutter does not reach", job_of(CURVE, [(11, 20, -9, -4)], 3)
    yield "a clamp that the cutter may reach", job_of(CURVE, [(11, 20, -9, -4)], 5)
    yield "clear clamps", job_of(CURVE, [(9, 12, 0, 4), (0, 8, 9, 10)])
    yield "64 clear clamps", job_of(CURVE, [(9, 12, 0, 4)] * 64)
    yield "a clamp that may be met", job_of(CURVE, [(9, 12, 0, 4), (8, 10, 8, 9)])
    yield "no bytes", b""
    yield "the longest job", longest_job(Dice(7))
    yield "one byte more", longest_job(Dice(7)) + b"\5"
    yield "far too much", bytes(10**6)
    dice = Dice(99)
    for k in range(1, 8):
        yield "refusal %d" % k, job_of(spoiled_open_curve(dice, k, byte=True), [])
    yield "refusal 14", job_of(*with_bad_clamp(dice))
    yield "refusal 22", job_of(CURVE, [(9, 12, 0, 4)], 4097)
    for number, place, job in [*list(broken_jobs(dice))[::17], *list(broken_radii(dice))[::17]]:
        yield "refusal %d at %d" % (number, place), job
    for k in range(6):
        yield "job %d" % k, job_of(*good_job(dice, 3))
        yield "damaged job %d" % k, damaged_job(dice)


def curves():
    """Records with names, alone and in jobs, of every refusal: curves that can be cut and that cannot, and bytes that are no record."""
    dice = Dice(98)
    for k in range(9):
        curve = whole_curve(dice, 1 + k % 3)
        yield "curve %d" % k, record_of(curve) if k % 2 else job_of(curve, [(0, 1, 0, 1)] * k, 150)
        yield "curve %d, a point moved" % k, record_of(moved(dice, curve))
    for k in range(1, 8):
        yield "refusal %d" % k, record_of(spoiled_open_curve(dice, k, byte=True))
    yield "a point between grid lines", record_of(Curve(2, [0, 0, 0, 2, 4, 4, 4], [0, 4, 8, 12], [0, 7, 8, 0]))
    yield "a full curve", record_of(large_curve(dice, 3, 341, 1024))
    yield "a curve that gets full", record_of(large_curve(dice, 2, 510, 1023))
    yield "the longest job", longest_job(Dice(7))
    yield "one byte more", longest_job(Dice(7)) + b"\5"
    yield "a clamp behind a record", record_of(CURVE) + job_of(CURVE, [(9, 12, 0, 4)])[66:]
    yield "no bytes", b""
    for number, place, record in list(broken_records(dice))[::29]:
        yield "record with fault %d at %d" % (number, place), record


def right(job):
    """The status and the text that the second program tells of clampcheck."""
    number, text = clampcheck_text(job)
    return 2 if number else 1 if "may meet" in text else 0, text


def right_path(data):
    """The same of curvesvg on the record in a job, or on all of what is no job."""
    try:
        data = record_of(take_job(data)[0])
    except Fault:
        pass
    text = curvesvg_text(data)
    return 2 if text.startswith("refused ") else 0, text


def real(tool, files, told):
    """Each file has its status and its text; the statuses and the numbers of refusal that were met."""
    seen = set()
    for name, data in files:
        status, text = told(data)
        ended = subprocess.run([TOP / "tools" / tool], input=data, capture_output=True, timeout=60)
        assert (ended.returncode, ended.stdout.decode()) == (status, text), "%s: %r" % (name, ended)
        assert (status == 2) == ended.stderr.startswith(text.encode()[:-1] + b": "), "%s: %r" % (name, ended.stderr)
        seen |= {status, int(text.split()[1]) if status == 2 else 0}
    missing = subprocess.run([TOP / "tools" / tool, "/nowhere/sign.job"], capture_output=True)
    assert missing.returncode == 3 and not missing.stdout, "a missing file: %r" % missing
    return seen


def unbuilt():
    """Beside a copy of the tools there is no program."""
    with tempfile.TemporaryDirectory() as place:
        folder = Folder(place)
        for tool in ("tools/clampcheck", "tools/curvesvg"):
            ended = folder.run(tool, "examples/sign.job")
            assert ended.returncode == 3 and b"is not there" in ended.stderr, ended


def tried(name, told, *words):
    """What the gate has just proved and built is not proved again."""
    ended = subprocess.run([TOP / "tools" / "try.sh", *words], capture_output=True, timeout=60)
    assert ended.stderr.startswith(b"%s is proved and built: " % name.encode()), ended
    sample = (TOP / "examples" / "sign.job").read_bytes()
    assert (ended.returncode, ended.stdout.decode()) == (0, told(sample)[1]), ended


def tried_anew():
    """tools/try.sh with the real kit on a clampcheck that prints one text: it is proved and built with the crate below it, one after the other, and run."""
    text = right((TOP / "examples" / "sign.job").read_bytes())[1]
    with tempfile.TemporaryDirectory() as place:
        folder = Folder(place)
        top = folder.top
        folder.list_crates("empty:\nclampcheck: empty\n")
        folder.source("empty").write_text(EMPTY)
        folder.source("clampcheck").unlink()
        folder.source("clampcheck").with_name("main.rt").write_text(ONE_TEXT % text.replace("\n", "\\n"))
        ended = subprocess.run([top / "tools" / "try.sh"], capture_output=True, timeout=600)
        lines = ended.stderr.decode().splitlines()
        assert (ended.returncode, ended.stdout.decode()) == (0, text), ended
        assert lines[1:] == ["proved empty (1 of 2)", "proved clampcheck (2 of 2)", "clampcheck < examples/sign.job"], lines


def drawn():
    """tools/draw.py runs both programs itself."""
    with tempfile.TemporaryDirectory() as place:
        made = pathlib.Path(place, "sign.svg")
        subprocess.run([sys.executable, "-B", TOP / "tools" / "draw.py", TOP / "examples" / "sign.job", made], check=True, timeout=60)
        assert made.read_bytes() == (TOP / "examples" / "sign.svg").read_bytes(), "the picture is another one"


met = real("clampcheck", jobs(), right)
assert met >= {0, 1, 2, 22, *PLACED}, "a status or a refusal of clampcheck is not reached: %s" % met
met = real("curvesvg", curves(), right_path)
assert met >= {0, 1, 2, 3, 4, 5, 6, 7, 10, 11, *PLACED}, "a status or a refusal of curvesvg is not reached: %s" % met
unbuilt()
tried("clampcheck", right)
tried("curvesvg", right_path, "--svg")
tried_anew()
drawn()
print("tools/clampcheck: %d jobs; tools/curvesvg: %d curves; missing files and programs" % (len(list(jobs())), len(list(curves()))))
