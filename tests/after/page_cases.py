"""Runs the cases of the second program and those worked by hand through the library and clampcheck in WebAssembly, and compares every byte.

The modules are those in the page that members open, page/clampcheck.html, and the ones just built where these are others. Cases go through the modules of the page, page/src/memory.mjs and program.mjs. A driver in JavaScript (tests/page) tells besides where a call changes
what it only reads, or a single number though it is refused. Then the harness itself is tried: in a spoiled run one byte of every answer is wrong, and
so is all that is watched, and each of these must be told. Needs target/page/library.wasm and clampcheck.wasm (after page/build.sh). Where no
JavaScript engine is on the PATH it says so, and that is no fault.
"""

import shutil
import subprocess
import sys
import tempfile
import time
from concurrent.futures import ThreadPoolExecutor
from pathlib import Path

TOP = Path(__file__).resolve().parents[2]
sys.dont_write_bytecode = True
sys.path[:0] = [str(TOP / "tests"), str(TOP / "page")]

import pack  # noqa: E402
from harness.compare import first_difference  # noqa: E402
from harness.run_faults import case_in, run_faults  # noqa: E402
from harness.shapes import EXPORTED, Broken, case_bytes, read_cases  # noqa: E402
from harness.worked import Unreadable, worked_cases  # noqa: E402
from second import ANSWERS, CASES, LEAST_CASES  # noqa: E402
from second_program.vectors import CALLS  # noqa: E402

ENGINE = shutil.which("node") or shutil.which("nodejs")
DRIVER = TOP / "tests" / "page" / "cases.mjs"
BUILT = [TOP / "target" / "page" / name for name in ("library.wasm", "clampcheck.wasm")]
TIMEOUT = 300
# what a spoiled run tells, and of which calls
WATCHED = {
    "a list that is only read was changed": EXPORTED,
    "a list that is only read was changed in memory": EXPORTED,
    "was changed by a call that was refused": [call for call in EXPORTED if call != "check"],  # it has no single number
}


def modules(folder):
    """The two modules of each page: the kept one's, taken out of it into this folder, and the built ones where they are others."""
    page = pack.KEPT.read_text(encoding="utf-8")
    kept = [Path(folder) / module.name for module in BUILT]
    for module, name in zip(kept, (pack.LIBRARY, pack.PROGRAM)):
        module.write_bytes(pack.module_in(page, name))
    same = [module.read_bytes() for module in kept] == [module.read_bytes() for module in BUILT]
    return [kept] if same else [kept, BUILT]


def run(cases, modules, *options):
    """The driver's exit status, what it wrote, and the faults it told, a line for each. A call that does not come back is a fault too."""
    words = [str(word) for word in (ENGINE, DRIVER, *options, *modules)]
    try:
        ended = subprocess.run(words, input=case_bytes(cases), stdout=subprocess.PIPE, stderr=subprocess.PIPE, timeout=TIMEOUT)
    except subprocess.TimeoutExpired as late:
        return 1, late.stdout or b"", ["the driver did not end within %d s" % TIMEOUT]
    return ended.returncode, ended.stdout, ended.stderr.decode("utf-8", "replace").splitlines()


def cut_apart(cases, answers):
    """The answers of a spoiled run one by one: they are as long as the right ones."""
    at = 0
    for case in cases:
        yield case, answers[at : at + len(case.answer)]
        at += len(case.answer)


def comparison_is_blind(cases, spoiled):
    """Where a wrong answer would pass: one byte of each is wrong here."""
    pairs = list(cut_apart(cases, spoiled))
    for call in CALLS:
        chosen = [(case, answer) for case, answer in pairs if case.call == call]
        differs = first_difference([case for case, _ in chosen], b"".join(answer for _, answer in chosen))
        if not differs or not differs.startswith("%s (%s): " % (chosen[0][0].name, call)):
            yield "a wrong byte in every answer of %s is told as %r" % (call, differs)
    missed = sum(case.answer == answer for case, answer in pairs)
    if missed:
        yield "%d answers of a spoiled run are right" % missed


def watch_is_blind(cases, status, faults):
    """Where a call that changes what it must leave alone would pass: a spoiled run tells it of all of them."""
    if status != 1:
        yield "a spoiled run ends with status %d" % status
    for what, calls in WATCHED.items():
        noticed = {case.call for case in (case_in(cases, fault) for fault in faults if fault.endswith(what)) if case}
        for call in calls:
            if call not in noticed:
                yield "a spoiled run of %s does not tell: %s" % (call, what)


def main():
    began = time.monotonic()
    if ENGINE is None:
        print("page: no JavaScript engine here (Debian: nodejs), so the cases were not run in WebAssembly")
        return
    for module in BUILT:
        if not module.is_file():
            sys.exit("%s is not there: page/build.sh builds it" % module.relative_to(TOP))
    try:
        vectors, worked = read_cases(CASES.read_bytes(), ANSWERS.read_bytes()), worked_cases()
    except (Broken, Unreadable) as fault:
        sys.exit(str(fault))
    cases = vectors + worked
    with ThreadPoolExecutor(2) as pool, tempfile.TemporaryDirectory() as folder:
        kept, *others = modules(folder)
        spoiled, *usual = pool.map(lambda words: run(cases, *words), [(kept, "--spoiled"), (kept,), *((other,) for other in others)])
    faults = [fault for ran in usual for fault in run_faults(cases, *ran)]
    if not faults:  # a spoiled run is held to the right answers too, so it shows something only where they are given
        status, answers, told = spoiled
        faults += [*comparison_is_blind(cases, answers), *watch_is_blind(cases, status, told)]
    if len(vectors) < LEAST_CASES:
        faults.append("there are %d cases of the second program" % len(vectors))
    for fault in faults:
        print(fault)
    print(
        "page: %d cases of the second program and %d worked by hand in the WebAssembly of the kept page%s, %d faults, %.0f s"
        % (len(vectors), len(worked), " and of the one just built, which is another" if others else "", len(faults), time.monotonic() - began)
    )
    sys.exit(1 if faults else 0)


if __name__ == "__main__":
    main()
