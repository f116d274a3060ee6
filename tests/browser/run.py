"""Tries the page target/page/clampcheck.html in a real browser, opened from its file as a user opens it.

    python3 tests/browser/run.py [FOLDER [TRY ...]]

prints a line for each thing that is tried and leaves pictures of the page in the folder, target/page/seen by default. Tries are named as their
functions are, and all are made where none is named. It is no part of the gate, for the browser is not in the kit: Chromium, in Debian's package
chromium, driven over its debugging port. Texts are held against those of the built programs clampcheck and curvesvg.
"""

import pathlib
import sys
import tempfile
import time

TOP = pathlib.Path(__file__).resolve().parents[2]
sys.dont_write_bytecode = True
sys.path[:0] = [str(TOP / "tools"), str(TOP / "tests")]

import changing  # noqa: E402
import chromium  # noqa: E402
import downloads  # noqa: E402
import files  # noqa: E402
import looking  # noqa: E402
import moving  # noqa: E402
import noticing  # noqa: E402
import program  # noqa: E402
import refusing  # noqa: E402
import right  # noqa: E402
import showing  # noqa: E402
import speed  # noqa: E402
from browser import Browser, Failed, Tab  # noqa: E402
from page import Page  # noqa: E402
from websocket import Closed, WebSocket  # noqa: E402

PAGE = TOP / "target" / "page" / "clampcheck.html"
SEEN = TOP / "target" / "page" / "seen"
OWN = ("blob:", "data:")  # what a page makes itself
PARTS = (showing, moving, changing, files, refusing, looking, speed)


def quiet(page, since):
    """Nothing was complained of, and nothing but the page itself was asked for."""
    right.equal("what the console says", page.tab.complaints(since), [])
    asked = {address for address in page.tab.requests(since) if not address.startswith(OWN)}
    right.equal("what was asked for", asked, {page.address})


def tried(page, attempt, afterwards):
    """Makes one try; its fault in words, or None, and what else it tells."""
    try:
        since = page.tab.now()
        page.open()
        told = attempt(page)
        afterwards(page, since)
        return None, told
    except (AssertionError, Failed, program.NotRun) as fault:
        return str(fault), None


def line(attempt, fault, told, took):
    words = "%s %s: %s" % ("FAULT" if fault else "fine ", attempt.__name__, attempt.__doc__)
    return "%s%s (%.1f s)" % (words, ": %s" % (fault or told) if fault or told else "", took)


def all_tried(page, names):
    """Makes the tries of these names, or all; how many were made and how many are at fault."""
    listed = [(attempt, quiet) for part in PARTS for attempt in part.TRIES]
    listed += [(attempt, lambda page, since: None) for attempt in noticing.TRIES]
    by_name = {pair[0].__name__: pair for pair in listed}
    assert len(by_name) == len(listed) and set(names) <= set(by_name), "the tries are %s" % ", ".join(by_name)
    chosen = [by_name[name] for name in names] or listed
    faults = 0
    for attempt, afterwards in chosen:
        began = time.monotonic()
        fault, told = tried(page, attempt, afterwards)
        faults += fault is not None
        print(line(attempt, fault, told, time.monotonic() - began), flush=True)
    return len(chosen), faults


def main(pictures, names):
    pictures.mkdir(parents=True, exist_ok=True)
    for name in right.unbuilt():
        print("%s is not built: texts are held against the second program's instead" % name)
    with chromium.running() as (port, path), tempfile.TemporaryDirectory() as saved:
        connection = WebSocket(port, path)
        browser = Browser(connection)
        downloads.caught_in(browser, saved)
        count, faults = all_tried(Page(Tab(browser), PAGE.as_uri(), pictures, saved), names)
        connection.close()
    print("%d tried, %d faults" % (count, faults))
    return 1 if faults or not count else 0


if __name__ == "__main__":
    if not PAGE.is_file():
        print("target/page/clampcheck.html is not built")
        sys.exit(2)
    try:
        sys.exit(main(pathlib.Path(sys.argv[1] if len(sys.argv) > 1 else SEEN), sys.argv[2:]))
    except (chromium.NoBrowser, Closed) as fault:
        print(fault)
        sys.exit(2)
