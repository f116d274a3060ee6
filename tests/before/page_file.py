"""Holds the page that members open, page/clampcheck.html, against its sources: packed anew round its own two modules it has to be the same bytes.

Whether these modules are the library's is for tests/after/page_cases.py, which runs cases on them. The packing itself is tried too: a limit
that is not the header's and a changed source must be told.
"""

import sys
from pathlib import Path

TOP = Path(__file__).resolve().parents[2]
sys.dont_write_bytecode = True
sys.path.insert(0, str(TOP / "page"))

import pack  # noqa: E402


def repacked(page):
    return pack.packed(pack.module_in(page, pack.LIBRARY), pack.module_in(page, pack.PROGRAM))


def faults():
    page = pack.KEPT.read_text(encoding="utf-8")
    if pack.limits_fault():
        yield pack.limits_fault()
    if repacked(page) != page:
        yield "page/clampcheck.html is not what page/pack.py makes of page/ now: run page/build.sh keep"


def unnoticed():
    """Changes of a source that would pass."""
    page, whole = pack.KEPT.read_text(encoding="utf-8"), pack.source
    pack.source = lambda name: whole(name).replace("const COORDINATE_MOST = 262144", "const COORDINATE_MOST = 262145")
    if not pack.limits_fault() or repacked(page) == page:
        yield "a limit that is not the header's is not told"
    pack.source = lambda name: whole(name) + ("// one line more\n" if name == "words" else "")
    if repacked(page) == page:
        yield "a changed source is not told"
    pack.source = whole


def main():
    found = [*faults(), *unnoticed()]
    for fault in found:
        print(fault)
    print("page: the kept page against its sources, %d faults" % len(found))
    sys.exit(1 if found else 0)


if __name__ == "__main__":
    main()
