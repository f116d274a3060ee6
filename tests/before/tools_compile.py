"""tools/compile.py with a pretended kit: what is proved before it compiles, the words that it compiles with, and what is left as it is."""

import pathlib
import sys

sys.dont_write_bytecode = True
sys.path[:0] = [str(pathlib.Path(__file__).resolve().parents[1])]

from pretended import in_folder, run_parts  # noqa: E402

CRATES = "other:\nlow:\nhigh: low\ndoor staticlib: high json # an archive\nprogram: low\n"
RT = 'case $1 in doc) echo "$0-page" ;; *) echo "$* in ${PWD##*/}" >>../../calls; [ ! -e ../../unproved ] ;; esac'
RATTLE = 'echo built >>../../calls; printf "%s\\n" "$@" >../../words; echo a fact fails; [ ! -e ../../wrong ] || exit 7; for made; do :; done; echo made >"$made"'
EXPECTED = """build
--crate-name
door
src/lib.rt
--extern
std=KIT/rlibs/std.rlib
-L
dependency=KIT/rlibs
--extern
high=TOP/crates/high/out/rlib/high.rlib
--extern
json=KIT/rlibs/json.rlib
-L
dependency=TOP/crates/low/out/rlib
-L
dependency=TOP/crates/high/out/rlib
--antt-project
KIT/rattle/logic/antt-project.json
--logic-built
KIT/logic_built
--jobs
JOBS
--links
door=
--crate-type
staticlib
--toolchain
KIT/toolchain
--backend
llvm
-o
TOP/made/libdoor.a
"""


def begun(folder):
    """Crates from second 10, libraries of `rt ci` from second 20."""
    folder.pretend_kit(RT)
    folder.script(folder.kit / "bin" / "rattle", RATTLE)
    folder.list_crates(CRATES)
    folder.change(folder.top / "crates.txt", 10, CRATES)
    for name in ("other", "low", "high", "door", "program"):
        folder.change(folder.source(name), 10)
        folder.change(folder.top / "crates" / name / "out" / "rlib" / (name + ".rlib") / "format", 20)
    folder.source("program").rename(folder.source("program").with_name("main.rt"))


def compiled(folder, *words):
    """Status, what was begun, and what was said, of one call."""
    calls = folder.top / "calls"
    calls.write_text("")
    ended = folder.run("python3", "tools/compile.py", *words)
    return ended.returncode, calls.read_text(), ended.stderr.decode()


ARCHIVE = ("door", "made/libdoor.a")
COMPILED, CHECKED = "built\n", "check in door\nbuilt\n"


@in_folder
def words(folder):
    """The archive's and a program's, with the kit's toolchain or another."""
    begun(folder)
    assert compiled(folder, *ARCHIVE) == (0, COMPILED, ""), "an archive"
    said = (folder.top / "words").read_text().splitlines()
    said[said.index("--jobs") + 1] = "JOBS"
    said = "".join(line + "\n" for line in said).replace(str(folder.kit), "KIT").replace(str(folder.top), "TOP")
    assert said == EXPECTED, said
    assert (folder.top / "made" / "libdoor.a").read_text() == "made\n"
    assert compiled(folder, "program", "made/program.o", "tools") == (0, COMPILED, "")
    said = (folder.top / "words").read_text()
    assert "\nsrc/main.rt\n" in said and "--crate-type" not in said and "\n--toolchain\n%s\n" % (folder.top / "tools") in said, said
    assert "high" not in said and said.endswith("-o\n%s\n" % (folder.top / "made" / "program.o")), said


@in_folder
def proved_first(folder):
    """`rt check` begins where `rt ci` left no library, or an older one, or where `rt check` made one itself."""
    begun(folder)
    low = folder.top / "crates" / "low" / "out" / "rlib"
    for path, at, right in (
        (folder.source("low"), 19, COMPILED),
        (folder.source("low"), 20, CHECKED),
        (folder.source("low"), 10, COMPILED),
        (folder.source("low").parents[1] / "specs" / "Lib.antt", 21, CHECKED),
        (folder.source("low").parents[1] / "specs" / "Lib.antt", 10, COMPILED),
        (folder.source("door"), 30, COMPILED),
        (folder.source("other"), 30, COMPILED),
        (low / "stamp", 20, CHECKED),
    ):
        (folder.top / "made" / "libdoor.a").unlink(missing_ok=True)
        folder.change(path, at)
        assert compiled(folder, *ARCHIVE) == (0, right, ""), "%s at %d" % (path, at)
    (low / "stamp").unlink()
    (low / "low.rlib").rename(low / "lost")
    (folder.top / "made" / "libdoor.a").unlink()
    assert compiled(folder, *ARCHIVE) == (0, CHECKED, ""), "a library that is not there"


@in_folder
def left(folder):
    """What is newer than all files of its crates is left as it is; of what fails nothing is made."""
    begun(folder)
    made = folder.top / "made" / "libdoor.a"
    for name, at, right in (("low", 29, ""), ("low", 30, CHECKED), ("door", 29, ""), ("door", 30, COMPILED), ("other", 31, "")):
        folder.change(made, 30, "old")
        folder.change(folder.source(name), at)
        assert compiled(folder, *ARCHIVE) == (0, right, ""), "%s at %d" % (name, at)
        assert (made.read_text() == "old") == (right == ""), "%s at %d" % (name, at)
        folder.change(folder.source(name), 10)
    made.unlink()
    (folder.top / "wrong").write_text("")
    assert compiled(folder, *ARCHIVE) == (7, COMPILED, "a fact fails\n") and not made.exists(), "a crate that is not proved"
    (folder.top / "unproved").write_text("")
    folder.change(folder.source("low"), 99)
    assert compiled(folder, *ARCHIVE) == (1, "check in door\n", "") and not made.exists(), "a library that is not proved"
    assert compiled(folder, "none", "made/none.a")[:2] == (1, "") and compiled(folder, "door")[:2] == (1, ""), "words that it does not know"
    (folder.kit / "rt").unlink()
    (folder.top / "unproved").unlink()
    for at in (10, 99):
        folder.change(folder.source("low"), at)
        status, begun_by, said = compiled(folder, *ARCHIVE)
        assert (status, begun_by) == (1, "") and "not on the PATH" in said and "Traceback" not in said, said


run_parts("tools/compile.py: the words of 2 crates, 9 states of the libraries below, 11 of what is made", words, proved_first, left)
