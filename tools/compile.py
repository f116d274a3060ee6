"""Compiles a crate that `rt` proves, the archive's or a program's, for those who want more of it than `rt ci` leaves:

    python3 tools/compile.py CRATE FILE [TOOLCHAIN]

FILE becomes the archive of a static library, or the object file of a program; one that is newer than all that it is made of is left as it is. TOOLCHAIN is a
folder that stands in for the kit's own. The crate is proved over the libraries below it as `rt ci` left them, in some ten seconds. Where it left none, or
they are older than their sources, `rt check` proves them first.
"""

import os
import pathlib
import subprocess
import sys

import crates
import program


def library(crate):
    """Where `rt` leaves a library for the crates above it."""
    return program.TOP / "crates" / crate / "out" / "rlib" / (crate + ".rlib")


def left_by_gate(below):
    """Whether `rt ci` left all these libraries, and no file of theirs has changed since. Those with a stamp are `rt check`'s own, and it judges them itself."""
    return all(not library(one).with_name("stamp").exists() and crates.is_newer(library(one), [one]) for one in below)


def words(kit, crate, below, made, toolchain):
    """The command that proves the crate over the libraries below it and compiles it."""
    stands_on = crates.listed()[crate]
    is_program = (program.TOP / "crates" / crate / "src" / "main.rt").is_file()
    yield from (kit / "bin" / "rattle", "build", "--crate-name", crate, "src/main.rt" if is_program else "src/lib.rt")
    yield from ("--extern", "std=%s" % (kit / "rlibs" / "std.rlib"), "-L", "dependency=%s" % (kit / "rlibs"))
    for one in stands_on:
        yield from ("--extern", "%s=%s" % (one, library(one) if one in below else kit / "rlibs" / (one + ".rlib")))
    for one in below:
        yield from ("-L", "dependency=%s" % library(one).parent)
    yield from ("--antt-project", kit / "rattle" / "logic" / "antt-project.json", "--logic-built", kit / "logic_built")
    yield from ("--jobs", min(2, os.cpu_count() or 1), "--links", "%s=" % crate)
    if not is_program:
        yield from ("--crate-type", "staticlib")
    yield from ("--toolchain", toolchain or kit / "toolchain", "--backend", "llvm", "-o", made)


def compiled(crate, made, toolchain=None):
    """Makes the file where it is not there or is old; the status to end with."""
    every = crates.under(crate)
    if crates.is_newer(made, every):
        return 0
    kit, folder, below = program.kit(), program.TOP / "crates" / crate, every[:-1]
    if not left_by_gate(below):
        checked = subprocess.run(["rt", "check"], cwd=folder, stdout=sys.stderr)
        if checked.returncode:
            return checked.returncode
    made.parent.mkdir(parents=True, exist_ok=True)
    ran = subprocess.run([str(word) for word in words(kit, crate, below, made, toolchain)], cwd=folder, stdout=subprocess.PIPE, stderr=subprocess.STDOUT, text=True)
    if ran.returncode:
        sys.stderr.write(ran.stdout)
    return ran.returncode


def main(arguments):
    if len(arguments) not in (2, 3) or arguments[0] not in crates.listed():
        sys.exit(__doc__)
    crate, *paths = arguments
    try:
        return compiled(crate, *(pathlib.Path(path).resolve() for path in paths))
    except program.NotBuilt as fault:
        sys.exit(str(fault))


if __name__ == "__main__":
    sys.exit(main(sys.argv[1:]))
