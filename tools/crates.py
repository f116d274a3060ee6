"""The crates that crates.txt lists, what each stands on, and whether what was made of some is newer than all their files."""

import program

PARTS = ("src", "specs", "proofs")


def listed():
    """The names that stand behind each crate's own, by its name."""
    found = {}
    for line in (program.TOP / "crates.txt").read_text().splitlines():
        names, colon, stands_on = line.partition("#")[0].partition(":")
        if colon:
            found[names.split()[0]] = stands_on.split()
    return found


def under(name):
    """A crate and all crates that it stands on, each behind those that it stands on itself."""
    crates, found = listed(), []

    def add(crate):
        if crate in crates and crate not in found:
            for below in crates[crate]:
                add(below)
            found.append(crate)

    add(name)
    return found


def files(crate):
    """The files and folders of a crate that a proof of it reads."""
    for part in PARTS:
        yield from [program.TOP / "crates" / crate / part, *(program.TOP / "crates" / crate / part).rglob("*")]


def is_newer(made, crates):
    """Whether something that was made of these crates is there, and newer than crates.txt and every file of theirs."""
    if not made.exists():
        return False
    at = made.stat().st_mtime_ns
    every = [program.TOP / "crates.txt", *(path for crate in crates for path in files(crate))]
    return all(path.stat().st_mtime_ns < at for path in every if path.exists())
