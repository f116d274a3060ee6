"""The archive asks two functions of its caller's C library, memcpy and memset, and nothing else from outside: a controller's program that brings these two links
with it. Needs the crates proved (after `rt ci`)."""

import pathlib
import struct
import subprocess
import sys

TOP = pathlib.Path(__file__).resolve().parents[2]
ARCHIVE = TOP / "target" / "staticlib" / "libtsaghnobir.a"
ASKED = {"memcpy", "memset"}
MAGIC, HEAD = b"!<arch>\n", 60  # an archive's first bytes, and those in front of each of its members
SYMBOLS, UNDEFINED = 2, 0  # the type of a section of symbols, and the section of a symbol that stands in none


def members(data):
    """The files in an archive."""
    at = len(MAGIC)
    while at + HEAD <= len(data):
        size = int(data[at + 48 : at + 58])
        yield data[at + HEAD : at + HEAD + size]
        at += HEAD + size + size % 2


def outside(file):
    """The names that an object file of 64 bits asks from outside."""
    sections_at, size, count = struct.unpack_from("<Q10xHH", file, 40)
    sections = [struct.unpack_from("<IIQQQQIIQQ", file, sections_at + k * size) for k in range(count)]
    for section in sections:
        if section[1] != SYMBOLS:
            continue
        names = sections[section[6]][4]
        for at in range(section[4], section[4] + section[5], section[9]):
            name, place = struct.unpack_from("<IxxH", file, at)
            if name and place == UNDEFINED:
                yield file[names + name : file.index(0, names + name)].decode()


def main():
    subprocess.run([TOP / "tools" / "archive.sh"], check=True, timeout=1800)
    data = ARCHIVE.read_bytes()
    assert data.startswith(MAGIC)
    asked = {name for file in members(data) if file.startswith(b"\x7fELF") for name in outside(file)}
    for name in sorted(asked ^ ASKED):
        print("%s is asked from outside" % name if name in asked else "%s is not asked from outside any more" % name)
    print("the archive asks from outside: %s; %d faults" % (", ".join(sorted(asked)), len(asked ^ ASKED)))
    return int(asked != ASKED)


if __name__ == "__main__":
    sys.exit(main())
