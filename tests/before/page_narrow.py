"""Holds page/narrow.py, which gives a WebAssembly module a 32-bit memory, against modules that are written out here byte by byte.

Each instruction of the memory stands beside what has to stand for it, and each thing that is not known there must be refused.
"""

import sys
from pathlib import Path

TOP = Path(__file__).resolve().parents[2]
sys.dont_write_bytecode = True
sys.path.insert(0, str(TOP / "page"))

import narrow  # noqa: E402

HEAD = "0061736d 01000000"
TYPES = "02 60 02 7e 7e 01 7f 60 00 00"  # two numbers of 64 bits to one of 32, and nothing to nothing
IMPORTS = "01 03 656e76 04 72656164 00 00"  # env.read, a function of the first type
STACK = "01 7e 01 42 80 08 0b"  # a number of 64 bits that may change, 1,024 at the start
EXPORTS = "01 04 6d61696e 00 01"
PIECE = "42 80 08 0b 02 6869"  # "hi" at 1,024, a place of 64 bits
NARROW_PIECE = "41 80 08 0b 02 6869"

# The parameters of the function have the numbers 0 and 1 and its own variable 2, so that 3 is the first that is added.
PARAMETERS_AND_OWN = "01 01 7f"
SAME = {
    "arithmetic": "20 00 20 01 7c a7 0b",
    "constants": "41 28 42 ff80808028 43 28292a2b 44 2829303136373e40 1a 1a 1a 1a 20 02 0b",  # with bytes that would be loads and stores
    "blocks and branches": "02 40 03 7f 41 01 0d 00 0c 01 0b 1a 0b 20 02 04 7e 42 00 05 42 01 0b a7 0b",
    "a table of branches": "02 40 20 02 0e 02 28 00 36 0b 41 00 0b",
    "calls, locals, globals": "23 00 24 00 20 00 22 00 21 01 20 00 20 01 10 28 0f 0b",
    "select and the rest": "20 02 20 02 41 00 1b 45 c0 c1 01 1a 00 0b",
    "saturating": "44 0000000000000000 fc 02 0b",
}
CHANGED = {
    # each load and store, with its type's variable: i32 7f, i64 7e, f32 7d, f64 7c
    **{"load %02x" % code: ("20 00 %02x 03 88 01 0b" % code, "20 00 a7 %02x 03 88 01 0b" % code, "") for code in range(0x28, 0x36)},
    **{
        "store %02x" % code: ("20 00 20 01 %02x 00 04 0b" % code, "20 00 20 01 21 03 a7 20 03 %02x 00 04 0b" % code, kind)
        for code, kind in zip(range(0x36, 0x3F), "7f 7e 7d 7c 7f 7f 7e 7e 7e".split())
    },
    "copy": (
        "20 00 20 01 42 08 fc 0a 00 00 0b",
        "20 00 20 01 42 08 21 03 21 04 a7 20 04 a7 20 03 a7 fc 0a 00 00 0b",
        "7e 7e",
    ),
    "fill": ("20 00 41 00 42 08 fc 0b 00 0b", "20 00 41 00 42 08 21 03 21 04 a7 20 04 20 03 a7 fc 0b 00 0b", "7e 7f"),
    "two stores": (
        "20 00 42 05 37 03 00 20 00 41 05 36 02 00 20 01 42 06 37 03 08 0b",
        "20 00 42 05 21 03 a7 20 03 37 03 00 20 00 41 05 21 04 a7 20 04 36 02 00 20 01 42 06 21 03 a7 20 03 37 03 08 0b",
        "7e 7f",
    ),
}
UNKNOWN = {
    "how large the memory is": "3f 00 0b",
    "growing": "42 01 40 00 0b",
    "a call by its number": "41 00 11 00 00 0b",
    "a select with types": "1c 01 7f 0b",
    "lanes": "fd 00 03 00 0b",
    "threads": "fe 10 02 00 0b",
    "a longer instruction": "fc 0c 00 00 0b",
    "a copy between memories": "fc 0a 01 00 0b",
    "a fill of another memory": "fc 0b 01 0b",
    "a far offset": "20 00 28 02 80 80 80 80 10 0b",
    "another memory's load": "20 00 28 42 01 00 0b",
    "an end in mid-instruction": "20",
}


def number(value):
    made = []
    while value >= 0x80:
        made.append(value & 0x7F | 0x80)
        value >>= 7
    return bytes([*made, value])


def sized(data):
    return number(len(data)) + data


def module(code, piece, memory="01 04 02", imports=IMPORTS, **more):
    """A module with one function that has this code, variables of its own included, and with this piece of data."""
    sections = {1: TYPES, 2: imports, 3: "01 00", 5: memory, 6: STACK, 7: EXPORTS, 12: "01", 10: code, 11: "01 00" + piece}
    sections.update({int(kind[1:]): contents for kind, contents in more.items()})
    made = {kind: bytes.fromhex(contents) if isinstance(contents, str) else contents for kind, contents in sections.items()}
    return bytes.fromhex(HEAD) + b"".join(bytes([kind]) + sized(contents) for kind, contents in made.items())


def body(code, variables=PARAMETERS_AND_OWN):
    return b"\1" + sized(bytes.fromhex(variables + code))


def wide(code="20 02 0b", **more):
    return module(body(code), PIECE, **more)


def narrowed(code, added=""):
    kinds = added.split()
    variables = "%02x 01 7f %s" % (1 + len(kinds), " ".join("01 " + kind for kind in kinds))
    return module(body(code, variables), NARROW_PIECE, memory="01 00 02")


def refusal(given):
    """Why a module is refused, or None."""
    try:
        narrow.narrow(given)
    except narrow.Unknown as fault:
        return str(fault)
    return None


def changes():
    for name, code in SAME.items():
        yield name, code, code, ""
    for name, (code, changed, added) in CHANGED.items():
        yield name, code, changed, added


def refused():
    """What has to be refused, by name."""
    for name, code in UNKNOWN.items():
        yield name, wide(code)
    yield "a narrow memory", wide(memory="01 00 02")
    yield "a memory with a limit", wide(memory="01 05 02 03")
    yield "two memories", wide(memory="02 04 02 04 02")
    yield "a memory of 4 GB and a page", wide(memory="01 04 81 80 04")
    yield "a memory from outside", wide(imports="01 03 656e76 01 6d 02 04 01")
    yield "a table", wide(_4="01 70 00 01")
    yield "pieces of a table", wide(_9="00")
    yield "a function that begins by itself", wide(_8="01")
    yield "data without a place", wide(_11="01 01 02 6869")
    yield "data at a computed place", wide(_11="01 00 23 00 0b 02 6869")
    yield "data far up", wide(_11="01 00 42 80 80 80 80 08 0b 02 6869")
    yield "a body too few", wide(_10="00")
    yield "another head", b"\0asm\2" + wide()[5:]
    yield "half a module", wide()[:-3]


def faults():
    for name, code, changed, added in changes():
        try:
            if narrow.narrow(wide(code)) != narrowed(changed, added):
                yield "%s: not what it has to become" % name
        except narrow.Unknown as fault:
            yield "%s: refused, %s" % (name, fault)
    for name, given in refused():
        if refusal(given) is None:
            yield "%s: not refused" % name
    told = bytes([0]) + sized(sized(b"target_features") + b"\1+\7memory64")
    if narrow.narrow(wide() + told) != narrowed("20 02 0b"):
        yield "words about the module are not left out"


def main():
    found = [*faults()]
    for fault in found:
        print(fault)
    print("page: %d changes of a module and %d refusals, %d faults" % (len([*changes()]), len([*refused()]), len(found)))
    sys.exit(1 if found else 0)


if __name__ == "__main__":
    main()
