"""Holds the exports of crates/tsaghnobir_c against the calls of crates/tsaghnobir: each call is exported once under its own name, with the
same parameters and the same clauses in words from the same places, asks nothing of its caller, and its body does nothing but call it."""

import pathlib
import re
import sys

CRATES = pathlib.Path(__file__).resolve().parents[2] / "crates"
FUNCTION = re.compile(r'^((?:#\[[^\n]*\n)*)pub (extern "C" )?fn (\w+)\((.*?)\) -> (\w+)\n(.*?)^\{\n(.*?)^\}$', re.S | re.M)
IMPORT = re.compile(r"^ghost use (\S+?)\.\{(.*?)\};$", re.S | re.M)
WORD = re.compile(r"[^\s(){}\[\];,.]+")


def words(text):
    """A text without its line ends, and without the comma that may stand behind the last of several lines."""
    return re.sub(r",?\s*\)", ")", re.sub(r"\(\s+", "(", " ".join(text.split())))


def meant(clauses, source):
    """Each word of some clauses that the file brings in, with what it stands for."""
    found, cited = set(), set(WORD.findall(clauses))
    for place, listed in IMPORT.findall(source):
        for one in listed.split(","):
            there, _, here = one.strip().partition(" as ")
            if (here or there).strip("◌") in cited:
                found.add((here or there, f"{place}.{there}"))
    return found


def functions(crate):
    """Of each public function of a crate: what stands over it, whether it is C's, its parameters, answer and clauses, what they mean, its body."""
    found = {}
    for path in sorted((CRATES / crate / "src").glob("*.rt")):
        source = path.read_text()
        for over, c, name, parameters, answer, clauses, body in FUNCTION.findall(source):
            said = (words(parameters).rstrip(","), answer, words(clauses))
            found[name] = (over, bool(c), said, meant(clauses, source), words(body))
    return found


def faults_of(name, call, export):
    """What is wrong with an export, given the call of its name."""
    over, c, said, places, body = export
    names = ", ".join(re.findall(r"(\w+):", said[0]))
    if not c or "#[unsafe(no_mangle)]\n" not in over:
        yield f"{name} is not exported to C"
    for part, there, here in zip(("parameters", "answer", "clauses"), call[2], said):
        if there != here:
            yield f"{name} has other {part} than the call: {here}, where that has {there}"
    if call[3] != places:
        yield f"the clauses of {name} take words from other places than the call's: {sorted(call[3] ^ places)}"
    if not said[2].startswith("ensures ") or "requires" in said[2]:
        yield f"{name} promises nothing, or asks something of its caller"
    if body != f"tsaghnobir::{name}({names})":
        yield f"{name} does more than call: {body}"


def main():
    calls, exports = functions("tsaghnobir"), functions("tsaghnobir_c")
    faults = [f"{name} is not in both crates" for name in sorted(calls.keys() ^ exports.keys())]
    for name in sorted(calls.keys() & exports.keys()):
        faults += faults_of(name, calls[name], exports[name])
    for fault in faults:
        print(fault)
    print(f"{len(exports)} exports, {len(faults)} faults")
    return 1 if faults or not exports else 0


if __name__ == "__main__":
    sys.exit(main())
