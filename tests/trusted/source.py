"""The definitions of the crates, cut out of their files: for each its lines, and where the names that it cites stand."""

import functools
import pathlib
import re

TOP = pathlib.Path(__file__).resolve().parents[2]
CRATES = TOP / "crates"
DEFINED = re.compile(r"^(?:(?:unfoldable|abbrev|pub) )+(?:(?:record|data) )?([^\s:({]+)")
USE = re.compile(r"^(?:ghost )?use (Rattle\.\S+?)(?:\.\{(.*?)\}| as (\S+?))?;?$", re.M)
WORD = re.compile(r"[^\s(){};,.\"]+")


def place_of(module):
    """The file that a module's name means, below crates/; or, of a declared type, the crate's sources and the type."""
    crate, *parts = module.removeprefix("Rattle.").split(".")
    crate = crate.removesuffix("·specs")
    parts = [part for part in parts if part != "specs"]
    if parts[:1] == ["declared"]:
        return f"{crate}/src", parts[1]
    return (f"{crate}/specs/{parts[0]}.antt", None) if len(parts) == 1 else (None, None)


@functools.cache
def imports(path):
    """What a file's `use` lines bring in: the name here, and its file and name there. A name of a whole file brings its file."""
    names, files = {}, {}
    for module, listed, alias in USE.findall((CRATES / path).read_text()):
        file, declared = place_of(module)
        if file is None:
            continue
        for one in listed.split(",") if listed else ():
            there, _, here = one.strip().partition(" as ")
            names[here or there] = (file, declared or there)
        if alias:
            files[alias] = file
    return names, files


@functools.cache
def head(path):
    """The comment at the top of a file of definitions: it says what the file is for."""
    lines = (CRATES / path).read_text().splitlines()
    return lines[: next((k for k, line in enumerate(lines) if not line.startswith("-- ")), len(lines))]


@functools.cache
def definitions(path):
    """Each definition of a file: its comment, its type and its clauses, without blank lines."""
    found, comment, current = {}, [], None
    for line in (CRATES / path).read_text().splitlines()[len(head(path)) :]:
        if not line.strip() or line.startswith("use "):
            continue
        name = DEFINED.match(line)
        if line.startswith("-- "):
            comment.append(line)
        elif name:
            current = found.setdefault(name[1], [])
            current += comment + [line]
            comment = []
        else:
            current += comment + [line]
            comment = []
    return found


def declaration(folder, name):
    """The lines of a struct or an enum that a crate's source declares, with what stands over it."""
    for path in sorted((CRATES / folder).rglob("*.rt")):
        shown = re.search(rf"(?:^// .*\n)*(?:^#\[.*\]\n)*^pub (?:struct|enum) {name} \{{\n(.*\n)*?^\}}", path.read_text(), re.M)
        if shown:
            return shown[0].splitlines()
    return []


def contracts(crate):
    """Of each public function of a crate, the lines of its `ensures`, and the file that they stand in."""
    for path in sorted((CRATES / crate / "src").rglob("*.rt")):
        text = path.read_text()
        for shown in re.finditer(r"^pub (?:extern \"C\" )?fn (\w+)(?:.|\n)*?^\{", text, re.M):
            clauses = re.search(r"^    ensures(?:.|\n)*(?=^\{)", shown[0], re.M)
            yield path.relative_to(CRATES).as_posix(), shown[1], clauses[0].splitlines() if clauses else []
