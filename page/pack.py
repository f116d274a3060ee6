"""Packs the page into one file: python3 page/pack.py LIBRARY.wasm CLAMPCHECK.wasm PAGE.html

Style, code, the two WebAssembly modules, the sample and the refusals in words are put where page/index.html says. Each JavaScript module
becomes a function of its own that gives what the module exports, so that names in one module never meet those of another.
"""

import base64
import json
import re
import sys
from pathlib import Path

PAGE = Path(__file__).resolve().parent
TOP = PAGE.parent
sys.dont_write_bytecode = True
sys.path.insert(0, str(TOP / "tools"))

import refusals  # noqa: E402

FIRST = "main"
LIBRARY, PROGRAM = "library-module", "program-module"
KEPT = PAGE / "clampcheck.html"
IMPORT = re.compile(r'^import \{ ([\w, ]+) \} from "\./(\w+)\.mjs";$', re.M)
EXPORT = re.compile(r"^export (?:async )?(?:function|const) (\w+)", re.M)


def source(name):
    return (PAGE / "src" / ("%s.mjs" % name)).read_text(encoding="utf-8")


def in_order(name, found):
    """The modules that this one needs, each before those that need it, and the module itself."""
    for _, needed in IMPORT.findall(source(name)):
        if needed not in found:
            in_order(needed, found)
    if name not in found:
        found.append(name)
    return found


def as_function(name):
    """A module as a function that gives what it exports."""
    text = source(name)
    exported = EXPORT.findall(text)
    body = IMPORT.sub(lambda match: "const { %s } = %s;" % (match[1], match[2]), text)
    body = re.sub(r"^export ", "", body, flags=re.M)
    if re.search(r"^(import|export)\b", body, re.M):
        sys.exit("page/src/%s.mjs: an import or an export that is not understood here" % name)
    return "const %s = (() => {\n%sreturn { %s };\n})();\n" % (name, body, ", ".join(exported))


def code():
    names = in_order(FIRST, [])
    unused = {path.stem for path in (PAGE / "src").glob("*.mjs")} - {*names}
    if unused:
        sys.exit("page/src: nothing needs %s" % ", ".join(sorted(unused)))
    return '<script type="module">\n%s</script>' % "".join(as_function(name) for name in names)


def limits_fault():
    """What differs between the page's limits and the header's."""
    header = (TOP / "include" / "tsaghnobir.h").read_text(encoding="utf-8")
    defined = dict(re.findall(r"^#define TSB_(\w+) (\d+)\b", header, re.M))
    for name, value in re.findall(r"^export const (\w+) = (\d+);$", source("limits"), re.M):
        if defined.get(name) != value:
            return "%s is %s in page/src/limits.mjs and %s in the header" % (name, value, defined.get(name))
    return None


def island(name, text):
    """Some text that the code finds by its id; nothing in it may end the element."""
    if "<" in text:
        sys.exit("%s holds a sign that would end it" % name)
    return '<script type="text/plain" id="%s">%s</script>' % (name, text)


def encoded(contents):
    return base64.b64encode(contents).decode("ascii")


def modules(library, program):
    sample = (TOP / "examples" / "sign.job").read_bytes()
    parts = {LIBRARY: encoded(library), PROGRAM: encoded(program), "sample-job": encoded(sample), "meanings": json.dumps(refusals.WORDS)}
    return "\n".join(island(name, text) for name, text in parts.items())


def module_in(page, name):
    """The module of this name in a packed page."""
    found = re.search(r'<script type="text/plain" id="%s">([A-Za-z0-9+/=]*)</script>' % name, page)
    return base64.b64decode(found[1])


def packed(library, program):
    """The page with these two modules."""
    text = (PAGE / "index.html").read_text(encoding="utf-8")
    puts = {
        "style": "<style>\n%s</style>" % (PAGE / "style.css").read_text(encoding="utf-8"),
        "modules": modules(library, program),
        "code": code(),
    }
    for name, part in puts.items():
        mark = "<!-- put: %s -->" % name
        if text.count(mark) != 1:
            sys.exit("page/index.html has to say once where to put %s" % name)
        text = text.replace(mark, part)
    return text


def main(arguments):
    if len(arguments) != 3:
        sys.exit(__doc__)
    library, program, made = map(Path, arguments)
    fault = limits_fault()
    if fault:
        sys.exit(fault)
    made.write_text(packed(library.read_bytes(), program.read_bytes()), encoding="utf-8")


if __name__ == "__main__":
    main(sys.argv[1:])
