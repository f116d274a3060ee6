"""Brings the names of definitions and laws to today's spelling: values in snake_case, statements with a capital. Run it at the top of the checkout.

    python3 tools/spell_names.py          writes the files anew and says how many words in how many files turned
    python3 tools/spell_names.py table    only lists each word and what it becomes, and the words that fall together

The table of words is made from the code of the crates, without comments and strings; it is then used on code, comments, the lines `old:`, `new:` and
`#` of must-fail edits, and what stands between backticks in the pages. Names of functions, exported names, strings and files stay as they are:
none of them has a capital inside. A second run changes nothing.
"""

import pathlib
import re
import sys

WORD = re.compile(r"(?<![\w'-])[a-z_][\w']*(?:-[\w']+)*(?![\w'-])")
HUMP = re.compile(r"([a-z0-9'])([A-Z])")
SAID = re.compile(r"`[^`\n]+`")
# code apart from what is no code; a `--` in a definition is a comment only where no word or sign touches it
RATTLE = re.compile(r"//[^\n]*|b?\"(?:\\.|[^\"\\])*\"|b?'(?:\\.|[^'\\\n])'")
ANTT = re.compile(r"(?:^|(?<=\s))--(?=\s|$)[^\n]*|\"(?:\\.|[^\"\\\n])*\"", re.M)
COMMENT = ("//", "--")
STATEMENTS = ("atMost", "notWhole")  # parts of names that tell a fact, which other names write with a capital
PAGES = ("README.md", "CONTRIBUTING.md", "CHANGELOG.md", "docs/*.md", "docs/changes/*.md")
# a local name that the new spelling of an import would meet gets another one first
LOCAL = "all_whole"
LOCALS = {"crates/clamping/proofs/AxisStayLaws.antt": "each_whole", "crates/ends_exact/proofs/ClampLaws.antt": "each_whole"}


def sources(top):
    for path in sorted((top / "crates").rglob("*")):
        if path.suffix in (".rt", ".antt") and "out" not in path.relative_to(top).parts[2:3]:
            yield path


def parted(path, text):
    """A source in parts: code as (True, text), comments and strings as (False, text)."""
    pattern, at = RATTLE if path.suffix == ".rt" else ANTT, 0
    for found in pattern.finditer(text):
        yield True, text[at : found.start()]
        yield False, found[0]
        at = found.end()
    yield True, text[at:]


def respelt(word):
    parts = []
    for part in word.split("-"):
        if part in STATEMENTS:
            part = part[0].upper() + part[1:]
        elif part[0].islower():
            part = HUMP.sub(r"\1_\2", part)
            part = re.sub(r"_[A-Z]", lambda found: found[0].lower(), part)
        parts.append(part)
    return "-".join(parts)


def words(top):
    """Each word of the code that turns, with what it becomes; and all words of the code, each with the files that it stands in."""
    table, files = {}, {}
    for path in sources(top):
        for is_code, part in parted(path, path.read_text(encoding="utf-8")):
            for word in WORD.findall(part) if is_code else ():
                files.setdefault(word, set()).add(path.relative_to(top).as_posix())
    for word in files:
        if respelt(word) != word:
            table[word] = respelt(word)
    return table, files


def fallen_together(table, files):
    """Words that would have one spelling and stand in one file before they turn."""
    old = {}
    for word in files:
        old.setdefault(table.get(word, word), []).append(word)
    for new, several in sorted(old.items()):
        for k, one in enumerate(several):
            for other in several[k + 1 :]:
                shared = files[one] & files[other]
                yield new, one, other, sorted(shared)


def turned(text, table):
    return WORD.sub(lambda found: table.get(found[0], found[0]), text)


def source_turned(path, text, table):
    return "".join(turned(part, table) if is_code or part.startswith(COMMENT) else part for is_code, part in parted(path, text))


def edit_turned(text, table):
    lines = text.split("\n")
    return "\n".join(turned(line, table) if line.startswith(("old:", "new:", "#")) else line for line in lines)


def page_turned(text, table):
    return SAID.sub(lambda found: turned(found[0], table), text)


def freed(path, text, new):
    """Gives the local name another one, where the import that it would meet has not turned yet."""
    if not re.search(r"(?<![\w'-])allWhole(?![\w'-])", text):
        return text
    return re.sub(rf"(?<![\w'-]){LOCAL}(?![\w'-])", new, text)


def write(path, old, new):
    if new != old:
        path.write_text(new, encoding="utf-8")
    return new != old


def main(words_given):
    top = pathlib.Path.cwd()
    table, files = words(top)
    if words_given == ["table"]:
        print("".join("%s %s\n" % pair for pair in sorted(table.items())), end="")
        for new, one, other, shared in fallen_together(table, files):
            print("%s: %s and %s, both in %s" % (new, one, other, ", ".join(shared) or "no one file"))
        return 0
    changed = 0
    for name, new in LOCALS.items():
        text = (top / name).read_text(encoding="utf-8")
        write(top / name, text, freed(top / name, text, new))
    for path in sources(top):
        text = path.read_text(encoding="utf-8")
        changed += write(path, text, source_turned(path, text, table))
    for path in sorted((top / "crates").glob("*/must-fail/*.edit")):
        text = path.read_text(encoding="utf-8")
        changed += write(path, text, edit_turned(text, table))
    for pattern in PAGES:
        for path in sorted(top.glob(pattern)):
            text = path.read_text(encoding="utf-8")
            changed += write(path, text, page_turned(text, table))
    print("%d words, %d files" % (len(table), changed))
    return 0


if __name__ == "__main__":
    sys.exit(main(sys.argv[1:]))
