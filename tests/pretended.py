"""For the tests of tools/: a copy of it with pretended programs and a pretended `rt`, which do what a test wants, and tests in parts."""

import os
import pathlib
import shutil
import subprocess
import sys
import tempfile

TOP = pathlib.Path(__file__).resolve().parents[1]
sys.dont_write_bytecode = True
sys.path[:0] = [str(TOP / "tools"), str(TOP / "tests")]
COMMANDS = ("sh", "cat", "dirname", "readlink", "printf", "sleep", "kill")


def prints(text):
    """Shell that takes what it is given and prints a text."""
    return "cat >/dev/null; printf '%s'" % text.decode().replace("\n", "\\n")


class Folder:
    """tools/, examples/ and crates.txt as they are, and nothing else on the PATH than a few commands and, where a test pretends one, `rt`."""

    def __init__(self, folder):
        self.top = pathlib.Path(folder).resolve()
        shutil.copytree(TOP / "tools", self.top / "tools", ignore=shutil.ignore_patterns("__pycache__"))
        shutil.copytree(TOP / "examples", self.top / "examples")
        shutil.copy(TOP / "crates.txt", self.top)
        self.commands = self.top / "commands"
        self.commands.mkdir()
        for name in COMMANDS:
            (self.commands / name).symlink_to(shutil.which(name))
        self.script(self.commands / "python3", 'exec "%s" "$@"' % sys.executable)
        self.kit = self.top / "kit"

    def script(self, path, text):
        path.parent.mkdir(parents=True, exist_ok=True)
        path.write_text("#!/bin/sh\n%s\n" % text)
        path.chmod(0o755)

    def pretend_kit(self, rt="exit 1"):
        """An `rt` that runs this text."""
        self.script(self.kit / "rt", rt)

    def change(self, path, at, text=""):
        """Writes a file and sets its time, and that of the folder round it, in seconds."""
        path.parent.mkdir(parents=True, exist_ok=True)
        path.write_text(text)
        for one in (path, path.parent):
            os.utime(one, (at, at))

    def pretend_program(self, text, name="clampcheck"):
        """A built program that runs this text."""
        self.script(self.built(name), text)

    def list_crates(self, text):
        """Other crates, each with an empty source; a program that was built before is older."""
        (self.top / "crates.txt").write_text(text)
        for line in text.splitlines():
            name, colon, _ = line.partition(":")
            if colon:
                source = self.source(name)
                source.parent.mkdir(parents=True, exist_ok=True)
                source.write_text("")

    def built(self, name="clampcheck"):
        return self.top / "crates" / name / "out" / name

    def source(self, name):
        return self.top / "crates" / name / "src" / "lib.rt"

    def path(self):
        """Where commands are looked for."""
        return os.pathsep.join(map(str, (self.commands, self.kit)))

    def run(self, *words, given=b"", **more):
        """Runs words in the folder."""
        surroundings = {"PATH": self.path(), "PYTHONDONTWRITEBYTECODE": "1"}
        more = {"stdout": subprocess.PIPE, "stderr": subprocess.PIPE, **({"input": given} if "stdin" not in more else {}), **more}
        return subprocess.run([str(word) for word in words], cwd=self.top, env=surroundings, timeout=60, **more)


def in_folder(part):
    """A part of a test that takes such a folder, as one that takes nothing."""

    def run():
        with tempfile.TemporaryDirectory() as place:
            part(Folder(place))

    run.__name__ = part.__name__
    return run


def run_parts(done, *parts):
    """Runs the parts that the command line names, or all, and says what was done."""
    names = [part.__name__ for part in parts]
    assert set(sys.argv[1:]) <= set(names), "the parts are %s" % ", ".join(names)
    for part in parts:
        if part.__name__ in (sys.argv[1:] or names):
            part()
    print(done)
