"""tools/draw.py: the curve of a picture is the one that curvesvg printed, a curve that cannot be cut is drawn all the same with a word on it, and no
wrong path is drawn.

The pictures are read back as XML, and the paths come from the second program.
"""

import pathlib
import re
import sys
import xml.etree.ElementTree as xml
from unittest.mock import patch

sys.dont_write_bytecode = True
sys.path[:0] = [str(pathlib.Path(__file__).resolve().parents[1])]

from pretended import TOP, in_folder, prints, run_parts  # noqa: E402
import answer  # noqa: E402
import draw  # noqa: E402
from drawing.view import View  # noqa: E402
from harness.drawn import SIGN, all_of, bands, curve_of, picture, texts, texts_on  # noqa: E402
from job_bytes import Job, write_job  # noqa: E402
from second_program.curve import exact_point  # noqa: E402
from second_program.cut_curves import whole_curve  # noqa: E402
from second_program.dice import Dice  # noqa: E402
from second_program.open_svg_cases import cuttable as open_cuttable  # noqa: E402

HEAD = "the drawn line is not proved: "
NO_PROGRAM = HEAD + "curvesvg is not built (tools/try.sh --svg builds it)"
CANNOT = HEAD + "curvesvg cannot cut this curve on the grid (refused %d)"
INK = {"#1d3557": "clear", "#b5121b": "entered", "#b36b00": "boxed"}
HILL = Job(2, [0, 0, 0, 2, 4, 4, 4], [(0, 0), (4, 8), (8, 8), (12, 0)], 1, [(5, 7, 9, 12)])
UNCUT = Job(2, HILL.knots, [(0, 0), (4, 7), (8, 8), (12, 0)], 1, HILL.clamps)
FULL = Job(3, [0] * 4 + list(range(1, 1021)) + [1021] * 4, [(k, 0) for k in range(1024)], 30, [])


def pairs(text):
    """The points in path data of either kind, with commas or without."""
    numbers = [float(number) for number in re.findall(r"-?[0-9.]+", text)]
    return list(zip(numbers[::2], numbers[1::2]))


def on_sheet(job, points):
    """Where points of the grid belong in the picture of a job."""
    return [View(job).at(point) for point in points]


def agree(found, right):
    return len(found) == len(right) and all(abs(a - b) < 0.05 for one, other in zip(found, right) for a, b in zip(one, other))


def drawn_pieces(drawn):
    """The pieces of the curve, each with its kind."""
    return [(pairs(path["d"]), INK[path["stroke"]]) for path in all_of(drawn, "path") if path.get("stroke") in INK and re.search(" [LQC]", path["d"])]


def cuttable(dice, m):
    """A job whose curve can be cut, with a wide cutter."""
    return wide(whole_curve(dice, m, m + 5))


def wide(curve):
    m = curve.degree
    return Job(m, curve.knots, list(zip(curve.xs, curve.ys)), 4096, [(0, 9, 0, 9)])


def printed():
    """The band is the whole path and every piece is one of it, in its own place among the spans, though nothing is worked out here."""
    dice = Dice(6)
    for job in (SIGN, HILL, *[cuttable(dice, m) for m in (1, 2, 3, 1, 2, 3)], *[wide(open_cuttable(dice, m)) for m in (1, 2, 3, 2, 3)]):
        path = texts_on(write_job(job))[1].decode()
        right = pairs(path)
        with patch("shape.bezier", side_effect=AssertionError("the pieces are worked out here")):
            drawn = picture(job)
        (band,) = bands(drawn)
        assert re.findall("[A-Z]", band["d"]) == re.findall("[A-Z]", path) and agree(pairs(band["d"]), on_sheet(job, right)), "the band is another path"
        pieces, m = drawn_pieces(drawn), job.degree
        for at in range(0, len(right) - 1, m):
            assert any(agree(piece, on_sheet(job, right[at : at + m + 1])) for piece, _ in pieces), "a piece is not drawn"
        assert len(pieces) == (len(right) - 1) // m, "there are %d pieces" % len(pieces)
        assert not any(HEAD in line for line in texts(drawn)), "a proved curve is called worked out"


def kinds():
    """Of the sample, each piece has the colour of its own span."""
    drawn = picture(SIGN)
    right = pairs(texts_on(write_job(SIGN))[1].decode())
    found = []
    for at in range(0, len(right) - 1, 3):
        here = on_sheet(SIGN, right[at : at + 4])
        found += [kind for piece, kind in drawn_pieces(drawn) if agree(piece, here)]
    assert found == ["entered", "boxed", "entered", "entered", "boxed", "clear", "clear", "clear", "entered"], found


def uncut():
    """A curve that cannot be cut is drawn where it is, and the picture says that the curve is not curvesvg's."""
    for job, line in ((UNCUT, CANNOT % 11), (FULL, CANNOT % 10)):
        drawn = picture(job)
        assert line in texts(drawn), "the picture does not say %r" % line
    for given, line in ((texts_on(write_job(UNCUT))[1], CANNOT % 11), (None, NO_PROGRAM)):
        data = write_job(UNCUT)
        drawn = xml.fromstring(draw.draw(data, texts_on(data)[0], given))
        assert [said for said in texts(drawn) if HEAD in said] == [line], "the picture does not say %r" % line
        ends = [exact_point(curve_of(UNCUT), knot) for knot in (0, 2, 4)]
        places = on_sheet(UNCUT, ends)
        assert agree(pairs(bands(drawn)[0]["d"])[::2], places), "another curve is drawn"
    assert max(map(len, (CANNOT % 11, NO_PROGRAM))) <= 100, "the line is too long for the legend"


def wrong():
    """A path that is cut off, of another curve or no path, and a refusal that cannot be, are not drawn."""
    data = write_job(SIGN)
    said, path = texts_on(data)
    pieces = path.split(b" C")
    for other in (
        b"",
        b"\n",
        path[:-1],
        path[:99],
        path[:99] + b"\n",
        b" C".join(pieces[:-1]) + b"\n",
        b" C".join(pieces[:1] + pieces[:0:-1]),
        path.replace(b"C", b"c"),
        path.replace(b"804", b"805"),
        path + path,
        texts_on(write_job(HILL))[1],
        said,
        b"refused 4\n",
        b"refused 16 at 141\n",
        b"refused 11 at 4\n",
        b"refused 14\n",
        b"refused 11",
    ):
        try:
            draw.draw(data, said, other)
        except answer.NotUnderstood:
            continue
        raise AssertionError("%r is drawn" % other[:60])
    try:
        draw.draw(write_job(UNCUT), texts_on(write_job(UNCUT))[0], texts_on(write_job(HILL))[1])
    except answer.NotUnderstood:
        pass
    else:
        raise AssertionError("a curve that cannot be cut is drawn as if it could")
    assert "refused 14" in draw.draw(data, b"refused 14\n", path), "a job that clampcheck refuses is drawn"


@in_folder
def commands(folder):
    """What curvesvg printed comes from the program, or from the fourth file; without either the picture says so; no file that is read is lost."""
    run = lambda *rest: folder.run("python3", "tools/draw.py", "examples/sign.job", *rest)
    said, path = texts_on(write_job(SIGN))
    kept = (TOP / "examples" / "sign.svg").read_bytes()
    made = folder.top / "made.svg"
    (folder.top / "text").write_bytes(said)
    (folder.top / "path").write_bytes(path)
    (folder.top / "cut").write_bytes(path[:80])
    assert run("made.svg", "text").returncode == 0 and NO_PROGRAM.encode() in made.read_bytes(), "no program, and nothing is said"
    assert run("made.svg", "text", "path").returncode == 0 and made.read_bytes() == kept, "the path is not taken from the file"
    folder.pretend_program(prints(said))
    assert run("made.svg").returncode == 0 and NO_PROGRAM.encode() in made.read_bytes(), "no program, and nothing is said"
    folder.pretend_program(prints(path), "curvesvg")
    for rest in (("made.svg",), ("made.svg", "text"), ("made.svg", "text", "path")):
        made.write_bytes(b"")
        assert run(*rest).returncode == 0 and made.read_bytes() == kept, "%s: another picture" % (rest,)
    for rest in (("path", "text", "path"), ("made.svg", "text", "cut"), ("made.svg", "text", "none"), ("made.svg", "text", "text")):
        ended = run(*rest)
        assert ended.returncode == 1 and ended.stderr.count(b"\n") == 1, "%s: %r" % (rest, ended.stderr)
    for text in ("cat >/dev/null; exit 1", prints(path[:80]), prints(b"refused 7\n")):
        folder.pretend_program(text, "curvesvg")
        ended = run("made.svg")
        assert ended.returncode == 1 and ended.stderr.count(b"\n") == 1, "%s: %r" % (text, ended.stderr)
    assert made.read_bytes() == kept and (folder.top / "path").read_bytes() == path, "something was written over"
    ended = run("made.svg", "text", "path", "more")
    assert ended.returncode == 1 and b"python3 tools/draw.py JOB PICTURE.svg OUTPUT PATH" in ended.stderr, ended


DONE = "tools/draw.py: 13 curves as curvesvg printed them, 4 curves that were not cut, 18 wrong paths, 14 commands"
run_parts(DONE, printed, kinds, uncut, wrong, commands)
