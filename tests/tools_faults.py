"""The tests of tools/ notice faults: each line below changes one thing in a copy, and the named part of a test must then fail."""

import pathlib
import shutil
import subprocess
import sys
import tempfile
from concurrent.futures import ThreadPoolExecutor

TOP = pathlib.Path(__file__).resolve().parents[1]
COPIED = ("tools", "tests", "examples", "README.md", "crates.txt")

# The test and its part, the file of tools/, what stands there, and the fault.
FAULTS = [
    ("status programs", "exit_status.py", "answer.MAY_MEET: 11", "answer.MAY_MEET: 10"),
    ("status programs", "exit_status.py", "    found = asked.understood(printed, data)\n    pass_on(printed)\n",
     "    pass_on(printed)\n    found = asked.understood(printed, data)\n"),
    ("status programs", "program.py", "if ended.returncode:", "if False:"),
    ("status programs", "answer.py", "    if fault:\n", "    if False:\n"),
    ("status programs", "exit_status.py", "if found.refusal:", "if False:"),
    ("status surroundings", "clampcheck", "*) exit 3", "*) exit 0"),
    ("status surroundings", "clampcheck", "readlink -f", "printf %s"),
    ("status surroundings", "exit_status.py", "text = text[os.write(1, text) :]", "text = print(text)"),
    ("status surroundings", "program.py", "data.read(job_bytes.MOST_BYTES + 1)", "data.read()"),
    ("status texts", "answer.py", "if lines[0] != head:", "if False:"),
    ("status texts", "answer.py", "if lines != [line for part in parts.values() for line in part]:", "if False:"),
    ("status texts", "answer.py", "if not printed.endswith(b\"\\n\") or not printed.isascii():", "if not printed.isascii():"),
    ("status texts", "answer.py", "if listed != [name for name in spans if name in named]:", "if not named <= set(spans):"),
    ("status texts", "answer.py", "return [spans[name] for name in listed]", "return []"),
    ("try look", "prove_and_run.py", "        data = look(name, program.WAY[asked.name])\n        prove(asked.name)\n",
     "        prove(asked.name)\n        data = look(name, program.WAY[asked.name])\n"),
    ("try look", "prove_and_run.py", "look(name, program.WAY[asked.name])", "look(name, \"tools/try.sh\")"),
    ("try look", "prove_and_run.py", "shlex.quote(name)", "name"),
    ("try prove", "prove_and_run.py", "if ended.returncode:", "if False:"),
    ("try prove", "prove_and_run.py", "\"run\" if crate == name else \"lib\"", "\"lib\""),
    ("try prove", "crates.py", "            for below in crates[crate]:\n                add(below)\n", ""),
    ("try proved_before", "prove_and_run.py", "if crates.is_newer(program.built(name), every):", "if False:"),
    ("try proved_before", "prove_and_run.py", "if crates.is_newer(program.built(name), every):", "if program.built(name).exists():"),
    ("try proved_before", "crates.py", "    if not made.exists():\n        return False\n", "    if not made.exists():\n        return True\n"),
    ("try proved_before", "crates.py", "[program.TOP / \"crates.txt\", *(path", "[*(path"),
    ("try proved_before", "crates.py", "[program.TOP / \"crates\" / crate / part, *", "[*"),
    ("try proved_before", "crates.py", ".st_mtime_ns < at", ".st_mtime_ns <= at"),
    ("compile words", "compile.py", "library(one) if one in below else ", ""),
    ("compile words", "compile.py", "toolchain or kit / \"toolchain\"", "kit / \"toolchain\""),
    ("compile words", "compile.py", "    if not is_program:\n", "    if True:\n"),
    ("compile proved_first", "compile.py", "not library(one).with_name(\"stamp\").exists() and ", ""),
    ("compile proved_first", "compile.py", " and crates.is_newer(library(one), [one])", ""),
    ("compile proved_first", "compile.py", "    if not left_by_gate(below):\n", "    if True:\n"),
    ("compile left", "compile.py", "        if checked.returncode:\n            return checked.returncode\n", ""),
    ("compile left", "compile.py", "    if crates.is_newer(made, every):\n", "    if made.exists():\n"),
    ("compile left", "compile.py", "    return ran.returncode\n", "    return 0\n"),
    ("try at_once", "prove_and_run.py", "    sys.stderr.write(words + \"\\n\")\n", "    __import__(\"atexit\").register(sys.stderr.write, words + \"\\n\")\n"),
    ("try refusal", "prove_and_run.py", "asked.told(found, data, name) if found.refusal else []", "[]"),
    ("try svg", "prove_and_run.py", "asking.CURVESVG if chosen else asking.CLAMPCHECK", "asking.CLAMPCHECK"),
    ("try svg", "prove_and_run.py", "        prove(asked.name)\n", "        prove(\"clampcheck\")\n"),
    ("status refusals", "answer.py", "(place == len(data) if number == ENDED else place < len(data))", "place <= len(data)"),
    ("status refusals", "answer.py", "        return place is None\n", "        return True\n"),
    ("status refusals", "answer.py", "number not in refusals.TOLD[name]", "number not in refusals.WORDS"),
    ("status refusals", "answer.py", "(0|[1-9][0-9]{0,5})", "([0-9]{1,6})"),
    ("status programs", "exit_status.py", "data, name or \"JOB\"", "data, \"JOB\""),
    ("round_trip", "job_bytes.py", "if number == MOST[\"clamps\"]:", "if False:"),
    ("round_trip", "job_bytes.py", "[point[axis] for point in job.points]", "[point[0] for point in job.points]"),
    ("round_trip", "drawing/picture.py", "stroke=INK, stroke_width=2.5)", "stroke=INK, stroke_width=2)"),
    ("round_trip", "job_bytes.py", "MOST_BYTES = 11482", "MOST_BYTES = 11477"),
    ("round_trip", "job_bytes.py", "field(6, \"H\", [job.radius])", "field(6, \"H\", [job.radius & 255])"),
    ("round_trip", "job_bytes.py", "6, \"H\", 2, 2)", "6, \"H\", 2, 4)"),
    ("round_trip", "job_bytes.py", "    try:\n        list(fields(data, RECORD))\n", "    try:\n        list(fields(data))\n"),
    ("round_trip", "job_bytes.py", "front=(*RECORD, RADIUS)", "front=(RADIUS, *RECORD)"),
    ("round_trip", "job.py", "read_without_radius(data) if lacks_radius(data) else read_job(data)", "read_job(data)"),
    ("round_trip", "job.py", "if lacks_radius(data) else read_job(data)", "if data else read_job(data)"),
    ("round_trip", "description.py", "            raise BadText(NO_RADIUS)\n", "            self.found[\"radius\"] = [0]\n"),
    ("round_trip", "description.py", "\"# \" + NO_RADIUS if job.radius is None", "\"radius 0\" if job.radius is None"),
    ("round_trip", "description.py", "if word in ONCE and len(self.found[word]) > 1:", "if word in ONCE and len(self.found[word]) > 2:"),
    ("round_trip", "description.py", "\"radius\": (1, 0, 65535,", "\"radius\": (1, -9, 65535,"),
    ("round_trip", "description.py", "\"the radius is in\" if word == \"radius\" else ", ""),
    ("messages messages", "refusals.py", "RADIUS_MOST = 4096", "RADIUS_MOST = 4095"),
    ("messages messages", "refusals.py", "(*OF_CURVE, radius_fault, clamps_fault)", "(*OF_CURVE, clamps_fault, radius_fault)"),
    ("messages messages", "refusals.py", "(*OF_CURVE, radius_fault, clamps_fault)", "(radius_fault, *OF_CURVE, clamps_fault)"),
    ("messages judged", "refusals.py", "if words and place is not None and job_bytes.lacks_radius(data):", "if False:"),
    ("messages judged", "refusals.py", "if words and place is not None and job_bytes.lacks_radius(data):", "if job_bytes.lacks_radius(data):"),
    ("messages explained", "explain.py", "    elif lacks_radius(data):\n", "    elif False:\n"),
    ("messages explained", "explain.py", "taken.kind in (RECORD[0], RADIUS)", "taken.kind is RECORD[0]"),
    ("messages explained", "explain.py", "\"radius %d\" % radius[0]", "\"radius %d\" % len(radius)"),
    ("messages messages", "description.py", "int(digits) if len(digits) <= 10 else 2**40", "int(digits)"),
    ("messages messages", "description.py", "hundredths.ljust(2, \"0\")", "hundredths"),
    ("messages messages", "description.py", "text), 1):", "text), 0):"),
    ("messages messages", "text_kind.py", "    if half_zero(data):\n", "    if False:\n"),
    ("messages messages", "refusals.py", "KNOT_MOST = 16383", "KNOT_MOST = 16384"),
    ("messages judged", "refusals.py", "most = m if inside else m + 1", "most = m + 1"),
    ("messages messages", "refusals.py", "inside = low < ts[k] < high", "inside = ts[0] < ts[k] < ts[-1]"),
    ("messages messages", "refusals.py", "    if low == high:\n", "    if job.knots[0] == job.knots[-1]:\n"),
    ("messages messages", "refusals.py", "first, last = job.degree + 1, len(job.points) + 1", "first, last = job.degree, len(job.points)"),
    ("messages judged", "refusals.py", "(clamp[:2], clamp[2:])", "(clamp[:2], clamp[:2])"),
    ("messages judged", "refusals.py", "[found[2]] if found and found[:2] == (number, place) else []", "[]"),
    ("messages judged", "refusals.py", "found and found[:2] == (number, place)", "found"),
    ("messages judged", "job_bytes.py", "(2 if degree in (1, 2, 3) else 1)", "2"),
    ("messages explained", "job_bytes.py", "raise BadJob(LENGTH, at + 1, words, begun)", "raise BadJob(LENGTH, at, words, begun)"),
    ("messages explained", "job_bytes.py", "raise BadJob(LEFT_OVER, at, \"here the job", "raise BadJob(TAG, at, \"here the job"),
    ("messages explained", "job_bytes.py", "raise BadJob(TAG, at, \"%s, found %d\" % (due, data[at]))", "raise BadJob(TAG, at, \"%s, found %d\" % (due, data[-1]))"),
    ("messages explained", "job_bytes.py", "    if at == len(data):\n", "    if len(data) < at + 3:\n        at = len(data)\n"),
    ("messages explained", "job_bytes.py", "lacking = behind(taken) - len(data)", "lacking = taken.length"),
    ("messages explained", "explain.py", "place = taken.at + 3 + first * width(taken.kind)", "place = taken.at + 3 + first"),
    ("messages explained", "explain.py", "(field_lines(bad.begun) if bad.begun else [])", "[]"),
    ("messages explained", "explain.py", "        lines.append(words)\n", "        pass\n"),
    ("messages explained", "explain.py", "SIDES = (\"low x\", \"high x\", \"low y\", \"high y\")", "SIDES = (\"low x\", \"low y\", \"high x\", \"high y\")"),
    ("messages readme", "explain.py", "clampcheck would say", "clampcheck says"),
    ("messages commands", "job.py", "explaining.explained(program.read_input(source), source)", "explaining.explained(read_file(source), source)"),
    ("messages commands", "job.py", "explaining.explained(program.read_input(source), source)", "explaining.explained(program.read_input(source))"),
    ("messages readme", "refusals.py", "the degree is not 1, 2 or 3", "the degree is wrong"),
    ("messages nonsense", "description.py", "except UnicodeDecodeError as fault:", "except KeyError as fault:"),
    ("messages commands", "job.py", "if wrong and not anyway:", "if False:"),
    ("messages commands", "job.py", "os.path.exists(target) and os.path.samefile(source, target)", "source == target"),
    ("messages commands", "job.py", "data.read(MOST_READ + 1)", "data.read()"),
    ("picture shapes", "shape.py", "HALVINGS = 40", "HALVINGS = 1"),
    ("picture shapes", "shape.py", "if any(square(end, clamp) <= radius**2 for end in (piece[0], piece[-1])):\n            return True",
     "if any(square(end, clamp) <= radius**2 for end in (piece[0], piece[-1])):\n            return False"),
    ("picture distances", "shape.py", "if apart > (radius + slack) ** 2:", "if apart > radius**2:"),
    ("picture distances", "shape.py", "apart <= (radius - slack) ** 2", "apart <= radius**2"),
    ("picture distances", "shape.py", "min(turns) <= 0 <= max(turns)", "True"),
    ("picture distances", "shape.py", " + [square_to_line(corner, a, b) for corner in corners]", ""),
    ("picture distances", "shape.py", "min(max(Fraction(along[0] * off[0] + along[1] * off[1], size), 0), 1)",
     "Fraction(along[0] * off[0] + along[1] * off[1], size)"),
    ("picture kinds", "shape.py", "gaps[0] ** 2 + gaps[1] ** 2", "max(gaps) ** 2"),
    ("picture kinds", "drawing/words.py", "entered = reaching(clamp, job.radius)", "entered = reaching(clamp, 0)"),
    ("picture kinds", "drawing/words.py", "not reaching(clamp, 0)))", "not entered))"),
    ("picture cutter", "shape.py", "clamp[3] + radius", "clamp[3]"),
    ("picture cutter", "drawing/picture.py", "stroke_width=2 * self.job.radius * self.view.scale", "stroke_width=self.job.radius * self.view.scale"),
    ("picture cutter", "drawing/picture.py", "        if self.job.radius:\n", "        if True:\n"),
    ("picture cutter", "drawing/picture.py", "stroke_linejoin=\"round\"", "stroke_linejoin=\"miter\""),
    ("picture cutter", "drawing/picture.py", "self.outlined = self.near if job.radius else []", "self.outlined = self.near"),
    ("picture cutter", "drawing/view.py", "shape.widened(shape.box(job.points), job.radius)", "shape.box(job.points)"),
    ("picture cutter", "drawing/view.py", "near = [shape.widened(clamp, job.radius) for clamp", "near = [clamp for clamp"),
    ("picture cutter", "drawing/legend.py", "if picture.outlined:", "if radius:"),
    ("picture sign", "drawing/legend.py", "length(2 * radius)", "length(radius)"),
    ("picture sign", "drawing/legend.py", "% length(radius)", "% length(2 * radius)"),
    ("picture sign", "drawing/words.py", "(length(2 * radius), radius)", "(length(radius), radius)"),
    ("picture far", "drawing/sheet.py", "(left, top, right - left, bottom - top)", "(left, top, right, bottom)"),
    ("picture beside_outlines", "drawing/labels.py", "SIDE_COST, BIG_COST = 14, 5, 45", "SIDE_COST, BIG_COST = 14, 0, 45"),
    ("picture shapes", "shape.py", "[low] * (m - k) + [high] * k", "[low] * k + [high] * (m - k)"),
    ("picture sign", "drawing/naming.py", "found.append((span[1], ", "found.append((span[2], "),
    ("picture sign", "drawing/picture.py", "BOXED: \"url(#striped)\"", "BOXED: \"url(#crossed)\""),
    ("picture sign", "drawing/words.py", "stays out (seen here, not proved)", "stays out"),
    ("picture sign", "drawing/legend.py", "wide = steps * view.scale", "wide = steps * view.scale * 1.1"),
    ("picture sign", "drawing/words.py", " and shape.reaches(pieces[span], clamp, radius)", ""),
    ("picture commands", "drawing/words.py", "if not set(entered) <= set(spans):", "if False:"),
    ("picture crowded", "drawing/labels.py", "if any(overlap(box, kept) for kept in self.kept):", "if False:"),
    ("picture crowded", "drawing/naming.py", "(self.labels.big if big else self.labels.kept)", "self.labels.big"),
    ("picture crowded", "drawing/naming.py", "listing(places[home, kind])", "str(places[home, kind][0])"),
    ("picture far", "drawing/view.py", "REACH = 0.6", "REACH = 60"),
    ("picture far", "drawing/view.py", "millimetres = steps / 100", "millimetres = steps / 10"),
    ("picture far", "drawing/naming.py", "for k in self.picture.view.far:", "for k in ():"),
    ("picture far", "drawing/view.py", "min(right + thin, self.right)", "right + thin"),
    ("picture long_curve", "drawing/naming.py", "bounds |= lows | highs if len(spans) <= MOST_BOUNDS else lows ^ highs", "pass"),
    ("picture odd", "drawing/view.py", "LEAST_SHOWN = 8", "LEAST_SHOWN = 0.5"),
    ("picture refused", "draw.py", "    if found.refusal:\n", "    if False:\n"),
    ("picture commands", "drawing/sheet.py", "escape(title)]", "escape(title) + str(hash(title))]"),
    ("picture commands", "draw.py", "if os.path.exists(target) and any(", "if False and any("),
    ("curvesvg texts", "path_answer.py", "    if points != right:\n", "    if len(points) != len(right):\n"),
    ("curvesvg texts", "path_answer.py", "(?:0|-?[1-9][0-9]{0,5})", "-?[0-9]{1,6}"),
    ("curvesvg texts", "path_answer.py", "LETTERS[degree], PAIR * degree", "\"[LQC]\", PAIR * degree"),
    ("curvesvg texts", "path_answer.py", "\"\\n\".join(lines)", "lines[0]"),
    ("curvesvg texts", "path_answer.py", "    if found:\n", "    if found and found[1] is None:\n"),
    ("curvesvg refused", "refusals.py", "{*WORDS} - {14, 22}", "{*WORDS}"),
    ("curvesvg refused", "refusals.py", "{*WORDS} - {14, 22}", "{*WORDS} - {10, 11}"),
    ("curvesvg given", "job_bytes.py", "parts = list(fields(data))", "parts = list(front_fields(data, RECORD))"),
    ("curvesvg given", "job_bytes.py", "data[: behind(parts[len(RECORD) - 1])]", "data[: behind(parts[len(RECORD)])]"),
    ("curvesvg judged", "job_bytes.py", "raise BadJob(LEFT_OVER, at, \"here the record ends", "raise BadJob(TAG, at, \"here the record ends"),
    ("curvesvg judged", "cutting.py", "len(points) == MOST[\"points\"]", "len(points) > MOST[\"points\"]"),
    ("curvesvg judged", "cutting.py", "    job = with_full_ends(job)\n", ""),
    ("curvesvg judged", "cutting.py", "    if ts == job.knots:\n", "    if ts[0] == job.knots[0]:\n"),
    ("curvesvg judged", "cutting.py", "\"at an open end\"", "\"cut at an end\""),
    ("picture open_ends", "shape.py", "for i in range(job.degree, len(job.points)) if", "for i in range(job.degree, len(job.knots) - 1) if"),
    ("picture open_ends", "drawing/legend.py", "        if outside:\n", "        if False:\n"),
    ("picture open_ends", "drawing/words.py", "if low == job.knots[0] and high == job.knots[-1]:", "if low == high:"),
    ("curvesvg judged", "cutting.py", "in sorted(often)", "in sorted(often, reverse=True)"),
    ("curvesvg judged", "cutting.py", "zip(\"xy\", point)", "zip(\"x\", point)"),
    ("curvesvg judged", "cutting.py", "low = floor(number)", "low = int(number)"),
    ("curvesvg judged", "cutting.py", "range(job.degree - often[knot])", "range(job.degree - 1)"),
    ("curvesvg judged", "refusals.py", "if words and place is not None and job_bytes.lacks_radius(data):", "if words and job_bytes.lacks_radius(data):"),
    ("curvesvg programs", "curvesvg", "12) exit 2", "12) exit 0"),
    ("curvesvg programs", "asking.py", "Asked(\"curvesvg\", job_bytes.record_in", "Asked(\"curvesvg\", bytes"),
    ("curvesvg programs", "asking.py", "path_answer.read_path, refusals.judged_record", "path_answer.read_path, refusals.judged"),
    ("curvesvg surroundings", "curvesvg", "*) exit 3", "*) exit 0"),
    ("curvesvg surroundings", "program.py", "\"curvesvg\": \"tools/try.sh --svg\"", "\"curvesvg\": \"tools/try.sh\""),
    ("drawn_path printed", "cutting.py", "in range(0, len(points) - 1, degree)]", "in reversed(range(0, len(points) - 1, degree))]"),
    ("drawn_path printed", "draw.py", "dict(zip(spans, found.pieces)), None", "{span: shape.bezier(job, span) for span in spans}, None"),
    ("drawn_path kinds", "draw.py", "dict(zip(spans, found.pieces))", "dict(zip(spans[::-1], found.pieces))"),
    ("drawn_path uncut", "draw.py", "for span in spans}, why", "for span in spans}, None"),
    ("drawn_path uncut", "draw.py", "(refused %d)\" % found.refusal if found", "(refused 11)\" if found"),
    ("drawn_path uncut", "drawing/legend.py", "        if why:\n", "        if False:\n"),
    ("drawn_path wrong", "draw.py", "if found and found.refusal not in (cutting.FULL, cutting.BETWEEN_LINES):", "if False:"),
    ("drawn_path wrong", "draw.py", "None if path is None else asking.CURVESVG.understood(path, data)", "asking.CURVESVG.understood(path, data) if path else None"),
    ("drawn_path wrong", "path_answer.py", "    if points != right:\n", "    if False:\n"),
    ("drawn_path commands", "draw.py", "except program.NotBuilt:", "except program.NotRun:"),
    ("drawn_path commands", "draw.py", "for name in (source, *names))", "for name in (source, *names[:1]))"),
    ("drawn_path commands", "draw.py", "    if len(kept) == 2:\n        return kept\n", ""),
]


def noticed(fault):
    """Whether the test fails in a copy with the fault; the fault must find its place once."""
    test, name, old, new = fault
    with tempfile.TemporaryDirectory() as folder:
        for copied in COPIED:
            place = pathlib.Path(folder, copied)
            if (TOP / copied).is_dir():
                shutil.copytree(TOP / copied, place, ignore=shutil.ignore_patterns("__pycache__"))
            else:
                shutil.copy(TOP / copied, place)
        path = pathlib.Path(folder, "tools", name)
        text = path.read_text()
        assert text.count(old) == 1, "tools/%s has %d places for %r" % (name, text.count(old), old)
        path.write_text(text.replace(old, new))
        file, *parts = test.split()
        words = [sys.executable, "-B", pathlib.Path(folder, "tests", "before", "tools_%s.py" % file), *parts]
        return subprocess.run(words, capture_output=True, timeout=120).returncode != 0


def main():
    with ThreadPoolExecutor(3) as pool:
        answers = list(pool.map(noticed, FAULTS))
    missed = [fault for fault, seen in zip(FAULTS, answers) if not seen]
    for test, name, _, new in missed:
        print("tools_%s does not notice %r in tools/%s" % (test, new, name))
    print("%d faults in tools/, %d not noticed" % (len(FAULTS), len(missed)))
    sys.exit(bool(missed))


main()
