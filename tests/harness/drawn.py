"""Pictures of tools/draw.py, read back as XML: their parts, and where a point of the sample's grid lies on the sheet."""

import sys
import xml.etree.ElementTree as xml
from pathlib import Path

TOP = Path(__file__).resolve().parents[2]
sys.path.insert(0, str(TOP / "tools"))

import draw  # noqa: E402
from job_bytes import read_job, record_in, write_job  # noqa: E402
from second_program.curve import Curve  # noqa: E402
from second_program.path_data import curvesvg_text  # noqa: E402
from second_program.record import clampcheck_text  # noqa: E402

SIGN = read_job((TOP / "examples" / "sign.job").read_bytes())


def texts_on(data):
    """What both programs print on a job."""
    return clampcheck_text(data)[1].encode(), curvesvg_text(record_in(data)).encode()


def picture(job):
    """The picture of a job as XML."""
    data = write_job(job)
    return xml.fromstring(draw.draw(data, *texts_on(data)))


def all_of(drawn, name):
    return [part.attrib for part in drawn.iter("{http://www.w3.org/2000/svg}" + name)]


def texts(drawn):
    return [part.text for part in drawn.iter("{http://www.w3.org/2000/svg}text")]


def place(rect):
    """Left, top, right, bottom."""
    left, top, wide, high = (float(rect[key]) for key in ("x", "y", "width", "height"))
    return left, top, left + wide, top + high


def frame(drawn):
    return place(next(rect for rect in all_of(drawn, "rect") if rect.get("stroke") == "#dde2e7"))


def bands(drawn):
    """The cut, in the picture alone: as wide as no other line, round at its joins and ends."""
    return [path for path in all_of(drawn, "path") if path.get("stroke-linecap") == "round"]


def scale_and_origin(drawn):
    """Of a picture with the points of the sample: how long a step is, and where x and y are 0, from the first and the last control point."""
    dots = [(float(dot["cx"]), float(dot["cy"])) for dot in all_of(drawn, "circle")]
    points = SIGN.points
    first, last = dots[0], dots[len(points) - 1]
    scale = (last[0] - first[0]) / (points[-1][0] - points[0][0])
    return scale, (first[0] - points[0][0] * scale, first[1] + points[0][1] * scale)


def curve_of(job):
    """The curve of a job as the second program takes it."""
    return Curve(job.degree, job.knots, *([point[axis] for point in job.points] for axis in (0, 1)))
