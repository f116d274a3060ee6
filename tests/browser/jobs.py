"""Jobs and files to try the page with: the samples, a job of the most points and clamps, and files that are no jobs."""

import math
import pathlib

from job_bytes import MOST, Job, read_job, write_job

EXAMPLES = pathlib.Path(__file__).resolve().parents[2] / "examples"
SIGN_FILE = EXAMPLES / "sign.job"
SIGN_BYTES = SIGN_FILE.read_bytes()
SIGN = read_job(SIGN_BYTES)
OPEN_BYTES = (EXAMPLES / "open.job").read_bytes()
HUGE = 20 * 2**20
TURNS, NEAR, FAR = 9, 3000, 60000  # of a spiral: its turns, and how far its ends are from the middle
CUT_AT = 100  # of the sample, inside its y coordinates
KNOTS_AT = 4  # the place of the tag of the knots


def spiral():
    """1,024 points from the middle outward, on evenly spaced knots with clamped ends."""
    count = MOST["points"]
    knots = [0] * 3 + [10 * k for k in range(count - 2)] + [10 * (count - 3)] * 3
    points = []
    for k in range(count):
        far, turned = NEAR + (FAR - NEAR) * k / (count - 1), 2 * math.pi * TURNS * k / (count - 1)
        points.append((12 * round(far * math.cos(turned) / 12), 12 * round(far * math.sin(turned) / 12)))
    return knots, points


def many_clamps(half=1500):
    """64 clamps, 30 mm wide, in rows of eight."""
    places = [-63000 + 18000 * k for k in range(8)]
    return [(x - half, x + half, y - half, y + half) for y in places for x in places]


def many():
    """The job with the most points and the most clamps."""
    knots, points = spiral()
    return Job(3, knots, points, 150, many_clamps())


def free_clamps(job, far=2000):
    """The numbers of the clamps whose middle no control point is near."""
    numbers = []
    for number, (low_x, high_x, low_y, high_y) in enumerate(job.clamps, 1):
        x, y = (low_x + high_x) / 2, (low_y + high_y) / 2
        if all(max(abs(x - point[0]), abs(y - point[1])) > far for point in job.points):
            numbers.append(number)
    return numbers


def written(folder, name, data):
    """A file with this name and these bytes."""
    path = pathlib.Path(folder, name)
    path.write_bytes(data)
    return path


def with_byte(data, at, byte):
    return data[:at] + bytes([byte]) + data[at + 1 :]


def broken():
    """Files that break at a byte, by name: the bytes, the refusal and its place."""
    yield "cut.job", SIGN_BYTES[:CUT_AT], 16, CUT_AT
    yield "tag.job", with_byte(SIGN_BYTES, KNOTS_AT, 7), 19, KNOTS_AT
    yield "length.job", with_byte(SIGN_BYTES, KNOTS_AT + 1, 33), 20, KNOTS_AT + 1
    full = write_job(Job(SIGN.degree, SIGN.knots, SIGN.points, SIGN.radius, [SIGN.clamps[0]] * MOST["clamps"]))
    yield "behind.job", full + b"\5", 21, len(full)


def unsound():
    """Files whose bytes are those of a job, but that clampcheck refuses, by name: the bytes and the refusal."""
    yield "wide.job", write_job(Job(SIGN.degree, SIGN.knots, SIGN.points, 4097, SIGN.clamps)), 22
    yield "crossed.job", write_job(Job(SIGN.degree, SIGN.knots, SIGN.points, SIGN.radius, [(5, 4, 0, 1)])), 14
    yield "degree.job", write_job(Job(4, SIGN.knots, SIGN.points, SIGN.radius, SIGN.clamps)), 1
    yield "falling.job", write_job(Job(SIGN.degree, SIGN.knots[::-1], SIGN.points, SIGN.radius, SIGN.clamps)), 4


def strange():
    """Files that are nothing of the kind, by name."""
    yield "letter.txt", b"Dear reader,\nthis is a letter and describes no curve.\n"
    yield "half.txt", b"degree 3\nknots 0 0 0 0 4 4 4 4\npoint 0 0.5\n"
    yield "empty.job", b""
    yield "picture.png", b"\x89PNG\r\n\x1a\n" + bytes(range(256)) * 8
    yield "zeros.job", bytes(HUGE)
    yield "long.txt", b"degree 3 and so on, and on, and on\n" * (HUGE // 35)
