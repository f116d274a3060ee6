"""Tries moving clamps and control points in the picture, by mouse and by keys: what moves, where to, and what is said then."""

import jobs
import right
from job_bytes import Job, write_job
from page import clamp, middle_of

MM = 100  # steps of the grid
SLACK = 1.5  # pixels


def moved(sides, across, up):
    return sides[0] + across, sides[1] + across, sides[2] + up, sides[3] + up


def near(what, got, wanted, view):
    """Whether each number is what a mouse, which stands on whole pixels, can have meant."""
    reach = SLACK / view.scale
    assert all(abs(one - other) <= reach for one, other in zip(got, wanted)), "%s: %r, where about %r is right" % (what, got, wanted)


def others_kept(job, number, before=jobs.SIGN):
    """All but one clamp are as they were, and so is the curve."""
    kept = [k for k in range(len(before.clamps)) if k != number - 1]
    right.equal("the other clamps", [job.clamps[k] for k in kept], [before.clamps[k] for k in kept])
    right.equal("the points", job.points, before.points)


def dragged(page, number, across, up):
    """Drags a clamp of the sample by its middle; the job after it."""
    view, sides = page.view(jobs.SIGN), jobs.SIGN.clamps[number - 1]
    wanted = moved(sides, across, up)
    page.drag(page.middle(clamp(number)), view.at(middle_of(wanted)))
    job = page.agreed()
    near("clamp %d" % number, job.clamps[number - 1], wanted, view)
    size = lambda clamp: (clamp[1] - clamp[0], clamp[3] - clamp[2])
    right.equal("the size of clamp %d" % number, size(job.clamps[number - 1]), size(sides))
    others_kept(job, number)
    return job


def verdict(page, number, wanted):
    right.equal("the verdict on clamp %d" % number, page.verdicts()[number], wanted)


def dragged_off(page):
    """a clamp dragged off the curve turns clear"""
    verdict(page, 1, "meets")
    dragged(page, 1, -2 * MM, 0)
    verdict(page, 1, "clear")


def dragged_onto(page):
    """a clamp dragged onto the curve turns to meets"""
    verdict(page, 4, "clear")
    dragged(page, 4, 0, 6 * MM)
    verdict(page, 4, "meets")


def dragged_each(page):
    """every clamp of the sample can be dragged by its middle"""
    for number in range(1, len(jobs.SIGN.clamps) + 1):
        page.click("#sample")
        dragged(page, number, 7 * MM, -3 * MM)


def each_when_smaller(page):
    """the same in a smaller window, where clamps and control points lie closer together"""
    page.open(1024, 768)
    dragged_each(page)


def small_twice(page):
    """a clamp that is small on the screen can be dragged by its middle, and once more"""
    job = jobs.many()
    page.load(jobs.written(page.saved, "many.job", write_job(job)))
    page.wait("document.querySelectorAll('#verdicts li').length === 64", "the job is not taken")
    for _ in range(2):
        view, wanted = page.view(job), moved(job.clamps[0], 30 * MM, 30 * MM)
        page.drag(page.middle(clamp(1)), view.at(middle_of(wanted)))
        job = page.agreed()
        near("clamp 1", job.clamps[0], wanted, view)


def without_width(page):
    """a clamp without width, and one that is a point, can be seen and dragged, also by a cutter without width"""
    thin = [(6000, 6000, 600, 1800), (2000, 2000, 3000, 3000)]
    job = Job(jobs.SIGN.degree, jobs.SIGN.knots, jobs.SIGN.points, 0, [*jobs.SIGN.clamps, *thin])
    page.load(jobs.written(page.saved, "thin.job", write_job(job)))
    page.wait("document.querySelectorAll('#verdicts li').length === 7", "the job is not taken")
    for number, sides in enumerate(thin, len(jobs.SIGN.clamps) + 1):
        view, wanted = page.view(jobs.SIGN), moved(sides, 5 * MM, 2 * MM)
        page.drag(view.at(middle_of(sides)), view.at(middle_of(wanted)))
        near("clamp %d" % number, page.agreed().clamps[number - 1], wanted, view)


def dragged_far(page):
    """a clamp dragged across the sheet, and back by another drag"""
    job = dragged(page, 3, 30 * MM, 20 * MM)
    view, sides = page.view(job), job.clamps[2]
    page.drag(page.middle(clamp(3)), view.at(middle_of(jobs.SIGN.clamps[2])))
    near("clamp 3", page.agreed().clamps[2], jobs.SIGN.clamps[2], view)
    right.unequal("where the clamp was between", sides, jobs.SIGN.clamps[2])


def clicked(page):
    """a click chooses a clamp and moves nothing; the inputs tell its sides"""
    for number, sides in enumerate(jobs.SIGN.clamps, 1):
        page.choose(number)
        right.equal("the sides of clamp %d" % number, page.sides(), sides)
    right.equal("the job", page.job(), jobs.SIGN_BYTES)


def moved_by_keys(page):
    """arrow keys move the clamp with the focus by 1 mm, with Shift by 0.1 mm, up as y grows"""
    page.focus(3)
    sides = jobs.SIGN.clamps[2]
    ways = {"ArrowLeft": (-1, 0), "ArrowRight": (1, 0), "ArrowUp": (0, 1), "ArrowDown": (0, -1)}
    for shift, step in ((False, MM), (True, MM // 10)):
        for name, (across, up) in ways.items():
            page.key(name, shift)
            sides = moved(sides, across * step, up * step)
            right.equal("the clamp after %s%s" % ("Shift and " * shift, name), page.agreed().clamps[2], sides)
            page.focus(3)
    right.equal("the job after all of them", page.job(), jobs.SIGN_BYTES)


def off_by_keys(page):
    """a clamp moved off the curve by keys turns clear, and back again"""
    page.focus(1)
    page.key("ArrowLeft")
    verdict(page, 1, "clear")
    page.key("ArrowRight")
    verdict(page, 1, "meets")
    right.equal("the job", page.job(), jobs.SIGN_BYTES)


def keys_in_a_row(page):
    """the clamp keeps the focus while keys move it"""
    page.focus(4)
    for _ in range(8):
        page.key("ArrowUp")
    right.equal("the clamp", page.agreed().clamps[3], moved(jobs.SIGN.clamps[3], 0, 8 * MM))
    verdict(page, 4, "meets")


def point_dragged(page):
    """a control point dragged takes the curve off a clamp"""
    view, last = page.view(jobs.SIGN), jobs.SIGN.points[-1]
    wanted = last[0], last[1] - 14 * MM
    verdict(page, 5, "meets")
    page.drag(view.at(last), view.at(wanted))
    job = page.agreed()
    near("the last point", job.points[-1], wanted, view)
    right.equal("the other points", job.points[:-1], jobs.SIGN.points[:-1])
    right.equal("the clamps", job.clamps, jobs.SIGN.clamps)
    verdict(page, 5, "clear")


TRIES = (
    dragged_off,
    dragged_onto,
    dragged_each,
    each_when_smaller,
    dragged_far,
    small_twice,
    without_width,
    clicked,
    moved_by_keys,
    off_by_keys,
    keys_in_a_row,
    point_dragged,
)
