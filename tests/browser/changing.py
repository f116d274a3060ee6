"""Tries changing a job by other ways than moving: sides by inputs and handles, clamps added and deleted, the radius, points by number, odd input."""

import jobs
import right
from moving import moved, near, verdict
from page import SIDES, middle_of
from second_program.dice import Dice

ODD = ("", "-", "1e9", "-1e9", "1e400", "12.345", "0.005", "abc")
MOST_CLAMPS = 64


def by_inputs(page):
    """a side entered in millimetres; 0.01 mm decides whether the clamp is met"""
    page.choose(1)
    for entered, wanted in (("6.53", "clear"), ("6.54", "meets")):
        page.enter("right", entered)
        job = page.agreed()
        right.equal("clamp 1", job.clamps[0], (0, round(100 * float(entered)), 1300, 2300))
        verdict(page, 1, wanted)


def every_side(page):
    """each of the four inputs changes its own side"""
    page.choose(3)
    sides = list(jobs.SIGN.clamps[2])
    for at, name in enumerate(SIDES):
        sides[at] += 123 if at % 2 else -45
        page.enter(name, "%.2f" % (sides[at] / 100))
        right.equal("clamp 3 after its %s side" % name, page.agreed().clamps[2], tuple(sides))


def by_handles(page):
    """each handle of the chosen clamp moves its own side"""
    page.choose(3)
    job = jobs.SIGN
    for at, name in enumerate(SIDES):
        view, sides = page.view(job), list(job.clamps[2])
        along = 300 if at % 2 else -300
        handle = page.middle('#picture [data-side="%s"]' % name)
        page.drag(handle, (handle[0] + along * view.scale, handle[1]) if at < 2 else (handle[0], handle[1] - along * view.scale))
        sides[at] += along
        job = page.agreed()
        near("clamp 3 after its %s side" % name, job.clamps[2], sides, view)
        right.equal("the sides that were not dragged", job.clamps[2][:at] + job.clamps[2][at + 1 :], tuple(sides[:at] + sides[at + 1 :]))


def handle_across(page):
    """a handle dragged beyond the other side leaves a clamp that is none the worse"""
    page.choose(3)
    view, sides = page.view(jobs.SIGN), jobs.SIGN.clamps[2]
    page.drag(page.middle('#picture [data-side="left"]'), view.at((sides[1] + 1500, middle_of(sides)[1])))
    low_x, high_x, low_y, high_y = page.agreed().clamps[2]
    assert low_x <= high_x and low_y <= high_y, "the sides are crossed: %r" % ((low_x, high_x, low_y, high_y),)


def added(page):
    """a clamp is added, chosen, told and can be moved"""
    page.click("#add")
    job = page.agreed()
    right.equal("the clamps before it", job.clamps[:-1], jobs.SIGN.clamps)
    right.equal("the chosen sides", page.sides(), job.clamps[-1])
    page.focus(len(job.clamps))
    page.key("ArrowUp")
    right.equal("the new clamp", page.agreed().clamps[-1], moved(job.clamps[-1], 0, 100))


def added_to_most(page):
    """no more than 64 clamps are added"""
    for _ in range(MOST_CLAMPS + 1 - len(jobs.SIGN.clamps)):
        page.tab.evaluate("document.querySelector('#add').click()")
    page.settle()
    right.equal("the number of clamps", len(page.agreed().clamps), MOST_CLAMPS)


def deleted(page):
    """a clamp is deleted by the button"""
    page.choose(3)
    page.click("#delete")
    right.equal("the clamps", page.agreed().clamps, [jobs.SIGN.clamps[k] for k in (0, 1, 3, 4)])


def deleted_by_key(page):
    """clamps are deleted by the key Delete, down to none"""
    left = list(jobs.SIGN.clamps)
    for number in (5, 2, 1, 1, 1):
        page.focus(number)
        page.key("Delete")
        del left[number - 1]
        right.equal("the clamps", page.agreed().clamps, left)
    page.click("#add")
    right.equal("the number of clamps", len(page.agreed().clamps), 1)


def radius(page):
    """the cutter's radius; 0.01 mm decides whether clamp 1 is met, and a pen meets it not"""
    for entered, wanted in (("0.83", "clear"), ("0.84", "meets"), ("0", "clear"), ("40.96", "meets")):
        page.enter("radius", entered)
        right.equal("the radius", page.agreed().radius, round(100 * float(entered)))
        verdict(page, 1, wanted)


def point_by_number(page):
    """a control point changed by its number and coordinates"""
    page.enter("point", "12")
    right.equal("the coordinates", (page.number("point-x"), page.number("point-y")), jobs.SIGN.points[11])
    page.enter("point-y", "28.96")
    page.enter("point-x", "-1.20")
    right.equal("the points", page.agreed().points, jobs.SIGN.points[:-1] + [(-120, 2896)])
    verdict(page, 5, "clear")


def odd_input(page):
    """what is no number, or none that a job can hold, breaks nothing"""
    page.choose(1)
    for name in (*SIDES, "radius", "point", "point-x", "point-y"):
        for text in ODD:
            page.enter(name, text)
        page.agreed()
    page.click("#sample")
    right.equal("the job", page.job(), jobs.SIGN_BYTES)


def too_large(page):
    """a number whose last bits would be a right one is not taken for it"""
    page.choose(1)
    for name, text in (("left", "42949673.96"), ("point-x", "42949673.96"), ("radius", "656.36"), ("top", "-42949672.00")):
        page.enter(name, text)
        right.equal("the job after %s in #%s" % (text, name), page.job(), jobs.SIGN_BYTES)
        right.unequal("the number shown in #%s" % name, page.number(name), round(100 * float(text)))


def keys_in_inputs(page):
    """the key Delete in an input deletes no clamp"""
    page.choose(3)
    page.tab.evaluate("document.querySelector('#right').focus()")
    page.key("Delete")
    right.equal("the number of clamps", len(page.verdicts()), len(jobs.SIGN.clamps))


def at_random(page):
    """forty changes one after the other, and the program's text after each"""
    dice, job, texts = Dice(40), jobs.SIGN, set()
    for _ in range(40):
        change(page, dice, job)
        job = page.agreed()
        texts.add(page.text())
    assert len(texts) >= 15, "there were no more than %d texts" % len(texts)


def change(page, dice, job):
    """One change of any kind."""
    kind = dice.between(0, 5)
    if kind == 0:
        page.enter("radius", "%.2f" % (dice.between(0, 900) / 100))
    elif kind == 1:
        page.enter("point", str(dice.between(1, len(job.points))))
        page.enter(dice.pick(("point-x", "point-y")), "%.2f" % (dice.between(-2000, 9000) / 100))
    elif kind == 2 and len(job.clamps) < 8 or not job.clamps:
        page.click("#add")
    else:
        page.focus(dice.between(1, len(job.clamps)))
        if kind == 3 and len(job.clamps) > 3:
            page.key("Delete")
        for _ in range(dice.between(1, 12) if kind > 3 else 0):
            page.key(dice.pick(("ArrowLeft", "ArrowRight", "ArrowUp", "ArrowDown")), dice.chance(3))


TRIES = (
    by_inputs,
    every_side,
    by_handles,
    handle_across,
    added,
    added_to_most,
    deleted,
    deleted_by_key,
    radius,
    point_by_number,
    odd_input,
    too_large,
    keys_in_inputs,
    at_random,
)
