"""Tries looking at the picture and the page: zoom, moving the picture, and a narrow screen."""

import hands
import jobs
import right
from moving import near
from page import clamp, middle_of
from showing import BUTTONS, INPUTS

NARROW = 360, 740
LEAST_ZOOM = 1.05
REACHED = """name => {
  const part = document.getElementById(name);
  const seen = part.type === 'file' ? part.labels[0] ?? part : part;
  seen.scrollIntoView({block: 'center', behavior: 'instant'});
  const box = seen.getBoundingClientRect();
  const hit = document.elementFromPoint(box.x + box.width / 2, box.y + box.height / 2);
  return {left: box.left, right: box.right, high: box.height, hit: seen.contains(hit) || hit?.contains(seen) && hit.tagName === 'LABEL'};
}"""
WIDER = """[...document.querySelectorAll('body *')]
  .filter(one => one.getBoundingClientRect().right > innerWidth + 1 && !one.closest('svg, pre, #bytes'))
  .map(one => one.id || one.tagName)"""


def scale(page):
    return page.view(jobs.SIGN).scale


def zoomed(page, way, act):
    """Whether something makes the picture larger, 1, or smaller, -1, and nothing else."""
    before = scale(page)
    act()
    page.settle()
    ratio = (scale(page) / before) ** way
    assert ratio > LEAST_ZOOM, "the picture is %.3f times as large" % ratio**way


def zoom_by_buttons(page):
    """buttons zoom in, out and show all again"""
    whole = scale(page)
    zoomed(page, 1, lambda: page.click("#zoom-in"))
    zoomed(page, 1, lambda: page.click("#zoom-in"))
    zoomed(page, -1, lambda: page.click("#zoom-out"))
    page.click("#zoom-in")
    page.click("#zoom-all")
    assert abs(scale(page) / whole - 1) < 0.01, "showing all gives another size than at the start"
    right.equal("the job", page.job(), jobs.SIGN_BYTES)


def zoom_by_wheel(page):
    """the wheel zooms round the place of the mouse"""
    place = page.view(jobs.SIGN).at(middle_of(jobs.SIGN.clamps[2]))
    zoomed(page, 1, lambda: hands.wheel(page.tab, place, -240))
    stayed = page.view(jobs.SIGN).at(middle_of(jobs.SIGN.clamps[2]))
    assert max(abs(a - b) for a, b in zip(stayed, place)) < 3, "what was under the mouse went from %r to %r" % (place, stayed)
    zoomed(page, -1, lambda: hands.wheel(page.tab, place, 240))
    right.equal("the job", page.job(), jobs.SIGN_BYTES)


def zoom_by_keys(page):
    """the keys + and - zoom"""
    page.tab.evaluate("document.querySelector('#picture').focus()")
    zoomed(page, 1, lambda: hands.key(page.tab, "+"))
    zoomed(page, -1, lambda: hands.key(page.tab, "-"))
    page.focus(3)
    zoomed(page, 1, lambda: hands.key(page.tab, "+"))
    right.equal("the job", page.job(), jobs.SIGN_BYTES)


def moved_by_background(page):
    """the picture is moved by dragging its background, and nothing in the job moves"""
    view = page.view(jobs.SIGN)
    start = view.at((6000, 5600))
    before = page.middle(clamp(3))
    page.drag(start, (start[0] - 60, start[1] + 40))
    after = page.middle(clamp(3))
    right.equal("how far clamp 3 went", [round(b - a) for a, b in zip(before, after)], [-60, 40])
    right.equal("the job", page.job(), jobs.SIGN_BYTES)


def drag_when_zoomed(page):
    """a clamp dragged in a picture that is zoomed and moved goes where the mouse goes"""
    page.click("#zoom-in")
    view = page.view(jobs.SIGN)
    start = view.at((6000, 5600))
    page.drag(start, (start[0] + 30, start[1] + 30))
    view, sides = page.view(jobs.SIGN), jobs.SIGN.clamps[2]
    wanted = tuple(side + 400 for side in sides)
    page.drag(page.middle(clamp(3)), view.at(middle_of(wanted)))
    near("clamp 3", page.agreed().clamps[2], wanted, view)


def wheel_leaves_page(page):
    """the wheel beside the picture scrolls the page and zooms nothing"""
    before = scale(page)
    hands.wheel(page.tab, page.to("footer"), -100)
    page.settle()
    right.equal("the size of the picture", round(scale(page), 6), round(before, 6))


def narrow(page):
    """on a screen 360 wide nothing lies beside it, and every part can be touched"""
    page.open(*NARROW, mobile=True)
    page.picture("narrow.png")
    page.picture("narrow_whole.png", whole=True)
    wide = page.tab.evaluate("[innerWidth, document.documentElement.scrollWidth]")
    right.equal("the width of window and page", (wide[0], max(wide[1], NARROW[0])), (NARROW[0], NARROW[0]))
    right.equal("the parts that reach beyond the screen", page.tab.evaluate(WIDER), [])
    for name in ("file", *BUTTONS, *INPUTS, "picture", "verdicts", "text"):
        found = page.tab.call(REACHED, name)
        assert found["left"] >= 0 and found["right"] <= NARROW[0] + 1, "#%s reaches from %.0f to %.0f" % (name, found["left"], found["right"])
        assert found["high"] >= 15 and found["hit"], "#%s is covered, or too small to be touched: %r" % (name, found)


def narrow_refused(page):
    """on such a screen a refusal fits too"""
    page.open(*NARROW, mobile=True)
    page.load(jobs.written(page.saved, "tag.job", list(jobs.broken())[1][1]))
    page.wait("document.querySelector('#bytes mark')", "no place is marked")
    page.picture("narrow_refused.png")
    wide = page.tab.evaluate("[innerWidth, document.documentElement.scrollWidth]")
    right.equal("the width of window and page", (wide[0], max(wide[1], NARROW[0])), (NARROW[0], NARROW[0]))


def by_finger(page):
    """a finger drags a clamp, and the page does not scroll away under it"""
    page.tab.tell("Emulation.setTouchEmulationEnabled", enabled=True)
    try:
        page.open(*NARROW, mobile=True)
        view, sides = page.view(jobs.SIGN), jobs.SIGN.clamps[2]
        wanted = tuple(side + 1000 for side in sides)
        hands.touch_drag(page.tab, page.middle(clamp(3)), view.at(middle_of(wanted)))
        page.settle()
        near("clamp 3", page.agreed().clamps[2], wanted, view)
    finally:
        page.tab.tell("Emulation.setTouchEmulationEnabled", enabled=False)


def after_resize(page):
    """a window made smaller keeps the picture usable"""
    page.tab.size(700, 600)
    page.settle()
    view, sides = page.view(jobs.SIGN), jobs.SIGN.clamps[2]
    wanted = tuple(side + 500 for side in sides)
    page.drag(page.middle(clamp(3)), view.at(middle_of(wanted)))
    near("clamp 3", page.agreed().clamps[2], wanted, view)


TRIES = (
    zoom_by_buttons,
    zoom_by_wheel,
    zoom_by_keys,
    moved_by_background,
    drag_when_zoomed,
    wheel_leaves_page,
    narrow,
    narrow_refused,
    by_finger,
    after_resize,
)
