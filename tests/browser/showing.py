"""Tries what the page shows: the samples' texts, the curve, verdicts in words, and parts that a keyboard and a reader of screens find."""

import re

import jobs
import right
from hands import key
from page import clamp, said_of

BUTTONS = ("sample", "save-job", "save-path", "zoom-in", "zoom-out", "zoom-all", "add", "delete")
INPUTS = ("left", "right", "bottom", "top", "radius", "point", "point-x", "point-y")
MOST_TABS = 120
SLACK = 4  # pixels


def sample(page):
    """the sample is shown at the start, with the text of clampcheck"""
    text = right.clampcheck(jobs.SIGN_BYTES)
    page.picture("sample.png")
    right.equal("the text", page.text(), text)
    right.unequal("the texts", text, right.clampcheck(jobs.OPEN_BYTES))
    page.agreed()


def sample_again(page):
    """the sample comes back at a click"""
    page.focus(1)
    page.key("ArrowLeft")
    right.unequal("the text", page.text(), right.clampcheck(jobs.SIGN_BYTES))
    page.click("#sample")
    right.equal("the text", page.text(), right.clampcheck(jobs.SIGN_BYTES))


def verdict_words(page):
    """each verdict stands in words, in the list and in the picture"""
    listed = page.tab.evaluate("[...document.querySelectorAll('#verdicts li')].map(one => [Number(one.dataset.clamp), one.textContent])")
    for number, words in [*listed, *page.labels()]:
        assert str(number) in words.split() and len(words.split()) > 3, "of clamp %d it is said %r" % (number, words)
        right.equal("what is said by %r" % words, said_of(words), page.verdicts()[number])
    for number in page.verdicts():
        tab_index = page.tab.call("selector => document.querySelector(selector).tabIndex", clamp(number))
        right.equal("the tab index of clamp %d" % number, tab_index, 0)


def status(page):
    """a change is told in the line for readers of screens"""
    live = page.tab.evaluate("document.querySelector('#status').getAttribute('aria-live')")
    right.equal("aria-live of the status", live, "polite")
    before = page.words("#status")
    page.focus(1)
    page.key("ArrowLeft")
    page.wait("document.querySelector('#status').textContent.trim()", "the status is empty after a change")
    right.unequal("the status before and after a change", page.words("#status"), before)


def path_points(path):
    """The points in path data of degree 3, whose pieces end at every third."""
    numbers = list(map(int, re.findall("-?[0-9]+", path)))
    return list(zip(numbers[::2], numbers[1::2]))


def curve(page):
    """the curve is drawn where it lies: round the ends of its pieces, and inside the box of their points"""
    view, points = page.view(jobs.SIGN), path_points(right.curvesvg(jobs.SIGN_BYTES))
    box = page.tab.evaluate("(box => [box.left, -box.right, box.top, -box.bottom])(document.querySelector('#curve').getBoundingClientRect())")
    outer, inner = (seen_box(view, some) for some in (points, points[::3]))
    for low, at, high in zip(outer, box, inner):
        assert low - SLACK <= at <= high + SLACK, "the curve is drawn at %r, between %r and %r" % (box, outer, inner)


def seen_box(view, points):
    """Left, right, top and bottom of points that are seen, the second of each two turned, so that a larger box has lower numbers."""
    xs, ys = zip(*map(view.at, points))
    return min(xs), -max(xs), min(ys), -max(ys)


def reached(page):
    """every part is reached by Tab"""
    seen = set()
    page.tab.evaluate("document.activeElement.blur()")
    for _ in range(MOST_TABS):
        key(page.tab, "Tab")
        seen.add(page.tab.evaluate("(one => one.id || (one.dataset.clamp ? 'clamp ' + one.dataset.clamp : ''))(document.activeElement)"))
    wanted = {"file", *BUTTONS, *INPUTS, *("clamp %d" % k for k in range(1, len(jobs.SIGN.clamps) + 1))}
    assert wanted <= seen, "Tab does not come to %s" % ", ".join(sorted(wanted - seen))


TRIES = (sample, sample_again, verdict_words, status, curve, reached)
