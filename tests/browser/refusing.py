"""Tries files that are no jobs: each is told in words, broken ones with the place of their fault, and the page goes on."""

import json
import re
import time

import hands
import jobs
import right

AROUND = 8  # bytes in front of the fault that have to be the right ones
LEAST_WORDS = 4
MOST_SECONDS = 5
BYTES = """(() => {
  const mark = document.querySelector('#bytes mark'), range = document.createRange();
  if (!mark) return null;
  range.setStart(document.querySelector('#bytes'), 0);
  range.setEndBefore(mark);
  const before = range.toString();
  range.setStartAfter(mark);
  range.setEndAfter(document.querySelector('#bytes').lastChild);
  return [before, mark.textContent, range.toString()];
})()"""


def hex_bytes(text):
    """The bytes that a text shows as two hexadecimal digits each; a longer number counts the bytes of a line."""
    return [int(word, 16) for word in re.findall(r"(?<![0-9A-Za-z])[0-9A-Fa-f]{2}(?![0-9A-Za-z])", text)]


def told(page, name, data):
    """The sentence on a file that is refused."""
    began = time.monotonic()
    page.load(jobs.written(page.saved, name, data))
    page.wait("!document.querySelector('#refusal').hasAttribute('hidden')", "%s is not refused" % name, MOST_SECONDS)
    page.settle()
    took, sentence = time.monotonic() - began, page.words("#sentence")
    assert len(re.findall("[A-Za-z]{2,}", sentence)) >= LEAST_WORDS, "the sentence on %s is %r" % (name, sentence)
    assert took < MOST_SECONDS, "%s is refused after %.1f s" % (name, took)
    return sentence


def recovered(page):
    """After a refusal the sample is there again."""
    page.click("#sample")
    right.equal("whether a refusal is shown", page.refused(), False)
    right.equal("the text", page.text(), right.clampcheck(jobs.SIGN_BYTES))
    page.agreed()


def marked_place(page, data, place):
    """The mark stands at the place: the bytes in front of it are the right ones, and so is its own; at the end of the file nothing follows it."""
    shown = page.tab.evaluate(BYTES)
    assert shown, "no place is marked in the bytes"
    before, mark, behind = shown
    count = min(AROUND, place)
    right.equal("the bytes in front of the mark", hex_bytes(before)[-count:], list(data[place - count : place]))
    right.equal("the marked byte", hex_bytes(mark), list(data[place : place + 1]))
    if place + 1 >= len(data):
        right.equal("the bytes behind the mark", hex_bytes(behind), [])


def broken(page):
    """broken jobs are told with the place of the fault marked in their bytes"""
    for name, data, number, place in jobs.broken():
        right.equal("clampcheck on %s" % name, right.clampcheck(data), "refused %d at %d\n" % (number, place))
        sentence = told(page, name, data)
        assert str(place) in re.findall("[0-9]+", sentence.replace(",", "")), "the sentence on %s does not name byte %d: %r" % (name, place, sentence)
        marked_place(page, data, place)
        if name == "tag.job":
            page.picture("refused.png")
    recovered(page)


def other_place(page):
    """another place than the right one would be noticed"""
    name, data, _, place = next(jobs.broken())
    told(page, name, data)
    for wrong in (place - 1, place - 4):
        try:
            marked_place(page, data, wrong)
        except AssertionError:
            continue
        raise AssertionError("the mark passes for one at byte %d" % wrong)


def unsound(page):
    """jobs that are refused for what they hold are told in words, without bytes"""
    for name, data, number in jobs.unsound():
        right.equal("clampcheck on %s" % name, right.clampcheck(data), "refused %d\n" % number)
        told(page, name, data)
        right.equal("whether bytes are marked for %s" % name, page.tab.evaluate(BYTES), None)
    recovered(page)


def strange(page):
    """a letter, half a description, an empty file, a picture, 20 MB of zeros and 20 MB of text are each told in words"""
    for name, data in jobs.strange():
        told(page, name, data)
        recovered(page)


def sentences(page):
    """different faults are told by different sentences"""
    said = {}
    for name, data in [*[part[:2] for part in jobs.broken()], *[part[:2] for part in jobs.unsound()], *list(jobs.strange())[:3]]:
        sentence = told(page, name, data)
        assert sentence not in said, "%s and %s are both told by %r" % (name, said[sentence], sentence)
        said[sentence] = name


def line_named(page):
    """a fault in a description is told with its line"""
    sentence = told(page, "half.txt", dict(jobs.strange())["half.txt"])
    assert "line 3" in sentence, "the sentence names no line 3: %r" % sentence


def way_back(page):
    """the job before a refusal is kept, and comes back at a click"""
    page.focus(1)
    page.key("ArrowLeft")
    before, text = page.job(), page.text()
    told(page, "empty.job", b"")
    page.click("#back")
    right.equal("whether a refusal is shown", page.refused(), False)
    right.equal("the text", page.text(), text)
    right.equal("the job", page.job(), before)


def folder(page):
    """a folder that is dropped is told in words, and the page goes on"""
    before = page.words("#status")
    hands.drop_file(page.tab, page.middle("#picture"), jobs.EXAMPLES)
    refused = "!document.querySelector('#refusal').hasAttribute('hidden')"
    page.wait("%s || document.querySelector('#status').textContent !== %s" % (refused, json.dumps(before)), "nothing is said")
    recovered(page)


def nothing_left(page):
    """beside a refusal no verdict on the job before it is to be seen"""
    for number in (5, 3, 2, 1):
        page.focus(number)
        page.key("Delete")
    seen = lambda: re.findall(r"[^.\n]*\bclear\b[^.\n]*", page.tab.evaluate("document.body.innerText"))
    assert len(seen()) >= 2, "the clear clamp is not told: %r" % seen()
    told(page, *next(jobs.broken())[:2])
    right.equal("what is told of clear clamps", seen(), [])


TRIES = (broken, other_place, unsound, strange, sentences, line_named, way_back, folder, nothing_left)
