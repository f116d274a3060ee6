"""Tries how long the page takes to check again: the most points and the most clamps, measured by the page itself."""

import jobs
import right
from hands import between, move, press, release
from job_bytes import write_job
from moving import moved, near
from page import clamp, middle_of

MOVES = 40
LEAST_MEASURED = 20
MOST_MS = 16
MEASURED = "performance.getEntriesByName('recheck').map(one => one.duration)"

# Pieces of the same work, as long as asked where nothing holds it up: what takes longer is the machine's doing, not the page's.
FIXED_WORK = """async (pieces, wanted) => {
  const timed = length => {
    const began = performance.now();
    for (let k = 0, x = 1; k < length; k++) x = (x * 1103515245 + 12345) % 2147483648;
    return performance.now() - began;
  };
  const fastest = Math.min(...Array.from({length: 20}, () => timed(1e6)));
  const took = [];
  while (took.length < pieces) {
    await new Promise(done => setTimeout(done, 30));
    took.push(timed(1e6 * wanted / fastest));
  }
  return took;
}"""


def loaded(page, job):
    page.load(jobs.written(page.saved, "many.job", write_job(job)))
    page.wait("document.querySelectorAll('#verdicts li').length === %d" % len(job.clamps), "the job is not taken")
    page.settle()


def busy(page):
    """Milliseconds that the page has spent so far: in its own code, and in all."""
    page.tab.tell("Performance.enable")
    found = {one["name"]: 1000 * one["value"] for one in page.tab.tell("Performance.getMetrics")["metrics"]}
    return found["ScriptDuration"], found["TaskDuration"]


def measured(page, start, end):
    """What the page measured of each check in a drag, the first left out, in milliseconds."""
    page.tab.evaluate("performance.clearMeasures('recheck')")
    press(page.tab, start)
    for place in between(start, end, MOVES):
        move(page.tab, place)
        page.settle()
    release(page.tab, end)
    page.settle()
    return page.tab.evaluate(MEASURED)[1:]


def told_of(times):
    """The middle and the end of some times, and how many are too long."""
    ordered = sorted(times)
    late = sum(one >= MOST_MS for one in ordered)
    return "the middle one %.1f ms, the slowest %.1f ms, %d of %d too slow" % (ordered[len(ordered) // 2], ordered[-1], late, len(ordered))


def fast(page, start, end):
    """Drags; every check but the first has to be fast. What was measured, in words, with the same time of fixed work beside it."""
    before, found = busy(page), measured(page, start, end)
    script, task = ((after - early) / MOVES for early, after in zip(before, busy(page)))
    assert len(found) >= LEAST_MEASURED, "only %d checks were measured" % len(found)
    alone = page.tab.call(FIXED_WORK, len(found), sorted(found)[len(found) // 2])
    words = "checks: %s; fixed work of that length: %s" % (told_of(found), told_of(alone))
    assert max(found) < MOST_MS, words
    return "%s; a move with its drawing: %.0f ms of the page's code, %.0f ms in all" % (words, script, task)


def clamp_fast(page):
    """1,024 points and 64 clamps: each check takes under 16 ms while a clamp is dragged"""
    job = jobs.many()
    loaded(page, job)
    right.equal("the text", page.text(), right.clampcheck(write_job(job)))
    assert page.tab.evaluate("document.querySelector('#curve').getAttribute('d').length") > 1000, "the curve is not drawn"
    page.picture("many.png")
    view, number = page.view(job), jobs.free_clamps(job)[-1]
    wanted = moved(job.clamps[number - 1], 9000, 0)
    told = fast(page, page.middle(clamp(number)), view.at(middle_of(wanted)))
    near("clamp %d" % number, page.agreed().clamps[number - 1], wanted, view)
    return told


def point_fast(page):
    """the same while a control point is dragged"""
    job = jobs.many()
    loaded(page, job)
    view, (x, y) = page.view(job), job.points[-1]
    told = fast(page, view.at((x, y)), view.at((x + 9000, y)))
    near("the last point", page.agreed().points[-1], (x + 9000, y), view)
    return told


TRIES = (clamp_fast, point_fast)
