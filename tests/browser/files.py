"""Tries files: jobs and descriptions that are chosen or dropped, and what the page saves."""

import hands
import jobs
import right
from description import write_text
from job_bytes import read_job, write_job
from page import clamp


def untouched(page):
    """the sample is saved as it came, byte for byte"""
    name, data = page.save("#save-job")
    right.equal("the job", data, jobs.SIGN_BYTES)
    assert name.endswith(".job"), "the job is saved as %s" % name


def read_back(page):
    """a changed job that was saved gives the same text and the same bytes when it is read again"""
    page.focus(1)
    page.key("ArrowLeft")
    page.enter("radius", "2.5")
    data, text = page.job(), page.text()
    right.unequal("the text", text, right.clampcheck(jobs.SIGN_BYTES))
    page.click("#sample")
    page.load(jobs.written(page.saved, "mine.job", data))
    page.wait("document.querySelector('#radius').valueAsNumber === 2.5", "the saved job is not read")
    right.equal("the text", page.text(), text)
    right.equal("the job", page.job(), data)


def path_saved(page):
    """the saved path data is what curvesvg prints"""
    wanted = right.curvesvg(jobs.SIGN_BYTES)
    _, data = page.save("#save-path")
    right.equal("the path data", data.decode("ascii"), wanted)
    right.unequal("the path data", wanted, right.curvesvg(jobs.OPEN_BYTES))


def path_of_changed(page):
    """the saved path data follows the curve"""
    page.enter("point", "3")
    page.enter("point-x", "2.40")
    _, data = page.save("#save-path")
    right.equal("the path data", data.decode("ascii"), right.curvesvg(page.job()))
    right.unequal("the path data", data.decode("ascii"), right.curvesvg(jobs.SIGN_BYTES))


def path_refused(page):
    """a curve that curvesvg refuses saves no path, and words say so"""
    page.enter("point", "3")
    page.enter("point-x", "2.41")
    right.equal("curvesvg", right.curvesvg(page.job()), "refused 11\n")
    since, before = page.tab.now(), page.words("#status")
    disabled = page.tab.evaluate("document.querySelector('#save-path').disabled")
    page.click("#save-path")
    page.settle()
    begun = [name for name, _ in page.tab.browser.events[since:] if name == "Browser.downloadWillBegin"]
    right.equal("the files that were saved", len(begun), 0)
    assert disabled or page.words("#status") != before, "nothing tells why no path is saved"


def descriptions(page):
    """the descriptions of both samples give their jobs"""
    for name, data in (("open", jobs.OPEN_BYTES), ("sign", jobs.SIGN_BYTES)):
        page.load(jobs.EXAMPLES / (name + ".txt"))
        wait_for_points(page, data)
        if name == "open":
            page.picture("open.png")
        right.equal("the text of %s.txt" % name, page.text(), right.clampcheck(data))
        right.equal("the job of %s.txt" % name, page.job(), data)


def wait_for_points(page, data):
    """Waits until the first lines on the page and of the program agree; what stands behind them is compared then."""
    head = right.clampcheck(data).splitlines()[0]
    page.wait("document.querySelector('#text').textContent.startsWith(%r)" % head, "the file is not taken")
    page.settle()


def with_mark(page):
    """a description with a byte order mark, Windows line ends and remarks is read too"""
    text = "\ufeff# a remark\n" + write_text(read_job(jobs.OPEN_BYTES))
    page.load(jobs.written(page.saved, "windows.txt", text.replace("\n", "\r\n").encode("utf-8")))
    wait_for_points(page, jobs.OPEN_BYTES)
    right.equal("the job", page.job(), jobs.OPEN_BYTES)


def dropped(page):
    """a file dropped on the page, wherever, is taken"""
    texts = {name: right.clampcheck((jobs.EXAMPLES / name).read_bytes()) for name in ("open.job", "sign.job")}
    for part, name in (("#picture", "open.job"), ("h1", "sign.job"), ("#text", "open.job"), (clamp(1), "sign.job")):
        hands.drop_file(page.tab, page.to(part), jobs.EXAMPLES / name)
        wait_for_points(page, (jobs.EXAMPLES / name).read_bytes())
        right.equal("the text after a drop on %s" % part, page.text(), texts[name])


def same_twice(page):
    """the same file chosen again is read again"""
    path = jobs.written(page.saved, "twice.job", jobs.OPEN_BYTES)
    page.load(path)
    wait_for_points(page, jobs.OPEN_BYTES)
    page.click("#sample")
    page.load(path)
    wait_for_points(page, jobs.OPEN_BYTES)


def without_clamps(page):
    """a job without clamps is shown, and can be given one"""
    sign = jobs.SIGN
    bare = write_job(type(sign)(sign.degree, sign.knots, sign.points, sign.radius, []))
    page.load(jobs.written(page.saved, "bare.job", bare))
    page.wait("document.querySelectorAll('#verdicts li').length === 0", "the job is not taken")
    right.equal("the text", page.text(), right.clampcheck(bare))
    page.click("#add")
    right.equal("the number of clamps", len(page.agreed().clamps), 1)


TRIES = (
    untouched,
    read_back,
    path_saved,
    path_of_changed,
    path_refused,
    descriptions,
    with_mark,
    dropped,
    same_twice,
    without_clamps,
)
