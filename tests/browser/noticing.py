"""Tries the trying itself on small pages: what throws, complains or asks for something is noticed, and hands, files and savings arrive."""

import downloads
import hands
import jobs
import right

FAULTY = {
    "throws": "throw new Error('on purpose')",
    "rejects": "Promise.reject(new Error('on purpose'))",
    "complains": "console.error('on purpose')",
}
ASKING = "<img src='https://example.invalid/on_purpose.png'>"
HANDS = """<body style='margin:0'><input id=file type=file><script>
const seen = [];
const kinds = ['mousedown', 'mouseup', 'wheel', 'keydown'];
for (const kind of kinds) document.addEventListener(kind, one => seen.push(kind + ' ' + (one.key ?? [one.clientX, one.clientY])));
const named = files => [...files].map(one => one.name + ' ' + one.size).join();
document.addEventListener('dragover', one => one.preventDefault());
document.addEventListener('drop', one => { one.preventDefault(); seen.push('drop ' + named(one.dataTransfer.files)); });
file.addEventListener('change', () => seen.push('file ' + named(file.files)));
const save = () => {
  const link = document.createElement('a');
  link.href = URL.createObjectURL(new Blob([Uint8Array.of(0, 255)]));
  link.download = 'two.bytes';
  link.click();
};
</script>"""


def small_page(page, text):
    """Opens a page of this text; the place in the list of events before it."""
    since = page.tab.now()
    path = jobs.written(page.saved, "small.html", ("<!doctype html><meta charset=utf-8>" + text).encode("utf-8"))
    page.tab.open(path.as_uri())
    page.settle()
    return since


def faulty(page):
    """a page that throws, rejects or complains is noticed, and so is one that asks for a picture"""
    for name, code in FAULTY.items():
        since = small_page(page, "<script>%s</script>" % code)
        found = page.tab.complaints(since)
        assert len(found) == 1 and "on purpose" in found[0], "a page that %s: %r" % (name, found)
    since = small_page(page, ASKING)
    asked = [address for address in page.tab.requests(since) if not address.startswith("file:")]
    right.equal("what was asked for", asked, ["https://example.invalid/on_purpose.png"])


def hands_arrive(page):
    """mouse, keys, files and savings arrive in a page"""
    small_page(page, HANDS)
    hands.drag(page.tab, (200, 100), (250, 150))
    hands.wheel(page.tab, (300, 200), 120)
    hands.key(page.tab, "ArrowLeft")
    hands.key(page.tab, "+")
    hands.choose_files(page.tab, "file", jobs.SIGN_FILE)
    hands.drop_file(page.tab, (200, 200), jobs.SIGN_FILE)
    page.wait("seen.length === 7", "not all arrived")
    size = len(jobs.SIGN_BYTES)
    wanted = ["mousedown 200,100", "mouseup 250,150", "wheel 300,200", "keydown ArrowLeft", "keydown +"]
    right.equal("what arrived", page.tab.evaluate("seen"), wanted + ["file sign.job %d" % size, "drop sign.job %d" % size])
    saved = downloads.saved_by(page.tab.browser, page.saved, lambda: page.tab.evaluate("save()"))
    right.equal("what was saved", saved, ("two.bytes", b"\0\xff"))


TRIES = (faulty, hands_arrive)
