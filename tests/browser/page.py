"""The words of the page clampcheck.html: its parts by their names, what it shows, and where a place of the grid is seen in its picture."""

import re
import time

import downloads
import hands
import right
from job_bytes import read_job

SIDES = ("left", "right", "bottom", "top")  # in the order of a clamp's numbers
FRAMES = "new Promise(done => requestAnimationFrame(() => requestAnimationFrame(() => setTimeout(done))))"
MIDDLE = """selector => {
  const box = document.querySelector(selector).getBoundingClientRect();
  return [box.x + box.width / 2, box.y + box.height / 2];
}"""
INTO_VIEW = "selector => document.querySelector(selector).scrollIntoView({block: 'center', behavior: 'instant'})"
VERDICTS = "[...document.querySelectorAll('#verdicts li[data-clamp]')].map(one => [Number(one.dataset.clamp), one.dataset.verdict])"
CLAMPS = "[...document.querySelectorAll('#picture [data-clamp]')].map(one => [Number(one.dataset.clamp), one.getAttribute('aria-label')])"


def clamp(number):
    """The selector of a clamp in the picture."""
    return '#picture [data-clamp="%d"]' % number


def said_of(words):
    """The verdict that some words mean."""
    return "clear" if re.search(r"\bclear\b", words) and not re.search(r"\b(not|no|meet)\b", words) else "meets"


def middle_of(sides):
    """The middle of a clamp on the grid."""
    return (sides[0] + sides[1]) / 2, (sides[2] + sides[3]) / 2


class View:
    """Where a place of the grid is seen: pixels for a step of the grid, and the place of 0, 0."""

    def __init__(self, one, seen_one, other, seen_other):
        along = 0 if abs(other[0] - one[0]) >= abs(other[1] - one[1]) else 1
        self.scale = abs((seen_other[along] - seen_one[along]) / (other[along] - one[along]))
        self.left, self.top = seen_one[0] - one[0] * self.scale, seen_one[1] + one[1] * self.scale

    def at(self, point):
        return self.left + point[0] * self.scale, self.top - point[1] * self.scale


class Page:
    """The page in a tab, at its address, with the folder in which pictures of it are kept and one for what it saves."""

    def __init__(self, tab, address, pictures, saved):
        self.tab, self.address, self.pictures, self.saved = tab, address, pictures, saved

    def open(self, wide=1280, high=800, mobile=False):
        """Opens the page in a window of this size. With its first frame the page learns the picture's size and shows all of the job in it."""
        self.tab.size(wide, high, mobile)
        self.tab.open(self.address)
        self.wait("document.querySelector('#text')?.textContent", "no text is shown after the page is opened")
        self.settle()

    def wait(self, expression, fault, seconds=5):
        """Waits until an expression holds."""
        deadline = time.monotonic() + seconds
        while not self.tab.evaluate("Boolean(%s)" % expression):
            assert time.monotonic() < deadline, fault
            time.sleep(0.02)

    def settle(self):
        """Waits until what was done is drawn."""
        self.tab.evaluate(FRAMES)

    def words(self, selector):
        return self.tab.call("selector => document.querySelector(selector).textContent", selector)

    def text(self):
        return self.words("#text")

    def verdicts(self):
        return {number: verdict for number, verdict in self.tab.evaluate(VERDICTS)}

    def labels(self):
        """The clamps in the picture: the number of each, and what is said of it in words."""
        return self.tab.evaluate(CLAMPS)

    def refused(self):
        return not self.tab.evaluate("document.querySelector('#refusal').hasAttribute('hidden')")

    def middle(self, selector):
        return tuple(self.tab.call(MIDDLE, selector))

    def to(self, selector):
        """The middle of a part that is brought into the window."""
        self.tab.call(INTO_VIEW, selector)
        return self.middle(selector)

    def click(self, selector):
        hands.click(self.tab, self.to(selector))
        self.settle()

    def number(self, name):
        """What an input holds, in hundredths where it is in millimetres."""
        return round(100 * self.tab.call("name => document.getElementById(name).valueAsNumber", name))

    def sides(self):
        """The sides of the chosen clamp as the inputs tell them."""
        return tuple(self.number(name) for name in SIDES)

    def enter(self, name, text):
        """Writes into an input as a user does, who then goes on to the next."""
        self.tab.call("name => { const one = document.getElementById(name); one.focus(); one.select(); }", name)
        hands.write(self.tab, text)
        hands.key(self.tab, "Tab")
        self.settle()

    def choose(self, number):
        """Chooses a clamp by a click."""
        self.tab.call(INTO_VIEW, "#picture")
        hands.click(self.tab, self.middle(clamp(number)))
        self.settle()

    def focus(self, number):
        """Gives a clamp the focus, as Tab does."""
        self.tab.call("selector => document.querySelector(selector).focus()", clamp(number))
        focused = self.tab.evaluate("document.activeElement.dataset?.clamp")
        right.equal("the clamp that has the focus", focused, str(number))

    def key(self, name, shift=False):
        hands.key(self.tab, name, shift)
        self.settle()

    def drag(self, start, end):
        hands.drag(self.tab, start, end)
        self.settle()

    def view(self, job):
        """Where the grid is seen, from the clamps of the job that is shown; the picture is in the window."""
        self.tab.call(INTO_VIEW, "#picture")
        far = max(range(len(job.clamps)), key=lambda k: abs(job.clamps[k][0] - job.clamps[0][0]))
        one, other = middle_of(job.clamps[0]), middle_of(job.clamps[far])
        return View(one, self.middle(clamp(1)), other, self.middle(clamp(far + 1)))

    def load(self, path):
        """Chooses a file."""
        hands.choose_files(self.tab, "document.querySelector('#file')", path)
        self.settle()

    def save(self, button):
        """The name and the bytes of what a button saves."""
        return downloads.saved_by(self.tab.browser, self.saved, lambda: self.click(button))

    def job(self):
        """The bytes of the job that is on the page."""
        return self.save("#save-job")[1]

    def agreed(self):
        """The job on the page. Its text has to be the program's, and list and picture have to say the same."""
        data = self.job()
        text = right.clampcheck(data)
        right.equal("the text", self.text(), text)
        found = right.verdicts(text)
        right.equal("the verdicts", self.verdicts(), found)
        labels = self.labels()
        right.equal("the clamps in the picture", sorted(number for number, _ in labels), sorted(found))
        for number, label in labels:
            right.equal("clamp %d by its label %r" % (number, label), said_of(label), found[number])
        return read_job(data)

    def picture(self, name, whole=False):
        self.settle()
        self.tab.picture(self.pictures / name, whole)
