"""What a picture's things are called: the numbers of the clamps, arrows to far clamps, and the values of the knots."""

from drawing.labels import Labels, centred, leader
from drawing.picture import COLOUR, GREY
from drawing.sheet import WIDE
from drawing.view import HEAD, length
from drawing.words import CLEAR, listing

MOST_TICKS, MOST_VALUES, MOST_BOUNDS = 300, 90, 12
NUMBER_SIZE, VALUE_SIZE = 17, 12
NEAR_REACH, FAR_REACH, ANY_REACH = 40, 150, 400
BIG_CLAMP = 70
ARROW = 24


def width_of(words, size):
    """How wide a text is, with a little to spare: the reader's font is not known."""
    return 0.66 * size * len(words) + 4


def area(box):
    return (box[2] - box[0]) * (box[3] - box[1])


class Names:
    """Labels on a picture that is drawn already."""

    def __init__(self, picture):
        self.picture = picture
        self.labels = Labels((4, HEAD, WIDE - 4, picture.view.bottom + 40))

    def draw(self):
        self.settle()
        self.numbers()
        self.pointers()
        self.knots()

    def settle(self):
        """Tells the labels what stands on the sheet."""
        for point in self.picture.samples:
            self.labels.mark(*self.picture.view.at(point))
        for k in self.picture.near:
            box = self.picture.place(k)
            big = min(box[2] - box[0], box[3] - box[1]) > BIG_CLAMP
            (self.labels.big if big else self.labels.kept).append(box)
        for k in self.picture.outlined:
            self.labels.mark_sides(self.picture.widened(k))

    def label(self, box, words, size, **style):
        self.picture.sheet.box(*box, fill="white", fill_opacity=0.85, rx=3)
        self.picture.sheet.text((box[0] + box[2]) / 2, (box[1] + box[3]) / 2 + 0.36 * size, words, size, text_anchor="middle", **style)

    def tie(self, home, box, colour):
        """A line from a label to what it names, where they are apart."""
        ends = leader(home, box)
        if abs(ends[0][0] - ends[1][0]) + abs(ends[0][1] - ends[1][1]) > 8:
            self.picture.sheet.line(ends, stroke=colour, stroke_width=1)

    def numbers(self):
        """The numbers of the near clamps: inside where it is roomy, else beside; those of one place and kind share a label."""
        places = {}
        for k in self.picture.near:
            place = self.picture.place(k), self.picture.found[k].kind
            places.setdefault(place, []).append(k + 1)
        for home, kind in sorted(places, key=lambda place: -area(place[0])):
            words = listing(places[home, kind])
            wide, high = width_of(words, NUMBER_SIZE), NUMBER_SIZE + 2
            box = self.inside(home, wide, high) or self.labels.find(home, wide, high, ANY_REACH)
            if box:
                self.tie(home, box, COLOUR[kind])
                self.label(box, words, NUMBER_SIZE, font_weight="bold", fill=COLOUR[kind])

    def inside(self, home, wide, high):
        """A place in its own clamp, which then forbids only other labels."""
        kept = home in self.labels.kept
        if kept:
            self.labels.kept.remove(home)
        box = self.labels.inside(home, wide, high)
        if kept:
            self.labels.keep(home)
        return box

    def pointers(self):
        """An arrow at the border for far clamps; those that are pointed at from one place share it."""
        places = []
        for k in self.picture.view.far:
            here, away = self.picture.view.border(self.picture.job.clamps[k])
            for place in places:
                if abs(place[0][0] - here[0]) + abs(place[0][1] - here[1]) < 30:
                    place[2].append(k)
                    break
            else:
                places.append((here, away, [k]))
        for here, away, clamps in places:
            self.pointer(here, away, clamps)

    def pointer(self, here, away, clamps):
        tip = here[0] + ARROW * away[0], here[1] + ARROW * away[1]
        wings = [(tip[0] - 9 * away[0] + s * 5 * away[1], tip[1] - 9 * away[1] - s * 5 * away[0]) for s in (1, -1)]
        self.picture.sheet.line([here, tip], stroke=COLOUR[CLEAR], stroke_width=2.5)
        self.picture.sheet.line([wings[0], tip, wings[1]], stroke=COLOUR[CLEAR], stroke_width=2.5)
        home = min(here[0], tip[0]), min(here[1], tip[1]), max(here[0], tip[0]), max(here[1], tip[1])
        self.labels.keep(home)
        nearest = length(min(self.picture.away(k) for k in clamps))
        names = ", ".join(str(k + 1) for k in clamps[:3]) + (" and %d more" % (len(clamps) - 3) if len(clamps) > 3 else "")
        words = "%s: %s%s" % (names, "from " if len(clamps) > 1 else "", nearest)
        box = self.labels.find(home, width_of(words, VALUE_SIZE + 2), VALUE_SIZE + 4, ANY_REACH)
        if box:
            self.tie(home, box, COLOUR[CLEAR])
            self.label(box, words, VALUE_SIZE + 2, font_weight="bold", fill=COLOUR[CLEAR])

    def knots(self):
        """A stroke across the curve at each knot, and as many values as find room, the listed ones first."""
        marks = self.marks()
        half, width = (6, 1.5) if len(marks) <= MOST_TICKS else (2, 1)
        for _, place, across in marks:
            ends = [(place[0] + s * half * across[0], place[1] + s * half * across[1]) for s in (1, -1)]
            self.picture.sheet.line(ends, stroke="black", stroke_width=width)
        shown = 0
        for first, (value, place, _) in self.by_weight(marks):
            if shown < MOST_VALUES and self.value(str(value), place, FAR_REACH if first else NEAR_REACH):
                shown += 1

    def value(self, words, place, reach):
        """The value of one knot, where there is room within a reach; whether there was."""
        home = centred(*place, 10, 10)
        box = self.labels.find(home, width_of(words, VALUE_SIZE), VALUE_SIZE + 1, reach)
        if box:
            self.tie(home, box, GREY)
            self.label(box, words, VALUE_SIZE, fill="black")
        return box is not None

    def marks(self):
        """Each knot with its place on the sheet and the direction across the curve there, of length 1."""
        found = []
        for span in self.picture.pieces:
            found.append((span[1], *self.crossing(self.picture.rough(span))))
        last = list(self.picture.pieces)[-1]
        found.append((last[2], *self.crossing(self.picture.rough(last)[::-1])))
        return found

    def crossing(self, points):
        """Where a piece begins on the sheet, and the direction across it there; upright across a piece of no length."""
        places = [self.picture.view.at(point) for point in points]
        along = next(((x - places[0][0], y - places[0][1]) for x, y in places if (x, y) != places[0]), (0, 1))
        size = (along[0] ** 2 + along[1] ** 2) ** 0.5
        return places[0], (-along[1] / size, along[0] / size)

    def by_weight(self, marks):
        """Ends of the curve and of listed stretches first, then the others from coarse to fine."""
        bounds = {marks[0][0], marks[-1][0]}
        for spans in (finding.entered + finding.boxed for finding in self.picture.found):
            lows, highs = ({span[end] for span in spans} for end in (1, 2))
            bounds |= lows | highs if len(spans) <= MOST_BOUNDS else lows ^ highs
        fineness = lambda k: -(k & -k)
        order = sorted(range(len(marks)), key=lambda k: (marks[k][0] not in bounds, fineness(k), k))
        return [(marks[k][0] in bounds, marks[k]) for k in order]
