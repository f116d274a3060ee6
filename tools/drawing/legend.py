"""What stands under a picture: the scale in millimetres, the signs, and the words on the clamps."""

import textwrap

from drawing import words
from drawing.picture import COLOUR, CUT, FILL, GREY, INK, clamp_style, outline_style, piece_style
from drawing.view import length
from drawing.words import BOXED, CLEAR, ENTERED

LEFT, INDENT, ROW, SIZE = 60, 118, 23, 15
CHARACTERS = 100


class Legend:
    """Rows from a place downward."""

    def __init__(self, sheet, top):
        self.sheet, self.y = sheet, top

    def row(self, text, **style):
        """A text, over as many lines as it takes."""
        for line in textwrap.wrap(text, CHARACTERS):
            self.sheet.text(INDENT, self.y, line, SIZE, **{"fill": "black", **style})
            self.y += ROW

    def sign(self, draw, text, **style):
        """A drawn sign and what it means."""
        draw(LEFT, self.y - 5)
        self.row(text, **style)

    def scale(self, view):
        """A bar of a round length."""
        steps = 1
        for factor in (n * 10**k for k in range(7) for n in (1, 2, 5)):
            if factor * view.scale <= 180:
                steps = factor
        wide = steps * view.scale
        y = self.y
        self.sheet.line([(LEFT, y - 6), (LEFT, y), (LEFT + wide, y), (LEFT + wide, y - 6)], stroke="black", stroke_width=2)
        self.sheet.text(LEFT + wide + 10, y + 3, length(steps), SIZE, fill="black")
        self.y += 34

    def curve(self, why, outside):
        """The curve, what is said of knots outside its domain, and why it is not the one that curvesvg printed, where it is not."""
        self.sign(self.knotted, "the curve; a stroke across it is a knot, with its value where there is room")
        if outside:
            self.row(outside)
        if why:
            self.row("the drawn line is not proved: " + why)

    def signs(self, picture):
        """The other lines of the picture, those that are there."""
        kinds = {picture.kind(span) for span in picture.pieces}
        stroke = lambda style: lambda x, y: self.sheet.line([(x, y), (x + 46, y)], **style)
        self.width(picture)
        if ENTERED in kinds:
            self.sign(stroke(piece_style(ENTERED)), "a piece between two knots whose cut runs into a clamp, or touches one")
        if BOXED in kinds:
            self.sign(stroke(piece_style(BOXED)), "a piece that clampcheck lists for its box alone")
        if picture.shows_dots():
            self.sign(self.dotted, "the control points")
        if any(picture.shows_boxes(kind) for kind in kinds):
            self.sign(self.boxed, "the box round the control points of one piece")

    def width(self, picture):
        """The cut and the widened clamps, which a pen has not."""
        radius = picture.job.radius
        if radius:
            self.sign(self.cut, "the cut: the wood that a cutter %s wide takes away along the curve" % length(2 * radius))
        if picture.outlined:
            what = "round a clamp: the clamp widened by the cutter's radius, %s, on all four sides" % length(radius)
            self.sign(self.outlined, what + "; clampcheck lists a piece where its box touches this outline")

    def cut(self, x, y):
        self.sheet.line([(x + 8, y), (x + 38, y)], stroke_width=16, **CUT)
        self.sheet.line([(x + 8, y), (x + 38, y)], stroke=INK, stroke_width=2.5)

    def outlined(self, x, y):
        self.sheet.box(x, y - 8, x + 46, y + 9, **outline_style(CLEAR))
        self.sheet.box(x + 7, y - 2, x + 39, y + 3, fill=FILL[CLEAR], **clamp_style(CLEAR))

    def knotted(self, x, y):
        self.sheet.line([(x, y), (x + 46, y)], stroke=INK, stroke_width=2.5)
        self.sheet.line([(x + 23, y - 6), (x + 23, y + 6)], stroke="black", stroke_width=1.5)

    def dotted(self, x, y):
        self.sheet.line([(x, y), (x + 46, y)], stroke=GREY, stroke_width=1.2)
        for at in (x, x + 46):
            self.sheet.dot(at, y, 3.5, fill="white", stroke=GREY, stroke_width=1.2)

    def boxed(self, x, y):
        self.sheet.box(x, y - 7, x + 46, y + 7, fill="none", stroke=GREY, stroke_width=1.2, stroke_dasharray="4 4")

    def clamps(self, found):
        """For each kind its sign, its clamps, and a line for each that is not clear."""
        for kind in (ENTERED, BOXED, CLEAR):
            numbers = words.numbers_of(found, kind)
            if not numbers:
                continue
            self.y += 6
            self.sign(self.filled(kind), words.heading(kind, numbers), font_weight="bold", fill=COLOUR[kind])
            for line in words.lines(found, kind) if kind != CLEAR else ():
                self.row(line)

    def filled(self, kind):
        return lambda x, y: self.sheet.box(x, y - 8, x + 46, y + 9, fill=FILL[kind], **clamp_style(kind))

    def beyond(self, picture):
        """Clamps that the picture does not show, or not whole."""
        far = ["clamp %d about %s" % (k + 1, length(picture.away(k))) for k in picture.view.far]
        if far:
            self.row("beyond the picture, measured from the curve: " + ", ".join(far))
        if picture.view.cut:
            self.row("cut off at the frame, and going on beyond it: clamp " + words.listing([k + 1 for k in picture.view.cut]))
