"""The drawn part of a picture, layer by layer: boxes, control points, clamps, the cut and the curve."""

import shape
from drawing.words import BOXED, CLEAR, ENTERED

INK, GREY = "#1d3557", "#8793a0"
COLOUR = {CLEAR: "#1b7f5a", ENTERED: "#b5121b", BOXED: "#b36b00"}
FILL = {CLEAR: "#cfe8dc", ENTERED: "url(#crossed)", BOXED: "url(#striped)"}
OUTLINE = {
    CLEAR: dict(stroke_width=2),
    ENTERED: dict(stroke_width=3.5),
    BOXED: dict(stroke_width=2.5, stroke_dasharray="7 3"),
}
MOST_BOXES, MOST_DOTS = 60, 150
CUT = dict(stroke="#7d8fa6", stroke_opacity=0.45, stroke_linejoin="round", stroke_linecap="round")
SMALL_CLAMP = 12


def fills(sheet):
    """The two patterns; a clear clamp is filled plainly."""
    red, amber = COLOUR[ENTERED], COLOUR[BOXED]
    cross = ['<rect width="8" height="8" fill="#f7d7d8"/>']
    cross += ['<path d="M0,0 H8 M0,0 V8" stroke="%s" stroke-width="2.4"/>' % red]
    sheet.pattern("crossed", 8, 8, cross, turn=45)
    stripe = '<rect width="10" height="10" fill="#fdf1dc"/><path d="M0,0 V10" stroke="%s" stroke-width="2"/>' % amber
    sheet.pattern("striped", 10, 10, [stripe])


def clamp_style(kind):
    return dict(stroke=COLOUR[kind], **OUTLINE[kind])


def outline_style(kind):
    """How a clamp's widened outline is drawn."""
    return dict(fill="none", stroke=COLOUR[kind], stroke_width=1.5, stroke_dasharray="11 3 2 3")


def piece_style(kind):
    """How a piece of the curve is drawn."""
    if kind == ENTERED:
        return dict(stroke=COLOUR[kind], stroke_width=4)
    if kind == BOXED:
        return dict(stroke=COLOUR[kind], stroke_width=4, stroke_dasharray="12 5")
    return dict(stroke=INK, stroke_width=2.5)


class Picture:
    """A job and what was found of its clamps, drawn on a sheet."""

    def __init__(self, sheet, view, job, pieces, found):
        self.sheet, self.view, self.job, self.pieces, self.found = sheet, view, job, pieces, found
        self.entered = {span for finding in found for span in finding.entered}
        self.listed = {span for finding in found for span in finding.entered + finding.boxed}
        self.near = [k for k in range(len(job.clamps)) if k not in view.far]
        self.outlined = self.near if job.radius else []
        steps = max(4, 2000 // len(pieces))
        self.samples = [shape.bezier_at(self.rough(span), k / steps) for span in pieces for k in range(steps + 1)]

    def rough(self, span):
        """The Bezier points of a span as floats."""
        return [tuple(map(float, point)) for point in self.pieces[span]]

    def place(self, k):
        """Where a near clamp is drawn: left, top, right, bottom."""
        return self.view.clamp_box(self.job.clamps[k])

    def widened(self, k):
        """Where a near clamp, widened by the radius, has its sides; they may lie beyond the frame."""
        return self.view.box(shape.widened(self.job.clamps[k], self.job.radius))

    def kind(self, span):
        """What the piece of a span does: enter a clamp, be listed for its box alone, or neither."""
        return ENTERED if span in self.entered else BOXED if span in self.listed else CLEAR

    def draw(self):
        fills(self.sheet)
        self.frame()
        self.boxes()
        self.polygon()
        self.clamps()
        self.outlines()
        self.cut()
        self.curve()

    def frame(self):
        sides = self.view.left, self.view.top, self.view.right, self.view.bottom
        self.sheet.window("frame", *sides)
        self.sheet.box(*sides, fill="none", stroke="#dde2e7", stroke_width=1)

    def shows_boxes(self, kind):
        """Boxes are left out where they would be too many to tell apart."""
        return sum(self.kind(span) == kind for span in self.pieces) <= MOST_BOXES

    def boxes(self):
        dashes = {CLEAR: "1 5", BOXED: "4 4", ENTERED: "9 4"}
        for kind in (CLEAR, BOXED, ENTERED):
            colour = GREY if kind == CLEAR else COLOUR[kind]
            for span in self.pieces if self.shows_boxes(kind) else ():
                if self.kind(span) == kind:
                    sides = self.view.box(shape.box(shape.carrying(self.job, span[0])))
                    self.sheet.box(*sides, fill="none", stroke=colour, stroke_width=1.2, stroke_dasharray=dashes[kind])

    def shows_dots(self):
        return len(self.job.points) <= MOST_DOTS

    def polygon(self):
        if self.shows_dots():
            places = [self.view.at(point) for point in self.job.points]
            self.sheet.line(places, stroke=GREY, stroke_width=1.2)
            for x, y in places:
                self.sheet.dot(x, y, 3.5, fill="white", stroke=GREY, stroke_width=1.2)

    def clamps(self):
        for k in self.near:
            kind = self.found[k].kind
            self.sheet.box(*self.place(k), fill=FILL[kind], **clamp_style(kind))

    def outlines(self):
        """The clamps as the box test takes them, as far as they lie in the frame."""
        for k in self.outlined:
            self.sheet.box(*self.widened(k), clip_path="url(#frame)", **outline_style(self.found[k].kind))

    def cut(self):
        """The wood that goes: the curve, as wide as the cutter. One line, so that pieces which overlap are no darker."""
        if self.job.radius:
            pieces = [[self.view.at(point) for point in points] for points in self.pieces.values()]
            self.sheet.bezier(pieces, stroke_width=2 * self.job.radius * self.view.scale, **CUT)

    def curve(self):
        for kind in (CLEAR, BOXED, ENTERED):
            for span, points in self.pieces.items():
                if self.kind(span) == kind:
                    self.sheet.bezier([[self.view.at(point) for point in points]], **piece_style(kind))
        for k in self.near:
            self.rim(self.place(k), self.found[k].kind)

    def rim(self, box, kind):
        """A clamp's sides over the curve; a small clamp, which the curve might hide, whole and with a white rim."""
        if min(box[2] - box[0], box[3] - box[1]) > SMALL_CLAMP:
            self.sheet.box(*box, fill="none", **clamp_style(kind))
        else:
            self.sheet.box(*box, fill="white", stroke="white", stroke_width=6)
            self.sheet.box(*box, fill=FILL[kind], stroke=COLOUR[kind], stroke_width=2)

    def away(self, k):
        """About how far a clamp lies from the curve."""
        return min(shape.distance(point, self.job.clamps[k]) for point in self.samples)
