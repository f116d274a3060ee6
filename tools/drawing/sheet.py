"""An SVG picture under construction: lines, boxes, words and patterns, in its own coordinates, y downward."""

from html import escape

WIDE = 1000
FONT = "sans-serif"


def number(value):
    """Two places at most, and no minus before a zero."""
    text = ("%.2f" % value).rstrip("0").rstrip(".")
    return "0" if text == "-0" else text


class Sheet:
    """Parts in the order in which they are drawn."""

    def __init__(self):
        self.parts = []

    def put(self, name, words=None, **attributes):
        """One element; a number is written short, and an underscore stands for a hyphen."""
        pairs = []
        for key, value in attributes.items():
            text = number(value) if isinstance(value, float) else str(value)
            pairs.append('%s="%s"' % (key.replace("_", "-"), escape(text)))
        front = " ".join([name, *pairs])
        self.parts.append("<%s/>" % front if words is None else "<%s>%s</%s>" % (front, escape(words), name))

    def line(self, points, **style):
        self.put("polyline", points=" ".join("%s,%s" % tuple(map(number, point)) for point in points), fill="none", **style)

    def bezier(self, pieces, **style):
        """Straight, quadratic or cubic pieces, each of which begins where the one before it ends, as one line."""
        words = ["M%s,%s" % tuple(map(number, pieces[0][0]))]
        for _, *rest in pieces:
            words.append("LQC"[len(rest) - 1] + " ".join("%s,%s" % tuple(map(number, point)) for point in rest))
        self.put("path", d=" ".join(words), fill="none", **style)

    def box(self, left, top, right, bottom, **style):
        self.put("rect", x=float(left), y=float(top), width=float(right - left), height=float(bottom - top), **style)

    def dot(self, x, y, radius, **style):
        self.put("circle", cx=float(x), cy=float(y), r=radius, **style)

    def text(self, x, y, words, size, **style):
        self.put("text", words, x=float(x), y=float(y), font_family=FONT, font_size=size, **style)

    def window(self, name, left, top, right, bottom):
        """A box outside of which nothing is seen of what names it."""
        inside = '<rect x="%s" y="%s" width="%s" height="%s"/>' % tuple(map(number, (left, top, right - left, bottom - top)))
        self.parts.append('<defs><clipPath id="%s">%s</clipPath></defs>' % (name, inside))

    def pattern(self, name, wide, high, marks, turn=0):
        """Something to fill boxes with: marks are finished elements."""
        front = '<pattern id="%s" width="%d" height="%d" patternUnits="userSpaceOnUse" patternTransform="rotate(%d)">'
        self.parts.append("<defs>%s%s</pattern></defs>" % (front % (name, wide, high, turn), "".join(marks)))

    def svg(self, high, title):
        size = 'viewBox="0 0 %d %d" width="%d" height="%d"' % (WIDE, high, WIDE, high)
        head = ['<svg xmlns="http://www.w3.org/2000/svg" role="img" %s>' % size, "<title>%s</title>" % escape(title)]
        back = '<rect width="100%" height="100%" fill="white"/>'
        return "\n".join([*head, back, *self.parts, "</svg>", ""])
