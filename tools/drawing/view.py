"""Which part of the grid a picture shows: the whole cut, and the clamps near it, widened. A far clamp does not make it smaller."""

import shape
from drawing.sheet import WIDE

MOST_WIDE, MOST_HIGH, LEAST_HIGH = 820, 760, 140
HEAD, TOP, TOP_WITH_ARROWS = 38, 50, 82
REACH = 0.6
LEAST_REACH = 60
LEAST_SHOWN = 8
PADDING = 0.03


def clipped(clamp, region):
    """The part of a clamp inside a region that it meets."""
    return max(clamp[0], region[0]), min(clamp[1], region[1]), max(clamp[2], region[2]), min(clamp[3], region[3])


def round_all(boxes):
    """The box round some boxes."""
    lows_x, highs_x, lows_y, highs_y = zip(*boxes)
    return min(lows_x), max(highs_x), min(lows_y), max(highs_y)


class View:
    """The shown region of the grid, and where it lies on the sheet."""

    def __init__(self, job):
        curve = shape.widened(shape.box(job.points), job.radius)
        reach = max(REACH * max(curve[1] - curve[0], curve[3] - curve[2]), LEAST_REACH)
        region = curve[0] - reach, curve[1] + reach, curve[2] - reach, curve[3] + reach
        near = [shape.widened(clamp, job.radius) for clamp in job.clamps if shape.meet(clamp, region)]
        self.far = [k for k, clamp in enumerate(job.clamps) if not shape.meet(clamp, region)]
        self.cut = [k for k, clamp in enumerate(job.clamps) if shape.meet(clamp, region) and clipped(clamp, region) != clamp]
        low_x, high_x, low_y, high_y = round_all([curve] + [clipped(clamp, region) for clamp in near])
        size = max(high_x - low_x, high_y - low_y)
        padding = max(size * PADDING, (LEAST_SHOWN - size) / 2)
        wide, high = high_x - low_x + 2 * padding, high_y - low_y + 2 * padding
        self.scale = min(MOST_WIDE / wide, MOST_HIGH / high)
        spare = max(LEAST_HIGH - high * self.scale, 0) / 2
        self.left, self.top = (WIDE - wide * self.scale) / 2, TOP_WITH_ARROWS if self.far else TOP
        self.right, self.bottom = WIDE - self.left, self.top + high * self.scale + 2 * spare
        self.grid_left, self.grid_top = low_x - padding, high_y + padding + spare / self.scale

    def at(self, point):
        """The place of a point of the grid on the sheet."""
        return self.left + (float(point[0]) - self.grid_left) * self.scale, self.top + (self.grid_top - float(point[1])) * self.scale

    def box(self, sides):
        """Left, top, right, bottom of a box of the grid."""
        left, top = self.at((sides[0], sides[3]))
        right, bottom = self.at((sides[1], sides[2]))
        return left, top, right, bottom

    def clamp_box(self, clamp, least=6):
        """The drawn part of a near clamp, never too thin to be seen."""
        left, top, right, bottom = self.box(clamp)
        thin, flat = max(least - (right - left), 0) / 2, max(least - (bottom - top), 0) / 2
        return (
            max(left - thin, self.left),
            max(top - flat, self.top),
            min(right + thin, self.right),
            min(bottom + flat, self.bottom),
        )

    def border(self, clamp):
        """Where on the border of the shown region a far clamp is pointed at, and the direction to it, of length 1."""
        left, top, right, bottom = self.box(clamp)
        x = min(max((self.left + self.right) / 2, left), right)
        y = min(max((self.top + self.bottom) / 2, top), bottom)
        here = min(max(x, self.left), self.right), min(max(y, self.top), self.bottom)
        away = x - here[0], y - here[1]
        size = (away[0] ** 2 + away[1] ** 2) ** 0.5 or 1
        return here, (away[0] / size, away[1] / size)


def length(steps):
    """A length in words."""
    millimetres = steps / 100
    if millimetres >= 1000:
        return "%.2f m" % (millimetres / 1000)
    return ("%.0f mm" if millimetres >= 10 else "%.1f mm" if millimetres >= 1 else "%.2f mm") % millimetres
