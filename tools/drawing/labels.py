"""Finds places for short labels: never on a small clamp or on another label, and off the curve where there is room."""

CELL = 8
GAPS = (3, 12, 24, 40, 60, 85, 115, 150, 190, 240, 300, 370)
SIDES = (-1, -0.5, 0, 0.5, 1)
AROUND = [(dx, dy) for dy in SIDES for dx in SIDES if 1 in (abs(dx), abs(dy))]
BUSY_COST, SIDE_COST, BIG_COST = 14, 5, 45


def overlap(one, other):
    """Whether two boxes (left, top, right, bottom) share more than a side."""
    return one[0] < other[2] and other[0] < one[2] and one[1] < other[3] and other[1] < one[3]


def centred(x, y, wide, high):
    return x - wide / 2, y - high / 2, x + wide / 2, y + high / 2


class Labels:
    """What stands on a sheet already."""

    def __init__(self, bounds):
        self.bounds = bounds
        self.kept, self.big, self.busy = [], [], {}

    def keep(self, box):
        """No label may cover this."""
        self.kept.append(box)

    def mark(self, x, y, cost=BUSY_COST):
        """Labels had better not cover this place."""
        cell = int(x // CELL), int(y // CELL)
        self.busy[cell] = max(cost, self.busy.get(cell, 0))

    def mark_sides(self, box):
        """The same, less so, for the sides of a box, as far as they lie where labels may."""
        left, top, right, bottom = self.bounds
        for x in (box[0], box[2]):
            for y in range(int(max(box[1], top)), int(min(box[3], bottom)), CELL):
                self.mark(x, y, SIDE_COST)
        for y in (box[1], box[3]):
            for x in range(int(max(box[0], left)), int(min(box[2], right)), CELL):
                self.mark(x, y, SIDE_COST)

    def cost(self, box):
        """How bad it is to put a label here; None where it is forbidden."""
        left, top, right, bottom = self.bounds
        if box[0] < left or box[1] < top or box[2] > right or box[3] > bottom:
            return None
        if any(overlap(box, kept) for kept in self.kept):
            return None
        columns = range(int(box[0] // CELL), int(box[2] // CELL) + 1)
        rows = range(int(box[1] // CELL), int(box[3] // CELL) + 1)
        busy = sum(self.busy.get((column, row), 0) for column in columns for row in rows)
        return busy + BIG_COST * sum(overlap(box, big) for big in self.big)

    def find(self, home, wide, high, reach):
        """The best place for a label round a box, within a reach, or None; the label is then kept."""
        x, y = (home[0] + home[2]) / 2, (home[1] + home[3]) / 2
        best = None
        for gap in (gap for gap in GAPS if gap <= reach):
            if best is not None and gap >= best[0]:
                break
            for dx, dy in AROUND:
                across = (home[2] - home[0] + wide) / 2 + gap
                down = (home[3] - home[1] + high) / 2 + gap
                box = centred(x + dx * across, y + dy * down, wide, high)
                cost = self.cost(box)
                if cost is not None and (best is None or gap + cost < best[0]):
                    best = gap + cost, box
        if best is None:
            return None
        self.keep(best[1])
        return best[1]

    def inside(self, home, wide, high):
        """The best place in a box where a label fits with air and covers nothing that is kept, or None."""
        spare = (home[2] - home[0] - wide) / 2 - 4, (home[3] - home[1] - high) / 2 - 4
        if spare[0] < 0.3 * wide or spare[1] < 0.3 * high:
            return None
        x, y = (home[0] + home[2]) / 2, (home[1] + home[3]) / 2
        places = [(0, 0)] + [(dx, dy) for dx in SIDES for dy in SIDES]
        boxes = [centred(x + dx * spare[0], y + dy * spare[1], wide, high) for dx, dy in places]
        costs = [(self.cost(box), place) for place, box in enumerate(boxes)]
        allowed = [cost for cost in costs if cost[0] is not None]
        if not allowed:
            return None
        self.keep(boxes[min(allowed)[1]])
        return boxes[min(allowed)[1]]


def leader(home, label):
    """The ends of the shortest line from a box to its label."""
    ends = []
    for low, high in ((0, 2), (1, 3)):
        if home[high] < label[low]:
            ends.append((home[high], label[low]))
        elif label[high] < home[low]:
            ends.append((home[low], label[high]))
        else:
            middle = (max(home[low], label[low]) + min(home[high], label[high])) / 2
            ends.append((middle, middle))
    return list(zip(*ends))
