"""A wide layout in rows, as a ribbon is folded: each second row is turned by half a turn, so an edge that
comes to the end of a row goes on round the fold into the row below.

    folded(drawn, nodes, labels, 1400, loops)      the sizes of nodes and labels, how wide a row may be, and
                                                   the left and right ends of loops

A row ends between two boxes, in no loop that fits into a row, and in as few others as can be. Each edge is
one curve."""
from typing import NamedTuple

ROW_GAP = 24
BISECTIONS = 40
# How far the innermost edge of a fold is from the rows and the next from that, and how round they are.
FOLD, BESIDE, CORNER = 10, 9, 8


class Folded(NamedTuple):
    """The layout in rows. `boxes` has the boxes of each edge's parts in rows, `folds` those round the folds,
    each with the number of its fold; `bands` is where each row begins and ends."""

    width: float
    height: float
    nodes: dict
    labels: dict
    curves: dict
    boxes: dict
    folds: dict
    bands: list


class Row(NamedTuple):
    """A part of the layout, by its left, right, top and bottom; where its top is in the rows, and where they
    begin and end."""

    begin: float
    end: float
    top: float
    low: float
    y: float
    ends: tuple
    is_turned: bool

    def move(self, point):
        x, y = point
        left, right = self.ends
        if self.is_turned:
            return round(right - (x - self.begin), 1), round(self.y + self.low - y, 1)
        return round(left + x - self.begin, 1), round(self.y + y - self.top, 1)


def boxes_of(drawn, nodes, labels):
    """The boxes of a layout: of each its left, right, top and bottom."""
    placed = [(drawn.nodes[it], size) for it, size in nodes.items()]
    placed += [(middle, labels[it]) for it, middle in drawn.labels.items()]
    return [(x - w / 2, x + w / 2, y - h / 2, y + h / 2) for (x, y), (w, h) in placed]


def around(points):
    """The box around points, as its left, top, right and bottom."""
    xs, ys = zip(*points)
    return min(xs), min(ys), max(xs), max(ys)


def cuts_of(boxes, width, loops):
    """Where rows end: between boxes, in the second half of what fits into a row."""
    free, right = [], None
    for low, high in sorted([it[:2] for it in boxes] + [it for it in loops if it[1] - it[0] <= width]):
        if right is not None and low > right:
            free.append((low + right) / 2)
        right = high if right is None else max(right, high)
    cuts, begin = [], 0.0
    while right - begin > width:
        there = [it for it in free if begin < it <= begin + width] or [it for it in free if it > begin][:1]
        if not there:
            break
        far = [it for it in there if it - begin > width / 2] or there[-1:]
        begin = min(far, key=lambda cut: (sum(a < cut < b for a, b in loops), -cut))
        cuts.append(begin)
    return cuts


def point_at(curve, part):
    """The two curves that a cubic curve is, up to a part of it and from there."""
    levels = [curve]
    while len(levels[-1]) > 1:
        pairs = zip(levels[-1], levels[-1][1:])
        levels.append([(a + (c - a) * part, b + (d - b) * part) for (a, b), (c, d) in pairs])
    return [it[0] for it in levels], [it[-1] for it in reversed(levels)]


def split(curve, cuts):
    """A cubic curve in pieces that end at the cuts which it crosses."""
    for cut in cuts:
        first, last = curve[0][0], curve[-1][0]
        if min(first, last) + 0.05 < cut < max(first, last) - 0.05:
            low, high = 0.0, 1.0
            for _ in range(BISECTIONS):
                middle = (low + high) / 2
                is_before = (point_at(curve, middle)[0][-1][0] < cut) == (first < last)
                low, high = (middle, high) if is_before else (low, middle)
            one, other = point_at(curve, low)
            return [*split(one, cuts), *split(other, cuts)]
    return [curve]


def pieces_of(points, cuts):
    """An edge's curves by rows: the number of the row, and its points."""
    found = []
    for at in range(0, len(points) - 1, 3):
        for piece in split(points[at : at + 4], cuts):
            middle = (piece[0][0] + piece[-1][0]) / 2
            row = sum(cut <= middle for cut in cuts)
            if found and found[-1][0] == row:
                found[-1][1].extend(piece[1:])
            else:
                found.append((row, list(piece)))
    return found


def crossings(pieces):
    """The edges that cross each cut: the cut's number, how high the edge crosses it, the edge and the number
    of its piece before that."""
    return [
        (min(one[0], other[0]), one[1][-1][1], name, at)
        for name, found in pieces.items()
        for at, (one, other) in enumerate(zip(found, found[1:]))
    ]


def levels_of(crossed):
    """How far out each edge goes round each fold: the lowest one of the upper row the least."""
    levels, counts = {}, {}
    for cut, _, *key in sorted(crossed, key=lambda it: (it[0], it[1] * (1 if it[0] % 2 else -1))):
        counts[cut] = counts.get(cut, 0) + 1
        levels[tuple(key)] = FOLD + BESIDE * counts[cut]
    return levels


def rows_of(cuts, boxes, pieces, width, left):
    """The rows, each below the one before, with room for the folds on their left."""
    begins, rows, y = [0.0, *cuts, width], [], 0.0
    wide = max(end - begin for begin, end in zip(begins, begins[1:]))
    for at, (begin, end) in enumerate(zip(begins, begins[1:])):
        heights = [y for it in boxes if begin <= (it[0] + it[1]) / 2 < end for y in it[2:]]
        heights += [y for row, points in pieces if row == at for _, y in points]
        top, low = min(heights, default=0.0), max(heights, default=0.0)
        rows.append(Row(begin, end, top, low, y, (left, left + wide), at % 2 == 1))
        y += low - top + ROW_GAP
    return rows


def bend(one, other, x):
    """The points of a fold after its first one: along the row, round at x, and along the row below."""
    side, corner = (1 if x > one[0] else -1), min(CORNER, abs(other[1] - one[1]) / 2)
    begin, down = (x - side * corner, one[1]), (x, one[1] + corner)
    up, end = (x, other[1] - corner), (x - side * corner, other[1])
    turns = ((one, begin), ((x, one[1]),) * 2, (down, up), ((x, other[1]),) * 2, (end, other))
    return [it for pair, last in zip(turns, (begin, down, up, end, other)) for it in (*pair, last)]


class Edge:
    """An edge's curve through the rows, the boxes of its parts in rows, and those round the folds."""

    def __init__(self, name, found, rows, levels):
        moved = [[rows[row].move(it) for it in points] for row, points in found]
        self.curve, self.boxes, self.folds = moved[0], [around(it) for it in moved], []
        for at, points in enumerate(moved[1:]):
            row, next_ = found[at][0], found[at + 1][0]
            cut, way = min(row, next_), 1 if row < next_ else -1
            end, out = rows[0].ends[1 - cut % 2], levels[name, at]
            x = end - out if cut % 2 else end + out
            ends = (self.curve[-1], points[0])[::way]
            turn = [ends[0], *bend(*ends, x)][::way]
            self.boxes.append(around([ends[0], (end, ends[0][1])]))
            self.folds.append((cut, around([(end, ends[0][1]), (x, ends[1][1])])))
            self.curve = [*self.curve, *turn[1:], *points[1:]]


def folded(drawn, nodes, labels, width, loops=()):
    """The layout in rows; in one row, if it is not too wide."""
    boxes = boxes_of(drawn, nodes, labels)
    cuts = cuts_of(boxes, width, loops) if drawn.width > width else []
    pieces = {it: pieces_of(points, cuts) for it, points in drawn.paths.items()}
    crossed = crossings(pieces)
    levels = levels_of(crossed)
    room = [max([0.0, *(levels[tuple(it[2:])] for it in crossed if it[0] % 2 == odd)]) for odd in (0, 1)]
    rows = rows_of(cuts, boxes, [it for found in pieces.values() for it in found], drawn.width, room[1])
    edges = {it: Edge(it, found, rows, levels) for it, found in pieces.items()}

    def moved(point):
        return rows[sum(cut <= point[0] for cut in cuts)].move(point)

    return Folded(
        round(rows[0].ends[1] + room[0], 1),
        round(rows[-1].y + rows[-1].low - rows[-1].top, 1),
        {it: moved(point) for it, point in drawn.nodes.items()},
        {it: moved(point) for it, point in drawn.labels.items()},
        {it: edge.curve for it, edge in edges.items()},
        {it: edge.boxes for it, edge in edges.items()},
        {it: edge.folds for it, edge in edges.items()},
        [(it.y, it.y + it.low - it.top) for it in rows],
    )
