"""Lays out a graph in layers by the depth of walks, loops included; the same graph gives the same numbers
everywhere.

    drawn = layout({"a": (60, 30), ..}, [Edge("az", "a", "z", (40, 20)), ..])
    drawn.width, drawn.height      the size of the drawing, from (0, 0)
    drawn.nodes["a"]               the middle of a node
    drawn.labels["az"]             the middle of an edge's label, if the edge has one
    drawn.paths["az"]              the edge as the points of cubic curves, as SVG's 'M' and 'C' take them

Layers go from left to right, or downwards if 'down' is set. An edge that closes a loop goes against that
direction. An edge's label is laid out as a node of its own, in a layer between, so no two labels meet; the
edge passes below it."""
from typing import NamedTuple

SWEEPS = 24
SETTLING = 120
OWN_LOOP = 44


class Edge(NamedTuple):
    name: str
    start: str
    end: str
    label: tuple = None


class Drawn(NamedTuple):
    width: float
    height: float
    nodes: dict
    labels: dict
    paths: dict


def closing_edges(nodes, edges):
    """The names of the edges that close a loop: those to a node on the walk that leads to them."""
    leaving = {node: [it for it in edges if it.start == node] for node in nodes}
    entered = {it.end for it in edges}
    closing, done, on_walk = set(), set(), set()

    def walk(node):
        on_walk.add(node)
        for it in leaving[node]:
            if it.end in on_walk:
                closing.add(it.name)
            elif it.end not in done:
                walk(it.end)
        on_walk.discard(node)
        done.add(node)

    for node in [it for it in nodes if it not in entered] + list(nodes):
        if node not in done:
            walk(node)
    return closing


def layers_of(nodes, edges, closing):
    """The layer of each node: the length of the longest walk to it, edges that close loops turned round."""
    step = 2 if any(it.label for it in edges) else 1
    ahead = [
        (it.end, it.start) if it.name in closing else (it.start, it.end)
        for it in edges
        if it.start != it.end
    ]
    layers = {node: 0 for node in nodes}
    for _ in nodes:
        for start, end in ahead:
            layers[end] = max(layers[end], layers[start] + step)
    return layers


class Chain(NamedTuple):
    """An edge as the nodes that it goes through, in the direction of the layers."""

    edge: Edge
    stops: list
    is_turned: bool


class Room:
    """The nodes of a layout with those that edges pass through: each has a layer, a width along it and a
    height across."""

    def __init__(self, sizes, edges, down):
        self.down = down
        turn = (lambda it: (it[1], it[0])) if down else (lambda it: it)
        self.sizes = {node: turn(it) for node, it in sizes.items()}
        closing = closing_edges(list(sizes), edges)
        self.layer = layers_of(list(sizes), edges, closing)
        self.label_of, self.chains, self.loops, self.stops = {}, [], [], set()
        for it in edges:
            if it.start == it.end:
                self.loops.append(it)
                wide, high = self.sizes[it.start]
                self.sizes[it.start] = wide, high + 2 * OWN_LOOP
            else:
                self.add_chain(it, it.name in closing, turn)
        self.neighbours = {node: [] for node in self.sizes}
        for chain in self.chains:
            for one, other in zip(chain.stops, chain.stops[1:]):
                self.neighbours[one].append(other)
                self.neighbours[other].append(one)

    def add_chain(self, edge, is_turned, turn):
        """Adds a node in each layer that an edge passes, the middle one as large as its label."""
        start, end = (edge.end, edge.start) if is_turned else (edge.start, edge.end)
        low, high = self.layer[start], self.layer[end]
        stops = [start]
        for layer in range(low + 1, high):
            stop = (edge.name, layer)
            is_label = edge.label and layer == (low + high) // 2 + (1 - (low + high) // 2 % 2)
            self.sizes[stop] = turn(edge.label) if is_label else (0, 6)
            if is_label:
                self.label_of[edge.name] = stop
            self.layer[stop] = layer
            self.stops.add(stop)
            stops.append(stop)
        self.chains.append(Chain(edge, stops + [end], is_turned))

    def below(self, node):
        """How far below a node's middle the edges at it pass: a label stands above its edge."""
        return self.sizes[node][1] / 2 if node in self.label_of.values() and not self.down else 0.0

    def columns(self):
        """The nodes of each layer, in the order in which they came."""
        columns = [[] for _ in range(max(self.layer.values(), default=-1) + 1)]
        for node in self.sizes:
            columns[self.layer[node]].append(node)
        return columns


def crossings(room, columns):
    """How many pairs of edges between neighbouring layers cross."""
    place = {node: at for column in columns for at, node in enumerate(column)}
    total = 0
    for column in columns:
        pairs = [
            (place[it], place[to])
            for it in column
            for to in room.neighbours[it]
            if room.layer[to] == room.layer[it] + 1
        ]
        total += sum((a - c) * (b - d) < 0 for at, (a, b) in enumerate(pairs) for c, d in pairs[:at])
    return total


def ordered(room):
    """The columns in an order with few crossings: each node by the mean of its neighbours, back and
    forth."""
    columns = room.columns()
    best, fewest = [list(it) for it in columns], crossings(room, columns)
    for sweep in range(SWEEPS):
        ahead = sweep % 2 == 0
        for at in range(len(columns)) if ahead else reversed(range(len(columns))):
            other = at - 1 if ahead else at + 1
            beside = columns[other] if 0 <= other < len(columns) else []
            place = {node: index for index, node in enumerate(beside)}
            own = {node: index for index, node in enumerate(columns[at])}

            def wish(node):
                near = [place[it] for it in room.neighbours[node] if it in place]
                return (sum(near) / len(near) if near else own[node], own[node])

            columns[at].sort(key=wish)
        found = crossings(room, columns)
        if found < fewest:
            best, fewest = [list(it) for it in columns], found
    return best


def spread(wishes, weights, gaps):
    """The numbers nearest to the wishes, by weighted squares, in which each is at least a gap behind the one
    before."""
    offsets = [0.0]
    for gap in gaps:
        offsets.append(offsets[-1] + gap)
    blocks = []
    for wish, weight, offset in zip(wishes, weights, offsets):
        blocks.append([wish - offset, weight, 1])
        while len(blocks) > 1 and blocks[-2][0] > blocks[-1][0]:
            (low, m, few), (high, n, more) = blocks[-2:]
            blocks[-2:] = [[(low * m + high * n) / (m + n), m + n, few + more]]
    placed = [value for value, _, count in blocks for _ in range(count)]
    return [value + offset for value, offset in zip(placed, offsets)]


def pull(room, node, other):
    """How strongly an edge is to be straight between two nodes: most if neither is a node of the graph."""
    return (1, 3, 9)[(node in room.stops) + (other in room.stops)]


def across(room, columns, gap):
    """Where each node stands across the layers: near the mean of its neighbours, no two too close."""
    where, below = {}, {node: room.below(node) for node in room.sizes}
    gaps = [[(room.sizes[a][1] + room.sizes[b][1]) / 2 + gap for a, b in zip(it, it[1:])] for it in columns]
    for column, between in zip(columns, gaps):
        where.update(zip(column, spread([0.0] * len(column), [1] * len(column), between)))
    for sweep in range(SETTLING):
        order = list(zip(columns, gaps))
        for column, between in order if sweep % 2 == 0 else reversed(order):
            wishes, weights = [], []
            for node in column:
                near = [
                    (pull(room, node, it), where[it] + below[it] - below[node])
                    for it in room.neighbours[node]
                ]
                near = near or [(1, where[node])]
                weights.append(sum(weight for weight, _ in near))
                wishes.append(sum(weight * it for weight, it in near) / weights[-1])
            where.update(zip(column, spread(wishes, weights, between)))
    return where


def along(room, columns, gap):
    """Where each layer begins and ends along the direction of the layers."""
    spans, end = [], -gap
    for column in columns:
        begin = end + gap
        end = begin + max(room.sizes[it][0] for it in column)
        spans.append((begin, end))
    return spans


def path_of(room, chain, where, spans):
    """An edge's points: straight within a layer, curved between two."""
    points = []
    for at, stop in enumerate(chain.stops):
        begin, end = spans[room.layer[stop]]
        middle, half = (begin + end) / 2, room.sizes[stop][0] / 2
        height = where[stop] + room.below(stop)
        if at == 0 or at == len(chain.stops) - 1:
            side = middle + half if at == 0 else middle - half
            points.append((side, height))
        else:
            points += [(begin, height), (end, height)]
    curve = [points[0]]
    for (x, y), (to_x, to_y) in zip(points, points[1:]):
        bend = (to_x - x) / 2
        curve += [(x + bend, y), (to_x - bend, to_y), (to_x, to_y)]
    return list(reversed(curve)) if chain.is_turned else curve


def own_loop(middle, size, count):
    """An edge from a node to itself, above it and above the earlier ones."""
    (x, y), (width, height) = middle, size
    low, half = y - height / 2, width / 4
    high = low - OWN_LOOP * count + OWN_LOOP / 2
    return [(x + half, low), (x + half, high), (x - half, high), (x - half, low)]


def layout(sizes, edges, gap=24, layer_gap=28, down=False):
    """The layout of a graph of nodes with their sizes."""
    room = Room(sizes, edges, down)
    columns = ordered(room)
    where, spans = across(room, columns, gap), along(room, columns, layer_gap)
    flip = (lambda x, y: (y, x)) if down else (lambda x, y: (x, y))
    least = min((where[it] - room.sizes[it][1] / 2 for it in where), default=0)
    greatest = max((where[it] + room.sizes[it][1] / 2 for it in where), default=0)
    where = {node: it - least for node, it in where.items()}
    length = spans[-1][1] if spans else 0

    def middle(node):
        begin, end = spans[room.layer[node]]
        return tidy(flip((begin + end) / 2, where[node]))

    nodes = {node: middle(node) for node in sizes}
    labels = {name: middle(stop) for name, stop in room.label_of.items()}
    paths = {
        it.edge.name: [tidy(flip(*point)) for point in path_of(room, it, where, spans)] for it in room.chains
    }
    for at, it in enumerate(room.loops):
        count = sum(other.start == it.start for other in room.loops[: at + 1])
        (x, y), (_, high) = nodes[it.start], sizes[it.start]
        paths[it.name] = [tidy(point) for point in own_loop((x, y), sizes[it.start], count)]
        labels[it.name] = tidy((x, y - high / 2 - OWN_LOOP * (count - 0.5)))
    return Drawn(*tidy(flip(length, greatest - least)), nodes, labels, paths)


def tidy(point):
    """A point in tenths, so that the last bits of a number are never told."""
    return tuple(round(it, 1) + 0.0 for it in point)
