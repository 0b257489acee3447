"""Dataflow graphs, their timestamps, and which pointstamp could result in which other.

A timestamp is a tuple: the epoch, then one counter per loop that encloses the location, outermost first."""
from typing import NamedTuple


class Vertex(NamedTuple):
    """A vertex with a number of `ports` has an operator of the program's own. One that `starts` holds a
    capability from the start, and is fed in place of an input."""

    name: str
    op: str
    depth: int = 0
    k: object = None
    ports: object = None
    starts: object = None

    @property
    def is_own(self):
        return self.ports is not None

    def as_json(self):
        named = {**self._asdict(), "op": "opaque" if self.is_own else self.op}
        return {key: it for key, it in named.items() if it is not None}


class Edge(NamedTuple):
    source: str
    target: str
    port: int = 0
    route: str = "local"

    @property
    def name(self):
        return f"{self.source}-{self.target}"


class Pointstamp(NamedTuple):
    """A location, which is the name of a vertex or an edge, and a timestamp."""

    location: str
    time: tuple


class Summary(NamedTuple):
    """What a path does to timestamps: it keeps the outermost counters, adds to the last of them, and appends
    constants."""

    keep: int
    add: int = 0
    constants: tuple = ()

    def then(self, op):
        """The summary of the path that goes on through a vertex."""
        keep, add, constants = self
        if op == "ingress":
            return Summary(keep, add, constants + (0,))
        if op == "egress":
            return Summary(keep, add, constants[:-1]) if constants else Summary(keep - 1)
        if op == "feedback" and constants:
            return Summary(keep, add, constants[:-1] + (constants[-1] + 1,))
        return Summary(keep, add + 1) if op == "feedback" else self

    def apply(self, time):
        kept = time[: self.keep + 1]
        if self.add:
            kept = kept[:-1] + (kept[-1] + self.add,)
        return kept + self.constants


def is_at_or_before(time, other):
    """Epochs are compared as numbers, loop counters in lexicographic order."""
    return time[0] <= other[0] and time[1:] <= other[1:]


class Graph:
    def __init__(self, vertices, edges):
        self.vertices = {it.name: it for it in vertices}
        self.edges = {it.name: it for it in edges}
        self.input = next(it.name for it in vertices if it.op == "input" or it.starts)
        self.sink = next(it.name for it in vertices if it.op == "sink")
        self.paths = {it: self.paths_from(it) for it in [*self.vertices, *self.edges]}

    def is_own(self, vertex):
        return self.vertices[vertex].is_own

    def leaving(self, vertex, port):
        return [it for it in self.edges.values() if (it.source, it.port) == (vertex, port)]

    def time_after(self, vertex, time):
        """The timestamp at which a vertex sends what belongs to a time."""
        return Summary(len(time) - 1).then(self.vertices[vertex].op).apply(time)

    def depth(self, location):
        if location in self.vertices:
            return self.vertices[location].depth
        return self.vertices[self.edges[location].target].depth

    def beyond(self, location, summary):
        """The next locations of a path, each with the summary of the path up to there."""
        if location in self.edges:
            return [(self.edges[location].target, summary)]
        after = summary.then(self.vertices[location].op)
        return [(it.name, after) for it in self.edges.values() if it.source == location]

    def paths_from(self, start):
        """The minimal summaries of the paths that begin at a location, by the location where they end."""
        least, ahead = {}, [(start, Summary(self.depth(start)))]
        while ahead:
            location, summary = ahead.pop()
            # of two summaries that keep equally much the lesser leads to earlier times
            known = least.setdefault(location, {})
            if summary.keep not in known or summary < known[summary.keep]:
                known[summary.keep] = summary
                ahead += self.beyond(location, summary)
        return {location: list(known.values()) for location, known in least.items()}

    def could_result_in(self, point, other):
        summaries = self.paths[point.location].get(other.location, [])
        return any(is_at_or_before(it.apply(point.time), other.time) for it in summaries)

    def as_json(self):
        """The graph in the form in which a debugger reads it."""
        return {
            "vertices": [it.as_json() for it in self.vertices.values()],
            "edges": [
                {"name": it.name, "from": it.source, "port": it.port, "to": it.target, "route": it.route}
                for it in self.edges.values()
            ],
        }
