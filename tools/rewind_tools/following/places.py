"""A graph's locations: how deep they are, and which records a line puts where.

    places = Places(graph, 3)                       a graph that the program has read, and how many workers
    places.fed(p, "a", 0, [5])                      the records of a feed, a send and a take, each
    places.sent(value)                              as (edge, worker, time, value)
    places.taken(p, "ax", (0,), 5)
    places.is_counted("ax")                         whether these are all records that come onto an edge

What a sum or a distinct emits depends on what it keeps, which the program alone knows: records on the edges
that leave one are not counted."""

UNCOUNTED = ("sum", "distinct")


class Places:
    def __init__(self, graph, workers):
        self.workers = workers
        self.vertices = {it["name"]: it for it in graph["vertices"]}
        self.edges = {it["name"]: it for it in graph["edges"]}
        self.depths = {name: it["depth"] for name, it in self.vertices.items()}
        # (an edge is as deep as the vertex that it enters)
        self.depths |= {name: self.depths[it["to"]] for name, it in self.edges.items()}
        self.leaving = {}
        for name, it in self.edges.items():
            self.leaving.setdefault((it["from"], it["port"]), []).append((name, it["route"] == "exchange"))
        self.uncounted = {it for it in self.edges if self.source(it)["op"] in UNCOUNTED}

    def source(self, edge):
        return self.vertices[self.edges[edge]["from"]]

    def target(self, edge):
        return self.vertices[self.edges[edge]["to"]]

    def is_local(self, edge):
        return self.edges[edge]["route"] == "local"

    def is_counted(self, edge):
        return edge not in self.uncounted

    def emitted(self, vertex, port, worker, time, value, dest=None):
        """The records that a value makes which leaves a vertex on a port."""
        other = value % self.workers if dest is None else dest
        return [
            (edge, other if is_exchange else worker, time, value)
            for edge, is_exchange in self.leaving.get((vertex, port), ())
        ]

    def fed(self, worker, vertex, epoch, values):
        """The records of a feed."""
        return [it for value in values for it in self.emitted(vertex, 0, worker, (epoch,), value)]

    def sent(self, it):
        """The records of a send."""
        time, dest = tuple(it.get("at", it["time"])), it.get("dest")
        return [
            record
            for value in it["values"]
            for record in self.emitted(it["vertex"], it["port"], it["p"], time, value, dest)
        ]

    def taken(self, worker, edge, time, value):
        """The records of a take, but for what a distinct emits."""
        vertex = self.target(edge)
        found = self.passed_on(vertex, time, value)
        return self.emitted(vertex["name"], found[0], worker, *found[1:]) if found else []

    def passed_on(self, vertex, time, value):
        """What a vertex makes of a record: a port, a time and a value; None if nothing."""
        op, k = vertex["op"], vertex.get("k")
        if op == "ingress":
            return 0, (*time, 0), value
        if op == "egress":
            return 0, time[:-1], value
        if op == "feedback":
            return 0, (*time[:-1], time[-1] + 1), value
        if op in ("add", "mul"):
            return 0, time, value + k if op == "add" else value * k
        if op == "split":
            return int(value >= k), time, value
        return (0, time, value) if op == "hold" or op == "below" and value < k else None
