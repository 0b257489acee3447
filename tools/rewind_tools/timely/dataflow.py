"""The dataflow that logs describe, and the graph by ports that the program follows it on.

    dataflow = Dataflow(logs)           Unreadable or Unsupported, if there is none that can be followed
    dataflow.graph()                    the value of the graph's line
    dataflow.outputs, dataflow.inputs   Ports, those of the scopes' borders aside
    dataflow.ways(output)               what can lead to an output, the nearest first

Each port is an opaque vertex, an output with a capability at the start. A local edge leads from an input to
each output that the summary connects, through a feedback vertex for each round by which it delays; and a
channel is an exchange edge. By the names of its vertices the tools show an operator as one (ports.py).

Times in loops within loops compare by components, as in timely: the order of the graph is product.

A scope is an operator of the scope around it. A message enters at an input of that: an ingress vertex, or in
a region, whose times have no counter of their own, an opaque one. From there a local edge leads to an opaque
vertex within, which the channels leave that the log has from node 0. A message leaves over an egress and an
opaque vertex, the scope's output, in the same way."""
import json
from typing import NamedTuple

from rewind_tools.following.epochs import is_whole
from rewind_tools.timely.logs import Unreadable, Unsupported

MOST_PORTS = 16
# By how many rounds a summary may delay.
MOST_DELAY = 16
# The node that stands for the border of a scope, in its channels and batches; and the ports there: outside
# an input, and within what comes from it; within what leaves, and outside an output.
BORDER = 0
ENTRY, ENTERED, LEAVING, LEFT = "in", "enter", "leave", "out"


class Port:
    """An input or an output: its vertex in the graph, and its name in words. `edges` are those that leave
    it, by the port of the vertex; `depth` is how many counters its times have. At a scope's border `side`
    says what it is, and `across` is the port on the other side."""

    def __init__(self, operator, number, is_output, depth, side=None, op="opaque"):
        self.operator, self.number, self.is_output, self.depth = operator, number, is_output, depth
        self.op, self.side, self.across, self.edges = op, side, None, []
        kind = side or ("out" if is_output else "in")
        self.vertex = f"{name_of(operator)}.{kind}{number}"
        self.words = f"{operator.name} {operator.address} {kind} {number}"

    def count(self):
        """How many ports its vertex has."""
        return max(1, len(self.edges)) if self.is_output or self.side else self.operator.outputs

    def value(self):
        """Its vertex in the graph's line."""
        its = {"name": self.vertex, "op": self.op, "depth": self.depth}
        its |= {"ports": self.count()} if self.op == "opaque" else {}
        return its | ({"starts": True} if self.is_output and not self.side else {})


def name_of(operator):
    """An operator's name in the graph."""
    return f"{operator.name}-{operator.address}"


class Hop(NamedTuple):
    """An edge from a port to another, with the number of the vertex's port that it leaves. `rounds` are the
    feedback vertices on the way, each with the edge behind it."""

    edge: str
    source: Port
    port: int
    target: Port
    rounds: tuple = ()


class Way(NamedTuple):
    """How a capability at a port, or a message taken there, leads to an output: a hop, and the way on; and
    how many rounds later that is."""

    source: Port
    hop: Hop | None
    on: object
    delay: int

    def hops(self):
        way = self
        while way.hop:
            yield way.hop, way.on.delay
            way = way.on


class Scope(NamedTuple):
    """A scope: its address, how many counters its times have, and the operator that it is in the scope
    around it; None at the root."""

    address: tuple
    depth: int
    operator: object


class Dataflow:
    def __init__(self, logs):
        self.root, found = scopes_of(logs)
        self.operators = operators_of(logs, self.root, found)
        self.scopes = {}
        for address in sorted(found, key=len):
            self.add_scope(logs, address, *found[address])
        self.outputs, self.inputs, self.borders, self.ports = [], [], [], {}
        for (scope, _), it in self.operators.items():
            if it.path in self.scopes:
                self.add_border(it, self.scopes[scope].depth)
            else:
                self.add_ports(scope, it)
        every = [*self.inputs, *self.outputs, *self.borders]
        self.by_vertex = {it.vertex: it for it in every}
        # the channels into an input, and the inputs that lead to an output
        self.into = {it: [] for it in every if not it.is_output}
        self.before = {it: [] for it in every if it.is_output}
        self.connect()
        self.add_channels(logs)
        # by side and scope the ports at which an entry can be, by node and number
        self.known, self.known_ways = {}, {}
        for (side, scope, *numbers), port in self.ports.items():
            if port.is_output or self.into[port]:
                self.known.setdefault((side, scope), {})[tuple(numbers)] = port

    @property
    def is_nested(self):
        return len(self.scopes) > 1

    def add_scope(self, logs, address, path, line):
        """Adds a scope, which is an operator of the one around it."""
        if address == self.root:
            self.scopes[address] = Scope(address, 0, None)
            return
        around, operator = self.scopes.get(address[:-1]), self.operators.get((address[:-1], address[-1]))
        if around is None or operator is None:
            why = f"the scope {list(address)}, and no operator of the scope {list(address[:-1])} is it"
            raise Unsupported(path, line, why)
        depth = depth_of(logs, address)
        depth = around.depth + 1 if depth is None else depth
        if depth - around.depth not in (0, 1):
            numbers = f"times of {depth + 1} numbers in the scope {list(address)}"
            why = f"{numbers}, and of {around.depth + 1} around it"
            raise Unsupported(path, line, why)
        self.scopes[address] = Scope(address, depth, operator)

    def add_ports(self, scope, it):
        for kind, count, listed in (("in", it.inputs, self.inputs), ("out", it.outputs, self.outputs)):
            for number in range(count):
                port = Port(it, number, kind == "out", self.scopes[scope].depth)
                self.ports[kind, scope, it.node, number] = port
                listed.append(port)

    def add_border(self, it, depth):
        """Adds the ports of a scope: outside and within."""
        inside = self.scopes[it.path].depth
        enter, leave = ("ingress", "egress") if inside > depth else ("opaque", "opaque")
        scope, node, inner = it.path[:-1], it.node, it.path
        for at in range(it.inputs):
            self.ports["in", scope, node, at] = outside = Port(it, at, False, depth, ENTRY, enter)
            self.ports["out", inner, BORDER, at] = within = Port(it, at, True, inside, ENTERED)
            self.cross(outside, within)
        for at in range(it.outputs):
            self.ports["in", inner, BORDER, at] = within = Port(it, at, False, inside, LEAVING, leave)
            self.ports["out", scope, node, at] = outside = Port(it, at, True, depth, LEFT)
            self.cross(within, outside)

    def cross(self, source, target):
        """Adds the edge over a border."""
        source.across, target.across = target, source
        edge = f"{name_of(source.operator)}.{source.side[0]}{source.number}"
        source.edges.append(Hop(edge, source, 0, target))
        self.borders += [source, target]

    def connect(self):
        """Adds the edges of the summaries."""
        for (scope, _), it in self.operators.items():
            if it.path in self.scopes:
                continue
            for source, target, delay in sorted(set(it.summary)):
                inside = self.ports["in", scope, it.node, source], self.ports["out", scope, it.node, target]
                edge = f"{name_of(it)}.{source}-{target}"
                rounds = tuple((f"{edge}*{it + 1}", f"{edge}+{it + 1}") for it in range(delay))
                hop = Hop(edge, inside[0], target, inside[1], rounds)
                inside[0].edges.append(hop)
                self.before[inside[1]].append(hop)

    def add_channels(self, logs):
        for log in logs:
            for line, scope, it in log.channels:
                if scope not in self.scopes:
                    continue
                ends = self.ports.get(("out", scope, *it.source)), self.ports.get(("in", scope, *it.target))
                if None in ends:
                    raise Unreadable(log.path, line, "a channel from or to a port that no operator has")
                if all(channel.source is not ends[0] for channel in self.into[ends[1]]):
                    self.add_channel(scope, it, *ends)
                if len(ends[0].edges) > MOST_PORTS:
                    why = f"{ends[0].words} has more than {MOST_PORTS} channels"
                    raise Unsupported(log.path, line, why)

    def add_channel(self, scope, channel, source, target):
        name = "-".join(f"{node}.{port}" for node, port in channel)
        within = ".".join(map(str, scope[len(self.root) :]))
        hop = Hop(f"{within}/{name}" if within else name, source, len(source.edges), target)
        source.edges.append(hop)
        self.into[target].append(hop)

    def ways(self, output):
        """The ways to an output within its scope, those with fewer hops first; that of the output itself has
        none."""
        if output not in self.known_ways:
            ways, seen = [Way(output, None, None, 0)], {output}
            for way in ways:
                for hop in (self.before if way.source.is_output else self.into)[way.source]:
                    if hop.source not in seen:
                        seen.add(hop.source)
                        ways.append(Way(hop.source, hop, way, way.delay + len(hop.rounds)))
            self.known_ways[output] = ways
        return self.known_ways[output]

    def place(self, port):
        """The location at which a port's entries are counted: its vertex, or a channel into it."""
        return port.vertex if port.is_output else self.into[port][0].edge

    def delivered(self, port, time):
        """The inputs, with the time, at which a message arrives that is sent to an input: others than that,
        if it leaves a scope."""
        if port.side != LEAVING:
            return [(port, time)]
        return [it for hop in port.across.edges for it in self.delivered(hop.target, across(port, time))]

    def sinks(self):
        """The inputs of the operators from which no channel leads."""
        last = [(scope, it) for (scope, _), it in self.operators.items() if it.path not in self.scopes]
        last = [(scope, it) for scope, it in last if not self.has_channels(scope, it)]
        return [self.ports["in", scope, it.node, at] for scope, it in last for at in range(it.inputs)]

    def has_channels(self, scope, operator):
        outputs = (self.ports["out", scope, operator.node, number] for number in range(operator.outputs))
        return any(it.edges for it in outputs)

    def graph(self):
        vertices, edges = [], []
        for port in [*self.inputs, *self.outputs, *self.borders]:
            vertices.append(port.value())
            for hop in port.edges:
                route = "exchange" if port.is_output else "local"
                start, name, out = port.vertex, hop.edge, hop.port
                for vertex, after in hop.rounds:
                    vertices.append({"name": vertex, "op": "feedback", "depth": port.depth})
                    edges.append({"name": name, "from": start, "port": out, "to": vertex, "route": route})
                    start, name, out = vertex, after, 0
                last = {"name": name, "from": start, "port": out, "to": hop.target.vertex, "route": route}
                edges.append(last)
        # with one counter both orders are the same, and programs before version 9 have one
        order = {"order": "product"} if any(it["depth"] > 1 for it in vertices) else {}
        return {"vertices": vertices, "edges": edges, **order}


def across(port, time):
    """A time at a port of a scope's border as it is on the other side. A time is a number, or with counters
    a tuple."""
    if port.depth == port.across.depth:
        return time
    if port.depth < port.across.depth:
        return (*time, 0) if type(time) is tuple else (time, 0)
    return time[:-1] if len(time) > 2 else time[0]


def delayed(time, rounds):
    """A time so many rounds later, or earlier; None if there is none."""
    if not rounds:
        return time
    return (*time[:-1], time[-1] + rounds) if time[-1] + rounds >= 0 else None


def is_at_or_before(time, other):
    return time <= other if type(time) is not tuple else all(map(int.__le__, time, other))


def scopes_of(logs):
    """The address of the root scope, and by address each scope with a line in which it is. Of the scopes
    around the root the operators alone may be told, which stand for whole dataflows."""
    found = {}
    for log in logs:
        for line, scope, _ in log.channels:
            found.setdefault(scope, (log.path, line))
        for it in log.batches:
            if it.scope not in found:
                found[it.scope] = log.path, it.line
    for log in logs:
        for line, scope, _ in log.operators:
            if not any(scope == it[: len(scope)] for it in found):
                found.setdefault(scope, (log.path, line))
    root = min(found, key=len)
    other = next((it for it in found if it[: len(root)] != root), None)
    if other is not None:
        why = f"the scope {list(other)} beside {list(root)}; one dataflow can be followed"
        raise Unsupported(*found[other], why)
    return root, found


def depth_of(logs, address):
    """How many counters the times of a scope have; None if there are no times."""
    for log in logs:
        for batch in log.batches:
            for it in batch.messages + batch.internal if batch.scope == address else ():
                if type(it) is list and len(it) == 4 and type(it[2]) is list and it[2]:
                    return len(it[2]) - 1
    return None


def operators_of(logs, root, scopes):
    """The operators of all scopes by scope and node, in which all logs agree."""
    found = {}
    for log in logs:
        for line, scope, it in log.operators:
            if scope not in scopes:
                continue
            path = *scope, it.node
            it = it._replace(path=path, address=".".join(map(str, path[len(root) :])))
            it = it._replace(summary=summary_of(log, line, it, it.path in scopes, scope == root))
            if found.setdefault((scope, it.node), it) != it:
                why = f"operator {it.address} ({it.name}) is another one in the other logs"
                raise Unsupported(log.path, line, why)
    return found


def summary_of(log, line, it, is_scope, is_root):
    """The pairs of a summary, each with the rounds by which it delays."""
    found = []
    if it.outputs > MOST_PORTS:
        raise Unsupported(log.path, line, f"{it.name} has more than {MOST_PORTS} outputs")
    for source, target, delay in it.summary if not is_scope else ():
        if source >= it.inputs or target >= it.outputs:
            why = f"the summary of {it.name} names a port that it does not have"
            raise Unreadable(log.path, line, why)
        rounds = rounds_of(json.loads(delay))
        if rounds is None or rounds > (0 if is_root else MOST_DELAY):
            where = f"from input {source} to output {target}"
            why = f"{it.name} (operator {it.address}) delays by {delay} {where}"
            raise Unsupported(log.path, line, why)
        found.append((source, target, rounds))
    return tuple(found)


def rounds_of(delay):
    """By how many rounds of its loop a delay is: a number, or a list whose last is one; else None."""
    outside, rounds = (delay[:-1], delay[-1]) if isinstance(delay, list) and delay else ([], delay)
    return rounds if is_whole(rounds) and not any(outside) else None
