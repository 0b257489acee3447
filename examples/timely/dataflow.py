"""A dataflow: operators with inputs and outputs, and channels between them.

The operators of a loop are in a scope of its own, which is an operator of the dataflow. Their times are
pairs: an epoch and a round. At the border of the scope, its node 0, messages enter and leave."""
import collections
from typing import NamedTuple

BORDER = 0


class Location(NamedTuple):
    """Where progress is counted: a message at an input, a capability at an output. A node is a number, or
    within a scope the scope's node and a number."""

    kind: str
    node: object
    port: int

    @property
    def scope(self):
        """The node of its scope; None of the dataflow."""
        return self.node[0] if isinstance(self.node, tuple) else None

    def across(self):
        """The location on the other side of a scope's border."""
        node, _ = self.node if self.scope else (self.node, BORDER)
        kind = "out" if self.kind == "in" else "in"
        return Location(kind, node if self.scope else (node, BORDER), self.port)


class Operator(NamedTuple):
    """An operator; each input leads to each output, `rounds` later. `logic` makes what a worker runs of it;
    a scope has none."""

    node: object
    name: str
    inputs: int
    outputs: int
    logic: type
    rounds: int = 0

    def summary(self):
        pairs = [[source, target] for source in range(self.inputs) for target in range(self.outputs)]
        return [it + [self.rounds] for it in pairs] if self.rounds else pairs

    def outs(self):
        return [Location("out", self.node, port) for port in range(self.outputs)]


class Channel(NamedTuple):
    """A channel; with `exchange` a value chooses its worker, else it stays."""

    source: Location
    target: Location
    exchange: bool


class Dataflow:
    def __init__(self):
        self.operators, self.channels = [], []

    def add(self, name, logic, inputs=(), outputs=1, scope=None, rounds=0):
        """Adds an operator, with a channel into each input: pairs of an output and whether it exchanges.
        Returns the operator's outputs."""
        number = sum(self.scope_of(it) == scope for it in self.operators) + 1
        made = Operator((scope, number) if scope else number, name, len(inputs), outputs, logic, rounds)
        self.operators.append(made)
        for port, (source, exchange) in enumerate(inputs):
            self.connect(source, Location("in", made.node, port), exchange)
        return made.outs()

    def add_scope(self, name, inputs, outputs=1):
        """Adds a scope; returns its node, and its outputs."""
        outs = self.add(name, None, inputs, outputs)
        return outs[0].node, outs

    def connect(self, source, target, exchange=False):
        self.channels.append(Channel(source, target, exchange))

    def scope_of(self, operator):
        return operator.node[0] if isinstance(operator.node, tuple) else None

    def is_scope(self, node):
        return any(it.node == node and it.logic is None for it in self.operators)

    def leaving(self, output):
        return [it for it in self.channels if it.source == output]

    def before(self, target):
        """The locations from which something can still arrive at an input."""
        into = collections.defaultdict(set)
        for it in self.channels:
            into[it.target].add(it.source)
        for it in self.operators:
            for source, port, *_ in it.summary():
                into[Location("out", it.node, port)].add(Location("in", it.node, source))
            if it.logic is None:
                for port in range(it.inputs):
                    into[Location("out", (it.node, BORDER), port)].add(Location("in", it.node, port))
                for port in range(it.outputs):
                    into[Location("out", it.node, port)].add(Location("in", (it.node, BORDER), port))
        found, left = {target}, [target]
        while left:
            new = into[left.pop()] - found
            found |= new
            left += new
        return found
