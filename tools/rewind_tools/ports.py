"""Operators by ports: an opaque vertex for each input and for each output, and an edge from an input's
vertex to that of each output to which the input leads.

    join = Operator("join", 2, 1)        join.in0, join.in1, join.out0, and the edges join.0-0 and join.1-0
    join.vertices(depth), join.edges     these, as the values of a graph
    join.text                            "2,1", which stands in brackets after its name in a text
    operators_of(graph)                  the operators of a graph by their names
    ports_of(operators_of(graph))        by a vertex its operator and its port, as (join, "in1")
    folded(graph)                        a graph with a vertex for each operator, for its text

Port o of an input's vertex is the way to output o. A capability of an output is one of its vertex, and holds
nothing back at the other outputs, nor at the inputs."""
import re
from typing import NamedTuple

PORT = re.compile(r"(.+)\.(in|out)([0-9]+)")


class Operator(NamedTuple):
    """An operator and how many inputs and outputs it has. 'leads' has the pairs of an input and an output
    that it leads to, None for all; 'starts' says whether each output has a capability at the start."""

    name: str
    inputs: int
    outputs: int
    leads: tuple | None = None
    starts: bool = True

    @property
    def pairs(self):
        every = ((i, o) for i in range(self.inputs) for o in range(self.outputs))
        return tuple(every) if self.leads is None else self.leads

    def ports(self):
        return [f"in{i}" for i in range(self.inputs)] + [f"out{o}" for o in range(self.outputs)]

    def vertices(self, depth):
        of_input = {"op": "opaque", "depth": depth, "ports": self.outputs}
        of_output = {**of_input, "ports": 1, **({"starts": True} if self.starts else {})}
        kinds = [of_input] * self.inputs + [of_output] * self.outputs
        return [{"name": f"{self.name}.{port}", **kind} for port, kind in zip(self.ports(), kinds)]

    @property
    def edges(self):
        return [
            {"name": f"{self.name}.{i}-{o}", "from": f"{self.name}.in{i}", "port": o,
             "to": f"{self.name}.out{o}", "route": "local"}
            for i, o in self.pairs
        ]  # fmt: skip

    @property
    def text(self):
        """What follows the name in a text."""
        leads = [] if self.leads is None else [f"{i}>{o}" for i, o in self.leads] or ["none"]
        starts = [] if self.starts else ["starts=false"]
        return " ".join([f"{self.inputs},{self.outputs}", *leads, *starts])

    def __str__(self):
        """The operator in words."""
        counts = [(self.inputs, "input"), (self.outputs, "output")]
        said = f"{self.name}: " + ", ".join(f"{n} {thing}{'s' * (n != 1)}" for n, thing in counts)
        ways = [f"input {i} leads to output {o}" for i, o in self.pairs] or ["no input leads to an output"]
        return said if self.leads is None else "; ".join([said, *ways])


def operators_of(graph):
    """The operators of a graph by name, of those that have all their vertices and edges and no others."""
    found = [PORT.fullmatch(it["name"]) for it in graph["vertices"]]
    operators = [operator_of(graph, name) for name in dict.fromkeys(it[1] for it in found if it)]
    return {it.name: it for it in operators if it}


def operator_of(graph, name):
    """The operator that a graph has by ports under a name; None if it has none."""
    vertices = [it for it in graph["vertices"] if it["name"].rpartition(".")[0] == name]
    inputs = [it["name"] for it in vertices if it["name"].startswith(f"{name}.in")]
    outputs = {it["name"] for it in vertices}.difference(inputs)
    edges = [it for it in graph["edges"] if it["from"] in inputs or it["to"] in outputs]
    leads = tuple((inputs.index(it["from"]) if it["from"] in inputs else -1, it["port"]) for it in edges)
    starts = not outputs or any("starts" in it for it in vertices)
    for made in (Operator(name, len(inputs), len(outputs), it, starts) for it in (None, leads)):
        if vertices == made.vertices(vertices[0]["depth"]) and edges == made.edges:
            return made
    return None


def ports_of(operators):
    """By the name of a vertex its operator and its port, of those that have one."""
    return {f"{it.name}.{port}": (it, port) for it in operators.values() for port in it.ports()}


def folded(graph, operators=None):
    """A graph with one vertex for each operator; an edge has the ports, and the name that it would have."""
    operators = operators_of(graph) if operators is None else operators
    ports = ports_of(operators)
    within = {edge["name"] for it in operators.values() for edge in it.edges}
    vertices, edges = {}, []
    for it in graph["vertices"]:
        operator = ports[it["name"]][0] if it["name"] in ports else None
        name = operator.name if operator else it["name"]
        vertices.setdefault(name, {**it, "name": name, "operator": operator})
    for it in graph["edges"]:
        if it["name"] in within:
            continue
        start, end = ports.get(it["from"]), ports.get(it["to"])
        edge = {**it, "into": int(end[1][2:]) if end else 0}
        edge.update({"from": start[0].name, "port": int(start[1][3:])} if start else {})
        edge.update({"to": end[0].name} if end else {})
        edges.append({**edge, "plain": plain_name(operators, edge)})
    return {"vertices": list(vertices.values()), "edges": edges}


def plain_name(operators, edge):
    """The name of an edge that is given none: the names of its ends, with a port where there are several."""
    start, end = operators.get(edge["from"]), operators.get(edge["to"])
    out = f".{edge['port']}" if start and start.outputs > 1 else ""
    into = f".{edge['into']}" if end and end.inputs > 1 else ""
    return f"{edge['from']}{out}-{edge['to']}{into}"
