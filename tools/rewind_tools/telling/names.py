"""The names and times of a line, against the graph: which of them is not there, and which has a wrong
depth."""
import functools
import json

from rewind_tools.runs import answers_after
from rewind_tools.script import HOLDING, literals_in
from rewind_tools.showing.loops import loops_of
from rewind_tools.telling import forms
from rewind_tools.telling.commands import vertex_words
from rewind_tools.telling.graph_faults import deepest
from rewind_tools.telling.forms import EDGE, PLACE, POINT, POINTS, TIME, VERTEX, listed, nearest
from rewind_tools.telling.values import shown

SEVERAL = 8
WANTED = {id(VERTEX): "vertex", id(EDGE): "edge", id(PLACE): "place"}


def named_of(graph, *ops):
    """The names of a graph's vertices of some operators."""
    return {it["name"] for it in graph["vertices"] if it["op"] in ops}


def holds_of(graph):
    """The names of the vertices whose requests are held capabilities."""
    return named_of(graph, *HOLDING)


class Graph:
    """The names of a graph that the program has read."""

    def __init__(self, value, version=1):
        self.value, self.version = value, version
        self.vertices = {it["name"]: it for it in value["vertices"]}
        self.edges = {it["name"]: it for it in value["edges"]}
        self.holds, self.distincts = holds_of(value), named_of(value, "distinct")
        self.opaques = named_of(value, "opaque")
        self.order = {name: at for at, name in enumerate([*self.vertices, *self.edges])}

    @functools.cached_property
    def loops(self):
        """The name of the innermost loop of each place that is in one: that of its feedback."""
        found = {}
        for depth, inside in loops_of(self.value):
            own = [it for it in inside if self.vertices[it]["op"] == "feedback"]
            names = [it for it in own if self.vertices[it]["depth"] == depth]
            found.update(dict.fromkeys(inside, "/".join(names)))
        return {**found, **{it: found[edge["to"]] for it, edge in self.edges.items() if edge["to"] in found}}

    def named(self, wanted):
        """The names of a kind of thing."""
        of_kind = {"vertex": self.vertices, "edge": self.edges}
        return list(of_kind.get(wanted, self.order))

    def vertex_of(self, value):
        """The vertex that a take or a notice runs."""
        name = self.edges[value["edge"]]["to"] if "edge" in value else value["vertex"]
        return vertex_words(self.vertices[name])

    def holder(self, name):
        """What a vertex that holds capabilities is."""
        op = self.vertices[name]["op"]
        return "opaque" if op == "opaque" else f"a {op}"

    def kind(self, name):
        """What a name is that of."""
        if name in self.vertices:
            return f"a vertex ({self.vertices[name]['op']})"
        return "an edge" if name in self.edges else None


def slots_of(value):
    """The names of a line of right shape: each with the kind that is wanted, and the time there if it has
    one; once for each of several times."""
    form = forms.FORMS[value["do"]]
    if "when" in form:
        return [
            slot
            for _, name, inner in literals_in(value["when"])
            for slot in slots_in(inner, forms.ATOMS[name])
        ]
    return slots_in(value, form)


def slots_in(value, form):
    slots = []
    for key, kind in form.items():
        if kind is POINT:
            slots.append((value[key][0], "place", value[key][1]))
        elif kind is POINTS:
            slots += [(name, "place", time) for name, time in value.get(key, [])]
        elif id(kind) in WANTED and key in value:
            times = [value[it] for it, its_kind in form.items() if its_kind is TIME and it in value]
            slots += [(value[key], WANTED[id(kind)], time) for time in times or [None]]
    return slots


def unknown_names(graph, value):
    """What is wrong with the names of a line, each fault in words."""
    faults = []
    for name, wanted, _ in slots_of(value):
        known = graph.named(wanted)
        if name not in known:
            faults.append(unknown_name(graph, name, wanted, known))
    return list(dict.fromkeys(faults))


def unknown_name(graph, name, wanted, known):
    """That a name is not known, with what is wanted and the nearest that there is."""
    said = f"{shown(name)} is {graph.kind(name) or 'not a name in the graph'}; expected {one(wanted)}"
    near = nearest(name, known)
    if near:
        return f"{said}; the nearest is {shown(near)}"
    some = f", the first {SEVERAL} of {len(known)}" if len(known) > SEVERAL else ""
    return f"{said}; there {'is' if len(known) == 1 else 'are'} {listed(map(shown, known[:SEVERAL]))}{some}"


def one(wanted):
    return {"vertex": "a vertex", "edge": "an edge", "place": "a vertex or an edge"}[wanted]


def wrong_times(graph, value):
    """What is wrong with the times of a line whose names are known, each fault in words."""
    faults = []
    for name, _, time in slots_of(value):
        depth = depth_at(graph, name) if time is not None else None
        if depth is not None and len(time) != depth + 1:
            right = (time + [0] * depth)[: depth + 1]
            faults.append(
                f"the time {shown(time)} has {numbers(len(time))}; at {shown(name)}, {loops(depth)}, "
                f"a time has {numbers(depth + 1)}: {parts(depth)}, as {shown(right)}"
            )
    return list(dict.fromkeys(faults))


def depth_at(graph, name):
    """The depth of a place, asked of the program: of counts at times of each length one alone has no wrong
    time."""
    asked = [
        json.dumps({"do": "count", "at": name, "time": [0] * (depth + 1)})
        for depth in range(deepest(graph.version) + 1)
    ]
    opening = [{"version": graph.version}] * (graph.version > 1) + [graph.value]
    replies = answers_after("\n".join(map(json.dumps, opening)).encode(), len(opening), asked)
    return next((depth for depth, it in enumerate(replies) if "count" in it), None)


def numbers(count):
    return f"{count} number" + "s" * (count != 1)


def loops(depth):
    return "which lies in no loop" if depth == 0 else f"at depth {depth}"


def parts(depth):
    if depth < 2:
        return "the epoch" + ["", " and a loop counter"][depth]
    return f"the epoch and {depth} loop counters"
