"""Short names for the program, in place of those of a graph that it does not take.

    names = Names(graph, 9)             in a script of this version; the last one, if none is given
    names.graph                 the graph with short names; the graph itself, if it needs none
    names.short                 by a name that the program does not take its short one
    names.given(b"..")          a line as the program gets it
    names.told(b"..")           a reply with the names of the graph

What follows a dot in the name of a port, as in 'Arranged: Distinct.in0', stays, so that the tools still see
an operator by its ports (ports.py)."""
import json
import re

from rewind_tools.script import LAST, name_limits

# How many bytes of a name are kept for the numbers of an operator's ports.
OF_PORT = 6
PORT = re.compile(r"(.+)(\.(?:in[0-9]+|out[0-9]+|[0-9]+-[0-9]+))", re.S)
TEXT = re.compile(rb'"(?:[^"\\]|\\.)*"')


class Names:
    def __init__(self, graph, version=LAST):
        self.graph, self.short, self.bases = graph, {}, {}
        self.most, self.first = name_limits(version)
        self.items = items_of(graph)
        found = dict.fromkeys(it["name"] for it in self.items)
        self.taken = {it for it in found if self.fits(it)}
        for it in found:
            if it and not self.fits(it):
                self.short[it] = self.shortened(it)
        if self.short:
            items = {key: [self.renamed(it) for it in graph[key]] for key in ("vertices", "edges")}
            self.graph = {**graph, **items}
        pairs = [(json.dumps(it).encode(), json.dumps(short).encode()) for it, short in self.short.items()]
        self.by_name, self.by_short = dict(pairs), {short: it for it, short in pairs}
        plain = {json.dumps(it, ensure_ascii=False).encode(): short for it, short in self.short.items()}
        self.by_name |= {it: json.dumps(short).encode() for it, short in plain.items()}

    def fits(self, name):
        """Whether the program takes a name."""
        return 0 < len(name) <= self.most and all(self.first <= it <= "~" for it in name)

    def shortened(self, name):
        port = PORT.fullmatch(name)
        base, suffix = port.groups() if port else (name, "")
        if base not in self.bases:
            self.bases[base] = self.new_base(base, self.most - OF_PORT if port else self.most)
        return self.bases[base] + suffix

    def new_base(self, base, most):
        """A short name that no other has."""
        plain, number = re.sub(r"[^\w.:+*/-]+", "_", base, flags=re.ASCII), 1
        made = plain[:most]
        while any(it == made or it.startswith(f"{made}.") for it in self.taken):
            number += 1
            made = f"{plain[: most - 1 - len(str(number))]}~{number}"
        self.taken.add(made)
        return made

    def renamed(self, item):
        its = {key: item[key] for key in ("name", "from", "to") if key in item}
        return {**item, **{key: self.short.get(it, it) for key, it in its.items()}}

    def given(self, text):
        return TEXT.sub(lambda it: self.by_name.get(it[0], it[0]), text) if self.short else text

    def told(self, text):
        return TEXT.sub(lambda it: self.by_short.get(it[0], it[0]), text) if self.short else text


def items_of(graph):
    """The vertices and edges of a graph; none, if it has not the form of one."""
    lists = [graph.get(key) for key in ("vertices", "edges")] if isinstance(graph, dict) else [None]
    items = [it for one in lists for it in (one if isinstance(one, list) else [None])]
    return items if all(isinstance(it, dict) and has_texts(it) for it in items) else []


def has_texts(item):
    its = [item.get("name"), item.get("from", ""), item.get("to", "")]
    return all(isinstance(it, str) for it in its)
