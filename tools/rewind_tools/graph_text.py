"""A graph without JSON: a short text of paths, one path per line.

    # each word is sent to the worker that counts it
    words(input) --exchange--> total(sum) --> out(sink)

    read(lines)              the graph of a text's lines, as the value of the graph's line
    text_of(graph)           the text of such a value; Wrong, if no text has it
    json_of_graph(graph)     the graph's line
    with_json(script)        a script's bytes with the graph's line in place of the text, if it has one

A vertex is NAME(OP) where it is first mentioned, and NAME after that. After OP come k=NUMBER, which add,
mul, below and split must have, ports=NUMBER, which opaque must have, starts=true, which opaque may have,
and depth=NUMBER. An arrow is --> for the route local and --exchange--> for exchange. Between -- and --> may
also stand [NAME], the name of the edge, and port=NUMBER. Without them an edge from a to b has the name a-b
and leaves on port 0.

NAME[INPUTS,OUTPUTS] declares an operator by its ports (rewind_tools/ports.py), as join[2,1]: each input
leads to each output. After the numbers may stand which lead where, as 0>0 1>1 or none, starts=false and
depth=NUMBER. An arrow to such an operator may have to=NUMBER, its input, and port= is an output.

A line order=product gives the order of the graph's times, as order=lexicographic, which is that of a graph
without such a line.

A depth that is not given follows along the edges from the inputs, which are at depth 0, and from the depths
that are given. Where there is neither, the first vertex is at depth 0. # begins a comment. A name with other
characters than letters, digits, _ . / : + * and single hyphens is written as a JSON text, as "a#1". In a
script an empty line ends the text.

A text that is read has the form of a graph, each name once, and a vertex at each end of an edge. All else,
such as ports and depths that do not fit, is left to the program. Wrong says the line, the column and the
reason."""
import collections
import contextlib
import json
import re
from typing import NamedTuple

from rewind_tools import ports
from rewind_tools.runs import json_of
from rewind_tools.script import LAST, MOST_PORTS, OPS, OPTIONAL_OF_OPS, ORDERS
from rewind_tools.short_names import Names
from rewind_tools.telling import values
from rewind_tools.telling.forms import listed, nearest
from rewind_tools.telling.graph_faults import BEYOND, double_names, name_fault, name_words, shape_faults
from rewind_tools.telling.graph_faults import unknown_names

# A line that is printed is longer only for a single edge.
WIDTH = 100
PLAIN = re.compile(r"[\w./:+*]+(?:-[\w./:+*]+)*", re.ASCII)
WORD, KEY, NUMBER = re.compile(r"[A-Za-z]+"), re.compile(r"([A-Za-z]+)[ \t]*="), re.compile(r"-?[0-9]+")
BLANKS = re.compile(r"[ \t]*")
# How a text of paths begins in a script.
BEGINS = re.compile(r'\s*(?:"(?:\\.|[^"\\])*"|[^\s"{}()\[\]]+)\s*(?:\(|--|\[\d)|[^{]*-->|\s*order *=')
ARROWS = "an arrow is -->, --exchange-->, --[NAME]--> or --port=1-->"
LIMITS = {"k": values.SIGNED, "ports": (0, MOST_PORTS)}
LIMITS.update(dict.fromkeys(("depth", "port", "to"), values.SMALL))
LEAD, ORDER = re.compile(r"[0-9]+>[0-9]+|none\b"), re.compile(r"order[ \t]*=[ \t]*([A-Za-z]*)")
PORT_KEYS = "stand ways, as 0>0, of an input to an output, or none, starts= and depth="
FLAGS = [key for of in OPS.values() for key, kind in of.items() if kind == "flag"]
# How many faults of a value are said.
MOST_FAULTS = 3
NO_VERTICES = "# no vertices\n"


class Wrong(Exception):
    """A text or a value that is not a graph: its words have the place and the reason."""


def at_place(number, column, why):
    return Wrong(f"line {number}, column {column}: {why}")


class Scanner:
    """One line of the text, and the position up to which the line is read."""

    def __init__(self, text, number, any_names):
        self.text, self.number, self.at = text.rstrip(" \t\r\n"), number, 0
        self.any_names = any_names

    def name_fault(self, name):
        """What is wrong with a name, None if nothing is."""
        return "has no letter" if not name else None if self.any_names else name_fault(name)

    def wrong(self, why, at=None):
        return at_place(self.number, (self.at if at is None else at) + 1, why)

    def take(self, form):
        """Takes what matches a form after blanks, or a text: None if nothing does."""
        self.at = BLANKS.match(self.text, self.at).end()
        if isinstance(form, str):
            found = form if self.text.startswith(form, self.at) else None
            self.at += len(found or "")
            return found
        found = form.match(self.text, self.at)
        self.at = found.end() if found else self.at
        return found and found[found.lastindex or 0]

    def is_at_end(self):
        self.take("")
        return self.at == len(self.text) or self.text[self.at] == "#"

    def here(self):
        """What stands here, in words."""
        if self.is_at_end():
            return "the line ends here"
        return f"{values.shown(re.match(r'[^ ]+', self.text[self.at :])[0], 24)} stands here"


class Vertex(NamedTuple):
    """A vertex as it is declared: what is given in its brackets, and where it stands."""

    op: str
    given: dict
    number: int
    column: int


class Parts:
    """What has been read of a graph: its vertices by their names, its edges, the line of each name, the
    operators by their ports, and the order of its times by the key, if it is given."""

    def __init__(self):
        self.vertices, self.edges, self.named, self.operators, self.order = {}, [], {}, {}, {}

    def name(self, name, line, at, advice=""):
        """Notes that a vertex or an edge has a name, which no other may have."""
        if name in self.named:
            before = f"a vertex or an edge in line {self.named[name]} has the name {name} already"
            raise line.wrong(before + advice, at)
        self.named[name] = line.number


def read_name(line, of):
    """A name, in quotation marks or without."""
    line.take("")
    begin = line.at
    if line.text.startswith('"', begin):
        try:
            name, line.at = json.JSONDecoder().raw_decode(line.text, begin)
        except ValueError:
            raise line.wrong("a name in quotation marks is a JSON text, which this is not") from None
    else:
        name = line.take(PLAIN)
        if name is None:
            raise line.wrong(f"the name of {of} is missing: {line.here()}")
        odd = line.text[line.at : line.at + 1]
        if odd and odd not in ' \t([-]#"':
            raise line.wrong(f"a name with {values.shown(odd)} in it is written in quotation marks")
    fault = "is not a name" if re.search(r"[\ud800-\udfff]", name) else line.name_fault(name)
    if fault:
        raise line.wrong(f"the name {values.shown(name)} {fault}; a name has {name_words()}", begin)
    return name


def read_number(line, key):
    """The number after a key, within the key's limits."""
    begin = line.at
    word = line.take(NUMBER)
    if word is None:
        raise line.wrong(f"{key}= needs a number: {line.here()}")
    low, high = LIMITS[key]
    if len(word) > 20 or not low <= int(word) <= high:
        raise line.wrong(f"{key} is a number from {low} to {high}", begin)
    return int(word)


def read_flag(line, key):
    """The true or false after a key."""
    word = line.take(WORD)
    if word not in ("true", "false"):
        raise line.wrong(f"{key}= needs true or false")
    return word == "true"


def read_op(line, name):
    """What stands in the brackets of a vertex: its operator, and the numbers that are given."""
    line.take("")
    begin = line.at
    op = line.take(WORD)
    if op not in OPS:
        near = nearest(op, OPS) if op else None
        hint = f"the nearest is {near}" if near else f"the operators are {listed(OPS)}"
        is_none = f"{op} is not an operator" if op else f"the operator of {name} is missing: {line.here()}"
        raise line.wrong(f"{is_none}; {hint}", begin)
    given = {}
    while not line.take(")"):
        at = line.at
        key = line.take(KEY)
        if key is None and line.take(NUMBER):
            raise line.wrong("a number has its key before it, as k=1 or depth=1", at)
        if key is None:
            raise line.wrong(f"the ')' of {name} is missing: {line.here()}")
        wrong = key_fault(op, key)
        if wrong or key in given:
            raise line.wrong(wrong or f"{key} is given twice", at)
        given[key] = read_flag(line, key) if key in FLAGS else read_number(line, key)
    for key in OPS[op]:
        if key not in given and key not in OPTIONAL_OF_OPS:
            raise line.wrong(f"{op} needs a number {key}, as {written(name)}({op} {key}=1)", begin)
    return op, given


def key_fault(op, key):
    """What is wrong with a key in the brackets of a vertex, None if nothing is."""
    having = {it: [op for op, of in OPS.items() if it in of] for it in ("k", "ports", "starts")}
    if key == "depth" or op in having.get(key, ()):
        return None
    if key in having:
        return f"{op} has no {key}, which is a key of {listed(having[key])}"
    return f"{key} is not a key of a vertex; the keys are {listed(['depth', *having])}"


def read_vertex(line, parts):
    """The name of a vertex, which is declared where it is first mentioned."""
    line.take("")
    begin = line.at
    name = read_name(line, "a vertex")
    is_by_ports = line.text.startswith("[", line.at)
    if is_by_ports or line.take("("):
        if name in parts.vertices or name in parts.operators:
            before = f"{name} has its operator in line {parts.named[name]} already"
            raise line.wrong(f"{before}; after that it is {written(name)} alone", begin)
        parts.name(name, line, begin)
        if is_by_ports:
            read_ports(line, parts, name, begin)
        else:
            op, given = read_op(line, name)
            parts.vertices[name] = Vertex(op, given, line.number, begin + 1)
    elif name not in parts.vertices and name not in parts.operators:
        near = nearest(name, [*parts.vertices, *parts.operators])
        hint = f"; the nearest vertex is {near}" if near else ""
        why = f"{name} needs an operator at its first mention, as {written(name)}(sum)"
        raise line.wrong(why + hint, begin)
    return name


def read_ports(line, parts, name, begin):
    """The ports of an operator, in brackets: adds its vertices and the edges between them."""
    line.take("[")
    at, (inputs, _, outputs) = line.at, (line.take(NUMBER), line.take(","), line.take(NUMBER))
    is_none = outputs is None or not 0 < len(inputs) + len(outputs) < 5
    if is_none or not 0 < int(inputs) + int(outputs) or max(int(inputs), int(outputs)) > MOST_PORTS:
        counts = f"its inputs and its outputs, from 0 to {MOST_PORTS} each"
        raise line.wrong(f"{written(name)} has {counts}, as {written(name)}[2,1]", at)
    made = ports.Operator(name, int(inputs), int(outputs))
    every, leads, given = made.pairs, [], {}
    while not line.take("]"):
        at, lead = line.at, line.take(LEAD)
        pair = tuple(map(int, lead.split(">"))) if lead and lead != "none" else None
        key = None if lead else line.take(KEY)
        if pair and (pair not in every or pair in leads) or not lead and key not in ("depth", "starts"):
            why = f"in the brackets of {name} {PORT_KEYS}"
            raise line.wrong(f"{why}, and not {values.shown(line.text[at:].strip(), 24)}", at)
        leads += [pair] if pair else []
        made = made._replace(leads=tuple(sorted(leads))) if lead else made
        if key:
            given[key] = read_flag(line, key) if key in FLAGS else read_number(line, key)
    made = made._replace(starts=given.pop("starts", True))
    for it in [*made.vertices(0), *made.edges]:
        if line.name_fault(it["name"]):
            raise line.wrong(f"the name {it['name']} {name_fault(it['name'])}: {name} is too long", begin)
        parts.name(it["name"], line, begin)
    for it in made.vertices(0):
        keys = {key: it[key] for key in OPS["opaque"] if key in it}
        parts.vertices[it["name"]] = Vertex("opaque", {**keys, **given}, line.number, begin + 1)
    parts.edges += made.edges
    parts.operators[name] = made


def read_arrow(line):
    """What an arrow gives: its route, its name and its port, as far as they are there."""
    if not line.take("--"):
        raise line.wrong(f"an arrow or the end of the line is expected: {line.here()}; {ARROWS}")
    given = {}
    if line.text.startswith(">", line.at):
        line.at += 1
        return given
    while not line.take("-->"):
        at = line.at
        if line.take("["):
            key, value = "name", read_name(line, "an edge")
            if not line.take("]"):
                raise line.wrong(f"the ']' after the name of an edge is missing: {line.here()}")
        elif key := line.take(KEY):
            if key not in ("port", "to"):
                raise line.wrong(f"{key} is not a key of an edge, which has port and to; {ARROWS}", at)
            value = read_number(line, key)
        else:
            key, value = "route", line.take(WORD)
            if value is None:
                raise line.wrong(f"the --> of an arrow is missing: {line.here()}; {ARROWS}")
            if value not in ("local", "exchange"):
                raise line.wrong(f"{value} is not a route: a route is local or exchange; {ARROWS}", at)
        if key in given:
            raise line.wrong(f"the {key} of an edge is given twice", at)
        given[key] = value
    return given


def read_order(line, parts):
    """The order of a graph's times, if a line gives that; whether it does."""
    order = line.take(ORDER)
    if order is None:
        return False
    if order not in ORDERS or parts.order or not line.is_at_end():
        twice = "the order is given twice"
        right = f"order= is {listed(ORDERS, 'or')}, in a line of its own"
        raise line.wrong(twice if parts.order else right, 0)
    parts.order = {"order": order}
    return True


def read_path(line, parts):
    """A path: vertices with an arrow between each two."""
    start = read_vertex(line, parts)
    while not line.is_at_end():
        begin = line.at
        given = read_arrow(line)
        end = read_vertex(line, parts)
        ends = {"from": start, "port": given.get("port", 0), "to": end, "into": given.get("to", 0)}
        name = given.get("name", ports.plain_name(parts.operators, ends))
        if "name" not in given and line.name_fault(name):
            why = f"the name {name} of the edge {name_fault(name)}; give another, as --[NAME]-->"
            raise line.wrong(why, begin)
        parts.name(name, line, begin, "; give another, as --[NAME]-->")
        edge = {"name": name, **ends_of(line, parts.operators, ends, begin)}
        parts.edges.append({**edge, "route": given.get("route", "local")})
        start = end


def ends_of(line, operators, ends, begin):
    """The vertices of an edge, of which one or both may be ports of an operator."""
    start, end = operators.get(ends["from"]), operators.get(ends["to"])
    if start and ends["port"] >= start.outputs or ends["into"] >= (end.inputs if end else 1):
        is_start = start and ends["port"] >= start.outputs
        has = str(start if is_start else end or f"{ends['to']} has no inputs by number")
        raise line.wrong(f"there is no such port; {has}", begin)
    of_port = {"from": f"{start.name}.out{ends['port']}", "port": 0} if start else {}
    into = {"to": f"{end.name}.in{ends['into']}"} if end else {}
    return {key: it for key, it in {**ends, **of_port, **into}.items() if key != "into"}


def spread(known, around, names):
    """Adds to the known depths those that follow from the depths of some vertices along the edges."""
    left = collections.deque(names)
    while left:
        name = left.popleft()
        for other, deeper in around[name]:
            if other not in known:
                known[other] = known[name] + deeper
                left.append(other)


def depths(ops, edges, given):
    """The depth of each vertex: the given one, 0 of an input, or what follows from these along the edges."""
    around = {name: [] for name in ops}
    for it in edges:
        deeper = BEYOND.get(ops[it["from"]], 0)
        around[it["from"]].append((it["to"], deeper))
        around[it["to"]].append((it["from"], -deeper))
    known = {name: given.get(name, 0) for name, op in ops.items() if name in given or op == "input"}
    spread(known, around, list(known))
    for name in ops:
        if name not in known:
            known[name] = 0
            spread(known, around, [name])
    return known


def read(lines, first=1, any_names=False):
    """The graph of a text's lines, of which the first has this number; with any names, or those that the
    program takes."""
    parts = Parts()
    for number, text in enumerate(lines, first):
        line = Scanner(text, number, any_names)
        if line.text.startswith("{"):
            raise line.wrong("an empty line ends the graph, and comes before the lines of the script")
        if not line.is_at_end() and not read_order(line, parts):
            read_path(line, parts)
    given = {name: it.given["depth"] for name, it in parts.vertices.items() if "depth" in it.given}
    known = depths({name: it.op for name, it in parts.vertices.items()}, parts.edges, given)
    vertices = []
    for name, it in parts.vertices.items():
        if known[name] < 0:
            why = f"{name} would be at depth {known[name]}, since an egress is outside of all loops"
            advice = "an ingress enters a loop, and depth=1 after an operator gives a depth"
            raise at_place(it.number, it.column, f"{why}; {advice}")
        more = {key: it.given[key] for key in OPS[it.op] if key in it.given}
        vertices.append({"name": name, "op": it.op, "depth": known[name], **more})
    return {"vertices": vertices, "edges": parts.edges, **parts.order}


def written(name):
    """A name as the text has it."""
    return name if PLAIN.fullmatch(name) else json.dumps(name)


def given_depths(graph):
    """The depths that the text has to give, since others would follow without them."""
    ops = {it["name"]: it["op"] for it in graph["vertices"]}
    given, is_done = {}, False
    while not is_done:
        known = depths(ops, graph["edges"], given)
        wrong = [it for it in graph["vertices"] if known[it["name"]] != it["depth"]]
        given.update({it["name"]: it["depth"] for it in wrong[:1]})
        is_done = not wrong
    return given


def arrow_of(edge):
    """An edge as the text has it."""
    name = [] if edge["name"] == edge["plain"] else [f"[{written(edge['name'])}]"]
    port = [f"port={edge['port']}"] if edge["port"] else []
    port += [f"to={edge['into']}"] if edge["into"] else []
    route = ["exchange"] if edge["route"] == "exchange" else []
    given = " ".join(name + port + route)
    return f"--{given}-->" if given else "-->"


class Printing:
    """The lines of a graph's text: its edges in their order, and each vertex declared in its order."""

    def __init__(self, graph):
        self.vertices, self.given = graph["vertices"], given_depths(graph)
        self.order = {it["name"]: at for at, it in enumerate(self.vertices)}
        self.declared, self.lines, self.end = 0, [], None

    def are_next(self, names):
        """Whether vertices that are mentioned in this order are declared, or the next to be."""
        reached = self.declared
        for it in names:
            if self.order[it] > reached:
                return False
            reached += self.order[it] == reached
        return True

    def mention(self, name):
        if self.order[name] < self.declared:
            return written(name)
        it = self.vertices[self.declared]
        self.declared += 1
        keys = ["depth"] * (name in self.given)
        keys = keys if it["operator"] else [key for key in OPS[it["op"]] if key in it] + keys
        given = "".join(f" {key}={values.shown(it[key])}" for key in keys)
        by_ports = it["operator"]
        return written(name) + (f"[{by_ports.text}{given}]" if by_ports else f"({it['op']}{given})")

    def declare(self):
        """Adds the next vertex in a line of its own."""
        self.lines.append(self.mention(self.vertices[self.declared]["name"]))
        self.end = None

    def add(self, edge):
        """Adds an edge, to the last path if the edge continues that."""
        if edge["from"] == self.end and self.are_next([edge["to"]]):
            declared = self.declared
            longer = f"{self.lines[-1]} {arrow_of(edge)} {self.mention(edge['to'])}"
            if len(longer) <= WIDTH:
                self.lines[-1], self.end = longer, edge["to"]
                return
            self.declared = declared
        while not self.are_next([edge["from"], edge["to"]]):
            self.declare()
        start = self.mention(edge["from"])
        self.lines.append(f"{start} {arrow_of(edge)} {self.mention(edge['to'])}")
        self.end = edge["to"]


def text_of(graph):
    """The text of a graph's value."""
    short = Names(graph).graph
    faults = shape_faults(short, LAST) or double_names(short) or unknown_names(short)
    if faults:
        raise Wrong("; ".join(faults[:MOST_FAULTS]))
    order = f"order={graph['order']}\n" if "order" in graph else ""
    by_ports = order + printed(ports.folded(graph))
    with contextlib.suppress(Wrong):
        if read(by_ports.split("\n"), any_names=True) == graph:
            return by_ports
    return order + printed(ports.folded(graph, {}))


def printed(graph):
    """The text of a graph whose operators by ports are folded."""
    printing = Printing(graph)
    for edge in graph["edges"]:
        printing.add(edge)
    while printing.declared < len(printing.vertices):
        printing.declare()
    return "".join(it + "\n" for it in printing.lines) or NO_VERTICES


def json_of_graph(graph):
    """The graph's line, without its newline."""
    return json.dumps(graph, separators=(",", ":"))


def is_text(line):
    """Whether a text of paths begins with a line's bytes."""
    return json_of(line) is None and bool(BEGINS.match(line.decode(errors="replace")))


def is_left_out(line):
    return not line.strip() or line.lstrip().startswith(b"#")


def graph_at(lines):
    """The position of a script's graph among its lines, after a version line; None if there is none."""
    found = (at for at, it in enumerate(lines) if not is_left_out(it))
    first = next(found, None)
    value = None if first is None else json_of(lines[first])
    return next(found, None) if isinstance(value, dict) and value.keys() == {"version"} else first


def graph_and_end(lines, begin, any_names=False):
    """The graph of a text that begins at a position of a script's lines, and where the text ends."""
    end = next((at for at in range(begin, len(lines)) if not lines[at].strip()), len(lines))
    graph = read([it.decode(errors="replace") for it in lines[begin:end]], begin + 1, any_names)
    after = next((at for at in range(end, len(lines)) if not is_left_out(lines[at])), None)
    if after is not None and is_text(lines[after]):
        why = f"the graph ends at the empty line {end + 1}, and no path comes after that"
        raise at_place(after + 1, 1, why)
    return graph, end


def with_json(script, any_names=False):
    """A script's bytes with the graph's line in place of a text of paths, and blank lines, so that all other
    lines have their numbers; the same bytes, if the graph is not a text."""
    lines = script.split(b"\n")
    begin = graph_at(lines)
    if begin is None or not is_text(lines[begin]):
        return script
    graph, end = graph_and_end(lines, begin, any_names)
    head = [b"" if is_left_out(it) else it for it in lines[:begin]]
    text = [json_of_graph(graph).encode(), *[b""] * (end - begin - 1)]
    return b"\n".join(head + text + lines[end:])
