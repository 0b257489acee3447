"""What is wrong with a graph that the program has refused, by the number of its answer: where in the line,
and what is right."""
from rewind_tools.script import LAST, MOST_PORTS, OPS, OPS_SINCE, OPTIONAL_OF_OPS, ORDERS, ORDER_SINCE
from rewind_tools.script import most_locations, most_processors, name_limits, ops_of
from rewind_tools.telling import habits, values
from rewind_tools.telling.forms import came_with, keys_faults, listed, nearest, value_faults
from rewind_tools.telling.commands import ports_words
from rewind_tools.telling.forms import FLAG, SIGNED, SMALL
from rewind_tools.telling.values import shown

BEYOND = {"ingress": 1, "egress": -1}


def name_fault(value, version=LAST):
    """What is wrong with a name in a script of a version, None if nothing is."""
    if values.text(value):
        return values.text(value)
    most, first = name_limits(version)
    if not 1 <= len(value.encode()) <= most:
        return f"has {len(value.encode())} bytes"
    odd = next((it for it in value if not first <= it <= "~"), None)
    return f"has {shown(odd)} in it" if odd else None


def name_words(version=LAST):
    """What a name is in a script of a version."""
    most, first = name_limits(version)
    return f"1 to {most} bytes, each " + ("from ! to ~" if first == "!" else "a space or from ! to ~")


def name_kind(version):
    return f"a text of {name_words(version)}", lambda it: name_fault(it, version)


REFERRED = ("the name of a vertex, a text", values.text)
ROUTE = values.one_of("local", "exchange")
EDGE = {"from": REFERRED, "port": SMALL, "to": REFERRED, "route": ROUTE}
ANY_LIST = values.list_of(lambda it: None)
KINDS_OF_OPS = {"signed": SIGNED, "ports": values.number((0, MOST_PORTS)), "flag": FLAG}
GRAPH = {"vertices": ("a list of vertices", ANY_LIST), "edges": ("a list of edges", ANY_LIST)}
ORDER = values.one_of(*ORDERS)


def deepest(version):
    """The greatest depth in a script of a version."""
    return 4 if version == 1 else 6


def graph_first(version):
    """Where a script of a version has its graph."""
    place = "the first line" if version == 1 else "the first line after the version line"
    return f'{place} must be the graph, as {{"vertices":[{{"name":"a","op":"input","depth":0}}],"edges":[]}}'


def form_faults(value, version):
    """What keeps a value in the graph's place from having a graph's form; that the graph comes first, if it
    has nothing of one."""
    if isinstance(value, dict) and (has_version(value) or GRAPH.keys() & value.keys()):
        return shape_faults(value, version)
    if isinstance(value, dict) and "do" not in value:
        return [graph_first(version), *shape_faults(value, version)]
    word, said = value, f"{shown(value)} {values.kind_of(value)}"
    if isinstance(value, dict):
        word, said = value["do"], "commands and queries come after it"
    other = habits.instead(word, version, False) if isinstance(word, str) else []
    return [graph_first(version), said, *other]


def has_version(value):
    return any(key.lower() == "version" for key in value)


def shape_faults(graph, version):
    """What keeps a value from having a graph's form in a script of a version: the faults of its keys, or
    those of its first wrong vertex or edge."""
    if has_version(graph):
        said = f'a version line is {{"version":N}} alone, N from 2 to {LAST}, as the first line'
        return [f"{said}, and the graph is the next"]
    faults = order_faults(graph, version)
    if faults:
        return faults
    for key in GRAPH:
        for at, it in enumerate(graph[key]):
            faults = part_faults(it, key == "vertices", version)
            if faults:
                return [f"{part_shown(key, at, it)}: {wrong}" for wrong in faults]
    return []


def order_faults(graph, version):
    """What is wrong with the keys of a graph and their values; the order came later than the others."""
    is_late = "order" in graph and version < ORDER_SINCE
    form = GRAPH | ({"order": ORDER} if "order" in graph and not is_late else {})
    came = [came_with('the key "order"', ORDER_SINCE, version)] if is_late else []
    own = {key: it for key, it in graph.items() if key != "order" or not is_late}
    return keys_faults(own, form) + value_faults(own, form) + came


def part_faults(value, is_vertex, version):
    if not isinstance(value, dict):
        return [f"it {values.kind_of(value)}, and must be an object"]
    form = form_of_vertex(value, version) if is_vertex else {"name": name_kind(version), **EDGE}
    hint = op_hint(value.get("op"), version) if is_vertex else []
    return keys_faults(value, form) + value_faults(value, form) + hint


def op_hint(op, version):
    """Of a text that is not an op of the version, with which version it came, or the nearest op."""
    if not isinstance(op, str) or op in ops_of(version):
        return []
    if op in OPS_SINCE:
        return [came_with(f"the op {shown(op)}", OPS_SINCE[op], version)]
    near = nearest(op, ops_of(version))
    return [f"the nearest op is {shown(near)}"] if near else []


def form_of_vertex(value, version):
    """The form of a vertex of this op; if the op is none, the keys may be there that some op has."""
    op = value.get("op")
    form = {"name": name_kind(version), "op": values.one_of(*ops_of(version)), "depth": SMALL}
    is_known = isinstance(op, str) and op in OPS
    keys = OPS[op] if is_known else {key: kind for of in OPS.values() for key, kind in of.items()}
    is_needed = {key: is_known and key not in OPTIONAL_OF_OPS for key in keys}
    return form | {key: KINDS_OF_OPS[kind] for key, kind in keys.items() if is_needed[key] or key in value}


def part_shown(key, at, value):
    name = value.get("name") if isinstance(value, dict) else None
    return f"{key}[{at}]" + (f" ({name})" if name and not name_fault(name) else "")


def double_names(graph):
    """The names that two vertices or edges have."""
    seen, faults = {}, []
    for key in GRAPH:
        for at, it in enumerate(graph[key]):
            here = f"{key}[{at}]"
            if it["name"] in seen:
                faults.append(f"{shown(it['name'])} is the name of {seen[it['name']]} and of {here}")
            seen.setdefault(it["name"], here)
    return faults


def unknown_names(graph):
    """The ends of edges that are no vertices."""
    vertices = [it["name"] for it in graph["vertices"]]
    edges = [it["name"] for it in graph["edges"]]
    faults = []
    for edge in graph["edges"]:
        for key in ("from", "to"):
            if edge[key] not in vertices:
                near, every = nearest(edge[key], vertices), listed(map(shown, vertices))
                hint = f"the nearest vertex is {shown(near)}" if near else f"the vertices are {every}"
                what = "is an edge and no vertex" if edge[key] in edges else "is not a vertex"
                end = f"{shown(key)}:{shown(edge[key])}"
                faults.append(f"the edge {shown(edge['name'])}: {end} {what}; {hint}")
    return faults


def bad_ports(graph):
    """The edges that leave a vertex on a port that it has not, or enter an input."""
    vertices = {it["name"]: it for it in graph["vertices"]}
    faults = []
    for edge in graph["edges"]:
        op = vertices[edge["from"]]["op"]
        ports = vertices[edge["from"]].get("ports", {"sink": 0, "split": 2}.get(op, 1))
        if edge["port"] >= ports:
            start = f"the edge {shown(edge['name'])} leaves the {op} {shown(edge['from'])}"
            faults.append(f"{start} on port {edge['port']}, which has {ports_words(ports)}")
        if vertices[edge["to"]]["op"] == "input":
            faults.append(f"the edge {shown(edge['name'])} enters {shown(edge['to'])}, which is an input")
    return faults


def wrong_depths(graph):
    """The vertices that cannot be at their depth, and the edges whose depth is not that of the vertex that
    they enter."""
    vertices = {it["name"]: it for it in graph["vertices"]}
    faults = []
    for name, it in vertices.items():
        if it["op"] == "input" and it["depth"] != 0:
            faults.append(f"the input {shown(name)} is at depth {it['depth']}; inputs are at depth 0")
        if it["op"] in ("egress", "feedback") and it["depth"] == 0:
            faults.append(f"the {it['op']} {shown(name)} is at depth 0, where there is no loop")
    for edge in graph["edges"]:
        start, end = vertices[edge["from"]], vertices[edge["to"]]
        depth = start["depth"] + BEYOND.get(start["op"], 0)
        if depth != end["depth"]:
            of = f"the {start['op']} {shown(start['name'])} of depth {start['depth']}"
            enters = f"enters {shown(end['name'])}, which is at depth {end['depth']}"
            faults.append(f"the edge {shown(edge['name'])} leaves {of} with depth {depth} and {enters}")
    return faults


def too_large(graph, version):
    """What passes the limits of a version."""
    count, most = len(graph["vertices"]) + len(graph["edges"]), most_locations(version)
    later = f"; in version {LAST} at most {most_locations(LAST)}" if most < most_locations(LAST) else ""
    faults = [f"there are {count} vertices and edges; the limit is {most}{later}"] if count > most else []
    most, later = deepest(version), "; in later versions at most 6" if version == 1 else ""
    for it in graph["vertices"]:
        if it["depth"] > most:
            faults.append(f"{shown(it['name'])} is at depth {it['depth']}; the limit is {most}{later}")
        elif it["depth"] == most and it["op"] == "ingress":
            there = f"is at depth {most}, the greatest, and enters a loop{later}"
            faults.append(f"the ingress {shown(it['name'])} {there}")
    return faults


FAULTS = {41: double_names, 42: unknown_names, 43: bad_ports, 44: wrong_depths}


def graph_faults(value, reply, version=1):
    """What is wrong with a graph that was refused by this reply in a script of a version, each fault in
    words."""
    if reply["code"] == 40:
        return form_faults(value, version)
    if reply["code"] == 45:
        return too_large(value, version)
    if reply["code"] == 48:
        most = f"a script of version {version} has at most {most_processors(version)} processors"
        later = f'with the first line {{"version":{LAST}}} there may be {most_processors(LAST)}'
        return [f"{most}; {later}"]
    if "location" in reply:
        place = shown(reply["location"])
        walk = f"a walk from {place} comes back to {place} and does not strictly advance every timestamp"
        return [f"{walk}: no feedback is on it, or an egress on it drops again what was added"]
    of_code = FAULTS.get(reply["code"])
    return of_code(value) if of_code else []
