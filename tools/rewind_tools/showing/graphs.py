"""A dataflow graph as an SVG: its vertices and edges, with a place for the counts at each."""
import json
import os
import re
import shutil
import subprocess
from html import escape

from rewind_tools.layout import Drawn, Edge, layout, tidy
from rewind_tools.ports import operators_of
from rewind_tools.showing.loops import around, box_of, inner_boxes, loop_svg, loops_of, operator_svg, rect
from rewind_tools.telling.commands import op_words
from rewind_tools.wrapping import folded

# How wide a letter is, and the longest counts at a vertex and at an edge that are not drawn narrower.
LETTER, MOST_COUNT, MOST_AT = 7.3, "9 requests", "12 at (0,12)"
# How wide rows may be, and how much wider a graph may be that stands in one row.
WIDEST, SLACK = 900, 1.2
RIM = 20  # the room around the graph
LEAST_PREFIX = 4  # the shortest prefix of all names that is shown once
# The most vertices and edges that are drawn: by graphviz, and by layers.
MOST_BY_DOT, MOST_BY_LAYERS = 1024, 256
# The tip of an arrow.
TIP = (
    '<defs><marker id="tip" viewBox="0 0 8 8" refX="7" refY="4" markerUnits="userSpaceOnUse" orient="auto"'
    ' markerWidth="10" markerHeight="10"><path d="M0,0 L8,4 L0,8 z"/></marker></defs>'
)
# What makes an element one with a name of its own, and one that is pressed.
NAMED, PRESSED = 'role="group" aria-label="the graph"', 'role="button" tabindex="0"'


def kind_of(vertex):
    return op_words(vertex).removesuffix(" with a capability")


def port_of(edge):
    return f" port {edge['port']}" if edge["port"] else ""


def prefix_of(graph):
    """What all names begin with, up to a mark between parts of names; "" if that is short."""
    names = [it["name"] for it in graph["vertices"] + graph["edges"]]
    found = re.match(r".*[/.:_-]", os.path.commonprefix(names)) if len(names) > 2 else None
    return found[0] if found and len(found[0]) >= LEAST_PREFIX else ""


def without_prefix(graph):
    """The graph with the names as they are shown; its places keep their order."""
    cut = len(prefix_of(graph))
    if not cut:
        return graph
    vertices = [{**it, "name": it["name"][cut:]} for it in graph["vertices"]]
    edges = [{**it, **{key: it[key][cut:] for key in ("name", "from", "to")}} for it in graph["edges"]]
    return {"vertices": vertices, "edges": edges}


def sizes_of(graph):
    """The size of each vertex's box and of each edge's label."""

    def widest(*texts):
        return max(map(len, texts)) * LETTER

    boxes = {it["name"]: (widest(it["name"], kind_of(it), MOST_COUNT) + 14, 58) for it in graph["vertices"]}
    labels = {it["name"]: (widest(it["name"] + port_of(it), MOST_AT) + 4, 38) for it in graph["edges"]}
    return boxes, labels


def too_large(graph, uses_dot=True):
    """Why a graph is not drawn, in words; None if it is."""
    count, has_dot = len(graph["vertices"]) + len(graph["edges"]), uses_dot and shutil.which("dot")
    most = MOST_BY_DOT if has_dot else MOST_BY_LAYERS
    if count <= most:
        return None
    more = "" if has_dot or count > MOST_BY_DOT else f" (with graphviz {MOST_BY_DOT:,})"
    return f"The graph has {count:,} vertices and edges, and at most {most:,} are drawn{more}."


def laid_out(graph, uses_dot=True):
    """The graph with places for all of it: by graphviz if it is there, else by layers."""
    boxes, labels = sizes_of(graph)
    if uses_dot and shutil.which("dot"):
        drawn = by_dot(graph, boxes, labels)
        if drawn:
            return drawn
    edges = [Edge(it["name"], it["from"], it["to"], labels[it["name"]]) for it in graph["edges"]]
    return layout(boxes, edges)


def dot_source(graph, boxes, labels):
    """The graph for dot, its names as numbers; a label is an empty box of the size that is wanted."""
    number = {it["name"]: at for at, it in enumerate(graph["vertices"])}
    lines = [
        "digraph { rankdir=LR; newrank=true; nodesep=0.25; ranksep=0.22;",
        'node [shape=box, fixedsize=true, label=""];',
    ]
    for name, at in number.items():
        lines.append(f"v{at} [width={boxes[name][0] / 72:.3f}, height={boxes[name][1] / 72:.3f}];")
    lines += clusters(framed_in(graph), number, 1)
    feedbacks = {it["name"] for it in graph["vertices"] if it["op"] == "feedback"}
    for at, it in enumerate(graph["edges"]):
        wide, high = labels[it["name"]]
        size = f'width="{wide:.0f}" height="{high:.0f}"'
        box = f'<table border="0" fixedsize="true" {size}><tr><td></td></tr></table>'
        # what leaves a feedback goes back, so that the ranks of its loop go on from the loop's entry
        ends = (it["from"], it["to"])
        ends, way = (ends[::-1], "back") if it["from"] in feedbacks else (ends, "forward")
        lines.append(f"v{number[ends[0]]} -> v{number[ends[1]]} [id={at}, dir={way}, label=<{box}>];")
    return "\n".join([*lines, "}"])


def framed_in(graph):
    """The loops, and the operators by ports with room for their names: each with its depth, its vertices and
    how dot draws it."""
    loops = [(*it, "margin=14;") for it in loops_of(graph)]
    depths = {it["name"]: it["depth"] for it in graph["vertices"]}
    operators = [vertices_of(it) for it in operators_of(graph).values()]
    return loops + [(depths[it[0]] + 1, it, 'margin=8; fontsize=12; label=" ";') for it in operators]


def vertices_of(operator):
    return [f"{operator.name}.{port}" for port in operator.ports()]


def clusters(frames, number, depth):
    """A cluster for each of the frames of a depth, with those in it."""
    lines = []
    for _, inside, how in [it for it in frames if it[0] == depth]:
        inner = [it for it in frames if it[0] > depth and set(it[1]) <= set(inside)]
        vertices = "; ".join(f"v{number[it]}" for it in inside)
        within = " ".join(clusters(inner, number, depth + 1))
        lines.append(f"subgraph cluster_{depth}_{number[inside[0]]} {{ {how} {within} {vertices} }}")
    return lines


def by_dot(graph, boxes, labels):
    """The layout that dot makes, or None if it makes none."""
    ran = subprocess.run(
        ["dot", "-Tjson"], input=dot_source(graph, boxes, labels), text=True, capture_output=True
    )
    try:
        said = json.loads(ran.stdout)
        _, _, width, height = map(float, said["bb"].split(","))

        def point(text):
            return (float(text.split(",")[0]), height - float(text.split(",")[1]))

        names = [it["name"] for it in graph["vertices"]]
        vertices = [it for it in said.get("objects", []) if "pos" in it]  # others are the frames of loops
        nodes = {names[int(it["name"][1:])]: tidy(point(it["pos"])) for it in vertices}
        middles, paths = {}, {}
        for it in said.get("edges", []):
            name = graph["edges"][int(it["id"])]["name"]
            *tip, first, rest = it["pos"].replace("e,", "").replace("s,", "").split(" ", 2)
            points = [first, *rest.split()]
            if "s," in it["pos"]:
                points.reverse()
            paths[name] = [tidy(point(word)) for word in [*points, *tip * 3]]
            middles[name] = tidy(point(it["lp"]))
        return Drawn(width, height, nodes, middles, paths)
    except (ValueError, KeyError, IndexError):
        return None


def path_text(points):
    """An edge's points as an SVG path."""
    rest = " ".join(f"{x:g},{y:g}" for x, y in points[1:])
    return f"M{points[0][0]:g},{points[0][1]:g} C{rest}"


def graph_svg(graph, drawn):
    """The graph's picture. Each place has its number in the order of listing, by which the counts are filled
    in. A graph that is too wide is folded into rows."""
    boxes, labels = sizes = sizes_of(graph)
    width = WIDEST if drawn.width > SLACK * WIDEST else drawn.width
    operators = operators_of(graph).values()
    framed = {it for operator in operators for it in vertices_of(operator)}
    # with room for the names of operators
    tall = {it: (wide, high + 12 * (it in framed)) for it, (wide, high) in boxes.items()}
    drawn = folded(drawn, tall, labels, width, ends_of(graph, drawn, sizes))
    vertices, edges = enumerate(graph["vertices"]), [*enumerate(graph["edges"], len(graph["vertices"]))]
    parts = [loop_svg(graph, drawn, sizes, *it) for it in loops_of(graph)]
    parts += [operator_svg(graph, drawn, sizes, it.name, vertices_of(it)) for it in operators]
    parts += [edge_svg(it, drawn.curves[it["name"]], at) for at, it in edges]
    parts += [vertex_svg(it, box_of(drawn.nodes[it["name"]], boxes[it["name"]]), at) for at, it in vertices]
    parts += [label_svg(it, box_of(drawn.labels[it["name"]], labels[it["name"]]), at) for at, it in edges]
    wide, high = drawn.width + 2 * RIM, drawn.height + 2 * RIM
    size = f'viewBox="{-RIM} {-RIM} {wide:g} {high:g}" width="{wide:g}" data-width="{wide:g}"'
    start = f'<svg xmlns="http://www.w3.org/2000/svg" class="graph" {NAMED} {size} data-height="{high:g}">'
    return f"{start}{TIP}{''.join(parts)}</svg>"


def ends_of(graph, drawn, sizes):
    """The left and right ends of the loops and of the operators by ports."""
    found = [inner_boxes(graph, drawn, sizes, inside) for _, inside, _ in framed_in(graph)]
    return [around(it, 0)[::2] for it in found]


def edge_svg(edge, curve, number):
    route = "exchange" if edge["route"] == "exchange" else "local"
    return f'<path class="edge {route}" data-edge="{number}" d="{path_text(curve)}" marker-end="url(#tip)"/>'


def vertex_svg(vertex, box, number):
    texts = {"name": (17, escape(vertex["name"])), "kind": (33, escape(kind_of(vertex))), "count": (50, "")}
    return place_svg("vertex", number, rect(box, 9), box, texts)


def label_svg(edge, box, number):
    left, top, right, bottom = box
    name = f'{escape(edge["name"])}<tspan class="kind">{port_of(edge)}</tspan>'
    ground = rect((left, top + 2, right, bottom - 2), 6)
    return place_svg("label", number, ground, box, {"name": (15, name), "count": (31, "")})


def place_svg(kind, number, ground, box, texts):
    """A place with its ground, and texts by their classes, each so far below the top of its box."""
    x, top = (box[0] + box[2]) / 2, box[1]
    start = f'<g class="place {kind}" data-place="{number}" {PRESSED}><title></title>{ground}'
    lines = [
        f'<text class="{name}" lengthAdjust="spacingAndGlyphs" x="{x:g}" y="{top + below:g}">{text}</text>'
        for name, (below, text) in texts.items()
    ]
    return f"{start}{''.join(lines)}</g>"
