"""The times of a run on its graph: on each edge the times of the records that were there, in the order in
which they came."""
from rewind_tools.layout import Edge, layout
from rewind_tools.showing.graphs import kind_of
from rewind_tools.showing.svgs import box, curve, moved, picture, text
from rewind_tools.telling.commands import time_in

MOST = 4
DOES = {"ingress": "appends a 0", "egress": "drops the last", "feedback": "adds 1 to the last"}


def times_of(told):
    """The times at which each edge has had a record, as they came."""
    times = {it["name"]: [] for it in told.graph["edges"]}
    for entry in told.entries:
        for it in entry.state["processors"]:
            for place, time, _, _ in it["records"]:
                if time not in times[place]:
                    times[place].append(time)
    return times


def lines_of_times(times):
    lines = [time_in(it) for it in times[:MOST]]
    return [*lines, f"and {len(times) - MOST} more"] if len(times) > MOST else lines


def grounds(graph, drawn, sizes, labels):
    """Behind the vertices and edges of each depth that lies in a loop a ground that follows them and nothing
    else."""
    depths = {it["name"]: it["depth"] for it in graph["vertices"]}
    parts = []
    for depth in range(1, 1 + max(depths.values())):
        classes, spread = ("loop", 20) if depth % 2 else ("deep", 12)
        for it in graph["edges"]:
            if depths[it["to"]] >= depth:
                (x, y), (wide, high) = drawn.labels[it["name"]], labels[it["name"]]
                parts.append(curve(drawn.paths[it["name"]], f"{classes}-edge", wide=2 * spread))
                parts.append(box(x, y, wide + spread, high + spread, classes, spread))
        for name in (it for it, own in depths.items() if own >= depth):
            wide, high = sizes[name]
            parts.append(box(*drawn.nodes[name], wide + 2 * spread, high + 2 * spread, classes, spread))
    return parts


def vertex_parts(vertex, middle, size):
    x, y = middle
    does = DOES.get(vertex["op"])
    top = y - (12 if does else 4)
    parts = [
        box(x, y, *size),
        text(x, top, vertex["name"], "head"),
        text(x, top + 16, kind_of(vertex), "soft"),
    ]
    return parts + ([text(x, top + 32, does, "small accent")] if does else [])


def nested_loop(told, name):
    """The picture of a run whose graph has loops within loops."""
    graph, times = told.graph, times_of(told)
    wide = {"ingress": 96, "egress": 104, "feedback": 124}
    sizes = {it["name"]: (wide.get(it["op"], 78), 60) for it in graph["vertices"]}
    lines = {edge: lines_of_times(it) for edge, it in times.items()}
    labels = {
        edge: (max(map(len, it), default=3) * 7.4 + 12, 16 * len(it) + 8) for edge, it in lines.items()
    }
    edges = [Edge(it["name"], it["from"], it["to"], labels[it["name"]]) for it in graph["edges"]]
    drawn = layout(sizes, edges, gap=30, layer_gap=14)
    parts = grounds(graph, drawn, sizes, labels)
    parts += [curve(points) for points in drawn.paths.values()]
    for it in graph["vertices"]:
        parts += vertex_parts(it, drawn.nodes[it["name"]], sizes[it["name"]])
    for edge, (x, y) in drawn.labels.items():
        top = y + labels[edge][1] / 2 - 16 * len(lines[edge])
        parts += [text(x, top + 16 * row + 8, words, "fixed small") for row, words in enumerate(lines[edge])]
    head = text(20, 28, f"{name}: the times of the records on each edge, as they came", "head start")
    more = "the ground shows what lies in a loop, the stronger one what lies in a loop within it"
    head += text(20, 48, more, "small soft start")
    title = (
        f"The graph of {name} with times of records: an ingress appends a counter, a feedback adds 1, an"
        " egress drops it."
    )
    return picture(drawn.width + 50, drawn.height + 120, title, [head, moved(25, 92, parts)])
