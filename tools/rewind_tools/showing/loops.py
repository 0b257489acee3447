"""The loops of a graph and its operators by ports, and the frame round each: a rectangle in each row of the
drawing in which it has vertices, and one round each fold between them. Where another vertex stands in such a
rectangle, there are several in place of it."""
from html import escape

# How far the frame of an outermost loop goes beyond what is in it.
RIM = 14


def loops_of(graph):
    """The loops of a graph, outer ones first: of each its depth and its vertices, which edges join."""
    depths = {it["name"]: it["depth"] for it in graph["vertices"]}
    found = []
    for depth in range(1, max(depths.values(), default=0) + 1):
        group = {it: frozenset([it]) for it, at in depths.items() if at >= depth}
        for it in graph["edges"]:
            if it["from"] in group and it["to"] in group:
                joined = group[it["from"]] | group[it["to"]]
                group.update(dict.fromkeys(joined, joined))
        loops = dict.fromkeys(group[it] for it in depths if it in group)
        found += [(depth, [it for it in depths if it in inside]) for inside in loops]
    return found


def box_of(middle, size):
    """A box as its left, top, right and bottom."""
    (x, y), (wide, high) = middle, size
    return x - wide / 2, y - high / 2, x + wide / 2, y + high / 2


def around(boxes, rim):
    """The box around boxes."""
    left, top, right, bottom = zip(*boxes)
    return min(left) - rim, min(top) - rim, max(right) + rim, max(bottom) + rim


def meet(one, other):
    return one[0] < other[2] and other[0] < one[2] and one[1] < other[3] and other[1] < one[3]


def rect(box, rx=12):
    left, top, right, bottom = (round(it, 1) for it in box)
    return f'<rect x="{left:g}" y="{top:g}" width="{right - left:g}" height="{bottom - top:g}" rx="{rx}"/>'


def frames(drawn, inner, others, rim):
    """The boxes around what is in a loop: one for each row, or, if another vertex would be in it, a few."""
    found = []
    for top, bottom in drawn.bands:
        there = sorted(it for it in inner if top - 1 <= (it[1] + it[3]) / 2 <= bottom + 1)
        found += [around([it], rim) for it in joined(there, others, rim)]
    return found


def joined(boxes, others, rim):
    """The boxes, from left to right, joined to larger ones in which no other is."""
    found = []
    for it in boxes:
        both = [(at, around([one, it], 0)) for at, one in enumerate(found)]
        free = [(at, box) for at, box in both if not any(meet(around([box], rim), one) for one in others)]
        if free:
            at, box = free[0]
            found[at] = box
        else:
            found.append(it)
    return found


def loop_svg(graph, drawn, sizes, depth, inside):
    """The frame of a loop. `sizes` has those of vertices and of labels."""
    found = frames_of(graph, drawn, sizes, inside, RIM / depth)
    return f'<g class="{"deep" if depth % 2 == 0 else "loop"}">{grounds(found)}</g>'


def operator_svg(graph, drawn, sizes, name, inside):
    """The frame of an operator by ports, with its name."""
    found = frames_of(graph, drawn, sizes, inside, RIM / 2)
    left, top = found[0][:2]
    name = f'<text class="name" x="{left + 4:g}" y="{top - 3:g}">{escape(name)}</text>'
    return f'<g class="operator">{grounds(found)}{name}</g>'


def grounds(found):
    """The rims of all rectangles, and the grounds of all over them: so the rim is that of all together."""
    ground = "".join(map(rect, found))
    return f'<g class="rim">{ground}</g>{ground}'


def inner_boxes(graph, drawn, sizes, inside):
    """The boxes of some vertices and of the labels of the edges between them."""
    boxes, labels = sizes
    edges = [it for it in graph["edges"] if it["from"] in inside and it["to"] in inside]
    inner = [box_of(drawn.nodes[it], boxes[it]) for it in inside]
    return inner + [box_of(drawn.labels[it["name"]], labels[it["name"]]) for it in edges]


def frames_of(graph, drawn, sizes, inside, rim):
    """The boxes around some vertices and the edges between them."""
    boxes, _ = sizes
    edges = [it["name"] for it in graph["edges"] if it["from"] in inside and it["to"] in inside]
    inner = inner_boxes(graph, drawn, sizes, inside) + [box for it in edges for box in drawn.boxes[it]]
    others = [box_of(drawn.nodes[it], boxes[it]) for it in boxes if it not in inside]
    folds = [fold for it in edges for fold in drawn.folds[it]]
    round_ = [[box for at, box in folds if at == cut] for cut in sorted({at for at, _ in folds})]
    return frames(drawn, inner, others, rim) + [around(it, rim) for it in round_]
