"""What is in sight of a session on its page. Each part is cut to a length that grows neither with the kept
steps nor with what is outstanding."""
from rewind_tools.showing.states import changes, frontiers_of, kinds_of, place_counts, point_row, queues_of
from rewind_tools.telling.commands import at, command_words, plain, processor_of, time_in
from rewind_tools.telling.table import Points

# How much is in sight: positions around the cursor, candidates, points of the table, things of one kind that
# a processor holds, times at a place, changes of a queue, and entries of a change.
STEPS, CANDIDATES, POINTS, HELD, TIMES, CHANGES, ENTRIES = 60, 60, 60, 40, 20, 12, 8
# Up to how many steps in sight are listed, each by itself, and how many values a label has.
MOST_STEPS, LABELLED = 400, 3


def cut(entries, most, words):
    """The first entries in words, and a last text that says how many more there are."""
    more = len(entries) - most
    return [words(it) for it in entries[:most]] + [f"and {more} more"] * (more > 0)


def page_of(listed, first, most):
    """Of a list the page with number `first`: the number of its first element, and its elements."""
    first = max(0, min(first, len(listed) - 1)) // most * most
    return first, listed[first : first + most]


def state_in_sight(state, order, ops, fronts, rows):
    """A state as the page shows it. `ops` has the operator of each vertex, `fronts` the replies to the
    queries for frontiers. Of the table it has a page: `rows` are the number of a point on it, and how many
    points a page has."""
    points, fronts = Points(state, order), frontiers_of(fronts)
    listed = points.all()
    first, shown = page_of(listed, *rows)
    return {
        "places": place_counts(state, points, ops, TIMES),
        "points": [point_row(points, it, fronts) for it in shown],
        "first": first,
        "count": len(listed),
        "queues": [queue_in_sight(*it) for it in queues_of(state)],
        "processors": [held_in_sight(it, ops) for it in state["processors"]],
    }


def queue_in_sight(sender, receiver, queue):
    """A queue's first changes, each with its first entries."""

    def change(entries):
        return ", ".join(cut(entries, ENTRIES, lambda it: changes([it])[0]))

    return {"from": sender, "to": receiver, "changes": cut(queue, CHANGES, change)}


def held_in_sight(processor, ops):
    """What a processor holds, by kind."""
    return {
        kind: cut(entries, HELD, words) for kind, (entries, words) in kinds_of(processor, ops).items()
    }


def window(cursor, kept, count=STEPS, first=None, of=None):
    """The first and the last step in sight, of so many: from `first` on if the cursor is there, or is the
    one `of` which that was chosen; else around the cursor. page/known.js has the same."""
    if first is None or cursor != of and not first - 1 <= cursor < first + count:
        first = cursor - count // 2
    first = max(1, min(first, kept - count + 1))
    return first, min(kept, first + count - 1)


def key_of(place, time, value):
    """A record, by which the arrow to it finds the step that takes it."""
    return f"{plain(at(place, time))} {value}"


def item(position, step):
    """A step as the page shows it; of a take also the record."""
    more = {"takes": key_of(step["edge"], step["time"], step["value"])} if step["do"] == "take" else {}
    more.update({"from": step["from"]} if step["do"] == "receive" else {})
    more.update({"at": step.get("vertex", step.get("edge"))} if {"vertex", "edge"} & step.keys() else {})
    more.update({"time": time_in(step["time"])} if "time" in step else {})
    return {
        "position": position,
        "kind": step["do"],
        "p": processor_of(step),
        "words": plain(command_words(step)),
        "label": plain(label(step)),
        **more,
    }


def label(step):
    """A step in a word or two."""
    kind = step["do"]
    if kind in ("feed", "send"):
        return ",".join(map(str, step["values"][:LABELLED])) + ".." * (len(step["values"]) > LABELLED)
    if kind in ("notice", "release"):
        return at(step["vertex"], step["time"])
    return {"take": str(step.get("value")), "receive": f"from {step.get('from')}"}.get(kind, "")


def queue_moves(step, processors):
    """The queues that a step makes longer, by 1, or shorter, by -1: a broadcast adds a change to the queue
    to each processor, and a receive takes the first change of one queue."""
    if step["do"] == "broadcast":
        return [(step["p"], q, 1) for q in range(processors)]
    return [(step["from"], step["to"], -1)] if step["do"] == "receive" else []


def messages(steps, first, cursor, queues):
    """The updates that steps in sight send and receive: sender, receiver, the position of each end, None for
    one that is not in sight. `steps` lead to the positions from `first` on, and `queues` are those at the
    cursor."""
    moves = [queue_moves(it, len(queues)) for it in steps]
    older = {(p, q): len(it) for p, row in enumerate(queues) for q, it in enumerate(row)}
    for p, q, by in (it for moved in moves[: cursor - first + 1] for it in moved):
        older[p, q] -= by
    begun, found = {ends: [] for ends in older}, []
    for position, (p, q, by) in ((at, it) for at, moved in enumerate(moves, first) for it in moved):
        if by > 0:
            begun[p, q].append(position)
        elif older[p, q]:
            older[p, q] -= 1
            found.append([p, q, None, position])
        else:
            found.append([p, q, begun[p, q].pop(0), position])
    found += [[p, q, position, None] for (p, q), left in begun.items() for position in left]
    return [it for it in found if it[0] != it[1]]
