"""What a page shows of a state, all of it as text."""
from rewind_tools.script import HOLDING
from rewind_tools.telling.commands import at, time_in


def number(count, has_sign=False):
    """An integer with a true minus; numbers are text, since a browser's numbers end at 53 bits."""
    sign = "\u2212" if count < 0 else "+" if has_sign else ""
    return f"{sign}{abs(count)}"


def changes(entries):
    return [f"{at(place, time)} {number(count, True)}" for place, time, count in entries]


def times(counts, most):
    """A count by its times: if there is one time it is named, else how many there are; and a line for each
    time, or for the first `most`."""
    total = sum(counts.values())
    if not total:
        return "", "", []
    there = f"at {time_in(next(iter(counts)))}" if len(counts) == 1 else f"at {len(counts)} times"
    lines = [f"{count} at {time_in(time)}" for time, count in sorted(counts.items())[:most]]
    more = len(counts) - len(lines)
    return str(total), there, lines + [f"and {more} more"] * (more > 0)


def added(counts, time, count):
    time = tuple(time)
    counts[time] = counts.get(time, 0) + count


def place_counts(state, points, ops, most=None):
    """What stands at each place over all processors: records, tokens, requests or held capabilities, and
    what a sink has counted; of the times at most `most`. `points` are those of the state, and `ops` has the
    operator of each vertex."""
    records, requests, tokens, sinks = ({} for _ in range(4))
    for (place, time), count in points.records.items():
        records.setdefault(place, {})[time] = count
    for it in state["processors"]:
        for place, time in it["requests"]:
            added(requests.setdefault(place, {}), time, 1)
        for place, epoch in it["tokens"]:
            added(tokens.setdefault(place, {}), [epoch], 1)
        for place, _, count in it["sinks"]:
            sinks[place] = sinks.get(place, 0) + count
    shown = {}
    for kind, counts in (("record", records), ("request", requests), ("token", tokens)):
        for place, by_time in counts.items():
            total, there, lines = times(by_time, most)
            of = "held" if ops.get(place) in HOLDING else kind + "s" * (total != "1")
            shown[points.order[place]] = {"n": total, "of": of, "when": there, "by": lines}
    for place, count in sinks.items():
        shown[points.order[place]] = {"n": str(count), "of": "counted", "when": "", "by": []}
    return shown


def frontiers_of(replies):
    """The points on the frontier of each processor's view, from the replies to the queries for them."""
    return {
        q: {(place, tuple(time)) for place, time, _ in it["frontier"]}
        for q, it in enumerate(replies)
        if "frontier" in it
    }


def point_row(points, point, fronts):
    """What stands at a point: the true count, and each processor's view and unsent change."""
    numbers = points.numbers(point)
    unsent = [numbers["unsent", p] for p in points.processors]
    return {
        "at": at(*point),
        "truth": number(numbers["truth", None]),
        "view": [number(numbers["view", p]) for p in points.processors],
        "unsent": [number(it, True) if it else "" for it in unsent],
        "front": [int(point in fronts.get(p, ())) for p in points.processors],
    }


def kinds_of(processor, ops):
    """What one processor holds, by kind: the entries, and what words one of them. `ops` has the operator of
    each vertex: a request at a hold or an opaque vertex is a capability, and a sum keeps one number."""

    def times_of(count):
        return f" \u00d7{count}" if count > 1 else ""

    def kept(it):
        place, time, item, count = it
        return f"{at(place, time)}: {f'sum {count}' if ops[place] == 'sum' else f'has seen {item}'}"

    def is_held(it):
        return ops[it[0]] in HOLDING

    requests = processor["requests"]
    return {
        "tokens": (processor["tokens"], lambda it: at(it[0], [it[1]])),
        "records": (processor["records"], lambda it: f"{it[2]} on {at(*it[:2])}{times_of(it[3])}"),
        "requests": ([it for it in requests if not is_held(it)], lambda it: at(*it)),
        "capabilities": ([it for it in requests if is_held(it)], lambda it: at(*it)),
        "kept by vertices": (processor["items"], kept),
        "counted by sinks": (processor["sinks"], lambda it: f"{it[0]}: {it[1]}{times_of(it[2])}"),
    }


def queues_of(state):
    """The queues that are not empty, each with its sender, its receiver and its changes."""
    return [(p, q, queue) for p, row in enumerate(state["queues"]) for q, queue in enumerate(row) if queue]


def order_of(graph):
    """The number of each place, in the order of listing."""
    return {it["name"]: at for at, it in enumerate(graph["vertices"] + graph["edges"])}
