"""What a run leaves at its end, worker by worker.

    left_of(state, graph)      a Left for each worker, from the reply to 'state'
    left_words(left)           the same in sentences, with what several workers leave in one"""
from typing import NamedTuple

from rewind_tools.telling.commands import at, counted, processors, some_of

# The operators at which a request is a held capability.
HOLDING = ("hold", "opaque")


class Left(NamedTuple):
    """What a worker has left: open inputs, capabilities, requested notifications, records, unsent updates,
    and by sender how many updates are on their way to it."""

    inputs: list
    capabilities: list
    notifications: list
    records: list
    unsent: list
    underway: list


def left_of(state, graph):
    holding = {it["name"] for it in graph["vertices"] if it["op"] in HOLDING}
    return [
        Left(
            [[name, [epoch]] for name, epoch in it["tokens"]],
            [point for point in it["requests"] if point[0] in holding],
            [point for point in it["requests"] if point[0] not in holding],
            it["records"],
            it["unsent"],
            [[p, len(row[worker])] for p, row in enumerate(state["queues"]) if row[worker]],
        )
        for worker, it in enumerate(state["processors"])
    ]


def record_words(it):
    return f"{counted(it[3], 'record')} of value {it[2]} at {at(*it[:2])}"


def parts_of(left):
    """The parts of what a worker has left, each with its word and its items in words."""
    yield "open inputs", [at(*it) for it in left.inputs]
    yield "capabilities", [at(*it) for it in left.capabilities]
    yield "requested notifications", [at(*it) for it in left.notifications]
    yield "records", [record_words(it) for it in left.records]
    yield "not broadcast", [f"{at(*it[:2])}: {it[2]}" for it in left.unsent]
    yield "not received", updates_words(left.underway)


def updates_words(underway):
    """How many updates are on their way, and from whom."""
    senders = {}
    for p, n in underway:
        senders.setdefault(n, []).append(p)
    for n, its in senders.items():
        yield f"{counted(n, 'update')} from {'each of ' if its[1:] else ''}{processors(its)}"


def left_words(left):
    """A sentence for each worker, or for several of what they all have left."""
    having, rows = {}, {}
    for worker, it in enumerate(left):
        for word, items in parts_of(it):
            key = word, tuple(items)
            having.setdefault(key, []).append(worker)
    for (word, items), workers in having.items():
        if items:
            rows.setdefault(tuple(workers), []).append(f"{word}: {some_of(items)}")
    return [f"{processors(workers)}, {'; '.join(parts)}" for workers, parts in rows.items()]
