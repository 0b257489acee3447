"""What a step changed, in words: each entry of the reply to the query 'effect'."""
from rewind_tools.telling.commands import at, counted, processors, time_in

NO_HOLDS = frozenset()
# From how many queues on those that change alike are told at once.
ALIKE = 5


def turned(old, new):
    return f"from {old} to {new}"


def token(it):
    p, vertex, old, new = it
    given_up = f"processor {p} gives up its token of {vertex}, which was at epoch {old}"
    return given_up if new is None else f"processor {p}'s token of {vertex} goes from epoch {old} to {new}"


def capability(it):
    """A request at a vertex that holds capabilities."""
    p, vertex, time, _, new = it
    holds = "holds a capability" if new else "no longer holds a capability"
    return f"processor {p} {holds} at {at(vertex, time)}"


def request(it):
    p, vertex, time, _, new = it
    there = at(vertex, time)
    if new:
        return f"processor {p} asks for a notification at {there}"
    return f"processor {p} no longer asks for a notification at {there}"


def item(it, distincts):
    """What a vertex keeps for a time: a sum as item 0, or the values that a distinct has seen as items."""
    p, vertex, time, number, old, new = it
    here, there = f"{vertex} on processor {p}", f"at {time_in(time)}"
    if number or vertex in distincts:
        return f"{here} {'forgets' if new is None else 'has seen'} {number} {there}"
    if new is None:
        return f"{here} gives up its sum {old} {there}"
    return f"{here} has the sum {new} {there}" + ("" if old is None else f" in place of {old}")


def queue(it):
    sender, receiver, old, new = it
    word = "longer" if new > old else "shorter"
    which = f"the queue from processor {sender} to {receiver}"
    return f"{which} gets {word}: {counted(old, 'change')}, then {new}"


def queues(changed):
    """A sentence for each queue, or for several from one processor that change alike."""
    groups = {}
    for it in changed:
        groups.setdefault((it[0], *it[2:]), []).append(it)
    for (sender, old, new), group in groups.items():
        if len(group) < ALIKE:
            yield from map(queue, group)
            continue
        word, to = "longer" if new > old else "shorter", processors([it[1] for it in group])
        yield f"the queues from processor {sender} to {to} get {word}: {counted(old, 'change')}, then {new}"


KINDS = {
    "tokens": token,
    "records": lambda it: (
        f"records of value {it[3]} on processor {it[0]} at {at(*it[1:3])}: {turned(*it[4:])}"
    ),
    "requests": request,
    "items": lambda it: item(it, NO_HOLDS),
    "sinks": lambda it: f"{it[1]} on processor {it[0]} has counted the value {it[2]}: {turned(*it[3:])}",
    "unsent": lambda it: f"unsent on processor {it[0]} at {at(*it[1:3])}: {turned(*it[3:])}",
    "queues": queue,
    "views": lambda it: f"the view of processor {it[0]} at {at(*it[1:3])}: {turned(*it[3:])}",
}


def effect_words(changed, holds=NO_HOLDS, distincts=NO_HOLDS):
    """A sentence for each place that the step changed, the tokens, records and requests first; 'holds' has
    the names of the vertices that hold capabilities, 'distincts' those of the distinct vertices."""
    kinds = {
        **KINDS,
        "requests": lambda it: capability(it) if it[1] in holds else request(it),
        "items": lambda it: item(it, distincts),
    }
    said = {kind: [words(it) for it in changed[kind]] for kind, words in kinds.items()}
    said["queues"] = list(queues(changed["queues"]))
    return [it for its in said.values() for it in its] or ["nothing"]
