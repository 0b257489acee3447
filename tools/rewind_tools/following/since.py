"""Since which line something is held: the line that made a capability, a token or a record.

    for it in held_since(follower, state, [(held, point), ..]):
        it.line          the Line that made it; None if it was there at the start
        it.record        if it is held at rest alone, the record that leads to it and that the line made, as
                         (edge, worker, time, value); else None

'held' is what a reply to 'why' names, at rest or not, and 'point' where; 'state' is the state at the end of
what was executed. Times have epochs by rank."""
import json
from collections import deque
from typing import NamedTuple

# How many records are looked at, since a loop may never end.
MOST = 100_000


class Since(NamedTuple):
    line: object
    record: tuple | None


def held_since(follower, state, asked):
    places = follower.merging.places
    keys = [key_of(*it) for it in asked]
    held = set(there(state))
    records = {it: record for it, record in reached(places, state).items() if it not in held}
    found = makers(places, follower.executed, {records.get(it, it) for it in keys})
    return [Since(found.get(records.get(it, it)), records.get(it)) for it in keys]


def key_of(held, point):
    """A token as (vertex, worker), a capability with its time, too, and a record with its value as well."""
    (place, time), p = point, held["p"]
    if "token" in held:
        return place, p
    return (place, p, tuple(time), held["value"]) if "edge" in held else (place, p, tuple(time))


def there(state):
    """All that is held in a state."""
    for p, it in enumerate(state["processors"]):
        yield from ((vertex, p) for vertex, _ in it["tokens"])
        yield from ((vertex, p, tuple(time)) for vertex, time in it["requests"])
        yield from ((edge, p, tuple(time), value) for edge, time, value, _ in it["records"])


def reached(places, state):
    """What the records that are left lead to when they are taken, each with its record."""
    left = deque((it, it) for it in there(state) if len(it) == 4)
    found = {}
    while left and len(found) < MOST:
        (edge, worker, time, value), first = left.popleft()
        found.setdefault((places.edges[edge]["to"], worker, time), first)
        for it in places.taken(worker, edge, time, value):
            if it not in found:
                found[it] = first
                left.append((it, first))
    return found


def makers(places, executed, wanted):
    """By key the first line since which it is held without an end."""
    found, left = {}, set(wanted)
    for line in reversed(executed):
        if not left:
            break
        made, last = made_by(places, line)
        found.update({it: line for it in left.intersection(made)})
        left -= last
    return found


def made_by(places, line):
    """What is held after a line, and of that and what the line ends all that no line before it made."""
    worker, records = line.worker, set(line.makes)
    if line.word == "take":
        edge, _, time, _ = line.needs
        return {(places.edges[edge]["to"], worker, time)} | records, records
    if line.word not in ("feed", "release", "notice"):
        return records, records
    value = json.loads(line.text)
    if line.word == "feed":
        token = {(value["vertex"], worker)} if value["next"] != "stay" else set()
        return token | records, token | records
    ended = set() if value.get("keep") else {(value["vertex"], worker, tuple(value["time"]))}
    return {(value["vertex"], worker, tuple(value["to"]))} if "to" in value else set(), ended
