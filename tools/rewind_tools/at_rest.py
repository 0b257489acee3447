"""Why times are not finished when all that can happen has happened: what is left then is somebody's to end.

    for query, reply in why_at_rest(follower, [{"do": "why", "q": 0, "at": "z", "time": [0]}]): ..

The program runs a copy to its end. A query without "time" is asked at each least time that is not finished
at its location, so it has no answer if all times are. Times have epochs by rank, as the program's."""

# How many steps the run to rest may have: a loop may never end.
MOST = 100_000
LAST_COUNTER = (1 << 32) - 1


def why_at_rest(follower, queries):
    """The queries, each with the program's reply to 'why' at rest."""
    ask, depths = follower.program.asked, follower.merging.places.depths
    order = follower.program.graph.get("order")
    timed = [it for query in queries for it in with_times(ask, query, depths[query["at"]], order)]
    return [(it, ask({**it, "rest": MOST})) for it in timed]


def with_times(ask, query, depth, order):
    """A query; one without a time at each least time to which something leads that is left at rest."""
    if "time" in query:
        return [query]
    reply = ask({**query, "time": [LAST_COUNTER] * (depth + 1), "rest": MOST})
    found = sorted({least_time(ask, it["point"], query["at"], depth) for it in reply["reasons"]})
    least = [it for it in found if not any(is_before(one, it, order) for one in found)]
    return [{**query, "time": [*it]} for it in least]


def is_before(one, other, order=None):
    """Whether a time is strictly before another of its depth in a graph of an order."""
    if order == "product":
        return one != other and all(map(int.__le__, one, other))
    return one != other and one[0] <= other[0] and one[1:] <= other[1:]


def least_time(ask, point, place, depth):
    """The least time at a place to which something leads that is at a point: of the point's epoch, and of
    several that are not comparable the first."""
    time = [point[1][0]] + [LAST_COUNTER] * depth
    for at in range(1, depth + 1):
        lo, hi = 0, LAST_COUNTER
        while lo < hi:
            middle = (lo + hi) // 2
            query = {"do": "before", "from": point, "to": [place, [*time[:at], middle, *time[at + 1 :]]]}
            lo, hi = (lo, middle) if ask(query)["before"] else (middle + 1, hi)
        time[at] = lo
    return tuple(time)
