"""How a worker counts progress: what it has not sent yet, and what it knows of all workers."""
import collections
import math

from dataflow import BORDER, Location


def numbers_of(time):
    """A time as the log has it."""
    return list(time) if isinstance(time, tuple) else [time]


class Changes:
    """What a worker has gathered since its last batch of a scope: differences by location and time."""

    def __init__(self):
        self.counts = collections.defaultdict(collections.Counter)

    def add(self, location, time, n):
        self.counts[location.scope][location, time] += n

    def take(self, scope):
        """Returns the batch of what was gathered, None if that adds up to nothing, and begins anew."""
        batch = {"messages": [], "internal": []}
        for (location, time), n in self.counts[scope].items():
            if n:
                kind = "messages" if location.kind == "in" else "internal"
                node = location.node[1] if scope else location.node
                batch[kind].append([node, location.port, numbers_of(time), n])
        self.counts[scope].clear()
        return batch if any(batch.values()) else None


class Tracker:
    """What a worker knows of the progress of all workers: counts by location and time."""

    def __init__(self, dataflow, workers):
        self.dataflow, self.known = dataflow, {}
        self.counts = collections.defaultdict(collections.Counter)
        for it in dataflow.operators:
            for output in it.outs() if it.logic else ():
                self.counts[output][(0, 0) if output.scope else 0] = workers

    def apply(self, scope, batch):
        for kind, entries in (("in", batch["messages"]), ("out", batch["internal"])):
            for node, port, numbers, n in entries:
                time = tuple(numbers) if scope else numbers[0]
                self.count(Location(kind, (scope, node) if scope else node, port), time, n)

    def count(self, location, time, n):
        """Counts an entry. What enters a scope is consumed at its input, and what leaves it is a message at
        each input to which the scope's output leads."""
        places = [(location, time)]
        if location.scope and location.node[1] == BORDER:
            other = location.across()
            targets = [it.target for it in self.dataflow.leaving(other)] if other.kind == "out" else [other]
            places = [(it, time[0]) for it in targets]
        for place, its in places:
            self.counts[place][its] += n
            if not self.counts[place][its]:
                del self.counts[place][its]

    def frontier(self, node, port):
        """The least epoch that can still arrive at an input; infinity if none can."""
        target = Location("in", node, port)
        if target not in self.known:
            self.known[target] = self.dataflow.before(target)
        counts = (self.counts[it] for it in self.known[target])
        found = (numbers_of(time)[0] for it in counts for time, n in it.items() if n > 0)
        return min(found, default=math.inf)

    def is_complete(self):
        return not any(n > 0 for it in self.counts.values() for n in it.values())
