"""Changes of an implementation that counts each capability, as the model has them: by vertex and time, one
comes with the first and goes with the last.

    counts = Counts(graph)                          what one worker counts by its changes
    change, counted = counts.of(sender, change)     a change of its own (sender None) or of a sender's, as
                                                    numbers by points; and how many are left at the points of
                                                    which the model has another number

After a broadcast or a receive without a change the counts are not known, and a change stays as it is."""
from rewind_tools.script import HOLDING

NOTHING = {}


class Counts:
    def __init__(self, graph):
        self.holding = {it["name"] for it in graph["vertices"] if it["op"] in HOLDING}
        started = [it for it in graph["vertices"] if it.get("starts")]
        self.at_start = {(it["name"], (0,) * (it["depth"] + 1)): 1 for it in started}
        self.counts = {}

    def of(self, sender, change):
        counts = self.counts.setdefault(sender, dict(self.at_start))
        if change is None or counts is None:
            self.counts[sender] = None
            return change, NOTHING
        told, counted = {}, {}
        for point, n in change.items():
            before = counts.get(point, 0) if point[0] in self.holding else -1
            moved = n
            if before >= 0 and before + n >= 0:
                moved, counts[point] = (before + n > 0) - (before > 0), before + n
            if moved != n:
                counted[point] = before + n
            if moved:
                told[point] = moved
        return told, counted or NOTHING
