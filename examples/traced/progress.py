"""The progress protocol (Naiad, SOSP 2013, section 3.3): one worker's part of it.

A worker counts what is outstanding, by pointstamp, in its view. What it does itself it adds to its unsent
changes. A broadcast sends unsent changes to all workers, the worker itself included; the view changes only
when one of these updates comes. Updates of one worker must be merged in the order in which it sent them."""
from typing import NamedTuple

from graph import Pointstamp


class Update(NamedTuple):
    """What one broadcast sends to each worker: the sender's number-th, from 1."""

    sender: int
    number: int
    change: dict


def add(counts, point, n):
    counts[point] = counts.get(point, 0) + n
    if not counts[point]:
        del counts[point]


class Progress:
    def __init__(self, graph, workers):
        self.graph = graph
        self.view = {Pointstamp(graph.input, (0,)): workers}
        self.unsent, self.sent = {}, 0

    def count(self, point, n):
        """Counts n more at a pointstamp, for the next broadcast."""
        add(self.unsent, point, n)

    def cut(self, points):
        """Takes these pointstamps out of the unsent changes: what a broadcast sends of them."""
        self.sent += 1
        return self.sent, {it: self.unsent.pop(it) for it in points}

    def merge(self, change):
        for point, n in change.items():
            add(self.view, point, n)

    def positive(self):
        return [point for point, n in self.view.items() if n > 0]

    def is_finished(self, point):
        """Whether nothing at a pointstamp or before it is outstanding, as far as this worker knows."""
        return not any(self.graph.could_result_in(it, point) for it in self.positive())

    def is_due(self, point):
        """Whether nothing before a pointstamp is outstanding, so that a notification for it may come."""
        return not any(it != point and self.graph.could_result_in(it, point) for it in self.positive())
