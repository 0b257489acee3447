"""Bugs that implementers make, each planted in the worker by a line or a few, so that every run shows it."""
import re

from graph import Pointstamp
from operators import OPERATORS, Window
from worker import Worker


class TakenTwice(Worker):
    """Each record taken is reported twice."""

    def take(self, record):
        super().take(record)
        self.count(record.edge, record.time, -1)


class LocalUnreported(Worker):
    """A record that stays on its worker is not reported when it is sent, but is when it is taken."""

    programs = ["sums", "rounds"]

    def send(self, vertex, time, value, port=0):
        super().send(vertex, time, value, port)
        for edge in self.graph.leaving(vertex, port):
            if edge.route == "local":
                self.count(edge.name, self.graph.time_after(vertex, time), -1)


class RequestUnreported(Worker):
    """A request for a notification is not reported, but its delivery is."""

    programs = ["sums"]

    def notify_at(self, vertex, time):
        if Pointstamp(vertex, time) not in self.requests:
            super().notify_at(vertex, time)
            self.count(vertex, time, -1)


class DecrementsFirst(Worker):
    """A broadcast of a part sends the decrements, and keeps the increments that replace them."""

    def part(self, unsent):
        return [point for point, n in unsent.items() if n < 0]


class OwnAtOnce(Worker):
    """A worker's own changes go into its view at once, and are not sent to itself."""

    def count(self, location, time, n):
        super().count(location, time, n)
        self.progress.merge({Pointstamp(location, time): n})

    def post(self, to, update):
        if to != self.index:
            super().post(to, update)


class NoticeByLocalState(Worker):
    """A notification comes as soon as the worker itself has no more records of its time."""

    programs = ["sums"]

    def take(self, record):
        super().take(record)
        request = Pointstamp(self.graph.edges[record.edge].target, record.time)
        if request in self.requests and all(it.time != record.time for it in self.records):
            self.notify(request)


class ProbeBySinkAlone(Worker):
    """The probe looks for what is outstanding at the sink, not for what could result in it."""

    def probe(self, point):
        return self.progress.view.get(point, 0) <= 0


class Chosen(Worker):
    """A worker some of whose updates to the last worker go wrong."""

    def is_chosen(self, to, update):
        return (self.index, to, update.number) == (0, self.workers - 1, 1)


class UpdateLost(Chosen):
    """Worker 0's first update does not reach the last worker."""

    def post(self, to, update):
        if not self.is_chosen(to, update):
            super().post(to, update)


class UpdateDoubled(Chosen):
    """Worker 0's first update reaches the last worker twice."""

    def post(self, to, update):
        super().post(to, update)
        if self.is_chosen(to, update):
            super().post(to, update)


class UpdatesSwapped(Chosen):
    """Worker 0's second update overtakes its first on the way to the last worker."""

    late = ()

    def post(self, to, update):
        if self.is_chosen(to, update):
            self.late = (update,)
            return
        super().post(to, update)
        if to == self.workers - 1 and self.late:
            super().post(to, *self.late)
            self.late = ()


class WrongWorker(Worker):
    """An exchange edge takes each record to the worker after the one it belongs to."""

    def destination(self, edge, key):
        return super().destination(edge, key + 1)


class LateRecord(Worker):
    """The input goes to the next epoch, or is closed, before the last record of the epoch is sent."""

    programs = ["sums", "rounds"]

    def feed(self):
        values, then = self.feeds[0]
        late, time = values[-1:] if then != "stay" else [], (self.epoch,)
        self.feeds[0] = values[: len(values) - len(late)], then
        super().feed()
        for it in late:
            self.trace.step("feed", vertex=self.graph.input, values=late, next="stay")
            self.send(self.graph.input, time, it)


class SumTwice(Worker):
    """A sum is sent twice."""

    programs = ["sums"]

    def send(self, vertex, time, value, port=0):
        for _ in range(2 if self.graph.vertices[vertex].op == "sum" else 1):
            super().send(vertex, time, value, port)


class RoundNotCounted(Worker):
    """A feedback leaves the loop counter as it is."""

    programs = ["rounds"]

    def send(self, vertex, time, value, port=0):
        is_feedback = self.graph.vertices[vertex].op == "feedback"
        super().send(vertex, (*time[:-1], time[-1] - 1) if is_feedback else time, value, port)


class DroppedEarly(Worker):
    """A window's capability is dropped before its sum is sent."""

    programs = ["windows"]

    class Window(Window):
        def on_notice(self, capability):
            capability.drop()
            capability.send(self.sums.pop(capability.time), key=capability.time[0])

    kinds = {**OPERATORS, "window": Window}


class SentEarly(Worker):
    """A window's sum is sent at the window's first epoch, not at its last."""

    programs = ["windows"]

    class Window(Window):
        def on_notice(self, capability):
            first = max(capability.time[0] - 1, 0)
            capability.send(self.sums.pop(capability.time), key=first, time=(first,))
            capability.drop()

    kinds = {**OPERATORS, "window": Window}


class ReleasedTwice(Worker):
    """Each capability that is given up is reported twice."""

    programs = ["windows"]

    def let_go(self, vertex, time):
        super().let_go(vertex, time)
        self.count(vertex, time, -1)


class SumMisreported(Worker):
    """A window's sum is reported at the window's first epoch, and sent at its last."""

    programs = ["windows"]

    def send(self, vertex, time, value, port=0, dest=None):
        super().send(vertex, time, value, port, dest)
        for edge in self.graph.leaving("windows", 0) if vertex == "windows" and time[0] else []:
            self.count(edge.name, time, -1)
            self.count(edge.name, (time[0] - 1,), +1)


# The bugs by the names that --bug takes.
BUGS = {
    re.sub(r"\B(?=[A-Z])", "-", it.__name__).lower(): it
    for it in (
        TakenTwice, LocalUnreported, RequestUnreported, DecrementsFirst, OwnAtOnce, NoticeByLocalState,
        ProbeBySinkAlone, UpdateLost, UpdateDoubled, UpdatesSwapped, WrongWorker, LateRecord, SumTwice,
        RoundNotCounted, DroppedEarly, SentEarly, ReleasedTwice, SumMisreported,
    )
}  # fmt: skip
