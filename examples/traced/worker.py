"""A worker: a thread with its share of the records, its operators and its view of everybody's progress."""
import functools
import threading
import time as clock
from typing import NamedTuple

from capability import Capability
from graph import Pointstamp
from operators import OPERATORS, Operator
from progress import Progress, Update


class Record(NamedTuple):
    edge: str
    time: tuple
    value: int


class Worker(threading.Thread):
    """Runs until nothing is left to do. `feeds` has what the input gives: pairs of values and what comes
    after them, "stay", "next" (epoch) or "close". `random` chooses what the worker does next."""

    kinds = OPERATORS

    def __init__(self, index, workers, graph, feeds, network, trace, random):
        super().__init__(name=f"worker-{index}")
        self.index, self.workers, self.graph, self.network = index, workers, graph, network
        self.trace, self.random = trace, random
        self.feeds, self.epoch = list(feeds), 0
        self.records, self.requests, self.updates = [], [], [[] for _ in range(workers)]
        self.held, self.progress = [], Progress(graph, workers)
        self.finished, self.epochs = 0, 1 + sum(then == "next" for _, then in feeds)
        self.operators = {it.name: self.operator(it) for it in graph.vertices.values()}
        if graph.is_own(graph.input):
            self.held.append(Pointstamp(graph.input, (0,)))
            self.operators[graph.input].on_start(self.hold(*self.held[0]))

    def operator(self, vertex):
        send, notify_at = (functools.partial(it, vertex.name) for it in (self.send, self.notify_at))
        return self.kinds.get(vertex.op, Operator)(vertex, send, notify_at)

    def run(self):
        try:
            while self.turn():
                clock.sleep(self.random.choice([0, 0, 0.0001, 0.001]))
        finally:
            self.network.stop()

    def turn(self):
        """Does one thing; false if there is nothing to do any more."""
        self.sort(self.network.arrived(self.index))
        self.look_at_probe()
        work = self.work()
        if work:
            self.random.choice(work)()
            return True
        message = self.network.wait(self.index)
        self.sort([message] if message else [])
        return message is not None

    def sort(self, messages):
        for it in messages:
            (self.updates[it.sender] if isinstance(it, Update) else self.records).append(it)

    def work(self):
        """What the worker could do now, of the records only with the oldest."""
        work = [functools.partial(self.take, it) for it in self.records[:9]]
        work += [functools.partial(self.receive, it) for it, queue in enumerate(self.updates) if queue]
        work += [functools.partial(self.notify, it) for it in self.requests if self.progress.is_due(it)]
        work += [self.feed] if self.feeds else []
        return work + ([self.broadcast] if self.progress.unsent else [])

    def feed(self):
        """Gives the input's next values to the dataflow."""
        values, then = self.feeds.pop(0)
        if self.graph.is_own(self.graph.input):
            self.operators[self.graph.input].on_values(values, then)
            return
        self.trace.step("feed", vertex=self.graph.input, values=values, next=then)
        for it in values:
            self.send(self.graph.input, (self.epoch,), it)
        if then != "stay":
            self.end_epoch(is_last=then == "close")

    def end_epoch(self, is_last):
        self.count(self.graph.input, (self.epoch,), -1)
        if not is_last:
            self.epoch += 1
            self.count(self.graph.input, (self.epoch,), +1)
        self.broadcast()  # everybody waits for this

    def take(self, record):
        """Hands a record to the operator at the end of its edge."""
        self.records.remove(record)
        self.trace.step("take", **record._asdict())
        self.count(record.edge, record.time, -1)
        target = self.graph.edges[record.edge].target
        self.operators[target].on_record(self.hold(target, record.time), record.value)

    def notify(self, request):
        """Delivers a notification."""
        self.trace.belief("why", request, before=True)
        self.requests.remove(request)
        if not self.graph.is_own(request.location):
            self.trace.step("notice", vertex=request.location, time=request.time)
            self.count(*request, -1)
        self.operators[request.location].on_notice(self.hold(*request))

    def notify_at(self, vertex, time):
        """Asks for a notification, which comes once everything before it is finished."""
        request = Pointstamp(vertex, time)
        if request not in self.requests:
            self.requests.append(request)
            if not self.graph.is_own(vertex):
                self.count(*request, +1)

    def hold(self, vertex, time):
        """Gives an operator of the program's own a capability; any other gets the time alone."""
        if not self.graph.is_own(vertex):
            return time
        if Pointstamp(vertex, time) not in self.held:
            self.held.append(Pointstamp(vertex, time))
            self.count(vertex, time, +1)
        return Capability(self, vertex, time)

    def let_go(self, vertex, time):
        """Takes a capability away."""
        self.held.remove(Pointstamp(vertex, time))
        self.count(vertex, time, -1)

    def send(self, vertex, time, value, port=0, dest=None):
        """Sends a value on each edge that leaves a port: all that leaves a vertex passes here. On an
        exchange edge the value chooses the worker, unless one is given."""
        for edge in self.graph.leaving(vertex, port):
            record = Record(edge.name, self.graph.time_after(vertex, time), value)
            self.count(record.edge, record.time, +1)
            self.network.send(self.destination(edge, value if dest is None else dest), record)

    def destination(self, edge, key):
        return key % self.workers if edge.route == "exchange" else self.index

    def count(self, location, time, n):
        self.progress.count(Pointstamp(location, time), n)

    def broadcast(self):
        """Sends unsent changes to all workers."""
        part = self.part(self.progress.unsent)
        number, change = self.progress.cut(part or list(self.progress.unsent))
        self.trace.step("broadcast", number=number, change=change, **({"part": part} if part else {}))
        for to in range(self.workers):
            self.post(to, Update(self.index, number, change))

    def part(self, unsent):
        """What a broadcast sends, everything if it is empty: increments may go ahead of decrements."""
        return self.random.choice([[], [point for point, n in unsent.items() if n > 0]])

    def post(self, to, update):
        self.network.send(to, update)

    def receive(self, sender):
        """Merges a worker's next update into the view."""
        update = self.updates[sender].pop(0)
        self.trace.step("receive", number=update.number, change=update.change, **{"from": sender})
        self.progress.merge(update.change)

    def look_at_probe(self):
        """Notes how many epochs are finished at the sink."""
        while self.finished < self.epochs and self.probe(Pointstamp(self.graph.sink, (self.finished,))):
            self.trace.belief("passed", Pointstamp(self.graph.sink, (self.finished,)))
            self.finished += 1

    def probe(self, point):
        return self.progress.is_finished(point)
