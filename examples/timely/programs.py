"""The operators, and four programs of them."""
import math

from dataflow import BORDER, Dataflow, Location
from worker import Capability


class Logic:
    """What a worker runs of an operator. `first` has the capabilities that it holds from the start."""

    def __init__(self, worker, operator, first):
        self.worker, self.operator, self.first = worker, operator, first

    def output(self, port=0):
        return Location("out", self.operator.node, port)

    def read(self, port=0):
        return self.worker.read(Location("in", self.operator.node, port))

    def frontier(self):
        """The least time that can still arrive at an input."""
        ports = range(self.operator.inputs)
        return min((self.worker.tracker.frontier(self.operator.node, it) for it in ports), default=math.inf)

    def drop_first(self):
        while self.first:
            self.first.pop().drop()

    def schedule(self):
        """Runs the operator; whether it did anything."""
        raise NotImplementedError


class Source(Logic):
    """Sends its input, an epoch per turn. It holds one capability, which moves on with the epochs."""

    def schedule(self):
        epochs = self.worker.inputs[self.operator.name]
        if not epochs:
            return False
        for value in epochs.pop(0):
            self.first[0].send(value)
        if epochs:
            self.first[0].downgrade(self.first[0].time + 1)
        else:
            self.drop_first()
        return True


class Total(Logic):
    """Sends the sum of an epoch's values, once no more of them can arrive. Until then it holds a
    capability."""

    def __init__(self, *words):
        super().__init__(*words)
        self.held, self.sums = {}, {}

    def schedule(self):
        self.drop_first()
        messages = self.read_all()
        for time, value in messages:
            self.gather(time, value)
        done = sorted(time for time in self.held if time < self.frontier())
        for time in done:
            self.finish(time)
        return bool(messages or done)

    def read_all(self):
        return [it for port in range(self.operator.inputs) for it in self.read(port)]

    def gather(self, time, value):
        if time not in self.held:
            self.held[time] = Capability(self.worker, self.output(), time)
        self.sums[time] = self.sums.get(time, 0) + value

    def finish(self, time):
        capability = self.held.pop(time)
        capability.send(self.sums.pop(time))
        capability.drop()


class Split(Logic):
    """Sends values with an even tens digit at once, on output 0. The others leave on output 1 at the end of
    their pair of epochs, for which it holds a capability."""

    def __init__(self, *words):
        super().__init__(*words)
        self.held, self.kept = {}, {}

    def schedule(self):
        self.drop_first()
        messages = self.read()
        for time, value in messages:
            if value // 10 % 2 == 0:
                self.worker.send(self.output(0), time, value)
            else:
                self.keep(time + 1 - time % 2, value)
        done = sorted(time for time in self.held if time < self.frontier())
        for time in done:
            self.finish(time)
        return bool(messages or done)

    def keep(self, time, value):
        if time not in self.held:
            self.held[time] = Capability(self.worker, self.output(1), time)
        self.kept.setdefault(time, []).append(value)

    def finish(self, time):
        capability = self.held.pop(time)
        for value in self.kept.pop(time):
            capability.send(value)
        capability.drop()


class Halve(Logic):
    """In a loop: halves a value, and sends it round again, or out when it is small."""

    def schedule(self):
        self.drop_first()
        messages = [it for port in range(self.operator.inputs) for it in self.read(port)]
        for time, value in messages:
            self.halve(time, value)
        return bool(messages)

    def halve(self, time, value):
        self.worker.send(self.output(0 if value > 9 else 1), time, value // 2)


class Feedback(Logic):
    """Sends what comes round the loop in the next round."""

    def schedule(self):
        self.drop_first()
        messages = self.read()
        for (epoch, number), value in messages:
            self.worker.send(self.output(), (epoch, number + 1), value)
        return bool(messages)


class Sink(Logic):
    """Reads what arrives."""

    def schedule(self):
        return bool(self.read())


def totals():
    """numbers --exchange--> total --> out"""
    made = Dataflow()
    (numbers,) = made.add("numbers", Source)
    (total,) = made.add("total", Total, [(numbers, True)])
    made.add("out", Sink, [(total, False)], outputs=0)
    return made


def split():
    """numbers --exchange--> split --> early, and split --exchange--> total --> late"""
    made = Dataflow()
    (numbers,) = made.add("numbers", Source)
    early, late = made.add("split", Split, [(numbers, True)], outputs=2)
    made.add("early", Sink, [(early, False)], outputs=0)
    (total,) = made.add("total", Total, [(late, True)])
    made.add("late", Sink, [(total, False)], outputs=0)
    return made


def pairs():
    """left and right --exchange--> total --> out"""
    made = Dataflow()
    (left,), (right,) = made.add("left", Source), made.add("right", Source)
    (total,) = made.add("total", Total, [(left, True), (right, True)])
    made.add("out", Sink, [(total, False)], outputs=0)
    return made


def rounds():
    """numbers --> a loop of halve and feedback --exchange--> total --> out"""
    made = Dataflow()
    (numbers,) = made.add("numbers", Source)
    loop, (done,) = made.add_scope("Loop: halve", [(numbers, False)])
    entered, leaves = Location("out", (loop, BORDER), 0), Location("in", (loop, BORDER), 0)
    again = Location("out", (loop, 2), 0)
    more, small = made.add("halve", Halve, [(entered, True), (again, True)], outputs=2, scope=loop)
    made.add("Feedback", Feedback, [(more, False)], scope=loop, rounds=1)
    made.connect(small, leaves)
    (total,) = made.add("total", Total, [(done, True)])
    made.add("out", Sink, [(total, False)], outputs=0)
    return made


PROGRAMS = {"totals": totals, "split": split, "pairs": pairs, "rounds": rounds}


def inputs_of(dataflow, words, random):
    """What each source of a worker sends: by epoch values that go to each worker in turn."""
    sources = [it.name for it in dataflow.operators if it.logic and issubclass(it.logic, Source)]
    return {name: [values_of(words, random) for _ in range(words.epochs)] for name in sources}


def values_of(words, random):
    return [random.randrange(100) * words.workers + it % words.workers for it in range(words.records)]
