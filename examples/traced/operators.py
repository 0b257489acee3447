"""The operators: what runs at a vertex, on each worker, when a record or a notification comes.

`send(time, value)` and `notify_at(time)` are the worker's. An operator names the time that it works at; what
an ingress, an egress or a feedback does to times is the worker's affair. The last two operators get a
capability (capability.py) in place of the time, and send from it."""
import collections


class Operator:
    def __init__(self, vertex, send, notify_at):
        self.k, self.send, self.notify_at = vertex.k, send, notify_at

    def on_record(self, time, value):
        """Passes the record on, as an ingress, an egress and a feedback do."""
        self.send(time, value)

    def on_notice(self, time):
        """Everything before the time is finished."""


class Add(Operator):
    def on_record(self, time, value):
        self.send(time, value + self.k)


class Split(Operator):
    def on_record(self, time, value):
        self.send(time, value, port=0 if value < self.k else 1)


class Sum(Operator):
    """Adds up the values of each time, and sends the sum when no more of them can come."""

    def __init__(self, *given):
        super().__init__(*given)
        self.sums = collections.Counter()

    def on_record(self, time, value):
        self.sums[time] += value
        self.notify_at(time)

    def on_notice(self, time):
        total = self.sums.pop(time)
        if total:
            self.send(time, total)


class Sink(Operator):
    """Counts each value that comes out of the dataflow."""

    def __init__(self, *given):
        super().__init__(*given)
        self.counts = collections.Counter()

    def on_record(self, time, value):
        self.counts[value] += 1


class Source(Operator):
    """Sends readings, each at the epoch that it belongs to: the source's epoch, or the one after it."""

    def on_start(self, capability):
        self.capability = capability

    def on_values(self, readings, then):
        (epoch,) = self.capability.time
        for value, ahead in readings:
            self.capability.send(value, key=value // 10, time=(epoch + ahead,))
        if then == "next":
            self.capability.downgrade((epoch + 1,))
        elif then == "close":
            self.capability.drop()


class Window(Operator):
    """Adds up the values of each window, which is an epoch and the one before it. For each open window it
    holds a capability at the window's end, to send the sum there when no more values can come."""

    def __init__(self, *given):
        super().__init__(*given)
        self.sums = collections.Counter()

    def on_record(self, capability, value):
        (epoch,) = capability.time
        for end in ((epoch,), (epoch + 1,)):
            self.sums[end] += value
            self.notify_at(capability.delayed(end).time)

    def on_notice(self, capability):
        (end,) = capability.time
        capability.send(self.sums.pop(capability.time), key=end)
        capability.drop()


OPERATORS = {"add": Add, "split": Split, "sum": Sum, "sink": Sink, "source": Source, "window": Window}
