"""Bugs to plant. They show on worker 1, or on the only worker. Each is a class in place of an operator's
logic or of the worker; its first line is what --bug list prints."""
import copy
import re

from programs import Halve, Sink, Source, Total
from worker import Capability, Worker


def is_faulty(worker):
    return worker.index == 1 % len(worker.network.boxes)


class Leak(Total):
    """total clones a capability at epoch 0, and never drops the clone"""

    def gather(self, time, value):
        if time == 0 and time not in self.held and is_faulty(self.worker):
            Capability(self.worker, self.output(), time)
        super().gather(time, value)


class LateAdvance(Source):
    """a source moves its capability on only when the next values come, so never after the last"""

    def schedule(self):
        epochs = self.worker.inputs[self.operator.name]
        if not epochs or not is_faulty(self.worker):
            return super().schedule()
        if hasattr(self, "has_begun"):
            self.first[0].downgrade(self.first[0].time + 1)
        self.has_begun = True
        for value in epochs.pop(0):
            self.first[0].send(value)
        return True


class ReturnsEarly(Worker):
    """the worker returns before its last epoch, and is not stepped any more"""

    def step(self):
        is_last = is_faulty(self) and any(len(it) == 1 for it in self.inputs.values())
        return not is_last and super().step()


class LeakInLoop(Halve):
    """halve, in the loop, keeps a capability of its second round at epoch 0"""

    def halve(self, time, value):
        if time == (0, 1) and is_faulty(self.worker) and not hasattr(self, "kept"):
            self.kept = Capability(self.worker, self.output(), time)
        super().halve(time, value)


class DropsTwice(Total):
    """total drops a capability twice"""

    def finish(self, time):
        capability = self.held[time]
        super().finish(time)
        if is_faulty(self.worker):
            capability.drop()


class SendsLate(Source):
    """a source sends at epoch 0 when it knows that epoch to be complete"""

    def schedule(self):
        target = self.worker.dataflow.leaving(self.output())[0].target
        is_complete = self.worker.tracker.frontier(target.node, target.port) > 0
        if is_complete and is_faulty(self.worker) and not hasattr(self, "has_sent"):
            self.has_sent = True
            self.worker.send(self.output(), 0, 1)
        return super().schedule()


class NeverReads(Sink):
    """a sink does not read its input"""

    def schedule(self):
        return not is_faulty(self.worker) and super().schedule()


class HoldsProgress(Worker):
    """the worker works on, but sends no progress after its first batch"""

    def send_progress(self, scope):
        if not (is_faulty(self) and self.sent[scope]):
            super().send_progress(scope)


class LosesBatch(Worker):
    """the worker loses the second batch of worker 0"""

    def receive_progress(self, scope, source, seq_no, batch):
        if not (is_faulty(self) and (source, seq_no) == (0, 2)):
            super().receive_progress(scope, source, seq_no, batch)


class CountsTwice(Worker):
    """the worker counts an entry of a batch twice when it receives it"""

    def receive_progress(self, scope, source, seq_no, batch):
        if is_faulty(self) and (source, seq_no) == (0, 1):
            batch = copy.deepcopy(batch)
            batch["internal"][0][3] *= 2
        super().receive_progress(scope, source, seq_no, batch)


# The bugs by the names that --bug takes.
BUGS = {
    re.sub(r"\B(?=[A-Z])", "-", it.__name__).lower(): it
    for it in (
        Leak, LeakInLoop, LateAdvance, ReturnsEarly, DropsTwice, SendsLate, NeverReads, HoldsProgress,
        LosesBatch, CountsTwice,
    )
}  # fmt: skip
