"""A worker: a thread that runs its part of each operator, and sends its progress to all workers."""
import collections
import json
import threading
import time as clock

from dataflow import BORDER
from progress import Changes, Tracker


class Network:
    """A mailbox per worker. The run ends when all workers wait and no mail is left, whether it hangs or
    not."""

    def __init__(self, workers):
        self.condition = threading.Condition()
        self.boxes, self.waiting, self.has_ended = [[] for _ in range(workers)], 0, False

    def send(self, to, mail):
        with self.condition:
            if self.boxes[to] is not None:
                self.boxes[to].append(mail)
                self.condition.notify_all()

    def fetch(self, worker, may_wait):
        """Returns a worker's mail; waits for some if it may. None, if the run has ended."""
        with self.condition:
            self.waiting += 1
            while may_wait and not self.boxes[worker] and not self.is_over():
                self.condition.wait()
            self.waiting -= not self.has_ended
            mail, self.boxes[worker] = self.boxes[worker], []
            return None if self.has_ended and not mail else mail

    def leave(self, worker):
        """A worker returns, and nobody reads its mail any more."""
        with self.condition:
            self.waiting += not self.has_ended
            self.boxes[worker] = None
            self.is_over()

    def is_over(self):
        if not self.has_ended and self.waiting == len(self.boxes) and not any(self.boxes):
            self.has_ended = True
            self.condition.notify_all()
        return self.has_ended


class Log:
    """What timely logs of a worker: a JSON object per line."""

    def __init__(self, path):
        self.file = open(path, "w", encoding="utf-8")

    def write(self, event, scope, **members):
        within = {"scope": [scope]} if scope else {}
        line = {"ns": clock.monotonic_ns(), "event": event, **within, **members}
        self.file.write(json.dumps(line) + "\n")

    def dataflow(self, dataflow):
        for it in dataflow.operators:
            scope = dataflow.scope_of(it)
            its = {"node": it.node[1] if scope else it.node, "name": it.name}
            its |= {"inputs": it.inputs, "outputs": it.outputs, "summary": it.summary()}
            self.write("Operates", scope, **its)
        for it in dataflow.channels:
            scope = it.source.scope
            ends = [[end.node[1] if scope else end.node, end.port] for end in (it.source, it.target)]
            self.write("Channels", scope, source=ends[0], target=ends[1])

    def progress(self, is_send, scope, source, seq_no, batch):
        self.write("TimelyProgress", scope, is_send=is_send, source=source, seq_no=seq_no, **batch)


class Capability:
    """The right to send on an output, at a time or later. The worker counts each one."""

    def __init__(self, worker, output, time, is_counted=False):
        self.worker, self.output, self.time = worker, output, time
        if not is_counted:
            worker.changes.add(output, time, 1)

    def send(self, value):
        self.worker.send(self.output, self.time, value)

    def downgrade(self, time):
        self.worker.changes.add(self.output, time, 1)
        self.drop()
        self.time = time

    def drop(self):
        self.worker.changes.add(self.output, self.time, -1)


class Worker(threading.Thread):
    """Runs until the dataflow is complete. `inputs` has by source the values of each epoch."""

    def __init__(self, index, dataflow, network, log, inputs, random):
        super().__init__(name=f"worker {index}")
        self.index, self.dataflow, self.network = index, dataflow, network
        self.log, self.inputs, self.random, self.sent = log, inputs, random, collections.Counter()
        self.changes, self.tracker = Changes(), Tracker(dataflow, len(network.boxes))
        self.messages = collections.defaultdict(list)
        self.logics = collections.defaultdict(list)
        for it in dataflow.operators:
            if it.logic:
                self.logics[dataflow.scope_of(it)].append(self.logic(it))

    def logic(self, operator):
        """What is run of an operator; it begins with a capability per output."""
        firsts = [Capability(self, it, (0, 0) if it.scope else 0, True) for it in operator.outs()]
        return operator.logic(self, operator, firsts)

    def run(self):
        self.log.dataflow(self.dataflow)
        while self.step():
            clock.sleep(self.random.choice([0, 0, 0.0001, 0.0005]))
        self.network.leave(self.index)
        self.log.file.close()

    def step(self):
        """Runs each operator, sends progress, and reads the mail; false if there is no more to do. A scope
        sends its progress when its operators have run."""
        ran = [self.run_scope(it) for it in self.random.sample(list(self.logics), len(self.logics))]
        self.send_progress(None)
        mail = self.network.fetch(self.index, not any(ran))
        scopes = [*self.logics, None]
        if mail and self.random.random() < 0.5:  # each scope has a channel of its own
            mail.sort(key=lambda it: scopes.index(it[1]) if it[0] == "receive_progress" else 0)
        for receive, *its in mail or ():
            getattr(self, receive)(*its)
        return mail is not None and not self.tracker.is_complete()

    def run_scope(self, scope):
        """Runs each operator of a scope; whether any did anything."""
        logics = self.logics[scope]
        ran = any([it.schedule() for it in self.random.sample(logics, len(logics))])
        if scope:
            self.send_progress(scope)
        return ran

    def receive_message(self, target, time, value):
        self.messages[target].append((time, value))

    def receive_progress(self, scope, source, seq_no, batch):
        self.log.progress(False, scope, source, seq_no, batch)
        self.tracker.apply(scope, batch)

    def send_progress(self, scope):
        """Sends what was gathered in a scope to all workers, this one included."""
        batch = self.changes.take(scope)
        if batch:
            self.sent[scope] += 1
            its = scope, self.index, self.sent[scope], batch
            self.log.progress(True, *its)
            for to in range(len(self.network.boxes)):
                self.network.send(to, ("receive_progress", *its))

    def send(self, output, time, value, is_told=False):
        """Sends a value on each channel of an output. If it left a scope, that one tells of it."""
        for channel in self.dataflow.leaving(output):
            target = channel.target
            if not is_told:
                self.changes.add(target, time, 1)
            if self.dataflow.is_scope(target.node):
                self.changes.add(target.across(), (time, 0), -1)
                self.send(target.across(), (time, 0), value)
            elif target.scope and target.node[1] == BORDER:
                self.send(target.across(), time[0], value, True)
            else:
                to = value % len(self.network.boxes) if channel.exchange else self.index
                self.network.send(to, ("receive_message", target, time, value))

    def read(self, target):
        """Returns the messages at an input, and counts them as consumed."""
        messages = self.messages.pop(target, [])
        for time, _ in messages:
            self.changes.add(target, time, -1)
        return messages
