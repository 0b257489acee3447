"""What an operator of the program's own holds while it may still send."""


class Capability:
    """Permits a vertex to send at a time and later. On each worker a vertex has at most one per time."""

    def __init__(self, worker, vertex, time):
        self.worker, self.vertex, self.time = worker, vertex, time

    def send(self, value, key, time=None):
        """Sends a value at a time, or at the capability's own, to the worker that the key chooses."""
        at, dest = time or self.time, key % self.worker.workers
        self.trace("send", port=0, values=[value], at=at, dest=dest)
        self.worker.send(self.vertex, at, value, dest=dest)

    def delayed(self, time):
        """A capability for a later time; this one stays."""
        if time != self.time:
            self.trace("release", to=time, keep=True)
        return self.worker.hold(self.vertex, time)

    def downgrade(self, time):
        """Moves to a later time."""
        self.trace("release", to=time)
        self.worker.hold(self.vertex, time)
        self.worker.let_go(self.vertex, self.time)
        self.time = time

    def drop(self):
        """Gives it up."""
        self.trace("release")
        self.worker.let_go(self.vertex, self.time)

    def trace(self, do, **keys):
        self.worker.trace.step(do, vertex=self.vertex, time=self.time, **keys)
