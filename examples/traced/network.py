"""The mailboxes between the workers' threads, and how the threads end."""
import queue
import threading


class Network:
    """One mailbox per worker, for records and progress updates.

    A worker is busy until it waits for a message. Once no worker is busy and no message is on its way, no
    worker will ever send another. Then the waiting ends, whether or not the dataflow is finished."""

    def __init__(self, workers):
        self.mailboxes = [queue.Queue() for _ in range(workers)]
        self.lock, self.busy = threading.Lock(), workers

    def send(self, to, message):
        with self.lock:
            self.busy += 1
        self.mailboxes[to].put(message)

    def done(self):
        with self.lock:
            self.busy -= 1
            if not self.busy:
                self.stop()

    def stop(self):
        for it in self.mailboxes:
            it.put(None)

    def arrived(self, at):
        """Takes what has arrived at a worker."""
        messages = []
        while not self.mailboxes[at].empty():
            message = self.mailboxes[at].get()
            if message is None:
                self.mailboxes[at].put(None)
                break
            messages.append(message)
            self.done()
        return messages

    def wait(self, at):
        """Waits for a message to a worker that has nothing to do; None if no message will come."""
        self.done()
        return self.mailboxes[at].get()
