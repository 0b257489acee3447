"""What the batches of all logs say, in the dataflow's ports.

    progress = Progress(logs, dataflow)     Unreadable or Unsupported, if an entry has another form
    progress.events[1]                      of worker 1, in its order: whether it sent a batch, and the batch
    progress.sent[1]                        the batches of worker 1, of all scopes, in the order of its log
    progress.changes[batch]                 the Change of a batch that was sent
    progress.differing[batch]               by how much a batch was received as another than it was sent
    progress.epochs                         the first numbers of all times

If a worker's log does not have a batch that others received, those are its last events
(progress.rebuilt). A time is a number, or within loops a tuple."""
import collections
from typing import NamedTuple

from rewind_tools.following.epochs import is_whole
from rewind_tools.following.traces import MOST_COUNTER
from rewind_tools.timely.dataflow import ENTERED, ENTRY, LEAVING, LEFT, across
from rewind_tools.timely.logs import Unreadable, Unsupported


class Change(NamedTuple):
    """What a batch says, by port and time: how many messages are consumed and produced, and how many
    capabilities there are more or, below 0, less. `delivered` has the messages that are produced where they
    arrive, which is elsewhere if they leave a scope."""

    takes: dict
    makes: dict
    capabilities: dict
    delivered: dict

    def messages(self):
        """The differences of messages."""
        return {**self.makes, **{point: -n for point, n in self.takes.items()}}


class Progress:
    def __init__(self, logs, dataflow):
        self.dataflow, self.epochs = dataflow, {0}
        self.events, self.changes, self.differing = [], {}, {}
        self.firsts = first_numbers(logs)
        for log in logs:
            self.events.append([self.indexed(it) for it in log.batches])
        lasts, beyond = self.beyond()
        self.rebuilt = [self.rebuild(worker, lasts, beyond) for worker in range(len(logs))]
        self.sent = [[it for is_send, it in events if is_send] for events in self.events]
        self.by_index = {}
        for batches in self.sent:
            for number, it in enumerate(batches, 1):
                it.number = number
                self.by_index[it.source, it.scope, it.index] = it
                self.changes[it] = self.change(it)
        for events in self.events:
            for is_send, it in events:
                if not is_send:
                    self.compare(it)
        for events in self.events:
            for _, it in events:
                it.messages = it.internal = None  # which a million batches have no room for

    def indexed(self, batch):
        batch.index = batch.seq_no - self.firsts[batch.source, batch.scope] + 1
        return batch.is_send, batch

    def beyond(self):
        """The index of the last batch of each worker and scope that its log has, and the batches after these
        that others received."""
        lasts = collections.Counter()
        for events in self.events:
            for is_send, it in events:
                if is_send:
                    lasts[it.source, it.scope] = max(lasts[it.source, it.scope], it.index)
        received = (it for events in self.events for is_send, it in events if not is_send)
        return lasts, [it for it in received if it.index > lasts[it.source, it.scope]]

    def rebuild(self, worker, lasts, beyond):
        """Adds the batches of a worker that others received and its log does not have; returns them."""
        found = []
        for it in beyond:
            if it.source == worker and it.index == lasts[worker, it.scope] + 1:
                lasts[worker, it.scope] += 1
                found.append(it)
        self.events[worker] += [(True, it) for it in found]
        return found

    def change(self, batch):
        messages, enter = self.summed(batch, "messages"), collections.Counter()
        capabilities = self.summed(batch, "internal")
        if self.dataflow.is_nested:
            self.check_borders(batch, messages, capabilities)
            for port, time in [it for it in capabilities if it[0].side == ENTERED]:
                enter[port.across, across(port, time)] += capabilities.pop((port, time))
        takes = {point: -n for point, n in [*messages.items(), *enter.items()] if n < 0}
        makes = {point: n for point, n in messages.items() if n > 0} if takes else messages
        return Change(takes, makes, capabilities, self.delivered(makes))

    def check_borders(self, batch, messages, capabilities):
        """That messages enter a scope by its own batches, and leave it by them."""
        wrong = [it for it, n in messages.items() if n < 0 and it[0].side in (ENTRY, LEAVING)]
        wrong += [it for it in capabilities if it[0].side == LEFT]
        wrong += [it for it, n in capabilities.items() if it[0].side == ENTERED and n > 0]
        if wrong:
            operator = wrong[0][0].operator
            border = f"an entry at the border of {operator.name} {operator.address}, which is a scope"
            raise Unsupported(batch.log.path, batch.line, f"{border}: no message there explains it")

    def delivered(self, makes):
        if not self.dataflow.is_nested:
            return makes
        found = collections.Counter()
        for (port, time), n in makes.items():
            found.update({point: n for point in self.dataflow.delivered(port, time)})
        return found

    def summed(self, batch, kind):
        """The entries of one kind, added by port and time; those that add up to 0 are left out."""
        scope, found = self.dataflow.scopes[batch.scope], {}
        side, numbers = "in" if kind == "messages" else "out", scope.depth + 1
        ports = self.dataflow.known.get((side, batch.scope), {})
        for it in getattr(batch, kind):
            if type(it) is not list or len(it) != 4 or type(it[3]) is not int:
                raise Unreadable(batch.log.path, batch.line, f"an entry is [node, port, time, n], not {it}")
            node, number, time, n = it
            if type(time) is not list or len(time) != numbers or not is_whole(time[0]):
                raise Unsupported(batch.log.path, batch.line, time_words(time, numbers))
            port = ports.get((node, number)) if type(node) is type(number) is int else None
            if port is None:
                where = f"{side}put {number} of operator {node}"
                why = f"an entry of {kind} at {where}, which is not in the logs"
                raise Unreadable(batch.log.path, batch.line, why)
            self.epochs.add(time[0])
            point = port, time[0] if numbers == 1 else self.nested(batch, time)
            found[point] = found.get(point, 0) + n
        return found if all(found.values()) else {point: n for point, n in found.items() if n}

    def nested(self, batch, time):
        """A time within loops."""
        if not all(is_whole(it, MOST_COUNTER - 1) for it in time[1:]):
            raise Unsupported(batch.log.path, batch.line, time_words(time, len(time)))
        return tuple(time)

    def compare(self, batch):
        """Compares a batch that was received with the one that was sent, whose number it gets."""
        sent = self.by_index.get((batch.source, batch.scope, batch.index))
        batch.number = sent and sent.number
        if sent is None or sent.messages is batch.messages and sent.internal is batch.internal:
            return
        apart = entries(self.change(batch))
        apart.subtract(entries(self.changes[sent]))
        if any(apart.values()):
            self.differing[batch] = {point: n for point, n in apart.items() if n}


def entries(change):
    """What a batch says, as differences."""
    return collections.Counter({**change.messages(), **change.capabilities})


def time_words(time, numbers):
    wanted = "one number" if numbers == 1 else f"{numbers} numbers"
    return f"the time {time}; a time can be a list of {wanted} there"


def first_numbers(logs):
    """By worker and scope the number of its first batch: 0, as some versions of timely have it, or 1."""
    firsts = collections.defaultdict(lambda: 1)
    for log in logs:
        for it in log.batches:
            if it.seq_no == 0:
                firsts[it.source, it.scope] = 0
    return firsts
