"""The steps of a planned trace, as a follower executes them.

    steps = Steps(times)
    steps.times[1790000000250].stamp              a time by rank, since a script's epochs have 32 bits
    steps.release(pending, port, time)            a Step of a worker's pending batch
    steps.sent(sent, False)                       the Steps that send messages of a Sent, one for each worker
                                                  that takes some

A Step is a Line of a trace whose number is its batch's line; `entry` is the point that it is for. Every
message has the value 0."""
import json
from typing import NamedTuple

from rewind_tools.following.reading import NOTHING, NOTHING_OWN, Line, Own
from rewind_tools.timely.dataflow import delayed

# How many values a send has at most; and how many messages of one entry are followed one by one.
MOST_VALUES, MOST_EXACT = 1_024, 64


class Step(Line):
    __slots__ = ("batch", "entry", "wanted")

    def __init__(self, worker, batch, word, text, entry, needs=None, makes=NOTHING, own=NOTHING_OWN):
        self.worker, self.batch, self.number = worker.index, batch, batch.line if batch else 0
        self.word, self.text, self.entry = word, text, entry
        self.needs, self.makes, self.own = needs, makes, own


class Time(NamedTuple):
    """A time as a follower knows it, and as it stands in the brackets of a line."""

    stamp: tuple
    text: bytes


class Times(dict):
    """By a time of the logs that with its epoch's rank."""

    def __init__(self, epochs):
        super().__init__()
        self.ranks = {epoch: rank for rank, epoch in enumerate(sorted(epochs))}

    def __missing__(self, time):
        epoch, *counters = time if type(time) is tuple else (time,)
        stamp = self.ranks[epoch], *counters
        self[time] = found = Time(stamp, ",".join(map(str, stamp)).encode())
        return found


class Quoted(dict):
    """By a name its JSON text."""

    def __missing__(self, name):
        self[name] = found = json.dumps(name).encode()
        return found


class Numbers(dict):
    """By a number what the own keys of a line say that has no other."""

    def __missing__(self, number):
        self[number] = found = Own(number, None, None, NOTHING_OWN.counted)
        return found


class Steps:
    """Makes Steps, which share what is equal, since there may be a million."""

    def __init__(self, epochs):
        self.times, self.texts, self.owns, self.quoted = Times(epochs), {}, Numbers(), Quoted()

    def record(self, hop, to, time):
        """A message on a channel, as a follower knows it."""
        return hop.edge, to, self.times[time].stamp, 0

    def takes(self, pending, record, time, entry, count=1):
        """Steps that take messages which are one record."""
        text = b'{"do":"take","p":%d,"edge":%s,"time":[%s],"value":0}'
        text %= pending.worker.index, self.quoted[record[0]], self.times[time].text
        return [Step(pending.worker, pending.batch, "take", text, entry, record)] * count

    def hop(self, pending, hop, since, time):
        """A message from a port to the next one of the same worker, where it arrives at a time: it is sent
        from a capability at `since`, taken, and taken again after each round by which the edge delays it."""
        p, first = pending.worker.index, delayed(time, -len(hop.rounds))
        record = self.record(hop, p, first)
        made = [self.send(pending, hop, since, first, record), *self.takes(pending, record, first, None)]
        for number, (_, edge) in enumerate(hop.rounds, 1):
            later = delayed(first, number)
            made += self.takes(pending, (edge, p, self.times[later].stamp, 0), later, None)
        return made

    def cross(self, pending, hop, time, later, count=1):
        """Messages that were taken at a scope's border cross it: they are taken on the other side."""
        record, made = self.record(hop, pending.worker.index, later), []
        if hop.source.op == "opaque":
            made = [self.send(pending, hop, time, later, record, count)]
            made.append(self.release(pending, hop.source, time))
        return made + self.takes(pending, record, later, None, count)

    def send(self, pending, hop, since, time, record, count=1, entry=None):
        text = b'{"do":"send","p":%d,"vertex":%s,"time":[%s],"port":%d,"values":[%s],"at":[%s],"dest":%d}'
        start, values = self.times[since].text, b"0" + b",0" * (count - 1)
        its = pending.worker.index, self.quoted[hop.source.vertex], start, hop.port, values
        text %= *its, self.times[time].text, record[1]
        makes = (record,) * count
        return Step(pending.worker, pending.batch, "send", text, entry, None, makes)

    def release(self, pending, port, time, entry=None):
        text = b'{"do":"release","p":%d,"vertex":%s,"time":[%s]}'
        text %= pending.worker.index, self.quoted[port.vertex], self.times[time].text
        return Step(pending.worker, pending.batch, "release", text, entry)

    def keep(self, pending, port, since, time, entry):
        """A later capability beside one that is held."""
        text = b'{"do":"release","p":%d,"vertex":%s,"time":[%s],"to":[%s],"keep":true}'
        times = self.times[since].text, self.times[time].text
        text %= pending.worker.index, self.quoted[port.vertex], *times
        return Step(pending.worker, pending.batch, "release", text, entry)

    def broadcast(self, worker, batch, number, change):
        text = b'{"do":"broadcast","p":%d}' % worker.index
        return Step(worker, batch, "broadcast", text, None, None, NOTHING, self.own(number, change))

    def receive(self, worker, batch, number, change):
        ends = batch.source, worker.index
        text = self.texts.get(ends)
        if text is None:
            text = self.texts[ends] = b'{"do":"receive","from":%d,"to":%d}' % ends
        return Step(worker, batch, "receive", text, None, ends[0], NOTHING, self.own(number, change))

    def own(self, number, change):
        """A batch's number and its change, as a follower compares them."""
        return self.owns[number] if change is None else Own(number, change, None, NOTHING_OWN.counted)

    def sent(self, sent, are_many):
        """The steps that send messages; the worker itself gets those that nobody takes."""
        if sent.left:
            count, record = sent.given(sent.worker, self)
            sent.taken[sent.worker.index] = count + (1 if are_many else sent.left), record
        made, entry = [], (sent.hop.target, sent.time)
        for count, record in sent.taken.values():
            for begin in range(0, count, MOST_VALUES):
                n = min(count - begin, MOST_VALUES)
                made.append(self.send(sent, sent.hop, sent.since, sent.time, record, n, entry))
        return made
