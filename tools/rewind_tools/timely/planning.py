"""The traces that explain the logs: for each worker the steps of the model that make its batches, with its
broadcasts and receives.

    planner = Planner(dataflow, progress, report)
    for pieces in planner.tries():     NoOrder, if the batches wait for each other in each order tried
        for steps in pieces:           Steps in an order in which each can be executed; each try begins anew
    planner.traces                     all Steps: also those from the one of a worker on that no run can have
    planner.left()                     messages that no batch says are consumed: Sent, with `left` of them
    planner.untold                     Untold messages: consumed, and no batch says that they were produced
    planner.workers[1].born[point]     the batch since which a worker holds a capability; None: the start

The workers take turns, each up to its next broadcast. The steps of a batch stand right after the broadcast
before it, since a message may be consumed before its production is told. Which message a worker consumes is
open as long as the counts are right, so each takes one that is there, as late as it can, since what it takes
another may need. If the workers wait for each other all the same, planning starts again with other choices.
Messages that were consumed and that no batch says were produced are made by a worker that has sent all its
batches and can have made them: as few as there can be, if that explains all. An entry that nothing supports
ends its worker's trace: the program refuses its last line."""
import collections
import heapq
from typing import NamedTuple

from rewind_tools.timely.dataflow import ENTRY, LEAVING, across, delayed, is_at_or_before
from rewind_tools.timely.steps import MOST_EXACT, Steps

# How often planning starts again at most; and how many steps are executed at once.
MOST_PLANS, PIECE = 20, 4_000
FROM_START = None
# A change that no step makes.
OTHER = {("", (0,)): 1}


class NoOrder(Exception):
    """No order of the workers was found: the batches that wait."""

    def __init__(self, waiting):
        super().__init__("no order of the batches was found")
        self.waiting = waiting


class Unjoined(Exception):
    """The batches of a worker's scopes do not fit together: a batch, its entry that nothing supports, and
    the batches of other scopes beside it."""

    def __init__(self, batch, point, others):
        super().__init__("batches of different scopes do not fit together")
        self.batch, self.point, self.others = batch, point, others


class Again(Exception):
    """Planning starts again."""


class Sent:
    """Messages that a worker sends on a channel at a time: how many are not taken, and by worker how many
    are. `batch` is the one that says so; None, if none does."""

    __slots__ = ("worker", "batch", "hop", "since", "time", "left", "taken")

    def __init__(self, pending, hop, since, time, count):
        self.worker, self.batch, self.hop = pending.worker, pending.batch, hop
        self.since, self.time = since, time
        self.left, self.taken = count, {}

    def given(self, worker, steps):
        """How many a worker takes, and what each is to a follower."""
        return self.taken.get(worker.index) or (0, steps.record(self.hop, worker.index, self.time))


class Untold(NamedTuple):
    """Messages that a batch says were consumed, and that no batch says were produced: the input, the time,
    how many, and the workers that can have made them. The trace of one of these makes them."""

    batch: object
    target: object
    time: int
    count: int
    workers: list


class Held:
    """The capabilities that a worker holds at one output: by time how many."""

    __slots__ = ("counts", "times")

    def __init__(self, first):
        self.counts, self.times = {first: 1}, [first]

    def set(self, time, count):
        if count and time not in self.counts:
            heapq.heappush(self.times, time)
        if count:
            self.counts[time] = count
        else:
            del self.counts[time]

    def at_or_before(self, time):
        """A time at or before another at which one is held, the same if it can be; None if there is none."""
        if time in self.counts:
            return time
        if type(time) is tuple:
            return next((it for it in self.counts if is_at_or_before(it, time)), None)
        while self.times and self.times[0] not in self.counts:
            heapq.heappop(self.times)
        return self.times[0] if self.times and self.times[0] <= time else None


class Pending:
    """The next batch that a worker sends in a scope, as far as it is not explained."""

    def __init__(self, worker, batches, scope):
        self.worker, self.batches, self.scope, self.sent = worker, batches, scope, 0
        # what the model holds for the steps of one batch alone: messages that were taken, and capabilities
        self.taken, self.lent = {}, {}
        self.takes, self.makes, self.rises, self.falls = {}, {}, {}, ()
        self.batch = None
        # by point whether a batch makes the first capability there (1) or gives up the last (-1)
        self.turned = {}
        # where it gives up more capabilities than there are
        self.wrong = None


class Worker:
    """A worker on its way through its log. `next` has by scope what it sends next."""

    def __init__(self, index, events, dataflow):
        self.index, self.events, self.at = index, events, 0
        self.sends = [batch for is_send, batch in events if is_send]
        # how many batches it has sent, and received by sender; by sender and scope, too
        self.sent, self.got, self.indexes = 0, collections.Counter(), collections.Counter()
        # what it has received while a batch of another scope before that is missing
        self.early = {}
        self.held = {it: Held(first_time(it)) for it in dataflow.outputs}
        self.born, self.gone = {(it, first_time(it)): FROM_START for it in dataflow.outputs}, {}
        batches = {scope: [it for it in self.sends if it.scope == scope] for scope in dataflow.scopes}
        self.next = [Pending(self, its, scope) for scope, its in batches.items()]
        # a step that no run can have, which ends its trace; how many capabilities there were at its entry
        self.wrong, self.had = None, 0
        # by its number what the model moves with a batch
        self.moved = {}
        # what it has received since its last broadcast
        self.late = []

    @property
    def is_done(self):
        return self.sent == len(self.sends)

    def pending(self):
        """What is to be sent first."""
        if len(self.next) == 1:
            return self.next[0]
        scope = self.sends[self.sent].scope
        return next(it for it in self.next if it.scope == scope)


def first_time(port):
    """The time of the capability that an output has at the start."""
    return (0,) * (port.depth + 1) if port.depth else 0


class Located(dict):
    """By a port and a time of the logs the location and the time that the program has for it."""

    def __init__(self, dataflow, times):
        super().__init__()
        self.dataflow, self.times = dataflow, times

    def __missing__(self, point):
        port, time = point
        self[point] = found = self.dataflow.place(port), self.times[time].stamp
        return found


class Planner:
    def __init__(self, dataflow, progress, report):
        self.dataflow, self.progress, self.report = dataflow, progress, report
        self.steps = Steps(progress.epochs)
        self.located = Located(dataflow, self.steps.times)
        self.workers, self.pools, self.untold = [], {}, []
        # all Steps so far, and what was planned after them: Steps, and messages that are Sent
        self.traces, self.made, self.stopped = [], [], set()
        self.many, self.totals, self.count = set(), {}, len(progress.changes)
        for change in progress.changes.values():
            for sign, counts in ((1, change.delivered), (-1, change.takes)):
                for point, n in counts.items():
                    self.totals[point] = self.totals.get(point, 0) + sign * n
                    if n > MOST_EXACT:
                        self.many.add(point)
        self.is_uncounted = bool(self.many) or any(its[1:] for its in dataflow.into.values())
        # by a batch and a message that it consumes, the batches that consume theirs before it; and whether
        # workers may have made more messages that no batch tells than are missing, and consumed as many
        self.after, self.is_generous = {}, False

    def tries(self):
        for self.is_generous in (False, True):
            self.after = {}
            for _ in range(MOST_PLANS):
                yield self.pieces()
                if self.outcome is not Again:
                    break
            if self.outcome is None:
                return
        raise NoOrder([it.batch for worker in self.workers for it in worker.next if it.takes])

    def pieces(self):
        """A try: yields the steps that can be executed; how it ended is the outcome, None at its end."""
        self.outcome = None
        try:
            yield from self.plan()
        except (Again, NoOrder) as it:
            self.outcome = type(it)

    def plan(self):
        self.begin()
        while any([self.turn(it) for it in self.workers]) or self.unblock():
            self.report("batches explained", sum(it.sent for it in self.workers), self.count)
            if len(self.made) > PIECE:
                yield self.settled()
        self.plan_rest()
        yield self.settled(is_last=True)

    def plan_rest(self):
        """Plans what can be of the batches that are left, so that the program refuses one."""
        left = [it for it in self.workers if not it.is_done and not it.wrong]
        for it in left:
            self.explain(it.pending())  # which may be wrong, too
        if left and not any(it.wrong for it in self.workers):
            self.stop_unjoined([it for worker in left for it in worker.next if it.batch])

    def begin(self):
        self.workers = [Worker(index, its, self.dataflow) for index, its in enumerate(self.progress.events)]
        self.pools, self.traces, self.made, self.stopped = {}, [], [], set()
        self.missing = {point: -n for point, n in self.totals.items() if n < 0}
        self.surplus = {point: n for point, n in self.totals.items() if n > 0}
        self.untold = []
        for worker in self.workers:
            for it in worker.next:
                self.next_batch(it)

    def next_batch(self, pending):
        """Looks at what the next batch of a worker in a scope says."""
        is_left = pending.sent < len(pending.batches)
        pending.batch, pending.turned = (pending.batches[pending.sent] if is_left else None), {}
        if pending.batch is None:
            return
        change = self.progress.changes[pending.batch]
        pending.takes, pending.makes = dict(change.takes), dict(change.makes)
        pending.rises, pending.falls = {}, []
        for (output, time), n in change.capabilities.items():
            held = pending.worker.held[output].counts
            if n < 0:
                pending.falls.append((output, time, -n))
            elif time in held:
                held[time] += n
            else:
                pending.rises[output, time] = n

    def turn(self, worker):
        """Plans what a worker does up to its next broadcast; whether there was anything."""
        if worker.wrong:
            return False
        moved = any([self.make(it, False) for it in worker.next if it.rises or it.makes])
        while worker.at < len(worker.events) and not worker.wrong:
            is_send, batch = worker.events[worker.at]
            if is_send:
                return self.complete(worker.pending()) or moved
            sender = self.workers[batch.source]
            number = batch.number or len(sender.sends) + 1
            if sender.sent < number and self.is_next(worker, batch):
                return moved
            self.receive(worker, batch, number)
            moved = True
        return moved

    def is_next(self, worker, batch):
        """Whether a batch is the next that a worker receives of its sender in its scope."""
        return batch.index == worker.indexes[batch.source, batch.scope] + 1

    def complete(self, pending):
        """Plans the rest of a worker's batch and its broadcast, if all messages that it consumes are
        there."""
        if not self.explain(pending):
            return False
        if not pending.worker.wrong:
            self.broadcast(pending)
        return True

    def explain(self, pending):
        """Plans the rest of the steps of a worker's batch, if all messages that it consumes are there."""
        for point, count in pending.takes.items():
            if not self.is_there(pending, point, count):
                return False
        for point, count in pending.takes.items():
            self.take_from(pending, point, count)
        pending.takes = {}
        for is_far in (False, True):
            if pending.rises or pending.makes:
                self.make(pending, is_far)
        wrong = next(iter([*pending.makes, *pending.rises]), None)
        if wrong or not self.finish(pending):
            self.stop(pending, wrong or pending.wrong)
        return True

    def broadcast(self, pending):
        worker, batch, change = pending.worker, pending.batch, self.model_change(pending)
        worker.at += 1
        worker.sent += 1
        pending.sent += 1
        lost = batch.index - pending.sent
        step = self.steps.broadcast(worker, batch, worker.sent + lost, change)
        self.made += worker.late
        self.made.append(step)
        worker.late = []
        if self.progress.differing:
            worker.moved[worker.sent] = change
        if lost:
            worker.wrong, step.wanted = step, batch.seq_no - lost
        self.next_batch(pending)

    def receive(self, worker, batch, number):
        """Plans that a worker receives a batch: once it has all before it, of other scopes as well."""
        apart, key = self.progress.differing.get(batch), (batch.source, batch.scope)
        worker.at += 1
        worker.indexes[key] += 1
        lost = batch.index - worker.indexes[key]
        if apart or lost:
            number = worker.got[batch.source] + 1 + lost
            step = self.steps.receive(worker, batch, number, self.changed(batch, apart) if apart else None)
            worker.wrong, step.wanted = step, batch.seq_no - lost
            worker.late.append(step)
            return
        source, got = batch.source, worker.got[batch.source]
        worker.early[source, number] = batch
        while its := worker.early.pop((source, got + 1), None):
            got += 1
            worker.late.append(self.steps.receive(worker, its, got, None))
        worker.got[source] = got

    def changed(self, batch, apart):
        """The change of a batch that was received as another than it was sent."""
        moved = self.workers[batch.source].moved.get(batch.number)
        if moved is None:
            return OTHER
        change = collections.Counter(moved)
        change.update({self.located[it]: n for it, n in apart.items()})
        return change

    def model_change(self, pending):
        """What the model moves with a worker's batch: a capability counts once, however many hold it. None,
        if its messages are not followed one by one, or those of other scopes beside them."""
        if self.dataflow.is_nested:
            return None
        change, located = self.progress.changes[pending.batch], self.located
        if self.is_uncounted and any(map(self.is_uncounted_at, [*change.takes, *change.makes])):
            return None
        moved = {located[it]: -n for it, n in change.takes.items()}
        for counts in (change.makes, pending.turned):
            for it, n in counts.items():
                moved[located[it]] = n
        return moved

    def is_uncounted_at(self, point):
        """Whether messages at a point are not followed one by one, or come over one of several channels."""
        return point in self.many or len(self.dataflow.into[point[0]]) > 1

    def make(self, pending, is_far):
        """Plans what a batch of a worker produces, and its new capabilities: from capabilities at the same
        operator, or, if `is_far`, from others that lead there. Whether there were any."""
        moved = False
        for point in list(pending.rises):
            moved |= self.raise_to(pending, point, is_far)
        for point in list(pending.makes):
            moved |= self.produce(pending, point, is_far)
        return moved

    def raise_to(self, pending, point, is_far):
        (output, time), worker = point, pending.worker
        since = self.capability(pending, output, time, is_far)
        if since is None:
            return False
        if since != time:
            self.made.append(self.steps.keep(pending, output, since, time, point))
        if output in pending.lent:
            pending.lent[output].discard(time)
        worker.held[output].set(time, pending.rises.pop(point))
        worker.born[point], pending.turned[point] = pending.batch, 1
        return True

    def produce(self, pending, point, is_far):
        target, time = point
        for hop in self.dataflow.into[target]:
            since = self.capability(pending, hop.source, time, is_far)
            if since is not None:
                self.send(pending, hop, since, time, pending.makes.pop(point))
                return True
        return False

    def send(self, pending, hop, since, time, count):
        if hop.target.side == LEAVING:
            self.send_out(pending, hop, since, time, count)
            return
        sent = Sent(pending, hop, since, time, count)
        self.made.append(sent)
        self.pools.setdefault((hop.target, time), []).append(sent)

    def send_out(self, pending, hop, since, time, count):
        """Plans that messages leave a scope: one for all of them, from which they are sent outside."""
        inside, outside = hop.target, hop.target.across
        later = across(inside, time)
        self.made += self.steps.hop(pending, hop, since, time)
        self.made += self.steps.cross(pending, inside.edges[0], time, later)
        for on in outside.edges:
            self.send(pending, on, later, later, count)
        self.made.append(self.steps.release(pending, outside, later))

    def capability(self, pending, output, time, is_far):
        """The time of a capability of a worker at an output, at or before a time. If it has none, messages
        lead to one at that time, if they can; else None."""
        since = self.there(pending, output, time)
        if since is not None:
            return since
        for way in self.dataflow.ways(output)[1:]:
            if not is_far and way.on.hop:
                return None
            start = delayed(time, -way.delay)
            since = None if start is None else self.there(pending, way.source, start)
            if since is None:
                continue
            for hop, rest in way.hops():
                its = delayed(time, -rest)
                self.made += self.steps.hop(pending, hop, since, its)
                since, there = its, pending.lent if hop.target.is_output else pending.taken
                there.setdefault(hop.target, set()).add(its)
            return since
        return None

    def there(self, pending, port, time):
        """A time at or before another at which a worker has a capability at a port, or has taken a
        message."""
        if port in pending.worker.held:
            held = pending.worker.held[port].at_or_before(time)
            if held is not None:
                return held
        times = (pending.lent if port.is_output else pending.taken).get(port)
        return min((it for it in times if is_at_or_before(it, time)), default=None) if times else None

    def is_there(self, pending, point, count):
        """Whether so many messages can be taken."""
        there = sum([it.left for it in self.pools.get(point, ())])
        return there >= count and (not self.after or self.is_turn(pending, point))

    def is_turn(self, pending, point):
        """Whether the batches that are to take such a message before this one have done so."""
        before = self.after.get((self.key(pending), point), ())
        others = ((self.workers[index].next[at], sent) for index, at, sent in before)
        return all(it.sent > sent or it.sent == sent and point not in it.takes for it, sent in others)

    def key(self, pending):
        """A batch that is pending, in each plan the same: the worker, the scope's place, and its place."""
        return pending.worker.index, pending.worker.next.index(pending), pending.sent

    def take(self, pending):
        """Takes messages that the batch consumes and that are there; whether there were any."""
        moved = False
        for point, count in list(pending.takes.items()):
            if self.is_there(pending, point, 1):
                moved = True
                left = self.take_from(pending, point, count)
                pending.takes[point] = left
                if not left:
                    del pending.takes[point]
        return moved

    def take_from(self, pending, point, count):
        """Takes messages that are there, those of the worker itself first; how many are wanting."""
        worker, pool = pending.worker, self.pools[point]
        for sent in sorted(pool, key=lambda it: it.worker is not worker) if len(pool) > 1 else pool:
            count -= self.take_some(pending, sent, count)
        pool = [it for it in pool if it.left]
        if pool:
            self.pools[point] = pool
        else:
            del self.pools[point]
        return count

    def take_some(self, pending, sent, count):
        """Takes messages of a Sent, at most so many; how many it took."""
        n = min(count, sent.left)
        if not n:
            return 0
        worker, target = pending.worker, sent.hop.target
        point = target, sent.time
        sent.left -= n
        records = 1 if point in self.many else n
        before, record = sent.given(worker, self.steps)
        sent.taken[worker.index] = before + records, record
        self.made += self.steps.takes(pending, record, sent.time, point, records)
        if target.side == ENTRY:
            inside = across(target, sent.time)
            self.made += self.steps.cross(pending, target.edges[0], sent.time, inside, records)
            pending.lent.setdefault(target.across, set()).add(inside)
        else:
            pending.taken.setdefault(target, set()).add(sent.time)
        return n

    def finish(self, pending):
        """Plans that a worker gives up what its batch says is gone, and what was there for its steps alone;
        whether it has it."""
        worker = pending.worker
        for there in (pending.taken, pending.lent):
            for port, times in there.items():
                self.made += [self.steps.release(pending, port, time) for time in times]
            there.clear()
        for output, time, n in pending.falls:
            held = worker.held[output]
            worker.had = held.counts.get(time, 0)
            if n < worker.had:
                held.set(time, worker.had - n)
                continue
            if worker.had:
                held.set(time, 0)
                self.made.append(self.steps.release(pending, output, time))
                pending.turned[output, time], worker.gone[output, time] = -1, pending.batch
            if n > worker.had:
                pending.wrong = output, time
                return False
        return True

    def stop(self, pending, point):
        """Plans a step that no run can have, for an entry that nothing supports: the program refuses it."""
        (port, time), worker = point, pending.worker
        if self.dataflow.is_nested and point != pending.wrong:
            raise Unjoined(pending.batch, point, self.other_scopes(worker, pending))
        if port.is_output:
            step = self.steps.release(pending, port, time, point)
        else:
            hop = self.dataflow.into[port][0]
            record = self.steps.record(hop, worker.index, time)
            step = self.steps.send(pending, hop, time, time, record, 1, point)
        self.made.append(step)
        worker.wrong = step

    def stop_unjoined(self, left):
        """Says which of the batches that are left has an entry that nothing explains."""
        left.sort(key=lambda it: bool(it.takes))
        for its in ("makes", "rises", "takes"):
            for it in left:
                for point in getattr(it, its):
                    raise Unjoined(it.batch, point, self.other_scopes(it.worker, it))

    def other_scopes(self, worker, pending):
        """The batches of other scopes that a worker sends next, or sent last."""
        others = (it for it in worker.next if it is not pending and it.batches)
        return [it.batches[min(it.sent, len(it.batches) - 1)] for it in others]

    def unblock(self):
        """Helps workers that all wait; whether any can go on."""
        blocked = [it for it in self.workers if not it.is_done and not it.wrong]
        blocked = [it for worker in blocked for it in worker.next if it.batch]
        wanted = {point for it in blocked for point in it.takes}
        blocked.sort(key=lambda it: wanted.isdisjoint(it.makes))
        for step in (self.take, lambda it: self.make(it, True), self.add_untold):
            if any(map(step, blocked)):
                return True
        waiting = [it for it in blocked if it.takes]
        if waiting and not any(it.wrong for it in self.workers):
            self.take_otherwise(waiting)
            if not self.is_generous:
                raise NoOrder([it.batch for it in waiting])
            return any(map(self.stop_at_take, waiting))
        return False

    def take_otherwise(self, waiting):
        """Starts again, so that a worker that waits takes a message before another that took one."""
        for pending in waiting:
            for point in pending.takes:
                own = self.key(pending)
                for other in self.takers(point):
                    its = self.after.setdefault((other, point), set())
                    if other != own and own not in its:
                        its.add(own)
                        raise Again

    def takers(self, point):
        """The batches that took a message, as workers, places of scopes, and how many batches were sent
        before, the last first."""
        changes = self.progress.changes
        found = [
            (worker.index, at, sent)
            for worker in self.workers
            for at, pending in enumerate(worker.next)
            for sent, it in enumerate(pending.batches[: pending.sent])
            if point in changes[it].takes
        ]
        return sorted(found, key=lambda it: -it[2])

    def add_untold(self, pending):
        """Has another worker make messages that this one consumes and no batch says were produced; whether
        there are any."""
        for point, count in pending.takes.items():
            n = count if self.is_generous else min(count, self.missing.get(point, 0))
            makers = [it for it in self.workers if n and self.can_have_made(it, pending, point)]
            if any(self.make_untold(it, point, n) for it in makers):
                self.missing[point] = self.missing.get(point, 0) - n
                self.untold.append(Untold(pending.batch, *point, n, makers))
                return True
        return False

    def can_have_made(self, worker, other, point):
        """Whether a worker can have made a message that another consumed, and have sent nothing since."""
        if worker is other.worker or not worker.is_done or worker.wrong:
            return False
        its = other.batch
        known = [it for _, it in self.before_last_send(worker) if it.source == its.source]
        if any(it.scope == its.scope and it.index >= its.index for it in known):
            return False
        return any(self.maker_ways(worker, hop, point[1]) for hop in self.dataflow.into[point[0]])

    def before_last_send(self, worker):
        """The events before a worker's last batch that its own log has."""
        own = [at for at, (is_send, it) in enumerate(worker.events) if is_send and it.is_send]
        return worker.events[: own[-1]] if own else []

    def maker_ways(self, worker, hop, time):
        """What can lead a worker to a message on a channel: times at ports, where it has a capability or can
        have taken a message that no batch says was consumed."""
        found = []
        for way in self.dataflow.ways(hop.source):
            start = delayed(time, -way.delay)
            if start is None:
                continue
            since = self.there(worker.next[0], way.source, start)
            if since is not None:
                found.append((way.source, since, None))
            for sent in self.spare(way.source, start):
                found.append((way.source, sent.time, sent))
        return found

    def spare(self, port, time):
        """Messages at an input that no batch says were consumed, up to a time."""
        return [
            sent
            for (its, at), pool in self.pools.items()
            if its is port and is_at_or_before(at, time) and self.surplus.get((its, at))
            for sent in pool
            if sent.left
        ]

    def make_untold(self, worker, point, count):
        """Plans that a worker makes messages after its last batch."""
        (target, time), pending = point, worker.next[0]
        for hop in self.dataflow.into[target]:
            ways = self.maker_ways(worker, hop, time)
            if ways and ways[0][2]:
                self.surplus[ways[0][0], ways[0][1]] -= self.take_some(pending, ways[0][2], 1)
            if ways:
                self.send(pending, hop, self.capability(pending, hop.source, time, True), time, count)
                return True
        return False

    def stop_at_take(self, pending):
        """Plans that a worker takes a message that no worker can have made, if there is one: the program
        refuses that."""
        point = next((it for it in pending.takes if self.missing.get(it, 0) > 0), None)
        if point and self.dataflow.is_nested:
            raise Unjoined(pending.batch, point, self.other_scopes(pending.worker, pending))
        if point:
            hop, worker = self.dataflow.into[point[0]][0], pending.worker
            record = self.steps.record(hop, worker.index, point[1])
            (worker.wrong,) = made = self.steps.takes(pending, record, point[1], point)
            self.made += made
        return bool(point)

    def settled(self, is_last=False):
        """The next steps that can be executed: before messages of which not all are taken, if more is to be
        planned. Those from a wrong one of their worker on are left out."""
        found, count = [], len(self.made)
        for at, it in enumerate(self.made):
            if type(it) is not Sent:
                found.append(it)
            elif is_last or not it.left:
                found += self.steps.sent(it, (it.hop.target, it.time) in self.many)
            else:
                count = at
                break
        self.made = self.made[count:]
        if is_last:
            found += [it for worker in self.workers for it in worker.late]
        self.traces += found
        return self.right(found) if any(it.wrong for it in self.workers) else found

    def right(self, steps):
        """Of steps those before the wrong one of their worker."""
        found = []
        for it in steps:
            self.stopped |= {it.worker} if it is self.workers[it.worker].wrong else set()
            if it.worker not in self.stopped:
                found.append(it)
        return found

    def unconsumed(self, point):
        """How many messages no batch says are consumed."""
        untold = sum(it.count for it in self.untold if (it.target, it.time) == point)
        return self.totals[point] + untold

    def left(self):
        """Messages that nobody took."""
        return [it for pool in self.pools.values() for it in pool if it.left]
