"""Which lines of the traces can be executed next, as far as that follows from the lines before them.

    merging = Merging(lines, places)
    batch = merging.plan(100)         the next lines, with at most 100 steps among them
    merging.trial(0)                  in place of it, if it is empty: the next line of a worker that waits

A plan goes round the workers, and takes the next lines of each until one waits. It counts the records on the
edges that leave inputs, opaque vertices and most others, and the changes in each queue; so a take or a
receive is planned only if the lines before it put there what it takes. A planned line that is refused is
wrong: no order of the others makes it possible. What follows it in the batch was executed in vain, and is
taken back (checking.py). A broadcast in parts is alone in its batch. A plan leaves two things open, and no
line in a batch depends on how they end:

- A take from an exchange edge that leaves a sum or a distinct, whose records are not counted. It is the last
  line of its worker in the batch. If there is no record, it is tried again after another worker has executed
  a line of that vertex.
- A broadcast that has a number and no change, and may have nothing to send: then it is passed over. No
  receive of it is in the batch, and no line after it has a change: its position in the run is not known."""
from collections import Counter

from rewind_tools.following.traces import LONGEST

# How many lines a batch has, and how many of one worker before the next worker's turn.
MOST, TURN = 2_000, 64
MOST_QUEUED = 65_536
READY, LAST, PASSED, WAITS = range(4)
# The words of lines that may wait, and of those that no other worker notices.
WAITING, PLAIN = frozenset(("take", "receive", "broadcast")), frozenset(("take", "send", "release"))
STEPS = frozenset(("feed", "take", "send", "release", "notice", "broadcast", "receive"))


def may_be_nothing(line):
    """Whether a broadcast is passed over if there is nothing to send."""
    return line.word == "broadcast" and line.own.number is not None and not line.own.change


def is_long(line):
    """Whether a broadcast has too many points for a line of the script, and so is executed in parts."""
    return line.word == "broadcast" and len(line.text) > LONGEST


class Item:
    """A line in a batch: how it was planned, the last number that was received before it, and how many steps
    it has: several if it is a broadcast in parts, or a receive of one. Of a receive that has a change `sent`
    is the broadcast, if that has one, too."""

    __slots__ = ("line", "kind", "got", "steps", "sent")

    def __init__(self, line, kind, got, steps, sent=None):
        self.line, self.kind, self.got, self.steps, self.sent = line, kind, got, steps, sent


class Batch:
    def __init__(self, most_steps):
        self.items, self.steps, self.most_steps = [], 0, most_steps
        self.is_open, self.ended = False, set()

    def add(self, item):
        self.items.append(item)
        if item.kind != PASSED and item.line.word in STEPS:
            self.steps += item.steps
        if item.kind == LAST:
            self.ended.add(item.line.worker)
            self.is_open = True
        elif item.line.word == "broadcast" and may_be_nothing(item.line):
            self.is_open = True

    def may_take(self, line):
        """Whether a line may be planned after the others."""
        if line.worker in self.ended or len(self.items) >= MOST:
            return False
        if line.word in STEPS and self.steps >= self.most_steps:
            return False
        if line.word == "broadcast" and self.items and is_long(line):
            return False
        if self.items and self.items[-1].line.word == "broadcast" and is_long(self.items[-1].line):
            return False
        return line.own.change is None or not self.is_open


class Merging:
    def __init__(self, lines, places):
        count = len(lines)
        self.lines, self.places, self.workers = lines, places, range(count)
        self.at, self.has_stopped = [0] * count, [False] * count
        self.records = {}
        # by worker the broadcasts so far, those that were passed over, and the first that is still open
        self.sent, self.nothing, self.open = [0] * count, [set() for _ in lines], [None] * count
        self.broadcasts = [[] for _ in lines]
        # by sender and receiver the last number that was received, and how many changes are on their way
        self.got = [[0] * count for _ in lines]
        self.queued = [[0] * count for _ in lines]
        # by sender and number how many parts a broadcast has that was executed in parts
        self.parts = {}
        # by vertex how many lines it has executed, and by worker how many there were at a take in vain
        self.executed, self.tried = Counter(), [None] * count

    def next_line(self, worker):
        """A worker's next line; None if there is none, or none that may be executed."""
        lines = self.lines[worker]
        if self.has_stopped[worker] or self.at[worker] == len(lines):
            return None
        return lines[self.at[worker]]

    def plan(self, most_steps):
        batch, before = Batch(most_steps), -1
        while before < len(batch.items) < MOST:
            before = len(batch.items)
            for worker in self.workers:
                self.plan_turn(worker, batch)
        return batch

    def plan_turn(self, worker, batch):
        """Plans a worker's next lines."""
        for _ in range(TURN):
            line = self.next_line(worker)
            if line is None or not batch.may_take(line):
                return
            kind = self.kind_of(line) if line.word in WAITING else READY
            if kind == WAITS:
                return
            if line.word in PLAIN and not self.parts:
                self.plan_plain(line, kind, batch)
            else:
                self.plan_line(line, kind, batch)

    def plan_plain(self, line, kind, batch):
        """Plans a line that has neither sender nor receivers."""
        batch.add(Item(line, kind, None, 1))
        self.at[line.worker] += 1
        if kind != LAST:
            if line.word == "take":
                self.count_record(line.needs, -1)
            for record in line.makes:
                self.count_record(record, 1)

    def plan_line(self, line, kind, batch):
        got, steps = self.got_before(line), 1
        if self.parts and got is not None:
            steps = self.parts.get((line.needs, self.following(line)), 1)
        sent = self.broadcast_of(line) if got is not None and steps == 1 else None
        batch.add(Item(line, kind, got, steps, sent))
        self.at[line.worker] += 1
        if kind != LAST:
            self.apply(line, kind)

    def broadcast_of(self, line):
        """The broadcast that a receive receives, if both have a change."""
        sent, number = self.broadcasts[line.needs], self.following(line)
        if line.own.change is None or number > len(sent) or sent[number - 1].own.change is None:
            return None
        return sent[number - 1]

    def pass_by(self, executed):
        """Counts lines that were executed without a plan."""
        if len(executed) == sum(map(len, self.lines)):
            self.at = list(map(len, self.lines))
            return
        for line in executed:
            self.at[line.worker] += 1
            self.apply(line, READY)

    def trial(self, worker):
        """The next line of a worker, if it waits, so that the program says why."""
        batch, line = Batch(1), self.next_line(worker)
        if line is not None and self.stop_of(line) is None:
            self.plan_line(line, LAST, batch)
        return batch

    def kind_of(self, line):
        """How a worker's next line is planned."""
        if line.word == "take":
            return self.kind_of_take(line)
        if line.word == "receive":
            return self.kind_of_receive(line)
        if line.word == "broadcast":
            is_full = max(self.queued[line.worker]) >= MOST_QUEUED
            return WAITS if is_full or self.stop_of(line) else READY
        return READY

    def kind_of_take(self, line):
        edge = line.needs[0]
        if self.places.is_local(edge):
            return READY  # no other worker can put it there
        if self.places.is_counted(edge):
            return READY if line.needs in self.records else WAITS
        executed = self.executed[self.places.source(edge)["name"]]
        return WAITS if self.tried[line.worker] == (line, executed) else LAST

    def kind_of_receive(self, line):
        sender = line.needs
        if sender >= len(self.lines):
            return READY  # which the program refuses
        number, is_open = self.following(line), self.open[sender]
        if self.stop_of(line) or number > self.sent[sender] or is_open is not None and number >= is_open:
            return WAITS
        return PASSED if number in self.nothing[sender] else READY

    def following(self, line):
        """The number of the broadcast that a receive receives next; without a number of its own it does not
        receive one that was passed over."""
        number = self.got[line.needs][line.worker] + 1
        while line.own.number is None and number in self.nothing[line.needs]:
            number += 1
        return number

    def stop_of(self, line):
        """What is wrong with a line by the lines before it, whatever the others do: "refused" or "differs"
        with a reply; None if nothing."""
        own = line.own
        if line.word == "broadcast" and own.number not in (None, self.sent[line.worker] + 1):
            return "differs", {"number": self.sent[line.worker] + 1}
        if line.word != "receive" or own.number is None or line.needs >= len(self.lines):
            return None
        number = self.following(line)
        if own.number != number:
            return "refused", {"number": number}
        return ("differs", {"change": []}) if own.change and number in self.nothing[line.needs] else None

    def got_before(self, line):
        has_sender = line.word == "receive" and line.needs < len(self.lines)
        return self.got[line.needs][line.worker] if has_sender else None

    def apply(self, line, kind):
        """Counts a line that is planned, or executed."""
        if line.word == "receive" and line.needs < len(self.lines):
            number = self.following(line)
            self.got[line.needs][line.worker] = number
            self.queued[line.needs][line.worker] -= kind != PASSED
        elif line.word == "broadcast":
            self.sent[line.worker] += 1
            self.broadcasts[line.worker].append(line)
            self.count_queued(line.worker, 1)
            if may_be_nothing(line) and self.open[line.worker] is None:
                self.open[line.worker] = self.sent[line.worker]
        if line.word == "take":
            self.count_record(line.needs, -1)
        for record in line.makes:
            self.count_record(record, 1)

    def undo(self, item):
        """Takes back that a line was planned."""
        line = item.line
        self.at[line.worker] -= 1
        if item.kind == LAST:
            return
        if item.got is not None:
            self.got[line.needs][line.worker] = item.got
            self.queued[line.needs][line.worker] += item.kind != PASSED
        elif line.word == "broadcast":
            self.sent[line.worker] -= 1
            self.broadcasts[line.worker].pop()
            self.count_queued(line.worker, -1)
        if line.word == "take":
            self.count_record(line.needs, 1)
        for record in line.makes:
            self.count_record(record, -1)

    def count_record(self, record, n):
        count = self.records.get(record, 0) + n
        if count:
            self.records[record] = count
        else:
            self.records.pop(record, None)

    def count_queued(self, worker, n):
        self.queued[worker] = [it + n for it in self.queued[worker]]

    def pass_over(self, item):
        """A planned broadcast had nothing to send."""
        line = item.line
        if item.kind == LAST:
            self.apply(line, READY)
        self.count_queued(line.worker, -1)
        self.nothing[line.worker].add(line.own.number)

    def executed_line(self, item):
        """A planned line is executed."""
        line = item.line
        if item.kind == LAST:
            self.apply(line, READY)
        if line.word == "broadcast" and item.steps > 1:
            self.parts[line.worker, self.sent[line.worker]] = item.steps
        if line.word == "take":
            self.executed[self.places.target(line.needs[0])["name"]] += 1
        elif line.word == "notice":
            self.executed[line.needs] += 1

    def waits(self, item):
        """A line that was the last of its worker was refused, and waits."""
        line = item.line
        self.at[line.worker] -= 1
        if line.word == "take":
            executed = self.executed[self.places.source(line.needs[0])["name"]]
            self.tried[line.worker] = (line, executed)

    def close(self):
        """A batch is executed: nothing is open any more."""
        self.open = [None] * len(self.lines)

    def is_done(self):
        return all(self.next_line(worker) is None for worker in self.workers)
