"""Executes the lines of the traces, in batches, and compares each reply with what the line says.

    follower = Follower(program, merging, executed)     lines that are executed already; none, if not given
    follower.follow()
    follower.executed             the Lines that were executed, in their order
    follower.wrong                by worker a Wrong, if a line of it was refused or differs
    follower.waiting              by worker the program's refusal of a line that waits for others
    follower.is_full              whether the timeline was full before the traces ended

A batch is planned as if none of its lines were refused (merging.py). At the first that is, or that differs,
the run goes back to the position before it; it and all that follows it in the batch count as not executed,
and the next batch is planned from there. The queries of a batch are answered at their place in it, since the
program answers in the order of the lines. A receive that is passed over is given to the program as one of
nobody (reading.py). A broadcast with more points than a line of the script may have is executed in parts,
the points with positive entries first: the negative entries that support them are then left out, too."""
import json
from typing import NamedTuple

from rewind_tools.following.comparing import change_of, different_members
from rewind_tools.following.merging import LAST, PASSED, STEPS, is_long, may_be_nothing
from rewind_tools.following.reading import NOTHING_OWN, compact, is_unread, of_nobody
from rewind_tools.following.traces import LONGEST
from rewind_tools.tool import Fault

MOST_STEPS = 1_000_000
EFFECT = b'{"do":"effect","to":%d}'
DONE = b'{"at":%d,"kept":%d,"ok":true}\n'
NO_RECORD, NOTHING_TO_SEND, QUEUE_EMPTY, QUEUE_FULL = 8, 15, 17, 18
# The refusals that another worker's line may end; those that are no refusals of the protocol.
WAITING, NO_MEMORY = (NO_RECORD, QUEUE_EMPTY, QUEUE_FULL), (19, 29)
TIMELINE_FULL, LOG_FULL = 23, 27


class Wrong(NamedTuple):
    """A line that was refused, with the program's reply, or that differs, with what is right; and of a query
    the reply."""

    ending: str
    line: object
    reply: dict
    answer: dict | None = None


class Again(NamedTuple):
    """The program's log is full, or its timeline is: the rest of a batch is to be executed later."""

    code: int


class Follower:
    def __init__(self, program, merging, executed=()):
        self.program, self.merging = program, merging
        self.position, self.executed = len(executed), list(executed)
        self.wrong, self.waiting, self.is_full = {}, {}, False
        merging.pass_by(self.executed)

    def follow(self):
        """Executes what can be executed."""
        count = sum(map(len, self.merging.lines))
        while not self.merging.is_done():
            self.program.progress("lines executed", sum(self.merging.at), count)
            batch = self.merging.plan(MOST_STEPS - self.position)
            if batch.items:
                self.execute(batch)
            elif self.position == MOST_STEPS:
                self.is_full = True
                return
            elif not self.try_waiting():
                return

    def try_waiting(self):
        """Gives the program the line of each worker that waits; whether that led to anything."""
        self.waiting = {}
        before = self.position, list(self.merging.at), len(self.wrong)
        for worker in self.merging.workers:
            self.execute(self.merging.trial(worker))
        return before != (self.position, self.merging.at, len(self.wrong))

    def execute(self, batch):
        texts, widths = self.texts_of(batch)
        replies = self.program.ask(texts)
        begin = 0
        for at, (item, width) in enumerate(zip(batch.items, widths)):
            if width == 1 and self.is_plain(item, replies[begin]):
                begin += 1
                continue
            outcome = self.judged(item, texts[begin : begin + width], replies[begin : begin + width])
            if outcome:
                steps = [it for it in replies[begin:] if it.startswith(b'{"at":')]
                self.go_back(batch.items[at:], outcome, bool(steps))
                break
            begin += width
        self.merging.close()

    def texts_of(self, batch):
        """The lines of a batch for the program, and how many each item has."""
        texts, widths, position = [], [], self.position
        for item in batch.items:
            line, count = item.line, len(texts)
            if item.kind != PASSED and line.own is NOTHING_OWN and item.steps == 1 and not is_long(line):
                texts.append(line.text)
                widths.append(1)
                position += line.word in STEPS
                continue
            if item.kind == PASSED:
                texts.append(of_nobody(line.word, line.worker, line.text))
            for text in self.step_texts(item) if item.kind != PASSED else ():
                texts.append(text)
                position += line.word in STEPS
                if asks_effect(item):
                    texts.append(EFFECT % position)
            widths.append(len(texts) - count)
        return texts, widths

    def step_texts(self, item):
        """The lines that the program executes for an item."""
        if not is_long(item.line):
            return [item.line.text] * item.steps
        unsent = self.program.asked({"do": "state"})["state"]["processors"][item.line.worker]["unsent"]
        parts = parts_of(item.line, unsent)
        item.steps = len(parts)
        return parts

    def is_plain(self, item, reply):
        """Takes note of a step that is executed, if its reply says so and nothing else is to be compared."""
        at = self.position + 1
        if item.kind == PASSED or reply != DONE % (at, at) or not is_known(item):
            return False
        self.position = at
        self.executed.append(item.line)
        self.merging.executed_line(item)
        return True

    def judged(self, item, texts, replies):
        """Compares the replies to an item with what its line says; None if the next is to be looked at."""
        line = item.line
        if item.kind == PASSED:
            return Wrong("refused", line, json.loads(replies[0])) if is_unread(replies[0]) else None
        if line.word not in STEPS:
            return self.judged_query(line, json.loads(replies[0]))
        width = 1 + asks_effect(item)
        for at, reply in enumerate(replies[::width], self.position + 1):
            if reply != DONE % (at, at):
                return self.refused(item, json.loads(reply))
        if not is_known(item):
            effects = replies[1::2] if width > 1 else self.program.ask([EFFECT % (self.position + 1)])
            moved = {point: n for it in effects for point, n in change_of(line, self.effect(it)).items()}
            if moved != line.own.change:
                entries = [[name, list(time), n] for (name, time), n in moved.items()]
                return Wrong("differs", line, {"change": entries})
        self.position += item.steps
        self.executed += [line if item.steps == 1 else line.part(it) for it in texts[::width]]
        self.merging.executed_line(item)
        return None

    def effect(self, reply):
        effect = json.loads(reply)
        if "changed" not in effect:
            raise Fault(f"the program does not say what a step changed: {effect}")
        return effect

    def judged_query(self, line, reply):
        if "error" in reply:
            return Wrong("refused", line, reply)
        members = different_members(line, reply) if line.own.answer is not None else {}
        if members:
            return Wrong("differs", line, members, reply)
        self.executed.append(line)
        return None

    def refused(self, item, reply):
        """What follows from a refusal."""
        line, code = item.line, reply.get("code")
        if code is None:
            raise Fault(f"the program gives line {line.number} of worker {line.worker} the reply {reply}")
        if code in NO_MEMORY:
            raise Fault("the program ran out of memory")
        if code in (TIMELINE_FULL, LOG_FULL):
            return Again(code)
        if code == NOTHING_TO_SEND and may_be_nothing(line):
            self.merging.pass_over(item)
        elif item.kind == LAST and code in WAITING:
            self.waiting[line.worker] = reply
            self.merging.waits(item)
        else:
            return Wrong("refused", line, reply)
        return None

    def go_back(self, items, outcome, has_moved):
        """Takes back the items from a wrong one on."""
        for item in reversed(items):
            self.merging.undo(item)
        if isinstance(outcome, Wrong):
            worker = outcome.line.worker
            self.wrong[worker], self.merging.has_stopped[worker] = outcome, True
        if isinstance(outcome, Again):
            self.program.again([it.text for it in self.executed if it.word in STEPS])
        elif has_moved:
            self.program.go_to([it.text for it in self.executed if it.word in STEPS])


def asks_effect(item):
    """Whether the program is asked what a step moved. What a broadcast moves it is asked there alone, if the
    receives say what they move, too: a receive moves what was broadcast."""
    return item.line.own.change is not None and item.sent is None


def is_known(item):
    """Whether a step that is executed moves what its line says, as far as the lines before it say that."""
    change = item.line.own.change
    return change is None or item.sent is not None and item.sent.own.change == change


def parts_of(line, unsent):
    """The broadcasts that together have the points of one: first those at which the worker's unsent entries
    are positive."""
    value, n_of = json.loads(line.text), {(name, tuple(time)): n for name, time, n in unsent}
    points = [it for it in value["part"] if (it[0], tuple(it[1])) in n_of] or value["part"][:1]
    points.sort(key=lambda it: n_of.get((it[0], tuple(it[1])), 0) < 0)
    longest = max(len(compact(it)) for it in points) + 1
    size = max(1, (LONGEST - len(compact({**value, "part": []}))) // longest)
    return [compact({**value, "part": points[at : at + size]}) for at in range(0, len(points), size)]
