"""How a run of a timely program ended, and what holds a sink back.

    answer = answer_of(run)              an Answer
    answer.name                          "followed", "hang", "refused", "differs", "incomplete", "too long"
    answer.questions                     for each sink that does not finish, a Question with its Reasons
    question_of(run, worker, port, 5)    the same for a worker, a sink and a time"""
import bisect
from typing import NamedTuple

from rewind_tools.at_rest import why_at_rest
from rewind_tools.following.endings import DIFFERS, FOLLOWED, INCOMPLETE, REFUSED, TOO_LONG
from rewind_tools.timely.dataflow import ENTERED, across

HANG = "hang"
# How much of what is left is told of a run that is too long.
MOST = 8
STATUSES = {FOLLOWED: 0, HANG: 0, INCOMPLETE: 0, REFUSED: 1, DIFFERS: 1, TOO_LONG: 3}
CAPABILITY, MESSAGE = "capability", "message"


class Reason(NamedTuple):
    """What a sink waits for at rest: a worker's capabilities at an output, or messages at an input that no
    batch says are consumed (of no known worker). `since` has the batches that can have made it; none, if it
    was there from the start."""

    kind: str
    worker: int | None
    port: object
    time: int
    count: int
    since: list


class Question(NamedTuple):
    """Why a time is not finished at a sink, as far as a worker knows at rest: the reasons, none if it is
    finished; and how the run to rest ended."""

    worker: int
    sink: object
    time: int
    reasons: list
    stop: str


class Missing(NamedTuple):
    """What the logs lack: a log that was cut off at a line or is not given, batches that were received and
    that the sender's log does not have, or a batch that a worker did not receive."""

    worker: int
    line: int | None
    rebuilt: list
    unheard: list


class Answer(NamedTuple):
    name: str
    questions: list
    missing: list
    left: list

    @property
    def status(self):
        return STATUSES[self.name]


def answer_of(run):
    if run.ending.name in (REFUSED, DIFFERS, TOO_LONG):
        return Answer(run.ending.name, [], [], left_of(run, MOST) if run.ending.name == TOO_LONG else [])
    questions, cut = questions_of(run), missing_of(run, False)
    if cut:
        return Answer(INCOMPLETE, questions, cut, [])
    if questions or run.planner.untold:
        return Answer(HANG, questions, [], [])
    unheard = missing_of(run, True)
    left = left_of(run)
    return Answer(INCOMPLETE if unheard else HANG if left else FOLLOWED, [], unheard, left)


def missing_of(run, is_unheard):
    """What the logs of some workers lack; if `is_unheard`, batches that they did not receive."""
    found = []
    for log in run.logs:
        rebuilt = run.progress.rebuilt[log.worker]
        unheard = unheard_of(run, log.worker) if is_unheard else []
        if rebuilt or unheard or log.cut or log.path is None:
            found.append(Missing(log.worker, log.cut, rebuilt, unheard))
    return found


def unheard_of(run, worker):
    """The batches that a worker did not receive."""
    got = run.planner.workers[worker].indexes
    return [it for batches in run.progress.sent for it in batches if it.index > got[it.source, it.scope]]


def questions_of(run):
    """For each sink that does not finish the least time, those with the least time first."""
    sinks = run.dataflow.sinks()
    asked = [{"do": "why", "q": 0, "at": it.vertex} for it in sinks]
    found = [question(run, *it) for it in why_at_rest(run.follower, asked)]
    return sorted(found, key=lambda it: numbers_of(it.time))


def numbers_of(time):
    """A time as a list of numbers; it is one, or within loops a tuple."""
    return list(time) if type(time) is tuple else [time]


def time_of(numbers):
    return tuple(numbers) if len(numbers) > 1 else numbers[0]


def question_of(run, worker, port, time):
    """Why a worker does not consider a time finished at an input. A time that no log has is as good as the
    last one before it."""
    epoch, *counters = numbers_of(time)
    rank = bisect.bisect_right(run.epochs.order, epoch) - 1
    asked = [{"do": "why", "q": worker, "at": port.vertex, "time": [rank, *counters]}]
    ((query, reply),) = why_at_rest(run.follower, asked)
    return question(run, query, reply)._replace(time=time)


def question(run, query, reply):
    sink, (rank, *counters) = run.dataflow.by_vertex[query["at"]], query["time"]
    time, reasons = time_of([run.epochs.order[rank], *counters]), []
    for it in run.epochs.told(reply)["reasons"]:
        for held in it["held"]:
            reason = reason_of(run, held, it["point"])
            reasons += [] if reason in reasons else [reason]
    return Question(query["q"], sink, time, reasons, reply["stop"])


def reason_of(run, held, point):
    """What a reason of the program's holds. A message that nobody takes is at rest one that somebody took:
    at an input nothing else is held."""
    name, numbers = point
    port, time = run.dataflow.by_vertex[name], time_of(numbers)
    if port.side == ENTERED:
        port, time = port.across, across(port, time)
    if not port.is_output:
        return message(run, port, time)
    return capability(run.planner.workers[held["p"]], port, time)


def message(run, port, time):
    """The messages at an input that no batch says are consumed."""
    made = [it for it, change in run.progress.changes.items() if (port, time) in change.delivered]
    return Reason(MESSAGE, None, port, time, run.planner.unconsumed((port, time)), made)


def left_of(run, most=None):
    """What is left at the end of the logs; at most so much, with the least times."""
    workers = run.planner.workers
    held = [(it, port, time) for it in workers for port, its in it.held.items() for time in its.counts]
    left = {(it.hop.target, it.time) for it in run.planner.left()}
    held += [(None, *it) for it in sorted(left, key=lambda it: (it[0].vertex, numbers_of(it[1])))]
    if most:
        held = sorted(held, key=lambda it: numbers_of(it[2]))[:most]
    return [capability(*it) if it[0] else message(run, *it[1:]) for it in held]


def capability(worker, port, time):
    """The capabilities that a worker holds at an output."""
    born, count = worker.born.get((port, time)), worker.held[port].counts.get(time, 1)
    return Reason(CAPABILITY, worker.index, port, time, count, [born] if born else [])


def silent_first(run):
    """The workers, those first whose last batch came first in the log that has most lines."""
    log = max(run.logs, key=lambda it: it.count)
    places = {(it.source, it.scope, it.index): place for place, it in enumerate(log.batches)}
    lasts = [(it, last_batch(run, it)) for it in range(len(run.logs))]
    place_of = {
        worker: places.get((worker, last.scope, last.index), len(places)) if last else -1
        for worker, last in lasts
    }
    return sorted(place_of, key=place_of.get)


def last_batch(run, worker):
    """The last batch that a worker sent, as far as a log has it."""
    sent = run.planner.workers[worker].sends
    return sent[-1] if sent else None
