"""How following a run ended.

    ending = ending_of(follower, traces)
    ending.name                  "followed", "refused", "differs", "incomplete" or "too long"
    ending.wrongs                a Wrong for each worker whose line is wrong, whatever the others do
    ending.waits                 a Wrong for each worker whose line waits for others
    ending.cuts                  a Cut for each trace that was cut off
    ending.status                the exit status

A line that waits *depends* on another's if a line that another worker has not executed could end that: a
broadcast that is to be received, a receive that makes room in a queue, or a line that makes the record. Such
a line may also be missing, if the other's trace was cut off. If no line is wrong, and each line that waits
depends on a missing one, directly or by lines that wait, the run is incomplete; else some workers wait for
each other."""
import json
from typing import NamedTuple

from rewind_tools.following.checking import NO_RECORD, QUEUE_EMPTY, QUEUE_FULL, Wrong
from rewind_tools.following.merging import MOST_QUEUED

FOLLOWED, REFUSED, DIFFERS, TOO_LONG = "followed", "refused", "differs", "too long"
INCOMPLETE = "incomplete"
STATUSES = {FOLLOWED: 0, INCOMPLETE: 0, REFUSED: 1, DIFFERS: 1, TOO_LONG: 3}
UNREADABLE = 2


class Cut(NamedTuple):
    """A trace that was cut off: the number of its last line, if that is not whole, or else the line of
    another worker that receives its next broadcast."""

    worker: int
    number: int | None
    receive: object


class Ending(NamedTuple):
    name: str
    wrongs: list
    waits: list
    cuts: list

    @property
    def first(self):
        """The wrong line that decides the ending; None if all were executed."""
        return next(iter(self.wrongs + self.waits), None)

    @property
    def status(self):
        return STATUSES[self.name]


def ending_of(follower, traces):
    merging = follower.merging
    stopped = [it for it in (wrong_of(follower, worker) for worker in merging.workers) if it]
    cuts = cuts_of(merging, traces) if stopped else []
    waits = [it for it in stopped if waited_for(merging, it) or lacks(merging, it, cuts)]
    wrongs = [it for it in stopped if it not in waits]
    if follower.is_full and not wrongs:
        return Ending(TOO_LONG, [], [], cuts)
    if wrongs or not waits:
        return Ending(wrongs[0].ending if wrongs else FOLLOWED, wrongs, waits, cuts)
    explained = explained_of(merging, waits, cuts)
    waits.sort(key=lambda it: it.line.worker in explained)
    is_incomplete = len(explained) == len(waits)
    return Ending(INCOMPLETE if is_incomplete else waits[0].ending, wrongs, waits, cuts)


def cuts_of(merging, traces):
    """The traces that were cut off."""
    sent = [sum(it.word == "broadcast" for it in lines) for lines in merging.lines]
    received = {
        it.needs: it
        for lines in reversed(merging.lines)
        for it in reversed(lines)
        if it.word == "receive" and it.needs in merging.workers and it.worker != it.needs
        if it.own.number == sent[it.needs] + 1
    }
    cuts = [Cut(it.worker, it.cut, received.get(it.worker)) for it in traces]
    return [it for it in cuts if it.number or it.receive]


def explained_of(merging, waits, cuts):
    """The workers whose lines wait for a line that is missing, or for a worker whose lines do."""
    found = {it.line.worker for it in waits if lacks(merging, it, cuts)}
    before = -1
    while before < len(found):
        before = len(found)
        found |= {it.line.worker for it in waits if waited_for(merging, it) & found}
    return found


def wrong_of(follower, worker):
    """The line at which a worker stopped, and why; None if all its lines were executed."""
    merging = follower.merging
    if worker in follower.wrong:
        return follower.wrong[worker]
    line = merging.next_line(worker)
    if line is None:
        return None
    stop = merging.stop_of(line)
    if stop is not None:
        return Wrong(stop[0], line, stop[1])
    reply = follower.waiting.get(worker)
    return Wrong(REFUSED, line, reply) if reply else None


def waited_for(merging, wrong):
    """The workers of which a line that was not executed could end that a line waits."""
    code = wrong.reply.get("code") if wrong.ending == REFUSED else None
    makes = {NO_RECORD: makes_record, QUEUE_EMPTY: is_broadcast, QUEUE_FULL: makes_room}.get(code)
    if makes is None:
        return set()
    return {
        worker
        for worker in merging.workers
        if worker != wrong.line.worker
        and any(makes(merging, it, wrong.line) for it in merging.lines[worker][merging.at[worker] :])
    }


def lacks(merging, wrong, cuts):
    """Whether a line that was cut off could end that a line waits."""
    code, line = wrong.reply.get("code") if wrong.ending == REFUSED else None, wrong.line
    others = [it.worker for it in cuts if it.worker != line.worker]
    if code == NO_RECORD:
        return bool(others) and not merging.places.is_local(line.needs[0])
    return bool(others) and code == QUEUE_FULL or code == QUEUE_EMPTY and line.needs in others


def is_broadcast(merging, line, waiting):
    return line.word == "broadcast" and line.worker == waiting.needs


def makes_room(merging, line, waiting):
    """Whether a line receives from a queue that is full."""
    is_receive = line.word == "receive" and line.needs == waiting.worker
    return is_receive and merging.queued[waiting.worker][line.worker] >= MOST_QUEUED


def makes_record(merging, line, waiting):
    """Whether a line makes the record that another waits for, or may do so."""
    if waiting.needs in line.makes:
        return True
    edge, _, time, value = waiting.needs
    if merging.places.is_counted(edge) or merging.places.is_local(edge):
        return False
    vertex = merging.places.source(edge)
    if line.word == "notice":
        return vertex["op"] == "sum" and line.needs == vertex["name"] and time_of(line) == time
    is_into = line.word == "take" and merging.places.target(line.needs[0]) is vertex
    return is_into and vertex["op"] == "distinct" and line.needs[2:] == (time, value)


def time_of(line):
    return tuple(json.loads(line.text)["time"])
