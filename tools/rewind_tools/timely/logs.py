"""Reads what the workers of a timely program logged: a file of JSON lines for each worker.

    logs = read(["log0.jsonl", "log1.jsonl"], report)      a Log for each worker; Unreadable, if one is none

A Log has the operators, the channels and the batches that its lines say, each with its line. The files may
be given in any order, since what a worker sends names the worker. A last line that was cut off is left out;
log.cut is its number then. A worker whose log is not given has one without a path."""
import json
import os
from typing import NamedTuple

from rewind_tools import tool
from rewind_tools.following.epochs import is_whole
from rewind_tools.following.traces import Trace
from rewind_tools.telling.values import shown

OPERATES, CHANNELS, PROGRESS = "Operates", "Channels", "TimelyProgress"
ANY = {"event", "ns", "scope"}
OPERATES_HAS = {"node", "name", "inputs", "outputs", "summary"}
CHANNELS_HAS = {"source", "target"}
PROGRESS_HAS = {"is_send", "source", "seq_no", "messages", "internal"}
PROGRESS_ALL = PROGRESS_HAS | ANY
DECODER = json.JSONDecoder()
MOST_WORKERS = tool.MOST["processors"]
# The member from which on workers log a batch alike; and what makes an object of what stands before it.
SHARED, LAST = b'"source"', b'"source":0}'
# After how many lines it may be said how far the reading is.
EACH = 1_000


class Misread(Exception):
    """A file cannot be followed: its path, the line (None: the file), and why."""

    def __init__(self, path, line, why):
        super().__init__(why)
        self.path, self.line, self.why = path, line, why


class Unreadable(Misread):
    """A file is not a log."""

    name = "unreadable"


class Unsupported(Misread):
    """A log has what cannot be followed."""

    name = "unsupported"


class NoEvent(Exception):
    """A line is not an event: why."""


class Operator(NamedTuple):
    """An operator with its ports; `summary` has triples of an input, an output and a delay. `path` has its
    scope and its node, `address` the nodes below the root in words."""

    node: int
    name: str
    inputs: int
    outputs: int
    summary: tuple
    path: tuple = ()
    address: str = ""


class Channel(NamedTuple):
    source: tuple
    target: tuple


class Batch:
    """Progress that a worker sent, or received: entries [node, port, time, difference]. `log` and `line` say
    where it stands, `seq_no` is its number there, `index` the one among the sender's of its scope, from 1,
    and `number` the one among all that the sender sent; None, if it sent none such."""

    __slots__ = ("log", "line", "ns", "is_send", "source", "seq_no", "messages", "internal")
    __slots__ += ("scope", "index", "number")

    def __init__(self, log, line, value, scope):
        self.log, self.line, self.ns, self.scope, self.index = log, line, value.get("ns"), scope, None
        self.is_send, self.source, self.seq_no = value["is_send"], value["source"], value["seq_no"]
        self.number, self.messages, self.internal = None, value["messages"], value["internal"]


class Log:
    """One worker's log. `scopes` has by scope what is in it: lists of (line, event). `others` counts events,
    `members` those of an event that are not read."""

    def __init__(self, path, worker=None):
        self.path, self.worker, self.cut = path, worker, None
        self.operators, self.channels, self.batches = [], [], []
        self.count, self.others, self.members = 0, 0, 0

    @property
    def name(self):
        return os.path.basename(self.path)


def is_pair(it):
    return isinstance(it, list) and len(it) == 2 and is_whole(it[0]) and is_whole(it[1])


def wanted(value, keys):
    missing = next((key for key in keys if key not in value), None)
    if missing:
        raise NoEvent(f'the event {value["event"]} has no "{missing}"')


def tested(is_right, value, key, form):
    if not is_right:
        raise NoEvent(f'"{key}" is {shown(value[key])}; it must be {form}')


def scope_of(value):
    if "scope" not in value:
        return ()
    scope = value["scope"]
    is_right = scope is None or isinstance(scope, list) and all(map(is_whole, scope))
    tested(is_right, value, "scope", "a list of numbers")
    return tuple(scope or ())


def operator_of(value):
    wanted(value, OPERATES_HAS)
    for key in ("node", "inputs", "outputs"):
        tested(is_whole(value[key]), value, key, "a number from 0 up")
    tested(isinstance(value["name"], str), value, "name", "a text")
    summary = value["summary"]
    is_right = isinstance(summary, list) and all(
        isinstance(it, list) and len(it) in (2, 3) and is_pair(it[:2]) for it in summary
    )
    tested(is_right, value, "summary", "a list of [input, output] or [input, output, delay]")
    connected = tuple((*it[:2], json.dumps(it[2]) if len(it) > 2 else "0") for it in summary)
    return Operator(value["node"], value["name"], value["inputs"], value["outputs"], connected)


def channel_of(value):
    wanted(value, CHANNELS_HAS)
    for key in CHANNELS_HAS:
        tested(is_pair(value[key]), value, key, "[node, port]")
    return Channel(tuple(value["source"]), tuple(value["target"]))


def check_batch(value):
    """That a batch has its members; a quick look first, since there may be a million."""
    its = map(type, map(value.get, ("is_send", "source", "seq_no", "messages", "internal")))
    if tuple(its) == (bool, int, int, list, list) and value["source"] >= 0 <= value["seq_no"]:
        return
    wanted(value, PROGRESS_HAS)
    tested(isinstance(value["is_send"], bool), value, "is_send", "true or false")
    for key in ("source", "seq_no"):
        tested(is_whole(value[key]), value, key, "a number from 0 up")
    for key in ("messages", "internal"):
        tested(isinstance(value[key], list), value, key, "a list of entries")


class Reader:
    """Reads one file. Each batch is logged by all workers: so equal entries are one object for all files,
    and the part of a line from SHARED on is read once (`known`)."""

    def __init__(self, path, entries, known):
        self.log, self.entries, self.known = Log(path), entries, known

    def read(self, report):
        trace, log = Trace(self.log.path, None), self.log
        log.cut, log.count = trace.cut, len(trace.lines)
        for number, text in trace.lines:
            if number % EACH == 0:
                report(f"lines of {log.path} read", number, log.count)
            try:
                self.line(number, self.value(text))
            except (ValueError, RecursionError):
                raise Unreadable(log.path, number, "it is not JSON") from None
            except NoEvent as why:
                raise Unreadable(log.path, number, str(why)) from None
        return log

    def value(self, text):
        """A line's value."""
        own, _, shared = text.partition(SHARED)
        try:
            members = self.known.get(shared)
            if members is None:
                members = self.known[shared] = json.loads(str(b"{" + SHARED + shared, "utf-8"))
            own = str(own + LAST, "utf-8")
            value, end = DECODER.raw_decode(own)
            if end == len(own):
                return value | members
        except (ValueError, TypeError):
            pass  # a line of another form, or none
        return json.loads(str(text, "utf-8"))

    def line(self, number, value):
        if not isinstance(value, dict) or not isinstance(value.get("event"), str):
            raise NoEvent('a line of a log is an object with a text "event"')
        event, log = value["event"], self.log
        if event == PROGRESS:
            check_batch(value)
            log.members += 0 if value.keys() <= PROGRESS_ALL else len(value.keys() - PROGRESS_ALL)
            scope = scope_of(value)
            log.batches.append(self.batch(number, value, scope))
        elif event == OPERATES:
            log.operators.append((number, scope_of(value), operator_of(value)))
            log.members += len(value.keys() - OPERATES_HAS - ANY)
        elif event == CHANNELS:
            log.channels.append((number, scope_of(value), channel_of(value)))
            log.members += len(value.keys() - CHANNELS_HAS - ANY)
        else:
            log.others += 1

    def batch(self, number, value, scope):
        batch, log = Batch(self.log, number, value, scope), self.log
        if batch.is_send:
            log.worker = batch.source if log.worker is None else log.worker
            if log.worker != batch.source:
                raise NoEvent(f"worker {batch.source} sends, and before it worker {log.worker}")
        key = scope, batch.source, batch.seq_no
        first = self.entries.setdefault(key, (batch.messages, batch.internal))
        if first == (batch.messages, batch.internal):
            batch.messages, batch.internal = first
        return batch


def read(paths, report):
    """The logs by worker, those that are not given without a path."""
    entries, known = {}, {}
    found = [Reader(path, entries, known).read(report) for path in paths]
    if not any(it.operators for it in found):
        raise Unreadable(found[0].path, None, f"no file has an event {OPERATES}")
    by_worker = {}
    for log in found:
        if log.worker is not None:
            earlier = by_worker.setdefault(log.worker, log)
            if earlier is not log:
                line = next(it.line for it in log.batches if it.is_send)
                raise Unreadable(log.path, line, f"worker {log.worker} sends, and in {earlier.path}, too")
    add_silent(found, by_worker)
    sources = {it.source: it for log in found for it in log.batches}
    if max(sources, default=0) >= MOST_WORKERS:
        it = sources[max(sources)]
        why = f"worker {max(sources)}; at most {MOST_WORKERS} workers can be"
        raise Unsupported(it.log.path, it.line, why)
    for worker in range(max(sources.keys() | by_worker.keys()) + 1):
        by_worker.setdefault(worker, Log(None, worker))
    return [by_worker[worker] for worker in sorted(by_worker)]


def add_silent(found, by_worker):
    """Gives each log in which nothing is sent a worker: that of its place, if no other log has it."""
    for place, log in enumerate(found):
        if log.worker is None:
            free = [place] + list(range(len(found)))
            log.worker = next(it for it in free if it not in by_worker)
            by_worker[log.worker] = log
