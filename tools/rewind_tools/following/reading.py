"""Reads traces: the lines that the program is to execute, with what else each says.

    lines = read(traces, epochs, places, program)      a list of Lines for each trace; Unreadable, if one is
                                                       seen to be none of its worker's trace
    check(traces, epochs, places, program, [7, 0])     Unreadable, if the program does not read a line, the
                                                       first 7 of the first trace aside

Each Line has what a plan needs and no more, since there may be a million: the worker and the number in its
file, the word, the script's line with ranks for epochs, what the line waits for, the records that it makes,
and what its own keys say.

The program says which lines there are. Those that it has executed it reads; it is given each of the others
as one of a processor that is not there. That is refused without a change, and a line that the program does
not read has another reply."""
import json
from typing import NamedTuple

from rewind_tools.following import counted
from rewind_tools.following.epochs import Tokens, is_whole
from rewind_tools.following.traces import LONGEST, QUERIES, STEPS
from rewind_tools.following.traces import own_fault, own_of, parsed, point_fault, worker_key
from rewind_tools.tool import Fault

# A processor that is not there.
NOBODY = 2**32 - 1
# How many lines the program is asked at once.
PIECE = 2_000
NOTHING = ()
ENCODER = json.JSONEncoder(separators=(",", ":"))
# What the program is given in place of a line that it might execute.
NO_LINE = b"0"


class Unreadable(Exception):
    """A line is none of its worker's trace: the trace, the line's number, and either why in words, or the
    program's reply and the line that it was given."""

    def __init__(self, trace, number, why=None, reply=None, given=None):
        super().__init__(why)
        self.trace, self.number, self.why, self.reply, self.given = trace, number, why, reply, given


class Own(NamedTuple):
    """What a line's own keys say: its number, the change as numbers by points, the members of its reply; and
    of the change what is counted differently (counted.py)."""

    number: int | None
    change: dict | None
    answer: dict | None
    counted: dict


NOTHING_OWN = Own(None, None, None, counted.NOTHING)


class Line:
    __slots__ = ("worker", "number", "word", "text", "needs", "makes", "own")

    def __init__(self, worker, number, word, text):
        self.worker, self.number, self.word, self.text = worker, number, word, text
        # the record of a take, the vertex of a notice, the sender of a receive
        self.needs, self.makes, self.own = None, NOTHING, NOTHING_OWN

    def part(self, text):
        """The line of a part of a step."""
        made = Line(self.worker, self.number, self.word, text)
        made.needs = self.needs
        return made


def summed(entries):
    """The numbers of entries by location and time, without those that add up to 0."""
    found = {}
    for name, time, n in entries:
        point = name, tuple(time)
        found[point] = found.get(point, 0) + n
    return {point: n for point, n in found.items() if n}


def compact(value):
    return ENCODER.encode(value).encode()


def add_epochs(traces, epochs):
    """Takes the epochs of all lines."""
    for trace in traces:
        for _, text in trace.lines:
            value = parsed(text)
            if isinstance(value, dict):
                epochs.add(trace.worker, value)
    epochs.close()


class NoLine(Exception):
    """A line is none of its worker's trace, as can be seen without the program."""


class Reader:
    """Reads the lines of one trace."""

    def __init__(self, trace, epochs, places, program):
        self.trace, self.epochs, self.places, self.program = trace, epochs, places, program
        self.tokens, self.times, self.counts = Tokens(), {}, counted.Counts(program.graph)

    def read(self):
        lines = []
        for at, it in enumerate(self.trace.lines):
            self.program.progress("lines read", at, len(self.trace.lines))
            number, value, own, text = self.prepared(*it)
            if isinstance(own, str):
                raise NoLine
            try:
                lines.append(self.line(number, value, own, text))
            except (LookupError, TypeError, AttributeError, ValueError) as wrong:
                raise NoLine from wrong
        return lines

    def prepared(self, number, text):
        """A line's number, its value with ranks, its own keys, and its text for the program."""
        value = parsed(text) if len(text) <= LONGEST or number in self.trace.joined else None
        if not isinstance(value, dict):
            return number, value, {}, text
        own = own_of(value) if isinstance(value.get("do"), str) else {}
        why = own_fault(value, own, self.trace.worker, self.places)
        part = value.get("part") if number in self.trace.joined else None
        why = why or next(filter(None, (point_fault("part", it, self.places) for it in part or [])), None)
        if why:
            return number, None, why, NO_LINE
        self.epochs.rank(value)
        if "change" in own or "is" in own:
            self.epochs.rank(own)
        return number, value, own, compact(value)

    def check(self, begin):
        """Asks the program whether it reads the lines from a position on."""
        for at in range(begin, len(self.trace.lines), PIECE):
            self.check_piece([self.prepared(*it) for it in self.trace.lines[at : at + PIECE]])

    def check_piece(self, piece):
        asked = [self.asked(*it) for it in piece]
        for (number, _, own, text), reply in zip(piece, self.program.ask(asked)):
            if isinstance(own, str):
                raise Unreadable(self.trace, number, own)
            if is_unread(reply):
                raise Unreadable(self.trace, number, None, json.loads(reply), text)

    def asked(self, number, value, own, text):
        """A line's text, about a processor that is not there."""
        if not isinstance(value, dict) or not isinstance(value.get("do"), str):
            return text
        if len(text) > LONGEST and number in self.trace.joined and "part" in value:
            text = compact({**value, "part": value["part"][:1]})  # the others are known to be points
        return of_nobody(value["do"], self.trace.worker, text)

    def line(self, number, value, own, text):
        """The Line of a value; NoLine, or another error, if it has not the form of its word."""
        word, worker = value["do"], self.trace.worker
        if word not in STEPS + QUERIES:
            raise NoLine
        made = Line(worker, number, word, text)
        if word == "take":
            edge, time = value["edge"], self.time(value["time"])
            made.needs = edge, worker, time, value["value"]
            made.makes = tuple(self.places.taken(worker, edge, time, value["value"]))
        elif word == "feed":
            epoch = self.tokens.feed(worker, value)[0]
            made.makes = tuple(self.places.fed(worker, value["vertex"], epoch, value["values"]))
        elif word == "send":
            made.makes = tuple(self.places.sent(value))
        elif word == "receive":
            made.needs = value["from"]
        elif word == "notice":
            made.needs = value["vertex"]
        if word == "receive" and not is_whole(made.needs):
            raise NoLine
        hash((word, made.needs, made.makes))  # of other kinds of values there is a TypeError
        change, left = summed(own["change"]) if "change" in own else None, counted.NOTHING
        if word in ("broadcast", "receive"):
            change, left = self.counts.of(value.get("from"), change)
        if own.keys() - {"note"}:
            made.own = Own(own.get("number"), change, own.get("is"), left)
        return made

    def time(self, time):
        """A time as one object for all lines that have it."""
        key = tuple(time)
        return self.times.setdefault(key, key)


def of_nobody(word, worker, text):
    """A worker's line as one of a processor that is not there."""
    key = worker_key(word).encode()
    return text.replace(b'"%s":%d' % (key, worker), b'"%s":%d' % (key, NOBODY))


def is_unread(reply):
    """Whether a reply says that a line of nobody is none. Any other is a refusal: mostly NoProcessor."""
    if b'"line":' not in reply and b'"code":' not in reply:
        raise Fault(f"the program does not refuse a line of nobody: {reply.decode().strip()}")
    return b'"line":' in reply


def check(traces, epochs, places, program, begins):
    for trace, begin in zip(traces, begins):
        Reader(trace, epochs, places, program).check(begin)


def read(traces, epochs, places, program):
    add_epochs(traces, epochs)
    try:
        return [Reader(it, epochs, places, program).read() for it in traces]
    except NoLine:
        check(traces, epochs, places, program, [0] * len(traces))
    raise Fault("the program reads a line that has no form known here")
