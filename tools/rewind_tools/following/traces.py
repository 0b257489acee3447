"""Traces as they stand in their files: the lines of each, and what its own keys say.

    trace = Trace("worker-0.jsonl", 0)      the file's lines, as worker 0's
    trace.lines                             (number, bytes) for each line that is not blank, a line that goes
                                            on in others as one with all their entries
    trace.joined                            the bytes of these by their numbers
    trace.cut                               the number of a last line that was cut off, and is left out
    trace.value(12)                         line 12 as it stands
    own_of(value)                           takes the keys of a trace out of a line, which then is a script's
    own_fault(value, own, worker, places)   why a line is none of that worker's trace, in words; or None"""
import json
import os

from rewind_tools import tool
from rewind_tools.following.epochs import is_whole
from rewind_tools.runs import json_of
from rewind_tools.script import FORMS
from rewind_tools.telling.forms import listed
from rewind_tools.telling.names import numbers
from rewind_tools.telling.values import shown, value_of

STEPS = ("feed", "take", "send", "release", "notice", "broadcast", "receive")
QUERIES = ("view", "frontier", "passed", "why")
# The key that names the worker, if it is not "p".
WORKER_KEYS = {"receive": "to", **dict.fromkeys(QUERIES, "q")}
# The keys of a trace, each with the words of the lines that may have it.
OWN_KEYS = {
    "number": ("broadcast", "receive"),
    "change": ("broadcast", "receive"),
    "is": QUERIES,
    "note": (*STEPS, *QUERIES),
}
# The longest line, and the keys whose lists may go on in a line "more".
LONGEST, MORE = 65_536, ("part", "change", "is")
# An egress of a frontier's times may have a counter one above those that a script has.
MOST_COUNTER = 2**32


class Trace:
    def __init__(self, path, worker):
        self.path, self.name, self.worker = path, os.path.basename(path), worker
        self.bytes = tool.read_bytes(path)
        self.split, self.cut = None, None
        numbered = enumerate(self.bytes.split(b"\n"), 1)
        self.lines = [(number, text) for number, text in numbered if text.strip(b" \t\r")]
        if self.is_cut_off():
            self.cut, _ = self.lines.pop()
        self.joined = {}
        if b'"more"' in self.bytes:
            self.join()

    def is_cut_off(self):
        """Whether the last line has no newline, and is not JSON."""
        if not self.lines or self.lines[-1][0] <= self.bytes.count(b"\n"):
            return False
        text = self.lines[-1][1]
        return parsed(text) is None and text.strip() != b"null"

    def join(self):
        """Puts lines that go on in others together."""
        lines, self.lines = self.lines, []
        for number, text in lines:
            more = parsed(text) if b'"more"' in text and len(text) <= LONGEST else None
            whole = joined(parsed(self.lines[-1][1]), more, self.worker) if more and self.lines else None
            if whole is None:
                self.lines.append((number, text))
            else:
                first, _ = self.lines.pop()
                self.lines.append((first, whole))
                self.joined[first] = whole

    def text(self, number):
        """A line's bytes."""
        if number in self.joined:
            return self.joined[number]
        if self.split is None:
            self.split = self.bytes.split(b"\n")
        return self.split[number - 1]

    def value(self, number):
        """A line's value, which the program has read."""
        return parsed(self.text(number))


def parsed(text):
    """The JSON value of a line; None if Python reads none. A number -0, which is none of a script, is a text
    then."""
    if b"-0" not in text:
        return json_of(text)
    try:
        return value_of(text)
    except (ValueError, RecursionError):
        return None


def joined(value, more, worker):
    """A line's bytes with the entries that a line "more" after it adds; None if that is no such line."""
    if not isinstance(value, dict) or not isinstance(more, dict):
        return None
    added = {key: it for key, it in more.items() if key in MORE}
    is_more = more.get("do") == "more" and more.get("p") == worker
    whole = longer(value, added) if is_more and more.keys() - {"do", "p", "note"} == added.keys() else None
    return whole and json.dumps(whole, separators=(",", ":")).encode()


def longer(value, added):
    """An object whose lists have further entries; None if it does not have such a list."""
    found = dict(value)
    for key, it in added.items():
        had = value.get(key)
        is_list = isinstance(it, list) and isinstance(had, list)
        if not is_list and not (isinstance(it, dict) and isinstance(had, dict)):
            return None
        found[key] = had + it if is_list else longer(had, it)
    return None if None in found.values() else found


def own_of(value):
    """Takes out of a line the keys that only traces have; returns them."""
    word = value.get("do")
    found = {}
    for key, words in OWN_KEYS.items():
        if key in value and word in words:
            found[key] = value.pop(key)
    return found


def worker_key(word):
    return WORKER_KEYS.get(word, "p")


def own_fault(value, own, worker, places):
    """Why a line that the program may have read is none of a worker's trace; None if it is one."""
    word = value.get("do")
    if not isinstance(word, str):
        return None
    if word == "more":
        return '"more" adds entries to "part", "change" or "is" of the line before it, which has these'
    if word not in STEPS + QUERIES:
        known = f'a trace has the lines {listed(map(shown, STEPS + QUERIES))}'
        return f"{shown(word)} is not a line of a trace; {known}" if word in FORMS else None
    key = worker_key(word)
    number = value.get(key)
    if is_whole(number) and number != worker:
        return f'"{key}" is {number}, and this is the trace of worker {worker}'
    for name, it in own.items():
        fault = FAULTS[name](it, value, places)
        if fault:
            return fault
    return None


def number_fault(it, value, places):
    return None if is_whole(it) else f'"number" is {shown(it)}; it must be an integer from 0 up'


def note_fault(it, value, places):
    return None if isinstance(it, str) else f'"note" is {shown(it)}; it must be a text'


def change_fault(it, value, places):
    return entries_fault("change", it, places)


def is_fault(it, value, places):
    """What is wrong with the members that a reply must have: with the names and times in them."""
    if not isinstance(it, dict):
        return f'"is" is {shown(it)}; it must be an object with members of the reply'
    for key in ("view", "frontier"):
        fault = entries_fault(key, it[key], places) if key in it else None
        if fault:
            return fault
    times, reasons = it.get("times", []), it.get("reasons", [])
    if not isinstance(times, list) or not isinstance(reasons, list):
        return '"times" and "reasons" must be lists'
    if not all(isinstance(reason, dict) and "point" in reason for reason in reasons):
        return 'each of "reasons" must be an object with a "point"'
    points = [[value["at"], time] for time in times] if "at" in value else []
    points += [reason["point"] for reason in reasons]
    points += [it["point"]] if "point" in it else []
    return next(filter(None, (point_fault("is", point, places) for point in points)), None)


def entries_fault(key, entries, places):
    """What is wrong with a list of locations, times and numbers."""
    if not isinstance(entries, list):
        return f'"{key}" is {shown(entries)}; it must be a list of entries as ["a",[0],1]'
    for it in entries:
        if not (isinstance(it, list) and len(it) == 3 and type(it[2]) is int):
            return f'"{key}" has {shown(it)}; an entry is a location, a time and a number, as ["a",[0],1]'
        fault = point_fault(key, it[:2], places)
        if fault:
            return fault
    return None


def point_fault(key, point, places):
    """What is wrong with a location and its time."""
    if not (isinstance(point, list) and len(point) == 2 and isinstance(point[0], str)):
        return f'"{key}" has {shown(point)}; it must be a location and a time, as ["a",[0]]'
    name, time = point
    if name not in places.depths:
        return f'"{key}" names {shown(name)}, which is not a name in the graph'
    wanted = places.depths[name] + 1
    is_time = isinstance(time, list) and len(time) == wanted and is_whole(time[0])
    if is_time and all(is_whole(it, MOST_COUNTER) for it in time[1:]):
        return None
    return f'"{key}" has the time {shown(time)} at {shown(name)}, where a time has {numbers(wanted)}'


FAULTS = {"number": number_fault, "change": change_fault, "is": is_fault, "note": note_fault}
