"""A run of another program, from its traces to its ending.

    run = Run(graph, [Trace("worker-0.jsonl", 0), ..], on_note)      GraphRefused, if the program refuses it
    run.ask(0, "out", [3])                            asks why that time is not finished for worker 0, too
    for text, indent, colour in run.follow(): ..      what is said of it
    run.left()                                        what a run that is followed leaves, in sentences
    run.status                                        the exit status
    run.is_read                                       whether the traces could be read
    run.close()"""
from rewind_tools.following import unreadable
from rewind_tools.following.checking import Follower
from rewind_tools.following.endings import FOLLOWED, INCOMPLETE, UNREADABLE, ending_of
from rewind_tools.following.epochs import Epochs
from rewind_tools.following.hang import why_words
from rewind_tools.following.left import left_of, left_words
from rewind_tools.following.merging import Merging
from rewind_tools.following.places import Places
from rewind_tools.following.program import Program
from rewind_tools.following.reading import Unreadable, check, read
from rewind_tools.following.words import Words
from rewind_tools.telling.names import numbers


MOST_COUNTER = 2**32 - 1


class Run:
    def __init__(self, graph, traces, on_note):
        self.traces = traces
        self.program = Program(graph, len(traces), on_note)
        self.epochs, self.places = Epochs(), Places(graph, len(traces))
        self.follower = self.ending = self.fault = self.asked = None

    def follow(self):
        """Reads and executes the traces; returns what is said of that."""
        at_hand = self.traces, self.epochs, self.places, self.program
        if self.asked:
            self.epochs.found.add(self.asked[2][0])
        try:
            merging = Merging(read(*at_hand), self.places)
            self.follower = Follower(self.program, merging)
            self.follower.follow()
            check(*at_hand, merging.at)
        except Unreadable as fault:
            self.fault = fault
            return unreadable.said(fault, self.program, len(self.traces))
        self.ending = ending_of(self.follower, self.traces)
        self.words = Words(self.follower, self.traces, self.epochs, self.program)
        said = self.words.of(self.ending)
        return said + why_words(self.words, *self.asked) if self.asked else said

    def ask(self, worker, location, time):
        """Asks why a time is not finished for a worker; returns what is wrong with the question, if anything
        is."""
        wanted = self.places.depths.get(location)
        if worker not in range(len(self.traces)):
            return f"there is no worker {worker}; there are {len(self.traces)}, from 0 on"
        if wanted is None:
            return f"{location} is not a name in the graph"
        if len(time) != wanted + 1:
            return f"a time of {location} has {numbers(wanted + 1)}, as {','.join('0' * (wanted + 1))}"
        if max(time[1:], default=0) > MOST_COUNTER:
            return f"a counter is at most {MOST_COUNTER}"
        self.asked = worker, location, time
        return None

    @property
    def is_read(self):
        return self.ending is not None

    @property
    def status(self):
        return self.ending.status if self.is_read else UNREADABLE

    @property
    def marks(self):
        """What was refused, or differs: the worker, and why."""
        wrongs = self.ending.wrongs or (self.ending.waits[:1] if self.ending.name != INCOMPLETE else [])
        for it in wrongs:
            yield it.line.worker, "; ".join(text for text, *_ in self.words.wrong(it, it.ending))

    @property
    def known(self):
        """What the short names of the program stand for."""
        return {short: it for it, short in self.program.names.short.items()}

    def place(self, line):
        """Where a line comes from: its file, its number, and its note."""
        trace = self.traces[line.worker]
        text = trace.text(line.number)
        note = trace.value(line.number).get("note") if b'"note"' in text else None
        return {"file": trace.path, "line": line.number, **({} if note is None else {"note": note})}

    def left(self):
        if not self.is_read or self.ending.name != FOLLOWED:
            return []
        state = self.epochs.told(self.program.asked({"do": "state"}))["state"]
        return left_words(left_of(state, self.program.graph))

    def close(self):
        self.program.close()
