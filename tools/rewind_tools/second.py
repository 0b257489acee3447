"""A second program with the same steps, which is asked what may take long: so the session goes on meanwhile,
and the question ends at once when it is stopped.

    second = Second(journal, report)
    second.ask(line, *second.here())    the reply to a line; Stopped, if it was stopped
    second.at_rest(query)               the reply to a query 'why', at rest
    second.try_out(work, *second.here())    what `work` returns, which is given how to ask the program: it
                                            may execute steps, and those of the session stay as they are
    second.ask_lines(texts, entries, 9) the replies to lines, as bytes, with the steps up to position 9
    second.stop()                       kills the program, from any thread

The program starts with the first question, and is brought to the steps that a question is about: by those
that it lacks alone. After a stop it begins anew. Each second it is reported how long an answer takes."""
import bisect
import contextlib
import itertools
import threading

from rewind_tools.at_rest import MOST
from rewind_tools.journal import Stopped, common, replay
from rewind_tools.session import Ended, Session

# Over how many positions or steps a question may go that does not take long.
FEW = 2000
# How many seconds lie between two reports.
BETWEEN = 1


def is_long(value):
    """Whether the answer to a line may take long."""
    if value.get("do") in ("turns", "changes", "search"):
        lo, hi = value.get("lo"), value.get("hi")
        return type(lo) is int and type(hi) is int and hi - lo > FEW
    rest = value.get("rest", 0)
    return value.get("do") == "reach" or type(rest) is int and rest > FEW


@contextlib.contextmanager
def reporting(report):
    """Reports for how long something goes on."""
    is_over = threading.Event()

    def tick():
        for seconds in itertools.count(BETWEEN, BETWEEN):
            if is_over.wait(BETWEEN):
                return
            with contextlib.suppress(OSError):  # nobody may read it any more
                report(f"working for {seconds} s")

    ticking = threading.Thread(target=tick, daemon=True)
    ticking.start()
    try:
        yield
    finally:
        is_over.set()
        ticking.join()


class Second:
    """The second program of a session. `report` is told how far it is while it catches up."""

    def __init__(self, journal, report=lambda text: None):
        self.journal, self.report, self.lock = journal, report, threading.Lock()
        self.session, self.entries, self.is_stopped = None, [], False

    def here(self):
        """The kept steps and the cursor, which stay as they are now."""
        return [*self.journal.entries], self.journal.at

    def at_rest(self, query):
        """The reply to a query 'why' at rest: that of the session's own program, if few steps are left."""
        reply = self.journal.session.ask({**query, "rest": FEW})
        return reply if reply.get("stop") != "limit" else self.ask({**query, "rest": MOST}, *self.here())

    def ask(self, value, entries, at):
        """The reply to a line at a position among steps."""
        return self.with_program(lambda ask: ask(value), entries, at, value.get("hi", 0))

    def ask_lines(self, texts, entries, position):
        """The replies to lines of a program that has at least the steps up to a position, all as bytes."""
        return self.with_program(lambda ask: self.session.ask_lines(texts), entries, position)

    def try_out(self, work, entries, at):
        """What some work returns that executes steps from a position on."""

        def from_there(ask):
            self.entries = [it for it in self.entries if it.end <= at]
            return work(ask)

        return self.with_program(from_there, entries, at)

    def with_program(self, work, entries, at, hi=0):
        """What some work returns at a position among steps, with those up to another one kept, too."""
        with self.lock:
            self.is_stopped = False
            if not self.journal.may_go_on():  # asked after that, so that no stop is lost between the two
                self.is_stopped = True
            try:
                self.bring(entries, max(at, hi))
                self.session.ask({"do": "jump", "to": at})
                self.report("working")
                with reporting(self.report):
                    return work(self.session.ask)
            except Ended as fault:
                self.close()
                raise Stopped("cancelled" if self.is_stopped else f"no answer: {fault}") from fault

    def bring(self, entries, position):
        """Brings the program to steps, as far as they lead to a position."""
        if self.session is None:
            first = self.journal.session
            self.session, self.entries = Session(first.graph, first.words, first.version), []
        if self.is_stopped:
            raise Ended("stopped")
        wanted = entries[: bisect.bisect_left(entries, position, key=lambda it: it.begin)]
        same = common(self.entries, wanted)
        if same == len(wanted):
            return
        del self.entries[same:]
        for piece in replay(self.session, wanted, same):
            self.entries += piece
            if piece[-1].end < position:
                self.report(f"a second program is at position {piece[-1].end} of {position}")
            if self.is_stopped:
                raise Ended("stopped")

    def stop(self):
        """Has the question that is asked end at once, if there is one."""
        if self.lock.locked():
            self.kill()

    def kill(self):
        """Ends the program at once."""
        self.is_stopped = True
        if self.session:
            self.session.kill()

    def close(self):
        if self.session:
            self.session.close()
            self.session = None
