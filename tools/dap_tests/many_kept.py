"""How quick the adapter is among many kept steps, by the proved program."""
import os
import time

from dap_tests import IS_PROVED
from dap_tests.talking import Client, script_file
from live_tests.served import chain
from rewind_tools import testing

# The length of the graph, the feeds, the values of each, and the steps of the run after them.
SIZE = (9, 570, 20, 100_000) if IS_PROVED else (2, 50, 6, 250)
# In milliseconds, on a machine on which a million additions take Python 80.
MOST_MS = 100


def most_ms():
    """The limit on this machine, as quick as it is now."""
    begun, total = time.process_time(), 0
    for number in range(1_000_000):
        total += number
    return MOST_MS * max(1, (time.process_time() - begun) / 0.08)


def median(work, times=5):
    """The milliseconds that some work takes."""
    taken = []
    for _ in range(times):
        begun = time.monotonic()
        work()
        taken.append((time.monotonic() - begun) * 1000)
    return sorted(taken)[times // 2]


class ManyKept(testing.Case):
    def setUp(self):
        length, feeds, values, steps = SIZE
        graph, lines = chain(length, feeds, values)
        path = script_file(self.addCleanup, [graph, *lines, {"do": "run", "limit": steps}])
        self.client = self.enterContext(Client())
        self.begun = time.monotonic()
        self.given = {"program": path, "processors": 2}
        self.kept = feeds + steps

    def look(self):
        """Opens all scopes of a thread."""
        for scope in self.client.body("scopes", frameId=2)["scopes"]:
            self.client.opened(scope["variablesReference"])

    def moved(self, position):
        self.client.stop("goto", threadId=2, targetId=position + 1)

    def test_speed(self):
        """The frames and the variables of a stop are there at once, wherever it is."""
        client = self.client
        client.launch(**self.given)
        told = [f"the script {time.monotonic() - self.begun:.1f} s"]
        for position in (self.kept, self.kept // 2, self.kept // 3):
            if position < self.kept:
                self.moved(position)
            frames = median(lambda: client.body("stackTrace", threadId=2))
            first = median(self.look, 1)
            again = median(self.look)
            most = most_ms()
            for name, taken in (("frames", frames), ("variables", first), ("variables again", again)):
                self.holds(f"{name} at {position}", taken < most or not IS_PROVED, (taken, most))
            told.append(f"at {position} frames {frames:.0f} ms, variables {first:.0f} ms")
        steps = median(lambda: client.stop("stepBack", threadId=2))
        source = median(lambda: client.body("source", sourceReference=1), 1)
        told += [f"a step {steps:.0f} ms", f"the list {source:.0f} ms"]
        reverse = median(lambda: client.stop("reverseContinue", threadId=2), 1)
        told += [f"back to the start without a breakpoint {reverse:.0f} ms"]
        client.body("setFunctionBreakpoints", breakpoints=[{"name": "passed 0 v0 7"}])
        forward = median(lambda: client.stop("continue", threadId=2), 1)
        told += [f"forward to one {forward:.0f} ms"]
        print(f"dap: among {self.kept} kept steps: {', '.join(told)}")

    def test_file(self):
        """A file of kept steps is written once, and then where it changes."""
        path = f"{os.path.dirname(self.given['program'])}/steps"
        client = self.client
        client.launch(**self.given, stepsFile=path)
        size = os.path.getsize(path)
        client.typed("feed 0 a 1 next")
        client.until("stopped")
        with open(path, "rb") as it:
            text = it.read()
        line = b"processor 0 feeds 1 into a and goes on to the next epoch\n"
        self.same("a line more", (len(text) - size, text.count(b"\n")), (len(line), self.kept + 2))
