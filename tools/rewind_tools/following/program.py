"""The program that executes the lines of the traces, in the last version of the script that it has.

    program = Program(graph, 3, on_note)        GraphRefused, if it refuses the graph
    program.progress("lines read", 1000, 5000)  says now and then how far the work is
    program.ask([b"..", b".."])                 the reply to each line, as bytes
    program.ask_pieces([[b"..", ..], ..])       the replies to many lists of lines, the bytes of each
    program.asked({"do": "state"})              the reply to one line, as a value
    program.go_to([b"..", ..])                  goes back to the position after these lines
    program.again([b"..", ..])                  a new process, which executes these lines first
    program.close()

The program is given a short name for each that it does not take (short_names.py)."""
import json
import time

from rewind_tools.script import LAST
from rewind_tools.session import Session, VersionRefused
from rewind_tools.short_names import Names
from rewind_tools.telling.faults import named
from rewind_tools.telling.graph_faults import graph_faults
from rewind_tools.tool import Fault

# The versions in which a run can be followed, the last first.
VERSIONS = (LAST, 8, 6, 5)
# How many lines are executed again at once.
PIECE = 2_000
# How many seconds pass before it is said how far the work is; then that many times as long pass.
FIRST, TIMES = 2, 2


class Reporter:
    """Says how far the work is, if that takes some seconds, and then ever more seldom."""

    def __init__(self, tool, on_note):
        self.tool, self.on_note = tool, on_note
        self.begun, self.wait = time.monotonic(), FIRST

    def __call__(self, what, done, count):
        passed = time.monotonic() - self.begun
        if passed >= self.wait:
            self.wait = TIMES * passed
            self.on_note(f"{self.tool}: {done:,} of {count:,} {what} so far")


class GraphRefused(Exception):
    """The program has refused the graph, or there is none: why, in sentences."""

    def __init__(self, *sentences):
        super().__init__("; ".join(sentences))
        self.sentences = sentences


class Program:
    def __init__(self, graph, workers, on_note):
        self.graph, self.words = graph, ["--processors", str(workers)]
        self.on_note, self.noted, self.progress = on_note, set(), Reporter("follow", on_note)
        self.session = self.opened()
        self.version, reply = self.session.version, self.session.started
        if "error" in reply:
            self.close()
            raise GraphRefused(*named(reply, graph_faults(self.names.graph, reply, self.version)))

    def opened(self):
        for version in VERSIONS[:-1]:
            try:
                return self.opened_in(version)
            except VersionRefused:
                pass
        return self.opened_in(VERSIONS[-1])

    def opened_in(self, version):
        self.names = Names(self.graph, version)
        return Session(self.names.graph, self.words, version, self.note)

    def note(self, text):
        """Passes a note of ./rewind on, once for all processes."""
        if text not in self.noted:
            self.noted.add(text)
            self.on_note(text)

    def ask(self, texts):
        if not self.names.short:
            return self.session.ask_lines(texts)
        return list(map(self.names.told, self.session.ask_lines(list(map(self.names.given, texts)))))

    def ask_pieces(self, pieces):
        """The replies to lists of lines, list by list; the next ones are made while the program answers."""
        if not self.names.short:
            return self.session.ask_pieces(pieces)
        given = ([self.names.given(it) for it in texts] for texts in pieces)
        return map(self.names.told, self.session.ask_pieces(given))

    def asked(self, value):
        return json.loads(self.ask([json.dumps(value, separators=(",", ":")).encode()])[0])

    def go_to(self, texts):
        """Goes back to the position after some lines, all of them steps."""
        if "error" in self.asked({"do": "jump", "to": len(texts)}):
            self.again(texts)  # since the log is full

    def again(self, texts):
        """Executes lines that were executed before in a new process, whose log has room."""
        self.close()
        self.session = self.opened()
        for begin in range(0, len(texts), PIECE):
            for reply in self.ask(texts[begin : begin + PIECE]):
                if not reply.startswith(b'{"at":'):
                    raise Fault(f"a line that was executed is refused now: {reply.decode().strip()}")

    def close(self):
        self.session.close()
