"""The adapter: the requests of the Debug Adapter Protocol, in the states in which they may come.

    Adapter(reader, writer).serve()      reads requests until the editor disconnects, or the input ends

A thread reads requests into a queue. The main thread answers them, and between two of them goes on with a
long move, if there is one. So a run can be paused, and no two requests are answered at once."""
import collections
import os
import queue
import threading

from rewind_tools import opening, tool
from rewind_tools.dap import framing
from rewind_tools.dap.asking import Asking
from rewind_tools.dap.breaking import Breaking
from rewind_tools.dap.capabilities import CAPABILITIES
from rewind_tools.dap.console import Console
from rewind_tools.dap.moving import Moving, Stop
from rewind_tools.dap.requests import ENDED, HANDLERS, LAUNCHED, NEW, READY, RUNNING, STOPPED, Refused, on
from rewind_tools.dap.scripted import Scripted
from rewind_tools.dap.steps import Steps
from rewind_tools.dap.variables import Variables
from rewind_tools.journal import left_behind
from rewind_tools.session import Ended, Session
from rewind_tools.sources import places_of

STARTED = (LAUNCHED, RUNNING, STOPPED)
MOST_PROCESSORS = tool.MOST["processors"]
REFUSED, UNKNOWN = 1, 2
IDLE = object()


class Adapter(Asking, Breaking):
    """One client's session."""

    def __init__(self, reader, writer):
        self.reader, self.out = reader, framing.Writer(writer)
        self.inbox, self.state, self.is_over = queue.Queue(), NEW, False
        self.first_line = self.first_column = 1
        self.console = self.moving = self.scripted = self.steps = self.variables = None
        self.work, self.thread, self.stop, self.given = None, 1, Stop("entry"), {}
        self.after, self.reply_to = [], None
        self.stops_at_refused, self.script_breaks = True, set()
        self.next_number, self.asked_breaks = 1, {}
        # the requests that wait and would stop a long command of the prompt
        self.status, self.stopping = 0, collections.deque()

    # ---- the loop

    def serve(self):
        """Answers requests until the editor disconnects; the status."""
        threading.Thread(target=self.read_all, daemon=True).start()
        try:
            while not self.is_over:
                item = self.next_item()
                if item is IDLE:
                    self.guarded(self.go_on)
                else:
                    self.take(item)
        except (BrokenPipeError, ConnectionError):
            pass  # the editor has gone
        finally:
            self.end_session()
        return self.status

    def read_all(self):
        """Reads requests to the end of the input."""
        while True:
            try:
                item = framing.read(self.reader)
            except (framing.Broken, framing.NoRequest) as fault:
                item = fault
            except OSError:
                item = None
            if self.is_stopping(item):
                self.stopping.append(item)
                if self.console:
                    self.console.second.stop()
            self.inbox.put(item)
            if item is None or isinstance(item, framing.Broken):
                return

    def is_stopping(self, item):
        """Whether what was read stops what is under way."""
        if not isinstance(item, dict) or item["command"] != "cancel":
            return item is None or isinstance(item, dict) and item["command"] in STOPPING
        asked, now = item.get("arguments"), self.reply_to
        wanted = asked.get("requestId") if isinstance(asked, dict) else None
        return wanted is None or now is not None and wanted == now["seq"]

    def next_item(self):
        try:
            return self.inbox.get(block=self.work is None)
        except queue.Empty:
            return IDLE

    def take(self, item):
        """Takes what was read."""
        if isinstance(item, dict):
            if item in self.stopping:
                self.stopping.remove(item)
            self.answer(item)
        elif isinstance(item, framing.NoRequest):
            self.say(str(item), "stderr")
        else:
            self.is_over = True
            if item is not None:
                self.status = tool.FAILED
                self.say(f"{item}; the session ends", "stderr")

    def answer(self, request):
        """Answers a request, and then says what came of it."""
        command, arguments = request["command"], request.get("arguments")
        self.after, self.reply_to = [], request
        self.guarded(self.respond, command, {} if arguments is None else arguments)
        for work in self.after:
            self.guarded(work)

    def respond(self, command, arguments):
        try:
            body = self.handled(command, arguments)
        except Refused as fault:
            self.failed(str(fault))
            if self.state == STOPPED and command in MOVES:
                self.send_stop()
            return
        except Ended as fault:
            self.failed(str(fault))
            raise
        self.responded(True, **({} if body is None else {"body": body}))

    def handled(self, command, arguments):
        """What answers a request, if it may come now and its arguments are as they must be."""
        if command not in HANDLERS:
            raise Refused(f"there is no request {command}")
        states, method = HANDLERS[command]
        if self.state not in states:
            raise Refused(f"{command} cannot come now: {WHY_NOT[self.state]}")
        if not isinstance(arguments, dict):
            raise Refused("the arguments are not an object")
        try:
            return method(self, arguments)
        except (LookupError, TypeError, ValueError, AttributeError) as fault:
            raise Refused(f"{command} lacks an argument, or one has a wrong type: {fault}") from fault

    def responded(self, is_success, **members):
        request = self.reply_to
        known = {"request_seq": request["seq"], "command": request["command"], "success": is_success}
        self.out.send("response", **known, **members)

    def failed(self, why):
        error = {"id": REFUSED, "format": why.replace("{", "(").replace("}", ")"), "showUser": True}
        self.responded(False, message=why, body={"error": error})

    def guarded(self, work, *words):
        """Does some work; if the program has ended, ends the session."""
        try:
            work(*words)
        except Ended as fault:
            self.say(str(fault), "stderr")
            self.end(tool.FAILED)

    def say(self, text, category="stdout"):
        if text:
            self.out.event("output", category=category, output=f"{text}\n")

    def later(self, work):
        """Has some work done after the response."""
        self.after.append(work)

    # ---- a move

    def go_on(self):
        """Executes the next piece of a long move."""
        try:
            next(self.work)
        except StopIteration as end:
            self.work = None
            self.stopped(end.value)
        except Refused as fault:
            self.work = None
            self.stopped(Stop("refused", str(fault)))

    def start(self, work):
        """Begins a long move, after the response."""
        self.state = RUNNING
        self.forget()

        def begin():
            self.work = work

        self.later(begin)

    def stopped(self, stop):
        """Stands still, and tells the editor so."""
        self.moving.leave_script()
        self.state, self.stop = STOPPED, stop
        self.forget()
        self.list_steps()
        if stop.reason in ("exception", "idle", "refused"):
            self.say(stop.words, "stderr")
        elif stop.words:
            self.say(stop.words)
        self.verify_lines()
        self.thread = self.thread_of(stop)
        self.send_stop()

    def list_steps(self):
        """Keeps the list of steps current. Without its file the editor asks for the list by its number."""
        try:
            self.steps.changed()
        except OSError as fault:
            self.steps.path = None
            self.say(tool.words_of(fault), "stderr")

    def send_stop(self):
        stop = self.stop
        said = {"description": stop.words, "text": stop.words} if stop.words else {}
        hit = {"hitBreakpointIds": list(stop.numbers)} if stop.numbers else {}
        self.out.event(
            "stopped", reason=stop.reason, threadId=self.thread, allThreadsStopped=True, **said, **hit
        )

    def thread_of(self, stop):
        """The thread of a stop: that of a line that was refused, or else the one that was asked."""
        value = self.scripted.shown.value if stop.reason == "exception" else None
        found = value.get("p", value.get("to")) if isinstance(value, dict) else None
        is_there = type(found) is int and 0 <= found < self.console.teller.processors
        return found + 1 if is_there else self.thread

    def forget(self):
        """Forgets the variables of the last stop."""
        self.variables = Variables(self.console)

    # ---- the session

    @on("initialize", NEW)
    def initialize(self, asked):
        self.first_line = int(asked.get("linesStartAt1", True) is not False)
        self.first_column = int(asked.get("columnsStartAt1", True) is not False)
        self.state = READY
        return CAPABILITIES

    @on("attach", READY)
    def attach(self, asked):
        raise Refused("there is nothing to attach to: 'launch' debugs a script")

    @on("launch", READY)
    def launch(self, asked):
        self.given = self.checked(asked)
        self.open_session()
        self.state = LAUNCHED
        self.later(lambda: self.out.event("initialized"))

    def checked(self, asked):
        """The arguments of a launch."""
        program, processors = asked.get("program"), asked.get("processors", 1)
        if not isinstance(program, str) or not program:
            raise Refused("launch needs 'program', the path of a script")
        if type(processors) is not int or not 1 <= processors <= MOST_PROCESSORS:
            raise Refused(f"'processors' is a number from 1 to {MOST_PROCESSORS}")
        steps = asked.get("stepsFile")
        if steps is not None and (not isinstance(steps, str) or not steps):
            raise Refused("'stepsFile' is the path of a file")
        folder = asked["cwd"] if isinstance(asked.get("cwd"), str) else ""
        return {
            "program": os.path.abspath(os.path.join(folder, os.path.expanduser(program))),
            "processors": processors,
            "is_entry": asked.get("stopOnEntry", True) not in (False, None),
            "steps": steps and os.path.abspath(os.path.join(folder, os.path.expanduser(steps))),
        }

    def open_session(self):
        """Opens the session of a script, whose lines are not executed yet."""
        try:
            program = self.given["program"]
            script = opening.read(tool.read_script(program, any_names=True), places_of(program))
        except (tool.Fault, OSError) as fault:
            raise Refused(tool.words_of(fault) if isinstance(fault, OSError) else str(fault)) from fault
        if script.graph is None:
            raise Refused(f"{self.given['program']}: there is no graph in it")
        words = ["--processors", str(self.given["processors"])]
        try:
            session = Session(script.graph, words, on_note=lambda it: self.say(it, "stderr"))
        except Ended as fault:
            raise Refused(str(fault)) from fault
        except OSError as fault:
            raise Refused(f"the program does not start: {fault.strerror}") from fault
        if opening.graph_refused(session):
            why = opening.graph_refused(session)
            session.close()
            raise Refused(why)
        for it in left_behind("live"):
            self.say(it, "stderr")
        shown = self.given["program"], lambda: bool(self.stopping), lambda it: self.say(it, "console")
        self.console = Console(session, *shown)
        self.scripted = Scripted(self.console, script, self.given["program"])
        self.scripted.breaks, self.scripted.stops_at_refused = self.script_breaks, self.stops_at_refused
        self.moving = Moving(self.console, self.scripted, self.say)
        self.steps = Steps(self.console, self.given["steps"])
        self.variables = Variables(self.console)

    @on("configurationDone", LAUNCHED)
    def configuration_done(self, asked):
        self.start(self.moving.begin(self.given["is_entry"]))

    @on("restart", RUNNING, STOPPED, ENDED)
    def restart(self, asked):
        if isinstance(asked.get("arguments"), dict) and "program" in asked["arguments"]:
            self.given = self.checked(asked["arguments"])
        self.end_session()
        self.state = ENDED  # if the script cannot be opened any more
        self.open_session()
        self.set_again()
        self.start(self.moving.begin(self.given["is_entry"]))

    @on("terminate", *STARTED)
    def terminate(self, asked):
        self.later(lambda: self.end(0))

    @on("cancel", NEW, READY, *STARTED, ENDED)
    def cancel(self, asked):
        """What was asked has stopped when this is answered."""

    @on("disconnect", NEW, READY, *STARTED, ENDED)
    def disconnect(self, asked):
        self.end_session()
        self.is_over = True

    def end(self, status):
        """Says that the session has ended; it may begin anew."""
        self.after.clear()
        self.end_session()
        self.out.event("exited", exitCode=status)
        self.out.event("terminated")
        self.state = ENDED

    def end_session(self):
        """Ends the program. Steps that no file has are in one that is named."""
        console, self.console, self.work = self.console, None, None
        if console is None:
            return
        path = console.journal.close()
        if path:
            self.say(f"the kept steps are in {path}")
        console.session.close()
        console.second.close()


STOPPING = ("pause", "restart", "terminate", "disconnect")
MOVES = ("next", "stepIn", "stepOut", "stepBack", "continue", "reverseContinue", "goto")
WHY_NOT = {
    NEW: "'initialize' comes first",
    READY: "'launch' comes first",
    LAUNCHED: "'configurationDone' comes first",
    RUNNING: "the session runs; 'pause' stops it",
    STOPPED: "the session has begun already",
    ENDED: "the session has ended; 'restart' begins anew",
}
