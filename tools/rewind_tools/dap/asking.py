"""The requests that ask: threads, frames, scopes, variables, sources, and what is typed; and those that
move."""
import os

from rewind_tools.dap.console import WouldDiscard, is_question
from rewind_tools.dap.moving import Stop
from rewind_tools.dap.requests import LAUNCHED, RUNNING, STOPPED, Refused, on
from rewind_tools.journal import Stopped
from rewind_tools.tool import words_of
from rewind_tools.typed import NotTyped, line_of, words_of_line

STARTED = (LAUNCHED, RUNNING, STOPPED)
# The numbers of frames: those of the list of kept steps are the threads' own, and those of the script begin
# here.
SCRIPT_FRAMES = 1000
ASK_ONLY = "only a question can be asked here; the editor's debug console executes commands"


class Asking:
    """The part of the adapter that answers questions and moves."""

    # ---- threads and frames

    @on("threads", *STARTED)
    def threads(self, asked):
        names = [f"processor {p}" for p in range(self.console.teller.processors)]
        return {"threads": [{"id": p + 1, "name": name} for p, name in enumerate(names)]}

    def processor(self, number):
        """The processor of a thread or a frame."""
        p = number % SCRIPT_FRAMES - 1 if type(number) is int else -1
        if not 0 <= p < self.console.teller.processors:
            raise Refused(f"there is no thread or frame {number}")
        return p

    @on("stackTrace", STOPPED)
    def stack_trace(self, asked):
        p = self.processor(asked["threadId"])
        position = {"column": self.first_column}
        frames = []
        if self.scripted.is_shown():
            line = self.scripted.shown.number - 1 + self.first_line
            frames.append({
                "id": SCRIPT_FRAMES + p + 1, "name": self.scripted.frame_words(), "line": line, **position,
                "source": self.script_source(),
            })  # fmt: skip
        frames.append({
            "id": p + 1, "name": self.steps.frame_words(self.console.at),
            "line": self.console.at + self.first_line, **position, "source": self.steps_source(),
        })  # fmt: skip
        begin, levels = asked.get("startFrame") or 0, asked.get("levels") or len(frames)
        return {"stackFrames": frames[begin : begin + levels], "totalFrames": len(frames)}

    @on("scopes", STOPPED)
    def scopes(self, asked):
        return {"scopes": self.variables.scopes(self.processor(asked["frameId"]))}

    @on("variables", STOPPED)
    def children(self, asked):
        found = self.variables.children(asked["variablesReference"])
        if found is None:
            raise Refused(f"there are no variables {asked['variablesReference']} at this stop")
        begin = asked.get("start") or 0
        end = begin + asked["count"] if asked.get("count") else None
        return {"variables": found[begin:end]}

    @on("exceptionInfo", STOPPED)
    def exception_info(self, asked):
        if not (self.scripted.fault and self.scripted.is_shown()):
            raise Refused("no line of the script was refused here")
        name, why = self.scripted.fault
        return {"exceptionId": name, "description": why, "breakMode": "always"}

    # ---- sources

    def script_source(self):
        path = self.scripted.path
        return {"name": os.path.basename(path), "path": path}

    def steps_source(self):
        name = f"steps of {os.path.basename(self.scripted.path)}"
        if self.steps.path:
            return {"name": name, "path": self.steps.path}
        return {"name": name, "sourceReference": self.steps.reference}

    @on("loadedSources", *STARTED)
    def loaded_sources(self, asked):
        return {"sources": [self.script_source(), self.steps_source()]}

    @on("source", *STARTED)
    def source(self, asked):
        source = asked.get("source") or {}
        reference = source.get("sourceReference") or asked.get("sourceReference")
        path = source.get("path")
        if reference or (path and path == self.steps.path):
            return {"content": self.steps.text(), "mimeType": "text/plain"}
        if path and os.path.realpath(path) == os.path.realpath(self.scripted.path):
            with open(path, encoding="utf-8", errors="replace") as it:
                return {"content": it.read()}
        raise Refused("the sources are the script and the list of kept steps")

    # ---- what is typed

    @on("evaluate", STOPPED)
    def evaluate(self, asked):
        text, context = asked["expression"].strip(), asked.get("context", "repl")
        frame = asked.get("frameId")
        p = self.thread - 1 if frame is None else self.processor(frame)
        try:
            if context != "repl" and text in self.console.teller.graph.order:
                return self.why(self.console.why_at(p, text), f"no time can still arrive at {text}")
            if context != "repl" and not is_question(text):
                raise Refused(ASK_ONLY if self.console.is_known(text) else f"{text} is not a location")
            if words_of_line(text)[:1] == ["why"]:
                return self.why(line_of(words_of_line(text)))
            return {"result": self.typed(text), "variablesReference": 0}
        except (NotTyped, Stopped, WouldDiscard) as fault:
            raise Refused(str(fault)) from fault
        except OSError as fault:
            raise Refused(words_of(fault)) from fault

    def why(self, question, otherwise=""):
        """The answer why a time is not finished, which opens to its reasons."""
        if question is None:
            return {"result": otherwise, "variablesReference": 0}
        reply, said = self.console.why(question)
        opened = (lambda: self.variables.why(question)) if reply.get("reasons") else None
        return {"result": "\n".join(said), "variablesReference": self.variables.number(opened)}

    def typed(self, text):
        """What is said of a typed line. If it moves the cursor, the editor is told so."""
        before = self.console.at, self.console.journal.changes
        try:
            return self.console.answer_to(text)
        finally:
            if (self.console.at, self.console.journal.changes) != before:
                self.later(lambda: self.stopped(Stop("step")))

    @on("completions", STOPPED)
    def completions(self, asked):
        end = asked["column"] - self.first_column
        text = asked["text"].split("\n")[-1][: max(end, 0)]
        length, words = self.console.completed(text)
        start = len(text) - length + self.first_column
        return {"targets": [{"label": it, "start": start, "length": length} for it in words]}

    # ---- moves

    def begun_by(self, asked):
        """The processors that a move is of: the thread's own alone, or None for all."""
        p = self.processor(asked["threadId"])
        self.thread = p + 1
        return [p] if asked.get("singleThread") is True else None

    def move(self, work, *words):
        """Makes a short move at once, and tells the editor after the response."""
        before = self.console.at
        stop = work(*words)
        self.later(lambda: self.tell_move(before, stop))

    def tell_move(self, before, stop):
        """Says what a single new step changed, and stands still."""
        if self.console.at == before + 1 and stop.reason == "step":
            self.console.tell_change(self.console.at)
            self.say(self.console.taken())
        self.stopped(stop)

    @on("next", STOPPED)
    def step(self, asked):
        self.move(self.moving.one, self.begun_by(asked))

    on("stepIn", STOPPED)(step)

    @on("stepOut", STOPPED)
    def step_out(self, asked):
        self.begun_by(asked)
        self.move(self.moving.to_end)

    @on("stepBack", STOPPED)
    def step_back(self, asked):
        self.begun_by(asked)
        if self.console.at == 0:
            raise Refused("this is the start: no step is kept before it")
        self.move(self.moving.back)

    @on("continue", STOPPED)
    def go(self, asked):
        self.start(self.moving.forward(self.begun_by(asked), self.given["is_entry"]))
        return {"allThreadsContinued": True}

    @on("reverseContinue", STOPPED)
    def go_back(self, asked):
        self.begun_by(asked)
        self.start(self.moving.backward())

    @on("pause", RUNNING, STOPPED)
    def pause(self, asked):
        if self.work:
            self.work = None
            if self.scripted.is_here():
                self.scripted.show_next()
            self.later(lambda: self.stopped(Stop("pause")))

    @on("gotoTargets", STOPPED)
    def goto_targets(self, asked):
        if self.is_script(asked["source"]):
            raise Refused("only a line of the list of kept steps can be gone to")
        position = asked["line"] - self.first_line
        if not 0 <= position <= self.console.kept:
            return {"targets": []}
        label = f"position {position}"
        return {"targets": [{"id": position + 1, "label": label, "line": asked["line"]}]}

    @on("goto", STOPPED)
    def goto(self, asked):
        self.begun_by(asked)
        position = asked["targetId"] - 1
        if not 0 <= position <= self.console.kept:
            raise Refused(f"position {position} is past the last kept step")
        self.move(self.go_to, position)

    def go_to(self, position):
        self.moving.jump(position)
        return Stop("goto", f"position {position}")
