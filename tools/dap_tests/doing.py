"""What the requests do: the mapping of docs/EDITOR.md."""
import contextlib
import json
import os
import re
import shutil
import socket
import subprocess

from dap_tests.talking import COMMAND, REFUSED, STUCK, Client, frame, request, script_file, short
from live_tests.served import chain
from rewind_tools import testing
from rewind_tools.testing import SECONDS, TOP

THREAD = {"threadId": 1}
HELD = f"{TOP}/examples/held-capability.jsonl"
SENDS = f"{TOP}/examples/sends-and-releases.jsonl"
# A graph in which conditions turn often.
GRAPH, FEEDS = chain(2, 3, 4)
OFTEN = ["queue 0 1 1", "count e0 0 1", "view 1 a 0 1", "passed 0 v1 1", "not queue 1 0 1 and queue 0 0 1"]


class Seen(testing.Case):
    """What the editor shows at a stop."""

    def setUp(self):
        self.client = self.enterContext(Client())

    def test_refused_line(self):
        client = self.client
        said = client.launch(filters=["refused"])
        self.same("stopped", said, f"stopped in 1, exception: {REFUSED.format(7)}")
        frames = client.body("stackTrace", threadId=2)["stackFrames"]
        got = [(it["id"], it["name"], it["line"], it["source"]["name"]) for it in frames]
        steps = "steps of stuck-program.jsonl"
        self.same("frames", got, [
            (1002, "line 7 of the script, refused", 7, "stuck-program.jsonl"),
            (2, "position 11, after the last kept step", 12, steps),
        ])  # fmt: skip
        only = client.body("stackTrace", threadId=2, startFrame=1, levels=1)
        self.same("one frame", [it["id"] for it in only["stackFrames"]], [2])
        info = client.body("exceptionInfo", threadId=1)
        self.same("the exception", (info["exceptionId"], info["description"]), ("NotYet", REFUSED.format(7)))

    def test_variables(self):
        client = self.client
        client.launch(filters=["refused"])
        notice = "runs the notification of total (0)"
        self.same("processor 0", client.variables(1), {
            "Holds": {"tokens": "words (1)", "requests": "total (0)",
                "kept by vertices": "total (0): sum 2"},
            "View": {"words (0)": "1, on the frontier", "words (1)": "1", "total (0)": "2"},
            "Unsent": {}, "On its way": {},
            "Waiting": {notice: "processor 0's view has words (0) strictly before total (0) (10 NotYet)"},
        })  # fmt: skip
        waiting = client.body("scopes", frameId=1)["scopes"][-1]["variablesReference"]
        (found,) = client.opened(waiting)
        got = {it["name"]: it["value"] for it in client.opened(found["variablesReference"])}
        self.same("why", got, {
            "at rest": "no step is left, and this stays: the token of processor 1 at words (0)",
            "words (0)": "it still counts 1; held there: the token of processor 1",
            "in truth": "all that is strictly before total (0) is not finished",
        })  # fmt: skip
        client.stop("next", threadId=1)
        self.same("old variables", client.ask("variables", variablesReference=waiting)["success"], False)
        client.launched = client.answer("broadcast 1")
        way = client.variables(1)["On its way"]
        self.same("on its way", way, {"from processor 1": "1 change, first words (0) \u22121, words (1) +1"})

    def test_held_capability(self):
        self.client.launch(HELD, 2)
        self.client.stop("goto", threadId=1, targetId=17)
        waiting = self.client.variables(2)["Waiting"]
        (said,) = [it for name, it in waiting.items() if "batch" in name]
        self.holds("a hold", said.endswith("until a release (53 NotNotified)"), said)

    def test_opaque_vertex(self):
        """The script stops at the send that is refused; the console sends on the other port."""
        client = self.client
        client.launch(SENDS, 1, filters=["refused"])
        said = client.answer("send 0 x 0 1 7 at 3")
        sent = "processor 0 sends 7 on port 1 at (3), from the capability that it holds at x (0)"
        self.holds("sends", sent in said, said)
        self.same("holds", client.variables(1)["Holds"]["capabilities"], "x (0)")
        waiting = client.variables(1)["Waiting"]["runs the notification of x (0)"]
        self.holds("waits", waiting.endswith("so it is never notified (10 NotYet)"), waiting)

    def test_many_variables(self):
        """A long list is shown in parts."""
        self.client.launch(script_file(self.addCleanup, [*chain(1, 1, 250)[:1], *chain(1, 1, 250)[1]]), 1)
        scope = self.client.body("scopes", frameId=1)["scopes"][0]["variablesReference"]
        (records,) = [it for it in self.client.opened(scope) if it["name"] == "records"]
        scope = records["variablesReference"]
        parts, sizes = self.client.opened(scope), []
        while parts[-1]["name"].endswith(" more"):
            sizes.append(len(parts))
            parts = self.client.opened(parts[-1]["variablesReference"])
        self.same("parts", [*sizes, len(parts)], [101, 101, 50])
        some = self.client.body("variables", variablesReference=scope, start=2, count=3)["variables"]
        self.same("a page", [it["name"] for it in some], ["2", "3", "4"])

    def test_sources(self):
        client = self.client
        client.launch()
        list_of = client.body("stackTrace", threadId=1)["stackFrames"][0]
        reference = list_of["source"]["sourceReference"]
        lines = client.body("source", sourceReference=reference)["content"].splitlines()
        self.same("lines", (len(lines), lines[-1]), (26, "-- the end of the kept steps"))
        self.holds("the stopped line", list_of["name"].endswith(lines[list_of["line"] - 1]), list_of)
        told = subprocess.run([f"{TOP}/tools/tell", STUCK, "--processors", "2"], capture_output=True)
        self.holds("tools/tell", lines[0].encode() in told.stdout, lines[0])
        script = client.body("source", source={"path": STUCK})["content"]
        with open(STUCK, encoding="utf-8") as it:
            self.same("the script", script, it.read())
        self.same("another", client.ask("source", source={"path": "/etc/passwd"})["success"], False)
        self.same("all", len(client.body("loadedSources")["sources"]), 2)
        client.stop("next", threadId=1)
        again = client.body("stackTrace", threadId=1)["stackFrames"][0]["source"]
        self.same("the same list", again["sourceReference"], reference)

    def test_file_of_steps(self):
        """The file of kept steps is the same as the list, also after steps were discarded."""
        path = f"{os.path.dirname(script_file(self.addCleanup, []))}/steps"
        client = self.client
        client.launch(stepsFile=path)
        again = ("feed 0 words 4 next",) * 2
        for text in ("back", *again, "undrop", "next 3", "run 9", "run 9", "jump 3"):
            client.typed(text)
            shown = client.body("stackTrace", threadId=1)["stackFrames"][0]["source"]
            self.same(f"{text}: path", shown["path"], path)
            with open(path, encoding="utf-8") as it:
                self.same(text, it.read(), client.body("source", source=shown)["content"])

    def test_no_file_of_steps(self):
        """Without a file that can be written there is the list."""
        self.client.launch(stepsFile="/nowhere/steps")
        self.holds("said", "stderr: /nowhere/steps: No such file or directory" in self.client.said)
        shown = self.client.body("stackTrace", threadId=1)["stackFrames"][0]["source"]
        self.holds("the list", self.client.body("source", **shown)["content"].count("\n") == 26, shown)


class Typed(testing.Case):
    def setUp(self):
        self.client = self.enterContext(Client())
        self.client.launch()

    def test_answers(self):
        client = self.client
        why = client.answer("why 0 total 0 before")
        first, second = why.splitlines()[:2]
        self.same("at rest", first, "it finishes, by any order: 12 steps are left")
        self.holds("now", second.startswith("processor 0 does not know that all that is strictly"), why)
        self.same("where", client.answer("where"), "position 13 of 25")
        self.same("no command", client.answer("fly"), "fly is not a command; 'help' lists them")
        self.holds("a line", '"fly" is not a command' in client.answer('{"do":"fly"}'))
        self.holds("no JSON", "that is not JSON" in client.answer("{"))
        self.holds("quit", "the editor ends the session" in client.answer("quit"))
        self.holds("help", client.answer("help").startswith("Commands:"))
        self.holds("a file", "/nowhere/x: No such" in client.answer("save /nowhere/x"))
        self.same("still", client.answer("where"), "position 13 of 25")

    def test_hover(self):
        """Over a location it answers why, at the chosen thread, at the earliest time that can arrive."""
        client = self.client
        body = client.body("evaluate", expression="out", context="hover", frameId=2)
        first, second = body["result"].splitlines()[:2]
        self.same("at rest", first, "it finishes, by any order: 12 steps are left")
        said = "processor 1 does not know that out (0) is finished: it still counts 1 at words (0)"
        self.holds("out", second.startswith(said), body)
        opened = [it["name"] for it in client.opened(body["variablesReference"])]
        self.same("opened", opened[:2], ["at rest", "words (0)"])
        self.same("no location", client.answer("processor", "hover"), "processor is not a location")
        self.same("a watch", client.answer("where", "watch"), "position 13 of 25")
        for text in ("back", "next", "feed 0 words 1 next", '{"do":"back"}', "load x", "save x", "undrop"):
            self.holds(text, client.answer(text, "watch").startswith("only a question"))
        self.same("not moved", client.at(), 13)

    def test_finish(self):
        """What somebody must do so that a time finishes; the same word alone does it, when asked twice if
        that discards steps."""
        client = self.client
        client.typed("jump 11")
        said = client.answer("finish passed 0 out 0").splitlines()
        self.same("how", said[:3], [
            "no step is left, and this stays: the token of processor 1 at words (0)",
            "  somebody must: processor 1 feeds nothing into words and goes on to the next epoch, or gives"
            " up its token",
            "  the protocol then does 13 steps",
        ])  # fmt: skip
        self.holds("it discards", client.answer("finish").startswith("this discards 14 kept steps"))
        self.holds("done", "then stopped: that is the limit" in client.answer("finish"))
        self.same("there", client.answer("passed 0 out 0"), "yes")

    def test_nothing_can_arrive(self):
        client = self.client
        for text in ("jump 25", "feed 0 words close", "feed 1 words close", "run 99"):
            client.typed(text)
        self.same("finished", client.answer("out", "hover"), "no time can still arrive at out")

    def test_moves(self):
        """A typed command that moves the cursor is a stop."""
        client = self.client
        self.holds("back", client.answer("back").startswith("done: the cursor is at 12"))
        self.same("a stop", short(client.until("stopped")), "stopped in 1, step: ")
        self.same("there", client.at(), 12)

    def test_discards(self):
        """A new step that discards kept ones is executed if it is asked for twice, and can be undone."""
        client = self.client
        line = "feed 0 words 4 next"
        asked = (
            "this discards 12 kept steps after position 13; ask again to do so, and 'undrop' brings the run"
            " back"
        )
        self.same("asked", client.answer(line), asked)
        self.same("between", client.answer("where"), "position 13 of 25")
        self.same("asked again", client.answer(line), asked)
        said = client.answer(line)
        self.holds("done", "12 kept steps after position 13 are discarded" in said, said)
        self.same("a stop", short(client.until("stopped")), "stopped in 1, step: ")
        self.same("undrop", client.answer("undrop"), "position 13 of 25")
        for text in ("next", "run 5", "until passed 0 out 0", '{"do":"broadcast","p":0}', f"load {STUCK}"):
            self.same(text, client.answer(text), asked)
        self.same("not moved", client.answer("where"), "position 13 of 25")
        self.same("no breakpoint is left", client.answer("breaks"), "no breakpoint is set")

    def test_completions(self):
        for text, column, wanted in (
            ("why 0 o", 8, [("out", 7, 1)]),
            ("und", 4, [("undrop", 1, 3)]),
            ("back", 1, None),
        ):
            found = self.client.body("completions", text=text, column=column)["targets"]
            got = [(it["label"], it["start"], it["length"]) for it in found]
            self.holds(text, got == wanted if wanted else len(got) > 20, got)

    def test_saved(self):
        """Steps that no file has are written to one at the end."""
        client = self.client
        client.typed("run 3 only 1")
        client.typed("run 3 only 1")
        client.send("disconnect")
        self.same("the end", client.status(), 0)
        (said,) = [it for it in client.said if "the kept steps are in" in it]
        path = said.rpartition(" ")[2]
        with Client() as other:
            other.launch(path)
            self.same("the steps", other.answer("where"), "position 16 of 16")


class Stops(testing.Case):
    """Where it stops."""

    def setUp(self):
        self.client = self.enterContext(Client())

    def set(self, *conditions):
        wanted = [{"name": it} for it in conditions]
        return self.client.body("setFunctionBreakpoints", breakpoints=wanted)["breakpoints"]

    def positions(self, command):
        """The positions at which a command stops, as often as it does."""
        found = []
        while True:
            said = self.client.stop(command, threadId=1)
            if "breakpoint" not in said:
                return found
            found.append(self.client.at())

    def turns(self, text, kept):
        """Where a condition begins to hold, and where it turns, from the answer to 'turns'."""
        said = self.client.answer(f"turns {text} 0 {kept}")
        parts = said.replace(", ", " and ").replace("it begins", "begins").replace("it ceases", "ceases")
        words = [it.split() for it in parts.splitlines()[-1].split(" and ")]
        found = [(it[0], int(it[-1])) for it in words if it[0] in ("begins", "ceases")]
        return [at for word, at in found if word == "begins"], [at for _, at in found]

    def test_where_conditions_turn(self):
        """New steps stop where a condition begins to hold, as kept ones do, and back where it turns."""
        lines = [GRAPH, *FEEDS]
        self.client.launch(script_file(self.addCleanup, lines), 2)
        begun = self.client.at()
        for several in ([it] for it in OFTEN):
            self.set(*several)
            first = self.positions("continue")
            kept = self.client.at()
            self.client.stop("goto", threadId=1, targetId=1)
            again = self.positions("continue")
            begins, turns = zip(*(self.turns(it, kept) for it in several))
            wanted = sorted({at for it in begins for at in it})
            self.same(f"{several}: kept", again, wanted)
            self.same(f"{several}: new", first, [it for it in wanted if it > begun])
            wanted = sorted({at for it in turns for at in it if at < kept}, reverse=True)
            self.same(f"{several}: back", self.positions("reverseContinue"), wanted)
            self.client.stop("goto", threadId=1, targetId=begun + 1)
            self.client.typed("feed 0 a stay")
            self.client.typed("feed 0 a stay")
            self.client.until("stopped")
            begun = self.client.at()

    def test_all_at_once(self):
        lines = [GRAPH, *FEEDS]
        self.client.launch(script_file(self.addCleanup, lines), 2)
        begun = self.client.at()
        self.set(*OFTEN)
        first = self.positions("continue")
        kept = self.client.at()
        begins, turns = zip(*(self.turns(it, kept) for it in OFTEN))
        wanted = sorted({at for it in begins for at in it if at > begun})
        self.same("new", first, wanted)
        wanted = sorted({at for it in turns for at in it if at < kept}, reverse=True)
        self.same("back", self.positions("reverseContinue"), wanted)

    def test_conditions_that_are_none(self):
        self.client.launch()
        told = self.set("foo", "passed 0 nope 0", "passed 0 out 0,0", "passed 0 out 0", "passed 7 out 0")
        self.same("verified", [it["verified"] for it in told], [False, False, False, True, True])
        self.holds("why", told[0]["message"].startswith("foo is not a condition"), told[0])
        self.holds("names", '"nope" is not a name in the graph' in told[1]["message"], told[1])
        many = self.set(*["passed 0 out 0"] * 33)
        self.same("at most 32", [it["verified"] for it in many], [True] * 32 + [False])
        self.same("none", self.set(), [])

    def test_entry_of_a_view(self):
        client = self.client
        client.launch()
        view = client.body("scopes", frameId=1)["scopes"][1]["variablesReference"]
        client.opened(view)
        info = client.body("dataBreakpointInfo", variablesReference=view, name="words (0)")
        self.same("words", info["description"], "processor 0's view of words (0)")
        other = client.body("dataBreakpointInfo", name="total 0", frameId=1)["dataId"]
        self.same("none", client.body("dataBreakpointInfo", name="x")["dataId"], None)
        wanted = [{"dataId": it} for it in (info["dataId"], other, "{}", "x")]
        told = client.body("setDataBreakpoints", breakpoints=wanted)["breakpoints"]
        self.same("verified", [it["verified"] for it in told], [True, True, False, False])
        client.stop("goto", threadId=1, targetId=1)
        forward = self.positions("continue")
        changes = [client.answer(f"changes 0 {it} 0 0 25") for it in ("words", "total")]
        wanted = {int(it) for said in changes for it in re.findall(r" at position (\d+)", said)}
        self.same("forward", forward, sorted(wanted))
        self.same("back", self.positions("reverseContinue"), [it for it in forward[::-1] if it < 25])

    def test_entry_by_new_steps(self):
        """A run stops where an entry changes."""
        client = self.client
        client.launch(script_file(self.addCleanup, [GRAPH, *FEEDS]), 2)
        data = client.body("dataBreakpointInfo", name="a 0", frameId=2)["dataId"]
        client.body("setDataBreakpoints", breakpoints=[{"dataId": data}])
        new = self.positions("continue")
        client.stop("goto", threadId=1, targetId=1)
        self.same("kept", (self.positions("continue"), bool(new)), (new, True))

    def lines(self, *lines, **more):
        source = {"sourceReference": 1}
        return self.client.body("setBreakpoints", source=source, breakpoints=lines, **more)["breakpoints"]

    def test_lines(self):
        """A line of the list is a position; one past the end is verified when a step is kept there."""
        client = self.client
        client.launch(script_file(self.addCleanup, [GRAPH, *FEEDS]), 2)
        told = self.lines({"line": 2}, {"line": 6}, {"line": 9, "condition": "passed 0 a 9"}, {"line": 11})
        self.same("verified", [it["verified"] for it in told], [True, False, False, False])
        self.same("stops", self.positions("continue")[:2], [5, 10])
        said = [it for it in client.said if it.startswith("breakpoint ")]
        self.same("verified later", said, [f"breakpoint {told[it]['id']} is True" for it in (1, 2, 3)])
        client.stop("stepOut", threadId=1)
        self.same("back", self.positions("reverseContinue"), [10, 5, 1])
        self.same("forward", self.positions("continue"), [1, 5, 10])
        faulty = self.lines({"line": 2, "condition": "foo"})
        self.same("a condition that is none", faulty[0]["verified"], False)
        by_lines = client.body("setBreakpoints", source={"sourceReference": 1}, lines=[3])["breakpoints"]
        self.same("in the old form", [it["verified"] for it in by_lines], [True])
        other = client.body("setBreakpoints", source={"path": "/etc/passwd"}, breakpoints=[{"line": 1}])
        self.same("in another file", other["breakpoints"][0]["verified"], False)

    def test_lines_of_the_script(self):
        """A breakpoint at a line of the script stops before it; a query has none."""
        client = self.client
        client.body("initialize")
        client.body("launch", program=STUCK, processors=2)
        lines = [{"line": it} for it in (4, 6, 10)]
        told = client.body("setBreakpoints", source={"path": STUCK}, breakpoints=lines)["breakpoints"]
        self.same("verified", [it["verified"] for it in told], [True, False, True])
        client.body("setExceptionBreakpoints", filters=[])
        said = [client.stop("configurationDone"), client.stop("continue", threadId=1)]
        self.same("stops", said, [f"stopped in 1, breakpoint: line {it} of the script" for it in (4, 10)])
        frames = client.body("stackTrace", threadId=1)["stackFrames"]
        self.same("shown", frames[0]["name"], "line 10 of the script, not executed yet")
        self.same("back", client.stop("stepBack", threadId=1), "stopped in 1, step: ")
        self.same("a kept step", len(client.body("stackTrace", threadId=1)["stackFrames"]), 1)
        client.stop("next", threadId=1)
        client.stop("next", threadId=1)
        self.same("a line", client.body("stackTrace", threadId=1)["stackFrames"][0]["line"], 11)
        said = client.stop("continue", threadId=1)
        self.same("the rest", said, "stopped in 1, entry: the script is executed")
        self.same("the place", client.answer("where"), "position 13 of 25")

    def test_lines_left_out(self):
        """If another step is executed while lines of the script wait, they are left out."""
        client = self.client
        client.launch(filters=["refused"])
        client.typed("feed 0 words 9 next")
        client.until("stopped")
        wanted = "than the script has led to: 7 lines of the script, from line 10 on, are left out"
        self.holds("said", any(wanted in it for it in client.said), client.said)
        self.same("frames", len(client.body("stackTrace", threadId=1)["stackFrames"]), 1)
        self.holds("goes on", "idle" in client.stop("continue", threadId=1))

    def test_breakpoints_of_the_script(self):
        """A breakpoint that the script sets stops, too, and keeps its number."""
        lines = [GRAPH, *FEEDS]
        whens = [{"passed": {"q": 0, "at": "a", "time": [it]}} for it in (0, 1, 2)]
        lines += [{"do": "break", "when": it} for it in whens] + [{"do": "unbreak", "id": 1}]
        client = self.client
        client.launch(script_file(self.addCleanup, lines), 1)
        before = client.answer("breaks")
        self.same("stops", len(self.positions("continue")), 1)
        self.same("numbers", client.answer("breaks"), before)

    def test_without_entry(self):
        """Without 'stopOnEntry' it goes on after the script."""
        said = self.client.launch(breaks=["passed 0 out 0"], stopOnEntry=False)
        self.holds("the breakpoint", said.startswith("stopped in 1, function breakpoint"), said)

    def test_restart(self):
        """Breakpoints are there in the session that begins anew."""
        client = self.client
        client.launch(breaks=["passed 0 out 0"])
        client.stop("restart")
        self.holds("hit", "function breakpoint" in client.stop("continue", threadId=1))

    def test_one_thread(self):
        """A single thread executes its own steps alone."""
        client = self.client
        client.launch(script_file(self.addCleanup, [GRAPH, *FEEDS]), 2)
        client.stop("next", threadId=2, singleThread=True)
        while "idle" not in client.stop("next", threadId=2, singleThread=True):
            pass
        lines = client.body("source", sourceReference=1)["content"].splitlines()[len(FEEDS) : -1]
        self.same("steps", {it.split()[1] for it in lines} if lines else {"1"}, {"1"})
        said = client.stop("continue", threadId=2, singleThread=True)
        self.same("idle", said, "stopped in 2, idle: nothing is enabled on processor 1: only a feed, a"
                  " send or a release is left")  # fmt: skip
        self.holds("all", "idle" in client.stop("continue", threadId=2))

    def test_goto(self):
        client = self.client
        client.launch()
        (target,) = client.body("gotoTargets", source={"sourceReference": 1}, line=5)["targets"]
        self.same("there", client.stop("goto", threadId=1, targetId=target["id"]),
                  "stopped in 1, goto: position 4")  # fmt: skip
        self.same("past the end", client.body("gotoTargets", source={}, line=99)["targets"], [])
        said = client.ask("goto", threadId=1, targetId=99)["message"]
        self.same("not there", said, "position 98 is past the last kept step")
        self.same("still stopped", short(client.until("stopped")), "stopped in 1, goto: position 4")
        client.stop("goto", threadId=1, targetId=1)
        said = client.ask("stepBack", threadId=1)["message"]
        self.same("the start", said, "this is the start: no step is kept before it")


class Pages(testing.Case):
    """What docs/EDITOR.md and the configurations say."""

    def read(self, path):
        with open(f"{TOP}/{path}", encoding="utf-8") as it:
            return it.read()

    def test_way_to_the_reason(self):
        """The lines of the page deliver the notification."""
        page = self.read("docs/EDITOR.md")
        lines = re.search(r"```text\n(.*?)```", page, re.DOTALL)[1].split("\n")
        with Client() as client:
            client.launch(filters=["refused"])
            answers = [client.answer(it.strip()) for it in lines if it.strip()]
        wanted = "step 15: processor 0 runs the notification of total (0)"
        self.holds("delivered", len(answers) == 4 and wanted in answers[-1], answers)
        said = "at rest: no step is left, and this stays: the token of processor 1 at words (0)"
        self.holds("the reason", said in page)

    def test_keys(self):
        """The page names the keys of dap-rewind.el."""
        table = self.read("docs/EDITOR.md").partition("## Keys in Emacs")[2]
        named = [key for it in re.findall(r"(?m)^\| (`.*?) \|", table) for key in re.findall("`(.)`", it)]
        bound = re.findall(r'\("(.)" \. [\w-]+\)', self.read("editors/emacs/dap-rewind.el"))
        self.same("keys", sorted(named), sorted(bound))

    def test_manifest(self):
        """The manifest for VS Code starts the adapter, and has the attributes that 'launch' takes."""
        (debugger,) = json.loads(self.read("editors/vscode/package.json"))["contributes"]["debuggers"]
        path = os.path.normpath(f"{TOP}/editors/vscode/{debugger['program']}")
        self.same("the adapter", (path, os.access(path, os.X_OK)), (*COMMAND, True))
        given = debugger["configurationAttributes"]["launch"]["properties"]
        self.same("attributes", {*given}, {"program", "processors", "stopOnEntry", "stepsFile"})
        self.holds("in the page", all(f"`{it}`" in self.read("docs/EDITOR.md") for it in given))


class AtPort(testing.Case):
    def test_port(self):
        """One editor after another is served, and nobody else."""
        served = subprocess.Popen([*COMMAND, "--port", "0"], stdout=-1, text=True)
        self.addCleanup(served.stdout.close)
        self.addCleanup(served.wait)
        self.addCleanup(served.kill)
        address = served.stdout.readline().split()[-1].split(":")
        self.same("this machine", address[0], "127.0.0.1")
        for number in range(2):
            with socket.create_connection((address[0], int(address[1])), SECONDS) as it:
                it.sendall(frame(request(1, "initialize", {})) + frame(request(2, "disconnect", {})))
                text = b""
                with contextlib.suppress(TimeoutError):
                    while data := it.recv(1 << 16):
                        text += data
            self.same(f"editor {number}", text.count(b'"success":true'), 2)
        other = "import socket,sys; it = socket.create_connection(('127.0.0.1', int(sys.argv[1])), 60);"
        other += " it.sendall(b'Content-Length: 0'); sys.stdout.buffer.write(it.recv(9))"
        if os.geteuid() == 0 and shutil.which("setpriv"):
            changed = ["setpriv", "--reuid=65534", "--regid=65534", "--clear-groups"]
            command = [*changed, "python3", "-c", other, address[1]]
            ran = subprocess.run(command, capture_output=True, timeout=SECONDS)
            self.same("another user", ran.stdout, b"")

    def test_words(self):
        for words, why in (
            (["--port", "70000"], "port 70000 is not between 0 and 65535"),
            (["--port", "x"], "invalid int value"),
            (["x"], "unrecognized arguments"),
        ):
            ran = subprocess.run([*COMMAND, *words], capture_output=True, text=True, timeout=SECONDS)
            self.holds(why, why in ran.stderr and ran.returncode, ran.stderr)
