"""The protocol: a talk from beginning to end, each request in each state, frames that are broken, arguments
that are wrong, and what ends a session."""
import os
import signal
import subprocess
import time

from dap_tests.talking import COMMAND, REFUSED, STUCK, Client, frame, frames_of, request, script_file, short
from rewind_tools import testing
from rewind_tools.dap.adapter import WHY_NOT
from rewind_tools.dap.framing import LARGEST
from rewind_tools.dap.requests import ENDED, HANDLERS, LAUNCHED, NEW, READY, RUNNING, STOPPED
from rewind_tools.testing import ROUND, SECONDS, TOP, is_alive, programs_of

FEED = '{"do":"feed","p":0,"vertex":"a","values":[1],"next":"next"}'
# A talk: each request with the messages that follow, up to its response or to the stop after it.
THREAD = {"threadId": 1}
TALK = [
    ("initialize", {"adapterID": "rewind"}, ["initialize: done"]),
    ("launch", {"program": STUCK, "processors": 2}, ["launch: done"]),
    ("setFunctionBreakpoints", {"breakpoints": [{"name": "passed 0 out 0"}, {"name": "view 0 words 0 1"}]},
        ["initialized", "setFunctionBreakpoints: done"]),
    ("configurationDone", {}, ["configurationDone: done", f"stderr: {REFUSED.format(7)}",
        f"stopped in 1, exception: {REFUSED.format(7)}"]),
    ("next", THREAD,
        ["next: done", "stdout: step 12: processor 1 feeds nothing into words and goes on to the next "
            "epoch\n  processor 1's token of words goes from epoch 0 to 1\n  unsent on processor 1 at words "
            "(0): from 0 to -1\n  unsent on processor 1 at words (1): from 0 to 1", "stopped in 1, step: "]),
    ("continue", THREAD, ["continue: done", f"stderr: {REFUSED.format(11)}",
        f"stopped in 1, exception: {REFUSED.format(11)}"]),
    ("continue", THREAD,
        ["continue: done", "stdout: 11 lines executed, 2 of them refused; 11 queries left out",
            "stdout: the script is executed", "stopped in 1, entry: the script is executed"]),
    ("continue", THREAD, ["continue: done", "stdout: processor 0 has passed out (0): holds from here on",
        "stopped in 1, function breakpoint: processor 0 has passed out (0): holds from here on, hit [1]"]),
    ("stepBack", THREAD, ["stepBack: done", "stopped in 1, step: "]),
    ("reverseContinue", THREAD, ["reverseContinue: done",
        "stdout: processor 0's view has at least 1 at words (0): ceases to hold from here on",
        "stopped in 1, function breakpoint: processor 0's view has at least 1 at words (0): ceases to hold "
        "from here on, hit [2]"]),
    ("stepOut", THREAD, ["stepOut: done", "stdout: the end of the kept steps",
        "stopped in 1, step: the end of the kept steps"]),
    ("next", THREAD, ["next: done", "stderr: nothing is enabled: only a feed, a send or a release is left",
        "stopped in 1, idle: nothing is enabled: only a feed, a send or a release is left"]),
    ("restart", {},
        ["restart: done", f"stderr: {REFUSED.format(7)}", f"stopped in 1, exception: {REFUSED.format(7)}"]),
    ("terminate", {}, ["terminate: done", "exited 0", "terminated"]),
    ("disconnect", {}, ["disconnect: done"]),
]  # fmt: skip
BEGUN = frame(request(1, "initialize", {}))
# What is read, and what is said of it; the status of the adapter is 1 if the session ends with it.
BROKEN = {
    "no number": (b"Content-Length: x\r\n\r\n{}", "Content-Length is not a number"),
    "a negative number": (b"Content-Length: -5\r\n\r\n{}", "Content-Length is not a number"),
    "a long number": (b"Content-Length: %s\r\n\r\n" % (b"9" * 900), "Content-Length is not a number"),
    "a huge length": (b"Content-Length: %d\r\n\r\n{}" % (LARGEST + 1), f"a message has {LARGEST + 1} bytes"),
    "no length": (b"Content-Type: x\r\n\r\n{}", "a message has no Content-Length"),
    "no header": (b"\r\n{}", "a message has no Content-Length"),
    "half a frame": (b"Content-Length: 50\r\n\r\n{", "the input ends after 1 of 50 bytes"),
    "half a header": (b"Content-Length: 5", "the input ends within a header"),
    "half of two headers": (b"Content-Length: 5\r\n", "the input ends within a header"),
    "a long header": (b"Content-Length: " + b"1" * 2000, "a header has more than 1024 bytes"),
    "a page": (b"POST / HTTP/1.1\r\nHost: x\r\nContent-Length: 2\r\n\r\n{}", "a header is neither"),
    "no frame": (b"{}\r\n{}\r\n", "a header is neither"),
}
LEFT_OUT = {
    "no JSON": (b"{", "a message is not JSON"),
    "no text": (b"\xff\xfe", "a message is not JSON"),
    "nothing": (b"", "a message is not JSON"),
    "deep": (b"[" * 100_000, "a message is not JSON"),
    "a list": (b"[]", "a message is not a request"),
    "a response": (b'{"type":"response","seq":1}', "a message is not a request"),
    "no command": (b'{"type":"request","seq":1}', "a request has no number or no command"),
    "no number": (b'{"type":"request","command":"threads"}', "a request has no number or no command"),
    "a number of another kind":
        (b'{"type":"request","command":"threads","seq":true}', "a request has no number or no command"),
}  # fmt: skip
WRONG = [[], 5, "x", {}, {"threadId": "x"}, {"threadId": 0}, {"threadId": 99}, {"threadId": 10**30}]
WRONG += [{"frameId": [], "variablesReference": "x", "breakpoints": 5, "source": 5, "expression": 5}]
WRONG += [{"breakpoints": [5], "source": {"path": 5}, "filters": 5, "lines": "x", "targetId": "x"}]
WRONG += [{"breakpoints": [{"line": "x", "name": 5, "dataId": 5}], "source": {"sourceReference": 1}}]
WRONG += [{"source": {"path": "/nowhere"}, "line": -5, "text": 5, "column": -5, "filters": ["x"]}]
WRONG += [{"threadId": 1, "frameId": 1, "text": "", "column": {}, "name": "words", "expression": "'"}]
WRONG += [{"variablesReference": -1, "frameId": 1001, "expression": "{", "context": "watch", "name": ""}]
LAUNCHES = {
    "launch needs 'program'": {},
    "'processors' is a number from 1 to 64": {"program": STUCK, "processors": 65},
    "'processors' is a number": {"program": STUCK, "processors": True},
    "/nowhere: No such file or directory": {"program": "/nowhere"},
    "Is a directory": {"program": "/"},
    "'stepsFile' is the path of a file": {"program": STUCK, "stepsFile": 5},
}


class Talk(testing.Case):
    def test_talk(self):
        """A session from beginning to end."""
        with Client() as client:
            for number, (command, arguments, wanted) in enumerate(TALK):
                begun = len(client.said)
                client.send(command, **arguments)
                while len(client.said) < begun + len(wanted) and client.next():
                    pass
                self.same(f"{number} {command}", client.said[begun:], wanted)
            self.same("the end", client.status(), 0)

    def test_numbers(self):
        """Each message has its own number, and each request one response."""
        text = b"".join(frame(request(it, "threads")) for it in (5, 3, 3))
        ran = subprocess.run(COMMAND, input=BEGUN + text, capture_output=True, timeout=SECONDS)
        said = frames_of(ran.stdout)
        self.same("numbers", [it["seq"] for it in said], [1, 2, 3, 4])
        self.same("requests", [it["request_seq"] for it in said], [1, 5, 3, 3])


class States(testing.Case):
    """Each request in each state in which it may not come."""

    def refused_in(self, state, client):
        for command, (states, _) in HANDLERS.items():
            if state not in states:
                response = client.ask(command)
                wanted = f"{command} cannot come now: {WHY_NOT[state]}"
                self.same(f"{command}, {state}", (response["success"], response["message"]), (False, wanted))
        unknown = client.ask("disassemble")
        self.same(f"unknown, {state}", unknown["message"], "there is no request disassemble")

    def test_in_each_state(self):
        with Client() as client:
            self.refused_in(NEW, client)
            client.body("initialize")
            self.refused_in(READY, client)
            self.same("attach", client.ask("attach")["success"], False)
            client.body("launch", program=STUCK, processors=2)
            self.refused_in(LAUNCHED, client)
            client.stop("configurationDone")
            self.refused_in(STOPPED, client)
            self.same("still there", client.at(), 11)
            client.body("terminate")
            client.until("terminated")
            self.refused_in(ENDED, client)
            client.body("disconnect")
            self.same("the end", client.status(), 0)

    def test_while_it_runs(self):
        """A run that would not end: it says its threads, takes breakpoints, and can be paused."""
        with Client() as client:
            client.launch(script_file(self.addCleanup, [ROUND, FEED]), 1)
            client.body("continue", threadId=1)
            self.refused_in(RUNNING, client)
            self.same("threads", len(client.body("threads")["threads"]), 1)
            self.same("paused", client.stop("pause", threadId=1), "stopped in 1, pause: ")
            self.same("paused already", client.ask("pause", threadId=1)["success"], True)
            client.body("continue", threadId=1)
            client.body("disconnect")
            self.same("the end", client.status(), 0)

    def test_breakpoint_while_it_runs(self):
        """A breakpoint that is set in a run stops it. In the graph a record's loop counter grows with each
        third step."""
        with Client() as client:
            client.launch(script_file(self.addCleanup, [ROUND, FEED]), 1)
            client.body("continue", threadId=1)
            client.stop("pause", threadId=1)
            ahead = client.at() // 3 + 3000
            client.body("continue", threadId=1)
            said = client.body(
                "setFunctionBreakpoints", breakpoints=[{"name": f"count again-next 0,{ahead} 1"}]
            )
            self.same("set", said["breakpoints"][0]["verified"], True)
            self.holds("stopped", "function breakpoint" in short(client.until("stopped")))

    def test_after_the_end(self):
        """Nothing is answered after 'disconnect'."""
        text = BEGUN + frame(request(2, "disconnect", {})) + frame(request(3, "threads"))
        ran = subprocess.run(COMMAND, input=text, capture_output=True, timeout=SECONDS)
        said = [short(it) for it in frames_of(ran.stdout)]
        self.assertEqual((ran.returncode, said), (0, ["initialize: done", "disconnect: done"]))


class Frames(testing.Case):
    def test_broken(self):
        """After a frame that is broken the session ends, and says why."""
        for name, (text, why) in BROKEN.items():
            ran = subprocess.run(COMMAND, input=BEGUN + text, capture_output=True, timeout=SECONDS)
            said = [short(it) for it in frames_of(ran.stdout)]
            self.same(name, (ran.returncode, len(said), ran.stderr), (1, 2, b""))
            self.holds(f"{name}: why", said[-1].startswith(f"stderr: {why}"), said)

    def test_left_out(self):
        """A message that is not a request is left out."""
        for name, (body, why) in LEFT_OUT.items():
            text = BEGUN + frame(body) + frame(request(2, "disconnect", {}))
            ran = subprocess.run(COMMAND, input=text, capture_output=True, timeout=SECONDS)
            said = [short(it) for it in frames_of(ran.stdout)]
            wanted = ["initialize: done", f"stderr: {why}, and is left out", "disconnect: done"]
            self.same(name, (ran.returncode, said), (0, wanted))

    def test_in_pieces(self):
        """A frame may come byte by byte."""
        with Client() as client:
            for it in BEGUN:
                client.write(bytes([it]))
            self.assertEqual(short(client.next()), "initialize: done")

    def test_nothing(self):
        ran = subprocess.run(COMMAND, input=b"", capture_output=True, timeout=SECONDS)
        self.assertEqual((ran.returncode, ran.stdout, ran.stderr), (0, b"", b""))


class Arguments(testing.Case):
    def test_wrong(self):
        """Wrong arguments are refused or ignored: each request has its one response, and the session goes
        on."""
        with Client() as client:
            client.launch()
            for command, (states, _) in HANDLERS.items():
                if STOPPED not in states or command in ("restart", "terminate", "disconnect"):
                    continue
                for arguments in WRONG:
                    client.number += 1
                    client.write(frame(request(client.number, command, arguments)))
                    while (message := client.next()) and message.get("request_seq") != client.number:
                        pass
                    self.holds(f"{command} {arguments}", message and message["command"] == command)
                    if message["success"] and command in ("continue", "reverseContinue"):
                        client.until("stopped")
            self.holds("still there", client.variables()["View"])

    def test_launch(self):
        for why, arguments in LAUNCHES.items():
            with Client() as client:
                client.body("initialize")
                said = client.ask("launch", **arguments)["message"]
                self.holds(why, why in said, said)
                self.same(f"{why}: again", client.ask("launch", program=STUCK)["success"], True)

    def test_no_graph(self):
        for lines, why in (
            ([], "there is no graph in it"),
            (['{"vertices":[{"name":"a","op":"fly","depth":0}],"edges":[]}'], "the graph is refused"),
            (["words(fly) --> out(sink)", ""], "fly"),
        ):
            with Client() as client:
                client.body("initialize")
                said = client.ask("launch", program=script_file(self.addCleanup, lines))["message"]
                self.holds(why, why in said, said)

    def test_from_zero(self):
        """An editor may count lines and columns from 0."""
        with Client() as client:
            client.body("initialize", linesStartAt1=False, columnsStartAt1=False)
            client.body("launch", program=STUCK, processors=2)
            client.stop("configurationDone")
            script, steps = client.body("stackTrace", threadId=1)["stackFrames"]
            got = [(it["line"], it["column"]) for it in (script, steps)]
            self.same("frames", got, [(6, 0), (11, 0)])
            found = client.body("completions", text="why 0 o", column=7)["targets"]
            self.same("completions", found, [{"label": "out", "start": 6, "length": 1}])


class Ends(testing.Case):
    """What ends a session besides the editor's wish."""

    def judge_killed(self, client, after):
        wanted = ["stderr: the program ended by signal 9", "exited 1", "terminated"]
        client.until("terminated")
        # where the kept steps are is said only if a quick program has executed some
        said = [it for it in client.said if "the kept steps are in" not in it]
        self.same(f"killed {after}", said[-3:], wanted)
        self.same(f"killed {after}: threads", client.ask("threads")["success"], False)
        self.holds(f"killed {after}: restarted", client.stop("restart").startswith("stopped"))

    def test_killed_program(self):
        with Client() as client:
            client.launch()
            os.kill(client.program(), signal.SIGKILL)
            response = client.ask("scopes", frameId=1)
            if response["success"]:
                response = client.ask("variables", variablesReference=1)
            self.same("said", response["message"], "the program ended by signal 9")
            self.judge_killed(client, "at a stop")

    def test_script_gone(self):
        """A session whose script has gone cannot begin anew, until the script is there again."""
        path = script_file(self.addCleanup, [ROUND])
        with Client() as client:
            client.launch(path, 1)
            os.rename(path, f"{path}-away")
            self.same("gone", client.ask("restart")["message"], f"{path}: No such file or directory")
            said = client.ask("threads")["message"]
            self.same("ended", said, f"threads cannot come now: {WHY_NOT[ENDED]}")
            os.rename(f"{path}-away", path)
            self.same("there", client.stop("restart"), "stopped in 1, entry: the script is executed")

    def test_killed_in_a_typed_run(self):
        with Client() as client:
            client.launch(script_file(self.addCleanup, [ROUND, FEED]), 1)
            client.send("evaluate", expression="run 900000", context="repl")
            # soon enough that a quick program still runs
            time.sleep(0.1)
            os.kill(client.program(), signal.SIGKILL)
            self.judge_killed(client, "in a typed run")

    def test_paused_in_a_typed_run(self):
        """'pause' stops a run that was typed."""
        with Client() as client:
            client.launch(script_file(self.addCleanup, [ROUND, FEED]), 1)
            client.send("evaluate", expression="run 900000", context="repl")
            client.send("pause", threadId=1)
            client.until("stopped")
            self.holds("before its end", client.at() < 900_001, client.at())

    def test_killed_in_a_run(self):
        with Client() as client:
            client.launch(script_file(self.addCleanup, [ROUND, FEED]), 1)
            client.body("continue", threadId=1)
            time.sleep(0.1)
            os.kill(client.program(), signal.SIGKILL)
            self.judge_killed(client, "in a run")

    def test_the_editor_has_gone(self):
        """If its input ends, the adapter ends, and with it the program; also in a run."""
        for runs in (False, True):
            with Client() as client:
                client.launch(script_file(self.addCleanup, [ROUND, FEED]), 1)
                program = client.program()
                if runs:
                    client.body("continue", threadId=1)
                client.process.stdin.close()
                self.same(f"the end, {runs}", client.status(), 0)
                self.holds(f"no program, {runs}", not os.path.exists(f"/proc/{program}"))

    def test_cancelled(self):
        """A question that takes long ends at once: by 'cancel', 'pause' and whatever ends the session."""
        path = f"{TOP}/examples/loop-by-lot.jsonl"
        for how in ("cancel", "cancel all", "pause", "disconnect", "the end"):
            with Client() as client:
                client.launch(path, 1)
                client.typed("run 3")
                question = {"expression": "reach passed 0 z 0 limit 1000000", "context": "repl"}
                number = client.send("evaluate", **question)
                client.send("cancel", requestId=number + 99)
                time.sleep(1)
                programs, begun = programs_of(client.process.pid), time.monotonic()
                self.same(f"{how}: not by another's cancel", len(programs), 2)
                if how == "the end":
                    client.process.stdin.close()
                else:
                    client.send(how.split()[0], **({"requestId": number} if how == "cancel" else {}))
                while (message := client.next()) and message.get("request_seq") != number:
                    pass
                self.same(f"{how}: answer", short(message), "evaluate: cancelled")
                self.holds(f"{how}: at once", time.monotonic() - begun < 2)
                if how in ("disconnect", "the end"):
                    self.same(f"{how}: status", client.status(), 0)
                    self.same(f"{how}: no program", [*filter(is_alive, programs)], [])
                    said = [it for it in client.said if "the kept steps are in" in it]
                    self.same(f"{how}: the steps", len(said), 1)
                else:
                    self.same(f"{how}: then", client.answer("where"), "position 404 of 404")

    def test_killed_adapter(self):
        """An adapter that is killed leaves no program, and the next one says where the steps are."""
        with Client() as client:
            client.launch()
            client.typed("jump 25")
            client.typed("feed 1 words 7 next")
            client.until("stopped")
            programs = programs_of(client.process.pid)
            client.process.kill()
            client.process.wait()
            self.same("no program", [*filter(is_alive, programs)], [])
        with Client() as client:
            client.launch()
            (said,) = [it for it in client.said if "a session that was killed left steps" in it]
            client.body("restart", arguments={"program": said.split()[-3], "processors": 2})
            client.until("stopped")
            self.same("the steps", client.answer("where"), "position 26 of 26")

    def test_no_program(self):
        with Client(REWIND_PROGRAM="/nowhere") as client:
            client.body("initialize")
            said = client.ask("launch", program=STUCK)["message"]
            self.assertEqual(said, "the program does not start: No such file or directory")
