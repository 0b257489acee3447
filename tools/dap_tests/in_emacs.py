"""A session in Emacs, as docs/EDITOR.md has it: what its windows show, and the transcript of messages."""
import functools
import os
import pathlib
import re
import shutil
import subprocess
import tempfile
import unittest

from dap_tests.talking import COMMAND, REFUSED, STUCK, frames_of, short
from rewind_tools import testing
from rewind_tools.testing import TOP

ELISP, SESSION = f"{TOP}/editors/emacs/dap-rewind.el", f"{os.path.dirname(__file__)}/session.el"
# An adapter that writes what it is asked and what it says to files beside it, and ends with it.
ADAPTER = """#!/bin/sh
mkfifo "$0.pipe"
exec 3<&0
tee "$0.asked" <&3 >"$0.pipe" &
'{}' <"$0.pipe" | tee "$0.said"
kill $!
"""
NOT_YET = "processor 0's view has words (0) strictly before total (0) (10 NotYet)"
SEEN = f"""\
stuck-program.jsonl line 7
Holds
    tokens: words (1)
    requests: total (0)
    kept by vertices: total (0): sum 2
View
    words (0): 1, on the frontier
    words (1): 1
    total (0): 2
Unsent
On its way
Waiting
    runs the notification of total (0): {NOT_YET}
      at rest: no step is left, and this stays: the token of processor 1 at words (0)
      words (0): it still counts 1; held there: the token of processor 1
      in truth: all that is strictly before total (0) is not finished
stops where: processor 0 has passed out (0)
stuck-program.jsonl line 11
stuck-program.rewind line 14
stuck-program.rewind line 26
Holds
    tokens: words (1)
    counted by sinks: out: 2
View
    words (1): 2, on the frontier
Unsent
On its way
Waiting
stuck-program.rewind line 25
it finishes, by any order: 1 step is left
processor 0 does not know that out (0) is finished: it still counts 1 at total (0); nothing is held\
 there; not heard: an update of -1 by processor 1, first in its queue
in truth out (0) is finished: no processor has anything at or before it
cancelled
it finishes, by any order: 1 step is left
processor 0 does not know that total (0) is finished: it still counts 1 at total (0); nothing is held\
 there; not heard: an update of -1 by processor 1, first in its queue
in truth total (0) is finished: no processor has anything at or before it
stuck-program.rewind line 15
stuck-program.rewind line 16
stuck-program.rewind line 4
"""
ASKED = (
    "initialize launch configurationDone exceptionInfo setFunctionBreakpoints setFunctionBreakpoints"
    " dataBreakpointInfo setDataBreakpoints setDataBreakpoints continue exceptionInfo continue continue"
    " stepBack evaluate evaluate cancel evaluate reverseContinue next goto disconnect".split()
)
STOPPED = [
    f"stopped in 1, exception: {REFUSED.format(7)}",
    f"stopped in 1, exception: {REFUSED.format(11)}",
    "stopped in 1, entry: the script is executed",
    "stopped in 1, function breakpoint: processor 0 has passed out (0): holds from here on, hit [2]",
    "stopped in 1, step: ",
    "stopped in 1, function breakpoint: processor 0's view has at least 1 at words (0): ceases to hold from"
    " here on, hit [3]",
    "stopped in 1, step: ",
    "stopped in 1, goto: position 3",
]
# What Emacs asks by itself, as often as it draws.
DRAWN = ("threads", "stackTrace", "scopes", "variables")


@functools.cache
def is_there():
    """Whether there is an Emacs with dap-mode."""
    if not shutil.which("emacs"):
        return False
    command = ["emacs", "--batch", "--eval", "(require 'dap-ui)"]
    return subprocess.run(command, capture_output=True, stdin=subprocess.DEVNULL).returncode == 0


@unittest.skipUnless(is_there(), "there is no Emacs with dap-mode")
class InEmacs(testing.Case):

    def setUp(self):
        room = tempfile.TemporaryDirectory(prefix="rewind-emacs-")
        self.addCleanup(room.cleanup)
        self.room = pathlib.Path(room.name)
        self.adapter = self.room / "adapter"
        self.adapter.write_text(ADAPTER.format(*COMMAND))
        self.adapter.chmod(0o755)

    def messages(self, kind):
        return frames_of((self.room / f"adapter.{kind}").read_bytes())

    def test_session(self):
        names = {"ELISP": ELISP, "ADAPTER": self.adapter, "SCRIPT": STUCK, "SEEN": self.room / "seen"}
        given = {f"REWIND_{name}": str(it) for name, it in names.items()}
        command = ["emacs", "-nw", "-q", "--no-splash", "-l", SESSION]
        there = testing.Terminal(command, str(self.room), TERM="xterm", **given)
        self.assertEqual(there.ends(), 0, there.text[-3000:])
        seen = (self.room / "seen").read_text()
        self.same("seen", plain(seen), plain(SEEN))
        asked = [it["command"] for it in self.messages("asked")]
        self.same("asked", [it for it in asked if it not in DRAWN], ASKED)
        self.holds("drawn", {*DRAWN[1:]} <= {*asked}, asked)
        said = self.messages("said")
        answers = [it for it in said if it["type"] == "response"]
        refused = [short(it) for it in answers if not it["success"]]
        self.same("refused", refused, ["evaluate: cancelled"])
        self.same("answered", [it["command"] for it in answers], asked)
        self.same("stops", [short(it) for it in said if it.get("event") == "stopped"], STOPPED)


def plain(text):
    """The lines without the blanks and triangles before them, and without the root that treemacs hides; the
    list of kept steps without the random part of its name."""
    text = re.sub(r"-\w{6}\.rewind", ".rewind", text)
    lines = [it.strip(" \u25b8\u25be") for it in text.splitlines()]
    return [it for it in lines if it != "Hidden Node"]
