"""How the tests of the tools run: unittest, with a last line that ./check reads, and a terminal to type at.

    class Cases(testing.Case): ..
    testing.run("repl")      usage: tools/test_repl [CASE ..], as Cases.test_steps; all if none is named

Each test counts once, and so does each of its subtests. The program is what REWIND_PROGRAM names in the
environment, or else the one that is proved and built: so this module is imported before the others."""
import argparse
import contextlib
import fcntl
import json
import os
import pty
import re
import select
import signal
import subprocess
import sys
import tempfile
import termios
import time
import unittest

# The flag of tests of a program that is built without proofs, for what the gate/ leaves out then.
UNPROVED = ("--unproved", "leave out what only the proved program can be asked")
ONLY_PROVED = unittest.skipIf(UNPROVED[0] in sys.argv, "only the proved program can be asked")
TOOLS = os.path.dirname(os.path.dirname(os.path.realpath(__file__)))
TOP = os.path.dirname(TOOLS)
BUILT = os.path.join(TOP, "crates", "rewind_cli", "out", "rewind_cli")
# Before rewind_tools.runs is imported, which looks at it.
PROGRAM = os.environ.setdefault("REWIND_PROGRAM", BUILT)
# Where the tools keep files of sessions, in place of the person's own folder.
STATE = tempfile.TemporaryDirectory(prefix="rewind-state-")
os.environ["XDG_STATE_HOME"] = STATE.name
from rewind_tools import graph_text
# A signal that is ignored, as in the background, would be ignored by what a test starts, too; one that has a
# handler is not.
for number in (signal.SIGINT, signal.SIGHUP):
    if signal.getsignal(number) == signal.SIG_IGN:
        signal.signal(number, lambda *_: None)
SECONDS, CTRL_C = 60, "\x03"


def graph_line(*paths):
    """The line of a graph that is written as paths."""
    return json.dumps(graph_text.read(paths), separators=(",", ":"))


# A graph from an input to a sink, and one on which a record of input a goes round a loop for ever.
LINE = graph_line("a(input) --[az]--> z(sink)")
ROUND = graph_line("a(input) --> in(ingress) --> again(below k=9) --> next(feedback) --> again")


class Counting(unittest.TestResult):
    """The tests that have passed, and what failed."""

    def __init__(self):
        super().__init__()
        self.passed = 0

    def addSuccess(self, test):
        self.passed += 1

    def addSubTest(self, test, subtest, error):
        super().addSubTest(test, subtest, error)
        self.passed += error is None


class Case(unittest.TestCase):
    """A test of several things, each of which counts."""

    def same(self, name, got, wanted):
        with self.subTest(name):
            self.assertEqual(got, wanted)

    def holds(self, name, is_right, got=""):
        with self.subTest(name):
            self.assertTrue(is_right, got)


def run(name, needs_program=True, flags=()):
    """Runs the tests of the main module, and ends with what was counted. Flags are words that the module
    itself looks for, each with its help."""
    main, loader, result = sys.modules["__main__"], unittest.defaultTestLoader, Counting()
    words = argparse.ArgumentParser(
        description=main.__doc__, formatter_class=argparse.RawDescriptionHelpFormatter
    )
    words.add_argument("cases", nargs="*", metavar="CASE", help="a class of tests, or one as Class.test_it")
    for flag, said in flags:
        words.add_argument(flag, action="store_true", help=said)
    cases = words.parse_args().cases
    if needs_program and not os.path.exists(PROGRAM):
        print(f"{name}: the program is not built; './rewind --prove' proves and builds it")
        print(f"{name}: 0 passed, 1 failed")
        sys.exit(1)
    # (a shell has commands in the background ignore Ctrl-C, as ./check runs these, and what they start, too)
    signal.signal(signal.SIGINT, signal.default_int_handler)
    suite = loader.loadTestsFromNames(cases, main) if cases else loader.loadTestsFromModule(main)
    suite.run(result)
    failed = result.failures + result.errors
    for test, why in result.skipped:
        print(f"{name}/{test}: left out, {why}")
    for test, trace in failed:
        print(f"{name}/{test}: {trace[-3000:]}")
    print(f"{name}: {result.passed} passed, {len(failed)} failed")
    sys.exit(1 if failed else 0)


def ended(command, stdin=b"", seconds=300, **how):
    """How a command ended, which reads bytes or an open file: its status, and what it wrote to standard
    output and error; or what kept it from an end."""
    with tempfile.TemporaryFile() as file:
        if isinstance(stdin, bytes):
            file.write(stdin)
            file.seek(0)
        how = {"stdin": file if isinstance(stdin, bytes) else stdin, "timeout": seconds, **how}
        try:
            ran = subprocess.run(command, **{"stdout": subprocess.PIPE, "stderr": subprocess.PIPE, **how})
        except (subprocess.SubprocessError, OSError) as none:
            return type(none).__name__, b"", b""
    return ran.returncode, ran.stdout, ran.stderr


def program(*words, **how):
    """How the program ended."""
    return ended(["rewind", *words], executable=PROGRAM, **how)


def put_program(room, text, end=f"exec -a rewind '{PROGRAM}' \"$@\""):
    """Writes a program of bash to a folder, at whose end it is the program that is tested; returns its
    path."""
    path = os.path.join(room, "program")
    with open(path, "w", encoding="utf-8") as it:
        it.write(f"#!/bin/bash\n{text}\n{end}\n")
    os.chmod(path, 0o755)
    return path


def programs_of(pid):
    """The numbers of the programs that a tool has started, the first one first."""
    found = []
    for it in os.listdir(f"/proc/{pid}/task"):
        # a thread may have ended since
        with contextlib.suppress(FileNotFoundError):
            with open(f"/proc/{pid}/task/{it}/children", encoding="ascii") as children:
                found += map(int, children.read().split())
    return sorted(found)


def is_alive(pid):
    """Whether a process is there, at the latest a moment after it was ended."""
    for _ in range(50):
        if not os.path.exists(f"/proc/{pid}"):
            return False
        time.sleep(0.1)
    return True


def open_terminal():
    """Both ends of a terminal; a test is skipped where none can be had."""
    try:
        return pty.openpty()
    except OSError as none:
        raise unittest.SkipTest(f"there is no terminal: {none}") from none


class Terminal:
    """A command at a terminal, at which somebody types."""

    def __init__(self, command, home, **environment):
        self.reader, writer = open_terminal()
        self.process = subprocess.Popen(
            command,
            **{"stdin": writer, "stdout": writer, "stderr": writer, "start_new_session": True},
            env={**os.environ, "HOME": home, "TERM": "dumb", **environment},
            # so that Ctrl-C, as a key, interrupts the command
            preexec_fn=lambda: fcntl.ioctl(0, termios.TIOCSCTTY, 0),
        )
        os.close(writer)
        self.text = self.rest = ""

    def read(self):
        """Reads what is shown, for at most a while; false if the terminal has ended."""
        if select.select([self.reader], [], [], 0.1)[0]:
            try:
                self.text += os.read(self.reader, 1 << 16).decode(errors="replace").replace("\r\n", "\n")
            except OSError:
                return False
        return True

    def types(self, text, until, after=r".*\d+/\d+> $"):
        """Types a text, and waits until the terminal shows another, and the prompt after it: what is shown
        since the text was typed; None if that does not come. A key that is pressed before the prompt is
        there may be lost. So Ctrl-C is pressed a moment after what is shown: Python may lose one that comes
        between a question and the reading of its answer."""
        if text == CTRL_C:
            time.sleep(0.3)
        begun, end = len(self.text), time.monotonic() + SECONDS
        shown = re.compile(re.escape(until) + after, re.DOTALL)
        os.write(self.reader, text.encode())
        while not shown.search(self.text, begun) and time.monotonic() < end and self.read():
            pass
        return self.text[begun:] if shown.search(self.text, begun) else None

    def ends(self):
        """Reads what is left, for which the terminal waits: the status of what has ended, None if it has
        not."""
        end = time.monotonic() + SECONDS
        while self.process.poll() is None and time.monotonic() < end:
            self.read()
        if self.process.poll() is None:
            self.process.kill()
            return None
        while self.read() and select.select([self.reader], [], [], 0)[0]:
            pass
        os.close(self.reader)
        return self.process.wait()
