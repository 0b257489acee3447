"""How the cursor moves: the script first, then forwards and backwards among the kept steps, and by new steps
at their end.

A long move is a generator: it yields after each piece, so that the editor may pause it, and returns the
Stop."""
import time
from typing import NamedTuple

from rewind_tools.dap.breakpoints import PIECE, Breakpoints
from rewind_tools.dap.requests import Refused
from rewind_tools.telling.commands import plain

# How many steps of a run are executed at once, and for how many seconds lines of the script are.
RUN_PIECE, SECONDS = 1000, 0.05
LAST_POSITION = 1_000_000


class Stop(NamedTuple):
    """Why the session stands still: the reason, as the protocol names it, its words, and the numbers of the
    breakpoints that were hit."""

    reason: str
    words: str = ""
    numbers: tuple = ()


def at_hit(hit):
    return Stop(hit.reason, hit.words, () if hit.number is None else (hit.number,))


class Moving:
    """The moves of a session. `say` is told what the script has come to."""

    def __init__(self, console, scripted, say):
        self.console, self.scripted, self.say = console, scripted, say
        self.breakpoints = Breakpoints(console)

    def jump(self, position):
        self.command({"do": "jump", "to": position})

    def command(self, line):
        """Executes a command that moves the cursor among the kept steps."""
        reply = self.console.asked(line)
        if "error" in reply:
            raise Refused("; ".join(map(plain, self.console.answer(line, reply))))

    # ---- the script

    def script(self, is_entry):
        """Executes the lines of the script that are left. At its end the session stops, if it is entered
        so."""
        begun, is_first = time.monotonic(), True
        while self.scripted.left:
            if not is_first and self.scripted.stops_before():
                return Stop("breakpoint", f"line {self.scripted.shown.number} of the script")
            if self.scripted.line():
                return Stop("exception", self.scripted.fault[1])
            is_first = False
            if time.monotonic() - begun > SECONDS:
                yield
                begun = time.monotonic()
        self.end_script()
        return Stop("entry", "the script is executed") if is_entry else (yield from self.forward())

    def begin(self, is_entry):
        """Executes the script from its first line on."""
        if self.scripted.stops_before():
            return Stop("breakpoint", f"line {self.scripted.shown.number} of the script")
        return (yield from self.script(is_entry))

    def script_line(self):
        """Executes one line of the script."""
        if self.scripted.line():
            return Stop("exception", self.scripted.fault[1])
        self.scripted.show_next()
        if not self.scripted.left:
            self.end_script()
        return Stop("step")

    def end_script(self):
        """Says how many lines were executed; from then on breakpoints are in the program, too."""
        self.scripted.shown = None
        self.say(self.scripted.words())
        self.breakpoints.enter_program()

    def leave_script(self):
        """Leaves out the script's lines, if other steps are kept now than those that it has led to."""
        if self.scripted.is_lost():
            self.say(self.scripted.leave())
            self.breakpoints.enter_program()

    # ---- one step

    def one(self, only=None):
        """The next line of the script, or the next kept step, or a new one of the processors listed."""
        if self.scripted.is_here():
            return self.script_line()
        if self.console.at < self.console.kept:
            self.command({"do": "redo"})
            return Stop("step")
        line = {"do": "run", "limit": 1, **({} if only is None else {"only": only})}
        reply = self.console.asked(line)
        return Stop("step") if reply.get("ran") else self.told(line, reply)

    def told(self, line, reply):
        """The stop of a run that went no further."""
        if reply.get("stop") == "idle":
            return Stop("idle", self.idle_words(line))
        return Stop("refused", "; ".join(map(plain, self.console.answer(line, reply))))

    def idle_words(self, line):
        alone = f" on processor {line['only'][0]}" if "only" in line else ""
        return f"nothing is enabled{alone}: only a feed, a send or a release is left"

    def back(self):
        self.command({"do": "back"})
        return Stop("step")

    # ---- as far as a breakpoint

    def forward(self, only=None, is_entry=True):
        """Goes forward to a breakpoint, or until nothing is enabled."""
        while True:
            if self.scripted.is_here():
                return (yield from self.script(is_entry))
            if self.console.at < self.console.kept:
                hit = yield from self.among_kept()
            else:
                reply, hit = self.new_steps(only)
                if not hit and (reply.get("stop") == "idle" or "error" in reply):
                    return self.told({"do": "run", "limit": 1, **({"only": only} if only else {})}, reply)
            if hit:
                return at_hit(hit)
            yield

    def among_kept(self):
        """Goes on to the first breakpoint among the kept steps, or to their end."""
        lo, end = self.console.at, self.scripted.end()
        while lo < end:
            hi = min(end, lo + max(PIECE, lo - self.console.at))
            hit = self.breakpoints.first_ahead(lo, hi)
            if hit:
                self.jump(hit.position)
                return hit
            lo = hi
            if lo < end:
                yield
        self.jump(end)
        return None

    def new_steps(self, only):
        """Executes some new steps."""
        room = LAST_POSITION - self.console.at
        return self.breakpoints.run(min(RUN_PIECE, max(room, 1)), only)

    def backward(self):
        """Goes back to the last breakpoint before the cursor, or to the start."""
        hi = self.console.at - 1
        while hi > 0:
            lo = max(0, hi - PIECE)
            hit = self.breakpoints.last_behind(lo, hi)
            if hit:
                self.jump(hit.position)
                return at_hit(hit)
            hi = lo
            if hi > 0:
                yield
        self.jump(0)
        return Stop("entry", "the start: no step is executed")

    def to_end(self):
        """Goes to the end of the kept steps."""
        self.jump(self.console.kept)
        return Stop("step", "the end of the kept steps")
