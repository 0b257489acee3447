"""The script that a session begins with, line by line: it stops at a line that is refused, and before a line
that has a breakpoint. After a stop the other lines wait, at the position that the script has reached; they
are left out if something else changes the kept steps."""
from rewind_tools import opening
from rewind_tools.telling.commands import counted, plain


class Scripted:
    """A script's lines, of which `done` are executed. `shown` is the line at which it stands, and `fault`
    the refusal of that line, if it was refused."""

    def __init__(self, console, script, path):
        self.console, self.script, self.path = console, script, path
        self.done = self.refused = self.changes = 0
        self.shown = self.fault = self.place = None
        self.breaks, self.stops_at_refused = set(), True

    @property
    def left(self):
        return len(self.script.lines) - self.done

    def is_shown(self):
        """Whether the session stands at the line that is shown."""
        return bool(self.shown) and self.place in (None, self.here())

    def is_here(self):
        """Whether the script's next line comes next: lines are left, and the session is where they began."""
        return bool(self.left) and self.place in (None, self.here())

    def here(self):
        return self.console.at, self.console.kept

    def end(self):
        """The position that a move forward among the kept steps does not pass: there the script goes on."""
        if self.left and self.place and self.console.at < self.place[0]:
            return self.place[0]
        return self.console.kept

    def is_lost(self):
        """Whether lines are left, but other steps are kept than those that the script has led to."""
        return bool(self.left) and self.console.journal.changes != self.changes

    def leave(self):
        """Leaves out the lines that are left: what is said of that."""
        left, first = self.left, self.script.lines[self.done].number
        self.done, self.shown, self.fault = len(self.script.lines), None, None
        lines = f"{counted(left, 'line')} of the script, from line {first} on"
        return f"other steps are kept now than the script has led to: {lines}, are left out"

    def line(self):
        """Executes the next line; true if it stops there, since it was refused."""
        line, journal = self.script.lines[self.done], self.console.journal
        if opening.is_long(line):
            reply = journal.run(line.value, True)[0]
        else:
            reply = journal.session.ask_texts([line.text])[0]
            journal.keep(line.value, reply, True, line)
        entry = opening.Executed(line, reply)
        if reply.get("stop") == "interrupt":
            left = {**line.value, "limit": line.value["limit"] - reply["ran"]}
            self.script.lines[self.done] = line._replace(value=left)
        else:
            self.done += 1
        self.console.keep_breaks(line.value, reply)
        self.refused += "error" in reply
        self.shown = self.fault = None
        if "error" in reply and self.stops_at_refused:
            why = plain(opening.refusal(entry, self.console.teller))
            self.shown, self.fault = line, (reply["error"], why)
        self.place, self.changes = self.here(), journal.changes
        self.console.progress.report(f"line {line.number} of {self.script.lines[-1].number}")
        return self.fault is not None

    def stops_before(self):
        """Whether the next line has a breakpoint; it is then the line that is shown."""
        if self.left and self.script.lines[self.done].number in self.breaks:
            self.shown, self.fault = self.script.lines[self.done], None
            return True
        return False

    def show_next(self):
        """Shows the next line, after one that was executed alone."""
        if self.left and not self.fault:
            self.shown = self.script.lines[self.done]

    def frame_words(self):
        """What is said of the line that is shown."""
        return f"line {self.shown.number} of the script, {'refused' if self.fault else 'not executed yet'}"

    def words(self):
        """What is said of the script after its last line."""
        count = self.script.queries
        left_out = f"; {count} quer{'y' if count == 1 else 'ies'} left out" if count else ""
        return f"{counted(self.done, 'line')} executed, {self.refused} of them refused{left_out}"
