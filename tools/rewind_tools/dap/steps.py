"""The list of kept steps as a source: one step per line, in the words of tools/tell, and a last line for the
end. So line N + 1 is the step after position N. Words are asked for once, when somebody reads the list. A
file can be kept the same as the list, for editors that show only files."""
import os

from rewind_tools.telling.commands import command_words, plain

END = "-- the end of the kept steps"
# How many steps are asked for one by one; more are asked for by all kept steps at once.
FEW = 500


class Steps:
    """The list of a console's kept steps. `reference` is another number after each change."""

    def __init__(self, console, path=None):
        self.console, self.path = console, path
        self.words, self.offsets, self.reference, self.listed = [], [0], 1, 0

    def changed(self):
        """Whether the list has changed since this was asked last. A file is kept the same as it."""
        journal = self.console.journal
        has_changed = journal.same_to < self.listed or journal.kept != self.listed
        del self.words[journal.same_to :]
        journal.same_to = self.listed = journal.kept
        self.reference += has_changed
        if self.path and (has_changed or self.reference == 1):
            self.write()
        return has_changed

    def all(self):
        """The words of all kept steps."""
        begin, end = len(self.words), self.console.kept
        ask = self.console.session.ask_all
        if end - begin > FEW:
            steps = ask([{"do": "export"}])[0]["steps"][begin:]
        else:
            steps = [it["step"] for it in ask([{"do": "step", "to": it + 1} for it in range(begin, end)])]
        self.words += [plain(command_words(it)) for it in steps]
        return self.words

    def text(self):
        return "".join(f"{it}\n" for it in [*self.all(), END])

    def write(self):
        """Writes to the file what it lacks."""
        begin = min(len(self.words), len(self.offsets) - 1)
        del self.offsets[begin + 1 :]
        lines = [f"{it}\n".encode() for it in self.all()[begin:]]
        with open(self.path, "r+b" if begin and os.path.exists(self.path) else "wb") as it:
            it.truncate(self.offsets[begin])
            it.seek(self.offsets[begin])
            it.write(b"".join(lines) + f"{END}\n".encode())
        for line in lines:
            self.offsets.append(self.offsets[-1] + len(line))

    def frame_words(self, at):
        """What stands next at a position."""
        if at == self.console.kept:
            return f"position {at}, after the last kept step"
        step = self.console.session.ask({"do": "step", "to": at + 1})["step"]
        return f"position {at} of {self.console.kept}, before: {plain(command_words(step))}"
