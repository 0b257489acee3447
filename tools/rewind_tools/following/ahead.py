"""Executes lines whose order is known, while the next ones are still being made.

    ahead = Ahead(program, report)
    ahead.execute(pieces)         lists of lines, each expected to be executed after those before it
    ahead.executed                the lines that were executed: all, if the program allows them all

At the first list of which a line is refused or differs, the program goes back to the position before that
list, and the rest is left to a plan (merging.py)."""
import json
import re
from collections import deque

from rewind_tools.following.checking import DONE, EFFECT, MOST_STEPS
from rewind_tools.following.comparing import change_of

EFFECT_OF = re.compile(rb'(?m)^\{"changed":.*')


class Ahead:
    def __init__(self, program, report):
        self.program, self.report = program, report
        self.executed, self.asked, self.count, self.is_right = [], deque(), 0, True

    def execute(self, pieces):
        for replies in self.program.ask_pieces(self.texts(pieces)):
            lines, changed = self.asked.popleft()
            self.is_right = self.is_right and self.are_done(lines, changed, replies)
            if self.is_right:
                self.executed += lines
            self.report("steps executed", len(self.executed), self.count)
        if not self.is_right:
            self.program.go_to([it.text for it in self.executed])

    def texts(self, pieces):
        """The texts of lists of lines for the program, while it has room and none was wrong. After each line
        that says what it moves the program is asked what it moved."""
        for lines in pieces:
            texts, changed = [], []
            for line in lines[: MOST_STEPS - self.count] if self.is_right else ():
                self.count += 1
                texts.append(line.text)
                if line.own.change is not None:
                    changed.append(line)
                    texts.append(EFFECT % self.count)
            if texts:
                self.asked.append((lines[: len(texts) - len(changed)], changed))
                yield texts

    def are_done(self, lines, changed, replies):
        """Whether all of some lines were executed, and move what they say. Each line that is executed moves
        the position by one, so one reply says whether all were."""
        last = len(self.executed) + len(lines)
        if DONE % (last, last) not in replies:
            return False
        effects = json.loads(b"[%b]" % b",".join(EFFECT_OF.findall(replies)))
        return all(change_of(line, it) == line.own.change for line, it in zip(changed, effects))
