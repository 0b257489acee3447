"""What 'tools/tell' says of rest: what is left when all that can happen has happened, where a time is not
finished; how that can finish; and which loop a run goes round.

    resting = Resting(told, teller)
    resting.first(3), resting.last(3)      sentences before and after the answer to the entry of that number

A copy of the run answers that, in the last version of the script, whose other replies are the same: with the
commands that the program has executed, and questions after them. If it does not give these the same replies,
nothing is said."""
import contextlib
import json

from rewind_tools import finishing, runs
from rewind_tools.at_rest import MOST
from rewind_tools.script import COMMANDS, LAST
from rewind_tools.session import Ended, Session, VersionRefused
from rewind_tools.telling.reasons import rest_words

# How many questions are asked at rest; of how many it is said how they can finish, and in how many lines.
MOST_ASKED, MOST_WAYS, MOST_LINES = 100, 5, 8


def question_of(entry, holds):
    """The question why a time is not finished that an entry raises: a 'why', a 'passed' or a refused notice;
    None of others."""
    value, reply = entry.line.value if entry.line else None, entry.reply
    word = value.get("do") if isinstance(value, dict) else None
    if word == "why" and "rest" not in value and reply.get("passed") is False:
        return value
    if word == "passed" and reply.get("passed") is False:
        return {**value, "do": "why"}
    if word == "notice" and reply.get("error") == "NotYet" and value["vertex"] not in holds:
        return {"do": "why", "q": value["p"], "at": value["vertex"], "time": value["time"], "before": True}
    return None


def questions_of(entry, holds):
    """The lines that are asked after an entry's own."""
    question = question_of(entry, holds)
    if question:
        return [{**question, "rest": MOST}]
    if entry.reply.get("stop") == "limit" and entry.line.value["do"] == "run":
        return [{"do": "step", "to": it} for it in finishing.steps_back(entry.reply)]
    return []


def is_executed(entry):
    value = entry.line.value if entry.line and "error" not in entry.reply else None
    return isinstance(value, dict) and value.get("do") in COMMANDS


class Resting:
    def __init__(self, told, teller):
        self.told, self.graph, self.ways, self.answers = told, teller.graph, 0, {}
        if teller.graph is not None and not teller.has_clients:
            self.ask()
        self.said = set()

    def ask(self):
        """Asks the copy all questions."""
        lines, wanted, count = [], [], 0
        for at, it in enumerate(self.told.entries):
            executed = [it.line.text] if is_executed(it) else []
            asked = questions_of(it, self.graph.holds) if count < MOST_ASKED else []
            lines += executed + [json.dumps(one).encode() for one in asked]
            wanted.append((at, len(executed), len(asked)))
            count += bool(asked)
        if not count:
            return
        _, output, _ = runs.run_bytes(b"\n".join([*self.opening(), *lines, b""]), self.told.words)
        replies, answers = runs.replies_of(output)[2:], {}
        for at, executed, asked in wanted:
            own, replies = replies[:executed], replies[executed:]
            if own and own[0] != self.told.entries[at].reply:
                return
            answers[at], replies = replies[:asked], replies[asked:]
        self.answers = answers

    def opening(self):
        return [json.dumps(it).encode() for it in ({"version": LAST}, self.told.graph)]

    def first(self, at):
        """What is left at rest of a 'why', and how that can finish."""
        entry = self.told.entries[at]
        if not self.answers.get(at) or entry.line.value["do"] != "why":
            return []
        reply = self.answers[at][0]
        way = self.way(at, entry.line.value) if not reply["passed"] and "stop" in reply else []
        return [*self.rest(at, reply), *way]

    def last(self, at):
        """What is left at rest of another question, if that is not said already at this state; or the loop
        that a run goes round."""
        value, answers = self.told.entries[at].line.value, self.answers.get(at)
        if not answers or value["do"] == "why":
            return []
        if value["do"] == "run":
            said = finishing.loop_words([it["step"] for it in answers if "step" in it], self.graph)
            return [said] if said else []
        return self.rest(at, answers[0], True)

    def rest(self, at, reply, is_once=False):
        if "stop" not in reply:
            return []
        said = rest_words(reply, self.graph.holds)
        key = said, len([it for it in self.told.entries[:at] if is_executed(it)])
        is_known = key in self.said
        self.said.add(key)
        return [] if is_once and is_known else [said]

    def way(self, at, query):
        """How a time that is not finished at rest can finish, if that is not said already."""
        before = [it.line.text for it in self.told.entries[:at] if is_executed(it)]
        key = len(before), json.dumps(query)
        if self.ways == MOST_WAYS or key in self.said:
            return []
        self.said.add(key)
        self.ways += 1
        try:
            with contextlib.closing(Session(self.told.graph, self.told.words, LAST)) as session:
                if before:
                    session.ask_lines(before)
                way = finishing.way_of(session.ask, self.graph, query)
        except VersionRefused:
            return []
        except Ended as fault:
            return [f"how this can finish is not known: {fault}"]
        _, lines, notes = way.words(self.graph.holds)
        more = [f"... ({len(lines)} in all)"] if len(lines) > MOST_LINES else []
        return lines[:MOST_LINES] + more + notes
