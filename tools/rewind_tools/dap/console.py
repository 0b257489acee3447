"""The prompt of tools/repl for an editor: what it says is kept as text, and a new step that would discard
kept steps is executed only when it is asked for a second time."""
import cmd
import json

from rewind_tools import completing
from rewind_tools.prompt import Prompt
from rewind_tools.script import FORMS, QUERIES, STEPS
from rewind_tools.telling.commands import counted, plain
from rewind_tools.telling.reasons import why_words
from rewind_tools.typed import NotTyped, words_of_line

# The prompt's own words that change nothing.
QUESTIONS = ("can", "changed", "where", "graph", "breaks", "help")


class WouldDiscard(Exception):
    """A new step would discard kept steps: its text says how many."""


def is_question(text):
    """Whether a typed line only asks."""
    if text.lstrip().startswith("{"):
        try:
            value = json.loads(text)
        except ValueError:
            return True  # which is refused as no JSON
        return isinstance(value, dict) and value.get("do") in QUERIES
    words = words_of_line(text)
    return not words or words[0] in QUERIES or words[0] in QUESTIONS


class Asked:
    """In place of Ctrl-C at a terminal: whether a long command is asked to stop."""

    def __init__(self, is_wanted):
        self.is_wanted = is_wanted

    @property
    def is_asked(self):
        return self.is_wanted()

    def __enter__(self):
        pass

    def __exit__(self, *_):
        pass


class Console(Prompt):
    """A session's prompt. `whens` has the condition of each breakpoint that is set, and `show_progress` is
    told how far something long is."""

    def __init__(self, session, name, is_wanted, show_progress):
        self.show_progress = show_progress
        super().__init__(session, name)
        self.stop = Asked(is_wanted)
        self.said, self.may_discard, self.asked_about = [], False, None
        self.whens = {}

    def say(self, text):
        self.said.append(plain(text))

    def note(self, text):
        self.say(text)

    def taken(self):
        """What was said since this was asked last."""
        said, self.said = self.said, []
        return "\n".join(said)

    # ---- what is kept of the replies

    def keep_breaks(self, value, reply):
        super().keep_breaks(value, reply)
        if "error" not in reply and value["do"] == "break":
            self.whens[reply["id"]] = value["when"]
        elif "error" not in reply and value["do"] == "unbreak":
            self.whens.pop(value["id"], None)

    def asked(self, value):
        """The reply to a line, of which nothing is said; also what it discards is kept."""
        reply, _ = self.executed(value)
        self.keep_breaks(value, reply)
        return reply

    # ---- typed lines

    def ask(self, value):
        is_new = isinstance(value, dict) and value.get("do") in (*STEPS, "run")
        self.check_discard(is_new)
        return super().ask(value)

    def check_discard(self, is_new=True):
        """Refuses to discard kept steps, if that was not confirmed."""
        gone = self.kept - self.at
        if is_new and gone and not self.may_discard:
            raise WouldDiscard(
                f"this discards {counted(gone, 'kept step')} after position {self.at}; ask again to do so,"
                " and 'undrop' brings the run back"
            )

    def do_load(self, rest):
        self.check_discard()
        super().do_load(rest)

    do_load.__doc__ = Prompt.do_load.__doc__

    def do_quit(self, rest):
        """quit: the editor ends the session"""
        raise NotTyped("the editor ends the session: disconnect, or stop")

    do_exit = do_quit

    def answer_to(self, text):
        """What is said of a typed line. The same line a second time may discard kept steps."""
        self.said = []
        self.may_discard, self.asked_about = self.asked_about == text, None
        self.progress.begin()
        try:
            with self.stop:
                cmd.Cmd.onecmd(self, text)
        except WouldDiscard:
            self.asked_about = text
            raise
        finally:
            self.may_discard = False
        return self.taken()

    def is_known(self, text):
        """Whether a typed line begins with a word of the prompt."""
        return text.startswith("{") or words_of_line(text)[0] in {*FORMS, *self.own_words()}

    def completed(self, text):
        """What may stand in place of the last word of a text: how long that word is, and the words."""
        part = text.rpartition(" ")[2]
        return len(part), completing.completions(self, text[: len(text) - len(part)], part)

    # ---- why

    def why_at(self, q, place):
        """The question why a processor does not consider a place finished, at the earliest time that can
        still arrive there; None if no time can."""
        times = self.session.ask({"do": "frontier", "q": q, "at": place})["times"]
        return {"do": "why", "q": q, "at": place, "time": times[0]} if times else None

    def why(self, question):
        """The reply to a question why, and its sentences."""
        reply = self.session.ask(question)
        if "error" in reply:
            return reply, [plain(it) for it in self.answer(question, reply)]
        words = [*self.at_rest(question, reply), *why_words(question, reply, self.teller.graph.holds)]
        return reply, [plain(it) for it in words]
