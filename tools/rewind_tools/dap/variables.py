"""What the editor shows of a processor: the scopes of a stopped thread and their variables.

Each is asked of the program when it is opened, and the state once for each stop."""
import json
from functools import partial
from typing import Callable, NamedTuple

from rewind_tools.showing.states import changes, kinds_of, queues_of
from rewind_tools.telling.commands import at, command_words, counted, plain, processor_of
from rewind_tools.telling.reasons import held_words, unheard_word

# How many variables are shown at once, and how many entries the value of one names.
MOST, NAMED = 100, 6


class Variable(NamedTuple):
    """A variable; `opened` gives its own variables, and `data` names the entry of a view that it is."""

    name: str
    value: str
    opened: Callable | None = None
    data: dict | None = None


def some(words):
    """The first words of a list."""
    words = list(words)
    return ", ".join(words[:NAMED]) + (f", and {len(words) - NAMED} more" if len(words) > NAMED else "")


def asked_about(step, refused, holds):
    """The question why a refused step waits, if there is one: that of a notice, and of a capability."""
    if step["do"] != "notice":
        return None
    question = {"do": "why", "q": step["p"], "at": step["vertex"], "time": step["time"]}
    if step["vertex"] in holds:
        return question
    return {**question, "before": True} if refused["error"] == "NotYet" else None


class Variables:
    """The variables of one stop, each with a number while the session stays there."""

    def __init__(self, console):
        self.console, self.teller = console, console.teller
        self.ask = console.session.ask
        self.ops = {name: it["op"] for name, it in self.teller.graph.vertices.items()}
        self.opened, self.replies, self.shown = [], {}, {}

    def reply(self, word, **more):
        """The reply to a query, which is asked once."""
        key = (word, *more.values())
        if key not in self.replies:
            self.replies[key] = self.ask({"do": word, **more})
        return self.replies[key]

    def number(self, opened):
        """The number of what opens to variables; 0 for what does not."""
        if opened is None:
            return 0
        self.opened.append(opened)
        return len(self.opened)

    def scopes(self, p):
        scopes = {
            "Holds": self.held, "View": self.view, "Unsent": self.unsent, "On its way": self.on_way,
            "Waiting": self.waiting,
        }  # fmt: skip
        return [
            {"name": name, "variablesReference": self.number(partial(of, p)), "expensive": False}
            for name, of in scopes.items()
        ]

    def children(self, number):
        """The variables that one opens to; None if there is none of that number."""
        if not 1 <= number <= len(self.opened):
            return None
        found = self.opened[number - 1]()
        self.shown[number] = {it.name: it for it in found}
        return [self.listed(it) for it in cut(found)]

    def listed(self, it):
        number = self.number(it.opened)
        return {"name": plain(it.name), "value": plain(it.value), "variablesReference": number}

    def data_of(self, number, name):
        """The entry of a view that a variable is, by its name; None if it is none."""
        it = self.shown.get(number, {}).get(name)
        return it.data if it else None

    # ---- the scopes

    def state(self):
        return self.reply("state")["state"]

    def held(self, p):
        """What the processor holds, by kind."""
        kinds = kinds_of(self.state()["processors"][p], self.ops)
        return [
            Variable(kind, some(map(words, entries[: NAMED + 1])), partial(one_each, entries, words))
            if len(entries) > 1
            else Variable(kind, words(entries[0]))
            for kind, (entries, words) in kinds.items()
            if entries
        ]

    def view(self, p):
        """The entries of its view, those on the frontier marked."""
        front = [it[:2] for it in self.reply("frontier", q=p)["frontier"]]
        return [
            Variable(
                plain(at(place, time)),
                f"{count}, on the frontier" if [place, time] in front else f"{count}",
                None,
                {"q": p, "at": place, "time": time},
            )
            for place, time, count in self.state()["processors"][p]["view"]
        ]

    def unsent(self, p):
        return [
            Variable(at(place, time), f"{count:+d}")
            for place, time, count in self.state()["processors"][p]["unsent"]
        ]

    def on_way(self, p):
        """The queues to it, each with its changes, the first of which it receives next."""
        return [
            Variable(
                f"from processor {sender}",
                f"{counted(len(queue), 'change')}, first {some(changes(queue[0]))}",
                partial(one_each, queue, lambda it: ", ".join(changes(it))),
            )
            for sender, receiver, queue in queues_of(self.state())
            if receiver == p
        ]

    def waiting(self, p):
        """Each step that the processor cannot execute, with the reason; it opens to the answer to 'why'."""
        found = []
        for it in self.reply("candidates")["candidates"]:
            step, refused = it["step"], it.get("refused")
            if refused and processor_of(step) == p:
                question = asked_about(step, refused, self.teller.graph.holds)
                said = self.teller.refused(step, refused, None)[0]
                opened = partial(self.why, question) if question else None
                name = command_words(step).removeprefix(f"processor {p} ")
                found.append(Variable(name, said.removeprefix("refused: "), opened))
        return found

    def why(self, question):
        """The reasons why a processor does not consider a point finished, and whether it is."""
        reply, said = self.console.why(question)
        if "reasons" not in reply:
            return [Variable("why", "; ".join(said))]
        reasons = [
            Variable(
                at(*it["point"]),
                f"it still counts {it['view']}; {held_words(it['held'], self.teller.graph.holds)}",
                partial(one_each, it["unheard"], unheard_word) if it["unheard"] else None,
            )
            for it in reply["reasons"]
        ]
        left = [Variable("at rest", said[0])] if not reply["passed"] else []
        return [*left, *reasons, Variable("in truth", said[-1].removeprefix("in truth "))]


def one_each(entries, words):
    """A variable for each entry of a list."""
    return [Variable(str(number), words(it)) for number, it in enumerate(entries)]


def cut(found):
    """The first variables, and one that opens to the others."""
    rest = len(found) - MOST
    return found if rest <= 0 else [*found[:MOST], Variable(f"{rest} more", "", lambda: found[MOST:])]


def data_id(point):
    """An entry of a view as the text that the editor gives back."""
    return json.dumps(point)
