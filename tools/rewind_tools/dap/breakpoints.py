"""Where `continue` and `reverseContinue` stop.

A line breakpoint is a position among the kept steps, a function breakpoint a condition, and a data
breakpoint an entry of a view. A condition stops a run where it begins to hold, and the way back where it
begins or ceases to hold; an entry stops both where it changes. Among the kept steps the program says where
that is (its queries 'turns' and 'changes'). A run stops at breakpoints of the program: a condition that
holds when the run starts waits there until it ceases to hold."""
import itertools
from typing import NamedTuple

from rewind_tools.telling.commands import at, condition, plain
from rewind_tools.typed import NotTyped, line_of, words_of_line

# How many positions are asked about at once. The program walks to the first of them, so later pieces are
# longer.
PIECE = 1000
MOST_BREAKS = 32


class Hit(NamedTuple):
    """A stop at a position: the reason, as the protocol names it, its words, and the breakpoint's number."""

    position: int
    reason: str
    words: str
    number: int


class NotSet(Exception):
    """A breakpoint cannot be set: its text says why."""


def condition_of(text):
    """The condition of a typed text."""
    return line_of(["break", *words_of_line(text)])["when"]


class Condition:
    """A condition, which is in the program, too, while `id` is its number there."""

    reason = "function breakpoint"

    def __init__(self, console, when, id=None):
        self.session, self.when, self.id = console.session, when, id
        self.words = plain(condition(when))

    def turns(self, lo, hi):
        """The positions after `lo` and up to `hi` at which it turns, each with whether it then holds."""
        reply = self.session.ask({"do": "turns", "when": self.when, "lo": lo, "hi": hi})
        holds = itertools.cycle([not reply["at_lo"], reply["at_lo"]])
        return list(zip(reply["turns"], holds))

    def holds_at(self, position):
        return self.session.ask({"do": "turns", "when": self.when, "lo": position, "hi": position})["at_lo"]

    def ahead(self, lo, hi):
        """The first position at which it begins to hold, with the words for it."""
        said = f"{self.words}: holds from here on"
        return next(((it, said) for it, holds in self.turns(lo, hi) if holds), None)

    def behind(self, lo, hi):
        """The last position at which it turns."""
        found = self.turns(lo, hi)
        if not found:
            return None
        position, holds = found[-1]
        return position, f"{self.words}: {'holds' if holds else 'ceases to hold'} from here on"


class Entry:
    """An entry of the view of processor `q`, at a location and a time."""

    reason = "data breakpoint"

    def __init__(self, console, q, place, time):
        self.session, self.point, self.before = console.session, {"q": q, "at": place, "time": time}, 0
        self.words = plain(f"processor {q}'s view of {at(place, time)}")

    def changes(self, lo, hi):
        return self.session.ask({"do": "changes", **self.point, "lo": lo, "hi": hi})["changes"]

    def told(self, change):
        position, count = change
        return position, f"{self.words} becomes {count} here"

    def ahead(self, lo, hi):
        found = self.changes(lo, hi)
        return self.told(found[0]) if found else None

    def behind(self, lo, hi):
        found = self.changes(lo, hi)
        return self.told(found[-1]) if found else None

    def now(self):
        """What stands there at the cursor."""
        view = self.session.ask({"do": "view", "q": self.point["q"]})["view"]
        wanted = [self.point["at"], self.point["time"]]
        return next((count for *point, count in view if point == wanted), 0)

    def change(self, count):
        """The condition that something else stands there."""
        return {"any": [
            {"not": {"view": {**self.point, "at_least": count}}},
            {"view": {**self.point, "at_least": count + 1}},
        ]}  # fmt: skip


class Position(NamedTuple):
    """A line breakpoint: a position, and the condition that must hold there, if there is one."""

    position: int
    when: Condition | None
    words = "breakpoint"
    reason = "breakpoint"

    def within(self, lo, hi):
        is_there = lo < self.position <= hi and (not self.when or self.when.holds_at(self.position))
        return (self.position, f"breakpoint at position {self.position}") if is_there else None

    ahead = behind = within


class Breakpoints:
    """All that is set, by the numbers that the editor knows."""

    def __init__(self, console):
        self.console, self.lines, self.conditions, self.entries = console, {}, {}, {}
        self.unkept = set()

    def positions(self):
        return [it.position for it in self.lines.values()]

    def all(self):
        """Each breakpoint with its number; those of the script and of the prompt have none."""
        yield from [*self.lines.items(), *self.conditions.items(), *self.entries.items()]
        known = {it.id for it in self.conditions.values()} - {None}
        for number, when in sorted(self.console.whens.items()):
            if number not in known:
                yield None, Condition(self.console, when, number)

    def first_ahead(self, lo, hi):
        """The first stop after `lo` and up to `hi` among the kept steps."""
        return self.best([(number, it, it.ahead(lo, hi)) for number, it in self.all()], min)

    def last_behind(self, lo, hi):
        """The last stop after `lo` and up to `hi`, on the way back."""
        return self.best([(number, it, it.behind(lo, hi)) for number, it in self.all()], max)

    def best(self, found, choose):
        hits = [Hit(said[0], it.reason, said[1], number) for number, it, said in found if said]
        return choose(hits, key=lambda it: it.position, default=None)

    # ---- what the editor sets

    def set_condition(self, number, text):
        """Sets a function breakpoint, which the program judges."""
        try:
            when = condition_of(text)
        except NotTyped as fault:
            raise NotSet(str(fault)) from fault
        self.try_in_program(when)
        self.conditions[number] = Condition(self.console, when)
        return self.conditions[number]

    def try_in_program(self, when):
        """Has the program judge a condition."""
        line = {"do": "break", "when": when}
        reply = self.console.session.ask(line)
        if "error" in reply:
            raise NotSet("; ".join(plain(it) for it in self.console.answer(line, reply)))
        self.console.session.ask({"do": "unbreak", "id": reply["id"]})
        waiting = [it for it in self.conditions.values() if it.id is None]
        if len(waiting) + len(self.entries) + len(self.console.whens) >= MOST_BREAKS:
            raise NotSet(f"{MOST_BREAKS} breakpoints are set, and no more can be")

    def set_entry(self, number, q, place, time):
        entry = Entry(self.console, q, place, time)
        self.try_in_program(entry.change(0))
        self.entries[number] = entry
        return entry

    def set_line(self, number, position, text):
        """Sets a breakpoint at a position, with a condition or none."""
        try:
            when = Condition(self.console, condition_of(text)) if text else None
        except NotTyped as fault:
            raise NotSet(str(fault)) from fault
        if when:
            self.try_in_program(when.when)
        self.lines[number] = Position(position, when)

    def clear(self, kind):
        """Removes all of a kind."""
        if kind is self.conditions:
            self.leave_program()
        kind.clear()

    # ---- a run

    def enter_program(self):
        """Sets the conditions in the program, so that its own runs stop at them, too."""
        for it in self.conditions.values():
            if it.id is None:
                reply = self.console.asked({"do": "break", "when": it.when})
                it.id = reply.get("id")

    def leave_program(self):
        for it in self.conditions.values():
            if it.id is not None:
                self.console.asked({"do": "unbreak", "id": it.id})
                it.id = None

    def run(self, limit, only=None):
        """Runs at most `limit` new steps, until a breakpoint is hit: the stop of the program's reply, how
        many steps ran, and the hit if there is one."""
        positions = [it - self.console.at for it in self.positions() if it > self.console.at]
        limit = min([limit, *positions])
        armed = Armed(self)
        try:
            reply = self.console.asked(
                {"do": "run", "limit": limit, **({} if only is None else {"only": only})}
            )
        finally:
            armed.end()
        return reply, armed.hit()


class Armed:
    """The program's breakpoints while it runs: in place of those that hold their negations, and for each
    entry that it changes."""

    def __init__(self, breakpoints):
        self.breakpoints, self.console = breakpoints, breakpoints.console
        self.ask = self.console.session.ask
        self.watched = [(number, it) for number, it in breakpoints.all() if isinstance(it, Condition)]
        self.held = {id(it): it.holds_at(self.console.at) for _, it in self.watched}
        self.counts = {number: it.now() for number, it in breakpoints.entries.items()}
        self.is_armed = [it for _, it in self.watched if it.id is not None and self.held[id(it)]]
        for it in self.is_armed:
            self.ask({"do": "unbreak", "id": it.id})
        whens = [negated(it.when) for it in self.is_armed]
        whens += [it.change(self.counts[number]) for number, it in breakpoints.entries.items()]
        ids = [self.ask({"do": "break", "when": it}).get("id") for it in whens]
        self.set = [it for it in ids if it is not None]  # if the prompt has set too many, some find no room

    def end(self):
        """Puts the program's breakpoints back, each under its number."""
        for number in self.set:
            self.ask({"do": "unbreak", "id": number})
        for it in sorted(self.is_armed, key=lambda it: it.id):
            fillers = []
            while (number := self.ask({"do": "break", "when": it.when})["id"]) < it.id:
                fillers.append(number)
            for number in fillers:
                self.ask({"do": "unbreak", "id": number})

    def hit(self):
        """The breakpoint at which a run has stopped, if it was one that begins to hold or has changed."""
        position = self.console.at
        for number, it in self.watched:
            if not self.held[id(it)] and it.holds_at(position):
                return Hit(position, it.reason, f"{it.words}: holds from here on", number)
        for number, it in self.breakpoints.entries.items():
            if it.now() != self.counts[number]:
                return Hit(position, it.reason, f"{it.words} becomes {it.now()} here", number)
        for number, it in self.breakpoints.lines.items():
            if it.position == position and (not it.when or it.when.holds_at(position)):
                return Hit(position, it.reason, f"breakpoint at position {position}", number)
        return None


def negated(when):
    """The negation of a condition."""
    name, inner = next(iter(when.items()))
    if name in ("all", "any"):
        return {"any" if name == "all" else "all": [negated(it) for it in inner]}
    return inner if name == "not" else {"not": when}
