"""What the page shows of a session at its cursor, all of it from the program's own replies."""
import json

from rewind_tools.live.sight import (
    CANDIDATES,
    POINTS,
    STEPS,
    MOST_STEPS,
    cut,
    messages,
    page_of,
    item,
    state_in_sight,
    window,
)
from rewind_tools.second import FEW
from rewind_tools.telling.commands import at, command_words, plain, processor_of, time_in
from rewind_tools.telling.effects import effect_words
from rewind_tools.telling.reasons import count_words, news_words, rest_words

# How many changes of a step and how many reasons a picture has.
MOST_CHANGES, MOST_REASONS = 60, 40
LAST_COUNTER = (1 << 32) - 1

STAYS = "it stays until it is released: {} is never notified, and no run releases it"


def held_words(step):
    """The capability of which a step is the notice."""
    return f"processor {step['p']} holds a capability at {at(step['vertex'], step['time'])}"


def depths_of(graph):
    """The depth of each place by its name; that of an edge is its target's."""
    depths = {it["name"]: it["depth"] for it in graph["vertices"]}
    return {**depths, **{it["name"]: depths[it["to"]] for it in graph["edges"]}}


def entries_of(state):
    """How many entries a state has."""
    return sum(len(it) for of in state["processors"] for it in of.values())


class Pictures:
    """Asks a session what its page shows. The steps of the last picture and the state at the cursor are kept
    for the next. `with_place` says of a step in words where it comes from (rewind_tools/journal.py)."""

    def __init__(self, session, teller, with_place=lambda position, said: said):
        self.session, self.teller, self.with_place = session, teller, with_place
        self.order, self.holds = teller.graph.order, teller.graph.holds
        self.ops = {name: it["op"] for name, it in teller.graph.vertices.items()}
        self.distincts = {name for name, op in self.ops.items() if op == "distinct"}
        self.depths = depths_of(session.graph)
        self.steps, self.fronts = {}, {}
        self.here, self.tried, self.most_entries = (None, None), (None, None), 0
        self.marks = []

    def forget_from(self, position):
        """Forgets what leads to positions past this one, since other steps may be kept there."""
        self.steps = {it: step for it, step in self.steps.items() if it <= position}

    def mark(self, position, worker, words):
        """Marks on a worker's lane, after the step that leads to a position, what was refused there."""
        self.marks = [*self.marks, {"at": position, "p": worker, "words": plain(words)}]

    def at_cursor(self, cursor, revision, has_effect=True):
        """The replies at the cursor: the state, the frontiers, and what the last step changed, if there is
        one. They are asked once for each number of the session's state."""
        if self.here[0] != revision:
            lines = [{"do": "effect", "to": cursor}] if has_effect and cursor else []
            state, *effect = self.session.ask_all([{"do": "state"}, *lines])
            fronts = self.frontiers(state["state"], [(q, None) for q in range(self.teller.processors)])
            self.here = revision, [state["state"], fronts, effect]
            self.most_entries = max(self.most_entries, entries_of(state["state"]))
        return self.here[1]

    def frontiers(self, state, asked):
        """The frontiers of processors' views, and the times that can still arrive at places as far as they
        know: each is asked once for a view."""
        for q, it in enumerate(state["processors"]):
            if self.fronts.get(q, (None,))[0] != it["view"]:
                self.fronts[q] = it["view"], {}
        new = [(q, place) for q, place in dict.fromkeys(asked) if place not in self.fronts[q][1]]
        lines = [{"do": "frontier", "q": q, **({"at": place} if place else {})} for q, place in new]
        for (q, place), reply in zip(new, self.session.ask_all(lines) if new else []):
            self.fronts[q][1][place] = reply
        return [self.fronts[q][1][place] for q, place in asked]

    def of(self, cursor, kept, revision, sight):
        """The picture at the cursor. `sight` names what else is in sight: the numbers of the first point and
        the first candidate, None for no candidates; how many points, the question why a point is not
        finished, a condition, and whether what the last step changed is; each may lack."""
        has_effect = sight.get("effect", True)
        state, fronts, effect = self.at_cursor(cursor, revision, has_effect)
        effect = self.effect(effect[0], cursor) if effect else None
        rows = sight.get("points", 0), sight.get("rows", POINTS)
        return {
            "at": cursor,
            "kept": kept,
            "state": self.shown_state(state, fronts, rows),
            "inputs": self.inputs(state),
            "candidates": self.candidates(revision, sight.get("candidates", 0)),
            "effect": effect,
            "marked": effect["places"] if effect else [],
            "steps": self.in_window(cursor, kept, state["queues"], sight),
            "marks": self.marks,
            "breaks": [{"id": key, "when": plain(when)} for key, when in sorted(self.teller.breaks.items())],
            "why": self.why(sight["why"]) if sight.get("why") else None,
        }

    def shown_state(self, state, fronts, rows):
        return state_in_sight(state, self.order, self.ops, fronts, rows)

    def in_window(self, cursor, kept, queues, sight):
        """The steps in sight, with the updates between processors; of many their positions alone."""
        if not sight.get("steps", True):
            return None
        chosen = sight.get("count", STEPS), sight.get("first"), sight.get("of")
        first, last = window(cursor, kept, *chosen)
        if last - first >= MOST_STEPS:
            return {"first": first, "last": last, "items": [], "messages": []}
        steps = self.steps_in(first, last)
        return {
            "first": first,
            "last": last,
            "items": [self.shown_item(*it) for it in enumerate(steps, first)],
            "messages": messages(steps, first, cursor, queues),
        }

    def shown_item(self, position, step):
        shown = item(position, step)
        return {**shown, "words": self.with_place(position, shown["words"])}

    def steps_in(self, first, last):
        """The steps that lead to the positions of a window."""
        new = [it for it in range(first, last + 1) if it not in self.steps]
        replies = self.session.ask_all([{"do": "step", "to": it} for it in new]) if new else []
        told = {**self.steps, **{it: reply["step"] for it, reply in zip(new, replies)}}
        self.steps = {it: told[it] for it in range(first, last + 1)}
        return [*self.steps.values()]

    def inputs(self, state):
        """The inputs that may be fed: each with its processor and its token's epoch."""
        return [
            {"p": p, "vertex": vertex, "epoch": epoch}
            for p, it in enumerate(state["processors"])
            for vertex, epoch in it["tokens"]
        ]

    def candidates(self, revision, first):
        """A page of the steps that a run tries, from the program's reply, which is asked for once for each
        number of the session's state."""
        if first is None:
            return None
        if self.tried[0] != revision:
            self.tried = revision, self.session.ask({"do": "candidates"})
        reply = self.tried[1]
        first, shown = page_of(reply["candidates"], first, CANDIDATES)
        count, more = len(reply["candidates"]), reply.get("more", False)
        return {"items": [self.candidate(it) for it in shown], "first": first, "count": count, "more": more}

    def candidate(self, it):
        """A step that a run tries; if it is refused, why. Its line is a text, since a browser would round
        the value of a take. The notice of a vertex that holds capabilities, which is never run, stands
        for the capability, from which the page offers to send, if the vertex is opaque, and which it offers
        to release."""
        step = it["step"]
        is_held = step["do"] == "notice" and step["vertex"] in self.holds
        shown = {
            "line": json.dumps(step),
            "kind": "release" if is_held else step["do"],
            "p": processor_of(step),
            "words": plain(held_words(step) if is_held else command_words(step)),
        }
        if is_held:
            shown["release"] = {**step, "do": "release"}
            shown["refused"] = STAYS.format(step["vertex"])
            shown["ask"] = {"do": "why", "q": step["p"], "at": step["vertex"], "time": step["time"]}
        elif "refused" in it:
            shown["refused"] = plain(self.teller.refused(step, it["refused"], None)[0])
            shown["ask"] = self.question(step, it["refused"])
        return shown

    def question(self, step, refused):
        """The line that asks why a refused step waits, if there is one: that of a notice."""
        if refused["error"] != "NotYet":
            return None
        return {"do": "why", "q": step["p"], "at": step["vertex"], "time": step["time"], "before": True}

    def effect(self, reply, position):
        """What the last step changed, which leads to a position."""
        changed = reply["changed"]
        places = {
            it[1] for kind in ("records", "requests", "tokens", "items", "sinks") for it in changed[kind]
        }
        return {
            "step": self.with_place(position, plain(command_words(reply["step"]))),
            "words": cut(effect_words(changed, self.holds, self.distincts), MOST_CHANGES, plain),
            "places": sorted(self.order[it] for it in places),
        }

    def why(self, asked):
        """The answer why a processor does not consider a point finished; without a time, the earliest that
        can still arrive there."""
        q, place, time = asked["q"], asked["at"], asked.get("time")
        arriving = self.session.ask({"do": "frontier", "q": q, "at": place})
        if "error" in arriving:
            return {"error": f"{arriving['error']} ({arriving['code']})"}
        if time is None:
            times = [it for it in arriving["times"] if max(it) <= LAST_COUNTER]
            time = times[0] if times else [0] * (self.depths[place] + 1)
        question = {"q": q, "at": place, "time": time, "before": bool(asked.get("before"))}
        told = self.whys([question], [arriving])[0]
        if told.get("passed") is False:
            told["rest"] = self.rests([question])[0][0]
        return told

    def rests(self, questions):
        """What is left at rest, if few steps are left, and how many steps the program has run for that."""
        replies = self.session.ask_all([{"do": "why", **it, "rest": FEW} for it in questions])
        return [(plain(self.rest_words(it)), it["ran"]) for it in replies]

    def rest_words(self, reply):
        if reply["stop"] == "limit" and not reply["passed"]:
            return f"more than {FEW} steps are left"
        return rest_words(reply, self.holds)

    def whys(self, questions, arriving):
        """The answers why processors do not consider points finished, each with the reasons in words and
        their places, and the times that can still arrive."""
        lines = [
            {"do": "why", **{key: it for key, it in one.items() if it is not False}} for one in questions
        ]
        replies = self.session.ask_all(lines)
        return [self.why_told(*it) for it in zip(questions, replies, arriving)]

    def why_told(self, asked, reply, arriving):
        place, time = asked["at"], asked["time"]
        if "error" in reply:
            return {"error": self.wrong_time(place, time) if reply["error"] == "BadTime" else reply["error"]}
        return {
            "time": time,
            "passed": reply["passed"],
            "finished": reply["finished"],
            "reasons": [
                {
                    "words": plain(count_words(it, self.holds)),
                    "news": plain(news_words(it)),
                    "place": self.order[it["point"][0]],
                    "at": it["point"][0],
                    "time": it["point"][1],
                }
                for it in reply["reasons"][:MOST_REASONS]
            ],
            "more": max(0, len(reply["reasons"]) - MOST_REASONS),
            "times": ", ".join(map(time_in, arriving["times"])),
        }

    def wrong_time(self, place, time):
        """That a time has the wrong number of loop counters."""
        count = self.depths[place]
        wanted = "the epoch alone" if not count else f"the epoch and {count} loop counter{'s' * (count > 1)}"
        return f"{time_in(time)} is not a time of {place}, where a time is {wanted}"
