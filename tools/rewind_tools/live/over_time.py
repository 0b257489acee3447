"""What a page shows of all kept steps: which processor executes each, from where on each knows that a point
is finished, what the steps in sight carry to other processors, and which times can arrive.

What is not known is asked for in jobs of lines, of a program that is at the last kept step:

    job = over.next_job(asked, kept)     lines for the program, and what to do with their replies; None if
                                         all that is asked for is known
    over.told(asked, kept)               what is known

`asked` has the question why a point is not finished, a condition, the first and the last step in sight, and
into how many bins the steps are counted; each may lack."""
import json
import re
from typing import NamedTuple

from rewind_tools.finishing import condition
from rewind_tools.live.sight import item, key_of
from rewind_tools.live.turned import Since, Turned
from rewind_tools.showing.states import changes
from rewind_tools.telling.commands import condition as condition_words
from rewind_tools.telling.commands import plain

# How many steps one job reads, over how many positions it looks for turns: of conditions on views, and of
# the person's own, which may take longer; and at how many positions it asks for effects or for frontiers.
READ, PIECE, SLOW_PIECE, SOME = 5000, 20_000, 2000, 16
# Of how many steps in sight is asked what they carry, how many positions have a frontier, how many turns are
# listed, how many steps are found, and how many bins there are.
MOST_CARRYING, MOST_SAMPLES, LISTED, MOST_FOUND, MOST_BINS = 130, 300, 20, 200, 1000
# The processor of a step in the program's reply: of a receive, which has no "p", it is "to".
OWNER, RECEIVER = re.compile(rb'"p":(\d+)'), re.compile(rb'"to":(\d+)')


class Job(NamedTuple):
    """Lines for the program, and what is to be called with their replies."""

    lines: list
    add: object
    is_raw: bool = False  # whether replies are wanted as bytes

    def ask(self, ask_lines):
        """The replies."""
        replies = ask_lines([json.dumps(it).encode() for it in self.lines])
        return replies if self.is_raw else list(map(json.loads, replies))


def truth(when):
    """The condition that what a processor must have passed is finished."""
    if "all" in when:
        return {"all": [truth(it) for it in when["all"]]}
    return {"finished": {key: it for key, it in when["passed"].items() if key != "q"}}


def carried(reply):
    """What a step carries to other processors, by its effect: the updates of a broadcast, and the records
    that come to another processor, as the processor, the record and how many come."""
    step, changed = reply["step"], reply["changed"]
    sent = [[place, time, old - new] for _, place, time, old, new in changed["unsent"]]
    there = {
        "updates": [plain(it) for it in changes(sent)] if step["do"] == "broadcast" else [],
        "records": [
            [q, key_of(place, time, value), new - old]
            for q, place, time, value, old, new in changed["records"]
            if new > old and q != step.get("p")
        ],
    }
    return {key: it for key, it in there.items() if it}


class OverTime:
    """What is known of all kept steps."""

    def __init__(self, graph, processors):
        self.graph, self.processors, self.turned, self.since = graph, processors, Turned(), Since()
        self.replies, self.owners = [], bytearray()  # by the steps, from the first on
        self.carried, self.times, self.origins, self.near = {}, {}, {}, {}

    def forget_from(self, position):
        """Forgets what leads to positions past this one, since other steps may be kept there."""
        del self.replies[position:], self.owners[position:]
        self.origins, self.near = {}, {}
        self.turned.forget_from(position)
        self.since.forget_from(position)
        self.carried = {it: one for it, one in self.carried.items() if it <= position}
        for place, found in self.times.items():
            self.times[place] = {it: one for it, one in found.items() if it <= position}

    # ---- what is asked for

    def next_job(self, asked, kept):
        jobs = (self.nearing, self.finishing, self.reading, self.carrying, self.knowing, self.coming_from)
        jobs += (self.arriving, self.turning)
        return next((job for it in jobs if (job := it(asked, kept))), None)

    def reading(self, asked, kept):
        """Reads steps."""
        begin = len(self.replies)
        end = min(kept, begin + READ)
        lines = [{"do": "step", "to": it} for it in range(begin + 1, end + 1)]

        def add(replies):
            if begin == len(self.replies):
                self.replies += replies
                self.owners += bytes(int((OWNER.search(it) or RECEIVER.search(it))[1]) for it in replies)

        return Job(lines, add, True) if lines else None

    def carrying(self, asked, kept):
        """Asks what the steps in sight carry to other processors."""
        first, last = asked.get("window") or (1, 0)
        sight = range(first, min(last, kept) + 1) if last - first < MOST_CARRYING else []
        missing = [it for it in sight if it not in self.carried][:SOME]
        lines = [line for it in missing for line in ({"do": "jump", "to": it}, {"do": "effect", "to": it})]

        def add(replies):
            self.carried.update({it: carried(reply) for it, reply in zip(missing, replies[1::2])})

        return Job(lines, add) if lines else None

    def passed(self, asked):
        """The conditions that each processor knows of the end of a point."""
        why = asked.get("why")
        return [condition(self.graph, {**why, "q": q}) for q in range(self.processors)] if why else []

    def own(self, asked):
        """The person's own condition, if there is one."""
        return [asked["when"]] if asked.get("when") else []

    def nearing(self, asked, kept):
        """Asks where the conditions turn among the steps in sight, if that is not known of all steps yet."""
        first, last = asked.get("window") or (1, 0)
        is_few = 0 < last - first < MOST_CARRYING and last <= kept
        all_ = [*self.passed(asked), *self.own(asked)] if is_few else []
        open_ = [it for it in all_ if self.turned.about(it)["to"] < last]
        keys = {json.dumps([it, first, last]): it for it in open_}
        missing = {key: it for key, it in keys.items() if key not in self.near}
        lines = [{"do": "turns", "when": it, "lo": first - 1, "hi": last} for it in missing.values()]
        return Job(lines, lambda replies: self.near.update(zip(missing, replies))) if lines else None

    def finishing(self, asked, kept):
        """Asks from where on the point is finished in truth, which stays so."""
        line = next((self.since.next_line(truth(it), kept) for it in self.passed(asked)), None)
        return Job([line], lambda replies: self.since.add(line, replies[0])) if line else None

    def knowing(self, asked, kept):
        """Asks from where on the processors know of the point's end."""
        return self.turns_job(self.passed(asked), kept, PIECE)

    def turning(self, asked, kept):
        """Asks where the person's own condition turns."""
        return self.turns_job(self.own(asked), kept, SLOW_PIECE)

    def turns_job(self, conditions, kept, most):
        """Asks about the condition of which least is known."""
        lines = [self.turned.next_line(it, kept, most) for it in conditions]
        line = min((it for it in lines if it), key=lambda it: it["lo"], default=None)
        return Job([line], lambda replies: self.turned.add(line, replies[0])) if line else None

    def coming_from(self, asked, kept):
        """Asks at which step a processor's view has come to count what is in the way."""
        where = asked.get("origin")
        key = json.dumps([where, kept])
        if not where or key in self.origins:
            return None
        line = {"do": "changes", **where, "lo": 0, "hi": kept}
        return Job([line], lambda replies: self.origins.update({key: replies[0].get("changes", [])}))

    def samples(self, kept):
        """The positions at which is asked which times can arrive: all, or one of so many and the last."""
        stride = 1
        while kept // stride > MOST_SAMPLES:
            stride *= 2
        return [*range(0, kept, stride), kept]

    def arriving(self, asked, kept):
        """Asks which times can arrive at a location, as far as each processor knows."""
        place = (asked.get("why") or {}).get("at")
        found = self.times.setdefault(place, {}) if place else {}
        missing = [it for it in self.samples(kept) if it not in found][:SOME] if place else []
        frontiers = [{"do": "frontier", "q": q, "at": place} for q in range(self.processors)]
        lines = [line for it in missing for line in ({"do": "jump", "to": it}, *frontiers)]

        def add(replies):
            for number, it in enumerate(missing):
                begin = number * (self.processors + 1) + 1
                found[it] = [one.get("times", []) for one in replies[begin : begin + self.processors]]

        return Job(lines, add) if lines else None

    # ---- what is known

    def told(self, asked, kept):
        why, (first, last) = asked.get("why"), asked.get("window") or (1, kept)
        key, bins = json.dumps([asked.get("origin"), kept]), min(int(asked.get("bins", 1)), MOST_BINS)
        found = self.times.get(why["at"], {}) if why else {}
        return {
            "kept": kept,
            "read": len(self.replies),
            "density": self.density(1, kept, bins),
            "near": self.density(first, last, bins) if last - first >= MOST_CARRYING else None,
            "lanes": self.lanes(asked, kept, first, last),
            "carried": {it: self.carried[it] for it in range(first, last + 1) if self.carried.get(it)},
            "origin": self.origins.get(key),
            "times": [[it, found[it]] for it in self.samples(kept) if it in found],
        }

    def lanes(self, asked, kept, first, last):
        """What is known of the condition of each lane: of each processor, of the truth, of the person."""
        passed = self.passed(asked)
        finished = [{"when": "", **self.since.about(truth(it), kept), "near": None} for it in passed[:1]]
        return [
            *(self.lane(it, first, last) for it in passed),
            *finished,
            *(self.lane(it, first, last) for it in self.own(asked)),
        ]

    def lane(self, when, first, last):
        """What is known of a condition: up to a position, and of the steps in sight, if that is beyond."""
        it, near = self.turned.about(when), self.near.get(json.dumps([when, first, last]), {})
        words = plain(condition_words(when))
        told = {key: it.get(key) for key in ("at_lo", "turns", "to", "error")}
        is_beyond = it["to"] < last and "turns" in near
        return {"when": words, **told, "near": {**near, "lo": first - 1, "to": last} if is_beyond else None}

    def density(self, first, last, bins):
        """How many steps each processor executes, in bins of equal width."""
        count = max(1, last - first + 1)
        ends = [first - 1 + count * it // bins for it in range(bins + 1)]
        pieces = [self.owners[one:other] for one, other in zip(ends, ends[1:])]
        return [[it.count(q) for it in pieces] for q in range(self.processors)]

    def find(self, asked):
        """The first steps of a kind, of a processor, at a location, at a time; each may lack."""
        found, count = [], 0
        for position, text in enumerate(self.replies, 1):
            if asked.get("p") is not None and self.owners[position - 1] != asked["p"]:
                continue
            step = json.loads(text)["step"]
            if is_found(step, asked):
                count += 1
                found += [item(position, step)] if count <= MOST_FOUND else []
        return {"items": found, "count": count}


def is_found(step, asked):
    """Whether a step is of the kind, at the location and at the time that are asked for."""
    place, time = asked.get("at"), asked.get("time")
    return (
        asked.get("kind") in (None, step["do"])
        and place in (None, step.get("vertex"), step.get("edge"))
        and time in (None, step.get("time"), step.get("at"))
    )
