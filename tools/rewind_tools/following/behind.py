"""Which counts of a view are behind a 'view' or a 'frontier' that differs, in sentences.

    behind(words, value, key, ours, its)      of the member `key` of a query's reply the entries or the times
                                              that the trace alone has, and those that the reply alone has"""
from rewind_tools.following.merging import STEPS
from rewind_tools.telling.commands import at, some_of

# How many differences are explained.
MOST = 8


def behind(words, value, key, ours, its):
    asked = Behind(words, value["q"])
    points = [(value["at"], it) if key == "times" else (it[0], it[1]) for it in [*ours, *its]]
    listed = list(dict.fromkeys((place, tuple(time)) for place, time in points))
    explained = asked.count if key == "view" else asked.led_to
    return [explained(*it) for it in listed[:MOST]]


class Behind:
    """A processor's view at the end of what was executed. Times have their epochs as they stood."""

    def __init__(self, words, q):
        self.words, self.q = words, q
        self.steps = [it for it in words.follower.executed if it.word in STEPS]
        view = words.epochs.told(words.program.asked({"do": "view", "q": q}))["view"]
        self.view = {(place, tuple(time)): n for place, time, n in view}

    def ask(self, word, place, time, **others):
        epoch, *counters = time
        asked = {"do": word, "q": self.q, "at": place, "time": [self.words.epochs.ranks[epoch], *counters]}
        return self.words.epochs.told(self.words.program.asked({**asked, **others}))

    def count(self, place, time):
        """What the view counts at a point, and since which line."""
        position, reply = 0, {"more": True}
        while reply.get("more"):
            reply = self.ask("changes", place, time, lo=position, hi=len(self.steps))
            position = reply["changes"][-1][0] if reply["changes"] else position
        line = self.steps[position - 1] if position else None
        path = self.words.traces[line.worker].path if line else None
        since = f"since {path}, line {line.number}" if line else "since the start"
        n = self.view.get((place, tuple(time)), "nothing")
        return f"the view counts {n} at {at(place, time)} {since}"

    def led_to(self, place, time):
        """The counts of the view's frontier that lead to a point."""
        points = [it["point"] for it in self.ask("why", place, time).get("reasons", [])]
        if points == [[place, list(time)]]:
            return self.count(place, time)
        counts = [self.count(*it) for it in points[:MOST]]
        there = at(place, time)
        return f"before {there}: {some_of(counts)}" if counts else f"the view counts nothing before {there}"
