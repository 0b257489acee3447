"""What a recorded page knows of all kept steps, by their positions: each step, what it carries to other
processors, which times can still arrive where as each processor knows, at which steps views change, and
which points are finished.

A step at a cursor before the last kept step discards the steps after it, and is a cut: an entry counts until
a cut at an earlier position. page/recorded.js reads the entries: [cuts before it, position, value] each."""
from rewind_tools.live.over_time import carried
from rewind_tools.live.sight import item
from rewind_tools.telling.commands import at, plain


class Log:
    """The entries, by what they are about. `pictures` asks the program (live/pictures.py)."""

    def __init__(self, pictures, graph):
        self.pictures = pictures
        self.places = [it["name"] for it in graph["vertices"] + graph["edges"]]
        self.entries = {name: {} for name in ("steps", "carried", "times", "views", "finished")}
        self.cuts, self.seen, self.last, self.viewed = [], set(), {}, {}

    def cut(self, position):
        """Notes that the steps after a position are discarded."""
        self.cuts.append(position)
        self.seen = {it for it in self.seen if it <= position}
        self.viewed, self.last = {}, {}

    def add(self, kind, key, position, value):
        """Adds an entry, if it has another value than the one before."""
        if (kind, key) in self.last and self.last[kind, key] == value:
            return
        self.last[kind, key] = value
        self.entries[kind].setdefault(key, []).append([len(self.cuts), position, value])

    def note(self, position, state, effect, with_place):
        """Notes what there is at a position, the first time that it is shown."""
        if position in self.seen:
            return
        self.seen.add(position)
        if position:
            self.note_step(position, with_place)
        for it in effect:
            self.note_effect(position, it)
        self.note_times(position, state)

    def note_step(self, position, with_place):
        shown = item(position, self.pictures.session.ask({"do": "step", "to": position})["step"])
        shown["words"] = with_place(position, shown["words"])
        self.entries["steps"].setdefault("", []).append([len(self.cuts), position, shown])

    def note_effect(self, position, effect):
        brought = carried(effect)
        if brought:
            self.add("carried", "", position, brought)
        for q, place, time, _, now in effect["changed"].get("views", []):
            self.add("views", f"{q} {plain(at(place, time))}", position, now)

    def note_times(self, position, state):
        """Notes which times can arrive at each place, as far as processors whose view is another know."""
        asked = [
            (q, place)
            for q, it in enumerate(state["processors"])
            if self.viewed.get(q) != it["view"]
            for place in self.places
        ]
        self.viewed = {q: it["view"] for q, it in enumerate(state["processors"])}
        for (q, place), reply in zip(asked, self.pictures.frontiers(state, asked)):
            self.add("times", f"{q} {place}", position, reply.get("times", []))

    def note_whys(self, position, whys):
        for key, it in whys.items():
            if "finished" in it:
                self.add("finished", key.split(" ", 1)[1], position, it["finished"])

    def packed(self):
        return {"cuts": self.cuts, **self.entries}
