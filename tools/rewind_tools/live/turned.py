"""Where conditions turn among the kept steps. The program walks over the steps to answer that, so it is
asked once for all of them, in pieces, and then only for new ones. What is finished stays finished, so where
that turns is found by halving."""
import json

# How many turns are looked for, and of how many conditions they are kept.
MOST, CONDITIONS = 1000, 60


class Known:
    """What is known of the conditions that were asked about last."""

    def __init__(self):
        self.known = {}

    def of(self, when, new):
        """What is known of a condition, which then is the last that was asked about; at first `new`."""
        key = json.dumps(when, sort_keys=True)
        it = self.known.pop(key, new)
        self.known = {**dict([*self.known.items()][1 - CONDITIONS :]), key: it}
        return it


class Turned(Known):
    """Whether each condition holds at the start, its turns, and up to which position they are known."""

    def forget_from(self, position):
        """Forgets the turns past a position, since others may be kept there."""
        for it in self.known.values():
            it["to"] = min(it["to"], position)
            it["turns"] = [at for at in it["turns"] if at <= position]

    def about(self, when):
        return self.of(when, {"to": 0, "turns": []})

    def next_line(self, when, kept, most):
        """The question about the next positions that are not known; None if there is none."""
        it = self.about(when)
        if "error" in it or "at_lo" in it and (it["to"] >= kept or len(it["turns"]) >= MOST):
            return None
        return {"do": "turns", "when": when, "lo": it["to"], "hi": min(kept, it["to"] + most)}

    def add(self, line, reply):
        """Adds the answer to that question."""
        it = self.about(line["when"])
        if "error" in reply:
            it["error"] = reply["error"]
        if "error" in reply or line["lo"] != it["to"]:
            return
        it.setdefault("at_lo", reply["at_lo"])
        it["turns"] += reply["turns"]
        it["to"] = reply["turns"][-1] if reply.get("more") else line["hi"]


class Since(Known):
    """From which position on each condition holds that stays so once it holds: the last position at which it
    is known not to hold, and the first at which it is known to hold, None if there is none."""

    def forget_from(self, position):
        """Forgets what is known past a position, since other steps may be kept there."""
        for it in self.known.values():
            it["no"] = min(it["no"], position)
            it["yes"] = None if it["yes"] is not None and it["yes"] > position else it["yes"]

    def next_line(self, when, kept):
        """The next question; None if there is none."""
        it = self.of(when, {"no": -1, "yes": None})
        at = kept if it["yes"] is None else (it["no"] + it["yes"]) // 2
        return None if "error" in it or at <= it["no"] else {"do": "turns", "when": when, "lo": at, "hi": at}

    def add(self, line, reply):
        """Adds the answer to that question."""
        it = self.of(line["when"], {"no": -1, "yes": None})
        if "error" in reply:
            it["error"] = reply["error"]
        else:
            it["yes" if reply["at_lo"] else "no"] = line["lo"]

    def about(self, when, kept):
        """What is known of a condition, as of others."""
        it = self.of(when, {"no": -1, "yes": None})
        no, yes, is_found = it["no"], it["yes"], it["no"] + 1 == it["yes"]
        lane = {"at_lo": False, "turns": [yes] if is_found and yes else [], "to": kept if is_found else no}
        lane.update({"at_lo": True} if yes == 0 else {"at_lo": None, "to": 0} if no < 0 else {})
        return {**lane, "error": it.get("error")}
