"""The page of a run that is recorded: a position for each line that is answered, and before a run's own one
for each of its steps but the last.

What a position shows is asked of a copy of the script, in the last version that the program reads, by one
client: the picture that a live page would show, and why processors do not consider points finished."""
import json
from html import escape

from rewind_tools import sources
from rewind_tools.live.pictures import LAST_COUNTER, Pictures
from rewind_tools.page import about_of, filled, graph_of, inlined, part, verdict_of
from rewind_tools.runs import run_script, without_clients
from rewind_tools.script import COMMANDS, STEPS
from rewind_tools.session import Ended, Session
from rewind_tools.showing.over_time import Log
from rewind_tools.showing.packing import Packer, compressed
from rewind_tools.showing.states import order_of
from rewind_tools.telling import faults
from rewind_tools.telling.commands import command_words, counted, processor_of, time_in
from rewind_tools.telling.table import Points

# How many steps of runs a page shows at most, those that end a run aside; how long a line or a reply is;
# how many points of the table it shows; and for how many states it asks what the last step changed.
MOST_STEPS, LONGEST, ROWS, MOST_EFFECTS = 10_000, 2000, 400, 1000
# How many queries for reasons a page asks about all points; how many more about fewer of them, which are
# those that the script's lines name, and those at which a vertex waits for its notification; how many steps
# the program runs for what is left at rest; and what of each there is at the end, where some pages open.
MOST = {"all": 20_000, "fewer": 20_000, "steps": 500_000}
AT_END = {"all": 1000, "fewer": 4000, "steps": 20_000}
# As how many steps one answer about what is left at rest counts at least, and how many are asked at once.
LEAST_STEPS, AT_ONCE = 50, 16
# The words of lines that ask about a point, or wait at one.
NAMING = ("passed", "why", "notice", "send", "release")
FOLLOWED = ("error", "code", "at", "kept", "ok", "ran")


def dumped(value):
    """A value as the program writes it: compact, keys in order."""
    return json.dumps(value, separators=(",", ":"), sort_keys=True, ensure_ascii=False)


def why_key(q, place, time, before):
    """The key of the answer about a point."""
    return f"{q} {place} {time_in(time)}{' before' if before else ''}"


def cut(text):
    return text if len(text) <= LONGEST else f"{text[:LONGEST]} .. ({counted(len(text), 'letter')} in all)"


def named_points(told):
    """The points that the script's own lines ask about, in their order, each once."""
    values = [it.line.value for it in told.entries if it.line and "error" not in it.reply]
    asked = [it for it in values if isinstance(it, dict) and it.get("do") in NAMING]
    return list(dict.fromkeys((it.get("vertex", it.get("at")), tuple(it["time"])) for it in asked))


class Copy:
    """The copy of a script, from which the pictures come. It is there until it answers a line in another way
    than the script, or ends."""

    def __init__(self, told, words, teller):
        self.session = Session(told.graph, without_clients(words))
        self.places = {}
        self.pictures, self.named = Pictures(self.session, teller, self.with_place), named_points(told)
        self.left, self.log = dict(MOST), Log(self.pictures, told.graph)
        self.revision, self.is_there, self.arrived = 0, "locations" in self.session.started, []
        self.at = self.kept = 0
        self.whys_told = (None, None)
        sinks = [it["name"] for it in told.graph["vertices"] if it["op"] == "sink"]
        self.first_asked = [*sinks, *(it["name"] for it in told.graph["vertices"][::-1])][:1]

    def execute(self, value):
        """Executes a command; its reply."""
        reply = self.session.ask(value)
        if value["do"] in (*STEPS, "run") and reply.get("at", self.at) > self.at:
            self.pictures.forget_from(self.at)
            if self.at < self.kept:
                self.log.cut(self.at)
        self.revision += 1
        self.at, self.kept = reply.get("at", self.at), reply.get("kept", self.kept)
        return reply

    def with_place(self, position, said):
        """What is said of the step that leads to a position, with where it comes from, if that is known."""
        return sources.with_place(said, self.places.get(position))

    def follow(self, entry, place=None):
        """Executes the line of a command, which comes from a place."""
        value = entry.line.value if entry.line and "line" not in entry.reply else None
        if isinstance(value, dict) and value.get("do") in COMMANDS:
            reply = self.execute({key: it for key, it in value.items() if key != "client"})
            self.is_there = all(reply.get(key) == entry.reply.get(key) for key in FOLLOWED)
            if value["do"] in STEPS:
                self.note_step(value, reply, place)

    def mark(self, marks, last):
        """Marks what was refused after steps, and after the last one."""
        for step, *it in marks:
            self.pictures.mark(last if step == "end" else step, *it)

    def note_step(self, value, reply, place):
        """Notes where a step comes from, or marks that it was refused."""
        if "error" in reply:
            why = self.pictures.teller.refused(value, reply, None)
            self.pictures.mark(self.at, processor_of(value), f"{command_words(value)}: {'; '.join(why)}")
        else:
            self.places[self.at] = place

    def go_to(self, position):
        """Goes to a position within a run, and returns the step that leads there."""
        self.execute({"do": "jump", "to": position})
        return self.session.ask({"do": "step", "to": position})["step"]

    def picture(self, kept, stopped):
        """The picture at the cursor, of `kept` steps; `stopped` is the id of the breakpoint at which a
        run stopped."""
        sight = {"rows": ROWS, "effect": self.revision <= MOST_EFFECTS, "steps": False}
        told = self.pictures.of(self.at, kept, self.revision, sight)
        state, _, effect = self.pictures.at_cursor(self.at, self.revision)
        self.log.note(self.at, state, effect, self.with_place)
        told["marked"], told["cuts"] = [], len(self.log.cuts)
        told["breaks"] = [{**it, "holds": it["id"] == stopped} for it in told["breaks"]]
        return told

    @property
    def state(self):
        return self.pictures.at_cursor(self.at, self.revision)[0]

    def whys(self):
        """Which points the page has answers about here, and the answers by processor and point."""
        if self.whys_told[0] != self.revision:
            self.whys_told = self.revision, self.ask_whys()
            self.log.note_whys(self.at, self.whys_told[1][1])
        return self.whys_told[1]

    def ask_whys(self):
        state, order = self.state, self.pictures.order
        points, count = Points(state, order), len(state["processors"])
        waiting = [(place, tuple(time)) for it in state["processors"] for place, time in it["requests"]]
        for asked, wanted in (("all", points.all()), ("fewer", waiting)):
            wanted = sorted({*wanted, *self.named, *self.arriving(state)}, key=points.place)
            places = {place for place, _ in wanted}
            queries = (len(wanted) + len({*waiting}) + len(places)) * count
            if queries <= self.left[asked]:
                self.left[asked] -= queries
                points = [(q, *it, False) for q in range(count) for it in wanted]
                before = [(q, *it, True) for q in range(count) for it in dict.fromkeys(waiting)]
                return asked, self.asked(before + points)
        return "none", {}

    def arriving(self, state):
        """Where a page asks first, which is a sink if there is one: the earliest time that can still arrive,
        as far as each processor knows, and that of the start."""
        asked = [(q, place) for q in range(len(state["processors"])) for place in self.first_asked]
        replies = self.pictures.frontiers(state, asked)
        found = [(it[1], tuple(reply["times"][0])) for it, reply in zip(asked, replies) if reply["times"]]
        found = [it for it in found if max(it[1]) <= LAST_COUNTER]
        self.arrived = self.arrived or found[:1]
        return [*self.arrived, *found]

    def asked(self, wanted):
        """The answers about points by processor, and about what is strictly before them."""
        places = list(dict.fromkeys(it[:2] for it in wanted))
        arriving = dict(zip(places, self.pictures.frontiers(self.state, places)))
        questions = [
            {"q": q, "at": it, "time": [*time], "before": strictly} for q, it, time, strictly in wanted
        ]
        answers = self.pictures.whys(questions, [arriving[it[:2]] for it in wanted]) if wanted else []
        self.add_rest(questions, answers)
        return {why_key(*it): answer for it, answer in zip(wanted, answers)}

    def add_rest(self, questions, answers):
        """Adds what is left at rest to the answers about what is not finished, as far as a page goes."""
        left = [it for it in zip(questions, answers) if it[1].get("passed") is False]
        for some in (left[at : at + AT_ONCE] for at in range(0, len(left), AT_ONCE)):
            told = self.pictures.rests([question for question, _ in some]) if self.left["steps"] > 0 else []
            for (_, answer), (answer["rest"], ran) in zip(some, told):
                self.left["steps"] -= max(ran, LEAST_STEPS)


class Recorder:
    """The positions of a page, one after the other."""

    def __init__(self, told, script, words, report, places):
        self.count, self.done, self.report, self.places = len(told.entries), 0, report, places
        self.teller = faults.teller_of(told, script)
        has_graph = any("locations" in it.reply for it in told.entries)
        self.copy = Copy(told, words, self.teller) if has_graph else None
        self.packer, self.ends, self.ats, self.steps_left = Packer(), [], [], MOST_STEPS
        self.begun, self.before = False, None

    def add(self, entry):
        """Adds the positions of one line."""
        asked, answer = faults.told_line(entry, self.before, self.teller)
        first = len(self.ats)
        said = self.try_copy(entry) if self.begun else []
        self.begun = self.begun or "locations" in entry.reply
        if self.copy and self.done == self.count - 1:
            self.copy.left = {key: max(left, AT_END[key]) for key, left in self.copy.left.items()}
        self.place(entry, {**shown_line(entry), "asked": asked, "answer": answer + said}, None)
        self.ends += [len(self.ats) - 1] * (len(self.ats) - first)
        self.done += 1
        self.before = self.of_copy(lambda: self.copy.state)

    def of_copy(self, ask):
        """What is asked of the copy, None if it is not there."""
        if not self.copy or not self.copy.is_there or not self.begun:
            return None
        try:
            return ask()
        except Ended:
            self.copy.is_there = False
            return None

    def try_copy(self, entry):
        """Has the copy follow a line; returns what the page says of it beside the program's answer."""
        return self.of_copy(lambda: self.follow(entry)) or []

    def follow(self, entry):
        """Has the copy follow a line, and adds the steps of a run but the last."""
        self.copy.follow(entry, self.places.get(entry.line and entry.line.number))
        last, ran = entry.reply.get("at"), entry.reply.get("ran", 0)
        if not ran or not self.copy.is_there:
            return []
        shown = range(last - ran + 1, last)[: self.steps_left]
        for position in shown:
            step = command_words(self.copy.go_to(position))
            number = position - last + ran
            self.place(entry, {"step": number, "ran": ran, "asked": step, "answer": []}, position)
        self.steps_left -= len(shown)
        said = [f"its last step: {command_words(self.copy.go_to(last))}"]
        left_out = ran - 1 - len(shown)
        if left_out:
            said.append(f"this page leaves out {counted(left_out, 'step')} before it")
        return said

    def place(self, entry, shown, position):
        """Adds a position, within a run or of a line, with what the copy shows there."""
        stop = entry.reply.get("stop") if position is None else None
        stopped = stop["break"] if isinstance(stop, dict) else None

        def picture():
            return self.copy.picture(self.copy.kept, stopped)

        told = self.of_copy(picture)
        which, whys = (self.of_copy(self.copy.whys) if told else None) or ("none", {})
        line = {"line": entry.line and entry.line.number, "client": entry.client}
        self.packer.add({**line, **shown, "picture": told, "which": which, "why": whys})
        self.ats.append(told["at"] if told else None)
        self.report(f"{self.done} of {self.count} lines, {len(self.ats)} positions so far")


def shown_line(entry):
    """A line and its reply as they are; of a refused graph the place that the reply names."""
    return {
        "text": cut(entry.line.text.decode(errors="backslashreplace").strip()) if entry.line else "",
        "reply": cut(dumped(entry.reply)),
        "refused": "error" in entry.reply,
        "mark": order_of(entry.line.value)[entry.reply["location"]] if "location" in entry.reply else None,
    }


def recorded(told, script, words, report, marks, places):
    """The data of a page. How many lines and positions are done is reported."""
    recorder = Recorder(told, script, words, report, places)
    try:
        if recorder.copy:
            recorder.copy.mark(marks, last_kept(told))
        for entry in told.entries:
            recorder.add(entry)
    finally:
        if recorder.copy:
            recorder.copy.session.close()
    over = recorder.copy.log.packed() if recorder.copy else {}
    return {"ends": recorder.ends, "ats": recorder.ats, "over": compressed(over), **recorder.packer.packed()}


def embedded(value):
    """A value as JSON that may stand inside a script element."""
    text = json.dumps(value, separators=(",", ":"), ensure_ascii=False)
    return text.replace("<", "\\u003c").replace(">", "\\u003e").replace("&", "\\u0026")


def last_kept(told):
    """How many steps a run has kept at its end."""
    return next((it.reply["kept"] for it in reversed(told.entries) if "kept" in it.reply), 0)


# tools/follow makes the page of a trace by this: `script` is the merged run, `marks` what was refused.
def page_of(
    name,
    script,
    words,
    uses_dot=True,
    report=lambda text: None,
    marks=(),
    places=None,
    verdict="",
    is_at_end=False,
):
    """The page of a script's run, and the run. `marks` has what was refused, which is shown in red: the
    number of the step before it, or "end", the worker and a text. `places` has by the number of a line of
    the script where that comes from, as bytes (rewind_tools/sources.py). The verdict is what was said of a
    run that was followed; with one the page opens at its end, else at its first position with a state."""
    told = run_script(script, words, ())
    start = next((it.reply for it in told.entries if "locations" in it.reply), {})
    has_form = start or any("location" in it.reply for it in told.entries[:1])
    graph = told.graph if has_form else {"vertices": [], "edges": []}
    count = start.get("processors", 0)
    none = {"graph": "<p>The program has read no graph.</p>", "loops": "", "prefix": ""}
    drawn = graph_of(graph, uses_dot) if has_form else none
    about = about_of(graph, name, count)
    run = recorded(told, script, words, report, marks, places or {})
    first = next((it for it, at in enumerate(run["ats"]) if at is not None), 0)
    about["opens"] = len(run["ats"]) - 1 if verdict or is_at_end else first
    values = {
        "title": escape(f"{name}, {counted(count, 'processor')}" if start else name),
        "command": escape(" ".join(["rewind", *words, "<", name])), "verdict": verdict_of(verdict, marks),
        "about": escape(json.dumps(about)), **drawn, "last": str(len(run["ats"]) - 1),
        "style": f"<style>\n{part('page.css')}</style>",
        "scripts": f'<script type="application/json" id="recorded">{embedded(run)}</script>\n'
        f'<script type="module">\n{inlined("recorded.js", set())}</script>',
    }  # fmt: skip
    return filled("recorded", values), told
