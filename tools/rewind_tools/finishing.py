"""How a point can still finish, for every tool alike: what somebody outside must do and what the protocol
then does; the fewest steps; and whether a run goes round a loop.

    way = way_of(ask, graph, query)      a Way for a query 'why'; `ask` asks a copy that may move
    way.lines                            the lines that lead to the point's end, none if there is no way
    way.words(holds)                     what is left at rest, each line in words, what is left after them
    way_shown(ask, graph, asked)         the same for the page
    fewest(ask, graph, asked)            the fewest steps, or that there are none
    Rounds()                             what stays said of a run that goes round a loop"""
import json
from typing import NamedTuple

from rewind_tools.at_rest import LAST_COUNTER, MOST
from rewind_tools.script import MOST_LITERALS, STEPS, USERS
from rewind_tools.telling.commands import at, command_words, counted, plain
from rewind_tools.telling.reasons import rest_words

# How many states are looked at first for the fewest steps, and at most; how many steps before its end show
# whether a run goes round, and from how many rounds on it does.
STATES, MOST_STATES = 1000, 1_000_000
LOOKED_BACK, ROUNDS = 300, 3
# How many lines a way has at most; with which seeds a run by lot is tried, how long it is, and how many
# candidates it lists about: all of them before each step.
MOST_LINES, SEEDS, LOT, MOST_LISTED = 1000, (1, 2, 3), 2000, 2_000_000
FINISHED = "it is finished already"
NOT_MOVES = "feeds with values, sends and moves of capabilities are not among the steps that are tried"
# What each kind of step is.
KINDS = {
    "feed": "from outside: the input goes on",
    "release": "from outside: a capability is given up",
    "take": "a record is consumed",
    "notice": "a notification is delivered",
    "broadcast": "progress is sent",
    "receive": "progress is received",
}


class Way(NamedTuple):
    """How a point can finish: the reply at rest before all lines, the lines, the reply at rest after them,
    and if the run there does not come to rest the words for its loop."""

    first: dict
    lines: list
    last: dict
    loop: str

    def words(self, holds):
        """What is left at rest; what each line is; and if they do not lead to the end, what is left then."""
        lines = [line_words(it, number == 0) for number, it in enumerate(self.lines)]
        left = [rest_words(self.last, holds)] if self.lines and not self.last["passed"] else []
        end = [] if self.last["passed"] else ["no step that can be offered ends that"]
        return rest_words(self.first, holds), lines, [*left, *filter(None, [self.loop]), *end]


def condition(graph, asked):
    """The condition that a point is finished for a processor; of the question `before`, that all that could
    result in the point is, which is what a notification waits for: each edge into the vertex, and the
    earlier times of the vertex itself."""
    q, place, time = asked["q"], asked["at"], asked["time"]
    points = [[place, time]]
    if asked.get("before") and place in graph.vertices:
        points = [[it["name"], time] for it in graph.edges.values() if it["to"] == place]
        earlier = [[*time[:i], it - 1, *time[i + 1 :]] for i, it in enumerate(time) if it]
        points += [[place, it] for it in earlier]
        if not 1 <= len(points) <= MOST_LITERALS:
            points = [[place, time]]
    passed = [{"passed": {"q": q, "at": name, "time": it}} for name, it in points]
    return passed[0] if len(passed) == 1 else {"all": passed}


# ---- a way by what is left at rest


def way_of(ask, graph, query):
    """Runs to rest, ends from outside what is left there, and so on, until the point is finished or nothing
    can be ended."""
    first = reply = ask({**query, "rest": MOST})
    lines = []
    while reply.get("passed") is False and reply["stop"] == "rest" and len(lines) < MOST_LINES:
        if not ended(ask, reply, query["time"][0], lines):
            break
        reply = ask({**query, "rest": MOST})
    loop = ""
    if reply.get("passed") and reply["ran"]:
        run = {"do": "run", "limit": reply["ran"]}
        lines.append(run_until(ask, graph, query, run) or run)
    elif reply.get("stop") == "limit":
        loop = goes_round(ask, graph)
        found = by_lot(ask, graph, query)
        lines, reply = (lines + [found], {**reply, "passed": True}) if found else (lines, reply)
    return Way(first, lines, reply, loop)


def outside(reply, epoch):
    """The steps that end all that is left at rest, each of somebody outside."""
    for reason in reply["reasons"]:
        (vertex, time), on_epoch = reason["point"], "close" if epoch == LAST_COUNTER else {"to": epoch + 1}
        for it in reason["held"]:
            if "token" in it:
                to = "next" if time[0] == epoch != LAST_COUNTER else on_epoch
                yield {"do": "feed", "p": it["p"], "vertex": vertex, "values": [], "next": to}
            elif "request" in it:
                yield {"do": "release", "p": it["p"], "vertex": vertex, "time": time}


def ended(ask, reply, epoch, lines):
    """Adds the steps that end what is left at rest, after the run to rest if one of them needs that; whether
    all of them are executed."""
    count, run = len(lines), [{"do": "run", "limit": reply["ran"]}] if reply["ran"] else []
    for it in outside(reply, epoch):
        refused = "error" in ask(it)
        if refused and run and "error" not in ask(run[0]):
            lines.append(run.pop())
            refused = "error" in ask(it)
        if refused:
            return False
        lines.append(it)
    return len(lines) > count


def run_until(ask, graph, query, run):
    """The part of a run that leads to the point's end, as a line; None if it does not lead there."""
    made = ask({"do": "break", "when": condition(graph, query)})
    ran = ask(run)
    ask({"do": "unbreak", "id": made.get("id", 0)})
    is_there = isinstance(ran.get("stop"), dict) and ask(query).get("passed")
    return {**run, "limit": ran["ran"]} if is_there else None


def by_lot(ask, graph, query):
    """A run by lot that leads to the point's end, where the run in turn does not come to rest; None if none
    is found."""
    limit = steps_by_lot(ask)
    here = ask({"do": "run", "limit": 1})["at"] - 1
    for seed in SEEDS:
        ask({"do": "jump", "to": here})
        if found := run_until(ask, graph, query, {"do": "run", "limit": limit, "seed": seed}):
            return found
    return None


def steps_by_lot(ask):
    """How many steps a run by lot has: the fewer, the more candidates there are."""
    if "more" not in ask({"do": "candidates"}):
        return LOT
    of_each = ask({"do": "state"})["state"]["processors"]
    listed = sum(len(it["records"]) + len(it["requests"]) for it in of_each)
    return max(1, min(LOT, MOST_LISTED // max(1, listed)))


def line_words(line, is_first):
    """A line of a way: what somebody outside must do, or what the protocol does."""
    if line["do"] == "run":
        lot = f", chosen by the seed {line['seed']}" if "seed" in line else ""
        return f"the protocol {'' if is_first else 'then '}does {counted(line['limit'], 'step')}{lot}"
    if line["do"] in ("take", "notice", "broadcast", "receive"):
        return f"then {command_words(line)}"
    closed = ", or gives up its token" if line["do"] == "feed" and line["next"] != "close" else ""
    return f"somebody must: {command_words(line)}{closed}"


def way_shown(ask, graph, asked):
    """How a point can finish, as the page shows it. A notification that waits for that end is the last
    step."""
    keys = ("q", "at", "time", *(["before"] if asked.get("before") else []))
    query = {"do": "why", **{key: asked[key] for key in keys}}
    now = ask(query)
    if "error" in now or now["passed"]:
        return {"error": error_words(now)} if "error" in now else {"words": FINISHED, "steps": []}
    way = way_of(ask, graph, query)
    then = json.loads(asked["then"]) if asked.get("then") else None
    if way.last["passed"] and then and "error" not in ask(then):
        way.lines.append(then)
    first, lines, notes = way.words(graph.holds)
    steps = [shown(*it) for it in zip(way.lines, lines)]
    return {"words": plain(first), "steps": steps, "notes": [*map(plain, notes)], "ends": way.last["passed"]}


def shown(line, words):
    return {"kind": line["do"], "words": plain(words), "line": json.dumps(line)}


def error_words(reply):
    return f"{reply['error']} ({reply['code']})"


# ---- the fewest steps


def fewest(ask, graph, asked):
    """The fewest steps to the point's end, each in words with what it is and its line; or that there are
    none. A notification that waits for that end is the last step."""
    limit = max(1, min(int(asked.get("limit", STATES)), MOST_STATES))
    line = {"do": "reach", "when": condition(graph, asked), "limit": limit, "with": [*USERS]}
    reply = ask(line)
    if "error" in reply:
        return {"error": error_words(reply)}
    if reply["steps"] is None:
        return nowhere(reply, limit)
    steps = reply["steps"] + ([json.loads(asked["then"])] if asked.get("then") else [])
    words = f"by {counted(len(steps), 'step')}, and no fewer:" if steps else FINISHED
    told = [{**shown(it, command_words(it)), "what": KINDS[it["do"]]} for it in steps]
    return {"steps": told, "words": words, "ends": True}


def nowhere(reply, limit):
    """That no steps were found, and how many states may be looked at next."""
    states = counted(reply["states"], "state")
    if reply["whole"]:
        words = f"by no steps: {states} can be reached, and it is finished in none of them; {NOT_MOVES}"
        return {"steps": None, "words": words}
    more = limit * 10 if limit * 10 <= MOST_STATES else None
    words = f"by no short list of steps: it is finished in none of the first {states} that can be reached"
    return {"steps": None, "words": f"{words}; {NOT_MOVES}", "more": more}


# ---- loops


def goes_round(ask, graph):
    """Runs a copy, says whether it goes round a loop, and goes back."""
    ran = ask({"do": "run", "limit": LOOKED_BACK})
    if "ran" not in ran:
        return ""
    said = rounds(ask, graph, ran, "in the next")
    ask({"do": "jump", "to": ran["at"] - ran["ran"]})
    return said


def steps_back(reply):
    """The positions of the last steps of a run."""
    return range(max(1, reply["at"] - min(reply["ran"], LOOKED_BACK) + 1), reply["at"] + 1)


def rounds(ask, graph, reply, when="in the last"):
    """Of a run that stopped before it came to rest, which loop a record goes round and how the loop's
    counter grows; an empty text if none grew in its last steps."""
    return loop_words([ask({"do": "step", "to": it})["step"] for it in steps_back(reply)], graph, when)


def loop_words(steps, graph, when="in the last"):
    """Which loop a record goes round in some steps, if it does."""
    back = {
        name: it["to"]
        for name, it in graph.edges.items()
        if graph.vertices[it["to"]]["op"] == "feedback"
    }
    counters = {}
    for it in steps:
        if it["do"] == "take" and it["edge"] in back:
            *outer, counter = it["time"]
            counters.setdefault((back[it["edge"]], *outer), set()).add(counter)
    risen = [(len(it), key) for key, it in counters.items() if len(it) >= ROUNDS]
    if not risen:
        return ""
    vertex, *outer = key = max(risen)[1]
    least, most = min(counters[key]), max(counters[key]) + 1
    grew = f"{when} {len(steps)} steps its counter grows from {least} to {most}"
    return f"a record goes round loop {at(vertex, outer)}: {grew}"


class Rounds:
    """What is said of a run that went round a loop, at each position from its begin on, until other steps
    are kept there or a run comes to rest."""

    def __init__(self):
        self.begin, self.words = 0, ""

    def note(self, ask, graph, value, reply, before):
        """Notes a command that was executed at a position, by its reply."""
        if value["do"] in (*STEPS, "run") and reply.get("at", before) > before < self.begin:
            self.words = ""
        if value["do"] != "run" or "ran" not in reply:
            return
        said = rounds(ask, graph, reply) if reply["stop"] in ("limit", "interrupt") else ""
        if said and not self.words:
            self.begin = reply["at"] - reply["ran"]
        if said or reply["ran"] >= LOOKED_BACK or reply["stop"] == "idle":
            self.words = said

    def of_script(self, ask, graph, entries):
        """Hands the entries of a script on, and notes at their end what moved the cursor last."""
        last = None
        for it in entries:
            last = it if "at" in it.reply else last
            yield it
        if last:
            self.note(ask, graph, last.line.value, last.reply, last.reply["at"])

    def at(self, cursor):
        return self.words if cursor >= self.begin else ""
