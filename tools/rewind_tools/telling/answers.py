"""The program's replies in words, with what a script's earlier replies told: the cursor, the kept steps, the
breakpoints."""
from rewind_tools.script import STEPS, literals_in
from rewind_tools.telling.commands import at, command_words, condition, counted, ports_words, processors
from rewind_tools.telling.commands import record, some_of, time_in
from rewind_tools.telling.effects import effect_words
from rewind_tools.telling.forms import listed
from rewind_tools.telling.reasons import rest_words, why_words

MOST_STEPS = 40


class Teller:
    """Tells one reply after the other, and keeps what they tell of the timeline."""

    def __init__(self, graph, processors, has_clients, version=1):
        self.graph, self.processors, self.has_clients, self.version = graph, processors, has_clients, version
        self.at, self.kept, self.breaks = 0, 0, {}

    def told(self, value, reply, before):
        """The answer to a command or query, in a list of sentences; 'before' is the state at which it was
        asked, or None."""
        self.keep(value, reply)
        if "error" in reply:
            return self.refused(value, reply, before)
        return ANSWERS[value["do"]](self, value, reply) + self.warnings(value)

    def keep(self, value, reply):
        """Keeps what a reply tells of the timeline and the breakpoints."""
        self.at, self.kept = reply.get("at", self.at), reply.get("kept", self.kept)
        if value["do"] == "run" and reply.get("error") == "Memory" and "at" in reply:
            self.kept = None
        if value["do"] == "break" and "id" in reply:
            self.breaks[reply["id"]] = condition(value["when"])

    def moved(self, value, reply):
        return [f"done: {cursor(reply)}"]

    def ran(self, value, reply):
        stop = reply["stop"]
        if stop == "idle":
            why = "nothing is enabled" + (f" on {processors(value['only'])}" if "only" in value else "")
        elif stop == "limit":
            why = "that is the limit"
        elif stop == "interrupt":
            why = "Ctrl-C"
        else:
            why = (
                f"breakpoint {stop['break']} holds:"
                f" {self.breaks.get(stop['break'], 'set by a line not shown here')}"
            )
        return [f"ran {counted(reply['ran'], 'step')}, then stopped: {why}", cursor(reply)]

    def cleared(self, value, reply):
        return [f"done: it was {self.breaks.pop(value['id'], 'set by a line not shown here')}"]

    def hindrance(self, value, reply, before):
        """The number and the name of a refusal, and what stands in the way; an empty text if that is all."""
        why = REFUSALS.get(reply["error"])
        return f"{reply['code']} {reply['error']}", why(self, value, reply, before) if why else ""

    def refused(self, value, reply, before):
        """A refusal: what stands in the way, and its number and name."""
        name, said = self.hindrance(value, reply, before)
        return [f"refused: {said} ({name})" if said else f"refused, {name}"]

    def kept_positions(self):
        if self.kept is None:
            return "how many are kept is not known"
        if self.kept:
            return f"the kept positions are 0 to {self.kept}"
        return "no step is kept, so position 0 is the only one"

    def absent_processors(self, value):
        """Which of the processors that an object names is none, and which there are; an empty text if all
        are there."""
        asked = [value[key] for key in ("p", "q", "from", "to", "dest") if isinstance(value.get(key), int)]
        asked += value.get("only", [])
        absent = sorted({it for it in asked if self.processors is not None and it >= self.processors})
        there = (
            "is processor 0 alone"
            if self.processors == 1
            else f"are the processors 0 to {(self.processors or 0) - 1}"
        )
        return f"there is no processor {listed(map(str, absent), 'or')}; there {there}" if absent else ""

    def no_processor(self, value, reply, before):
        return self.absent_processors(value)

    def warnings(self, value):
        """That a condition names a processor that is not there: what that means for the breakpoint, the
        search or the turns."""
        literals = literals_in(value["when"]) if "when" in value else []
        absent = {self.absent_processors(inner): is_negated for is_negated, _, inner in literals}
        absent.pop("", None)
        if absent and len(literals) == 1 and not any(absent.values()):
            never = (
                "this breakpoint never triggers" if value["do"] == "break" else "this holds at no position"
            )
            return [f"warning: {never}: {next(iter(absent))}"]
        return [
            f"warning: what is said of it {'always' if is_negated else 'never'} holds: {it}"
            for it, is_negated in absent.items()
        ]

    def not_input(self, value, reply, before):
        inputs = [name for name, it in self.graph.vertices.items() if it["op"] == "input"]
        return f"{value['vertex']} is {self.graph.kind(value['vertex'])}; inputs: {some_of(inputs)}"

    def no_break(self, value, reply, before):
        return f"there is no breakpoint {value['id']}; set: {some_of(sorted(self.breaks))}"

    def no_such_point(self, value, reply, before):
        if value["do"] in ("step", "effect") and value["to"] == 0:
            return f"no step leads to position 0, where the script begins; {self.kept_positions()}"
        return (
            f"position {value.get('hi', value.get('to'))} is past the last kept step;"
            f" {self.kept_positions()}"
        )


def cursor(reply):
    return f"the cursor is at {reply['at']} of {counted(reply['kept'], 'kept step')}"


def not_yet(teller, value, reply, before):
    there = at(value["vertex"], value["time"])
    said = f"processor {value['p']}'s view has {at(*reply['point'])} strictly before {there}"
    if value["vertex"] not in teller.graph.holds:
        return said
    return f"{said}; {value['vertex']} is {teller.graph.holder(value['vertex'])}, so it is never notified"


def not_notified(teller, value, reply, before):
    what = f"{value['vertex']} is {teller.graph.holder(value['vertex'])}"
    return f"{what}: it is never notified, and holds its capability until a release"


def no_port(teller, value, reply, before):
    has = ports_words(teller.graph.vertices[value["vertex"]]["ports"])
    return f"{value['vertex']} has {has}, and the send names port {value['port']}"


def by_order(teller):
    """What the order of a graph says of a later time, if it is not that of most graphs."""
    is_product = teller.graph.value.get("order") == "product"
    return "; the order of times is product, so no number may be less" if is_product else ""


def too_early(teller, value, reply, before):
    start = f"{time_in(value['at'])} is not at or after {time_in(value['time'])}"
    return f"{start}, the time of the capability{by_order(teller)}"


def not_later(teller, value, reply, before):
    """A capability or a token that would not move to a later time."""
    if value["do"] == "release":
        return f"{time_in(value['to'])} is not strictly after {time_in(value['time'])}{by_order(teller)}"
    to = value["next"]["to"]
    if before is None:
        return f"epoch {to} is not above the token's"
    tokens = before["processors"][value["p"]]["tokens"]
    epoch = next(epoch for vertex, epoch in tokens if vertex == value["vertex"])
    return f"epoch {to} is not above the token's, which is {epoch}"


def inadmissible(teller, value, reply, before):
    place = at(*reply["point"])
    supports = ", nor a capability that it holds at an opaque vertex" if teller.graph.opaques else ""
    return (
        f"{place} would be left out, and is positive; strictly before it there is neither a negative entry"
        f" that is left out, too, nor a token of processor {value['p']}{supports}"
    )


def no_record(teller, value, reply, before):
    """What records there are instead: the processor's on that edge, and the same of other processors."""
    wanted = [value["edge"], value["time"], value["value"]]
    said = f"processor {value['p']} has no {record(value['value'])} at {at(*wanted[:2])}"
    if before is None:
        return said
    own = [it for it in before["processors"][value["p"]]["records"] if it[0] == wanted[0]]
    others = [
        p
        for p, it in enumerate(before["processors"])
        if any(record[:3] == wanted for record in it["records"])
    ]
    there = some_of(f"a {record(it[2])} at {at(*it[:2])}" for it in own)
    elsewhere = f"; {processors(others)} ha{'s' if len(others) == 1 else 've'} one" if others else ""
    return f"{said}; on {value['edge']} it has {there}{elsewhere}"


def no_request(teller, value, reply, before):
    if value["do"] in ("send", "release"):
        return no_capability(teller, value, before)
    said = (
        f"{value['vertex']} on processor {value['p']} has not asked for a notification at"
        f" {time_in(value['time'])}"
    )
    if before is None:
        return said
    asked = before["processors"][value["p"]]["requests"]
    return f"{said}; asked for there: {some_of(at(*it) for it in asked)}"


def no_capability(teller, value, before):
    """What is held instead: by this vertex of the processor, and at this time on other processors."""
    name, graph = value["vertex"], teller.graph
    for is_wanted, vertices, can in (
        (True, graph.holds, "hold capabilities"),
        (value["do"] == "send", graph.opaques, "send"),
        (value.get("keep"), graph.opaques, "keep a capability beside a later one"),
    ):
        if is_wanted and name not in vertices:
            return f"{name} is {graph.kind(name)}; vertices that {can}: {some_of(sorted(vertices))}"
    said = f"processor {value['p']} holds no capability at {at(name, value['time'])}"
    if before is None:
        return said
    requests = [it["requests"] for it in before["processors"]]
    own = [at(*it) for it in requests[value["p"]] if it[0] == name]
    others = [p for p, it in enumerate(requests) if [name, value["time"]] in it]
    elsewhere = f"; {processors(others)} hold{'s' * (len(others) == 1)} one there" if others else ""
    return f"{said}; at {name} it holds: {some_of(own)}{elsewhere}"


def queue_empty(teller, value, reply, before):
    said = f"nothing is on its way from processor {value['from']} to {value['to']}"
    if before is None:
        return said
    senders = [p for p, row in enumerate(before["queues"]) if row[value["to"]]]
    if not senders:
        return f"{said}, nor from others"
    return f"{said}; to {value['to']} something is on its way from {some_of(senders)}"


def timeline_full(teller, value, reply, before):
    if value["do"] == "run":
        left = f"the {1000000 - teller.at} that are left before position 1000000"
        return f"the limit, {value['limit']} steps, is above {left}"
    return "the cursor is at 1000000, where no step is executed; going back makes room"


def sentence(words):
    return lambda teller, value, reply, before: words


def at_vertex(words):
    return lambda teller, value, *_: f"{teller.graph.vertex_of(value)} {words}"


def no_memory(teller, value, reply, before):
    return "no memory was left" + (f"; {stopped(reply)}" if "at" in reply else "")


def bad_range(teller, value, reply, before):
    if "lo" in value:
        return f"lo, {value['lo']}, is above hi, {value['hi']}"
    key, what = ("rest", "number of steps") if value["do"] == "why" else ("limit", "limit")
    return f"the {what}, {value[key]}, is not from 1 to 1000000"


REFUSALS = {
    "NoProcessor": Teller.no_processor,
    "NotInput": Teller.not_input,
    "InputClosed": lambda _, it, *__: f"processor {it['p']} has given up its token of {it['vertex']}",
    "TooManyValues": lambda _, it, *__: f"there are {len(it['values'])} values; at most 1024 are allowed",
    "EpochFull": sentence('the token is at the last epoch, 4294967295; "close" and "stay" are left'),
    "NoRecord": no_record,
    "NoRequest": no_request,
    "NotYet": not_yet,
    "NotNotified": not_notified,
    "NotLater": not_later,
    "NoPort": no_port,
    "TooEarly": too_early,
    "CounterFull": at_vertex("would raise a counter past 4294967295"),
    "ValueRange": at_vertex("would make a number past 64 bits"),
    "CountFull": sentence("a record's or a sink's count would pass 1099511627776"),
    "DeltaFull": sentence("an unsent entry or one of a view would pass 1099511627776"),
    "NothingToSend": sentence("nothing of this is unsent"),
    "NotAdmissible": inadmissible,
    "QueueEmpty": queue_empty,
    "QueueFull": sentence("a queue from the processor holds 65536 changes; receives make room"),
    "Memory": no_memory,
    "AtStart": sentence("no step is kept before the cursor"),
    "AtEnd": sentence("no step is kept after the cursor"),
    "NoSuchPoint": Teller.no_such_point,
    "TimelineFull": timeline_full,
    "TooManyBreaks": sentence("32 breakpoints are set; at most 32 are allowed"),
    "NoBreak": Teller.no_break,
    "LogFull": sentence("1000000 commands are logged, and no more are executed"),
    "BadRange": bad_range,
    "NoWorkers": sentence('"workers" is 0; at least 1 thread is needed'),
    "Missing": lambda _, __, reply, ___: f"out of memory at piece {reply['piece']} of the positions",
}


def stopped(reply):
    return f"the cursor is at {reply['at']}"


def points(entries):
    """Entries of a view in words, by place, time and number."""
    items = [f"{at(*it[:2])}: {it[2]}" for it in entries]
    return ", ".join(items) if items else "nothing"


def frontier(teller, value, reply):
    """The frontier of a view, or the times that can still arrive at a location."""
    if "times" not in reply:
        return [points(reply["frontier"])]
    if not reply["times"]:
        return ["none: nothing can arrive there any more"]
    return [f"{some_of(map(time_in, reply['times']))}, and all that are later"]


def candidates(teller, value, reply):
    """Each step that may be executed, and of each other one what stands in the way."""
    first, told = all_candidates(teller, reply)
    rest = [f"... ({len(told)} in all)"] if len(told) > MOST_STEPS else []
    return [first, *told[:MOST_STEPS], *rest]


def all_candidates(teller, reply):
    """How many steps may be executed, and a sentence for each candidate."""
    told = [candidate(teller, it) for it in reply["candidates"]]
    count = sum("refused" not in it for it in reply["candidates"])
    more = "; there are more than these" if reply.get("more") else ""
    head = f"{counted(count, 'step')} of {len(told)} may be executed{more}"
    return head if told else "no step is left but a feed", told


def candidate(teller, it):
    if "refused" not in it:
        return f"enabled: {command_words(it['step'])}"
    return f"{command_words(it['step'])}: {teller.refused(it['step'], it['refused'], None)[0]}"


def effect(teller, value, reply):
    """The step, and each place that it changed."""
    changed = effect_words(reply["changed"], teller.graph.holds, teller.graph.distincts)
    return [command_words(reply["step"]), *changed]


def reached(teller, value, reply):
    """The steps to a state at which the condition holds; or how many states were looked at, and whether
    there are others."""
    steps = reply["steps"]
    if steps is None:
        looked = f"at none of {counted(reply['states'], 'state')} that can be reached"
        all_or_not = "these are all" if reply["whole"] else "there are more, which were not looked at"
        return [f"{looked}; {all_or_not}"]
    if not steps:
        return ["it holds already"]
    first = f"after {counted(len(steps), 'step')}, and no fewer"
    told = map(command_words, steps[:MOST_STEPS])
    return [first, *told, *([f"... ({len(steps)} in all)"] if len(steps) > MOST_STEPS else [])]


def why(teller, value, reply):
    """The reasons; of 'why' at rest what is left first, which is all if the run comes to rest."""
    holds = teller.graph.holds
    if "stop" not in reply:
        return why_words(value, reply, holds)
    first, *others = why_words(value, reply, holds)
    return [rest_words(reply, holds), *([f"then {first}", *others] if reply["stop"] != "rest" else [])]


def turns(teller, value, reply):
    """Whether the condition holds at first, and the positions at which that changes."""
    first = f"at position {value['lo']} it {'holds' if reply['at_lo'] else 'does not hold'}"
    holds, told = reply["at_lo"], []
    for position in reply["turns"]:
        holds = not holds
        told.append(f"{'begins' if holds else 'ceases'} to hold at {position}")
    more = ", and there are more" if reply.get("more") else ""
    stays = f"and that does not change up to position {value['hi']}"
    return [first, f"it {some_of(told)}{more}" if told else stays]


def passed(teller, value, reply):
    return ["yes" if reply["passed"] else f"no: its view has {at(*reply['point'])} at or before it"]


def changed(teller, value, reply):
    """What a view's entry became, at each position where it changed."""
    told = [f"{entry} at position {position}" for position, entry in reply["changes"]]
    more = ", and there are more" if reply.get("more") else ""
    return [f"it became {some_of(told)}{more}" if told else "at none"]


def exported(teller, value, reply):
    """The kept steps, a sentence each if they are few, and which of them are made."""
    steps = reply["steps"]
    told = [f"{position}. {command_words(it)}" for position, it in enumerate(steps, 1)]
    rest = [f"... ({len(steps)} in all; tools/replay writes them all)"] if len(told) > MOST_STEPS else []
    return [f"{counted(len(steps), 'kept step')}, and {stopped(reply)}", *told[:MOST_STEPS], *rest]


ANSWERS = {
    **dict.fromkeys((*STEPS, "back", "redo", "jump"), Teller.moved),
    "run": Teller.ran,
    "break": lambda teller, value, reply: [f"done: it is breakpoint {reply['id']}"],
    "unbreak": Teller.cleared,
    "state": lambda teller, value, reply: ["shown in the table, with all its points"],
    "count": lambda teller, value, reply: [str(reply["count"])],
    "before": lambda teller, value, reply: ["yes" if reply["before"] else "no"],
    "view": lambda teller, value, reply: [points(reply["view"])],
    "frontier": frontier,
    "passed": passed,
    "search": lambda _, __, it: ["at none" if it["found"] is None else f"at position {it['found']}"],
    "export": exported,
    "why": why,
    "changes": changed,
    "step": lambda teller, value, reply: [command_words(reply["step"])],
    "candidates": candidates,
    "effect": effect,
    "turns": turns,
    "reach": reached,
}
