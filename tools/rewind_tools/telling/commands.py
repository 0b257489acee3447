"""The commands and queries of a script in words."""
import itertools

from rewind_tools.ports import operators_of, ports_of
from rewind_tools.script import literals_in
from rewind_tools.telling.forms import listed
from rewind_tools.telling.values import shown

MOST = 8
# A space at which no line is broken; what is printed has a plain one.
FIRM = "\N{NO-BREAK SPACE}"
NEXT = {"next": "goes on to the next epoch", "close": "gives up its token", "stay": "stays at its epoch"}


def plain(text):
    """A text with plain spaces alone."""
    return text.replace(FIRM, " ")


def next_words(value):
    """Where the token goes after a feed."""
    return f"goes on to epoch {value['to']}" if isinstance(value, dict) else NEXT[value]


def time_in(time):
    return "(" + ",".join(map(str, time)) + ")"


def at(place, time):
    """A location and a time, which a line does not part."""
    return f"{place}{FIRM}{time_in(time)}"


def counted(count, thing):
    return f"{count} {thing}" + "s" * (count != 1)


def record(value):
    """A record, by its value."""
    return f"record of value {value}"


def some_of(items):
    """The items in a list of words, cut if there are many."""
    items = list(map(str, items))
    if len(items) <= MOST:
        return listed(items) if items else "nothing"
    return ", ".join(items[:MOST]) + f", ... ({len(items)} in all)"


def processors(numbers):
    """Some processors by their numbers, each once; four or more that follow one another as '0 to 3'."""
    numbers = sorted(set(numbers))
    return f"processor{'s' * (len(numbers) > 1)} {listed(spans(numbers))}"


def spans(numbers):
    """Numbers in their order, four or more that follow one another as one text."""
    groups = itertools.groupby(numbers, lambda it, count=itertools.count(): it - next(count))
    for group in (list(its) for _, its in groups):
        yield from [f"{group[0]} to {group[-1]}"] if len(group) > 3 else map(str, group)


def processor_of(step):
    """The processor that executes a step."""
    return step["to"] if step["do"] == "receive" else step["p"]


def feed(it):
    return (
        f"processor {it['p']} feeds {some_of(it['values'])} into {it['vertex']} and {next_words(it['next'])}"
    )


def capability(it):
    return f"the capability that it holds at {at(it['vertex'], it['time'])}"


def send(it):
    """A send: the values, the port, and if they are given the time and the processor to which they go."""
    when = f" at {time_in(it['at'])}" if "at" in it else ""
    where = f" to processor {it['dest']}" if "dest" in it else ""
    sent = f"{some_of(it['values'])} on port {it['port']}{when}{where}"
    return f"processor {it['p']} sends {sent}, from {capability(it)}"


def release(it):
    if "to" not in it:
        return f"processor {it['p']} releases {capability(it)}"
    if it.get("keep"):
        return f"processor {it['p']} keeps {capability(it)}, and holds a later one at {time_in(it['to'])}"
    return f"processor {it['p']} moves {capability(it)} to {time_in(it['to'])}"


def run(it):
    """A run, of all processors or of those that are listed, each once."""
    alone = f" {processors(it['only'])} alone" if "only" in it else ""
    lot = f", chosen by the seed {it['seed']}" if "seed" in it else ""
    return f"run{alone}, at most {counted(it['limit'], 'step')}{lot}"


def broadcast(it):
    part = (
        "all that is unsent"
        if "part" not in it
        else f"what is unsent at {some_of(at(*point) for point in it['part'])}"
    )
    return f"processor {it['p']} broadcasts {part}"


def search(it):
    where = f"at which of the positions {it['lo']} to {it['hi']} first: {condition(it['when'])}?"
    return f"{where} ({counted(it['workers'], 'thread')})"


def turns(it):
    return (
        f"at which of the positions {it['lo']} to {it['hi']} does it begin or cease to hold that"
        f" {condition(it['when'])}?"
    )


def reach(it):
    """A question for what can still happen: the condition, which steps of users count, and the limit."""
    users = {"feed": "feeds of nothing", "release": "releases"}
    more = f", {' and '.join(users[word] for word in it['with'])} counted" if "with" in it else ""
    asked = f"by which steps does it come to hold that {condition(it['when'])}{more}?"
    return f"{asked} ({counted(it['limit'], 'state')} at most)"


def why(it):
    there = at(it["at"], it["time"])
    what = f"all that is strictly before {there}" if it.get("before") else there
    asked = f"why does processor {it['q']} not consider {what} finished"
    if "rest" not in it:
        return f"{asked}?"
    return f"{asked} when all that can happen has happened? ({counted(it['rest'], 'step')} at most)"


def frontier(it):
    if "at" in it:
        return f"which times can still arrive at {it['at']}, as far as processor {it['q']} knows?"
    return f"what is the frontier of processor {it['q']}'s view?"


def condition(when):
    """What a breakpoint, a search or a query for turns waits for."""
    name = next(iter(when))
    joint = {"all": " and ", "any": " or "}.get(name, "")
    return joint.join(literal(*it) for it in literals_in(when))


def literal(is_negated, name, it):
    return f"not ({atom(name, it)})" if is_negated else atom(name, it)


def atom(name, it):
    there = at(it["at"], it["time"]) if "at" in it else ""
    if name == "passed":
        return f"processor {it['q']} has passed {there}"
    if name == "finished":
        return f"{there} is finished"
    least = f"at least {it['at_least']}"
    if name == "view":
        return f"processor {it['q']}'s view has {least} at {there}"
    if name == "count":
        return f"{least} of records, requests and tokens at {there}"
    if name == "held":
        return f"processor {it['p']} has {least} of records, requests and tokens at {there}"
    if name == "queue":
        return f"{least} of changes on their way from processor {it['from']} to {it['to']}"
    return f"{it['vertex']} has counted the value {it['value']} at least {counted(it['at_least'], 'time')}"


WORDS = {
    "feed": feed,
    "take": lambda it: (
        f"processor {it['p']} takes a {record(it['value'])} from {at(it['edge'], it['time'])}"
    ),
    "notice": lambda it: f"processor {it['p']} runs the notification of {at(it['vertex'], it['time'])}",
    "send": send,
    "release": release,
    "broadcast": broadcast,
    "receive": lambda it: (
        f"processor {it['to']} receives the first change on its way from processor {it['from']}"
    ),
    "back": lambda it: "undo the last step",
    "redo": lambda it: "execute the kept step after the cursor again",
    "jump": lambda it: f"jump to position {it['to']}",
    "run": run,
    "break": lambda it: f"set a breakpoint: {condition(it['when'])}",
    "unbreak": lambda it: f"remove breakpoint {it['id']}",
    "state": lambda it: "what is the state?",
    "count": lambda it: f"how many records, requests and tokens are at {at(it['at'], it['time'])}?",
    "before": lambda it: f"could something at {at(*it['from'])} result in something at {at(*it['to'])}?",
    "view": lambda it: f"what does processor {it['q']} view?",
    "frontier": frontier,
    "passed": lambda it: f"has processor {it['q']} passed {at(it['at'], it['time'])}?",
    "search": search,
    "export": lambda it: "what are the kept steps?",
    "why": why,
    "changes": lambda it: (
        f"when did processor {it['q']}'s view of {at(it['at'], it['time'])} change, from position"
        f" {it['lo']} to {it['hi']}?"
    ),
    "step": lambda it: f"which step leads to position {it['to']}?",
    "candidates": lambda it: "which steps may be executed now, and what stands in the way of the others?",
    "effect": lambda it: f"what did the step that leads to position {it['to']} change?",
    "turns": turns,
    "reach": reach,
}


def ports_words(count):
    """The output ports of a vertex that has `count`."""
    few = ("no port", "port 0 alone", "the ports 0 and 1")
    return few[count] if count < len(few) else f"the ports 0 to {count - 1}"


def op_words(it):
    """A vertex's operator with its number, or of an opaque vertex with its ports."""
    if "ports" in it:
        starts = ", starts with a capability" if it.get("starts") else ""
        return f"{it['op']}, {counted(it['ports'], 'port')}{starts}"
    return f"{it['op']} {it['k']}" if "k" in it else it["op"]


def vertex_words(it):
    return f"{it['name']} ({op_words(it)}{', depth ' + str(it['depth']) if it['depth'] else ''})"


def edge_words(it):
    port = f" port {it['port']}" if it["port"] else ""
    return f"{it['name']} from {it['from']}{port} to {it['to']} ({it['route']})"


def order_words(graph):
    """How a graph's times compare, if it says so."""
    by_product, others = "each loop counter by itself", "the outer loop's counter first"
    how = by_product if graph.get("order") == "product" else others
    return [f"order of times: {graph['order']}, {how}"] if "order" in graph else []


def graph_words(graph):
    """What a graph has, a sentence each for its operators by ports, its vertices, its edges and the order of
    its times."""
    operators = operators_of(graph)
    by_ports, within = ports_of(operators), {it["name"] for one in operators.values() for it in one.edges}
    vertices = [vertex_words(it) for it in graph["vertices"] if it["name"] not in by_ports]
    edges = [edge_words(it) for it in graph["edges"] if it["name"] not in within]
    said = [f"operators by ports: {'; '.join(map(str, operators.values()))}"] if operators else []
    said += [] if operators and not vertices else [f"vertices: {', '.join(vertices) or 'none'}"]
    return [*said, f"edges: {', '.join(edges) or 'none'}", *order_words(graph)]


def command_words(value):
    """A line that the program has read, in words."""
    return WORDS[value["do"]](value)


def unread(text):
    """A line that is not a command, by its own text."""
    shown_text = text.decode(errors="backslashreplace").strip()
    cut = shown_text if len(shown_text) <= 70 else shown_text[:67] + "..."
    return "".join(it if it.isprintable() and it.isascii() else shown(it)[1:-1] for it in cut)
