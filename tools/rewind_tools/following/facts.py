"""The facts that explain a refusal: where a record is, how many broadcasts there were, which entry supported
the point that was left out, and why a time is not finished.

    refused(words, line, value, reply)      why a line was refused, in sentences; none if tools/tell has them
    why(words, line, asked)                 why a time is not finished, in sentences"""
from rewind_tools.telling.answers import by_order, inadmissible, no_capability, not_yet
from rewind_tools.telling.commands import at, counted, ports_words, processors, record, some_of, time_in
from rewind_tools.telling.reasons import why_words


def wrong_number(value, own, number):
    """That a broadcast or a receive has another number than it must have."""
    if value["do"] == "broadcast":
        return f'its "number" is {own["number"]}, and this is broadcast {number} of processor {value["p"]}'
    wanted = f"the next to receive from processor {value['from']} is {number}"
    how = "was lost, or comes later" if own["number"] > number else "was received before"
    missing = number if own["number"] > number else own["number"]
    return f'its "number" is {own["number"]}, and {wanted}: broadcast {missing} {how}'


def no_record(words, line, value, reply):
    """Where the record is: on another processor, at another time, or nowhere."""
    p, edge, time, number = value["p"], value["edge"], value["time"], value["value"]
    said = f"processor {p} has no {record(number)} at {at(edge, time)}"
    there = [
        (worker, its_time)
        for worker, it in enumerate(words.state["processors"])
        for name, its_time, its_value, _ in it["records"]
        if name == edge and its_value == number
    ]
    others = [worker for worker, its_time in there if its_time == time]
    if others:
        return [f"{said}; the record is on {processors(others)}"]
    if there:
        listed = some_of(f"at {time_in(its_time)} on processor {worker}" for worker, its_time in there)
        return [f"{said}; there is one {listed}"]
    return [f"{said}, and no processor has one at any time"]


def queue_empty(words, line, value, reply):
    """How many broadcasts the sender made."""
    p = value["from"]
    made = counted(words.merging.sent[p], "broadcast")
    rest = sum(it.word == "broadcast" for it in words.merging.lines[p][words.merging.at[p] :])
    more = f"{rest} more" if rest else "no more"
    return [f"nothing is on its way: processor {p} has made {made}, and its trace has {more}"]


def waited_for(words, line, value):
    """What a line waits for that another worker has not executed."""
    if line.word == "take":
        return f"processor {value['p']} has no such record yet"
    if line.word == "receive":
        return queue_empty(words, line, value, None)[0]
    return f"a queue from processor {value['p']} is full; a receive makes room"


def nothing_to_send(words, line, value, reply):
    unsent = words.state["processors"][value["p"]]["unsent"]
    return [f"nothing of this is unsent; unsent is: {some_of(f'{at(*it[:2])}: {it[2]}' for it in unsent)}"]


def not_admissible(words, line, value, reply):
    """Which negative entries of the part supported the point that is left out."""
    said = inadmissible(words.teller, value, reply, words.state)
    part = value.get("part")
    unsent = words.state["processors"][value["p"]]["unsent"]
    sent = [it for it in unsent if it[2] < 0 and (part is None or it[:2] in part)]
    supports = [it for it in sent if it[:2] != reply["point"] and is_before(words, it[:2], reply["point"])]
    listed = some_of(f"{at(*it[:2])}: {it[2]}" for it in supports)
    if not supports:
        return [said, "no entry of the part is negative and strictly before it"]
    return [said, f"strictly before it are these entries of the part: {listed}"]


def is_before(words, point, other):
    ranks = words.epochs.ranks
    asked = [[name, [ranks[time[0]], *time[1:]]] for name, time in (point, other)]
    return words.program.asked({"do": "before", "from": asked[0], "to": asked[1]}).get("before", False)


def not_yet_and_why(words, line, value, reply):
    asked = {"at": value["vertex"], "time": value["time"], "before": True}
    return [not_yet(words.teller, value, reply, words.state), *why(words, line, asked)]


def why(words, line, asked):
    """Why a worker does not consider a time finished, at the end of what was executed."""
    epoch, *counters = asked["time"]
    query = {"do": "why", "q": line.worker, **asked, "time": [words.epochs.ranks[epoch], *counters]}
    reply = words.epochs.told(words.program.asked(query))
    return reasons(words, {"do": "why", "q": line.worker, **asked}, reply)


def reasons(words, value, reply):
    """The reply to why in sentences; none if the time is finished."""
    return [] if "error" in reply or reply["passed"] else why_words(value, reply, words.teller.graph.holds)


def no_request(words, line, value, reply):
    if value["do"] != "send":
        return []
    return [no_capability(words.teller, value, words.state)]


def not_notified(words, line, value, reply):
    if words.teller.graph.vertices[value["vertex"]]["op"] != "opaque":
        return []
    return [f"{value['vertex']} is opaque: what it holds is a capability, which a release gives up"]


def no_port(words, line, value, reply):
    ports = words.teller.graph.vertices[value["vertex"]]["ports"]
    return [f"{value['vertex']} has {ports_words(ports)}"]


def too_early(words, line, value, reply):
    return [f"{time_in(value['at'])} is not at or after {time_in(value['time'])}{by_order(words.teller)}"]


FACTS = {
    "NoRecord": no_record,
    "QueueEmpty": queue_empty,
    "NothingToSend": nothing_to_send,
    "NotAdmissible": not_admissible,
    "NotYet": not_yet_and_why,
    "NoRequest": no_request,
    "NotNotified": not_notified,
    "NoPort": no_port,
    "TooEarly": too_early,
}


def refused(words, line, value, reply):
    found = FACTS.get(reply["error"])
    return found(words, line, value, reply) if found else []
