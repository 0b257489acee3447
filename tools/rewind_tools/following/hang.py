"""What holds back the sinks of a run, in words: who holds it, and since which line.

    said = hang_words(words)                   texts with how far they stand in, and their colours; none if
                                               all times are finished at the vertices without edges out
    said = why_words(words, q, place, time)    why a processor does not consider a time finished, now and at
                                               rest

At rest, when all that can happen has happened, only what somebody outside has to end holds a time back."""
import json

from rewind_tools.at_rest import why_at_rest
from rewind_tools.following.since import held_since
from rewind_tools.telling import reasons
from rewind_tools.telling.commands import at, counted, processors, record, some_of, time_in
from rewind_tools.telling.printing import BOLD

# How many that hold something are told.
MOST = 8


def hang_words(words):
    edges, places = words.program.graph["edges"], words.merging.places
    sinks = [it for it in places.vertices if all(edge["from"] != it for edge in edges)]
    now = [
        {"do": "why", "q": q, "at": sink, "time": time}
        for sink in sinks
        for q in words.merging.workers
        for time in words.program.asked({"do": "frontier", "q": q, "at": sink})["times"]
    ]
    first = {it["at"]: it for it in reversed(now)}
    first = {it: first[it] for it in sinks if it in first}
    answers = why_at_rest(words.follower, [{"do": "why", "q": 0, "at": it} for it in first]) if now else []
    said = told(words, answers, "hang: ", 0)
    held = {query["at"] for query, reply in answers if any(it["held"] for it in reply["reasons"])}
    late = [it for sink, it in first.items() if sink not in held]
    for query, reply in why_at_rest(words.follower, late) if late else []:
        first_words, *others = known(words, query)
        can = "can" if reply["passed"] else "do not"
        others.append(f"the workers {can} end that by themselves, in {steps_more(reply)}")
        said += [(f"hang: {first_words}", 0, BOLD), *((it, 4, "") for it in others)]
    return said


def why_words(words, q, place, time):
    epoch, *counters = time
    query = {"do": "why", "q": q, "at": place, "time": [words.epochs.ranks[epoch], *counters]}
    first, *others = known(words, query)
    ((_, reply),) = why_at_rest(words.follower, [query])
    how = "nothing holds it back" if reply["passed"] else "this holds it back"
    others.append(f"when all that can happen has happened, {steps_more(reply)}, {how}")
    said = [(f"why: {first}", 0, BOLD), *((it, 4, "") for it in others)]
    return said + told(words, [(query, reply)], "", 4)


def steps_more(reply):
    is_end = reply["stop"] != "limit"
    return f"{counted(reply['ran'], 'step')} more" + ("" if is_end else ", and that is not the end")


def known(words, query):
    """What a processor knows of a time at the end of what was executed, in sentences."""
    reply = words.program.asked(query)
    return reasons.why_words(*words.epochs.told([query, reply]), words.teller.graph.holds)


def told(words, answers, head, indent):
    """What is held at rest, what holds back most first, that of several processors together: what that holds
    back, and since which line."""
    found, state = {}, words.program.asked({"do": "state"})["state"]
    for query, reply in answers:
        for reason in reply["reasons"]:
            for it in reason["held"]:
                key = json.dumps([it, reason["point"]])
                found.setdefault(key, [it, reason["point"], []])[2].append([query["at"], query["time"]])
    rows = {}
    for held, point, points in sorted(found.values(), key=lambda it: -len(it[2])):
        key = json.dumps([{**held, "p": 0, "n": 1}, point, points])
        rows.setdefault(key, []).append([held, point, points])
    said = []
    for its in list(rows.values())[:MOST]:
        said += row_words(words, state, its, head, indent)
    more = [(f"... ({len(rows)} in all)", indent, "")] if len(rows) > MOST else []
    return said + more


def row_words(words, state, its, head, indent):
    """What one processor holds, or several at one point: of each since which line, and its last line."""
    since = held_since(words.follower, state, [it[:2] for it in its])
    rows = {}
    for (held, point, points), made in zip(words.epochs.told(its), since):
        rows.setdefault(made.record and made.record[2:], []).append((held, point, points, made))
    last = {it.worker: it for it in words.follower.executed}
    for row in rows.values():
        held, point, points, made = row[0]
        workers = [it[0]["p"] for it in row]
        back = f"{some_of(at(*it) for it in points)} {'is' if len(points) == 1 else 'are'} not finished"
        yield f"{head}{held_words(workers, held, point, made.record, words)}; so {back}", indent, BOLD
        yield from ((it, indent + 4, "") for it in since_words(words, row, last))


def held_words(workers, held, point, left, words):
    """What is held, and by whom; of a capability that comes at rest alone the record that leads to it."""
    who, s, have = processors(workers), "s" * (len(workers) == 1), "have" if workers[1:] else "has"
    if left:
        edge, _, time, value = left
        there = at(*words.epochs.told([edge, list(time)]))
        return f"{who} {have} not taken a {record(value)} at {there}"
    if "token" in held:
        its = "its input" if s else "their inputs"
        return f"{who} {have} {its} {held['token']} open at {time_in(point[1])}"
    if "edge" in held:
        return f"{who} cannot take a {record(held['value'])} at {at(*point)}"
    return f"{who} hold{s} a capability at {at(*point)}"


def since_words(words, row, last):
    """Since which line something is held, and the last line of the processor; of several processors, each
    in its own."""
    if len(row) == 1:
        made, line = row[0][3], last.get(row[0][0]["p"])
        yield from words.place("since ", made.line) if made.line else ["since the start"]
        yield from [f"the last line of processor {line.worker} is {words.where(line)}"] if line else []
        return
    for held, _, _, made in row[:MOST]:
        line = last.get(held["p"])
        since = words.where(made.line) if made.line else "the start"
        ended = f"; its last line is {words.where(line)}" if line else ""
        yield f"processor {held['p']}: since {since}{ended}"
    yield from [f"... ({len(row)} in all)"] if len(row) > MOST else []
