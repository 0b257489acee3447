"""Why a processor does not consider a point finished, in words: what is left at rest, what it still counts,
what is held there, what it has not heard."""
from rewind_tools.telling.commands import at, counted, some_of
from rewind_tools.telling.effects import NO_HOLDS
from rewind_tools.telling.forms import listed

PLURALS = {"capability": "capabilities"}


def owners(kind, holders):
    """The tokens, the requests or the capabilities of some processors."""
    kinds = kind if len(holders) == 1 else PLURALS.get(kind, f"{kind}s")
    return f"the {kinds} of processor{'s' * (len(holders) > 1)} {listed(map(str, holders))}"


def holders(held, holds):
    """What is held at a point, in words: its records by processor, then the requests, which are capabilities
    at a vertex that holds them, and the tokens."""
    words = [
        f"{counted(it['n'], 'record')} of value {it['value']} on processor {it['p']}"
        for it in held
        if "edge" in it
    ]
    for kind in ("request", "token"):
        there = [it for it in held if kind in it]
        word = "capability" if any(it[kind] in holds for it in there) else kind
        words += [owners(word, [it["p"] for it in there])] if there else []
    return words


def held_words(held, holds):
    """All that is held at a point."""
    return f"held there: {some_of(holders(held, holds))}" if held else "nothing is held there"


def left_words(reply, holds=NO_HOLDS):
    """All that is held at the points of a reply's reasons."""
    left = [f"{it} at {at(*one['point'])}" for one in reply["reasons"] for it in holders(one["held"], holds)]
    return some_of(left)


def rest_words(reply, holds=NO_HOLDS):
    """What a reply to 'why' at rest says of the order of the steps, and what is left then."""
    count, stop, left = reply["ran"], reply["stop"], left_words(reply, holds)
    steps, are = counted(count, "step"), "is" if count == 1 else "are"
    if stop == "stuck":
        end = "it is finished then" if reply["passed"] else f"this stays, if no other order ends it: {left}"
        return f"after {steps} a limit refuses what is left; {end}"
    if stop == "limit":
        end = ", but it finishes before" if reply["passed"] else ""
        return f"this does not come to rest within {steps}{end}"
    if reply["passed"]:
        return f"it finishes, by any order: {steps} {are} left" if count else "it is finished"
    order = f"whatever the order of the {steps} that {are} left" if count else "no step is left, and"
    return f"{order}{',' * bool(count)} this stays: {left}"


def unheard_word(it):
    """An update that was not received, and where it is."""
    update = f"an update of {it['n']} by processor {it['p']}"
    if "behind" not in it:
        return f"{update}, not yet broadcast"
    place = f"after {counted(it['behind'], 'change')}" if it["behind"] else "first"
    return f"{update}, {place} in its queue"


def news_words(reason):
    """Where the news of a reason is that was not heard; an empty text if there is none."""
    return f"not heard: {some_of(map(unheard_word, reason['unheard']))}" if reason["unheard"] else ""


def count_words(reason, holds=NO_HOLDS):
    """What is still counted at a reason's point, and what is held there. 'holds' has the names of the
    vertices that hold capabilities."""
    return f"it still counts {reason['view']} at {at(*reason['point'])}; {held_words(reason['held'], holds)}"


def reason_words(reason, holds=NO_HOLDS):
    """One reason: what is counted, what is held, and where the news is that was not heard."""
    return "; ".join(filter(None, (count_words(reason, holds), news_words(reason))))


def why_words(value, reply, holds=NO_HOLDS):
    """The answer to the query 'why', a sentence each for its reasons and for the truth."""
    q, place, time, is_before = value["q"], value["at"], value["time"], value.get("before", False)
    there = f"all that is strictly before {at(place, time)}" if is_before else at(place, time)
    if reply["passed"]:
        return [f"processor {q} knows that {there} is finished"]
    first, *others = (reason_words(it, holds) for it in reply["reasons"])
    rest = "finished: no processor has anything at or before it" if reply["finished"] else "not finished"
    truth = f"in truth {there} is {rest}"
    return [f"processor {q} does not know that {there} is finished: {first}", *others, truth]
