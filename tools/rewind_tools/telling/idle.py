"""What is left where a run stops because nothing is enabled, and why no step can move it, by the program's
own refusals."""
import json

from rewind_tools.runs import answers_after
from rewind_tools.telling.commands import at, processor_of, processors, record

MOST_SHOWN = 12
NOTHING_LEFT = "no record, request, unsent entry or change on its way"


def steps_left(state, holds):
    """The steps that a state suggests, each with the words for what it would move; 'holds' has the names of
    the vertices that hold capabilities."""
    for p, it in enumerate(state["processors"]):
        for edge, time, value, _ in it["records"]:
            take = {"do": "take", "p": p, "edge": edge, "time": time, "value": value}
            yield take, f"{record(value)} at {at(edge, time)}"
        for vertex, time in it["requests"]:
            kind = "capability at" if vertex in holds else "notification of"
            yield {"do": "notice", "p": p, "vertex": vertex, "time": time}, f"{kind} {at(vertex, time)}"
        if it["unsent"]:
            yield {"do": "broadcast", "p": p}, "what is unsent"
        for to, changes in enumerate(state["queues"][p]):
            if changes:
                yield {"do": "receive", "from": p, "to": to}, f"the first change on its way to {to}"


def left(script, number, words, state, teller, only=None):
    """What no step can move after the line of that number, a sentence each, and why; of a run of some
    processors alone, by their own steps.

    The steps are given to a copy of the script that ends with them. A refused one changes nothing, so the
    next is asked in the same state; should one be made after all, no later reply is read."""
    steps = [it for it in steps_left(state, teller.graph.holds) if not only or processor_of(it[0]) in only]
    replies = answers_after(script, number, [json.dumps(step) for step, _ in steps], words) if steps else []
    said = []
    for (step, thing), reply in zip(steps, replies):
        if "error" not in reply:
            break
        why = teller.refused(step, reply, None)[0].removeprefix("refused: ")
        said.append(f"processor {step.get('p', step.get('from'))}, {thing}: {why}")
    if not steps:
        said = [f"nothing that {processors(only)} could move" if only else NOTHING_LEFT]
    more = len(said) - MOST_SHOWN
    said = said[:MOST_SHOWN] + ([f"and {more} more"] if more > 0 else [])
    return said + (not_run(script, number, words, only) if only else [])


def not_run(script, number, words, only):
    """Which processors that a run left out have an enabled step after it."""
    replies = answers_after(script, number, ['{"do":"candidates"}'], words)
    enabled = [it["step"] for it in replies[0]["candidates"] if "refused" not in it]
    others = {processor_of(it) for it in enabled} - set(only)
    return [f"enabled steps of {processors(others)}, which did not run"] if others else []
