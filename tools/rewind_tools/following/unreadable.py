"""Why a line is none of its worker's trace, in words."""
import json

from rewind_tools.following.traces import own_of
from rewind_tools.runs import json_of
from rewind_tools.script import LAST
from rewind_tools.telling import faults, names
from rewind_tools.telling.answers import Teller
from rewind_tools.telling.commands import unread
from rewind_tools.telling.forms import FORMS
from rewind_tools.telling.printing import BOLD, RED


def said(unreadable, program, workers):
    """What is said of an unreadable line: texts with how far they stand in, and their colours."""
    trace, number = unreadable.trace, unreadable.number
    text = trace.text(number)
    head = f"unreadable at {trace.path}, line {number}: {unread(text)}"
    if unreadable.why:
        sentences = [unreadable.why]
    else:
        teller = Teller(names.Graph(program.graph, program.version), workers, False, program.version)
        sentences = faults.named(unreadable.reply, wrong(unreadable, text, teller))
    return [(head, 0, BOLD), *((it, 4, "" if at else RED) for at, it in enumerate(sentences))]


def wrong(unreadable, text, teller):
    """What is wrong with a line that the program does not read: of its names and times as they stand, of its
    form with epochs by rank."""
    value = json_of(text)
    is_too_long = unreadable.reply["error"] == "LineTooLong"
    if is_too_long or not isinstance(value, dict) or not isinstance(value.get("do"), str):
        return faults.line_faults(text, unreadable.reply, teller)
    own_of(value)
    if value["do"] not in FORMS and program_knows_more(teller):
        return unknown_vertex(value, teller.graph) if unreadable.reply["error"] == "UnknownName" else []
    is_form = unreadable.reply["error"] == "BadShape"
    asked = unreadable.given if is_form else json.dumps(value).encode()
    return faults.line_faults(asked, unreadable.reply, teller)


def program_knows_more(teller):
    """Whether the program may read words that tools/tell has no form for."""
    return teller.version > LAST


def unknown_vertex(value, graph):
    known = list(graph.vertices)
    is_known = value.get("vertex") in known
    return [] if is_known else [names.unknown_name(graph, value.get("vertex"), "vertex", known)]
