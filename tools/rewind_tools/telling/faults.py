"""A line and its answer in words, where the line may be faulty: what was wrong with it, and what would be
right."""
from rewind_tools.runs import lines_of, opening_of
from rewind_tools.script import LONGEST, longest_graph
from rewind_tools.telling import forms, graph_faults, names, texts, values
from rewind_tools.telling.answers import Teller
from rewind_tools.telling.commands import command_words, counted, graph_words, unread
from rewind_tools.telling.values import shown


def teller_of(told, script):
    """The one who tells a run's replies; it has no graph if the program has read none.

    A faulty line that is answered before the graph is one of several clients' script, whose graph was read.
    """
    first = told.entries[0] if told.entries else None
    opening = [it.number for it in opening_of(lines_of(script))]
    has_fault_alone = first is not None and first.line.number not in opening
    started = next((it.reply for it in told.entries if "locations" in it.reply), {})
    graph = names.Graph(told.graph, told.version) if started or has_fault_alone else None
    has_clients = has_fault_alone or any(it.client is not None for it in told.entries)
    return Teller(graph, started.get("processors"), has_clients, told.version)


def told_line(entry, before, teller):
    """What a line asks for, and its answer in a list of sentences; 'before' is the state at which it was
    asked, or None."""
    reply = entry.reply
    if entry.line is None:
        return "issues no further commands", teller.refused({}, reply, None)
    if "line" in reply:
        return unread(entry.line.text), faulty(reply, line_faults(entry.line.text, reply, teller))
    if "locations" in reply:
        counts = counted(reply["locations"], "location"), counted(reply["processors"], "processor")
        return "the graph", [*graph_words(entry.line.value), f"read: {counts[0]}, {counts[1]}"]
    if "version" in reply:
        return "the script's version", [f"this is a script of version {reply['version']}"]
    if "error" in reply and teller.graph is None:
        wrong = faults_in(entry.line.text, lambda it: graph_faults.graph_faults(it, reply, teller.version))
        return unread(entry.line.text), faulty(reply, wrong)
    if not is_known(entry.line.value):
        return unread(entry.line.text), [shown(reply, None)]
    return command_words(entry.line.value), teller.told(entry.line.value, reply, before)


def is_known(value):
    """Whether a line that the program has read is one of the forms that this tool tells."""
    return isinstance(value, dict) and value.get("do") in forms.FORMS


def faulty(reply, faults):
    """What is wrong, a sentence each, with the fault's name after the first."""
    name = f"{reply['code']} {reply['error']}"
    return [f"faulty: {faults[0]} ({name})", *faults[1:]] if faults else [f"faulty, {name}"]


def named(reply, faults):
    """The fault's name, then what is wrong, a sentence each."""
    name = f"{reply['code']} {reply['error']}"
    return [f"{name}: {faults[0]}", *faults[1:]] if faults else [name]


def faults_in(text, faults_of):
    """What is wrong with a line's value; nothing if it has none that Python reads."""
    try:
        value = values.value_of(text)
    except (ValueError, RecursionError):
        return []
    return faults_of(value)


def line_faults(text, reply, teller):
    """What is wrong with a line that got this reply, each fault in words."""
    name = reply["error"]
    if name == "LineTooLong":
        most = longest_graph(teller.version) if teller.graph is None else LONGEST
        return [f"the line has {len(text)} bytes; at most {most} are allowed"]
    if name == "BadLine":
        return first_line_faults(text, teller) + text_faults(text, teller)
    return faults_in(text, lambda value: FAULTS[name](value, teller)) if name in FAULTS else []


def first_line_faults(text, teller):
    """That the graph comes first, if the line stands in its place and has no sign of one."""
    if teller.graph is None and b'"vertices"' not in text:
        return [graph_faults.graph_first(teller.version)]
    return []


def text_faults(text, teller):
    """What is wrong with a text that is not JSON."""
    words = texts.words_of_line(text)
    if words:
        return forms.typed_faults(words, teller.has_clients, teller.version)
    found = texts.break_of(text)
    return [f"it breaks as JSON at column {found[0]}: {found[1]}"] if found else []


def missing_graph(told):
    """That a script ends before its graph, in words; None of any other run."""
    has_ended = all("version" in it.reply for it in told.entries) and (told.entries or not told.output)
    is_missing = told.status == 0 and has_ended
    return f"the graph is missing: {graph_faults.graph_first(told.version)}" if is_missing else None


FAULTS = {
    "BadShape": lambda value, teller: forms.shape_faults(value, teller.has_clients, teller.version),
    "UnknownName": lambda value, teller: names.unknown_names(teller.graph, value),
    "BadTime": lambda value, teller: names.wrong_times(teller.graph, value),
    "BadClient": lambda it, _: [f'"client" is {it["client"]}, and must be below the number of clients'],
    "OneClientOnly": lambda it, _: [
        f'"{it["do"]}" is a query or a search; with several clients there are none'
    ],
}
