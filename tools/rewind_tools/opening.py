"""A script that a debugger opens: its graph, then its other lines, which are executed one after another.

    script = read(open(path, "rb").read(), places_of(path))
    script.graph                       the graph as the script has it, None if there is none
    script.lines                       a Line for each other line but the queries
    script.queries                     how many queries were left out
    graph_refused(session)             why the session's graph was refused, in words; None if it was not
    for entry in executed(journal, script.lines):
        entry.line, entry.reply        each line with its reply; entry.line.value is None if it is not JSON
    refusal(entry, teller)             why it was refused, with its number, its text and the reason; None if
                                       it was executed

Queries are left out, since a debugger asks its own. Of a script for several clients the key "client" is left
out. Faulty lines are given to the program, which answers them and changes nothing."""
import itertools
import json
from typing import NamedTuple

from rewind_tools.journal import PIECE
from rewind_tools.runs import json_of, lines_of
from rewind_tools.script import QUERIES
from rewind_tools.telling import faults, graph_faults
from rewind_tools.telling.commands import command_words, plain, unread


class Line(NamedTuple):
    """A line; `place` is where it comes from, if that is known (rewind_tools/sources.py)."""

    number: int
    text: bytes
    value: object
    place: bytes = None


class Script(NamedTuple):
    graph: object
    lines: list
    queries: int


class Executed(NamedTuple):
    line: Line
    reply: dict


def is_only_version(value):
    return isinstance(value, dict) and value.keys() == {"version"}


def is_query(value):
    return isinstance(value, dict) and isinstance(value.get("do"), str) and value["do"] in QUERIES


def without_client(line, place=None):
    """A line of the script as one client gives it."""
    value = json_of(line.text)
    if isinstance(value, dict) and "client" in value:
        value = {key: it for key, it in value.items() if key != "client"}
        return Line(line.number, json.dumps(value, separators=(",", ":")).encode(), value, place)
    return Line(line.number, line.text, value, place)


def without_comments(script):
    """A script's bytes with each line that begins with '#' left blank."""
    lines = script.split(b"\n")
    return b"\n".join(b"" if it.lstrip().startswith(b"#") else it for it in lines)


def read(script, places=None):
    """The graph and the lines of a script's bytes; `places` has by number where lines come from."""
    lines = lines_of(without_comments(script))
    if lines and is_only_version(lines[0].value):
        lines = lines[1:]
    if not lines:
        return Script(None, [], 0)
    others = [without_client(it, (places or {}).get(it.number)) for it in lines[1:]]
    commands = [it for it in others if not is_query(it.value)]
    return Script(lines[0].value, commands, len(others) - len(commands))


def graph_refused(session):
    """Why the session's graph was refused, in words; None if it was not."""
    reply = session.started
    if "error" not in reply:
        return None
    why = graph_faults.graph_faults(session.names.graph, reply, session.version)
    name = f"{reply['code']} {reply['error']}"
    return f"the graph is refused: {why[0]} ({name})" if why else f"the graph is refused, {name}"


def is_long(line):
    """Whether a line is a run that is executed in pieces."""
    value = line.value
    return isinstance(value, dict) and type(value.get("limit")) is int and value["limit"] > PIECE


def executed(journal, lines, is_script=False):
    """Executes lines, and hands out each with its reply, once the journal has kept it. After a piece the
    journal is told how far this is, and says whether it may go on."""
    done = 0
    while done < len(lines) and (not done or journal.may_go_on()):
        if is_long(lines[done]):
            some = [lines[done]]
            replies = [journal.run(some[0].value, is_script)[0]]
        else:
            some = list(itertools.takewhile(lambda it: not is_long(it), lines[done : done + PIECE]))
            replies = journal.session.ask_texts([it.text for it in some])
            for line, reply in zip(some, replies):
                journal.keep(line.value, reply, is_script, line)
        yield from map(Executed, some, replies)
        done += len(some)
        journal.report(f"line {some[-1].number} of {lines[-1].number}")


def refusal(entry, teller):
    """Why a line was refused, with its number, its text and the reason; None if it was executed."""
    line, reply = entry
    if "error" not in reply:
        return None
    if "line" in reply:
        said = faults.faulty(reply, faults.line_faults(line.text, reply, teller))
        asked = unread(line.text)
    else:
        said, asked = teller.refused(line.value, reply, None), command_words(line.value)
    return plain(f"line {line.number}, {asked}: {'; '.join(said)}")
