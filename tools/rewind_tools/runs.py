"""Runs a script by the program with queries put in after each line, and takes their replies out again.

    from runs import run_script
    told = run_script(open(path, "rb").read(), ["--processors", "3"])
    told.graph                the graph as the script's line has it, or None if none was met
    told.version              the version that the script's first line tells, else 1
    told.status, told.error   the program's exit status, and what it wrote to standard error; what ./rewind
                              says of itself is passed on as it is said
    told.entries              an Entry a reply, in the order of the replies, the graph's first:
        entry.line            the Line that it answers: line.number from 1, line.text as bytes without its
                              newline, line.value as JSON, None if it is none
        entry.reply           the reply as the program gives it to the script alone
        entry.client          with several clients whose command it was, else None
        entry.answers         the replies to the queries that were put in after it; [] if none could be
        entry.state           of those replies the state after the line, or None

The queries are '{"do":"state"}' alone if no others are given, and change nothing; lines before the graph's,
a version line or others whose reply counts no locations, are followed by none. A callable gives the queries
after each line, by its number from 0 among those that are not blank. They move the lines that follow, so a
faulty line's number is put back. If the program does not answer all of that with status 0 (queries are not
allowed with several clients, a graph may be refused), the script runs alone as well: its replies and status
are those given, and entries have answers up to the first reply in which the two runs differ.

The program is ./rewind, or what REWIND_PROGRAM names in the environment, as the tests do to run the built
one alone.

    answers_after(script, 7, ['{"do":"back"}'], words)      the replies to lines that follow the line 7 of a
                                                            copy"""
import json
import os
import subprocess
import sys
import threading
from typing import NamedTuple

from rewind_tools.script import LAST

TOP = os.path.dirname(os.path.dirname(os.path.dirname(os.path.abspath(__file__))))
PROGRAM = os.environ.get("REWIND_PROGRAM") or os.path.join(TOP, "rewind")
STATE = '{"do":"state"}'
# How the lines begin in which ./rewind speaks of itself, which are no part of the program's words; and those
# that were passed on.
NOTES = (
    "rewind: this answer is not proved",
    "rewind: building the program",
    "rewind: this program is proved",
)
passed_on = set()


class Line(NamedTuple):
    number: int
    text: bytes

    @property
    def value(self):
        return json_of(self.text)


class Entry(NamedTuple):
    line: Line | None
    reply: dict
    client: int | None = None
    answers: tuple | list = ()

    @property
    def state(self):
        return next((it["state"] for it in self.answers if "state" in it), None)


class Run(NamedTuple):
    words: list
    version: int
    graph: dict | None
    entries: list
    status: int
    error: str
    output: bytes


def environment():
    """The program's environment: at a terminal with its session, in which ./rewind says once that no answer
    is proved."""
    return {**os.environ, **({"REWIND_SESSION": str(os.getsid(0))} if sys.stderr.isatty() else {})}


def without_clients(words):
    """The program's words without the number of clients, for a copy that one client drives."""
    return [
        it
        for at, it in enumerate(words)
        if "--clients" not in (it.split("=")[0], words[at - 1] if at else "")
    ]


def json_of(text):
    """The JSON value of a text, or None if Python reads none."""
    try:
        return json.loads(text.decode())
    except (ValueError, RecursionError):
        return None


def lines_of(script):
    """The lines that get a reply: all that are not blank, with their numbers."""
    lines = (Line(number, text) for number, text in enumerate(script.split(b"\n"), 1))
    return [it for it in lines if it.text.strip(b" \t\r")]


def version_of(lines):
    """The version that a script's first line names; 1 if it names none."""
    value = lines[0].value if lines else None
    number = value.get("version") if isinstance(value, dict) and len(value) == 1 else None
    return number if type(number) is int and 2 <= number <= LAST else 1


def opening_of(lines):
    """The lines up to the graph's: a version line, if there is one, and the graph."""
    return lines[: 1 if version_of(lines) == 1 else 2]


def listen(lines, kept):
    """Keeps the lines of the program's standard error, but passes the notes of ./rewind on as soon as they
    are said: each once, however often the program is run."""
    for line in lines:
        if not line.startswith(NOTES):
            kept.append(line)
        elif line not in passed_on:
            passed_on.add(line)
            print(line, end="", file=sys.stderr, flush=True)


def run_bytes(script, words):
    """The program's status, the bytes that it writes, and what it says on standard error, without the notes
    of ./rewind."""
    reader, writer = os.pipe()
    kept, pipes = [], {"stdin": subprocess.PIPE, "stdout": subprocess.PIPE, "stderr": writer}
    with open(reader, encoding="utf-8", errors="replace") as lines:
        with subprocess.Popen(["rewind", *words], executable=PROGRAM, env=environment(), **pipes) as program:
            os.close(writer)
            listener = threading.Thread(target=listen, args=[lines, kept])
            listener.start()
            output, _ = program.communicate(script)
            listener.join()
    return program.returncode, output, "".join(kept)


def replies_of(output):
    """The replies of an output; none if it is not a list of JSON objects, as the help is not."""
    replies = [json_of(it) for it in output.split(b"\n") if it]
    return replies if all(isinstance(it, dict) for it in replies) else []


def graph_of(lines, entries):
    """The graph's value: that of the line whose reply counts locations; if none does, of the first with
    vertices."""
    read = [it.line for it in entries if "locations" in it.reply and it.line]
    values = [it.value for it in read or lines[:2]]
    return next((it for it in values if isinstance(it, dict) and (read or "vertices" in it)), None)


def entries_alone(lines, replies):
    """The entries of a script that runs without queries."""
    if any("number" in it for it in replies):
        return entries_of_log(lines, replies)
    if len(replies) == 1 and "line" in replies[0]:
        lines = [it for it in lines if it.number == replies[0]["line"]]
    elif len(replies) == 1 and "error" in replies[0]:
        lines = opening_of(lines)[-1:]
    return [Entry(line, reply) for line, reply in zip(lines, replies)]


def entries_of_log(lines, replies):
    """The entries of a log of several clients, each with the line that it answers."""
    asked, opening = {}, opening_of(lines)
    for line in lines[len(opening) :]:
        asked.setdefault(line.value["client"], []).append(line)
    entries = [Entry(line, reply) for line, reply in zip(opening, replies)]
    for it in replies[len(opening) :]:
        if "number" in it:
            entries.append(Entry(asked[it["client"]][it["number"]], it["reply"], it["client"]))
        else:
            entries.append(Entry(None, {key: it[key] for key in ("code", "error")}, it["client"]))
    return entries


def with_line(reply, number):
    """The reply, if it names its line, with the line's number in the script alone."""
    return {**reply, "line": number} if "line" in reply and "error" in reply else reply


def entries_asked(lines, queries, before, words):
    """The entries of a run with the queries after each line but the first `before`, and how the
    program ended."""
    given, widths = [], []
    for at, line in enumerate(lines):
        put_in = (
            [] if at < before else [it.encode() for it in (queries(at) if callable(queries) else queries)]
        )
        given += [line.text, *put_in]
        widths.append(1 + len(put_in))
    status, output, error = run_bytes(b"".join(it + b"\n" for it in given), words)
    replies, entries = replies_of(output), []
    for line, width in zip(lines, widths):
        first, *answers = replies[:width] or [None]
        if first is None or len(answers) < width - 1:
            break
        entries.append(Entry(line, with_line(first, line.number), None, answers))
        replies = replies[width:]
    return entries, status, output, error


def run_script(script, words=(), queries=(STATE,)):
    """The run of a script, with the answers to the queries after each line from the graph's on."""
    words, lines = list(words), lines_of(script)
    version, opening = version_of(lines), opening_of(lines)
    asked, status, output, error = entries_asked(lines, queries, len(opening) - 1, words)
    is_log = any("number" in it.reply for it in asked)
    if status == 0 and len(asked) == len(lines) > 0 and not is_log:
        return Run(words, version, graph_of(lines, asked), asked, status, error, output)
    status, output, error = run_bytes(script, words)
    alone = entries_alone(lines, replies_of(output))
    before = next((at for at, it in enumerate(alone) if "locations" in it.reply), 0)
    if before > len(opening) - 1:
        asked = entries_asked(lines, queries, before, words)[0]
    for at, (it, other) in enumerate(zip(alone, asked)):
        if (it.line, it.reply) != (other.line, other.reply) or it.client is not None:
            break
        alone[at] = other
    return Run(words, version, graph_of(lines, alone), alone, status, error, output)


def answers_after(script, number, texts, words=()):
    """The replies to lines that are given to a copy of the script after its line of that number, in place of
    the rest."""
    lines = [it for it in lines_of(script) if it.number <= number]
    given = [it.text for it in lines] + [it.encode() for it in texts]
    _, output, _ = run_bytes(b"".join(it + b"\n" for it in given), list(words))
    return replies_of(output)[len(lines) :]
