"""What a session has done: the cursor, the lines that made the kept steps, and the runs that were discarded.
Steps that no file of the person's has are written to a file of the session, line by line, as they are made.

    journal = Journal(session, "name")
    reply, gone = journal.ask(line)     as session.ask(line), and how many kept steps it discarded
    journal.script()                    the script that leads to the cursor: of a run its `run` lines
    journal.bring_back()                executes the run before the last discard again
    journal.with_place(3, "step 3: ..") what is said of a step, with the place in a trace that it comes from
    journal.close()                     the path of the file, if there are steps that no other has
    left_behind("live")                 sentences that name the files of sessions that did not close

A step at a cursor before the last kept step discards the steps after it. What a run that is brought back
discards comes back in turn, last: so each run comes back in its turn. A run is fixed by its line and the
cursor, so a part of it is a run of fewer steps.

A file in FOLDER/open is locked while its session lasts, which also one that is killed ends."""
import bisect
import contextlib
import fcntl
import json
import os
import re
import tempfile
from typing import NamedTuple

from rewind_tools import sources
from rewind_tools.script import STEPS
from rewind_tools.session import Ended

MOST_RUNS, MOST_FILES = 20, 100
# How many steps of a run, and how many lines, are executed at once.
PIECE = 1000
MOST_POSITION = 1_000_000
ENCODED = json.JSONEncoder(separators=(",", ":"), ensure_ascii=False).encode
STATE = os.environ.get("XDG_STATE_HOME") or os.path.expanduser("~/.local/state")
FOLDER = os.path.join(STATE, "rewind")
NAME = re.compile(r"(.*)-on-(\d+)-\w+\.jsonl")


class Entry(NamedTuple):
    """A line that leads from one position to another; `place` is where it comes from, if that is known
    (rewind_tools/sources.py)."""

    begin: int
    end: int
    text: bytes
    place: bytes = None


class Stopped(Exception):
    """What was asked was stopped before its end."""


def compact(value):
    return ENCODED(value).encode()


def common(entries, others):
    """How many entries two runs have in common, from their start."""
    return next((at for at, (it, other) in enumerate(zip(entries, others)) if it is not other),
        min(len(entries), len(others)))  # fmt: skip


def replay(session, entries, same):
    """Has a program execute the entries after the first ones, in pieces; each is handed out once it is
    executed."""
    if same < len(entries):
        session.ask({"do": "jump", "to": entries[same].begin})
    while same < len(entries):
        piece = entries[same : same + PIECE]
        piece = piece[: next((at for at, it in enumerate(piece, 1) if it.end - it.begin > 1), PIECE)]
        reply = json.loads(session.ask_lines([it.text for it in piece])[-1])
        if reply.get("at") != piece[-1].end:
            raise Ended(f"the program does not come to position {piece[-1].end} again: {reply}")
        same += len(piece)
        yield piece


class Journal:
    """The journal of a session. `changes` counts what has changed the kept steps, and `same_to` is up to
    which position they are those that somebody listed last. `say` is told why no file can be written,
    `report` how far something long is, and `may_go_on` is asked between its pieces."""

    def __init__(self, session, name, say=print):
        self.session, self.say = session, say
        self.report, self.may_go_on = (lambda text: None), (lambda: True)
        self.name = f"{re.sub(r'[.]jsonl$', '', os.path.basename(name))}-on-{session.started['processors']}-"
        self.at = self.kept = self.saved_to = self.same_to = self.changes = 0
        self.entries, self.dropped, self.is_dropping = [], [], True
        self.file, self.path, self.has_failed = None, None, False

    # ---- what a line does

    def ask(self, value, is_script=False):
        """Asks the program a line, and keeps what it does: the reply, and how many kept steps it
        discarded."""
        reply = self.session.ask(value)
        return reply, self.keep(value, reply, is_script)

    def keep(self, value, reply, is_script=False, line=None):
        """Keeps what a line did, by its reply; returns how many kept steps it discarded. The lines of the
        session's own script are in a file, and what they discard is not brought back. `line` is the line as
        a script has it, if it is of one."""
        if "at" not in reply:
            return 0
        before, gone = self.at, self.kept - self.at
        if value["do"] not in (*STEPS, "run") or reply["at"] <= before:
            self.at, self.kept = reply["at"], reply.get("kept", self.kept)
            return 0
        is_saved = is_script and not self.is_unsaved
        if not is_saved:
            self.open_file()
        if gone:
            self.cut(is_script)
        self.add(entries_of(value, before, reply["at"], line))
        self.at, self.kept = reply["at"], reply.get("kept", reply["at"])
        self.saved_to = self.kept if is_saved else self.saved_to
        return gone

    def add(self, entries):
        """Adds lines that were executed."""
        self.changes += 1
        self.same_to, self.saved_to = min(self.same_to, self.at), min(self.saved_to, self.at)
        self.entries += entries
        if self.file:
            self.write(b"".join(it.text + b"\n" for it in entries))
        self.at = self.kept = entries[-1].end

    def cut(self, is_script=False):
        """Lets go of the kept steps after the cursor."""
        if self.is_dropping and not is_script:
            self.dropped = [*self.dropped, ([*self.entries], self.at)][-MOST_RUNS:]
        self.entries = self.entries_to(self.at)
        self.write(compact({"do": "jump", "to": self.at}) + b"\n")

    def entries_to(self, position):
        """The entries that lead to a position; of a run that goes on from there its part."""
        count = bisect.bisect_right(self.entries, position, key=lambda it: it.end)
        entries, rest = self.entries[:count], self.entries[count:]
        if rest and rest[0].begin < position:
            entries += entries_of(json.loads(rest[0].text), rest[0].begin, position)
        return entries

    def with_place(self, position, said):
        """What is said of the step that leads to a position, with where that step comes from, if a trace
        has it."""
        at = bisect.bisect_left(self.entries, position, key=lambda it: it.end)
        return sources.with_place(said, self.entries[at].place) if 0 < position <= self.kept else said

    def run(self, value, is_script=False):
        """Executes a run, a long one in pieces: the reply to all of it, and how many kept steps it
        discarded."""
        limit = value.get("limit")
        is_long = type(limit) is int and PIECE < limit <= MOST_POSITION - self.at
        ran = gone = 0
        for done in range(0, limit, PIECE) if is_long else [0]:
            line = {**value, "limit": min(PIECE, limit - done)} if is_long else value
            reply, dropped = self.ask(line, is_script)
            ran, gone = ran + reply.get("ran", 0), gone + dropped
            if reply.get("stop") != "limit" or not is_long:
                break
            self.report(f"ran {ran} of {limit} steps")
            if ran < limit and not self.may_go_on():
                reply["stop"] = "interrupt"
                break
        return ({**reply, "ran": ran} if "ran" in reply else reply), gone

    # ---- what was discarded

    def around(self, work):
        """Does what may execute many lines, as one discard: how many kept steps it discarded."""
        before, kept, same = ([*self.entries], self.at), self.kept, self.same_to
        self.same_to, self.is_dropping = kept, False
        try:
            work()
        finally:
            self.is_dropping, gone = True, max(0, kept - self.same_to)
            self.same_to = min(same, self.same_to)
            if gone:
                self.dropped = [*self.dropped, before][-MOST_RUNS:]
        return gone

    def bring_back(self):
        """Executes the run before the last discard again, up to its cursor, if there is one; Stopped, if it
        may not go on, and then it can be brought back again."""
        if not self.dropped:
            return False
        now, cursor = [*self.entries], self.at
        entries, at = self.dropped.pop()
        same = common(now, entries)
        self.open_file()
        if same < min(len(now), len(entries)):
            self.dropped.insert(0, (now, cursor))
            self.at, self.is_dropping = entries[same].begin, False
            self.cut()
            self.is_dropping = True
        for piece in replay(self.session, entries, same):
            self.at = piece[0].begin
            self.add(piece)
            self.report(f"brought back {self.at} of {entries[-1].end} steps")
            if not self.may_go_on():
                self.dropped.append((entries, at))
                raise Stopped(f"stopped at {self.at} of {entries[-1].end} steps; the same again goes on")
        self.keep({"do": "jump"}, self.session.ask({"do": "jump", "to": at}))
        return True

    # ---- files

    @property
    def is_unsaved(self):
        return self.saved_to < self.kept

    def unsaved_words(self):
        """How many of the kept steps no file has."""
        count = self.kept - self.saved_to
        some = f"{count} of {self.kept}" if count < self.kept else f"{count}"
        return f"{some} kept step{'s' * (self.kept != 1)} {'is' if count == 1 else 'are'} not saved"

    def head(self):
        """The script up to the last kept step."""
        opening = [compact({"version": self.session.version}), compact(self.session.graph)]
        return b"\n".join([*opening, *(it.text for it in self.entries), b""])

    def places(self):
        """Where the lines of the script come from, by their numbers."""
        return {number: it.place for number, it in enumerate(self.entries, 3) if it.place}

    def jump(self):
        """The line that ends a script: to the cursor."""
        return compact({"do": "jump", "to": self.at}) + b"\n" if self.at < self.kept else b""

    def script(self):
        """The script as ./rewind reads it: with short names, if the program does not take those of the
        graph."""
        return (self.session.names.given(self.head()) + self.jump()).decode()

    def saved(self):
        """Notes that a file of the person's has the kept steps."""
        self.saved_to = self.kept
        self.remove_file()

    def open_file(self):
        """Makes the session's file, with what led here."""
        if self.file or self.has_failed:
            return
        with self.faults_said():
            os.makedirs(f"{FOLDER}/open", mode=0o700, exist_ok=True)
            number, self.path = tempfile.mkstemp(".jsonl", self.name, f"{FOLDER}/open")
            self.file = open(number, "wb", buffering=0)
            fcntl.flock(number, fcntl.LOCK_EX)
            self.file.write(self.head())

    def write(self, text):
        if self.file:
            with self.faults_said():
                self.file.write(text)

    @contextlib.contextmanager
    def faults_said(self):
        """Says once that the file cannot be written; the session goes on without it."""
        try:
            yield
        except OSError as fault:
            self.has_failed = True
            self.remove_file()
            where = fault.filename or FOLDER
            self.say(f"{where}: {fault.strerror}: no file has the steps until you save them")

    def remove_file(self):
        if self.file:
            self.file.close()
            with contextlib.suppress(OSError):
                os.unlink(self.path)
            self.file = self.path = None

    def close(self):
        """Closes the file. Returns its path if it has steps that no other file has."""
        if not self.is_unsaved or not self.file:
            return self.remove_file()
        self.write(self.jump())
        path, file, self.file = self.path, self.file, None
        with contextlib.suppress(OSError):
            path = kept_file(path)
        file.close()
        return path


def entries_of(value, begin, end, line=None):
    """The entries of a line: of a run one for each piece, so that none takes long."""
    if value["do"] != "run":
        text, place = (line.text.strip(), line.place) if line else (compact(value), None)
        return [Entry(begin, end, text, place)]
    ends = [*range(begin + PIECE, end, PIECE), end]
    return [Entry(at, to, compact({**value, "limit": to - at})) for at, to in zip([begin, *ends], ends)]


def kept_file(path):
    """Moves a session's file to those that stay, of which the oldest go; its new path."""
    there = os.path.join(FOLDER, os.path.basename(path))
    os.rename(path, there)
    files = [it.path for it in os.scandir(FOLDER) if it.name.endswith(".jsonl")]
    for it in sorted(files, key=os.path.getmtime)[:-MOST_FILES]:
        os.unlink(it)
    return there


def opened_by(tool, path):
    """How a tool opens a session's file."""
    found = NAME.match(os.path.basename(path))
    return f"tools/{tool} {path} --processors {found[2] if found else 1}"


def left_behind(tool):
    """What to say of sessions that did not close: where their steps are. Their files stay."""
    said = []
    with contextlib.suppress(OSError):
        for it in sorted(os.scandir(f"{FOLDER}/open"), key=lambda it: it.name):
            with open(it.path, "rb") as file, contextlib.suppress(BlockingIOError):
                fcntl.flock(file, fcntl.LOCK_EX | fcntl.LOCK_NB)
                if it.stat().st_size:
                    path = kept_file(it.path)
                    said.append(f"a session that was killed left steps: {opened_by(tool, path)}")
    return said
