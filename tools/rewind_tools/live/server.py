"""The server of a live session: its page, and the questions that the page asks, on this machine alone.

The address has a random key. A request without it, for a host that is not this machine or from another
page's origin is refused. The page may load the server's own files alone (Content-Security-Policy)."""
import ipaddress
import itertools
import json
import math
import secrets
import sys
import threading
import time
from http.server import BaseHTTPRequestHandler, ThreadingHTTPServer
from urllib.parse import urlsplit

from rewind_tools import finishing, opening, typed
from rewind_tools.journal import Journal, Stopped, opened_by
from rewind_tools.live.over_time import OverTime
from rewind_tools.live.pictures import Pictures
from rewind_tools.page import FILES, live_page, part
from rewind_tools.script import COMMANDS, STEPS
from rewind_tools.second import Second
from rewind_tools.session import Ended
from rewind_tools.showing.recorded import page_of
from rewind_tools.telling import faults, names
from rewind_tools.telling.answers import Teller
from rewind_tools.telling.commands import counted, plain, processor_of
from rewind_tools.tool import Progress

POLICY = (
    "default-src 'none'; script-src 'self'; style-src 'self'; connect-src 'self'; img-src 'self' data:;"
    " base-uri 'none'; form-action 'none'; frame-ancestors 'none'"
)
LARGEST = 1 << 20
# How often a page is told that the server is there, and how long the server waits for a page after the last
# has gone.
BEAT, PATIENCE = 0.25, 4.0
# How many steps one question of a page may walk over, if the program has few checkpoints.
SHORT_REACH, LONG_REACH = 2000, 1_000_000
# The program keeps a checkpoint only after 4 steps for each entry of a state, and 1,024 at least.
STEPS_PER_ENTRY, FEW = 4, 8192
# For how long one question looks at all kept steps, and how many points a compared state has.
WHILE, MOST_ROWS = 0.3, 400
# The questions that are asked of the second program, each with the method that answers it.
FINISHING = ("finish", "fewest")
ASIDE = {"overview": "overview", "find": "find", "state": "state_at", "export": "export"}


class Refused(Exception):
    """A request that is not answered: its status and why."""

    def __init__(self, status, why):
        super().__init__(why)
        self.status, self.why = status, why


class Mine(threading.local):
    """The number of the question that a thread answers; a thread that answers none is never cancelled."""

    number = math.inf


class Live:
    """The session of all pages: one question at a time, and a number that grows with each change. What may
    take long is asked of a second program meanwhile; `progress` says how far it is. `say` prints a line."""

    def __init__(self, session, name, say=print):
        self.session, self.name, self.say = session, name, say
        self.lock = threading.Lock()
        self.teller = Teller(
            names.Graph(session.graph, session.version),
            session.started["processors"],
            False,
            session.version,
        )
        self.journal = Journal(session, name, say)
        self.pictures = Pictures(session, self.teller, self.journal.with_place)
        self.over = OverTime(self.teller.graph, self.teller.processors)
        self.second = Second(self.journal, self.show_progress)
        self.revision, self.ended, self.progress = 0, None, ""
        self.rounds = finishing.Rounds()
        # a cancel is of the questions that came before it, in whichever tab
        self.numbers, self.cancelled, self.mine = itertools.count(1), 0, Mine()
        self.is_closing = False
        self.verdict = ""
        session.on_end(self.has_ended)

    at, kept = property(lambda it: it.journal.at), property(lambda it: it.journal.kept)

    def show_progress(self, text):
        self.progress = text

    def has_ended(self):
        """Says that the program has ended, and where the steps are."""
        if self.is_closing:
            return
        with self.lock:
            path = self.journal.close()
            there = [f"the kept steps are saved: {opened_by('live', path)}"] if path else []
            self.ended = "; ".join([self.session.end_words(), *there])
        self.say(self.ended)

    def close(self):
        """Ends the session at once. Returns the path of a file with its kept steps, if there are some that
        no other file has."""
        self.is_closing = True
        for it in (self.session, self.second):
            it.kill()
        self.lock.acquire(timeout=1)  # a step that was answered is still written
        return self.journal.close()

    def execute(self, lines, marks=(), verdict=""):
        """Executes a script's lines before a page is there; returns why some were refused. `marks` has what
        else was refused, and `verdict` how a run that was followed ended (rewind_tools/sources.py)."""
        self.verdict = verdict
        refused, self.journal.report, last = [], Progress(self.say).report, 0
        entries = opening.executed(self.journal, lines, True)
        for entry in self.rounds.of_script(self.session.ask, self.teller.graph, entries):
            if "line" not in entry.reply:
                self.note(entry.line.value, entry.reply)
            last, why = entry.reply.get("at", last), opening.refusal(entry, self.teller)
            if why:
                refused.append(why)
                self.mark_refused(entry, last, why)
        for step, *it in marks or ():
            self.pictures.mark(self.kept if step == "end" else step, *it)
        self.journal.report, self.journal.may_go_on = self.show_progress, self.may_go_on
        return refused

    def mark_refused(self, entry, position, why):
        """Marks a refused step of the script on its processor's lane."""
        if "line" not in entry.reply and entry.line.value["do"] in STEPS:
            self.pictures.mark(position, processor_of(entry.line.value), why)

    def note(self, value, reply):
        self.teller.keep(value, reply)
        if value["do"] == "unbreak" and "error" not in reply:
            self.teller.breaks.pop(value["id"], None)

    def command(self, asked):
        """Executes a command that a page asks for, if the page has seen the newest state. Of a run in
        pieces, `ran` is how many steps the pieces before ran."""
        value = json.loads(asked["line"])
        if not isinstance(value, dict) or value.get("do") not in COMMANDS:
            raise Refused(400, "that is not a command")
        self.check_revision(asked)
        before = self.at, self.kept
        reply, count = self.journal.ask(value)
        reply.update({"ran": reply["ran"] + asked.get("ran", 0)} if "ran" in reply else {})
        words = self.words(value, reply)
        self.note(value, reply)
        self.rounds.note(self.session.ask, self.teller.graph, value, reply, before[0])
        has_moved = (self.at, self.kept) != before
        if has_moved and value["do"] in (*STEPS, "run"):
            self.forget_from(before[0])
        if has_moved or value["do"] in ("break", "unbreak"):
            self.revision += 1
        gone = f"{counted(count, 'kept step')} discarded, which can be brought back" if count else None
        return {**self.told(reply, words, asked), "discarded": gone}

    def words(self, value, reply):
        """The reply to a command in words."""
        self.teller.at, self.teller.kept = self.at, self.kept
        if "line" in reply and "error" in reply:
            said = faults.faulty(reply, faults.line_faults(json.dumps(value).encode(), reply, self.teller))
        else:
            said = self.teller.told(value, reply, None)
        return [*map(plain, said)]

    def bring_back(self, asked):
        """Executes the run before the last discard again."""
        self.check_revision(asked)
        try:
            if not self.journal.bring_back():
                raise Refused(409, "there are no discarded steps")
            words = f"brought back: {counted(self.kept, 'step')} are kept"
        except Stopped as fault:
            words = str(fault)
        finally:
            self.progress = ""
        self.revision += 1
        self.forget_from(0)
        return self.told({}, [words], asked)

    def forget_from(self, position):
        """Forgets what leads to positions past this one, since other steps may be kept there."""
        self.pictures.forget_from(position)
        self.over.forget_from(position)

    def check_revision(self, asked):
        if asked.get("revision") != self.revision:
            raise Refused(409, "the session has moved on in another tab")

    def told(self, reply, words, asked):
        """What a page is told of a command: its answer and, if the page says what is in sight, the
        picture."""
        told = {"words": words, "reply": reply, "refused": "error" in reply, "revision": self.revision}
        sight = asked.get("sight")
        return told if sight is None else {**told, **self.picture(sight)}

    def picture(self, sight):
        """The picture at the cursor, with what is in sight of it."""
        picture = self.pictures.of(self.at, self.kept, self.revision, sight)
        picture.update({"dropped": len(self.journal.dropped), "reach": self.reach()})
        rounds = plain(self.rounds.at(self.at))
        picture.update({"rounds": rounds, "changes": self.journal.changes})
        return {"revision": self.revision, "picture": picture}

    def reach(self):
        """How many steps a jump may go at once: few, if the program has few checkpoints, since a state that
        it has been in is large."""
        return SHORT_REACH if self.pictures.most_entries * STEPS_PER_ENTRY > FEW else LONG_REACH

    def answer(self, path, asked):
        """The answer to a question of a page, by its path."""
        if self.ended:
            raise Refused(503, self.ended)
        self.mine.number = next(self.numbers)
        if path == "cancel":
            self.cancelled = self.mine.number
            self.second.stop()
            return {}
        if path in FINISHING or path in ASIDE:
            return self.asked_second(path, asked)
        try:
            with self.lock:
                return self.answered(path, asked)
        except Ended as fault:
            raise Refused(503, str(fault)) from fault

    def asked_second(self, path, asked):
        """The answer to a question that may take long. Others are answered meanwhile."""
        try:
            return self.finish(path, asked) if path in FINISHING else getattr(self, ASIDE[path])(asked)
        except Stopped as fault:
            return {"stopped": str(fault)}
        finally:
            self.progress = ""

    def finish(self, path, asked):
        """How a point can still finish, or by which fewest steps."""
        graph = self.teller.graph
        with self.lock:
            here, revision = self.second.here(), self.revision
        if path == "fewest":
            told = finishing.fewest(lambda line: self.second.ask(line, *here), graph, asked)
        else:
            told = self.second.try_out(lambda ask: finishing.way_shown(ask, graph, asked), *here)
        return {**told, "revision": revision}

    def overview(self, asked):
        """What is known of all kept steps, after looking for what is not for a while."""
        until, job = time.monotonic() + WHILE, True
        while job and time.monotonic() < until:
            job = self.look(lambda: self.over.next_job(asked, self.kept))
        with self.lock:
            told = self.over.told(asked, self.kept)
            return {**told, "whole": not job, "changes": self.journal.changes}

    def look(self, next_job):
        """Has the second program do a job, if there is one. Its result counts unless other steps are kept
        meanwhile."""
        with self.lock:
            job, (entries, _) = next_job(), self.second.here()
            kept, changes = self.kept, self.journal.changes
        if job:
            replies = job.ask(lambda texts: self.second.ask_lines(texts, entries, kept))
            with self.lock:
                if changes == self.journal.changes:
                    job.add(replies)
        return job

    def find(self, asked):
        """The steps of a kind, of a processor, at a location or a time."""
        while self.look(lambda: self.over.reading(asked, self.kept)):
            self.progress = f"read {len(self.over.replies)} of {self.kept} steps"
        with self.lock:
            return self.over.find(asked)

    def export(self, asked):
        """The page of the kept steps as one file, those after the cursor too."""
        with self.lock:
            script, places = self.journal.script().encode(), self.journal.places()
            marks = [(it["at"], it["p"], it["words"]) for it in self.pictures.marks if it["at"] <= self.kept]
        given = {"marks": marks, "places": places, "verdict": self.verdict, "is_at_end": True}
        return {"page": page_of(self.name, script, self.session.words, report=self.go_on, **given)[0]}

    def go_on(self, text):
        """Notes how far something long is, which ends if it is cancelled."""
        self.progress = text
        if not self.may_go_on() or self.is_closing:
            raise Stopped("cancelled")

    def may_go_on(self):
        """Whether the question that this thread answers is not cancelled."""
        return self.mine.number > self.cancelled

    def state_at(self, asked):
        """The state at another position than the cursor's, as the page shows it."""
        at = int(asked["at"])
        frontiers = [{"do": "frontier", "q": q} for q in range(self.teller.processors)]
        lines = [{"do": "jump", "to": at}, {"do": "state"}, *frontiers]
        with self.lock:
            (entries, _), kept = self.second.here(), self.kept
        texts = [json.dumps(it).encode() for it in lines]
        _, state, *fronts = map(json.loads, self.second.ask_lines(texts, entries, kept))
        return {"state": self.pictures.shown_state(state["state"], fronts, (0, MOST_ROWS))}

    def answered(self, path, asked):
        if path == "picture":
            return self.picture(asked.get("sight") or {})
        if path == "candidates":
            shown = self.pictures.candidates(self.revision, asked["first"])
            return {"revision": self.revision, "candidates": shown}
        if path == "command":
            return self.command(asked)
        if path == "bring-back":
            return self.bring_back(asked)
        if path == "why":
            return self.pictures.why(asked)
        if path == "condition":
            return typed_condition(asked["text"])
        if path == "save":
            self.journal.saved()
            return {"script": self.journal.script(), "words": self.session.words}
        raise Refused(404, "there is nothing here")

    def page(self):
        """The page, with the graph in it."""
        said = self.verdict, self.pictures.marks
        return live_page(self.session.graph, self.name, self.teller.processors, *said)


def typed_condition(text):
    """The condition that is typed as at the prompt, or what is wrong with it."""
    try:
        return {"when": typed.line_of(["break", *typed.words_of_line(text)], said="condition")["when"]}
    except typed.NotTyped as fault:
        return {"error": str(fault)}


def host_of(address):
    """The name in a Host header, without its port."""
    return urlsplit(f"//{address}").hostname or ""


def is_loopback(name):
    """Whether a name is that of the machine itself."""
    try:
        return name == "localhost" or ipaddress.ip_address(name).is_loopback
    except ValueError:
        return False


class Handler(BaseHTTPRequestHandler):
    """One request."""

    protocol_version = "HTTP/1.1"
    default_request_version = "HTTP/1.0"  # of a first line that names none, so that its answer has a status
    disable_nagle_algorithm = True  # so that an answer's end does not wait until its beginning has arrived

    def log_message(self, *words):
        pass

    def do_GET(self):
        self.handle_by(self.get)

    def do_POST(self):
        self.handle_by(self.post)

    def handle_by(self, method):
        try:
            method(self.path_asked())
        except Refused as refused:
            self.close_connection = True
            self.send(refused.status, "application/json", json.dumps({"error": refused.why}).encode())

    def path_asked(self):
        """The path after the key, of a request that may be answered; None if the address ends without the
        slash after it."""
        host, origin = self.headers.get("Host", ""), self.headers.get("Origin")
        try:
            is_here = is_loopback(host_of(host))
        except ValueError as fault:
            raise Refused(400, f"that is not a host: {fault}") from fault
        if not is_here:
            raise Refused(403, "this server answers no other host")
        if origin not in (None, f"http://{host}"):
            raise Refused(403, "this server answers no other page")
        _, key, *rest = f"/{self.path}".replace("//", "/").split("?")[0].split("/")
        if not secrets.compare_digest(key.encode(), self.server.key.encode()):
            raise Refused(403, "the key in the address is wrong")
        return "/".join(rest) if rest else None

    def get(self, path):
        if path is None:
            self.send(301, "text/plain", b"", Location=f"/{self.server.key}/")
        elif path == "":
            self.send(200, "text/html; charset=utf-8", self.server.live.page().encode())
        elif path in FILES:
            self.send(200, FILES[path], part(path).encode())
        elif path == "beats":
            self.beat()
        else:
            raise Refused(404, "there is nothing here")

    def post(self, path):
        length = self.headers.get("Content-Length", "")
        is_length = length.isascii() and length.isdigit() and len(length) < 10 and 0 < int(length) <= LARGEST
        if self.headers.get("Content-Type") != "application/json" or not is_length:
            raise Refused(400, "a question is a JSON object")
        try:
            answer = self.server.live.answer(path, json.loads(self.rfile.read(int(length))))
            text = json.dumps(answer, ensure_ascii=False, separators=(",", ":")).encode()
        except (ValueError, KeyError, TypeError, AttributeError, RecursionError) as fault:
            raise Refused(400, f"that is not a question: {fault}") from fault
        self.send(200, "application/json", text)

    def send(self, status, kind, body, **headers):
        self.send_response(status)
        headers.update({"Content-Type": kind, "Content-Length": str(len(body))})
        headers.update({"Content-Security-Policy": POLICY, "X-Content-Type-Options": "nosniff"})
        headers.update({"Referrer-Policy": "no-referrer", "Cache-Control": "no-store"})
        for name, value in headers.items():
            self.send_header(name, value)
        self.end_headers()
        self.wfile.write(body)

    def beat(self):
        """Tells a page the session's number, now and when it grows, for as long as the page is there."""
        server = self.server
        self.close_connection = True
        self.send_response(200)
        self.send_header("Content-Type", "text/event-stream")
        self.send_header("Cache-Control", "no-store")
        self.end_headers()
        with server.watching:
            told = None
            while not server.is_ending:
                now = [server.live.revision, server.live.ended, server.live.progress]
                self.wfile.write(b": here\n\n" if now == told else f"data: {json.dumps(now)}\n\n".encode())
                self.wfile.flush()
                told = now
                time.sleep(BEAT)


class Watching:
    """Counts the pages that are there."""

    def __init__(self):
        self.count, self.left_at, self.lock = 0, None, threading.Lock()

    def __enter__(self):
        with self.lock:
            self.count += 1

    def __exit__(self, *fault):
        with self.lock:
            self.count -= 1
            self.left_at = time.monotonic()

    def has_emptied(self):
        """Whether the last page has gone, and none has come for a while; true once each time."""
        with self.lock:
            if self.count or self.left_at is None or time.monotonic() - self.left_at <= PATIENCE:
                return False
            self.left_at = None
            return True


class Server(ThreadingHTTPServer):
    """Serves a live session. `say` prints a line; with `is_once` the server ends with its last page."""

    daemon_threads = True

    def __init__(self, live, port=0, is_once=False, say=print):
        super().__init__(("127.0.0.1", port), Handler)
        self.live, self.is_once, self.say = live, is_once, say
        self.key, self.watching, self.is_ending = secrets.token_urlsafe(18), Watching(), False

    @property
    def address(self):
        return f"http://127.0.0.1:{self.server_address[1]}/{self.key}/"

    def service_actions(self):
        if not self.watching.has_emptied():
            return
        if self.is_once:
            self.is_ending = True
            threading.Thread(target=self.shutdown, daemon=True).start()
        else:
            self.say(f"no page is open; the session stays until Ctrl-C, at {self.address}")

    def handle_error(self, request, client_address):
        """A client that has gone away is no fault of the server."""
        if not isinstance(sys.exc_info()[1], ConnectionError):
            super().handle_error(request, client_address)
