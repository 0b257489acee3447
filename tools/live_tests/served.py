"""What the tests of tools/live share: a server that is started as a person starts it, and a page of it in a
browser."""
import contextlib
import json
import os
import shlex
import socket
import socketserver
import subprocess
import tempfile
import threading
import time
import unittest
import urllib.error
import urllib.request
from urllib.parse import urlsplit

from rewind_tools import browser, graph_text, opening
from rewind_tools.live.server import Live
from rewind_tools.testing import TOP

TOOLS = f"{TOP}/tools"
STUCK = f"{TOP}/examples/stuck-program.jsonl"
FED_BY = 3  # how many commands of the stuck program leave its notification waiting
TEXT = "return document.getElementById(arguments[0]).textContent"
POSITION = "return document.body.dataset.position"
CHOOSE = """
const it = document.querySelectorAll("#feed select")[arguments[0]];
it.selectedIndex = [...it.options].findIndex((option) => option.textContent === arguments[1]);
it.dispatchEvent(new Event("change"));
"""
# Keeps what the page says of its progress.
WATCH = """
window.seen = [];
const it = document.getElementById("progress");
new MutationObserver(() => window.seen.push(it.textContent)).observe(it, { childList: true });
"""
needs_browser = unittest.skipUnless(
    browser.is_there(), "no chromium and chromedriver on the PATH for the page"
)


class Served:
    """A server of a script's lines."""

    def __init__(self, lines, words=()):
        number, self.path = tempfile.mkstemp(prefix="live-", suffix=".jsonl")
        with open(number, "w", encoding="utf-8") as it:
            it.write("\n".join(lines) + "\n")
        self.started_by = [f"{TOOLS}/live", self.path, "--no-browser", *words]

    def __enter__(self):
        begun = time.monotonic()
        how = {"stdout": subprocess.PIPE, "stderr": subprocess.STDOUT, "text": True, "cwd": TOP}
        self.process = subprocess.Popen(self.started_by, **how)
        self.said = [self.process.stdout.readline()]
        while self.said[-1] and "http" not in self.said[-1]:
            self.said.append(self.process.stdout.readline())
        self.seconds = time.monotonic() - begun
        self.address = self.said[-1].removeprefix("live: ").strip()
        return self

    def __exit__(self, *fault):
        self.process.terminate()
        self.process.wait()
        self.process.stdout.close()
        if self.path:
            os.unlink(self.path)

    def get(self, path="", **headers):
        return self.send(urllib.request.Request(self.address + path, None, headers))

    def post(self, path, value, **headers):
        headers = {"Content-Type": "application/json", **headers}
        return self.send(urllib.request.Request(self.address + path, json.dumps(value).encode(), headers))

    def send(self, asked):
        """The status, the headers and the body of an answer."""
        try:
            with urllib.request.urlopen(asked, timeout=60) as it:
                return it.status, it.headers, it.read().decode()
        except urllib.error.HTTPError as fault:
            return fault.code, fault.headers, fault.read().decode()

    def asked(self, path, value):
        return json.loads(self.post(path, value)[2])

    def command(self, line, **more):
        revision = self.asked("picture", {})["revision"]
        value = {"line": json.dumps(line), "revision": revision, "sight": {}, **more}
        return self.asked("command", value)


class ServedBy(Served):
    """A server that a command of a page starts."""

    def __init__(self, command):
        self.path, self.started_by = None, [*shlex.split(command), "--no-browser"]


def of_class(tests, context):
    """Enters a context for all tests of a class."""
    tests.addClassCleanup(context.__exit__, None, None, None)
    return context.__enter__()


def lines_of(path, commands):
    """The opening of a script, and its first commands."""
    with open(path, encoding="utf-8") as it:
        lines = it.read().splitlines()
    return [*lines[:2], *[it for it in lines[2:] if '"run"' in it or '"feed"' in it][:commands]]


def opening_of(name, count):
    """The first lines of an example."""
    with open(f"{TOP}/examples/{name}.jsonl", encoding="utf-8") as it:
        return it.read().splitlines()[:count]


def stuck(*words):
    return Served(lines_of(STUCK, FED_BY), ["--processors", "2", *words])


def lines_for(values):
    """The lines of commands, as a script has them."""
    return [opening.Line(at, json.dumps(it).encode(), it) for at, it in enumerate(values, 1)]


def feed(values, **more):
    return {"do": "feed", "p": 0, "vertex": "a", "values": values, "next": "next", **more}


def row(*vertices):
    """A path of vertices one after the other, along exchange edges e0, e1 and so on."""
    edges = [f" --exchange [e{at}]--> {it}" for at, it in enumerate(vertices[1:])]
    return "".join([vertices[0], *edges])


def chain(length, feeds, values):
    """A graph with an input and some vertices in a row, and feeds of `values` values."""
    graph = graph_text.read([row("a(input)", *(f"v{it}(add k=1)" for it in range(length)))])
    return graph, [feed([*range(at, at + values)]) for at in range(feeds)]


def around():
    """The lines of a graph with a loop in which a record of one input goes round for ever."""
    there = "a(input) --[ai]--> i(ingress) --[im]--> m(add k=0) --[mf]--> f(feedback) --[fm]--> m"
    graph = graph_text.read([there, "m --[me]--> e(egress) --[ez]--> z(sink)"])
    return [json.dumps(graph), json.dumps(feed([1], next="close"))]


def live_of(test, session, lines):
    """A live session that has executed some commands, until the test ends."""
    live = Live(session, "test")
    test.addCleanup(live.close)
    live.execute(lines_for(lines))
    return live


class Tunnel(socketserver.ThreadingTCPServer):
    """Another port of this machine that leads to a server, as that of 'ssh -L' does."""

    daemon_threads = True

    def __init__(self, address):
        super().__init__(("127.0.0.1", 0), self.pass_on)
        self.there = urlsplit(address)
        self.address = f"http://localhost:{self.server_address[1]}{self.there.path}"
        threading.Thread(target=self.serve_forever, daemon=True).start()

    def __exit__(self, *fault):
        self.shutdown()
        self.server_close()

    def pass_on(self, one, client, server):
        """Passes the bytes of a connection on, in both directions."""
        other = socket.create_connection((self.there.hostname, self.there.port))
        back = threading.Thread(target=self.copy, args=[other, one], daemon=True)
        back.start()
        self.copy(one, other)
        back.join()
        other.close()

    def copy(self, begin, end):
        with contextlib.suppress(OSError):
            while data := begin.recv(1 << 16):
                end.sendall(data)
        with contextlib.suppress(OSError):
            end.shutdown(socket.SHUT_WR)


class Page(browser.Browser):
    """A page of a served session in a browser."""

    def __init__(self, live, width=1280, height=800, is_dark=False):
        super().__init__(width, height, is_dark)
        self.live = live

    def __enter__(self):
        super().__enter__()
        try:
            self.open(self.live.address)
            self.wait(lambda: self.run(POSITION), "the page")
        except AssertionError:
            self.__exit__()
            raise
        return self

    def run_with(self, module, script, *args):
        """Runs a script that has a module of the page as `it`."""
        load = f"const it = await import(new URL('{module}.js', location.href));"
        return self.run(f"return (async () => {{ {load} {script} }})()", *args)

    def is_idle(self):
        return self.run("return rewind.state.waiting === 0")

    def at(self, position, what):
        """Waits until the page is at a position."""
        self.wait(lambda: self.run(POSITION) == str(position), what)

    def tab(self, name):
        """Opens a tab of the inspector."""
        self.click_text("#tabs button", name)

    def says(self, element, words):
        """Waits until an element has some words."""
        self.wait(lambda: words in self.run(TEXT, element), words)

    def press_in(self, selector, *keys):
        """Gives an element the focus as soon as it is there, and presses keys there."""
        there = "return Boolean(document.querySelector(arguments[0]))"
        self.wait(lambda: self.run(there, selector), selector)
        self.run("document.querySelector(arguments[0]).focus()", selector)
        self.press(*keys)

    def fill(self, selector, text):
        """Types a text into a field, in place of what it has."""
        self.run("const it = document.querySelector(arguments[0]); it.focus(); it.select();", selector)
        self.press("delete", *text)
