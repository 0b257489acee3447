"""What the server answers and refuses, and how long it stays."""
import contextlib
import http.client
import json
import os
import re
import signal
import socket
import subprocess
import tempfile
import threading
import time
import unittest
from unittest import mock
from urllib.parse import urlsplit

from live_tests.served import TOOLS, Served, around, chain, lines_for, live_of, of_class, stuck
from rewind_tools import runs, tool
from rewind_tools.session import Session
from rewind_tools.testing import TOP, is_alive, programs_of

# A question that finds no end, and how many states make it long.
ASK, LONG = {"q": 0, "at": "z", "time": [0]}, {"limit": 1_000_000}


def said_of(*words, **how):
    """The status of a start that fails, and what it says."""
    how = {
        "stdout": subprocess.PIPE,
        "stderr": subprocess.PIPE,
        "text": True,
        "cwd": TOP,
        "timeout": 60,
        **how,
    }
    ran = subprocess.run([f"{TOOLS}/live", *words], **how)
    return ran.returncode, ran.stderr.strip()


class Requests(unittest.TestCase):
    """What is answered: the page, to who has the key, on this machine."""

    @classmethod
    def setUpClass(cls):
        cls.live = of_class(cls, stuck())

    @classmethod
    def tearDownClass(cls):
        """The server says nothing of what it refused."""
        cls.live.process.terminate()
        said = cls.live.process.stdout.read()
        if said:
            raise AssertionError(said)

    def raw(self, text):
        """The status of a request that is sent as it is, and what else is answered."""
        at = urlsplit(self.live.address)
        with socket.create_connection((at.hostname, at.port), timeout=10) as it:
            it.sendall(text.replace("KEY", at.path.strip("/")).encode())
            answer = http.client.HTTPResponse(it)
            answer.begin()
            return answer.status, answer.read().decode()

    def test_page(self):
        status, headers, page = self.live.get()
        self.assertEqual(status, 200)
        self.assertIn('<script type="module" src="live.js">', page)
        policy = headers["Content-Security-Policy"]
        self.assertTrue("default-src 'none'" in policy and "unsafe" not in policy, policy)
        self.assertLess(self.live.seconds, 5)

    def test_files(self):
        for name in ("page.css", "store.js", "live.js"):
            self.assertEqual(self.live.get(name)[0], 200)
        self.assertEqual(self.live.get("server.py")[0], 404)
        self.assertIn(self.live.get("../session.py")[0], (403, 404))

    def test_key(self):
        at = urlsplit(self.live.address)
        status, said = self.raw(f"GET {at.path[:-4]}abc/ HTTP/1.1\r\nHost: localhost\r\n\r\n")
        self.assertEqual((status, json.loads(said)["error"]), (403, "the key in the address is wrong"))

    def test_without_last_slash(self):
        status, _, page = self.live.send(self.live.address[:-1])
        self.assertTrue(status == 200 and "<h1>" in page, status)

    def test_hosts(self):
        """Any name of this machine is answered, with any port, as a tunnel has another."""
        for host in ("localhost:8000", "127.0.0.1", "127.3.4.5:1", "[::1]:9"):
            with self.subTest(host):
                self.assertEqual(self.live.get(Host=host)[0], 200)
                answer = self.live.post("picture", {}, Host=host, Origin=f"http://{host}")
                self.assertEqual(answer[0], 200)
        for host in ("evil.example", "127.0.0.1.evil.example", "10.0.0.1", ""):
            with self.subTest(host):
                self.assertEqual(self.live.get(Host=host)[0], 403)
        self.assertEqual(self.live.post("picture", {}, Origin="http://evil.example")[0], 403)

    def test_faulty_requests(self):
        """A request of wrong form gets a status, and the server says nothing."""
        post = "POST /KEY/picture HTTP/1.1\r\nHost: localhost\r\nContent-Type: application/json\r\n"
        for text, wanted in (
            (f"{post}Content-Length: abc\r\n\r\n", 400),
            (f"{post}Content-Length: -1\r\n\r\n", 400),
            (f"{post}\r\n", 400),
            (f"{post}Content-Length: 9999999\r\n\r\n", 400),
            (f"{post}Content-Length: 2\r\n\r\n[]", 400),
            (f"{post}Content-Length: 3\r\n\r\n{{x}}", 400),
            (f"{post}Content-Length: 20000\r\n\r\n{'[' * 20000}", 400),
            ("GET /KEY/ HTTP/1.1\r\nHost: [::1\r\n\r\n", 400),
            ("GET /KEY/ HTTP/1.1\r\n\r\n", 403),
            ("GET /\N{SNOWMAN}/ HTTP/1.1\r\nHost: localhost\r\n\r\n", 403),
            ("BREW /KEY/ HTTP/1.1\r\nHost: localhost\r\n\r\n", 501),
            ("GET / WRONG\r\n\r\n", 400),
        ):
            with self.subTest(text[:60]):
                self.assertEqual(self.raw(text)[0], wanted)

    def test_faulty_questions(self):
        for path, value in (
            ("command", {"line": '{"do":"state"}', "revision": 0}),
            ("command", {"line": '{"do":', "revision": 0}),
            ("command", {"line": {"do": "back"}, "revision": 0}),
            ("why", {"q": 0}),
            ("picture", {"sight": {"points": "x"}}),
        ):
            with self.subTest(value):
                self.assertEqual(self.live.post(path, value)[0], 400)
        self.assertEqual(self.live.post("picture", {}, **{"Content-Type": "text/plain"})[0], 400)

    def test_names_that_are_no_text(self):
        """A name with half of a pair of surrogates is refused, and the server goes on."""
        line = {"do": "feed", "p": 0, "vertex": "\ud800", "values": [], "next": "next"}
        self.assertIn(self.live.post("command", {"line": json.dumps(line), "revision": 0})[0], (200, 400))
        self.assertEqual(self.live.post("picture", {})[0], 200)


class Staying(unittest.TestCase):
    """How long a session stays, and where it is."""

    def watch_once(self, live):
        """A page that comes, and goes."""
        at = urlsplit(live.address)
        with socket.create_connection((at.hostname, at.port), timeout=10) as it:
            it.sendall(f"GET {at.path}beats HTTP/1.1\r\nHost: localhost\r\n\r\n".encode())
            self.assertIn(b"200", it.recv(100))

    def test_stays_without_pages(self):
        with stuck() as live:
            self.watch_once(live)
            said = live.process.stdout.readline()
            self.assertIn(f"the session stays until Ctrl-C, at {live.address}", said)
            self.assertEqual(live.get()[0], 200)

    def test_once(self):
        with stuck("--once") as live:
            self.watch_once(live)
            self.assertEqual(live.process.wait(20), 0)

    def test_interrupted(self):
        with stuck() as live:
            live.process.send_signal(signal.SIGINT)
            self.assertEqual(live.process.wait(20), 130)
            self.assertEqual(live.process.stdout.read(), "")

    def test_interrupted_unsaved(self):
        """Steps that are not saved are kept in a file when the session ends."""
        for saves in (False, True):
            with stuck() as live:
                live.command({"do": "feed", "p": 1, "vertex": "words", "values": [], "next": "next"})
                if saves:
                    live.asked("save", {})
                live.process.send_signal(signal.SIGINT)
                self.assertEqual(live.process.wait(20), 130)
                said = live.process.stdout.read()
            if saves:
                self.assertEqual(said, "")
                continue
            path = re.fullmatch("live: the kept steps are saved: tools/live (.*) --processors 2\n", said)[1]
            with open(path, "rb") as it:
                ran = runs.run_script(it.read(), ["--processors", "2"])
            self.assertEqual(ran.entries[-1].reply["at"], 12)

    def test_port(self):
        with socket.socket() as it:
            it.bind(("127.0.0.1", 0))
            port = str(it.getsockname()[1])
            status, said = said_of(f"{TOP}/examples/loop.jsonl", "--no-browser", "--port", port)
            self.assertEqual((status, said), (1, f"live: port {port}: Address already in use"))
        with stuck("--port", port) as live:
            self.assertIn(f"http://127.0.0.1:{port}/", live.address)

    def test_starts_that_fail(self):
        """Each says why in one line."""
        number, graph = tempfile.mkstemp(prefix="live-", suffix=".jsonl")
        with open(number, "w", encoding="utf-8") as it:
            it.write('{"vertices":[]}\n')
        self.addCleanup(os.unlink, graph)
        for words, wanted in (
            (["/nowhere"], "live: /nowhere: No such file or directory"),
            (["/dev/null"], "live: /dev/null: there is no graph in it"),
            ([graph], 'live: the graph is refused: the key "edges" is missing: a list of edges (40 Shape)'),
        ):
            with self.subTest(words):
                self.assertEqual(said_of(*words, "--no-browser"), (1, wanted))
        status, said = said_of("--no-browser")
        self.assertEqual(status, 2)
        self.assertRegex(said, r"^tools/live: .* required: SCRIPT; tools/live --help says more$")

    def test_full_disk(self):
        with open("/dev/full", "wb") as full:
            status, said = said_of(f"{TOP}/examples/loop.jsonl", "--no-browser", stdout=full)
        self.assertEqual((status, said), (1, "live: write failed: No space left on device"))


class Sources(unittest.TestCase):
    def test_places(self):
        """The steps of a saved run come with their places, until other steps take theirs; how the run ended
        is said, and what was refused is marked."""
        graph, lines = chain(1, 2, 1)
        served = Served([json.dumps(graph), *map(json.dumps, lines)])
        places = [{"script": at, "file": "w0", "line": at, "note": "it"} for at in range(2, len(lines) + 2)]
        try:
            with open(f"{served.path}.lines", "w", encoding="utf-8") as it:
                others = [{"verdict": "refused: line 3"}, {"refused": "end", "worker": 0, "text": "line 3"}]
                values = [json.dumps(value, separators=(",", ":")) for value in (*places, *others)]
                it.write("\n".join(values) + "\n")
            with served as live:
                self.assertIn('<b class="bad">refused: line 3</b>', live.get()[2])
                shown = live.asked("picture", {"sight": {}})["picture"]
                place = f" [w0, line {len(lines) + 1}; note: it]"
                self.assertEqual(shown["marks"], [{"at": 2, "p": 0, "words": "line 3"}])
                self.assertTrue(shown["effect"]["step"].endswith(place), shown["effect"])
                self.assertTrue(shown["steps"]["items"][-1]["words"].endswith(place))
                live.command({"do": "back"})
                other = live.command(lines[-1])
                self.assertNotIn("[", other["picture"]["steps"]["items"][-1]["words"])
                again = live.asked("bring-back", {"revision": other["revision"], "sight": {}})["picture"]
                self.assertEqual(again["steps"]["items"], shown["steps"]["items"])
        finally:
            os.unlink(f"{served.path}.lines")


class Refusals(unittest.TestCase):
    def test_lines_that_are_refused(self):
        """Each line of the script that is refused is named with its reason."""
        graph, lines = chain(1, 1, 1)
        script = [json.dumps(graph), '{"do":"redo"}', "# a comment", *map(json.dumps, lines), '{"do":"jmp"}']
        with Served([*script, '{"do":"state"}']) as live:
            self.assertEqual(live.said[0], "live: 3 lines executed, 2 of them refused; 1 query left out\n")
            said = [live.process.stdout.readline() for _ in range(2)]
            self.assertIn("again: refused: no step is kept after the cursor (21 AtEnd)", said[0])
            self.assertIn("line 5, ", said[1])
            self.assertIn("31 BadShape", said[1])


class Killed(unittest.TestCase):
    """What ends a session from outside: no step is lost, and no program is left."""

    def kept_in(self, said, wanted):
        """The kept steps of the file that a text names."""
        path = re.search(f"{wanted}: tools/live (.*) --processors 1\\b", said)
        self.assertTrue(path, said)
        with open(path[1], "rb") as it:
            return runs.run_script(it.read()).entries[-1].reply["at"]

    def test_program_killed(self):
        """That the program was killed is said, and the server goes on to say so."""
        with Served(around()) as live:
            live.command({"do": "run", "limit": 5})
            for it in programs_of(live.process.pid):
                os.kill(it, signal.SIGKILL)
            said = live.process.stdout.readline()
            self.assertIn("live: the program ended by signal 9; ", said)
            self.assertEqual(self.kept_in(said, "the kept steps are saved"), 6)
            for name in ("picture", "save", "finish", "fewest"):
                status, _, answer = live.post(name, ASK)
                self.assertEqual((status, json.loads(answer)["error"]), (503, said.strip()[len("live: ") :]))

    def test_in_a_long_question(self):
        """A server ends at once, in a long question, too, and loses no step."""
        for number in (signal.SIGINT, signal.SIGTERM, signal.SIGHUP, signal.SIGKILL):
            with Served(around()) as live:
                live.command({"do": "run", "limit": 5})
                asking = threading.Thread(target=self.ask, args=[live], daemon=True)
                asking.start()
                time.sleep(1)
                programs, begun = programs_of(live.process.pid), time.monotonic()
                live.process.send_signal(number)
                live.process.wait(20)
                said = live.process.stdout.read()
            with self.subTest(number):
                self.assertLess(time.monotonic() - begun, 3)
                self.assertEqual([len(programs), *filter(is_alive, programs)], [2])
            wanted = "the kept steps are saved"
            if number == signal.SIGKILL:
                with Served(around()) as live:
                    said, wanted = live.said[-3], "a session that was killed left steps"
            with self.subTest(number, of="file"):
                self.assertEqual(self.kept_in(said, wanted), 6)

    def ask(self, live):
        with contextlib.suppress(OSError, ValueError, http.client.HTTPException):
            live.asked("fewest", {**ASK, **LONG})

    def test_cancelled(self):
        """A long question is cancelled at once, and others are answered meanwhile."""
        with Served(around()) as live:
            told = []
            asking = threading.Thread(target=lambda: told.append(live.asked("fewest", {**ASK, **LONG})))
            asking.start()
            time.sleep(1)
            begun = time.monotonic()
            self.assertEqual(live.command({"do": "run", "limit": 5})["picture"]["at"], 6)
            self.assertEqual(live.asked("cancel", {}), {})
            asking.join(20)
            self.assertLess(time.monotonic() - begun, 3)
            self.assertEqual(told, [{"stopped": "cancelled"}])
            self.assertIn("words", live.asked("fewest", {**ASK, "limit": 5}))


class Cancelled(unittest.TestCase):
    def test_another_tab(self):
        """A cancel is not lost if another tab asks something before what is cancelled looks for it."""
        graph, fed = map(json.loads, around())
        live = live_of(self, Session(graph), [fed, {"do": "run", "limit": 2}])
        lines = [{"do": "run", "limit": 3000}, {"do": "jump", "to": 1}, {"do": "run", "limit": 1}]
        for it in lines:
            live.answer("command", {"line": json.dumps(it), "revision": live.revision})

        def ask(path):
            with contextlib.suppress(KeyError):
                live.answer(path, {})

        def between(text):
            """Between two pieces: the cancel of one tab, and a question of another, a faulty one."""
            live.journal.report = lambda text: None
            for path in ("cancel", "state"):
                tab = threading.Thread(target=ask, args=[path])
                tab.start()
                tab.join()

        live.journal.report = between
        for wanted in ("stopped at 3 of 3003 steps; the same again goes on", "brought back: 3003 steps"):
            told = live.answer("bring-back", {"revision": live.revision})
            self.assertTrue(told["words"][0].startswith(wanted), told)


class Starting(unittest.TestCase):
    def test_progress(self):
        """A long start says how far it is."""
        graph, lines = chain(1, 9, 1)
        live, said = live_of(self, Session(graph), []), []
        live.say = said.append
        with mock.patch.object(tool, "BETWEEN", 0):
            live.execute(lines_for([*lines, {"do": "run", "limit": 1200}, *lines * 120]))
        self.assertEqual(said[0], "line 9 of 1090")
        self.assertEqual(said[-2:], ["line 1010 of 1090", "line 1090 of 1090"])


class Tunnels(unittest.TestCase):
    def test_another_port(self):
        """The page by the address that ssh -L gives: another port of localhost."""
        graph, lines = chain(1, 1, 1)
        with Served([json.dumps(graph), *map(json.dumps, lines)]) as live:
            there = {"Host": "localhost:8123", "Origin": "http://localhost:8123"}
            status, _, said = live.post("picture", {}, **there)
            self.assertTrue(status == 200 and json.loads(said)["picture"]["at"] == 1, said)
