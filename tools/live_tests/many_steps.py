"""The page with many kept steps; with very many by the proved program."""
import json
import time
import unittest

from live_tests import IS_PROVED
from live_tests.served import WATCH, Page, Served, chain, feed, live_of, needs_browser
from rewind_tools.live.server import LONG_REACH, SHORT_REACH
from rewind_tools.session import Session

# Presses a key, or clicks a step. Returns, once the answer is drawn, the milliseconds that this took, the
# questions that it asked (those about all kept steps aside), the bytes of the answers, and how many elements
# the page has.
CLICK = """
const [key, what] = arguments, begun = performance.now();
performance.clearResourceTimings();
const isStep = (it) => it.textContent.startsWith(`${what}. `);
if (key) document.dispatchEvent(new KeyboardEvent("keydown", { key }));
else [...document.querySelectorAll("#spacetime .step")].find(isStep).dispatchEvent(new MouseEvent("click"));
const look = (done) => setTimeout(() => (rewind.state.waiting ? look(done) : done()));
const draw = (done) => requestAnimationFrame(() => setTimeout(done));
return new Promise(look).then(() => new Promise(draw)).then(() => {
  const all = performance.getEntriesByType("resource"), taken = performance.now() - begun;
  const answers = all.filter((it) => !it.name.endsWith("overview"));
  const sent = answers.reduce((sum, it) => sum + it.encodedBodySize, 0);
  return [taken, answers.length, sent, document.querySelectorAll("*").length];
});
"""
# Keeps what the page says of its cursor, with the position of the picture then.
WATCH_CURSOR = """
window.seen = [];
const it = document.getElementById("cursor");
const see = () => window.seen.push([it.textContent, rewind.state.picture.at]);
new MutationObserver(see).observe(it, { childList: true });
"""
# Presses a key many times, without waiting: the bytes of the answers.
HELD = """
performance.clearResourceTimings();
const press = () => document.dispatchEvent(new KeyboardEvent("keydown", { key: "ArrowLeft" }));
for (let at = 0; at < arguments[0]; at += 1) press();
const look = (done) => setTimeout(() => (rewind.state.waiting ? look(done) : done()));
const asked = () => performance.getEntriesByType("resource").filter((it) => !it.name.endsWith("overview"));
return new Promise(look).then(() => asked().map((it) => it.encodedBodySize));
"""
# The length of the graph, the feeds, the values of each, and the steps of the run after them.
SCRIPTS = [(9, 60, 20, 9940), (9, 570, 20, 100000)] if IS_PROVED else [(2, 50, 6, 250)]


class Counting(Session):
    """A session that counts what it is asked: the lines, and the steps that the program walks over or
    lists."""

    lines = steps = 0

    def ask_all(self, values):
        self.lines += len(values)
        replies = super().ask_all(values)
        for value, reply in zip(values, replies):
            self.steps += value["hi"] - value["lo"] if "lo" in value else len(reply.get("steps", ()))
        return replies


def kept_steps(length, feeds, values, steps):
    """A server with so many kept steps, by feeds of so many values and a run, at its last position."""
    graph, lines = chain(length, feeds, values)
    lines = [json.dumps(it) for it in (graph, *lines, {"do": "run", "limit": steps})]
    return Served(lines, ["--processors", "2"])


class InSight(unittest.TestCase):
    def clicks_among(self, feeds, steps):
        """The most lines, steps and bytes that a click asks for, by its kind, if there are so many kept
        steps; a point is asked about."""
        graph, lines = chain(2, feeds, 6)
        session = Counting(graph, ["--processors", "2"])
        live = live_of(self, session, [*lines, {"do": "run", "limit": steps}])
        sight = {"why": {"q": 0, "at": "v1", "time": [0]}}
        live.answer("picture", {"sight": sight})
        middle, most = live.kept // 2, {}
        jumps = [{"do": "jump", "to": it} for it in (middle, middle + 20)]
        more = feed([1], p=1)
        # the last feed discards steps, which are saved once: of all steps
        for line in ({"do": "run", "limit": 1}, more, {"do": "back"}, {"do": "redo"}, *jumps):
            session.lines = session.steps = 0
            asked = {"line": json.dumps(line), "revision": live.revision, "sight": sight}
            answer = live.answer("command", asked)
            counts = [session.lines, session.steps, len(json.dumps(answer).encode())]
            most[line["do"]] = [max(it) for it in zip(counts, most.get(line["do"], counts))]
            self.assertTrue(not answer["refused"] and answer["picture"]["why"], line)
        return most

    def test_clicks(self):
        """What a click asks the program for and sends to the page grows neither with the kept steps nor with
        what is outstanding."""
        few, many = self.clicks_among(50, 250), self.clicks_among(100, 1200)
        for kind, (lines, steps, sent) in many.items():
            with self.subTest(kind):
                self.assertTrue(lines <= few[kind][0] and steps <= few[kind][1], [few, many])
                self.assertLessEqual(sent, 1.1 * few[kind][2])
        lines, _, sent = (max(it) for it in zip(*many.values()))
        print(
            f"live: a click asks the program at most {lines} lines and sends the page at most {sent} bytes"
        )

    def test_looks(self):
        """Looks at other parts of what is shown ask for the state once."""
        graph, lines = chain(2, 50, 6)
        session = Counting(graph, ["--processors", "2"])
        live = live_of(self, session, [*lines, {"do": "run", "limit": 40}])
        live.answer("picture", {"sight": {}})
        session.lines = 0
        for first in (60, 0, 60):
            live.answer("picture", {"sight": {"points": first, "candidates": first}})
        self.assertEqual(session.lines, 0)


class Jumps(unittest.TestCase):
    def test_reach(self):
        """A jump goes far at once while states are small, and not where they are large, since the program
        then has few checkpoints."""
        graph, lines = chain(1, 60, 40)
        for count, wanted in ((2, LONG_REACH), (60, SHORT_REACH)):
            live = live_of(self, Session(graph), lines[:count])
            self.assertEqual(live.answer("picture", {})["picture"]["reach"], wanted)

    @needs_browser
    def test_in_pieces(self):
        """A jump in pieces ends where it should, in both directions, and shows how far it is; one to the
        start is none, since the program begins there."""
        with kept_steps(2, 50, 6, 250) as live, Page(live) as page:
            page.run(CLICK, "End", None)
            kept = int(page.run("return document.body.dataset.kept"))
            page.run(WATCH)
            for to, is_in_pieces in ((kept - 90, True), (0, False), (kept, True), (120, True), (9, False)):
                page.run("rewind.state.picture.reach = 30; window.seen.length = 0")
                page.run_with("commands", "it.jump(arguments[0])", to)
                page.at(to, f"position {to}")
                seen = [it for it in page.run("return window.seen") if it.endswith(f"on the way to {to}")]
                self.assertEqual(bool(seen), is_in_pieces, [to, seen])


class Kept(unittest.TestCase):
    def test_speed(self):
        """Prints how long the server takes from a command to its picture, by what the command does."""
        for script in SCRIPTS if IS_PROVED else []:
            with kept_steps(*script) as live:
                self.speed(live)

    def speed(self, live):
        shown = live.asked("picture", {})
        kept = shown["picture"]["kept"]
        middle = kept // 2
        ways = {
            "a new step": [{"do": "run", "limit": 1}] * 5,
            "a jump from end to end": [{"do": "jump", "to": it} for it in (0, kept, 0, kept, middle)],
            "a jump in sight": [{"do": "jump", "to": middle + it} for it in (20, -5, 11, -14, 7)],
            "a step back or forward": [{"do": it} for it in ("back", "back", "redo", "back", "redo")],
        }
        told = []
        for way, lines in ways.items():
            taken = []
            for line in lines:
                begun = time.monotonic()
                asked = {"line": json.dumps(line), "revision": shown["revision"], "sight": {}}
                shown = live.asked("command", asked)
                taken.append(time.monotonic() - begun)
                self.assertFalse(shown["refused"], shown["words"])
            told.append(f"{way} {sorted(taken)[2] * 1000:.0f} ms")
        print(f"live: the server's answer among {kept} kept steps on 19 locations: {', '.join(told)}")

    @needs_browser
    def test_clicks_in_page(self):
        """A click asks two questions, the second for candidates, or three if pictures take long, and neither
        the answers nor the picture are larger than what is in sight."""
        for script in SCRIPTS:
            with kept_steps(*script) as live, Page(live, 1280, 943) as page:
                self.clicks(page)

    @needs_browser
    def test_slow_pictures(self):
        """If pictures take long, where a click leads is shown before the picture."""
        with kept_steps(2, 50, 6, 250) as live, Page(live) as page:
            page.run(CLICK, "End", None)
            page.run("rewind.state.isSlow = true")
            page.run(WATCH_CURSOR)
            kept = page.run("return rewind.state.picture.kept")
            _, count, _, _ = page.run(CLICK, "Home", None)
            self.assertEqual(count, 3)
            self.assertEqual(page.run("return window.seen[0]"), [f"position 0 of {kept}", kept])

    @needs_browser
    def test_key_held_down(self):
        """Of keys that follow one another quickly only the last has a picture."""
        with kept_steps(2, 50, 6, 250) as live, Page(live) as page:
            page.run(CLICK, "End", None)
            kept = int(page.run("return document.body.dataset.kept"))
            seen = page.run(HELD, 20)
            page.at(kept - 20, "20 steps back")
            self.assertLessEqual(len([it for it in seen if it > 2000]), 2, seen)

    def clicks(self, page):
        page.run(CLICK, "End", None)
        kept = int(page.run("return document.body.dataset.kept"))
        ways = {
            "a new step": [("n", None)] * 5,
            "a step clicked": [(None, kept - it) for it in (20, 35, 14, 29, 18)],
            "an arrow key": [(f"Arrow{it}", None) for it in ("Left", "Left", "Right", "Left", "Right")],
        }
        told = []
        for way, clicks in ways.items():
            seen = [page.run(CLICK, *it) for it in clicks]
            self.assertTrue(all(it[1] in (2, 3) for it in seen), [way, seen])
            self.assertTrue(all(1000 < it[2] < 40000 for it in seen), [way, seen])
            self.assertTrue(all(100 < it[3] < 2000 for it in seen), [way, seen])
            told.append(f"{way} {sorted(it[0] for it in seen)[2]:.0f} ms")
        if IS_PROVED:
            print(f"live: from click to picture among {kept} kept steps on 19 locations: {', '.join(told)}")
