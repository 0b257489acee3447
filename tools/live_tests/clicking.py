"""The page as a person uses it in a browser, by clicks and by keys."""
import json
import os
import re
import signal
import tempfile
import time
import unittest

from live_tests.served import (
    CHOOSE, POSITION, STUCK, TEXT, WATCH, Page, Served, ServedBy, Tunnel, around, chain, feed, needs_browser,
    opening_of, stuck,
)  # fmt: skip
from live_tests.looking import picture
from rewind_tools import runs
from rewind_tools.testing import TOP, programs_of

VALUES, FEED = "#feed input", "#feed button"
LISTED = "return document.querySelector('#candidates').getAttribute('aria-busy') === 'false'"
WARNS = "return document.querySelector('#warning').open"
# What a screen reader reads of an element: its own name, its label, or its text.
NAME = """
const it = document.querySelector(arguments[0]);
const label = it.labels && it.labels[0] && it.labels[0].textContent.trim();
return it.getAttribute("aria-label") || label || it.textContent;
"""
UNNAMED = """
const hasLabel = (it) => it.labels && it.labels.length;
const named = (it) => it.getAttribute("aria-label") || hasLabel(it) || it.textContent.trim();
const all = document.querySelectorAll("button, input, select, [role=button]");
return [...all].filter((it) => !named(it)).map((it) => it.outerHTML);
"""
# Steps back that wait behind a slow question.
SLOW_QUESTION = """
it.inTurn(() => new Promise((done) => { setTimeout(done, 3000); }));
for (let at = 0; at < 3; at += 1) rewind.source.actions.back();
"""
# Drags over the overview, from one share of it to another.
BRUSH = """
const strip = document.getElementById("strip"), left = strip.getBoundingClientRect().left + 92;
const at = (share) => ({ clientX: left + share * (strip.clientWidth - 104), bubbles: true });
strip.dispatchEvent(new PointerEvent("pointerdown", at(arguments[0])));
window.dispatchEvent(new PointerEvent("pointerup", at(arguments[1])));
"""
# Chooses runs by lot.
BY_LOT = """
const it = document.getElementById("choice");
it.selectedIndex = 1;
it.dispatchEvent(new Event("change"));
"""
HIDDEN = "return document.querySelector(arguments[0]).hidden"
# Chooses the kind, the processor and the location of the steps that are looked for, by their numbers.
FIND = "document.querySelectorAll('#find select').forEach((it, at) => { it.selectedIndex = arguments[at]; })"


def steps_of_page():
    """The command and the quoted words of docs/LIVE.md's way to a reason."""
    with open(f"{TOP}/docs/LIVE.md", encoding="utf-8") as it:
        section = it.read().partition("## From a fresh clone to the reason")[2].partition("\n## ")[0]
    command = re.search(r"```text\n\s*(.*)\n", section)[1]
    return command, re.findall(r"(?<!`)`([^`\n]+)`(?!`)", section)


@needs_browser
class Ways(unittest.TestCase):
    """The ways from a script to what it is about."""

    def test_by_the_page(self):
        """The way of docs/LIVE.md from the command to the reason and on: what it quotes the page says."""
        command, quoted = steps_of_page()
        position, notice, reason, must = quoted
        begun = time.monotonic()
        with ServedBy(command) as live, Page(live) as page:
            while page.run(TEXT, "cursor") != position:
                at = page.run(POSITION)
                page.press("left")
                page.wait(lambda: page.run(POSITION) != at, "a step back")
            page.click_text("#candidates button", notice)
            page.says("why", reason)
            seconds = time.monotonic() - begun
            self.assertLess(seconds, 300)
            print(
                f"live: from the command to the reason by the steps of docs/LIVE.md: {seconds:.1f} seconds"
            )
            page.click_text("#candidates button", "How can this finish?")
            page.says("why", must)
            page.click_text("#why button", "execute these 5 steps")
            page.wait(lambda: page.run(WARNS), "the warning")
            page.click(page.find("#go-on"))
            page.at(16, "the steps")
            page.says("effect", "runs the notification of total")

    def test_by_clicks(self):
        """Load the stuck program, click the notice that waits, read why, let the others go on, and save."""
        with stuck() as live, Page(live) as page:
            page.at(11, "the page")
            page.click_text("#candidates button", "runs the notification of total")
            page.says("why", "the token of processor 1")
            page.says("why", "in truth all that is strictly before total (0) is not finished")
            page.run(CHOOSE, 0, "words of processor 1 (epoch 0)")
            page.click(page.find(FEED))
            page.at(12, "the feed")
            page.click_text("#candidates button", "processor 1 broadcasts")
            page.at(13, "the broadcast")
            page.click_text(
                "#candidates button", "processor 0 receives the first change on its way from processor 1"
            )
            page.at(14, "the receive")
            page.click_text("#candidates button", "processor 0 runs the notification of total")
            page.at(15, "the notification delivered")
            page.press("left", "left")
            page.at(13, "two steps back")
            page.press("end")
            page.at(15, "the end")
            page.press("s")
            script = page.wait(lambda: page.run("return document.body.dataset.saved"), "the saved script")
            ran = runs.run_script(script.encode(), ["--processors", "2"])
            self.assertEqual(ran.entries[-1].reply.get("at"), 15)

    def test_by_keys(self):
        """The same by keys alone: each button is reached by Tab."""
        with stuck() as live, Page(live, 800, 800, True) as page:
            page.press("left", "home")
            page.at(0, "the start")
            page.press("right", "end")
            page.at(11, "the end")
            for _ in range(200):
                page.press("tab")
                if "runs the notification of total" in page.run("return document.activeElement.textContent"):
                    break
            page.press("enter")
            page.says("why", "the token of processor 1")
            self.assertTrue(page.run("return document.documentElement.scrollWidth <= window.innerWidth"))

    def test_releases(self):
        """A held capability: click it, read why, move it, run one processor, release it."""
        with Served(opening_of("held-capability", 6), ["--processors", "2"]) as live, Page(live) as page:
            page.at(13, "the page")
            page.click_text("#candidates button", "processor 1 holds a capability at batch (0)")
            page.says("why", "the capability of processor 1")
            self.assertEqual(page.run("return document.querySelector('#candidates form input').value"), "1")
            page.click_text("#candidates form button", "move to")
            page.at(14, "the move")
            page.click_text("#only button", "0")
            page.click(page.find("#run"))
            page.at(16, "the run of processor 0")
            page.says("said", "nothing is enabled on processor 0")
            page.click_text("#candidates form button", "release")
            page.at(17, "the release")
            page.click_text("#only button", "0")
            page.click(page.find("#run"))
            page.says("candidates", "no step is left: every input is closed")

    def test_sends(self):
        """A capability at an opaque vertex: send from it on a port and at a later time, keep it beside a
        later one, and try a time that is too early, which keeps what is typed."""
        values = "#candidates [aria-label='values to send from x (%d) of processor 0']"
        at = "#candidates [aria-label='the time of what is sent from x (%d) of processor 0']"
        with Served(opening_of("sends-and-releases", 4)) as live, Page(live) as page:
            page.at(2, "the page")
            page.says("candidates", "processor 0 holds a capability at x (0)")
            page.fill(values % 0, "5 9007199254740993")
            page.run("document.querySelector('#candidates select').selectedIndex = 1")
            page.fill(at % 0, "2")
            page.press("enter")
            page.at(3, "the send")
            page.says("effect", "sends 5 and 9007199254740993 on port 1 at (2), from the capability that")
            page.wait(lambda: page.run(LISTED), "the list of the candidates")
            page.click(page.find("#candidates input[type=checkbox]"))
            page.click_text("#candidates form button", "move to")
            page.at(4, "the later capability")
            page.says("effect", "processor 0 holds a capability at x (1)")
            page.says("candidates", "processor 0 holds a capability at x (1)")
            page.fill(values % 1, "1")
            page.fill(at % 1, "0")
            page.press("enter")
            page.says("said", "(0) is not at or after (1), the time of the capability (56 TooEarly)")
            self.assertEqual(page.run("return document.querySelector(arguments[0]).value", values % 1), "1")
            page.click_text("#candidates form button", "release")
            page.at(5, "the release")
            page.says("effect", "processor 0 no longer holds a capability at x (0)")

    def test_every_input_closed(self):
        graph, _ = chain(1, 0, 0)
        with Served([json.dumps(graph), json.dumps(feed([], next="close"))]) as live, Page(live) as page:
            page.click(page.find("#run"))
            page.says("candidates", "no step is left: every input is closed")
            page.says("feed", "every input is closed")


@needs_browser
class Feeding(unittest.TestCase):
    def test_values_of_64_bits(self):
        """Values that a browser's numbers would round are fed, and taken, as they are typed."""
        graph, _ = chain(1, 0, 0)
        with Served([json.dumps(graph)]) as live, Page(live) as page:
            page.fill(VALUES, "9007199254740993 -9223372036854775808")
            page.press("enter")
            page.at(1, "the feed")
            page.says("effect", "records of value 9007199254740993")
            empty = "return document.querySelector(arguments[0]).value === \"\""
            page.wait(lambda: page.run(empty, VALUES), "the empty field")
            page.click_text("#candidates button", "takes a record of value -9223372036854775808 from")
            page.at(2, "the take")
            page.says("effect", "takes a record of value -9223372036854775808 from")

    def test_values_that_are_none(self):
        """A value that is not a number is named before anything is asked, and the field keeps its text."""
        with stuck() as live, Page(live) as page:
            page.press("home")
            page.at(0, "the start")
            for typed, said in (
                ("2 x3 4", '"x3" is not an integer'),
                ("9223372036854775808", "is not between"),
            ):
                page.fill(VALUES, typed)
                page.press("enter")
                page.says("said", said)
                self.assertFalse(page.run(WARNS))
                self.assertEqual(
                    page.run("return document.querySelector(arguments[0]).value", VALUES), typed
                )
            self.assertEqual(page.run(POSITION), "0")

    def test_refused(self):
        """A feed that the program refuses keeps the field."""
        with Served(opening_of("not-stepped", 2), ["--processors", "2"]) as live, Page(live) as page:
            page.run(CHOOSE, 1, "advance to epoch")
            page.run("document.querySelectorAll('#feed input')[1].value = '0'")
            page.fill(VALUES, "5")
            page.press("enter")
            page.says("said", "54 NotLater")
            self.assertEqual(page.run("return document.querySelector(arguments[0]).value", VALUES), "5")

    def test_feed_to(self):
        """An input is advanced by several epochs in one step."""
        with Served(opening_of("not-stepped", 2), ["--processors", "2"]) as live, Page(live) as page:
            page.run(CHOOSE, 1, "advance to epoch")
            page.run("document.querySelectorAll('#feed input')[1].value = '7'")
            page.click(page.find(FEED))
            page.says("effect", "goes from epoch 0 to 7")


@needs_browser
class Discarding(unittest.TestCase):
    def test_warned_and_brought_back(self):
        """A step in the past is asked about first; what it discards comes back by a button."""
        with stuck() as live, Page(live) as page:
            page.press("left", "left", "left")
            page.at(8, "the past")
            page.press("n")
            page.wait(lambda: page.run(WARNS), "the warning")
            page.says("warns", "discards the 3 later steps")
            page.click(page.find("#leave"))
            self.assertEqual(page.run("return document.body.dataset.kept"), "11")
            page.click(page.find(FEED))
            page.wait(lambda: page.run(WARNS), "the warning")
            page.click(page.find("#go-on"))
            page.at(9, "the feed")
            page.says("said", "3 kept steps discarded, which can be brought back")
            page.click(page.find("#bring-back"))
            page.says("cursor", "position 8 of 11")

    def test_saved_first(self):
        """What a step would discard is saved first, if that is clicked."""
        with stuck() as live, Page(live) as page:
            page.press("left")
            page.at(10, "the past")
            page.press("n")
            page.wait(lambda: page.run(WARNS), "the warning")
            page.click(page.find("#save-first"))
            page.at(11, "the step")
            script = page.run("return document.body.dataset.saved").encode()
            saved = runs.run_script(script, ["--processors", "2"])
            self.assertEqual([saved.entries[-1].reply[it] for it in ("at", "kept")], [10, 11])
            self.assertFalse(page.run(WARNS))

    def test_run_that_discards(self):
        """A run in pieces says at its end how many steps it discarded at its begin."""
        with stuck() as live, Page(live) as page:
            page.press("left", "left")
            page.at(9, "the past")
            page.click(page.find("#run"))
            page.wait(lambda: page.run(WARNS), "the warning")
            page.click(page.find("#go-on"))
            page.says(
                "said", "nothing is enabled; the cursor is at 11 of 11 kept steps; 2 kept steps discarded"
            )


@needs_browser
class Tabs(unittest.TestCase):
    def test_two_tabs(self):
        """What one tab does the other shows, and both can be closed."""
        with stuck() as live, Page(live) as page:
            first = page.tabs()[0]
            page.new_tab()
            page.open(live.address)
            page.at(11, "the second tab")
            page.press("left")
            page.at(10, "its step")
            page.go_to_tab(first)
            page.at(10, "the first tab")
            page.open("about:blank")

    def test_told_while_busy(self):
        """What another tab does while this one waits for an answer is shown after it."""
        with stuck() as live, Page(live) as page:
            page.run_with("asking", "it.inTurn(() => new Promise((done) => { setTimeout(done, 2000); }))")
            live.command({"do": "back"})
            page.at(10, "the other tab's step")

    def test_last_tab_closed(self):
        """The session stays when its last tab is closed, and the terminal says where it is."""
        with stuck() as live, Page(live) as page:
            page.press("left")
            page.at(10, "a step back")
            page.open("about:blank")
            said = live.process.stdout.readline()
            self.assertIn(f"the session stays until Ctrl-C, at {live.address}", said)
            page.open(live.address)
            page.at(10, "the same session")

    def test_through_a_tunnel(self):
        """The page by another port, as of 'ssh -L', and by an address without its last slash."""
        with stuck() as live, Tunnel(live.address) as tunnel, Page(live) as page:
            page.open(tunnel.address.rstrip("/"))
            page.at(11, "the page")
            page.click_text("#candidates button", "runs the notification of total")
            page.says("why", "the token of processor 1")
            page.press("left")
            page.at(10, "a step back")
            self.assertTrue(page.run("return document.querySelector('#gone').hidden"))

    def test_server_gone(self):
        """That the server is gone is said at once."""
        with stuck() as live, Page(live) as page:
            live.process.send_signal(signal.SIGKILL)
            begun = time.monotonic()
            page.says("gone", "the server is gone")
            self.assertLess(time.monotonic() - begun, 3)
            self.assertFalse(page.run("return document.querySelector('#gone').hidden"))

    def test_program_gone(self):
        """That the program is gone is said at once, and where the steps are."""
        with Served(around()) as live, Page(live) as page:
            page.at(1, "the page")
            page.press("n")
            page.at(2, "a step")
            os.kill(programs_of(live.process.pid)[0], signal.SIGKILL)
            begun = time.monotonic()
            page.says("gone", "the program is gone: it ended by signal 9; the kept steps are saved: ")
            self.assertLess(time.monotonic() - begun, 3)
            picture(page, "gone")


@needs_browser
class Going(unittest.TestCase):
    """To a position, and through long runs."""

    def test_go_to(self):
        with stuck() as live, Page(live) as page:
            page.fill("#position", "4")
            page.press("enter")
            page.at(4, "position 4")
            page.fill("#position", "12")
            page.press("enter")
            page.says("said", "12 is not between 0 and 11")
            page.press_in("#slider", "right", "right")
            page.at(6, "the slider")
            page.press("end")
            page.at(11, "its end")

    def test_long_run(self):
        """A run of many steps shows how far it is, and is cancelled."""
        graph, lines = chain(30, 500, 64)
        with Served([json.dumps(it) for it in (graph, *lines)], ["--processors", "2"]) as live:
            with Page(live) as page:
                page.run(WATCH)
                page.wait(page.is_idle, "the first picture")
                page.fill("#limit", "900000")
                # (pressed by the page itself, since the browser's driver waits for quick answers)
                page.run("document.querySelector('#run').click()")
                page.wait(lambda: not page.run(HIDDEN, "#busy"), "the busy sign")
                page.run("document.querySelector('#cancel').click()")
                page.says("said", "cancelled: ran")
                page.wait(lambda: page.run(HIDDEN, "#busy"), "no busy sign")
                at = int(page.run(POSITION))
                self.assertTrue(500 < at < 900500, at)
                seen = [it for it in page.run("return window.seen") if it.endswith("of 900000 steps")]
                self.assertTrue(seen)

    def test_cancel_of_what_waits(self):
        """A cancel is of all that waits behind a question, too."""
        with stuck() as live, Page(live) as page:
            page.wait(page.is_idle, "the first picture")
            page.run_with("asking", SLOW_QUESTION)
            page.wait(lambda: not page.run(HIDDEN, "#busy"), "the busy sign")
            page.click(page.find("#cancel"))
            page.wait(page.is_idle, "the end of what waits")
            self.assertEqual((page.run(POSITION), live.asked("picture", {})["picture"]["at"]), ("11", 11))

    def test_cancelled_question(self):
        """A question that takes long is cancelled at once, and can be asked again; the page goes on."""
        with Served(around()) as live, Page(live) as page:
            page.click(page.find(".graph .vertex[data-place='5']"))
            page.says("why", "does not know that z (0) is finished")
            page.wait(lambda: page.is_idle() and page.run("return rewind.state.chosen.time"), "the answer")
            ask = "it.findFinish({ q: 0, at: 'z', time: [0], limit: 1000000 }, 'fewest')"
            page.run_with("finishing", ask)
            page.wait(lambda: not page.run(HIDDEN, "#busy"), "the busy sign")
            picture(page, "asking")
            begun = time.monotonic()
            page.click(page.find("#cancel"))
            page.says("said", "cancelled")
            page.wait(page.is_idle, "the end of the question")
            self.assertLess(time.monotonic() - begun, 3)
            picture(page, "cancelled")
            page.click_text("#why button", "How can this finish?")
            page.says("why", "this does not come to rest within 100000 steps")
            page.click_text("#why button", "look for the fewest steps")
            page.says("why", "by no short list of steps")
            page.press("left")
            page.at(0, "a step back")

    def test_where_it_holds(self):
        """Where a condition holds among many steps is looked for meanwhile: that of the point, or one that
        is typed as at the prompt."""
        with Served([*around(), '{"do":"run","limit":2500}']) as live, Page(live) as page:
            page.click(page.find(".graph .vertex[data-place='5']"))
            page.says("why", "does not know that z (0) is finished")
            page.tab("find")
            page.click_text("#when button", "show where it holds")
            page.says("turns", "processor 0 has passed z (0): does not hold at the start, and that stays so")
            page.wait(lambda: "were looked at" not in page.run(TEXT, "turns"), "all positions")
            page.fill("#when input", "count fm 0,1 1 and not passed 0 z 0")
            page.click_text("#when button", "show where it holds")
            # step 4 brings the record from mf (0,0) to fm (0,1), and step 5 takes it
            page.says("turns", "does not hold at the start, and changes at 4, 5")
            page.fill("#when input", "counted z 1")
            page.click_text("#when button", "show where it holds")
            page.says("said", "counted is not a condition")

    def test_run_in_pieces(self):
        """A run in pieces ends as one: idle, with all steps counted, or at a breakpoint."""
        graph, lines = chain(3, 10, 20)
        when = {"count": {"at": "e2", "time": [8], "at_least": 1}}
        given = [graph, *lines, {"do": "break", "when": when}]
        with Served([json.dumps(it) for it in given], ["--processors", "2"]) as live, Page(live) as page:
            page.click(page.find("#run"))
            page.says("said", "then stopped: breakpoint 0 holds")
            page.tab("find")
            page.click_text("#breaks button", "remove")
            page.wait(lambda: "breakpoint" not in page.run(TEXT, "breaks"), "no breakpoint")
            page.click(page.find("#run"))
            page.says("said", "then stopped: nothing is enabled")
            kept = int(page.run("return document.body.dataset.kept"))
            once = runs.run_script(
                "\n".join(map(json.dumps, [graph, *lines, {"do": "run", "limit": 100000}])).encode(),
                ["--processors", "2"],
            )
            self.assertEqual(kept, once.entries[-1].reply["kept"])


@needs_browser
class Asking(unittest.TestCase):
    def test_earliest_time(self):
        """A click on a location asks about the earliest time that can still arrive there."""
        opening = [*opening_of("stuck-program", 2), json.dumps(feed([], vertex="words"))]
        with Served([*opening, '{"do":"run","limit":9}']) as live, Page(live) as page:
            page.click(page.find(".graph .vertex[data-place='2']"))
            page.says("why", "processor 0 does not know that out (1) is finished")
            page.says("why", "can still arrive at out, as far as processor 0 knows: (1) and later")

    def test_breakpoint(self):
        """A breakpoint on the point of a number of a view."""
        with stuck() as live, Page(live) as page:
            page.at(11, "the page")
            page.tab("table")
            page.click(page.find("#points td button"))
            page.says("why", "does not know that words (0) is finished")
            page.tab("find")
            page.click_text("#when button", "break when it holds")
            page.says("breaks", "breakpoint 0processor 0 has passed words (0)")

    def test_wrong_time(self):
        with stuck() as live, Page(live) as page:
            page.click(page.find(".graph .vertex"))
            page.says("why", "finished")
            page.fill("#why-form input", "0,0")
            page.press("enter")
            page.says("why", "(0,0) is not a time of words")
            page.fill("#why-form input", "x")
            page.press("enter")
            page.says("said", '"x" is not an integer')


@needs_browser
class Finishing(unittest.TestCase):
    """How a point can still finish, and runs by lot."""

    def test_steps_of_a_notification(self):
        """Click the button of a notification that waits, read what somebody must do, and execute it all."""
        with stuck() as live, Page(live) as page:
            page.at(11, "the page")
            page.press("left")
            page.at(10, "a step back")
            page.press("right")
            page.at(11, "the end")
            page.click_text("#candidates button", "How can this finish?")
            page.says("why", "no step is left, and this stays: the token of processor 1 at words (0)")
            page.says("why", "somebody must: processor 1 feeds nothing into words")
            page.says("why", "the protocol then does 3 steps")
            picture(page, "finish")
            page.click_text("#why button", "execute these 5 steps")
            page.at(16, "the steps")
            page.says("said", "executed 5 steps")
            page.says("effect", "runs the notification of total")

    def test_fewest_steps(self):
        """On request the fewest steps, which are executed, too."""
        with stuck() as live, Page(live) as page:
            page.at(11, "the page")
            page.click_text("#candidates button", "How can this finish?")
            page.click_text("#why button", "look for the fewest steps")
            page.says("why", "by 4 steps, and no fewer")
            page.click_text("#why button", "execute these 4 steps")
            page.at(15, "the steps")
            page.says("said", "executed 4 steps")

    def test_steps_that_discard(self):
        """The page asks before the steps discard others."""
        with stuck() as live, Page(live) as page:
            page.at(11, "the page")
            page.press("home")
            page.at(0, "the start")
            page.click(page.find(".graph .vertex[data-place='0']"))
            page.says("why", "this stays: the tokens of processors 0 and 1 at words (0)")
            page.says("why", "does not know that words (0) is finished")
            page.click_text("#why button", "How can this finish?")
            page.says("why", "somebody must")
            page.click_text("#why button", "execute these")
            page.wait(lambda: page.run(WARNS), "the warning")
            page.click(page.find("#go-on"))
            page.says("said", "11 kept steps discarded")

    def test_news_in_grey(self):
        """What is left at rest stands first; the news under way, which goes with the next steps, in grey."""
        with stuck() as live, Page(live) as page:
            page.at(11, "the page")
            page.press("home")
            page.at(0, "the start")
            page.press("right", "right")
            page.at(2, "two feeds")
            page.click(page.find(".graph .vertex[data-place='0']"))
            page.says("why", "not heard: an update of -1 by processor 0, not yet broadcast")
            first = page.run("return document.querySelector('#why p').textContent")
            left = "this stays: the token of processor 1 at words (0)"
            self.assertEqual(first, f"whatever the order of the 9 steps that are left, {left}")
            colour = "return getComputedStyle(document.querySelector(arguments[0])).color"
            self.assertNotEqual(page.run(colour, "#why li"), page.run(colour, "#why li .none"))
            picture(page, "at-rest")

    def test_by_lot(self):
        """A run in turn goes round in a loop and says so; one by lot takes the seed that is typed."""
        with Served(around()) as live, Page(live) as page:
            page.at(1, "the page")
            self.assertTrue(page.run("return document.querySelector('#seed').parentElement.hidden"))
            page.fill("#limit", "200")
            page.click(page.find("#run"))
            said = "a record goes round loop f (0): in the last 200 steps its counter grows from 0 to 99"
            page.says("rounds", said)
            page.press("home")
            page.at(0, "the start")
            page.press("right")
            page.at(1, "the feed")
            page.run(BY_LOT)
            self.assertFalse(page.run("return document.querySelector('#seed').parentElement.hidden"))
            page.click(page.find("#run"))
            page.wait(lambda: page.run(WARNS), "the warning")
            page.click(page.find("#go-on"))
            page.at(201, "the run by lot")
            page.says("points", "mf\u00a0(0,25)")
            page.says("rounds", "a record goes round loop f (0)")
            picture(page, "by-lot")
            page.fill("#seed", "18446744073709551616")
            page.click(page.find("#run"))
            page.says("said", "by lot: which seed? 18446744073709551616 is not between 0 and")


@needs_browser
class Reading(unittest.TestCase):
    """What a screen reader reads, and what keys do."""

    def test_names(self):
        with stuck() as live, Page(live) as page:
            self.assertEqual(page.run(UNNAMED), [])
            name = page.run(NAME, ".graph .vertex")
            self.assertEqual(name, "words, vertex, input: 2 tokens at 2 times")
            self.assertEqual(page.run(NAME, "#feed select"), "the input")
            self.assertEqual(page.run(NAME, VALUES), "values")
            self.assertIn("processor 0 views", page.run(NAME, "#points td button"))
            role = "return document.getElementById(arguments[0]).getAttribute('role')"
            self.assertEqual({page.run(role, it) for it in ("said", "why", "cursor")}, {"status"})

    def test_space_and_enter(self):
        for key in ("space", "enter"):
            with self.subTest(key), stuck() as live, Page(live) as page:
                page.press_in(".graph .vertex[data-place='1']", key)
                page.says("why", "processor 0 does not know that total")
                focused = page.run("return document.activeElement.dataset.place")
                self.assertEqual(focused, "1")

    def test_focus_stays(self):
        """The focus stays in a list that is drawn again."""
        with stuck() as live, Page(live) as page:
            page.press_in("#candidates button", "enter")
            page.says("why", "finished")
            self.assertEqual(page.run("return document.activeElement.closest('ul').id"), "candidates")


@needs_browser
class Knowing(unittest.TestCase):
    """Who knows what, the address, what differs between positions, and steps that are found."""

    def bands(self, page):
        """The colours of the lanes, once all is known."""
        known = "return rewind.state.over.whole && it.isAnswered()"
        page.wait(lambda: page.run_with("known", known), "all lanes")
        each = "it.bandsOf(lane).map(({ from, to, holds }) => [from, to, holds])"
        return page.run_with("known", f"return it.laneNames().map((_, lane) => {each})")

    def test_lanes(self):
        """Each lane turns green by the step by which its processor passes the point, never before the truth
        does; the steps of the reason and of its end are marked."""
        with ServedBy(f"tools/live {STUCK} --processors 2") as live, Page(live) as page:
            page.at(13, "the page")
            page.says("known", "Who knows that all before total (0) is finished")
            # processor 1 feeds by step 12; processor 0 hears of it by step 14, and processor 1 by step 16
            self.assertEqual(self.bands(page), [
                [[0, 14, False], [14, 25, True]],
                [[0, 16, False], [16, 25, True]],
                [[0, 12, False], [12, 25, True]],
            ])  # fmt: skip
            rings = "return [...document.querySelectorAll('.ring')].map((it) => it.classList[1])"
            self.assertEqual(sorted(page.run(rings)), ["ends", "from"])
            brings = "return document.querySelector('#spacetime [data-position=\"13\"] title').textContent"
            self.assertIn("words (0) \u22121", page.run(brings))
            page.click_text("#spacetime .lane-name", "processor 1")
            page.says("why", "processor 1 does not know")
            picture(page, "lanes")

    def test_address(self):
        """An address leads to its position and its question, and the browser's back to those before."""
        with stuck() as live, Page(live) as page:
            page.at(11, "the page")
            page.says("why", "does not know")
            page.open("about:blank")
            page.open(f"{live.address}#at=7&why=1,out,0")
            page.at(7, "its position")
            page.says("why", "processor 1 does not know that out (0) is finished")
            page.open("about:blank")
            page.open(f"{live.address}#at=99&why=1,out")
            page.says("why", "processor 1 does not know that out (0) is finished")
            page.at(7, "the position, since there is none of that number")
            time.sleep(1)
            page.press("right")
            page.at(8, "a step on")
            page.wait(lambda: page.run("return location.hash") == "#at=8&why=1,out,0", "its address")
            time.sleep(1)
            page.click(page.find(".graph .vertex[data-place='0']"))
            page.wait(lambda: "why=1,words,0" in page.run("return location.hash"), "the question's address")
            page.run("history.back()")
            page.says("why", "processor 1 does not know that out (0) is finished")
            page.run("history.back()")
            page.at(7, "the position before")
            page.run("location.reload()")
            page.at(7, "the page again")
            page.says("why", "processor 1 does not know that out (0) is finished")

    def test_zoom(self):
        """All steps, those around a place of the overview, and fewer."""
        with Served([*around(), '{"do":"run","limit":2500}']) as live, Page(live) as page:
            page.at(2501, "the page")
            page.says("range", "steps 2442 to 2501 of 2501")
            page.press("0")
            page.says("range", "steps 1 to 2501 of 2501")
            bins = "return document.querySelectorAll('#spacetime .density').length"
            page.wait(lambda: page.run(bins), "how many steps there are")
            picture(page, "all-steps")
            page.press("+")
            page.says("range", "steps 1251 to 2501 of 2501")
            page.run(BRUSH, 0.25, 0.26)
            page.wait(lambda: "steps 62" in page.run(TEXT, "range"), "the steps of the brush")
            self.assertEqual(page.run(POSITION), "2501")
            page.press_in("#spacetime .step", "enter")
            page.wait(lambda: page.run(POSITION).startswith("62"), "the step that was in focus")

    def test_stairs(self):
        """A processor that is stuck is a flat line, and a loop that never rests a diagonal."""
        with Served([*around(), '{"do":"run","limit":200}']) as live, Page(live) as page:
            page.at(201, "the page")
            page.click(page.find(".graph .vertex[data-place='2']"))
            page.says("why", "does not know that m (0,0) is finished")
            page.wait(lambda: page.run("return document.querySelectorAll('.stair').length") == 1, "its line")

    def test_compared(self):
        """A click on a step with shift: what differs between its position and this one."""
        with stuck() as live, Page(live) as page:
            page.at(11, "the page")
            page.wait(page.is_idle, "the first picture")
            page.run(
                "document.querySelector('#spacetime [data-position=\"1\"]')"
                ".dispatchEvent(new MouseEvent('click', { shiftKey: true }))"
            )
            page.says("compare", "truth at words-total\u00a0(0)")
            texts = "return [...document.querySelectorAll('#compare tr')].map((it) => it.textContent)"
            rows = page.run(texts)
            self.assertEqual(rows[0], "what differsat 11at 1")
            # at 11 all records are taken; at 1 processor 0 has fed 2 and 3, of which 3 is processor 1's
            self.assertIn("truth at words-total\u00a0(0)02", rows)
            self.assertIn("processor 0, recordsnothing2 on words-total\u00a0(0)", rows)
            picture(page, "compared")

    def test_found(self):
        with stuck() as live, Page(live) as page:
            page.at(11, "the page")
            page.tab("find")
            page.run(FIND, 2, 2, 0)
            page.click_text("#find button", "find steps")
            # processor 1 takes 3 by step 4, and 5 by step 8
            page.says("found", "2 steps")
            page.click_text("#found button", "4. processor 1 takes a record of value 3")
            page.at(4, "the step")
            page.run(FIND, 0, 2, 3)
            page.click_text("#find button", "find steps")
            page.says("found", "no such step")

    def test_exported(self):
        """The page as one file, with the steps after the cursor, opens where this one is."""
        with stuck() as live, Page(live) as page, tempfile.TemporaryDirectory(prefix="live-") as room:
            page.at(11, "the page")
            page.press("left", "left")
            page.at(9, "two steps back")
            with open(f"{room}/page.html", "w", encoding="utf-8") as it:
                it.write(live.asked("export", {})["page"])
            page.open(f"file://{room}/page.html")
            page.wait(lambda: page.run("return window.rewind?.state.picture?.at") == 9, "the position")
            self.assertEqual(page.run("return rewind.state.picture.kept"), 11)
            page.says("why", "the token of processor 1")


@needs_browser
class Wide(unittest.TestCase):
    """Graphs and clusters of version 9."""

    def test_wide(self):
        """A graph that is too large to be drawn says so, and its vertices are found by a part of their
        names; queues that hold the same have one row; the page says by which order times compare."""
        sinks = [{"name": f"Probe: {it}", "op": "sink", "depth": 0} for it in range(1, 1100)]
        vertices = [{"name": "the words", "op": "input", "depth": 0}, *sinks]
        graph = json.dumps({"vertices": vertices, "edges": [], "order": "product"})
        lines = [graph, json.dumps(feed([5], vertex="the words")), json.dumps({"do": "broadcast", "p": 0})]
        with Served(lines, ["--processors", "64"]) as live, Page(live) as page:
            page.at(2, "the page")
            page.says("drawing", "The graph has 1,100 vertices and edges, and at most 1,024 are drawn.")
            page.says("drawing", "order of times: product, each loop counter by itself")
            page.fill("#why-form input[list]", "robe: 77")
            page.press("enter")
            page.says("why", "Probe: 77")
            page.says("queues", "0 \u2192 processors 0 to 63")
            heads = "return [...document.querySelectorAll('#points thead th, #points th[scope=col]')]"
            texts = page.run(f"{heads}.map((it) => it.textContent)")
            self.assertEqual(texts, ["point", "truth", "view 0 to 63", "unsent 0 to 63"])
            rows = "return document.querySelectorAll('#spacetime .lane-name').length"
            self.assertEqual(page.run(rows), 65)
            high = "return document.querySelector('#spacetime svg').clientHeight"
            self.assertLess(page.run(high), 800)
            picture(page, "wide")
