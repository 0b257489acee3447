"""From the stuck program to the reason and on, by the questions that the page asks."""
import json
import time
import unittest

from live_tests.served import Served, around, chain, feed, live_of, of_class, opening_of, stuck
from rewind_tools import runs
from rewind_tools.live.turned import Since
from rewind_tools.session import Session


def whole_overview(live, asked):
    """What is known of all kept steps, once all of it is."""
    told = live.asked("overview", asked)
    while not told["whole"]:
        told = live.asked("overview", asked)
    return told


class Stuck(unittest.TestCase):
    @classmethod
    def setUpClass(cls):
        cls.live = of_class(cls, stuck())

    def test_way_to_the_reason(self):
        shown = self.live.asked("picture", {})["picture"]
        self.assertEqual((shown["at"], shown["kept"]), (11, 11))
        waiting = [it for it in shown["candidates"]["items"] if it["kind"] == "notice" and it["p"] == 0]
        self.assertTrue(len(waiting) == 1 and "NotYet" in waiting[0]["refused"], waiting)
        why = self.live.asked("why", waiting[0]["ask"])
        self.assertIn("the token of processor 1", why["reasons"][0]["words"])
        fed = self.live.command({"do": "feed", "p": 1, "vertex": "words", "values": [], "next": "next"})
        self.assertTrue(fed["picture"]["at"] == 12 and not fed["refused"], fed["words"])
        self.assertTrue(any("goes from epoch 0 to 1" in it for it in fed["picture"]["effect"]["words"]))
        self.way_on()

    def way_on(self):
        ran = self.live.command({"do": "run", "limit": 100})
        self.assertEqual(ran["picture"]["state"]["places"]["2"]["n"], "2")
        steps = ran["picture"]["steps"]
        self.assertEqual(
            [it["position"] for it in steps["items"]], list(range(1, ran["picture"]["kept"] + 1))
        )
        messages = steps["messages"]
        self.assertTrue(
            len(messages) >= 5 and all(it[2] is None or it[3] is None or it[2] < it[3] for it in messages)
        )
        back = self.live.command({"do": "jump", "to": 12})["picture"]
        self.assertTrue(back["at"] == 12 and back["kept"] == ran["picture"]["kept"], back["kept"])
        self.knowing(back["kept"])
        late = self.live.post("command", {"line": '{"do":"back"}', "revision": 0})
        self.assertTrue(late[0] == 409 and "another tab" in late[2], late)
        self.saved()

    def knowing(self, kept):
        """From where on each processor knows that out (0) is finished: not before it is so in truth, which
        the condition of the person's own says, too."""
        why = {"q": 0, "at": "out", "time": [0]}
        told = whole_overview(self.live, {"why": why, "when": {"finished": {"at": "out", "time": [0]}}})
        self.assertEqual([it["at_lo"] for it in told["lanes"]], [False] * 4)
        for lane in told["lanes"]:
            self.assertTrue(len(lane["turns"]) == 1 and lane["to"] == kept, lane)
        *known, truth, own = [it["turns"][0] for it in told["lanes"]]
        self.assertTrue(own == truth <= min(known), told["lanes"])
        self.assertEqual(told["times"][0], [0, [[[0]], [[0]]]])
        self.assertEqual([it[0] for it in told["times"]], [*range(kept + 1)])

    def saved(self):
        """The saved script leads to the session's state."""
        told = self.live.asked("save", {})
        ran = runs.run_script(told["script"].encode(), told["words"])
        self.assertFalse([it.reply for it in ran.entries if "error" in it.reply])
        self.assertEqual(ran.entries[-1].reply["at"], 12)

    def test_earliest_time(self):
        """A place without a time is asked about at the earliest time that can still arrive there."""
        with Served([*opening_of("stuck-program", 2), json.dumps(feed([], vertex="words"))]) as live:
            live.command({"do": "run", "limit": 100})
            why = live.asked("why", {"q": 0, "at": "out", "time": None})
            self.assertEqual((why["time"], why["times"], why["passed"]), ([1], "(1)", False))
            live.command({"do": "feed", "p": 0, "vertex": "words", "values": [], "next": "close"})
            live.command({"do": "run", "limit": 100})
            why = live.asked("why", {"q": 0, "at": "out", "time": None})
            self.assertEqual((why["time"], why["times"], why["passed"]), ([0], "", True))

    def test_wrong_time(self):
        why = self.live.asked("why", {"q": 0, "at": "out", "time": [0, 0]})
        self.assertEqual(why["error"], "(0,0) is not a time of out, where a time is the epoch alone")


class OfAllSteps(unittest.TestCase):
    """What is asked about all kept steps of the stuck program, of which there are 11."""

    @classmethod
    def setUpClass(cls):
        cls.live = of_class(cls, stuck())

    def test_found(self):
        """Processor 1 takes the record of value 3 by step 4, and that of value 5 by step 8."""
        told = self.live.asked("find", {"kind": "take", "p": 1})
        self.assertEqual([(it["position"], it["label"]) for it in told["items"]], [(4, "3"), (8, "5")])
        told = self.live.asked("find", {"kind": "take", "at": "words-total", "time": [1]})
        self.assertEqual(told, {"items": [], "count": 0})

    def test_state(self):
        """The state after the first feed, of two records; the cursor stays."""
        state = self.live.asked("state", {"at": 1})["state"]
        there = {it["at"].replace("\u00a0", " "): it["truth"] for it in state["points"]}
        self.assertEqual(there["words-total (0)"], "2")
        self.assertEqual(self.live.asked("picture", {})["picture"]["at"], 11)

    def test_typed_condition(self):
        told = self.live.asked("condition", {"text": "not passed 0 out 0"})
        self.assertEqual(told, {"when": {"not": {"passed": {"q": 0, "at": "out", "time": [0]}}}})
        self.assertIn("nope is not a condition", self.live.asked("condition", {"text": "nope"})["error"])

    def test_carried(self):
        """The first feed sends the record of value 3 to processor 1; the first broadcast, step 5, says that
        the token of processor 0 went on."""
        told = whole_overview(self.live, {"window": [1, 11], "bins": 11})
        self.assertEqual(told["carried"]["1"], {"records": [[1, "words-total (0) 3", 1]]})
        self.assertIn("words (0) \u22121", told["carried"]["5"]["updates"])
        self.assertEqual([sum(row) for row in zip(*told["density"])], [1] * 11)

    def test_exported(self):
        page = self.live.asked("export", {})["page"]
        self.assertTrue(page.startswith("<!DOCTYPE html>") and "recorded" in page, page[:200])


class Halving(unittest.TestCase):
    def test_since(self):
        """From where on something stays so among 100 steps is found by few questions, and forgotten with the
        steps."""
        when = {"finished": {"at": "out", "time": [0]}}
        for turn in (0, 1, 37, 100, None):
            since, count = Since(), 0
            while line := since.next_line(when, 100):
                since.add(line, {"at_lo": turn is not None and line["lo"] >= turn})
                count += 1
            with self.subTest(turn):
                self.assertLessEqual(count, 8)
                wanted = {"at_lo": turn == 0, "turns": [turn] if turn else [], "to": 100, "error": None}
                self.assertEqual(since.about(when, 100), wanted)
                since.forget_from(20)
                known = turn in (0, 1)
                self.assertEqual(since.next_line(when, 20), None)
                self.assertEqual(since.next_line(when, 30) is None, known)
                self.assertEqual(since.about(when, 20)["turns"], [1] if turn == 1 else [])


class Finishing(unittest.TestCase):
    """How a point can still finish."""

    def waiting(self, live):
        """The question of a notification that waits, with the notification."""
        shown = live.asked("picture", {})["picture"]["candidates"]["items"]
        waiting = next(it for it in shown if it["kind"] == "notice" and it["p"] == 0)
        return {**waiting["ask"], "then": waiting["line"]}

    def execute(self, live, told):
        for it in told["steps"]:
            done = live.command(json.loads(it["line"]))
            self.assertFalse(done["refused"], done["words"])

    def test_of_a_notification(self):
        """What somebody must do, what the protocol then does, and the notification as the last step."""
        with stuck() as live:
            told = live.asked("finish", self.waiting(live))
            left = "no step is left, and this stays: the token of processor 1 at words (0)"
            self.assertEqual((told["words"], told["notes"], told["ends"]), (left, [], True))
            self.assertEqual([it["words"] for it in told["steps"]], [
                "somebody must: processor 1 feeds nothing into words and goes on to the next epoch, or gives"
                " up its token",
                "the protocol then does 3 steps",
                "then processor 0 runs the notification of total (0)",
            ])  # fmt: skip
            self.execute(live, told)

    def test_fewest_of_a_notification(self):
        """The fewest steps, of which the notification is the last."""
        with stuck() as live:
            told = live.asked("fewest", self.waiting(live))
            self.assertEqual([it["words"] for it in told["steps"]], [
                "processor 1 feeds nothing into words and goes on to the next epoch",
                "processor 1 broadcasts all that is unsent",
                "processor 0 receives the first change on its way from processor 1",
                "processor 0 runs the notification of total (0)",
            ])  # fmt: skip
            self.assertTrue(told["words"].startswith("by 4 steps"), told["words"])
            self.assertEqual(told["steps"][0]["what"], "from outside: the input goes on")
            self.execute(live, told)

    def test_of_a_point(self):
        """A way at once where few states show none; and no fault for a point that is none."""
        with stuck() as live:
            ask = {"q": 0, "at": "out", "time": [0]}
            told = live.asked("fewest", {**ask, "limit": 20})
            self.assertEqual((told["steps"], told["more"]), (None, 200))
            self.assertIn("the first 20 states", told["words"])
            for path in ("finish", "fewest"):
                self.assertEqual(live.asked(path, {**ask, "time": [0, 0]})["error"], "BadTime (34)")
            begun = time.monotonic()
            told = live.asked("finish", ask)
            self.assertLess(time.monotonic() - begun, 5)
            self.assertEqual([json.loads(it["line"])["do"] for it in told["steps"]], ["feed", "run"])
            self.execute(live, told)
            self.assertTrue(live.asked("why", ask)["passed"])

    def test_large(self):
        """With 16 processors and 57 locations a way comes within seconds."""
        graph, _ = chain(28, 0, 0)
        feeds = [feed([p, p + 100], p=p, next="stay") for p in range(16)]
        with Served([json.dumps(it) for it in (graph, *feeds)], ["--processors", "16"]) as live:
            begun = time.monotonic()
            told = live.asked("finish", {"q": 3, "at": "v27", "time": [0]})
            self.assertLess(time.monotonic() - begun, 15)
            kinds = [json.loads(it["line"])["do"] for it in told["steps"]]
            self.assertEqual(kinds, ["feed"] * 16 + ["run"])
            self.execute(live, told)
            self.assertTrue(live.asked("why", {"q": 3, "at": "v27", "time": [0]})["passed"])

    def test_a_capability(self):
        """One that is held only later: the protocol does its part first, then somebody releases it."""
        with Served(opening_of("left-at-rest", 4), ["--processors", "2"]) as live:
            told = live.asked("finish", {"q": 0, "at": "out", "time": [0]})
            self.assertEqual([it["words"] for it in told["steps"]], [
                "the protocol does 10 steps",
                "somebody must: processor 1 releases the capability that it holds at batch (0)",
                "the protocol then does 8 steps",
            ])  # fmt: skip
            self.execute(live, told)
            self.assertTrue(live.asked("why", {"q": 0, "at": "out", "time": [0]})["passed"])

    def test_by_no_steps(self):
        """No record comes from a closed input, so a sink's time that is finished needs no step."""
        graph, _ = chain(1, 0, 0)
        with Served([json.dumps(graph)]) as live:
            told = live.asked("fewest", {"q": 0, "at": "v0", "time": [0]})
            self.assertEqual([it["kind"] for it in told["steps"]], ["feed", "broadcast", "receive"])
            self.execute(live, told)
            for path in ("finish", "fewest"):
                told = live.asked(path, {"q": 0, "at": "v0", "time": [0]})
                self.assertEqual((told["words"], told["steps"]), ("it is finished already", []))

    def test_in_a_loop(self):
        """A run that goes round a loop says so, at each position of it, until another run comes to rest."""
        said = "a record goes round loop f (0): in the last 200 steps its counter grows from 0 to 99"
        with Served(around()) as live:
            few = live.command({"do": "run", "limit": 3})
            self.assertEqual(few["picture"]["rounds"], "")
            live.command({"do": "jump", "to": 1})
            ran = live.command({"do": "run", "limit": 200})
            self.assertEqual(ran["picture"]["rounds"], said)
            back = live.command({"do": "jump", "to": 100})
            self.assertEqual(back["picture"]["rounds"], said)
            told = live.asked("finish", {"q": 0, "at": "z", "time": [0]})
            limit = "this does not come to rest within 100000 steps"
            self.assertEqual((told["ends"], told["words"]), (False, limit))
            next_ = "a record goes round loop f (0): in the next 300 steps its counter grows from 49 to 199"
            self.assertIn(next_, told["notes"][0])
            self.assertEqual(live.command({"do": "jump", "to": 0})["picture"]["rounds"], "")
            live.command(feed([], next="next"))
            self.assertEqual(live.command({"do": "run", "limit": 9})["picture"]["rounds"], "")


class Discarded(unittest.TestCase):
    def test_brought_back(self):
        """A step in the past discards the steps after it, says how many, and they can be brought back."""
        with stuck() as live:
            live.command({"do": "jump", "to": 9})
            cut = live.command({"do": "feed", "p": 1, "vertex": "words", "values": [7], "next": "next"})
            self.assertEqual(cut["discarded"], "2 kept steps discarded, which can be brought back")
            self.assertEqual((cut["picture"]["kept"], cut["picture"]["dropped"]), (10, 1))
            back = live.asked("bring-back", {"revision": cut["revision"], "sight": {}})
            self.assertEqual((back["picture"]["at"], back["picture"]["kept"]), (9, 11))
            late = live.post("bring-back", {"revision": 0, "sight": {}})
            self.assertEqual(late[0], 409)


class Numbers(unittest.TestCase):
    def test_all_of_64_bits(self):
        """A value at either end of 64 bits is fed, offered and taken as it is."""
        graph, _ = chain(1, 0, 0)
        with Served([json.dumps(graph)]) as live:
            values = [9007199254740993, -9223372036854775808, 9223372036854775807]
            fed = live.command(feed(values))
            offered = [json.loads(it["line"]) for it in fed["picture"]["candidates"]["items"]]
            self.assertEqual(sorted(it["value"] for it in offered if it["do"] == "take"), sorted(values))

    def test_what_is_kept(self):
        """What a sum keeps is named, and what a distinct has seen."""
        with Served([*opening_of("stuck-program", 2), json.dumps(feed([4, 5], vertex="words"))]) as live:
            shown = live.command({"do": "run", "limit": 2})["picture"]["state"]["processors"][0]
            self.assertEqual(shown["kept by vertices"], ["total\u00a0(0): sum 9"])


class Held(unittest.TestCase):
    def test_held_capability(self):
        """A held capability: what can be done with it; and runs of some processors."""
        with Served(opening_of("held-capability", 4), ["--processors", "2"]) as live:
            ran = live.command({"do": "run", "limit": 100, "only": [1]})
            self.assertIn("nothing is enabled on processor 1", ran["words"][0])
            enabled = [it for it in ran["picture"]["candidates"]["items"] if "refused" not in it]
            self.assertEqual({it["p"] for it in enabled}, {0})
            ran = live.command({"do": "run", "limit": 100})
            shown = ran["picture"]["candidates"]["items"]
            words = [f"processor {p} holds a capability at batch (0)" for p in (0, 1)]
            self.assertEqual([it["words"] for it in shown], words)
            self.assertTrue(all("stays until it is released" in it["refused"] for it in shown))
            self.assertEqual(ran["picture"]["state"]["places"]["1"]["of"], "held")
            why = live.asked("why", shown[0]["ask"])
            self.assertIn("the capabilities of processors 0 and 1", why["reasons"][0]["words"])
            self.released(live, [it["release"] for it in shown])

    def released(self, live, held):
        moved = live.command({**held[1], "to": [3]})
        self.assertFalse(moved["refused"], moved["words"])
        back = live.command({**held[0], "to": [0]})
        self.assertTrue(back["refused"] and "54 NotLater" in back["words"][0], back["words"])
        effect = live.command(held[0])["picture"]["effect"]["words"]
        self.assertIn("processor 0 no longer holds a capability at batch (0)", effect)
        live.command({"do": "run", "limit": 100})
        why = live.asked("why", {"q": 0, "at": "out", "time": [2]})
        self.assertTrue(why["passed"] and not why["reasons"], why)

    def test_opaque_vertex(self):
        """A capability at an opaque vertex: what is sent from it, and a later one beside it."""
        with Served(opening_of("sends-and-releases", 4)) as live:
            from_x = {"do": "send", "p": 0, "vertex": "x", "time": [0], "port": 1}
            sent = live.command({**from_x, "values": [9007199254740993], "at": [2]})
            self.assertFalse(sent["refused"], sent["words"])
            effect = sent["picture"]["effect"]["words"]
            self.assertIn("records of value 9007199254740993 on processor 0 at xz (2): from 0 to 1", effect)
            self.assertEqual(sent["picture"]["steps"]["items"][-1]["kind"], "send")
            held = [it for it in sent["picture"]["candidates"]["items"] if it["kind"] == "release"]
            self.assertEqual([it["words"] for it in held], ["processor 0 holds a capability at x (0)"])
            self.assertIn("x is never notified", held[0]["refused"])
            kept = live.command({**held[0]["release"], "to": [3], "keep": True})
            place = kept["picture"]["state"]["places"]["1"]
            self.assertEqual((place["n"], place["of"]), ("2", "held"))
            early = live.command({**from_x, "time": [3], "values": [1], "at": [2]})
            self.assertTrue(early["refused"] and "56 TooEarly" in early["words"][0], early["words"])


class Arrows(unittest.TestCase):
    def test_arrows(self):
        """The updates in sight on their way between processors are those that the effects of the steps
        tell."""
        graph, _ = chain(2, 0, 0)
        session = Session(graph, ["--processors", "3"])
        lines = [it for at in range(40) for it in (feed([at], p=at % 3), {"do": "broadcast", "p": at % 3})]
        live = live_of(self, session, [*lines, {"do": "run", "limit": 150}])
        waiting, told = {}, []
        for at in range(1, live.kept + 1):
            for sender, receiver, old, new in session.ask({"do": "effect", "to": at})["changed"]["queues"]:
                queue = waiting.setdefault((sender, receiver), [])
                queue += [at] if new > old else []
                told += [[sender, receiver, queue.pop(0), at]] if new < old else []
        told += [[*ends, at, live.kept + 1] for ends, queue in waiting.items() for at in queue]
        for cursor in (0, 1, 30, 31, 77, 110, 150, live.kept - 1, live.kept):
            line = json.dumps({"do": "jump", "to": cursor})
            jumped = live.answer("command", {"line": line, "revision": live.revision, "sight": {}})
            shown = jumped["picture"]["steps"]
            first, last = shown["first"], shown["first"] + len(shown["items"]) - 1
            there = [
                [p, q, begin if begin >= first else None, end if end <= last else None]
                for p, q, begin, end in told
                if p != q and (first <= begin <= last or first <= end <= last)
            ]
            with self.subTest(cursor):
                self.assertEqual(sorted(map(str, shown["messages"])), sorted(map(str, there)))
