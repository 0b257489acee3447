"""How the page looks: a large graph, light and dark, and in windows of other widths."""
import json
import os
import unittest

from live_tests.served import Page, Served, feed, needs_browser, opening_of, row, stuck
from rewind_tools import graph_text

# Where pictures of the page go, if anywhere.
FOLDER = os.environ.get("LIVE_PICTURES")
# What a browser shows of a large graph: its places, the height of its letters, how far it is wider than its
# panel, whether a changed place is in sight, and the contrast of its letters.
LARGE = """
const wide = document.querySelector("#drawing .wide"), frame = wide.getBoundingClientRect();
const changed = document.querySelector(".graph .place.changed").getBoundingClientRect();
const name = document.querySelector(".graph .vertex .name");
const numbers = (text) => text.match(/[0-9.]+/g).slice(0, 3).map((it) => Number(it) / 255);
const linear = (it) => (it <= 0.04045 ? it / 12.92 : ((it + 0.055) / 1.055) ** 2.4);
const parts = [0.2126, 0.7152, 0.0722];
const light = (text) => numbers(text).map(linear).reduce((sum, it, at) => sum + it * parts[at], 0);
const ink = light(getComputedStyle(name).fill);
const plain = document.querySelector(".graph .vertex:not(.busy):not(.changed) rect");
const paper = light(getComputedStyle(plain).fill);
return {
  places: document.querySelectorAll(".graph .place").length,
  letters: name.getBoundingClientRect().height,
  overflow: wide.scrollWidth - wide.clientWidth,
  inSight: changed.top >= frame.top && changed.bottom <= frame.bottom && changed.right <= frame.right,
  contrast: (Math.max(ink, paper) + 0.05) / (Math.min(ink, paper) + 0.05),
  used: document.querySelector(".graph").getBoundingClientRect().width / frame.width,
};
"""
# How many updates have a text beside their arrow, how many of these texts are over another, and how many are
# cut off at the side.
BESIDE = """
const all = [...document.querySelectorAll("#spacetime .arrow text")].map((it) => it.getBoundingClientRect());
const isOver = (a, b) => a.left < b.right && b.left < a.right && a.top < b.bottom && b.top < a.bottom;
const right = document.getElementById("spacetime").getBoundingClientRect().right;
const over = all.filter((it, at) => all.slice(at + 1).some((other) => isOver(it, other)));
return [all.length, over.length, all.filter((it) => it.right > right).length];
"""


def picture(page, name):
    if FOLDER:
        os.makedirs(FOLDER, exist_ok=True)
        page.picture(f"{FOLDER}/{name}.png")


def graph_of_58():
    """A graph of 58 locations, with a loop around most of it."""
    names = (f"v{it}(add k=1)" for it in range(26))
    return json.dumps(graph_text.read([row("a(input)", "in(ingress)", *names, "around(feedback)", "v0")]))


@needs_browser
class Large(unittest.TestCase):
    """A graph of 58 locations is readable: no letter is small, nothing is cut off at the side, the width
    that there is is used, and the place that changed is in sight."""

    def look(self, width, is_dark):
        lines = [graph_of_58(), json.dumps(feed([1])), '{"do":"run","limit":24}']
        with Served(lines) as live, Page(live, width, 943, is_dark) as page:
            page.at(25, "the page")
            seen = page.run(LARGE)
            self.assertEqual(seen["places"], 58)
            self.assertGreaterEqual(seen["letters"], 9)
            self.assertLessEqual(seen["overflow"], 0)
            self.assertTrue(seen["inSight"], seen)
            self.assertGreaterEqual(seen["contrast"], 4.5)
            self.assertGreaterEqual(seen["used"], 0.85)
            picture(page, f"large-{width}-{'dark' if is_dark else 'light'}")

    def test_light(self):
        self.look(1280, False)

    def test_dark(self):
        self.look(1280, True)

    def test_wide(self):
        self.look(1920, False)

    def test_zoom(self):
        """The graph is drawn larger and smaller, and fits again."""
        with Served([graph_of_58()]) as live, Page(live) as page:
            wide = "return document.querySelector('.graph').getBoundingClientRect().width"
            begun = page.run(wide)
            page.click(page.find("#larger"))
            self.assertGreater(page.run(wide), 1.2 * begun)
            page.click(page.find("#fit"))
            self.assertEqual(page.run(wide), begun)
            page.click(page.find("#smaller"))
            self.assertLess(page.run(wide), 0.9 * begun)


# How far the page goes beyond its window, and the parts of it that are not in sight.
FITS = """
const { scrollHeight, clientHeight } = document.documentElement;
const isIn = (it) => it.getBoundingClientRect().bottom <= window.innerHeight;
const parts = ["#spacetime", ".graph", "#why .rest", "#candidates li", "#keys", "#tabs"];
return [scrollHeight - clientHeight, parts.filter((it) => !isIn(document.querySelector(it)))];
"""


@needs_browser
class Windows(unittest.TestCase):
    def test_small(self):
        """In a window of 1280 by 800 all parts are in sight, the keys, too, without scrolling."""
        with stuck() as live, Page(live) as page:
            frame = page.run("return window.outerHeight - window.innerHeight")
            with Page(live, 1280, 800 + frame) as small:
                small.says("why", "this stays: the token of processor 1")
                small.says("candidates", "runs the notification of total")
                self.assertEqual(small.run(FITS), [0, []])


@needs_browser
class Lanes(unittest.TestCase):
    def test_beside_arrows(self):
        """Of what updates bring as much is beside their arrows as there is room for."""
        lines = [*opening_of("loop-by-lot", 3), '{"do":"run","limit":200,"seed":1}']
        with Served(lines, ["--processors", "2"]) as live, Page(live, 1280, 943) as page:
            page.at(201, "the page")
            seen = page.wait(lambda: (it := page.run(BESIDE))[0] and it, "texts beside arrows")
            self.assertEqual(seen[1:], [0, 0], seen)


@needs_browser
class Pictures(unittest.TestCase):
    def test_pictures(self):
        """Takes pictures, if a folder is given for them."""
        for width, is_dark in ((1280, False), (1920, True), (800, False)) if FOLDER else ():
            with stuck() as live, Page(live, width, 943 if width > 1000 else 1400, is_dark) as page:
                page.click_text("#candidates button", "runs the notification of total")
                page.says("why", "finished")
                picture(page, f"stuck-{width}-{'dark' if is_dark else 'light'}")
