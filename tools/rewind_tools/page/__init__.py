"""The page of a session that is live, or of a run that is recorded: one page with two sources of answers.

A live page loads its style and its modules from the server; a recorded one has them, and the answers, in
itself."""
import json
import os
import re
from html import escape

from rewind_tools.script import ORDERS
from rewind_tools.showing.graphs import graph_svg, laid_out, prefix_of, too_large, without_prefix
from rewind_tools.telling.commands import order_words

FOLDER = os.path.dirname(os.path.abspath(__file__))
MODULES = sorted(it for it in os.listdir(FOLDER) if it.endswith(".js"))
FILES = {"page.css": "text/css; charset=utf-8", **dict.fromkeys(MODULES, "text/javascript; charset=utf-8")}
# The lines of a module that name others, and what it hands to them.
IMPORT, EXPORT = re.compile(r'(?m)^import (?:.* from )?"\./(.*)";\n'), re.compile(r"(?m)^export ")
WORDS = {
    "live": {
        "back": "undo the last step", "redo": "execute the next kept step again", "on": "redo",
        "conditions": "Conditions", "changed": "changed by the last step",
        "keys": "\u2190 \u2192 undo, redo \u00b7 Home End ends \u00b7 n next step \u00b7 r run \u00b7 s save"
        " \u00b7 + \u2212 0 zoom",
    },
    "recorded": {
        "back": "one position back", "redo": "one position forward", "on": "forward",
        "conditions": "Breakpoints", "changed": "changed since the position before",
        "keys": "\u2190 \u2192 positions \u00b7 PgUp PgDn lines \u00b7 Home End ends \u00b7 + \u2212 0 zoom",
    },
}  # fmt: skip


# What stands in place of a graph's picture, after the reason.
NOT_DRAWN = "Ask about a vertex or an edge by its name, beside 'at' under 'Why not finished?'."


def part(name):
    with open(os.path.join(FOLDER, name), encoding="utf-8") as it:
        return it.read()


def inlined(name, seen):
    """A module as a part of one script, after those that it imports."""
    if name in seen:
        return ""
    seen.add(name)
    text = part(name)
    before = "".join(inlined(it, seen) for it in IMPORT.findall(text))
    return before + EXPORT.sub("", IMPORT.sub("", text))


def places_of(graph):
    """The vertices and edges by name, each with what it is; an opaque vertex has the number of its ports,
    and an edge the vertex that it enters."""
    kept = ("name", "op", "ports", "to")
    places = graph["vertices"] + graph["edges"]
    return [{"op": "edge", **{key: it[key] for key in kept if key in it}} for it in places]


def about_of(graph, name, processors):
    """What a page knows of its graph and its run from the start."""
    order = graph.get("order", ORDERS[0])
    return {"processors": processors, "places": places_of(graph), "order": order, "name": name}


def filled(kind, values):
    """The page with its values."""
    pieces = part("page.html").split("@")
    values = {**WORDS[kind], "kind": kind, **values}
    return "".join(values[it] if at % 2 else it for at, it in enumerate(pieces))


def graph_of(graph, uses_dot=True):
    """The values of a page that are about its graph."""
    order, prefix, graph = order_words(graph), prefix_of(graph), without_prefix(graph)
    large = too_large(graph, uses_dot)
    svg = f"<p>{large} {NOT_DRAWN}</p>" if large else graph_svg(graph, laid_out(graph, uses_dot))
    has_loops = any(it["depth"] for it in graph["vertices"])
    loops = '<span class="key"><i class="loop"></i>a loop</span>' if has_loops else ""
    asks = "" if large else "click a vertex or an edge to ask about it"
    said = [f"all names begin with {escape(prefix)}" if prefix else asks, *order]
    return {"graph": svg, "loops": loops, "prefix": "; ".join(filter(None, said))}


def verdict_of(text, marks):
    """The section of a verdict, its first line in red if something was refused."""
    first, *others = escape(text).split("\n")
    said = "\n".join([f'<b class="{"bad" if marks else "good"}">{first}</b>', *others])
    return f'<section id="verdict"><h2>How it ended</h2><pre>{said}</pre></section>\n' if text else ""


def live_page(graph, name, processors, verdict="", marks=()):
    """The page of a live session."""
    about = about_of(graph, name, processors)
    values = {
        "title": escape(name), "about": escape(json.dumps(about)), "command": "", "last": "0",
        "verdict": verdict_of(verdict, marks),
        **graph_of(graph),
        "style": '<link rel="stylesheet" href="page.css">\n'
        + "\n".join(f'<link rel="modulepreload" href="{it}">' for it in MODULES if it != "recorded.js"),
        "scripts": '<script type="module" src="live.js"></script>',
    }  # fmt: skip
    return filled("live", values)
