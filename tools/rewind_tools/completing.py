"""What Tab offers at the prompt: what may stand at this place of the line."""
import glob
import os
import shlex

from rewind_tools.script import ATOMS, FORMS, HOLDING, NEXTS, USERS
from rewind_tools.typed import JOINTS, NotTyped, wanted, words_of_line

# The prompt's own words that take the values of a word of the script.
LIKE = {"until": "break", "finish": "break", "next": "run"}
# The operators of the vertices that a command or a condition takes.
OPS = {
    "feed": ["input"], "send": ["opaque"], "release": HOLDING, "notice": ["sum", "distinct"],
    "sink": ["sink"],
}  # fmt: skip
# The words that mark what follows them, or stand alone.
MARKS = ("to", "only", "at", "dest", "keep", "before", "seed", "limit", "rest", *USERS)
TAKES_FILE = ("load", "save")


def completions(prompt, before, part):
    """The words that begin with a part and may stand after the text before it."""
    try:
        words = words_of_line(before)
    except NotTyped:
        return []
    if not words:
        return sorted(it for it in {*FORMS, *prompt.own_words()} if it.startswith(part))
    if words[0] in TAKES_FILE:
        return files(part) if len(words) == 1 else []
    return sorted(it for it in offered(prompt, words) if it.startswith(part))


def offered(prompt, words):
    """The words that may stand after others."""
    if words[0] == "help":
        return {*FORMS, *prompt.own_words(), "condition"} if len(words) == 1 else []
    if words[0] == "raw":
        return ["on", "off"] if len(words) == 1 else []
    word = LIKE.get(words[0], words[0])
    if word not in FORMS:
        return []
    pairs = wanted([word, *words[1:]], prompt.defaults(word))
    return {it for pair in pairs for it in of_kind(prompt, *pair)}


def of_kind(prompt, of, kind):
    """The words of a kind that a command or a condition takes."""
    graph = prompt.teller.graph
    if kind in ("small", "processors"):
        return map(str, range(prompt.teller.processors))
    if kind == "vertex":
        found = [name for name, it in graph.vertices.items() if it["op"] in OPS.get(of, [it["op"]])]
        return map(shlex.quote, found)
    if kind in MARKS:
        return [kind]
    edges, places = map(shlex.quote, graph.edges), [*map(shlex.quote, graph.order)]
    fixed = {
        "edge": edges, "place": places, "points": places, "point": places,
        "next": [*NEXTS, "to"], "when": [*ATOMS, "not"], "joint": JOINTS, "users": USERS,
    }  # fmt: skip
    return fixed.get(kind, [])


def files(part):
    """The files and folders whose path begins with a part."""
    found = glob.glob(glob.escape(os.path.expanduser(part)) + "*")
    return sorted(f"{it}/" if os.path.isdir(it) else it for it in found)
