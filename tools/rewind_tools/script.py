"""The grammar of scripts, for every tool: the words, the keys of each with what stands there, the version
with which a word or a key came, the conditions, and the errors by their numbers. docs/SCRIPT.md has it in
words.

'tools/test_tell' compares the grammar with the program, on each form and on thousands of lines with one
change."""
import json

STEPS = {
    "feed": {"p": "small", "vertex": "vertex", "values": "values", "next": "next"},
    "take": {"p": "small", "edge": "edge", "time": "time", "value": "signed"},
    "notice": {"p": "small", "vertex": "vertex", "time": "time"},
    "send": {
        "p": "small", "vertex": "vertex", "time": "time", "port": "port", "values": "values", "at": "time",
        "dest": "small",
    },
    "release": {"p": "small", "vertex": "vertex", "time": "time", "to": "time", "keep": "flag"},
    "broadcast": {"p": "small", "part": "points"},
    "receive": {"from": "small", "to": "small"},
}  # fmt: skip
COMMANDS = {
    **STEPS,
    "back": {},
    "redo": {},
    "jump": {"to": "whole"},
    "run": {"limit": "whole", "only": "processors", "seed": "whole"},
    "break": {"when": "when"},
    "unbreak": {"id": "whole"},
}
QUERIES = {
    "state": {},
    "count": {"at": "place", "time": "time"},
    "before": {"from": "point", "to": "point"},
    "view": {"q": "small"},
    "frontier": {"q": "small", "at": "place"},
    "passed": {"q": "small", "at": "place", "time": "time"},
    "search": {"when": "when", "lo": "whole", "hi": "whole", "workers": "whole"},
    "export": {},
    "why": {"q": "small", "at": "place", "time": "time", "before": "flag", "rest": "whole"},
    "changes": {"q": "small", "at": "place", "time": "time", "lo": "whole", "hi": "whole"},
    "step": {"to": "whole"},
    "candidates": {},
    "effect": {"to": "whole"},
    "turns": {"when": "when", "lo": "whole", "hi": "whole"},
    "reach": {"when": "when", "limit": "whole", "with": "users"},
}
FORMS = {**COMMANDS, **QUERIES}
# The keys of each word that a line may leave out, each with the version with which it came.
OPTIONAL = {
    "broadcast": {"part": 1}, "frontier": {"at": 4}, "why": {"before": 4, "rest": 8},
    "release": {"to": 5, "keep": 6}, "run": {"only": 5, "seed": 7}, "send": {"at": 6, "dest": 6},
    "reach": {"with": 7},
}  # fmt: skip
# A key that may be left out, but not beside another: that key by the word and the key.
NEEDED_BY = {("release", "to"): "keep"}
# The version with which a word came, if it is not the first, and the last version that there is.
SINCE = {
    "export": 2, "why": 3, "changes": 3, "step": 3, "candidates": 4, "effect": 4, "turns": 4, "release": 5,
    "send": 6, "reach": 7,
}  # fmt: skip
LAST = 9
# The words of "next"; from a later version on, it may also be {"to": n}.
NEXTS, NEXT_TO_SINCE = ("next", "close", "stay"), 5
# The words under "with": which steps of users are among the moves.
USERS = ("feed", "release")
# The operators, each with the keys that its vertices have beside their name, their operator and their depth,
# and those that they may have; the version with which one came, if it is not the first.
PLAIN_OPS = ("input", "ingress", "egress", "feedback", "sum", "distinct", "sink", "hold")
NUMBERED_OPS = ("add", "mul", "below", "split")
OPS = {
    **{op: {} for op in PLAIN_OPS}, **{op: {"k": "signed"} for op in NUMBERED_OPS},
    "opaque": {"ports": "ports", "starts": "flag"},
}  # fmt: skip
OPTIONAL_OF_OPS = ("starts",)
OPS_SINCE = {"hold": 5, "opaque": 6}
# The orders of a graph's timestamps, the one that a graph without the key has first, and the version with
# which the key "order" came.
ORDERS, ORDER_SINCE = ("lexicographic", "product"), 9
# The operators whose requests are held capabilities.
HOLDING = ("hold", "opaque")
# The most output ports of an opaque vertex.
MOST_PORTS = 16
# The atoms of a condition: what stands under the only key of each.
ATOMS = {
    "passed": {"q": "small", "at": "place", "time": "time"},
    "count": {"at": "place", "at_least": "whole", "time": "time"},
    "queue": {"at_least": "whole", "from": "small", "to": "small"},
    "sink": {"at_least": "whole", "value": "signed", "vertex": "vertex"},
    "finished": {"at": "place", "time": "time"},
    "view": {"at": "place", "at_least": "signed", "q": "small", "time": "time"},
    "held": {"at": "place", "at_least": "whole", "p": "small", "time": "time"},
}
# The version with which an atom came, if it is not the first, and that with which "not", "all" and "any"
# came.
ATOMS_SINCE, LITERALS_SINCE = {"finished": 4, "view": 4, "held": 9}, 4
# The most bytes of a line.
LONGEST = 65536
# The most literals under "all" and "any".
MOST_LITERALS = 8
ERRORS = {
    1: "NoProcessor", 2: "NoVertex", 3: "NoEdge", 4: "NotInput", 5: "InputClosed", 6: "TooManyValues",
    7: "EpochFull", 8: "NoRecord",
    9: "NoRequest", 10: "NotYet", 11: "CounterFull", 12: "ValueRange", 13: "CountFull", 14: "DeltaFull",
    15: "NothingToSend",
    16: "NotAdmissible", 17: "QueueEmpty", 18: "QueueFull", 19: "Memory", 20: "AtStart", 21: "AtEnd",
    22: "NoSuchPoint",
    23: "TimelineFull", 24: "TooManyBreaks", 25: "NoBreak", 27: "LogFull", 29: "Memory", 30: "BadLine",
    31: "BadShape",
    32: "UnknownName", 33: "LineTooLong", 34: "BadTime", 35: "BadClient", 36: "OneClientOnly",
    50: "BadRange", 51: "NoWorkers",
    52: "Missing", 53: "NotNotified", 54: "NotLater", 55: "NoPort", 56: "TooEarly",
}  # fmt: skip


def line(word, *values, **others):
    """The line of a word: its values in the order of the keys above, of which the last may be left out, and
    other members."""
    return json.dumps({**others, "do": word, **dict(zip(FORMS[word], values))}, separators=(",", ":"))


def words_of(version):
    """The words of a script's version."""
    return [word for word in FORMS if SINCE.get(word, 1) <= version]


def form_of(word, version):
    """The form of a word in a script of a version: the keys that came later are left out."""
    later = [key for key, since in OPTIONAL.get(word, {}).items() if since > version]
    return {key: kind for key, kind in FORMS[word].items() if key not in later}


def ops_of(version):
    """The operators of a script's version."""
    return [op for op in OPS if OPS_SINCE.get(op, 1) <= version]


def most_processors(version):
    """The most processors in a script of a version."""
    return 8 if version == 1 else 16 if version < 9 else 64


def most_only(version):
    """The most processors under "only"."""
    return max(16, most_processors(version))


def most_locations(version):
    """The most vertices and edges of a graph."""
    return 64 if version < 6 else 256 if version < 9 else 4096


def name_limits(version):
    """The most bytes of a name, and the least byte."""
    return (32, "!") if version < 9 else (128, " ")


def longest_graph(version):
    """The most bytes of the graph's line; every other line has at most LONGEST."""
    return LONGEST if version < 9 else 2097152


def atoms_of(version):
    """The atoms of a script's version."""
    return [name for name in ATOMS if ATOMS_SINCE.get(name, 1) <= version]


def literals_in(when):
    """The literals of a condition of right shape: of each whether it is negated, its atom's name, and what
    stands under it."""
    name, inner = next(iter(when.items()))
    if name in ("all", "any"):
        return [it for literal in inner for it in literals_in(literal)]
    if name == "not":
        return [(True, *next(iter(inner.items())))]
    return [(False, name, inner)]
