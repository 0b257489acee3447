"""Commands as they are typed at the prompt: words and numbers in place of a JSON line.

    line_of("feed 0 words 2 3 next".split())     {"do": "feed", "p": 0, "vertex": "words", "values": [2, 3],
                                                 "next": "next"}
    line_of("release 0 keep 0 to 3".split())     {"do": "release", "p": 0, "vertex": "keep", "time": [0],
                                                 "to": [3]}
    line_of("reach passed 0 z 0 feed limit 9".split())
                                                 {"do": "reach", "when": {"passed": {"q": 0, "at": "z",
                                                 "time": [0]}}, "with": ["feed"], "limit": 9}
    line_of("send 0 x 0 1 5 at 2".split())       {"do": "send", "p": 0, "vertex": "x", "time": [0],
                                                 "port": 1, "values": [5], "at": [2]}
    wanted(["feed", "0"])                        what may be typed next: [("feed", "vertex")]

Values stand in the order of the grammar's keys. A time is its numbers with commas and no spaces, as 0 or
0,1; a point is a location and a time; values end at the first word that is not a number. A flag is its key
alone. NotTyped says what is missing or wrong, in words."""
import shlex

from rewind_tools.script import ATOMS, FORMS, MOST_LITERALS, NEXTS, OPTIONAL, USERS

JOINTS = {"and": "all", "or": "any"}
# The keys that are typed by their own name, with the value after it.
MARKED = {
    "send": ["at", "dest"],
    "release": ["to"],
    "run": ["only", "seed"],
    "reach": ["limit"],
    "why": ["rest"],
}
# The order in which the values of a command are typed, if it is not that of the grammar's keys.
ORDERS = {"reach": ["when", "with", "limit"]}
# What stands for a kind of value in the form that help shows, and under some keys in place of that.
SHOWN = {
    "small": "P", "port": "PORT", "whole": "N", "signed": "N", "vertex": "VERTEX", "edge": "EDGE",
    "place": "LOCATION", "time": "TIME",
    "point": "LOCATION TIME", "points": "LOCATION TIME ...", "values": "VALUE ...",
    "next": "|".join([*NEXTS, "to N"]), "when": "CONDITION", "processors": "P ...",
    "joint": "and|or",
    "users": "] [".join(USERS),  # each of them may be left out
}  # fmt: skip
KEYS_SHOWN = {"lo": "FROM", "hi": "TO", "workers": "THREADS", "value": "VALUE"}
# The order in which the values of a condition are typed, and when each holds.
ATOM_KEYS = {
    "passed": ["q", "at", "time"],
    "finished": ["at", "time"],
    "count": ["at", "time", "at_least"],
    "view": ["q", "at", "time", "at_least"],
    "held": ["p", "at", "time", "at_least"],
    "queue": ["from", "to", "at_least"],
    "sink": ["vertex", "value", "at_least"],
}
HOLDS = {
    "passed": "the view of processor P has passed the location and time",
    "finished": "nothing is at or before the location and time, on any processor, or ever will be",
    "count": "at least N records, requests and tokens are there",
    "view": "the view of processor P counts at least N there",
    "held": "processor P itself has at least N records, requests and tokens there",
    "queue": "at least N changes are on their way from the first processor to the second",
    "sink": "the sinks of VERTEX have counted VALUE at least N times",
}


class NotTyped(Exception):
    """A typed line is not a command: its text says why."""


def words_of_line(text):
    """The words of a line up to a comment; a quoted word may have spaces."""
    try:
        return shlex.split(text, comments=True)
    except ValueError as fault:
        raise NotTyped(f"{fault}".lower()) from fault


def number(word, what="an integer"):
    try:
        return int(word)
    except ValueError:
        raise NotTyped(f"{word} is not a number; expected {what}") from None


def time_of(word):
    return [number(it, "a time, as 0 or 0,1") for it in word.split(",")]


class Words:
    """The words of a line, read from the left; what may follow the last one is kept in `wanted`."""

    def __init__(self, words, of, said=None):
        self.words, self.of, self.said, self.wanted = list(words), of, said or of, []
        self.form = usage(self.said)

    def may_follow(self, kind):
        """Notes, if no word is left, that a value of a kind may follow."""
        if not self.words:
            self.wanted.append((self.of, kind))

    def take(self, kind, shown=None):
        if not self.words:
            self.may_follow(kind)
            raise self.lacks(shown or SHOWN.get(kind, kind))
        return self.words.pop(0)

    def lacks(self, what):
        """The fault that something is missing."""
        form = f"{self.said} {self.form}".rstrip()
        return NotTyped(f"{self.said} needs {what} here; its form is: {form}")

    def while_numbers(self):
        """The numbers up to the next word that is none."""
        found = []
        while self.words and self.words[0].lstrip("+-").isdigit():
            found.append(int(self.words.pop(0)))
        return found

    def value(self, kind, key=None):
        """The value of a kind, from the words that it takes."""
        if kind in READERS:
            return READERS[kind](self)
        word = self.take(kind, KEYS_SHOWN.get(key))
        return number(word) if kind in ("small", "port", "whole", "signed") else word

    def points(self):
        points = []
        while self.words:
            points.append(self.value("point"))
        self.may_follow("place")
        return points

    def processors(self):
        found = [number(self.take("processors")), *self.while_numbers()]
        self.may_follow("processors")
        return found

    def users(self):
        """The words that count steps of users, each at most once; there may be none."""
        found = []
        while self.words and self.words[0] in USERS and self.words[0] not in found:
            found.append(self.words.pop(0))
        for it in USERS:
            if it not in found:
                self.may_follow(it)
        return found

    def next(self):
        word = self.take("next")
        return {"to": number(self.take("epoch"))} if word == "to" else word

    def literal(self):
        """An atom or its negation."""
        name = self.take("when")
        if name == "not":
            return {"not": self.literal()}
        if name not in ATOMS:
            raise NotTyped(f"{name} is not a condition; the conditions are {', '.join(ATOMS)}")
        before = self.of, self.said, self.form
        self.of, self.said, self.form = name, name, atom_usage(name)
        inner = {key: self.value(ATOMS[name][key], key) for key in ATOM_KEYS[name]}
        self.of, self.said, self.form = before
        return {name: inner}

    def condition(self):
        """An atom, its negation, or several that all or any are to hold."""
        literals, joints = [self.literal()], set()
        while self.words and self.words[0] in JOINTS:
            joints.add(JOINTS[self.words.pop(0)])
            literals.append(self.literal())
        self.may_follow("joint")
        if len(joints) > 1:
            raise NotTyped("a condition has either 'and' or 'or' between its parts, not both")
        return {joints.pop(): literals} if joints else literals[0]


READERS = {
    "time": lambda words: time_of(words.take("time")),
    "point": lambda words: [words.value("place"), words.value("time")],
    "points": Words.points,
    "values": Words.while_numbers,
    "processors": Words.processors,
    "users": Words.users,
    "when": Words.condition,
    "next": Words.next,
}


def form_of(word):
    """The keys of a word in the order in which they are typed, each with its kind of value."""
    return {key: FORMS[word][key] for key in ORDERS.get(word, FORMS[word])}


def usage(word, defaults=()):
    """What stands after a word, as help shows it; what has a default stands in brackets."""
    if word in ("until", "finish"):
        return SHOWN["when"]
    if word not in FORMS:
        return ""
    may_lack, marked = OPTIONAL.get(word, {}), MARKED.get(word, [])
    shown = {key: KEYS_SHOWN.get(key, SHOWN.get(kind, key)) for key, kind in form_of(word).items()}
    shown = {key: f"{key} {it}" if key in marked else it for key, it in shown.items()}
    return " ".join(f"[{it}]" if key in may_lack or key in defaults else it for key, it in shown.items())


def atom_usage(name):
    """What stands after the name of a condition."""
    return " ".join(KEYS_SHOWN.get(it, SHOWN[ATOMS[name][it]]) for it in ATOM_KEYS[name])


def condition_help():
    """The forms of a condition with what each says, one per line."""
    return [
        "A CONDITION is one of these:",
        *("  " + f"{name} {atom_usage(name)}".ljust(28) + said for name, said in HOLDS.items()),
        f"or 'not' before one of them, or up to {MOST_LITERALS} of them with 'and' or 'or' between.",
    ]


def read_line(left, word, defaults):
    """The script's line of the words that are left."""
    marked, may_lack = MARKED.get(word, []), OPTIONAL.get(word, {})
    value = {"do": word}
    for key, kind in form_of(word).items():
        if kind == "users":
            found = left.users()
            value.update({key: found} if found else {})
        elif key in marked or kind == "flag":
            left.may_follow(key)
            if left.words[:1] == [key]:
                left.take(kind)
                value[key] = kind == "flag" or left.value(kind)
            elif key in defaults:
                value[key] = defaults[key]
            elif key not in may_lack:
                raise left.lacks(key)
        elif left.words and not (key in defaults and left.words[0] in marked):
            value[key] = left.value(kind, key)
        elif key in defaults:
            left.may_follow(kind)
            value[key] = defaults[key]
        elif key in may_lack:
            left.may_follow("place" if kind == "points" else kind)
        else:
            value[key] = left.value(kind, key)
    return value


def line_of(words, defaults=(), said=None):
    """The script's line of typed words; keys that have a default may be left out at the end. Faults name the
    word that was said, if it is another."""
    word, *rest = words
    left, defaults = Words(rest, word, said), dict(defaults)
    value = read_line(left, word, defaults)
    if left.words:
        form = f"{left.said} {left.form}"
        raise NotTyped(f"too many words: {' '.join(left.words)}; the form is: {form}")
    return value


def wanted(words, defaults=()):
    """What may be typed after the words of a line: pairs of the command or the condition that it belongs to,
    and the kind of value, or a word that marks a value; nothing after a fault."""
    word, *rest = words
    left = Words(rest, word)
    try:
        read_line(left, word, dict(defaults))
    except NotTyped:
        pass
    return [] if left.words else left.wanted
