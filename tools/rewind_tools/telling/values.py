"""JSON values as a line writes them: kinds of values, and what is wrong with a value of another kind."""
import json

SMALL, WHOLE = (0, 2**32 - 1), (0, 2**64 - 1)
SIGNED = (-(2**63), 2**63 - 1)


class Written(str):
    """A number that is not written as a whole one, by its own text."""


def value_of(text):
    """The JSON value of a line's bytes, with numbers that are not written as whole ones kept as they are
    written."""

    def whole(it):
        return Written(it) if it == "-0" else int(it)

    return json.loads(text.decode(), parse_float=Written, parse_int=whole)


def shown(value, most=40):
    """The value as JSON, cut if it is long."""
    text = raw(value)
    return text if most is None or len(text) <= most else text[: most - 3] + "..."


def raw(value):
    if isinstance(value, Written):
        return str(value)
    if isinstance(value, list):
        return "[" + ",".join(map(raw, value)) + "]"
    if isinstance(value, dict):
        return "{" + ",".join(f"{raw(key)}:{raw(it)}" for key, it in value.items()) + "}"
    return json.dumps(value, ensure_ascii=True)


def kind_of(value):
    """What a value is, in words."""
    if value is None or isinstance(value, bool):
        return "is not a number, text, list or object"
    if isinstance(value, Written):
        return "is not written as an integer"
    for kind, words in ((str, "is a text"), (list, "is a list"), (dict, "is an object")):
        if isinstance(value, kind):
            return words
    return "is a number"


def number(limits):
    """The kind of the integers between two limits: its words, and what is wrong with a value."""
    low, high = limits

    def fault(value):
        if isinstance(value, bool) or not isinstance(value, int):
            return kind_of(value)
        if value < low:
            return f"is below {low}"
        return f"is above {high}" if value > high else None

    return f"an integer from {low} to {high}", fault


def flag(value):
    return None if isinstance(value, bool) else kind_of(value)


def text(value):
    return None if isinstance(value, str) and not isinstance(value, Written) else kind_of(value)


def list_of(fault_of):
    """What is wrong with a list whose items each have a fault or none."""

    def fault(value):
        if not isinstance(value, list):
            return kind_of(value)
        for at, it in enumerate(value):
            wrong = fault_of(it)
            if wrong:
                return f"has the item {shown(it, 24)} at {at}, which {wrong}"
        return None

    return fault


def time(value):
    if value == []:
        return "is empty"
    return list_of(number(SMALL)[1])(value)


def processors(most):
    """What is wrong with a list of at least one processor's number and at most `most`."""

    def fault(value):
        if isinstance(value, list) and not 1 <= len(value) <= most:
            return f"has {len(value)} items"
        return list_of(number(SMALL)[1])(value)

    return fault


def point(value):
    if not isinstance(value, list):
        return kind_of(value)
    if len(value) != 2:
        return f"has {len(value)} items and not 2"
    if text(value[0]):
        return f"has no name: {shown(value[0], 24)} {text(value[0])}"
    wrong = time(value[1])
    return f"has no time: {shown(value[1], 24)} {wrong}" if wrong else None


def one_of(*words):
    """The kind of some texts alone."""
    listed = ", ".join(f'"{it}"' for it in words[:-1]) + f' or "{words[-1]}"'
    return (
        listed,
        lambda value: None if not text(value) and value in words else text(value) or "is none of these",
    )


def some_of(*words):
    """The kind of the lists of at least one of some texts, each at most once."""
    listed, fault_of = one_of(*words)

    def fault(value):
        wrong = list_of(fault_of)(value)
        if wrong or not value:
            return wrong or "is empty"
        return "has an item twice" if len(set(value)) < len(value) else None

    return f"a list of {listed} or both", fault


def is_only(value, *names):
    """Whether a value is an object with one of these names as its only key."""
    return isinstance(value, dict) and len(value) == 1 and next(iter(value)) in names


def one_of_or_to(*words):
    """The kind of some texts, and of objects whose only key "to" has a small number."""
    listed = ", ".join(f'"{it}"' for it in words)

    def fault(value):
        if not isinstance(value, dict):
            return one_of(*words)[1](value)
        if not is_only(value, "to"):
            return 'is an object, and must have the key "to" alone'
        wrong = number(SMALL)[1](value["to"])
        return f'has "to":{shown(value["to"], 24)}, which {wrong}' if wrong else None

    return f'{listed} or {{"to":1}}', fault


def one_of_before_to(version, *words):
    """The kind of some texts in a script that is older than the version with which such objects came."""
    listed, fault_of = one_of(*words)
    _, later_fault_of = one_of_or_to(*words)

    def fault(value):
        is_late = is_only(value, "to") and not later_fault_of(value)
        return f"came with version {version}" if is_late else fault_of(value)

    return listed, fault
