"""The forms of a script's lines in words, and what keeps a value from having one.

Nothing here decides whether a line is right: that is the program's answer. 'tools/test_tell' compares the
two."""
import difflib

from rewind_tools import script
from rewind_tools.script import ATOMS_SINCE, LAST, LITERALS_SINCE, MOST_LITERALS, NEEDED_BY, NEXT_TO_SINCE
from rewind_tools.script import NEXTS, OPTIONAL, SINCE, USERS, atoms_of, form_of, most_only, words_of
from rewind_tools.telling import habits, values
from rewind_tools.telling.values import is_only, shown

SMALL, WHOLE, SIGNED = (values.number(it) for it in (values.SMALL, values.WHOLE, values.SIGNED))
VERTEX = ("the name of a vertex, a text", values.text)
EDGE = ("the name of an edge, a text", values.text)
PLACE = ("the name of a vertex or an edge, a text", values.text)
TIME = ("a list of the epoch and the loop counters, each from 0 to 4294967295", values.time)
POINT = ('a location and a time, as ["a",[0]]', values.point)
POINTS = ('a list of locations and times, as [["a",[0]]]', values.list_of(values.point))
VALUES = ("a list of integers of 64 bits, with their sign", values.list_of(SIGNED[1]))
NEXT, NEXT_OR_TO = values.one_of_before_to(NEXT_TO_SINCE, *NEXTS), values.one_of_or_to(*NEXTS)
PROCESSORS, MORE_PROCESSORS = (
    (f"a list of 1 to {most} processors' numbers", values.processors(most))
    for most in map(most_only, (1, LAST))
)
WHEN = ("a condition", lambda value: None)
FLAG = ("true or false", values.flag)
USERS_LISTED = values.some_of(*USERS)
SEVERAL = ("all", "any")
A_LINE = "a line is an object that says what to do, as"

# What stands for a value in a form that is shown.
SAMPLES = {
    id(SMALL): "0", id(WHOLE): "0", id(SIGNED): "5", id(VERTEX): '"a"', id(EDGE): '"am"', id(PLACE): '"a"',
    id(TIME): "[0]",
    id(POINT): '["a",[0]]', id(POINTS): '[["a",[0]]]', id(VALUES): "[5]", id(NEXT): '"next"',
    id(NEXT_OR_TO): '"next"', id(PROCESSORS): "[0]", id(MORE_PROCESSORS): "[0]",
    id(WHEN): '{"passed":{"q":0,"at":"a","time":[0]}}', id(FLAG): "true", id(USERS_LISTED): '["feed"]',
}  # fmt: skip
# The same under a key for which the sample of its kind says little.
KEY_SAMPLES = {"limit": "1000", "workers": "1"}
KINDS = {
    "small": SMALL, "port": SMALL, "whole": WHOLE, "signed": SIGNED, "vertex": VERTEX, "edge": EDGE,
    "place": PLACE, "time": TIME, "point": POINT,
    "points": POINTS, "values": VALUES, "next": NEXT, "when": WHEN, "flag": FLAG, "processors": PROCESSORS,
    "users": USERS_LISTED,
}  # fmt: skip


def with_kinds(forms):
    """Forms of the grammar, with what is said of the kind under each key."""
    return {word: {key: KINDS[kind] for key, kind in form.items()} for word, form in forms.items()}


FORMS, ATOMS = with_kinds(script.FORMS), with_kinds(script.ATOMS)


def nearest(word, known):
    """The known word that is most like the word; None if none is like it."""
    folded = {it.lower(): it for it in reversed(list(known))}
    found = difflib.get_close_matches(word.lower(), folded, 1, 0.5)
    return folded[found[0]] if found else None


def listed(words, last="and"):
    words = list(words)
    if len(words) < 2:
        return words[0] if words else "none"
    return f"{', '.join(words[:-1])} {last} {words[-1]}"


def may_lack(value, key, form):
    """Whether an object that has the right word may leave a key of its form out."""
    word = value.get("do")
    needed_by = NEEDED_BY.get((word, key))
    return key in OPTIONAL.get(word, {}) and not (needed_by in form and needed_by in value)


def form_shown(form, value=None, version=LAST):
    """A form as a line may be written: the values of an object where they are right, samples where it has
    none."""
    value = value or {}
    kept = kept_values(value, form)
    wanted = {key: kind for key, kind in form.items() if key in kept or not may_lack(value, key, form)}
    members = (f"{shown(key)}:{member_shown(key, kind, kept, version)}" for key, kind in wanted.items())
    return "{" + ",".join(members) + "}"


def member_shown(key, kind, kept, version):
    if key not in kept:
        return KEY_SAMPLES.get(key, SAMPLES[id(kind)])
    return when_shown(kept[key], version) if kind is WHEN else shown(kept[key])


def kept_values(value, form):
    """The values of an object that a form may have: those of the right kind, under its keys or under keys to
    be renamed."""
    renamed = {meant: value[key] for key, meant in meant_keys(value, form).items() if meant}
    return {key: it for key, it in {**value, **renamed}.items() if key in form and not form[key][1](it)}


def meant_keys(value, form):
    """The keys of an object that a form has not, each with the key that may be meant, or None: one that is
    missing, or one that may be left out."""
    missing = missing_keys(value, form)
    others = [key for key in value if key not in form]
    if len(missing) == len(others) == 1:
        return {others[0]: missing[0]}
    meant, missing = {}, [key for key in form if key not in value]
    for key in others:
        meant[key] = nearest(key, missing)
        missing = [it for it in missing if it != meant[key]]
    return meant


def missing_keys(value, form):
    return [key for key in form if key not in value and not may_lack(value, key, form)]


def keys_faults(value, form, where=""):
    """What is wrong with the keys of an object that must have those of a form, each fault in words."""
    meant = meant_keys(value, form)
    faults = [
        f"the key {shown(key)}{where} {'should be ' + shown(it) if it else 'is too many'}"
        for key, it in meant.items()
    ]
    missing = [key for key in missing_keys(value, form) if key not in meant.values()]
    return faults + [f"the key {shown(key)}{where} is missing: {form[key][0]}" for key in missing]


def value_faults(value, form):
    """What is wrong with the values that an object has under the keys of a form."""
    faults = []
    for key, (words, fault_of) in form.items():
        wrong = fault_of(value[key]) if key in value else None
        if wrong:
            faults.append(f"{shown(key)}:{shown(value[key])} {wrong}; expected {words}")
    return faults


def when_faults(value, version):
    """What keeps a value from being a condition in a script of a version."""
    if version < LITERALS_SINCE or not is_only(value, *SEVERAL):
        return literal_faults(value, version, '"when"')
    name, inner = next(iter(value.items()))
    if not isinstance(inner, list):
        right = f"{{{shown(name)}:[{atom_shown('passed')}]}}"
        return [f"{shown(name)}:{shown(inner)} {values.kind_of(inner)}; expected a list, as {right}"]
    if not 1 <= len(inner) <= MOST_LITERALS:
        return [f"{shown(name)} has {len(inner)} conditions; it may have 1 to {MOST_LITERALS}"]
    of = f"of {shown(name)}"
    return [it for at, one in enumerate(inner) for it in literal_faults(one, version, f"item {at} {of}")]


def literal_faults(value, version, where):
    """What keeps a value from being an atom or the negation of one."""
    if version >= LITERALS_SINCE and is_only(value, "not"):
        return atom_faults(value["not"], version, '"not"')
    return atom_faults(value, version, where)


def atom_faults(value, version, where):
    """What keeps a value from being an atom."""
    if not isinstance(value, dict):
        start = f"{where}:{shown(value)}" if where == '"when"' else f"{where}, {shown(value)},"
        return [f'{start} {values.kind_of(value)}; expected an object, as {atom_shown("passed")}']
    atoms = atoms_of(version)
    known = [key for key in value if key in atoms]
    if len(value) != 1 or not known:
        return [f"{where} {wrong_atom(value, version, where)}"]
    name, inner = known[0], value[known[0]]
    if not isinstance(inner, dict):
        return [f"{shown(name)}:{shown(inner)} {values.kind_of(inner)}; expected {atom_shown(name)}"]
    faults = keys_faults(inner, ATOMS[name], f" of {shown(name)}") + value_faults(inner, ATOMS[name])
    right = '"when":' if where == '"when"' else ""
    return faults + [f"expected {right}{atom_shown(name, inner)}"] if faults else []


def wrong_atom(value, version, where):
    """What is wrong with the keys of an object that is to be an atom, or where that is allowed a larger
    condition."""
    further = [*SEVERAL, "not"] if where == '"when"' else ["not"] if where.startswith("item") else []
    keys = [*atoms_of(version), *(further if version >= LITERALS_SINCE else [])]
    only = next(iter(value)) if len(value) == 1 else None
    since = LITERALS_SINCE if only in (*SEVERAL, "not") else ATOMS_SINCE.get(only, 1)
    if version < since:
        came = f"which came with version {since}, and the script is of version {version}"
        return f"has the key {shown(only)}, {came}"
    near = nearest(only, keys) if only is not None else None
    hint = f"; the nearest is {shown(near)}" if near else ""
    wanted = f"must have exactly one key, {listed(map(shown, keys), 'or')}"
    return f"{wanted}, and has {listed(map(shown, value))}{hint}"


def atom_shown(name, inner=None):
    return f"{{{shown(name)}:{form_shown(ATOMS[name], inner)}}}"


def when_shown(value, version=LAST):
    """A condition as it may be written, with what is right in the value that stands in its place."""
    if version >= LITERALS_SINCE and is_only(value, *SEVERAL):
        name, inner = next(iter(value.items()))
        literals = inner[:MOST_LITERALS] if isinstance(inner, list) else []
        items = [literal_shown(it, version) for it in literals]
        return f"{{{shown(name)}:[{','.join(items) or SAMPLES[id(WHEN)]}]}}"
    return literal_shown(value, version)


def literal_shown(value, version):
    """The same of an atom or its negation."""
    if version >= LITERALS_SINCE and is_only(value, "not"):
        return f'{{"not":{known_atom_shown(value["not"], version)}}}'
    return known_atom_shown(value, version)


def known_atom_shown(value, version):
    """The same of an atom."""
    known = [key for key in value if key in atoms_of(version)] if isinstance(value, dict) else []
    if len(known) != 1:
        return SAMPLES[id(WHEN)]
    inner = value[known[0]]
    return atom_shown(known[0], inner if isinstance(inner, dict) else None)


def kind_in(kind, version):
    """What is said of a kind in a script of a version."""
    if kind is PROCESSORS and most_only(version) == most_only(LAST):
        return MORE_PROCESSORS
    return NEXT_OR_TO if kind is NEXT and version >= NEXT_TO_SINCE else kind


def line_form(word, has_clients, version=LAST):
    """The form of a command or query with all that its line has in a script of a version."""
    form = {key: kind_in(FORMS[word][key], version) for key in form_of(word, version)}
    return {**({"client": WHOLE} if has_clients else {}), "do": VERTEX, **form}


def line_shown(word, value=None, has_clients=False, version=LAST):
    """The line of a command or query as it may be written, with what is right in a value."""
    return form_shown(line_form(word, has_clients, version), {**(value or {}), "do": word}, version)


def came_with(what, since, version):
    """That something came with a later version than the script's, and the first line that it needs."""
    came = f"{what} came with version {since}, and the script is of version {version}"
    return f'{came}; its first line must be {{"version":{since}}}'


def word_faults(value, has_clients, version):
    """What is wrong with the command word of an object; nothing if it is one of the script's version."""
    known = words_of(version)
    if "do" not in value:
        near = nearest("do", [key for key in value if key.lower() == "do"])
        if near:
            return [f'the key {shown(near)} should be "do"']
        if value.keys() == {"version"}:
            return ["a version line comes only before the graph"]
        form = likeliest(value, known)
        hint = f"; the nearest form is {line_shown(form, value, has_clients, version)}" if form else ""
        return [f'the key "do" is missing, which says what to do{hint}']
    word = value["do"]
    if values.text(word):
        return [f'"do":{shown(word)} {values.text(word)}; expected one of the words {listed(known)}']
    if word in known:
        return []
    other = habits.instead(word, version, has_clients)
    if word in FORMS:
        came = came_with(shown(word), SINCE[word], version)
        return [came, *(other if not FORMS[word].keys() & value.keys() else [])]
    if other:
        return [f"{shown(word)} is not a command or query; {other[0]}", *other[1:]]
    near = nearest(word, known)
    hint = f"; the nearest is {shown(near)}" if near else f"; the words are {listed(known)}"
    has_values = near and FORMS[near].keys() & value.keys()
    right = [f"expected {line_shown(near, value, has_clients, version)}"] if has_values else []
    return [f"{shown(word)} is not a command or query{hint}", *right]


def likeliest(value, known):
    """The known word whose form has most keys in common with the object's, and fewest others; None if it has
    none."""

    def common(word):
        return (len(FORMS[word].keys() & value.keys()), -len(FORMS[word].keys() ^ value.keys()))

    best = max(known, key=common)
    return best if common(best)[0] else None


def shape_faults(value, has_clients, version=LAST):
    """What keeps a value from having the form of a line, each fault in words; if keys are wrong, the right
    form last."""
    if not isinstance(value, dict):
        word = value if isinstance(value, str) else ""
        right = line_shown(word if word in words_of(version) else "back", None, has_clients, version)
        said = f"{shown(value)} {values.kind_of(value)}; {A_LINE} {right}"
        return [said, *habits.instead(word, version, has_clients)]
    wrong = word_faults(value, has_clients, version)
    if wrong:
        start = {"client": WHOLE} if has_clients else {}
        given = {key: value[key] for key in start if key in value}
        return wrong + keys_faults(given, start) + value_faults(given, start)
    form = line_form(value["do"], has_clients, version)
    faults = keys_faults(value, form)
    if faults:
        faults += later_keys(value, version) + [f"expected {form_shown(form, value, version)}"]
        if not FORMS[value["do"]].keys() & value.keys():
            faults += habits.instead(value["do"], version, has_clients)
    faults += value_faults(value, form)
    return faults + (when_faults(value["when"], version) if "when" in form and "when" in value else [])


def later_keys(value, version):
    """Which keys of a line came with a later version than the script's, a sentence each."""
    since = {key: it for key, it in OPTIONAL.get(value["do"], {}).items() if it > version and key in value}
    return [f"the key {shown(key)} of {value['do']} came with version {it}" for key, it in since.items()]


def typed_faults(words, has_clients, version):
    """What is wrong with a line of plain words, the first of which may be that of a command or query."""
    word, known = words[0].lower(), words_of(version)
    if word in known:
        right = line_shown(word, typed_values(words[1:], form_of(word, version)), has_clients, version)
        return [f"the line is not JSON; expected {right}", *habits.instead(word, version, has_clients)]
    wrong = word_faults({"do": word}, has_clients, version)
    faults = [f"the line is not JSON, and {wrong[0]}", *wrong[1:]]
    if word in FORMS or habits.instead(word, version, has_clients):
        return faults
    right = line_shown(nearest(word, known) or "back", None, has_clients, version)
    return [*faults, f"{A_LINE} {right}"]


def typed_values(words, form):
    """The words after a command's word, each under the key of its form in that place."""
    return {key: value_typed(word) for key, word in zip(form, words)}


def value_typed(word):
    try:
        return values.value_of(word.encode())
    except (ValueError, RecursionError):
        return word
