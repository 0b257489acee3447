"""The must-fail edits of a crate, tried together: one check of one copy with all of them.

A function's proof rests on the contracts of what it calls and on no other body. So of bodies that are
turned in different functions of one copy each is refused, or not, as it would be alone. An edit counts as
refused only for its meaning: tools/meaning.py says which lines of the prover show that, and they must name a
place in a function that the edit changes or in its folder of answers. The check is asked for the edited
functions alone, so that what stands above them is not read; and each other function of the copy has an empty
proof and, unless a trait asks for it, a body that calls nothing, so that what stands below is not proved
once more. It begins with what an earlier check of the crate kept, where there is one (rt must-fail; the gate
keeps none). An edit of a function that another edit changes is made in a function of its own: the same once
more under another name, with its contract and its answers. Edits that cannot be read beside the others, as
where another changes what a function takes, are tried together again, as long as that leaves fewer. What was
not refused so is tried again with the rest, and at last alone, over what the earlier checks of this run
proved and then from nothing.

Two refusals might meet a right body, too. If `grind` stopped at a limit of its own, the edit needs lines
`-- right: TEXT`, one for each pair: a right body in the form of the wrong one, with which the function is
proved in the same check. If answers name what the edit took away, such lines serve, too. Otherwise there is
a second trial without these answers, so that the prover searches: a clause must be open with the edit, and
the function as it was must be proved."""
import collections
import copy
import functools
import glob
import hashlib
import os
import re
import shutil
import tempfile
import threading

from meaning import COUNTS, NOT_RIGHT, SAYS_LESS, WHY_NOT, Kind, strongest, wrong_answers

FUNCTION = re.compile(r"\s*(?:pub(?:\([^)]*\))?\s+)?(?:const\s+)?(?:unsafe\s+)?fn\s+(\w+)")
TYPE = re.compile(r"^(?:pub(?:\([^)]*\))?\s+)?(?:struct|enum)\s+(\w+)", re.MULTILINE)
# an error, or a goal that is left open
AGAINST = re.compile(r"(?:\./)?\S+?:\d+:\d+: error|note: (?:\./)?\S+?:\d+:\d+: it is not proved that ")
PLACE = re.compile(r"(?:note: )?(?:\./)?(\S+?):(\d+):\d+: ")
VERDICT = re.compile(r"fn (\S+): (.*)")
# how a line begins that gives a right body in place of the wrong one
RIGHT = "-- right: "
# what follows a function's name where it stands once more, as often as it does so
AGAIN = "_again"
# how often a function may stand once more
MOST_AGAIN = 4

# A function: its file, the last names that the prover has for it, its first line and its last.
Function = collections.namedtuple("Function", "file names first last")


def pairs(edit):
    """The file, the old text and the new text of each pair of an edit; each text is one line."""
    path, old, found = None, None, []
    with open(edit, encoding="utf-8") as lines:
        for line in lines.read().split("\n"):
            if line.startswith("file: "):
                path = line[len("file: ") :].strip()
            elif line.startswith("old: "):
                old = line[len("old: ") :]
            elif line.startswith("new:"):
                found.append((path, old, line[len("new:") :].removeprefix(" ")))
    return found


def right_bodies(edit):
    """The right texts that the edit names, if it names one for each pair."""
    with open(edit, encoding="utf-8") as it:
        found = [line[len(RIGHT) :] for line in it.read().split("\n") if line.startswith(RIGHT)]
    return found if len(found) == len(pairs(edit)) else []


def write_edit(edit, texts, to):
    """Writes the edit with these texts in place of its new ones."""
    with open(to, "w", encoding="utf-8") as it:
        for (path, old, _), new in zip(pairs(edit), texts):
            it.write(f"file: {path}\nold: {old}\nnew: {new}\n")


def without_angles(text):
    """The text without what stands between < and >."""
    deep, kept = 0, []
    for at, letter in enumerate(text):
        if letter == "<":
            deep += 1
        elif letter != ">":
            kept.append(letter if not deep else "")
        elif text[at - 1 : at] != "-":
            deep -= 1
    return "".join(kept)


def short(path):
    """The last name of a path, as the prover writes it: with a capital, without what stands between < and
    >."""
    name = without_angles(path).strip().rpartition("::")[2]
    return name[:1].upper() + name[1:]


def parts(text):
    """What stands between the commas of a list that no bracket encloses, without lifetimes."""
    found, deep = [""], 0
    for letter in text:
        deep += {"<": 1, "(": 1, ">": -1, ")": -1}.get(letter, 0)
        if letter == "," and not deep:
            found.append("")
        else:
            found[-1] += letter
    return [it.strip() for it in found if it.strip() and not it.strip().startswith("'")]


def given_to(path):
    """What a path's last name is given between < and >, if the prover names it."""
    inside = re.match(r"[^<]*<(.*)>\s*$", path)
    return parts(inside[1]) if inside else []


def named(path, own):
    """A type or a trait with what it is given, as the prover names it in an impl, without what the impl
    itself is given."""
    if path == "()":
        return "Unit"
    if path.startswith("&"):
        return "Ref" + named(path[1:].strip(), own)
    if path.startswith("("):
        inside = parts(path[1:-1])
        return f"Tuple{len(inside)}" + "".join(named(it, own) for it in inside)
    return short(path) + "".join(named(it, own) for it in given_to(path) if it not in own)


def owner(lines, at):
    """The type around a line, and after it the trait with what it is given, as the prover names an impl;
    none if there is no impl."""
    first = next((i for i in range(at, -1, -1) if lines[i].startswith(("impl", "unsafe impl", "}"))), None)
    if first is None or lines[first].startswith("}"):
        return None
    head = " ".join(lines[first : at + 1]).partition("{")[0]
    head = head.removeprefix("unsafe ").removeprefix("impl").strip()
    own = ""
    if head.startswith("<"):
        deep = 0
        for end, letter in enumerate(head):
            deep += {"<": 1, ">": -1 if head[end - 1] != "-" else 0}.get(letter, 0)
            if not deep:
                break
        own, head = head[: end + 1], head[end + 1 :].strip()
    trait, found, kind = head.partition(" where ")[0].partition(" for ")
    own = {it.partition(":")[0].strip() for it in given_to(own)}
    return named(kind, own) + named(trait, own) if found else short(trait)


def function_at(file, source, at):
    """The function around a place of a source, with its attributes, or none."""
    lines, line = source.split("\n"), source.count("\n", 0, at)
    top = next((i for i in range(line, -1, -1) if FUNCTION.match(lines[i])), None)
    if top is None:
        return None
    indent = lines[top][: len(lines[top]) - len(lines[top].lstrip())]
    last = next((i for i in range(top + 1, len(lines)) if lines[i].startswith(indent + "}")), -1)
    first = top
    while first and re.match(r"\s*(#\[|///)", lines[first - 1]):
        first -= 1
    around = (
        owner(lines, top) if indent else file.removeprefix("src/").removesuffix(".rt").rpartition("/")[2]
    )
    names = (
        FUNCTION.match(lines[top])[1]
        if around in ("lib", "main")
        else f"{around}::{FUNCTION.match(lines[top])[1]}"
    )
    return Function(file, names, first + 1, last + 1) if last >= line and around else None


def made(edit, folder, texts):
    """The functions that an edit changes and the texts with it, or nothing if it changes anything else."""
    texts, found = dict(texts), set()
    for path, old, new in pairs(edit):
        if path not in texts:
            with open(f"{folder}/{path}", encoding="utf-8") as it:
                texts[path] = it.read()
        is_there = path.startswith("src/") and texts[path].count(old) == 1
        function = function_at(path, texts[path], texts[path].index(old)) if is_there else None
        if not function:
            return None, None
        found.add(function)
        texts[path] = texts[path].replace(old, new)
    return found, texts


def of_trait(lines, function):
    """Whether the function is of an impl of a trait."""
    around = next(
        (it for it in reversed(lines[: function.first]) if it.startswith(("impl", "unsafe impl", "}"))), ""
    )
    return lines[function.last - 1].startswith(" ") and " for " in around


def impl_around(lines, function):
    """The lines that begin the impl around a function; none if it stands outside of any."""
    if not lines[function.last - 1].startswith(" "):
        return []
    first = next(it for it in range(function.first - 1, -1, -1) if lines[it].startswith("impl"))
    return lines[first : next(it for it in range(first, function.first) if lines[it].endswith("{")) + 1]


def again(edit, folder, texts, ending):
    """The function that an edit changes, once more at the end of its file under its name with this ending,
    and the texts with it; or nothing, if it is of an impl of a trait or of a ring of calls, or if there are
    several: these call one another by their names, and their answers know no others."""
    functions, changed = made(edit, folder, {})
    if not functions or len(functions) > 1:
        return None, None
    (function,), texts = functions, dict(texts)
    lines = changed[function.file].split("\n")
    own = "\n".join(lines[function.first - 1 : function.last])
    if of_trait(lines, function) or "#[cycle" in own:
        return None, None
    own = re.sub(rf"\bfn {function.names.rpartition('::')[2]}\b", rf"\g<0>{ending}", own)
    around = impl_around(lines, function)
    if function.file not in texts:
        with open(f"{folder}/{function.file}", encoding="utf-8") as it:
            texts[function.file] = it.read()
    first = texts[function.file].count("\n") + 2 + len(around)
    texts[function.file] += "\n".join(["", *around, own, *["}"] * bool(around), ""])
    return {
        Function(function.file, function.names + ending, first, first + function.last - function.first)
    }, texts


def chosen(folder, left):
    """Those edits that change different functions, each with its functions, and the texts with all of them.
    An edit that changes a function which another changes gets a function of its own, with the same contract
    and the same proof. An edit of several functions cannot, so it comes first."""
    taken, found, texts = set(), {}, {}
    left = sorted(left, key=lambda it: -len(made(it, folder, {})[0] or ()))
    for make in made, *(
        functools.partial(again, ending=AGAIN * times) for times in range(1, MOST_AGAIN + 1)
    ):
        for edit in left:
            functions, more = make(edit, folder, texts) if edit not in found else (None, None)
            names = {(it.file, it.names) for it in functions or ()}
            if functions and not names & taken:
                taken, texts, found[edit] = taken | names, more, functions
    return found, texts


def whole(lines):
    """The prover's messages, each on one line: what goes on on further lines begins with spaces there."""
    found = []
    for line in lines:
        if line.startswith("  ") and found:
            found[-1] += " " + line.strip()
        else:
            found.append(line)
    return found


def is_in(line, function):
    """Whether a line of the prover names a place in the function."""
    at = PLACE.match(line)
    return bool(at) and at[1] == function.file and function.first <= int(at[2]) <= function.last


def path_of(verdicts, function):
    """The function's path as the prover writes it, or None if its verdicts do not name it once."""
    paths = [it for it in verdicts if it.partition("::")[2].endswith(function.names)]
    paths = [it for it in paths if re.search(rf"(^|::){re.escape(function.names)}$", it.partition("::")[2])]
    return paths[0] if len(paths) == 1 else None


def is_proved(verdicts, function):
    """Whether nothing is said against this function itself: in the copy what it calls may have no proof."""
    said = verdicts.get(path_of(verdicts, function), "")
    return said == "proved" or re.match(r"no proof: it calls `[^`]+`, which is not proved", said) is not None


def lines_against(verdicts, told, function):
    """The prover's lines that name a place in this function or in its folder of answers, if it is not
    proved."""
    path = path_of(verdicts, function)
    if not path or not re.match(r"not proved|no proof: expected answers", verdicts[path]):
        return []
    path = path.partition("::")[2].replace("::", "/")
    folder, slash, name = path.rpartition("/")
    # (the answers of a function that calls itself stand in a folder with `+` before its name)
    answers = f"proofs/{path}/", f"proofs/{folder}{slash}+{name}/"
    return [it for it in told if is_in(it, function) or PLACE.match(it)[1].startswith(answers)]


def module_of(file):
    """The module that a file of a crate is, as a folder."""
    return re.sub(r"(^|/)(lib|main|mod)$", "", file.removeprefix("src/").removesuffix(".rt"))


def functions_of(folder):
    """The functions of a crate that have a proof of their own, each with its folder, which stands under the
    module of its type: not those that call one another, nor those that take a value apart."""
    sources = {}
    for path in glob.glob(f"{folder}/src/**/*.rt", recursive=True):
        with open(path, encoding="utf-8") as it:
            sources[os.path.relpath(path, folder)] = it.read()
    types = {name: module_of(file) for file, source in sources.items() for name in TYPE.findall(source)}
    for file, source in sources.items():
        place = 0
        for line in source.split("\n"):
            at = function_at(file, source, place) if FUNCTION.match(line) else None
            if (
                at
                and not at.names.endswith("Drop::drop")
                and "#[cycle" not in "\n".join(source.split("\n")[at.first - 1 : at.last])
            ):
                owner, _, name = at.names.rpartition("::")
                owner = owner if line.startswith(" ") else ""
                yield at, "/".join(filter(None, ["proofs", types.get(owner, module_of(file)), owner, name]))
            place += len(line) + 1


def without_body(lines, function):
    """The lines with a body that calls nothing in place of the function's, on as many lines; as they are
    where the body cannot be told."""
    indent = re.match(" *", lines[function.last - 1])[0]
    head = next(it for it in range(function.first - 1, function.last) if FUNCTION.match(lines[it]))
    begins = [it for it in range(head, function.last) if lines[it] == indent + "{"]
    begins = begins or [
        it
        for it in range(head, function.last)
        if lines[it].startswith((indent + "fn ", indent + "pub", indent + ")")) and lines[it].endswith(" {")
    ]
    first, last = (begins or [function.last])[0] + 1, function.last - 1
    if "const fn" in lines[head] or first >= last:
        return lines
    return [*lines[:first], indent + "    unreachable!()", *[""] * (last - first - 1), *lines[last:]]


def give_proofs_again(crate, edited, room):
    """Gives each function that stands once more in the copy the proof of the one that it is made of."""
    proofs = {(at.file, at.names): proof for at, proof in functions_of(crate.folder)}
    for function in edited:
        name, ending = re.fullmatch(rf"(.*?)((?:{AGAIN})*)", function.names).groups()
        proof = proofs.get((function.file, name), "")
        if ending and os.path.isdir(f"{room}/{proof}"):
            shutil.copytree(f"{room}/{proof}", f"{room}/{proof}{ending}")
            path = proof.replace("/", ".")
            for file in glob.glob(f"{glob.escape(f'{room}/{proof}{ending}')}/*.antt"):
                with open(file, encoding="utf-8") as it:
                    text = it.read()
                with open(file, "w", encoding="utf-8") as it:
                    it.write(text.replace(f"{path}.", f"{path}{ending}."))


def without_answers(text, goals):
    """The text of a file of answers without those to these goals; empty if one of them has no name or no
    answer there."""
    parts = re.split(r"(?m)^(?=pub )", text)
    kept = [it for it in parts if (re.match(r"pub (\S+) :", it) or [None] * 2)[1] not in goals]
    return "".join(kept) if len(kept) + len(goals) == len(parts) else ""


def take_answers(crate, wrong, room):
    """Removes from the copy the answers to these goals, by function; the invariants stay."""
    proofs = {(at.file, at.names): proof for at, proof in functions_of(crate.folder)}
    for function, goals in wrong.items():
        name, ending = re.fullmatch(rf"(.*?)((?:{AGAIN})*)", function.names).groups()
        path = f"{room}/{proofs.get((function.file, name), 'none')}{ending}/Answers.antt"
        if os.path.isfile(path):
            with open(path, encoding="utf-8") as it:
                text = without_answers(it.read(), goals)
            with open(path, "w", encoding="utf-8") as it:
                it.write(text)


def alone(crate, edited, texts, room):
    """A copy of the crate in the room with these texts, where each function that is not edited has an empty
    proof and calls nothing, and the texts that it has then."""
    for part in ("src", "specs", "proofs"):
        if os.path.isdir(f"{crate.folder}/{part}"):
            shutil.copytree(f"{crate.folder}/{part}", f"{room}/{part}")
    give_proofs_again(crate, edited, room)
    edited, files = {(it.file, it.names) for it in edited}, {}
    for at, proof in functions_of(crate.folder):
        if (at.file, at.names) in edited:
            continue
        os.makedirs(f"{room}/{proof}", exist_ok=True)
        for file in glob.glob(f"{glob.escape(f'{room}/{proof}')}/*.antt"):
            os.remove(file)
        open(f"{room}/{proof}/Proof.antt", "w", encoding="utf-8").close()
        if at.file not in files:
            with open(f"{crate.folder}/{at.file}", encoding="utf-8") as it:
                files[at.file] = texts.get(at.file, it.read()).split("\n")
        if not of_trait(files[at.file], at):
            files[at.file] = without_body(files[at.file], at)
    copied = copy.copy(crate)
    copied.folder = room
    return copied, {**texts, **{file: "\n".join(lines) for file, lines in files.items()}}


def begin(rt, start, kept):
    """Fills the folder with links to what a check of the crate kept, if its folder is given. A check takes
    no file of it that does not fit the text, so at worst it is of no use."""
    try:
        if start:
            os.rmdir(kept)
            rt.linked(start, kept)
    except (OSError, shutil.Error):
        shutil.rmtree(kept, ignore_errors=True)
        os.mkdir(kept)


def asked(rt, crate, edits, texts, flags, kept, wrong=()):
    """What one check with all these edits says: the prover's verdicts, its lines against functions, and the
    edits that keep it from judging. The check is asked for the edited functions alone, and proves none that
    they call. It searches for the answers that are `wrong`, goals by function."""
    edited = [it for functions in edits.values() for it in functions]
    only = [word for it in edited for word in ("--only", it.names)]
    with tempfile.TemporaryDirectory(prefix="rt-together-") as room:
        copied, texts = alone(crate, edited, texts, room)
        take_answers(crate, dict(wrong), room)
        ran = rt.checked(copied, texts, [*flags, *only], kept)
    lines = ran.stdout.rstrip("\n").split("\n")
    is_ended = ran.returncode in (0, 1) and lines[-1].startswith("only=")
    is_judged = is_ended and not rt.rtlib.STALE.search(ran.stdout)
    unread = [it for it in lines if (rt.unread(it, texts) if is_judged else ": error" in it)]
    nowhere = set(re.findall(r"has no function `([^`]+)`", ran.stdout)) if not is_judged else set()
    if unread or not is_judged:

        def is_barred(at):
            return at.names in nowhere or any(is_in(line, at) for line in unread)

        return {}, [], [it for it, functions in edits.items() if any(map(is_barred, functions))]
    verdicts = dict(it.groups() for it in map(VERDICT.match, lines) if it)
    return verdicts, [it for it in whole(lines) if AGAINST.match(it)], []


def shown(found):
    """The strongest of the lines against an edit's functions, after what it shows; None if none shows
    anything."""
    return strongest(line for lines in found.values() for line in lines)


def own_name(function):
    """The function's name without what is added to it where it stands once more."""
    return re.fullmatch(rf"(.*?)(?:{AGAIN})*", function.names)[1]


# A trial: the file of an edit, and the answers to be left out, goals by function.
Trial = collections.namedtuple("Trial", "path wrong")


def outcomes(rt, crate, trials, flags, kept):
    """For the file of each trial whether its functions are proved, and the lines against each of them;
    nothing for one that cannot be read, or that changes anything else."""
    wrong, found = {it.path: it.wrong for it in trials}, {}

    def judge(left):
        together, texts = chosen(crate.folder, left)
        if not together:
            return
        edited = [(it, at) for it, functions in together.items() for at in functions]
        goals = {at: wrong[it].get(own_name(at), ()) for it, at in edited}
        verdicts, told, barred = asked(rt, crate, together, texts, flags, kept, goals)
        for it, functions in together.items() if not barred else ():
            lines = {at: lines_against(verdicts, told, at) for at in functions}
            found[it] = all(is_proved(verdicts, at) for at in functions), lines
        rest = [it for it in left if it not in (barred or together)]
        if rest:
            judge(rest)
            judge(barred)

    judge(list(wrong))
    return found


def first_trial(rt, crate, edits, flags, kept, room):
    """The lines against the functions of each edit that is refused, and those edits that name a right body
    with which the function is proved."""
    rights = {it: f"{room}/right-{number}" for number, it in enumerate(edits) if right_bodies(it)}
    for edit, path in rights.items():
        write_edit(edit, right_bodies(edit), path)
    trials = [Trial(it, {}) for it in [*edits, *rights.values()]]
    found = outcomes(rt, crate, trials, flags, kept)
    refused = {it: found[it][1] for it in edits if it in found and shown(found[it][1])}
    return refused, {it for it, path in rights.items() if found.get(path, (False,))[0]}


def second_trial(rt, crate, doubtful, flags, kept, room):
    """The clause that is open in each of these edits, which are given with the lines against their
    functions, without the answers that do not fit, where the function as it was is proved without them."""
    with_edit, as_it_was = {}, {}
    for number, (edit, found) in enumerate(doubtful.items()):
        wrong = {own_name(at): wrong_answers(lines) for at, lines in found.items()}
        with_edit[edit] = Trial(f"{room}/edit-{number}", wrong)
        as_it_was[edit] = Trial(f"{room}/was-{number}", wrong)
        write_edit(edit, [new for _, _, new in pairs(edit)], with_edit[edit].path)
        write_edit(edit, [old for _, old, _ in pairs(edit)], as_it_was[edit].path)
    found = outcomes(rt, crate, [*with_edit.values(), *as_it_was.values()], flags, kept)
    clauses = {it: shown(found[trial.path][1]) for it, trial in with_edit.items() if trial.path in found}
    return {
        it: clause[1]
        for it, clause in clauses.items()
        if clause and clause[0] is Kind.CLAUSE and found.get(as_it_was[it].path, (False,))[0]
    }


def tried_alone(rt, crate, edit, flags, kept):
    """The lines of a check of the whole crate with the edit, if it refuses it; none if it cannot read it."""
    texts, why = rt.read_edit(edit, crate.folder)
    if why:
        return []
    ran = rt.checked(crate, texts, flags, kept)
    lines = ran.stdout.rstrip("\n").split("\n")
    is_refused = ran.returncode == 1 and lines[-1].startswith("logic=not-proved")
    if not is_refused or rt.rtlib.STALE.search(ran.stdout) or any(rt.unread(it, texts) for it in lines):
        return []
    return [it for it in whole(lines) if AGAINST.match(it)]


def strongest_of(said):
    """Each edit with the strongest line against it and what that line shows."""
    return [(it, shown(found)) for it, found in said.items()]


def must_fail_all(rt, crate, edits, flags, words, start=None):
    """For each edit what a try of the crate with it comes to, and what to say, as the toolchain's own trial
    of one edit. `words` has what that trial answers for an edit that is refused and for one that is not, and
    whether an answer ends the matter. The trials begin with what a check of the crate kept, if its folder is
    given."""
    refusal, miss, is_settled = words
    given = {}
    with tempfile.TemporaryDirectory(prefix="rt-together-") as room:
        kept = f"{room}/kept"
        os.mkdir(kept)
        begin(rt, start, kept)
        readable = [it for it in edits if not rt.read_edit(it, crate.folder)[1]]
        said, are_right = first_trial(rt, crate, readable, flags, kept, room)
        for edit in [it for it in readable if it not in said]:
            lines = tried_alone(rt, crate, edit, flags, kept)
            said |= {edit: {None: lines}} if strongest(lines) else {}
        wrongly = {it for it in said if right_bodies(it)} - are_right
        counted = {
            it: line
            for it, (kind, line) in strongest_of(said)
            if it in are_right or kind in COUNTS and it not in wrongly
        }
        names = {it for it, (kind, _) in strongest_of(said) if kind is Kind.NAMES and None not in said[it]}
        doubtful = {it: said[it] for it in names - wrongly - counted.keys()}
        counted |= second_trial(rt, crate, doubtful, flags, kept, room) if doubtful else {}
        for edit in edits:
            label = f"must-fail {crate.name}/{os.path.basename(edit)}"
            if edit in counted:
                is_less = edit not in are_right and shown(said[edit])[0] is Kind.SEARCH
                less = SAYS_LESS if is_less else ""
                given[edit] = refusal, f"{label}: refused, as it must be{less}: {counted[edit][:240]}"
            elif edit in said:
                kind, line = shown(said[edit])
                why = NOT_RIGHT if edit in wrongly else WHY_NOT[kind]
                given[edit] = miss, f"{label}: NOT COUNTED: {why}: {line[:240]}"
            else:
                given[edit] = rt.must_fail(crate, edit, flags, kept)
                if not is_settled(given[edit][0]):
                    given[edit] = rt.must_fail(crate, edit, flags)
    return [given[it] for it in edits]


def own_sum():
    """The sum of what decides here which edits count, so that no verdict outlives another rule."""
    sum = hashlib.sha256()
    for name in "together.py", "meaning.py":
        with open(os.path.join(os.path.dirname(os.path.abspath(__file__)), name), "rb") as it:
            sum.update(it.read())
    return sum.hexdigest()


def add_edits(rt, tasks, crate, edits, first, waits, is_well, kept, start=None, in_ci=True):
    """Adds the task that tries a crate's edits, and returns what gives their results, in the edits' order,
    and what gives those of earlier runs, by the edits' numbers; in place of the toolchain's function of this
    name, which adds a task for each edit."""
    key, alone, begun = (crate.name, "edits"), threading.Lock(), {}

    def known():
        with alone:
            if not begun:
                sum = kept.key(crate) if in_ci else rt.stamp_of(crate, {})
                begun["names"] = [kept.of_edit(it, sum + own_sum()) for it in edits]
                told = {number: kept.tried(name) for number, name in enumerate(begun["names"])}
                begun["known"] = {number: it for number, it in told.items() if it}
        return begun["known"]

    def work(given, jobs):
        if not is_well(given) or not is_well(given, len(edits) - len(known())):
            return None
        left = [number for number in range(len(edits)) if number not in known()]
        chosen = [edits[it] for it in left]
        words = rt.REFUSED, rt.MISSED, rt.SETTLED.__contains__
        found = must_fail_all(rt, crate, chosen, ["--jobs", "1"], words, start)
        tried = dict(zip(left, found))
        read = [crate] if in_ci else [crate, *crate.below()]
        for number, (kind, text) in tried.items():
            if kind in rt.SETTLED and all(kept.is_untouched(it) for it in read):
                kept.keep_tried(begun["names"][number], kind, text)
        return [known().get(number) or tried[number] for number in range(len(edits))]

    if edits:
        tasks[key] = (waits, crate.count(rb"\n"), rt.need(crate), work)
    return lambda given: given[key] if edits else [], known
