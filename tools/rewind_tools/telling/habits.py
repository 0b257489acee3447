"""Words that users of other debuggers type and no script has: what to write in place of each."""
from rewind_tools.script import COMMANDS, FORMS, LAST, QUERIES, words_of


def help_sentences(version, has_clients):
    """The words of a script's version, and where their forms are."""
    commands, queries = (
        ", ".join(it for it in words_of(version) if it in kind) for kind in (COMMANDS, QUERIES)
    )
    known = COMMANDS if has_clients else FORMS
    later = ", ".join(it for it in known if it not in words_of(version))
    there = "several clients have no queries" if has_clients else f"the queries are {queries}"
    adds = [f'version {LAST} adds {later}; its first line is {{"version":{LAST}}}'] if later else []
    shown = 'docs/SCRIPT.md shows the form of each, as {"do":"back"}'
    return [f"the commands of version {version} are {commands}", there, *adds, shown]


HABITS = {
    ("help", "h", "?"): help_sentences,
    ("quit", "q", "exit"):
        "the end of the input ends the run: leave this line out, or type Ctrl-D at a terminal",
    ("continue", "cont", "c"):
        '{"do":"run","limit":1000} executes up to 1,000 steps, until none is enabled or a breakpoint holds',
    ("next", "n", "step", "s"):
        '{"do":"run","limit":1} executes the next step, {"do":"redo"} a kept step again, and {"do":"back"}'
        " undoes one",
    ("undo", "u"): '{"do":"back"} undoes the last step',
    ("downgrade",):
        '{"do":"release","p":0,"vertex":"h","time":[0],"to":[1]} moves a held capability to a later time, in'
        " version 5",
    ("delay", "delayed"):
        '{"do":"release","p":0,"vertex":"x","time":[0],"to":[1],"keep":true} makes a later capability from'
        " one that stays, at an opaque vertex, in version 6",
    ("drop",): '{"do":"release","p":0,"vertex":"h","time":[0]} releases a held capability, in version 5',
    ("advance", "advance_to"):
        '{"do":"feed","p":0,"vertex":"a","values":[],"next":{"to":5}} advances an input to epoch 5, in'
        " version 5",
}  # fmt: skip


def instead(word, version, has_clients):
    """What to write in place of a word of other debuggers, a sentence each; none if the word is not
    known."""
    said = next((it for words, it in HABITS.items() if word.lower() in words), None)
    said = said(version, has_clients) if callable(said) else [said] if said else []
    return [it.replace('{"do"', '{"client":0,"do"') for it in said] if has_clients else said
