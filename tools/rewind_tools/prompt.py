"""The debugger at a prompt: short commands, answers in words.

Each command is a word of the script (rewind_tools/typed.py), a line as JSON, or a word of which the class
Prompt has a method do_WORD; its documentation is what 'help' says of it."""
import cmd
import difflib
import json
import os
import shlex
import signal

from rewind_tools import completing, finishing, graph_text, opening
from rewind_tools.debugger import MOST_SHOWN, Debugger
from rewind_tools.journal import Stopped
from rewind_tools.ports import operators_of, ports_of
from rewind_tools.script import COMMANDS, FORMS, QUERIES, STEPS
from rewind_tools.session import write_text
from rewind_tools.sources import places_of, remove_others
from rewind_tools.telling.answers import all_candidates
from rewind_tools.telling.commands import command_words, counted, edge_words, order_words, vertex_words
from rewind_tools.tool import words_of
from rewind_tools.typed import NotTyped, condition_help, line_of, usage, words_of_line

LIMIT, MOST_STATES = 1000, 10_000
# How wide the forms in the help are.
WIDTH = 56
# Of each word of the script what it does.
KINDS = {
    "feed": "give values to an input", "take": "consume a record; alone, the first that is enabled",
    "notice": "deliver a notification; alone, the first that is enabled",
    "send": "send values from a capability that an opaque vertex holds",
    "release": "give up a held capability, or move it to a later time; alone, list all that are held",
    "run": f"execute at most N steps, {LIMIT} if not given, of some processors only, or by lot from a seed",
    "broadcast": "send progress updates; alone, the first that is enabled", "jump": "go to position N",
    "receive": "receive the first update of a queue; alone, the first that is enabled",
    "back": "undo N steps, 1 if not given", "redo": "execute N undone steps again, 1 if not given",
    "break": "set a breakpoint; 'breaks' lists them",
    "unbreak": "remove a breakpoint", "state": "the complete state",
    "why": "why a processor does not consider a time finished",
    "turns": "where a condition begins and ceases to hold",
    "reach": f"the fewest steps to a condition, with feeds and releases; of N states, or {MOST_STATES}",
    "search": "the first position at which a condition holds",
    "frontier": "the frontier of a view, or the times that can still arrive",
    "passed": "whether a view has passed a time",
    "changes": "when a view changed", "step": "the step that leads to position N",
    "export": f"the kept steps from step N on, {MOST_SHOWN} at a time; from the first if not given",
    "candidates": "as 'can'", "effect": "as 'changed'", "view": "a processor's view",
    "count": "what is really at a time",
    "before": "whether one point could result in another",
}  # fmt: skip
FORM_OF = {"back": "[N]", "redo": "[N]", "export": "[N]"}


class Prompt(cmd.Cmd, Debugger):
    """A session at a prompt."""

    def __init__(self, session, name="typed", is_raw=False, is_terminal=False):
        cmd.Cmd.__init__(self)
        Debugger.__init__(self, session, name, is_raw, is_terminal)
        self.use_rawinput, self.may_replace, self.way = is_terminal, None, None

    # ---- the line and its answer

    @property
    def prompt(self):
        return f"{self.at}/{self.kept}> " if self.is_terminal else ""

    def onecmd(self, line):
        """Executes one typed line; true if it is the last."""
        self.progress.begin()
        try:
            with self.stop:
                return super().onecmd(line)
        except (NotTyped, Stopped) as fault:
            self.say(f"{fault}")
        except BrokenPipeError:
            raise
        except OSError as fault:
            if fault.filename is None:
                raise
            self.say(words_of(fault))
        return False

    def emptyline(self):
        return False

    def default(self, line):
        """Executes a line of the script, as JSON or as it is typed."""
        if line == "EOF":
            return self.at_end()
        if line.startswith("{"):
            return self.ask_text(line)
        words = words_of_line(line)
        if not words:
            return None
        if words[0] not in FORMS:
            raise self.no_command(words[0])
        if words == ["release"]:
            return self.held()
        if words[0] in STEPS and len(words) == 1 and words[0] not in ("feed", "send"):
            return self.first_of(words[0])
        return self.ask(line_of(words, self.defaults(words[0])))

    def no_command(self, word):
        """The fault that a word is not a command, with one that is like it."""
        like = difflib.get_close_matches(word, [*FORMS, *self.own_words()], 1)
        meant = f" did you mean {like[0]}?" if like else ""
        return NotTyped(f"{word} is not a command;{meant} 'help' lists them")

    def defaults(self, word):
        """What stands for the values of a command that are not typed."""
        limit = MOST_STATES if word == "reach" else LIMIT
        others = {"lo": 0, "hi": self.kept, "limit": limit, "workers": 1, "to": self.at, "id": 0}
        return {} if word in STEPS else others

    def own_words(self):
        """The words that are the prompt's own."""
        return [it[3:] for it in self.get_names() if it.startswith("do_")]

    def completenames(self, text, line, begin, end):
        return self.completedefault(text, line, begin, end)

    def completedefault(self, text, line, begin, end):
        found = completing.completions(self, line[:begin], text)
        return [it if it.endswith("/") else f"{it} " for it in found]

    # ---- lines of the script

    def ask_text(self, text):
        try:
            value = json.loads(text)
        except ValueError as fault:
            raise NotTyped(f"that is not JSON: {fault}") from fault
        return self.ask(value)

    def held(self):
        """Says which capabilities are held, each as the line that releases it."""
        state = self.session.ask({"do": "state"})["state"]
        held = [
            f"release {p} {vertex} {','.join(map(str, time))}"
            for p, it in enumerate(state["processors"])
            for vertex, time in it["requests"]
            if vertex in self.teller.graph.holds
        ]
        for it in held or ["no capability is held"]:
            self.say(it)

    # ---- the prompt's own words

    def do_can(self, rest):
        """can [N]: list the steps that may be executed now and what the others wait for, from number N on"""
        first = self.number("can", rest, 0)
        reply = self.session.ask({"do": "candidates"})
        if self.is_raw:
            return self.say_json(reply)
        head, sentences = all_candidates(self.teller, reply)
        self.say_page("can", range(len(sentences)), first, lambda part: [sentences[it] for it in part])
        return self.say(head)

    def do_do(self, rest):
        """do N: execute step N of the list of 'can'"""
        candidates = self.candidates()
        number = self.number("do", rest)
        if not 0 <= number < len(candidates):
            raise NotTyped(
                f"do needs the number of a step from the list of 'can', 0 to {len(candidates) - 1}"
            )
        return self.ask(candidates[number]["step"])

    def do_next(self, rest):
        """next [N] [only P ...] [seed N]: execute the next N enabled steps, 1 if not given"""
        return self.ask(line_of(["run", *words_of_line(rest)], {"limit": 1}, "next"))

    def do_back(self, rest):
        return self.ask(
            {"do": "jump", "to": max(0, self.at - self.number("back", rest))} if rest else {"do": "back"}
        )

    def do_redo(self, rest):
        to = self.at + self.number("redo", rest) if rest else None
        return self.ask({"do": "redo"} if to is None else {"do": "jump", "to": min(self.kept, to)})

    def do_until(self, rest):
        """until CONDITION: run until a condition holds, at most 1000 steps"""
        line = line_of(["break", *words_of_line(rest)], said="until")
        now = self.session.ask({"do": "turns", "when": line["when"], "lo": self.at, "hi": self.at})
        if now.get("at_lo"):
            return self.say(f"it holds already at position {self.at}")
        made = self.session.ask(line)
        if "id" not in made:
            for sentence in self.answer(line, made):
                self.say(sentence)
            return None
        self.teller.keep(line, made)
        try:
            return self.ask({"do": "run", "limit": LIMIT})
        finally:
            self.session.ask({"do": "unbreak", "id": made["id"]})
            self.teller.breaks.pop(made["id"], None)

    def do_finish(self, rest):
        """finish [passed P LOCATION TIME]: how a time can finish; alone, execute what was said of that"""
        if not rest:
            return self.execute_way()
        when = line_of(["break", *words_of_line(rest)], said="finish")["when"]
        if when.keys() != {"passed"}:
            raise NotTyped(f"finish takes a time that a processor is to pass, as: {self.finish_example()}")
        query, graph = {"do": "why", **when["passed"]}, self.teller.graph
        now = self.session.ask(query)
        if now.get("passed") is not False:
            return self.say("; ".join(self.answer(query, now)))
        way = self.second.try_out(lambda ask: finishing.way_of(ask, graph, query), *self.second.here())
        if self.is_raw:
            return self.say_json(way._asdict())
        first, lines, notes = way.words(graph.holds)
        for it in [first, *(f"  {it}" for it in lines), *notes]:
            self.say(it)
        self.way = (way.lines, self.at, self.journal.changes) if way.last["passed"] else None
        alone = "'finish' alone executes these steps; " if self.way else ""
        return self.say(f"{alone}'reach {rest} feed release' looks for the fewest steps")

    def finish_example(self):
        """What asks of a vertex of this graph how its first time can finish: of a sink, if there is one."""
        vertices = sorted(self.teller.graph.vertices.values(), key=lambda it: it["op"] == "sink")
        if not vertices:
            return "finish passed P LOCATION TIME"
        name, depth = shlex.quote(vertices[-1]["name"]), vertices[-1]["depth"]
        return f"finish passed 0 {name} {','.join('0' * (depth + 1))}"

    def execute_way(self):
        """Executes the lines that 'finish' has said last, if it was about this position."""
        lines, *place = self.way or [None, None, None]
        if place != [self.at, self.journal.changes]:
            raise NotTyped(f"no way to finish is known here; '{self.finish_example()}' looks for one")
        for it in lines:
            before = self.at
            self.ask(it)
            self.way = None
            if self.at == before or self.at < before + it.get("limit", 1):
                return self.say("the steps after this are left out")
        return None

    def do_breaks(self, rest):
        """breaks: list the breakpoints that are set"""
        for number, words in sorted(self.teller.breaks.items()):
            self.say(f"{number:3}  {words}")
        if not self.teller.breaks:
            self.say("no breakpoint is set")

    def do_changed(self, rest):
        """changed [N]: the step that leads to position N, or the last step, and what it changed"""
        position = self.number("changed", rest, self.at)
        if position == 0:
            raise NotTyped("no step leads to position 0")
        return self.tell_change(position)

    def do_where(self, rest):
        """where: the cursor and the kept steps"""
        if self.is_raw:
            return self.say_json({"at": self.at, "kept": self.kept})
        self.say(self.journal.with_place(self.at, f"position {self.at} of {self.kept}"))
        return self.say(self.rounds.at(self.at)) if self.rounds.at(self.at) else None

    def do_graph(self, rest):
        """graph: list the vertices, each with the edges that leave it"""
        if self.is_raw:
            return self.say_json(self.session.graph)
        ports, last = ports_of(operators_of(self.session.graph)), None
        for vertex in self.teller.graph.vertices.values():
            operator, port = ports.get(vertex["name"], (None, None))
            if operator and operator != last:
                self.say(f"{operator}")
            self.say(f"  {port}: {vertex['name']}" if operator else vertex_words(vertex))
            last = operator
            for edge in self.teller.graph.edges.values():
                if edge["from"] == vertex["name"]:
                    self.say(f"    {edge_words(edge)}")
        for it in order_words(self.session.graph):
            self.say(it)
        return None

    def do_export(self, rest):
        first = self.number("export", rest, 1)
        if self.is_raw:
            return self.say_json(self.session.ask({"do": "export"}))
        self.say(f"{counted(self.kept, 'kept step')}, and the cursor is at {self.at}")
        return self.say_page("export", range(1, self.kept + 1), first, self.steps_words)

    def steps_words(self, positions):
        """The steps that lead to positions, in words."""
        replies = self.session.ask_all([{"do": "step", "to": it} for it in positions])
        told = [command_words(it["step"]) for it in replies]
        return [self.journal.with_place(*it) for it in zip(positions, told)]

    def do_undrop(self, rest):
        """undrop: bring back the run that the last new step discarded; again, the one before it"""
        if not self.journal.bring_back():
            raise NotTyped("no kept steps were discarded")
        self.do_where("")

    def do_load(self, rest):
        """load FILE: execute the commands of a script with the same graph"""
        path = self.file("load", rest)
        with open(path, "rb") as it:
            script = self.read_script(path, it.read())
        if script.graph not in (self.session.graph, self.session.names.graph):
            what = "has no graph" if script.graph is None else "has another graph than this session"
            raise NotTyped(f"{path} {what}: nothing is executed; 'tools/repl {path}' opens it")
        gone = self.journal.around(lambda: self.execute(script))
        if gone:
            self.note(f"{counted(gone, 'kept step')} discarded; 'undrop' brings the run back")
        self.do_where("")

    def read_script(self, path, script):
        """A script's graph and lines."""
        try:
            return opening.read(graph_text.with_json(script, any_names=True), places_of(path))
        except graph_text.Wrong as wrong:
            raise NotTyped(f"{path}: {wrong}") from wrong

    def do_save(self, rest):
        """save FILE: write the script of the kept steps"""
        path = self.file("save", rest)
        if os.path.isfile(path) and self.may_replace != path and not self.may_write_over(path):
            return
        self.may_replace = path
        write_text(path, self.journal.script())
        remove_others(path, self.journal.places())
        self.journal.saved()
        words = " ".join(self.session.words)
        self.say(f"saved; './rewind {words}{' ' * bool(words)}< {path}' executes it again")

    def may_write_over(self, path):
        """Asks whether a file that is there may be written over; with nobody to ask, the same line must come
        twice."""
        if self.is_terminal:
            return self.is_yes(f"{path} is there already. Write over it (y/n)? ")
        self.may_replace = path
        raise NotTyped(f"{path} is there already; the same again writes over it")

    def do_raw(self, rest):
        """raw on|off: print replies as JSON, or in words"""
        if rest not in ("on", "off"):
            raise NotTyped("raw takes on or off")
        self.is_raw = rest == "on"

    def do_quit(self, rest):
        """quit: end; Ctrl-D does so too"""
        return not self.journal.is_unsaved or not self.is_terminal or self.may_lose()

    do_exit = do_quit

    def at_end(self):
        """What Ctrl-D does, and the end of a pipe."""
        if self.is_terminal:
            self.say("")
        return self.do_quit("")

    def may_lose(self):
        """Asks whether the steps that no file has may be lost; a second Ctrl-D says yes."""
        self.say(f"{self.journal.unsaved_words()}; 'save FILE' saves them")
        return self.is_yes("End all the same (y/n)? ", True)

    def is_yes(self, question, at_end=False):
        """The answer to a question; Ctrl-C says no, and what Ctrl-D says is given."""
        handler = signal.signal(signal.SIGINT, signal.default_int_handler)
        try:
            return input(question).strip().lower() in ("y", "yes")
        except (EOFError, KeyboardInterrupt) as key:
            self.say("")
            return at_end and isinstance(key, EOFError)
        finally:
            signal.signal(signal.SIGINT, handler)

    def number(self, word, rest, without=1):
        """The number after a word; what stands for it if there is none."""
        words = words_of_line(rest)
        if len(words) > 1 or (words and not (words[0].isascii() and words[0].isdigit())):
            raise NotTyped(f"{word} takes one number from 0 on, or nothing")
        return int(words[0]) if words else without

    def file(self, word, rest):
        words = words_of_line(rest)
        if len(words) != 1:
            raise NotTyped(f"{word} needs the name of a file")
        return words[0]

    # ---- help

    def do_help(self, rest):
        """help [WORD]: list the commands, or show the form of one, or of a 'condition'"""
        words = words_of_line(rest)
        if words == ["condition"]:
            return self.help_condition()
        if words:
            return self.help_of(words[0])
        for title, kind in (("Commands", COMMANDS), ("Queries", QUERIES)):
            self.say(f"{title}:")
            for word in kind:
                self.say(f"  {self.form_of(word)}".ljust(WIDTH) + KINDS[word])
        self.say("The prompt's own:")
        for word in self.own_words():
            if word not in FORMS and word != "exit":
                form, _, meaning = getattr(self, f"do_{word}").__doc__.partition(": ")
                self.say(f"  {form}".ljust(WIDTH) + meaning)
        self.help_condition()
        return self.say(
            "A TIME is its numbers with commas, as 0 or 0,1. A line that begins with { is a script's line; #"
            " begins a comment."
        )

    def help_condition(self):
        for line in condition_help():
            self.say(line)

    def form_of(self, word):
        form = FORM_OF[word] if word in FORM_OF else usage(word, self.defaults(word))
        return f"{word} {form}".rstrip()

    def help_of(self, word):
        own = getattr(self, f"do_{word}", None)
        if word not in FORMS and not own:
            raise self.no_command(word)
        said = f"{self.form_of(word)}: {KINDS[word]}" if word in FORMS else own.__doc__
        self.say(said)
        if "CONDITION" in said:
            self.help_condition()
