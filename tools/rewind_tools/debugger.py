"""A session that a person debugs: its journal, the second program for what takes long, and what is said of
each line's answer."""
import json
import signal
import sys

from rewind_tools import finishing, opening, second
from rewind_tools.journal import Journal, Stopped
from rewind_tools.script import STEPS
from rewind_tools.telling import faults, names
from rewind_tools.telling.answers import Teller
from rewind_tools.telling.commands import command_words, counted, plain
from rewind_tools.telling.effects import effect_words
from rewind_tools.telling.reasons import rest_words
from rewind_tools.telling.table import queues_and_sinks, table
from rewind_tools.tool import Progress
from rewind_tools.typed import NotTyped

# How much of a list is shown at once, how many refused lines of a script, and how many steps of a run.
MOST_SHOWN, MOST_REFUSED, MOST_NAMED = 40, 8, 8


class Stop:
    """Ctrl-C at a terminal while a command is executed: it asks the command to stop, and ends nothing but
    what `act` does."""

    def __init__(self, is_terminal, act):
        self.is_on, self.act, self.is_asked = is_terminal, act, False

    def __enter__(self):
        self.is_asked = False
        if self.is_on:
            self.before = signal.signal(signal.SIGINT, self.ask)

    def ask(self, *_):
        self.is_asked = True
        self.act()

    def __exit__(self, *_):
        if self.is_on:
            signal.signal(signal.SIGINT, self.before)


class Debugger:
    """A session, and what is known of it."""

    def __init__(self, session, name, is_raw=False, is_terminal=False):
        self.session, self.is_raw, self.is_terminal = session, is_raw, is_terminal
        self.progress = Progress(self.show_progress)
        self.journal = Journal(session, name, self.note)
        self.journal.report, self.journal.may_go_on = self.progress.report, lambda: not self.stop.is_asked
        self.second = second.Second(self.journal, self.progress.report)
        self.stop = Stop(is_terminal, self.second.stop)
        self.rounds = finishing.Rounds()
        graph = names.Graph(session.graph, session.version)
        self.teller = Teller(graph, session.started["processors"], False, session.version)

    at, kept = property(lambda it: it.journal.at), property(lambda it: it.journal.kept)

    def say(self, text):
        print(plain(text), flush=True)

    def say_json(self, value):
        self.say(json.dumps(value, separators=(",", ":"), ensure_ascii=False))

    def note(self, text):
        """Says what is not a reply: beside replies as JSON, on standard error."""
        print(text, file=sys.stderr if self.is_raw else sys.stdout, flush=True)

    def show_progress(self, text):
        """Says how far something long is."""
        print(f"{text}; Ctrl-C stops", file=sys.stderr, flush=True)

    def ask(self, value):
        """Asks the program a line, and prints its answer, what it discarded and what a step changed."""
        before = self.at
        reply, gone = self.executed(value)
        if self.is_raw:
            self.say_json(reply)
        else:
            for sentence in [*self.at_rest(value, reply), *self.answer(value, reply)]:
                self.say(sentence)
        self.keep_breaks(value, reply)
        if not self.is_raw and value.get("do") in ("back", "redo", "jump", "run"):
            self.say_place()
        if gone:
            self.note_discarded(gone, before)
        if not self.is_raw and self.at > before and value.get("do") in (*STEPS, "run"):
            self.tell_steps(before)
        if not self.is_raw and "state" in reply:
            self.show_state(reply["state"])

    def say_place(self):
        """Says where the step before the cursor comes from, if a trace has it, and that the run went round a
        loop."""
        said = f"step {self.at} is"
        if (told := self.journal.with_place(self.at, said)) != said:
            self.say(told)
        if self.rounds.at(self.at):
            self.say(self.rounds.at(self.at))

    def at_rest(self, value, reply):
        """What is left at rest of a time that is not finished, in sentences; none if only that was asked."""
        if value.get("do") != "why" or "rest" in value or reply.get("passed") is not False:
            return []
        try:
            left = self.second.at_rest(value)
            words = [rest_words(left, self.teller.graph.holds)] if "stop" in left else []
            return words + self.loop_words(left)
        except Stopped as fault:
            return [f"what is left at rest: {fault}"]

    def loop_words(self, left):
        """Which loop goes round, if a run does not come to rest."""
        if left.get("stop") != "limit":
            return []
        graph = self.teller.graph
        said = self.second.try_out(lambda ask: finishing.goes_round(ask, graph), *self.second.here())
        return [said] if said else []

    def note_discarded(self, gone, before):
        """Says how many kept steps were discarded, and how they come back."""
        steps = f"{counted(gone, 'kept step')} after position {before} {'is' if gone == 1 else 'are'}"
        self.note(f"{steps} discarded; 'undrop' brings the run back")

    def executed(self, value):
        """The reply to a line, and how many kept steps it discarded. What may take long is asked of the
        second program."""
        if isinstance(value, dict) and second.is_long(value):
            return self.second.ask(value, *self.second.here()), 0
        before, is_run = self.at, isinstance(value, dict) and value.get("do") == "run"
        reply, gone = self.journal.run(value) if is_run else self.journal.ask(value)
        if "at" in reply:
            self.rounds.note(self.session.ask, self.teller.graph, value, reply, before)
        return reply, gone

    def keep_breaks(self, value, reply):
        """Keeps what a reply says of the breakpoints."""
        if "error" not in reply:
            self.teller.keep(value, reply)
            if value["do"] == "unbreak":
                self.teller.breaks.pop(value["id"], None)

    def answer(self, value, reply):
        if "line" in reply and "error" in reply:
            text = json.dumps(value).encode()
            return faults.faulty(reply, faults.line_faults(text, reply, self.teller))
        self.teller.at, self.teller.kept = self.at, self.kept
        state = (
            self.session.ask({"do": "state"})["state"] if "error" in reply and value["do"] in STEPS else None
        )
        return self.teller.told(value, reply, state)

    def show_state(self, state):
        for line in [
            *table(state, None, self.teller.graph.order, True),
            *queues_and_sinks(state, None, True),
        ]:
            self.say(line)

    def tell_steps(self, before):
        """Names the steps that led here from a position, and of a single one what it changed."""
        if self.at == before + 1:
            return self.tell_change(self.at)
        last = min(self.at, before + MOST_NAMED)
        steps = self.session.ask_all([{"do": "step", "to": it} for it in range(before + 1, last + 1)])
        for position, reply in enumerate(steps, before + 1):
            self.say(self.journal.with_place(position, f"  {position}. {command_words(reply['step'])}"))
        if last < self.at:
            self.say(f"  ...; 'export {last + 1}' lists the others")
        return None

    def tell_change(self, position):
        """Names the step that leads to a position, and what it changed."""
        reply = self.session.ask({"do": "effect", "to": position})
        if self.is_raw:
            return self.say_json(reply)
        if "changed" not in reply:
            return self.say("; ".join(self.answer({"do": "effect", "to": position}, reply)))
        graph = self.teller.graph
        self.say(self.journal.with_place(position, f"step {position}: {command_words(reply['step'])}"))
        for sentence in effect_words(reply["changed"], graph.holds, graph.distincts):
            self.say(f"  {sentence}")
        return None

    def first_of(self, kind):
        """Executes the first enabled step of a kind."""
        found = [it["step"] for it in self.candidates() if it["step"]["do"] == kind and "refused" not in it]
        if not found:
            kind = "notification" if kind == "notice" else kind
            raise NotTyped(f"no {kind} is enabled; 'can' shows what each step waits for")
        return self.ask(found[0])

    def candidates(self):
        return self.session.ask({"do": "candidates"})["candidates"]

    def say_page(self, word, numbers, first, sentences):
        """Says a part of a list of numbered sentences, and how the rest is listed."""
        shown = range(max(first, numbers.start), numbers.stop)[:MOST_SHOWN]
        for number, sentence in zip(shown, sentences(shown) if shown else []):
            self.say(f"{number:3}  {sentence}")
        if numbers and not shown:
            self.say(f"     the last is {numbers[-1]}")
        elif shown and shown[-1] != numbers[-1]:
            self.say(f"     ...; '{word} {shown[-1] + 1}' lists the next, up to {numbers[-1]}")

    def execute(self, script, is_script=False):
        """Executes the lines of a script without a word of each; says how many, and what was refused."""
        refused, done = [], 0
        entries = opening.executed(self.journal, script.lines, is_script)
        for entry in self.rounds.of_script(self.session.ask, self.teller.graph, entries):
            done += 1
            if "error" in entry.reply:
                refused.append(entry)
            self.keep_breaks(entry.line.value, entry.reply)
        if done < len(script.lines):
            self.note(f"stopped by Ctrl-C after line {script.lines[done - 1].number} of the script")
        for entry in refused[:MOST_REFUSED]:
            self.note(opening.refusal(entry, self.teller))
        if len(refused) > MOST_REFUSED:
            self.note(f"and {len(refused) - MOST_REFUSED} more; tools/tell shows them all")
        left_out = f"; {counted(script.queries, 'query').replace('querys', 'queries')} left out"
        self.note(
            f"{counted(done, 'line')} executed, {len(refused)} of them refused"
            f"{left_out if script.queries else ''}"
        )
        if self.rounds.at(self.at):
            self.note(plain(self.rounds.at(self.at)))
