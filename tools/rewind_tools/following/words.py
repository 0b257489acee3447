"""How following ended, in words: a list of (text, indent, colour) to be said on a page.

    said = Words(follower, traces, epochs, program).of(ending)

The sentences are those of tools/tell, about times as they stand in the traces. What they say of the state
comes from the program, which is at the end of what could be executed."""
from rewind_tools.following import facts, hang
from rewind_tools.following.behind import behind
from rewind_tools.following.comparing import entries_apart
from rewind_tools.following.endings import DIFFERS, FOLLOWED, INCOMPLETE, TOO_LONG
from rewind_tools.following.traces import own_of
from rewind_tools.telling import names
from rewind_tools.telling.answers import Teller
from rewind_tools.telling.commands import WORDS, at, counted, processors, some_of, time_in
from rewind_tools.telling.printing import BOLD, RED
from rewind_tools.telling.values import shown

WAITS = "waits"
# How many lines that wait are told one by one.
MOST_WAITS = 4


class Words:
    def __init__(self, follower, traces, epochs, program):
        self.follower, self.traces, self.epochs, self.program = follower, traces, epochs, program
        self.merging = follower.merging
        graph = names.Graph(program.graph, program.version)
        self.teller = Teller(graph, len(traces), False, program.version)
        self.state = epochs.told(program.asked({"do": "state"}))["state"]

    def of(self, ending):
        said = []
        if ending.name == FOLLOWED:
            said.append(("followed: the protocol allows each line of the traces", 0, BOLD))
            said += hang.hang_words(self)
        elif ending.name == TOO_LONG:
            full = f"too long: the timeline is full at {counted(self.follower.position, 'step')}"
            said.append((f"{full}; up to there the protocol allows each line", 0, BOLD))
        elif ending.name == INCOMPLETE:
            first = "incomplete: lines of some traces wait for lines that are missing in others"
            said += [(first, 0, BOLD), *map(self.cut_off, ending.cuts)]
        elif not ending.wrongs:
            said.append(("the traces wait for each other: no line of them can be executed next", 0, BOLD))
        for wrong in ending.wrongs:
            said += self.wrong(wrong, wrong.ending)
        for wrong in ending.waits[:MOST_WAITS]:
            is_first = not ending.wrongs and wrong is ending.waits[0] and ending.name != INCOMPLETE
            said += self.wrong(wrong, wrong.ending if is_first else WAITS)
        if ending.waits[MOST_WAITS:]:
            others = processors(it.line.worker for it in ending.waits[MOST_WAITS:])
            said.append((f"{WAITS}: the next lines of {others}", 0, BOLD))
        return said + (self.left_out() if ending.name != INCOMPLETE else []) + self.how_far(ending)

    def wrong(self, wrong, how):
        """A line that was not executed, and why."""
        line, value = wrong.line, self.traces[wrong.line.worker].value(wrong.line.number)
        own = own_of(value)
        first, *note = self.place(f"{how} at ", line)
        said = [(first, 0, BOLD), *((it, 4, "") for it in note)]
        if how == WAITS:
            return said + [(facts.waited_for(self, line, value), 4, "")]
        reply = self.epochs.told(wrong.reply)
        if wrong.ending == DIFFERS:
            sentences = self.differences(wrong, value, own, reply)
        elif "number" in reply:
            sentences = [facts.wrong_number(value, own, reply["number"])]
        else:
            sentences = self.refusal(line, value, reply)
        return said + [(it, 4, "" if at else RED) for at, it in enumerate(sentences)]

    def place(self, how, line):
        """Where a line is, in words, and its note."""
        value = self.traces[line.worker].value(line.number)
        note = own_of(value).get("note")
        said = f"{how}{self.where(line)}: {WORDS[value['do']](value)}"
        return [said] if note is None else [said, f"note: {note}"]

    def where(self, line):
        """Where a line is."""
        return f"{self.traces[line.worker].path}, line {line.number}"

    def refusal(self, line, value, reply):
        """A refusal: its number, its name, what stands in the way, and what else helps."""
        name, said = self.teller.hindrance(value, reply, self.state)
        first, *others = facts.refused(self, line, value, reply) or [said]
        return [f"{name}: {first}" if first else name, *others]

    def differences(self, wrong, value, own, reply):
        """What the trace says and the protocol does not, and the other way round."""
        if "number" in reply:
            return [facts.wrong_number(value, own, reply["number"])]
        if "change" in reply:
            told = [[name, list(time), n] for (name, time), n in wrong.line.own.change.items()]
            said = apart("change", self.epochs.told(told), self.epochs.told(wrong.reply["change"]))
            return said + self.counted(wrong.line)
        said = []
        for key, got in reply.items():
            asked = own["is"][key]
            if key == "reasons" and got is not None:
                asked, got = map(entries_of_reasons, (asked, got))
            said += apart(key, asked, got)
            if key in ("view", "frontier", "times") and isinstance(asked, list) and isinstance(got, list):
                said += behind(self, value, key, *entries_apart(asked, got))
        if reply.get("passed") is False:
            said += self.why(wrong)
        return said

    def counted(self, line):
        """What is left of capabilities that the trace counts otherwise than the protocol."""
        left = ([*self.epochs.told([name, list(time)]), n] for (name, time), n in line.own.counted.items())
        return [f"by its changes so far {counted_capabilities(n)} left at {at(*it)}" for *it, n in left]

    def why(self, wrong):
        """Why a time is not passed."""
        line, trace = wrong.line, self.traces[wrong.line.worker]
        value = trace.value(line.number)
        own_of(value)
        if line.word == "why":
            return facts.reasons(self, value, self.epochs.told(wrong.answer))
        return facts.why(self, line, {"at": value["at"], "time": value["time"]})

    def cut_off(self, cut):
        """How a trace was cut off."""
        why = f"line {cut.number}, its last, is not whole"
        if not cut.number:
            path, line = self.traces[cut.receive.worker].path, cut.receive
            missing = f"broadcast {line.own.number} of processor {cut.worker} is not in it"
            why = f"{missing}, and {path}, line {line.number}, receives that"
        return f"cut off: {self.traces[cut.worker].path}, since {why}", 0, ""

    def left_out(self):
        """The last lines that are left out."""
        return [
            (f"left out: {it.path}, line {it.cut}, the last, which was cut off", 0, "")
            for it in self.traces
            if it.cut
        ]

    def how_far(self, ending):
        """How many steps were executed, and how many lines of each file."""
        steps = counted(self.follower.position, "step")
        counts = [(it.path, at, len(it.lines)) for it, at in zip(self.traces, self.merging.at)]
        if ending.name == FOLLOWED:
            lines = f"{counted(sum(it[1] for it in counts), 'line')} of {counted(len(counts), 'trace')}"
            return [(f"executed: {lines}, {steps}", 0, "")]
        said = [(f"executed: {steps}", 0, "")]
        return said + [(f"{path}: {at} of {counted(count, 'line')}", 4, "") for path, at, count in counts]


def counted_capabilities(n):
    return f"{n} {'capability is' if n == 1 else 'capabilities are'}"


def entries_of_reasons(reasons):
    """The reasons as entries, of which the view is the number."""
    return [[*it["point"], *([it["view"]] if "view" in it else [])] for it in reasons]


def entry_words(it):
    """An entry, a point or a time of a list."""
    if isinstance(it[0], str):
        return at(*it[:2]) + (f": {it[2]}" if len(it) > 2 else "")
    return time_in(it)


def apart(key, asked, got):
    """The members that differ, or of two lists the entries."""
    if key == "point" or not (isinstance(asked, list) and isinstance(got, list)):
        has = "the reply does not have it" if got is None else f"{shown(got)} by the protocol"
        return [f'"{key}" is {shown(asked)} in the trace; {has}']
    ours, its = entries_apart(asked, got)
    parts = [f"has {some_of(map(entry_words, ours))}"] if ours else []
    parts += [f"lacks {some_of(map(entry_words, its))}"] if its else []
    return [f'"{key}" differs: the trace ' + "; it ".join(parts)]
