"""What is said of a run of a timely program: a list of (text, indent, colour) for a page.

    Words(run).of(answer)               the ending, and what it comes from
    Words(run).why(question)            why a worker does not consider a time finished

Workers, operators, ports, times and batches have the names and numbers that they have in the logs."""
from rewind_tools.following.checking import MOST_STEPS
from rewind_tools.following.endings import DIFFERS, FOLLOWED, INCOMPLETE, REFUSED, TOO_LONG
from rewind_tools.telling.commands import FIRM, MOST, at, counted, processors, some_of, time_in
from rewind_tools.telling.forms import listed
from rewind_tools.telling.printing import BOLD, RED
from rewind_tools.timely.answering import CAPABILITY, HANG, MESSAGE, last_batch, numbers_of, silent_first
from rewind_tools.timely.answering import unheard_of


def there(port, time):
    """A port and a time, which a line does not part."""
    return at(port.words.replace(" ", FIRM), numbers_of(time))


def place(log, line):
    return f"{log.path}, line {line}"


def batch_words(batch):
    """A batch by its number, with the place of its line."""
    ns = "" if batch.ns is None else f", ns {batch.ns}"
    return f"batch {batch.seq_no} ({place(batch.log, batch.line)}{ns})"


def since_words(batch):
    return batch_words(batch) if batch else "the start"


def capabilities(it):
    what = "a capability" if it.count == 1 else f"{it.count} capabilities"
    return f"{what} of {there(it.port, it.time)}"


def workers(numbers):
    return processors(numbers).replace("processor", "worker")


def unjoined_words(why):
    """Why batches of different scopes do not fit together."""
    others = some_of(f"{place(it.log, it.line)} (scope {list(it.scope)})" for it in why.others)
    what = f"nothing explains the entry at {there(*why.point)}"
    return f"{what}; the worker's batches in other scopes: {others}"


def verb(count):
    return "is" if count == 1 else "are"


class Words:
    def __init__(self, run):
        self.run, self.planner, self.dataflow = run, run.planner, run.dataflow

    def of(self, answer):
        heads = {
            FOLLOWED: self.followed,
            HANG: self.hang,
            INCOMPLETE: self.incomplete,
            TOO_LONG: self.too_long,
            REFUSED: self.wrongs,
            DIFFERS: self.wrongs,
        }
        return heads[answer.name](answer) + self.how_far()

    def followed(self, answer):
        return [("followed: the protocol allows each batch, and nothing is left", 0, BOLD)]

    def too_long(self, answer):
        full = f"too long: a run can have {counted(MOST_STEPS, 'step')}"
        said = [(f"{full}; up to there the protocol allows each batch", 0, BOLD)]
        head = "by the counts of the logs alone, at their end this is left first:"
        return said + ([(head, 2, ""), *self.reasons(answer.left)] if answer.left else [])

    # -- what holds a sink back

    def hang(self, answer):
        if not answer.questions and not self.planner.untold:
            said = [("hang: no sink waits, but the dataflow does not end", 0, BOLD)]
            return said + self.reasons(answer.left)
        ends = [there(it.sink, it.time) for it in answer.questions]
        head = f"{some_of(ends)} {'does' if len(ends) == 1 else 'do'} not finish" if ends else "messages"
        return [(f"hang: {head}", 0, BOLD), *self.held_back(answer)]

    def held_back(self, answer):
        """What holds the sinks back: first what follows from nothing else; for several sinks together."""
        said = [line for it in self.planner.untold for line in self.untold(it)]
        left = list(answer.questions)
        while left:
            first, *others = left
            same = [there(it.sink, it.time) for it in others if it.reasons == first.reasons]
            left = [it for it in others if it.reasons != first.reasons]
            said += self.question(first)
            if same:
                said.append((f"{some_of(same)} wait{'s' * (len(same) == 1)} for the same", 2, ""))
        return said

    def why(self, it):
        """Why a worker does not consider a time finished at an input, and what it has not received."""
        if it.reasons:
            said = self.question(it, f"worker {it.worker} waits at {there(it.sink, it.time)} for:")
        else:
            said = [(f"worker {it.worker} knows that {there(it.sink, it.time)} is finished", 2, "")]
        unheard = unheard_of(self.run, it.worker)
        if unheard:
            first = f"{batch_words(unheard[0])} of worker {unheard[0].source}"
            more = f", and {len(unheard) - 1} more" if unheard[1:] else ""
            received = f"when it has received all: worker {it.worker} has not received"
            said.append((f"{received} {first}{more}", 2, ""))
        return said

    def question(self, it, head=None):
        """Why a time is not finished at a sink, when all that is under way has arrived."""
        said = [(head or f"{there(it.sink, it.time)} waits for:", 2, "")]
        if it.stop != "rest":
            why = "not all that is under way could arrive, so some of this may merely follow from the rest"
            said.append((why, 4, RED))
        return said + self.reasons(it.reasons)

    def reasons(self, reasons):
        """The reasons, with the workers that hold the same together."""
        rows = {}
        for it in reasons:
            rows.setdefault((it.kind, it.port, it.time, it.count), []).append(it)
        of_kind = {MESSAGE: lambda its: self.message(its[0]), CAPABILITY: self.held}
        return [line for (kind, *_), its in rows.items() for line in of_kind[kind](its)]

    def held(self, its):
        """The capabilities that one worker holds, or several."""
        if len(its) == 1:
            return self.capability(its[0])
        said = [(f"{workers(it.worker for it in its)} hold {capabilities(its[0])}", 4, RED)]
        for it in its[:MOST]:
            last = last_batch(self.run, it.worker)
            since = it.since[0] if it.since else None
            ended = "nothing after that" if last is since else f"its last is {batch_words(last)}"
            said.append((f"worker {it.worker}: since {since_words(since)}; {ended}", 8, ""))
        return said + ([(f"... ({len(its)} in all)", 8, "")] if its[MOST:] else [])

    def capability(self, it):
        """The capabilities that a worker holds, since when, and whether it went on after that."""
        said = [(f"worker {it.worker} holds {capabilities(it)}", 4, RED)]
        last = last_batch(self.run, it.worker)
        since = it.since[0] if it.since else None
        said.append((f"since {since_words(since)}", 8, ""))
        if last is since:
            said.append(("the worker has sent no progress after that", 8, ""))
        else:
            said.append((f"the worker went on: its last is {batch_words(last)}", 8, ""))
        return said

    def message(self, it):
        """Messages that nobody tells as consumed, who made them, and who went silent."""
        what = "a message" if it.count == 1 else f"{it.count} messages"
        where = there(it.port, it.time)
        said = [(f"{what} at {where}, which no batch says {verb(it.count)} consumed", 4, RED)]
        made = [f"worker {batch.source} in {batch_words(batch)}" for batch in it.since]
        said.append((f"made by {'some of ' if made[1:] else ''}{some_of(made)}", 8, ""))
        who = "the worker to which it went has not taken it, or has sent no progress since"
        return said + [(f"{who}; the last batches: {self.lasts(silent_first(self.run))}", 8, "")]

    def lasts(self, workers):
        lasts = ((it, last_batch(self.run, it)) for it in workers)
        return some_of(f"worker {it}: {batch_words(last) if last else 'none'}" for it, last in lasts)

    def untold(self, it):
        """Messages that were consumed and that no batch says were produced."""
        what = "a message" if it.count == 1 else f"{it.count} messages"
        who = f"worker {it.batch.source} consumed {what} at {there(it.target, it.time)}"
        said = [(f"{who}, and no batch says who made {'it' if it.count == 1 else 'them'}", 2, "")]
        said.append((f"consumed in {batch_words(it.batch)}", 8, ""))
        makers = {worker.index for worker in it.workers}
        order = [worker for worker in silent_first(self.run) if worker in makers]
        workers = " or ".join(f"worker {worker}" for worker in order)
        said.append((f"made by {workers}, which has sent no progress since then", 4, RED))
        return said + [(f"the last batches, of who went silent first: {self.lasts(order)}", 8, "")]

    # -- what the logs lack

    def incomplete(self, answer):
        said = [("incomplete: " + "; ".join(self.missing_words(it) for it in answer.missing), 0, BOLD)]
        if answer.questions or self.planner.untold:
            said.append(("as far as the logs go:", 0, ""))
        return said + self.held_back(answer)

    def missing_words(self, it):
        log, parts = self.run.logs[it.worker], []
        if log.path is None:
            parts.append(f"no log of worker {it.worker} is given")
        if it.line:
            parts.append(f"{log.path} is cut off in line {it.line}")
        elif it.rebuilt and log.path:
            parts.append(f"{log.path} is cut off")
        if it.rebuilt:
            known = f"as {it.rebuilt[0].log.path} has {'it' if len(it.rebuilt) == 1 else 'them'}"
            lacks = f"{self.numbers(it.rebuilt)} of worker {it.worker}, which it lacks"
            parts.append(f"{lacks}, followed {known}")
        if it.unheard:
            first = f"{batch_words(it.unheard[0])} of worker {it.unheard[0].source}"
            parts.append(f"worker {it.worker} has not received {first}")
        return "; ".join(parts)

    def numbers(self, batches):
        if len({it.scope for it in batches}) > 1:
            return f"{len(batches)} batches of several scopes"
        first, last = batches[0].seq_no, batches[-1].seq_no
        return f"batch {first}" if first == last else f"the batches {first} to {last}"

    # -- what the protocol does not allow

    def wrongs(self, answer):
        return [line for it in self.run.ending.wrongs or self.run.ending.waits for line in self.wrong(it)]

    def wrong(self, it):
        batch = it.line.batch
        ns = "" if batch.ns is None else f" (ns {batch.ns})"
        if it.line.word == "receive":
            what = f"worker {it.line.worker} receives batch {batch.seq_no} of worker {batch.source}"
        else:
            what = f"batch {batch.seq_no} of worker {batch.source}"
        head = (f"{it.ending} at {place(batch.log, it.line.number)}: {what}{ns}", 0, BOLD)
        if it.line.word in ("broadcast", "receive"):
            return [head, (self.number_or_entries(it, batch), 4, RED)]
        code = f"{it.reply['code']} {it.reply['error']}"
        return [head, (self.unsupported(it, batch), 4, RED), (f"({code}: {it.line.text.decode()})", 4, "")]

    def number_or_entries(self, it, batch):
        """That a batch's number is not the next, or the entries of a batch that are not as they were
        sent."""
        if "number" in it.reply:
            return f"its seq_no is {batch.seq_no}, and {it.line.wanted} is the next of worker {batch.source}"
        apart = self.run.progress.differing.get(batch, {})
        if not apart:
            return f"the program says {it.reply}"
        entries = (f"{there(*point)}: {n:+}" for point, n in apart.items())
        return f"its entries are not those that were sent; it has too much: {some_of(entries)}"

    def unsupported(self, it, batch):
        """The entry that nothing supports."""
        worker, (port, time) = it.line.worker, it.line.entry
        change = self.run.progress.changes[batch]
        n = (change.capabilities if port.is_output else change.messages()).get((port, time), 0)
        entry = f"[{port.operator.node}, {port.number}, {numbers_of(time)}, {n}]"
        if not port.is_output and n < 0:
            what = "consumes what no worker can have made: each has sent its progress since"
        elif not port.is_output:
            source = " or ".join(hop.source.words for hop in self.dataflow.into[port])
            what = f"sends without a capability of {source} at or before {time_in(numbers_of(time))}"
        elif n < 0:
            what = f"gives up {-n} there, and holds {self.planner.workers[worker].had}"
        else:
            what = "has a new one there, and nothing that it holds or has taken leads to it"
        what += self.last_held(worker, port, time, n)
        return f"entry {entry}, {there(port, time)}: worker {worker} {what}"

    def last_held(self, worker, port, time, n):
        """The batch that gave up the last capability that was there."""
        its = self.planner.workers[worker]
        gone = its.gone.get((port, time)) if n < 0 and not its.had else None
        return f"; the last one went in {batch_words(gone)}" if gone else ""

    def how_far(self):
        """How much was followed, and what was not read."""
        merging, run = self.run.follower.merging, self.run
        words = ("broadcast", "receive")
        lines = [it for trace, to in zip(merging.lines, merging.at) for it in trace[:to] if it.word in words]
        batches = sum(it.word == "broadcast" for it in lines)
        steps = counted(run.follower.position, "step")
        logs = [it for it in run.logs if it.path]
        events = f"{counted(len(lines), 'event')} of {counted(len(logs), 'log')}"
        said = [(f"followed: {events}, {batches} of them batches that were sent, as {steps}", 0, "")]
        others, members = sum(it.others for it in logs), sum(it.members for it in logs)
        parts = [counted(n, f"other {it}") for n, it in ((others, "event"), (members, "member")) if n]
        return said + ([(f"not read: {listed(parts)}", 0, "")] if parts else [])
