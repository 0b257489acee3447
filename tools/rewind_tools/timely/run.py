"""A run of a timely program, from its logs to its ending.

    run = Run(["log0.jsonl", "log1.jsonl"], on_note)      Misread, if the logs cannot be followed
    run.follow()
    run.ending                    an Ending of following/endings.py, of the steps
    run.close()"""
from rewind_tools.following.ahead import Ahead
from rewind_tools.following.checking import Follower
from rewind_tools.following.endings import ending_of
from rewind_tools.following.epochs import Epochs
from rewind_tools.following.merging import Merging
from rewind_tools.following.places import Places
from rewind_tools.following.program import GraphRefused, Program, Reporter
from rewind_tools.timely import logs
from rewind_tools.timely.batches import Progress
from rewind_tools.timely.dataflow import Dataflow
from rewind_tools.timely.planning import NoOrder, Planner, Unjoined
from rewind_tools.timely.words import Words, unjoined_words


class Run:
    def __init__(self, paths, on_note):
        self.report = Reporter("timely", on_note)
        self.logs = logs.read(paths, self.report)
        self.dataflow = Dataflow(self.logs)
        self.progress = Progress(self.logs, self.dataflow)
        self.planner = Planner(self.dataflow, self.progress, self.report)
        self.ending = self.follower = None
        self.program = self.opened(on_note)
        self.program.progress = lambda _, done, count: self.report("steps executed", done, count)
        self.epochs = Epochs()
        self.epochs.found |= self.progress.epochs
        self.epochs.close()

    def opened(self, on_note):
        graph = self.dataflow.graph()
        try:
            return Program(graph, len(self.logs), on_note)
        except GraphRefused as why:
            words = f"the program refuses the graph: {'; '.join(why.sentences)}"
            raise logs.Unsupported(self.first_path(), None, words) from why

    def first_path(self):
        return next(it.path for it in self.logs if it.path)

    def follow(self):
        """Plans the traces, and executes them while more is planned."""
        try:
            for pieces in self.planner.tries():
                ahead = self.execute(pieces)
        except NoOrder as why:
            batch = why.waiting[0]
            raise logs.Unsupported(batch.log.path, batch.line, str(why)) from why
        except Unjoined as why:
            raise logs.Unsupported(why.batch.log.path, why.batch.line, unjoined_words(why)) from why
        lines = [[it for it in self.planner.traces if it.worker == log.worker] for log in self.logs]
        merging = Merging(lines, Places(self.program.graph, len(lines)))
        self.follower = Follower(self.program, merging, ahead.executed)
        self.follower.follow()
        self.ending = ending_of(self.follower, self.logs)

    def execute(self, pieces):
        """Executes the steps of a try to plan, after those of none before it."""
        if self.planner.traces:
            self.program.again([])
        ahead = Ahead(self.program, self.report)
        ahead.execute(pieces)
        return ahead

    @property
    def marks(self):
        """What was refused, or differs: the worker, and why."""
        wrongs = self.ending.wrongs or self.ending.waits
        for it in wrongs:
            yield it.line.worker, "; ".join(text for text, *_ in Words(self).wrong(it))

    @property
    def known(self):
        """What the names of the script's vertices stand for."""
        return {it.vertex: it.words for it in self.dataflow.ports.values()}

    def place(self, step):
        """The batch of a step: its file, its line, and its number."""
        if step.batch is None:
            log = self.logs[step.worker]
            return {"file": log.path or "no log", "line": log.count, "note": "no batch says so"}
        return {"file": step.batch.log.path, "line": step.batch.line, "note": f"batch {step.batch.seq_no}"}

    def close(self):
        self.program.close()
