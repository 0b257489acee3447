"""The merged run as a script, and where each of its lines stands in the traces or logs.

    write(path, run, said)      writes the script of a followed run, and path.lines

`run` has the program, the follower and the epochs; run.place(line) is where a line comes from, run.known
what the names of the script stand for, and run.marks has what was refused: the worker, and why. `said` is
what was said of the run, as texts with how far they stand in.

path.lines has one JSON object per line: {"epoch":1790000000250,"rank":1} for each epoch, {"name":"total-2",
"is":"total 2"} for each name that stands for another, and then for each line of the script after the graph's
{"script":3,"file":"worker-0.jsonl","line":1}, with its note if it has one. At the end stand what was refused
and the verdict."""
import json

from rewind_tools.session import write_text
from rewind_tools.telling.commands import FIRM


def plain(text):
    return text.replace(FIRM, " ")


def compact(value):
    return json.dumps(value, separators=(",", ":"), ensure_ascii=False)


def write(path, run, said):
    names, executed = run.program.names, run.follower.executed
    opening = [{"version": run.program.version}, names.graph]
    script = [compact(it) for it in opening] + [names.given(it.text).decode() for it in executed]
    write_text(path, "".join(f"{it}\n" for it in script))
    lines = [{"epoch": epoch, "rank": rank} for rank, epoch in enumerate(run.epochs.order)]
    lines += [{"name": name, "is": it} for name, it in run.known.items()]
    for number, it in enumerate(executed, len(opening) + 1):
        lines.append({"script": number, **run.place(it)})
    lines += [{"refused": "end", "worker": worker, "text": plain(text)} for worker, text in run.marks]
    lines.append({"verdict": plain("\n".join(" " * indent + text for text, indent, *_ in said))})
    write_text(f"{path}.lines", "".join(f"{compact(it)}\n" for it in lines))
