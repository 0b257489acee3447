"""A state as a table of points by processors: the true count, and each processor's view and unsent
change."""
import itertools

from rewind_tools.telling.commands import counted, processors, time_in

WIDTH = 100
LONG = 12
# From how many processors on neighbours with the same numbers are one column, and from how many queues on
# those from one processor with as many changes are one.
MANY, ALIKE = 9, 5
# How many rows of a loop's rounds are shown before the others are only counted.
ROUNDS = 3
NOTHING = "."


def record_counts(state):
    """The number of records at each point, over all processors."""
    counts = {}
    for it in state["processors"]:
        for place, time, _, number in it["records"]:
            point = place, tuple(time)
            counts[point] = counts.get(point, 0) + number
    return counts


class Points:
    """The points of a state that stand anywhere, each with its true count and what each processor views and
    has unsent."""

    def __init__(self, state, order):
        self.processors = range(len(state["processors"]))
        self.order = order
        self.records = record_counts(state)
        self.truth, self.cells = dict(self.records), {}
        for p, it in enumerate(state["processors"]):
            self.add_truth(it)
            for kind in ("view", "unsent"):
                for place, time, number in it[kind]:
                    self.cells[place, tuple(time), kind, p] = number

    def add_truth(self, processor):
        """Adds a processor's requests and tokens to the true counts."""
        points = [(place, tuple(time)) for place, time in processor["requests"]]
        points += [(place, (epoch,)) for place, epoch in processor["tokens"]]
        for point in points:
            self.truth[point] = self.truth.get(point, 0) + 1

    def all(self):
        """The points, in the order of listing."""
        points = set(self.truth) | {key[:2] for key in self.cells}
        return sorted(points, key=self.place)

    def place(self, point):
        return self.order[point[0]], point[1]

    def numbers(self, point):
        """What stands at a point, by the columns of the table."""
        views = {
            (kind, p): self.cells.get((*point, kind, p), 0)
            for kind in ("view", "unsent")
            for p in self.processors
        }
        return {("truth", None): self.truth.get(point, 0), **views}


def rows_of(now, before):
    """The rows: a point, its numbers, and which of them changed. One that fell to nothing stands there once
    more."""
    points = sorted({*now.all(), *(before.all() if before else [])}, key=now.place)
    rows = []
    for point in points:
        numbers, old = now.numbers(point), before.numbers(point) if before else None
        rows.append((point, numbers, {key for key, it in numbers.items() if old and old[key] != it}))
    return rows


def folded(rows, loops):
    """The rows, each with the line after it: how many more rounds of a loop have the same numbers at the
    same place. 'loops' has the name of the loop of each place that is in one."""
    kept, at = [], 0
    while at < len(rows):
        (place, time), *cells = rows[at]
        same = 1
        while at + same < len(rows) and rows[at + same] == ((place, (*time[:-1], time[-1] + same)), *cells):
            same += 1
        same = same if place in loops else 1
        shown = same if same <= ROUNDS + 1 else ROUNDS
        kept += [(it, None) for it in rows[at : at + shown]]
        if shown < same:
            last = time_in((*time[:-1], time[-1] + same - 1))
            more = f"and {same - shown} more rounds of loop {loops[place]}, to {place} {last}"
            kept[-1] = kept[-1][0], more
        at += same
    return kept


def table(state, before, order, is_whole=False, loops=()):
    """The lines of a state's table: what differs from the state before has a '*', and a long table is cut to
    such rows. 'order' has a number for each place, 'before' is None at the start, and 'is_whole' keeps all
    rows. Many rounds of a loop are folded, if 'loops' has the name of the loop of each place."""
    rows = rows_of(Points(state, order), Points(before, order) if before else None)
    changed = [row for row in rows if row[2]]
    is_cut = before is not None and len(rows) > LONG and not is_whole
    shown = changed if is_cut else rows
    if not shown:
        return ["nothing is anywhere" if not rows else f"all {len(rows)} points as before"]
    lines, kept_rows = [], folded(shown, loops)
    shown = [it for it, _ in kept_rows]
    for groups in blocks(shown, groups_of(shown, len(state["processors"]))):
        head, *others = block(shown, groups)
        lines += [head, *(it for line, (_, more) in zip(others, kept_rows) for it in (line, more) if it)]
    kept = len(rows) - len(changed)
    return lines + ([f"and {counted(kept, 'point')} as before"] if is_cut and kept else [])


def cell(number, is_changed):
    return (str(number) if number else NOTHING) + ("*" if is_changed else " ")


def cells_of(rows, key):
    return [cell(row[1][key], key in row[2]) for row in rows]


def groups_of(rows, count):
    """The processors, each alone, or of many the neighbours together whose columns are the same."""
    if count < MANY:
        return [[p] for p in range(count)]
    columns_of = [(cells_of(rows, ("view", p)), cells_of(rows, ("unsent", p))) for p in range(count)]
    return [list(its) for _, its in itertools.groupby(range(count), key=lambda p: columns_of[p])]


def columns(rows, groups):
    """The groups of columns; of each column its head and its cells."""
    heads = [str(it[0]) if len(it) == 1 else f"{it[0]} to {it[-1]}" for it in groups]
    found = [[("truth", ("truth", None))]]
    for kind in ("view", "unsent"):
        found.append([(head, (kind, its[0])) for head, its in zip(heads, groups)])
        found[-1][0] = (f"{kind} {heads[0]}", found[-1][0][1])
    return [[(head, cells_of(rows, key)) for head, key in group] for group in found]


def block(rows, groups):
    """The table's lines for some of the processors."""
    names = ["point"] + [f"{place} {time_in(time)}" for (place, time), _, _ in rows]
    lines = [[name.ljust(max(map(len, names)))] for name in names]
    for group in columns(rows, groups):
        texts = [[head + " ", *cells] for head, cells in group]
        widths = [max(map(len, it)) for it in texts]
        for at, line in enumerate(lines):
            line.append(" ".join(it[at].rjust(width) for it, width in zip(texts, widths)))
    return [" | ".join(line).rstrip() for line in lines]


def blocks(rows, groups):
    """The groups of processors in as few blocks as the width allows, in their order."""
    left = groups
    while left:
        fitting = next(
            (n for n in range(len(left), 1, -1) if width_of(block(rows, left[:n])) <= WIDTH - 4), 1
        )
        yield left[:fitting]
        left = left[fitting:]


def width_of(lines):
    return max(map(len, lines))


def queues_and_sinks(state, before, is_whole=False):
    """What is on its way, and what the sinks have counted if that differs from before, a sentence each if
    there is any."""
    queues = [it for p, row in enumerate(state["queues"]) for it in queues_from(p, row)]
    now, old = sink_counts(state), sink_counts(before) if before and not is_whole else {}
    changed = {key: now.get(key, 0) for key in [*now, *old] if now.get(key) != old.get(key)}
    sinks = [
        f"{vertex} {value}" + (f" ({number} times)" if number != 1 else "")
        for (vertex, value), number in changed.items()
    ]
    on_way = [f"changes on their way: {', '.join(queues)}"] if queues else []
    return on_way + ([f"sinks have counted: {', '.join(sinks)}"] if sinks else [])


def queues_from(p, row):
    """How many changes are in each queue from a processor that is not empty; of several queues alike at
    once."""
    by_count = {}
    for q, changes in enumerate(row):
        by_count.setdefault(len(changes), []).append(q)
    for count, receivers in by_count.items():
        if count and len(receivers) < ALIKE:
            yield from (f"{count} from {p} to {q}" for q in receivers)
        elif count:
            yield f"{count} from {p} to {processors(receivers)}"


def sink_counts(state):
    """How often the sinks of all processors have counted each value."""
    counts = {}
    for it in state["processors"]:
        for vertex, value, number in it["sinks"]:
            counts[vertex, value] = counts.get((vertex, value), 0) + number
    return counts
