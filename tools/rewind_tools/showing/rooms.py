"""Two pictures of the repository itself: the path of a line through the crates, and the crates and who
stands on whom."""
import json
import re

from rewind_tools.layout import Edge, layout
from rewind_tools.showing.svgs import box, curve, line, moved, picture, text

# What comes of a line, and the crates between each and the next one; docs/ARCHITECTURE.md tells the same in
# a block of text.
STAGES = ["bytes", "line", "JSON value", "command", "move", "reply", "text", "bytes"]
CRATES = [
    "rewind_lines",
    "rewind_lines",
    "nd_json rewind_forms",
    "nd_machine",
    "nd_machine",
    "rewind_replies",
    "rewind_lines",
]
CRATES = [it.split() for it in CRATES]
PROGRAM = "rewind_cli"


def crates_of(source):
    """The crates of crates.txt, each with those of them that it stands on."""
    crates = {}
    for it in source.split("\n"):
        if ":" in it and not it.startswith("#"):
            name, below = it.split(":", 1)
            crates[name.split()[0]] = below.split()
    return {name: [it for it in below if it in crates] for name, below in crates.items()}


def reach(crates, name):
    """The crates that one stands on, through others too."""
    return set(crates[name]).union(*(reach(crates, it) for it in crates[name]))


def nearest_below(crates):
    """Of those that a crate stands on those alone that it does not reach through another."""
    reached = {name: reach(crates, name) for name in crates}
    return {
        name: [it for it in below if not any(it in reached[other] for other in below)]
        for name, below in crates.items()
    }


def crates_picture(source):
    """The crates in layers, the lowest at the foot."""
    crates = nearest_below(crates_of(source))
    program = {PROGRAM, *reach(crates, PROGRAM)}
    sizes = {name: (len(name) * 7.8 + 18, 28) for name in crates}
    edges = [Edge(f"{name} {it}", it, name) for name, below in crates.items() for it in below]
    drawn = layout(sizes, edges, gap=14, layer_gap=34, down=True)

    def turned(point):
        return (point[0], drawn.height - point[1])

    parts = [curve([turned(it) for it in reversed(points)]) for points in drawn.paths.values()]
    for name, middle in drawn.nodes.items():
        x, y = turned(middle)
        parts += [
            box(x, y, *sizes[name], "box" if name in program else "box dashed"),
            text(x, y + 4.5, name, "fixed"),
        ]
    words = (
        "The crates: an arrow leads to one that a crate stands on; what it reaches through others has none"
    )
    head = text(20, 28, words, "head start")
    head += text(20, 48, "dashed: for tests and measuring alone, no part of the program", "small soft start")
    title = "The crates, each above those that it stands on."
    return picture(drawn.width + 40, drawn.height + 90, title, [head, moved(20, 70, parts)])


def told_path(page):
    """The path as the page of the architecture has it: what comes of a line, and the crates in their
    order."""
    block = re.search(r"```\n(bytes -> .*)\n(.*)\n```", page)
    stages = [it.split(" (")[0].strip() for it in block[1].split("->")] if block else []
    return stages, re.findall(r"\w+", block[2]) if block else []


def path_fault(page, crates):
    """What is stale in the path that is drawn, or None: it is the page's path, through crates that are
    there."""
    stages, named = told_path(page)
    drawn = [
        it for at, between in enumerate(CRATES) if at == 0 or CRATES[at - 1] != between for it in between
    ]
    if stages != STAGES or named != drawn:
        return (
            "docs/ARCHITECTURE.md tells another path of a line than tools/rewind_tools/showing/rooms.py:"
            f" {stages} {named}"
        )
    gone = [it for between in CRATES for it in between if it not in crates]
    return f"no crate of crates.txt: {gone}" if gone else None


def path_picture(told, number):
    """The path of a line of a script, with that line and its reply."""
    entry = next(it for it in told.entries if it.line.number == number)
    column, wide = 150, 104
    parts = [text(20, 30, "The path of a line through the crates", "head start")]

    def x_of(at):
        return 72 + column * at

    for at, stage in enumerate(STAGES):
        parts += [box(x_of(at), 130, wide, 44), text(x_of(at), 135, stage, "head")]
        if at:
            parts.append(
                line(x_of(at - 1) + wide / 2, 130, x_of(at) - wide / 2 - 1, 130, "line thick", "thick-tip")
            )
            names = CRATES[at - 1]
            middle = (x_of(at - 1) + x_of(at)) / 2
            parts += [
                text(middle, 92 - 16 * (len(names) - 1 - row), it, "fixed small accent")
                for row, it in enumerate(names)
            ]
            parts.append(line(middle, 98, middle, 122, "line dashed"))
    parts.append(
        text(20, 50, "rewind_answers walks it for one line, and rewind_run for all", "small soft start")
    )
    parts += [
        text(20, 200, f"in, line {number}:", "soft start"),
        text(120, 200, entry.line.text.decode(), "fixed start"),
    ]
    parts += [text(20, 224, "out:", "soft start"), text(120, 224, reply_text(told, entry), "fixed start")]
    title = "What comes of a line from its bytes to the bytes of its reply, and the crates between."
    return picture(x_of(len(STAGES) - 1) + 72, 246, title, parts)


def reply_text(told, entry):
    """The reply as it stands in the program's own output."""
    return json.dumps(entry.reply, separators=(",", ":"), sort_keys=True)
