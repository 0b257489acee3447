"""The programs: their graphs, and the values that their inputs get."""
import random

from graph import Edge, Graph, Vertex

# Each worker adds up the values that the exchange sends to it, epoch by epoch.
SUMS = Graph(
    [Vertex("words", "input"), Vertex("total", "sum"), Vertex("out", "sink")],
    [Edge("words", "total", route="exchange"), Edge("total", "out")],
)
# Each value goes round the loop until it is 5 or more. Each round begins at the worker that it belongs to.
ROUNDS = Graph(
    [
        Vertex("numbers", "input"),
        Vertex("enter", "ingress"),
        Vertex("step", "add", 1, k=1),
        Vertex("check", "split", 1, k=5),
        Vertex("again", "feedback", 1),
        Vertex("leave", "egress", 1),
        Vertex("out", "sink"),
    ],
    [
        Edge("numbers", "enter"),
        Edge("enter", "step", route="exchange"),
        Edge("step", "check"),
        Edge("check", "again"),
        Edge("again", "step", route="exchange"),
        Edge("check", "leave", port=1),
        Edge("leave", "out"),
    ],
)
# Each worker adds up its share of the readings, window by window. A window's sums meet on one worker.
WINDOWS = Graph(
    [
        Vertex("readings", "source", ports=1, starts=True),
        Vertex("windows", "window", ports=1),
        Vertex("out", "sink"),
    ],
    [Edge("readings", "windows", route="exchange"), Edge("windows", "out", route="exchange")],
)
PROGRAMS = {
    "sums": (SUMS, range(-9, 100)),
    "rounds": (ROUNDS, range(1, 9)),
    # each with how many epochs it is ahead of its source
    "windows": (WINDOWS, [(value, ahead) for value in range(100) for ahead in (0, 0, 1)]),
}


def feeds(values, seed, worker, epochs, records):
    """What one worker's input gives: each epoch's values, in one piece or in two, with what comes after each
    piece."""
    chosen, made = random.Random(f"{seed} values {worker}"), []
    for epoch in range(epochs):
        piece = chosen.choices(values, k=records)
        cut = chosen.randrange(records) if records else 0
        made += [(piece[:cut], "stay")] if cut else []
        made.append((piece[cut:], "close" if epoch == epochs - 1 else "next"))
    return made
