"""Small traces, each with what holds its sinks back or is missing in it, for tools/test_follow."""
from rewind_tools import graph_text
from follow_tests.traces import (
    CLOCK, GRAPHS, SUMS_RUN, broadcast, feed, passed, receive, release, take,
)  # fmt: skip

SOURCE = graph_text.read(["x(opaque ports=1 starts=true) --exchange--> z(sink)"])
PORTS = graph_text.read(["words[0,1] --exchange--> count[1,2] --exchange--> z[1,0]",
                         "count --port=1 [late] exchange--> z"])
TWO = graph_text.read(["words[0,1] --exchange--> split[1,2] --exchange--> a[1,0]",
                       "split --port=1 exchange--> b[1,0]"])


def frontier(at, times):
    return {"do": "frontier", "q": 0, "at": at, "is": {"times": times}}


def send(p, vertex, time, values, **own):
    return {"do": "send", "p": p, "vertex": vertex, "time": time, "port": 0, "values": values, **own}


def counted(*changes):
    """Broadcasts with changes, and the receives of them."""
    numbered = list(enumerate(changes, 1))
    own = [broadcast(0, number=at, change=it) for at, it in numbered]
    return own + [receive(0, 0, number=at, change=it) for at, it in numbered]


# The graph, the traces, and the lines of the answer that begin with 'hang', each with what stands under it.
HANGS = {
    "an input that is open": (GRAPHS["line"],
        [[feed(0, "a", [5], "next", note="main.rs:9"), take(0, "az", [0], 5), broadcast(0)]],
        ["processor 0 has its input a open at (1); so z (1) is not finished",
            "since w0, line 1: processor 0 feeds 5 into a and goes on to the next epoch", "note: main.rs:9",
            "the last line of processor 0 is w0, line 3"]),
    "no line": (GRAPHS["line"], [[], [feed(1, "a", [], "close")]],
        ["processor 0 has its input a open at (0); so z (0) is not finished", "since the start"]),
    "a capability that is moved": (SOURCE,
        [[release(0, "x", [0], to=[CLOCK]), release(0, "x", [CLOCK], to=[CLOCK + 9], keep=True)]],
        [f"processor 0 holds a capability at x ({CLOCK}); so z ({CLOCK}) is not finished",
            "since w0, line 1: processor 0 moves the capability that it holds at x (0) to" f" ({CLOCK})",
            "the last line of processor 0 is w0, line 2"]),
    "a capability that was held before": (SOURCE,
        [[release(0, "x", [0], to=[2]), release(0, "x", [2], to=[3]),
            release(0, "x", [3], to=[4], keep=True), release(0, "x", [3])]],
        ["processor 0 holds a capability at x (4); so z (4) is not finished", "since w0, line 3: processor "
            "0 keeps the capability that it holds at x (3), and holds a later one at (4)"]),
    "a record that is not taken": (PORTS,
        [[send(0, "words.out0", [0], [7], dest=1), release(0, "words.out0", [0]),
            release(0, "count.out0", [0]), release(0, "count.out1", [0])],
            [release(1, it, [0]) for it in ("words.out0", "count.out0", "count.out1")]],
        ["processor 1 has not taken a record of value 7 at words-count (0); so z.in0 (0) is not finished",
            "since w0, line 1: processor 0 sends 7 on port 0 to processor 1, from the capability that it "
            "holds at words.out0 (0)", "the last line of processor 1 is w1, line 3"]),
    "one of two outputs": (TWO,
        [[release(0, "split.out0", [0]), send(0, "words.out0", [0], [7], at=[2]),
            release(0, "words.out0", [0]), take(0, "words-split", [2], 7),
            {**send(0, "split.in0", [2], [0]), "port": 1}, take(0, "split.0-1", [2], 0),
            release(0, "split.in0", [2]), release(0, "split.out1", [0]), broadcast(0), receive(0, 0),
            frontier("split.in0", []), frontier("a.in0", []), frontier("b.in0", [[2]]),
            passed(0, "split.0-a", [2], True)]],
        ["processor 0 holds a capability at split.out1 (2); so b.in0 (2) is not finished",
            "since w0, line 6: processor 0 takes a record of value 0 from split.0-1 (2)",
            "the last line of processor 0 is w0, line 14"]),
    "an update that is not sent": (GRAPHS["line"], [[feed(0, "a", [], "close")]],
        ["processor 0 does not know that z (0) is finished: it still counts 1 at a (0); nothing is held "
            "there; not heard: an update of -1 by processor 0, not yet broadcast",
            "in truth z (0) is finished: no processor has anything at or before it",
            "the workers can end that by themselves, in 2 steps more"]),
}  # fmt: skip
CUT = '{"do":"broadc'
# The traces on the graph 'sums', and what is said.
INCOMPLETE = {
    "a broadcast is missing": ([SUMS_RUN[0], SUMS_RUN[1][:4]],
        ["cut off: w1, since broadcast 2 of processor 1 is not in it, and w0, line 8, receives that",
            "waits at w0, line 8: processor 0 receives", "w0: 7 of 15 lines"]),
    "the last line is not whole": ([SUMS_RUN[0], [*SUMS_RUN[1][:4], CUT]],
        ["cut off: w1, since line 5, its last, is not whole", "waits at w0, line 8: "]),
    "a record is missing": ([[CUT], [take(1, "words-total", [0], 3)]],
        ["cut off: w0, since line 1", "waits at w1, line 1: processor 1 takes"]),
    "one waits for one that waits": ([[CUT], [receive(0, 1), broadcast(1)], [receive(1, 2)]],
        ["cut off: w0", "waits at w1, line 1: ", "waits at w2, line 1: "]),
}  # fmt: skip
# The traces on the graph 'sums' that are wrong though one is cut off, how the words begin, and what is said.
WRONG_THOUGH_CUT = {
    "a line that needs no other": ([[feed(0, "words", [], "close"), feed(0, "words", [], "stay")], [CUT]],
        "refused at w0, line 2: ", "5 InputClosed"),
    "a line before the cut": ([[take(0, "words-total", [0], 3), CUT]], "refused at w0, line 1: ",
        "8 NoRecord"),
    "two that wait for each other": (
        [[receive(1, 0), broadcast(0)], [receive(0, 1), broadcast(1)], [receive(3, 2)], [CUT]],
        "the traces wait for each other: no line of them can be executed next\nrefused at w0, line 1: ",
        "waits at w2, line 1: "),
    "without a number": ([[receive(1, 0)], []], "refused at w0, line 1: ", "17 QueueEmpty"),
    "a number after the next": ([[receive(1, 0, number=2)], []], "refused at w0, line 1: ",
        "broadcast 1 was lost, or comes later"),
}  # fmt: skip
HELD = [release(0, "x", [0], to=[1], keep=True), release(0, "x", [0])]
# The lines on the graph SOURCE, how the words begin, and what is said.
COUNTED = {
    "two come, one goes, one comes, both go": ([*HELD,
        *counted([["x", [0], -1], ["x", [1], 2]], [["x", [1], -1]], [["x", [1], 1]], [["x", [1], -1]]),
        release(0, "x", [1]), broadcast(0, number=5, change=[["x", [1], -1]]),
        receive(0, 0, number=5, change=[["x", [1], -1]]), passed(0, "z", [9], True)], "followed: ", ""),
    "the first of two is not the last": ([*HELD, *counted([["x", [0], -1], ["x", [1], 2]]),
        release(0, "x", [1]), broadcast(0, number=2, change=[["x", [1], -1]])], "differs at w0, line 6: ",
        "by its changes so far 1 capability is left at x (1)"),
    "more go than came": ([*HELD, *counted([["x", [0], -1], ["x", [1], 1]]), release(0, "x", [1]),
        broadcast(0, number=2, change=[["x", [1], -2]])], "differs at w0, line 6: ",
        "the trace has x (1): -2; it lacks x (1): -1"),
    "nothing is known after a broadcast without a change": ([*HELD, broadcast(0, number=1),
        release(0, "x", [1]), broadcast(0, number=2, change=[["x", [1], -1]])], "followed: ", ""),
}  # fmt: skip


def in_pieces(line, size, **lists):
    """A line with long lists in several lines."""
    for at in range(0, max(map(len, lists.values())), size):
        piece = {key: it[at : at + size] for key, it in lists.items()}
        piece = {"is": piece} if "view" in piece else piece
        yield {**line, **piece} if at == 0 else {"do": "more", "p": 0, **piece}


def large(count):
    """A trace whose one broadcast moves many capabilities, and what it moves."""
    times = [[CLOCK + it] for it in range(count)]
    change = [["x", [0], -1], *(["x", it, 1] for it in times)]
    lines = [release(0, "x", [0], to=it, keep=True) for it in times] + [release(0, "x", [0])]
    points = [it[:2] for it in change]
    lines += in_pieces(broadcast(0, number=1), 1000, part=points, change=change)
    lines += in_pieces(receive(0, 0, number=1), 1000, change=change)
    lines.append(passed(0, "z", [CLOCK - 1], True))
    return [*lines, *in_pieces({"do": "view", "q": 0}, 1000, view=change[1:])]
