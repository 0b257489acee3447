"""What tools/test_tell tells of scripts of version 6: opaque vertices, sends, releases that keep, and what a
processor may keep back. Scripts as in cases.py, and graphs that are refused."""
import json

from rewind_tools.testing import LINE, graph_line
from tell_tests.cases import A, S, V4, V5, V6, Z, do, edge, graph, typed, vertex

X = vertex("x", "opaque", ports=2)
TRACED = graph_line("a(input) --[ax]--> x(opaque ports=2) --[xy]--> y(sink)", "x --[xz] port=1--> z(sink)")
SOURCE = graph_line("x(opaque ports=1 starts=true) --[xz] exchange--> z(sink)")
SUM_BESIDE = json.dumps(
    graph([A, X, S, vertex("h", "hold")], [edge("as", "a", "s"), edge("ah", "a", "h"), edge("ax", "a", "x")])
)
FEED, TAKE = typed("feed 0 a 7 close; take 0 ax 0 7")


def send(values, **more):
    return do("send", **{"p": 0, "vertex": "x", "time": [0], "port": 0, "values": values, **more})


def release(**more):
    return do("release", **{"p": 0, "vertex": "x", "time": [0], **more})


OPAQUE_TOLD = {
    "sends and releases": ([], [
        V6, TRACED, FEED, TAKE, *typed("send 0 x 0 0 1 2; send 0 x 0 1 5 at 2; effect 4; send 0 x 0 2; "
            "release 0 x 0 to 1; send 0 x 1 0 1 at 0; send 0 x 0 0 1; run 100; passed 0 y 1; candidates; "
            "notice 0 x 1; why 0 y 1"),
    ], 0, [
        (2, "vertices: a (input), x (opaque, 2 ports), y (sink), z (sink)"),
        (2, "xz from x port 1 to z (local)"), (2, "read: 7 locations, 1 processor"),
        (5, "processor 0 sends 1 and 2 on port 0, from the capability that it holds at x (0)"),
        (5, "done: the cursor is at 3 of 3 kept steps"),
        (6, "processor 0 sends 5 on port 1 at (2), from the capability that it holds at x (0)"),
        (7, "records of value 5 on processor 0 at xz (2): from 0 to 1"),
        (8, "refused: x has the ports 0 and 1, and the send names port 2"),
        (9, "processor 0 moves the capability that it holds at x (0) to (1)"),
        (10, "refused: (0) is not at or after (1), the time of the capability"),
        (11, "refused: processor 0 holds no capability at x (0); at x it holds: x (1)"),
        (12, "ran 5 steps, then stopped: nothing is enabled"),
        (12, "left: processor 0, capability at x (1): x is opaque: it is never notified"),
        (13, "no: its view has x (1) at or before it"),
        (14, "refused: x is opaque: it is never notified, and holds its capability until a"),
        (15, "refused: x is opaque"),
        (16, "it still counts 1 at x (1); held there: the capability of processor 0"),
    ]),
    "what is kept back": ([], [
        V6, TRACED, FEED, TAKE, *typed("broadcast 0; receive 0 0; send 0 x 0 0 1; send 0 x 0 1 1; "
            "broadcast 0 xy 0; release 0 x 0; broadcast 0 x 0; broadcast 0"),
    ], 0, [
        (9, "done: the cursor is at 7 of 7 kept steps"),
        (10, "processor 0 releases the capability that it holds at x (0)"),
        (11, "refused: xz (0) would be left out, and is positive; strictly before it there is neither a "
            "negative entry that is left out, too, nor a token of processor 0, nor a capability that it "
            "holds at an opaque vertex"),
        (12, "done: the cursor is at 9 of 9 kept steps"),
    ]),
    "starts and delays": (["--processors", "2"], [
        V6, SOURCE, *typed("state; send 0 x 0 0 5 dest 0; effect 1; send 0 x 0 0 5 dest 2; "
            "release 0 x 0 to 3 keep; effect 2; release 0 x 0 to 3 keep; release 0 x 0; release 1 x 0; "
            "export; release 1 x 0 to 4; release 0 x 0 to 0 keep; release 0 x 3 to 3 keep"),
        release(time=[3], to=[4], keep=False), do("effect", to=6),
    ], 0, [
        (2, "vertices: x (opaque, 1 port, starts with a capability), z (sink)"),
        (4, "processor 0 sends 5 on port 0 to processor 0, from the capability that it holds at x (0)"),
        (5, "records of value 5 on processor 0 at xz (0): from 0 to 1"),
        (6, "refused: there is no processor 2; there are the processors 0 to 1"),
        (7, "processor 0 keeps the capability that it holds at x (0), and holds a later one at (3)"),
        (8, "processor 0 holds a capability at x (3)"), (9, "the cursor is at 3 of 3 kept steps"),
        (12, "1. processor 0 sends 5 on port 0 to processor 0, from the capability that it holds at x (0)"),
        (12, "2. processor 0 keeps the capability that it holds at x (0), and holds a later one at (3)"),
        (13, "refused: processor 1 holds no capability at x (0); at x it holds: nothing"),
        (14, "refused: processor 0 holds no capability at x (0); at x it holds: x (3)"),
        (15, "refused: (3) is not strictly after (3)"),
        (16, "processor 0 moves the capability that it holds at x (3) to (4)"),
        (17, "processor 0 holds a capability at x (4)"),
        (17, "processor 0 no longer holds a capability at x (3)"),
    ], [(8, "no longer holds")]),
    "capabilities elsewhere": (["--processors", "2"], [
        V6, SUM_BESIDE, *typed("feed 1 a 7 close; run 99; send 0 x 0 0 1; send 0 s 0 0 1; send 0 h 0 0 1; "
            "release 0 s 0; release 1 h 0 to 1 keep"),
        send([0] * 1025, p=1),
    ], 0, [
        (5, "refused: processor 0 holds no capability at x (0); at x it holds: nothing; processor 1 holds "
            "one there"),
        (6, "s is a vertex (sum); vertices that hold capabilities: h and x"),
        (7, "h is a vertex (hold); vertices that send: x"),
        (8, "s is a vertex (sum); vertices that hold capabilities: h and x"),
        (9, "h is a vertex (hold); vertices that keep a capability beside a later one: x"),
        (10, "refused: there are 1025 values; at most 1024 are allowed"),
    ]),
    "words of version 6": ([], [
        V6, TRACED, do("sned", p=0), do("send", p=0, vertex="x", time=[0], values=[1]), send([1], prot=1),
        send([1], port=-1), send([1], dest=None), send([1], at=3), send(["1"]), release(keep=True),
        release(to=[1], keep=1), *typed("send 0 xx 0 0 1; send 0 x 0 0 1 at 0,1"), "send 0 x [0] 1 [5] [2]",
        "delayed", do("why", q=0, at="z", time=[0], keep=True),
    ], 0, [
        (3, '"sned" is not a command or query; the nearest is "send"'),
        (4, 'the key "port" is missing: an integer from 0 to 4294967295'),
        (4, 'expected {"do":"send","p":0,"vertex":"x","time":[0],"port":0,"values":[1]}'),
        (5, 'the key "prot" is too many'), (6, '"port":-1 is below 0'),
        (7, '"dest":null is not a number, text, list or object'), (8, '"at":3 is a number'),
        (9, '"values":["1"] has the item "1" at 0, which is a text'), (10, 'the key "to" is missing'),
        (10, '"to":[0],"keep":true}'), (11, '"keep":1 is a number; expected true or false'),
        (12, '"xx" is not a name in the graph; expected a vertex; the nearest is "x"'),
        (13, 'the time [0,1] has 2 numbers; at "x", which lies in no loop, a time has 1 number'),
        (14, 'expected {"do":"send","p":0,"vertex":"x","time":[0],"port":1,"values":[5],"at":[2]}'),
        (15, '"keep":true} makes a later capability from one that stays'),
        (16, 'the key "keep" is too many'),
    ]),
    "forms of version 6 in version 5": ([], [
        V5, LINE,
        *typed("send 0 a 0 0 1; release 0 a 0 to 1 keep; release 0 a 0 keep"),
    ], 0, [
        (3, '"send" came with version 6, and the script is of version 5; its first line must be '
            '{"version":6}'),
        (4, 'the key "keep" of release came with version 6'),
        (5, 'the key "keep" of release came with version 6'),
    ]),
    "an opaque vertex in version 4": ([], [V4, TRACED], 2, [
        (2, "(40 Shape)"), (2, 'faulty: vertices[1] (x): "op":"opaque" is none of these'),
        (2, 'vertices[1] (x): the op "opaque" came with version 6, and the script is of version 4'),
    ]),
    "a graph of 65 locations in version 5": ([], [
        V5, json.dumps(graph([vertex(f"z{n}", "sink") for n in range(65)], [])),
    ], 2, [
        (2, "(45 TooLarge)"),
        (2, "faulty: there are 65 vertices and edges; the limit is 64; in version 9 at most 4096"),
    ]),
    "a graph of 256 locations": ([], [
        V6, json.dumps(graph([A, *(vertex(f"z{n}", "sink") for n in range(255))], [])),
    ], 0, [(2, "read: 256 locations, 1 processor")]),
    "an opaque vertex without ports": ([], [
        V6, json.dumps(graph([vertex("x", "opaque", ports=0)], [])), do("state"),
    ], 0, [(2, "vertices: x (opaque, 0 ports)")]),
    "clients who send": (["--clients", "2"], [
        V6, SOURCE, send([5], client=0), release(to=[3], keep=True, client=0), send([5], port="a", client=0),
    ], 2, [(5, '"port":"a" is a text; expected an integer from 0 to 4294967295')]),
}  # fmt: skip

OPAQUE_GRAPH_FAULTS = {
    "no ports": (graph([vertex("x", "opaque")], []), 40, 'vertices[0] (x): the key "ports" is missing'),
    "17 ports": (graph([vertex("x", "opaque", ports=17)], []), 40,
        'vertices[0] (x): "ports":17 is above 16; expected an integer from 0 to 16'),
    "a start": (graph([vertex("x", "opaque", ports=1, starts=1)], []), 40,
        '"starts":1 is a number; expected true or false'),
    "a hold that starts": (graph([vertex("h", "hold", starts=True)], []), 40,
        'vertices[0] (h): the key "starts" is too many'),
    "an opaque vertex with a number": (graph([vertex("x", "opaque", ports=1, k=1)], []), 40,
        'vertices[0] (x): the key "k" is too many'),
    "a misspelled op": (graph([vertex("x", "opqaue", ports=1)], []), 40, 'the nearest op is "opaque"'),
    "a third port": (graph([X, Z], [edge("xz", "x", "z", 2)]), 43,
        'the edge "xz" leaves the opaque "x" on port 2, which has the ports 0 and 1'),
    "a fifth port": (graph([vertex("x", "opaque", ports=4), Z], [edge("xz", "x", "z", 4)]), 43,
        'on port 4, which has the ports 0 to 3'),
    "a port of none": (graph([vertex("x", "opaque", ports=0), Z], [edge("xz", "x", "z")]), 43,
        'on port 0, which has no port'),
    "too many": (graph([A, *(vertex(f"z{n}", "sink") for n in range(256))], []), 45,
        "there are 257 vertices and edges; the limit is 256"),
}  # fmt: skip
