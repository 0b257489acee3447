"""What tools/test_tell tells of scripts of version 9: the order of a graph's times, what one processor
holds, 64 processors, 4,096 locations, and names with spaces. Scripts as in cases.py, and graphs that are
refused."""
import json

from rewind_tools.testing import LINE, graph_line
from tell_tests.cases import A, V8, Z, do, edge, graph, typed, vertex

V9 = '{"version":9}'
TWICE = "a(input) --[ai]--> i(ingress) --[ij]--> j(ingress) --[jx]--> x(opaque ports=1) --[xe]--> e(egress)"
PRODUCT, ORDERED = graph_line("order=product", TWICE), graph_line("order=lexicographic", TWICE)
ENTERS = typed(
    "feed 0 a 1 close; take 0 ai 0 1; take 0 ij 0,0 1; take 0 jx 0,0,0 1; release 0 x 0,0,0 to 0,1,5"
)
LATER = typed("send 0 x 0,1,5 0 1 at 0,2,0; release 0 x 0,1,5 to 0,2,0; release 0 x 0,1,5 to 0,2,5")
NO_LESS = "the order of times is product, so no number may be less"
HELD = {"held": {"at": "a", "at_least": 1, "p": 1, "time": [0]}}
SPACED = "Arranged: Distinct"


def named(name):
    return json.dumps(graph([vertex(name, "input"), Z], [edge("az", name, "z")]))


def many(count):
    return json.dumps(graph([A, *(vertex(f"z{it}", "sink") for it in range(count - 1))], []))


WIDE_TOLD = {
    "product order": ([], [V9, PRODUCT, *ENTERS, *LATER, *typed("frontier 0 xe")], 0, [
        (2, "order of times: product, each loop counter by itself"),
        (8, f"refused: (0,2,0) is not at or after (0,1,5), the time of the capability; {NO_LESS}"),
        (8, "(56 TooEarly)"),
        (9, f"refused: (0,2,0) is not strictly after (0,1,5); {NO_LESS} (54 NotLater)"),
        (10, "done: the cursor is at 6 of 6 kept steps"),
    ]),
    "lexicographic order": ([], [V9, ORDERED, *ENTERS, *LATER], 0, [
        (2, "order of times: lexicographic, the outer loop's counter first"),
        (8, "done: the cursor is at 6 of 6 kept steps"), (9, "done: the cursor is at 7 of 7 kept steps"),
        (10, "refused: processor 0 holds no capability at x (0,1,5)"),
    ]),
    "no order": ([], [V9, graph_line(TWICE), *ENTERS, *typed("send 0 x 0,1,5 0 1 at 0,1,4")], 0, [
        (8, "refused: (0,1,4) is not at or after (0,1,5), the time of the capability (56 TooEarly)"),
    ], [(2, "order of times")]),
    "an order in version 8": ([], [V8, PRODUCT], 2, [
        (2, 'faulty: the key "order" came with version 9, and the script is of version 8; its first line'
            ' must be {"version":9} (40 Shape)'),
    ]),
    "what one processor holds": (["--processors", "2"], [
        V9, LINE, *typed("feed 0 a close; feed 1 a next; turns held 1 a 0 1 0 2; break held 1 a 0 1"),
        do("break", when={"held": {**HELD["held"], "p": 2}}),
        do("break", when={"held": {"p": 0, "at": "a"}}),
    ], 0, [
        (5, "does it begin or cease to hold that processor 1 has at least 1 of records, requests and tokens "
            "at a (0)?"),
        (5, "at position 0 it holds it ceases to hold at 2"),
        (6, "set a breakpoint: processor 1 has at least"),
        (7, "warning: this breakpoint never triggers: there is no processor 2"),
        (8, 'the key "at_least" of "held" is missing'), (8, 'the key "time" of "held" is missing'),
    ]),
    "what one processor holds, in version 8": ([], [V8, LINE, do("break", when=HELD)], 0, [
        (3, '"when" has the key "held", which came with version 9, and the script is of version 8'),
    ]),
    "64 processors": (["--processors", "64"], [
        V9, LINE, *typed("feed 63 a 5 close; broadcast 63; effect 2; run 9 only 0 63"),
        do("run", limit=1, only=[0] * 64), do("run", limit=1, only=[0] * 65),
    ], 0, [
        (2, "read: 3 locations, 64 processors"), (3, "processor 63 feeds 5"),
        (3, "point | truth | view 0 to 62 63 | unsent 0 to 62 63 a (0) | 63* | 64 64 | . -1*"),
        (4, "changes on their way: 1 from 63 to processors 0 to 63"),
        (5, "the queues from processor 63 to processors 0 to 63 get longer: 0 changes, then 1"),
        (7, "run processor 0 alone"),
        (8, "has 65 items; expected a list of 1 to 64 processors' numbers"),
    ]),
    "64 processors in version 8": (["--processors", "64"], [V8, LINE], 2, [
        (2, 'faulty: a script of version 8 has at most 16 processors; with the first line {"version":9}'
            " there may be 64 (48 BadCount)"),
    ]),
    "17 in a list in version 8": ([], [V8, LINE, do("run", limit=1, only=[0] * 17)], 0, [
        (3, "has 17 items; expected a list of 1 to 16 processors' numbers"),
    ]),
    "4,096 locations": ([], [V9, many(4096)], 0, [(2, "read: 4096 locations, 1 processor")]),
    "4,096 locations in version 8": ([], [V8, many(4096)], 2, [
        (2, "(33 LineTooLong)"), (2, "at most 65536 are allowed"),
    ]),
    "257 locations in version 8": ([], [V8, many(257)], 2, [
        (2, "faulty: there are 257 vertices and edges; the limit is 256; in version 9 at most 4096"),
    ]),
    "a name with a space": ([], [
        V9, named(SPACED), do("feed", p=0, vertex=SPACED, values=[], next="stay"),
    ], 0, [
        (2, f"vertices: {SPACED} (input), z (sink)"),
        (3, f"processor 0 feeds nothing into {SPACED} and stays"),
    ]),
    "a name with a space in version 8": ([], [V8, named(SPACED)], 2, [
        (2, 'has " " in it; expected a text of 1 to 32 bytes, each from ! to ~ (40 Shape)'),
    ]),
    "a long line": ([], [V9, LINE, " " * 65536 + do("back")], 0, [
        (3, f"the line has {65536 + len(do('back'))} bytes; at most 65536 are allowed (33 LineTooLong)"),
    ]),
    "a graph's long line": ([], [V9, " " * 2097152 + LINE], 2, [
        (2, f"the line has {2097152 + len(LINE)} bytes; at most 2097152 are allowed (33 LineTooLong)"),
    ]),
}  # fmt: skip

WIDE_GRAPH_FAULTS = {
    "another order": ({**graph([A], []), "order": "by product"}, 40,
        '"order":"by product" is none of these; expected "lexicographic" or "product"'),
    "an order that is no text": ({**graph([A], []), "order": None}, 40,
        '"order":null is not a number, text'),
    "a longer name": (graph([vertex("n" * 129, "input")], []), 40,
        "has 129 bytes; expected a text of 1 to 128 bytes, each a space or from ! to ~"),
    "a name with a tab": (graph([vertex("a\tb", "input")], []), 40, 'has "\\t" in it'),
    "too many": (graph([A, *(vertex(f"z{n}", "sink") for n in range(4096))], []), 45,
        "there are 4097 vertices and edges; the limit is 4096"),
}  # fmt: skip
