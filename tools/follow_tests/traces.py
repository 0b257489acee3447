"""Small traces, each with its ending, for tools/test_follow: what the protocol allows of them was worked out
by hand."""
from rewind_tools import graph_text

LINE = "a(input) --[az]--> z(sink)"
TEXTS = {
    "line": LINE,
    "sums": "words(input) --[words-total] exchange--> total(sum) --[total-out]--> out(sink)",
    "hold": "a(input) --[ah]--> h(hold) --[hz] exchange--> z(sink)",
    "loop": "a(input) --> in(ingress) --exchange--> u(add k=1) --> b(below k=4) --> n(feedback)\n"
    "n --exchange--> u\nb --> o(egress) --> z(sink)",
    "split": "a(input) --> m(mul k=-3) --exchange--> s(split k=0) --exchange--> y(sink)\n"
    "s --port=1--> z(sink)",
    "distinct": "a(input) --> d(distinct) --exchange--> z(sink)",
    "sum": "a(input) --> s(sum) --exchange--> z(sink)",
}
GRAPHS = {name: graph_text.read(text.split("\n")) for name, text in TEXTS.items()}
SUMS = GRAPHS["sums"]
CLOCK = 1790000000250


def feed(p, vertex, values, following, **own):
    return {"do": "feed", "p": p, "vertex": vertex, "values": values, "next": following, **own}


def take(p, edge, time, value, **own):
    return {"do": "take", "p": p, "edge": edge, "time": time, "value": value, **own}


def notice(p, vertex, time, **own):
    return {"do": "notice", "p": p, "vertex": vertex, "time": time, **own}


def release(p, vertex, time, **own):
    return {"do": "release", "p": p, "vertex": vertex, "time": time, **own}


def broadcast(p, **own):
    return {"do": "broadcast", "p": p, **own}


def receive(sender, to, **own):
    return {"do": "receive", "from": sender, "to": to, **own}


def view(q, entries):
    return {"do": "view", "q": q, "is": {"view": entries}}


def passed(q, at, time, is_passed):
    return {"do": "passed", "q": q, "at": at, "time": time, "is": {"passed": is_passed}}


def why(q, at, time, **members):
    return {"do": "why", "q": q, "at": at, "time": time, "is": members}


def changed(lines, at, **members):
    """The lines, some members of one changed."""
    lines = list(lines)
    lines[at] = {**lines[at], **members}
    return lines


# 1 and 3 go to worker 1, 2 to worker 0; each emits its sum.
SUMS_RUN = [
    [feed(0, "words", [1, 2, 3], "close", note="main.rs:12"),
        broadcast(0, number=1, change=[["words", [0], -1], ["words-total", [0], 3]]),
        take(0, "words-total", [0], 2),
        broadcast(0, number=2, change=[["words-total", [0], -1], ["total", [0], 1]]),
        receive(0, 0, number=1), receive(1, 0, number=1), receive(0, 0, number=2),
        receive(1, 0, number=2, change=[["words-total", [0], -2], ["total", [0], 1]]),
        {**why(0, "total", [0], passed=True), "before": True},
        notice(0, "total", [0], note="total is notified"), take(0, "total-out", [0], 2),
        broadcast(0, number=3, change=[["total", [0], -1]]), receive(0, 0, number=3),
        receive(1, 0, number=3), passed(0, "out", [0], True)],
    [feed(1, "words", [], "close"), broadcast(1, number=1), take(1, "words-total", [0], 1),
        take(1, "words-total", [0], 3), broadcast(1, number=2), receive(0, 1, number=1),
        receive(1, 1, number=1), receive(0, 1, number=2), receive(1, 1, number=2),
        passed(1, "words-total", [0], True), notice(1, "total", [0]), take(1, "total-out", [0], 4),
        broadcast(1, number=3), receive(0, 1, number=3), receive(1, 1, number=3), view(1, [])],
]  # fmt: skip
CLOCKS = [
    [feed(0, "a", [], {"to": CLOCK}), feed(0, "a", [7], "next"), take(0, "az", [CLOCK], 7),
        feed(0, "a", [8], {"to": 2**64 - 1}), take(0, "az", [CLOCK + 1], 8), feed(0, "a", [], "close"),
        broadcast(0, change=[["a", [0], -1]]), receive(0, 0), passed(0, "z", [2**64 - 1], True)],
]  # fmt: skip
CLOSED = [feed(0, "a", [], "close"), broadcast(0, number=1)]
# The graph, the traces, and what is left.
FOLLOWED = {
    "sums": ("sums", SUMS_RUN, []),
    "no lines": ("line", [[]], ["processor 0, open inputs: a (0)"]),
    "clocks": ("line", CLOCKS, []),
    "records": ("line", [[feed(0, "a", [5, 5, 6], "next")]],
        ["processor 0, open inputs: a (1); records: 2 records of value 5 at az (0) and 1 record of value 6 "
            "at az (0); not broadcast: a (0): -1, a (1): 1 and az (0): 3"]),
    "a held capability": ("hold",
        [[feed(0, "a", [1], "close"), take(0, "ah", [0], 1), release(0, "h", [0], to=[2])],
            [take(1, "hz", [0], 1)]],
        ["processor 0, capabilities: h (2); not broadcast: a (0): -1, h (2): 1 and hz (0): 1",
            "processor 1, open inputs: a (0); not broadcast: hz (0): -1"]),
    "a requested notification": ("sum", [[feed(0, "a", [4], "close"), take(0, "a-s", [0], 4), broadcast(0)]],
        ["processor 0, requested notifications: s (0); not received: 1 update from processor 0"]),
    "broadcasts of nothing": ("line",
        [[*CLOSED, broadcast(0, number=2), receive(0, 0, number=1), receive(0, 0, number=2),
            broadcast(0, number=3, change=[]), receive(0, 0, number=3, change=[]), receive(1, 0, number=1),
            passed(0, "z", [0], True)],
            [feed(1, "a", [], "close"), broadcast(1, number=1), receive(0, 1, number=1),
                receive(1, 1, number=1), receive(0, 1, number=2), receive(0, 1, number=3)]], []),
    "a receive without a number after a broadcast of nothing": ("line",
        [[broadcast(0, number=1), feed(0, "a", [], "close"), broadcast(0, number=2), receive(0, 0),
            broadcast(0, number=3), receive(0, 0, number=3), passed(0, "z", [0], True)]], []),
    "the entries of a change are added": ("line",
        [[feed(0, "a", [5], "close"), take(0, "az", [0], 5),
            broadcast(0, change=[["a", [0], 1], ["z", [0], 1], ["a", [0], -2], ["z", [0], -1]]),
            receive(0, 0, change=[["a", [0], -1], ["az", [0], 0]])]], []),
    "lists are sets": ("line",
        [[feed(0, "a", [5], "next"), broadcast(0), receive(0, 0), view(0, [["az", [0], 1], ["a", [1], 1]]),
            {"do": "frontier", "q": 0, "is": {"frontier": [["az", [0], 1], ["a", [1], 1]]}},
            {"do": "frontier", "q": 0, "at": "z", "is": {"times": [[0]]}},
            {"do": "passed", "q": 0, "at": "z", "time": [0], "is": {"passed": False, "point": ["az", [0]]}},
            why(0, "z", [1], passed=False, finished=True,
                reasons=[{"point": ["az", [0]], "view": 1}, {"point": ["a", [1]], "view": 1}]),
            why(0, "z", [1], reasons=[{"point": ["az", [0]]}, {"point": ["a", [1]]}]),
            {"do": "view", "q": 0}]],
        ["processor 0, open inputs: a (1); records: 1 record of value 5 at az (0)"]),
    "a loop": ("loop",
        [[feed(0, "a", [2], "close"), take(0, "a-in", [0], 2), take(0, "in-u", [0, 0], 2),
            take(0, "u-b", [0, 0], 3), take(0, "b-n", [0, 0], 3), take(0, "b-o", [0, 0], 3),
            take(0, "o-z", [0], 3)],
            [take(1, "n-u", [0, 1], 3), take(1, "u-b", [0, 1], 4), feed(1, "a", [], "close")]],
        ["processor 0, not broadcast: a (0): -1 and n-u (0,1): 1",
            "processor 1, not broadcast: a (0): -1 and n-u (0,1): -1"]),
    "values choose the worker and the port": ("split",
        [[feed(0, "a", [1, -2], "close"), take(0, "a-m", [0], -2), take(0, "a-m", [0], 1),
            take(0, "m-s", [0], 6), take(0, "s-z", [0], 6)],
            [take(1, "m-s", [0], -3), take(1, "s-y", [0], -3), feed(1, "a", [], "close")]],
        ["processor 0, not broadcast: a (0): -1 and m-s (0): 1",
            "processor 1, not broadcast: a (0): -1 and m-s (0): -1"]),
    "a record that a distinct emits": ("distinct",
        [[take(0, "d-z", [0], 2), feed(0, "a", [], "close")],
            [feed(1, "a", [4, 2], "close"), take(1, "a-d", [0], 4), take(1, "a-d", [0], 2)]],
        ["processor 0, records: 1 record of value 4 at d-z (0); not broadcast: a (0): -1 and d-z (0): -1",
            "processor 1, requested notifications: d (0); not broadcast: a (0): -1, d (0): 1 and d-z (0): "
            "2"]),
    "a record that a notification emits": ("sum",
        [[feed(0, "a", [], "close"), broadcast(0), take(0, "s-z", [0], 4)],
            [feed(1, "a", [1, 3], "close"), take(1, "a-s", [0], 1), take(1, "a-s", [0], 3), broadcast(1),
                receive(0, 1), receive(1, 1), notice(1, "s", [0])]],
        ["processor 0, not broadcast: s-z (0): -1; not received: 1 update from each of processors 0 and 1",
            "processor 1, not broadcast: s (0): -1 and s-z (0): 1"]),
}  # fmt: skip
W0, W1 = SUMS_RUN
# The graph, the traces, how the words begin, and what else is said.
WRONG = {
    "an input is fed after it was closed": ("line",
        [[feed(0, "a", [], "close"), feed(0, "a", [1], "stay", note="bug")]],
        "refused at w0, line 2: processor 0 feeds 1 into a and stays at its epoch\n    note: bug\n",
        ["5 InputClosed: processor 0 has given up its token of a", "executed: 1 step", "w0: 1 of 2 lines"]),
    "a number is missing": ("sums", [W0[:4] + W0[5:], W1],
        "refused at w0, line 6: processor 0 receives the first change on its way from processor 0",
        ['its "number" is 2, and the next to receive from processor 0 is 1: broadcast 1 was lost, or comes '
            'later', "waits at w1, line 14: ",
            "nothing is on its way: processor 0 has made 2 broadcasts, and its trace has 1 more"]),
    "a number is doubled": ("sums", [W0[:5] + W0[4:], W1], "refused at w0, line 6: ",
        ["the next to receive from processor 0 is 2: broadcast 1 was received before"]),
    "numbers are swapped": ("sums", [[*W0[:4], W0[6], W0[5], W0[4], *W0[7:]], W1], "refused at w0, line 5: ",
        ["the next to receive from processor 0 is 1"]),
    "a number of a broadcast that is not there yet": ("line", [[receive(0, 0, number=2), *CLOSED]],
        "refused at w0, line 1: ",
        ["the next to receive from processor 0 is 1: broadcast 1 was lost, or comes later"]),
    "the number of a broadcast": ("line", [changed(CLOSED, 1, number=2)],
        "differs at w0, line 2: processor 0 broadcasts all that is unsent",
        ['its "number" is 2, and this is broadcast 1 of processor 0']),
    "the change of a broadcast": ("sums",
        [changed(W0, 1, change=[["words", [0], -1], ["words-total", [0], 2]]), W1],
        "differs at w0, line 2: ",
        ['"change" differs: the trace has words-total (0): 2; it lacks words-total (0): 3',
            "waits at w1, line 6: "]),
    "the change of a receive": ("line", [[*CLOSED, receive(0, 0, change=[["a", [0], -2]])]],
        "differs at w0, line 3: ",
        ['"change" differs: the trace has a (0): -2; it lacks a (0): -1', "executed: 2 steps"]),
    "a change of nothing": ("line", [[*CLOSED, broadcast(0, number=2, change=[["a", [0], 1]])]],
        "refused at w0, line 3: ", ["15 NothingToSend: nothing of this is unsent; unsent is: nothing"]),
    "a broadcast of nothing without a number": ("line", [[broadcast(0)]], "refused at w0, line 1: ",
        ["15 NothingToSend"]),
    "a change that is received of nothing": ("line",
        [[broadcast(0, number=1), receive(0, 0, number=1, change=[["a", [0], -1]])]],
        "differs at w0, line 2: ", ['"change" differs: the trace has a (0): -1']),
    "a view": ("line", [[view(0, [["a", [0], 2]])]], "differs at w0, line 1: what does processor 0 view?",
        ['"view" differs: the trace has a (0): 2; it lacks a (0): 1']),
    "a frontier": ("line", [[{"do": "frontier", "q": 0, "is": {"frontier": []}}]], "differs at w0, line 1: ",
        ['"frontier" differs: the trace lacks a (0): 1']),
    "the times that can arrive": ("line", [[{"do": "frontier", "q": 0, "at": "z", "is": {"times": [[1]]}}]],
        "differs at w0, line 1: ", ['"times" differs: the trace has (1); it lacks (0)']),
    "a time that is not passed": ("line", [[passed(0, "z", [0], True)]],
        "differs at w0, line 1: has processor 0 passed z (0)?",
        ['"passed" is true in the trace; false by the protocol',
            "it still counts 1 at a (0); held there: the token of processor 0"]),
    "a time that is passed": ("line", [[*CLOSED, receive(0, 0), passed(0, "z", [0], False)]],
        "differs at w0, line 4: ", ['"passed" is false in the trace; true by the protocol']),
    "why, passed": ("line", [[feed(0, "a", [], "close"), why(0, "z", [0], passed=True)]],
        "differs at w0, line 2: ", ["it still counts 1 at a (0); nothing is held there; not heard: an "
            "update of -1 by processor 0, not yet broadcast"]),
    "why, reasons": ("line", [[why(0, "z", [0], passed=False, reasons=[])]], "differs at w0, line 1: ",
        ['"reasons" differs: the trace lacks a (0): 1']),
    "the point of passed": ("line",
        [[{"do": "passed", "q": 0, "at": "z", "time": [0], "is": {"point": ["z", [0]]}}]],
        "differs at w0, line 1: ", ['"point" is ["z",[0]] in the trace; ["a",[0]] by the protocol']),
    "a member that the reply does not have": ("line", [[{"do": "view", "q": 0, "is": {"passed": True}}]],
        "differs at w0, line 1: ", ['"passed" is true in the trace; the reply does not have it']),
    "reasons of another query": ("line",
        [[{"do": "view", "q": 0, "is": {"reasons": [], "times": [[0]], "view": [["a", [0], 1]]}}]],
        "differs at w0, line 1: ",
        ['"reasons" is [] in the trace; the reply does not have it', '"times" is [[0]] in the trace; the']),
    "a record on another worker": ("sums",
        [[feed(0, "words", [1], "close"), take(0, "words-total", [0], 1)], []],
        "refused at w0, line 2: processor 0 takes a record of value 1 from words-total (0)",
        ["8 NoRecord: processor 0 has no record of value 1 at words-total (0); the record is on proc"]),
    "a record at another time": ("line", [[feed(0, "a", [5], "next"), take(0, "az", [1], 5)]],
        "refused at w0, line 2: ",
        ["8 NoRecord: processor 0 has no record of value 5 at az (1); there is one at (0) on processor 0"]),
    "a record that is nowhere": ("line", [[take(0, "az", [0], 5), feed(0, "a", [5], "close")], []],
        "refused at w0, line 1: ",
        ["processor 0 has no record of value 5 at az (0), and no processor has one at any time"]),
    "an empty queue": ("line", [[receive(1, 0)], []], "refused at w0, line 1: ",
        ["17 QueueEmpty: nothing is on its way: processor 1 has made 0 broadcasts, and its trace has no"]),
    "an own queue": ("line", [[receive(0, 0), *CLOSED]], "refused at w0, line 1: ",
        ["17 QueueEmpty: nothing is on its way: processor 0 has made 0 broadcasts, and its trace has 1"]),
    "a part that is not admissible": ("line",
        [[feed(0, "a", [5], "close"), broadcast(0, part=[["a", [0]]])]],
        "refused at w0, line 2: processor 0 broadcasts what is unsent at a (0)",
        ["16 NotAdmissible: az (0) would be left out",
            "strictly before it are these entries of the part: a (0): -1"]),
    "a notification that is too early": ("sums",
        [[feed(0, "words", [2], "close"), take(0, "words-total", [0], 2), notice(0, "total", [0])]],
        "refused at w0, line 3: processor 0 runs the notification of total (0)",
        ["10 NotYet: processor 0's view has words (0) strictly before total (0)",
            "it still counts 1 at words (0); nothing is held there; not heard: an update of -1 by processor "
            "0, not yet broadcast"]),
    "traces that wait for each other": ("line",
        [[receive(1, 0), feed(0, "a", [], "close"), broadcast(0)],
            [receive(0, 1), feed(1, "a", [], "close"), broadcast(1)]],
        "the traces wait for each other: no line of them can be executed next\nrefused at w0, line 1: ",
        ["17 QueueEmpty: nothing is on its way: processor 1 has made 0 broadcasts, and its trace has 1",
            "waits at w1, line 1: "]),
    "a receive that depends": ("line",
        [[receive(1, 0)], [feed(1, "a", [], "close"), feed(1, "a", [], "stay"), broadcast(1)]],
        "refused at w1, line 2: ", ["waits at w0, line 1: ", "w0: 0 of 1 line\n", "w1: 1 of 3 lines\n"]),
    "a take that depends": ("sums",
        [[take(0, "words-total", [0], 2)], [take(1, "words-total", [0], 9), feed(1, "words", [2], "close")]],
        "refused at w1, line 1: ", ["waits at w0, line 1: ", "processor 0 has no such record yet"]),
    "takes that do not depend": ("sums",
        [[take(0, "words-total", [0], 2)],
            [take(1, "words-total", [0], 9), feed(1, "words", [], "next"), feed(1, "words", [2], "close")]],
        "refused at w0, line 1: ", ["refused at w1, line 1: "]),
    "a take from a distinct that depends": ("distinct",
        [[take(0, "d-z", [0], 2)], [take(1, "a-d", [0], 9), take(1, "a-d", [0], 2)]],
        "refused at w1, line 1: ", ["waits at w0, line 1: "]),
    "a take from a distinct that is nowhere": ("distinct",
        [[take(0, "d-z", [0], 2)], [feed(1, "a", [4], "close"), take(1, "a-d", [0], 4)]],
        "refused at w0, line 1: ",
        ["processor 0 has no record of value 2 at d-z (0), and no processor has one at any time"]),
    "a take from a sum that depends": ("sum",
        [[take(0, "s-z", [0], 2)], [take(1, "a-s", [0], 9), notice(1, "s", [0])]], "refused at w1, line 1: ",
        ["waits at w0, line 1: "]),
    "a clock": ("line", [[feed(0, "a", [5], {"to": CLOCK}), take(0, "az", [CLOCK], 5)]],
        f"refused at w0, line 2: processor 0 takes a record of value 5 from az ({CLOCK})",
        [f"no record of value 5 at az ({CLOCK}); there is one at (0) on processor 0"]),
    "a clock that is not passed": ("line",
        [[feed(0, "a", [], {"to": CLOCK}), broadcast(0), receive(0, 0), passed(0, "z", [CLOCK + 50], True)]],
        f"differs at w0, line 4: has processor 0 passed z ({CLOCK + 50})?",
        [f"it still counts 1 at a ({CLOCK}); held there: the token of processor 0"]),
    "a clock that goes back": ("line",
        [[feed(0, "a", [], {"to": CLOCK}), feed(0, "a", [], {"to": CLOCK - 9})]], "refused at w0, line 2: ",
        [f"54 NotLater: epoch {CLOCK - 9} is not above the token's, which is {CLOCK}"]),
    "a capability that is not held": ("hold", [[release(0, "h", [0])]], "refused at w0, line 1: ",
        ["9 NoRequest: processor 0 holds no capability at h (0); at h it holds: nothing"]),
    "a sender that is not there": ("line", [[receive(7, 0)]], "refused at w0, line 1: ",
        ["1 NoProcessor: there is no processor 7; there is processor 0 alone"]),
}  # fmt: skip
# The graph, the traces, how the words begin, and why.
UNREADABLE = {
    "another command": ("line", [[{"do": "back"}]], 'w0, line 1: {"do": "back"}',
        '"back" is not a line of a trace'),
    "another query": ("line", [[{"do": "state"}]], "w0, line 1", '"state" is not a line of a trace'),
    "a word that is none": ("line", [[{"do": "tke"}]], "w0, line 1", "31 BadShape"),
    "a word that is not a text": ("line", [[{"do": ["take"], "p": 0}]], "w0, line 1", "31 BadShape"),
    "another worker": ("line", [[feed(1, "a", [], "close")], []], "w0, line 1",
        '"p" is 1, and this is the trace of worker 0'),
    "a receive into another worker": ("line", [[], [receive(1, 0)]], "w1, line 1",
        '"to" is 0, and this is the trace of worker 1'),
    "a query of another worker": ("line", [[view(1, [])]], "w0, line 1", '"q" is 1'),
    "an unknown name": ("line", [[take(0, "ax", [0], 5)]], "w0, line 1",
        '32 UnknownName: "ax" is not a name in the graph; expected an edge; the nearest is "az"'),
    "a time of another depth": ("line", [[take(0, "az", [CLOCK, 0], 5)]], "w0, line 1",
        f'34 BadTime: the time [{CLOCK},0] has 2 numbers; at "az", which lies in no loop, a time has 1'),
    "no JSON": ("line", [["{", take(0, "az", [0], 5)]], "w0, line 1: {", "30 BadLine: it breaks"),
    "no object": ("line", [["5"]], "w0, line 1: 5", "31 BadShape"),
    "a missing key": ("line", [[{"do": "take", "p": 0}]], "w0, line 1", "31 BadShape"),
    "a key of a query": ("line", [[broadcast(0, **{"is": {}})]], "w0, line 1", '31 BadShape: the key "is"'),
    "a number at a take": ("line", [[take(0, "az", [0], 5, number=1)]], "w0, line 1",
        '31 BadShape: the key "number"'),
    "a value that is not whole": ("line", [['{"do":"take","p":0,"edge":"az","time":[0],"value":-0}']],
        "w0, line 1", "31 BadShape"),
    "an epoch above all": ("line", [[take(0, "az", [2**64], 5)]], "w0, line 1", "31 BadShape"),
    "a number below 0": ("line", [[broadcast(0, number=-1)]], "w0, line 1", '"number" is -1; it must be'),
    "a change that is not a list": ("line", [[broadcast(0, change={})]], "w0, line 1",
        '"change" is {}; it must be a list'),
    "an entry that is none": ("line", [[broadcast(0, change=[["a", [0]]])]], "w0, line 1",
        '"change" has ["a",[0]]; an entry'),
    "a change at no location": ("line", [[broadcast(0, change=[["b", [0], 1]])]], "w0, line 1",
        '"change" names "b", which is not a name in the graph'),
    "a change at no time": ("line", [[receive(0, 0, change=[["a", [0, 0], 1]])]], "w0, line 1",
        '"change" has the time [0,0] at "a", where a time has 1 number'),
    "members that are none": ("line", [[{"do": "view", "q": 0, "is": []}]], "w0, line 1",
        '"is" is []; it must be an object'),
    "a view of no location": ("line", [[view(0, [["b", [0], 1]])]], "w0, line 1", '"view" names "b"'),
    "a frontier at no time": ("line", [[{"do": "frontier", "q": 0, "at": "z", "is": {"times": [[0, 0]]}}]],
        "w0, line 1", '"is" has the time [0,0] at "z"'),
    "a note that is not a text": ("line", [[broadcast(0, note=5)]], "w0, line 1",
        '"note" is 5; it must be a text'),
    "a long line": ("line", [[broadcast(0, note="x" * 65536)]], "w0, line 1",
        "33 LineTooLong: the line has 655"),
    "the first file, then the first line": ("line", [[feed(0, "a", [], "close"), "{", "{"], ["{"]],
        "w0, line 2", "30 BadLine"),
    "before a line that is refused": ("line", [[take(0, "az", [0], 5), *CLOSED, {"do": "redo"}]],
        "w0, line 4", '"redo" is not a line'),
    "a key that is too many, after a line that is refused": ("line",
        [[take(0, "az", [0], 5), broadcast(0, at=1)]], "w0, line 2", '31 BadShape: the key "at"'),
    "a key that is too many, at a receive that is passed over": ("line",
        [[broadcast(0, number=1), receive(0, 0, number=1, at=1)]], "w0, line 2", "31 BadShape"),
    "a blank line counts": ("line", [["", " \t", "{", ""]], "w0, line 3", "30 BadLine"),
}  # fmt: skip
