"""What tools/test_tell tells: scripts, each with its words, its status, what must be told of which line, and
in some what must not."""
import json

from rewind_tools.testing import LINE, graph_line
from rewind_tools.typed import line_of, words_of_line


def vertex(name, op, depth=0, **more):
    return {"name": name, "op": op, "depth": depth, **more}


def edge(name, start, end, port=0, route="local"):
    return {"name": name, "from": start, "port": port, "to": end, "route": route}


def graph(vertices, edges):
    return {"vertices": vertices, "edges": edges}


def do(word, **members):
    return json.dumps({"do": word, **members})


def typed(text):
    """Lines of a script that are typed as at the prompt."""
    return [json.dumps(line_of(words_of_line(it))) for it in text.split(";")]


def passed(at, q=0):
    return {"passed": {"at": at, "q": q, "time": [0]}}


A, M, S, Z = vertex("a", "input"), vertex("m", "add", k=1), vertex("s", "sum"), vertex("z", "sink")
ADD = graph_line("a(input) --[am]--> m(add k=1) --[mz]--> z(sink)")
SUM = graph_line("a(input) --[as]--> s(sum) --[sz]--> z(sink)")
DISTINCT = graph_line("a(input) --[ad]--> d(distinct) --[dz]--> z(sink)")
EXCHANGE = graph_line("a(input) --[az] exchange--> z(sink)")
HELD = graph_line("a(input) --[ah]--> h(hold) --[hz]--> z(sink)")
# Chains that enter loops, one within another.
DEEP, DEEPER = (
    graph_line(" --> ".join(["a(input)", *(f"i{it}(ingress)" for it in range(depth)), "z(sink)"]))
    for depth in (5, 7)
)
FEED, *MOVES = typed("feed 0 a 5 close; run 3; broadcast 0; run 4; jump 2; redo")
LOOP = [
    graph_line("a(input) --> in(ingress) --> small(below k=20) --> next(feedback) --> small --> out(egress)",
        "out --> z(sink)"), FEED, *MOVES,
]  # fmt: skip
SUMS = [SUM, *typed("feed 0 a 2 3 next; take 0 as 0 2; take 0 as 0 3; run 2")]
TOP = 2**63 - 1
V2, V3, V4, V5, V6, V7, V8 = (json.dumps({"version": it}, separators=(",", ":")) for it in range(2, 9))
CLIENTS = [LINE, FEED.replace("{", '{"client":0,'), '{"client":0,"do":"back"}']

TOLD = {
    # the commands and their answers
    "steps": ([], [
        SUM, *typed("feed 0 a 2 3 next; take 0 as 0 2; broadcast 0; receive 0 0; notice 0 s 0; "
            "take 0 as 0 3; broadcast 0 as 0; receive 0 0; notice 0 s 0; back; redo; jump 2; feed 0 a stay; "
            "feed 0 a close"),
    ], 0, [
        (1, "vertices: a (input), s (sum), z (sink)"),
        (1, "edges: as from a to s (local), sz from s to z (local)"), (1, "5 locations, 1 processor"),
        (2, "processor 0 feeds 2 and 3 into a and goes on to the next epoch"),
        (2, "the cursor is at 1 of 1 kept step"), (3, "processor 0 takes a record of value 2 from as (0)"),
        (4, "processor 0 broadcasts all that is unsent"), (4, "changes on their way: 1 from 0 to 0"),
        (5, "processor 0 receives the first change on its way from processor 0"),
        (6, "processor 0 runs the notification of s (0)"),
        (6, "refused: processor 0's view has as (0) strictly before s (0)"),
        (8, "processor 0 broadcasts what is unsent at as (0)"), (10, "the cursor is at 8 of 8 kept steps"),
        (11, "undo the last step"), (11, "the cursor is at 7 of 8 kept steps"),
        (12, "execute the kept step after the cursor again"), (13, "jump to position 2"),
        (13, "the cursor is at 2 of 8 kept steps"), (14, "feeds nothing into a and stays at its epoch"),
        (14, "the cursor is at 3 of 3 kept steps"), (15, "and gives up its token"),
    ]),
    "queries": ([], [
        LINE, FEED, *typed("count az 0; before a 0 z 0; before z 0 a 0; view 0; frontier 0; passed 0 z 0; "
            "state; run 9; passed 0 z 0; view 0; search sink z 5 1 0 4 2; search queue 0 0 2 0 4 1"),
    ], 0, [
        (3, "how many records, requests and tokens are at az (0)?"), (3, " 1"),
        (4, "could something at a (0) result in something at z (0)? yes"),
        (5, "at z (0) result in something at a (0)? no"), (6, "what does processor 0 view? a (0): 1"),
        (7, "what is the frontier of processor 0's view? a (0): 1"),
        (8, "has processor 0 passed z (0)? no: its view has a (0) at or before it"),
        (9, "az (0) | 1 | . | 1"), (10, "sinks have counted: z 5"), (11, "passed z (0)? yes"),
        (12, "view? nothing"),
        (13, "at which of the positions 0 to 4 first: z has counted the value 5 at least 1 time? (2 "
            "threads) at position 2"),
        (14, "at least 2 of changes on their way from processor 0 to 0? (1 thread) at none"),
    ]),
    "breakpoints": ([], [
        LINE, *typed("break passed 0 z 0; break count az 0 1"), FEED,
        *typed("run 9; unbreak 1; unbreak 1; run 9; run 0"),
    ], 0, [
        (2, "set a breakpoint: processor 0 has passed z (0)"), (2, "it is breakpoint 0"),
        (3, "at least 1 of records, requests and tokens at az (0)"), (3, "it is breakpoint 1"),
        (5, "run, at most 9 steps"), (6, "remove breakpoint 1"),
        (6, "records, requests and tokens at az (0)"),
        (5, "ran 3 steps, then stopped: breakpoint 0 holds: processor 0 has passed z (0)"),
        (7, "refused: there is no breakpoint 1; set: 0"), (8, "nothing is enabled"),
        (9, "ran 0 steps, then stopped: that is the limit"),
    ]),
    "breakpoints that never trigger": (["--processors", "2"], [
        LINE, *typed("break passed 2 z 0; break queue 5 4 0; break queue 1 0 9; break count a 0 9; "
            "search queue 0 7 0 0 0 1; feed 0 a close; feed 1 a close; run 99; search passed 2 z 0 0 0 0"),
    ], 0, [
        (2, "done: it is breakpoint 0 warning: this breakpoint never triggers: there is no processor 2; "
            "there are the processors 0 to 1"),
        (3, "it is breakpoint 1 warning: this breakpoint never triggers: there is no processor 4 or 5; "
            "there are the processors 0 to 1"),
        (6, "at none warning: this holds at no position: there is no processor 7"),
        (9, "nothing is enabled"), (10, "51 NoWorkers"),
    ], [(4, "warning"), (5, "warning"), (9, "warning"), (10, "warning")]),
    "a client's breakpoint": (["--clients", "2"], [
        *CLIENTS, json.dumps({"client": 1, "do": "break", "when": passed("z", q=1)}),
    ], 0, [
        (4, "warning: this breakpoint never triggers: there is no processor 1; there is processor 0 alone"),
    ]),
    # refusals
    "refusals": (["--processors", "3"], [
        EXCHANGE, *typed("feed 3 a next; feed 0 z next"), FEED, FEED, *typed("take 0 az 0 5; take 2 az 0 6; "
            "notice 0 z 0; broadcast 1; broadcast 0 a 0; receive 1 0; redo; jump 7; jump 1; back; back; "
            "search queue 0 0 1 2 1 1; search queue 0 0 1 0 1 0; search queue 0 0 1 0 5 1; view 9"),
    ], 0, [
        (2, "refused: there is no processor 3; there are the processors 0 to 2"),
        (3, "refused: z is a vertex (sink); inputs: a"),
        (5, "refused: processor 0 has given up its token of a"),
        (6, "refused: processor 0 has no record of value 5 at az (0)"), (6, "; processor 2 has one"),
        (7, "on az it has a record of value 5 at az (0)"),
        (8, "refused: z on processor 0 has not asked for a notification at (0)"), (9, "15 NothingToSend"),
        (10, "refused: az (0)"),
        (11, "refused: nothing is on its way from processor 1 to 0, nor from others"), (12, "21 AtEnd"),
        (13, "refused: position 7 is past the last kept step; the kept positions are 0 to 1"),
        (16, "20 AtStart"), (17, "50 BadRange"), (18, "51 NoWorkers"),
        (19, "refused: position 5 is past the last kept step; the kept positions are 0 to 1"),
        (20, "there is no processor 9"),
    ]),
    "sinks": ([], [
        LINE, *typed("feed 0 a 5 5 6 close; take 0 az 0 6; take 0 az 0 5; take 0 az 0 5; back; state"),
    ], 0, [
        (3, "sinks have counted: z 6"), (4, "sinks have counted: z 5"),
        (5, "sinks have counted: z 5 (2 times)"), (6, "sinks have counted: z 5"),
        (7, "sinks have counted: z 5, z 6"),
    ]),
    "nothing kept": ([], [LINE, do("jump", to=1)], 0, [
        (2, "no step is kept, so position 0 is the only one"),
    ]),
    # what no step can move
    "idle on a value": ([], [ADD, *typed("feed 0 a 9223372036854775807 5 close; run 99")], 0, [
        (3, "nothing is enabled"), (3, f"left: processor 0, record of value {TOP} at am (0): m " "(add 1)"),
        (3, "(12 ValueRange)"), (3, "counted: z 6"),
    ]),
    "idle on a notice": ([], [SUM, *typed("feed 0 a 2 stay; run 99")], 0, [
        (3, "left: processor 0, notification of s (0): processor 0's view has a (0) strictly before s (0) "
            "(10 NotYet)"),
    ]),
    "idle with nothing": ([], [LINE, FEED, *typed("run 99")], 0, [
        (3, "left: no record, request, unsent entry or change"),
    ]),
    # faulty lines
    "words": ([], [
        LINE, '{"do":"veiw","q":0}', '{"do":"Back"}', '{"Do":"back"}', '{"do":7}', '{"q":0}', "7",
        '{"do":"xyzzy"}',
    ], 0, [
        (2, "(31 BadShape)"), (2, 'faulty: "veiw" is not a command or query; the nearest is "view"'),
        (3, 'the nearest is "back"'), (4, 'the key "Do" should be "do"'), (5, '"do":7 is a number'),
        (6, 'the key "do" is missing'), (6, 'the nearest form is {"do":"view","q":0}'),
        (7, "7 is a number; a line is an object"), (8, "the words are feed, take,"),
    ]),
    "keys": ([], [
        LINE, do("feed", p=0, vertex="a", values=[5]), do("back", at=0),
        do("take", p=0, edge="az", tiem=[0], value=5), do("frontier", p=0),
        do("break", when={"passed": {"at": "z", "q": 0}}), do("break", when={"pased": {}}), do("broadcast"),
    ], 0, [
        (2, 'the key "next" is missing: "next", "close" or "stay"'),
        (2, 'expected {"do":"feed","p":0,"vertex":"a"'), (3, 'the key "at" is too many'),
        (4, 'the key "tiem" should be "time"'), (5, 'the key "p" should be "q"'),
        (6, 'the key "time" of "passed" is missing'), (7, 'the nearest is "passed"'),
        (8, 'the key "p" is missing'), (8, 'expected {"do":"broadcast","p":0}'),
    ]),
    "values that are kept": ([], [
        LINE, do("feed", p=3, vertex="b", values=[7, -8]), do("take", p=2, edge="az", tiem=[4], value=9),
        do("frontier", p=6), do("passed", q="1", time=[2]), do("broadcast", part=[["az", [1]]]),
        do("search", when={"sink": {"value": 6}}, lo=2),
        do("break", when={"queue": {"from": 1, "too": 2, "at_least": -1}}, id=1),
        do("search", when={"sink": 5}, lo=1, hi=2), '{"q":3}', do("feed", p=0, vertex="a", values=[10] * 40),
    ], 0, [
        (2, 'expected {"do":"feed","p":3,"vertex":"b","values":[7,-8],"next":"next"}'),
        (3, 'expected {"do":"take","p":2,"edge":"az","time":[4],"value":9}'),
        (4, 'expected {"do":"frontier","q":6}'), (5, 'expected {"do":"passed","q":0,"at":"a","time":[2]}'),
        (6, 'expected {"do":"broadcast","p":0,"part":[["az",[1]]]}'),
        (7, 'expected {"do":"search","when":{"sink":{"at_least":0,"value":6,"vertex":"a"}},"lo":2,"hi":0,'
            '"workers":1}'),
        (7, 'expected "when":{"sink":{"at_least":0,"value":6,"vertex":"a"}}'),
        (8, 'expected {"do":"break","when":{"queue":{"at_least":0,"from":1,"to":2}}}'),
        (9, 'expected {"do":"search","when":{"sink":{"at_least":0,"value":5,"vertex":"a"}},"lo":1,"hi":2,'
            '"workers":1}'),
        (10, 'the nearest form is {"do":"view","q":3}'),
        (11, '"values":[10,10,10,10,10,10,10,10,10,10,10,10,...,"next":"next"}'),
    ]),
    "values that are kept, with clients": (["--clients", "2"], [
        *CLIENTS, '{"client":1,"do":"jump","too":5}',
    ], 2, [(4, 'expected {"client":1,"do":"jump","to":5}')]),
    # words of other debuggers, and words without JSON
    "words of other debuggers": ([], [
        LINE, *map(do, ("help", "quit", "Continue", "next", "step", "undo")), '"help"', '"run"',
    ], 0, [
        (2, '"help" is not a command or query; the commands of version 1 are feed, take, notice, broadcast, '
            'receive, back, redo, jump, run,'),
        (2, "the queries are state, count, before, view, frontier, passed, search version 9 adds send, "
            "release, export, why, changes, step, candidates, effect, turns, reach"),
        (3, '"quit" is not a command or query; the end of the input ends the run'),
        (4, '{"do":"run","limit":1000} executes up to 1,000'),
        (5, '{"do":"run","limit":1} executes the next step, {"do":"redo"} a kept step again'),
        (6, '"step" came with version 3'), (6, '{"do":"run","limit":1} executes the next step'),
        (7, '{"do":"back"} undoes the last step'), (8, '"help" is a text; a line'),
        (8, "the commands of version 1 are"),
        (9, '"run" is a text; a line is an object that says what to do, as {"do":"run","limit":1000}'),
    ]),
    "the same of version 3": ([], [
        V3, LINE, do("help"), do("step"), do("step", at=7), "step 4", "why 1 z [2]", "c",
    ], 0, [
        (3, "frontier, passed, search, export, why, changes, step version 9 adds send, release, candidates, "
            "effect, turns, reach; its first line is"),
        (3, "docs/SCRIPT.md shows the form of each"), (4, 'expected {"do":"step","to":0}'),
        (4, '{"do":"run","limit":1} executes the next step'), (5, 'expected {"do":"step","to":7}'),
        (6, 'expected {"do":"step","to":4}'), (7, 'expected {"do":"why","q":1,"at":"z","time":[2]}'),
        (8, '"c" is not a command or query; {"do":"run","limit":1000} executes'),
    ]),
    "words without JSON": ([], [
        LINE, "back", "help", "quit", "continue", "run 10", " Feed 1 a [7] close", "veiw 0", "jmp", "xyzzy",
        "why",
    ], 0, [
        (2, "(30 BadLine)"), (2, 'faulty: the line is not JSON; expected {"do":"back"}'),
        (3, 'the line is not JSON, and "help" is not a command'), (3, "the commands of version 1 are feed,"),
        (4, "the end of the input ends the run"), (5, '{"do":"run","limit":1000} executes'),
        (6, 'expected {"do":"run","limit":10}'),
        (7, 'expected {"do":"feed","p":1,"vertex":"a","values":[7],"next":"close"}'),
        (8, 'the nearest is "view" (30 BadLine) a line is an object that says what to do, as '
            '{"do":"view","q":0}'),
        (9, 'as {"do":"jump","to":0}'), (10, "the words are feed, take,"), (10, 'as {"do":"back"}'),
        (11, '"why" came with version 3'),
    ]),
    "clients' words": (["--clients", "2"], [*CLIENTS, "back"], 2, [
        (4, 'the line is not JSON; expected {"client":0,"do":"back"}'),
    ]),
    "clients' help": (["--clients", "2"], [*CLIENTS, '{"client":1,"do":"help"}'], 2, [
        (4, "run, break, unbreak (31 BadShape) several clients have no queries version 9 adds send, "
            "release; its first line is"),
        (4, 'as {"client":0,"do":"back"}'),
    ]),
    "kinds": ([], [
        LINE, do("view", q="0"), '{"do":"view","q":1.0}', *typed("view -1; view 4294967296"),
        do("view", q=None), do("take", p=0, edge="az", time=0, value=5),
        do("take", p=0, edge="az", time=[], value=5),
        *typed("jump -1; feed 0 a 9223372036854775808 next; feed 0 a 5 Next"),
        do("broadcast", p=0, part=["a", [0]]), do("run", limit="9"),
    ], 0, [
        (2, '"q":"0" is a text; expected an integer from 0 to 4294967295'),
        (3, '"q":1.0 is not written as an integer'), (4, '"q":-1 is below 0'),
        (5, '"q":4294967296 is above 4294967295'), (6, '"q":null is not a number'),
        (7, '"time":0 is a number; expected a list of the epoch and the loop counters'),
        (8, '"time":[] is empty'),
        (9, '"to":-1 is below 0; expected an integer from 0 to 18446744073709551615'),
        (10, f"is above {TOP}"), (11, 'expected "next", "close" or "stay"'),
        (12, "expected a list of locations and times"), (13, '"limit":"9" is a text'),
    ]),
    "names": ([], [
        LOOP[0], *typed("take 0 in-smal 0,0 1; notice 0 a-in 0; count qqq 0; before a 0 ou 0,0; "
            "break sink out-z 5 1"),
    ], 0, [
        (2, "(32 UnknownName)"),
        (2, 'faulty: "in-smal" is not a name in the graph; expected an edge; the nearest is "in-small"'),
        (3, '"a-in" is an edge; expected a vertex'), (4, "expected a vertex or an edge"),
        (5, 'the nearest is "out"'), (6, '"out-z" is an edge; expected a vertex'),
    ]),
    "times": ([], [
        LOOP[0],
        *typed("count in 0,0; count in-small 0; take 0 out-z 0,1 5; broadcast 0 a 0 next 0,0,0"),
    ], 0, [
        (2, "(34 BadTime)"),
        (2, 'faulty: the time [0,0] has 2 numbers; at "in", which lies in no loop, a time has 1 number'),
        (3, 'at "in-small", at depth 1, a time has 2 numbers: the epoch and a loop counter'),
        (4, 'at "out-z", which lies in no loop'),
        (5, 'the time [0,0,0] has 3 numbers; at "next", at depth 1, a time has 2'),
    ]),
    "texts": ([], [LINE, '{"do":back}', '{"do":"back"', " " + '"' + "x" * 65536 + '"'], 0, [
        (2, "(30 BadLine)"), (2, "faulty: it breaks as JSON at column 7"), (3, "at column 13"),
        (4, "(33 LineTooLong)"), (4, "faulty: the line has 65539 bytes; at most 65536 are allowed"),
    ]),
    # the graph's place
    "a command first": ([], [do("back"), LINE], 2, [
        (1, "(40 Shape)"),
        (1, 'faulty: the first line must be the graph, as '
            '{"vertices":[{"name":"a","op":"input","depth":0}],"edges":[]}'),
        (1, "commands and queries come after it"),
    ]),
    "a command after the version": ([], [V2, do("back")], 2, [
        (2, "(40 Shape)"), (2, "faulty: the first line after the version line must be the graph"),
    ]),
    "a word first": ([], ["help"], 2, [
        (1, "(30 BadLine)"), (1, "faulty: the first line must be the graph"),
        (1, "the commands of version 1 are feed,"),
    ]),
    "help first": ([], [do("help")], 2, [
        (1, "the first line must be the graph"), (1, "the commands of version 1 are feed,"),
    ]),
    "a faulty text first": ([], ['{"do":back}'], 2, [
        (1, "the first line must be the graph"), (1, "it breaks as JSON at column 7"),
    ]),
    "another object first": ([], ['{"nodes":[]}'], 2, [
        (1, "the first line must be the graph"), (1, 'the key "vertices" is missing'),
    ]),
    "a number first": ([], ["7"], 2, [(1, "the first line must be the graph"), (1, "7 is a number")]),
    "a client's command first": (["--clients", "2"], ['{"client":0,"do":"back"}'], 2, [
        (1, "the first line must be the graph"),
    ]),
    "no graph": ([], ['{"vertices":'], 2, [
        (1, "faulty: it breaks as JSON at column 13"), (1, "(30 BadLine)"),
    ]),
    # versions 2 and 3
    "export": ([], [V2, LINE, FEED, *typed("broadcast 0 az 0 a 0; back; export; step 1")], 0, [
        (1, "this is a script of version 2"), (2, "the graph"),
        (6, "what are the kept steps? 2 kept steps, and the cursor is at 1"),
        (6, "1. processor 0 feeds 5 into a and gives up its token"),
        (6, "2. processor 0 broadcasts what is unsent at az (0) and a (0)"), (7, "BadShape)"),
        (7, 'faulty: "step" came with version 3, and the script is of version 2; its first line must be '
            '{"version":3}'),
    ]),
    "why": (["--processors", "3"], [
        V3, EXCHANGE, FEED, *typed("why 1 z 0; take 2 az 0 5; broadcast 2; receive 2 1; broadcast 0; "
            "why 1 z 0; why 3 z 0; changes 1 az 0 0 5; changes 1 a 0 0 5; changes 1 a 0 2 1; "
            "changes 1 a 0 2 6; step 4; step 0; step 6; why 1 y 0"),
        do("why", q=1, at="z"),
    ], 0, [
        (4, "why does processor 1 not consider z (0) finished? whatever the order of the"),
        (4, "this stays: the tokens of processors 1 and 2 at a (0)"),
        (4, "processor 1 does not know that z (0) is finished: it still counts 3 at"),
        (4, "held there: the tokens of processors 1 and 2; not heard: an update of -1 by processor 0, not "
            "yet broadcast in truth z (0) is not finished"),
        (9, "it still counts 3 at a (0); held there: the tokens of processors 1 and 2; not heard: an update "
            "of -1 by processor 0, first in its queue"),
        (10, "refused: there is no processor 3; there are the processors 0 to 2"),
        (11, "when did processor 1's view of az (0) change, from position 0 to 5? it became -1 at position "
            "4"),
        (12, "at none"), (13, "refused: lo, 2, is above hi, 1"),
        (14, "position 6 is past the last kept step"),
        (15, "which step leads to position 4? processor 1 receives the first change on its way from "
            "processor 2"),
        (16, "no step leads to position 0"), (17, "position 6 is past the last kept step"),
        (18, '"y" is not a name in the graph'), (19, 'expected {"do":"why","q":1,"at":"z","time":[0]}'),
    ]),
    "reasons": ([], [
        V3, SUM, *typed("feed 0 a 2 3 3 close; take 0 as 0 2; broadcast 0; receive 0 0; why 0 z 0; "
            "take 0 as 0 3; broadcast 0; take 0 as 0 3; broadcast 0; why 0 z 0; run 2; why 0 z 0; run 9; "
            "why 0 z 0"),
    ], 0, [
        (7, "it still counts 2 at as (0); held there: 2 records of value 3 on processor 0 in truth z (0) is "
            "not finished"),
        (12, "nothing is held there; not heard: an update of -1 by processor 0, first in its queue and an "
            "update of -1 by processor 0, after 1 change in its queue"),
        (14, "it still counts 1 at s (0); held there: the request of processor 0 in truth z (0) is not "
            "finished"),
        (16, "processor 0 knows that z (0) is finished"),
    ]),
    "a later query": ([], [LINE, *typed("why 0 z 0; export"), do("whi", q=0), '{"version":3}'], 0, [
        (2, '"why" came with version 3, and the script is of version 1; its first line must be '
            '{"version":3}'),
        (3, '"export" came with version 2'), (4, '"whi" is not a command or query; the words are'),
        (5, "only before the graph"),
    ]),
    "another version": ([], ['{"version":10}', LINE], 2, [
        (1, "(40 Shape)"), (1, 'faulty: a version line is {"version":N} alone, N from 2 to 9'),
    ]),
    "a version twice": ([], [V2, V2, LINE], 2, [
        (1, "of version 2"), (2, "(40 Shape)"), (2, "faulty: a version line is"),
    ]),
    "a version alone": ([], [V3], 0, [
        (1, "this is a script of version 3"),
        (1, "the graph is missing: the first line after the version line must be the graph"),
    ]),
    "a deep time": ([], [V2, DEEP, *typed("count z 0")], 0, [
        (3, 'at "z", at depth 5, a time has 6 numbers'),
    ]),
    "a deep graph": ([], [DEEP], 2, [(1, '"z" is at depth 5; the limit is 4; in later versions at most 6')]),
    "nine processors": (["--processors", "9"], [LINE], 2, [
        (1, "(48 BadCount)"), (1, "faulty: a script of version 1 has at most 8 processors"),
    ]),
    "clients of a version": (["--clients", "2"], [V2, *CLIENTS], 0, [
        (1, "this is a script of version 2"), (2, "the graph"),
        (3, "line 3, client 0: processor 0 feeds 5 into a"), (4, "undo the last"),
    ]),
    "clients' export": (["--clients", "2"], [V2, *CLIENTS, '{"client":1,"do":"export"}'], 2, [
        (5, "(36 OneClientOnly)"), (5, 'faulty: "export"'),
    ]),
    "clients' refused graph": (["--clients", "2"], [V2, DEEPER, '{"client":1,"do":"back"}'], 2, [
        (2, "(45 TooLarge)"), (2, 'faulty: the ingress "i6" is at depth 6, the greatest'),
        (2, '"z" is at depth 7; the limit is 6'),
    ]),
    # version 4
    "what may be executed": ([], [
        V4, SUM, *typed("candidates; feed 0 a 2 3 close; take 0 as 0 2; candidates; effect 2; effect 0; "
            "effect 1; frontier 0 z; why 0 s 0 before; frontier 0 y; frontier 1 z"),
    ], 0, [
        (3, "which steps may be executed now, and what stands in the way of the others? no step is left but "
            "a feed"),
        (6, "2 steps of 3 may be executed enabled: processor 0 takes a record of value 3 from as (0)"),
        (6, "processor 0 runs the notification of s (0): refused: processor 0's view has a (0) strictly "
            "before s (0)"),
        (6, "enabled: processor 0 broadcasts all that is unsent"),
        (7, "what did the step that leads to position 2 change? processor 0 takes a record of value 2 from "
            "as (0)"),
        (7, "records of value 2 on processor 0 at as (0): from 1 to 0 processor 0 asks for a notification "
            "at s (0) s on processor 0 has the sum 2 at (0)"),
        (7, "unsent on processor 0 at s (0): from 0 to 1 unsent on processor 0 at as (0): from 2 to 1"),
        (8, "no step leads to position 0"), (9, "processor 0 gives up its token of a, which was at epoch 0"),
        (10, "which times can still arrive at z, as far as processor 0 knows? (0), and all that are later"),
        (11, "why does processor 0 not consider all that is strictly before s (0) finished? it finishes, by "
            "any order"),
        (11, "processor 0 does not know that all that is"),
        (11, "it still counts 1 at a (0); nothing is held there; not heard: an update of -1 by processor 0, "
            "not yet broadcast"),
        (12, '"y" is not a name in the graph'), (13, "there is no processor 1"),
    ]),
    "a notice and its view": ([], [
        V4, SUM, *typed("feed 0 a 2 close; run 99; effect 5; effect 4; frontier 0 z; effect 3"),
    ], 0, [
        (5, "s on processor 0 gives up its sum 2 at (0)"),
        (5, "processor 0 no longer asks for a notification at s (0)"),
        (6, "the queue from processor 0 to 0 gets shorter: 1 change, then 0"),
        (6, "the view of processor 0 at a (0): from 1 to 0"), (7, "none: nothing can arrive there any more"),
        (8, "gets longer: 0 changes, then 1"),
    ]),
    "what a distinct keeps": ([], [
        V4, DISTINCT,
        *typed("feed 0 a 0 close; take 0 ad 0 0; effect 2; run 99; effect 6; jump 6; why 0 z 0"),
    ], 0, [
        (5, "d on processor 0 has seen 0 at (0)"), (7, "d on processor 0 forgets 0 at (0)"),
        (9, "it still counts 1 at d (0); nothing is held there; not heard: an update of -1 by processor 0, "
            "not yet broadcast in truth z (0) is finished: no processor has anything at or before it"),
    ]),
    "conditions put together": (["--processors", "2"], [
        V4, LINE, *typed("break finished z 0 and not passed 0 z 0; break queue 0 2 1 or not view 3 a 0 1; "
            "break not passed 2 z 0"),
        do("break", when={"all": []}), *typed("turns count az 0 1 0 0"), FEED,
        *typed("run 99; turns count az 0 1 0 2; turns count az 0 1 2 1"),
        do("turns", when={"view": {"at": "y"}}, lo=0, hi=9),
    ], 0, [
        (3, "set a breakpoint: z (0) is finished and not (processor 0 has passed z (0))"),
        (3, "done: it is breakpoint 0"),
        (4, "at least 1 of changes on their way from processor 0 to 2 or not (processor 3's view has at "
            "least 1 at a (0))"),
        (4, "warning: what is said of it never holds: there is no processor 2"),
        (4, "warning: what is said of it always holds: there is no processor 3"),
        (5, "warning: what is said of it always holds"), (6, "(31 BadShape)"),
        (6, 'faulty: "all" has 0 conditions; it may have 1 to 8'),
        (7, "at position 0 it does not hold and that does not change up to position 0"),
        (7, "at which of the positions 0 to 0 does it begin or cease to hold that at least 1 of records"),
        (10, "at position 0 it does not hold it begins to hold at 1"), (11, "50 BadRange"),
        (12, 'the key "at_least" of "view" is missing'),
    ]),
    "later conditions and keys": ([], [
        V3, LINE, *typed("break not passed 0 z 0; frontier 0 z; why 0 z 0 before"), do("turns", lo=0),
        do("break", when={"view": {}}),
    ], 0, [
        (3, "BadShape)"),
        (3, 'faulty: "when" has the key "not", which came with version 4, and the script is of version 3'),
        (4, 'the key "at" is too many (31 BadShape) the key "at" of frontier came with version 4 expected '
            '{"do":"frontier","q":0}'),
        (5, 'the key "before" of why came with version 4 expected {"do":"why","q":0,"at":"z","time":[0]}'),
        (6, '"turns" came with version 4'), (7, 'has the key "view", which came with version 4'),
    ]),
    # version 5
    "a held capability": ([], [
        V5, HELD, FEED, *typed("take 0 ah 0 5; effect 2; notice 0 h 0; run 9; candidates; why 0 z 0; "
            "notice 0 h 0; release 0 h 0 to 0; release 0 h 0 to 3; effect 6; release 0 h 0; release 0 a 0; "
            "release 1 h 0; release 0 h 3; effect 7; release 0 h 3"),
    ], 0, [
        (2, "vertices: a (input), h (hold), z (sink)"), (5, "processor 0 holds a capability at h (0)"),
        (6, "refused: processor 0's view has a (0) strictly before h (0); h is a hold, so it is never "
            "notified"),
        (7, "left: processor 0, capability at h (0): h is a hold: it is never notified, and holds its "
            "capability until a release (53 NotNotified)"),
        (8, "0 steps of 1 may be executed processor 0 runs the notification of h (0): refused: h is a hold: "
            "it is never notified, and holds its capability until a release (53 NotNotified)"),
        (9, "it still counts 1 at h (0); held there: the capability of processor 0 in truth z (0) is not "
            "finished"),
        (10, "refused: h is a hold: it is never notified"),
        (11, "processor 0 moves the capability that it holds at h (0) to (0)"),
        (11, "refused: (0) is not strictly after (0)"), (12, "the cursor is at 6 of 6 kept steps"),
        (13, "processor 0 holds a capability at h (3)"),
        (13, "processor 0 no longer holds a capability at h (0)"),
        (14, "processor 0 releases the capability that it holds at h (0)"),
        (14, "refused: processor 0 holds no capability at h (0); at h it holds: h (3)"),
        (15, "refused: a is a vertex (input); vertices that hold capabilities: h"),
        (16, "there is no processor 1"), (17, "the cursor is at 7 of 7 kept steps"),
        (18, "processor 0 no longer holds a capability at h (3)"), (19, "at h it holds: nothing"),
    ]),
    "capabilities of several processors": (["--processors", "3"], [
        V5, HELD,
        *typed("feed 0 a 5 close; feed 2 a 5 close; feed 1 a close; run 99; why 1 h 0; release 1 h 0"),
    ], 0, [
        (6, "left: processor 0, capability at h (0): h is a hold"),
        (6, "left: processor 2, capability at h (0): h is a hold"),
        (7, "it still counts 2 at h (0); held there: the capabilities of processors 0 and 2"),
        (8, "at h it holds: nothing; processors 0 and 2 hold one there"),
    ]),
    "feeds to an epoch": ([], [
        V5, LINE, *typed("feed 0 a 5 to 1000; feed 0 a to 1000; effect 1; feed 0 a to -1"),
        do("feed", p=0, vertex="a", values=[], next={"too": 5}),
        do("feed", p=0, vertex="a", values=[], next={"to": "5"}),
        do("feed", p=0, vertex="a", values=[], next=5),
    ], 0, [
        (3, "processor 0 feeds 5 into a and goes on to epoch 1000"),
        (4, "refused: epoch 1000 is not above the token's, which is 1000"),
        (5, "processor 0's token of a goes from epoch 0 to 1000"),
        (6, '"next":{"to":-1} has "to":-1, which is below 0; expected "next", "close", "stay" or {"to":1}'),
        (7, '"next":{"too":5} is an object, and must have the key "to" alone'),
        (8, 'has "to":"5", which is a text'), (9, '"next":5 is a number; expected "next", "close"'),
    ]),
    "runs of some processors": (["--processors", "3"], [
        V5, EXCHANGE,
        *typed("feed 0 a 3 4 close; run 99 only 0; run 99 only 2 0 0; run 99 only 2; run 9 only 3 1"),
        do("run", limit=9, only=[]), *typed("run 9 only 0 0 0 0 0 0 0 0 0 0 0 0 0 0 0 0 0; run 9 only -1"),
        do("run", limit=9, only=1),
    ], 0, [
        (4, "run processor 0 alone, at most 99 steps"), (4, "nothing is enabled on processor 0"),
        (4, "left: nothing that processor 0 could move left: enabled steps of processors 1 and 2, which did "
            "not run"),
        (5, "run processors 0 and 2 alone"), (5, "nothing is enabled on processors 0 and 2"),
        (6, "ran 0 steps, then stopped: nothing is enabled on processor 2"),
        (6, "left: enabled steps of processor 1, which did not run"),
        (7, "refused: there is no processor 3; there are the processors 0 to 2"),
        (8, '"only":[] has 0 items; expected a list of 1 to 16 processors\' numbers'), (9, "has 17 items"),
        (10, "has the item -1 at 0, which is below 0"), (11, '"only":1 is a number'),
    ]),
    "words of version 5": ([], [
        V5, HELD, do("relaese", p=0, vertex="h", time=[0]), "release 0 h [0] [3]", do("release", p=0),
        *typed("release 0 hh 0; release 0 h 0,0 to 1,0"), do("release", p=0, vertex="h", time=[0], too=[3]),
        "release", do("run", limit=7, onyl=[0]), do("downgrade", p=0, vertex="h", time=[0]), "drop",
        "advance_to 5",
    ], 0, [
        (3, '"relaese" is not a command or query; the nearest is "release" (31 BadShape) expected '
            '{"do":"release","p":0,"vertex":"h","time":[0]}'),
        (4, 'expected {"do":"release","p":0,"vertex":"h","time":[0],"to":[3]}'),
        (5, 'the key "vertex" is missing'), (5, 'the key "time" is missing'),
        (6, '"hh" is not a name in the graph; expected a vertex; the nearest is "h"'),
        (7, 'the time [0,0] has 2 numbers; at "h"'), (7, "the time [1,0] has 2 numbers"),
        (8, 'the key "too" should be "to"'), (9, 'expected {"do":"release","p":0,"vertex":"a","time":[0]}'),
        (10, 'the key "onyl" should be "only" (31 BadShape) expected {"do":"run","limit":7,"only":[0]}'),
        (11,
            '"downgrade" is not a command or query; {"do":"release","p":0,"vertex":"h","time":[0],"to":[1]} '
            'moves a held capability to a later time'),
        (12, 'the line is not JSON, and "drop" is not a command or query; {"do":"release","p":0,'),
        (13, '{"do":"feed","p":0,"vertex":"a","values":[],"next":{"to":5}} advances an input to epoch 5'),
    ]),
    "forms of version 5 in version 4": ([], [
        V4, LINE, *typed("release 0 a 0; run 5 only 0; feed 0 a to 5"),
    ], 0, [
        (3, '"release" came with version 5, and the script is of version 4; its first line must be '
            '{"version":5}'),
        (4, 'the key "only" is too many (31 BadShape) the key "only" of run came with version 5 expected '
            '{"do":"run","limit":5}'),
        (5, '"next":{"to":5} came with version 5; expected "next", "close" or "stay"'),
    ]),
    "a hold in version 4": ([], [V4, HELD], 2, [
        (2, "(40 Shape)"), (2, 'faulty: vertices[1] (h): "op":"hold" is none of these'),
        (2, 'vertices[1] (h): the op "hold" came with version 5, and the script is of version 4; its first '
            'line must be {"version":5}'),
    ]),
    "a misspelled hold": ([], [V5, HELD.replace("hold", "hodl")], 2, [
        (2, 'vertices[1] (h): the nearest op is "hold"'),
    ]),
    "a hold with a number": ([], [V5, HELD.replace('"hold"', '"hold","k":1')], 2, [
        (2, 'vertices[1] (h): the key "k" is too many'),
    ]),
    "a hold's second port": ([], [V5, HELD.replace('"from":"h","port":0', '"from":"h","port":1')],
        2, [
        (2, "(43 BadPort)"),
        (2, 'faulty: the edge "hz" leaves the hold "h" on port 1, which has port 0 alone'),
    ]),
    # several clients
    "clients": (["--clients", "2"], CLIENTS, 0, [
        (2, "line 2, client 0: processor 0 feeds 5 into a"), (3, "undo the last step"),
        (3, "the cursor is at 0 of 1 kept step"),
    ]),
    "a client's number": (["--clients", "2"], [*CLIENTS, '{"client":2,"do":"back"}'], 2, [
        (4, "(35 BadClient)"), (4, 'faulty: "client" is 2'),
    ]),
    "a client's query": (["--clients", "2"], [*CLIENTS, '{"client":1,"do":"state"}'], 2, [
        (4, "(36 OneClientOnly)"), (4, 'faulty: "state"'),
    ]),
    "no client": (["--clients", "2"], [*CLIENTS, '{"do":"back"}'], 2, [
        (4, "(31 BadShape)"), (4, 'faulty: the key "client" is missing'),
    ]),
    "a client's name": (["--clients", "2"], [
        *CLIENTS, '{"client":1,"do":"notice","p":0,"vertex":"y","time":[0]}',
    ], 2, [(4, "(32 UnknownName)"), (4, 'faulty: "y" is not a name in the graph; expected a vertex')]),
}  # fmt: skip

GRAPH_FAULTS = {
    "a key gone": (graph([A, {"name": "m", "op": "add", "depth": 0}], []), 40,
        'vertices[1] (m): the key "k" is missing'),
    "a key too many": (graph([A, vertex("z", "sink", k=1)], []), 40,
        'vertices[1] (z): the key "k" is too many'),
    "an op": (graph([vertex("a", "inptu")], []), 40, 'the nearest op is "input"'),
    "a name with a space": (graph([vertex("a z", "sink")], []), 40, '"name":"a z" has " " in it'),
    "a long name": (graph([vertex("a" * 33, "sink")], []), 40, "has 33 bytes"),
    "a route": (graph([A, Z], [edge("az", "a", "z", route="both")]), 40,
        'edges[0] (az): "route":"both" is none of these'),
    "no edges": ({"vertices": []}, 40, 'the key "edges" is missing'),
    "two of a name": (graph([A, Z], [edge("z", "a", "z")]), 41,
        '"z" is the name of vertices[1] and of edges[0]'),
    "an end": (graph([A, Z], [edge("az", "a", "zz")]), 42,
        '"to":"zz" is not a vertex; the nearest vertex is "z"'),
    "a port": (graph([A, Z], [edge("az", "a", "z", 1)]), 43, 'the edge "az" leaves the input "a" on port 1'),
    "a port of a split": (graph([A, vertex("half", "split", k=0), Z], [
            edge("ah", "a", "half"), edge("hz", "half", "z", 1), edge("h2", "half", "z", 2),
        ]), 43, 'the edge "h2" leaves the split "half" on port 2, which has the ports 0 and 1'),
    "into an input": (graph([A, S], [edge("sa", "s", "a")]), 43,
        'the edge "sa" enters "a", which is an input'),
    "an input's depth": (graph([vertex("a", "input", 1)], []), 44, 'the input "a" is at depth 1'),
    "an edge's depth": (graph([A, vertex("i", "ingress"), Z], [edge("ai", "a", "i"), edge("iz", "i", "z")]),
        44, 'the edge "iz" leaves'),
    "an edge out of a loop": (graph([
            A, vertex("in", "ingress"), vertex("out", "egress", 1), vertex("z", "sink", 1),
        ], [edge("ai", "a", "in"), edge("io", "in", "out"), edge("oz", "out", "z")]), 44,
        'the edge "oz" leaves the egress "out" of depth 1 with depth 0 and enters "z", which is at depth 1'),
    "no loop to leave": (graph([vertex("e", "egress")], []), 44, 'the egress "e" is at depth 0'),
    "too deep": (graph([vertex("s", "sum", 5)], []), 45, '"s" is at depth 5; the limit is 4'),
    "too many": (graph([vertex(f"s{n}", "sum") for n in range(65)], []), 45,
        "there are 65 vertices and edges; the limit is 64"),
    "a loop": (graph([A, M], [edge("am", "a", "m"), edge("mm", "m", "m")]), 46,
        'a walk from "m" comes back to "m"'),
}  # fmt: skip
