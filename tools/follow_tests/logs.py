"""Small logs, each with its ending, for tools/test_timely: what the protocol allows of them was worked out
by hand. All have the dataflow a (source) --> m --> z (sink), but for those that bring another."""
A, M, Z = 1, 2, 3


def operates(node, name, inputs, outputs, **other):
    summary = [[source, target] for source in range(inputs) for target in range(outputs)]
    its = {"node": node, "name": name, "inputs": inputs, "outputs": outputs, "summary": summary}
    return {"event": "Operates", **its, **other}


def channel(source, target, **other):
    return {"event": "Channels", "source": source, "target": target, **other}


LINE = [
    operates(A, "a", 0, 1), channel([A, 0], [M, 0]), operates(M, "m", 1, 1), channel([M, 0], [Z, 0]),
    operates(Z, "z", 1, 0),
]  # fmt: skip


def sent(worker, number, messages=(), internal=(), **other):
    """A batch that a worker sends."""
    its = {"source": worker, "seq_no": number, "messages": list(messages), "internal": list(internal)}
    return {"event": "TimelyProgress", "is_send": True, **its, **other}


def logs_of(workers, batches, graph=LINE):
    """The logs of workers that send batches one after the other, each received by all at once."""
    logs = [list(graph) for _ in range(workers)]
    for it in batches:
        logs[it["source"]].append(it)
        for log in logs:
            log.append({**it, "is_send": False})
    return logs


def late(workers, batches):
    """The same, but all is received at the end."""
    heard = [{**it, "is_send": False} for it in batches]
    return [[*LINE, *(it for it in batches if it["source"] == worker), *heard] for worker in range(workers)]


def without(logs, worker, place):
    """Logs of which a worker's lacks an event."""
    return [log[:place] + log[place:][1:] if at == worker else log for at, log in enumerate(logs)]


def cut(logs, worker, count):
    """Logs of which a worker's has `count` events."""
    return [log[:count] if at == worker else log for at, log in enumerate(logs)]


# A loop: a --> [enter --> body --> leave] --> z, where body also sends round by a feedback.
LOOP = [
    operates(1, "a", 0, 1), operates(2, "Loop: all", 1, 1), operates(1, "body", 2, 2, scope=[2]),
    operates(2, "Feedback", 1, 1, scope=[2], summary=[[0, 0, 1]]), operates(3, "z", 1, 0),
    channel([1, 0], [2, 0]), channel([2, 0], [3, 0]), channel([0, 0], [1, 0], scope=[2]),
    channel([2, 0], [1, 1], scope=[2]), channel([1, 0], [2, 0], scope=[2]),
    channel([1, 1], [0, 0], scope=[2]),
]  # fmt: skip
# A region: a --> [enter --> m --> leave] --> z, whose times have no counter of their own.
REGION = [
    operates(1, "a", 0, 1), operates(2, "Region", 1, 1), operates(1, "m", 1, 1, scope=[2]),
    operates(3, "z", 1, 0), channel([1, 0], [2, 0]), channel([2, 0], [3, 0]),
    channel([0, 0], [1, 0], scope=[2]), channel([1, 0], [0, 0], scope=[2]),
]  # fmt: skip
# A loop in a loop: a --> [enter --> [enter --> m --> leave] --> leave] --> z.
NESTED = [
    operates(1, "a", 0, 1), operates(2, "Outer", 1, 1), operates(1, "Inner", 1, 1, scope=[2]),
    operates(1, "m", 1, 1, scope=[2, 1]), operates(3, "z", 1, 0), channel([1, 0], [2, 0]),
    channel([2, 0], [3, 0]), *(channel([0, 0], [1, 0], scope=it) for it in ([2], [2, 1])),
    *(channel([1, 0], [0, 0], scope=it) for it in ([2], [2, 1])),
]  # fmt: skip


def inside(worker, number, messages=(), internal=()):
    """A batch of the scope."""
    return sent(worker, number, messages, internal, scope=[2])


LOOP_DROPS = [[1, 0, [0, 0], -1], [1, 1, [0, 0], -1], [2, 0, [0, 0], -1]]
# A message enters the loop, goes round once, leaves it, and is read.
ENTERS = inside(0, 1, [[2, 0, [0, 0], 1]], [[0, 0, [0, 0], -1], *LOOP_DROPS])
INTO = sent(0, 1, [[2, 0, [0], 1]], [[1, 0, [0], -1]])
ROUND = inside(0, 2, [[2, 0, [0, 0], -1], [1, 1, [0, 1], 1]])
LEAVES = inside(0, 3, [[1, 1, [0, 1], -1], [0, 0, [0, 1], 1]])
ENDED = sent(0, 2, [[3, 0, [0], -1]])
IN_LOOP = [ENTERS, INTO, ROUND, LEAVES, ENDED]
# Of two workers the second consumes what comes round, and what leaves.
OTHER = [
    inside(1, 1, [], LOOP_DROPS), sent(1, 1, [], [[1, 0, [0], -1]]), ENTERS, INTO, ROUND,
    inside(1, 2, [[1, 1, [0, 1], -1], [0, 0, [0, 1], 1]]), sent(1, 2, [[3, 0, [0], -1]]),
]  # fmt: skip


def other_way(logs):
    """Logs in which a worker receives the batches of the dataflow before those of the scope."""
    found = []
    for log in logs:
        received = [it for it in log if it.get("is_send") is False]
        received.sort(key=lambda it: "scope" in it)
        found.append([it for it in log if it.get("is_send") is not False] + received)
    return found


# A message enters both loops, and leaves both.
BOTH = [
    sent(0, 1, [[0, 0, [0, 0, 0], 1]], [[0, 0, [0, 0, 0], -1], [1, 0, [0, 0, 0], -1]], scope=[2, 1]),
    inside(0, 1, [[1, 0, [0, 0], 1]], [[0, 0, [0, 0], -1]]), INTO, ENDED,
]  # fmt: skip
M_KEEPS = [[0, 0, [0, 0, 0], -1], [1, 0, [0, 0, 0], -1], [1, 0, [0, 0, 4], 1]]
KEEPS = sent(0, 1, [], M_KEEPS, scope=[2, 1])
KEEPS_TWO = sent(0, 1, [], [*M_KEEPS, [1, 0, [0, 1, 0], 1]], scope=[2, 1])

# One worker that sends a message at epoch 0 through m to z, and ends.
DROPS = [[M, 0, [0], -1]]
ENDS = [[A, 0, [0], -1], *DROPS]
FED = sent(0, 1, [[M, 0, [0], 1]], ENDS)
PASSED = sent(0, 2, [[M, 0, [0], -1], [Z, 0, [0], 1]])
READ = sent(0, 3, [[Z, 0, [0], -1]])
IDLE = sent(1, 1, [], ENDS)

# The logs.
FOLLOWED = {
    "a message round a loop": logs_of(1, IN_LOOP, LOOP),
    "two workers and a loop": logs_of(2, OTHER, LOOP),
    "scopes whose batches come in another order": other_way(logs_of(2, OTHER, LOOP)),
    "a loop in a loop": logs_of(1, BOTH, NESTED),
    "a region": logs_of(
        1,
        [
            inside(0, 1, [[0, 0, [0], 1]], [[0, 0, [0], -1], [1, 0, [0], -1]]),
            sent(0, 1, [[2, 0, [0], 1]], [[1, 0, [0], -1]]),
            sent(0, 2, [[3, 0, [0], -1]]),
        ],
        REGION,
    ),
    "a message through m": logs_of(1, [FED, PASSED, READ]),
    "two workers, of which one does nothing": logs_of(2, [FED, IDLE, PASSED, READ]),
    "a message that another worker consumes": logs_of(
        2, [FED, IDLE, sent(1, 2, [[M, 0, [0], -1], [Z, 0, [0], 1]]), sent(1, 3, [[Z, 0, [0], -1]])]
    ),
    "a message that is consumed before its production is told": logs_of(
        2,
        [
            sent(1, 1, [[M, 0, [0], -1], [Z, 0, [0], 1]], ENDS),
            sent(1, 2, [[Z, 0, [0], -1]]),
            FED,
        ],
    ),
    "a message that is produced and consumed within a batch": logs_of(
        1, [sent(0, 1, [[Z, 0, [0], 1]], ENDS), sent(0, 2, [[Z, 0, [0], -1]])]
    ),
    "a capability that a message makes, over a hop that no entry tells": logs_of(
        1,
        [
            sent(0, 1, [[2, 0, [0], 1]], [[1, 0, [0], -1], [2, 0, [0], -1], [3, 0, [0], -1]]),
            sent(0, 2, [[2, 0, [0], -1]], [[3, 0, [0], 1]]),
            sent(0, 3, [[4, 0, [0], 1]], [[3, 0, [0], -1]]),
            sent(0, 4, [[4, 0, [0], -1]]),
        ],
        [
            operates(1, "a", 0, 1),
            operates(2, "m", 1, 1),
            operates(3, "n", 1, 1),
            operates(4, "z", 1, 0),
            *(channel([node, 0], [node + 1, 0]) for node in (1, 2, 3)),
        ],
    ),
    "capabilities that are counted": logs_of(
        1,
        [
            sent(0, 1, [], [[A, 0, [0], 2]]),
            sent(0, 2, [], [[A, 0, [0], -1], [M, 0, [0], 1]]),
            sent(0, 3, [[M, 0, [5], 1]], [[A, 0, [0], -2], [A, 0, [5], 3]]),
            sent(0, 4, [], [[M, 0, [0], -2], [A, 0, [5], -3]]),
            sent(0, 5, [[M, 0, [5], -1]]),
        ],
    ),
    "numbers from 0, and a clock's times": logs_of(
        1,
        [
            sent(0, 0, [], [[A, 0, [0], -1], [A, 0, [1790000000250], 1], *DROPS]),
            sent(0, 1, [[M, 0, [1790000000251], 1]], [[A, 0, [1790000000250], -1]]),
            sent(0, 2, [[M, 0, [1790000000251], -1]]),
        ],
    ),
    "a hundred thousand messages": logs_of(
        2,
        [
            sent(0, 1, [[M, 0, [0], 100000]], ENDS),
            IDLE,
            sent(1, 2, [[M, 0, [0], -60001]]),
            sent(0, 2, [[M, 0, [0], -39999]]),
        ],
    ),
    "entries of one point are added, and what adds up to nothing is none": logs_of(
        1, [sent(0, 1, [[M, 0, [0], 1], [M, 0, [0], -1]], [[A, 0, [0], 1], [A, 0, [0], -2], *DROPS])]
    ),
    "other events and members": logs_of(
        1,
        [{"event": "Schedule", "id": 1}, FED, {**PASSED, "addr": [0]}, {**READ, "ns": 5}][1:],
        [*LINE, {"event": "Schedule", "id": 1}],
    ),
    "one scope under another name, and its dataflow's operator": logs_of(
        1,
        [{**FED, "scope": [0]}, {**PASSED, "scope": [0]}, {**READ, "scope": [0]}],
        [operates(0, "Dataflow", 0, 0), *({**it, "scope": [0]} for it in LINE)],
    ),
    "who consumes first is open": late(
        3,
        [
            sent(0, 1, [[M, 0, [0], 1]], DROPS),
            sent(1, 1, [], DROPS),
            sent(2, 1, [], ENDS),
            # worker 0 may seem to consume the message that worker 1 needs to go on
            sent(0, 2, [[M, 0, [0], -1]], [[A, 0, [0], -1]]),
            sent(1, 2, [[M, 0, [0], -1], [Z, 0, [0], 1]]),
            sent(2, 2, [[Z, 0, [0], -1]]),
            sent(1, 3, [[M, 0, [0], 1]], [[A, 0, [0], -1]]),
        ],
    ),
}
# The logs, and what is said.
HANGS = {
    "a capability in a loop in a loop": (logs_of(1, [KEEPS, *BOTH[1:3]], NESTED),
        ["worker 0 holds a capability of m 2.1.1 out 0 (0,0,4)"]),
    # neither is at or before the other, as in timely
    "two capabilities in a loop in a loop": (logs_of(1, [KEEPS_TWO, *BOTH[1:3]], NESTED),
        ["worker 0 holds a capability of m 2.1.1 out 0 (0,0,4)", "a capability of m 2.1.1 out 0 (0,1,0)"]),
    "a capability in a loop": (
        logs_of(1, [*IN_LOOP[:3], inside(0, 3, [[1, 1, [0, 1], -1]], [[1, 1, [0, 1], 1]])], LOOP),
        ["z 3 in 0 (0) does not finish", "worker 0 holds a capability of body 2.1 out 1 (0,1)",
            "since batch 3 (w0, line 18)"]),
    "a message that stays in a loop": (logs_of(1, IN_LOOP[:3], LOOP),
        ["a message at body 2.1 in 1 (0,1), which no batch says is consumed"]),
    "a message that does not enter a loop": (logs_of(1, [inside(0, 1, [], LOOP_DROPS), INTO], LOOP),
        ["a message at Loop: all 2 in 0 (0), which no batch says is consumed"]),
    "a capability that is held from the start": (logs_of(1, [sent(0, 1, [], DROPS)]),
        ["z 3 in 0 (0) does not finish", "worker 0 holds a capability of a 1 out 0 (0)", "since the start",
            "the worker went on: its last is batch 1 (w0, line 6)"]),
    "one that is held since a batch, which counts twice": (
        logs_of(2, [IDLE, sent(0, 1, [], [[A, 0, [0], -1], [A, 0, [7], 2], *DROPS], ns=55)]),
        ["z 3 in 0 (7) does not finish", "worker 0 holds 2 capabilities of a 1 out 0 (7)",
            "since batch 1 (w0, line 7, ns 55)", "the worker has sent no progress after that"]),
    "what many workers hold is told once": (logs_of(64, [sent(p, 1, [], DROPS) for p in range(64)]),
        ["workers 0 to 63 hold a capability of a 1 out 0 (0) worker 0: since the start; its last is batch 1",
            "worker 7: since the start; its last is batch 1 (w7, line 13) ... (64 in all)"]),
    "what follows from it is not told": (logs_of(2, [sent(0, 1, [[M, 0, [0], 1]], [[A, 0, [0], -1], *DROPS]),
        sent(1, 1, [], DROPS), sent(0, 2, [[M, 0, [0], -1]], [[M, 0, [0], 1]])]),
        ["worker 1 holds a capability of a 1 out 0 (0)",
            "the worker went on: its last is batch 1 (w1, line 7)"]),
    "a message that nobody consumes": (logs_of(2, [FED, IDLE]),
        ["z 3 in 0 (0) does not finish", "a message at m 2 in 0 (0), which no batch says is consumed",
            "made by worker 0 in batch 1 (w0, line 6)",
            "the last batches: worker 0: batch 1 (w0, line 6) and worker 1: batch 1 (w1, line 7)"]),
    "a message that nobody produced": (
        logs_of(3, [sent(1, 1, [], DROPS), sent(0, 1, [[M, 0, [0], -1]], ENDS), sent(2, 1, [], ENDS)]),
        ["worker 0 consumed a message at m 2 in 0 (0), and no batch says who made it",
            "consumed in batch 1 (w0, line 7)", "made by worker 1, which has sent no progress since then",
            "the last batches, of who went silent first: worker 1: batch 1 (w1, line 6)",
            "worker 1 holds a capability of a 1 out 0 (0)"]),
    "one that several can have produced, who went silent first comes first": (
        logs_of(3, [sent(2, 1, [], DROPS), sent(1, 1, [], DROPS), sent(0, 1, [[M, 0, [0], -2]], ENDS)]),
        ["worker 0 consumed 2 messages at m 2 in 0 (0), and no batch says who made them",
            "made by worker 2 or worker 1, which has sent no progress since then"]),
    "one that was made of a message that no batch says is consumed": (
        logs_of(2, [FED, IDLE, sent(0, 2, [[Z, 0, [0], -1]])]),
        ["worker 0 consumed a message at z 3 in 0 (0)", "made by worker 1",
            "a message at m 2 in 0 (0), which no batch says is consumed"]),
    "two sinks that wait for different times": (
        logs_of(1, [sent(0, 1, [], [[1, 0, [0], -1], [1, 0, [5], 1], [1, 1, [0], -1], [1, 1, [3], 1]])],
            [operates(1, "a", 0, 2), channel([1, 0], [2, 0]), channel([1, 1], [3, 0]),
                operates(2, "y", 1, 0), operates(3, "z", 1, 0)]),
        ["z 3 in 0 (3) and y 2 in 0 (5) do not finish", "worker 0 holds a capability of a 1 out 1 (3)",
            "worker 0 holds a capability of a 1 out 0 (5)"]),
    "a worker that went away, and did not receive": (
        without(logs_of(2, [sent(1, 1, [], DROPS), sent(0, 1, [], ENDS)]), 1, 7),
        ["worker 1 holds a capability of a 1 out 0 (0)"]),
    "an operator without a channel is a sink, too": (logs_of(1, [sent(0, 1, [], DROPS)], [*LINE[:3]]),
        ["m 2 in 0 (0) does not finish", "worker 0 holds a capability of a 1 out 0 (0)"]),
    "something is left that no sink waits for": (
        logs_of(1, [sent(0, 1, [], [[A, 0, [0], -1]])], [*LINE[:3]]),
        ["hang: no sink waits, but the dataflow does not end",
            "worker 0 holds a capability of m 2 out 0 (0)"]),
}  # fmt: skip
# The logs, where it is, and what is said.
WRONG = {
    "a lost batch of a loop": (without(logs_of(2, OTHER, LOOP), 1, len(LOOP) + 4), "refused at w1, line ",
        ["its seq_no is 2, and 1 is the next of worker 0"]),
    "a capability in a loop that is dropped twice": (
        logs_of(1, [inside(0, 1, [], [[1, 0, [0, 0], -2]])], LOOP), "refused at w0, line 12",
        ["entry [1, 0, [0, 0], -2], body 2.1 out 0 (0,0): worker 0 gives up 2 there, and holds 1"]),
    "a capability that is given up twice": (logs_of(1, [FED, sent(0, 2, [], [[M, 0, [0], -1]])]),
        "refused at w0, line 8: batch 2 of worker 0",
        ["entry [2, 0, [0], -1], m 2 out 0 (0): worker 0 gives up 1 there, and holds 0",
            "the last one went in batch 1 (w0, line 6)", "9 NoRequest"]),
    "one more than there are": (logs_of(1, [sent(0, 1, [], [[A, 0, [0], -2]])]),
        "refused at w0, line 6: batch 1 of worker 0",
        ["entry [1, 0, [0], -2], a 1 out 0 (0): worker 0 gives up 2 there, and holds 1"]),
    "a message without a capability": (
        logs_of(2, [sent(0, 1, [], ENDS), sent(0, 2, [[M, 0, [3], 1]]), IDLE]),
        "refused at w0, line 8: batch 2 of worker 0",
        ["entry [2, 0, [3], 1], m 2 in 0 (3): worker 0 sends without a capability of a 1 out 0 at or"]),
    "a message before its capability": (
        logs_of(1, [sent(0, 1, [], [[A, 0, [0], -1], [A, 0, [4], 1]]), sent(0, 2, [[M, 0, [3], 1]])]),
        "refused at w0, line 8: batch 2 of worker 0", ["entry [2, 0, [3], 1], m 2 in 0 (3)"]),
    "a capability from nothing": (logs_of(1, [sent(0, 1, [], ENDS), sent(0, 2, [], [[M, 0, [2], 1]])]),
        "refused at w0, line 8: batch 2 of worker 0",
        ["entry [2, 0, [2], 1], m 2 out 0 (2): worker 0 has a new one there"]),
    "a message that no worker can have made": (logs_of(1, [sent(0, 1, [[M, 0, [0], -1]], ENDS)]),
        "refused at w0, line 6: batch 1 of worker 0",
        ["entry [2, 0, [0], -1], m 2 in 0 (0): worker 0 consumes what no worker can have made",
            "8 NoRecord"]),
    "the first of two, by the order of the workers": (
        logs_of(2, [sent(0, 1, [], [[A, 0, [0], -2]]), sent(1, 1, [], [[A, 0, [0], -2]])]),
        "refused at w0, line 6: batch 1 of worker 0", ["refused at w1, line 7: batch 1 of worker 1"]),
    "a batch that was lost": (
        without(logs_of(2, [IDLE, sent(0, 1, [], DROPS), sent(0, 2, [], [[A, 0, [0], -1]])]), 1, 7),
        "refused at w1, line 8: worker 1 receives batch 2 of worker 0",
        ["its seq_no is 2, and 1 is the next of worker 0"]),
    "a number that is left out": (logs_of(1, [sent(0, 1, [], DROPS), sent(0, 3, [], [[A, 0, [0], -1]])]),
        "differs at w0, line 8: batch 3 of worker 0", ["its seq_no is 3, and 2 is the next of worker 0"]),
    "a batch that comes as another": (
        [*logs_of(2, [IDLE, sent(0, 1, [], ENDS)])[:1],
            [*logs_of(2, [IDLE])[1], sent(0, 1, [[Z, 0, [0], 1]], DROPS) | {"is_send": False}]],
        "differs at w1, line 8: worker 1 receives batch 1 of worker 0",
        ["a 1 out 0 (0): +1", "z 3 in 0 (0): +1"]),
}  # fmt: skip
# The logs, how many of them are given, and what is said.
INCOMPLETE = {
    "batches of a loop and around it": (cut(logs_of(2, OTHER, LOOP), 1, len(LOOP) + 7), 2,
        ["w1 is cut off; 2 batches of several scopes of worker 1, which it lacks, followed as w0 has them"]),
    "a batch that others received": (cut(logs_of(2, [FED, IDLE, PASSED, READ]), 0, 10), 2,
        ["w0 is cut off; batch 3 of worker 0, which it lacks, followed as w1 has it"]),
    "a log that is not given": (logs_of(2, [FED, IDLE, PASSED, READ]), 1,
        ["no log of worker 1 is given", "batch 1 of worker 1, which it lacks, followed as w0 has it"]),
    "a batch that one did not receive": (without(logs_of(2, [FED, IDLE, PASSED, READ]), 1, 9), 2,
        ["worker 1 has not received batch 3 (w0, line 11) of worker 0"]),
    "what is left is told, and of nobody that it is wrong": (
        cut(logs_of(2, [sent(1, 1, [], DROPS), sent(0, 1, [[Z, 0, [0], -1]], ENDS)]), 1, 5), 2,
        ["w1 is cut off; batch 1 of worker 1, which it lacks, followed as w0 has it",
            "as far as the logs go:",
            "worker 0 consumed a message at z 3 in 0 (0), and no batch says who made it", "made by worker 1",
            "worker 1 holds a capability of a 1 out 0 (0)"]),
}  # fmt: skip


def line_but(place, **other):
    """The events of a log of which one has other members."""
    events = [*LINE, FED]
    return [[*events[:place], {**events[place], **other}, *events[place + 1 :]]]


def fed_with(*entry):
    return line_but(5, messages=[list(entry)])


# The logs, where it is, and what is said.
MISREAD = {
    "more enters a loop than was sent to it": (
        logs_of(1, [inside(0, 1, [], [[0, 0, [0, 0], -2], *LOOP_DROPS]), INTO], LOOP),
        "unsupported: w0, line 12",
        "the entry at Loop: all 2 in 0 (0); the worker's batches in other scopes: w0, line 14 (scope [])"),
    "a time of a loop with one number": (logs_of(1, [ENTERS, inside(0, 2, [[2, 0, [0], -1]])], LOOP),
        "unsupported: w0, line 14", "the time [0]; a time can be a list of 2 numbers there"),
    "a second scope": (line_but(5, scope=[4]), "unsupported: w0, line 6",
        "the scope [4], and no operator of the scope [] is it"),
    "operators of a second scope": ([[*LINE, operates(1, "inner", 1, 1, scope=[2]), FED]],
        "unsupported: w0, line 7",
        "an entry at the border of m 2, which is a scope: no message there explains it"),
    "a time of two numbers": (fed_with(M, 0, [0, 0], 1), "unsupported: w0, line 6", "the time [0, 0]"),
    "a text for a time": (fed_with(M, 0, ["now"], 1), "unsupported: w0, line 6", "the time ['now']"),
    "a delay": (line_but(2, summary=[[0, 0, 1]]), "unsupported: w0, line 3",
        "m (operator 2) delays by 1 from input 0 to output 0"),
    "workers who do not agree": ([*line_but(2, name="n"), *logs_of(1, [])], "unsupported: w1, line 3",
        "operator 2 (m) is another one in the other logs"),
    "sixty-five workers": (line_but(5, source=64), "unsupported: w0, line 6",
        "worker 64; at most 64 workers"),
    "seventeen channels from an output": (
        [[operates(1, "a", 0, 1), operates(2, "m", 17, 0), *(channel([1, 0], [2, it]) for it in range(17))]],
        "unsupported: w0, line 19", "a 1 out 0 has more than 16 channels"),
    "a cycle": (
        [[operates(1, "a", 1, 1), operates(2, "m", 1, 1), channel([1, 0], [2, 0]), channel([2, 0], [1, 0])]],
        "unsupported: w0", "the program refuses the graph: 46 LoopNotStrict"),
    "no JSON": ([b'{"event":"Operates"\n{}\n'], "unreadable: w0, line 1", "it is not JSON"),
    "no object": ([b"5\n"], "unreadable: w0, line 1", 'an object with a text "event"'),
    "a trace": ([b'{"do":"broadcast","p":0}\n'], "unreadable: w0, line 1", 'an object with a text "event"'),
    "no operators": ([[FED]], "unreadable: w0", "no file has an event Operates"),
    "an empty file": ([b""], "unreadable: w0", "no file has an event Operates"),
    "a member that is missing": ([[{"event": "Operates", "node": 1}]], "unreadable: w0, line 1",
        'the event Operates has no "'),
    "a member of another form": (line_but(5, is_send=1), "unreadable: w0, line 6",
        '"is_send" is 1; it must be true or false'),
    "an entry of another form": (fed_with(M, 0, [0]), "unreadable: w0, line 6",
        "an entry is [node, port, time, n]"),
    "an entry at no port": (fed_with(M, 1, [0], 1), "unreadable: w0, line 6",
        "an entry of messages at input 1 of operator 2"),
    "a channel to no port": ([[*LINE, channel([1, 0], [7, 0])]], "unreadable: w0, line 6",
        "a channel from or to a port that no operator has"),
    "a summary of no port": (line_but(2, summary=[[0, 1]]), "unreadable: w0, line 3",
        "the summary of m names a port that it does not have"),
    "two workers in a file": ([[*LINE, FED, IDLE]], "unreadable: w0, line 7",
        "worker 1 sends, and before it worker 0"),
    "a worker in two files": ([[*LINE, FED], [*LINE, FED]], "unreadable: w1, line 6",
        "worker 0 sends, and in w0, too"),
}  # fmt: skip
