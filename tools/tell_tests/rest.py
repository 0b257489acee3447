"""What tools/test_tell tells of rest, in scripts of all versions: what is left, how that can finish, and
which loop goes round."""
from live_tests.served import around
from tell_tests.cases import ADD, EXCHANGE, HELD, SUM, V3, V5, V8, do, typed

GREATEST = 9223372036854775807
FEEDS_ON = "somebody must: processor 1 feeds nothing into a and goes on to the next epoch, or gives up its"
REST_TOLD = {
    "it finishes": (["--processors", "2"], [
        V8, EXCHANGE,
        *typed("feed 0 a 1 close; feed 1 a close; why 0 z 0; why 0 z 0 rest 100; why 0 z 0 rest 6"),
    ], 0, [
        (5, "finished? it finishes, by any order: 7 steps are left processor 0 does not know that z (0) is"),
        (6, "(100 steps at most) it finishes, by any order: 7 steps are left"),
        (7, "this does not come to rest within 6 steps then processor 0 does not know"),
    ], [(6, "does not know"), (5, "somebody must")]),
    "in an earlier version": (["--processors", "2"], [
        V3, EXCHANGE, *typed("feed 0 a 1 close"), do("send"), *typed("feed 1 a close; why 0 z 0; "
            "passed 0 z 0"),
    ], 0, [
        (6, "finished? it finishes, by any order: 7 steps are left processor 0 does not know that z (0) is"),
        (7, "no: its view has a (0) at or before it"),
    ], [(7, "steps are left")]),
    "a token": (["--processors", "2"], [
        SUM, *typed("feed 0 a 2 close; feed 1 a 3 stay; passed 0 z 0; run 100; notice 1 s 0; passed 0 z 0"),
    ], 0, [
        (4, "this stays: the token of processor 1 at a (0)"),
        (6, "(10 NotYet) no step is left, and this stays: the token of processor 1 at a (0)"),
    ], [(7, "this stays")]),
    "how a token can finish": (["--processors", "2"], [
        V3, SUM, *typed("feed 0 a 2 close; feed 1 a 3 stay; run 100; why 0 z 0; why 0 z 0"),
    ], 0, [
        (6, f"this stays: the token of processor 1 at a (0) {FEEDS_ON} token the protocol then"),
        (7, "this stays: the token of processor 1 at a (0) processor 0 does not know"),
    ], [(7, "somebody must")]),
    "a capability": ([], [V5, HELD, *typed("feed 0 a 7 close; why 0 z 0")], 0, [
        (4, "this stays: the capability of processor 0 at h (0) the protocol does"),
        (4, "somebody must: processor 0 releases the capability that it holds at h (0)"),
    ]),
    "a record that cannot be taken": ([], [
        V8, ADD, *typed("feed 0 a 9223372036854775807 close; why 0 z 0 rest 10"),
    ], 0, [
        (4, "after 2 steps a limit refuses what is left; this stays, if no other order ends it: 1 record of "
            f"value {GREATEST} on processor 0 at am (0)"),
    ]),
    "a loop": ([], [*around(), *typed("run 200; run 3")], 0, [
        (3, "that is the limit the cursor is at 201 of 201 kept steps a record goes round loop f (0): in "
            "the last 200 steps its counter grows from 0 to 99"),
        (3, "me (0,2) | 1* | . | 1* and 97 more rounds of loop f, to me (0,99) and 1 point as before"),
    ], [(4, "goes round")]),
    "a word that is no text": ([], [SUM, '{"do":[]}', *typed("feed 0 a close; why 0 z 0; passed 0 z 0")],
        0, [(2, '"do":[] is a list'), (5, "it finishes, by any order: 2 steps are left")]),
    "several clients": (["--clients", "2"], [
        EXCHANGE, '{"client":0,"do":"feed","p":0,"vertex":"a","values":[],"next":"stay"}',
        '{"client":0,"do":"notice","p":0,"vertex":"z","time":[0]}',
    ], 0, [(3, "refused")], [(3, "at rest")]),
}  # fmt: skip
