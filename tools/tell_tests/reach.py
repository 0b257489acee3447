"""What tools/test_tell tells of scripts of version 7: what can still happen, and runs by a seed."""
from rewind_tools.testing import LINE
from tell_tests.cases import EXCHANGE, V6, V7, do, typed

PASSED = {"passed": {"q": 0, "at": "z", "time": [0]}}


def reach(limit, **more):
    return do("reach", when=PASSED, limit=limit, **more)


REACH_TOLD = {
    "what can still happen": (["--processors", "2"], [
        V7, EXCHANGE, *typed("feed 0 a 1 close; feed 1 a close; reach passed 0 z 0 limit 1000; "
            "reach passed 0 z 0 limit 1; reach passed 0 z 0 limit 0; run 99 seed 1; "
            "reach passed 0 z 0 limit 1; run 9 only 0 7 seed 1"),
    ], 0, [
        (5, "by which steps does it come to hold that processor 0 has passed z (0)? (1000 states at most)"),
        (5, "after 5 steps, and no fewer"), (5, "processor 0 broadcasts all that is unsent"),
        (6, "at none of 1 state that can be reached; there are more, which were not looked at"),
        (7, "refused: the limit, 0, is not from 1 to 1000000"),
        (8, "run, at most 99 steps, chosen by the seed 1"), (9, "it holds already"),
        (10, "run processors 0 and 7 alone, at most 9 steps, chosen by the seed 1"),
    ]),
    "what cannot happen": ([], [
        V7, LINE, *typed("reach passed 0 z 0 limit 10; reach passed 0 z 0 feed limit 10"),
    ], 0, [
        (3, "at none of 1 state that can be reached; these are all"), (4, "feeds of nothing counted?"),
        (4, "after 3 steps, and no fewer"),
    ]),
    "words of version 7": ([], [
        V7, LINE, reach(1, **{"with": []}), reach(1, **{"with": ["feed", "feed"]}),
        reach(1, **{"with": ["send"]}), do("reach", limit=1), *typed("run 1 seed -1"), do("raech"),
    ], 0, [
        (3, '"with":[] is empty'), (4, "has an item twice"), (5, "is none of these"),
        (6, 'the key "when" is missing'), (7, '"seed":-1 is below 0'), (8, 'the nearest is "reach"'),
    ]),
    "forms of version 7 in version 6": ([], [
        V6, LINE, *typed("reach passed 0 z 0 limit 1; run 1 seed 1"),
    ], 0, [
        (3, '"reach" came with version 7, and the script is of version 6'),
        (4, 'the key "seed" of run came with version 7'),
    ]),
}  # fmt: skip
