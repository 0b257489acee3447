"""Which of the prover's lines show that a body breaks its contract.

An edit counts if a clause is left open: what the function ensures, an invariant of its loop or of its type,
or what a function that it calls requires by a named clause. That is so, too, if the answer to such a goal
does not fit any more. An index out of range or a sum that may not fit shows nothing of the contract. An
answer that names what the edit took away, or a `grind` that stopped at a limit of its own, might refuse a
right body that is written otherwise, too. Where the search for a clause ended at its limit, the edit counts
for less."""
import enum
import re


class Kind(enum.IntEnum):
    """What a line shows, the strongest first."""

    CLAUSE = 0
    NAMES = 1
    MISFIT = 2
    SEARCH = 3
    LIMIT = 4
    OTHER = 5


# a goal without an answer, by the prover's words for it
OPEN_CLAUSE = re.compile(
    r"note: .*: it is not proved that (what the function ensures|what \S+ requires|the invariant "
    r"|the `invariant` |the struct's ghost fields)"
)
# an answer that does not fit, with its goal's name where the prover gives it
WRONG_ANSWER = re.compile(r"(?:\./)?proofs/\S+?:\d+:\d+: error: (?:`([^`]+)`: )?")
OF_CLAUSE = re.compile(r"returns|invariant_of|.*-(preserved|init)\b|(?!.*\bindex).*-requires")
OF_NAMES = re.compile(r"has no field|is not in scope|has no `|that can be named from here")
# what cites a proof that was refused for another line
FOLLOWS = re.compile(r"(?:\./)?proofs/.*(was not admitted|was not checked)")
AT_LIMIT = re.compile(r"stopped at (its own|the step) limit|the goal may hold|ran out of|outgrew")
OF_SEARCH = re.compile(r"`search` gave up at one of its limits|`search`: no proof of .*limit")


def kind_of(line):
    """What the line shows against its function, or None if it only follows from another."""
    answer = WRONG_ANSWER.match(line)
    if FOLLOWS.match(line):
        return None
    if answer and OF_NAMES.search(line):
        return Kind.NAMES
    if not OPEN_CLAUSE.match(line) and not (answer and OF_CLAUSE.match(answer[1] or "")):
        return Kind.OTHER
    if OF_SEARCH.search(line):
        return Kind.SEARCH
    if AT_LIMIT.search(line):
        return Kind.LIMIT
    return Kind.MISFIT if answer else Kind.CLAUSE


def wrong_answers(lines):
    """The goals whose answers do not fit; None stands for one that the prover does not name."""
    return {found[1] for found in map(WRONG_ANSWER.match, lines) if found}


def strongest(lines):
    """The line that shows most, with what it shows; None if no line shows anything."""
    shown = [(kind_of(it), it) for it in lines]
    return min((it for it in shown if it[0] is not None), key=lambda it: it[0], default=None)


COUNTS = (Kind.CLAUSE, Kind.MISFIT, Kind.SEARCH)
# what is said of an edit that counts for less
SAYS_LESS = " (the search for the clause ended at a limit of its own, so this says less)"
# what is said of an edit that does not count, by the strongest line
NOT_RIGHT = "the function is not proved with the right body that it names"
ADVICE = "turn something else, or name a right body that is proved in a line '-- right: TEXT'"
WHY_NOT = {
    Kind.NAMES: f"answers name what it took away, and a right body might be refused so, too ({ADVICE})",
    Kind.LIMIT: f"a tactic stopped at a limit of its own, so that the goal may hold ({ADVICE})",
    Kind.OTHER: "no clause, invariant or named condition is left open",
}
