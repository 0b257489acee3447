"""What a line of a trace says of its reply, compared with the program's.

    different_members(line, reply)       the members of a query's reply that are not as "is" says
    change_of(line, effect)              what a broadcast or a receive moved, by the reply to 'effect'
    entries_apart([..], [..])            the entries of two lists that only one of them has"""

# The members whose lists have no order.
SETS = ("view", "frontier", "times", "reasons")
# Of why, what no worker can know, and is not compared.
UNKNOWN = ("finished", "ok")
REASON = ("point", "view")


def frozen(it):
    """A value that can be an element of a set."""
    if isinstance(it, dict):
        return tuple((key, frozen(it[key])) for key in sorted(it))
    return tuple(map(frozen, it)) if isinstance(it, list) else (type(it) is bool, it)


def reasons_of(reasons, keys):
    return [{key: it[key] for key in keys if key in it} for it in reasons]


def compared(line, reply):
    """The members that are compared: what the trace says, and what the reply has."""
    said, got = line.own.answer, reply
    if line.word == "why":
        said = {key: it for key, it in said.items() if key not in UNKNOWN}
        got = {key: it for key, it in reply.items() if key in ("passed", "reasons")}
    if line.word == "why" and "reasons" in said:
        keys = [key for key in REASON if all(key in it for it in said["reasons"])]
        said = {**said, "reasons": reasons_of(said["reasons"], keys)}
        got = {**got, "reasons": reasons_of(got["reasons"], keys)}
    return said, got


def different_members(line, reply):
    """The members of a reply that are not as the line says, as the reply has them; None for one that it does
    not have."""
    said, got = compared(line, reply)
    return {key: got.get(key) for key, it in said.items() if not are_same(key, it, got.get(key))}


def are_same(key, one, other):
    if key in SETS and isinstance(one, list) and isinstance(other, list):
        return set(map(frozen, one)) == set(map(frozen, other))
    return frozen(one) == frozen(other)


def entries_apart(said, got):
    """The entries that the first list alone has, and those that the second alone has."""
    one, other = set(map(frozen, said)), set(map(frozen, got))
    return [it for it in said if frozen(it) not in other], [it for it in got if frozen(it) not in one]


def change_of(line, effect):
    """What a step moved: of a broadcast old minus new of the worker's unsent entries, of a receive new minus
    old of its view's."""
    key, sign = ("views", 1) if line.word == "receive" else ("unsent", -1)
    return {(name, tuple(time)): sign * (new - old) for _, name, time, old, new in effect["changed"][key]}
