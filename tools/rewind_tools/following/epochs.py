"""The epochs of all traces, renumbered by rank, so that clocks fit into a script.

    epochs = Epochs()
    epochs.add(worker, value)        for each line of each trace, in its order
    epochs.close()
    epochs.rank(value)               a line's times and its "next", with ranks, in place
    epochs.told(structure)           a copy of a reply or a state, its times with epochs as they stood

Epoch 0 counts, and so does each epoch to which a feed moves its token. So the epoch after another, to which
"next" leads, has the next rank."""

MOST_EPOCH = 2**64 - 1
# Where a line has a time, a list of points, and in "is" lists of entries.
TIMES, POINTS, ENTRIES = ("time", "to", "at"), ("part", "change"), ("view", "frontier")


def is_whole(it, most=MOST_EPOCH):
    """Whether a JSON value is a number from 0 to a limit."""
    return type(it) is int and 0 <= it <= most


def of_points(points):
    """The times of a list of points or entries."""
    points = points if isinstance(points, list) else []
    return [it[1] for it in points if isinstance(it, list) and len(it) > 1]


def of_answer(answer):
    """The times of the members that a reply must have."""
    found = [time for key in ENTRIES for time in of_points(answer.get(key))]
    found += answer["times"] if isinstance(answer.get("times"), list) else []
    reasons = answer["reasons"] if isinstance(answer.get("reasons"), list) else []
    points = [answer.get("point"), *(it.get("point") for it in reasons if isinstance(it, dict))]
    return found + of_points(points)


def times_of(value):
    """The times of a line, each as the list that it is, with its epoch first."""
    found = [value[key] for key in TIMES if key in value]
    for key in POINTS:
        if key in value:
            found += of_points(value[key])
    if isinstance(value.get("is"), dict):
        found += of_answer(value["is"])
    return [it for it in found if type(it) is list and it and is_whole(it[0])]


class Tokens:
    """The epochs of the inputs' tokens, as a trace's feeds move them."""

    def __init__(self):
        self.epochs = {}

    def feed(self, worker, value):
        """The epoch at which a feed's values are, and the one to which it moves the token."""
        key, following = (worker, str(value.get("vertex"))), value.get("next")
        epoch = later = self.epochs.get(key, 0)
        if following == "next":
            later = epoch + 1
        elif isinstance(following, dict) and is_whole(following.get("to")):
            later = following["to"]
        self.epochs[key] = later
        return epoch, later


class Epochs:
    def __init__(self):
        self.found, self.tokens = {0}, Tokens()
        self.order, self.ranks, self.are_ranks = [0], {0: 0}, True

    def add(self, worker, value):
        """Takes a line's epochs."""
        for time in times_of(value):
            self.found.add(time[0])
        if value.get("do") == "feed":
            self.found.add(self.tokens.feed(worker, value)[1])

    def close(self):
        """Gives each epoch its rank."""
        self.order = sorted(self.found)
        self.ranks = {epoch: rank for rank, epoch in enumerate(self.order)}
        self.found, self.tokens = None, None
        self.are_ranks = self.order[-1] == len(self.order) - 1

    def rank(self, value):
        """Puts ranks for the epochs of a line."""
        if self.are_ranks:
            return
        for time in times_of(value):
            time[0] = self.ranks[time[0]]
        following = value.get("next") if value.get("do") == "feed" else None
        if isinstance(following, dict) and is_whole(following.get("to")):
            following["to"] = self.ranks[following["to"]]

    def told(self, it):
        """A copy of a reply or a part of one in which each time has its epoch."""
        if isinstance(it, dict):
            return {key: self.told_member(key, value) for key, value in it.items()}
        if not isinstance(it, list):
            return it
        if len(it) > 1 and isinstance(it[0], str) and isinstance(it[1], list):
            return [it[0], self.epoch(it[1]), *it[2:]]
        return [self.told(part) for part in it]

    def told_member(self, key, value):
        if key in TIMES and isinstance(value, list) and value and type(value[0]) is int:
            return self.epoch(value)
        if key == "times" and isinstance(value, list):
            return [self.epoch(time) for time in value]
        if key == "tokens":
            return [[vertex, self.order[epoch]] for vertex, epoch in value]
        return self.told(value)

    def epoch(self, time):
        return [self.order[time[0]], *time[1:]]
