"""The table of requests: of each the states in which it may come, and the method that answers it."""

NEW, READY, LAUNCHED, RUNNING, STOPPED, ENDED = "new ready launched running stopped ended".split()
HANDLERS = {}


class Refused(Exception):
    """A request is not answered: its text says why."""


def on(command, *states):
    """Has a method answer a request, in some states."""

    def note(method):
        HANDLERS[command] = states, method
        return method

    return note
