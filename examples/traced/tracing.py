"""The traces: what each worker does, line by line, in a file of its own."""
import json
import os
import sys

# What the lines say; each level includes the ones before it.
STEPS, NUMBERS, CHANGES, BELIEFS = LEVELS = ["steps", "numbers", "changes", "beliefs"]


class Trace:
    def __init__(self, path, worker, tell=BELIEFS):
        self.worker, self.told = worker, LEVELS[: LEVELS.index(tell) + 1]
        self.file = open(path, "w", encoding="utf-8", buffering=1)

    def step(self, do, number=None, change=None, **keys):
        """Writes what the worker does; of a broadcast and a receive also which it is and what it moves."""
        keys["to" if do == "receive" else "p"] = self.worker
        if number is not None and NUMBERS in self.told:
            keys["number"] = number
        if change is not None and CHANGES in self.told:
            keys["change"] = [[*point, n] for point, n in change.items()]
        self.write(do, keys)

    def belief(self, do, point, **keys):
        """Writes that the worker believes what could result in a pointstamp finished."""
        if BELIEFS in self.told:
            asked = {"q": self.worker, "at": point.location, "time": point.time, **keys}
            self.write(do, {**asked, "is": {"passed": True}})

    def write(self, do, keys):
        caller = sys._getframe(2)
        while os.path.basename(caller.f_code.co_filename) == "capability.py":
            caller = caller.f_back  # to the operator
        note = f"{os.path.basename(caller.f_code.co_filename)}:{caller.f_lineno}"
        self.file.write(json.dumps({"do": do, **keys, "note": note}, separators=(",", ":")) + "\n")

    def close(self):
        self.file.close()
