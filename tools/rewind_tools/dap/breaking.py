"""The requests that set breakpoints. Each kind is set as a list, which replaces the one before."""
import json
import os

from rewind_tools.dap.breakpoints import NotSet
from rewind_tools.dap.requests import LAUNCHED, RUNNING, STOPPED, Refused, on
from rewind_tools.dap.variables import data_id
from rewind_tools.typed import NotTyped, time_of, words_of_line

STARTED = (LAUNCHED, RUNNING, STOPPED)
NOT_KEPT = "no step is kept there yet"


class Breaking:
    """The part of the adapter that sets breakpoints. `asked_breaks` has each list that was asked for, so
    that a session that begins anew has them, too."""

    def new_number(self):
        self.next_number += 1
        return self.next_number - 1

    def is_script(self, source):
        path = source.get("path")
        return bool(path) and os.path.realpath(path) == os.path.realpath(self.scripted.path)

    def is_list(self, source):
        path = self.steps.path
        return bool(source.get("sourceReference")) or bool(path) and source.get("path") == path

    # ---- lines

    @on("setBreakpoints", *STARTED)
    def set_breakpoints(self, asked):
        source = asked["source"]
        wanted = asked.get("breakpoints")
        if wanted is None:
            wanted = [{"line": it} for it in asked.get("lines") or []]
        if self.is_script(source):
            return {"breakpoints": self.set_script_lines(wanted)}
        if not self.is_list(source):
            said = "rewind stops in its script and in the list of kept steps alone"
            return {"breakpoints": [{"verified": False, "message": said} for _ in wanted]}
        self.asked_breaks["lines"] = asked
        breakpoints = self.moving.breakpoints
        breakpoints.clear(breakpoints.lines)
        return {"breakpoints": [self.set_line(it) for it in wanted]}

    def set_script_lines(self, wanted):
        """Sets breakpoints before lines of the script."""
        self.script_breaks.clear()
        known = {it.number for it in self.scripted.script.lines}
        told = []
        for it in wanted:
            line = it["line"] + 1 - self.first_line
            is_there = line in known
            self.script_breaks.update([line] if is_there else [])
            said = {} if is_there else {"message": "this line of the script is not executed"}
            told.append({"id": self.new_number(), "verified": is_there, "line": it["line"], **said})
        return told

    def set_line(self, wanted):
        """Sets a breakpoint at a line of the list."""
        position, told = wanted["line"] - self.first_line, {"id": self.new_number(), "line": wanted["line"]}
        told = self.tried(told, self.moving.breakpoints.set_line, position, wanted.get("condition"))
        if told["verified"] and position > self.console.kept:
            self.moving.breakpoints.unkept.add(told["id"])
            return {**told, "verified": False, "message": NOT_KEPT}
        return told

    def tried(self, told, setting, *values):
        """What is told of a breakpoint that is set, or cannot be."""
        try:
            made = setting(told["id"], *values)
        except NotSet as fault:
            return {**told, "verified": False, "message": str(fault)}
        return {**told, "verified": True, **({"message": made.words} if made else {})}

    def verify_lines(self):
        """Says which breakpoints have come to be at a kept step."""
        breakpoints = self.moving.breakpoints
        for it in sorted(breakpoints.unkept):
            if it in breakpoints.lines and breakpoints.lines[it].position <= self.console.kept:
                breakpoints.unkept.discard(it)
                line = breakpoints.lines[it].position + self.first_line
                told = {"id": it, "verified": True, "line": line}
                self.out.event("breakpoint", reason="changed", breakpoint=told)

    # ---- conditions

    @on("setFunctionBreakpoints", *STARTED)
    def set_function_breakpoints(self, asked):
        self.asked_breaks["conditions"] = asked
        breakpoints = self.moving.breakpoints
        breakpoints.clear(breakpoints.conditions)
        told = [self.set_condition(it) for it in asked["breakpoints"]]
        if not self.scripted.left:
            breakpoints.enter_program()
        return {"breakpoints": told}

    def set_condition(self, wanted):
        told, more = {"id": self.new_number()}, wanted.get("condition")
        text = f"{wanted['name']} and {more}" if more else wanted["name"]
        return self.tried(told, self.moving.breakpoints.set_condition, text)

    # ---- entries of views

    @on("dataBreakpointInfo", STOPPED)
    def data_breakpoint_info(self, asked):
        if asked.get("variablesReference"):
            point = self.variables.data_of(asked["variablesReference"], asked["name"])
        else:
            frame = asked.get("frameId")
            point = self.point_of(self.thread - 1 if frame is None else self.processor(frame), asked["name"])
        if point is None:
            return {"dataId": None, "description": "only an entry of a view can be watched"}
        said = f"processor {point['q']}'s view of {point['at']} ({','.join(map(str, point['time']))})"
        return {"dataId": data_id(point), "description": said, "accessTypes": ["write"]}

    def point_of(self, p, text):
        """The entry of a processor's view that a typed location and time name."""
        try:
            words = words_of_line(text)
            if len(words) != 2 or words[0] not in self.console.teller.graph.order:
                return None
            return {"q": p, "at": words[0], "time": time_of(words[1].strip("()"))}
        except NotTyped:
            return None

    @on("setDataBreakpoints", *STARTED)
    def set_data_breakpoints(self, asked):
        self.asked_breaks["entries"] = asked
        breakpoints = self.moving.breakpoints
        breakpoints.clear(breakpoints.entries)
        return {"breakpoints": [self.set_entry(it) for it in asked["breakpoints"]]}

    def set_entry(self, wanted):
        told = {"id": self.new_number()}
        try:
            point = json.loads(wanted["dataId"])
            its = point["q"], point["at"], point["time"]
            return self.tried(told, self.moving.breakpoints.set_entry, *its)
        except (ValueError, KeyError, TypeError):
            return {**told, "verified": False, "message": "this is not an entry of a view"}

    # ---- refused lines of the script

    @on("setExceptionBreakpoints", *STARTED)
    def set_exception_breakpoints(self, asked):
        filters = asked["filters"]
        unknown = [it for it in filters if it != "refused"]
        if unknown:
            raise Refused(f"there is no filter {unknown[0]}")
        self.stops_at_refused = self.scripted.stops_at_refused = "refused" in filters

    def set_again(self):
        """Sets what was asked for in a session that begins anew."""
        for kind, method in (
            ("lines", self.set_breakpoints),
            ("conditions", self.set_function_breakpoints),
            ("entries", self.set_data_breakpoints),
        ):
            if kind in self.asked_breaks:
                method(self.asked_breaks[kind])
