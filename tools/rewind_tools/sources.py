"""Where the lines of a saved run come from: beside the script FILE, FILE.lines names a file, a line and a
note for each (following/saving.py).

    places = places_of("run.jsonl")      by the number of a line its place, as bytes; {} without such a file,
                                         or if the script has other lines
    words_of(places[5])                  "worker-0.jsonl, line 3; note: main.rs:12"
    with_place("step 3: ..", place)      words with the place that belongs to them, if there is one
    marks_of("run.jsonl")                what was refused: the number of the step before it, or "end", the
                                         worker, and a text; FILE.lines has lines for that, as
                                         {"refused":"end","worker":1,"text":"line 7: .."}
    verdict_of("run.jsonl")              how the run ended, in words, from a line {"verdict":".."}; or ""
    of_page("run.jsonl")                 all three for a page
    remove_others(path, places)          removes the places of a script that is overwritten"""
import contextlib
import json
import os


def places_of(path):
    found = {}
    with contextlib.suppress(OSError, ValueError):
        with open(f"{path}.lines", "rb") as lines, open(path, "rb") as script:
            for it in lines:
                if it.startswith(b'{"script":'):
                    found[int(it[10 : it.index(b",")])] = it
            count = sum(1 for _ in script)
    return found if max(found, default=0) == (count if found else 0) else {}


def marks_of(path):
    marked = values_of(path, b'{"refused":')
    return [(it["refused"], it["worker"], it["text"]) for it in marked]


def verdict_of(path):
    return "\n".join(it["verdict"] for it in values_of(path, b'{"verdict":'))


def of_page(path):
    return {"marks": marks_of(path), "places": places_of(path), "verdict": verdict_of(path)}


def values_of(path, begin):
    """The lines of FILE.lines that begin so, as values."""
    with contextlib.suppress(OSError, ValueError), open(f"{path}.lines", "rb") as lines:
        return [json.loads(it) for it in lines if it.startswith(begin)]
    return []


def words_of(place):
    it = json.loads(place)
    note = f"; note: {it['note']}" if "note" in it else ""
    return f"{it['file']}, line {it['line']}{note}"


def with_place(said, place):
    return f"{said} [{words_of(place)}]" if place else said


def remove_others(path, places):
    """Removes FILE.lines, if FILE has been written anew and its lines have other places now."""
    if places_of(path) not in ({}, places):
        os.unlink(f"{path}.lines")
