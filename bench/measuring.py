"""The time of lines in the program that the first word names, for the scripts of this folder."""
import json
import subprocess
import sys
import tempfile
import time

from rewind_tools import graph_text

SCALES = {"milliseconds": 1e3, "microseconds": 1e6}


def graph_line(*paths):
    """The line of a graph that is written as paths."""
    return json.dumps(graph_text.read(paths), separators=(",", ":"))


def ran(lines, words=()):
    """How many seconds these lines take, each of which must succeed, and what is answered."""
    with tempfile.TemporaryFile("w+") as script:
        script.write("\n".join(lines) + "\n")
        script.flush()
        script.seek(0)
        begin = time.perf_counter()
        output = subprocess.run([sys.argv[1], *words], stdin=script, stdout=-1, check=True).stdout
        taken = time.perf_counter() - begin
    if refused := output.count(b'"error"'):
        sys.exit(f"{sys.argv[0]}: {refused} lines refused")
    return taken, output


def seconds(lines, words=()):
    """The least of three runs of these lines."""
    return min(ran(lines, words)[0] for _ in range(3))


def measure(what, before, lines, times, unit="microseconds"):
    """Prints the time of these lines, on top of the setup."""
    taken = (seconds(before + lines * times) - seconds(before)) / times * SCALES[unit]
    print(f"{what}: {taken:.1f} {unit}", flush=True)
