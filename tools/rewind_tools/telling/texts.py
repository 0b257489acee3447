"""Where a line's text breaks as JSON."""
import json
import re

LEVELS = 127
TOKEN = re.compile(r'"(?:[^"\\]|\\.)*"|[][{}]|-?Infinity|NaN|-?\d[-+.\deE]*')
HALF = re.compile(r"\\\\|\\u[dD][89abAB]..\\u[dD][c-fC-F]..|(\\u[dD][89a-fA-F]..)")
WORDS = re.compile(r"\s*[A-Za-z?][\w-]*(?:\s+\S+)*\s*", re.ASCII)


def words_of_line(line):
    """The words of a line that begins with one, as 'run 10' does; none of another line."""
    text = line.decode(errors="replace")
    return text.split() if WORDS.fullmatch(text) else []


def break_of(line):
    """The column, from 1, at which a line's bytes break as JSON, and how."""
    try:
        text = line.decode()
    except UnicodeDecodeError as fault:
        return len(line[: fault.start].decode()) + 1, "the bytes from here on are no UTF-8"
    try:
        json.loads(text)
    except json.JSONDecodeError as fault:
        return fault.pos + 1, fault.msg[0].lower() + fault.msg[1:]
    except (ValueError, RecursionError):
        pass
    return break_past_python(text)


def break_past_python(text):
    """The same of a text that Python reads all the same."""
    depth = 0
    for token in TOKEN.finditer(text):
        it, column = token[0], token.start() + 1
        half = next((part for part in HALF.finditer(it) if part[1]), None) if it[0] == '"' else None
        if half:
            return column + half.start(), "half of a pair of surrogates"
        depth += (it in "[{") - (it in "]}")
        if depth > LEVELS:
            return column, f"more than {LEVELS} levels of nesting"
        if it in ("NaN", "Infinity", "-Infinity"):
            return column, "no JSON number"
        if it[0] in "-0123456789" and abs(float(it)) == float("inf"):
            return column, "a number past the range of floats"
    return None
