"""What the tools share: the options of the program among their own, and how they end.

    words = parser("tell", __doc__)                 an argparse parser, with the options of ./rewind
    program_words(words.parse_args())               these options, as ./rewind takes them
    run("tell", main)                               ends the tool with the status that main returns
    open_live("run.jsonl", 2)                       opens a script in the browser, until that ends

A tool never ends with a traceback for what is no fault of its own: a reader that has gone away, a full disk,
a file that cannot be read, or the end of the program."""
import argparse
import contextlib
import os
import signal
import subprocess
import sys
import time

from rewind_tools import graph_text
from rewind_tools.script import LAST, most_processors
from rewind_tools.session import Ended

MOST = {"processors": most_processors(LAST), "clients": 64}
FAILED, INTERRUPTED = 1, 130
# How many seconds there are between two words of progress.
BETWEEN = 3


class Fault(Exception):
    """The tool cannot go on: its text says why, in one line."""


class Progress:
    """Says now and then how far something is, if it takes longer than some seconds."""

    def __init__(self, say):
        self.say = say
        self.begin()

    def begin(self):
        """Notes that something begins."""
        self.said = time.monotonic()

    def report(self, text):
        now = time.monotonic()
        if now - self.said >= BETWEEN:
            self.said = now
            self.say(text)


class Parser(argparse.ArgumentParser):
    """A parser that says in one line what is wrong."""

    def error(self, message):
        self.exit(2, f"{self.prog}: {message}; {self.prog} --help says more\n")


def number_up_to(most):
    def number(word):
        if not (word.isascii() and word.isdigit() and 1 <= int(word) <= most):
            raise argparse.ArgumentTypeError(f"{word} is not a number from 1 to {most}")
        return int(word)

    return number


def parser(name, description, options=("processors", "clients")):
    """A parser for the tool of that name; its description is shown as it is written."""
    how = {"formatter_class": argparse.RawDescriptionHelpFormatter, "allow_abbrev": False}
    made = Parser(f"tools/{name}", description=description, **how)
    for option in options:
        said = f"number of {option}, 1 to {MOST[option]}; 1 if not given"
        made.add_argument(f"--{option}", type=number_up_to(MOST[option]), metavar="N", help=said)
    return made


def program_words(words, options=("processors", "clients")):
    """The options of the program that were given."""
    given = {it: getattr(words, it, None) for it in options}
    return [word for it, number in given.items() if number is not None for word in (f"--{it}", str(number))]


def read_bytes(path):
    """A file's bytes; those of standard input for '-'."""
    with open(0 if path == "-" else path, "rb") as it:
        return it.read()


def read_script(path, any_names=False):
    """A script's bytes, the graph as JSON if it is written as paths: with any names, or those that the
    program takes."""
    try:
        return graph_text.with_json(read_bytes(path), any_names)
    except graph_text.Wrong as wrong:
        raise Fault(f"{path}: {wrong}") from wrong


def open_live(path, workers):
    """Opens a script of `workers` workers in the browser, until that ends. tools/live ends with the tool."""
    live = os.path.join(os.path.dirname(os.path.dirname(os.path.realpath(__file__))), "live")
    with subprocess.Popen([live, path, "--processors", str(workers)]) as process:
        try:
            while process.poll() is None:
                with contextlib.suppress(KeyboardInterrupt):  # of which tools/live has heard, too
                    process.wait()
        finally:
            process.terminate()


def close_output():
    """Lets go of standard output, so that what could not be written is not tried again."""
    os.dup2(os.open(os.devnull, os.O_WRONLY), sys.stdout.fileno())


def words_of(fault):
    """An error of the system, in one line."""
    return f"{fault.filename}: {fault.strerror}" if fault.filename else f"write failed: {fault.strerror}"


def end_by(number, _):
    """Ends the tool as it ends by itself: so that what it has is not lost."""
    sys.exit(128 + number)


def status_of(name, main):
    """The status of a tool's main function; what ends it before is said in one line."""
    for number in (signal.SIGTERM, signal.SIGHUP):
        if signal.getsignal(number) == signal.SIG_DFL:
            signal.signal(number, end_by)
    try:
        try:
            status = main()
        except SystemExit as end:  # of argparse, which has said why
            status = end.code
        sys.stdout.flush()
        return status
    except BrokenPipeError:
        close_output()
        return FAILED
    except KeyboardInterrupt:
        return INTERRUPTED
    except OSError as fault:
        if fault.filename is None:
            close_output()
        said = words_of(fault)
    except (Ended, Fault) as fault:
        said = fault
    print(f"{name}: {said}", file=sys.stderr)
    return FAILED


def run(name, main):
    """Ends the tool of that name with the status of its main function."""
    sys.exit(status_of(name, main))
