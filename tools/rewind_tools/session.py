"""One process of the program that is asked line by line, in the last version of the script that it reads.

    from rewind_tools.session import Session, Ended
    session = Session(graph, ["--processors", "2"])
    session.started                     the reply to the graph's line
    session.ask({"do": "candidates"})   the reply to a line; Ended, if the program has ended
    session.ask_all([..])               the replies to many lines, which are written while replies are read
    session.ask_lines([b"..", ..])      the same of lines given as bytes, the replies as bytes, too
    session.ask_pieces([[b"..", ..]])   the replies to many lists of lines, the bytes of each list's
    session.close()

The program is ./rewind, or what REWIND_PROGRAM names in the environment. It runs in a session of its own, so
Ctrl-C at the terminal reaches the tool alone; and it ends with the tool, however that ends. Another thread
may kill it: whoever waits for a reply then gets Ended. A name of the graph that the program does not take
has a short one there (short_names.py), of which nobody else hears."""
import collections
import contextlib
import ctypes
import itertools
import json
import os
import signal
import subprocess
import tempfile
import threading
from concurrent.futures import ThreadPoolExecutor

from rewind_tools.runs import NOTES, PROGRAM, environment
from rewind_tools.script import LAST
from rewind_tools.short_names import Names

# How often the notes of ./rewind are looked for while the program starts, and how much of them is read.
SECONDS_BETWEEN, MOST_SAID = 0.5, 1 << 20
# What a pipe takes at once, however little room the system gives it.
PIPE_BYTES, BUFFER = 4096, 1 << 17
# Linux ends a program with the thread that started it, if the program asks for that (prctl's number). So one
# thread starts all of them, and stays as long as the tool.
LIBC, PR_SET_PDEATHSIG = ctypes.CDLL(None), 1
STARTER = ThreadPoolExecutor(1)


def end_with(parent):
    """Has the process end with its parent; called in the new process."""
    if hasattr(LIBC, "prctl"):
        LIBC.prctl(PR_SET_PDEATHSIG, signal.SIGKILL)
    if os.getppid() != parent:
        os._exit(1)


class Ended(Exception):
    """The program has ended: its text says how."""


class VersionRefused(Ended):
    """The program does not have the version of the script that it was asked for, and has ended."""


class Session:
    """The program's process, at the graph's line and after it. While it starts, which may take a minute,
    each note of ./rewind is given to `on_note`."""

    def __init__(self, graph, words=(), version=LAST, on_note=None):
        self.graph, self.words, self.version, self.names = graph, list(words), version, Names(graph, version)
        self.errors = tempfile.TemporaryFile()
        parent = os.getpid()
        how = {"stdin": subprocess.PIPE, "stdout": subprocess.PIPE, "stderr": self.errors, "bufsize": BUFFER}
        how |= {"env": environment(), "start_new_session": True, "preexec_fn": lambda: end_with(parent)}
        words = ["rewind", *self.words]
        self.process = STARTER.submit(subprocess.Popen, words, executable=PROGRAM, **how).result()
        has_started = threading.Event()
        watching = threading.Thread(target=self.pass_notes, args=[on_note or (lambda it: None), has_started])
        watching.start()
        try:
            is_refused = "error" in self.ask({"version": version})
            self.started = None if is_refused else self.ask(graph)
        except KeyboardInterrupt:
            self.kill()
            raise
        finally:
            has_started.set()
            watching.join()
        if is_refused:
            said = self.end_words()
            self.close()
            raise VersionRefused(said)

    def ask(self, value):
        return self.ask_all([value])[0]

    def ask_all(self, values):
        """The replies to lines, in their order."""
        return self.ask_texts([json.dumps(it, separators=(",", ":")).encode() for it in values])

    def ask_texts(self, texts):
        """The replies to lines that are given as bytes, none of them blank, in their order."""
        return [json.loads(it.decode()) for it in self.ask_lines(texts)]

    def ask_lines(self, texts):
        """The same, each reply as the line that it is."""
        return self.exchange(texts, self.read)

    def exchange(self, texts, read):
        texts = texts if not self.names.short else [self.names.given(it) for it in texts]
        text = b"\n".join([*texts, b""])
        if len(text) <= PIPE_BYTES:
            self.write(text)
            return read(len(texts))
        writer = threading.Thread(target=self.write, args=[text], daemon=True)
        writer.start()
        replies = read(len(texts))
        writer.join()
        return replies

    def ask_pieces(self, pieces):
        """The replies to lists of lines, list by list; the next ones are made while the program answers."""
        asking, asked = ThreadPoolExecutor(1), collections.deque()
        try:
            for texts in pieces:
                asked.append(asking.submit(self.exchange, texts, self.read_bytes))
                while asked and asked[0].done():
                    yield asked.popleft().result()
            while asked:
                yield asked.popleft().result()
        finally:
            asking.shutdown(cancel_futures=True)

    def write(self, text):
        try:
            self.process.stdin.write(text)
            self.process.stdin.flush()
        except (OSError, ValueError):
            pass  # that the program has ended is noticed where its reply is read

    def read(self, count):
        """The next replies, as lines."""
        lines = list(itertools.islice(self.process.stdout, count))
        if len(lines) < count or not all(it.endswith(b"\n") for it in lines[-1:]):
            raise Ended(self.end_words())
        return lines if not self.names.short else [self.names.told(it) for it in lines]

    def read_bytes(self, count):
        """The next replies, as bytes."""
        parts = []
        while count:
            parts.append(self.process.stdout.read1(BUFFER))
            if not parts[-1]:
                raise Ended(self.end_words())
            count -= parts[-1].count(b"\n")
        replies = b"".join(parts)
        return replies if not self.names.short else self.names.told(replies)

    def said(self):
        """What the program has written to standard error so far, without the notes of ./rewind."""
        return "\n".join(it for it in self.error_lines() if not it.startswith(NOTES))

    def notes(self):
        """The lines in which ./rewind speaks of itself: that no answer is proved, if none is."""
        return [it for it in self.error_lines() if it.startswith(NOTES)]

    def pass_notes(self, on_note, has_started):
        """Passes the notes on, each once, until the program has started."""
        passed, is_last = 0, False
        while not is_last:
            is_last = has_started.wait(SECONDS_BETWEEN)
            notes = self.notes()
            for it in notes[passed:]:
                on_note(it)
            passed = len(notes)

    def error_lines(self):
        # the program writes at the file's own position, which stays as it is
        said = os.pread(self.errors.fileno(), MOST_SAID, 0)
        return said.decode(errors="replace").strip().splitlines()

    def end_words(self):
        status = self.process.wait()
        how = f"by signal {-status}" if status < 0 else f"with status {status}"
        return f"the program ended {how}" + (f": {self.said()}" if self.said() else "")

    def on_end(self, act):
        """Has something done as soon as the program has ended."""
        threading.Thread(target=lambda: (self.process.wait(), act()), daemon=True).start()

    def kill(self):
        """Ends the program at once, with all that it has started."""
        if self.process.poll() is None:
            with contextlib.suppress(ProcessLookupError):
                os.killpg(self.process.pid, signal.SIGKILL)
        self.process.wait()

    def close(self):
        """Ends the program at once, and lets go of its pipes."""
        self.kill()
        for it in (self.process.stdin, self.process.stdout, self.errors):
            with contextlib.suppress(OSError):
                it.close()


def write_text(path, text):
    """Writes a file; a fault names it, also that the disk is full."""
    try:
        with open(path, "w", encoding="utf-8") as it:
            it.write(text)
    except OSError as fault:
        raise OSError(fault.errno, fault.strerror, path) from fault
