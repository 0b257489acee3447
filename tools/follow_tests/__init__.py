"""The traces and logs of tools/test_follow and tools/test_timely, and what both do with them."""
import json
import os
import subprocess
import tempfile

from rewind_tools.testing import TOOLS

# What a program needs to start, at most.
SECONDS = 300


def texts_of(lines):
    """The bytes of a file: lines that are texts or values, or bytes as they are."""
    if isinstance(lines, bytes):
        return lines
    texts = [it if isinstance(it, str) else json.dumps(it) for it in lines]
    return "".join(f"{it}\n" for it in texts).encode()


def ran(tool, words, folder, **how):
    """How a tool ended that is started in a folder."""
    how = {"stdin": subprocess.DEVNULL, **how}
    words = [f"{TOOLS}/{tool}", *words]
    return subprocess.run(words, capture_output=True, text=True, cwd=folder, timeout=SECONDS, **how)


class Folder:
    """A folder with files w0, w1 and so on, a worker's trace or log each."""

    def __init__(self, files):
        self.folder = tempfile.TemporaryDirectory()
        self.names = [f"w{worker}" for worker in range(len(files))]
        for name, lines in zip(self.names, files):
            self.write(name, texts_of(lines))

    def __enter__(self):
        return self

    def __exit__(self, *_):
        self.folder.cleanup()

    def path(self, name):
        return os.path.join(self.folder.name, name)

    def write(self, name, text):
        with open(self.path(name), "wb") as it:
            it.write(text)

    def read(self, name):
        with open(self.path(name), encoding="utf-8") as it:
            return it.read()

    def values(self, name):
        """The values of a file's lines."""
        return list(map(json.loads, self.read(name).splitlines()))
