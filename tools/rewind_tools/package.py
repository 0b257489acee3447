"""A package of the proved program for machines without the toolchain.

    package.write(folder)      the path of rewind-VERSION-linux-x86_64.tar.gz, which is tried and written
                               there; then that of a Debian package, if one is wanted

VERSION is the date and the number of the commit. The package has the program, ./rewind, the tools that ask
the program, the pages, the editors' configurations and the examples, and PROVED.txt, which says from what
the program was built. ./rewind compares the program with the sum there. All else that a checkout can start
is a link to a script that says that it needs one. The same commit and the same program give the same bytes.

There is no package, but a tool.Fault, if the program is not proved, or older than its sources, if a file
that goes into the package, or a source, is not as the commit has it, or if what was tried does not pass."""
import gzip
import hashlib
import io
import os
import posixpath
import re
import shutil
import subprocess
import sys
import tarfile
import tempfile
import time
from typing import NamedTuple

from rewind_tools import debian, tool
from rewind_tools.runs import TOP

PROGRAM = os.path.join(TOP, "crates", "rewind_cli", "out", "rewind_cli")
SOURCES = ("crates", "crates.txt")
# What a checkout can start, with what goes into the package.
PAGES = ("README.md", "CHANGELOG.md", "SECURITY.md", "CITATION.cff")
WITHIN = (*PAGES, "rewind", "check", "docs", "editors", "examples", "tools", "gate", "bench")
PACKED = re.compile(
    r"\w+\.(?:md|cff)|rewind|(?:docs|editors|examples)/.*"
    r"|tools/(?:dap|follow|graph|live|repl|replay|show|tell|timely)"
    r"|tools/rewind_tools/(?!(?:browser|debian|package|pages|testing)\.py$).*"
)
LINK = re.compile(r"\[((?:[^\[\]`]|`[^`]*`)*)\]\(([^()\s]+)\)")
GLIBC = re.compile(rb"\bGLIBC_(\d+)\.(\d+)\b")
# How a program for Linux on x86-64 begins, and its machine in bytes 18 and 19.
ELF, X86_64 = b"\x7fELF\x02\x01", b"\x3e\x00"
EXECUTABLE, LINKED = "100755", "120000"
NEEDS_CHECKOUT = "tools/needs_checkout"
REFUSAL = """#!/bin/sh
echo "${0##*/}: this needs a checkout of the repository; PROVED.txt names the commit of this package" >&2
exit 70
"""
NOTE = "\n*This is a package: its program is proved, and needs no `rt` ([PROVED.txt](PROVED.txt)).*\n"
PROVED = """rewind {version}: the proved program, for Linux on x86-64, without its sources

Try it in this folder. Needed: Python 3.10 or later, and glibc {glibc} or later.

  ./rewind --processors 2 < examples/who-waits.jsonl
  tools/tell examples/stuck-program.jsonl --processors 2
  tools/timely examples/timely/hang/log0.jsonl examples/timely/hang/log1.jsonl
  tools/live examples/stuck-program.jsonl --processors 2
  ./rewind --help

The program was proved and built in a checkout of the repository:

  commit: {commit}
  toolchain: {toolchain}
  program: {program}

docs/PROVED.md says what is proved, only tested, and trusted. How to check each step:

- 'sha256sum program' prints the program's sum. ./rewind compares it with the line above at each start, which
  finds a damaged program. If somebody changed both, only the sum that whoever packed it has shows that.
- In a checkout of that commit, with that toolchain, './check' proves every function, builds the program and
  tests it. The program is then crates/rewind_cli/out/rewind_cli.
- There 'tools/package' writes this package again: the same bytes, if the program has the same sum. In the
  pages here, links to sources are left out, and README.md has one line more.

What only a checkout can do is here a link to tools/needs_checkout, which says so.
"""


class Commit(NamedTuple):
    """A commit by its number, and its time in seconds."""

    number: str
    seconds: int

    @property
    def version(self):
        return time.strftime("%Y%m%d-", time.gmtime(self.seconds)) + self.number[:8]


def git(*words):
    """What git prints of the checkout."""
    try:
        ran = subprocess.run(["git", "-C", TOP, *words], capture_output=True)
    except FileNotFoundError as fault:
        raise tool.Fault("git is not on the PATH") from fault
    if ran.returncode:
        said = ran.stderr.decode(errors="replace").strip().splitlines() or ["git failed"]
        raise tool.Fault(said[0])
    return ran.stdout.decode(errors="surrogateescape")


def sources():
    """The files from which the program is proved and built, by their paths, as ./rewind looks at them."""
    yield os.path.join(TOP, "crates.txt")
    for folder, folders, files in os.walk(os.path.join(TOP, "crates")):
        folders[:] = [it for it in folders if it != "out"]
        yield from (os.path.join(folder, it) for it in files if it.endswith((".rt", ".antt", "crates.txt")))


def proved_program():
    """The bytes of the proved program."""
    again = "'./rewind --prove' proves and builds it"
    if not os.access(PROGRAM, os.X_OK):
        raise tool.Fault(f"the program is not proved; {again}")
    written = os.stat(PROGRAM).st_mtime_ns
    newer = [it for it in sources() if os.stat(it).st_mtime_ns > written]
    if newer:
        raise tool.Fault(f"the proved program is older than {os.path.relpath(min(newer), TOP)}; {again}")
    program = tool.read_bytes(PROGRAM)
    if not program.startswith(ELF) or program[18:20] != X86_64:
        raise tool.Fault("the program is none for Linux on x86-64")
    return program


def committed():
    """The commit of the checkout, whose files are as the commit has them."""
    changed = git("status", "--porcelain", "-z", "--untracked-files=all", "--", *WITHIN, *SOURCES)
    if changed:
        raise tool.Fault(f"{changed.split(chr(0))[0][3:]} is not as the commit has it")
    number, seconds = git("log", "-1", "--format=%H %ct").split()
    return Commit(number, int(seconds))


def toolchain():
    """The name of the toolchain on the PATH."""
    rt = shutil.which("rt")
    if not rt:
        raise tool.Fault("the toolchain's command 'rt' is not on the PATH; docs/GATE.md says what is needed")
    named = os.path.join(os.path.dirname(os.path.dirname(os.path.realpath(rt))), "KIT-ID")
    if os.path.exists(named):
        return " ".join(tool.read_bytes(named).decode().split())
    return " ".join(subprocess.run([rt, "version"], capture_output=True, text=True).stdout.split())


def files():
    """The modes of the checkout's files, by their paths."""
    listed = git("ls-files", "-s", "-z", "--", *WITHIN).split("\0")[:-1]
    return {it.partition("\t")[2]: it[:6] for it in listed}


def with_links_to(paths, page, text):
    """A page's text, of whose links only those to files in the package are left."""

    def judged(link):
        file = link[2].partition("#")[0]
        path = posixpath.normpath(posixpath.join(posixpath.dirname(page), file)) if file else page
        return link[0] if re.match(r"\w+:", file) or path in paths else link[1]

    return LINK.sub(judged, text)


def glibc_of(program):
    """The least glibc that the program needs."""
    found = max(((int(a), int(b)) for a, b in GLIBC.findall(program)), default=(2, 0))
    return ".".join(map(str, found))


def proved_text(commit, toolchain_name, program):
    of_program = {"glibc": glibc_of(program), "program": hashlib.sha256(program).hexdigest()}
    its = {"version": commit.version, "commit": commit.number, "toolchain": toolchain_name}
    return PROVED.format(**its, **of_program)


def entries_of(modes, proved, program):
    """What the package has at each path: a text that may be executed, a text, or a link."""
    packed = {path for path, mode in modes.items() if PACKED.fullmatch(path) and mode != LINKED}
    entries = {
        "PROVED.txt": (False, proved.encode()),
        "program": (True, program),
        NEEDS_CHECKOUT: (True, REFUSAL.encode()),
    }
    for path, mode in modes.items():
        if path in packed:
            text = tool.read_bytes(os.path.join(TOP, path))
            if path.endswith(".md"):
                text = with_links_to(packed, path, text.decode()).encode()
            entries[path] = (mode == EXECUTABLE, text)
        elif mode == EXECUTABLE:
            entries[path] = posixpath.relpath(NEEDS_CHECKOUT, posixpath.dirname(path) or ".")
    is_executable, readme = entries["README.md"]
    title, _, rest = readme.decode().partition("\n")
    entries["README.md"] = (is_executable, f"{title}\n{NOTE}{rest}".encode())
    return entries


def archive(folder, entries, seconds):
    """The bytes of the package: a folder with the entries, all of one time and no owner."""
    paths = {folder}
    for path in entries:
        parts = f"{folder}/{path}".split("/")
        paths.update("/".join(parts[: at + 1]) for at in range(len(parts)))
    whole = io.BytesIO()
    with tarfile.open(fileobj=whole, mode="w", format=tarfile.USTAR_FORMAT) as tar:
        for path in sorted(paths):
            info, text = tarfile.TarInfo(path), b""
            entry = entries.get(path.removeprefix(f"{folder}/"))
            info.mtime, info.mode = seconds, 0o755
            if entry is None:
                info.type = tarfile.DIRTYPE
            elif isinstance(entry, str):
                info.type, info.linkname = tarfile.SYMTYPE, entry
            else:
                is_executable, text = entry
                info.mode, info.size = 0o755 if is_executable else 0o644, len(text)
            tar.addfile(info, io.BytesIO(text))
    packed = io.BytesIO()
    with gzip.GzipFile(filename="", mode="wb", fileobj=packed, compresslevel=9, mtime=0) as it:
        it.write(whole.getvalue())
    return packed.getvalue()


def try_it(path):
    """Tries a package, as tools/test_package does; what does not pass is a tool.Fault."""
    environment = {**os.environ, "PACKAGE": path, "REWIND_PROGRAM": PROGRAM}
    command = [os.path.join(TOP, "tools", "test_package"), "Unpacked"]
    ran = subprocess.run(command, env=environment, capture_output=True, text=True)
    said = ran.stdout.splitlines() or ["package: it could not be tried"]
    if ran.returncode:
        raise tool.Fault("\n".join(["the package does not pass:", *said, ran.stderr]).strip())
    print(f"{said[-1]}, tried where it was unpacked", file=sys.stderr)


def write(folder, is_debian=False, is_tried=True):
    """Writes the package into a folder; the paths of what was written."""
    program, commit, name = proved_program(), committed(), toolchain()
    entries = entries_of(files(), proved_text(commit, name, program), program)
    packed = f"rewind-{commit.version}-linux-x86_64"
    os.makedirs(folder, exist_ok=True)
    path = os.path.join(folder, f"{packed}.tar.gz")
    with tempfile.TemporaryDirectory(dir=folder) as room:
        made = os.path.join(room, os.path.basename(path))
        with open(made, "wb") as it:
            it.write(archive(packed, entries, commit.seconds))
        if is_tried:
            try_it(made)
        os.replace(made, path)
    if not is_debian:
        return [path]
    debian_path = os.path.join(folder, f"rewind_{commit.version}_amd64.deb")
    debian.pack(debian_path, entries, commit, glibc_of(program))
    return [path, debian_path]
