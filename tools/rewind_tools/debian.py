"""A Debian package of what tools/package packs: /usr/lib/rewind, commands in /usr/bin, and a manual page.

    debian.pack(path, entries, commit, glibc)      writes it; the same entries give the same bytes"""
import gzip
import os
import re
import subprocess
import tempfile

from rewind_tools import tool

HOME = "usr/lib/rewind"
# What may be typed: rewind, and each tool of this list as rewind-NAME.
TOOLS = ("dap", "follow", "graph", "live", "repl", "replay", "show", "tell", "timely")
CONTROL = """Package: rewind
Version: {version}
Architecture: amd64
Maintainer: the owner of the repository
Depends: python3 (>= 3.10), libc6 (>= {glibc})
Section: devel
Priority: optional
Description: reversible debugger for the progress protocol of timely dataflow
 It says why a worker of a dataflow still waits for a timestamp, who holds that
 timestamp, and which step is to blame. The program is proved:
 /usr/lib/rewind/PROVED.txt says from which commit it was built, and how to
 check that.
"""
PAGE = """.TH REWIND 1 "{day}" "rewind {version}" "User Commands"
.SH NAME
rewind \\- reversible debugger for the progress protocol of timely dataflow
.SH DESCRIPTION
A tool that is named tools/NAME here is the command rewind-NAME; each has \\-\\-help. The pages and examples
are in /usr/lib/rewind.
.PP
.nf
{help}
.fi
"""


def placed(tree, path, entry, seconds):
    """Writes an entry of the package, a link or a text, below a folder."""
    path = os.path.join(tree, path)
    os.makedirs(os.path.dirname(path), exist_ok=True)
    if isinstance(entry, str):
        os.symlink(entry, path)
    else:
        is_executable, text = entry
        with open(path, "wb") as it:
            it.write(text)
        os.chmod(path, 0o755 if is_executable else 0o644)
    os.utime(path, (seconds, seconds), follow_symlinks=False)


def manual(tree, commit):
    """The manual page, made from what ./rewind --help prints in the package."""
    ran = subprocess.run([os.path.join(tree, HOME, "rewind"), "--help"], capture_output=True, text=True)
    if ran.returncode:
        raise tool.Fault(f"the package has no help: {ran.stderr.strip()}")
    said = ran.stdout.replace(f"{tree}/", "/").replace("\\", "\\e").replace("-", "\\-")
    said = re.sub(r"(?m)^(?=[.'])", r"\\&", said.rstrip())
    day = f"{commit.version[:4]}-{commit.version[4:6]}-{commit.version[6:8]}"
    text = PAGE.format(day=day, version=commit.version, help=said)
    return gzip.compress(text.encode(), mtime=0)


def pack(path, entries, commit, glibc):
    with tempfile.TemporaryDirectory() as tree:
        os.chmod(tree, 0o755)
        control = CONTROL.format(version=commit.version, glibc=glibc)
        placed(tree, "DEBIAN/control", (False, control.encode()), commit.seconds)
        for name, entry in entries.items():
            placed(tree, f"{HOME}/{name}", entry, commit.seconds)
        page = manual(tree, commit)
        placed(tree, "usr/share/man/man1/rewind.1.gz", (False, page), commit.seconds)
        placed(tree, "usr/bin/rewind", "../lib/rewind/rewind", commit.seconds)
        for it in TOOLS:
            placed(tree, f"usr/bin/rewind-{it}", f"../lib/rewind/tools/{it}", commit.seconds)
        for folder, _, _ in os.walk(tree):
            os.chmod(folder, 0o755)
        command = ["dpkg-deb", "--root-owner-group", "-Zxz", "--build", tree, path]
        environment = {**os.environ, "SOURCE_DATE_EPOCH": str(commit.seconds)}
        try:
            ran = subprocess.run(command, env=environment, capture_output=True, text=True)
        except FileNotFoundError as fault:
            raise tool.Fault("dpkg-deb is not on the PATH") from fault
    if ran.returncode:
        raise tool.Fault(f"dpkg-deb: {ran.stderr.strip().splitlines()[-1]}")
