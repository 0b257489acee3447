"""What --save, --page and --live do with the steps of a followed run.

    keep(write, given, workers, page)

`write(path)` writes them as a script, `given` has the options, and `page` says how to open what is saved."""
import os
import shlex
import tempfile

from rewind_tools import sources, tool
from rewind_tools.session import write_text

# How many steps a page shows at most.
MOST = 5_000


def add_options(parser):
    add = parser.add_argument
    add("--save", metavar="FILE", help="write the steps as a script, and where each is from as FILE.lines")
    add("--page", metavar="FILE", help="write the run and how it ended as a page for the browser")
    add("--live", action="store_true", help="open the place where it ended in the browser")


def keep(write, given, workers, page):
    """Saves the steps, and shows them."""
    if given.save:
        write(given.save)
        name, words = shlex.quote(given.save), f"--processors {workers}"
        opened = f"tools/live {name} {words}, and tools/repl, tools/tell and tools/show open it"
        page.say(f"saved: {opened}; ./rewind {words} < {name} executes it", 0)
    if not given.page and not given.live:
        return
    with tempfile.TemporaryDirectory(prefix="rewind-") as folder:
        path = given.save or os.path.join(folder, "followed.jsonl")
        if not given.save:
            write(path)
        if given.page:
            write_page(given.page, path, workers, page)
        if given.live:
            tool.open_live(path, workers)


def write_page(path, script, workers, page):
    """Writes the page of a script that is saved."""
    from rewind_tools.showing.recorded import page_of  # which is long to load, and seldom wanted

    with open(script, "rb") as it:
        text = it.read()
    if text.count(b"\n") > MOST:
        page.say(f"no page: it would have more than {MOST:,} steps; --live shows them", 0)
        return
    words = ["--processors", str(workers)]
    write_text(path, page_of(os.path.basename(script), text, words, **sources.of_page(script))[0])
    page.say(f"page: {path}", 0)
