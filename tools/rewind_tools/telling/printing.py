"""Standard output in words: lines that are no longer than a page is wide, with colours at a terminal alone.

    page = Page()
    page.say("line 2: processor 0 feeds 5 into a", 0, BOLD)      a text, by how much it stands in, its colour
    page.line("    a (0) |     .*")                              a line as it is"""
import shutil
import sys
import textwrap

from rewind_tools.telling.commands import FIRM

WIDTH = 100
BOLD, RED, PLAIN = "\033[1m", "\033[31m", "\033[0m"


class Page:
    """Standard output, in lines of at most 100 columns if names allow, with colours at a terminal alone. A
    page that `fits` has no more columns than the terminal."""

    def __init__(self, fits=False):
        self.has_colours = sys.stdout.isatty()
        columns = shutil.get_terminal_size().columns if fits and self.has_colours else WIDTH
        self.width = min(columns, WIDTH)

    def say(self, text, indent, colour=""):
        how = {"initial_indent": " " * indent, "subsequent_indent": " " * (indent + 2)}
        how.update(break_long_words=False, break_on_hyphens=False)
        for line in textwrap.wrap(text, self.width, **how) or [""]:
            self.line(line, colour)

    def line(self, text, colour=""):
        plain = text.replace(FIRM, " ")
        print(f"{colour}{plain}{PLAIN}" if colour and self.has_colours else plain)
