"""The pages that are written by hand: those of the repository, of crates, editors and examples.

    pages()      their paths from the top"""
import glob
import os

TOP = os.path.dirname(os.path.dirname(os.path.dirname(os.path.realpath(__file__))))
FORMS = ("*.md", "docs/*.md", "crates/*/README.md", "editors/*/README.md", "examples/*/README.md")


def pages():
    return [it for form in FORMS for it in sorted(glob.glob(form, root_dir=TOP))]


def read(path):
    with open(path, encoding="utf-8") as it:
        return it.read()
