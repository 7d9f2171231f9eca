"""Runs each example of the pages, and compares its output with the page, as support/examples.py describes.

A test runs one example, and before it those that make its files. The examples of a page run in a folder of their own,
which has links to all that is in the repository and an empty folder out/.
"""

import os

from support import ROOT, Case, examples, read, rows


class OfPage(Case):
    """The examples of a page."""

    def __init_subclass__(cls, page):
        cls.page = page

        @rows(*((example.command, number) for number, example in enumerate(examples.examples(read(ROOT / page)))))
        def test(self, command, number):
            skipped, differs = self.examples.outcome(number)
            if skipped:
                self.skipTest(skipped)
            if differs:
                self.fail(f"$ {command}\n{differs}")

        cls.test = test
        super().__init_subclass__()

    @classmethod
    def prepare(cls):
        for name in os.listdir(ROOT):
            if name not in ("out", ".git"):
                os.symlink(ROOT / name, name)
        os.mkdir("out")
        cls.examples = examples.Page(cls.page)


class Readme(OfPage, page="README.md"):
    """README.md"""


class Examples(OfPage, page="examples/README.md"):
    """examples/README.md"""


class Formats(OfPage, page="docs/FORMATS.md"):
    """docs/FORMATS.md"""


class Bill(OfPage, page="docs/BILL.md"):
    """docs/BILL.md"""


class Guide(OfPage, page="docs/GUIDE.md"):
    """docs/GUIDE.md"""


class Tables(OfPage, page="docs/TABLES.md"):
    """docs/TABLES.md"""
    is_long = True


class Definitions(OfPage, page="docs/DEFINITIONS.md"):
    """docs/DEFINITIONS.md"""
