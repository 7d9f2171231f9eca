"""No line of the crates' sources and definitions has more than 120 columns.

In the prover's language a text in quotes ends on its line. So a line with a text may have more columns, if it has at
most BESIDE columns beside the text.
"""

import re

from support import ROOT, Case, rows

COLUMNS, BESIDE = 120, 40
TEXT = re.compile(r'"(?:[^"\\]|\\.)*"')


def is_short(line):
    """Returns whether a line has at most COLUMNS, or little but a text."""
    return len(line) <= COLUMNS or len(line) - max(map(len, TEXT.findall(line)), default=0) <= BESIDE


class Lines(Case):
    def test_sources(self):
        paths = [path for form in ("src/**/*.rt", "specs/**/*.antt") for path in ROOT.glob(f"crates/*/{form}")]
        self.assertTrue(paths)
        self.assertEqual([], [
            f"{path.relative_to(ROOT)}:{number}: {len(line)} columns" for path in sorted(paths)
            for number, line in enumerate(path.read_text(encoding="utf-8").split("\n"), 1) if not is_short(line)])

    @rows(("at the limit", "-" * 120, True), ("above it", "-" * 121, False), ("by characters", "λ" * 120, True),
          ("a long text", f'text = codes "{"0" * 200}"', True), ("much beside a text", f'{"-" * 60} "{"0" * 60}"', False))
    def test_rule(self, _, line, is_allowed):
        self.assertEqual(is_short(line), is_allowed)
