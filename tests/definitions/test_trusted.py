"""The definitions that users trust are those that docs/DEFINITIONS.md explains: dev/trusted finds nothing wrong."""

from support import ROOT, Case, run


class Trusted(Case):
    def test_page(self):
        ended = run(ROOT / "dev/trusted")
        self.assertEqual(ended.stderr.decode(), "")
        self.assertEqual(ended.returncode, 0, "the exit status")
        self.assertIn(b"All that the headline rests on: ", ended.stdout)
