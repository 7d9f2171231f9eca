"""The types of the package flowlabel, by mypy --strict."""

import os

from support import ROOT, Case, needs, run

# Debian's, whose Python has the modules that it needs.
MYPY = "/usr/bin/mypy"


@needs(MYPY)
class Types(Case):
    """All modules of the package, with the oldest Python that runs them."""

    def test_package(self):
        version = ".".join(map(str, self.oldest()))
        ended = run(MYPY, "--strict", "--python-version", version, "--cache-dir", os.path.abspath("cache"),
                    ROOT / "lib/flowlabel", cwd=ROOT, env={"PATH": "/usr/bin:/bin", "LC_ALL": "C.UTF-8"})
        self.assertEqual((ended.returncode, ended.stdout.decode().count("error:"), ended.stdout.decode()[:8]),
                         (0, 0, "Success:"), ended.stdout.decode())

    @staticmethod
    def oldest():
        """Returns the oldest Python, as the package says it."""
        from support import inside
        inside.module("process")
        import flowlabel
        return flowlabel.OLDEST
