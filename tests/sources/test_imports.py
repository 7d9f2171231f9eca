"""No source of a crate imports a name that nothing in it uses: dev/imports."""

import os
import sys

if __name__ == "__main__":
    sys.path.insert(0, os.path.dirname(os.path.dirname(os.path.realpath(__file__))))
from support import ROOT, Case, rows, run, write

SOURCES = {"src/lib.rt": """ghost use Rattle.std.specs.Prelude.{◌≡◌, ◌<◌, ℕ, List};
use crate::labels::{Labels, Table as Kept};
use std::alloc::{AllocError, Global};

impl Model for Kept {
    ghost use Rattle.std.specs.Prelude.{Some};

    // A comment about Labels and ◌<◌ doesn't count, and neither does "AllocError".
    fn new(alloc: Global) -> Kept
        ensures { result ≡ Some 0 }
    {
        Kept { alloc }
    }
}
""", "specs/Kept.antt": """use Rattle.std.specs.Prelude.{◌++◌, ◌+◌, length, take}
use Rattle.one.specs.declared.Role.TheVariants.{Owner, Guest}
use Rattle.one.specs.declared.Role.TheVariants as role

-- A comment about take doesn't count, and neither does the Owner of another module.
abbrev pub size : Role → ℕ
size role.Owner = length (codes "take")
size Guest = 1 + 1
"""}


class Imports(Case):
    """What dev/imports finds in the crates, and in a tree whose only crate has SOURCES."""

    @classmethod
    def prepare(cls):
        files = {f"crates/one/{name}": text for name, text in SOURCES.items()}
        for name in ("dev/imports", "dev/command_line.py"):
            files[name] = (ROOT / name).read_text()
        for name, text in files.items():
            write(name, text)
        cls.found = run(sys.executable, "dev/imports").stdout.decode()

    def test_sources(self):
        found = run(ROOT / "dev/imports")
        self.assertEqual((found.returncode, found.stdout), (0, b""), found.stdout.decode())

    @rows(("ℕ",), ("List",), ("◌<◌",), ("Labels",), ("AllocError",), ("◌++◌",), ("take",), ("Owner",))
    def test_finds(self, name):
        self.assertIn(f": nothing uses {name}\n", self.found)

    @rows(("◌≡◌",), ("Kept",), ("Global",), ("Some",), ("◌+◌",), ("length",), ("Guest",), ("role",))
    def test_leaves(self, name):
        self.assertNotIn(f": nothing uses {name}\n", self.found)
