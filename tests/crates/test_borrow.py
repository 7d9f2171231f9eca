"""A message must be dropped before the next call for one.

No proof and no edit can state this about `ipfix_read::Messages`, since a caller that breaks the rule doesn't compile.
So a crate with one caller is written to a folder of its own, over the libraries that the gate or a build left in out/,
and its types, names and borrows are checked. The caller that drops each message must pass. The caller that makes a
second call while it holds a message must be refused, for that borrow alone.
"""

import os
import pathlib
import shutil
import unittest

from support import ROOT, Case, needs, run, write

# The crates that a caller uses, including those that they use, and their libraries.
NEEDED = ("flow_io", "ipfix_templates", "ipfix_read")
FOLDERS = [ROOT / "crates" / crate / "out/rlib" for crate in NEEDED]
ARE_BUILT = all((folder / f"{crate}.rlib").exists() for crate, folder in zip(NEEDED, FOLDERS))
NAME = "holding"

HEAD = """//! Calls for messages.
#![tactic(auto)]

use flow_io::Input;
use ipfix_read::{Messages, ReadFault};

/// When two messages left their exporter, 0 of one that is not there.
pub fn export_times<R: Input>(messages: &mut Messages<'_, R>) -> Result<(u32, u32), ReadFault> {
"""
LETS_GO = HEAD + """    let first = match messages.next_message()? {
        Some(message) => message.export_time,
        None => 0,
    };
    let second = match messages.next_message()? {
        Some(message) => message.export_time,
        None => 0,
    };
    Ok((first, second))
}
"""
HOLDS = HEAD + """    let first = messages.next_message()?;
    let second = messages.next_message()?;
    let first = match first {
        Some(message) => message.export_time,
        None => 0,
    };
    let second = match second {
        Some(message) => message.export_time,
        None => 0,
    };
    Ok((first, second))
}
"""


@needs("rt", in_ci=True)
@unittest.skipUnless(ARE_BUILT or os.environ.get("CI"), "the libraries aren't built: run `make`")
class Borrows(Case):
    """A check of a crate with one caller."""

    def check(self, source):
        """Checks a crate with this source, and returns the status and the output."""
        kit = pathlib.Path(shutil.which("rt")).resolve().parents[1]
        words = [kit / "bin/rattle", "check", "--crate-name", NAME, "src/lib.rt", "--only=", "--links", f"{NAME}=",
                 "--extern", f"std={kit}/rlibs/std.rlib", "-L", f"dependency={kit}/rlibs",
                 "--antt-project", kit / "rattle/logic/antt-project.json", "--logic-built", kit / "logic_built"]
        for crate, folder in zip(NEEDED, FOLDERS):
            words += ["--extern", f"{crate}={folder}/{crate}.rlib", "-L", f"dependency={folder}"]
        os.makedirs("src", exist_ok=True)
        write("src/lib.rt", source)
        ended = run(*words)
        return ended.returncode, (ended.stdout + ended.stderr).decode()

    def test_caller_that_lets_messages_go(self):
        status, said = self.check(LETS_GO)
        self.assertEqual(status, 0, said)

    def test_caller_that_holds_a_message(self):
        status, said = self.check(HOLDS)
        self.assertEqual((status, said.count("error[")), (1, 1), said)
        self.assertIn("error[borrow-e0499]", said)
