"""What .ci/run installs before the tests, over stand-ins of the programs that install: nothing without CI, the missing
packages of the list with it, and the tests are run whatever becomes of them."""

import re

from support import ROOT, Case, read, rows, run
from support.trees import Tree

# dpkg-query knows the packages of the file `installed`, which apt-get makes if it works. Both record their words.
DPKG_QUERY = """#!/bin/sh
for name; do :; done
grep -qsx "$name" "$STUB/installed" && echo installed
"""
APT_GET = """#!/bin/sh
echo "apt-get ${*##*Retries=1 }" >>"$STUB/calls"
[ ! -e "$STUB/fails" ] || { echo 'E: no network' >&2; exit 100; }
case $* in *" install "*) printf '%s\\n' "$@" >>"$STUB/installed" ;; esac
"""
APT_CACHE = """#!/bin/sh
for name; do case $name in -* | show | ipset) ;; *) printf 'Package: %s\\n' "$name" ;; esac; done
"""
RECORDS = """#!/bin/sh
echo "${0##*/} $1 $2" >>"$STUB/calls"
shift
exec "$@"
"""
MAKE = """#!/bin/sh
echo "make $* of $CI" >>"$STUB/calls"
exit 3
"""
LIST = [line.partition("#")[0].strip() for line in read(ROOT / "dev/packages").splitlines() if not line.startswith("#")]
KNOWN = [name for name in LIST if name != "ipset"]


class Installs(Case):
    """Calls of .ci/run."""

    def setUp(self):
        run("rm", "-rf", "a tree", "stub")
        self.tree = Tree()
        for name, text in (("dpkg-query", DPKG_QUERY), ("apt-get", APT_GET), ("apt-cache", APT_CACHE), ("make", MAKE),
                           ("sudo", RECORDS)):
            self.tree.script(name, text)

    def ci(self, value):
        """Returns the messages of a call, which runs `make test` as its last step, and what was called before."""
        status, output, messages = self.tree.call(".ci/run", CI=value)
        *calls, last = self.tree.calls()
        self.assertEqual((status, output, last), (3, "", f"make test of {value or 'local'}"))
        return messages, calls

    @rows(("",), ("local",))
    def test_nothing(self, value):
        self.assertEqual(self.ci(value), ("", []))

    def test_all(self):
        self.tree.script("id", "#!/bin/sh\necho 0\n")
        calls = ["apt-get update", f"apt-get install {' '.join(KNOWN)}"]
        left = ".ci/run: not installed, so what needs them is skipped (out/packages.log): ipset\n"
        self.assertEqual(self.ci("true"), (left, calls))
        self.tree.script("apt-cache", APT_CACHE.replace(" | ipset", ""))
        messages, calls = self.ci("true")
        self.assertEqual(calls, ["apt-get update", "apt-get install ipset"])
        self.assertRegex(messages, r"\A\.ci/run: the packages of dev/packages were installed in \d+ s\n\Z")
        self.assertEqual(self.ci("true"), ("", []))

    def test_no_network(self):
        self.tree.put("../stub/fails", "")
        messages, _ = self.ci("true")
        self.assertEqual((messages.count("\n"), messages.endswith(f": {' '.join(LIST)}\n")), (1, True), messages)

    def test_another_user(self):
        self.tree.script("id", "#!/bin/sh\necho 1000\n")
        _, calls = self.ci("1")
        self.assertEqual(calls[:2], ["sudo -n env", "apt-get update"])

    def test_list(self):
        """Each package has its purpose, and they are in order."""
        lines = [line for line in read(ROOT / "dev/packages").splitlines() if not line.startswith("#")]
        for line in lines:
            self.assertRegex(line, re.compile(r"\A[a-z0-9.+-]+ +# \S.*\Z"))
        self.assertEqual(LIST, sorted(set(LIST)))
