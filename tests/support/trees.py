"""A copy of the repository in which tests build, install and pack, with a stub of rt."""

import hashlib
import os
import pathlib
import re
import select
import shutil
import signal
import subprocess

from support import FOREVER, ROOT, read, read_bytes, run, write

# What isn't copied. The crates have made-up sources.
LEFT_OUT = shutil.ignore_patterns(".git", "out", "crates", "bench", "__pycache__")
LOGIC = re.search(r"(?m)^logic=(\w+)$", read(ROOT / "dev/record"))[1]
KIT = f"rattle-kit-1 logic {LOGIC}"
# The programs of the tree, and what a build writes when it has ended.
BUILT, BUILT_MANY = "crates/flowlabel_main/out/flowlabel_main", "crates/flow_many_main/out/flow_many_main"
RECORD = "out/built"
# It records when it begins and ends, builds a program that prints its words and, like rt run, runs it. If there is a
# pipe `held`, it holds that pipe, and so does a process that it starts. Both wait until the pipe `free` has a line for
# them. If there is a file `fails`, it fails, and if there is a file `idle`, it builds nothing.
STUB = f"""#!/bin/sh
[ "$1" != version ] || {{ cat "$STUB/kit" 2>/dev/null || echo '{KIT}'; exit; }}
crate=${{PWD##*/}}
echo "$crate begins" >>"$STUB/calls"
echo "so far: 3 of 7 functions checked"
[ ! -p "$STUB/held" ] || {{ exec 8>"$STUB/held"; read -r line <"$STUB/free" & echo begun >&8; wait; }}
[ ! -e "$STUB/fails" ] || exit 3
[ ! -e "$STUB/idle" ] || exit 0
if [ "$1" = run ]; then
    mkdir -p out
    printf '#!/bin/sh\\n[ "$1" = --help ] || {{ echo "program $*"; exit 3; }}\\n' >out/$crate
    chmod +x out/$crate
    out/$crate --help
fi
echo "$crate ends" >>"$STUB/calls"
"""


# Some crates of the program.
FEW = """# NAME: DEP DEP ..
flow_io: thiserror
pmap_text: memchr
flow_rows: flow_io
definition_examples: flowlabel
flowlabel: pmap_text flow_rows clap
flowlabel_main: flowlabel flow_io
"""


class Tree:
    """A copy of the repository in the working folder, and the folder of its stub. `crates` are those of the program,
    each with what it uses."""

    def __init__(self, crates=FEW):
        self.root, self.stub = os.path.abspath("a tree"), os.path.abspath("stub")
        shutil.copytree(ROOT, self.root, ignore=LEFT_OUT, symlinks=True)
        self.put("crates.txt", crates)
        self.crates = {name: below.split() for name, below in re.findall(r"(?m)^([a-z_]+):(.*)$", crates)}
        for crate in self.crates:
            for file in ("src/lib.rt", "src/below/part.rt", "specs/Lib.antt", "proofs/Lib.antt"):
                self.put(f"crates/{crate}/{file}", f"{file} of {crate}\n")
        for name in ("definition_examples", "nfcapd_read"):
            self.crates.pop(name, None)
        self.git("init", "-q", "-b", "main")
        self.git("add", ".")
        self.git("-c", "user.name=a", "-c", "user.email=b", "commit", "-qm", "c")
        os.makedirs(self.stub, exist_ok=True)
        self.script("rt", STUB)

    def path(self, name):
        """Returns the path of a file of the tree."""
        return os.path.join(self.root, name)

    def put(self, name, content):
        """Makes a file of the tree."""
        os.makedirs(os.path.dirname(self.path(name)), exist_ok=True)
        write(self.path(name), content)

    def script(self, name, text):
        """Makes a program in the stub's folder, which is first on the path."""
        write(os.path.join(self.stub, name), text)
        os.chmod(os.path.join(self.stub, name), 0o755)

    def git(self, *words):
        """Returns the output of git."""
        return run("git", "-C", self.root, *words, check=True).stdout.decode()

    def record(self, *programs):
        """Puts flowlabel, or both programs, into the tree, and records them as proved."""
        for program, place in zip(programs, (BUILT, BUILT_MANY)):
            os.makedirs(os.path.dirname(self.path(place)), exist_ok=True)
            shutil.copy(program, self.path(place))
        sums = "".join(f"program {digest(program)}\n" for program in programs)
        self.put(RECORD, f"{sums}commit {self.git('rev-parse', 'HEAD')}sources unchanged\nkit {KIT}\n")

    def start(self, *words, **variables):
        """Starts a command in the tree, in a session of its own, as from another terminal."""
        environment = {**os.environ, "STUB": self.stub, "PATH": f"{self.stub}:{os.environ['PATH']}", "FLOWLABEL": "",
                       "FLOWLABEL_MANY": "",
                       **variables}
        return subprocess.Popen(words, cwd=self.root, env=environment, text=True, start_new_session=True,
                                stdin=subprocess.DEVNULL, stdout=subprocess.PIPE, stderr=subprocess.PIPE)

    def call(self, *words, **variables):
        """Returns the exit status of a command in the tree, its output and its messages."""
        call = self.start(*words, **variables)
        output, messages = call.communicate(timeout=FOREVER)
        return call.returncode, output, messages

    def calls(self):
        """Returns what the stub recorded since the last time."""
        name = os.path.join(self.stub, "calls")
        lines = read(name).splitlines() if os.path.exists(name) else []
        pathlib.Path(name).unlink(missing_ok=True)
        return lines

    def files(self):
        """Returns the files and folders of the tree, but for those of git."""
        return sorted(os.path.join(folder, name) for folder, below, names in os.walk(self.root)
                      for name in (*below, *names) if "/.git" not in folder)


class Held:
    """A build in which each crate waits. `lines` are its messages."""

    def __init__(self, tree, *words, **variables):
        self.tree = tree
        for name in ("held", "free"):
            os.mkfifo(os.path.join(tree.stub, name))
        self.call = tree.start(*words, **variables)
        self.reader = os.open(os.path.join(tree.stub, "held"), os.O_RDONLY)
        os.read(self.reader, 100)

    def lines(self):
        """Yields the messages, until the build has ended."""
        return iter(self.call.stderr.readline, "")

    def free(self):
        """Lets the build go on, and returns its exit status and the rest of its messages when it has ended."""
        with open(os.path.join(self.tree.stub, "free"), "r+b", buffering=0) as lines:
            lines.write(b"\n" * len(self.tree.crates))
            _, messages = self.call.communicate(timeout=FOREVER)
        return self.call.returncode, messages, self.is_gone()

    def is_gone(self):
        """Returns whether each process of the build has ended, for which it waits. No other build is held then."""
        for name in ("held", "free"):
            pathlib.Path(self.tree.stub, name).unlink(missing_ok=True)
        while select.select([self.reader], [], [], FOREVER)[0]:
            if not os.read(self.reader, 100):
                os.close(self.reader)
                return True
        return False

    def end(self):
        """Ends the build, if it hasn't ended. It ends all that it has started."""
        if self.call.poll() is None:
            self.call.send_signal(signal.SIGTERM)
            self.call.communicate(timeout=FOREVER)
        for name in ("held", "free"):
            pathlib.Path(self.tree.stub, name).unlink(missing_ok=True)


def digest(name):
    """Returns the SHA-256 of a file."""
    return hashlib.sha256(read_bytes(name)).hexdigest()
