"""What the tests of flowlabel-fib and flowlabel-table share: a step that fails, and a call that waits for another."""

import contextlib
import os
import shutil
import subprocess
import sys

from support import stand_in, texts, write

PIPES = {"stdout": subprocess.PIPE, "stderr": subprocess.PIPE, "text": True}
# Replaces a program. The call with the number FAILING fails, and HOW says what it does before: nothing, everything, or
# what the first lines of its input say. If it is killed, it prints nothing. Or it sleeps in the end, and makes a file
# before or after it acts. Or its caller gets a signal after it has acted. Or it ends with success, but a line of its
# input gets lost, it adds a route, or it reports that routes changed.
STAND_IN = """#!/bin/sh
step=$(($(cat "$STEPS") + 1))
echo $step >"$STEPS"
[ $step = "$FAILING" ] || exec '{real}' "$@"
case $HOW in
killed) kill -s KILL $$ ;;
everything) '{real}' "$@" >/dev/null 2>&1 ;;
half) head -n 4 | '{real}' "$@" >/dev/null 2>&1 ;;
signal) '{real}' "$@"; status=$?; kill -s "$SENT" $PPID; exit $status ;;
sleeps) touch asleep; '{real}' "$@"; exec sleep 3600 ;;
acts) '{real}' "$@"; touch asleep; exec sleep 3600 ;;
loses) sed 4d | '{real}' "$@"; exit 0 ;;
adds) '{real}' "$@"; '{real}' "$1" route add $ADDED; exit 0 ;;
warns) '{real}' "$@"; echo 'Dump was interrupted and may be inconsistent.' >&2; exit 0 ;;
esac
echo 'failed on purpose' >&2
exit 1
"""


def stands_in(*names, real=None):
    """Makes stand-ins for programs, and returns the variable PATH with their folder first. They run the programs of
    these names, or the one named `real`."""
    return [stand_in(name, STAND_IN.format(real=real or shutil.which(name))) for name in names][-1]


def failing(step, how, **more):
    """Returns the variables with which a step of the next run fails, and no other."""
    write("steps", "0\n")
    return {"STEPS": os.path.abspath("steps"), "FAILING": str(step), "HOW": how, **more}


# Runs a script. When it is about to open the file PLANT, there is suddenly a link to the file VICTIM.
PLANTS = """
import os, runpy, sys

def hook(event, words):
    if event == "open" and words[0] == os.environ["PLANT"] and not os.path.islink(words[0]):
        if os.path.exists(words[0]):
            os.unlink(words[0])
        os.symlink(os.environ["VICTIM"], words[0])

sys.addaudithook(hook)
sys.argv = sys.argv[1:]
runpy.run_path(sys.argv[0], run_name="__main__")
"""


def planting(name, victim):
    """Returns the words before a script, and the variables, with which a link to a file is planted at another one, just
    before the script opens it."""
    return [sys.executable, write("plants.py", PLANTS)], {"PLANT": name, "VICTIM": os.path.abspath(victim)}


def output(*words, given=""):
    """Returns the output of a command that must succeed, as a text."""
    status, found, said = texts(*words, input=given)
    if status:
        raise OSError(f"{' '.join(map(str, words[:6]))}: {said.strip()}")
    return found


@contextlib.contextmanager
def waiting(case, *words):
    """Starts a command, which must report that it waits for another call, and nothing else."""
    with subprocess.Popen(words, **PIPES) as process:
        # Without a lock the command ends, and so does its standard error.
        case.assertEqual((process.stderr.readline(), process.poll()), (
            f"{os.path.basename(words[0])}: another call runs, and this one waits for it\n", None))
        yield process
