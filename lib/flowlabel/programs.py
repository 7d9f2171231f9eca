"""Finds and runs flowlabel, flowlabel-many and other programs."""

from __future__ import annotations

import os
import re
import shutil
import subprocess

from .process import Failure, say_error, warn

TYPE_CHECKING = False
if TYPE_CHECKING:
    from collections.abc import Callable
    from typing import IO

# The folder of the package, and that of the commands, here and where they are installed.
FOLDER = os.path.dirname(os.path.realpath(__file__))
COMMANDS = os.path.join(os.path.dirname(os.path.dirname(FOLDER)), "bin")
# The variable that names each program, and where `make` and `make trial` build it in the repository.
VARIABLES = {"flowlabel": "FLOWLABEL", "flowlabel-many": "FLOWLABEL_MANY"}
BUILT = {"flowlabel": "crates/flowlabel_main/out/flowlabel_main",
         "flowlabel-many": "crates/flow_many_main/out/flow_many_main"}
# The status if there is no program.
NO_PROGRAM = 125
# The cures of faults of flowlabel's command line, and of Files and maps, by the beginnings of their codes.
CURES = {
    b"L1": "write numbers, such as 443 or 6,17 or 1-1023: names such as https or tcp aren't known",
    b"L2": "write a range of whole numbers, such as 1500 or 1500- or 0-1500",
    b"L3": "write addresses or blocks, such as 10.0.0.0/8,2001:db8::1",
    b"U1": "the fields are sip, dip, sport, dport, proto, flags, src-label and dst-label, and in sums of many Files also "
           "in-if, out-if, vlan, src-as and dst-as",
    b"P5": "name the map with --pmap or the list with --list",
    b"F": "flowlabel-audit FILE says what the file is, and the cure",
    b"M": "flowlabel-lint MAP, or --list LIST, prints the usual cause and the cure",
}


def find(name: str) -> str:
    """Returns the program flowlabel or flowlabel-many: the one that its variable names, or flowlabel-many in the folder
    of what FLOWLABEL names, or the one that `make` has built in this repository or that is installed with this package,
    or in a repository without a built program the one on the path. It builds nothing."""
    variable, tree = VARIABLES[name], os.path.dirname(COMMANDS)
    if named := os.environ.get(variable):
        return existing(named, f"{variable} names no program: {named}")
    if name != "flowlabel" and (named := os.environ.get(VARIABLES["flowlabel"])):
        beside = os.path.join(os.path.dirname(named), name)
        if named.endswith(BUILT["flowlabel"]):
            beside = named.removesuffix(BUILT["flowlabel"]) + BUILT[name]
        return existing(beside, f"there is no {beside} beside {named}, which FLOWLABEL names: name one by {variable}")
    if os.access(built := os.path.join(tree, BUILT[name]), os.X_OK):
        return built
    program = os.path.join(COMMANDS, name)
    if os.path.isdir(os.path.join(tree, "crates")):
        found = shutil.which(name)
        if found and os.path.realpath(found) != os.path.realpath(program):
            return found
        trial = os.path.join(tree, "out/trial/flowlabel")
        cure = f"set FLOWLABEL={trial}" if os.access(trial, os.X_OK) else f"name a program by {variable}"
        raise Failure(f"{name} isn't built: run `make` in {tree}, or {cure}", NO_PROGRAM)
    return existing(program, f"there is no {program}, and {variable} names no other program")


def existing(program: str, fault: str) -> str:
    """Returns the whole name of a program, or ends the command. A name without a folder stays, since GNU parallel may
    run it on other machines."""
    if not shutil.which(program):
        raise Failure(fault, NO_PROGRAM)
    return os.path.abspath(program) if "/" in program else program


def run(name: str, *words: str, stdout: int | IO[bytes] = subprocess.PIPE, given: bytes | None = None,
        explain: Callable[[bytes], None] | None = None) -> bytes:
    """Runs flowlabel, flowlabel-many or another command of this package, perhaps with bytes as its standard input, and
    returns its output unless a file gets it. `explain` prints what it says. If it fails, the command ends with its
    status, whatever its output looks like."""
    program = find(name) if name in VARIABLES else os.path.join(COMMANDS, name)
    with open(os.memfd_create("said"), "r+b") as said:
        try:
            ended = subprocess.run([program, *words], stdout=stdout, stderr=said, input=given, check=False)
        finally:
            said.seek(0)
            (explain or say_with_cure)(said.read())
    ended_well(ended.returncode)
    return ended.stdout or b""


def say_with_cure(said: bytes) -> None:
    """Prints what flowlabel has printed on standard error, and the cure of its first fault, if no command has done so
    yet."""
    if said:
        say_error(said)
        code = re.search(rb"(?m)^flowlabel(?:-many)?: .*?\b([A-Z]\d+) [A-Z]\w+(?: X\d)?(?: at \d+)?$", said)
        if code and not re.search(rb"(?m)^flowlabel-(?!many: )", said):
            for cure in (cure for start, cure in CURES.items() if code[1].startswith(start)):
                warn(cure)


def ended_well(status: int) -> None:
    """Ends the command with the status of one that it ran, if this is a fault."""
    if status != 0:
        raise SystemExit(status if status > 0 else 128 - status)


def need(name: str, package: str) -> None:
    """Refuses to go on without a program, which is in a package of Debian."""
    if not shutil.which(name):
        raise Failure(f"there is no {name} (Debian: {package})")
