"""The commands flowlabel-NAME. bin/flowlabel-NAME starts the module commands/NAME, which has its PARSER and its `main`.

| module | what it is for |
|---|---|
| `process` | how a command begins and ends: its launcher, faults, signals, exit status, and what it prints |
| `command_line` | command lines: their parser, its help, and the options that are passed on to flowlabel |
| `programs` | finds and runs flowlabel, flowlabel-many and other programs |
| `addresses` | IPv4 and IPv6 addresses and blocks |
| `labels` | what a reader may overlook in a label, for flowlabel-customers and flowlabel-lint |
| `disk` | opens and replaces files, without following what others plant |
| `tables` | reads, adds up and prints tables of flowlabel, flowlabel-many and the commands |
| `files` | finds the IPFIX Files that are named, runs flowlabel-many over them, and explains its faults |
| `templates` | reads the templates of Files, for `audit` and `record` |
| `losses` | finds lost messages by their sequence numbers, for `audit` |
| `audit` | finds what makes the sums of Files wrong, for flowlabel-audit and flowlabel-bill |
| `machines` | has other machines sum Files, for flowlabel-bill |
| `prefixes` | reads lists and ranges, for flowlabel-fib and flowlabel-table |
| `steps` | makes changes whole or not at all, for flowlabel-fib and flowlabel-table |
| `table_kinds` | the kinds of prefix tables, for flowlabel-table |
"""

import signal
import sys

# The oldest Python that runs the commands, that of Debian 12.
OLDEST = (3, 11)


def start(launcher: str) -> None:
    """Runs the command that a launcher is named after, and ends the process. The launcher has put the folder of this
    package first on the path, where no other module is to be found."""
    # Nothing is left half done yet, so Ctrl-C ends the command at once. The launcher has it wait until here, since Python
    # would print a traceback.
    signal.signal(signal.SIGINT, signal.SIG_DFL)
    signal.pthread_sigmask(signal.SIG_UNBLOCK, [signal.SIGINT])
    del sys.path[0]
    if sys.version_info < OLDEST:
        sys.exit("flowlabel: the commands need Python %d.%d or later" % OLDEST)
    from . import process
    process.start(launcher)
