"""Command lines: their parser, its help, and the options that are passed on to flowlabel."""

from __future__ import annotations

import argparse

from .process import Failure, write

TYPE_CHECKING = False
if TYPE_CHECKING:
    from typing import NoReturn

# The options of flowlabel and flowlabel-many that commands pass on, with what they take and what help says of them.
PASSED = {
    "fields": ("NAME,..", "sums by these fields: sip, dip, sport, dport, proto, flags, in-if, out-if, vlan, src-as, "
               "dst-as, src-label, dst-label"),
    "pmap": ("MAP", "the labels of addresses are those of this prefix map"),
    "list": ("LIST", "the labels of addresses are those of this prefix list"),
    "protocol": ("NUMBERS", "only flows of these protocols, such as 6,17 or 1-16"),
    "sport": ("NUMBERS", "only flows from these ports"),
    "dport": ("NUMBERS", "only flows to these ports"),
    "saddress": ("BLOCKS", "only flows from these addresses and blocks, such as 10.0.0.1,2001:db8::/32"),
    "daddress": ("BLOCKS", "only flows to these addresses and blocks"),
    "packets": ("RANGE", "only flows with this many packets, such as 5, 5- or 5-9"),
    "bytes": ("RANGE", "only flows with this many bytes"),
    "src-label": ("LABEL", "only flows whose source has this label"),
    "dst-label": ("LABEL", "only flows whose destination has this label"),
    "any-label": ("LABEL", "only flows whose source or destination has this label"),
    "in-if": ("NUMBERS", "only flows that came in by these interfaces"),
    "out-if": ("NUMBERS", "only flows that went out by these interfaces"),
    "vlan": ("NUMBERS", "only flows of these VLANs"),
    "src-as": ("NUMBERS", "only flows from these AS numbers"),
    "dst-as": ("NUMBERS", "only flows to these AS numbers"),
}


class Formatter(argparse.RawDescriptionHelpFormatter):
    """Prints help in lines of the same length, whatever terminal there is."""

    def __init__(self, prog: str) -> None:
        super().__init__(prog, max_help_position=24, width=100)


class Parser(argparse.ArgumentParser):
    """A parser of options whose faults have one line. The first lines of its help are how the command is called, one
    for each form, and then its page."""

    def __init__(self, *calls: str, page: str | None = "", parents: tuple[Parser, ...] = ()) -> None:
        is_command = bool(calls)
        super().__init__(prog=calls[0].split()[0] if is_command else "", usage="\n       ".join(calls),
                         description=page, parents=parents, formatter_class=Formatter, allow_abbrev=False,
                         add_help=is_command)
        self.calls = calls

    def print_help(self, file: object = None) -> None:
        write([self.format_help().encode()])

    def error(self, message: str) -> NoReturn:
        raise Failure(message, 2)

    def fail_usage(self) -> NoReturn:
        """Refuses a command line by how the command is called."""
        self.error(f"usage: {' | '.join(self.calls)} (--help prints more)")


def add_passed(group: argparse._ActionsContainer, *names: str) -> None:
    """Adds options that are passed on to flowlabel, which refuses those that come twice."""
    for name in names:
        what, text = PASSED[name]
        group.add_argument(f"--{name}", action="append", default=[], metavar=what, help=text)


def passed_on(*names: str) -> Parser:
    """Returns a parser of options that are passed on to flowlabel."""
    parser = Parser()
    add_passed(parser, *names)
    return parser


def passed(options: argparse.Namespace, *names: str) -> list[str]:
    """Returns the words of the options that are passed on to flowlabel."""
    return [f"--{name}={value}" for name in names for value in getattr(options, name.replace("-", "_"))]


def whole_number(text: str) -> int:
    """Returns the number that a text of digits is: the type of an option. Raises ArgumentTypeError for another text,
    whose line names the text. Of a ValueError argparse would print only the name of this function."""
    if not (text.isascii() and text.isdigit()):
        raise argparse.ArgumentTypeError(f"not a whole number: {text}")
    return int(text)
