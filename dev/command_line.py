"""The command lines of the programs of dev/ and bench/: their help, and what they take.

A program prints the first text of its file as help, and refuses words that it doesn't take: in one line, with the exit
status 2, before it does anything else.
"""

import argparse
import os
import sys

ROOT = os.path.dirname(os.path.dirname(os.path.realpath(__file__)))


class Parser(argparse.ArgumentParser):
    """Reads the words of a program. The options are those of argparse, and `text` is the first text of its file."""

    def __init__(self, text, **options):
        name = os.path.relpath(os.path.realpath(sys.argv[0]), ROOT)
        super().__init__(prog=name, description=text, allow_abbrev=False,
                         formatter_class=argparse.RawDescriptionHelpFormatter, **options)

    def error(self, message):
        self.exit(2, f"{self.prog}: {' '.join(message.split())}: see {self.prog} --help\n")


def arguments(text, *names, **numbers):
    """Returns the words of a program without options: one for each name, or a list of one or more for a name that ends
    with `..`. Then come numbers that may be left out, each with its default."""
    parser = Parser(text)
    for name in names:
        parser.add_argument(name, nargs="+" if name.endswith("..") else None, metavar=name.rstrip("."))
    for name, default in numbers.items():
        parser.add_argument(name, nargs="?", type=count, default=default, help=f"{default:,} if it isn't given")
    return [*vars(parser.parse_args()).values()]


def count(text):
    """Returns a number of at least 1, as a word of a command line has it."""
    if not text.isascii() or not text.isdigit() or int(text) < 1:
        raise argparse.ArgumentTypeError(f"{text!r} isn't a number from 1")
    return int(text)
