"""Prints the labels of the addresses on standard input, which has one address a line.

For each it prints the label that `flowlabel label` prints. If a line isn't an address, or the last line has no line
feed, so that it may be cut short, it is reported, no label is printed and the status is 1. If flowlabel fails, the
status is flowlabel's.
"""

import bisect

from flowlabel import addresses, command_line, disk, process, programs

SOURCES = ("pmap", "list")
PARSER = command_line.Parser("flowlabel-lookup --pmap MAP <ADDRESSES", "flowlabel-lookup --list LIST <ADDRESSES",
                             page=__doc__, parents=(command_line.passed_on(*SOURCES),))


def address(text: bytes) -> int:
    """Returns an address as a number of IPv6."""
    return addresses.in_ipv6(*addresses.address(text.decode()))


def main(words: list[str]) -> int:
    sources = command_line.passed(PARSER.parse_args(words), *SOURCES)
    if not sources:
        PARSER.fail_usage()
    table = programs.run("flowlabel", "cat", *sources)
    ranges = [(address(low), address(high), label) for low, high, label in addresses.ranges(table)]
    lows, found = [low for low, _, _ in ranges], []
    for number, line in enumerate(disk.opened()[0], 1):
        if not line.endswith(b"\n"):
            raise process.Failure(f"standard input: the line {number} has no line feed, so it may be cut short")
        try:
            wanted = address(line.strip(b" \t\r\n"))
        except ValueError:
            raise process.Failure(f"standard input: no address at {number}") from None
        low, high, label = ranges[bisect.bisect_right(lows, wanted) - 1]
        # A map over IPv4 has no label for addresses of IPv6 other than the IPv4-mapped ones.
        found.append((label if low <= wanted <= high else b"") + b"\n")
    process.write(found)
    return 0
