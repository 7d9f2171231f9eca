"""Reads lists of `flowlabel shrink` and ranges of `flowlabel cat`, for flowlabel-fib and flowlabel-table."""

from __future__ import annotations

import re
from collections.abc import Iterator

from flowlabel import addresses, process

# The blocks of all addresses.
ALL = {4: "0.0.0.0/0", 6: "::/0"}
MODES = {b"mode ipv4": 4, b"mode ipv6": 6}
ENTRY = re.compile(rb"([0-9a-f.:]+/\d+) ([^ ].*)")
RANGE = re.compile(rb"([0-9a-f.:]+)\|([0-9a-f.:]+)\|(.*)")


def block(text: str) -> tuple[int, int, int]:
    """Returns the version, the address and the length of a block. Raises ValueError if host bits are set."""
    version, number, length = addresses.block(text)
    if addresses.ends(version, number, length)[0] != number:
        raise ValueError(f"no block: {text}")
    return version, number, length


class Source:
    """A text of entries or ranges, and the number of the line that is read."""

    def __init__(self, name: str, text: bytes) -> None:
        self.name, self.text, self.number = name, text, 0

    def fault(self, why: str) -> process.Failure:
        """Returns the fault of a line."""
        return process.Failure(f"{self.name}: line {self.number}: {why}")

    def lines(self) -> Iterator[bytes]:
        """Yields the lines, each of which must end in a line feed."""
        *lines, rest = self.text.split(b"\n")
        for self.number, line in enumerate(lines, 1):
            yield line
        self.number += 1
        if rest or not lines:
            raise self.fault("the text is cut short")

    def entries(self) -> Iterator[tuple[int, int, int, bytes]]:
        """Yields the version, the address, the length and the label of each entry of a list."""
        mode, seen = 0, set[tuple[int, int]]()
        for line in self.lines():
            if not mode and (line in MODES or line.startswith(b"map-name ")):
                mode = MODES.get(line, 0)
                continue
            found = ENTRY.fullmatch(line)
            if not found or not mode:
                raise self.fault("this is no line of a list of `flowlabel shrink`")
            try:
                version, number, length = block(found[1].decode())
            except ValueError:
                version = 0
            if version != mode:
                raise self.fault("this is no block of a list of `flowlabel shrink`")
            if (number, length) in seen:
                raise self.fault(f"{addresses.block_text(version, number, length)} is there twice")
            seen.add((number, length))
            yield version, number, length, found[2]

    def ranges(self) -> Iterator[tuple[int, int, int, bytes]]:
        """Yields the version, the first and the last address and the label of each range. Each begins where the one
        before it ends."""
        before = None
        for line in self.lines():
            if self.number == 1 and line == b"low|high|label":
                continue
            found = RANGE.fullmatch(line)
            try:
                if not found or self.number == 1:
                    raise ValueError
                (version, low), (other, high) = (addresses.address(found[side].decode()) for side in (1, 2))
                if version != other or low > high:
                    raise ValueError
            except ValueError:
                raise self.fault("this is no line of what `flowlabel cat` prints") from None
            if (version, low) != (before or (version, 0)):
                where = "where the range before it ends" if before else "at the first address"
                raise self.fault(f"this range doesn't begin {where}, so a line is missing")
            if not found[3]:
                raise self.fault("these addresses have no label. Give the list an entry for all addresses")
            before = version, high + 1
            yield version, low, high, found[3]
        if not before or before[1] >> addresses.WIDTHS[before[0]] == 0:
            raise self.fault("no range ends at the last address, so lines are missing")
