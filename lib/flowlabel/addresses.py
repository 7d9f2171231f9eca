"""IPv4 and IPv6 addresses and blocks, as flowlabel reads and prints them."""

from __future__ import annotations

import collections
import re
import socket

TYPE_CHECKING = False
if TYPE_CHECKING:
    from collections.abc import Iterator

FAMILIES = {4: socket.AF_INET, 6: socket.AF_INET6}
WIDTHS = {4: 32, 6: 128}
# The first address of ::ffff:0:0/96, the block of IPv6 that has the addresses of IPv4.
MAPPED = 0xFFFF << 32
# Zeros before a number of an IPv4 address, which has at most three digits.
ZEROS = re.compile(r"(?<![0-9A-Fa-f])(?:00(?=[0-9](?:\.|$))|0(?=[0-9]{1,2}(?:\.|$)))")


def address(text: str) -> tuple[int, int]:
    """Returns the version and the number of an address, as flowlabel reads it. Raises ValueError for another text."""
    version = 6 if ":" in text else 4
    try:
        return version, int.from_bytes(socket.inet_pton(FAMILIES[version], text), "big")
    except OSError:
        bare = ZEROS.sub("", text) if "." in text else text
        if bare == text:
            raise ValueError(f"no address: {text}") from None
        return address(bare)


def address_text(version: int, number: int) -> str:
    """Returns an address as a text."""
    return socket.inet_ntop(FAMILIES[version], number.to_bytes(WIDTHS[version] // 8, "big"))


def block_text(version: int, number: int, length: int) -> str:
    """Returns a block as a text."""
    return f"{address_text(version, number)}/{length}"


def block(text: str) -> tuple[int, int, int]:
    """Returns the version, the number of the address and the length of a block. An address is a block of its own.
    Raises ValueError for another text. Host bits may be set."""
    first, slash, length = text.partition("/")
    version, number = address(first)
    if slash and not (length.isascii() and length.isdigit() and len(length) <= 3 and int(length) <= WIDTHS[version]):
        raise ValueError(f"no length of a block: {length}")
    return version, number, int(length) if slash else WIDTHS[version]


def in_ipv6(version: int, number: int) -> int:
    """Returns the number of an address among those of IPv6."""
    return number + (MAPPED if version == 4 else 0)


def ends(version: int, number: int, length: int) -> tuple[int, int]:
    """Returns the first and the last address of a block, as numbers."""
    host_bits = (1 << WIDTHS[version] - length) - 1
    return number & ~host_bits, number | host_bits


def mask_length(version: int, number: int) -> int | None:
    """Returns the length of a netmask, or None if the number is that of another address."""
    length = number.bit_count()
    return length if number == ends(version, 0, length)[1] ^ ends(version, 0, 0)[1] else None


def ranges(table: bytes) -> Iterator[tuple[bytes, bytes, bytes]]:
    """Yields the ranges that `flowlabel cat` has printed: first address, last address and label."""
    for line in table.split(b"\n")[1:-1]:
        low, high, label = line.split(b"|", 2)
        yield low, high, label


def counts(table: bytes) -> collections.Counter[bytes]:
    """Returns the number of addresses of each label, by what `flowlabel cat` has printed: ranges over all addresses."""
    found, start = collections.Counter[bytes](), 0
    for _, high, label in ranges(table):
        end = 1 + address(high.decode())[1]
        found[label] += end - start
        start = end
    return found
