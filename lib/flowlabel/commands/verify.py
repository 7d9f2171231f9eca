"""Checks a certificate without flowlabel.

A certificate shows that a list labels every address as a map does, and that no list with fewer entries does so. If CERT
shows this for MAP and LIST, the output is `minimal N`, where N is the number of the list's entries. Otherwise the first
fault is reported. Lines and statuses are those of `flowlabel check`. The rules and examples are in docs/FORMATS.md.
"""

from __future__ import annotations

import argparse
import bisect
import contextlib
import functools
import heapq
import os
import re
import signal
import sys

# This file needs no other of the package, so it can be read and run alone: python3 verify.py MAP LIST CERT
PARSER = argparse.ArgumentParser(
    prog="flowlabel-verify", usage="flowlabel-verify MAP LIST CERT", description=__doc__, allow_abbrev=False,
    formatter_class=lambda prog: argparse.RawDescriptionHelpFormatter(prog, max_help_position=24, width=100))
PARSER.add_argument("MAP", help="the prefix map")
PARSER.add_argument("LIST", help="the prefix list")
PARSER.add_argument("CERT", help="the certificate that `flowlabel shrink --certificate` has printed for them")
# A table has a version, and entries: first address, last address, label. A claim is a cost and a set of labels.
TYPE_CHECKING = False
if TYPE_CHECKING:
    from typing import TypeVar
    T = TypeVar("T")
    Address = tuple[int, int]
    Entry = tuple[int, int, bytes | None]
    Table = tuple[int, list[Entry]]
    Claim = tuple[int, frozenset[int]]
    Certificate = tuple[int, list[bytes], list["Node"], list[tuple[int, int]]]

# A version is the number of bits of its addresses. An address is a number.
VERSIONS = {b"ipv4": 32, b"ip": 32, b"ipv6": 128}
BLANKS = re.compile(rb"[ \t\r]+")
LABEL = re.compile(rb"(?![ \t])[^\x00-\x08\x0a-\x1f\x7f#]{1,255}(?<![ \t])")
NUMBER = re.compile(rb"25[0-5]|2[0-4]\d|[01]?\d?\d")
IPV6_GROUP = re.compile(rb"[0-9A-Fa-f]{1,4}")
NODE = re.compile(rb"l N|n N( N)*|c N [01]+ N( N)*".replace(b"N", rb"(0|[1-9]\d{0,9})"))


class Node:
    """A leaf (l), an inner node (n) or a chain (c), with its claim. A chain has its path, and the label of its sides."""

    def __init__(self, kind: bytes, claim: Claim, label: int, path: bytes) -> None:
        self.kind, self.claim, self.label, self.path = kind, claim, label, path


class Fault(Exception):
    """The code, name and position of a fault."""


def require(value: T | None, fault: str, position: int) -> T:
    """Returns a value, or raises a fault if it is false. The calls for a line are in the order of its faults."""
    if not value:
        raise Fault(f"{fault} at {position}")
    return value


def split_word(text: bytes) -> tuple[bytes, bytes]:
    """Returns the first word of a line, and the rest."""
    word, rest, *_ = *BLANKS.split(text, 1), b""
    return word, rest


def read_address(word: bytes) -> Address | None:
    """Returns an address and its version, or None if the word isn't an address."""
    front, colon, last = word.rpartition(b":")
    parts = last.split(b".")
    if len(parts) == 4 and all(map(NUMBER.fullmatch, parts)):
        numbers = tuple(map(int, parts))
        if not colon:
            return int.from_bytes(numbers, "big"), 32
        word = front + b":%02x%02x:%02x%02x" % numbers
    before, gap, after = word.partition(b"::")
    head, tail = (part.split(b":") if part else [] for part in (before, after))
    zeros = 8 - len(head) - len(tail)
    groups = [*head, *[b"0"] * zeros, *tail]
    if (zeros < 1 if gap else zeros != 0) or not all(map(IPV6_GROUP.fullmatch, groups)):
        return None
    return int(b"".join(group.zfill(4) for group in groups), 16), 128


def read_table(text: bytes, is_list: bool = False) -> Table:
    """Returns the version of a map or a list, and its entries: first address, last address, label. An entry for all
    addresses is put first. It has the default label of a map, or None in a list."""
    version, default, line = 0, None if is_list else b"UNKNOWN", 0
    entries: list[Entry] = []
    labels: set[bytes] = set()
    text_of: dict[int, bytes] = {}
    number_of: dict[bytes, int] = {}
    blocks: dict[Address, int] = {}

    def label_in(rest: bytes, labels: set[bytes] = labels) -> bytes:
        require(rest, "M6 MissingLabel", line)
        require(LABEL.fullmatch(rest), "M7 BadLabel", line)
        # A number that an earlier line declared represents a label.
        label = text_of.get(int(rest), rest) if rest.isdigit() and len(rest) <= 10 else rest
        labels.add(label)
        return label

    def entry_in(word: bytes, rest: bytes) -> Entry:
        nonlocal version
        text, slash, length = word.partition(b"/")
        is_address = slash or b":" in word or word[:1].isdigit()
        first = require(read_address(text), "M2 BadAddress" if is_address else "M1 BadStatement", line)
        require(not slash or length.isdigit() and len(length) <= 3 and int(length) <= first[1], "M3 BadLength", line)
        second, after = split_word(rest)
        other = None if slash else read_address(second)
        require(not (is_list and other), "M13 NotAList", line)
        last, rest = (other, after) if other else (first, rest)
        version = version or first[1]
        require(max(first[1], last[1]) <= version, "M5 WrongVersion", line)
        # An IPv6 map has the IPv4 addresses in ::ffff:0:0/96.
        low, high = (address + (0xFFFF << 32 if written < version else 0) for address, written in (first, last))
        host_bits = first[1] - int(length) if slash else 0
        low, high = low >> host_bits << host_bits, high | (1 << host_bits) - 1
        require(low <= high, "M4 LowAboveHigh", line)
        label = label_in(rest)
        require(not is_list or blocks.setdefault((low, high), line) == line, "M14 DuplicateBlock", line)
        return low, high, label
    for line, content in enumerate(text.split(b"\n"), 1):
        word, rest = split_word(content.partition(b"#")[0].strip(b" \t\r"))
        if word == b"map-name":
            label_in(rest, set())
        elif word == b"mode":
            require(rest in VERSIONS, "M9 BadMode", line)
            require(not entries, "M10 ModeLate", line)
            require(not version, "M11 ModeRepeated", line)
            version = VERSIONS[rest]
        elif word == b"label":
            number, label = split_word(rest)
            require(number.isdigit() and len(number) <= 10 and int(number) < 1 << 31, "M1 BadStatement", line)
            label_in(label)
            require(not label.isdigit(), "M7 BadLabel", line)
            require(text_of.setdefault(int(number), label) == label, "M8 LabelConflict", line)
            require(number_of.setdefault(label, int(number)) == int(number), "M8 LabelConflict", line)
        elif word == b"default":
            require(not is_list, "M13 NotAList", line)
            default = label_in(rest)
        elif word:
            entries.append(entry_in(word, rest))
        require(len(labels) <= 65_535 and len(entries) <= 1_000_000, "M12 TooMany", line)
    return version or 32, [(0, (1 << (version or 32)) - 1, default), *entries]


def decided_ranges(entries: list[Entry]) -> tuple[list[int], list[bytes | None]]:
    """Returns the starts and the labels of the longest ranges that one entry decides. Later entries take precedence."""
    begins = sorted(((low, -index, high, label) for index, (low, high, label) in enumerate(entries)), reverse=True)
    bounds = sorted({low for low, _, _ in entries} | {high + 1 for _, high, _ in entries})
    # The heap has the entries that cover the current address, and some that have ended. Its first item decides.
    heap: list[tuple[int, int, bytes | None]] = []
    ranges: list[tuple[int, tuple[int, int, bytes | None]]] = []
    for bound in bounds[:-1]:
        while begins and begins[-1][0] == bound:
            heapq.heappush(heap, begins.pop()[1:])
        while heap[0][1] < bound:
            heapq.heappop(heap)
        if not ranges or heap[0] is not ranges[-1][1]:
            ranges.append((bound, heap[0]))
    return [start for start, _ in ranges] + bounds[-1:], [label for _, (_, _, label) in ranges]


def read_node(has_chains: bool, version: int, count: int, line: bytes) -> Node | None:
    """Returns the node of a line, or None if the line is malformed."""
    if not NODE.fullmatch(line):
        return None
    kind, *words = line.split(b" ")
    path = words.pop(1) if kind == b"c" else b""
    cost = 0 if kind == b"l" else int(words.pop(0))
    label = -1 if kind == b"n" else int(words.pop(0))
    labels = [label] if kind == b"l" else [int(word) for word in words]
    is_set = all(first < second for first, second in zip(labels, labels[1:] + [count]))
    is_path = not path or has_chains and len(path) <= version and label < count
    return Node(kind, (cost, frozenset(labels)), label, path) if is_set and is_path and cost < 1 << 32 else None


def read_certificate(text: bytes) -> Certificate:
    """Returns the version of a certificate, its labels, its nodes, and the block of each node: the first address, and
    the number of bits in which the block's addresses differ."""
    # A line without a line feed is malformed, so it is read as an empty line, which is malformed too.
    lines = enumerate(re.findall(rb"(.*)\n|.+", text), 1)
    found = re.fullmatch(rb"flowlabel-cert ([12]) (ipv4|ipv6) (0|[1-9]\d{0,4})", next(lines, (1, b""))[1])
    header = require(found, "C1 BadHeader", 1)
    version, count = VERSIONS[header[2]], int(header[3])
    require(count <= 65_536, "C1 BadHeader", 1)
    labels: dict[bytes, int] = {}
    nodes: list[Node] = []
    blocks: list[tuple[int, int]] = []
    for line in range(2, 2 + count):
        label = next(lines, (line, b""))[1]
        require(LABEL.fullmatch(label) and labels.setdefault(label, line) == line, "C2 BadLabelTable", line)
    # Many lines are equal, so each different line is read only once.
    node_in = functools.lru_cache(None)(functools.partial(read_node, header[1] == b"2", version, count))
    # The blocks whose nodes are still to come. The next one is last.
    due, line = [(0, version)], 1 + count
    for line, content in lines:
        require(due, "C6 NodesLeft", line)
        block, node = due.pop(), require(node_in(content), "C3 BadNode", line)
        nodes.append(node)
        blocks.append(block)
        if node.kind != b"l":
            low, bits = block[0], block[1] - (len(node.path) or 1)
            require(bits >= 0, "C4 TooDeep", line)
            if node.kind == b"n":
                due += (low + (1 << bits), bits), (low, bits)
            else:
                due.append((low + (int(node.path, 2) << bits), bits))
    require(not due, "C5 NodesMissing", line + 1)
    return version, list(labels), nodes, blocks


def exact_claim(lower: Claim, upper: Claim) -> Claim:
    """Returns what the claims for the halves of a block show for the block. Both halves inherit the same label: that of
    an entry for the block, or the one that the block inherits. If it is in both sets, the halves need the sum of the
    costs. Otherwise they need at least one entry more."""
    cost, common = lower[0] + upper[0], lower[1] & upper[1]
    return (cost, common) if common else (cost + 1, lower[1] | upper[1])


def check(map_: Table, list_: Table, certificate: Certificate) -> int:
    """Returns the number of the list's entries if the certificate is accepted. The blocks of the leaves have all
    addresses, and the map and the list label each block alike. Each claim follows from those below it, so that of the
    root holds for every list that labels as the map does."""
    (map_version, mappings), (list_version, entries), (version, labels, nodes, blocks) = map_, list_, certificate
    require(map_version == list_version == version, "K1 VersionDiffers", 0)
    # In a list the longest block decides, so it comes last.
    entries.sort(key=lambda entry: entry[0] - entry[1])
    tables = (decided_ranges(mappings), "K2 LeafNotUniform"), (decided_ranges(entries), "K3 ListDiffers")

    def fault_of(low: int, bits: int, label: int) -> str | None:
        for (starts, range_labels), fault in tables:
            after = bisect.bisect_right(starts, low)
            if low + (1 << bits) > starts[after] or range_labels[after - 1] != labels[label]:
                return fault
        return None
    # From the last line up, the nodes below a node come before it. Their claims are the last ones.
    claims: list[tuple[Claim, int]] = []
    faults: list[tuple[int, int, str]] = []
    for position, node, (low, bits) in zip(range(len(nodes), 0, -1), reversed(nodes), reversed(blocks)):
        last, fault = position, None
        if node.kind == b"l":
            fault = fault_of(low, bits, node.label)
        else:
            exact, last = claims.pop()
            if node.kind == b"n":
                upper, last = claims.pop()
                exact = exact_claim(exact, upper)
            # The nodes of a chain's path, from the smallest block up. One half of each is like a leaf.
            for length in range(len(node.path), 0, -1):
                side, side_bits = int(node.path[:length], 2) ^ 1, bits - length
                fault = fault or fault_of(low + (side << side_bits), side_bits, node.label)
                exact = exact_claim(exact, (0, frozenset([node.label])))
            if node.claim[0] > exact[0]:
                fault = fault or "K5 CostTooHigh"
            # With a lower cost any set is right, since the exact claim has at least cost + 1 for each label.
            elif node.claim[0] == exact[0] and not node.claim[1] >= exact[1]:
                fault = fault or "K4 SetTooSmall"
        claims.append((node.claim, last))
        if fault:
            faults.append((last, -position, fault))
    # A node comes right after the last node below it, so of two nodes with the same last node the lower one is first.
    for _, position, fault in sorted(faults)[:1]:
        raise Fault(f"{fault} at {-position}")
    # The root inherits no label, so each list that labels all addresses as the map does has cost + 1 entries or more.
    require(len(entries) - 1 <= node.claim[0] + 1, "K6 BoundNotMet", 0)
    return len(entries) - 1


def content(file: int) -> bytes:
    """Returns the bytes of an open file."""
    with open(file, "rb") as opened:
        return opened.read()


def verify(names: list[str]) -> tuple[int, str]:
    """Returns the exit status and the line to print for a map, a list and a certificate. All are opened at first."""
    name, files = "", list[int]()
    try:
        for name in names:
            files.append(os.open(name, os.O_RDONLY))
        name = names[0]
        map_ = read_table(content(files[0]))
        name = names[1]
        list_ = read_table(content(files[1]), is_list=True)
        name = names[2]
        return 0, f"minimal {check(map_, list_, read_certificate(content(files[2])))}"
    except Fault as fault:
        return 1, f"flowlabel: {name}: {fault}"
    except OSError:
        return 4, f"flowlabel: {name}: cannot {'open' if len(files) < 3 else 'read'}"


def main(words: list[str]) -> int:
    """Verifies the files that the words name, prints the result, and returns the exit status."""
    status, line = 0, ""
    try:
        status, line = verify(list(vars(PARSER.parse_args(words)).values()))
    except SystemExit as ended:
        # The parser has printed help, or what is wrong with the words.
        status = int(ended.code or 0)
    try:
        if status == 0:
            # If standard output is closed, Python has none, and nothing can be written there.
            print(line, end="\n" * bool(line), file=sys.stdout or open(1, "w", encoding="ascii"), flush=True)
    except OSError:
        # Python would try once more at its end.
        sys.stdout = None  # type: ignore[assignment]
        status, line = 4, "flowlabel: output: cannot write"
    if status and line:
        with contextlib.suppress(OSError):
            os.write(2, os.fsencode(f"{line}\n"))
    return status


if __name__ == "__main__":
    # Ctrl-C ends the script without a traceback.
    signal.signal(signal.SIGINT, signal.SIG_DFL)
    sys.exit(main(sys.argv[1:]))
