"""`shrink` and `check` beside brute force on small maps.

For some hundred random maps and for worked ones, the minimum number of entries is found of a prefix list that gives
every address the same label as the map, in two ways that share nothing with the program:

- all lists: if the map's labels depend only on the first three bits of an address, all sets of the 15 blocks of up to
  three bits are tried, ordered by size. (A list with entries inside a block whose addresses all have one label has no
  fewer entries than the list with one entry for the block instead, so longer entries need not be tried.)
- all choices: for any map, by a block and the label that it inherits. The block has no entry of its own, or one with
  any of the labels, whichever makes the two halves cheapest.

The program's list must have as many entries, be in order and give the same labels, and `check` must accept it.
"""

import functools
import ipaddress
import itertools
import random

from support import PROGRAM, Case, rows, run, write

WIDTHS = {"ipv4": 32, "ipv6": 128}
UNSTATED = "UNKNOWN"
TOP_BITS = 3
SEED = 20261123


class Map:
    """Statements with the first address, the last one and the label, the last of which decides, and a default."""

    def __init__(self, version, statements, default=None):
        self.version, self.width = version, WIDTHS[version]
        self.statements, self.default = statements, default

    def label(self, address):
        """Returns the label of an address."""
        for low, high, label in reversed(self.statements):
            if low <= address <= high:
                return label
        return self.default or UNSTATED

    def starts(self):
        """Returns the first addresses of the spans within which no label changes."""
        cuts = {0}
        for low, high, _ in self.statements:
            cuts |= {low, high + 1}
        return sorted(cut for cut in cuts if cut < 1 << self.width)

    def text(self):
        """Returns a text of the map."""
        lines = [f"mode {self.version}"] if self.version == "ipv6" else []
        lines += [f"default {self.default}"] if self.default else []
        for low, high, label in self.statements:
            span = high - low + 1
            is_block = span & (span - 1) == 0 and low % span == 0
            if is_block:
                lines.append(f"{name_of(self.version, low)}/{self.width - span.bit_length() + 1} {label}")
            else:
                lines.append(f"{name_of(self.version, low)} {name_of(self.version, high)} {label}")
        return "".join(f"{line}\n" for line in lines)


def name_of(version, address):
    """Returns the text of an address."""
    return str(ipaddress.IPv4Address(address) if version == "ipv4" else ipaddress.IPv6Address(address))


@functools.cache
def by_all_lists():
    """Returns for each set of blocks of up to three bits its size, and the sets of eighths that each of its blocks
    decides."""
    blocks = [(bits, number) for bits in range(TOP_BITS + 1) for number in range(1 << bits)]
    trials = set()
    for size in range(1, len(blocks) + 1):
        for chosen in itertools.combinations(blocks, size):
            decided = {}
            for eighth in range(1 << TOP_BITS):
                covering = [block for block in chosen if eighth >> (TOP_BITS - block[0]) == block[1]]
                if not covering:
                    break
                longest = max(covering)
                decided[longest] = decided.get(longest, 0) | 1 << eighth
            else:
                trials.add((size, tuple(sorted(decided.values()))))
    return sorted(trials)


def least_of_lists(labels):
    """Returns the minimum number of entries for the labels of the eighths: of a set whose blocks each decide
    addresses of one label."""
    alike = [sum(1 << k for k, other in enumerate(labels) if other == label) for label in labels]
    for size, decided in by_all_lists():
        if all(any(part & mask == part for mask in alike) for part in decided):
            return size
    raise AssertionError("no list is right")


def costs(given, starts, labels, low, high):
    """Returns for the block from `low` to `high` the minimum number of entries in it for each label that it
    inherits, or None."""
    inside = [start for start in starts if low < start <= high]
    found = {given.label(address) for address in [low, *inside]}
    if len(found) == 1:
        return {label: 0 if label in found else 1 for label in labels}
    middle = (low + high + 1) // 2
    lower = costs(given, inside, labels, low, middle - 1)
    upper = costs(given, inside, labels, middle, high)
    without = {label: lower[label] + upper[label] for label in labels}
    with_own = 1 + min(without[label] for label in labels if label is not None)
    return {label: min(without[label], with_own) for label in labels}


def least_of_choices(given):
    """Returns the minimum number of entries for a map. The whole address space inherits no label."""
    starts = given.starts()
    labels = [None, *sorted({given.label(start) for start in starts})]
    return costs(given, starts, labels, 0, (1 << given.width) - 1)[None]


def random_map(rng):
    """Returns a map, and whether its labels depend on the first three bits of an address only. They depend on the
    first bits, or on the last bits, below a default."""
    version = rng.choice(["ipv4", "ipv4", "ipv6"])
    width = WIDTHS[version]
    labels = "ABCDE"[: rng.randrange(1, 6)]
    default = rng.choice([None, *labels])
    is_top = rng.random() < 0.5
    bits = TOP_BITS if is_top else rng.choice([3, 4])
    unit = 1 << (width - bits) if is_top else 1
    base = 0 if is_top else rng.choice([0, 10 << (width - 8), (1 << width) - (1 << bits)])
    statements = []
    for _ in range(rng.randrange(0, 13)):
        if rng.random() < 0.7:
            host_bits = rng.randrange(bits + 1)
            low = rng.randrange(1 << bits) >> host_bits << host_bits
            high = low + (1 << host_bits) - 1
        else:
            low, high = sorted(rng.choices(range(1 << bits), k=2))
        statements.append((base + low * unit, base + (high + 1) * unit - 1, rng.choice(labels)))
    return Map(version, statements, default), is_top


def block(text):
    """Returns the first and the last address of a block given as text."""
    network = ipaddress.ip_network(text)
    return int(network.network_address), int(network.broadcast_address)


# Maps and the texts of their shortest lists.
WORKED = [
    (Map("ipv4", []), "mode ipv4;0.0.0.0/0 UNKNOWN;"),
    (Map("ipv4", [(*block("0.0.0.0/1"), "A"), (*block("128.0.0.0/1"), "B")]), "mode ipv4;0.0.0.0/0 A;128.0.0.0/1 B;"),
    (
        Map("ipv4", [(*block(f"{64 * k}.0.0.0/2"), label) for k, label in enumerate("ABAC")]),
        "mode ipv4;0.0.0.0/0 A;64.0.0.0/2 B;192.0.0.0/2 C;",
    ),
    (Map("ipv4", [(1, 6, "X")], "D"), "mode ipv4;0.0.0.0/0 D;0.0.0.0/29 X;0.0.0.0/32 D;0.0.0.7/32 D;"),
    (
        Map("ipv4", [(*block("10.0.0.0/8"), "A"), (*block("10.0.0.0/7"), "B")]),
        "mode ipv4;0.0.0.0/0 UNKNOWN;10.0.0.0/7 B;",
    ),
    (Map("ipv4", [(*block("255.255.255.255/32"), "X")]), "mode ipv4;0.0.0.0/0 UNKNOWN;255.255.255.255/32 X;"),
    (Map("ipv6", [(*block("::/0"), "X")]), "mode ipv6;::/0 X;"),
    (Map("ipv6", [(*block("::ffff:a00:0/104"), "In")]), "mode ipv6;::/0 UNKNOWN;::ffff:a00:0/104 In;"),
]


def entries_of(text, version):
    """Returns the blocks of a list text with their labels, each as first address, last address and label."""
    found = []
    for line in text.removeprefix(f"mode {version}\n").splitlines():
        word, label = line.split(" ", 1)
        found.append((*block(word), label))
    return found


def list_label(entries, address):
    """Returns the label of an address: that of the smallest block that contains it."""
    covering = [(high - low, label) for low, high, label in entries if low <= address <= high]
    return min(covering)[1] if covering else None


def addresses(given, entries):
    """Returns an address of each span within which neither the label by a map nor that by a list changes."""
    cuts = set(given.starts()) | {low for low, _, _ in entries} | {high + 1 for _, high, _ in entries}
    return sorted(cut for cut in cuts if cut < 1 << given.width)


class Shortest(Case):
    """Lists of the program, and the numbers of entries found by brute force."""

    def compare(self, given, is_top=False):
        """Compares the list of a map, and returns its text. `is_top` maps are compared with all lists too."""
        least = least_of_choices(given)
        if is_top:
            eighth = 1 << given.width - TOP_BITS
            self.assertEqual(least_of_lists([given.label(k * eighth) for k in range(1 << TOP_BITS)]), least)
        write("map.txt", given.text())
        text = self.printed("shrink", "--pmap", "map.txt")
        entries = entries_of(text, given.version)
        self.assertEqual(len(entries), least)
        order = [(low, low - high) for low, high, _ in entries]
        self.assertEqual(order, sorted(order))
        self.assertEqual([list_label(entries, address) for address in addresses(given, entries)],
                         [given.label(address) for address in addresses(given, entries)])
        write("list.txt", text)
        write("cert.txt", self.printed("shrink", "--pmap", "map.txt", "--certificate"))
        self.assertEqual(self.printed("check", "--pmap", "map.txt", "--list", "list.txt", "--cert", "cert.txt"),
                         f"minimal {least}\n")
        return text

    def printed(self, *words):
        """Returns what the program prints, which must succeed."""
        ended = run(PROGRAM, *words)
        self.assertEqual((ended.returncode, ended.stderr), (0, b""))
        return ended.stdout.decode()

    @rows(*((number, given, text) for number, (given, text) in enumerate(WORKED)))
    def test_worked(self, _, given, text):
        self.assertEqual(self.compare(given), text.replace(";", "\n"))

    @rows(*zip(range(10)))
    def test_random_maps(self, part):
        rng = random.Random(f"{SEED} {part}")
        for _ in range(50):
            given, is_top = random_map(rng)
            with self.subTest(map=given.text()):
                self.compare(given, is_top)
