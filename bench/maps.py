"""Writes a map text: maps.py LINES ORDER FILE. The same arguments write the same bytes.

The orders sorted and shuffled are like a dump of a routing table. Prefixes have the lengths of a table of the whole
Internet: most are /24, then come /16 to /23, and few are shorter. A sorted text has them by address and then by length,
so that the longer of two nested prefixes comes later and decides. A shuffled text has the same lines in random order.

The following are similar, but neighbours share labels, so that a shorter list is worthwhile:

- countries: ranges in ascending order, most of which are adjacent, each of one of 250 countries;
- routes: sorted, with some thousand labels; a prefix mostly has the label of the one before;
- regions: like routes with 250 labels;
- single: like routes with one label;
- distinct: sorted, each prefix with a label of its own;
- striped: neighbouring ranges of 1 to 64 addresses with two labels in turn.

These have single addresses in ascending order, each with a label of its own, of ten letters:

- labels: random ones;
- fold_labels: labels that are close together in a table under the hash of the kit's `FoldHasher`;
- known_labels: labels that are close together in a table under the fixed numbers of `KeyHashing`.

The others are over IPv6:

- countries6: like countries;
- hosts: single addresses in random order, with four labels;
- chains: around each of some random addresses, blocks of 100 lengths, nested, with three labels in turn;

- ranges: each line has the first and the last address of some neighbouring /48 prefixes out of 2000::/3, in random
  order;
- equal: each line has the same address;
- nested: each range is strictly inside the one before it;
- alternating: ranges from one low address to about the middle, in turn with ranges from about the middle to one high
  address;
- list: no two lines have the same block, a random address of 2000::/3;
- colliding: like list, with addresses that all have one value under the standard library's hash, whose seed is fixed.
"""

import functools
import ipaddress
import itertools
import random
import re

from measure import Parser, count

SEED = 20260101
LABELS = 400
COUNTRIES = "AR AT AU BE BR CA CH CN CZ DE DK ES FI FR GB IN IT JP KR MX NL NO PL RU SE SG TR UA US ZA".split()
# The number of prefixes of each length among a thousand.
SHARES = {
    8: 1, 9: 1, 10: 1, 11: 1, 12: 1, 13: 1, 14: 2, 15: 2,
    16: 14, 17: 9, 18: 15, 19: 26, 20: 45, 21: 52, 22: 110, 23: 103, 24: 616,
}
# The number of labels of the orders whose neighbours share labels.
SHARED_LABELS = {"routes": 4000, "regions": 250, "single": 1}
# The number of prefixes among a hundred that have the label of the one before.
SHARING = 70
# The orders of countries: the first address, and the numbers of bits of the sizes of ranges.
COUNTRY_RANGES = {"countries": (1 << 24, range(8, 17)), "countries6": (0x2001 << 112, range(80, 97))}
# The lengths of the blocks around one address.
CHAIN = range(29, 129)
# 2001:db8:0:0:8000::, in the block that is reserved for documentation (RFC 3849).
MIDDLE = 0x2001_0DB8_0000_0000_8000_0000_0000_0000
# The hash multiplies the exclusive or of a key's first 64 bits and this number. Here the exclusive or is 0.
COLLIDING = 0x9E37_79B9_7F4A_7C15
# The fixed numbers of both hashes.
SEED_NUMBER, MULTIPLIER = 0x243F_6A88_85A3_08D3, 0x9E37_79B9_7F4A_7C15
# The letters of chosen labels, the number of letters of a label, and the number of those that vary most.
LETTERS, LABEL_LENGTH, VARYING = "abcdefghijklmnopqrstuvwxyz", 10, 2


def text_of(value):
    """Returns the text of an IPv6 address."""
    return str(ipaddress.IPv6Address(value))


def labels(rng, count=LABELS):
    """Returns names of networks. Some hundred names have distinct numbers, which are reserved for private use (RFC
    6996)."""
    return [f"{rng.choice(COUNTRIES)} AS{64512 + number}" for number in range(count)]


def prefixes(rng, count):
    """Returns `count` distinct prefixes, each with its value and its length."""
    lengths, shares = list(SHARES), list(SHARES.values())
    found = set()
    while len(found) < count:
        for length in rng.choices(lengths, shares, k=count - len(found)):
            # The first byte of a unicast address is 1 to 223.
            first = rng.randrange(1, 224)
            address = first << 24 | rng.getrandbits(24)
            host_bits = 32 - length
            found.add((address >> host_bits << host_bits, length))
    return sorted(found)


def ranges(rng, names, count):
    """Yields the lines of `count` ranges of 1 to 64 networks of /48."""
    for _ in range(count):
        low = 1 << 125 | rng.getrandbits(45) << 80
        high = min(low + (rng.randrange(1, 65) << 80), 1 << 126) - 1
        yield f"{text_of(low)} {text_of(high)} {rng.choice(names)}"


def nested(names, count):
    """Yields the lines of `count` ranges around one middle, each inside the one before."""
    for number in range(count, 0, -1):
        yield f"{text_of(MIDDLE - number)} {text_of(MIDDLE + number)} {names[number % LABELS]}"


def alternating(names, count):
    """Yields the lines of `count` ranges that end or begin near one middle, in turn."""
    low, high = text_of(MIDDLE - (1 << 64)), text_of(MIDDLE + (1 << 64))
    for number in range(count):
        name = names[number % LABELS]
        yield f"{low} {text_of(MIDDLE + number)} {name}" if number % 2 else f"{text_of(MIDDLE - number)} {high} {name}"


def addresses(rng, names, first_half):
    """Yields endless lines of random addresses. `first_half` returns the first 64 bits of one."""
    while True:
        yield f"{text_of(first_half() << 64 | rng.getrandbits(64))}/128 {rng.choice(names)}"


def chains(rng, names, count):
    """Yields the lines of `count` blocks, many of them around one address, the longer ones later."""
    while True:
        address = 1 << 125 | rng.getrandbits(125)
        for length in CHAIN:
            if count == 0:
                return
            count -= 1
            host_bits = 128 - length
            yield f"{text_of(address >> host_bits << host_bits)}/{length} {names[length % 3]}"


def dotted(value):
    """Returns the text of an IPv4 address."""
    return f"{value >> 24}.{value >> 16 & 255}.{value >> 8 & 255}.{value & 255}"


def shared(rng, names, count):
    """Yields the lines of `count` prefixes, each mostly with the label of the one before."""
    name = names[0]
    for value, length in prefixes(rng, count):
        if rng.randrange(100) >= SHARING:
            name = rng.choice(names)
        yield f"{dotted(value)}/{length} {name}"


def countries(rng, count, order):
    """Yields the lines of `count` ranges, a tenth of them after a gap. Few countries have most of them."""
    pairs = itertools.product("ABCDEFGHIJ", "ABCDEFGHIJKLMNOPQRSTUVWXY")
    names = ["".join(pair) for pair in pairs]
    low, bits = COUNTRY_RANGES[order]
    text = dotted if order == "countries" else text_of
    for _ in range(count):
        size = 1 << rng.choice(bits)
        low += size * (rng.randrange(10) == 0)
        yield f"{text(low)} {text(low + size - 1)} {names[int(len(names) ** rng.random()) - 1]}"
        low += size


def hosts(rng):
    """Yields endless lines of single addresses."""
    while True:
        yield f"{text_of(1 << 125 | rng.getrandbits(125))} feed-{rng.randrange(4)}"


def striped(rng, names, count):
    """Yields the lines of `count` neighbouring ranges with two labels in turn."""
    low = 1 << 24
    for number in range(count):
        high = low + rng.randrange(64)
        yield f"{dotted(low)} {dotted(high)} {names[number % 2]}"
        low = high + 1


def distinct(rng, count):
    """Yields the lines of `count` prefixes, each with a label of its own."""
    for number, (value, length) in enumerate(prefixes(rng, count)):
        yield f"{dotted(value)}/{length} network {number}"


def folded(state, number):
    """Returns the two halves of a product of 128 bits, combined by exclusive or."""
    product = state * number
    return (product ^ product >> 64) % 2**64


# A hash of labels: the state after the label's length, the state after one more letter, and the hash at the end.
HASHES = {
    "fold_labels": (folded(SEED_NUMBER ^ LABEL_LENGTH, MULTIPLIER ^ 16),
                    lambda state, letter: folded(state ^ 0x01_0101 * ord(letter), MULTIPLIER ^ 2),
                    lambda state: state),
    "known_labels": (folded(folded(SEED_NUMBER ^ LABEL_LENGTH, MULTIPLIER) ^ 1, MULTIPLIER),
                     lambda state, letter: folded(state ^ 256 ^ ord(letter), MULTIPLIER),
                     lambda state: folded(state, SEED_NUMBER)),
}


def near_labels(rng, order, count):
    """Yields endless distinct labels that are in the first sixteenth of a table with this number of labels."""
    start, step, end = HASHES[order]
    # A table has sixteen slots with the same remainder, and at most seven eighths of its slots are filled.
    remainders = 1 << (count * 8 // 7).bit_length() - 4
    for front in random_labels(rng, LABEL_LENGTH - VARYING):
        front_state = functools.reduce(step, front, start)
        for back in map("".join, itertools.product(LETTERS, repeat=VARYING)):
            number = end(functools.reduce(step, back, front_state))
            if (number ^ number >> 32) % remainders < remainders / 16:
                yield front + back


def random_labels(rng, length=LABEL_LENGTH):
    """Yields endless distinct labels."""
    made = set()
    while True:
        label = "".join(rng.choices(LETTERS, k=length))
        if label not in made:
            made.add(label)
            yield label


def own_labels(rng, count, order):
    """Yields the lines of `count` single addresses, each with a label of its own."""
    names = random_labels(rng) if order == "labels" else near_labels(rng, order, count)
    for number, name in enumerate(itertools.islice(names, count)):
        yield f"{dotted((10 << 24) + number)} {name}"


def lines_with_labels(rng, count, order):
    """Returns the lines of a text over IPv4 for a shorter list."""
    if order == "striped":
        return striped(rng, labels(rng), count)
    if order == "countries":
        return countries(rng, count, order)
    return shared(rng, labels(rng, SHARED_LABELS[order]), count)


def ipv6_lines(rng, names, count, order):
    """Returns the lines of a text over IPv6 after its mode."""
    match order:
        case "countries6":
            return countries(rng, count, order)
        case "hosts":
            return itertools.islice(hosts(rng), count)
        case "ranges":
            return ranges(rng, names, count)
        case "equal":
            return (f"{text_of(MIDDLE)}/128 {names[number % LABELS]}" for number in range(count))
        case "nested":
            return nested(names, count)
        case "alternating":
            return alternating(names, count)
        case "chains":
            return chains(rng, names, count)
        case "list":
            return itertools.islice(addresses(rng, names, lambda: 1 << 61 | rng.getrandbits(61)), count)
        case "colliding":
            return itertools.islice(addresses(rng, names, lambda: COLLIDING), count)
    raise ValueError(order)


def ipv4_lines(rng, names, count, order):
    """Yields the lines of a text over IPv4."""
    # A text of fewer lines has the lengths of one with more lines, and there are few short prefixes.
    found = prefixes(rng, count)
    if order == "shuffled":
        rng.shuffle(found)
    for value, length in found:
        yield f"{dotted(value)}/{length} {rng.choice(names)}"


def lines(count, order):
    """Yields the lines of a text."""
    rng = random.Random(SEED)
    if order == "distinct":
        # With a default there would be one more label than the maximum of a text.
        yield "# made by bench/maps.py"
        yield from distinct(rng, count - 1)
        return
    if order in ("labels", *HASHES):
        yield from own_labels(rng, count, order)
        return
    if order in ("striped", "countries", *SHARED_LABELS):
        yield "# made by bench/maps.py"
        yield "default unassigned"
        yield from lines_with_labels(rng, count - 2, order)
        return
    names = labels(rng)
    if order in ("sorted", "shuffled"):
        yield "# made by bench/maps.py"
        yield "default unassigned"
        yield from ipv4_lines(rng, names, count - 2, order)
        return
    yield "mode ipv6"
    # A list has no default.
    yield "# made by bench/maps.py" if order in ("list", "colliding") else "default unassigned"
    yield from ipv6_lines(rng, names, count - 2, order)


def main():
    parser = Parser(__doc__)
    parser.add_argument("lines", metavar="LINES", type=count)
    orders = ["sorted", "shuffled", *re.findall(r"(?m)^- (\w+):", __doc__)]
    parser.add_argument("order", metavar="ORDER", choices=orders)
    parser.add_argument("file", metavar="FILE")
    given = parser.parse_args()
    with open(given.file, "w", encoding="ascii", newline="\n") as text:
        text.writelines(f"{line}\n" for line in lines(given.lines, given.order))


main()
