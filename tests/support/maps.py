"""Made maps, lists and certificates, and damaged copies of them. The same numbers of `random` give the same texts."""

import ipaddress
import re

LABELS = [b"A", b"B b", b"C\tc", b"\xffD", b"UNKNOWN", b"77", b"else where"]
# A line of a map or a list has a beginning, a blank and an end.
BEGINNINGS = """10.0.0.0/8|010.000.000.000/08|10.1.2.3/0|10.0.0.0/33|10.0.0.0/|10.0.0.0/008|10.0.0.0/0008|10.0.0.0/+8
10.0.0/8|10.0.0.256/8|10.0.0.0.0/8|0010.0.0.0/8|x/8|/8|10.0.0.0/8/8|::/0|::/128|::/129|::/33|2001:db8::/32|fe80::1%e/64
::ffff:10.0.0.0/104|::ffff:10.0.0.0/8|1::2::3/8|1:2:3:4:5:6:7::/8|1:2:3:4:5:6:7::8/8|1:2:3:4:5:6:7:8:9/8|12345::/8|/
10.0.0.1|10.0.0.1 10.0.0.9|10.0.0.9 10.0.0.2|10.0.0.1 ::1|::1 10.0.0.1|::1 ::2|::9 ::2|10.0.0.1 10.0.0.2/32|10.0.0.1 7up
::ffff:010.0.0.001|::10.0.0.1.2|::10.0.0|10.0.0.1::|1:2:3:4:5:6:7:10.0.0.1|1:2:3:4:5:6:10.0.0.1|ABCD:EF::|g::|:1::|:::
1:|:|7up|10.0.0|colour|Default|map-name|map-name map-name|mode|mode ipv4|mode ip|mode ipv6|mode IPv4|mode ipv4 ipv4
label|label 5|label 05|label 0000000005|label 00000000005|label 2147483647|label 2147483648|label x|label -1|label 5 5
label 6|default|default 5|default default|10.0.0.0/8 10.0.0.1|10.0.0.0/8 5""".replace("\n", "|").encode().split(b"|")
BLANKS = [b" ", b" ", b" ", b"\t", b"\r", b"  \t ", b"\x0b", b"\xa0", b""]
ENDS = [b"", b"A", b"B b", b"5", b"05", b"0000000005", b"00000000005", b"red", b"4294967296", b"9" * 11, b"# A",
        b"A # b", b"A#b", b"#", b"x" * 255, b"x" * 256, b"\x01", b"\x7f", b"a\x0bb", b"a\x0c", b"a\tb", b"a\rb",
        b"A \t\r", b"\xff\x80", b"7 # x", b"\x00", b"12", b"label"]
# Words of the lines of nodes.
WORDS = [b"l", b"n", b"c", b"L", b"", b"0", b"1", b"2", b"3", b"0", b"1", b"00", b"01", b"-1", b"+1", b"1_0", b"\t1",
         b"1\r", b"4294967295", b"4294967296", b"99999999999", b"9" * 5000, b"101", b"0" * 32, b"1" * 33, b"0" * 128,
         b"1" * 129, b"1a"]

# The certificates of FORMATS, each with a map and a list.
HALVES = (b"0.0.0.0/2 A\n64.0.0.0/2 B\n128.0.0.0/2 A\n192.0.0.0/2 C\n", b"0.0.0.0/0 A\n64.0.0.0/2 B\n192.0.0.0/2 C\n",
          b"flowlabel-cert 1 ipv4 4\nA\nB\nC\nUNKNOWN\nn 2 0\nn 1 0 1\nl 0\nl 1\nn 1 0 2\nl 0\nl 2\n")
LAST = (b"default D\n255.255.255.255 X\n", b"0.0.0.0/0 D\n255.255.255.255/32 X\n",
        b"flowlabel-cert 2 ipv4 2\nD\nX\nc 1 11111111111111111111111111111111 0 0\nl 1\n")
EMPTY = (b"", b"0.0.0.0/0 UNKNOWN\n", b"flowlabel-cert 1 ipv4 1\nUNKNOWN\nl 0\n")


def address_text(rng, address, width):
    """Returns a text of an address of 32 or 128 bits."""
    if width == 32 or address >> 32 == 0xFFFF and rng.random() < 0.6:
        numbers = (address & 0xFFFFFFFF).to_bytes(4, "big")
        dotted = ".".join(f"{number:0{rng.choice((1, 1, 3))}}" for number in numbers)
        return dotted if width == 32 or rng.random() < 0.7 else f"::ffff:{dotted}"
    text = ipaddress.IPv6Address(address)
    return rng.choice((str(text), text.exploded, str(text).upper()))


def entry_text(rng, bases, width):
    """Returns a text of a block, a range or an address. Most of the blocks are large."""
    length = rng.choice((0, 1, 1, 2, 2, 3, 3, 4, 5, 6, 8, 12, width, rng.randrange(width + 1)))
    size = 1 << width - length
    address = rng.choice(bases) ^ rng.getrandbits(8) << width - 8
    text = address_text(rng, address, width)
    if length == width:
        return text
    if rng.random() < 0.7:
        return f"{text}/{length if width == 32 or ':' in text else max(0, length - 96)}"
    low = address // size * size
    high = min(low + size * rng.randrange(1, 4), 1 << width) - 1 - rng.choice((0, 0, size // 2))
    return f"{address_text(rng, low, width)} {address_text(rng, high, width)}"


def made_map(rng, width):
    """Returns a map of a few mappings, which often cover each other."""
    labels = rng.sample(LABELS, rng.randrange(1, 5))
    bases = [rng.getrandbits(width), rng.getrandbits(width), 0xFFFF << 32 if width == 128 else 0]
    lines = [b"%s %s" % (entry_text(rng, bases, width).encode(), rng.choice(labels))
             for _ in range(rng.randrange(1, 10))]
    if rng.random() < 0.5:
        lines.insert(rng.randrange(len(lines)), b"default %s" % rng.choice(labels))
    if rng.random() < 0.5 and not labels[0].isdigit():
        lines = [b"label 7 %s" % labels[0], *(line.replace(labels[0], b"7") for line in lines)]
    lines.insert(0, b"mode ipv6" if width == 128 else b"mode ip")
    return b"".join(b"%s%s\n" % (line, rng.choice((b"", b"", b"\r", b" # remark"))) for line in lines)


def damaged_bytes(rng, text):
    """Returns a text with one byte changed, or without its end."""
    place = rng.randrange(len(text))
    changed = text[:place] + rng.choice(b" \n\t\r01:/#\xff").to_bytes(1, "big") + text[place + 1:]
    return rng.choice((text[:place], changed))


def damaged_table(rng, text):
    """Returns a map or a list with one or two changes."""
    lines = text.split(b"\n")[:-1]
    for _ in range(rng.randrange(1, 3)):
        place = rng.randrange(len(lines))
        block = re.fullmatch(rb"([^ /]+)/(\d+)( .+)", lines[place])
        match rng.choice(("drop", "double", "swap", "label", "label", "length", "length", "mode", "line")):
            case "drop" if len(lines) > 1:
                del lines[place]
            case "double":
                lines.insert(rng.randrange(len(lines)), lines[place])
            case "swap":
                lines.append(lines.pop(place))
            case "label":
                lines[place] = lines[place].split(b" ")[0] + b" " + rng.choice(LABELS)
            case "length" if block:
                length = int(block[2]) + rng.choice((-1, 1, 1, 2))
                lines.insert(rng.randrange(place, len(lines) + 1), b"%s/%d%s" % (block[1], max(0, length), block[3]))
            case "mode":
                lines[0] = rng.choice((b"mode ipv4", b"mode ipv6"))
            case "line":
                lines.insert(place, faulty_line(rng))
    return b"".join(b"%s\n" % line for line in lines)


def faulty_line(rng):
    """Returns a line of a map or a list, which may have several faults."""
    return rng.choice(BEGINNINGS) + rng.choice(BLANKS) + rng.choice(ENDS)


def subtree_end(nodes, place):
    """Returns the end of a node and the nodes below it."""
    due = 1
    while due and place < len(nodes):
        due += {b"l": -1, b"n": 1}.get(nodes[place][0], 0)
        place += 1
    return place


def damage_nodes(rng, nodes, count):
    """Changes a node of a certificate to another one. `count` is the number of labels."""
    place, number = rng.randrange(len(nodes)), rng.randrange(count + 1)
    words = nodes[place]
    labels = {b"n": 2, b"c": 4}.get(words[0])
    match rng.choice(("drop", "double", "swap", "leaf", "leaf", "split", "cost", "cost", "cost", "set", "set", "set",
                      "label", "label", "bits", "bits")):
        case "drop":
            del nodes[place]
        case "double":
            nodes.insert(place, list(words))
        case "swap":
            nodes.append(nodes.pop(place))
        case "leaf":
            nodes[place:subtree_end(nodes, place)] = [[b"l", b"%d" % number]]
        case "split" if words[0] == b"l":
            nodes[place:place + 1] = [[b"n", b"0", words[1]], list(words), list(words)]
        case "cost" if labels:
            words[1] = b"%d" % max(0, int(words[1]) + rng.choice((-1, -1, 1, 2)))
        case "set" if labels:
            words[labels:] = [b"%d" % label for label in sorted({*map(int, words[labels:])} ^ {number})]
        case "label" if words[0] != b"n":
            words[3 if labels else 1] = b"%d" % number
        case "bits" if words[0] == b"c":
            bit = rng.randrange(len(words[2]) + 1)
            words[2] = words[2][:bit] + rng.choice((b"", b"0", b"1", b"01")) + words[2][bit + rng.randrange(2):]


def damage_words(rng, header, labels, nodes):
    """Changes the header, a label line, or a word of a node, so that the line may be malformed."""
    place, words = rng.randrange(len(labels)), rng.choice(nodes)
    match rng.choice(("format", "version", "count", "count", "label", "label", "drop", "double", "word", "word",
                      "kind")):
        case "format":
            header[1] = rng.choice((b"1", b"2", b"3"))
        case "version":
            header[2] = rng.choice((b"ipv4", b"ipv6", b"ip"))
        case "count":
            header[3] = rng.choice((b"%d" % (len(labels) + 1), b"%d" % (len(labels) - 1), *WORDS))
        case "label":
            labels[place] = rng.choice((*LABELS, *ENDS, b"A ", b" A", b"\tA"))
        case "drop":
            del labels[place]
        case "double":
            labels.insert(place, labels[place])
        case "word":
            words[rng.randrange(len(words))] = rng.choice(WORDS)
        case "kind":
            words[0] = rng.choice((b"l", b"n", b"c"))


def parts_of(text):
    """Returns the words of a certificate's header, its labels, and the words of each node."""
    header, *lines = text.split(b"\n")[:-1]
    count = int(header.split(b" ")[3])
    return header.split(b" "), lines[:count], [line.split(b" ") for line in lines[count:]]


def joined(header, labels, nodes):
    """Returns the text of a certificate with such parts."""
    return b"".join(b"%s\n" % line for line in (b" ".join(header), *labels, *map(b" ".join, nodes)))


def damaged_certificate(rng, text):
    """Returns a certificate with one or more changes."""
    header, labels, nodes = parts_of(text)
    for _ in range(rng.choice((0, 1, 1, 1, 1, 2))):
        if nodes:
            damage_nodes(rng, nodes, len(labels))
    if nodes and labels and rng.random() < 0.25:
        damage_words(rng, header, labels, nodes)
    text = joined(header, labels, nodes)
    return damaged_bytes(rng, text) if rng.random() < 0.1 else text


def renumbered(rng, text):
    """Returns a certificate with other numbers for its labels, one of which is new."""
    header, labels, nodes = parts_of(text)
    order = rng.sample(range(len(labels) + 1), len(labels) + 1)
    for words in nodes:
        numbers = {b"l": 1, b"n": 2, b"c": 4}[words[0]]
        if words[0] == b"c":
            words[3] = b"%d" % order[int(words[3])]
        words[numbers:] = [b"%d" % number for number in sorted(order[int(word)] for word in words[numbers:])]
    found = dict(zip(order, [*labels, b"new"]))
    return joined([*header[:3], b"%d" % len(order)], [found[number] for number in range(len(order))], nodes)
