"""Prints which lines of a map or list count, and what is rarely meant in it.

With ADDRESSes it prints the line that gives each of them its label. Without ADDRESSes it first prints a warning of each
line that flowlabel accepts, but that is rarely meant:

- a range whose second address is a netmask;
- a range that is read as one address, since something other than blanks separates its two addresses;
- a block with host bits, which are cleared, or such as `::ffff:10.0.0.0/8`, which is `::/8`;
- a label that is cut at a `#`;
- a label with a `,`, `;`, `"`, `|` or `//`, which is perhaps the separator of columns, a quote or a comment;
- a label that differs from another only in case, blanks or the form of characters (Unicode's NFKC);
- a label that is a number, if only other numbers have been declared;
- a line that goes on after a CR, as all lines do if they end with CR alone;
- a last line that covers all lines before it, as in a routing table whose default route comes last;
- a last line without a line feed, since the text may be cut short;
- and of a text without any block, range or address.

Then it prints the lines that give no address its label, the labels that no address has, and the number of addresses of
each other label. If flowlabel refuses the MAP or LIST, its line is printed on standard error, then the usual cause and
the cure.
"""

from __future__ import annotations

import collections
import functools
import itertools
import operator
import os
import re
from collections.abc import Iterator

from flowlabel import addresses, command_line, labels, process, programs

PARSER = command_line.Parser("flowlabel-lint MAP [ADDRESS..]", "flowlabel-lint --list LIST [ADDRESS..]", page=__doc__)
PARSER.add_argument("map", metavar="MAP", nargs="?", help="the prefix map")
PARSER.add_argument("addresses", metavar="ADDRESS", nargs="*", help="addresses, of each of which the line is printed")
PARSER.add_argument("--pmap", metavar="MAP", help="the same as MAP, also if its name begins with a dash")
PARSER.add_argument("--list", metavar="LIST", help="a prefix list in place of a map")
# The words of a statement but for its label, and the warning of a line.
Words = tuple[bytes, ...]
Warning = tuple[int, str]
# A map has at most 65,535 labels, so in place of labels flowlabel looks up the numbers of their lines twice: divided by
# this number, and the remainder.
LINES = 60000
BLANKS = b" \t\r"
KEYWORDS = (b"map-name", b"mode", b"label", b"default")
# The beginning of a label that was meant as the second address of a range.
SECOND = re.compile(rb"(?:[^0-9A-Za-z:]*|to[ \t\r]+)"
                    rb"(?:\d{1,3}(?:\.\d{1,3}){3}|[0-9A-Fa-f]*:[0-9A-Fa-f]*:[0-9A-Fa-f:.]*)(?![0-9A-Za-z.])")
# What separates columns, quotes or begins a comment in other texts.
SEPARATOR = re.compile(rb"[,;\"|]|//")
# Blanks that separate no words: the no-break space and others in UTF-8, and, after ASCII, that of Latin-1.
ODD_BLANK = (rb"(?:\xc2[\x85\xa0]|\xe2\x80[\x80-\x8d\xaf]|\xe2\x81[\x9f\xa0]|\xe3\x80\x80|\xef\xbb\xbf|"
             rb"(?<=[\0-\x7f])\xa0)")
# How a text begins that is no map, with the cause and the cure.
BEGINNINGS = (
    (rb"\xef\xbb\xbf", r"It begins with a byte order mark. Remove it with sed -i '1s/^\xef\xbb\xbf//'"),
    (rb"\xff\xfe\0\0|\0\0\xfe\xff", "It is UTF-32. Convert it with iconv -f UTF-32 -t UTF-8"),
    (rb"\xff\xfe|\xfe\xff", "It is UTF-16. Convert it with iconv -f UTF-16 -t UTF-8"),
    (rb"(?:[\t\n\r -~]\0){2}", "It is UTF-16 without a byte order mark. Convert it with iconv -f UTF-16LE -t UTF-8"),
    (rb"(?:\0[\t\n\r -~]){2}", "It is UTF-16 without a byte order mark. Convert it with iconv -f UTF-16BE -t UTF-8"),
    (rb"PK\x03\x04", "It is a zip archive or a spreadsheet. Unpack it, or save the sheet as a text"),
    (rb"\x0c\xa5",
     "It is a file of nfcapd. Pass the map here, and a File that flowlabel-nfcapd makes of it to rows or uniq"),
    (rb"\xde\xad\xbe\xef", "It is a file of SiLK. If it is a prefix map, pass the text that rwpmapbuild has read"),
    (rb"\0\x0a", "It is an IPFIX File. Pass the map here, and the File as the last argument of rows or uniq"),
    (rb"\0[\x05\x09]", "It is NetFlow. Pass the map here, and collect NetFlow with nfcapd"),
    (rb"\s*<", "It is HTML or XML. If it was downloaded, read it: it may be an error message"),
    (rb"\s*(?:\{|\[\s*[\[{\"])", "It is JSON. Write a line 'BLOCK LABEL' for each entry"),
    (rb"low\|high\|label\n", "It is the output of flowlabel cat. Turn it into a map with sed '1d; s/|/ /; s/|/ /'"),
    (rb"flowlabel-cert ", "It is a certificate. Pass it with --cert, and the map with --pmap"),
)
# The control characters that no text has.
BINARY = rb"[\0-\x08\x0b\x0c\x0e-\x1f\x7f]"
SEPARATED = ("Columns are separated by commas, semicolons or bars. Separate them by blanks, for example with "
             "sed 's/[,;|]/ /', or for two addresses sed 's/[,;|]/ /; s/[,;|]/ /'")
DASH = "Write a range as its first and its last address, with blanks and no dash between them"
MASK = rb"(?:255\.){0,3}(?:25[0245]|24[08]|224|192|128|0)(?:\.0){0,3}(?![^ \t\r])"
# The codes of faults, a pattern of the faulty line, and the usual cause with the cure. The first that matches counts.
CAUSES = (
    ("M1 M2 M3", rb"[^ \t\r]*" + ODD_BLANK,
     "The first word has a no-break space, or another blank that separates no words. Replace it by a space, for "
     r"example with sed 's/\xc2\xa0/ /g'"),
    ("M1 M2", rb"[\"'`]", "The line begins with a quote. Remove the quotes, for example with tr -d '\"'"),
    ("M1", rb"label(?![^ \t\r])", "The number after label must have 1 to 10 digits and be at most 2147483647"),
    ("M1", rb"(?i)(?:map-name|mode|label|default)(?![^ \t\r])", "Write the keyword in small letters"),
    ("M1", rb"[;!%-]", "A comment begins with #"),
    ("M1", rb"[^ \t\r]*[,;|]", f"A header, perhaps: put a # before it. {SEPARATED}"),
    ("M1", rb"[^ \t\r]+\.[A-Za-z]{2,}(?![^ \t\r])", "The names of hosts aren't looked up. Write the address"),
    ("M1", rb"", "The first word is no keyword, block or address. Put a # before a header or a remark"),
    ("M2", rb"[0-9A-Fa-f.:]+-[0-9A-Fa-f.:]+", DASH),
    ("M2 M3", rb"[^ \t\r]*[,;|]", SEPARATED),
    ("M2", rb"\d{4,}(?![^ \t\r])", "An address is no whole number. Write 10.0.0.1 instead of 167772161"),
    ("M2", rb"\d+(?:\.\d+){0,2}\.?(?![^ \t\r/])", "An IPv4 address has four numbers. Write 10.0.0.0/8 instead of 10/8"),
    ("M2", rb"\d+(?:\.\d+){3}(?![^ \t\r/])", "A number of an IPv4 address is at most 255, with at most three digits"),
    ("M2", rb"\[|\d+(?:\.\d+){3}:", "Write the address without brackets and port"),
    ("M2", rb"[0-9A-Fa-f:.]+%", "Remove the % and the zone after it"),
    ("M2", rb"[0-9.]*\*", "Write a block, such as 10.1.0.0/16 instead of 10.1.*.*"),
    ("M2", rb"[^ \t\r0-9:]*/", "A first word with a / is taken for a block. A comment begins with #"),
    ("M2", rb"", "The first word is taken for an address, since it begins with a digit or has a : or a /. Write an "
     "address, or put a # before a remark"),
    ("M3", rb"[^ \t\r]*/\d+(?:\.\d+){3}(?![^ \t\r])", "A netmask follows the /. Write the length, /8 for 255.0.0.0"),
    ("M3", rb"[^ \t\r]*/(?![^ \t\r])", "Write the length right after the /, without a blank"),
    ("M3", rb"[^ \t\r]*/[^ \t\r]*-", DASH),
    ("M3", rb"", "The length is a number of one to three digits, at most 32 for IPv4 and 128 for IPv6"),
    ("M4", rb"[^ \t\r]+[ \t\r]+0+\.(?:\d+\.){2}\d+", "A wildcard mask, perhaps. Write a block: /8 for 0.255.255.255"),
    ("M4", rb"", "Write the lower address first"),
    ("M5", rb"", "Write 'mode ipv6' above the first mapping. Its IPv4 addresses are then converted"),
    ("M6", rb"[^#]*#", "A # begins a comment, so no label has one. Write another character, or a label before the #"),
    ("M6", rb"[^ \t\r]+[ \t\r]+" + MASK, "The label is missing. If the second address is a netmask, also write a "
     "block: 10.0.0.0/8 for 10.0.0.0 255.0.0.0"),
    ("M6", rb"(?!label)[^ \t\r/]+[ \t\r]+[^ \t\r]", "The label is missing after the two addresses of a range. If the "
     "second address is the label, write /32 or /128 after the first"),
    ("M6", rb"", "Add a label, for example with sed 's/$/ LABEL/'"),
    ("M7", rb".*\r.", r"Lines end with CR alone. Convert them with tr '\r' '\n'"),
    ("M7", rb".*[\0-\x08\x0b-\x1f\x7f]",
     r"The label has a control character. Remove it, for example with tr -d '\000-\010\013-\037\177'"),
    ("M7", rb"label[ \t\r]+\d+[ \t\r]+\d+[ \t\r]*(?:#|$)", "The text of a label line must not consist of digits only"),
    ("M7", rb"", "The label has more than 255 bytes. Put a # before a remark"),
    ("M8", rb"", "A number has two labels, or a label two numbers. Renumber one of two maps that were joined"),
    ("M9", rb"mode[ \t\r]+proto-port", "It is a map of SiLK without addresses, which can't be read"),
    ("M9", rb"", "Write mode ipv4 or mode ipv6, in small letters and with nothing after it"),
    ("M10 M11", rb"", "Keep one mode line, above the first mapping"),
    ("M12", rb"", "A map has at most 1,000,000 mappings and 65,535 labels. Write ranges, or use fewer labels"),
    ("M13", rb"", "This is a map, not a prefix list. Pass it with --pmap"),
    ("M14", rb"", "If this is a map, pass it with --pmap. Otherwise remove one of the two lines"),
)


def address(word: bytes) -> tuple[int, int] | None:
    """Returns the version and the number of an address, or None."""
    try:
        return addresses.address(word.decode())
    except ValueError:
        return None


def statement(line: bytes) -> tuple[Words, bytes]:
    """Splits a line of a map into the words of the addresses or of the keyword, and the label."""
    text = line.partition(b"#")[0].strip(BLANKS)
    first, second = (*text.split(None, 2), b"", b"")[:2]
    count = 2 if first == b"label" or b"/" not in first and address(first) and address(second) else 1
    *words, label = text.split(None, count) or [b""]
    return (tuple(words), label) if len(words) == count else ((), b"")


class Text:
    """A map or a list: its lines, and the words and the label of each statement among them, by its number."""

    def __init__(self, option: str, name: str) -> None:
        self.option, self.name = option, name
        with open(name, "rb") as file:
            self.text = file.read()
        self.lines = self.text.split(b"\n")
        self.statements = {number: found for number, found in enumerate(map(statement, self.lines), 1) if found[0]}

    def mappings(self) -> Iterator[tuple[int, Words, bytes]]:
        """Returns the mappings: the number of each, its words but for the label, and its label."""
        return ((number, *found) for number, found in self.statements.items() if found[0][0] not in KEYWORDS)

    def shown(self, number: int) -> bytes:
        """Returns a line without its comment."""
        return self.lines[number - 1].partition(b"#")[0].strip(BLANKS)


def of_parts(text: Text, command: str, *wanted: str) -> Iterator[bytes]:
    """Yields the outputs of flowlabel over a text with a part of the number of each line in place of its label."""
    for part in (0, 1):
        found = []
        for number, (words, label) in text.statements.items():
            if words[0] == b"mode":
                found.append(b"mode %s\n" % label)
            elif words[0] not in (b"map-name", b"label"):
                found.append(b"%s %d\n" % (b" ".join(words), divmod(number, LINES)[part]))
        yield programs.run("flowlabel", command, text.option, "/dev/stdin", *wanted, given=b"".join(found))


def joined(high: bytes, low: bytes) -> int:
    """Returns the number of a line from its two parts, or 0 if no line gives a label."""
    return LINES * int(high) + int(low) if high.isdigit() and low.isdigit() else 0


def lines_that_count(text: Text) -> set[int]:
    """Returns the numbers of the lines that give an address its label. Both texts of parts have ranges over all
    addresses, so the first address of any range begins a new number."""
    starts = sorted((addresses.address(low.decode())[1], index, label)
                    for index, table in enumerate(of_parts(text, "cat")) for low, _, label in addresses.ranges(table))
    found, parts = set(), [b"", b""]
    for _, begun in itertools.groupby(starts, operator.itemgetter(0)):
        for _, index, label in begun:
            parts[index] = label
        found.add(joined(*parts))
    return found


def labels_of(text: Text) -> dict[bytes, int]:
    """Returns the labels that a text names, in its order, each with the number of its first line. A label that is named
    by a number is among them."""
    declared: dict[int, bytes] = {}
    named: dict[bytes, int] = {}
    for number, (words, label) in text.statements.items():
        if words[0] == b"label":
            declared[int(words[1])] = label
        if words[0] not in (b"map-name", b"mode"):
            is_number = label.isdigit() and len(label) <= 10 and words[0] != b"label"
            named.setdefault(declared.get(int(label), label) if is_number else label, number)
    return named


def ends(words: Words) -> tuple[int, int]:
    """Returns the first and the last address of a mapping, as numbers of IPv6."""
    if len(words) == 2:
        low, high = (addresses.in_ipv6(*addresses.address(word.decode())) for word in words)
        return low, high
    version, number, length = addresses.block(words[0].decode())
    low, high = addresses.ends(version, number, length)
    return addresses.in_ipv6(version, low), addresses.in_ipv6(version, high)


def netmasks(text: Text) -> Iterator[Warning]:
    """Yields a warning for each range whose second address is a netmask. A last address of this form is meant if the
    next address begins another mapping, or if it is the last of all addresses and the range is a block or follows
    another mapping."""
    suspects = {}
    for number, words, _ in text.mappings():
        if len(words) == 2:
            (version, low), (other, mask) = (addresses.address(word.decode()) for word in words)
            if version == other and (length := addresses.mask_length(version, mask)) is not None:
                suspects[number] = version, low, mask, length
    edges = [ends(words) for _, words, _ in text.mappings()] if suspects else []
    lows, highs = {low for low, _ in edges}, {high for _, high in edges}
    for number, (version, low, mask, length) in suspects.items():
        if length == addresses.WIDTHS[version]:
            is_meant = addresses.mask_length(version, low) is not None or addresses.in_ipv6(version, low) - 1 in highs
        else:
            is_meant = addresses.in_ipv6(version, mask) + 1 in lows
        if not is_meant:
            yield number, (f"is a range up to {addresses.address_text(version, mask)}, which looks like a netmask; the "
                           f"block is {addresses.block_text(version, low & mask, length)}")


def blocks(text: Text) -> Iterator[Warning]:
    """Yields a warning for each block whose address isn't its first one, and for each block of the form of IPv4 in IPv6
    that is more than IPv4."""
    for number, words, _ in text.mappings():
        if b"/" not in words[0]:
            continue
        version, value, length = addresses.block(words[0].decode())
        low, _ = addresses.ends(version, value, length)
        block = addresses.block_text(version, low, length)
        if version == 6 and length < 96 and value >> 32 == addresses.MAPPED >> 32:
            yield number, (f"is the block {block}, since its length counts the bits of IPv6; add 96 to a length of "
                           "IPv4, or write the address as one of IPv4")
        elif low != value:
            yield number, f"is the block {block}, since host bits are cleared; write this block, or an address alone"


def odd_labels(text: Text) -> Iterator[Warning]:
    """Yields a warning for each label with what separates columns, quotes or begins a comment in other texts, or that
    differs from an earlier one only in what a reader may overlook, or that is a number, if only others are declared."""
    keywords = {words[0] for words, _ in text.statements.values()}
    is_default = text.option == "--pmap" and b"default" not in keywords
    found = {labels.bare(b"UNKNOWN"): ("UNKNOWN", "the default")} if is_default else {}
    for label, number in labels_of(text).items():
        shown = os.fsdecode(label)
        if mark := SEPARATOR.search(label):
            yield number, (f"has the label '{shown}'; a '{mark[0].decode()}' separates no columns, quotes nothing and "
                           "begins no comment")
        other, place = found.setdefault(labels.bare(label), (shown, f"of line {number}"))
        if other != shown:
            yield number, (f"has the label '{shown}', which differs from '{other}' ({place}) only in case, blanks or "
                           "the form of characters")
        if b"label" in keywords and label.isdigit():
            yield number, f"has the label '{shown}', since no earlier line declares this number"


def covering(text: Text) -> Iterator[Warning]:
    """Yields a warning if the last mapping of a map covers those before it, of which one is smaller."""
    found = collections.deque(text.mappings(), 1)
    if text.option != "--pmap" or not found:
        return
    low, high = whole = ends(found[0][1])

    def ranges() -> Iterator[tuple[int, int]]:
        return (ends(words) for _, words, _ in text.mappings())
    if all(low <= begin and end <= high for begin, end in ranges()) and any(pair != whole for pair in ranges()):
        yield found[0][0], ("covers all lines before it, so none of them counts; of a map the last line counts, so put "
                            "larger blocks first, for example with sort -s -t / -k 2,2n")


def warnings(text: Text) -> Iterator[Warning]:
    """Yields a warning for each line that rarely means what it says."""
    for number, line in enumerate(text.lines, 1):
        if b"\r" in line.rstrip(BLANKS):
            yield number, r"goes on after a CR; if lines end with CR alone, convert them with tr '\r' '\n'"
    for number, (words, label) in text.statements.items():
        before, mark, after = text.lines[number - 1].partition(b"#")
        is_cut = not before.endswith((b" ", b"\t", b"\r")) or after[:1].isalnum() or after[:1] > b"\x7f"
        if mark and is_cut and words[0] not in (b"map-name", b"mode"):
            yield number, (f"has the label '{os.fsdecode(label)}', since a # begins a comment; put a blank on each "
                           "side of the # of a comment")
        if words[0] not in KEYWORDS and len(words) == 1 and b"/" not in words[0] and SECOND.match(label):
            yield number, (f"gives one address the label '{os.fsdecode(label)}'; separate the two addresses of a range "
                           "by blanks only")
    for find in (netmasks, blocks, odd_labels, covering):
        yield from find(text)
    if text.lines[-1].rstrip(b"\r") == text.lines[-1] != b"":
        yield len(text.lines), "has no line feed at its end, so the text may be cut short"
    if next(text.mappings(), None) is None:
        yield len(text.lines), "ends a text without blocks, ranges and addresses, so no address has a label of its own"


def earlier(text: Text, code: str, number: int) -> int:
    """Returns the number of the earlier line that a fault is about, or 0."""
    words, label = text.statements.get(number, ((), b""))
    for place, (other, its) in text.statements.items():
        is_mapping = other[0] not in KEYWORDS
        if place < number and (
                # Either the numbers are the same, or the labels are.
                code == "M8" and other[0] == b"label" and (int(other[1]) == int(words[1])) != (its == label) or
                code == "M11" and other[0] == b"mode" or is_mapping and (
                    code == "M10" or code == "M14" and ends(other) == ends(words))):
            return place
    return 0


def explain(text: Text, fault: bytes) -> None:
    """Prints the fault of a text, its usual cause and the cure."""
    process.say_error(fault.replace(b"/dev/stdin", process.shown(text.name).encode()))
    found = re.match(rb"flowlabel: /dev/stdin: (M\d+) \w+ at (\d+)\n", fault)
    if not found:
        return
    code, number = found[1].decode(), int(found[2])
    line = text.lines[number - 1].strip(BLANKS)
    # Only a text that is refused needs the module.
    from flowlabel import files
    compressed = ((form, f"It is compressed by {name}. Pass the output of {cat} as /dev/stdin")
                  for form, name, cat in files.COMPRESSED)
    captures = ((files.PCAP, "It is a packet capture (pcap). Pass the map here. flowlabel-capture makes a File of the "
                 "capture"), (files.SFLOW, "It is sFlow. Pass the map here, and collect sFlow with sfcapd"))
    causes = [cause for form, cause in (*BEGINNINGS, *compressed, *captures) if re.match(form, text.text)]
    if code in ("M1", "M2", "M3") and re.search(BINARY, text.text[:4096]):
        causes.append("It is no text: it has control characters. Pass the map, which is a text")
    causes += [cause for codes, form, cause in CAUSES if code in codes.split() and re.match(form, line, re.DOTALL)]
    place = earlier(text, code, number)
    also = f" (see line {place}: {os.fsdecode(text.shown(place))})" if place else ""
    process.warn(f"{text.name}: {causes[0]}{also}")


def lines_of(text: Text, wanted: list[str]) -> None:
    """Prints the line that gives each of some addresses its label."""
    for one in wanted:
        number = joined(*(part.strip() for part in of_parts(text, "label", one)))
        process.say(one, ": ", b"line %d: %s" % (number, text.shown(number)) if number else "no line")


def lint(text: Text, table: bytes) -> None:
    """Prints all that is found of a text, of which `flowlabel cat` has printed a table."""
    for number, warning in sorted(warnings(text)):
        process.say(f"warning: line {number} {warning}")
    counting = lines_that_count(text)
    for number, (words, _) in text.statements.items():
        if words[0] not in (b"map-name", b"mode", b"label") and number not in counting:
            process.say(f"line {number} never counts: ", text.shown(number))
    has = addresses.counts(table)
    for label in labels_of(text):
        if label not in has:
            process.say("no address has the label ", label)
    for label, count in has.most_common():
        process.say(f"{count}|", label)


def main(words: list[str]) -> int:
    options = PARSER.parse_args(words)
    wanted = [word for word in (options.map, *options.addresses) if word is not None]
    if options.pmap is None is options.list and wanted:
        options.pmap = wanted.pop(0)
    if (options.pmap is None) == (options.list is None):
        PARSER.fail_usage()
    programs.find("flowlabel")
    text = Text("--list", options.list) if options.pmap is None else Text("--pmap", options.pmap)
    table = programs.run("flowlabel", "cat", text.option, "/dev/stdin", given=text.text,
                         explain=functools.partial(explain, text))
    if wanted:
        lines_of(text, wanted)
    else:
        lint(text, table)
    return 0
