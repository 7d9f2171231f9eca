"""Inputs of which the definitions and the program must make the same: command lines of flowlabel with their files.

There are those of the Files, maps and lists of examples/, those of the worked examples, and made ones: maps, lists and
certificates, Files of random templates and records, damaged copies of all of these, filters, fields and options, and
damaged command lines. The same seed makes the same inputs.
"""

import random
import re
import tempfile
from typing import NamedTuple

from support import PROGRAM, ROOT, read, run
from support.maps import (EMPTY, HALVES, LABELS, LAST, damaged_bytes, damaged_certificate, damaged_table, faulty_line,
                           made_map, renumbered)

NAMES = b"map.txt", b"list.txt", b"cert.txt", b"day.ipfix"


class Input(NamedTuple):
    """A command line with the contents of its files."""

    words: list
    files: dict

    def __str__(self):
        return f"{b' '.join(self.words)!r}"


# Command lines

NUMBERS = ["6", "17", "6,17", "1-16", "0-255", "5-4", "", "x", "6,", "256", "80,443", "0-65535", "65536", "53", "00006",
           "5-"]
BLOCKS = ["10.0.0.0/8", "0.0.0.0/0", "2001:db8::/32", "::/0", "10.0.0.1,10.0.0.2", "::ffff:10.0.0.0/104", "x",
          "10.0.0.0/33", ""]
SIZES = ["1-", "0-", "5", "3-5", "5-4", "5,6", "", "18446744073709551615", "18446744073709551616", "1-200"]
FILTERS = {"protocol": NUMBERS, "sport": NUMBERS, "dport": NUMBERS, "saddress": BLOCKS, "daddress": BLOCKS,
           "packets": SIZES, "bytes": SIZES, "src-label": None, "dst-label": None, "any-label": None}
FIELDS = ["sip", "dip", "sport", "dport", "proto", "flags", "src-label", "dst-label"]
WORDS = [b"--", b"-", b"", b"-h", b"--help", b"-V", b"--version", b"-x", b"-hx", b"-xh", b"--pmap", b"--list",
         b"--pmap=map.txt", b"--list=list.txt", b"--fields", b"--fields=sip", b"--columns", b"--columns=true",
         b"--sort-output", b"--certificate", b"--compact", b"--protocol=6", b"--colour", b"--=x", b"nothing", b"help",
         b"rows", b"10.0.0.1", b"::1", b"map.txt", b"--bytes", b"1-", b"\xff", b"--cert=cert.txt", b"-\xc3\xa9",
         b"day.ipfix"]


def source_words(rng):
    """Returns words that name a source of labels."""
    return rng.choice(([b"--pmap", b"map.txt"], [b"--pmap", b"map.txt"], [b"--list", b"list.txt"]))


def report_words(rng, labels):
    """Returns the words of a report on the File. `labels` are those of the files."""
    source = source_words(rng) if rng.random() < 0.7 else []
    words = [rng.choice((b"rows", b"uniq")), *source]
    for option in rng.sample(list(FILTERS), rng.choice((0, 0, 1, 1, 2, 3))):
        texts = FILTERS[option] or labels
        if FILTERS[option] or source or rng.random() < 0.2:
            text = rng.choice(texts)
            words += [b"--" + option.encode(), text if FILTERS[option] is None else text.encode()]
    if words[0] == b"uniq":
        fields = rng.sample(FIELDS[:6] if not source and rng.random() < 0.9 else FIELDS, rng.randrange(1, 5))
        if rng.random() < 0.06:
            fields.insert(rng.randrange(len(fields) + 1), rng.choice(["", "x", "SIP", *fields]))
        words += [b"--fields", ",".join(fields).encode()] + [b"--sort-output"] * rng.randrange(2)
    return words + [b"--columns"] * rng.randrange(2) + [b"day.ipfix"]


def text_words(rng):
    """Returns the words of a command on maps, lists and certificates."""
    address = rng.choice((b"10.1.2.3", b"0.0.0.0", b"255.255.255.255", b"::1", b"2001:db8::1", b"::ffff:10.0.0.1",
                          b"10.0.0", b"1::2::3"))
    shrink = [b"shrink", b"--pmap", b"map.txt"]
    return rng.choice((
        [b"label", *source_words(rng), address], [b"cat", *source_words(rng)], shrink, [*shrink, b"--certificate"],
        [*shrink, b"--compact", b"--certificate"], [b"recert", b"--cert", b"cert.txt"]))


CHECK = [b"check", b"--pmap", b"map.txt", b"--list", b"list.txt", b"--cert", b"cert.txt"]


def damaged_words(rng, words):
    """Returns a command line with one or two words dropped, doubled, exchanged or put in."""
    words = list(words)
    for _ in range(rng.randrange(1, 3)):
        place = rng.randrange(len(words) + 1)
        match rng.choice(("drop", "double", "swap", "put", "put", "change")):
            case "drop":
                del words[place:place + 1]
            case "double":
                words[place:place] = words[place:place + 1]
            case "swap":
                words.append(words.pop(place % len(words))) if words else None
            case "put":
                words.insert(place, rng.choice(WORDS))
            case "change":
                words[place:place + 1] = [rng.choice(WORDS)]
    return words


# Files

USUAL = [(8, 4), (12, 4), (7, 2), (11, 2), (4, 1), (6, 1), (6, 2), (2, 4), (1, 8), (1, 3), (152, 8), (153, 8), (86, 2),
         (85, 6)]
LONG = [(27, 16), (28, 16)]
REVERSE = [(number, size, 29305) for number, size in (
    (2, 4), (1, 4), (86, 8), (85, 8), (6, 2), (152, 8), (153, 8), (7, 2))]
OTHER = [(82, 65535), (210, 3), (8, 3), (2, 9), (4, 2), (1, 0), (0x4000 | 8, 4), (8, 4, 9), (2, 4, 29305 + 65536),
         (96, 65535, 6871)]
IDS = [256, 257, 258, 32768, 65535]
DOMAINS = [0, 1, 1, 1, 65537, 1 << 24 | 1]


class FileMaker:
    """Makes a File of random templates and of records of these."""

    def __init__(self, rng):
        self.rng, self.known = rng, {}

    def fields(self):
        rng = self.rng
        pool = [*USUAL, *(LONG * rng.randrange(2)), *(REVERSE * rng.randrange(2)),
                *OTHER[:rng.randrange(len(OTHER) + 1)]]
        chosen = rng.sample(pool, rng.randrange(1, 9))
        if rng.random() < 0.8:
            chosen += rng.choice(([(8, 4), (12, 4)], LONG))
        rng.shuffle(chosen)
        return chosen

    def template(self, domain, scopes):
        """Returns a template record, or a withdrawal."""
        number = self.rng.choice(IDS)
        if self.rng.random() < 0.12:
            number = self.rng.choice((number, number, 3 if scopes else 2))
            self.known = {at: fields for at, fields in self.known.items() if at != (domain, number)}
            return number.to_bytes(2, "big") + bytes(2)
        fields = self.known[domain, number] = self.fields()
        specifiers = b"".join(
            (element | (len(more) and 0x8000)).to_bytes(2, "big") + size.to_bytes(2, "big")
            + b"".join(enterprise.to_bytes(4, "big") for enterprise in more) for element, size, *more in fields)
        scope = self.rng.choice((1, 1, len(fields))).to_bytes(2, "big") if scopes else b""
        return number.to_bytes(2, "big") + len(fields).to_bytes(2, "big") + scope + specifiers

    def value(self, element, size):
        rng = self.rng
        if size == 65535:
            length = rng.choice((0, 1, 3, 254, 255, 256))
            head = bytes([length]) if length < 255 and rng.random() < 0.8 else b"\xff" + length.to_bytes(2, "big")
            return head + rng.randbytes(length)
        if element in (8, 12) and size == 4:
            return bytes([rng.choice((10, 10, 11, 198, 0, 255)), rng.randrange(2), rng.randrange(2), rng.randrange(4)])
        if element in (27, 28) and size == 16:
            front = rng.choice((bytes.fromhex("20010db8000000000000000000"), bytes(10) + b"\xff\xff\x0a"))
            return front + bytes([0, 0, rng.randrange(3)])
        small = bytes(max(0, size - 1)) + bytes([rng.choice((1, 6, 17, 80))])[:size]
        return rng.choice((bytes(size), small, rng.randbytes(size)))

    def content(self, domain):
        """Returns a set's ID and its content."""
        rng = self.rng
        kind = rng.random()
        if kind < 0.4:
            templates = b"".join(self.template(domain, False) for _ in range(rng.randrange(1, 3)))
            return 2, templates + bytes(rng.choice((0, 0, 0, 2, 3)))
        if kind < 0.5:
            return 3, self.template(domain, True)
        if kind < 0.55:
            return rng.choice((0, 1, 4, 255)), rng.randbytes(rng.randrange(6))
        known = [number for at, number in self.known if at == domain] if rng.random() < 0.93 else []
        number = rng.choice(known or IDS)
        fields = self.known.get((domain, number), [(8, 4)])
        records = [b"".join(self.value(element, size) for element, size, *_ in fields)
                   for _ in range(rng.choice((1, 1, 2, 4)))]
        return number, b"".join(records) + bytes(rng.choice((0, 0, 0, 1, 3)))

    def message(self):
        domain = self.rng.choice(DOMAINS)
        sets = b""
        for _ in range(self.rng.randrange(5)):
            number, content = self.content(domain)
            sets += number.to_bytes(2, "big") + (4 + len(content)).to_bytes(2, "big") + content
        length = (16 + len(sets)).to_bytes(2, "big")
        return b"\0\x0a" + length + self.rng.randbytes(8) + domain.to_bytes(4, "big") + sets

    def file(self):
        return b"".join(self.message() for _ in range(self.rng.choice((0, 1, 2, 2, 3, 5))))


def damaged_file(rng, content):
    """Returns a File with a few bytes changed, dropped, doubled or put in, often where numbers are small."""
    content = bytearray(content)
    for _ in range(rng.choice((1, 1, 1, 2, 3))):
        place, size = rng.randrange(len(content) + 1), rng.randrange(1, 5)
        match rng.choice(("change", "change", "near", "near", "near", "drop", "double", "put", "end")):
            case "change":
                content[place:place + 1] = rng.randbytes(1)
            case "near" if place < len(content):
                content[place] = (content[place] + rng.choice((-1, 1))) % 256
            case "drop":
                del content[place:place + size]
            case "double":
                content[place:place] = content[place:place + size]
            case "put":
                content[place:place] = bytes(size)
            case "end":
                del content[place:]
    return bytes(content)


# Inputs


def shrunk(text):
    """Returns the list, the certificate and the compact certificate of a map, by the program; None for a faulty map."""
    with tempfile.NamedTemporaryFile() as file:
        file.write(text)
        file.flush()
        options = (), ("--certificate",), ("--certificate", "--compact")
        runs = [run(PROGRAM, "shrink", "--pmap", file.name, *words) for words in options]
        return [ended.stdout for ended in runs] if runs[0].returncode == 0 else None


def random_map(rng):
    """Returns a map of lines, most of which are well formed."""
    lines = [faulty_line(rng) for _ in range(rng.randrange(1, 4))]
    if rng.random() < 0.3:
        lines = [b"label %d %s" % (rng.randrange(5, 8), rng.choice((b"red", b"AS5"))) for _ in range(3)]
    return made_map(rng, rng.choice((32, 128))) + b"\n".join(lines) + rng.choice((b"", b"\n"))


class Texts:
    """A made map with its lists and certificates, and damaged copies of these."""

    def __init__(self, rng):
        self.rng = rng
        if rng.random() < 0.2:
            self.map, self.list, *self.certificates = rng.choice((HALVES, LAST, EMPTY))
            return
        made = None
        while not made:
            self.map = made_map(rng, rng.choice((32, 128)))
            made = shrunk(self.map)
        self.list, *self.certificates = made

    def files(self, damage):
        rng = self.rng
        found = {b"map.txt": self.map, b"list.txt": self.list, b"cert.txt": rng.choice(self.certificates)}
        if not damage:
            return found
        match rng.choice(("map", "list", "cert", "cert", "cert", "numbers", "line", "bytes")):
            case "map":
                found[b"map.txt"] = damaged_table(rng, self.map or b"mode ip\n")
            case "list":
                found[b"list.txt"] = damaged_table(rng, self.list)
            case "cert":
                found[b"cert.txt"] = damaged_certificate(rng, found[b"cert.txt"])
            case "numbers":
                found[b"cert.txt"] = renumbered(rng, found[b"cert.txt"])
            case "line":
                found[rng.choice(NAMES[:2])] = random_map(rng)
            case "bytes":
                name = rng.choice(NAMES[:3])
                found[name] = damaged_bytes(rng, found[name] or b"\n")
        return found


def made(seed, count):
    """Makes this many inputs."""
    rng, texts = random.Random(seed), None
    for number in range(count):
        if number % 25 == 0:
            texts = Texts(rng)
        content = FileMaker(rng).file()
        damage = rng.random() < 0.5
        files = texts.files(damage)
        kind = rng.random()
        if kind < 0.45:
            words = rng.choice(([b"info", b"day.ipfix"], report_words(rng, LABELS), report_words(rng, LABELS)))
            content = damaged_file(rng, content) if damage else content
        else:
            words = CHECK if kind < 0.65 else text_words(rng)
        if rng.random() < 0.12:
            words = damaged_words(rng, words)
        if rng.random() < 0.02:
            del files[rng.choice(NAMES[:3])]
        yield Input(words, {**files, b"day.ipfix": content})


# Units of time, and texts that are none.
UNITS = [b"day", b"hour", b"minute", b"5m", b"1m", b"15m"]
FAULTY_UNITS = [b"7m", b"0m", b"2880m", b"25h", b"", b"x"]


def many_words(rng):
    """Returns the words of flowlabel-many without the names of Files."""
    if rng.random() < 0.35:
        return [b"messages"]
    words = [word for word in report_words(rng, LABELS)[1:-1] if word != b"--sort-output"]
    if b"--fields" not in words and rng.random() < 0.8:
        words += [b"--fields", ",".join(rng.sample(FIELDS[:6], rng.randrange(1, 3))).encode()]
    if rng.random() < 0.6:
        words += [b"--by", rng.choice(UNITS if rng.random() < 0.9 else FAULTY_UNITS)]
    return [b"sum", *words, *([b"--allow-skipped"] if rng.random() < 0.75 else [])]


def made_many(seed, count):
    """Makes this many inputs of flowlabel-many: up to four Files, some of them damaged, missing or named twice."""
    rng, texts = random.Random(seed), None
    files = {b"map.txt": b"x\n", b"list.txt": b"0.0.0.0/0 A\n", b"0.ipfix": b""}
    yield Input(b"sum --fields dst-label --pmap map.txt 0.ipfix".split(), files)
    yield Input(b"sum --fields dst-label --pmap map.txt --list list.txt 0.ipfix".split(), files)
    # A fault that seldom occurs.
    yield Input([b"messages", b"0.ipfix"], {b"0.ipfix": bytes.fromhex("000a000f600000000000000000000001")})
    for number in range(count):
        texts = Texts(rng) if number % 25 == 0 else texts
        damage, names = rng.random() < 0.3, []
        files = texts.files(damage)
        for place in range(rng.choice((0, 1, 1, 2, 2, 3, 4))):
            names.append(b"%d.ipfix" % place)
            content = FileMaker(rng).file()
            if rng.random() >= 0.03:
                files[names[-1]] = damaged_file(rng, content) if damage and rng.random() < 0.5 else content
        names += [rng.choice(names)] if names and rng.random() < 0.1 else []
        words = [*many_words(rng), *names]
        yield Input(damaged_words(rng, words) if rng.random() < 0.06 else words, files)


def examples():
    """Returns the contents of the Files, the maps and the lists of examples/ by their names."""
    return {path.name.encode(): path.read_bytes() for path in (ROOT / "examples").iterdir()
            if path.suffix in (".ipfix", ".txt")}


def of_text(name):
    """Returns the inputs over a map or a list of examples/, and over what `shrink` prints of it."""
    contents = examples()
    pair = shrunk(contents[name])
    for words in ("label --pmap {} 10.1.2.3", "label --list {} 192.0.2.9", "cat --pmap {}", "cat --list {}",
                  "shrink --pmap {}", "shrink --pmap {} --certificate", "shrink --certificate --compact --pmap {}"):
        yield Input(words.encode().replace(b"{}", name).split(), contents)
    for certificate in (pair or [])[1:]:
        for other in [pair[0], *(text for other, text in contents.items() if b"-list" in other)]:
            yield Input(CHECK, {b"map.txt": contents[name], b"list.txt": other, b"cert.txt": certificate})
        yield Input([b"recert", b"--cert", b"cert.txt"], {b"cert.txt": certificate})


def of_file(name):
    """Returns the inputs over a File of examples/."""
    for words in ("info", "rows", "rows --columns --pmap customers.txt --protocol 6 --dport 1-1024",
                  "rows --list offices-list.txt --bytes 100-", "uniq --fields sip,dip,proto --pmap customers.txt",
                  "uniq --fields dst-label --pmap regions.txt --sort-output",
                  "uniq --fields sip,dip,sport,dport,proto,flags,src-label,dst-label --pmap offices.txt --columns "
                  "--sort-output"):
        yield Input([*words.encode().split(), name], examples())


def known():
    """Returns the inputs of the worked examples: their Files, whole and cut off, and the certificates of FORMATS."""
    folder = ROOT / "crates/definition_examples"
    sources = read(folder / "src/files.rt") + read(folder / "specs/Commands.antt")
    digits = [text.replace(" ", "") for text in re.findall('"(000[9a][0-9a-f ]+)"', sources)]
    files = [bytes.fromhex(text) for text in digits if len(text) % 2 == 0]
    labels = b"mode ipv6\n10.0.0.0/8 In\n2001:db8::/33 A\ndefault Out\n"
    for content in [b"", *files]:
        for end in {len(content), max(0, len(content) - 1), min(len(content), 15)}:
            for words in ("info", "rows --pmap map.txt", "uniq --fields src-label,flags,sip --pmap map.txt --columns"):
                yield Input([*words.encode().split(), b"day.ipfix"], {b"map.txt": labels, b"day.ipfix": content[:end]})
    for texts in (HALVES, LAST, EMPTY):
        for words in (CHECK, *(line.split() for line in (
                b"shrink --pmap map.txt", b"recert --cert cert.txt", b"cat --list list.txt"))):
            yield Input(words, dict(zip(NAMES, texts)))
    # Faults that seldom occur in made inputs.
    too_deep = LAST[2].replace(b"c 1", b"n 0 0\nc 1")
    for certificate in (too_deep, b""):
        yield Input([b"recert", b"--cert", b"cert.txt"], {b"cert.txt": certificate})
    yield Input(CHECK, dict(zip(NAMES, (*HALVES[:2], HALVES[2].replace(b"n 1 0 1", b"n 1 1")))))
    for entries in (HALVES[1] + b"128.0.0.0/1 A\n", b"mode ipv6\n::/0 A\n"):
        yield Input(CHECK, dict(zip(NAMES, (HALVES[0], entries, HALVES[2]))))
    for text in (b"10.0.0.0/8 A\nmode ipv4\n", b"mode ipv4\nmode ip\n", b"default a\x7f\n",
                 b"label 5 red\nlabel 6 red\n"):
        yield Input([b"cat", b"--pmap", b"map.txt"], {b"map.txt": text})
    for line in ("cat", "label --pmap map.txt 1.2.3", "rows --sport 70000 f", "rows --packets 5-4 f",
                 "rows --saddress 10.0.0 f", "help", "uniq --fields colour f", "uniq --fields sip,sip f",
                 "rows --src-label B f", "shrink --compact --pmap map.txt", "", "-V",
                 "cat --pmap map.txt --list map.txt"):
        yield Input(line.encode().split(), {b"map.txt": labels})
    yield Input([b"rows", b"\xff"], {})
