"""The kinds of tables of flowlabel-table: what they have in common, and a class for each, which KINDS has by name."""

from __future__ import annotations

import argparse
import os
import re
import signal
import sys
from collections.abc import Iterable, Iterator, Mapping

from flowlabel import addresses, disk, prefixes, process, steps

# The blocks or ranges of a version, with what the table has as label: a number, or a text.
Half = dict[str, int | str]
Halves = dict[int, Half]


def text(lines: Iterable[str]) -> str:
    """Returns the text of lines."""
    return "".join(f"{line}\n" for line in lines)


class Labels:
    """The numbers of the labels, which are kept in a file."""

    def __init__(self, folder: str) -> None:
        self.name, self.numbers, count = os.path.join(folder, "labels.txt"), dict[bytes, int](), 0
        disk.refuse_other(self.name)
        if os.path.exists(self.name):
            with disk.regular(self.name) as file:
                for count, line in enumerate(file, 1):
                    number, _, label = line.removesuffix(b"\n").partition(b" ")
                    if not number.isdigit() or not label:
                        raise process.Failure(f"{self.name}: no number and label: {line!r}")
                    self.numbers[label] = int(number)
        if len({*self.numbers.values()}) < count:
            raise process.Failure(f"{self.name}: a label or a number comes twice")
        self.last = max(self.numbers.values(), default=0)

    def number(self, label: bytes) -> int:
        """Returns the number of a label, which is new if the label has none."""
        if label not in self.numbers:
            self.last += 1
            self.numbers[label] = self.last
        return self.numbers[label]

    def text(self) -> bytes:
        """Returns the file of the numbers."""
        return b"".join(b"%d %s\n" % (number, label) for label, number in self.numbers.items())


class Table:
    """A table that takes numbers. Each kind has its input. Most can be loaded, and those of the kernel updated."""

    of_ranges = can_update = False
    limit, reason = 0xFFFFFFFF, "its number has more than 32 bits"
    # The reason why some blocks are omitted.
    without = ""
    # A line of a block and its number, as a command prints it.
    entry: re.Pattern[str]
    # The endings of names that a load needs for itself, first of those that a loaded table has before it is in use.
    beside: tuple[str, ...] = ()

    def __init__(self, options: argparse.Namespace, change: steps.Steps) -> None:
        self.name, self.folder, self.control = options.name, options.folder, options.control
        self.steps, self.run = change, change.run
        self.labels = Labels(self.folder)

    def token(self) -> str:
        """Returns the mark that a namespace and a table of nftables get."""
        import hashlib
        return f"flowlabel-table {hashlib.sha256(os.fsencode(os.path.realpath(self.folder))).hexdigest()[:16]}"

    def label_for(self, label: bytes) -> int | str:
        """Returns what the table takes as a label. Raises ValueError for the reason why it can't take one."""
        number = self.labels.number(label)
        if number > self.limit:
            raise ValueError(self.reason)
        return number

    def fitting(self, version: int, half: Half) -> Half:
        """Returns the blocks of a half that the table can have, which give the same labels."""
        return half

    def inputs(self, halves: Halves) -> dict[str, str]:
        """Returns the table's input: texts, by the ends of their files' names."""
        raise NotImplementedError

    def to_run(self) -> str:
        """Returns the lines that bring the input in, if the user has to run them."""
        return ""

    def marks(self, ending: str = "") -> dict[str, str]:
        """Returns what a load would replace, or things whose names end otherwise: each thing, as a message names it,
        with its mark. No other thing has this mark, unless it is an empty text."""
        return {}

    def made(self) -> dict[str, str]:
        """Returns the marks of what a load has made, before it is in use."""
        return self.marks(*self.beside[:1])

    def left(self) -> list[str]:
        """Returns the things that have a name which a load needs for itself."""
        return [thing for ending in self.beside for thing in self.marks(ending)]

    def fill(self, halves: Halves) -> None:
        """Loads the table beside the one in use."""

    def switch(self, halves: Halves) -> None:
        """Puts the loaded table in use, after its input is in FOLDER."""
        raise NotImplementedError

    def content(self, version: int) -> Iterable[tuple[str, int]]:
        """Returns what a half of the table in use has: pairs of a block or range and its number."""
        raise NotImplementedError

    def pairs(self, version: int, lines: list[str]) -> Iterator[tuple[str, int]]:
        """Yields the blocks of lines with their numbers. Commands omit a length if it is the largest, and a line of
        another form has the number 0."""
        for line in lines:
            if found := self.entry.fullmatch(line):
                block = prefixes.ALL[version] if found[1] == "default" else found[1]
                yield block if "/" in block else f"{block}/{addresses.WIDTHS[version]}", int(found[2], 0)
            else:
                yield line, 0

    def update(self, old: Halves, new: Halves) -> None:
        """Changes what differs: removes halves of old entries, and adds those of new ones, which may have the same
        keys. If the changes are made one by one, FOLDER keeps the new numbers and the new mark even if one of them
        fails."""
        raise NotImplementedError


class Linux(Table):
    """Routes in a table of a namespace. A rule of the namespace selects the table in use."""

    can_update = True
    limit, reason = 0xFFFF, "its number has more than the 16 bits of a realm"
    entry = re.compile(r"(\S+) dev lo (?:scope \d+ )?metric (\d+)(?: realm \2)?(?: pref medium)? ?")
    preference = "10"
    # The links that the kernel may add to each namespace. They are down.
    tunnels = {"tunl0", "gre0", "gretap0", "erspan0", "ip_vti0", "ip6_vti0", "sit0", "ip6tnl0", "ip6gre0"}

    def __init__(self, options: argparse.Namespace, change: steps.Steps) -> None:
        super().__init__(options, change)
        self.old: dict[int, int | None] = dict.fromkeys(addresses.WIDTHS)
        if (options.load or options.update) and self.is_there():
            self.old = {version: next(iter(self.selected(version)), None) for version in addresses.WIDTHS}
        new = next(table for table in (1001, 1002, 1003) if table not in self.old.values())
        self.tables = self.old if options.update else dict.fromkeys(addresses.WIDTHS, new)

    def is_there(self) -> bool:
        """Returns whether there is the namespace."""
        return self.name in self.run("ip", "netns", "list").split()

    def marks(self, ending: str = "") -> dict[str, str]:
        if not self.is_there():
            return {}
        import json
        alias = ""
        for link in json.loads(self.ip("-json", "link", "show")):
            if link["ifname"] == "lo":
                alias = link.get("ifalias", "")
            elif link["ifname"] not in self.tunnels or "UP" in link["flags"]:
                raise process.Failure(f"the network namespace {self.name} has the link {link['ifname']}, so it isn't "
                                      "for labels alone: choose another --name")
        return {f"the network namespace {self.name}": alias}

    def remove(self) -> None:
        """Removes the namespace if there is one."""
        if self.is_there():
            self.run("ip", "netns", "del", self.name)

    def ip(self, *words: str) -> str:
        """Runs ip in the namespace."""
        return self.steps.ip("-N", "-n", self.name, *words)

    def routes(self, verb: str, halves: Halves) -> list[str]:
        """Returns the lines of a batch that add or delete routes."""
        return [f"route {verb} {prefix} dev lo table {self.tables[version]} metric {number}"
                + f" realms {number}" * (version == 4 and verb == "add")
                for version, half in halves.items() for prefix, number in half.items()]

    def inputs(self, halves: Halves) -> dict[str, str]:
        return {".routes": text(self.routes("add", halves))}

    def selected(self, version: int) -> list[int]:
        """Returns the tables that rules select. The first one is in use."""
        found = self.ip(f"-{version}", "rule", "show", "pref", self.preference)
        return [int(table) for table in re.findall(r"lookup (\d+)", found)]

    def select(self, version: int, table: int | None) -> None:
        """Puts a table in use, or none."""
        found = self.selected(version)
        changes = [("add", table)] if table and table not in found else []
        for verb, other in changes + [("del", other) for other in found if other != table]:
            self.ip(f"-{version}", "rule", verb, "pref", self.preference, "lookup", str(other))

    def flush(self, version: int, table: int | None, verb: str = "flush") -> str:
        """Flushes or shows the routes of a table, which exists if it has a route."""
        return self.ip(f"-{version}", "route", verb, "table", str(table))

    def fill(self, halves: Halves) -> None:
        if not self.is_there():
            self.steps.undo(self.remove)
            self.run("ip", "netns", "add", self.name)
            self.ip("link", "set", "lo", "up", "alias", self.token())
            for version in addresses.WIDTHS:
                # This rule would apply to the addresses of the loopback interface.
                self.ip(f"-{version}", "rule", "del", "pref", "0")
        for version, table in self.tables.items():
            self.steps.undo(self.flush, version, table)
            self.flush(version, table)
        self.steps.batch("-N", "-n", self.name, lines=self.routes("add", halves))

    def switch(self, halves: Halves) -> None:
        for version, old in self.old.items():
            self.steps.undo(self.select, version, old)
            self.select(version, self.tables[version])
            if old:
                self.steps.at_end(self.flush, version, old)

    def content(self, version: int) -> Iterable[tuple[str, int]]:
        if not self.old[version]:
            raise process.Failure(f"the namespace {self.name} has no table")
        return self.pairs(version, self.flush(version, self.old[version], "show").splitlines())

    def update(self, old: Halves, new: Halves) -> None:
        self.steps.finish()
        # The new route of a block is added before the old one is deleted.
        self.steps.batch("-N", "-n", self.name, lines=self.routes("add", new) + self.routes("del", old))


class Bird(Table):
    """Two tables of BIRD, with a static protocol for each. BIRD's configuration includes the input."""

    without = ("BIRD has no routes to 0.0.0.0/8, 127.0.0.0/8, 224.0.0.0/4, 255.255.255.255, ::/64, fe80::/10 "
               "and ff00::/8")

    def fitting(self, version: int, half: Half) -> Half:
        # The upper half of each of these ignored blocks is routed.
        for block, upper in (("224.0.0.0/3", "240.0.0.0/4"), ("fe80::/9", "fec0::/10")):
            if block in half:
                half = {upper: half[block], **half}
        return {prefix: number for prefix, number in half.items() if not self.is_ignored(prefix)}

    @staticmethod
    def is_ignored(block: str) -> bool:
        """Returns whether BIRD ignores a route: if the first address of its block is one that nobody routes, but not
        0."""
        version, low, _ = prefixes.block(block)
        if version == 4:
            return low > 0 and (low >> 24 in (0, 127) or low >> 28 == 0xE) or low == 0xFFFFFFFF
        return 0 < low < 1 << 64 or low >> 118 == 0xFE80 >> 6 or low >> 120 == 0xFF

    def inputs(self, halves: Halves) -> dict[str, str]:
        lines = [f"attribute int {self.name}_label;"]
        for version, half in halves.items():
            table = f"{self.name}{version}"
            lines += [f"ipv{version} table {table};",
                      f"protocol static {table}_routes {{ ipv{version} {{ table {table}; import all; }};",
                      *(f"route {block} blackhole {{ {self.name}_label = {number}; }};"
                        for block, number in half.items()), "}"]
        return {".bird": text(lines)}

    def to_run(self) -> str:
        import shlex
        birdc = f"birdc -s {shlex.quote(self.control)}" if self.control else "birdc"
        return f"check: {birdc} configure check\nuse:   {birdc} configure"


class Pmacct(Table):
    """A networks_file of pmacct, which a running daemon reads again when it gets a signal."""

    without = "pmacct 1.7.7 gives all addresses of IPv6 the first label of the file"
    daemons = ("pmacctd", "nfacctd", "sfacctd", "uacctd")

    def fitting(self, version: int, half: Half) -> Half:
        return half if version == 4 else {}

    def inputs(self, halves: Halves) -> dict[str, str]:
        return {".networks": text(f"{number},{prefix}" for half in halves.values() for prefix, number in half.items())}

    def signal(self, daemon: int, parent: int | None, sent: int) -> str:
        """Sends a signal to a daemon, or to a plugin, whose parent it is. Returns the name of the process. It is opened
        before its name is looked at, so another process that gets its number meanwhile gets no signal."""
        try:
            with (open(os.pidfd_open(daemon), "rb", 0) as opened,
                  open(f"/proc/{daemon}/status", encoding="utf-8", errors="replace") as file):
                found = dict(line.rstrip("\n").split(":\t", 1) for line in file if ":\t" in line)
                if found["Name"] in self.daemons and parent in (None, int(found["PPid"])):
                    signal.pidfd_send_signal(opened.fileno(), sent)
                return found["Name"]
        except OSError:
            return "gone"

    def send(self, number: int) -> None:
        """Sends a signal to the daemon and its plugins, each of which reads the file."""
        if not self.control:
            raise process.Failure("--control must name the daemon's pidfile")
        with open(self.control, "rb") as file:
            daemon = file.read().strip()
        # The numbers 0 and -1 would mean several processes.
        if not re.fullmatch(rb"[1-9][0-9]{0,8}", daemon):
            raise process.Failure(f"{self.control}: no number of a process")
        name = self.signal(int(daemon), None, number)
        if name not in self.daemons:
            raise process.Failure(f"{self.control}: the process {int(daemon)} is {name}, and no daemon of pmacct")
        for other in filter(str.isdecimal, os.listdir("/proc")):
            self.signal(int(other), int(daemon), number)

    def fill(self, halves: Halves) -> None:
        self.send(0)
        # The old input is back in FOLDER before this.
        self.steps.undo(self.send, signal.SIGUSR2)

    def switch(self, halves: Halves) -> None:
        self.send(signal.SIGUSR2)


class Ipset(Table):
    """Two sets of networks of ipset, whose marks are the numbers of labels."""

    can_update, beside = True, ("_new",)
    # The header of a set. The kernel gives each set a number at random, since Linux 5.11.
    header = re.compile(r"(?m)^Name: (\S+)\n(?:\S.*\n)*?Header: (?:.*(initval \S+))?")
    entry = re.compile(r"add \S+ (\S+) skbmark (0x[0-9a-f]+)")

    def fitting(self, version: int, half: Half) -> Half:
        # A set has no network of length 0, so it has both halves of it.
        if (whole := prefixes.ALL[version]) not in half:
            return half
        both = {4: ("0.0.0.0/1", "128.0.0.0/1"), 6: ("::/1", "8000::/1")}[version]
        networks = {**dict.fromkeys(both, half[whole]), **half}
        del networks[whole]
        return networks

    @staticmethod
    def lines(name: str, half: Half) -> list[str]:
        """Returns the lines that add networks to a set."""
        return [f"add {name} {prefix} skbmark {number:#x}" for prefix, number in half.items()]

    def inputs(self, halves: Halves) -> dict[str, str]:
        lines = []
        for version, half in halves.items():
            new, family = f"{self.name}{version}_new", {4: "inet", 6: "inet6"}[version]
            # Reserves room for updates.
            lines += [f"create {new} hash:net family {family} skbinfo maxelem {2 * len(half) + 65536}",
                      *self.lines(new, half)]
        return {".ipset": text(lines)}

    def marks(self, ending: str = "") -> dict[str, str]:
        found = dict(self.header.findall(self.run("ipset", "list", "-t")))
        names = [f"{self.name}{version}{ending}" for version in addresses.WIDTHS]
        return {f"the set {name}": found[name] for name in names if name in found}

    def destroy(self, version: int, ending: str) -> None:
        """Destroys a set if there is one."""
        if f"the set {self.name}{version}{ending}" in self.marks(ending):
            self.run("ipset", "destroy", f"{self.name}{version}{ending}")

    def swap_back(self, version: int, half: Half) -> None:
        """Exchanges a set and the one beside it if they were exchanged before, so that the set has the new half."""
        if dict(self.content(version)) == half:
            self.run("ipset", "swap", f"{self.name}{version}_new", f"{self.name}{version}")

    def fill(self, halves: Halves) -> None:
        for version in halves:
            self.steps.undo(self.destroy, version, "_new")
        self.run("ipset", "restore", stdin=self.inputs(halves)[".ipset"])

    def switch(self, halves: Halves) -> None:
        for version, half in halves.items():
            name = f"{self.name}{version}"
            if f"the set {name}" in self.marks():
                self.steps.undo(self.swap_back, version, half)
                self.run("ipset", "swap", f"{name}_new", name)
                self.steps.at_end(self.destroy, version, "_new")
            else:
                self.steps.undo(self.destroy, version, "")
                self.run("ipset", "rename", f"{name}_new", name)

    def content(self, version: int) -> Iterable[tuple[str, int]]:
        return self.pairs(version, self.run("ipset", "save", f"{self.name}{version}").splitlines()[1:])

    def update(self, old: Halves, new: Halves) -> None:
        self.steps.finish()
        lines = []
        for version, half in new.items():
            name = f"{self.name}{version}"
            lines += [f"del {name} {prefix}" for prefix in old[version] if prefix not in half] + self.lines(name, half)
        self.run("ipset", "-exist", "restore", stdin=text(lines))


class Bpf(Table):
    """Two maps of BPF from blocks to numbers of labels, pinned in the file system of BPF."""

    can_update, beside = True, ("_new", "_old")
    entry = re.compile(r"key:\s+([0-9a-f\s]+?)\s+value:\s+([0-9a-f ]+)")

    def pin(self, version: int) -> str:
        """Returns the file of a map."""
        return os.path.join("/sys/fs/bpf", f"{self.name}{version}")

    def pins(self, *endings: str) -> list[str]:
        """Returns those files of maps that are there."""
        pins = [f"{self.pin(version)}{ending}" for version in addresses.WIDTHS for ending in endings]
        return [pin for pin in pins if os.path.lexists(pin)]

    def marks(self, ending: str = "") -> dict[str, str]:
        import json
        # The kernel gives no two maps the same number while it runs.
        with open("/proc/sys/kernel/random/boot_id", encoding="ascii") as file:
            boot = file.read().strip()
        return {pin: f"{boot} map {json.loads(self.run('bpftool', '-j', 'map', 'show', 'pinned', pin))['id']}"
                for pin in self.pins(ending)}

    def left(self) -> list[str]:
        return self.pins(*self.beside)

    def lines(self, version: int, half: Mapping[str, int | str | None], ending: str = "") -> list[str]:
        """Returns the lines of a batch that add blocks to a map, or remove those without a number. A key has the
        length, in the machine's byte order, and the address."""
        lines = []
        for prefix, number in half.items():
            _, value, length = prefixes.block(prefix)
            key = length.to_bytes(4, sys.byteorder) + value.to_bytes(addresses.WIDTHS[version] // 8, "big")
            verb, rest = ("delete", "") if number is None else (
                "update", f" value hex {int(number).to_bytes(4, sys.byteorder).hex(' ')}")
            lines.append(f"map {verb} pinned {self.pin(version)}{ending} key hex {key.hex(' ')}{rest}")
        return lines

    def inputs(self, halves: Halves) -> dict[str, str]:
        return {".bpf": text(line for version, half in halves.items() for line in self.lines(version, half, "_new"))}

    def fill(self, halves: Halves) -> None:
        for version, half in halves.items():
            new = f"{self.pin(version)}_new"
            self.steps.undo(disk.remove, new)
            # Flag 1, since such a map does not preallocate memory, and some room for updates.
            size = str(4 + addresses.WIDTHS[version] // 8)
            self.run("bpftool", "map", "create", new, "type", "lpm_trie", "key", size, "value", "4", "entries",
                     str(2 * len(half) + 65536), "name", f"{self.name[:14]}{version}", "flags", "1")
        self.run("bpftool", "batch", "file", "-", stdin=self.inputs(halves)[".bpf"])

    def switch(self, halves: Halves) -> None:
        for version in halves:
            self.steps.replace(self.pin(version))

    def content(self, version: int) -> Iterable[tuple[str, int]]:
        for found in self.entry.finditer(self.run("bpftool", "map", "dump", "pinned", self.pin(version))):
            key, number = map(bytes.fromhex, found.groups())
            length = int.from_bytes(key[:4], sys.byteorder)
            block = addresses.block_text(version, int.from_bytes(key[4:], "big"), length)
            yield block, int.from_bytes(number, sys.byteorder)

    def update(self, old: Halves, new: Halves) -> None:
        self.steps.finish()
        lines = []
        for version, half in new.items():
            gone = dict.fromkeys(prefix for prefix in old[version] if prefix not in half)
            lines += self.lines(version, {**half, **gone})
        self.run("bpftool", "batch", "file", "-", stdin=text(lines))


class Nft(Table):
    """Two maps of nftables with intervals. All lines of a file take effect at once, or none does."""

    of_ranges = can_update = True
    entry = re.compile(r"([0-9a-f.:]+)(?:/(\d+)|-([0-9a-f.:]+))? : (0x[0-9a-f]+)")

    def elements(self, verb: str, version: int, half: Half) -> Iterator[str]:
        """Yields the lines that add or delete elements."""
        if half:
            yield f"{verb} element inet {self.name} label{version} {{"
            yield from (f"{key} : {number}," for key, number in half.items())
            yield "}"

    def marks(self, ending: str = "") -> dict[str, str]:
        if f"table inet {self.name}" not in self.run("nft", "list", "tables").splitlines():
            return {}
        comment = re.search(r'(?m)^\tcomment "(.*)"$', self.run("nft", "-t", "list", "table", "inet", self.name))
        return {f"the table inet {self.name}": comment[1] if comment else ""}

    def made(self) -> dict[str, str]:
        return self.marks() or {self.name: self.token()}

    def inputs(self, halves: Halves) -> dict[str, str]:
        lines = [f"add table inet {self.name}"]
        for version, half in halves.items():
            lines += [f"add map inet {self.name} label{version} {{ type ipv{version}_addr : mark; flags interval; }}",
                      f"flush map inet {self.name} label{version}", *self.elements("add", version, half)]
        return {".nft": text(lines)}

    def run_last(self, lines: str) -> None:
        """Runs nft over lines. What it does can't be undone, so it is the last step, which no signal ends."""
        self.steps.check()
        self.steps.quiet()
        self.run("nft", "-f", "-", stdin=lines)

    def switch(self, halves: Halves) -> None:
        # The first line adds the table. One that is there keeps its comment.
        self.run_last(self.inputs(halves)[".nft"].replace("\n", f' {{ comment "{self.token()}"; }}\n', 1))

    def content(self, version: int) -> Iterable[tuple[str, int]]:
        for low, length, high, number in self.entry.findall(
                self.run("nft", "-n", "list", "map", "inet", self.name, f"label{version}")):
            if length:
                high = addresses.address_text(version, addresses.ends(*addresses.block(f"{low}/{length}"))[1])
            yield f"{low}-{high or low}", int(number, 16)

    def update(self, old: Halves, new: Halves) -> None:
        self.run_last(text(line for verb, halves in (("delete", old), ("add", new)) for version, half in halves.items()
                           for line in self.elements(verb, version, half)))


class Blocks(Table):
    """Texts of blocks or ranges with tabs, for databases and libraries, which contain the labels themselves."""

    ending = "tsv"

    def label_for(self, label: bytes) -> str:
        if b"\t" in label:
            raise ValueError("a tab separates its columns")
        try:
            return label.decode()
        except UnicodeDecodeError:
            raise ValueError("it isn't UTF-8") from None

    def inputs(self, halves: Halves) -> dict[str, str]:
        # The addresses of a range are cells of their own.
        return {f"{version}.{self.ending}": text(f"{key}\t{label}".replace("-", "\t", self.of_ranges)
                                                 for key, label in half.items()) for version, half in halves.items()}

    def fill(self, halves: Halves) -> None:
        raise process.Failure("a database loads these texts itself, as docs/TABLES.md says")


class Ranges(Blocks):
    """Texts of ranges."""

    of_ranges, ending = True, "ranges"


KINDS = {"linux": Linux, "bird": Bird, "pmacct": Pmacct, "ipset": Ipset, "bpf": Bpf, "tsv": Blocks, "nft": Nft,
         "ranges": Ranges}
