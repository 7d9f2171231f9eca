"""Makes a map of a router's routes, and loads the map's shortest list beside them.

FILE, or standard input, is what `ip -json route` prints, with -6 `ip -6 -json route`, or for `mrt` what `bgpdump -m`
prints of a dump of tables. If routes use groups of nexthop objects, what `ip -json nexthop` prints comes before or
after it: a resilient group, which a label can't say, is refused, and so is one that isn't listed.

The map has a line for each block, with the words that `ip route add` takes for its next hops as label. The longest
blocks come last. A block with the label of the block around it is left out. Addresses without a route have the label
`unrouted`, and so do fe80::/10 and ff00::/8, whose routes are left out. Only routes in use count: those of the lowest
metric. A next hop whose link is down (`linkdown`) counts, as for Linux, and one that is `dead` doesn't. Whatever a
label can't say, such as `tos` or `encap`, is refused. Standard error says what was left out or may need a look.

--load takes LIST, a shrunk list of such a map, and compares what TABLE (a number) then has with LIST. `unrouted`
becomes `throw`, so other tables decide. It prints the commands that take TABLE into use and out of use, but runs
neither, so each packet goes its way as before. It refuses if there is a rule beside those of the tables local, main and
default. If a step fails or a signal comes, TABLE is empty again.

--check makes the map of the router's routes anew, shrinks it, and compares the list with the routes of TABLE. If they
are equal, each address has the same next hops by both. If not, the status is 1, and each route that differs is printed,
after `-` if TABLE lacks it and after `+` if only TABLE has it. Standard error says if the rule of TABLE is gone, if
TABLE isn't as it was loaded (`damaged`), and if the router's routes have changed since (`stale`).
"""

from __future__ import annotations

import argparse
import collections
import functools
import io
import os
import re
from collections.abc import Iterable, Iterator

from flowlabel import addresses, command_line, disk, prefixes, process, programs, steps

TYPE_CHECKING = False
if TYPE_CHECKING:
    from typing import Any
    # An object of JSON.
    Item = dict[str, Any]
# The routes of a table, as pairs of a block (its address and its length) and words of the kernel, with how often there
# is each.
Table = collections.Counter[tuple[tuple[int, int], str]]
PARSER = command_line.Parser(
    "flowlabel-fib [-6] linux [FILE]", "flowlabel-fib [-6] [--peer ADDRESS] mrt [FILE]",
    "flowlabel-fib --load TABLE [LIST]", "flowlabel-fib [-6] --check TABLE", page=__doc__)
HOW = PARSER.add_mutually_exclusive_group()
HOW.add_argument("--load", action="store_true", help="add the routes of LIST to the empty TABLE of the kernel")
HOW.add_argument("--check", action="store_true",
                 help="print which routes of TABLE differ from the shortest list of the router's routes, and why")
PARSER.add_argument("-6", action="store_const", const=6, dest="version", default=4,
                    help="the routes of IPv6, in place of IPv4")
PARSER.add_argument("--peer", metavar="ADDRESS", help="the peer whose routes count, if a dump has several")
PARSER.add_argument("words", metavar="WORD", nargs="*", help="linux or mrt and a FILE, or a TABLE and a LIST")
UNROUTED = "unrouted"
# The blocks of IPv6 that each link has for itself: link-local addresses and multicast.
OF_LINKS = ((0xFE80 << 112, 10), (0xFF00 << 112, 8))
TYPES = ("blackhole", "unreachable", "prohibit", "throw")
# What a next hop and a route may have. Anything else is refused.
HOP = {"gateway", "via", "dev", "weight", "flags"}
ROUTE = {"dst", "type", "nhid", "gateway", "via", "dev", "protocol", "scope", "prefsrc", "metric", "flags", "metrics",
         "nexthops", "pref", "expires", "flow", "error"}
# Flags of hardware, which don't change where packets go.
HARDWARE = {"offload", "rt_offload", "trap", "rt_trap", "offload_failed", "rt_offload_failed"}
METRICS = {"mtu", "advmss", "hoplimit", "window", "initcwnd", "initrwnd", "quickack", "cwnd", "ssthresh", "reordering"}
ADDRESS = r"[0-9a-f.:]+"
LEG = rf"(?:(?:via (?:inet6 )?{ADDRESS}(?: dev [^\s\"'\\#]+)?|dev [^\s\"'\\#]+)(?: onlink)?)"
REST = rf"(?:src {ADDRESS}|scope [a-z0-9]+|realms [0-9/]+|(?:{'|'.join(sorted(METRICS))}) [0-9]+)"
LABEL = re.compile(rf"{UNROUTED}|{'|'.join(TYPES)}|{LEG}(?: {REST})*|"
                   rf"(?:{REST} )*nexthop {LEG} weight [0-9]+(?: nexthop {LEG} weight [0-9]+)+")
# What is between the objects of arrays of JSON.
BETWEEN = re.compile(r"[\s\[\],]*")
# The rules that each machine has. IPv6 has no rule of the table default.
RULES = ("0: from all lookup 255", "32766: from all lookup 254", "32767: from all lookup 253")


class Routes:
    """The routes in use, by block, each with its metric and its label. And why routes were left out or need a look."""

    def __init__(self, name: str, version: int) -> None:
        self.name, self.version, self.read = name, version, 0
        self.found: dict[tuple[int, int], tuple[int | None, str]] = {}
        self.left_out, self.kept = collections.Counter[str](), collections.Counter[str]()

    def fault(self, line: int, why: object) -> process.Failure:
        """Returns the fault of a line."""
        return process.Failure(f"{self.name}: line {line}: {why}")

    def add(self, version: int, number: int, length: int, metric: int | None, label: str | None) -> None:
        """Adds a route. It has no label if all its next hops are dead. Of two to a block the one with the lower metric
        counts, and for IPv4 the first one of the same metric. For IPv6, and without metrics, these must be equal."""
        self.read += 1
        other = self.found.get((number, length))
        if label is None:
            self.left_out["dead"] += 1
        elif version != self.version:
            self.left_out[f"of IPv{version}"] += 1
        elif version == 6 and any(length >= wide and number >> 128 - wide == low >> 128 - wide
                                  for low, wide in OF_LINKS):
            self.left_out["inside fe80::/10 or ff00::/8"] += 1
        elif other and other[0] == metric and other[1] != label and (version == 6 or metric is None):
            raise process.Failure("another route has the same metric, so which one is used is unknown")
        else:
            if other:
                self.left_out["there twice" if other[0] == metric else "of a higher metric"] += 1
            if not other or other[0] is not None and metric is not None and metric < other[0]:
                self.found[number, length] = metric, label

    def needed(self) -> Iterator[tuple[int, int, str]]:
        """Yields the blocks whose label isn't that of the smallest block around them."""
        width, around = addresses.WIDTHS[self.version], [(0, 0, UNROUTED)]
        for number, length in sorted(self.found):
            while (around[-1][0] ^ number) >> width - around[-1][1]:
                around.pop()
            label = self.found[number, length][1]
            if label == around[-1][2]:
                self.left_out["equal to the route around them"] += 1
            else:
                around.append((number, length, label))
                yield around[-1]

    def map(self) -> tuple[str, str]:
        """Returns the text of the map, and what was left out, or was kept and may need a look."""
        if self.version == 6 and self.found:
            self.found.update((block, (None, UNROUTED)) for block in OF_LINKS)
        # The longest blocks come last.
        lines = [f"{addresses.block_text(self.version, number, length)} {label}\n"
                 for number, length, label in sorted(self.needed(), key=lambda needed: needed[1])]
        said = [f"{self.read} routes read, {len(lines)} in the map"]
        said += [f"{what}: {', '.join(f'{count} {why}' for why, count in sorted(counts.items()))}"
                 for what, counts in (("left out", self.left_out), ("kept", self.kept)) if counts]
        if not self.found:
            raise process.Failure(f"{self.name}: there is no route in use: {'; '.join(said)}")
        return f"mode ipv{self.version}\ndefault {UNROUTED}\n" + "".join(lines), "; ".join(said)


def items_of(routes: Routes, text: str) -> Iterator[tuple[Item, int, int]]:
    """Yields the objects of arrays of JSON, one array after the other, each with its place and its end: routes, and
    nexthop objects, which have no `dst`."""
    import json
    decoder, place, depth, arrays = json.JSONDecoder(), 0, 0, 0
    while True:
        found = BETWEEN.match(text, place)
        between = found[0] if found else ""
        depth += between.count("[") - between.count("]")
        arrays += between.count("[")
        place += len(between)
        if place == len(text) and arrays and not depth:
            return
        try:
            item, end = decoder.raw_decode(text, place)
            is_known = depth == 1 and (isinstance(item["dst"], str) if "dst" in item else isinstance(item["id"], int))
        except (KeyError, TypeError, ValueError, RecursionError):
            is_known = False
        if not is_known:
            raise routes.fault(line_of(text, place), "this is no list of routes of `ip -json`, or it is cut short")
        yield item, place, end
        place = end


def line_of(text: str, place: int) -> int:
    """Returns the number of a line."""
    return text.count("\n", 0, place) + 1


def refuse_unknown(found: Iterable[str], known: set[str]) -> None:
    """Refuses what a label can't say, or what is unknown."""
    if unknown := {*found} - known:
        raise process.Failure(f"a map has no '{min(unknown)}'")


@functools.cache
def checked(label: str) -> str:
    """Returns a label of next hops, and refuses other texts."""
    if not LABEL.fullmatch(label):
        raise process.Failure(f"a label can't be '{label}'")
    return label


def leg_of(hop: Item, remarks: list[str]) -> tuple[str, int] | None:
    """Returns the words of a next hop and its weight, or None if it is dead."""
    refuse_unknown(hop, HOP)
    flags = {*hop.get("flags", ())} - HARDWARE
    refuse_unknown(flags, {"linkdown", "dead", "onlink"})
    if "dead" in flags:
        return None
    remarks += ["with linkdown"] if "linkdown" in flags else []
    via = [hop["via"]["family"], hop["via"]["host"]] if "via" in hop else [hop["gateway"]] if "gateway" in hop else []
    words = [*(["via", *via] if via else []), *(["dev", hop["dev"]] if "dev" in hop else []), *flags & {"onlink"}]
    return " ".join(words), hop.get("weight", 1)


def rest_of(route: Item, version: int) -> Iterator[str]:
    """Yields the words of a route beside its next hops."""
    if "prefsrc" in route:
        yield f"src {route['prefsrc']}"
    # The scope that `ip route add` chooses needs no word. IPv6 has none.
    usual = "global" if version == 6 or {"gateway", "via", "nexthops", "type"} & {*route} else "link"
    if route.get("scope", "global") != usual:
        yield f"scope {route.get('scope', 'global')}"
    if "flow" in route:
        yield "realms " + "/".join(route["flow"][side] for side in ("from", "to") if side in route["flow"])
    for metrics in route.get("metrics", ()):
        refuse_unknown(metrics, METRICS)
        yield from (f"{name} {value}" for name, value in metrics.items())


def label_of(route: Item, version: int) -> tuple[int, str | None, list[str]]:
    """Returns the metric of a route, its label unless all its next hops are dead, and what is remarkable."""
    refuse_unknown(route, ROUTE)
    remarks = ["that expire"] if "expires" in route else []
    remarks += ["of nexthop objects, by their next hops"] if "nhid" in route else []
    if "nhid" in route and not {"gateway", "via", "dev", "nexthops", "type"} & {*route}:
        raise process.Failure("the next hops aren't printed: set net.ipv4.nexthop_compat_mode to 1")
    kind, words = route.get("type", "unicast"), [*rest_of(route, version)]
    if kind not in ("unicast", *TYPES):
        raise process.Failure(f"a map has no '{kind}'")
    hops = route.get("nexthops") or [{key: route[key] for key in HOP & {*route}}]
    legs = [(kind, 1)] if kind in TYPES else [leg for hop in hops if (leg := leg_of(hop, remarks))]
    # The order of the next hops decides which flows each of them gets.
    words = [legs[0][0], *words] if len(legs) == 1 else words + [f"nexthop {leg} weight {count}" for leg, count in legs]
    return int(route.get("metric", 0)), checked(" ".join(words)) if legs else None, remarks


def read_linux(routes: Routes, text: str) -> None:
    """Reads what `ip -json route` prints, and `ip -json nexthop`."""
    known: dict[tuple[int, str, str], tuple[int, str | None, list[str]]] = {}
    # The groups of nexthop objects: the first route by each, with its place, and what kind of group it is.
    used, groups = dict[int, tuple[str, int]](), dict[int, str | None]()
    for item, place, end in items_of(routes, text):
        if "dst" not in item:
            groups[item["id"]] = item.get("type")
            continue
        block = item["dst"]
        try:
            version = 6 if ":" in block or "pref" in item or ":" in item.get("gateway", "") else 4
            # Many routes say the same beside their block.
            before, _, after = text[place:end].partition(f'"{block}"')
            same = version, before, after
            metric, label, remarks = known.get(same) or known.setdefault(same, label_of(item, version))
            routes.kept.update(remarks)
            if "nhid" in item and len(item.get("nexthops", ())) > 1:
                used.setdefault(item["nhid"], (block, place))
            routes.add(*prefixes.block(prefixes.ALL[version] if block == "default" else block), metric, label)
        except (AttributeError, KeyError, TypeError, ValueError, RecursionError):
            raise routes.fault(line_of(text, place), f"{block}: this is no route of `ip -json`")
        except process.Failure as fault:
            raise routes.fault(line_of(text, place), f"{block}: {fault}")
    # A resilient group gives flows other next hops than a route with the same next hops does.
    for number, (block, place) in used.items():
        if (kind := groups.get(number, "unknown")) not in (None, "mpath"):
            why = ("may be resilient: add what `ip -json nexthop` prints" if kind == "unknown" else
                   f"is {kind}, and a map has no such groups")
            raise routes.fault(line_of(text, place), f"{block}: the group {number} of its next hops {why}")


def read_mrt(routes: Routes, file: Iterable[str], peer: str | None) -> None:
    """Reads what `bgpdump -m` prints."""
    peers = set()
    for line, words in enumerate(file, 1):
        cells = words.split("|")
        if len(cells) < 9 or cells[0] != "TABLE_DUMP2" or cells[2] != "B" or not words.endswith("\n"):
            raise routes.fault(line, "this is no line of `bgpdump -m` of a dump of tables (TABLE_DUMP2), or it is cut "
                               "short")
        if peer not in (None, cells[3]):
            routes.read += 1
            routes.left_out["of other peers"] += 1
            continue
        peers.add(cells[3])
        if len(peers) > 1:
            raise routes.fault(line, f"there are routes of several peers: choose one, as by --peer {min(peers)}")
        try:
            family = "inet6 " if ":" in cells[8] and ":" not in cells[5] else ""
            routes.add(*prefixes.block(cells[5]), None, checked(f"via {family}{cells[8]}"))
        except (process.Failure, ValueError) as fault:
            raise routes.fault(line, f"{cells[5]}: {fault}")


def make(options: argparse.Namespace) -> None:
    """Prints the map of a router's routes."""
    file, name = disk.opened(*options.words[1:])
    routes = Routes(name, options.version)
    # Line feeds alone end lines.
    with io.TextIOWrapper(file, "utf-8", "surrogateescape", "\n") as text:
        if options.words[0] == "mrt":
            read_mrt(routes, text, options.peer)
        else:
            read_linux(routes, text.read())
    lines, said = routes.map()
    process.write([lines.encode()])
    process.flush()
    process.warn(said)


def read_list(name: str, text: bytes) -> tuple[int, Table]:
    """Returns the version of a list, and its entries."""
    source, entries, version = prefixes.Source(name, text), Table(), 0
    for version, number, length, label in source.entries():
        try:
            words = checked(label.decode())
        except (process.Failure, ValueError):
            raise source.fault(f"this is no block with next hops: '{addresses.block_text(version, number, length)}'")
        entries[(number, length), "throw" if words == UNROUTED else words] = 1
    if not any(block == (0, 0) for block, _ in entries):
        raise source.fault("the list has no entry for all addresses")
    return version, entries


class Entries(Routes):
    """All routes of a table."""

    def __init__(self, name: str, version: int) -> None:
        super().__init__(name, version)
        self.entries = Table()

    def add(self, version: int, number: int, length: int, metric: int | None, label: str | None) -> None:
        self.entries[(number, length), label or "dead"] += 1


class Kernel:
    """The rules of the kernel, and its routes of one version of IP, in a change."""

    def __init__(self, version: int, table: str, change: steps.Steps) -> None:
        self.version, self.table, self.change = version, table, change

    def ip(self, *words: str) -> str:
        """Runs ip, which says on standard error if routes changed while it read them."""
        return self.change.ip(f"-{self.version}", *words, silent=True) or "[]"

    def rules(self) -> list[str]:
        """Returns the rules beside those that each machine has, and refuses to go on without the first two of these."""
        rules = [" ".join(rule.split()) for rule in self.ip("-N", "rule").splitlines()]
        for rule in {*RULES[:2]} - {*rules}:
            raise process.Failure(f"there is no rule '{rule}', which each machine has")
        return [rule for rule in rules if rule not in RULES]

    def entries(self) -> Table:
        """Returns the routes of the table."""
        found = Entries(f"table {self.table}", self.version)
        read_linux(found, self.ip("-json", "route", "show", "table", self.table))
        return found.entries

    def fill(self, entries: Table) -> None:
        """Adds routes to the table."""
        # A gateway must have a route to its link, so routes without a gateway come first.
        blocks = [(addresses.block_text(self.version, *block), label)
                  for block, label in sorted(entries, key=lambda pair: "via " in pair[1])]
        self.change.batch(f"-{self.version}", silent=True, lines=[
            f"route add table {self.table} " + (f"{label} {block}" if label in TYPES else f"{block} {label}")
            for block, label in blocks])


def differences(version: int, wanted: Table, found: Table) -> list[str]:
    """Returns a line for each route that only one of two tables has, in the order of their blocks."""
    pairs = sorted([(pair, "-") for pair in wanted - found] + [(pair, "+") for pair in found - wanted])
    return [f"{sign}{addresses.block_text(version, *block)} {label}\n" for (block, label), sign in pairs]


def mark_of(version: int, table: str, entries: Table) -> str:
    """Returns a mark of a table's routes, as a line."""
    import hashlib
    return f"{version} {table} {hashlib.sha256(repr(sorted(entries.items())).encode()).hexdigest()}\n"


def lock() -> str:
    """Returns the lock of this network namespace. Its file has marks of the tables as they were loaded."""
    return f"fib-{os.stat('/proc/self/ns/net').st_ino}"


def load(options: argparse.Namespace) -> None:
    """Loads a list into an empty table."""
    table = options.words[0]
    file, name = disk.opened(*options.words[1:])
    with file:
        version, wanted = read_list(name, file.read())
    with steps.locked(lock()) as marks, steps.Steps() as change:
        kernel = Kernel(version, table, change)
        for rule in kernel.rules():
            raise process.Failure(f"there is the rule '{rule}', beside those of local, main and default: with rules of "
                                  "policies, VPNs or VRFs, a table in front could send packets another way")
        if kernel.entries():
            raise process.Failure(f"the table {table} isn't empty")
        change.undo(kernel.ip, "route", "flush", "table", table)
        kernel.fill(wanted)
        for line in differences(version, wanted, kernel.entries()):
            raise process.Failure(f"the kernel has other routes than the list: {line.strip()}")
        others = [line for line in marks if not line.startswith(f"{version} {table} ")]
        marks.seek(0)
        marks.writelines([*others, mark_of(version, table, wanted)])
        marks.truncate()
        marks.flush()
        # The kernel looks here after the table local, and before the table main.
        rule = f"pref 1000 lookup {table}"
        process.say(f"table {table}: {len(wanted)} routes of IPv{version}, as in the list. No rule selects it yet\n"
                    f"use:   ip -{version} rule add {rule}\n"
                    f"undo:  ip -{version} rule del {rule}\n"
                    f"empty: ip -{version} route flush table {table}")
        process.flush()
        change.finish()


def check(options: argparse.Namespace) -> None:
    """Compares a table with the shortest list of the router's routes."""
    table, version = options.words[0], options.version
    # Nothing begins without the program.
    programs.find("flowlabel")
    routes = Routes("the router's routes", version)
    with steps.locked(lock()) as marks:
        # Nothing changes, so a signal ends this at once.
        kernel = Kernel(version, table, steps.Steps())
        rules, found = kernel.rules(), kernel.entries()
        found_routes = kernel.ip("-json", "route")
        # A kernel before Linux 5.3 has no nexthop objects.
        read_linux(routes, found_routes + (kernel.change.ip("-json", "nexthop") if '"nhid"' in found_routes else ""))
        loaded = [line for line in marks if line.startswith(f"{version} {table} ")][-1:]
    text = programs.run("flowlabel", "shrink", "--pmap", "/dev/stdin", given=routes.map()[0].encode())
    wanted = read_list("the output of flowlabel shrink", text)[1]
    lines = differences(version, wanted, found)
    own = [rule for rule in rules if re.fullmatch(rf"[0-9]{{1,5}}: from all lookup {table}", rule)
           and int(rule.partition(":")[0]) < 32766]
    faults = [] if own else ["no rule selects it"]
    faults += [f"the rule '{rule}' may send packets another way" for rule in rules if rule not in own]
    faults += [why for entries, why in ((found, "it isn't as it was loaded (damaged)"),
                                        (wanted, "the router's routes have changed since (stale)"))
               if lines and loaded != [mark_of(version, table, entries)]]
    process.write(line.encode() for line in lines)
    if faults:
        process.flush()
        raise process.Failure(f"table {table}, IPv{version}: {len(lines)} routes differ; {'; '.join(faults)}")
    process.say(f"table {table}: its {len(found)} routes of IPv{version} are the shortest list of the router's routes")


def main(words: list[str]) -> int:
    options = PARSER.parse_intermixed_args(words)
    action = load if options.load else check if options.check else make
    first, *names = options.words or [""]
    if action == make:
        is_right = first == "mrt" or first == "linux" and options.peer is None
    else:
        is_right = bool(re.fullmatch("[1-9][0-9]{0,9}", first) and int(first) < 1 << 32
                        and first not in ("253", "254", "255") and options.peer is None)
    if not is_right or len(names) > (action != check):
        PARSER.fail_usage()
    action(options)
    return 0
