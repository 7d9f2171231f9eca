"""flowlabel-table on small lists, and the countries of all addresses in real tables.

The real tables are in namespaces of the tests, and nothing outside them changes. In a small table each step of a load
fails in turn, or a signal comes: the table that the kernel has, and FOLDER, must stay as they were. So must they if an
update finds another table than the one that FOLDER loaded. An update must not change a table of another name. After two
loads at the same time the table must be complete.

The shortest list of the map that flowlabel-country makes from Debian's tor-geoipdb is loaded into Linux routes, BIRD,
pmacct, py-radix and a trie of BPF. At least 20,000 addresses are looked up in each of them, random ones and both ends
of ranges, and each label is compared with that of `flowlabel cat`. A smaller map is also loaded into ipset and
nftables, which mark packets. Then two of its ranges change and change back.
"""

import bisect
import csv
import fcntl
import functools
import glob
import itertools
import json
import os
import random
import re
import shutil
import signal
import socket
import struct
import subprocess
import sys
import types
import unittest

from support import PROGRAM, ROOT, command, inside, needs, read, rows, stand_in, texts, write
from support.changes import PIPES, failing, output, planting, stands_in, waiting
from support.exporters import BOUND
from support.namespaces import Isolated, refused
from support.processes import wait, wait_for

TABLE = command("table")
TOR = ("/usr/share/tor/geoip", "/usr/share/tor/geoip6")
PROBES = 20000
# The ranges that a test changes.
CHANGED = {4: ("9.9.0.7", "9.9.7.1"), 6: ("2a00::", "2a00:5::7")}
FAMILIES = {4: socket.AF_INET, 6: socket.AF_INET6}
WIDTHS = {4: 32, 6: 128}
MAPPED = 0xFFFF << 32
# Constants of Linux that Python's socket module lacks: marks of received packets.
SO_MARK, SO_RCVMARK = 36, 75

# A list over both versions, with a default for IPv4 further out, a name, labels with spaces and tabs, and a whole
# version in two halves.
BOTH = b"""map-name mode ipv4
mode ipv6
::/0 no one
::/80 own network
::ffff:a00:0/104 A
::ffff:a00:1/128 own network
8000::/1 A
"""
IPV4 = b"mode ipv4\n0.0.0.0/0 A\n0.0.0.0/1 B\n"
UNROUTED = b"""mode ipv4
0.0.0.0/0 A
0.0.0.0/7 B
0.1.0.0/16 A
127.0.0.0/8 B
224.0.0.0/3 B
255.255.255.255/32 A
"""
RANGES = b"""low|high|label
::|::ffff:9ff:ffff|a|b
::ffff:a00:0|::ffff:aff:ffff|A
::ffff:b00:0|ffff:ffff:ffff:ffff:ffff:ffff:ffff:ffff|a|b
"""
KEY4 = "pinned /sys/fs/bpf/t4_new key hex"
INPUTS = (
    ("linux", BOTH, {"t.routes": """route add 0.0.0.0/0 dev lo table 1001 metric 2 realms 2
route add 10.0.0.0/8 dev lo table 1001 metric 3 realms 3
route add 10.0.0.1/32 dev lo table 1001 metric 2 realms 2
route add ::/0 dev lo table 1001 metric 1
route add ::/80 dev lo table 1001 metric 2
route add 8000::/1 dev lo table 1001 metric 3
""", "labels.txt": "1 no one\n2 own network\n3 A\n"}),
    ("bird", BOTH, {"t.bird": """attribute int t_label;
ipv4 table t4;
protocol static t4_routes { ipv4 { table t4; import all; };
route 0.0.0.0/0 blackhole { t_label = 2; };
route 10.0.0.0/8 blackhole { t_label = 3; };
route 10.0.0.1/32 blackhole { t_label = 2; };
}
ipv6 table t6;
protocol static t6_routes { ipv6 { table t6; import all; };
route ::/0 blackhole { t_label = 1; };
route ::/80 blackhole { t_label = 2; };
route 8000::/1 blackhole { t_label = 3; };
}
"""}),
    ("bird", UNROUTED, {"t.bird": """attribute int t_label;
ipv4 table t4;
protocol static t4_routes { ipv4 { table t4; import all; };
route 240.0.0.0/4 blackhole { t_label = 2; };
route 0.0.0.0/0 blackhole { t_label = 1; };
route 0.0.0.0/7 blackhole { t_label = 2; };
}
ipv6 table t6;
protocol static t6_routes { ipv6 { table t6; import all; };
}
"""}),
    ("pmacct", BOTH, {"t.networks": "2,0.0.0.0/0\n3,10.0.0.0/8\n2,10.0.0.1/32\n"}),
    ("ipset", BOTH, {"t.ipset": """create t4_new hash:net family inet skbinfo maxelem 65544
add t4_new 0.0.0.0/1 skbmark 0x2
add t4_new 128.0.0.0/1 skbmark 0x2
add t4_new 10.0.0.0/8 skbmark 0x3
add t4_new 10.0.0.1/32 skbmark 0x2
create t6_new hash:net family inet6 skbinfo maxelem 65542
add t6_new ::/1 skbmark 0x1
add t6_new 8000::/1 skbmark 0x3
add t6_new ::/80 skbmark 0x2
"""}),
    ("ipset", IPV4, {"t.ipset": """create t4_new hash:net family inet skbinfo maxelem 65540
add t4_new 0.0.0.0/1 skbmark 0x2
add t4_new 128.0.0.0/1 skbmark 0x1
create t6_new hash:net family inet6 skbinfo maxelem 65536
"""}),
    ("bpf", IPV4, {"t.bpf": f"map update {KEY4} 00 00 00 00 00 00 00 00 value hex 01 00 00 00\n"
                            f"map update {KEY4} 01 00 00 00 00 00 00 00 value hex 02 00 00 00\n"}),
    ("tsv", BOTH, {"t4.tsv": "0.0.0.0/0\town network\n10.0.0.0/8\tA\n10.0.0.1/32\town network\n",
                   "t6.tsv": "::/0\tno one\n::/80\town network\n8000::/1\tA\n", "labels.txt": ""}),
    ("nft", RANGES, {"t.nft": """add table inet t
add map inet t label4 { type ipv4_addr : mark; flags interval; }
flush map inet t label4
add element inet t label4 {
0.0.0.0-9.255.255.255 : 1,
10.0.0.0-10.255.255.255 : 2,
11.0.0.0-255.255.255.255 : 1,
}
add map inet t label6 { type ipv6_addr : mark; flags interval; }
flush map inet t label6
add element inet t label6 {
::-::fffe:ffff:ffff : 1,
::1:0:0:0-ffff:ffff:ffff:ffff:ffff:ffff:ffff:ffff : 1,
}
"""}),
    ("ranges", RANGES, {"t4.ranges": "0.0.0.0\t9.255.255.255\ta|b\n10.0.0.0\t10.255.255.255\tA\n"
                                     "11.0.0.0\t255.255.255.255\ta|b\n",
                        "t6.ranges": "::\t::fffe:ffff:ffff\ta|b\n"
                                     "::1:0:0:0\tffff:ffff:ffff:ffff:ffff:ffff:ffff:ffff\ta|b\n"}),
)
# How many entries tables have.
ENTRIES = (("linux", BOTH, 6), ("bird", UNROUTED, 3), ("pmacct", BOTH, 3), ("ipset", BOTH, 7), ("bpf", IPV4, 2),
           ("tsv", BOTH, 6), ("nft", RANGES, 5), ("ranges", RANGES, 5))
NO_LIST = "this is no line of a list of `flowlabel shrink`"
NO_RANGE = "this is no line of what `flowlabel cat` prints"
NO_BLOCK = "this is no block of a list of `flowlabel shrink`"
FAULTS = (
    ("tsv", b"mode ipv4\n0.0.0.0/0 A\n1.0.0.0/8 a\tb\n",
     "line 3: the table can't take the label 'a\\tb': a tab separates its columns"),
    ("tsv", b"mode ipv4\n0.0.0.0/0 \xff\n", "line 2: the table can't take the label '\\\\xff': it isn't UTF-8"),
    ("linux", IPV4, "line 3: the table can't take the label 'B': its number has more than the 16 bits of a realm"),
    ("linux", RANGES, f"line 1: {NO_LIST}"),
    ("linux", b"mode ipv4\n10.0.0.0/8\n", f"line 2: {NO_LIST}"),
    ("linux", b"0.0.0.0/0 A\n", f"line 1: {NO_LIST}"),
    ("linux", b"mode ipv4\n::/0 A\n", f"line 2: {NO_BLOCK}"),
    ("linux", b"mode ipv4\n10.0.0.1/8 A\n", f"line 2: {NO_BLOCK}"),
    ("linux", b"mode ipv4\n10.0.0.0/33 A\n", f"line 2: {NO_BLOCK}"),
    ("linux", b"mode ipv4\n10.0.0.0/8 A\n10.0.0.0/8 B\n", "line 3: 10.0.0.0/8 is there twice"),
    ("linux", b"mode ipv4\n0.0.0.0/0 A\n0.0.", "line 3: the text is cut short"),
    ("linux", b"", "line 1: the text is cut short"),
    ("nft", IPV4, f"line 1: {NO_RANGE}"),
    ("nft", b"0.0.0.0|255.255.255.255|A\n", f"line 1: {NO_RANGE}"),
    ("nft", b"low|high|label\n0.0.0.0|255.255.255|A\n", f"line 2: {NO_RANGE}"),
    ("nft", b"low|high|label\n0.0.0.9|0.0.0.0|A\n", f"line 2: {NO_RANGE}"),
    # Ranges of which a line is missing: the first, one between, and the last.
    ("nft", b"low|high|label\n0.0.0.9|255.255.255.255|A\n",
     "line 2: this range doesn't begin at the first address, so a line is missing"),
    ("ranges", b"low|high|label\n0.0.0.0|0.0.0.9|A\n0.0.0.11|255.255.255.255|A\n",
     "line 3: this range doesn't begin where the range before it ends, so a line is missing"),
    ("nft", b"low|high|label\n0.0.0.0|0.0.0.9|A\n0.0.0.9|255.255.255.255|A\n",
     "line 3: this range doesn't begin where the range before it ends, so a line is missing"),
    ("nft", b"low|high|label\n0.0.0.0|0.0.0.9|A\n", "line 3: no range ends at the last address, so lines are missing"),
    ("nft", b"low|high|label\n", "line 2: no range ends at the last address, so lines are missing"),
    ("ranges", b"low|high|label\n::|::9|A\n::a|255.255.255.255|A\n", f"line 3: {NO_RANGE}"),
    ("ranges", b"low|high|label\n0.0.0.0|0.0.0.9|\n0.0.0.10|255.255.255.255|A\n",
     "line 2: these addresses have no label. Give the list an entry for all addresses"),
)
# Makes each change of a file a step, too, if steps are killed or get a signal. Such a step fails, or a signal comes,
# before it does anything. A test adds this hook to its own process for good.
HOOK = """
import os, signal, sys
CHANGES = ("os.rename", "os.link", "os.remove", "os.mkdir", "os.rmdir", "os.symlink")

def hook(event, words):
    if event not in CHANGES and event != "open" or os.environ.get("HOW") not in ("killed", "signal"):
        return
    is_writing = (event == "open" and isinstance(words[0], str) and words[0] != os.environ["STEPS"]
                  and words[2] & (os.O_WRONLY | os.O_RDWR))
    if event in CHANGES or is_writing:
        with open(os.environ["STEPS"]) as file:
            step = int(file.read()) + 1
        with open(os.environ["STEPS"], "w") as file:
            file.write(f"{step}\\n")
        if step == int(os.environ["FAILING"]):
            if os.environ["HOW"] == "signal":
                os.kill(os.getpid(), signal.Signals["SIG" + os.environ["SENT"]])
                return
            raise OSError(f"failed on purpose: {event}")

sys.addaudithook(hook)
"""
# Runs a script with the hook.
RUNS = f"""{HOOK}
import runpy
sys.argv = sys.argv[1:]
runpy.run_path(sys.argv[0], run_name="__main__")
"""
# What a table has before, and what replaces it: lists and, for nftables, ranges.
SMALL = {"before": {"list": BOTH, "ranges": RANGES}, "after": {"list": b"""mode ipv6
::/0 no one
::ffff:a00:0/104 C
::ffff:a01:0/112 A
::ffff:a02:0/112 own network
::ffff:a03:0/112 A
2001:db8::/32 C
2001:db8:1::/48 A
2001:db8:2::/48 own network
2001:db8:3::/48 A
""", "ranges": b"""low|high|label
::|::ffff:9ff:ffff|C
::ffff:a00:0|::ffff:aff:ffff|a|b
::ffff:b00:0|ffff:ffff:ffff:ffff:ffff:ffff:ffff:ffff|A
"""}}


# Has the name of pmacct's daemon, and so has its plugin, if it is one. Both print a line for each signal that makes
# pmacct read its file again. Another process of this name does so, too. A program that the daemon has started blocks
# the signal.
DAEMON = """
import ctypes, os, signal, sys
prctl = ctypes.CDLL(None).prctl
prctl(15, b"pmacctd")
signal.pthread_sigmask(signal.SIG_BLOCK, [signal.SIGUSR2])
name = sys.argv[1]
for child in ("trigger", "plugin") if name == "core" else ():
    if os.fork() == 0:
        prctl(1, signal.SIGKILL)
        name = child
        break
if name == "trigger":
    prctl(15, b"trigger")
    os.write(1, f"trigger {os.getpid()}\\n".encode())
    signal.pause()
os.write(1, f"{name}\\n".encode())
while True:
    signal.sigwait([signal.SIGUSR2])
    os.write(1, f"{name} reads\\n".encode())
"""


# Two users, and what locks a file as one of them.
OWN, STRANGER = 1234, 65534
LOCKS = """
import fcntl, os, signal, sys
try:
    file = os.open(sys.argv[1], os.O_RDWR | os.O_CREAT if sys.argv[1].endswith(".lock") else os.O_RDONLY, 0o600)
except OSError as fault:
    print(fault.strerror)
else:
    fcntl.flock(file, fcntl.LOCK_EX)
    print("held", flush=True)
    signal.pause()
"""


@functools.cache
def add_hook():
    """Adds the hook to this process, once."""
    exec(HOOK, {})


def table(*words, **options):
    """Runs the command in this process, and returns its status and its two outputs as texts."""
    return inside.texts("table", *words, **options)


class OwnLock(Isolated):
    """Tests with a /run of their own, if that is permitted: no other test has the lock of the command then."""
    spaces, is_needed = ("mnt",), False

    @property
    def folder(self):
        """The name of a folder for a test alone."""
        return self.id().rpartition(".")[2]

    def start(self, *words, start_new_session=False, **variables):
        """Starts a process that ends with the test."""
        process = subprocess.Popen([*BOUND, *words], **PIPES, start_new_session=start_new_session,
                                   env={**os.environ, **variables})
        self.addCleanup(process.communicate)
        self.addCleanup(process.kill)
        return process

    def assert_texts(self, words, status, said):
        """Checks how the command ends, without output, and what it reports."""
        self.assertEqual(table(*words), (status, "", said))


class Inputs(OwnLock):
    """The inputs of small lists, and faults in lists and in FOLDER."""

    @rows(*INPUTS)
    def test_input(self, kind, source, wanted):
        write("source.txt", source)
        status, _, said = table("--name", "t", kind, "source.txt", self.folder)
        self.assertEqual((status, said), (0, ""))
        self.assertEqual({name: read(f"{self.folder}/{name}") for name in wanted}, wanted)
        before = read(f"{self.folder}/labels.txt")
        write("source.txt", b"mode ipv4\n0.0.0.0/0 new\n1.0.0.0/8 A\n")
        self.assertEqual(table("pmacct", "source.txt", self.folder)[0], 0)
        self.assertEqual(read(f"{self.folder}/labels.txt")[:len(before)], before)

    @rows(*FAULTS)
    def test_fault(self, kind, source, why):
        write("source.txt", source)
        write(f"{self.folder}/labels.txt", "65535 A\n")
        self.assert_texts([kind, "source.txt", self.folder], 1, f"flowlabel-table: source.txt: {why}\n")
        self.assertEqual(os.listdir(self.folder), ["labels.txt"])

    def test_a_label_with_a_carriage_return(self):
        write("source.txt", b"mode ipv4\n0.0.0.0/0 a\rb\n1.0.0.0/8 c\n")
        for _ in range(2):
            self.assertEqual(table("linux", "source.txt", self.folder)[::2], (0, ""))
        with open(f"{self.folder}/labels.txt", "rb") as file:
            self.assertEqual(file.read(), b"1 a\rb\n2 c\n")

    def test_full_disk(self):
        os.mkdir(self.folder)
        if not self.is_isolated or refused((f"mount -t tmpfs -o size=4k none {self.folder}",)):
            self.skipTest("no file system can be mounted")
        self.addCleanup(output, "umount", self.folder)
        write("source.txt", b"mode ipv4\n0.0.0.0/0 A\n" + b"".join(b"10.%d.0.0/16 B\n10.%d.7.0/24 A\n" % (block, block)
                                                                        for block in range(256)))
        self.assert_texts(["tsv", "source.txt", self.folder], 4,
                          f"flowlabel-table: {self.folder}/flowlabel4.tsv: No space left on device\n")
        self.assertEqual(os.listdir(self.folder), [])

    def test_folder_of_a_faulty_list(self):
        write("source.txt", RANGES)
        self.assertEqual(table("tsv", "source.txt", "never")[0], 1)
        self.assertFalse(os.path.exists("never"))

    @rows(("1 A\n1 B\n",), ("1 A\n2 A\n",))
    def test_numbers_of_labels_that_come_twice(self, labels):
        write("source.txt", IPV4)
        write("twice/labels.txt", labels)
        self.assert_texts(["tsv", "source.txt", "twice"], 1,
                          "flowlabel-table: twice/labels.txt: a label or a number comes twice\n")

    def test_a_pidfile_without_a_process(self):
        write("source.txt", IPV4)
        write("pid", "0\n")
        self.assert_texts(["--load", "--control", "pid", "pmacct", "source.txt", "signalled"], 1,
                          "flowlabel-table: pid: no number of a process\n")

    @rows(("linux", "ip", "iproute2"), ("ipset", "ipset", "ipset"), ("bpf", "bpftool", "bpftool"),
          ("nft", "nft", "nftables"))
    def test_missing_package(self, kind, program, package):
        write("source.txt", RANGES if kind == "nft" else IPV4)
        status, _, said = table("--load", kind, "source.txt", "missing", variables={"PATH": "/nowhere"})
        self.assertEqual((status, said), (1, f"flowlabel-table: there is no {program} (Debian: {package})\n"))

    @rows(("offices",), ("customers",))
    def test_lookups(self, name):
        name = ROOT / f"examples/{name}.txt"
        addresses = ["10.1.20.1", "0.0.0.0", "255.255.255.255", "::", "::ffff:10.2.128.1", "2001:db8:6::1", "fe80::1"]
        lines = "".join(f"{address}\n" for address in addresses)
        self.assertEqual(inside.texts("lookup", "--pmap", name, input=lines), (
            0, "".join(output(PROGRAM, "label", "--pmap", name, address) for address in addresses), ""))

    @rows(*ENTRIES)
    def test_most_entries(self, kind, source, count):
        write("source.txt", source)
        self.assert_texts(["--max", str(count - 1), kind, "source.txt", self.folder], 1, "flowlabel-table: source.txt: "
                          f"the table would have {count} entries, and --max allows {count - 1}\n")
        self.assertFalse(os.path.exists(self.folder))
        status, _, said = table("--max", str(count), kind, "source.txt", self.folder)
        self.assertEqual((status, said, os.path.exists(self.folder)), (0, "", True))


class Signals(OwnLock):
    """Signals to a daemon in place of pmacct's and to its plugin, and none to others, whatever is in pidfiles."""
    words = ("--load", "--control", "daemon.pid", "pmacct", "list.txt", "signals")

    @classmethod
    def prepare(cls):
        write("list.txt", BOTH)

    @rows(("sleep",), ("gone",))
    def test_another_process(self, name):
        process = self.start(*({"sleep": ["sleep", "600"], "gone": ["true"]}[name]))
        if name == "gone":
            process.wait()
        else:
            wait(lambda: read(f"/proc/{process.pid}/comm") == "sleep\n")
        write("daemon.pid", f"{process.pid}\n")
        self.assert_texts(self.words, 1, f"flowlabel-table: daemon.pid: the process {process.pid} is {name}, and no "
                          "daemon of pmacct\n")
        self.assertFalse(os.path.exists("signals"))

    def test_daemon(self):
        daemon, other = (self.start(sys.executable, "-c", DAEMON, name) for name in ("core", "other"))
        stranger = self.start("sleep", "600")
        *said, trigger = sorted(daemon.stdout.readline() for _ in range(3))
        self.assertEqual(said, ["core\n", "plugin\n"])
        other.stdout.readline()
        write("daemon.pid", f"{daemon.pid}\n")
        # Pidfiles of plugins may be old, so they aren't read.
        write("daemon.pid-print", f"{stranger.pid}\n")
        write("daemon.pid-memory", f"{other.pid}\n")
        status, _, said = table(*self.words)
        self.assertEqual((status, said, os.path.exists("signals")), (0, "", True))
        self.assertEqual({daemon.stdout.readline(), daemon.stdout.readline()}, {"core reads\n", "plugin reads\n"})
        self.assertIsNone(stranger.poll())
        # A program of the daemon got no signal, nor did another process of its name.
        pending = re.search(r"ShdPnd:\s+(\S+)", read(f"/proc/{trigger.split()[1]}/status"))[1]
        self.assertEqual(int(pending, 16), 0)
        other.kill()
        self.assertEqual(other.stdout.read(), "")


class Guards(OwnLock):
    """Targets that are no regular files, a call that waits for another, and signals, which undo a load."""
    # A test that fails may leave a program.
    spaces = ("mnt", "pid")

    @classmethod
    def prepare(cls):
        write("list.txt", IPV4)

    @rows(*((f"{name} {what}", name, what) for name in ("t4.tsv", "t4.tsv_new", "t4.tsv_old", "labels.txt")
            for what in ("link", "fifo")))
    def test_target(self, _, name, what):
        os.mkdir(self.folder)
        if name == "t4.tsv_old":
            write(f"{self.folder}/t4.tsv", "before\n")
        target = f"{self.folder}/{name}"
        if what == "link":
            os.symlink("../list.txt", target)
        else:
            os.mkfifo(target)
        was = sorted(os.listdir(self.folder))
        self.assert_texts(["--name", "t", "tsv", "list.txt", self.folder], 1,
                          f"flowlabel-table: {target}: not a regular file, so it isn't replaced\n")
        self.assertEqual((sorted(os.listdir(self.folder)), os.path.islink(target), read("list.txt")),
                         (was, what == "link", IPV4.decode()))

    def test_a_call_that_waits(self):
        # The lock of root is in /run, and that of others is in FOLDER. Other tests may wait for root's.
        lock = "waits/.lock" if os.geteuid() else "/run/flowlabel-table.lock"
        if not os.geteuid() and not self.is_isolated:
            self.skipTest("no namespaces can be made")
        os.mkdir("waits")
        with open(lock, "a", encoding="ascii") as held:
            fcntl.flock(held, fcntl.LOCK_EX)
            with waiting(self, TABLE, "tsv", "list.txt", "waits") as process:
                self.assertLessEqual({*os.listdir("waits")}, {".lock"})
                fcntl.flock(held, fcntl.LOCK_UN)
                self.assertEqual((process.communicate()[1], process.returncode), ("", 0))
                self.assertEqual(sorted(os.listdir("waits")), ["flowlabel4.tsv", "flowlabel6.tsv", "labels.txt"])

    @rows(("flowlabel4.tsv_new", None), ("labels.txt_new", None), ("labels.txt", "a secret\n"))
    def test_a_planted_link(self, name, secret):
        # It comes after the command has looked whether there is one.
        write("victim", secret or "as before\n")
        write(f"{self.folder}/labels.txt", "1 A\n")
        words, variables = planting(f"{self.folder}/{name}", "victim")
        status, _, said = texts(*words, TABLE, "tsv", "list.txt", self.folder, variables=variables)
        self.assertEqual((status != 0, said.count("\n"), "secret" in said), (True, 1, False), said)
        self.assertEqual(read("victim"), secret or "as before\n")

    # Ctrl-C ends the program that runs, too. If a signal comes to the command alone, it must end that program.
    @rows((signal.SIGINT.name, os.killpg, signal.SIGINT), (signal.SIGTERM.name, os.kill, signal.SIGTERM))
    def test_signal(self, _, send, sent):
        # The third call of ipset restores a set.
        variables = {**stands_in("ipset", real="true"), **failing(3, "sleeps")}
        process = self.start(TABLE, "--load", "ipset", "list.txt", "stopped", start_new_session=True, **variables)
        wait_for("asleep", process)
        os.unlink("asleep")
        send(process.pid, sent)
        self.assertEqual((process.communicate(timeout=600)[1], process.returncode, os.path.exists("stopped")),
                         ("", -sent, False))


@unittest.skipIf(os.geteuid(), "only root can run programs as other users")
class Users(OwnLock):
    """Locks of other users: none of them stops a call."""

    @classmethod
    def prepare(cls):
        os.chmod(".", 0o755)
        write("list.txt", IPV4)
        shutil.copytree(ROOT / "lib/flowlabel", "lib/flowlabel")
        os.mkdir("bin")
        cls.table = os.path.abspath(shutil.copy(TABLE, "bin"))
        os.mkdir("own")
        os.chown("own", OWN, OWN)

    def start_as(self, user, *words):
        """Starts a process of a user, which ends with the test."""
        process = subprocess.Popen([*BOUND, *words], **PIPES, user=user, group=user, extra_groups=[])
        self.addCleanup(process.communicate)
        self.addCleanup(process.kill)
        return process

    def lock(self, user, name):
        """Lets a user hold a lock. Returns what this prints: `held`, or why it can't be."""
        # This python3 may be root's alone.
        process = self.start_as(user, "python3", "-c", LOCKS, name)
        return process, process.stdout.readline()

    @rows(("steps.py", "lib/flowlabel/steps.py"), ("the command", "bin/flowlabel-table"), ("the list", "list.txt"),
          ("FOLDER", "own"))
    def test_a_stranger(self, _, name):
        self.assertEqual(self.lock(STRANGER, name)[1], "held\n")
        for user, folder in ((OWN, "own"), (OWN, "own/new"), (0, "of-root")):
            # A call that waits would say so, and never end.
            process = self.start_as(user, self.table, "tsv", "list.txt", folder)
            self.assertEqual(process.stderr.readline(), "")
            self.assertEqual((process.wait(), "labels.txt" in os.listdir(folder)), (0, True))

    def test_two_calls(self):
        # Another call of this user has FOLDER, and strangers can't open its lock.
        holder, said = self.lock(OWN, "own/.lock")
        self.assertEqual((said, self.lock(STRANGER, "own/.lock")[1]), ("held\n", "Permission denied\n"))
        process = self.start_as(OWN, self.table, "tsv", "list.txt", "own")
        self.assertEqual(process.stderr.readline(), "flowlabel-table: another call runs, and this one waits for it\n")
        holder.kill()
        self.assertEqual((process.wait(), os.path.exists("own/.lock")), (0, False))

    def test_nothing_is_left(self):
        process = self.start_as(OWN, self.table, "nft", "list.txt", "own/a/b")
        self.assertEqual((process.wait(), os.path.exists("own/a")), (1, False))


def value_of(text):
    """Returns the version and the value of an address."""
    version = 6 if ":" in text else 4
    return version, int.from_bytes(socket.inet_pton(FAMILIES[version], text), "big")


def text_of(version, value):
    """Returns an address as a text."""
    return socket.inet_ntop(FAMILIES[version], value.to_bytes(WIDTHS[version] // 8, "big"))


class Map:
    """A map in files, with its list, its ranges, and addresses whose labels are known from its ranges."""

    def __init__(self, name, statements):
        self.name, self.list, self.ranges = f"{name}.txt", f"{name}-list.txt", f"{name}-ranges.txt"
        write(self.name, statements)
        write(self.list, output(PROGRAM, "shrink", "--pmap", self.name))
        write(self.ranges, output(PROGRAM, "cat", "--pmap", self.name))
        self.rows = {4: [], 6: []}
        for line in read(self.ranges).splitlines()[1:]:
            low, high, label = line.split("|", 2)
            low, high = value_of(low)[1], value_of(high)[1]
            mapped = max(low, MAPPED), min(high, MAPPED + (1 << 32) - 1)
            if mapped[0] <= mapped[1]:
                self.rows[4].append((mapped[0] - MAPPED, mapped[1] - MAPPED, label))
            self.rows[6].append((low, high, label))
        self.lows = {version: [row[0] for row in found] for version, found in self.rows.items()}

    def label(self, version, value):
        """Returns the label of an address."""
        return self.rows[version][bisect.bisect_right(self.lows[version], value) - 1][2]

    def probes(self, version, count, chance):
        """Returns addresses with their labels: random ones, half of them in random ranges, and both ends of random
        ranges."""
        ranges = self.rows[version]
        values = [chance.getrandbits(WIDTHS[version]) for _ in range(count // 2)]
        values += [chance.randint(low, high) for low, high, _ in chance.choices(ranges, k=count - count // 2)]
        for low, high, _ in chance.sample(ranges, min(count, len(ranges))):
            values += [low, high]
        low, high = (value_of(address)[1] for address in CHANGED[version])
        values += [low - 1, low, high, high + 1, *(chance.randint(low, high) for _ in range(100))]
        # Linux doesn't look up 0.0.0.0, and looks up IPv6's block of IPv4 as IPv4.
        return {text_of(version, value): self.label(version, value) for value in values
                if 0 < value < 1 << WIDTHS[version] and (version == 4 or value >> 32 != MAPPED >> 32)}


def labels_of(folder):
    """Returns the labels by their numbers."""
    pairs = (line.split(" ", 1) for line in read(f"{folder}/labels.txt").splitlines())
    return {int(number): label for number, label in pairs}


class Linux:
    """Routes of a namespace. In `by_hand` a second route also counts."""
    kind, needed = "linux", ("ip",)
    kernel = ("ip netns add probe", "ip -n probe link set lo up", "ip -n probe rule add pref 9 lookup 9",
              "ip -n probe -6 rule add pref 9 lookup 9", "ip -n probe route add 192.0.2.0/24 dev lo table 9 realms 1",
              "ip -n probe -6 route add 2001:db8::/32 dev lo table 9", "ip netns del probe")
    by_hand = ("ip -n flowlabel route change 10.0.0.0/8 dev lo table 1001 metric 3 realms 1",
               "ip -n flowlabel route del 10.0.0.1 dev lo table 1001",
               "ip -n flowlabel route add 10.0.0.0/8 dev lo table 1001 metric 1 realms 1",
               "ip -n flowlabel -6 route add 8000::/1 dev lo table 1001 metric 1")

    strange = ("ip netns add flowlabel", "ip -n flowlabel link set lo up",
               "ip -n flowlabel rule add pref 10 lookup 1001", "ip -n flowlabel route add 10.0.0.0/8 dev lo",
               "ip -n flowlabel route add 192.0.2.0/24 dev lo table 1001")
    beside = ("ip -n flowlabel link add strange type bridge",)

    def ip(self, version, words):
        return output("ip", "-n", "flowlabel", version, *words.split())

    def everything(self):
        found = output("ip", "netns", "list")
        return found and found + "".join(self.ip(version, words) for version in ("-4", "-6")
                                         for words in ("rule", "route show table all"))

    def in_use(self):
        return "".join(self.ip(version, "route show table " + re.search(
            r"lookup (\d+)", self.ip(version, "rule show pref 10"))[1]) for version in ("-4", "-6"))

    def clear(self):
        for line in output("ip", "netns", "list").splitlines():
            output("ip", "netns", "del", line.split()[0])

    def ask(self, version, addresses):
        said = output("ip", f"-{version}", "-o", "-n", "flowlabel", "-batch", "-",
                      given="".join(f"route get {address} fibmatch\n" for address in addresses))
        names, found = labels_of("linux"), re.findall(r" metric (\d+)", said)
        return {address: names[int(number)] for address, number in zip(addresses, found, strict=True)}


class Bird:
    """A BIRD with a table and nothing else."""
    kind, needed, control = "bird", ("birdc", "bird"), ("--control", "bird.ctl")
    configuration = 'router id 192.0.2.1;\nprotocol device {}\ninclude "bird/*.bird";\n'
    said = "check: birdc -s bird.ctl configure check\nuse:   birdc -s bird.ctl configure\n"

    @classmethod
    def prepare(cls):
        super().prepare()
        write("bird.conf", cls.configuration)
        os.mkdir("bird")
        daemon = subprocess.Popen(["bird", "-f", "-c", "bird.conf", "-s", "bird.ctl"], stderr=subprocess.DEVNULL)
        cls.addClassCleanup(daemon.wait)
        cls.addClassCleanup(daemon.terminate)
        client = socket.socket(socket.AF_UNIX)
        cls.addClassCleanup(client.close)
        wait(lambda: daemon.poll() is not None or client.connect_ex("bird.ctl") == 0)
        cls.client = client.makefile("rw")
        cls.addClassCleanup(cls.client.close)
        cls.answer()

    @classmethod
    def answer(cls):
        """Returns the lines of a reply. The last one has a space after its code."""
        lines = []
        while not lines or not re.match(r"\d{4} ", lines[-1]):
            lines.append(cls.client.readline())
            if not lines[-1]:
                raise OSError("bird ended")
        return "".join(lines)

    def load(self, source, *how):
        """Makes the input, and runs the lines that the command prints for this."""
        ended = super().load(source, *how)
        self.assertTrue(ended[1].endswith(self.said), ended)
        for line in self.said.splitlines():
            output("sh", "-c", line.split(":", 1)[1])
        return ended

    def everything(self):
        said = "".join(output("birdc", "-s", "bird.ctl", "show", *words.split())
                       for words in ("protocols", "route all table all"))
        return "\n".join(re.findall(r"(?m)^\S+ +(?:Static|Device)|^Table .*|^\S+/\d+|flowlabel_label: \d+", said))

    def ask(self, version, addresses):
        names, found = labels_of("bird"), {}
        for address in filter(is_routed, addresses):
            self.client.write(f"show route for {address} table flowlabel{version} all\n")
            self.client.flush()
            number = re.search(r"flowlabel_label: (\d+)", self.answer())
            found[address] = number and names[int(number[1])]
        return found


def is_routed(address):
    """Returns whether BIRD can have routes to an address."""
    version, value = value_of(address)
    if version == 4:
        return value >> 24 not in (0, 127, 255) and value >> 28 != 0xE
    return value >> 64 != 0 and value >> 118 != 0xFE80 >> 6 and value >> 120 != 0xFF


class Bpf:
    """Tries of BPF."""
    kind, needed = "bpf", ("bpftool",)
    kernel = ("mount -t bpf bpf /sys/fs/bpf",
              "bpftool map create /sys/fs/bpf/probe type lpm_trie key 8 value 4 entries 1 name probe flags 1",
              "rm /sys/fs/bpf/probe")
    by_hand = ("bpftool map update pinned /sys/fs/bpf/flowlabel4 key 8 0 0 0 10 0 0 0 value 1 0 0 0",
               "bpftool map delete pinned /sys/fs/bpf/flowlabel4 key 32 0 0 0 10 0 0 1")

    strange = ("bpftool map create /sys/fs/bpf/flowlabel6 type hash key 4 value 4 entries 1 name strange",
               "bpftool map update pinned /sys/fs/bpf/flowlabel6 key 1 2 3 4 value 5 6 7 8")
    beside = [f"bpftool map create /sys/fs/bpf/flowlabel{end} type hash key 4 value 4 entries 1 name strange"
              for end in ("4_new", "6_old")]

    def pins(self):
        return sorted(glob.glob("/sys/fs/bpf/flowlabel*"))

    def dump(self, pin):
        return output("bpftool", "map", "dump", "pinned", pin)

    def everything(self):
        return "".join(f"{json.loads(output('bpftool', '-j', 'map', 'show', 'pinned', pin))['id']} {self.dump(pin)}"
                       for pin in self.pins())

    def in_use(self):
        return "".join(self.dump(f"/sys/fs/bpf/flowlabel{version}") for version in (4, 6))

    def clear(self):
        for pin in self.pins():
            os.unlink(pin)

    def ask(self, version, addresses):
        width = WIDTHS[version]
        keys = [struct.pack("=I", width) + value_of(address)[1].to_bytes(width // 8, "big") for address in addresses]
        said = output("bpftool", "-j", "batch", "file", "-", given="".join(
            f"map lookup pinned /sys/fs/bpf/flowlabel{version} key hex {key.hex(' ')}\n" for key in keys))
        numbers = [bytes(int(byte, 16) for byte in answer["output"]["value"]) for answer in json.loads(said)]
        names = labels_of("bpf")
        return {address: names[int.from_bytes(number, sys.byteorder)]
                for address, number in zip(addresses, numbers, strict=True)}


class Marks:
    """Tables that mark packets."""

    probes = ()

    def mark(self):
        """Makes the table mark packets, and all packets come to this machine."""
        try:
            with socket.socket(socket.AF_INET, socket.SOCK_DGRAM) as receiver:
                receiver.setsockopt(socket.SOL_SOCKET, SO_RCVMARK, 1)
        except OSError:
            self.skipTest("the kernel doesn't report the marks of received packets, as it does since Linux 5.19")
        if line := refused(self.probes):
            self.skipTest(f"`{line}` fails")
        for line in ("ip route add local default dev lo", "ip -6 route add local default dev lo", *self.marking):
            output("sh", "-c", line)

    def ask(self, version, addresses):
        """Sends packets to the addresses that receive some."""
        family = FAMILIES[version]
        names, found = labels_of(self.kind), {}
        with socket.socket(family, socket.SOCK_DGRAM) as receiver, socket.socket(family, socket.SOCK_DGRAM) as sender:
            receiver.setsockopt(socket.SOL_SOCKET, SO_RCVMARK, 1)
            # IP_PKTINFO or IPV6_RECVPKTINFO of Linux, by which recvmsg reports the destination of a packet.
            receiver.setsockopt(*((socket.IPPROTO_IP, 8, 1) if version == 4 else (socket.IPPROTO_IPV6, 49, 1)))
            receiver.bind(("", 9))
            # A packet that is lost is a fault, and not one that comes late.
            receiver.settimeout(3600)
            for address in addresses:
                first = int(address.split(".")[0]) if version == 4 else int(address.split(":")[0] or "0", 16)
                if first in (0, 127) or first >= (224 if version == 4 else 0xFE00):
                    continue
                sender.sendto(b"", (address, 9))
                told = {kind: data for _, kind, data in receiver.recvmsg(1, 200)[1]}
                found[address] = names.get(int.from_bytes(told.get(SO_MARK, bytes(4)), sys.byteorder))
        return found


class Ipset(Marks):
    """Sets of networks."""
    kind, needed = "ipset", ("ipset",)
    kernel = ("ipset create probe hash:net skbinfo", "ipset destroy probe")
    by_hand = ("ipset -exist add flowlabel4 10.0.0.0/8 skbmark 0x1", "ipset del flowlabel4 10.0.0.1")
    strange = ("ipset create flowlabel4 hash:net", "ipset add flowlabel4 192.0.2.1")
    beside = ("ipset create flowlabel6_new hash:ip",)
    probes = ("ipset create probe hash:net skbinfo",
              "iptables -t mangle -A INPUT -j SET --map-set probe dst --map-mark",
              "iptables -t mangle -F INPUT", "ip6tables -t mangle -F INPUT", "ipset destroy probe")
    marking = ("iptables -t mangle -A INPUT -j SET --map-set flowlabel4 dst --map-mark",
               "ip6tables -t mangle -A INPUT -j SET --map-set flowlabel6 dst --map-mark")

    def everything(self):
        return output("ipset", "save")

    def in_use(self):
        return "".join(output("ipset", "list", f"flowlabel{version}").partition("Members:")[2] for version in (4, 6))

    def clear(self):
        output("ipset", "destroy")


class Nft(Marks):
    """Maps of nftables."""
    kind, needed, source, is_atomic = "nft", ("nft",), "ranges", True
    kernel = ("nft add table inet probe", "nft add map inet probe p { type ipv4_addr : mark; flags interval; }",
              "nft delete table inet probe")
    by_hand = ("nft 'delete element inet flowlabel label4 { 10.0.0.0/8 }; "
               "add element inet flowlabel label4 { 10.0.0.0/8 : 1 }'",
               "nft 'delete element inet flowlabel label4 { 10.0.0.0/8 }'")
    strange = ("nft add table inet flowlabel",
               "nft 'add map inet flowlabel label4 { type ipv4_addr : mark; flags interval; }'",
               "nft 'add element inet flowlabel label4 { 192.0.2.1 : 7 }'")
    marking = ("nft 'add chain inet flowlabel input { type filter hook input priority 0; }'",
               "nft add rule inet flowlabel input meta mark set ip daddr map @label4",
               "nft add rule inet flowlabel input meta mark set ip6 daddr map @label6")

    def everything(self):
        return output("nft", "list", "ruleset")

    def in_use(self):
        return output("nft", "list", "table", "inet", "flowlabel")

    def clear(self):
        output("nft", "flush", "ruleset")


def frame(address):
    """Returns a UDP packet from an address."""
    version, value = value_of(address)
    source, datagram = value.to_bytes(WIDTHS[version] // 8, "big"), struct.pack(">HHHH", 9, 9, 8, 0)
    if version == 4:
        head = struct.pack(">BBHHHBBH", 0x45, 0, 28, 0, 0, 64, 17, 0) + source + socket.inet_aton("192.0.2.1")
    else:
        head = struct.pack(">IHBB", 6 << 28, 8, 17, 64) + source + socket.inet_pton(socket.AF_INET6, "2001:db8::1")
    return bytes(12) + (b"\x08\x00" if version == 4 else b"\x86\xdd") + head + datagram


class Pmacct:
    """A file of networks, by which pmacct counts packets."""
    kind, needed, loading, versions = "pmacct", ("pmacctd",), (), (4,)

    def ask(self, version, addresses):
        with open("pmacct.pcap", "wb") as capture:
            capture.write(struct.pack("<IHHiIII", 0xA1B2C3D4, 2, 4, 0, 0, 65535, 1))
            for address in addresses:
                packet = frame(address)
                capture.write(struct.pack("<IIII", 1700000000, 0, len(packet), len(packet)) + packet)
        settings = {"daemonize": "false", "pcap_savefile": "pmacct.pcap", "aggregate": "src_host, src_as",
                    "plugins": "print", "print_output": "csv", "print_output_file": os.path.abspath("pmacct.csv"),
                    "print_refresh_time": 3600, "print_cache_entries": 100000, "plugin_pipe_size": 100000000,
                    "plugin_buffer_size": 100000, "pmacctd_as": "longest",
                    "networks_file": os.path.abspath("pmacct/flowlabel.networks")}
        # A plugin that is still starting when the daemon has read the capture writes nothing.
        for delay in (0, 1, 4, 16, 64, 256):
            settings["pcap_savefile_delay"] = delay
            write("pmacct.conf", "".join(f"{key}: {value}\n" for key, value in settings.items()))
            output("pmacctd", "-f", "pmacct.conf")
            if os.path.exists("pmacct.csv"):
                break
        names = labels_of("pmacct")
        with open("pmacct.csv", encoding="ascii", newline="") as counts:
            found = {row["SRC_IP"]: names.get(int(row["SRC_AS"])) for row in csv.DictReader(counts)}
        return {address: found.get(address) for address in addresses}


RADIX = """
import radix, sys
tree = radix.Radix()
for line in open(sys.argv[1], encoding="utf-8"):
    prefix, label = line.rstrip("\\n").split("\\t")
    tree.add(prefix).data["label"] = label
for line in sys.stdin:
    print(tree.search_best(line.strip()).data["label"])
"""


class Radix:
    """A text, from which py-radix makes a tree."""
    kind, needed, loading = "tsv", (), ()

    @classmethod
    def prepare(cls):
        # Only Debian's python3 finds Debian's package.
        cls.python = next((python for python in ("python3", "/usr/bin/python3")
                           if shutil.which(python) and texts(python, "-c", "import radix")[0] == 0), None)
        if not cls.python:
            raise unittest.SkipTest("there is no py-radix (Debian: python3-radix)")
        super().prepare()

    def ask(self, version, addresses):
        said = output(self.python, "-c", RADIX, f"tsv/flowlabel{version}.tsv", given="\n".join(addresses))
        return dict(zip(addresses, said.splitlines(), strict=True))


class Tables(Isolated):
    """Tables of one kind. Each kind has `everything`, the text of all that the kernel or BIRD has; `in_use`, that of
    the table in use; `clear`, which removes all tables; and `ask`, which returns the labels that the table has for
    addresses."""

    control, source, versions, is_atomic = (), "list", (4, 6), False
    # The option that brings a table in, or none.
    loading = ("--load",)
    before, after = (types.SimpleNamespace(list=f"{name}-list.txt", ranges=f"{name}-ranges.txt") for name in SMALL)

    @classmethod
    def prepare(cls):
        for name, contents in SMALL.items():
            for what, content in contents.items():
                write(f"{name}-{what}.txt", content)
        write("runs.py", RUNS)
        add_hook()

    def mark(self):
        """Makes the table mark packets, if it is for that."""

    def words(self, source, *how, folder=None):
        """Returns the words that bring a table into the folder named after its kind, or into another one."""
        return [*(how or self.loading), *self.control, self.kind, getattr(source, self.source), folder or self.kind]

    def load(self, source, *how):
        """Loads or updates a table. Maps of BPF take memory only if some is free at once, so this may need several
        tries."""
        for _ in range(10):
            ended = table(*self.words(source, *how))
            if "Cannot allocate memory" not in ended[2]:
                break
        return ended

    def assert_loaded(self, source, *how):
        """Loads or updates a table, which must succeed without a word on standard error."""
        self.assertEqual(self.load(source, *how)[::2], (0, ""))

    def entries(self):
        """Returns the entries of the table in use, sorted."""
        return sorted(self.in_use().splitlines())

    def state(self):
        """Returns what there is of a table and of its FOLDER."""
        files = os.path.exists(self.kind) and {name: read(f"{self.kind}/{name}") for name in os.listdir(self.kind)}
        return {"the table": self.everything(), "FOLDER": files}

    def start(self, source):
        """Begins with a loaded table and its FOLDER, or with neither."""
        self.clear()
        shutil.rmtree(self.kind, ignore_errors=True)
        if source:
            self.assert_loaded(source)

    def after_both(self, before, after):
        """Returns the entries of a table after two loads. The second one changes them."""
        self.start(before)
        first = before and self.entries()
        self.assert_loaded(after)
        second = self.entries()
        self.assertNotEqual(first, second)
        return second

    def is_refused(self, source):
        """Returns whether an update is refused, and changes nothing."""
        was, (status, _, said) = self.state(), self.load(source, "--update")
        return status == 1 and said.count("\n") == 1 and "run --load" in said and self.state() == was

    def fail_each_step(self, has_table, how, does):
        """Brings a table in, with each step failing in turn, until no step is left. Returns how many steps ended the
        command."""
        before = self.before if has_table else None
        wanted, labels = self.after_both(before, self.after), read(f"{self.kind}/labels.txt")
        self.start(before)
        was, ended_by, path = self.state(), 0, stands_in(*self.needed)

        def is_complete():
            return self.entries() == wanted and self.load(self.after, "--update")[1].endswith(" 0 changed\n")
        for step in itertools.count(1):
            sent = ("INT", "TERM", "HUP")[step % 3]
            # A signal ends a process of its own.
            run = functools.partial(texts, sys.executable, "runs.py", TABLE) if does == "signal" else table
            status, _, said = run(*self.words(self.after, how), variables={**path, **failing(step, does, SENT=sent)})
            lines, now, is_last = said.count("\n"), self.state(), int(read("steps")) < step
            changed = " and ".join(what for what in was if now[what] != was[what])
            if status != 0:
                says = lines == 1 if does != "signal" else lines == 0 and status == -signal.Signals[f"SIG{sent}"]
                ended_by += 1
                is_right = not is_last and says and (
                    not changed or how == "--update" and not self.is_atomic
                    and read(f"{self.kind}/labels.txt") == labels and (self.is_refused(self.after) or is_complete()))
            else:
                # All steps have passed, or one of those that remove the old table has failed.
                is_right = step > 1 and lines == (not is_last and does != "signal") and is_complete()
            with self.subTest(step=step, does=does):
                if not is_right:
                    self.assertEqual(*((now, was) if status else (self.entries(), wanted)))
                    self.fail(f"the status is {status}, and it reported {said!r}")
            if is_last:
                return ended_by
            if changed:
                self.start(before)
                was = self.state()

    def assert_answers(self, answers, least=4000):
        """Checks that a table gives each address the same label as the map."""
        chance, total = random.Random(7), 0
        # Among three times as many addresses some are equal.
        count = least // 2 // len(self.versions)
        for version in self.versions:
            wanted = answers.probes(version, count, chance)
            found = self.ask(version, list(wanted))
            total += len(found)
            differences = [f"{address}: {label} and not {wanted[address]}" for address, label in found.items()
                           if label != wanted[address]]
            with self.subTest(version=version):
                self.assertEqual(differences[:5], [], f"{len(differences)} differences")
        self.assertGreaterEqual(total, least)


# The name, whether there is a table, and how another one comes in.
STARTS = (("no table", False, "--load"), ("load", True, "--load"), ("update", True, "--update"))


class Steps:
    """Tables whose steps fail in turn, without having done anything or halfway, or end with a signal."""

    @rows(*STARTS)
    def test_nothing_and_signals(self, _, has_table, how):
        by_faults, by_signals = (self.fail_each_step(has_table, how, does) for does in ("killed", "signal"))
        # A signal is ignored only when the changes of an update are made, while nft runs, and when all is done.
        self.assertEqual(by_faults - by_signals, int(self.kind == "nft" or how == "--update"))

    @rows(*STARTS)
    def test_half(self, _, has_table, how):
        self.fail_each_step(has_table, how, "half")


class DoneSteps:
    """Tables whose steps fail in turn after all is done. A transaction of nftables that took effect doesn't fail."""

    @rows(*STARTS)
    def test_everything(self, _, has_table, how):
        self.fail_each_step(has_table, how, "everything")


class Unapplied:
    """A configuration that its operator is about to change: nothing applies it, and no program runs."""

    @rows(("--load",), ("--update",))
    def test_configuration(self, how):
        self.load(self.before)
        was = self.everything()
        self.addCleanup(write, "bird.conf", self.configuration)
        write("bird.conf", self.configuration + "protocol static unfinished { ipv4; route 192.0.2.0/24 blackhole; }\n")
        path = [stand_in(name, '#!/bin/sh\necho "$0 $*" >>"$LOG"\n') for name in self.needed][-1]
        status, found, said = table(*self.words(self.after, how), variables={
            **path, "LOG": os.path.abspath(write("log", ""))})
        self.assertEqual((status, found, said), (0, f"bird: 5 blocks of IPv4 and 5 of IPv6, made\n{self.said}", ""))
        self.assertEqual((self.everything(), read("log")), (was, ""))

    def test_no_control(self):
        found = table("--load", "--control", "a b", "bird", self.after.list, "bird")[1]
        self.assertEqual(found.splitlines()[1:], ["check: birdc -s 'a b' configure check",
                                                  "use:   birdc -s 'a b' configure"])
        self.assertEqual(table("--load", "bird", self.after.list, "bird")[1].splitlines()[1:],
                         ["check: birdc configure check", "use:   birdc configure"])


class Updates:
    """Updates of a table that isn't the one that FOLDER loaded, or is too large, and of other names and folders."""

    def test_changes_by_hand(self):
        self.start(self.before)
        for line in self.by_hand:
            with self.subTest(line):
                was = self.entries()
                output("sh", "-c", line)
                self.assertNotEqual(self.entries(), was)
                self.assertTrue(self.is_refused(self.after))
                self.assertEqual(self.load(self.before)[2], "")
                self.start(self.before)

    def test_a_table_that_is_gone(self):
        self.start(self.before)
        self.clear()
        self.assertTrue(self.is_refused(self.before))
        # It was never loaded.
        self.start(None)
        self.assertTrue(self.is_refused(self.before))

    @rows(("no table", False), ("a table", True))
    def test_a_large_list(self, _, has_table):
        self.start(self.before if has_table else None)
        was = self.state()
        for how in ("--load", "--update"):
            status, _, said = table(*self.words(self.before, "--max", "4", how))
            self.assertEqual((status, said.count("\n"), self.state()), (1, 1, was))

    def test_pipes(self):
        wanted = self.after_both(self.before, self.after)
        self.start(None)
        for source, how in ((self.before, "--load"), (self.after, "--update")):
            *words, name, folder = self.words(source, how)
            self.assertEqual(table(*words, "/dev/stdin", folder, input=read(name))[::2], (0, ""))
        self.assertEqual(self.entries(), wanted)

    def test_another_name(self):
        wanted = self.after_both(self.before, self.after)
        # The table of another name has the same FOLDER.
        self.start(self.before)
        was = self.entries()
        for source, how, done in ((self.before, "--load", "loaded"), (self.after, "--update", " changed"),
                                  (self.after, "--update", " 0 changed")):
            found = table(*self.words(source, "--name", "flowlabel_b", how))[1]
            self.assertEqual((found.endswith(f"{done}\n"), self.entries()), (True, was), found)
        for source, done in ((self.before, " 0 changed\n"), (self.after, " changed\n")):
            status, found, said = self.load(source, "--update")
            self.assertEqual((status, found.endswith(done)), (0, True), said)
        self.assertEqual(self.entries(), wanted)

    def test_two_loads_at_once(self):
        self.start(self.before)
        wanted = self.entries()
        for _ in range(3):
            loads = [subprocess.Popen([TABLE, *self.words(self.before)], **PIPES) for _ in range(2)]
            statuses = [load.communicate() and load.returncode for load in loads]
            self.assertEqual((statuses, self.entries()), ([0, 0], wanted))


class Strangers:
    """Things of the table's name that FOLDER hasn't loaded. `strange` are the lines that make one. Each line of
    `beside` makes one of a name that a load needs for itself, or a link in the namespace."""

    beside = ()

    def assert_refused(self, how, *words, why):
        """Checks that the command fails with one line, and that all is as before."""
        was, (status, found, said) = self.state(), table(*self.words(self.after, how, *words))
        self.assertEqual((status, found, said.count("\n")), (1, "", 1), said)
        self.assertRegex(said, why)
        self.assertEqual(self.state(), was)

    @rows(("without FOLDER", None), ("after a load", SMALL))
    def test_a_stranger(self, _, source):
        self.start(source and self.before)
        self.clear()
        for line in self.strange:
            output("sh", "-c", line)
        self.assert_refused("--load", why=f"there is .*flowlabel.*, and {self.kind} hasn't loaded it")
        self.assert_refused("--update", why="run --load")

    def test_a_stranger_beside(self):
        for line in self.beside:
            with self.subTest(line):
                self.start(self.before)
                output("sh", "-c", line)
                self.assert_refused("--load", why="there is .*flowlabel[46]_(new|old), which an interrupted call|"
                                    "the network namespace flowlabel has the link strange")

    def test_another_folder(self):
        self.start(self.before)
        was = self.state()
        for how in ("--load", "--update"):
            status, _, said = table(*self.words(self.after, how, folder="another"))
            self.assertEqual((status, self.state(), os.path.exists("another")), (1, was, False), said)
        self.assert_loaded(self.after, "--update")

    def test_what_an_earlier_version_loaded(self):
        self.start(self.before)
        name = f"{self.kind}/flowlabel.{self.kind}.loaded"
        write(name, read(name).split("\n")[0])
        self.assert_loaded(self.after)


class Countries:
    """The countries of all addresses."""

    @classmethod
    def prepare(cls):
        for name in TOR:
            if not os.path.exists(name):
                raise unittest.SkipTest(f"there is no {name} (Debian: tor-geoipdb)")
        super().prepare()


class Whole(Countries):
    """A table of the whole map of countries."""
    is_long = True

    def test_table(self):
        output(command("country"), "country.txt", "tor")
        whole = Map("whole", read("country.txt"))
        self.assert_loaded(whole)
        self.assert_answers(whole, PROBES)


def thin_lines(name):
    """Returns lines of a map for every 20th range of a file of Tor."""
    with open(name, encoding="utf-8") as file:
        cells = [line.rstrip("\n").split(",") for line in file if not line.startswith("#")]
    return [" ".join([*(text_of(4, int(end)) if end.isdigit() else end for end in ends), f"{code}\n"])
            for *ends, code in cells[::20]]


class Changes(Countries):
    """A table of a smaller map, then with two ranges that differ, then back. A table of marks then marks packets."""

    def test_changes(self):
        lines = ["mode ipv6\n", "default unknown\n", *thin_lines(TOR[1]), *thin_lines(TOR[0])]
        thin = Map("thin", "".join(lines))
        other = Map("other", "".join([*lines, *(f"{low} {high} here\n" for low, high in CHANGED.values())]))
        self.assert_loaded(thin)
        self.mark()
        self.assert_answers(thin)
        self.assert_loaded(other, "--update")
        self.assert_answers(other)
        self.assert_loaded(thin, "--update")
        self.assert_answers(thin)


# A class for each kind of table and each part of the tests.
for kind, parts in ((Linux, (Steps, DoneSteps, Updates, Strangers, Whole, Changes)),
                    (Bird, (Unapplied, Whole, Changes)),
                    (Bpf, (Steps, DoneSteps, Updates, Strangers, Whole, Changes)),
                    (Ipset, (Steps, DoneSteps, Updates, Strangers, Changes)),
                    (Nft, (Steps, Updates, Strangers, Changes)), (Pmacct, (Whole,)), (Radix, (Whole,))):
    for part in parts:
        name = kind.__name__ + part.__name__
        case = type(name, (kind, part, Tables), {"__module__": __name__, "__doc__": f"{kind.__doc__} {part.__doc__}"})
        case = needs(*kind.needed, *(["iptables", "ip6tables"] if name == "IpsetChanges" else []))(case)
        globals()[name] = case
del case
