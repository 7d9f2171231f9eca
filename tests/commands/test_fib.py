"""flowlabel-fib on routes of each form, and lists that are loaded in a network namespace.

In the namespace are routes by nexthop objects, with `linkdown`, by gateways of IPv6 that are link-local, with several
next hops, and others. A load must change nothing but its table, and be refused beside rules of policies, VPNs or VRFs.
If a call of ip fails, before or after it acts or halfway through its input, or a signal comes, the table must be empty.
The printed commands must take the table into use and out of use: each address tried and each flow must have the next
hop that it had before. Then routes of the table or of the router change, links fail and rules go, and --check must
report what differs. ip, BIRD and bgpdump must print the routes of examples/routes-* again.
"""

import contextlib
import fcntl
import ipaddress
import json
import os
import re
import signal
import struct
import subprocess

from support import PROGRAM, ROOT, Case, closed_pipe, command, inside, needs, read, rows, run, texts, write
from support.changes import PIPES, failing, output, stands_in, waiting
from support.namespaces import Isolated
from support.processes import is_asleep, wait, wait_for

FIB = command("fib")
OPTIONS = {4: "", 6: "-6 "}
# What the kernel of a namespace must have.
KERNEL = ("ip link add probe0 type veth peer name probe1", "ip link del probe0", "ip nexthop add id 99 blackhole",
          "ip nexthop del id 99", "ip netns add probe", "ip netns del probe",
          "ip rule add pref 9 to 192.0.2.0/24 lookup 9", "ip rule del pref 9",
          "ip rule add l3mdev pref 9", "ip rule del pref 9", "ip -6 rule add pref 9 lookup 9", "ip -6 rule del pref 9",
          "ip route add 192.0.2.0/24 dev lo realms 5", "ip route del 192.0.2.0/24",
          "ip -6 route add 2001:db8::/32 dev lo", "ip -6 route del 2001:db8::/32",
          "sysctl -qw net.ipv4.fib_multipath_hash_policy=0")
INTERFACES = (("eth0", "192.0.2.2/24", "2001:db8::2/64"), ("eth1", "198.51.100.2/30", "2001:db8:0:1::2/64"))
ONE, TWO = "192.0.2.1", "198.51.100.1"
# The routes of the examples: blocks with their next hops, or with their type.
ROUTES = (("10.0.0.0/9", (ONE,)), ("10.128.0.0/10", (ONE,)), ("10.1.0.0/16", (TWO,)), ("10.1.0.0/17", (TWO,)),
          ("10.1.128.0/18", (TWO,)), ("10.2.0.0/16", "blackhole"), ("10.2.3.4/32", (TWO,)),
          ("172.16.0.0/12", (ONE, TWO)))
# A second route to a block, which is not used.
SECOND = ("10.1.0.0/16", ONE)
# Routes that are added for the loads. `down0` has no carrier. The gateway 192.0.2.7 is reached by its link.
# The kernel shows the wrong route for an address if a route and a group share an object of IPv6, so none is shared.
MORE = {4: """nexthop add id 8 group 1,3/7
nexthop add id 20 blackhole
route add 10.20.0.0/16 nhid 1
route add 10.21.0.0/16 nhid 8
route add 10.22.0.0/16 nhid 20
route add 10.23.0.0/16 via inet6 fe80::1 dev eth0
route add 10.24.0.0/16 via 192.0.2.1 mtu 1400 advmss 1300
route add 10.24.0.0/16 via 203.0.113.9 dev down0 metric 3
route add 10.25.0.0/16 via 203.0.113.9 dev down0
route add 10.26.0.0/16 nexthop via 203.0.113.9 dev down0 nexthop via 192.0.2.1 weight 5
route add unreachable 10.27.0.0/16
route add prohibit 10.28.0.0/16
route add throw 10.29.0.0/16
route add 10.30.0.1 via 192.0.2.200 dev eth1 onlink
route add 10.31.0.0/16 via 192.0.2.1 realms 5
route add 10.32.0.0/16 via 192.0.2.1 src 198.51.100.2
route add 10.33.0.0/16 via 192.0.2.7
route add 10.34.0.0/16 nexthop via 198.51.100.1 weight 2 nexthop via 192.0.2.1
route add 10.35.0.0/16 nexthop via 192.0.2.1 nexthop via 192.0.2.1 nexthop via 198.51.100.1
route add 10.36.0.0/16 mtu 1300 nexthop via 192.0.2.9 nexthop via 192.0.2.1 nexthop dev eth1
route add 10.37.0.0/16 dev eth0
route add 10.38.0.0/16 dev eth0 scope global
route add 10.39.0.0/16 via 192.0.2.1 scope site
route add default via 192.0.2.1
""", 6: """nexthop add id 21 via fe80::1 dev eth0
nexthop add id 22 via 2001:db8::9 dev eth0
nexthop add id 24 via fe80::1 dev eth0
nexthop add id 23 group 24/22,4
route add 2001:db8:100::/41 via 2001:db8::1
route add 2001:db8:180::/42 via 2001:db8::1
route add 2001:db8:101::/48 via 2001:db8:0:1::1
route add blackhole 2001:db8:102::/48
route add 2001:db8:102::7 via 2001:db8:0:1::1
route add 2001:db8:200::/40 nexthop via fe80::2 dev eth1 weight 2 nexthop via 2001:db8::1
route add 2001:db8:300::/48 nhid 21
route add 2001:db8:301::/48 nhid 23
route add 2001:db8:302::/48 via fe80::9 dev eth1
route add 2001:db8:303::/48 via fe80::9 dev eth1 metric 5
route add 2001:db8:303::/48 via fe80::8 dev eth1 metric 6
route add prohibit 2001:db8:304::/48
route add 2001:db8:305::/48 via 2001:db8::9
route add e000::/3 via fe80::1 dev eth0
"""}
# For each version the blocks with several next hops, a route that is in the list, one that is in no list, a gateway, an
# address that only eth1 reaches, and what a rule of a policy selects.
TRIED = {4: (("172.16.0.1", "10.21.0.1", "10.34.0.1", "10.35.0.1", "10.36.0.1"), "10.1.0.0/16", "10.99.0.0/16",
             f"via {ONE} dev eth0", "10.2.3.4", "from 203.0.113.2"),
         6: (("2001:db8:200::1", "2001:db8:301::1"), "2001:db8:101::/48", "2001:db8:9::/48", "via 2001:db8::1 dev eth0",
             "2001:db8:302::1", "to 2001:db8::/32")}
# Rules beside which a table must not be loaded, each with the commands that make it and those that undo it, and a part
# of the message: of a policy, of wg-quick, of the table local after the others, of VRFs, and of a table in use.
RULES = {4: (("rule add from 203.0.113.2 lookup 200", "rule del lookup 200", "from 203.0.113.2 lookup 200"),
             ("rule add not fwmark 51820 table 51820\nrule add table main suppress_prefixlength 0",
              "rule del lookup 51820\nrule del lookup main suppress_prefixlength 0", "suppress_prefixlength 0"),
             ("rule add pref 32765 lookup local\nrule del pref 0", "rule add pref 0 lookup local\nrule del pref 32765",
              "no rule '0: from all lookup 255'"),
             ("rule add pref 7 lookup local", "rule del pref 7", "7: from all lookup 255"),
             ("rule add l3mdev pref 1000", "rule del pref 1000", "l3mdev"),
             ("rule add fwmark 1 blackhole", "rule del fwmark 1", "fwmark 0x1"),
             ("rule add pref 40000 lookup 100", "rule del pref 40000", "40000: from all lookup 100")),
         6: (("rule add l3mdev pref 1000", "rule del pref 1000", "l3mdev"),
             ("rule add from 2001:db8:7::/48 lookup 200", "rule del lookup 200", "from 2001:db8:7::/48 lookup 200"),
             ("rule add pref 32765 lookup local\nrule del pref 0", "rule add pref 0 lookup local\nrule del pref 32765",
              "no rule '0: from all lookup 255'"))}
# The peers of a dump of BGP, and its blocks, each with the peers and their paths of AS numbers.
PEERS = ((ONE, 64501), (TWO, 64502))
PATHS = (("10.0.0.0/8", ((0, (64501, 64510)), (1, (64502, 64501, 64510)))),
         ("10.1.0.0/16", ((0, (64501, 64502, 64511)), (1, (64502, 64511)))),
         ("172.16.0.0/12", ((1, (64502,)),)),
         ("10.1.0.0/17", ((0, (64501, 64510)),)))
LINUX = [{"dst": "default", "gateway": ONE, "dev": "eth0", "flags": []},
         {"dst": "10.1.0.0/16", "gateway": TWO, "dev": "eth1", "metric": 9, "flags": []},
         {"dst": "10.1.0.0/16", "gateway": ONE, "dev": "eth0", "metric": 5, "flags": ["linkdown"]},
         {"dst": "10.2.0.0/16", "nhid": 8, "flags": [], "nexthops": [
             {"gateway": TWO, "dev": "eth1", "weight": 1, "flags": []},
             {"gateway": ONE, "dev": "eth0", "weight": 3, "flags": []}]},
         {"type": "blackhole", "dst": "10.3.0.0/16", "nhid": 20, "dev": "lo", "flags": []},
         {"dst": "10.4.0.0/16", "gateway": ONE, "dev": "eth0", "flags": ["dead", "linkdown"]},
         {"dst": "10.5.0.0/16", "flags": [], "nexthops": [
             {"gateway": TWO, "dev": "eth1", "weight": 3, "flags": []},
             {"gateway": ONE, "dev": "eth0", "weight": 1, "flags": ["dead"]}]},
         {"dst": "10.5.7.0/24", "gateway": TWO, "dev": "eth1", "protocol": "bgp", "flags": []},
         {"dst": "10.6.0.7", "gateway": ONE, "dev": "eth0", "flags": ["onlink"],
          "metrics": [{"mtu": 1400, "advmss": 9}]},
         {"dst": "10.7.0.0/16", "flags": [], "prefsrc": "192.0.2.2", "nexthops": [
             {"dev": "eth1", "weight": 1, "flags": []},
             {"gateway": ONE, "dev": "eth0", "weight": 1, "flags": []},
             {"gateway": ONE, "dev": "eth0", "weight": 1, "flags": []},
             {"via": {"family": "inet6", "host": "fe80::1"}, "dev": "eth1", "weight": 1, "flags": []}]},
         {"dst": "10.8.0.0/16", "dev": "eth1", "scope": "link", "flags": []},
         {"dst": "10.9.0.0/16", "dev": "eth1", "flags": []}]
# The group of the next hops of a route, as `ip -json nexthop` prints it after its members.
GROUP = {"id": 8, "group": [{"id": 7}, {"id": 1, "weight": 3}], "flags": []}
NEXTHOPS = [{"id": 1, "gateway": ONE, "dev": "eth0", "scope": "link", "flags": []}, GROUP]
LINUX += NEXTHOPS
MAP = f"""mode ipv4
default unrouted
0.0.0.0/0 via {ONE} dev eth0
10.2.0.0/16 nexthop via {TWO} dev eth1 weight 1 nexthop via {ONE} dev eth0 weight 3
10.3.0.0/16 blackhole
10.5.0.0/16 via {TWO} dev eth1
10.7.0.0/16 src 192.0.2.2 nexthop dev eth1 weight 1 nexthop via {ONE} dev eth0 weight 1 \
nexthop via {ONE} dev eth0 weight 1 nexthop via inet6 fe80::1 dev eth1 weight 1
10.8.0.0/16 dev eth1
10.9.0.0/16 dev eth1 scope global
10.6.0.7/32 via {ONE} dev eth0 onlink mtu 1400 advmss 9
"""
SAID = ("12 routes read, 8 in the map; left out: 1 dead, 2 equal to the route around them, 1 of a higher metric; "
        "kept: 2 of nexthop objects, by their next hops, 1 with linkdown")
LINUX_6 = [{"dst": "2001:db8::/64", "dev": "eth0", "protocol": "kernel", "metric": 256, "flags": [], "pref": "medium"},
           {"dst": "fe80::/64", "dev": "eth0", "metric": 256, "flags": [], "pref": "medium"},
           {"dst": "fe80::/64", "dev": "eth1", "metric": 256, "flags": [], "pref": "medium"},
           {"dst": "ff02::/16", "dev": "eth1", "metric": 256, "flags": [], "pref": "medium"},
           {"dst": "default", "gateway": "fe80::1", "dev": "eth0", "metric": 1024, "flags": [], "expires": 17,
            "pref": "high"}]
MAP_6 = """mode ipv6
default unrouted
::/0 via fe80::1 dev eth0
ff00::/8 unrouted
fe80::/10 unrouted
2001:db8::/64 dev eth0
"""
# The same link-local address is another next hop on each link.
LINKS = [{"dst": block, "gateway": "fe80::1", "dev": link, "metric": 1024, "flags": [], "pref": "medium"}
         for block, link in (("2001:db8::/32", "eth0"), ("2001:db8:1::/48", "eth1"), ("2001:db8:2::/48", "eth0"),
                             ("2001:db8:1:1::/64", "eth0"))]
LINKS.append({"dst": "2001:db8:3::/48", "metric": 1024, "flags": [], "pref": "medium", "nexthops": [
    {"gateway": "fe80::1", "dev": link, "weight": 1, "flags": []} for link in ("eth0", "eth1")]})
LINKS_MAP = """mode ipv6
default unrouted
2001:db8::/32 via fe80::1 dev eth0
2001:db8:1::/48 via fe80::1 dev eth1
2001:db8:3::/48 nexthop via fe80::1 dev eth0 weight 1 nexthop via fe80::1 dev eth1 weight 1
2001:db8:1:1::/64 via fe80::1 dev eth0
"""
MRT = "TABLE_DUMP2|1|B|192.0.2.1|1|{}|1|IGP|{}|0|0||NAG||\n"
BOTH = MRT.format("10.0.0.0/8", ONE) + MRT.format("2001:db8::/32", "2001:db8::1")
# The routes of another peer, whose address begins with that of the first one, have another next hop.
OTHER = BOTH.replace("B|192.0.2.1|", "B|192.0.2.10|").replace(f"IGP|{ONE}|", f"IGP|{TWO}|")
# Blocks inside each other: those equal to the next one around them are left out, whatever is between other ones.
NESTED = [{"dst": block, "gateway": hop, "dev": "eth0", "flags": []} for block, hop in (
    ("10.0.0.0/8", ONE), ("10.0.0.0/9", TWO), ("10.0.0.0/10", ONE), ("10.0.0.0/11", ONE), ("10.128.0.0/9", ONE),
    ("10.64.0.0/10", TWO), ("11.0.0.0/8", ONE), ("10.32.0.0/11", TWO))]
NESTED_MAP = f"""mode ipv4
default unrouted
10.0.0.0/8 via {ONE} dev eth0
11.0.0.0/8 via {ONE} dev eth0
10.0.0.0/9 via {TWO} dev eth0
10.0.0.0/10 via {ONE} dev eth0
10.32.0.0/11 via {TWO} dev eth0
"""
# The words, the input, the map and what is said of it.
MAPS = (
    ("linux", json.dumps(LINUX), MAP, SAID),
    ("linux -", json.dumps(LINUX, indent=4), MAP, SAID),
    ("linux", json.dumps(LINUX[:6]) + json.dumps(LINUX[6:]), MAP, SAID),
    ("linux", json.dumps(NESTED), NESTED_MAP,
     "8 routes read, 5 in the map; left out: 3 equal to the route around them"),
    ("-6 linux", json.dumps(LINUX_6), MAP_6,
     "5 routes read, 4 in the map; left out: 3 inside fe80::/10 or ff00::/8; kept: 1 that expire"),
    ("-6 linux", json.dumps(LINUX_6[4:]), MAP_6.replace("2001:db8::/64 dev eth0\n", ""),
     "1 routes read, 3 in the map; kept: 1 that expire"),
    ("-6 linux", json.dumps(LINUX_6[4:] + LINUX[:1]), MAP_6.replace("2001:db8::/64 dev eth0\n", ""),
     "2 routes read, 3 in the map; left out: 1 of IPv4; kept: 1 that expire"),
    ("-6 linux", json.dumps(LINKS), LINKS_MAP,
     "5 routes read, 4 in the map; left out: 3 equal to the route around them"),
    ("mrt", BOTH, f"mode ipv4\ndefault unrouted\n10.0.0.0/8 via {ONE}\n",
     "2 routes read, 1 in the map; left out: 1 of IPv6"),
    *((f"mrt --peer {peer} -", given, f"mode ipv4\ndefault unrouted\n10.0.0.0/8 via {hop}\n",
       "4 routes read, 1 in the map; left out: 1 of IPv6, 2 of other peers")
      for peer, hop in (("192.0.2.1", ONE), ("192.0.2.10", TWO)) for given in (BOTH + OTHER, OTHER + BOTH)),
    ("mrt -6", BOTH, "mode ipv6\ndefault unrouted\n2001:db8::/32 via 2001:db8::1\n",
     "2 routes read, 1 in the map; left out: 2 equal to the route around them, 1 of IPv4"),
)


def one(**marks):
    """Returns the JSON of two routes. The second one has these marks."""
    return json.dumps([LINUX[0], {"dst": "10.9.0.0/16", "gateway": ONE, "dev": "eth0", "flags": [], **marks}], indent=1)


# A route with a second `dst`, of its tunnel.
TUNNEL = '[{"dst":"10.17.0.0/16","encap":"ip","dst":"1.2.3.4","dev":"eth0","flags":[]}]'
# The words, the input and a part of the message.
FAULTS = (
    ("linux", "", "cut short"),
    ("linux", "10.0.0.0/8 via 192.0.2.1 dev eth0\n", "line 1: this is no"),
    ("linux", "[]", "there is no route"),
    ("linux", json.dumps(LINUX_6), "there is no route in use: 5 routes read, 0 in the map; left out: 5 of IPv6"),
    ("linux", "[1]", "no list of routes"),
    ("linux", json.dumps([LINUX]), "no list of routes"),
    ("linux", json.dumps(LINUX[0]), "no list of routes"),
    ("linux", one(tos="0x10"), "line 8: 10.9.0.0/16: a map has no 'tos'"),
    ("linux", one(encap="ip"), "no 'encap'"),
    ("linux", TUNNEL, "no 'encap'"),
    ("linux", one(**{"from": "10.0.0.0/8"}), "no 'from'"),
    ("linux", one(table="100"), "no 'table'"),
    ("linux", one(type="local"), "no 'local'"),
    ("linux", one(flags=["odd"]), "no 'odd'"),
    ("linux", one(metrics=[{"rtt": 3}]), "no 'rtt'"),
    ("linux", one(metrics=[{"mtu": 1400}, {"congestion": "reno"}]), "no 'congestion'"),
    ("linux", one(type="blackhole", metrics=[{"mtu": 1400}]), "can't be 'blackhole mtu 1400'"),
    ("linux", json.dumps([{"dst": "10.2.0.0/16", "nhid": 8, "flags": []}]), "nexthop_compat_mode"),
    ("linux", one(dev="eth#1"), "can't be 'via 192.0.2.1 dev eth#1'"),
    ("linux", one(dst="10.9.0.1/16"), "10.9.0.1/16: this is no route"),
    ("linux", one(dst="x\n"), "this is no route"),
    ("linux", one(nexthops=[{"gateway": ONE, "encap": "mpls", "flags": []}]), "no 'encap'"),
    ("linux", one(nexthops=[{"gateway": ONE, "flow": {"to": "5"}, "flags": []}]), "no 'flow'"),
    ("linux", one(dst=7), "no list of routes"),
    ("linux", one(metric="x"), "10.9.0.0/16: this is no route"),
    ("linux", one(gateway=5), "10.9.0.0/16: this is no route"),
    ("linux", '[{"dst":' + "[" * 100000, "no list of routes"),
    ("linux", '[{"id": 1, "gateway": "192.0.2.1"}]', "there is no route in use: 0 routes read"),
    ("linux", '[{"id": "1"}]', "no list of routes"),
    ("linux", json.dumps(LINUX[:-1], indent=0), "line 24: 10.2.0.0/16: the group 8 of its next hops may be resilient"),
    ("linux", json.dumps([{**GROUP, "type": "resilient"}, *LINUX[:-1]]), "group 8 of its next hops is resilient, and"),
    ("-6 linux", json.dumps(LINUX_6 + [{**LINUX_6[0], "dev": "eth1"}]), "another route has the same metric"),
    ("-6 linux", json.dumps(LINKS + [{**LINKS[0], "dev": "eth1"}]), "another route has the same metric"),
    ("mrt", BOTH[:-1], "line 2: this is no line"),
    ("mrt", "BGP4MP|1|A|192.0.2.1|1|10.0.0.0/8|1|IGP|192.0.2.1|0|0||NAG||\n", "line 1: this is no line"),
    ("mrt", BOTH + MRT.format("10.0.0.0/8", TWO), "line 3: 10.0.0.0/8: another route"),
    ("mrt --peer 192.0.2.9", BOTH, "there is no route in use: 2 routes read, 0 in the map; left out: 2 of other peers"),
    ("mrt", BOTH + OTHER, "line 3: there are routes of several peers: choose one, as by --peer 192.0.2.1"),
    ("mrt", MRT.format("10.0.0.1/8", ONE), "line 1: 10.0.0.1/8: no block"),
)
USAGES = ("", "cisco", "frr", "bird", "linux a b", "linux --peer 192.0.2.1 a", "--load", "--load linux 100",
          "--load 254 a", "--load 0 a", "--load 4294967296 a", "--load main a", "--load 100 a b", "--check",
          "--check 100 a", "--load --check 100", "--pref 5 --load 100 a")
LIST = "mode ipv4\n0.0.0.0/0 unrouted\n"
LIST_FAULTS = (("", "line 1"), ("mode ipv4\n", "no entry for all"), (LIST[:-1], "line 2: the text is cut short"),
               (LIST + "10.0.0.0/8 Alder\n", "line 3: this is no block with next hops: '10.0.0.0/8'"),
               (LIST + LIST[10:], "line 3"), (LIST + "10.0.0.0/8 dev eth0 ; x\n", "line 3"),
               (LIST + "10.0.0.1/8 dev eth0\n", "line 3"), (LIST + "::/0 dev eth0\n", "line 3"),
               (LIST + "10.0.0.0/8 dev eth0\tx\n", "line 3"))
# For each version what makes a change of a table in use, what undoes it, what --check then prints, and words of what it
# reports. The lines of the same number in TRIED are in braces, and the entry of the list.
CHANGES = (
    ("a route of the table goes", "route del {block} table 100", "route add {entry} table 100",
     "-{entry}\n", "damaged"),
    ("a route of the table is added", "route add {other} {hop} table 100", "route del {other} table 100",
     "+{other} {hop}\n", "damaged"),
    ("a route comes twice", "route add {block} {hop} metric 7 table 100", "route del {block} {hop} table 100",
     "+{block} {hop}\n", "damaged"),
    ("a route of the table changes", "route replace {block} {hop} table 100", "route replace {entry} table 100",
     "-{entry}\n+{block} {hop}\n", "damaged"),
    ("a route of the router is added", "route add {other} {hop} mtu 1300", "route del {other}",
     "-{other} {hop} mtu 1300\n", "stale"),
    ("the rule goes", "rule del pref 1000", "rule add pref 1000 lookup 100", "", "no rule"),
    ("the rule comes too late", "rule del pref 1000\nrule add pref 32800 lookup 100",
     "rule del pref 32800\nrule add pref 1000 lookup 100", "", "no rule, another way"),
    ("a rule of a policy", "rule add pref 70 {policy} lookup 200", "rule del pref 70", "", "another way"),
    ("both change", "route del {block} table 100\nroute add {other} {hop} mtu 1300",
     "route add {entry} table 100\nroute del {other}", "-{entry}\n", "damaged, stale"),
)


def lock():
    """Returns the name of the file that is the lock, and has the marks of tables."""
    return f"/run/flowlabel-fib-{os.stat('/proc/self/ns/net').st_ino}.lock"


def fib(words, given="", **variables):
    """Runs the command, and returns its status, its output and its messages."""
    return inside.texts("fib", *words.split(), input=given, variables=variables)


def ip(lines, version=4):
    """Runs lines of ip, each of which must succeed, and returns their output."""
    return "".join(output("ip", f"-{version}", *line.split()) for line in lines.splitlines())


class Fib(Case):
    """What tests of the command share."""

    def assert_refused(self, ended, *messages):
        """Checks that the command ended with the status 1, no output and one line with the messages."""
        status, found, said = ended
        self.assertEqual((status, found, said.count("\n")), (1, "", 1), said)
        for message in messages:
            self.assertIn(message, said)

    def assert_needs_output(self, *words):
        """Checks how the command ends if the disk of its output is full, or nobody reads its output."""
        with open("/dev/full", "wb") as full, closed_pipe() as pipe:
            for out, wanted in ((full, (4, b"flowlabel-fib: output: No space left on device\n")),
                                (pipe, (-signal.SIGPIPE, b""))):
                ended = run(FIB, *words, stdout=out)
                self.assertEqual((ended.returncode, ended.stderr), wanted)


class Texts(Fib):
    """The maps of small inputs, and faults in inputs."""

    @rows(*MAPS)
    def test_map(self, words, given, wanted, said):
        self.assertEqual(fib(words, given), (0, wanted, f"flowlabel-fib: {said}\n"))

    @rows(*FAULTS)
    def test_fault(self, words, given, message):
        self.assert_refused(fib(words, given), message)

    @rows((0,), (23,), (46,))
    def test_routes_that_are_cut_short(self, first):
        text = read(ROOT / "examples/routes-ip.json")
        for size in (*range(first, len(text) - 2, 69), len(text) - 2):
            with self.subTest(size=size):
                self.assert_refused(fib("linux", text[:size]), "cut short")

    @rows(*((words,) for words in USAGES))
    def test_usage(self, words):
        status, found, said = fib(words)
        self.assertEqual((status, found, said.count("\n")), (2, "", 1))

    @rows(*LIST_FAULTS)
    def test_fault_of_a_list(self, given, message):
        self.assert_refused(fib("--load 100", given), message)

    def test_help(self):
        status, found, said = fib("--help")
        self.assertEqual((status, found.partition(" linux")[0], said), (0, "usage: flowlabel-fib [-6]", ""))
        # Each form and each option, the latter with help.
        for form in ("[-6] linux [FILE]", "[-6] [--peer ADDRESS] mrt [FILE]", "--load TABLE [LIST]",
                     "[-6] --check TABLE"):
            self.assertIn(f" flowlabel-fib {form}\n", found)
        for option in ("--load", "--check", "-6", "--peer ADDRESS"):
            self.assertRegex(found, rf"(?m)^  {option} +\w")


class Surroundings(Fib):
    """Names, closed pipes, full disks, interrupts and a missing program."""
    name = "routes\nof two lines"

    @classmethod
    def prepare(cls):
        write(cls.name, json.dumps(LINUX))

    @rows((name, 0), ("missing\nfile", 4), (".", 4))
    def test_name(self, name, status):
        ended, found, said = inside.texts("fib", "linux", name)
        self.assertEqual((ended, found, said.count("\n")), (status, "" if status else MAP, 1))

    def test_output(self):
        self.assert_needs_output("linux", self.name)

    def test_ctrl_c(self):
        with subprocess.Popen([FIB, "linux"], stdin=subprocess.PIPE, **PIPES) as process:
            process.stdin.write("[" + " " * 1000000)
            process.send_signal(signal.SIGINT)
            self.assertEqual((process.communicate()[1], process.returncode), ("", -signal.SIGINT))

    def test_no_ip(self):
        found = fib("--load 100", LIST, PATH="/nowhere")
        self.assertEqual(found, (1, "", "flowlabel-fib: there is no ip (Debian: iproute2)\n"))


@needs("ip", "sysctl")
class Routed(Isolated, Fib):
    """Tests in a namespace that has the links and the routes of the examples."""
    kernel = KERNEL

    @classmethod
    def prepare(cls):
        # Which next hop a flow has depends on its ports, too.
        output("sysctl", "-qw", "net.ipv4.fib_multipath_hash_policy=1", "net.ipv6.fib_multipath_hash_policy=1")
        make_links()
        ip(f"nexthop add id 1 via {ONE} dev eth0\nnexthop add id 7 via {TWO} dev eth1")
        for block, hops in ROUTES:
            if isinstance(hops, str):
                ip(f"route add {hops} {block}")
            elif len(hops) > 1:
                ip(f"route add {block} {' '.join(f'nexthop via {hop} weight 1' for hop in hops)}")
            elif block.endswith("/32"):
                ip(f"route add {block} nhid 7")
            else:
                ip(f"route add {block} via {hops[0]}{' proto bird metric 32' if block == SECOND[0] else ''}")
        ip(f"route add {SECOND[0]} via {SECOND[1]} metric 100")


def make_links():
    """Makes the links of the examples, with their addresses."""
    # Nobody else has them, so the kernel needn't take a second to look.
    output("sysctl", "-qw", "net.ipv6.conf.default.accept_dad=0")
    for name, address, address_of_6 in INTERFACES:
        ip(f"link add {name} type veth peer name {name}p\nlink set {name}p up\nlink set {name} up\n"
           f"address add {address} dev {name}")
        ip(f"address add {address_of_6} dev {name} nodad", 6)
        # No address of the link and its peer may be tentative, since routes come with those that no longer are.
        for end in (name, f"{name}p"):
            wait(lambda end=end: "tentative" not in ip(f"address show dev {end}", 6))


class Routes(Routed):
    """The routes that ip prints."""

    def test_example(self):
        self.assertEqual(ip("-json route"), read(ROOT / "examples/routes-ip.json"))

    def test_numbers_of_next_hops_alone(self):
        # Without this setting the kernel prints only the numbers of objects.
        output("sysctl", "-qw", "net.ipv4.nexthop_compat_mode=0")
        self.addCleanup(output, "sysctl", "-qw", "net.ipv4.nexthop_compat_mode=1")
        self.assert_refused(fib("linux", ip("-json route")), "nexthop_compat_mode")


def next_hops(version, lines):
    """Returns the next hops that the kernel has for some look-ups, and how it refuses others, as lines with numbers."""
    _, found, said = texts("ip", f"-{version}", "-o", "-force", "-batch", "-",
                           input="".join(f"route get {line}\n" for line in lines))
    hops = said.splitlines()
    for number, line in enumerate(found.splitlines()):
        hop = re.sub(r"^\S+| (proto|scope|metric|table|pref|nhid|uid) \S+|linkdown|cache", "",
                     line.replace("\\\t", " "))
        # For IPv6 the kernel doesn't always begin with the same one of several next hops.
        hops.append(f"{number}: {sorted(' '.join(part.split()) for part in hop.split('nexthop'))}")
    return hops


def addresses(text):
    """Returns the addresses at both ends of each block of a map, and those next to them."""
    blocks = [ipaddress.ip_network(line.split()[0]) for line in text.splitlines() if "/" in line]
    most = {4: (1 << 32) - 1, 6: (1 << 128) - 1}
    ends = {(block.version, int(end) + step)
            for block in blocks for end in (block[0], block[-1]) for step in (-1, 0, 1)}
    return [str({4: ipaddress.IPv4Address, 6: ipaddress.IPv6Address}[version](value))
            for version, value in sorted(ends) if 0 < value < most[version]]


class Lists(Routed):
    """Tests with the shortest list of the routes of each version."""

    @classmethod
    def prepare(cls):
        super().prepare()
        ip("link add down0 type veth peer name down0p\nlink set down0 up\naddress add 203.0.113.1/24 dev down0")
        for lines in MORE.values():
            output("ip", "-batch", "-", given=lines)
        output("sysctl", "-qw", "net.ipv4.nexthop_compat_mode=1")
        cls.list, cls.tried, cls.hops, cls.before = {}, {}, {}, {}
        for version, option in OPTIONS.items():
            write(f"map{version}.txt", fib(f"{option}linux", ip("-json route", version)
                                           + output("ip", "-json", "nexthop"))[1])
            cls.list[version] = output(PROGRAM, "shrink", "--pmap", f"map{version}.txt")
            write(f"list{version}.txt", cls.list[version])
            cls.tried[version] = [f"{address} fibmatch" for address in
                                  addresses(read(f"map{version}.txt") + cls.list[version])]
            cls.hops[version], cls.before[version] = cls.next_hops(version), cls.state(version)

    @classmethod
    def next_hops(cls, version):
        """Returns the next hops of addresses and of flows."""
        flows = [f"{address} ipproto udp sport {port} dport 53" for address in TRIED[version][0]
                 for port in range(1024, 1048)]
        return next_hops(version, [*cls.tried[version], *flows])

    @classmethod
    def state(cls, version, but=None):
        """Returns what the kernel does with packets of a version, as lines: its next hops, its rules, and the routes of
        all tables but one."""
        routes = re.split(r"\n(?!\t)", ip("route show table all", version).strip())
        return [*cls.next_hops(version), *ip("rule", version).splitlines(),
                *(re.sub(r" expires \S+", "", route) for route in routes if f" table {but}" not in route)]

    @staticmethod
    def use(version):
        """Loads the table 100, and takes it into use. Returns the printed commands."""
        _, found, said = fib(f"--load 100 list{version}.txt")
        if said:
            raise OSError(said)
        commands = dict(line.split(": ", 1) for line in found.splitlines()[1:])
        output("sh", "-c", commands["use"])
        return commands

    def assert_as_before(self, version, but=None):
        """Checks that all is as before, but for the routes of a table that no rule selects."""
        self.assertCountEqual(self.state(version, but), self.before[version])

    def assert_differing(self, version, lines, *words):
        """Checks that --check prints these lines, and words on one line of standard error."""
        status, found, said = fib(f"{OPTIONS[version]}--check 100")
        every = ("no rule", "damaged", "stale", "another way")
        lines = lines.splitlines()
        self.assertEqual((status, sorted({*lines} & {*found.splitlines()}), said.count("\n")),
                         (1, sorted(lines), 1), said)
        self.assertEqual([word for word in every if word in said], [word for word in every if word in words], said)
        self.assertEqual(bool(found), bool(lines), found)


class Refusals(Lists):
    """Loads that must be refused, since the table isn't empty, beside other rules, or by the kernel."""

    @rows(*((version, *rule) for version, rules in RULES.items() for rule in rules))
    def test_rule(self, version, make, undo, message):
        ip(make, version)
        before = self.state(version)
        self.assert_refused(fib(f"--load 102 list{version}.txt"), message)
        self.assertCountEqual(self.state(version), before)
        ip(undo, version)
        self.assert_as_before(version)

    @rows((4,), (6,))
    def test_a_table_with_a_route(self, version):
        self.addCleanup(ip, "route flush table 102", version)
        ip(f"route add {TRIED[version][2]} {TRIED[version][3]} table 102", version)
        self.assert_refused(fib(f"--load 102 list{version}.txt"), "the table 102 isn't empty")
        self.assertEqual(len(ip("route show table 102", version).splitlines()), 1)

    @rows((4,), (6,))
    def test_a_gateway_that_cannot_be_reached(self, version):
        write("unreachable.txt",
              self.list[version].replace("192.0.2.1", "203.0.114.1").replace("2001:db8::1", "2001:db9::1"))
        ended = fib("--load 102 unreachable.txt")
        self.assert_refused(ended)
        self.assertRegex(ended[2], r"ip route add table 102 \S+ .*via 20\S+")
        self.assert_as_before(version)


class Failing(Lists):
    """Loads whose steps fail, or whose kernel has other routes than were added."""

    @rows(*((f"{version} {how}", version, how) for version in OPTIONS for how in ("nothing", "everything", "half")))
    def test_each_step(self, _, version, how):
        variables = stands_in("ip")
        self.addCleanup(ip, "route flush table 102", version)
        for step in range(1, 5):
            ended = fib(f"--load 102 list{version}.txt", **variables, **failing(step, how))
            with self.subTest(step=step):
                self.assert_refused(ended, "failed on purpose")
                self.assert_as_before(version)
        # Undoing a load needs one more call, so the load ends well if a later call would fail.
        self.assertEqual(fib(f"--load 102 list{version}.txt", **variables, **failing(5, how))[0], 0)

    @rows(*((f"{version} {how}", version, how, step, message) for version in OPTIONS for how, step, message in (
        ("loses", 3, "other routes than the list: -"), ("adds", 3, "other routes than the list: +"),
        ("warns", 4, "Dump was interrupted"))))
    def test_other_routes(self, _, version, how, step, message):
        more = f"table 102 {TRIED[version][2]} {TRIED[version][3]}"
        ended = fib(f"--load 102 list{version}.txt", **stands_in("ip"), **failing(step, how, ADDED=more))
        self.assert_refused(ended, message)
        self.assert_as_before(version)


class Interrupted(Lists):
    """Loads whose message can't be written, or which a signal ends."""

    @rows((4,), (6,))
    def test_output(self, version):
        self.assert_needs_output("--load", "102", f"list{version}.txt")
        self.assert_as_before(version)

    @rows(*((f"{version} {sent.name}", version, sent) for version in OPTIONS
            for sent in (signal.SIGINT, signal.SIGTERM, signal.SIGHUP)))
    def test_signal(self, _, version, sent):
        variables = stands_in("ip")
        for step in range(1, 5):
            with subprocess.Popen([FIB, "--load", "102", f"list{version}.txt"], **PIPES,
                                  env={**os.environ, **variables, **failing(step, "sleeps")}) as process:
                wait_for("asleep", process)
                process.send_signal(sent)
                found = process.communicate()
            os.unlink("asleep")
            with self.subTest(step=step):
                self.assertEqual((process.returncode, *found), (-sent, "", ""))
                self.assert_as_before(version)


class AtOnce(Lists):
    """A call while another one runs, or has the lock."""

    @rows((4,), (6,))
    def test_two_loads(self, version):
        words = [FIB, "--load", "102", f"list{version}.txt"]
        self.addCleanup(ip, "route flush table 102", version)
        with subprocess.Popen(words, **PIPES, env={**os.environ, **stands_in("ip"), **failing(3, "acts")}) as first:
            self.addCleanup(os.unlink, "asleep")
            wait_for("asleep", first)
            half = self.state(version)
            with waiting(self, *words) as second:
                self.assertCountEqual(self.state(version), half)
                first.terminate()
                first.communicate()
                second.communicate()
        self.assertEqual((first.returncode, second.returncode), (-signal.SIGTERM, 0))
        self.assert_as_before(version, 102)
        self.assertEqual(len(ip("-o route show table 102", version).splitlines()), self.list[version].count("/"))

    def test_many_loads(self):
        for version in (4, 6, 4, 6, 4):
            self.assertEqual(fib(f"--load 102 list{version}.txt")[0], 0)
            ip("route flush table 102", version)
        # The last mark of each table is kept.
        self.assertEqual([line.split()[:2] for line in read(lock()).splitlines()], [["6", "102"], ["4", "102"]])

    def test_a_check_that_waits(self):
        with open(lock(), "w", encoding="ascii") as held:
            fcntl.flock(held, fcntl.LOCK_EX)
            with waiting(self, FIB, "--check", "102") as process:
                wait(lambda: process.poll() is not None or is_asleep(process.pid))
                process.send_signal(signal.SIGINT)
                process.communicate()
        self.assertEqual(process.returncode, -signal.SIGINT)


class Use(Lists):
    """A table that is loaded, taken into use and out of use, and emptied."""

    @rows((4,), (6,))
    def test_load(self, version):
        status, found, said = fib(f"--load 100 list{version}.txt")
        commands = dict(line.split(": ", 1) for line in found.splitlines()[1:])
        self.assertEqual((status, found.splitlines()[0], said, [*commands]), (
            0, f"table 100: {self.list[version].count('/')} routes of IPv{version}, as in the list. No rule selects it "
            "yet", "", ["use", "undo", "empty"]))
        self.assert_as_before(version, 100)
        self.assert_differing(version, "", "no rule")
        output("sh", "-c", commands["use"])
        self.assertCountEqual(self.next_hops(version), self.hops[version])
        lookups = "".join(f"route get {address} fibmatch\n" for address in TRIED[version][0])
        used = output("ip", f"-{version}", "-o", "-batch", "-", given=lookups)
        self.assertEqual(used.count("table 100"), len(TRIED[version][0]))
        self.assert_refused(fib(f"--load 101 list{version}.txt"), "1000: from all lookup 100")
        output("sh", "-c", commands["undo"])
        self.assert_as_before(version, 100)
        output("sh", "-c", commands["empty"])
        self.assert_as_before(version)

    @rows((4,), (6,))
    def test_loaded_routes_alone(self, version):
        commands = self.use(version)
        for name in ("empty", "undo"):
            self.addCleanup(output, "sh", "-c", commands[name])
        # Now only the loaded routes are left, and those of links.
        tried = [line for line in self.tried[version] if not line.startswith("f")]
        before = next_hops(version, tried)
        ip("rule delete lookup main", version)
        self.addCleanup(ip, "rule add pref 32766 lookup main", version)
        self.assertCountEqual(next_hops(version, tried), before)


class Changes(Lists):
    """What --check prints when routes and rules change after a table is in use."""

    @classmethod
    def prepare(cls):
        super().prepare()
        for version in OPTIONS:
            cls.use(version)

    def assert_equal(self, version):
        """Checks that the table is the shortest list."""
        self.assertEqual(fib(f"{OPTIONS[version]}--check 100"), (
            0, f"table 100: its {self.list[version].count('/')} routes of IPv{version} are the shortest list of the "
            "router's routes\n", ""))

    @rows(*((f"{version} {what}", version, *rest) for version in OPTIONS for what, *rest in CHANGES))
    def test_change(self, _, version, make, undo, lines, words):
        _, block, other, hop, _, policy = TRIED[version]
        entry = next(line for line in self.list[version].splitlines() if line.startswith(block))
        make, undo, lines = (text.format(block=block, other=other, hop=hop, policy=policy, entry=entry)
                             for text in (make, undo, lines))
        self.assert_equal(version)
        ip(make, version)
        self.assert_differing(version, lines, *words.split(", "))
        ip(undo, version)
        self.assert_equal(version)


class Resilient(Lists):
    """A resilient group, which gives flows other next hops than a route with the same next hops does."""

    def test_group(self):
        commands = self.use(4)
        added = texts("ip", "nexthop", "add", "id", "30", "group", "1,3/7", "type", "resilient", "buckets", "32")
        if added[0]:
            self.skipTest(f"there are no resilient groups: {added[2].strip()}")
        ip("route add 10.40.0.0/16 nhid 30")
        routes, groups = ip("-json route"), output("ip", "-json", "nexthop")
        for given, why in ((routes, "may be resilient"), (routes + groups, "is resilient"),
                           (groups + routes, "is resilient")):
            self.assert_refused(fib("linux", given), why)
        self.assert_refused(fib("--check 100"), "10.40.0.0/16: the group 30 of its next hops is resilient")
        ip("route del 10.40.0.0/16\nnexthop del id 30")
        self.assertEqual(fib("--check 100")[0], 0)
        for name in ("undo", "empty"):
            output("sh", "-c", commands[name])


class FailedLink(Lists):
    """A link that fails takes entries of tables in use with it."""

    def test_link(self):
        for version in OPTIONS:
            self.use(version)
        looked_up = {version: [f"{tried[4]} fibmatch"] for version, tried in TRIED.items()}
        before = {version: next_hops(version, lines) for version, lines in looked_up.items()}
        had = {version: ip("-o route show table 100", version) for version in TRIED}
        ip("link set eth1 down")
        for version, lines in looked_up.items():
            with self.subTest(version=version):
                wait(lambda version=version, lines=lines: next_hops(version, lines) != before[version])
                self.assertLess(len(ip("-o route show table 100", version)), len(had[version]))
                status, found, said = fib(f"{OPTIONS[version]}--check 100")
                self.assertEqual((status, bool(found), "damaged" in said, "stale" in said, said.count("\n")),
                                 (1, True, True, True, 1), said)


@needs("ip", "bird")
class Bird(Isolated):
    """The routes that BIRD brings into the kernel. Those that its filter rejects aren't there."""
    kernel = KERNEL

    def test_routes(self):
        make_links()
        lines = [f"route {block} " + (hops if isinstance(hops, str) else " ".join(f"via {hop}" for hop in hops))
                 for block, hops in (*ROUTES, ("10.77.0.0/16", (TWO,)), ("10.3.0.0/16", "prohibit"))]
        write("bird.conf", "log \"bird.log\" all;\nrouter id 192.0.2.2;\nprotocol device {}\nprotocol kernel {\n"
              "merge paths on;\nipv4 { export where net != 10.77.0.0/16; };\n}\n"
              f"protocol static {{ ipv4;\n{';'.join(lines)};\n}}\n")
        wanted = fib("linux", read(ROOT / "examples/routes-ip.json"))[1].splitlines() + ["10.3.0.0/16 prohibit"]
        found = []
        with subprocess.Popen(["bird", "-f", "-c", "bird.conf", "-s", "bird.ctl"], stdin=subprocess.DEVNULL) as daemon:
            def is_read():
                found[:] = fib("linux", ip("-json route"))[1].splitlines()
                return sorted(found) == sorted(wanted) or daemon.poll() is not None
            with contextlib.suppress(TimeoutError):
                wait(is_read)
            daemon.terminate()
        self.assertEqual(sorted(found), sorted(wanted))


def record(subtype, body):
    """Returns a record of an MRT file (RFC 6396), of the type TABLE_DUMP_V2."""
    return struct.pack(">IHHI", 1700000000, 13, subtype, len(body)) + body


def attribute(kind, value):
    """Returns an attribute of a route."""
    return struct.pack(">BBB", 0x40, kind, len(value)) + value


def packed(address):
    """Returns the bytes of an address."""
    return ipaddress.ip_address(address).packed


def dump():
    """Returns the bytes of a dump of BGP."""
    peers = b"".join(struct.pack(">B", 2) + packed(peer) * 2 + struct.pack(">I", number) for peer, number in PEERS)
    records = [record(1, packed("192.0.2.9") + struct.pack(">HH", 0, len(PEERS)) + peers)]
    for number, (block, entries) in enumerate(PATHS):
        first, length = packed(block.split("/")[0]), int(block.split("/")[1])
        body = struct.pack(">IB", number, length) + first[:(length + 7) // 8] + struct.pack(">H", len(entries))
        for peer, path in entries:
            attributes = (attribute(1, b"\0") + attribute(2, struct.pack(f">BB{len(path)}I", 2, len(path), *path))
                          + attribute(3, packed(PEERS[peer][0])))
            body += struct.pack(">HIH", peer, 1700000000, len(attributes)) + attributes
        records.append(record(2, body))
    return b"".join(records)


class Dump(Case):
    """A dump of BGP."""

    @needs("bgpdump")
    def test_bgpdump(self):
        write("rib.mrt", dump())
        self.assertEqual(output("bgpdump", "-q", "-m", "rib.mrt"), read(ROOT / "examples/routes-bgpdump.txt"))

    def test_peer(self):
        self.assertEqual(fib(f"mrt --peer {TWO}", read(ROOT / "examples/routes-bgpdump.txt"))[:2], (
            0, f"mode ipv4\ndefault unrouted\n10.0.0.0/8 via {TWO}\n172.16.0.0/12 via {TWO}\n"))
