"""flowlabel-country on small sources of each form, flowlabel on the map, and flowlabel-lookup.

A sample of each form is made by the documentation of its source, with the same networks, and 1,000 addresses must have
the labels that the sample gives them. Files whose column of the country isn't certain must be refused, and so must
malformed lines, each with its number. A file that isn't regular must not be replaced. flowlabel-lookup must print what
`flowlabel label` prints, for the addresses at and around both ends of each range, and in each form of an address.
"""

import functools
import ipaddress
import os
import random

from support import PROGRAM, ROOT, Case, inside, read, rows, stand_in, texts, write

HEAD = "map-name countries\nmode ipv6\ndefault unknown\n"
BLOCKS_TITLE = "network,geoname_id,registered_country_geoname_id,represented_country_geoname_id,is_anonymous_proxy\n"
FILES = {
    # Like the tables of tor-geoipdb: a quote in a comment, unknown countries, neighbours of one country.
    "geoip": b'# 3" of comment\n16777216,16777471,AU\n16777472,16777727,AU\n16777728,16778239,??\n'
             b"3221225985,3221225985,NO\n",
    "geoip6": b"2001:200::,2001:200:ffff:ffff:ffff:ffff:ffff:ffff,JP\n",
    # Like older tables of GeoLite and DB-IP: quotes, integers after addresses, a byte order mark, CR LF.
    "older.csv": b'\xef\xbb\xbf"1.0.0.0","1.0.0.255","16777216","16777471","AU","Australia"\r\n'
                 b'"192.0.2.1","192.0.2.1","3221225985","3221225985","NO","Norway"\r\n'
                 b'"8.0.0.0","8.0.0.0","134217728","134217728","ZZ","Reserved"\r\n',
    "integers.csv": b'"42540528726795050063891204319802818560","42540528806023212578155541913346768895","JP"\n',
    "titled.csv": b"network,country\n198.51.100.7/24,NO\n2001:db8::/33,NO\n::ffff:198.51.100.0/120,SE\n",
    # A nested network counts if it comes later.
    "nested.csv": b"10.0.0.0/8,NO\n10.1.0.0/16,SE\n",
    "faulty.csv": b"10.0.0.0,10.0.0.255,NO\n10.0.1.0,NO\n",
    "nothing.csv": b"# nothing\n",
    # A column of continents, then the country. All values of one column may be of the other kind.
    "city.csv": b"1.0.0.0,1.0.0.255,OC,AU,Queensland\n2.0.0.0,2.0.0.255,EU,FR,QC\n3.0.0.0,3.0.0.255,ZZ,ZZ,\n",
    "asia.csv": b"1.0.0.0,1.0.0.255,AS,JP\n2.0.0.0,2.0.0.255,NA,US\n",
    "state.csv": b"1.0.0.0,1.0.0.255,US,NY\n2.0.0.0,2.0.0.255,US,CA\n",
    "two.csv": b"1.0.0.0,1.0.0.255,US,CA\n2.0.0.0,2.0.0.255,US,AL\n",
    "continent.csv": b"1.0.0.0/24,AS\n2.0.0.0/24,NA\n",
    "names.csv": b"1.0.0.0/24,Australia\n",
    "twice.csv": b"network,country_code,iso_code\n1.0.0.0/24,US,CA\n",
    "header.csv": b"network,continent_code,country,country_code\n1.0.0.0/24,AS,Australia,AU\n2.0.0.0/24,SA,Peru,\n",
    # A country that a later line takes away.
    "away.csv": b"10.0.0.0/8,NO\n10.1.0.0/16,ZZ\n11.0.0.0/8,ZZ\n",
    # Two ranges without a country, each of which has one address of a country.
    "edge.csv": b"10.0.0.0,10.0.0.255,NO\n10.0.0.255,10.0.1.10,ZZ\n9.9.9.0,10.0.0.0,ZZ\n10.0.1.11,10.0.1.20,ZZ\n",
    "first.csv": b"10.0.0,10.0.0.255,NO\n10.0.1.0,10.0.1.255,NO\n",
    "word.csv": b"localhost,NO\n10.0.0.0/8,NO\n",
    "high.csv": b"# one\n10.0.0.9,10.0.0.2,NO\n",
    "length.csv": b"10.0.0.0/8,NO\n10.0.0.0/33,NO\n",
    "large.csv": b"1,2,NO\n1,9999999999999999999999999999999999999999,NO\n",
    "short.csv": b"10.0.0.0/8,NO,x\n11.0.0.0/8,SE\n12.0.0.0/8\n",
    "quote.csv": b"10.0.0.0/8,NO\n" + b"\"" + 200000 * b"a" + b"\n",
    "poor/GeoLite2-Country-Locations-en.csv": b"geoname_id,country_iso_code\n1,NO\n2\n",
    "poor/GeoLite2-Country-Blocks-IPv4.csv": b"network\n",
    "poor/GeoLite2-Country-Blocks-IPv6.csv": b"",
    "geolite/GeoLite2-Country-Locations-en.csv":
        b"\xef\xbb\xbfgeoname_id,locale_code,continent_code,continent_name,country_iso_code,country_name\n"
        b'1,en,EU,Europe,NO,Norway\n2,en,EU,Europe,SE,"Sweden"\n3,en,EU,Europe,,\n',
    "geolite/GeoLite2-Country-Blocks-IPv4.csv":
        f"{BLOCKS_TITLE}10.0.0.0/24,1,2,,0\n10.0.1.0/24,,2,,0\n10.0.2.0/24,3,,,0\n10.0.3.0/24,,,,0\n".encode(),
    "geolite/GeoLite2-Country-Blocks-IPv6.csv": f"{BLOCKS_TITLE}2001:db8::/32,2,1,,0\n".encode(),
    "half/GeoLite2-Country-Blocks-IPv4.csv": b"",
}
JAPAN = "2001:200:: 2001:200:ffff:ffff:ffff:ffff:ffff:ffff JP\n"
# A stand-in for the command of libloc, which prints its networks in any order, and some without a country.
LOCATION = """#!/bin/sh
[ "$*" = dump ] || exit 1
cat <<'END'
#
# Location Database Export
#

aut-num:                 AS1
name:                    NO

net:                     10.1.0.0/16
country:                 SE
aut-num:                 1

net:                     10.0.0.0/8
aut-num:                 1
country:                 NO

net:                     10.2.0.0/16
is-anycast:              yes

net:                     10.255.0.0/16
country:                 SE

net:                     10.3.0.0/16
country:                 A1

net:                     11.0.0.0/8
aut-num:                 1

net:                     2001:db8::/32
country:                 NO
END
"""
MAPS = (
    ("geoip geoip6", f"{HEAD}{JAPAN}1.0.0.0 1.0.1.255 AU\n192.0.2.1 192.0.2.1 NO\n"),
    ("geoip6 geoip", f"{HEAD}{JAPAN}1.0.0.0 1.0.1.255 AU\n192.0.2.1 192.0.2.1 NO\n"),
    ("older.csv integers.csv", f"{HEAD}{JAPAN}1.0.0.0 1.0.0.255 AU\n192.0.2.1 192.0.2.1 NO\n"),
    ("titled.csv", f"{HEAD}2001:db8:: 2001:db8:7fff:ffff:ffff:ffff:ffff:ffff NO\n"
                   "::ffff:198.51.100.0 ::ffff:198.51.100.255 SE\n198.51.100.0 198.51.100.255 NO\n"),
    ("nested.csv", f"{HEAD}10.0.0.0 10.255.255.255 NO\n10.1.0.0 10.1.255.255 SE\n"),
    ("geolite", f"{HEAD}2001:db8:: 2001:db8:ffff:ffff:ffff:ffff:ffff:ffff SE\n"
                "10.0.0.0 10.0.0.255 NO\n10.0.1.0 10.0.1.255 SE\n"),
    ("city.csv", f"{HEAD}1.0.0.0 1.0.0.255 AU\n2.0.0.0 2.0.0.255 FR\n"),
    ("asia.csv", f"{HEAD}1.0.0.0 1.0.0.255 JP\n2.0.0.0 2.0.0.255 US\n"),
    ("state.csv", f"{HEAD}1.0.0.0 1.0.0.255 US\n2.0.0.0 2.0.0.255 US\n"),
    ("header.csv", f"{HEAD}1.0.0.0 1.0.0.255 AU\n"),
    ("away.csv", f"{HEAD}10.0.0.0 10.255.255.255 NO\n10.1.0.0 10.1.255.255 unknown\n"),
    ("nested.csv away.csv", f"{HEAD}10.0.0.0 10.255.255.255 NO\n10.1.0.0 10.1.255.255 SE\n10.0.0.0 10.255.255.255 NO\n"
     "10.1.0.0 10.1.255.255 unknown\n"),
    ("libloc", f"{HEAD}2001:db8:: 2001:db8:ffff:ffff:ffff:ffff:ffff:ffff NO\n10.0.0.0 10.255.255.255 NO\n"
               "10.1.0.0 10.1.255.255 SE\n10.2.0.0 10.3.255.255 unknown\n10.255.0.0 10.255.255.255 SE\n"),
    ("edge.csv", f"{HEAD}10.0.0.0 10.0.0.255 NO\n10.0.0.255 10.0.1.10 unknown\n9.9.9.0 10.0.0.0 unknown\n"),
)
FAULTS = (("faulty.csv", "faulty.csv: no range of addresses at 2"), ("nothing.csv", "no address has a country"),
          ("half", "half: not one file each"), ("missing", "missing: No such file or directory"),
          ("two.csv", "two.csv: the columns 3 and 4 may have the country, so choose one with --column N"),
          ("continent.csv", "continent.csv: there is a column of continents, perhaps"),
          ("names.csv", "names.csv: no column has only codes of countries, so choose one with --column N"),
          ("twice.csv", "twice.csv: the columns 2 and 3 may have the country"),
          ("first.csv", "first.csv: no range of addresses at 1"), ("word.csv", "word.csv: no range of addresses at 1"),
          ("high.csv", "high.csv: the first address is above the last at 2"),
          ("length.csv", "length.csv: no range of addresses at 2"),
          ("large.csv", "large.csv: no range of addresses at 2"),
          ("short.csv", "short.csv: no code of a country in the column 2 at 3"),
          ("quote.csv", "quote.csv: field larger than field limit (131072) at 2"),
          ("poor", "poor/GeoLite2-Country-Locations-en.csv: too few columns at 3"))
# Files whose column is named, and the map.
CHOSEN = (("two.csv", "4", f"{HEAD}1.0.0.0 1.0.0.255 CA\n2.0.0.0 2.0.0.255 AL\n"),
          ("continent.csv", "2", f"{HEAD}1.0.0.0 1.0.0.255 AS\n2.0.0.0 2.0.0.255 NA\n"),
          ("twice.csv", "2", f"{HEAD}1.0.0.0 1.0.0.255 US\n"))
CONTINENTS = {"NO": "EU", "JP": "AS", "US": "NA", "AS": "OC", "NA": "AF", "BR": "SA", "AQ": "AN", "ZZ": "ZZ"}
LABELS = (("1.0.0.77", "AU"), ("::ffff:1.0.1.255", "AU"), ("1.0.2.0", "unknown"), ("192.0.2.1", "NO"),
          ("192.0.2.2", "unknown"), ("2001:200::1", "JP"), ("2001:201::", "unknown"))


class Sources(Case):
    """Cases with small sources, and a stand-in for libloc."""

    @classmethod
    def prepare(cls):
        for name, content in FILES.items():
            write(name, content)
        cls.path = stand_in("location", LOCATION)

    def country(self, *words):
        """Runs the command."""
        return inside.texts("country", *words, variables=self.path)


class Maps(Sources):
    """The map that the command makes from each source. A faulty source leaves the old map."""

    @rows(*MAPS)
    def test_map(self, sources, wanted):
        count = wanted.count("\n") - HEAD.count("\n")
        self.assertEqual(self.country("map.txt", *sources.split()), (0, f"map.txt: {count} lines\n", ""))
        self.assertEqual(read("map.txt"), wanted)

    @rows(*FAULTS)
    def test_fault(self, source, message):
        write("map.txt", "as before")
        status, output, error = self.country("map.txt", source)
        self.assertEqual((status, output, error.count("\n")), (4 if source == "missing" else 1, "", 1))
        self.assertIn(message, error)
        self.assertEqual(read("map.txt"), "as before")

    @rows(*CHOSEN)
    def test_column(self, source, number, wanted):
        self.assertEqual(self.country("--column", number, "map.txt", source)[0], 0)
        self.assertEqual(read("map.txt"), wanted)

    @rows(("link.txt",), ("pipe.txt",), (".",))
    def test_no_regular_file(self, name):
        os.symlink("map.txt", "link.txt")
        os.mkfifo("pipe.txt")
        self.addCleanup(os.remove, "link.txt")
        self.addCleanup(os.remove, "pipe.txt")
        self.assertEqual(self.country(name, "nested.csv"),
                         (1, "", f"flowlabel-country: {name}: not a regular file, so it isn't replaced\n"))
        self.assertTrue(os.path.islink("link.txt"))

    def test_a_folder_that_is_missing(self):
        self.assertEqual(self.country("missing/map.txt", "nested.csv"),
                         (4, "", "flowlabel-country: missing/map.txt: No such file or directory\n"))

    @rows(("", "the following arguments are required: MAP, SOURCE"),
          ("map.txt", "the following arguments are required: SOURCE"),
          ("--column 0 map.txt two.csv", "argument --column: not the number of a column: 0"),
          ("--column two.csv", "argument --column: not the number of a column: two.csv"))
    def test_usage(self, words, line):
        self.assertEqual(self.country(*words.split()), (2, "", f"flowlabel-country: {line}\n"))


@functools.cache
def networks():
    """Returns networks that don't overlap, each with its country."""
    rng = random.Random(20261129)
    low4, low6 = int(ipaddress.ip_address("11.0.0.0")), int(ipaddress.ip_address("2001:200::"))
    found = [ipaddress.ip_network((low4 + (number << 18), rng.randrange(14, 33))) for number in range(300)]
    found += [ipaddress.ip_network((low6 + (number << 88), rng.randrange(40, 129))) for number in range(300)]
    return [(network, rng.choice(list(CONTINENTS))) for network in found]


def write_sample(name, lines, start=""):
    """Writes a sample of a source."""
    write(name, start + "".join(lines))


def write_samples(found):
    """Writes the networks in the form of each source, and returns the variable with which libloc's is found."""
    ends = [(network[0], network[-1], code) for network, code in found]
    write_sample("dbip-country.csv", (f"{low},{high},{code}\n" for low, high, code in ends))
    write_sample("dbip-city.csv", (
        f'{low},{high},{CONTINENTS[code]},{code},"A province","A, city",59.9,10.7\n' for low, high, code in ends))
    for version, name in ((4, "ip2location.csv"), (6, "ip2location6.csv")):
        write_sample(name, (
            f'"{int(low)}","{int(high)}","{code}","Name of {code}"\n'.replace("ZZ", "-").replace("Name of -", "-")
            for low, high, code in ends if low.version == version),
            '"0","281470681743359","-","-"\n' if version == 6 else "")
    write_sample("ipinfo.csv", (
        f'{network},Name of {code},{code},Continent,{CONTINENTS[code]},AS64496,"A name, Inc.",example.org\n'
        .replace("ZZ", "") for network, code in found),
                 "network,country,country_code,continent,continent_code,asn,as_name,as_domain\n")
    places = list(CONTINENTS)
    write_sample("GeoLite2/GeoLite2-Country-Locations-en.csv", (
        f'{number},en,{CONTINENTS[code]},"A continent",{code},"Name of {code}",0\n'
        for number, code in enumerate(places, 1) if code != "ZZ"),
                 "geoname_id,locale_code,continent_code,continent_name,country_iso_code,country_name,"
                          "is_in_european_union\n")
    for version in (4, 6):
        write_sample(f"GeoLite2/GeoLite2-Country-Blocks-IPv{version}.csv", (
            f"{network},{places.index(code) + 1},{places.index(code) + 1},,0,0,\n" for network, code in found
            if network.version == version), BLOCKS_TITLE.replace("\n", ",is_satellite_provider,is_anycast\n"))
    return stand_in("location", "".join([
        "#!/bin/sh\n[ \"$*\" = dump ] || exit 1\ncat <<'END'\n# A comment\n",
        *(f"\nnet:                     {network}\naut-num:                 1\n"
          + f"country:                 {code}\n" * (code != "ZZ") for network, code in found), "END\n"]))


@functools.cache
def labelled():
    """Returns 1,000 addresses at and beside the ends of networks, and the label of each."""
    rng, addresses = random.Random(1), []
    for network, _ in rng.sample(networks(), 250):
        low, high = int(network[0]), int(network[-1])
        addresses += [type(network[0])(value) for value in (low, high, rng.randint(low, high), high + 1)]
    return addresses, [next((code for network, code in networks() if place in network), "ZZ").replace("ZZ", "unknown")
                       for place in addresses]


class SameAsSource(Case):
    """1,000 addresses have the labels that the sample of each source gives them."""

    @classmethod
    def prepare(cls):
        cls.path = write_samples(networks())

    @rows(*zip(("libloc", "GeoLite2", "dbip-country.csv", "dbip-city.csv", "ip2location6.csv ip2location.csv",
                "ipinfo.csv")))
    def test_source(self, sources):
        status, _, error = inside.texts("country", "map.txt", *sources.split(), variables=self.path)
        self.assertEqual((status, error), (0, ""))
        addresses, wanted = labelled()
        found = inside.texts("lookup", "--pmap", "map.txt",
                             input="".join(f"{place}\n" for place in addresses))[1].split("\n")[:-1]
        self.assertEqual((len(addresses), len(found)), (1000, 1000))
        self.assertEqual([(place, label, right) for place, label, right in zip(addresses, found, wanted)
                          if label != right], [])


class Labels(Sources):
    """The output of flowlabel for a map: labels, the shortest list, and its certificate."""

    @classmethod
    def prepare(cls):
        super().prepare()
        inside.texts("country", "map.txt", "geoip", "geoip6")
        for name, words in (("list.txt", ()), ("cert.txt", ("--certificate",))):
            write(name, texts(PROGRAM, "shrink", "--pmap", "map.txt", *words)[1])

    @rows(*LABELS)
    def test_label(self, address, label):
        for option, name in (("--pmap", "map.txt"), ("--list", "list.txt")):
            self.assertEqual(texts(PROGRAM, "label", option, name, address), (0, f"{label}\n", ""), name)

    def test_check(self):
        count = sum("/" in line for line in read("list.txt").splitlines())
        self.assertEqual(texts(PROGRAM, "check", "--pmap", "map.txt", "--list", "list.txt", "--cert", "cert.txt"),
                         (0, f"minimal {count}\n", ""))


class Lookups(Case):
    """The labels that flowlabel-lookup prints of addresses, and those that it refuses."""

    @rows(("--pmap", "offices.txt"), ("--list", "offices-list.txt"), ("--pmap", "regions.txt"))
    def test_lookups(self, option, name):
        name = ROOT / "examples" / name
        values = {0, (1 << 128) - 1, 1 << 127}
        for line in texts(PROGRAM, "cat", option, name)[1].splitlines()[1:]:
            ends = [ipaddress.ip_address(end) for end in line.split("|")[:2]]
            values |= {int(end) + (0xFFFF << 32) * (end.version == 4) + step for end in ends for step in (-1, 0, 1)}
        places = [str(ipaddress.IPv6Address(value)) for value in sorted(values) if 0 <= value < 1 << 128]
        places += ["10.1.20.1", "10.1.20.0", "010.1.020.001", "::ffff:010.1.20.1", "0.0.0.0", "255.255.255.255", "1::"]
        wanted = "".join(texts(PROGRAM, "label", option, name, place)[1] for place in places)
        self.assertEqual(inside.texts("lookup", option, name, input="".join(f"{place}\n" for place in places)),
                         (0, wanted, ""))

    @rows(*zip(("0010.1.1.1", "10.1.1", "10.1.1.256", "1.2.3.4/32", "0x10.1.1.1", "1::2::3", "12345::", "",
                "10.1.1.1.")))
    def test_no_address(self, place):
        words = "--pmap", ROOT / "examples/regions.txt"
        self.assertEqual(texts(PROGRAM, "label", *words, place)[0], 2)
        self.assertEqual(inside.texts("lookup", *words, input=f"10.0.0.1\n{place}\n"),
                         (1, "", "flowlabel-lookup: standard input: no address at 2\n"))
