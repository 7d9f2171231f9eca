"""Nobody can choose keys that make the program's hash tables slow.

A key is hashed with two numbers, which each run draws from the system. No output depends on them, so no contract says
that a table uses them. For each table of each command, keys that collide under a public hash must cost at most 1.5
times as many instructions as random keys, which valgrind counts. To show that the chosen keys would be slow, the same
lines are run with the public numbers in place of drawn ones (tests/support/system.c).
"""

import functools
import itertools
import os
import re

from support import PROGRAM, Case, instructions, made, needs, read, rows, run, system, write

# The number of keys.
KEYS = 4_000
# The number of labels whose costs depend on each byte of the numbers.
FEW = 1_000
# The public numbers, `KeyHashing::known`, and their bytes as the system would return them.
SEED, MULTIPLIER = 0x243F_6A88_85A3_08D3, 0x9E37_79B9_7F4A_7C15
KNOWN = (SEED.to_bytes(8, "little") + MULTIPLIER.to_bytes(8, "little")).hex()
# Numbers that are not public.
DRAWN = "3b1f0c9a7d52e86447a6d1380e95bc2f"
# A table of KEYS has sixteen slots with each remainder of a hash. Chosen numbers share a sixteenth of the remainders.
REMAINDERS, NEAR = 512, 32
# The lines that fill a table of labels, by what they read. A line may end with a fault.
CHECK = "check --pmap {} --list {} --cert {}"
OF_MAPS = ("label --pmap {} 10.0.0.1", "cat --pmap {}", "shrink --pmap {}", "shrink --pmap {} --certificate",
           "rows --pmap {} /dev/null", "uniq --fields proto --pmap {} /dev/null", CHECK.format("{}", "one", "one.cert"),
           "cat --pmap {}.texts")
OF_LISTS = ("label --list {} 10.0.0.1", "cat --list {}", "rows --list {} /dev/null",
            "uniq --fields proto --list {} /dev/null", CHECK.format("one", "{}", "one.cert"), "cat --list {}.twice",
            "cat --list {}.texts")
OF_CERTIFICATES = ("recert --cert {}.cert", CHECK.format("one", "one", "{}.cert"))
# The keys that are chosen instead of usual ones: they collide under the hash of the kit's `FoldHasher`, or under the
# public numbers.
CHOSEN = {"labels": ("fold_labels", "known_labels"), "numbers": ("known_numbers",), "sources": ("colliding", "known")}


def pairs(usual, *lines):
    """Returns each line with chosen keys, and the same line with usual ones, for a test of each, with their names."""
    return rows(*((line.format(chosen), line.format(usual), chosen, usual)
                  for line in lines for chosen in CHOSEN[usual]))


def folded(one, other):
    """Returns the two halves of a product of 128 bits, combined by exclusive or."""
    return (one * other ^ one * other >> 64) % 2**64


def near_numbers():
    """Yields numbers whose hashes under the public numbers are close together in a table."""
    for number in itertools.count():
        word = 1 << 32 | int.from_bytes(number.to_bytes(4, "little"), "big")
        place = folded(folded(SEED ^ word, MULTIPLIER), SEED)
        if (place ^ place >> 32) % REMAINDERS < NEAR:
            yield number


def make_keys(name):
    """Makes the files of keys with a name of CHOSEN."""
    if name in ("sources", *CHOSEN["sources"]):
        made("flows.py", name, KEYS, name)
        return
    numbers = near_numbers() if name == "known_numbers" else range(KEYS)
    made("maps.py", KEYS, "labels" if "numbers" in name else name, name)
    labels = [line.split()[1] for line in read(name).splitlines()]
    texts = "".join(f"label {number} {label}\n" for number, label in zip(numbers, labels))
    if "numbers" in name:
        write(name, texts)
        return
    lines = "".join(f"10.{number >> 8}.{number & 255}.0/32 {label}\n" for number, label in enumerate(labels))
    write(f"{name}.twice", f"{lines}10.0.0.0/32 a\n")
    write(f"{name}.cert", "\n".join([f"flowlabel-cert 1 ipv4 {KEYS}", *labels, "l 0\n"]))
    write(f"{name}.texts", texts)


@needs("valgrind", "rt", in_ci=True)
class Keys(Case):
    """Keys that collide under a public hash cost no more than random ones, and would cost more under that hash."""
    # The same command line with the same numbers is counted once.
    cost = staticmethod(functools.cache(instructions))

    @classmethod
    def prepare(cls):
        write("one", "0.0.0.0/0 A\n")
        write("one.cert", "flowlabel-cert 1 ipv4 1\nA\nl 0\n")

    def check(self, chosen, usual, *names):
        for name in names:
            if not os.path.exists(name):
                make_keys(name)
        cost, limit = self.cost(chosen, DRAWN), 1.5 * self.cost(usual, DRAWN)
        self.assertLessEqual(cost, limit, f"{chosen}: {cost} instructions, and for random keys {limit / 1.5:.0f}")
        if "known" in chosen:
            cost = self.cost(chosen, KNOWN)
            self.assertGreater(cost, limit, f"{chosen} with the public numbers: {cost} instructions: these keys don't "
                                            "collide, so make others in bench/")


class LabelsOfMaps(Keys):
    """Tables that a map fills."""
    is_long = True

    @pairs("labels", *OF_MAPS)
    def test_keys(self, *row):
        self.check(*row)


class LabelsOfLists(Keys):
    """Tables that a list fills."""

    @pairs("labels", *OF_LISTS)
    def test_keys(self, *row):
        self.check(*row)


class OtherKeys(Keys):
    """Tables that a certificate, declared numbers, or the addresses of flows fill."""

    @pairs("labels", *OF_CERTIFICATES)
    def test_certificate(self, *row):
        self.check(*row)

    @pairs("numbers", "cat --pmap {}", "cat --list {}")
    def test_numbers(self, *row):
        self.check(*row)

    @pairs("sources", "uniq --fields sip {}")
    def test_addresses(self, *row):
        self.check(*row)


@needs("valgrind", "rt", in_ci=True)
class Numbers(Case):
    """The numbers that each run draws."""
    is_long = True
    line = "cat --pmap few"
    cost = staticmethod(functools.cache(instructions))

    @classmethod
    def prepare(cls):
        made("maps.py", FEW, "labels", "few")

    def test_same_numbers(self):
        usual = self.cost(self.line, DRAWN)
        self.assertEqual(instructions(self.line, DRAWN), usual, f"{self.line} with the same numbers")

    @rows(*((at,) for at in range(16)))
    def test_byte(self, at):
        """A run costs something else if a byte of either number is another one."""
        usual = self.cost(self.line, DRAWN)
        # Two costs may be equal by chance.
        changed = (f"{DRAWN[:2 * at]}{int(DRAWN[2 * at:2 * at + 2], 16) ^ bits:02x}{DRAWN[2 * at + 2:]}"
                   for bits in (255, 1, 128))
        self.assertTrue(any(instructions(self.line, numbers) != usual for numbers in changed),
                        f"byte {at} of the numbers: no instruction more or less")

    def test_two_runs_draw_different_numbers(self):
        """Each run draws both numbers once, from the system."""
        drawn = []
        for _ in range(2):
            with open("calls", "w+b") as calls:
                run(PROGRAM, "cat", "--pmap", "few", env={"LD_PRELOAD": system(), "CALLS": str(calls.fileno())},
                    pass_fds=[calls.fileno()], check=True)
                calls.seek(0)
                drawn += re.findall(rb"random 16 (\w{32})\n", calls.read())
        self.assertEqual((len(drawn), len(set(drawn))), (2, 2), drawn)
