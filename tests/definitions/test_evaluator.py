"""dev/evaluate computes what the definitions and the kit's library say, and what it can't evaluate ends with 125."""

import os
import pathlib
import random
import re
import subprocess
import sys

from definitions import inputs
from support import PROGRAM, ROOT, Case, needs, rows, run, write
from support.ipfix import message, sets, template

EVALUATE = ROOT / "dev/evaluate"
TRIED = 150  # arguments for each word
# These speak of all values or of some index.
NOT_COMPUTED = {"All", "Contains"}
ARROW = re.compile(r"→(?![^(]*\))")  # outside of brackets


@needs("rt")
class Words(Case):
    """The words of dev/kit.py that the kit defines, by its own texts."""

    @classmethod
    def prepare(cls):
        sys.path.insert(0, str(ROOT / "dev"))
        import definition_changes
        import kit
        from evaluator import Definitions, Translator
        from specs import Module
        # Words that the kit's definitions have, and ours don't.
        kit.LIBRARY |= {"cond": (3, "x if b, otherwise y", lambda b, x, y: x if b else y), "⊤": (0, "true", True),
                        "reverse": (1, "the items from the last on", lambda xs: xs[::-1]),
                        "pred": (1, "n - 1", lambda n: max(n - 1, 0)),
                        "get_or": kit.LIBRARY["slice_index_or"],
                        "is_in_range": (3, "the number is in a range", lambda a, b, n: a <= n <= b),
                        "ordering_then": (2, "the first order, or the second one if that is equal", lambda a, b: (
                            b if a.tag == "Equal" else a))}
        cls.kit, cls.arrows = kit, staticmethod(definition_changes.split_arrows)
        cls.definitions = Definitions()
        cls.translator = staticmethod(Translator)
        home = subprocess.check_output(["rt", "doc"], text=True).strip().rpartition("/")[0]
        cls.found = {}
        for path in sorted(ROOT.joinpath(home, "rattle").glob("*/specs/**/*.antt")):
            if path.parts[-2] == "FinMap" or "/core/" not in str(path) and "/std_alloc/" not in str(path) and (
                    path.stem != "KnownBytes"):
                continue
            key = "kit/" + "/".join(path.relative_to(home).with_suffix("").parts)
            module = cls.definitions.modules[key] = Module(key, path, path.read_text(encoding="utf-8")).read()
            for name, definition in module.definitions.items():
                arity = kit.LIBRARY.get(name, [None])[0]
                is_computed = definition.kind == "function" and name not in NOT_COMPUTED
                if arity and is_computed and definition.arity in (arity, 0, None):
                    cls.found.setdefault(name, (key, name))

    def value(self, rng, kind):
        """Makes a value of a type. A variable of types is a small number."""
        kit, kind = self.kit, kind.strip()
        while kind.startswith("(") and self.closes(kind) == len(kind) - 1:
            kind = kind[1:-1].strip()
        *taken, result = ARROW.split(kind)
        if taken:  # a function, whose value depends on its arguments alone
            seed = rng.random()
            return kit.curried(lambda *args: self.value(random.Random(f"{seed} {args}"), result), len(taken))
        if " × " in kind:
            return kit.pair(*(self.value(rng, part) for part in kind.split(" × ")))
        head, _, rest = kind.partition(" ")
        match head:
            case "List":
                return tuple(self.value(rng, rest) for _ in range(rng.choice((0, 1, 2, 3, 5, 8))))
            case "Option":
                return kit.some(self.value(rng, rest)) if rng.random() < 0.7 else kit.NONE
            case "Result":
                one, other = self.two(rest)
                return kit.ok(self.value(rng, one)) if rng.random() < 0.6 else kit.err(self.value(rng, other))
            case "Ordering":
                return kit.Case(rng.choice(("Less", "Equal", "Greater")))
            case "String":
                return kit.Record(f_bytes=kit.Record(f_items=self.value(rng, "List ℕ")))
            case "Bool" | "Type":
                return rng.random() < 0.5
        return rng.choice((0, 1, 2, 3, 10, 13, 48, 97, 255)) if head == "ℕ" else rng.randrange(4)

    @staticmethod
    def closes(kind):
        depth = 0
        for place, letter in enumerate(kind):
            depth += (letter == "(") - (letter == ")")
            if not depth:
                return place
        return -1

    def two(self, kinds):
        """Divides the types of a result."""
        end = self.closes(kinds) + 1 if kinds.startswith("(") else kinds.index(" ")
        return kinds[:end], kinds[end:]

    def test_words(self):
        """Each of these words has the kit's value for random arguments."""
        rng, tried = random.Random(7), 0
        for name, full in self.found.items():
            definition = self.definitions.definition(full)
            head = " ".join(" ".join(definition.lines).split())
            kinds = self.arrows(head[head.index(":") + 1:].split(f" {name} ")[0])
            if any(kind.startswith("{") for kind in kinds):
                kinds = [kind for kind in kinds if not kind.startswith("{")]
            arity, _, meaning = self.kit.LIBRARY[name]
            with self.subTest(name):
                for _ in range(TRIED):
                    args = [self.value(rng, kind) for kind in kinds[:arity]]
                    args[:1] = [rng.choice((2, 10, 16))] if name == "digits" else args[:1]
                    theirs = self.definitions.call(f"{full[0]}.{name}", *args)
                    self.assertEqual(self.kit.shown(meaning(*args)), self.kit.shown(theirs), (name, args))
                tried += 1
        self.assertGreaterEqual(tried, 45)


class Evaluating(Case):
    @classmethod
    def prepare(cls):
        from definitions import claims
        import headline
        import kit
        import quick
        cls.claims, cls.headline, cls.kit, cls.quick = claims, headline, kit, quick
        cls.definitions = claims.Definitions()


@needs("rt")
class Clap(Evaluating):
    """The words of clap in dev/kit.py have the values of the kit's equations. These are evaluated with any text as the
    value of an option, as our options have it."""

    LINES = 40
    # A value of an option: what clap makes of its text, and its faults.
    ANY_TEXT = (("Walk", "reading_of (parser_of_value a.parser)", "0"),
                ("Kinds", "if accepts ignore_case parser text then [] else refused_kind parser ∷ []", "[]"))

    @classmethod
    def prepare(cls):
        super().prepare()
        from specs import Module
        cls.kit.LIBRARY |= {"chars": (1, "the characters", lambda text: tuple(map(ord, bytes(text).decode()))),
                            "encode_utf8": (1, "the bytes of a character", lambda char: tuple(chr(char).encode()))}
        cls.theirs = cls.claims.Definitions()
        home = pathlib.Path(subprocess.check_output(["rt", "doc"], text=True).strip()).parent
        for path in home.glob("rattle/clap/specs/*.antt"):
            text = path.read_text(encoding="utf-8")
            for name, old, short in cls.ANY_TEXT:
                text = text.replace(old, short) if path.stem == name else text
            # Before the file names constructors so, variables have these names.
            front, declared, rest = text.partition("pub data Step")
            front = re.sub(r"(?<![\w.])(value|next)(?!\w)", r"\1_", front) if declared else front
            key = f"clap/{path.stem}"
            cls.theirs.modules[key] = Module(key, path, front + declared + rest).read()

    def say(self, kinds):
        """Returns what the definitions make of kinds of errors: whether there is one, help, and a mistake."""
        told = (self.definitions.call(f"flow_files/Answer.{name}") for name in ("is_help", "is_mistake"))
        return [bool(kinds), *(any(map(is_so, kinds)) for is_so in told)]

    @staticmethod
    def entries(found):
        """Returns the name of a subcommand, and the values of its arguments."""
        return [(part.f_0, {row.f_id: tuple(row.f_values) for row in part.f_1}) for part in found.args]

    def compare(self, rng, app, has_help, lines):
        ours, theirs = (all.call(app) for all in (self.definitions, self.theirs))
        if has_help:
            ours, theirs = (a.updated(f_top=a.f_top.updated(f_disable_help_subcommand=False)) for a in (ours, theirs))
        for line in lines:
            line = rng.choice((line, [*line, *line[1:3]], inputs.damaged_words(rng, line)))
            words = tuple(map(tuple, (b"program", *line)))
            if b"\xff" in line:  # which isn't UTF-8
                continue
            faults = self.kit.fault_of(ours, words)
            self.assertEqual(self.say(faults), self.say(self.theirs.call("clap/Faults.fault_of", theirs, words)), line)
            try:
                found = self.kit.divided(ours, words)
            except self.kit.Refusal:
                self.assertTrue(faults, line)
                continue
            wanted = self.theirs.call("clap/Simple.subcommand_of", theirs, words)
            self.assertEqual(self.entries(found), self.entries(wanted), line)

    @rows((False,), (True,))
    def test_flowlabel(self, has_help):
        rng = random.Random(1)
        line = lambda: rng.choice((inputs.report_words(rng, inputs.LABELS), inputs.text_words(rng), inputs.CHECK))
        lines = [line() for _ in range(self.LINES)] + [[word] for word in inputs.WORDS]
        self.claims.with_stack(lambda: self.compare(rng, "flowlabel/Definition.flowlabel_app", has_help, lines))

    def test_many(self):
        rng = random.Random(2)
        lines = [inputs.many_words(rng) + [b"f"] * rng.randrange(3) for _ in range(self.LINES)]
        self.claims.with_stack(lambda: self.compare(rng, "flow_many/Definition.many_app", False, lines))


class Quick(Evaluating):
    """dev/quick.py has the values of the equations."""

    def both(self, full):
        """Returns the quick function, which must be in use, and that of the equations."""
        used = self.definitions.function(*full)
        self.assertIs(used.func, self.quick.QUICK[full][0])
        return used, used.args[1]

    def compare(self, full, *args):
        used, plain = self.both(full)
        found = self.claims.with_stack(lambda: (used(*args), plain(*args)))
        self.assertEqual(*map(self.kit.shown, found))

    def test_all_are_compared(self):
        self.assertEqual({name for _, name in self.quick.QUICK}, {
            "row_groups", "in_order", "map_label", "settled_label", "list_label", "has_prefix", "column_width"})

    @rows((False,), (True,))
    def test_groups(self, is_sorted):
        rng, made = random.Random(1), self.definitions.call
        labels = self.kit.NONE, self.kit.some((65,)), self.kit.some(())
        row = lambda: self.kit.Record(f_version=made("prefix_keys/Block.V4"), f_src=rng.randrange(3), f_sport=rng.randrange(4))
        self.compare(("flow_uniq/Grouped", "row_groups"), lambda address: labels[address.f_1],
                     (made("flow_uniq/Key.Number")(made("flow_rows/Numbers.SourcePort")), made("flow_uniq/Key.SourceLabel")),
                     is_sorted,
                     tuple(row() for _ in range(150)))

    @rows((lambda a, b: a < b,), (lambda a, b: a <= b,), (lambda a, b: a // 4 < b // 4,))
    def test_in_order(self, is_less):
        rng = random.Random(2)
        self.compare(("pmap_model/Sorting", "in_order"), self.kit.curried(is_less, 2),
                     tuple(rng.randrange(60) for _ in range(200)))

    def test_map(self):
        rng = random.Random(3)
        spans = [sorted((rng.randrange(300), rng.randrange(300)), reverse=rng.random() < 0.1) for _ in range(90)]
        m = self.kit.Record(f_version=self.definitions.call("prefix_keys/Block.V4"), f_fallback=(90,), f_mappings=tuple(
            self.kit.Record(f_low=low, f_high=high, f_label=(65 + rng.randrange(9),)) for low, high in spans))
        for address in range(310):
            self.compare(("pmap_model/MapModel", "map_label"), m, address)
        for bits in range(33):
            for number in {0, 1, 2 ** bits - 1, 7 % 2 ** bits, 37 % 2 ** bits, 290 >> 32 - bits}:
                self.compare(("pmap_model/MapModel", "settled_label"), m, bits, number)

    def test_list(self):
        rng = random.Random(4)
        entry = lambda: self.kit.Record(f_start=rng.randrange(2 ** 32) & rng.choice((2 ** 32 - 1, 7 << 24, 3 << 30)),
                                        f_bits=rng.choice((0, 1, 2, 5, 8, 9, 32, 33)), f_label=(65 + rng.randrange(9),))
        entries = tuple(entry() for _ in range(200))
        l = self.kit.Record(f_version=self.definitions.call("prefix_keys/Block.V4"), f_prefixes=entries)
        for address in [0, 2 ** 32, *(each.f_start for each in entries), *(rng.randrange(2 ** 32) for _ in range(50))]:
            self.compare(("pmap_model/ListModel", "list_label"), l, address)
        long = self.kit.added(self.kit.added(entries, (entry(),)), (entry(),))
        for each in (*entries[:9], entry()):
            self.compare(("pmap_text/Reading", "has_prefix"), long, each.f_start, each.f_bits)

    def test_columns(self):
        rng = random.Random(5)
        line = lambda: tuple((65,) * rng.randrange(9) for _ in range(rng.randrange(1, 5)))
        for lines in (tuple(line() for _ in range(200)) for _ in range(3)):
            for index in (0, 3, 1, 4, 0):
                self.compare(("pmap_print/Table", "column_width"), lines, index)

    def test_changed(self):
        """With other equations these are evaluated."""
        module = "pmap_model/MapModel"
        text = self.definitions.modules[module].text
        self.definitions.replace(module, text.replace("nat_le a m.high", "nat_lt a m.high"))
        used = self.definitions.function(module, "map_label")
        self.definitions.restore(module)
        self.assertFalse(hasattr(used, "func"))


class Headlines(Evaluating):
    """dev/evaluate --headline evaluates the contract on the run."""

    LINES = ("label --pmap {}regions.txt 10.1.2.3", "label --list {}offices-list.txt 10.0.0.9",
             "cat --pmap {}regions.txt", "shrink --pmap {}offices.txt", "shrink --certificate --pmap {}customers.txt",
             "shrink --certificate --compact --pmap {}customers.txt", "info {}softflowd.ipfix",
             "rows --pmap {}customers.txt --protocol 6 {}softflowd.ipfix",
             "uniq --fields sip,dst-label --sort-output --pmap {}customers.txt {}softflowd-milli.ipfix",
             "uniq --fields proto --columns {}softflowd-biflow.ipfix", "recert --cert certificate", "label",
             "cat --pmap {}broken.txt", "rows --pmap {}broken.txt {}softflowd.ipfix", "info nothing")

    @rows(*((line,) for line in LINES))
    def test_holds(self, line):
        """It is true of the run, and with a byte more or another one it isn't."""
        import runs
        write("certificate", self.evaluated("shrink", "--certificate", "--pmap", ROOT / "examples/offices.txt"))
        words = [word.encode() for word in line.replace("{}", f"{ROOT}/examples/").split()]
        found = self.claims.with_stack(lambda: self.wrong(runs, words))
        self.assertEqual(found[0], "")
        self.assertNotIn("", found[1:])

    @rows(("messages {}softflowd.ipfix {}softflowd-biflow.ipfix",), ("sum --by day --columns {}softflowd.ipfix",),
          ("sum --fields dst-label --pmap {}customers.txt {}softflowd.ipfix {}softflowd.ipfix",),
          ("sum --fields proto --pmap {}broken.txt {}softflowd.ipfix",), ("messages {}softflowd.ipfix nothing",),
          ("messages {}softflowd.ipfix {}broken.txt {}softflowd.ipfix",), ("sum --fields proto {}broken.txt",))
    def test_holds_of_many(self, line):
        """It is true of a run of flowlabel-many, and false if the run has another text or another fault."""
        import runs
        words = [word.encode() for word in line.replace("{}", f"{ROOT}/examples/").split()]
        found = self.claims.with_stack(lambda: self.wrong_of_many(runs, words))
        self.assertEqual(found[0], "")
        self.assertNotIn("", found[1:])

    def evaluated(self, *words):
        return run(EVALUATE, *words).stdout

    def wrong_of_many(self, runs, words):
        """Returns what is wrong with a run of flowlabel-many, and with runs that end otherwise."""
        made = runs.FlowlabelMany(self.definitions, words, runs.content)
        outcome = made.outcome()
        ends = [outcome]
        if self.kit.is_ok(outcome):
            text = tuple(outcome.args[0])
            ends += map(self.kit.ok, (text[:-1], text + text[-1:], text[:-2] + (text[-2] ^ 1,) + text[-1:]))
        else:
            fault, = outcome.args
            ends += [self.kit.err(made.fault(self.kit.own_name(fault.tag), name, *fault.args[1:]))
                     for name in ((120,), made.named_files[-1] + (120,))]
        return [self.headline.Headline(self.definitions, made).wrong(end) for end in ends]

    def wrong(self, runs, words):
        """Returns what is wrong with a run, and with runs that end otherwise."""
        made = runs.Flowlabel(self.definitions, words, runs.content)
        outcome = made.outcome()
        found = [self.headline.Headline(self.definitions, made).wrong(outcome)]
        if self.kit.is_ok(outcome):
            text, = outcome.args
            text = tuple(text)
            for other in (text[:-1], text + text[-1:], text[:-2] + (text[-2] ^ 1,) + text[-1:]):
                end = self.headline.Headline(self.definitions, made)
                found.append(end.wrong(self.kit.ok(other)))
                with end.witnesses():
                    is_true = made.call("Headline.IsHeadline", made.command, made.of_all(made.contents), other)
                found.append("" if is_true else "IsHeadline")
        elif made.names:
            fault, = outcome.args
            other = made.fault(self.kit.own_name(fault.tag), (120,), *fault.args[1:])
            found.append(self.headline.Headline(self.definitions, made).wrong(self.kit.err(other)))
        return found


class Statuses(Case):
    """What can't be evaluated ends with 125 and one line; a run ends with its own status."""

    DEEP, BIG = "1 + (" * 250 + "1" + ")" * 250, "1" * 5000

    @rows(("usage: dev/evaluate", ), ("usage", "--definition"), ("usage", "--headline"),
          ("there is no module x", "--definition", "x"),
          ("0x_ has no meaning", "--definition", "prefix_keys/Block.width_of", "0x_"),
          ("is a type", "--definition", "prefix_keys/Text.AddressOf"),
          ("is a type", "--definition", "prefix_keys/Text.address_of", "Version"),
          ("a term is too deep", "--definition", "prefix_keys/Block.block_number", "32", "0", DEEP),
          ("a number is too great", "--definition", "prefix_keys/Block.block_number", "32", "0", "2 ^ (2 ^ 40)"),
          ("No such file", "--definition", "ipfix_read/Messages.file_reading", "@nothing"),
          ("Is a directory", "info", "."), ("has no len", "--definition", "pmap_text/Reading.lines_of", "3"))
    def test_cannot(self, why, *words):
        ended = run(EVALUATE, *words)
        self.assertEqual(ended.returncode, 125)
        self.assertEqual(ended.stdout, b"")
        self.assertRegex(ended.stderr.decode(), rf"\Adev/evaluate: .*{re.escape(why)}.*\n\Z")

    def test_great_number(self):
        ended = run(EVALUATE, "--definition", "prefix_keys/Block.block_number", "32", "32", self.BIG)
        self.assertEqual(ended.stdout.decode(), self.BIG + "\n")

    @rows((">&-", "standard output: Bad file descriptor"), ("> /dev/full", "standard output: No space left on device"))
    def test_output(self, to, why):
        ended = subprocess.run(["sh", "-c", f"'{EVALUATE}' info /dev/null {to}"], stderr=subprocess.PIPE, check=False)
        self.assertEqual((ended.returncode, ended.stderr.decode()), (125, f"dev/evaluate: {why}\n"))

    def test_one_name_for_two_files(self):
        """Each file is read once: the map has all bytes, and the File none."""
        words = [EVALUATE, "uniq", "--fields", "sip", "--pmap", "/dev/stdin", "/dev/stdin"]
        ended = subprocess.run(words, input=b"x", stdout=subprocess.PIPE, stderr=subprocess.PIPE, check=False)
        self.assertEqual((ended.returncode, ended.stderr), (1, b"flowlabel: /dev/stdin: M1 BadStatement at 1\n"))


class Sized:
    """A map of this many mappings, and a File of this many messages of 14 rows, with limits on CPU seconds and memory in
    kB."""

    @rows(("label --pmap map.txt 10.1.2.3",), ("cat --pmap map.txt",), ("info day.ipfix",),
          ("uniq --fields sip,dport,dst-label --sort-output --pmap map.txt day.ipfix",))
    def test_size(self, line):
        rng = random.Random(5)
        write("map.txt", "".join(f"{rng.randrange(1, 224)}.{rng.randrange(256)}.{rng.randrange(256)}.0/"
                                 f"{rng.randrange(8, 25)} L{rng.randrange(250)}\n" for _ in range(self.mappings)))
        elements = ((8, 4), (12, 4), (7, 2), (11, 2), (2, 4), (1, 4), (210, 80))
        flow = lambda: bytes((10, 0, *rng.randbytes(8), 1, rng.randrange(4), *rng.randbytes(8))) + bytes(80)
        messages = (message(sets(256, b"".join(flow() for _ in range(14))), number=14 * at)
                    for at in range(self.messages))
        write("day.ipfix", message(template(256, *elements)) + b"".join(messages))
        with open("output", "wb") as output, subprocess.Popen([EVALUATE, *line.split()], stdout=output) as process:
            _, status, used = os.wait4(process.pid, 0)
            process.returncode = os.waitstatus_to_exitcode(status)
        self.assertEqual(process.returncode, 0)
        with open("output", "rb") as output:
            self.assertEqual(output.read(), run(PROGRAM, *line.split()).stdout)
        self.assertLess(used.ru_maxrss, self.most_memory, "kB")
        if os.environ.get("QUIET") == "1":
            self.assertLess(used.ru_utime, self.most_seconds)


class Size(Sized, Case):
    """Files of 50 kB with 500 rows."""
    mappings, messages, most_memory, most_seconds = 1_300, 36, 60_000, 2


class LargeSize(Sized, Case):
    """Files of half a megabyte with 5,000 rows, a quarter of what takes 60 seconds of CPU time and 1 GB at most."""
    is_long = True
    mappings, messages, most_memory, most_seconds = 13_000, 358, 250_000, 15
