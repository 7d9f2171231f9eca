"""The contract of the program, evaluated on a run: its promise, with the output as a witness."""

import contextlib

from evaluator import Choice, Unknown, filling, minimal_pair, runs_of
from kit import NONE, UNIT, Record, borrowed, is_ok, ok, own_name, pair, some

# What is not evaluated: statements about all lists.
SKIPPED = "IsLeast",
MOST = 16  # how many items of a long list are tried for all


def tried(items, most=MOST):
    """Returns the items of a list, or if there are more than `most` fours of consecutive ones, and the last."""
    count = len(items)
    if count <= most:
        return items
    steps = most // 4 - 1
    places = {min(step * (count - 4) // steps + more, count - 1) for step in range(steps + 1) for more in range(4)}
    return tuple(items[place] for place in sorted(places))


class Headline:
    """Evaluates the contract on a run of a program.

    `IsRunOf` says that the writer took the output, for which `IsHeadline` holds, or that the fault is one
    (`IsFaultOf`), and `EndsAs` says so of flowlabel-many and its Files. `IsReported` says which text goes to which stream. SKIPPED are taken for true. A statement about all
    items of a list is evaluated for some if they are many, and one about all texts that a file may have for a few."""

    def __init__(self, definitions, run):
        self.all, self.run, self.found = definitions, run, {}

    def call(self, name, *args):
        return self.run.call(name, *args)

    def wrong(self, outcome):
        """Returns the first definition that isn't true of the run, or nothing."""
        run, view = self.run, lambda view: view
        result, text, wrong = ok(UNIT) if is_ok(outcome) else outcome, run.seen(outcome), ""
        out = self.written(text.out if is_ok(outcome) else b"")  # which the end doesn't change
        kind = "" if is_ok(outcome) else own_name(outcome.args[0].tag)
        with self.witnesses():
            if kind == "Usage":
                if run.is_text and not self.call("Answer.IsFaultAt", run.texts, outcome.args[0].args[0]):
                    wrong = "IsFaultAt"
            elif run.command is None:
                if not self.call("Opening.CannotOpenFirst", run.opens, run.asked, outcome.args[0]):
                    wrong = "CannotOpenFirst"
            else:
                wrong = run.wrong(self, outcome)
            if not wrong and not run.is_open(outcome) and not run.named(
                    "Ending.IsReported", 7, view, view, result, out, out, self.written(b""), self.written(text.err)):
                wrong = "IsReported"
        return wrong

    def written(self, text):
        """Returns what contracts see of a writer that took a text and was flushed, or that wasn't called."""
        last = self.all.call(f"flow_io/Devices.{'Flush' if text else 'Nothing'}")
        return Record(f_failed=False, f_last_call=last, f_flushes=int(bool(text)), f_taken=tuple(text),
                      f_contents=some(tuple(text)))

    def files(self, outcome):
        """Returns the readers before the run and after it. Those of files after the one with a fault aren't read, and
        don't report what is left, so that these files may have any text."""
        run, roles = self.run, list(vars(self.run.asked))
        last = len(roles)
        if not is_ok(outcome):
            last = self.call("ByFile.turn", self.call("BytesFault.role_of", outcome.args[0].args[1]))
        later = {role for role in run.names if roles.index(role) > last}

        def reader(role, is_read):
            text, is_read = run.contents[role], is_read and role not in later
            left = NONE if role in later else some(() if is_read else text)
            return some(Record(f_name=borrowed(run.names[role]), f_reader=Record(
                f_failed=False, f_returned=text if is_read else (), f_stopped=is_read, f_left=left)))

        texts = [run.contents, *(run.contents | {role: text} for role in later for text in ((), tuple(b"x\n")))]
        self.found["all", "ByFile Text"] = [(run.of_all(each),) for each in texts]
        return [run.of_all({role: reader(role, is_read) for role in run.names}, NONE) for is_read in (False, True)]

    @contextlib.contextmanager
    def witnesses(self):
        """Lets relations that can't be solved have the values of this run, and skips SKIPPED."""
        definitions, before = self.all, {}
        changed = {full: lambda plain: lambda *args: True for full in self.places(*SKIPPED)}
        for name, noted in (("PrintsGroups", self.groups), ("PrintsEachOnce", self.runs),
                            ("IsAsGood", self.labels_of_certificate), ("IsHeadline", self.pair)):
            for full in self.places(name):
                changed[full] = lambda plain, noted=noted: lambda *args: (noted(*args), plain(*args))[1]
        for full, wrapped in changed.items():
            name = definitions.translated(full)
            before[name] = definitions.space[name]
            definitions.space[name] = wrapped(before[name])
        before["word_Contains"] = definitions.space["word_Contains"]
        definitions.space["word_Contains"] = self.contains
        definitions.values.clear()
        definitions.samples = self.samples
        try:
            yield
        finally:
            definitions.space.update(before)
            definitions.values.clear()
            del definitions.samples

    def places(self, *names):
        """Returns the definitions with these names that a run of the program may reach."""
        crates = (*self.run.CRATES, "pmap_cert")
        return [(key, name) for key, module in self.all.modules.items() if key.partition("/")[0] in crates
                for name in names if name in module.definitions]

    def samples(self, sort, kind, count):
        return [(sum(value is None for value in values), filling(values))
                for values in self.found.get((sort, kind), ()) if len(values) == count]

    @staticmethod
    def contains(items, item):
        if type(item) is Unknown:
            raise Choice(item, tried(items))
        return item in items

    def groups(self, fields, is_sorted, columns, labels, rows, outcome):
        """Notes the groups of the rows."""
        part, numbers = (self.all.function("flow_uniq/Key", name) for name in ("key_part", "part_numbers"))
        label = self.all.call("label_lookup/Labelling.label_where", labels)
        found = {}
        for row in rows:
            found.setdefault(tuple(tuple(numbers(part(label, row, field))) for field in fields), []).append(row)
        groups = [found[key] for key in (sorted(found) if is_sorted else found)]
        self.found["some", "List RowView × List RowView"] = [(tuple(pair(g[0], tuple(g[1:])) for g in groups),)]
        places = tried(range(len(groups))) or (0,)
        self.found["all", "ℕ"] = [(i, j) for i in places for j in places]

    def runs(self, labels, outcome):
        """Notes the runs of the labels."""
        runs, width = Unknown(), self.all.call("prefix_keys/Block.width_of", labels.f_version)
        runs_of(self.all, labels.f_label, 0, 2 ** width, runs)
        self.found["some", "List Run"] = [(runs.value,)]

    def pair(self, command, texts, *out):
        """Notes the map of `shrink` with its list and certificate."""
        if own_name(command.tag) == "Shrink":
            m, = self.all.call("pmap_text/Reading.map_reading", texts.f_map).args
            l, c = Unknown(), Unknown()
            minimal_pair(self.all, m, l, c)
            compact = self.all.call("pmap_cert/Compacting.compact", c.value)
            self.found["some", "MapModel, ListModel"] = [(m, l.value)]
            self.found["some", "MapModel, ListModel, CertificateModel"] = [(m, l.value, c.value)]
            self.found["all", "Text"] = [(self.all.call("pmap_cert/CertificateText.certificate_text", each),)
                                         for each in (c.value, compact)]

    def labels_of_certificate(self, command, texts, out):
        """Notes a map that has the labels of a certificate's leaves, and the list of its nodes."""
        c, = self.all.call("pmap_cert/FormatReading.format_reading", texts.f_certificate).args
        c = self.all.call("pmap_cert/CertificateModel.opened_certificate", c)
        width = self.all.call("prefix_keys/Block.width_of", c.f_version)
        mappings = []

        def add(node, bits, number):
            if own_name(node.tag) == "LeafNode":
                size = 2 ** (width - bits)
                mappings.append(Record(f_low=number * size, f_high=(number + 1) * size - 1, f_label=node.args[0]))
            else:
                add(node.args[1], bits + 1, 2 * number)
                add(node.args[2], bits + 1, 2 * number + 1)

        add(c.f_root, 0, 0)
        entries = self.all.call("pmap_cert/Acceptance.entries_of", width, c.f_table, c.f_root, NONE, 0, 0)
        m = Record(f_version=c.f_version, f_name=NONE, f_fallback=mappings[0].f_label, f_mappings=tuple(mappings),
                   f_table=c.f_table)
        l = Record(f_version=c.f_version, f_name=NONE, f_prefixes=entries, f_table=c.f_table)
        self.found["all", "MapModel, ListModel"] = [(m, l)]
