"""Makes changes of a definition: texts that say something else. It is for dev/definitions.

A definition is the text of a block of specs/: the line with its type, and then its equations, or the fields of a record.
Each change has a name, such as `255 → 256`, and is the whole text of the block, changed in one place. Changes keep the
types of expressions where the text shows them, but nothing here checks types.
"""

import collections
import re

import specs
from specs import NUMBER, OPERATORS, TOKEN

# Operators with how tightly they bind. `=`, `.` and `:` separate.
BINDS = {sign: strength for sign, (strength, _) in OPERATORS.items()}
# Those that group to the right.
RIGHT = {sign for sign, (_, side) in OPERATORS.items() if side == "right"}
BREAKS = {"if", "then", "else", "let", "in", "=", ",", ";", "λ"}
# Words that are exchanged for one another: one for the other, in both directions.
PAIRS = [("nat_le", "nat_lt"), ("≤", "<"), ("&&", "||"), ("true", "false"), ("+", "-"), ("*", "+"),
         ("list_all", "list_any"), ("before_first", "after_first"), ("take", "drop"), ("first_of", "last_of"), ("max", "min"),
         ("is_some", "is_none"), ("first_word", "after_word"), ("forward", "back"), ("Flow", "Options"), ("V4", "V6"),
         ("events_of", "records_of"), ("map_label", "list_label"), ("chosen_half", "side_half"),
         ("row_titles", "label_titles"), ("position_or_len", "suffix_len")]
# Words of the prelude that a change may bring in, and words that come from the same module as others.
PRELUDE = {"None", "nat_le", "nat_lt", "not", "true", "false", "[]", "+", "-", "*", "%", "==", "⊤", "codes", "drop", "length", "min",
           "option_map", "slice_index", "take", "unwrap_or", "if◌then◌else◌"}
BESIDE = {"block_number": "width_of", "width_of": "first_of"}
# Names of variables that are exchanged if an equation has both.
VARIABLES = [("lower", "upper"), ("low", "high"), ("first", "last"), ("first", "second"), ("front", "back"), ("front", "rest"),
             ("old", "new")]
# Fields that are exchanged for one another, each for the next one.
FIELDS = [("src", "dst"), ("sport", "dport"), ("packets", "octets", "records"), ("start_ms", "end_ms"), ("low", "high"),
          ("in_if", "out_if"), ("src_as", "dst_as"),
          ("start", "bits"), ("protocol", "flags"), ("mappings", "prefixes"), ("0", "1"),
          ("domain", "sequence", "export_time"), ("lower", "upper"), ("map", "list", "certificate", "flows"), ("failed", "stopped"), ("number", "length")]


def next_in(groups, word):
    """Returns the words that may take the place of a word."""
    found = []
    for group in groups:
        if word in group:
            found.append(group[(group.index(word) + 1) % len(group)])
    return list(dict.fromkeys(found))


class Part:
    """A part of an equation or of a field: tokens with their places, those of the right side from `begin` on."""

    def __init__(self, text, start, end):
        self.text = text
        self.tokens = [(match[1], *match.span(1)) for match in TOKEN.finditer(text, start, end) if match[1]]
        self.mates, opened, self.hidden = {}, [], set()
        for index, (word, _, _) in enumerate(self.tokens):
            if word in "({":
                opened.append(index)
            elif word in ")}" and opened:
                first = opened.pop()
                self.mates[first], self.mates[index] = index, first
                # Implicit arguments say nothing.
                before = self.mates.get(first - 1, first - 1)
                if word == "}" and "record" not in (self.word(before), self.word(before - 1)):
                    self.hidden.update(range(first, index + 1))

    def places(self, begin):
        """Returns the indices of the tokens from one on, without those of implicit arguments."""
        return [index for index in range(begin, len(self.tokens)) if index not in self.hidden]

    def word(self, index):
        return self.tokens[index][0] if 0 <= index < len(self.tokens) else None

    def atom_after(self, index):
        """Returns the index after the atom that begins at an index, or None."""
        word = self.word(index)
        if word is None or word in BINDS or word in BREAKS or word in ")}" or word.endswith(".") and self.word(index - 1) == "λ":
            return None
        if word == "record":
            after = self.atom_after(index + 1) if self.word(index + 1) != "{" else index + 1
            return self.mates[after] + 1 if after in self.mates else None
        end = self.mates[index] + 1 if word in "({" else index + 1
        # A projection such as `).0` belongs to the atom.
        while self.word(end) is not None and self.word(end).startswith(".") and self.tokens[end][1] == self.tokens[end - 1][2]:
            end += 1
        return end

    def right_end(self, index, binds):
        """Returns the index after the right operand of the operator at an index."""
        at = index + 1
        while at < len(self.tokens):
            word = self.word(at)
            if word in ")}" or word in ("then", "else", "in", ",", ";"):
                break
            if word in ("λ", "if", "let"):
                return self.open_end(at)
            if word in BINDS and (BINDS[word] < binds or BINDS[word] == binds and word not in RIGHT):
                break
            at = self.mates[at] + 1 if word in "({" else at + 1
        return at

    def open_end(self, index):
        """Returns the index after an expression that extends as far as it can, such as that of a λ."""
        depth, at = 0, index
        while at < len(self.tokens):
            word = self.word(at)
            if word in ")}" or word in (",", ";"):
                break
            if word == "if":
                depth += 1
            if word == "then" and depth == 0 or word == "in" and self.lets(index, at) == 0:
                break
            if word == "else":
                if depth == 0:
                    break
                depth -= 1
            at = self.mates[at] + 1 if word in "({" else at + 1
        return at

    def lets(self, index, at):
        return sum(1 for here in range(index, at) if self.word(here) == "let")

    def left_start(self, index, binds):
        """Returns the index at which the left operand of the operator at an index begins."""
        at = index - 1
        while at >= 0:
            word = self.word(at)
            if word in "({" or word in BREAKS or word.endswith(".") and len(word) > 1 and self.is_binder(at):
                break
            if word in BINDS and (BINDS[word] < binds or BINDS[word] == binds and word in RIGHT):
                break
            at = self.mates[at] - 1 if word in ")}" else at - 1
        return at + 1

    def is_binder(self, index):
        """Whether the word ends the names that a λ binds."""
        at = index - 1
        while at >= 0 and self.word(at) != "λ" and re.fullmatch(r"[\w'’]+", self.word(at)):
            at -= 1
        return self.word(at) == "λ"

    def is_bound(self, index):
        """Whether the word is a name in `(name name : type)`."""
        while self.word(index) is not None and re.fullmatch(r"[\w'’]+", self.word(index)):
            index += 1
        return self.word(index) == ":"

    def is_in_type(self, index):
        """Whether the word is in the brackets of a type such as `List (A × B)`, or in the type of a name after `let`."""
        let = next((at for at in range(index, -1, -1) if self.word(at) == "let"), None)
        if let is not None and self.word(let + 2) == ":" and "=" not in map(self.word, range(let, index)):
            return True
        return any(first < index < last and self.word(first - 1) in ("List", "Option")
                   for first, last in self.mates.items())

    def piece(self, start, end):
        """Returns the text of the tokens from one index to another."""
        return self.text[self.tokens[start][1]:self.tokens[end - 1][2]] if start < end else ""

    def replaced(self, start, end, new):
        """Returns the whole text with other words for the tokens from one index to another."""
        return self.text[:self.tokens[start][1]] + new + self.text[self.tokens[end - 1][2]:]


def shown(text):
    """Returns a text on one line, shortened."""
    text = " ".join(text.split())
    return text if len(text) <= 60 else text[:40] + " .. " + text[-15:]


def number_changes(part, begin):
    for index in part.places(begin):
        word = part.word(index)
        if not NUMBER.fullmatch(word) or part.word(index - 1) in ("Type", "{") and part.word(index - 2) in ("Unit", "tt", "Type"):
            continue
        if part.word(index - 1) == "Type":
            continue
        value = int(word.replace("_", ""), 0)
        for other in (value + 1, value - 1):
            if other >= 0:
                yield f"{word} → {other}", part.replaced(index, index + 1, str(other))


def word_changes(part, begin):
    for index in part.places(begin):
        word = part.word(index)
        for other in dict.fromkeys([b if word == a else a for a, b in PAIRS if word in (a, b)]):
            yield f"{word} → {other}", part.replaced(index, index + 1, other)
        for other in [b if word == a else a for a, b in VARIABLES if word in (a, b)]:
            if not part.is_bound(index) and any(part.word(here) == other for here in range(len(part.tokens))):
                yield f"{word} → {other}", part.replaced(index, index + 1, other)
        parts = word.split(".")
        if word[0] == '"' or len(parts) < 2:
            continue
        for place in range(1, len(parts)):
            for other in next_in(FIELDS, parts[place]):
                new = ".".join([*parts[:place], other, *parts[place + 1:]])
                yield f"{word} → {new}", part.replaced(index, index + 1, new)


def condition_changes(part, begin):
    """Without the condition of an `if`, with one branch or the other."""
    for index in part.places(begin):
        if part.word(index) != "if":
            continue
        end = part.open_end(index)
        depth, then, other = 0, None, None
        at = index + 1
        while at < end:
            word = part.word(at)
            if word == "if":
                depth += 1
            elif word == "then" and depth == 0 and then is None:
                then = at
            elif word == "else":
                if depth == 0:
                    other = at
                    break
                depth -= 1
            at = part.mates[at] + 1 if word in "({" else at + 1
        if then is None or other is None:
            continue
        condition = shown(part.piece(index + 1, then))
        yield f"if {condition}: always", part.replaced(index, end, f"({part.piece(then + 1, other)})")
        yield f"if {condition}: never", part.replaced(index, end, f"({part.piece(other + 1, end)})")


def operand_changes(part, begin):
    """One operand alone, or the two exchanged."""
    for index in part.places(begin):
        word = part.word(index)
        if word not in ("&&", "||", "++", "+", "-", "*", "/", "%", "×", "⊎", "==", "≡", "∷", ">>="):
            continue
        start, end = part.left_start(index, BINDS[word]), part.right_end(index, BINDS[word])
        if start >= index or end <= index + 1 or start < begin:
            continue
        left, right = part.piece(start, index), part.piece(index + 1, end)
        if word in ("&&", "||", "++", "+", "-", "*", "/", "%", "⊎", "×"):
            # Without a part of a type there is no type.
            if not (word == "×" and (part.is_in_type(index) or re.fullmatch(r"\([\w' ]+ : .*\)", left, re.S))):
                yield f"{shown(left)} {word} ..: without the first", part.replaced(start, end, right)
                yield f".. {word} {shown(right)}: without the second", part.replaced(start, end, left)
        if word in ("++", "-", "/", "%"):
            yield f"{shown(left)} {word} {shown(right)}: exchanged", part.replaced(start, end, f"({right}) {word} ({left})")
        if word == "==" and right != "0":
            yield f"{shown(left)} == {shown(right)} → nat_le", part.replaced(start, end, f"nat_le ({left}) ({right})")
        if word == "∷" and part.word(index + 1) is not None:
            yield from item_changes(part, index, start, end)


def item_changes(part, index, start, end):
    """A list without an item, or with two of its items exchanged."""
    left = part.piece(start, index)
    rest = index + 1
    if part.word(rest) not in ("[]",) or start > 0:
        yield f"{shown(left)} ∷ ..: without it", part.replaced(start, end, part.piece(rest, end))
    second = rest
    while second < end and part.word(second) != "∷":
        second = part.mates[second] + 1 if part.word(second) in "({" else second + 1
    if second < end:
        other = part.piece(rest, second)
        if other != left:
            yield f"{shown(left)} ∷ {shown(other)}: exchanged", part.replaced(start, second, f"{other} ∷ {left}")


def call_changes(part, begin):
    """`not` left out, the second argument of `filter` and of an order alone, and alternatives exchanged."""
    for index in part.places(begin):
        word = part.word(index)
        first = part.atom_after(index + 1)
        second = part.atom_after(first) if first else None
        if word == "not" and first:
            yield f"not {shown(part.piece(index + 1, first))}: without not", part.replaced(index, index + 1, "")
        if word in ("filter", "in_order", "flat_map", "map", "trim_start", "reverse") and second and word in ("filter", "in_order"):
            yield f"{word}: without it", part.replaced(index, second, part.piece(first, second))
        if word in ("trim_start", "compact", "compacted") and first:
            yield f"{word}: without it", part.replaced(index, first, part.piece(index + 1, first))
        if word in ("option_or", "nat_le", "nat_lt", "bytes_eq", "same_kind", "Takes", "Writes", "gap_address") and second:
            one, other = part.piece(index + 1, first), part.piece(first, second)
            if word in ("option_or", "nat_le", "nat_lt", "Takes"):
                yield f"{word} {shown(one)} {shown(other)}: exchanged", part.replaced(index + 1, second, f"{other} {one}")
            if word == "option_or":
                yield f"option_or: {shown(one)} alone", part.replaced(index, second, one)
                yield f"option_or: {shown(other)} alone", part.replaced(index, second, other)
        if word == "Some" and first:
            yield f"Some {shown(part.piece(index + 1, first))} → None", part.replaced(index, first, "None")
        if word == "bytes_eq" and second:
            yield f"bytes_eq .. {shown(part.piece(first, second))}: exchanged for its opposite", part.replaced(index, second, f"(not ({part.piece(index, second)}))")


def record_changes(part, begin):
    """A record that differs from another one without one of the differences."""
    for index in part.places(begin):
        after = part.atom_after(index + 1) if part.word(index) == "record" and part.word(index + 1) != "{" else None
        if after is None or part.word(after) != "{":
            continue
        at = after + 1
        while at < part.mates[after]:
            end = at
            while end < part.mates[after] and part.word(end) != ";":
                end = part.mates[end] + 1 if part.word(end) in "({" else end + 1
            field = part.word(at)
            stop = min(end + 1, part.mates[after])
            yield f"{field} = ..: without it", part.replaced(at, stop, "")
            at = end + 1


def text_changes(part, begin):
    """A string without its last byte, or exchanged for the next one."""
    texts = [index for index in range(begin, len(part.tokens)) if part.word(index).startswith('"')]
    for number, index in enumerate(texts):
        word = part.word(index)
        if len(word) > 2:
            cut = word[:-3] + '"' if word[-3:-1] in ("\\n", "\\t", "\\r") else word[:-2] + '"'
            yield f"{word} → {cut}", part.replaced(index, index + 1, cut)
        if number + 1 < len(texts):
            other = texts[number + 1]
            if part.word(other) != word:
                text = part.replaced(other, other + 1, word)
                begin_at, end_at = part.tokens[index][1:]
                yield f"{word} and {part.word(other)}: exchanged", text[:begin_at] + part.word(other) + text[end_at:]


def constructor_changes(part, begin, variants):
    """A constructor without arguments exchanged for the next one of its type."""
    for index in part.places(begin):
        word = part.word(index)
        for group in variants:
            if word in group and len(group) > 1:
                other = group[(group.index(word) + 1) % len(group)]
                yield f"{word} → {other}", part.replaced(index, index + 1, other)


def variable_changes(part, begin, kinds):
    """A variable exchanged for another one of the same type."""
    for index in part.places(begin):
        word, *rest = part.word(index).split(".")
        if word in kinds and not (part.word(index + 1) == "=" or part.word(index - 1) == "λ"):
            for other, kind in kinds.items():
                if other != word and kind == kinds[word]:
                    new = ".".join([other, *rest])
                    yield f"{part.word(index)} → {new}", part.replaced(index, index + 1, new)


def read(text):
    """Returns the definitions of a module, by their names."""
    return specs.Module("", None, text).read().definitions


def split_arrows(kind):
    """Returns the types of a function's arguments, from the text of its type."""
    kind = re.sub(r"^\s*((\{[^}]*\}\s*)+→\s*)+", "", kind)
    depth, pieces, here = 0, [], ""
    for letter in kind:
        depth += letter in "({"
        depth -= letter in ")}"
        if letter == "→" and depth == 0:
            pieces.append(here.strip())
            here = ""
        else:
            here += letter
    return pieces


def atoms(part, start, end):
    """Returns the texts of the atoms between two tokens, such as the patterns of an equation."""
    found = []
    while start < end:
        after = part.mates[start] + 1 if part.word(start) in ("(", "{") else start + 1
        found.append(part.piece(start, after))
        start = after
    return found


class Definition:
    """A definition: its block in the text of a module."""

    def __init__(self, text, name, variants):
        definition = read(text)[name]
        self.text, self.name, self.variants, self.kind = text, name, variants, definition.kind
        self.start, self.end = start, end = definition.span
        places = definition.spans(definition.depth) if self.kind == "function" else []
        head = " ".join(text[start:places[0][0] if places else end].split())
        self.result = head.partition(" : ")[2].rpartition("→")[2].strip()
        self.types = split_arrows(head.partition(" : ")[2]) if self.kind == "function" else []
        self.parts = []
        # A name for a type says nothing.
        if self.kind == "function" and ("Type" not in self.result or any("Type" not in kind for kind in self.types)):
            for first, last in places:
                part = Part(text, first, last)
                equal = next((i for i, (word, _, _) in enumerate(part.tokens) if word == "=" and self.is_top(part, i)), None)
                if equal is not None:
                    self.parts.append((part, equal + 1))
        elif self.kind == "record":
            self.fields(text, definition)

    def is_top(self, part, index):
        depth = 0
        for word, _, _ in part.tokens[:index]:
            depth += word in "({"
            depth -= word in ")}"
        return depth == 0

    def fields(self, text, definition):
        # A record of values says nothing: it has no parameters but types.
        is_relation = re.search(r"\([\w' ]+ : (?!Type)", text[self.start:self.end].partition(" where")[0])
        for first, last in definition.spans(definition.depth + 2) if is_relation else []:
            part = Part(text, first, last)
            colon = next(i for i, (word, _, _) in enumerate(part.tokens) if word == ":")
            self.parts.append((part, colon + 1))

    def patterns(self, part, begin):
        return atoms(part, 1, begin - 1) if "◌" not in self.name else []

    def changes(self):
        """Makes all changes: names with the changed texts of the whole module. A name that occurs again has its number."""
        counts, before = {}, words_of(self.text[self.start:self.end])
        for name, text in self.all_changes():
            counts[name] = counts.get(name, 0) + 1
            new = words_of(text[self.start:self.end + len(text) - len(self.text)]) - before
            yield name if counts[name] == 1 else f"{name} ({counts[name]})", with_imports(text, new)

    def all_changes(self):
        seen = {self.text}
        for part, begin in self.parts:
            kinds = self.kinds(part, begin)
            for name, text in (*number_changes(part, begin), *word_changes(part, begin), *condition_changes(part, begin),
                               *operand_changes(part, begin), *call_changes(part, begin), *record_changes(part, begin), *text_changes(part, begin),
                               *constructor_changes(part, begin, self.variants), *variable_changes(part, begin, kinds)):
                if text not in seen:
                    seen.add(text)
                    yield name, text
        for name, text in (*self.equation_changes(), *self.field_changes(), *self.constant_changes()):
            if text not in seen:
                seen.add(text)
                yield name, text

    def constant_changes(self):
        """The right side of an equation exchanged for the least that its type allows."""
        if self.kind != "function":
            return
        values = next((v for k, v in (("List", ["[]"]), ("Line", ["[]"]), ("Text", ["[]"]), ("Bool", ["true", "false"]), ("ℕ", ["0"]), ("Option", ["None"]),
                       ("Type 0", ["Unit {0}"])) if self.result.startswith(k)), [])
        for part, begin in self.parts:
            left = sum(1 for pattern in self.patterns(part, begin) if not pattern.startswith("{"))
            for value in values:
                value = "λ _. " * (len(self.types) - left) + value
                yield f"{shown(part.piece(0, begin - 1))} = {value}", part.replaced(begin, len(part.tokens), value)

    def kinds(self, part, begin):
        """Returns the types of the variables that the equation's patterns are."""
        if self.kind != "function":
            return {}
        patterns = [p for p in self.patterns(part, begin) if not p.startswith("{")]
        return {p: kind for p, kind in zip(patterns, self.types) if re.fullmatch(r"[a-zA-Z_]['\w]*", p) and p != "_"}

    def equation_changes(self):
        """Without an equation that a later one covers, or with the right sides of two exchanged."""
        if self.kind != "function" or "◌" in self.name:
            return
        lefts = [self.patterns(part, begin) for part, begin in self.parts]
        for number, (part, begin) in enumerate(self.parts):
            left = shown(part.piece(0, begin - 1))
            if any(covers(other, lefts[number]) for other in lefts[number + 1:]):
                yield f"{left} = ..: without it", part.replaced(0, len(part.tokens), "")
            if number + 1 < len(self.parts):
                other, start = self.parts[number + 1]
                mine, its = part.piece(begin, len(part.tokens)), other.piece(start, len(other.tokens))
                if names_in(mine, lefts[number]) <= variables(lefts[number + 1]) and names_in(its, lefts[number + 1]) <= variables(lefts[number]):
                    text = other.replaced(start, len(other.tokens), mine)
                    first, last = part.tokens[begin][1], part.tokens[-1][2]
                    yield f"{left} = ..: the right side of the next", text[:first] + its + text[last:]

    def field_changes(self):
        """Without what a field of a record says. A field that others name is a value, and says nothing."""
        words = [word.split(".")[0] for part, begin in self.parts for word, _, _ in part.tokens[begin:]]
        for part, begin in self.parts if self.kind == "record" else []:
            if part.word(1) not in words:
                yield f"{part.word(1)}: without it", part.replaced(begin, len(part.tokens), "Unit {0}")


def words_of(text):
    return {*specs.lex(text)[:-1]}


def with_imports(text, words):
    """Returns the text of a module that imports words beside those that they take the place of, or from the prelude."""
    for word in sorted(words):
        name = f"◌{word}◌" if word in BINDS else word
        if not (word in BINDS or re.fullmatch(r"[\w\[\]]+", word)) or word.isdigit() or re.search(rf"[{{ ]{re.escape(name)}[,}} ]", imports_of(text)):
            continue
        partners = [b if word == a else a for a, b in PAIRS if word in (a, b)]
        for partner in [*(f"◌{p}◌" if p in BINDS else p for p in partners), *(("Some", "ℕ", "List", "Bool", "map") if word in PRELUDE else ()),
                        *([BESIDE[word]] if word in BESIDE else [])]:
            found = re.search(rf"^use Rattle[\w.]*\.\{{(?:[^}}]*, )?{re.escape(partner)}[,}}]", text, re.M)
            if found:
                text = text[:found.end() - 1] + f", {name}" + text[found.end() - 1:]
                break
    return text


def imports_of(text):
    return "\n".join(re.findall(r"^\s*(?:pub )?use .*$", text, re.M))


def covers(other, these):
    """Whether patterns cover all that these cover."""
    return len(other) == len(these) > 0 and all(a == b or re.fullmatch(r"[a-z_]['\w]*", a) and a not in ("true", "false", "zero", "suc")
                                             for a, b in zip(other, these))


def variables(patterns):
    return set(re.findall(r"(?<![\w.])[a-z_]['\w]*", " ".join(patterns)))


def names_in(text, patterns):
    return set(re.findall(r"(?<![\w.])[a-zA-Z_]['\w]*", text)) & variables(patterns)


def variants_of(text):
    """Returns the groups of constructors that a module knows: of each imported type, and of each type that it imports by an alias."""
    module, by_type = specs.Module("", None, text), collections.defaultdict(list)
    for name, (source, _) in module.names.items():
        if source.endswith(".TheVariants"):
            by_type[source].append(name)
    groups = [*by_type.values()]
    for alias in module.modules:
        names = dict.fromkeys(re.findall(rf"(?<![\w.]){alias}\.[A-Z]\w*", text))
        groups.append([name for name in names if not re.search(rf"\({re.escape(name)} \w", text)])
    return [[n for n in g if not re.search(rf"\({re.escape(n)} [\w(]", text)] for g in groups]


def constant_changes(text, name):
    """Makes the changes of a constant of src/: each number by one, each item left out, and two neighbours exchanged."""
    found = re.search(rf"\bconst {name}: [^=]+ = ([^;]+);", text)
    start, end = found.span(1)
    value = re.sub(r"//[^\n]*", lambda comment: " " * len(comment[0]), found[1])
    for number in re.finditer(r"\b\d+\b", value):
        for other in {int(number[0]) + 1, max(int(number[0]) - 1, 0)} - {int(number[0])}:
            made = value[:number.start()] + str(other) + value[number.end():]
            yield f"{name}, at {number.start()}: {number[0]} → {other}", text[:start] + made + text[end:]
    items = [item.strip() for item in re.findall(r"\((?:[^()]|\([^()]*\))*\)|\w+::\w+", value)]
    for place, item in enumerate(items):
        less = items[:place] + items[place + 1:]
        yield f"{name}: without {item}", text[:start] + f"[{', '.join(less)}]" + text[end:]
        if place + 1 < len(items):
            turned = items[:place] + [items[place + 1], item] + items[place + 2:]
            yield f"{name}: {item} after the next", text[:start] + f"[{', '.join(turned)}]" + text[end:]
