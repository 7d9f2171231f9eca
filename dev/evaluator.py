"""Evaluates the definitions of specs/ over your files: what a command must print, without the program and the prover.

  dev/evaluate COMMAND ARGUMENT..      prints what the definitions give for this command line of flowlabel: standard
                                        output, standard error and the exit status
  dev/evaluate --headline COMMAND ARGUMENT..
                                        also evaluates the contract of the program on this run (dev/headline.py)
  dev/evaluate [--headline] --many COMMAND ARGUMENT..
                                        the same for a command line of flowlabel-many
  dev/evaluate --definition CRATE/MODULE.NAME ARGUMENT..
                                        prints the value of a definition. An argument is a term in the language of the
                                        definitions, such as V4, 32 or '(codes "10.0.0.1")', or @FILE, a file's bytes

For example: dev/evaluate uniq --fields dst-label --pmap examples/customers.txt examples/softflowd.ipfix

It reads crates/*/specs/*.antt as they are, translates each equation into Python, and calls the result. It runs no code
of the prover, of the compiler or of the program. If you take its result for that of the definitions, you trust:

- the reading of the language: dev/specs.py turns texts into trees, and `Translator` trees into Python. The first
  equation is taken whose patterns fit. An equation that ends with a call of its own definition is a loop, and a
  definition that goes on with the rest of a list begins at the end of a long one.
- LIBRARY in dev/kit.py: the words of the kit's library, such as lists, numbers and options, each with its meaning. A
  test compares those that the kit defines by equations with these. The words of clap are among them: `divided` divides
  a command line by the rules that the definitions give.
- constants and enumerations of src/, which are read from src/. They are definitions as well as code: dev/trusted counts
  them.
- dev/quick.py: some definitions over long lists, by tables. A test compares these with the equations.
- dev/runs.py: which definitions are evaluated for a command line, and how a run ends by their results. The definitions
  must confirm the command that it makes for a command line, and the first file that it can't open. With `--headline`
  they must also confirm the text, its stream, and the file that a fault names.

Relations. If a definition says that there is a value, its parts are evaluated in turn, and a part `unknown ≡ value`
gives the unknown its value. A part that needs the value waits. If a part says that an unknown is an item of a list,
each item is tried. A value whose type is a record with parameters must have what the record says. The runs that `cat`
prints, and the list and certificate that `shrink` prints, can't be found so. For these, WITNESSES computes values, and
then the relation is evaluated on them: with a wrong value it would be false.
A statement about all numbers is evaluated once for each range of numbers in which all comparisons have the same results
(`Number`). A statement about all values of another type can be evaluated if the type has finitely many values, or if
its premises determine the value. Others can't be evaluated.

The definitions leave open the words of clap's refusals, of help and of the version; a line on standard error says so.
Faults of memory and of devices are not evaluated, except that a file can't be opened.

A map of 1 MB or a File of 2 MB with 20,000 rows takes up to half a minute and 250 MB. `--headline` takes time with the
square of the number of runs.

The exit status is that of the definitions. If the words of dev/evaluate are malformed, or something can't be evaluated,
one line on standard error says why, and the status is 125.
"""

import functools
import itertools
import re
import sys
import threading
from collections import deque
from concurrent.futures import ThreadPoolExecutor
from pathlib import Path

# The code into which definitions are translated uses these too.
from kit import LIBRARY, NONE, SHORT, Case, EqualTo, Long, Record, added, after, codes, curried, is_some, less, own_name
from kit import pair, power, quotient, remainder, shown, some
from quick import QUICK
from specs import CannotEvaluate, Malformed, Module, Parser, cannot, lex

ROOT = Path(__file__).resolve().parent.parent

# Unknowns, and statements about some value or all values.


class Stuck(CannotEvaluate):
    """The value of an unknown is needed before it is found."""


class Unknown:
    """A value that is to be found: the first one to which it must be equal. Or a list: the items `front` and then those
    of another unknown, `rest`."""

    closed = 0  # how many statements are being evaluated that may not determine the values of earlier unknowns

    def __init__(self, front=(), rest=None):
        self.value, self.depth, self.front, self.rest = None, Unknown.closed, front, rest

    def meet(self, value):
        """Gives the unknown a value, or compares its value."""
        if self.rest is not None:
            return value[:len(self.front)] == self.front and self.rest.meet(value[len(self.front):])
        if self.value is None and (type(value) is Unknown or Unknown.closed > self.depth):
            self.needed()
        self.value = value if self.value is None else self.value
        return same(self.value, value)

    def needed(self, *_):
        raise Stuck("no equation determines a value")

    def __radd__(self, front):
        return Unknown(front, self)

    __getattr__ = __bool__ = __len__ = __iter__ = __getitem__ = __eq__ = __lt__ = __le__ = __gt__ = __ge__ = needed
    __add__ = __mul__ = __rmul__ = __rsub__ = __floordiv__ = __mod__ = __pow__ = __rpow__ = __call__ = needed


def known(value):
    """Returns a value, or what was found for it if it is an unknown."""
    return value.value if type(value) is Unknown and value.value is not None else value


def closed(statement):
    """Returns whether a statement holds. It gives no unknown a value, since others may be as good."""
    Unknown.closed += 1
    try:
        return statement()
    finally:
        Unknown.closed -= 1


def same(a, b):
    """Returns whether a ≡ b."""
    if a is b:
        return True
    kind, other = type(a), type(b)
    if Unknown in (kind, other):
        return a.meet(known(b)) if kind is Unknown else b.meet(a)
    if isinstance(a, Long) or isinstance(b, Long):
        return isinstance(a, (tuple, Long)) and isinstance(b, (tuple, Long)) and same(tuple(a), tuple(b))
    if kind is not other and Number not in (kind, other) or kind is FUNCTION:
        cannot(f"{shown(a)} and {shown(b)} are compared")
    if kind is tuple:
        return len(a) == len(b) and all(map(same, a, b))
    if kind is Case:
        return a.tag == b.tag and all(map(same, a.args, b.args))
    if kind is Record:
        return vars(a).keys() == vars(b).keys() and all(same(value, vars(b)[name]) for name, value in vars(a).items())
    return a == b


def joined(front, back):
    """Returns front ++ back."""
    return front + back if Unknown in (type(front), type(back)) else added(front, back)


class Choice(Stuck):
    """The value of an unknown is needed, and is one of these."""

    def __init__(self, unknown, values):
        super().__init__("a value is one of several")
        self.unknown, self.values = unknown, values


def contains(items, item):
    """Returns whether a list has an item. If the item is unknown, it is one of the list."""
    if type(item) is Unknown:
        raise Choice(item, items)
    return item in items


def solutions(kind, count, parts):
    """Yields the values of which all parts hold. If there are infinitely many values of this type, the parts must
    determine them. A part that needs a value waits until others have determined it."""
    if kind in ENUMERATIONS:
        values = itertools.product(ENUMERATIONS[kind], repeat=count)
        yield from (xs for xs in values if all(part(*xs) for part in parts))
        return
    yield from solved(kind, [Unknown() for _ in range(count)], deque(parts))


def solved(kind, unknowns, waiting):
    """Yields the values of which the parts hold that wait. Where they are known, they are those of the unknowns."""
    turns, choice = 0, None
    while turns < len(waiting):  # not all of them have waited in turn
        part = waiting.popleft()
        try:
            if not part(*map(known, unknowns)):
                return
            turns, choice = 0, None
        except Stuck as stuck:
            choice = choice or (stuck if isinstance(stuck, Choice) and stuck.unknown in Identical(unknowns) else None)
            waiting.append(part)
            turns += 1
    if choice:
        for value in choice.values:
            copies = [Unknown() for _ in unknowns]
            for copy, unknown in zip(copies, unknowns):
                copy.value = value if unknown is choice.unknown else unknown.value
            yield from solved(kind, copies, deque(waiting))
        return
    values = tuple(map(known, unknowns))
    yield cannot(f"nothing determines a {kind}", Stuck) if waiting or Unknown in map(type, values) else values


class Identical(list):
    """A list of which an item is one of its own, not only an equal one."""

    def __contains__(self, item):
        return any(item is other for other in self)


def exists(kind, count, parts):
    """Returns whether all parts hold of some values."""
    return any(True for _ in solutions(kind, count, parts))


def for_all(kind, count, premises, claim):
    """Returns whether the claim holds of all values of which the premises hold."""
    if kind == "ℕ" and count == 1:
        return all(value for _, _, value in ranges(lambda x: not all(part(x) for part in premises) or claim(x)))
    return all(claim(*values) for values in solutions(kind, count, premises))


def filling(values):
    """Returns what makes a function of values a function of those in whose place `values` has None."""
    def filled(part):
        def call(*found):
            left = iter(found)
            return part(*(next(left) if value is None else value for value in values))
        return call
    return filled


FUNCTION = type(lambda: None)
# The values of each type that has finitely many. Those of src/ and specs/ are added.
ENUMERATIONS = {"Bool": (False, True)}
ITSELF = lambda a: a
INFINITE, MOST_RANGES = 1 << 300, 1_000_000  # more than any number with which a definition compares


class Number:
    """A number that depends on one of a span: `of` returns it for each. Each comparison shortens the span to the first
    numbers that have the same result. No operation makes a greater number less, so that these are consecutive."""

    def __init__(self, of, span):
        self.of, self.span = of, span

    def sign(self, other):
        if type(other) is not int:
            cannot("two numbers of ranges are compared")
        sign_of = lambda a: (self.of(a) > other) - (self.of(a) < other)
        low, high = self.span
        if self.of is ITSELF:
            self.span[1] = min(high, other - 1) if low < other else low if low == other else high
            return (low > other) - (low < other)
        sign = sign_of(low)
        if sign_of(high) != sign:
            while high - low > 1:
                middle = (low + high) // 2
                low, high = (middle, high) if sign_of(middle) == sign else (low, middle)
            self.span[1] = low
        return sign

    def changed(self, step):
        return Number(lambda a: step(self.of(a)), self.span)

    def less(self, other):
        return self.changed(lambda number: max(number - other, 0))

    __eq__, __lt__ = (lambda self, other: self.sign(other) == 0), (lambda self, other: self.sign(other) < 0)
    __le__, __gt__ = (lambda self, other: self.sign(other) <= 0), (lambda self, other: self.sign(other) > 0)
    __ge__ = lambda self, other: self.sign(other) >= 0
    __add__ = __radd__ = lambda self, other: self.changed(lambda number: number + other)
    __mul__ = __rmul__ = lambda self, other: self.changed(lambda number: number * other)
    __floordiv__ = lambda self, other: self.changed(lambda number: number // other)


def ranges(function):
    """Yields the value of a function of a number on consecutive ranges, with the first and the last number of each."""
    first = 0
    for _ in range(MOST_RANGES):
        span = [first, INFINITE]
        value = function(Number(ITSELF, span))
        yield first, span[1], value
        first = span[1] + 1
        if first > INFINITE:
            return
    cannot("there are too many ranges of numbers")


# The translation into Python. A definition is a Python function, by equations, or by the fields of a record.

SIGNS = {
    ",": "pair({}, {})", "if": "{1} if {0} else {2}", "¬": "not {}", "++": "joined({}, {})", "+": "{} + {}",
    "-": "less({}, {})", "*": "{} * {}", "^": "power({}, {})", "/": "quotient({}, {})", "%": "remainder({}, {})",
    "==": "{} == {}", "≤": "{} <= {}", "<": "{} < {}", "&&": "{} and {}", "||": "{} or {}", "×": "{} and {}",
    "≡": "same({}, {})", "≢": "not closed(lambda: same({}, {}))",
    "⊎": "closed(lambda: {}) or closed(lambda: {})", "→": "not closed(lambda: {}) or {}",
    "↔": "closed(lambda: {}) is closed(lambda: {})"}
PATTERNS = {"[]": "not {}", "true": "{}", "false": "not {}", "zero": "{} == 0"}


def identifier(text):
    return re.sub(r"\W", lambda match: f"_{ord(match[0]):x}_", text)


def variable(name):
    """Returns the Python variable of a parameter or a name that a term gives to a value."""
    return f"v_{identifier(name)}"


class Translator:
    """Translates the terms of a module. `outer` are the parameters of the part of the module that they are in. `scope`
    has the names of variables."""

    def __init__(self, definitions, module, outer=()):
        self.all, self.module, self.outer, self.loops, self.own = definitions, module, list(outer), True, None

    def term(self, tree, scope):
        inside = functools.partial(self.term, scope=scope)
        match tree:
            case ("number", value):
                return str(value)
            case ("text", text):
                return repr(codes(text))
            case ("name", word):
                return self.call(word, [], scope)
            case ("apply", ("name", word), args):
                return self.call(word, list(map(inside, args)), scope)
            case ("apply", head, args):
                return inside(head) + "".join(f"({inside(arg)})" for arg in args)
            case ("field", record, name):
                return f"{inside(record)}.f_{identifier(name)}"
            case ("record", base, fields):
                values = ", ".join(f"f_{identifier(name)}={inside(value)}" for name, value in fields)
                return f"{inside(base)}.updated({values})" if base else f"Record({values})"
            case ("function", names, body):
                return f"({''.join(f'lambda {variable(name)}: ' for name in names)}{self.term(body, scope | {*names})})"
            case ("operator", "∷", _, _):
                *items, rest = map(inside, self.flat("∷", tree))
                items = f"({', '.join(items)},)"
                return items if self.is_empty(self.flat("∷", tree)[-1]) else f"joined({items}, {rest})"
            case ("operator", sign, *operands) if sign in SIGNS:
                return f"({SIGNS[sign].format(*map(inside, operands))})"
            case ("operator", sign, *operands):
                return self.call(f"◌{sign}◌", list(map(inside, operands)), scope)
            case ("binder", sign, names, kind, body):
                return self.binder(sign, names, self.kind(kind), body, scope)

    def is_empty(self, tree):
        return tree == ("name", "[]")

    def flat(self, sign, tree):
        """Returns the parts of a tree that this operator joins."""
        return [tree[2], *self.flat(sign, tree[3])] if tree[:2] == ("operator", sign) else [tree]

    def call(self, word, args, scope):
        """Translates a name, the fields that follow it, and arguments. A definition or a word of the kit is called with
        all its arguments at once, if there are enough."""
        head, *fields = word.split(".")
        if head in self.module.modules and head not in scope:
            head, fields = ".".join([head, *fields[:1]]), fields[1:]
        sort, what = ("variable", head) if head in scope else self.all.meaning(self.module, head)
        code, arity = f"{sort}({what!r})", 0
        if sort == "variable":
            code = variable(head)
        elif sort == "constructor" and args and not fields:
            return f"Case({what!r}, ({', '.join(args)},))"
        elif sort == "word" and len(args) >= LIBRARY[what][0]:
            code, arity = f"word_{identifier(what)}", LIBRARY[what][0]
        elif sort == "definition":
            args = [*map(variable, self.shared(what)), *args]
            if 0 < (self.all.definition(what).arity or 0) <= len(args):
                code, arity = self.all.translated(what), self.all.definition(what).arity
        elif not sort or sort == "type":
            code = f"cannot({f'{head} is a type' if sort else f'{head} has no meaning'!r})"
        first = f"({', '.join(args[:arity])})" if arity else ""
        fields = "".join(f".f_{identifier(field)}" for field in fields)
        return code + first + fields + "".join(f"({arg})" for arg in args[arity:])

    def shared(self, full):
        """Returns the parameters that a definition takes from the part of the module where it is used."""
        is_inside = full[0] == self.module.key and self.all.definition(full).outer == self.outer
        return self.outer if is_inside else []

    def kind(self, text):
        """Returns the type of a binder, an enumeration by its whole name."""
        sort, what = self.all.meaning(self.module, text)
        return what if sort == "type" and what in ENUMERATIONS else text

    def binder(self, sign, names, kind, body, scope):
        """Joins binders that follow one another, except for enumerations and all numbers."""
        is_single = lambda kind: kind == "ℕ" and sign == "→" or kind in ENUMERATIONS
        kinds, parts = [kind], self.proved(names, kind, scope)
        while body[:2] == ("binder", sign) and not is_single(kind) and not is_single(self.kind(body[3])):
            names, kinds, body = [*names, *body[2]], [*kinds, self.kind(body[3])], body[4]
        scope, params = scope | {*names}, ", ".join(map(variable, names))
        parts += (self.term(tree, scope) for tree in self.flat(sign, body))
        parts = [f"lambda {params}: {part}" for part in parts]
        kind, count = ", ".join(dict.fromkeys(kinds)), len(names)
        if sign == "×":
            return f"exists({kind!r}, {count}, [{', '.join(parts)}])"
        return f"for_all({kind!r}, {count}, [{', '.join(parts[:-1])}], {parts[-1]})"

    def proved(self, names, kind, scope):
        """Returns the statements that the values of a binder prove, if their type is a record with parameters."""
        tree = Parser(lex(kind)).whole()
        head = tree[1][1] if tree[0] == "apply" and tree[1][0] == "name" else ""
        sort, what = self.all.meaning(self.module, head)
        record = self.all.definition(what) if sort == "definition" else None
        if not record or record.kind != "record" or not record.sides or record.sides[0][1][3:4] != ("value",):
            return []
        (params, (_, _, values, _, body)), = record.sides
        for value in values:
            body = self.exchanged(body, ("name", value), ("name", f"it.{value}"))
        given = [*record.outer, *(name for _, name in params), "it"]
        inside = Translator(self.all, self.all.modules[what[0]], record.outer).term(body, {*given})
        noted = "" if self.all.noted is None else f"noted.add({'.'.join(what)!r}) or "
        args = [*map(variable, self.shared(what)), *(self.term(arg, scope) for arg in tree[2])]
        return [f"(lambda {', '.join(map(variable, given))}: {noted}{inside})({', '.join([*args, variable(name)])})"
                for name in names]

    def pattern(self, tree, place, conditions, names):
        """Adds under which conditions the value at a place fits a pattern, and where the values of its names are."""
        match tree:
            case ("operator", ",", first, second):
                self.pattern(first, place + ".f_0", conditions, names)
                self.pattern(second, place + ".f_1", conditions, names)
            case ("operator", "∷", first, rest):
                conditions.append(f"len({place}) > 0")
                self.pattern(first, place + "[0]", conditions, names)
                self.pattern(rest, f"after({place}, 1)", conditions, names)
            case ("number", value):
                conditions.append(f"{place} == {value}")
            case ("apply", ("name", "suc"), [before]):
                conditions.append(f"{place} > 0")
                self.pattern(before, f"less({place}, 1)", conditions, names)
            case ("name", word) if word in PATTERNS:
                conditions.append(PATTERNS[word].format(place))
            case ("name", word) | ("apply", ("name", word), _):
                sort, what = self.all.meaning(self.module, word)
                parts = tree[2] if tree[0] == "apply" else []
                if sort == "constructor" or sort == "word" and what in ("Some", "None", "Ok", "Err"):
                    conditions.append(f"{place}.tag == {what!r}")
                    for index, part in enumerate(parts):
                        self.pattern(part, f"{place}.args[{index}]", conditions, names)
                elif parts or "." in word:
                    cannot(f"{word} is no constructor", Malformed)
                else:
                    names |= {word: place} if word != "_" else {}
            case _:
                cannot("a pattern is expected", Malformed)

    def function(self, definition, name):
        """Returns the Python function of a definition. If an equation ends with a call of the definition itself, the
        function begins again. If the definition calls itself only for the rest of a list, the function begins at the
        end of a long list."""
        sides, full = definition.sides, (self.module.key, definition.name)
        self.own = full, len(sides[0][0]), True
        params = [*map(variable, self.outer), *(f"a{place}" for place, _ in enumerate(sides[0][0]))]
        noted = [f" noted.add({'.'.join(full)!r})"] if self.all.noted is not None else []
        lines = [f"def {name}({', '.join(params)}):", *noted, *self.from_end(definition, name), " while True:"]
        for patterns, right in sides:
            conditions, names = [], {}
            for place, tree in enumerate(patterns):
                self.pattern(tree, f"a{place}", conditions, names)
            lines.append(f"  if {' and '.join(conditions) or 'True'}:")
            lines += [f"   {variable(name)} = {place}" for name, place in names.items()]
            lines += [f"   {line}" for line in self.ending(right, {*self.outer, *names})]
        text = "\n".join([*lines, f"  cannot('no equation of {definition.name} fits')"])
        if "lambda" in text.replace("closed(lambda", ""):  # which would have the names of a later turn
            return text.replace("\n while True:", "\n if True:") if self.own[2] else self.without_loop(definition, name)
        return text

    def without_loop(self, definition, name):
        self.loops = False
        return self.function(definition, name)

    def ending(self, tree, scope):
        """Returns the lines that return the value of a term, or begin again with other arguments."""
        full, count, _ = self.own
        if tree[:2] == ("operator", "if"):
            yes, no = (list(self.ending(branch, scope)) for branch in tree[3:])
            return [f"if {self.term(tree[2], scope)}:", *(f" {line}" for line in yes), *no]
        if tree[:2] == ("operator", "×"):
            *parts, last = self.flat("×", tree)
            if self.is_own(last, scope):
                first = (f"if not {self.term(part, scope)}: return False" for part in parts)
                return [*first, *self.ending(last, scope)]
        if self.is_own(tree, scope):
            self.own = full, count, False
            args = ", ".join(self.term(arg, scope) for arg in tree[2])
            return [f"{', '.join(f'a{place}' for place in range(count))}, = {args},", "continue"]
        return [f"return {self.term(tree, scope)}"]

    def is_own(self, tree, scope):
        """Returns whether a term calls the definition that is translated, with all its arguments."""
        if tree[0] != "apply" or tree[1][0] != "name" or tree[1][1] in scope or not self.loops:
            return False
        full, count, _ = self.own
        return self.all.meaning(self.module, tree[1][1]) == ("definition", full) and len(tree[2]) == count

    def from_end(self, definition, name):
        """Returns the lines that evaluate a definition from the end of a long list: `f .. [] ..` first, and then
        `f .. (x ∷ xs) ..`, which calls the definition for `xs` alone, for each item."""
        if len(definition.sides) != 2:
            return []
        (empty, _), (patterns, right) = definition.sides
        places = [place for place, tree in enumerate(patterns) if tree[:2] == ("operator", "∷")]
        own = [tree[1] if tree[0] == "name" else None for tree in patterns]
        if len(places) != 1 or empty[places[0]] != ("name", "[]") or own.count(None) != 1:
            return []
        place, = places
        first, rest = (tree[1] if tree[0] == "name" else None for tree in patterns[place][2:])
        if None in (first, rest) or "." in first or any(tree[0] != "name" for tree in empty) or first == rest:
            return []
        wanted = [("name", rest if at == place else word) for at, word in enumerate(own)]
        calls = self.own_calls(right, definition.name)
        if "_" in (*own, rest) or not calls or any(call != wanted for call in calls) or self.ends_so(right, definition):
            return []
        names = {*self.outer, *filter(None, own), first, rest}
        called = ("apply", ("name", definition.name), wanted)
        code = self.term(self.exchanged(right, called, ("name", "the later")), names | {"the later"})
        given = [*map(variable, self.outer), *(f"a{at}" for at in range(len(own)) if at != place)]
        params = [*map(variable, self.outer), *(variable(word) for word in own if word)]
        step = ", ".join([*params, variable(first), variable(rest), variable("the later")])
        base = ", ".join([*map(variable, self.outer), *("()" if at == place else f"a{at}" for at in range(len(own)))])
        return [f" if type(a{place}) is not Unknown and len(a{place}) >= SHORT:",
                f"  step = lambda {step}: {code}", f"  items, later = tuple(a{place}), {name}({base})",
                "  for place in range(len(items) - 1, -1, -1):",
                f"   later = step({', '.join([*given, 'items[place]', 'after(items, place + 1)', 'later'])})",
                "  return later"]

    def ends_so(self, tree, definition):
        """Returns whether an equation ends with a call of its definition in each case where it calls it."""
        if tree[:2] == ("operator", "if"):
            return self.ends_so(tree[3], definition) or self.ends_so(tree[4], definition)
        if tree[:2] == ("operator", "×"):
            return self.ends_so(tree[3], definition)
        return self.is_own(tree, frozenset())

    def own_calls(self, tree, name):
        """Returns the arguments of each call of a definition in a term. The name alone is a call without arguments."""
        if tree == ("name", name):
            return [()]
        if not isinstance(tree, (tuple, list)):
            return []
        if tree[:1] == ("apply",) and tree[1] == ("name", name):
            return [list(tree[2]), *(call for arg in tree[2] for call in self.own_calls(arg, name))]
        return [call for part in tree for call in self.own_calls(part, name)]

    def exchanged(self, tree, old, new):
        """Returns a term with another one in the place of one that occurs in it."""
        if tree == old:
            return new
        if isinstance(tree, (tuple, list)):
            return type(tree)(self.exchanged(part, old, new) for part in tree)
        return tree


# Values for the relations that can't be solved. Each gets the definitions and the arguments, some of them unknown.


def runs_of(definitions, label_of, first, end, runs):
    """The ranges of consecutive addresses with one label, by the labels of ranges of numbers."""
    made = []
    for low, high, label in ranges(label_of):
        if high >= first and low < end and made and made[-1].f_label == label:
            made[-1] = made[-1].updated(f_high=min(high, end - 1))
        elif high >= first and low < end:
            made.append(Record(f_low=max(low, first), f_high=min(high, end - 1), f_label=label))
    runs.meet(tuple(made))


def minimal_pair(definitions, m, l, c):
    """The tree that divides blocks until the map settles them, with exact claims; and the list that is read off it."""
    settled_label = definitions.call("pmap_model/MapModel.settled_label", m)
    in_table_order = definitions.call("pmap_cert/Acceptance.in_table_order", m.f_table)
    width = definitions.call("prefix_keys/Block.width_of", m.f_version)
    leaf, inner, claim_of, exact_claim = (definitions.call(f"pmap_cert/CertificateModel.{name}") for name in (
        "LeafNode", "InnerNode", "claim_of", "exact_claim"))

    def tree(bits, number):
        label = settled_label(bits)(number)
        if is_some(label) or bits >= width:
            return leaf(*label.args or cannot("the map settles no block of one address"))
        lower, upper = tree(bits + 1, 2 * number), tree(bits + 1, 2 * number + 1)
        return inner(in_table_order(exact_claim(claim_of(lower))(claim_of(upper))))(lower)(upper)

    root = tree(0, 0)
    entries = definitions.call("pmap_cert/Acceptance.entries_of", width, m.f_table, root, NONE, 0, 0)
    c.meet(Record(f_format=1, f_version=m.f_version, f_table=m.f_table, f_root=root))
    l.meet(Record(f_version=m.f_version, f_name=m.f_name, f_prefixes=entries, f_table=m.f_table))


WITNESSES = {("pmap_stretches/Runs", "AreRuns"): runs_of, ("pmap_cert/Acceptance", "IsMinimalPair"): minimal_pair}


# The definitions of a repository, and the runs of the program by them.

# What Python raises for terms that have no type.
ILL_TYPED = (TypeError, AttributeError, LookupError, ValueError, ArithmeticError, RecursionError, NameError,
             StopIteration)


class Definitions:
    """The definitions of specs/, translated."""

    noted = None  # the names of the definitions that were reached, if they are to be noted

    def __init__(self, root=ROOT):
        self.root, self.modules, self.values, self.none = root, {}, {}, NONE
        self.sources, self.constants = {}, set()  # other texts of files of src/, and the constants that were used
        words = {f"word_{identifier(name)}": code for name, (_, _, code) in LIBRARY.items()}
        self.space = globals() | {"noted": self.noted} | words | {
            "definition": self.value, "constant": self.constant, "constructor": Case,
            "for_all": self.for_all, "exists": self.exists, "word_Contains": contains,
            "word": lambda name: EqualTo if name == "bytes_eq" else curried(LIBRARY[name][2], LIBRARY[name][0])}
        for path in sorted(root.glob("crates/*/specs/*.antt")):
            module = Module(f"{path.parts[-3]}/{path.stem}", path, path.read_text(encoding="utf-8"))
            self.modules[module.key] = module.read()

    @functools.cache
    def meaning(self, module, word):
        """Returns what a word is in a module: the sort of thing, and which one."""
        head, _, name = word.partition(".")
        if name and head in module.modules:
            return self.imported(module.modules[head], name)
        if word in module.definitions:
            is_type = module.definitions[word].kind == "data"
            return self.listed(module, word) if is_type else ("definition", (module.key, word))
        if word in module.constructors:
            return "constructor", module.constructors[word]
        if word in module.names:
            return self.imported(*module.names[word])
        return ("word", word) if word in LIBRARY else ("", "")

    def imported(self, source, name):
        """Returns what a name of a module of specs/, or of a declaration of src/, is."""
        crate, *path = source.split(".")
        if f"{crate}/{path[-1]}" in self.modules and len(path) == 2:
            return self.meaning(self.modules[f"{crate}/{path[-1]}"], name)
        if path[:2] == ["specs", "declared"] and (self.root / "crates" / crate).is_dir():
            kind = ".".join([crate, *path[2:-1]])
            if path[-1] == "TheVariants":
                return "constructor", f"{kind}.{name}"
            if path[-1] == "TheConstants":
                return "constant", f"{kind}.{name}"
            return self.declared(f"{kind}.{path[-1]}")
        return ("word", name) if name in LIBRARY else ("constructor", name) if path[-1] == "TheVariants" else ("", "")

    def source_of(self, place):
        """Returns the path of the file of src/ that has a place."""
        crate, *path, _ = place.split(".")
        return self.root / "crates" / crate / "src" / ("/".join(path) + ".rt")

    def source(self, place, pattern):
        """Returns the match of a pattern in the file of src/ that has a place, without comments."""
        path = self.source_of(place)
        text = self.sources.get(path) or (path.read_text(encoding="utf-8") if path.is_file() else "")
        return re.search(pattern, re.sub(r"//.*", "", text))

    def declared(self, kind):
        """Returns a type of src/, whose values are noted if it is an enumeration."""
        match = self.source(kind, rf"\benum {own_name(kind)} \{{([\w\s,#()\[\]]*)\}}")
        names = re.findall(r"(\w+),", re.sub(r"#\[.*?\]", "", match[1] + ",")) if match and "(" not in match[1] else ()
        ENUMERATIONS.update({kind: tuple(Case(f"{kind}.{value}") for value in names)} if names else {})
        return "type", kind

    def listed(self, module, word):
        """Returns a type of specs/, whose values are noted if it is an enumeration."""
        kind = f"{module.key}.{word}"
        tags = [tag for tag in module.constructors.values() if tag.rpartition(".")[0] == kind]
        if not any("→" in line for line in module.definitions[word].lines):
            ENUMERATIONS[kind] = tuple(map(Case, tags))
        return "type", kind

    def constant(self, place):
        """Returns a constant of src/: a number, or an array of pairs or of variants."""
        self.constants.add(place)
        if place not in self.values:
            match = self.source(place, rf"\bconst {own_name(place)}: [^=]+ = ([^;]+);")
            text = match[1] if match else cannot(f"src/ has no constant {place}")
            text = re.sub(r"\b([A-Z]\w+)::(\w+)", lambda m: f"Case('{self.home(place, m[1])}.{m[1]}.{m[2]}')", text)
            made = {tuple: lambda x: pair(*map(value, x)), list: lambda x: tuple(map(value, x))}
            value = lambda x: made.get(type(x), lambda x: x)(x)
            self.values[place] = value(eval(text, {"Case": Case}))
        return self.values[place]

    def home(self, place, name):
        """Returns the place of the enumeration with this name: in the file of a place, or in another crate."""
        if self.source(place, rf"\benum {name}\b"):
            return place.rpartition(".")[0]
        for path in sorted(self.root.glob("crates/*/src/*.rt")):
            if re.search(rf"\bpub enum {name}\b", path.read_text(encoding="utf-8")):
                return f"{path.parts[-3]}.{path.stem}"
        return cannot(f"src/ has no enumeration {name}")

    def definition(self, full):
        return self.modules[full[0]].definitions[full[1]]

    def python_name(self, full):
        return "d_" + identifier(".".join(full))

    def translated(self, full):
        """Returns the name of the Python function of a definition, which is made when it is first needed."""
        name, definition = self.python_name(full), self.definition(full)
        if name not in self.space:
            self.space[name] = None
            try:
                text = Translator(self, self.modules[full[0]], definition.outer).function(definition, name)
            except Malformed as error:
                text = f"def {name}(*args):\n  cannot({str(error)!r})"
            exec(self.compiled(text, name, "exec"), self.space)
            if full in QUICK and all(self.has_text(*there) for there in QUICK[full][1]):
                self.space[name] = functools.partial(QUICK[full][0], self, self.space[name])
            if full in WITNESSES:
                self.space[name] = functools.partial(self.with_witness, self.space[name], WITNESSES[full])
        return name

    def samples(self, sort, kind, count):
        """Returns values on which a statement about some (or all) values of a type is evaluated if nothing determines
        a value: for each how many values are to be found, and what makes a function of all a function of these."""
        return []

    def for_all(self, kind, count, premises, claim):
        """Returns whether the claim holds of all values of which the premises hold, or of all samples."""
        try:
            return for_all(kind, count, premises, claim)
        except Stuck:
            if not (found := self.samples("all", kind, count)):
                raise
        return self.all_samples(found, premises, claim)

    @staticmethod
    def all_samples(found, premises, claim):
        """Returns whether the claim holds of the samples of which the premises hold."""
        return all(for_all("", left, [*map(filled, premises)], filled(claim)) for left, filled in found)

    def exists(self, kind, count, parts):
        """Returns whether all parts hold of some values, or of a sample."""
        try:
            return exists(kind, count, parts)
        except Stuck:
            if not (found := self.samples("some", kind, count)):
                raise
        return any(self.has(left, [*map(filled, parts)]) for left, filled in found)

    @staticmethod
    def has(left, parts):
        """Returns whether the parts hold of a sample, and of `left` other values that they determine."""
        try:
            return closed(lambda: exists("", left, parts))
        except Stuck:
            if not left:
                raise
            return False

    def has_text(self, module, name, text):
        """Returns whether a definition has these equations."""
        lines = self.definition((module, name)).lines
        equations = "\n".join(lines).partition(f"\n{' ' * self.definition((module, name)).depth}{name} ")
        return " ".join((name + " " + equations[2]).split()) == text

    def function(self, module, name):
        """Returns the Python function of a definition."""
        return self.space[self.translated((module, name))]

    def with_witness(self, relation, witness, *args):
        if Unknown in map(type, map(known, args)):
            witness(self, *args)
        return relation(*map(known, args))

    def value(self, full):
        """Returns a definition as a value."""
        if full not in self.values:
            arity = self.definition(full).arity
            code = self.space[self.translated(full)] if self.definition(full).sides else cannot(f"{full[1]} is a type")
            self.values[full] = curried(code, arity) if arity else code()
        return self.values[full]

    def evaluated(self, function, *args):
        """Returns the value of a function. Whatever ill-typed definitions may cause is reported as such."""
        try:
            return function(*args)
        except ILL_TYPED as error:
            raise CannotEvaluate(f"{type(error).__name__}: {error}") from None

    def term(self, text, module):
        """Returns the value of a term, with the names that a module has."""
        source = Translator(self, module).term(Parser(lex(text)).whole(), frozenset())
        return self.evaluated(eval, self.compiled(source, "term", "eval"), self.space)

    @staticmethod
    def compiled(*source):
        try:
            return compile(*source)
        except (SyntaxError, RecursionError, MemoryError):
            return cannot("a term is too deep")

    def call(self, name, *args):
        """Returns the value of the definition or constructor CRATE/MODULE.NAME with arguments."""
        key, _, own = name.partition(".")
        module = self.module(key)
        value = self.term(own, module) if self.meaning(module, own)[0] else cannot(f"there is no definition {name}")
        return self.evaluated(functools.reduce, lambda function, arg: function(arg), args, value)

    def module(self, key):
        return self.modules[key] if key in self.modules else cannot(f"there is no module {key}")


def with_stack(function):
    """Returns what the function returns. Definitions that it calls may recurse deeply, as far as there is memory."""
    for size in (1 << 30, 1 << 27, 1 << 24):
        sys.setrecursionlimit(size >> 10)
        threading.stack_size(size)
        with ThreadPoolExecutor(1) as pool:
            try:
                made = pool.submit(function)
            except RuntimeError:
                continue
            return made.result()
    return cannot("there is no memory for a stack", MemoryError)
