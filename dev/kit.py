"""The values of the language of the definitions, and the words of the kit's library with their meanings, in Python.

A number is an int, a truth value or a statement is a bool, and a list is a tuple or, so that a long list needn't be
copied, a `Long`. A function is a Python function of one argument, which for more arguments returns a function of the
next one.
"""

import abc
import collections
import functools
import itertools
from dataclasses import dataclass
from types import SimpleNamespace

from specs import CannotEvaluate, cannot


class Record(SimpleNamespace):
    """A record, or a pair, whose fields are 0 and 1. The field NAME is the attribute f_NAME."""

    def updated(self, **fields):
        return Record(**(vars(self) | fields))

    def __hash__(self):
        return hash(frozenset(vars(self).items()))


@dataclass(slots=True, unsafe_hash=True)
class Case:
    """A value made by a constructor: the constructor's name, and its arguments."""

    tag: str
    args: tuple = ()

    def __call__(self, arg):
        return Case(self.tag, (*self.args, arg))


SHORT = 64  # A list of fewer items is a tuple, which is copied.


class Long(abc.ABC):
    """A list that shares its items with others. All else is as for the tuple of its items."""

    __slots__ = ()

    def __eq__(self, other):
        return isinstance(other, (tuple, Long)) and len(self) == len(other) and tuple(self) == tuple(other)

    def __hash__(self):
        return hash(tuple(self))

    def __contains__(self, item):
        return item in tuple(self)

    def __getitem__(self, index):
        if isinstance(index, slice) and index.step is None and index.start is None and (index.stop or 0) >= 0:
            return tuple(itertools.islice(self, index.stop)) if len(self) else ()
        return tuple(self)[index]

    def __add__(self, other):
        return added(self, other) if isinstance(other, (tuple, Long)) else NotImplemented

    def __radd__(self, other):
        return added(other, self) if isinstance(other, tuple) else NotImplemented


class Part(Long):
    """The items of a sequence from `start` to `stop`. `owned` is a Python list that only this module changes: it adds
    items after all of them, which no other part has."""

    __slots__ = ("items", "start", "stop")

    def __init__(self, items, start, stop):
        self.items, self.start, self.stop = items, start, stop

    def __len__(self):
        return self.stop - self.start

    def __iter__(self):
        return map(self.items.__getitem__, range(self.start, self.stop))

    def __contains__(self, item):
        return item in (self.items if len(self) == len(self.items) else self.items[self.start:self.stop])

    def __getitem__(self, index):
        if isinstance(index, int):
            if not -len(self) <= index < len(self):
                raise IndexError(index)
            return self.items[index + (self.start if index >= 0 else self.stop)]
        start, stop, step = index.indices(len(self))
        if step == 1:
            return part_of(self.items, self.start + start, self.start + max(start, stop))
        return tuple(self)[index]


class Before(Long):
    """An item before a list."""

    __slots__ = ("first", "rest", "size")

    def __init__(self, first, rest):
        self.first, self.rest, self.size = first, rest, len(rest) + 1

    def __len__(self):
        return self.size

    def __iter__(self):
        while type(self) is Before:
            yield self.first
            self = self.rest
        yield from self

    def __getitem__(self, index):
        return self.first if index == 0 else super().__getitem__(index)


def part_of(items, start, stop):
    """Returns the items of a sequence from one index up to another."""
    return Part(items, start, stop) if stop - start >= SHORT else tuple(items[start:stop])


def after(items, count):
    """Returns a list without its first `count` items."""
    while type(items) is Before and count:
        items, count = items.rest, count - 1
    if count == 0 or len(items) - count < SHORT:
        return items[count:] if count else items
    return part_of(items, count, len(items)) if type(items) is tuple else items[count:]


def cut(items, start, stop=None):
    """Returns the items of a list from one index up to another, or up to its end."""
    stop = len(items) if stop is None else min(stop, len(items))
    if stop - start < SHORT:
        return tuple(items[start:stop])
    items = tuple(items) if type(items) is Before else items
    return part_of(items, start, stop) if type(items) is tuple else items[start:stop]


def added(front, back):
    """Returns two lists joined."""
    if len(front) + len(back) < SHORT or not back or not front:
        return tuple(front) + tuple(back) if front and back else front or back
    if len(front) < SHORT <= len(back):
        return functools.reduce(lambda rest, first: Before(first, rest), reversed(tuple(front)), back)
    if type(front) is not Part or type(front.items) is not list or front.stop != len(front.items):
        front = Part([*front], 0, len(front))
    front.items.extend(back)
    return Part(front.items, front.start, len(front.items))


class EqualTo:
    """The function that compares with a value."""

    def __init__(self, value):
        self.value = value

    def __call__(self, other):
        return self.value == other


def curried(code, arity, *got):
    """Returns a Python function of `arity` arguments as a function, or without arguments what it is."""
    return lambda arg: curried(code, arity - 1, *got, arg) if arity > 1 else code(*got, arg)


UNIT, NONE = Case("tt"), Case("None")
pair = lambda first, second: Record(f_0=first, f_1=second)
some, ok, err = (lambda x: Case("Some", (x,))), (lambda x: Case("Ok", (x,))), (lambda x: Case("Err", (x,)))
option = lambda condition, value: some(value) if condition else NONE
is_some, is_ok = (lambda o: o.tag == "Some"), (lambda r: r.tag == "Ok")
codes = lambda text: tuple(map(ord, text))
own_name = lambda tag: tag.rpartition(".")[2]
borrowed = lambda text: Record(f_now=text)  # a text as a command names it


def shown(value):
    """Returns a value as a text. A list of printable bytes is `codes` of a text."""
    value = tuple(value) if isinstance(value, Long) else value
    if isinstance(value, tuple) and value and all(type(x) is int and (32 <= x < 127 or x == 10) for x in value):
        text = "".join(map(chr, value)).replace("\\", "\\\\").replace('"', '\\"').replace("\n", "\\n")
        return f'codes "{text}"'
    if isinstance(value, tuple):
        return f"[{', '.join(map(shown, value))}]"
    if isinstance(value, Case):
        words = " ".join([own_name(value.tag), *map(shown, value.args)])
        return f"({words})" if value.args else words
    if isinstance(value, Record) and hasattr(value, "f_0"):
        return f"({shown(value.f_0)}, {shown(value.f_1)})"
    if isinstance(value, Record):
        return "record { " + "; ".join(f"{name[2:]} = {shown(x)}" for name, x in vars(value).items()) + " }"
    return "a function" if callable(value) else str(value).lower()


# The library: the words of the kit that definitions use, each with the number of its arguments and its meaning.

less = lambda a, b: max(a - b, 0) if type(a) is int else a.less(b)
MOST_BITS = 1 << 27


def power(a, b):
    if type(b) is int and type(a) is int and b * a.bit_length() > MOST_BITS:
        cannot("a number is too great")
    return a ** b


quotient, remainder = (lambda a, b: a // b if b else 0), (lambda a, b: a % b if b else a)
compared = lambda a, b: Case("Less" if a < b else "Equal" if a == b else "Greater")
at = lambda items, index, default: items[index] if index < len(items) else default
first_place = lambda test, items: next((place for place, item in enumerate(items) if test(item)), len(items))
front_length = lambda test, items: first_place(lambda item: not test(item), items)


def split(test, items):
    pieces = [()]
    for is_end, group in itertools.groupby(items, test):
        pieces += [()] * len(tuple(group)) if is_end else [pieces.pop() + tuple(group)]
    return tuple(pieces)


def digits(base, upper, number):
    last = "0123456789abcdef"[number % base]
    return (digits(base, upper, number // base) if number >= base else ()) + codes(last.upper() if upper else last)


def first_difference(order, xs, ys):
    found = (order(x)(y) for x, y in zip(xs, ys))
    return next((order for order in found if order.tag != "Equal"), compared(len(xs), len(ys)))


EACH = lambda p, xs: all(map(p, xs))
LIBRARY = {
    "true": (0, "true", True), "false": (0, "false", False), "zero": (0, "0", 0), "[]": (0, "a list without items", ()),
    "Unit": (0, "a statement that holds", True), "⊤": (0, "the same", True),
    "⊥": (0, "a statement that doesn't hold", False),
    "tt": (0, "the value of the type with one value", UNIT),
    "None": (0, "no value", NONE), "Some": (1, "a value", some), "Ok": (1, "a result", ok), "Err": (1, "a fault", err),
    "not": (1, "not b", lambda b: not b), "IsTrue": (1, "b is true", lambda b: b), "suc": (1, "n + 1", lambda n: n + 1),
    "max": (2, "the greater one", max), "nat_le": (2, "a ≤ b", lambda a, b: a <= b),
    "nat_lt": (2, "a < b", lambda a, b: a < b), "nat_eq": (2, "a = b", lambda a, b: a == b),
    "nat_cmp": (2, "the order of two numbers", compared),
    "is_lt": (1, "the order is less", lambda order: order.tag == "Less"),
    "is_eq": (1, "the order is that of equal things", lambda order: order.tag == "Equal"),
    "lit<": (1, "a proof, whose value doesn't matter", lambda proof: UNIT),
    "length": (1, "how many items", len),
    "map": (2, "f of each item", lambda f, xs: tuple(map(f, xs))),
    "filter": (2, "the items that pass the test", lambda p, xs: tuple(filter(p, xs))),
    "find": (2, "the first item that passes the test", lambda p, xs: next(map(some, filter(p, xs)), NONE)),
    "fold": (3, "the steps from a start with each item in turn", lambda f, start, xs: (
        functools.reduce(lambda x, item: f(x)(item), xs, start))),
    "take": (2, "the first n items, or all", lambda n, xs: cut(xs, 0, n)),
    "drop": (2, "the items after them", lambda n, xs: after(xs, n)),
    "replicate": (2, "n times x", lambda n, x: (x,) * n),
    "list_all": (2, "all items pass the test", EACH), "All": (2, "the statement holds of all items", EACH),
    "AllByRecursion": (2, "the statement holds of all items", EACH),
    "list_any": (2, "an item passes the test", lambda p, xs: (
        p.value in xs if type(p) is EqualTo else any(map(p, xs)))),
    "Contains": (2, "x is an item", lambda xs, x: x in xs),
    "IsPermutation": (2, "the lists have the same items, each as often", lambda xs, ys: (
        collections.Counter(xs) == collections.Counter(ys))),
    "flat_map": (2, "f of each item, joined", lambda f, xs: tuple(itertools.chain(*map(f, xs)))),
    "filter_map": (2, "f of each item, if it is a value", lambda f, xs: (
        tuple(itertools.chain(*(o.args for o in map(f, xs)))))),
    "zip": (2, "the pairs of items with the same index", lambda xs, ys: tuple(map(pair, xs, ys))),
    "enumerate_from": (2, "the items, each with its index from n on", lambda n, xs: (
        tuple(map(pair, itertools.count(n), xs)))),
    "sum_by": (2, "the sum of f of each item", lambda f, xs: sum(map(f, xs))),
    "count_by": (2, "how many items pass the test", lambda p, xs: sum(map(bool, map(p, xs)))),
    "prefix_len": (2, "how many items at the start pass the test", front_length),
    "suffix_len": (2, "how many items at the end pass the test", lambda p, xs: front_length(p, xs[::-1])),
    "position_or_len": (2, "the index of the first item that passes the test, or the length", first_place),
    "before_first": (2, "the items before the first that passes the test", lambda p, xs: (
        cut(xs, 0, first_place(p, xs)))),
    "after_first": (2, "the items after the first that passes the test", lambda p, xs: (
        after(xs, first_place(p, xs) + 1))),
    "slice_split": (2, "the pieces between items that pass the test", split),
    "join_with_byte": (2, "the pieces, with a byte between two of them", lambda byte, pieces: (
        tuple(itertools.chain(*pieces[:1], *((byte, *piece) for piece in pieces[1:]))))),
    "onto_first": (2, "the pieces, with x before the first, or as the only one", lambda x, pieces: (
        added((added((x,), pieces[0]),), after(pieces, 1)) if pieces else ((x,),))),
    "slice_get": (2, "the item at an index", lambda xs, i: option(i < len(xs), at(xs, i, 0))),
    "slice_index": (2, "the number at an index, or 0", lambda xs, i: at(xs, i, 0)),
    "slice_index_or": (3, "the item at an index, or a default", at),
    "slice_range": (3, "the items from one index up to another", lambda xs, a, b: cut(xs, a, max(a, b))),
    "bytes_eq": (2, "the lists are equal", lambda xs, ys: xs == ys),
    "pointwise": (3, "the lists are as long, and their items are related", lambda r, xs, ys: (
        len(xs) == len(ys) and all(r(x)(y) for x, y in zip(xs, ys)))),
    "prepend_known": (2, "the bytes, and then others if these are known", lambda xs, o: (
        some(xs + o.args[0]) if is_some(o) else NONE)),
    "last_or": (2, "the last item, or a default", lambda x, xs: some(xs[-1]) if xs else x),
    "slice_cmp": (3, "the order of the first items that differ, or of the lengths", first_difference),
    "is_some": (1, "it is a value", is_some), "is_none": (1, "it is no value", lambda o: not is_some(o)),
    "unwrap_or": (2, "the value, or a default", lambda o, x: o.args[0] if is_some(o) else x),
    "option_map": (2, "f of the value", lambda f, o: some(f(o.args[0])) if is_some(o) else NONE),
    "option_map_or": (3, "f of the value, or a default", lambda f, o, x: f(o.args[0]) if is_some(o) else x),
    "option_and_then": (2, "f of the value, which may be none", lambda f, o: f(o.args[0]) if is_some(o) else NONE),
    "option_or": (2, "the first if it is a value, otherwise the second", lambda o, p: o if is_some(o) else p),
    "option_to_list": (1, "the list of the value", lambda o: o.args),
    "option_eq": (3, "both are equal values, or neither is one", lambda e, o, p: (
        is_some(o) == is_some(p) and (not is_some(o) or e(o.args[0])(p.args[0])))),
    "ok_or": (2, "the value as a result, or the fault", lambda o, e: ok(o.args[0]) if is_some(o) else err(e)),
    "IfSome": (2, "the statement holds of the value, if it is one", lambda o, p: not is_some(o) or p(o.args[0])),
    "IfErr": (2, "the statement holds of the fault, if it is one", lambda r, p: is_ok(r) or p(r.args[0])),
    "is_ok": (1, "it is a result", is_ok),
    "result_ok": (1, "the result, if it is one", lambda r: option(is_ok(r), r.args[0])),
    "result_map_both": (3, "f of the result, or g of the fault", lambda f, g, r: (
        ok(f(r.args[0])) if is_ok(r) else err(g(r.args[0])))),
    "result_flatten": (1, "the result that a result is", lambda r: r.args[0] if is_ok(r) else r),
    "IsErrAnd": (2, "it is a fault, of which the statement holds", lambda r, p: not is_ok(r) and p(r.args[0])),
    "MatchResult": (3, "one statement of the result, or another one of the fault", lambda r, p, q: (
        p(r.args[0]) if is_ok(r) else q(r.args[0]))),
    "Appends": (3, "if the bytes before are known, those after are, and are these bytes more", (
        lambda old, new, items: not is_some(old) or is_some(new) and new.args[0] == old.args[0] + items)),
    "Consumes": (3, "if the bytes before are known, those after are, and these bytes come before them", (
        lambda old, new, items: not is_some(old) or is_some(new) and old.args[0] == items + new.args[0])),
    "codes": (1, "the bytes of a text", lambda text: text),
    "string_bytes": (1, "the same", lambda s: s.f_bytes.f_items),
    "decimal": (1, "the decimal digits of a number", lambda n: codes(str(n))),
    "digits": (3, "the digits of a number in a base, upper-case or not", digits),
    "is_ascii_hexdigit": (1, "a hexadecimal digit", lambda b: b in codes("0123456789abcdefABCDEF")),
    "big_number": (2, "the number of the first n bytes, the highest first; missing ones are 0", lambda n, xs: (
        int.from_bytes(bytes(xs[:n]), "big") << 8 * max(n - len(xs), 0))),
    "little_number": (2, "the number of the first n bytes, the lowest first; missing ones are 0", lambda n, xs: (
        int.from_bytes(bytes(xs[:n]), "little"))),
    "big_bytes": (2, "the lowest n bytes of a number, the highest first", lambda n, x: (
        tuple((x % 256 ** n).to_bytes(n, "big")))),
}

# The words of clap. They divide a command line by the rules of its arguments: options with one value, flags, and words.


class Refusal(CannotEvaluate):
    """clap refuses the words, or they ask for help; with the kind of error."""


def refuse(kind=None, *others):
    raise Refusal(kind or "UnknownArgument", *others)


def is_plain(word):
    return word[:1] != codes("-") or len(word) == 1


def level(shape, words, subcommands, asks, is_checked):
    """Divides words by the rules of a command. Returns the lists of values of its arguments, and the words from a
    subcommand on. An argument that is required may be missing unless the words are checked."""
    options = {codes("--") + rule.f_long.args[0]: rule for rule in reversed(shape.f_rules) if is_some(rule.f_long)}
    places = [rule for rule in shape.f_rules if not is_some(rule.f_long)]
    is_flag, takes_more = (lambda rule, kind=kind: rule.f_action == some(Case(kind)) for kind in ("SetTrue", "Append"))
    values, rest, has_ended = {}, list(words), False
    while rest:
        word = rest.pop(0)
        name, equals, value = (tuple(part) for part in bytes(word).partition(b"="))
        if not has_ended and word in subcommands:
            return values, [word, *rest]
        if not has_ended and word == codes("--"):
            has_ended = True
            continue
        if has_ended or is_plain(word):
            rule, value = places[0] if places else refuse(), word
            if takes_more(rule):
                values.setdefault(rule.f_id, []).append(word)
                continue
            places.pop(0)
        elif name not in options:
            refuse(asks.get(word if word[1] == ord("-") else word[:2]))
        else:
            rule = options[name]
            if is_flag(rule):
                value = refuse() if equals else codes("true")
            elif not equals:
                value = rest.pop(0) if rest and is_plain(rest[0]) else refuse()
        values[rule.f_id] = refuse() if rule.f_id in values else [value]
    for rule in shape.f_rules:
        if is_checked and rule.f_required and rule.f_id not in values:
            refuse()
        if is_flag(rule):
            values.setdefault(rule.f_id, [codes("false")])
    return values, []


def divided(app, words, is_checked=False):
    """Returns the subcommand that the words name, with the rows of its arguments."""
    top, subs = app.f_top, {shape.f_name: shape for shape in reversed(app.f_subs)}
    rules = itertools.chain(top.f_rules, *(shape.f_rules for shape in app.f_subs))
    if any(rule.f_value_names > 1 for rule in rules):
        cannot("an argument with several values")
    asks = {codes("--help"): "DisplayHelp", codes("-h"): "DisplayHelp"}
    version = {codes("--version"): "DisplayVersion", codes("-V"): "DisplayVersion"} if top.f_has_version else {}
    own = () if top.f_disable_help_subcommand else (codes("help"),)
    _, rest = level(top, words[1:], (*subs, *own), asks | version, is_checked)
    if not rest:
        return refuse() if is_checked and top.f_subcommand_required else NONE
    if rest[0] in own:
        refuse("DisplayHelp", "InvalidSubcommand")
    values, _ = level(subs[rest[0]], rest[1:], (), asks, is_checked)
    return some(pair(rest[0], tuple(Record(f_id=name, f_values=tuple(found)) for name, found in values.items())))


def fault_of(app, words):
    try:
        divided(app, words, True)
        return ()
    except Refusal as refusal:
        return tuple(map(Case, refusal.args))


LIBRARY |= {
    "new_rule": (1, "the rule of an argument with this name, without settings", lambda name: (
        Record(f_id=name, f_long=NONE, f_action=NONE, f_value_names=0, f_required=False))),
    "new_app": (1, "a command with this name, without arguments and subcommands", lambda name: Record(
        f_top=Record(f_name=name, f_rules=(), f_has_version=False, f_subcommand_required=False,
                     f_disable_help_subcommand=False), f_subs=())),
    "with_rule": (2, "a command with one more argument", lambda app, rule: (
        app.updated(f_top=app.f_top.updated(f_rules=app.f_top.f_rules + (rule,))))),
    "with_subcommand": (2, "a command with one more subcommand", lambda app, shape: (
        app.updated(f_subs=app.f_subs + (shape,)))),
    "fault_of": (2, "the kinds of error by which clap refuses the words", fault_of),
    "subcommand_of": (2, "the subcommand that the words name, with the rows of its arguments", divided),
    "first_of": (2, "the first value of an argument", lambda name, rows: (
        next((some(row.f_values[0]) for row in rows if row.f_id == name), NONE))),
    "all_of": (2, "the values of an argument", lambda name, rows: (
        next((some(row.f_values) for row in rows if row.f_id == name), NONE))),
}
