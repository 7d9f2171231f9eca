"""Quicker ways to the values of some definitions over long lists.

Each function says by the text below its first line which definitions it computes: the equations, as they are in
specs/. It is taken for the last of them if the definitions still have these texts, and only for lists of at least SHORT
items. tests/definitions/test_evaluator.py compares it with the equations. Each gets the definitions, the function by
the equations, and the arguments.
"""

import bisect
import heapq
import inspect
import re

from kit import SHORT, pair, some


def groups(definitions, plain, label, fields, is_sorted, rows):
    """The groups of rows by what they have in the fields, in one table.

    flow_uniq/Grouped grouped same [] = []
    grouped same (x ∷ xs) =
    (x, filter (same x) xs) ∷ filter (λ g. not (same x g.0)) (grouped same xs)
    flow_uniq/Grouped compare_by fields r s =
    slice_cmp compare_parts (key_of label fields r) (key_of label fields s)
    flow_uniq/Grouped row_groups fields sorted rows =
    let groups = grouped (λ r s. is_eq (compare_by fields r s)) rows in
    if sorted then in_order (λ g h. is_lt (compare_by fields g.0 h.0)) groups else groups
    """
    if len(rows) < SHORT:
        return plain(label, fields, is_sorted, rows)
    part, numbers = (definitions.function("flow_uniq/Key", name) for name in ("key_part", "part_numbers"))
    table = {}
    for row in rows:
        table.setdefault(tuple(tuple(numbers(part(label, row, field))) for field in fields), []).append(row)
    found = (table[key] for key in (sorted(table) if is_sorted else table))
    return tuple(pair(rows[0], tuple(rows[1:])) for rows in found)


def in_order(definitions, plain, is_less, items):
    """The items, merged from two halves in order.

    pmap_model/Sorting with_in_order x [] = x ∷ []
    with_in_order x (y ∷ ys) = if is_less y x then y ∷ with_in_order x ys else x ∷ y ∷ ys
    pmap_model/Sorting in_order [] = []
    in_order (x ∷ xs) = with_in_order x (in_order xs)
    """
    if len(items) < SHORT:
        return plain(is_less, items)
    middle = len(items) // 2
    front, back = (list(in_order(definitions, plain, is_less, half))[::-1] for half in (items[:middle], items[middle:]))
    made = []
    while front and back:
        made.append(back.pop() if is_less(back[-1])(front[-1]) else front.pop())
    return tuple(made + front[::-1] + back[::-1])


class Ranges:
    """The number of the last of some ranges that has an address, for each address: the numbers from `starts` on."""

    def __init__(self, ranges):
        """`ranges` are a first and a last address, or nothing if no address is meant."""
        begins = sorted((low, number, high) for number, (low, high) in enumerate(ranges) if low <= high)
        ends = sorted({0, *(low for low, _, _ in begins), *(high + 1 for _, _, high in begins)})
        self.starts, self.numbers, here, place = ends, [], [], 0
        for start in ends:
            while place < len(begins) and begins[place][0] <= start:
                heapq.heappush(here, (-begins[place][1], begins[place][2]))
                place += 1
            while here and here[0][1] < start:
                heapq.heappop(here)
            self.numbers.append(-here[0][0] if here else -1)
        self.highest = [self.numbers]  # of the greatest numbers of 2, 4, 8 .. consecutive ones
        while 2 ** len(self.highest) <= len(ends):
            size, last = 2 ** (len(self.highest) - 1), self.highest[-1]
            self.highest.append([*map(max, last, last[size:])])

    def place(self, address):
        """Returns the index of the last start up to an address. If the address is that of a span, it is also that of
        all numbers of the span, which one comparison shortens, up to the next start."""
        least = address if type(address) is int else address.of(address.span[0])
        place = bisect.bisect_right(self.starts, least) - 1
        if least is not address and place + 1 < len(self.starts):
            _ = address < self.starts[place + 1]
        return place

    def last_at(self, address):
        """Returns the number of the last range with this address, or -1. The address may be a number of a span."""
        return self.numbers[self.place(address)]

    def last_among(self, low, high):
        """Returns the number of the last range with one of these addresses, or -1."""
        first, last = self.place(low), self.place(high)
        level = (last - first + 1).bit_length() - 1
        return max(self.highest[level][first], self.highest[level][last + 1 - 2 ** level])


def ranges_of(definitions, items, ends):
    """Returns the ranges that the items have, which are kept as long as they are those of the last lists."""
    kept = definitions.values.setdefault("ranges", {})
    if id(items) not in kept:
        if len(kept) > 20:
            kept.clear()
        kept[id(items)] = items, Ranges(ends(items))
    return kept[id(items)][1]


def spans(mappings):
    return [(m.f_low, m.f_high) for m in mappings]


def map_label(definitions, plain, m, a):
    """The label of the last mapping at the address, by the ranges in which one is the last.

    pmap_model/MapModel last_such p [] = None
    last_such p (m ∷ ms) = option_or (last_such p ms) (if p m then Some m else None)
    pmap_model/MapModel spans a m = nat_le m.low a && nat_le a m.high
    pmap_model/MapModel map_label m a = option_map_or (λ p. p.label) (last_such (spans a) m.mappings) m.fallback
    """
    if len(m.f_mappings) < SHORT:
        return plain(m, a)
    number = ranges_of(definitions, m.f_mappings, spans).last_at(a)
    return m.f_mappings[number].f_label if number >= 0 else m.f_fallback


def settled_label(definitions, plain, m, n, q):
    """The label of the last mapping at one of the block's addresses.

    prefix_keys/Block first_of W n q = q * 2 ^ (W - n)
    prefix_keys/Block last_of W n q = (q + 1) * 2 ^ (W - n) - 1
    pmap_model/MapModel last_such p [] = None
    last_such p (m ∷ ms) = option_or (last_such p ms) (if p m then Some m else None)
    pmap_model/MapModel meets W n q m = nat_le m.low (last_of W n q) && nat_le (first_of W n q) m.high
    pmap_model/MapModel settled_label m n q =
    settled_by (width_of m.version) n q m.fallback
    (last_such (meets (width_of m.version) n q) m.mappings)
    """
    if len(m.f_mappings) < SHORT or type(q) is not int:
        return plain(m, n, q)
    width = definitions.function("prefix_keys/Block", "width_of")(m.f_version)
    size = 2 ** max(width - n, 0)
    number = ranges_of(definitions, m.f_mappings, spans).last_among(q * size, (q + 1) * size - 1)
    settled_by = definitions.function("pmap_model/MapModel", "settled_by")
    return settled_by(width, n, q, m.f_fallback, some(m.f_mappings[number]) if number >= 0 else definitions.none)


def list_label(definitions, plain, l, a):
    """The label of the longest entry at the address, by the ranges in which one is the longest.

    prefix_keys/Block block_number W n a = a / 2 ^ (W - n)
    pmap_model/ListModel covers W n a p = p.bits == n && block_number W n p.start == block_number W n a
    pmap_model/ListModel label_below W ps zero a = None
    label_below W ps (suc n) a =
    option_or (option_map (λ p. p.label) (find (covers W n a) ps)) (label_below W ps n a)
    pmap_model/ListModel list_label l a = label_below (width_of l.version) l.prefixes (suc (width_of l.version)) a
    """
    if len(l.f_prefixes) < SHORT:
        return plain(l, a)
    width = definitions.function("prefix_keys/Block", "width_of")(l.f_version)
    rank = definitions.values.setdefault("entries", {})
    if id(l.f_prefixes) not in rank:
        rank.clear()
        entries = sorted(enumerate(l.f_prefixes), key=lambda pair: (pair[1].f_bits, -pair[0]))
        rank[id(l.f_prefixes)] = l.f_prefixes, [entry for _, entry in entries if entry.f_bits <= width]
    entries = rank[id(l.f_prefixes)][1]
    size = lambda entry: 2 ** (width - entry.f_bits)
    number = ranges_of(definitions, entries, lambda found: [
        (entry.f_start // size(entry) * size(entry), (entry.f_start // size(entry) + 1) * size(entry) - 1)
        for entry in found]).last_at(a)
    return some(entries[number].f_label) if number >= 0 else definitions.none


def has_prefix(definitions, plain, prefixes, start, bits):
    """Whether there is such an entry, by a table to which those of a longer list are added.

    pmap_text/Reading has_prefix prefixes start bits = list_any (λ p. p.start == start && p.bits == bits) prefixes
    """
    if len(prefixes) < SHORT or not hasattr(prefixes, "items") or prefixes.start:
        return plain(prefixes, start, bits)
    kept = definitions.values.get("prefixes")
    if not kept or kept[0] is not prefixes.items or kept[2] > prefixes.stop:
        kept = definitions.values["prefixes"] = [prefixes.items, set(), 0]
    kept[1].update((p.f_start, p.f_bits) for p in prefixes.items[kept[2]:prefixes.stop])
    kept[2] = prefixes.stop
    return (start, bits) in kept[1]


def column_width(definitions, plain, lines, index):
    """The width of a column, which is kept as long as it is that of the last table.

    pmap_print/Table column_width lines index =
    fold max 0 (map (λ fields. length (slice_index_or fields index [])) lines)
    """
    if len(lines) < SHORT:
        return plain(lines, index)
    kept = definitions.values.get("columns")
    if not kept or kept[0] is not lines:
        kept = definitions.values["columns"] = lines, {}
    if index not in kept[1]:
        kept[1][index] = plain(lines, index)
    return kept[1][index]


def equations(function):
    """Returns the module, the name and the equations of each definition that a function computes."""
    found = []
    for line in inspect.cleandoc(function.__doc__).split("\n\n")[1].split("\n"):
        begins = re.match(r"(\w+/\w+) (\w+) ", line)
        if begins:
            found.append([begins[1], begins[2], line[len(begins[1]) + 1:]])
        else:
            found[-1][2] += " " + line
    return [(module, name, " ".join(text.split())) for module, name, text in found]


QUICK = {equations(function)[-1][:2]: (function, equations(function)) for function in (
    groups, in_order, map_label, settled_label, list_label, has_prefix, column_width)}
