"""Values of definitions as Python values, and the words of the standard library that definitions use.

A natural or whole number is an int, a truth value a bool, a list a list or bytes, a pair a tuple,
an absent option None and a present one a tuple of one part. A value of a `data` type is a tuple of
a `Tag` and its parts, a record an object of a class made for its labels. A function of several
arguments takes them one by one.
"""

import re
from functools import reduce
from itertools import islice

# No list is made longer than this: a definition may say that a column has 2^62 nulls.
LONGEST = 300_000


class TooLarge(Exception):
    """A value that is too large to be made."""


class NoCase(Exception):
    """No clause of a definition fits."""


class Tag(str):
    """The name of a constructor."""

    __slots__ = ()


class TypeValue:
    """Stands for a type where a definition hands one on."""

    def __call__(self, *_):
        return self

    def __repr__(self):
        return "a type"


TYPE = TypeValue()


class Record:
    """What all classes of records are made from; the labels are in `labels`."""

    __slots__ = ()
    labels = ()

    def __eq__(self, other):
        return type(self) is type(other) and all(
            same(getattr(self, slot), getattr(other, slot)) for slot in self.__slots__
        )

    def __hash__(self):
        return hash(tuple(getattr(self, slot) for slot in self.__slots__))

    def parts(self):
        return [(label, getattr(self, slot)) for label, slot in zip(self.labels, self.__slots__)]

    def __repr__(self):
        return shown(self)


def mangled(name):
    """A name as a part of a Python name."""
    return re.sub(r"[^A-Za-z0-9_]", lambda found: "_%x_" % ord(found.group()), name)


CLASSES = {}


def record_class(labels):
    """The class of the records with these labels, in the order of the alphabet."""
    if labels not in CLASSES:
        slots = tuple("f_" + mangled(label) for label in labels)
        lines = ["def __init__(self%s):" % "".join(", " + slot for slot in slots)]
        lines += ["    self.%s = %s" % (slot, slot) for slot in slots] + ["    return"]
        made = {}
        exec("\n".join(lines), made)
        CLASSES[labels] = type("Record", (Record,), {
            "__slots__": slots, "labels": labels, "__init__": made["__init__"],
        })
    return CLASSES[labels]


def record_of(**parts):
    """A record with these parts."""
    labels = tuple(sorted(parts))
    return record_class(labels)(*[parts[label] for label in labels])


def record_with(base, labels, values):
    """A record with some parts replaced."""
    parts = dict(base.parts())
    parts.update(zip(labels, values))
    return record_of(**parts)


class Delayed:
    """The value of a `let`, found when it is first asked for."""

    __slots__ = ("make", "value")

    def __init__(self, make):
        self.make, self.value = make, None

    def __call__(self):
        if self.make is not None:
            self.value, self.make = self.make(), None
        return self.value


def curried(count, function):
    """A function of several arguments as one that takes them one by one."""
    if count == 1:
        return function
    if count == 2:
        return lambda a: lambda b: function(a, b)
    if count == 3:
        return lambda a: lambda b: lambda c: function(a, b, c)

    def collect(given):
        if len(given) == count - 1:
            return lambda last: function(*given, last)
        return lambda next_one: collect(given + (next_one,))

    return collect(())


def called(function, *arguments):
    """A value applied to arguments, one by one."""
    for argument in arguments:
        function = function(argument)
    return function


def same(a, b):
    """Whether two values are the same, bytes and lists of numbers alike."""
    if isinstance(a, SEQUENCES) and isinstance(b, SEQUENCES):
        if type(a) is type(b) is bytes:
            return a == b
        return len(a) == len(b) and all(map(same, a, b))
    if type(a) is tuple and type(b) is tuple:
        return len(a) == len(b) and all(map(same, a, b))
    return a == b


def shown(value, most=48):
    """A value as text; bytes in hexadecimal."""
    if isinstance(value, Record):
        return "{ %s }" % "; ".join("%s = %s" % (label, shown(part)) for label, part in value.parts())
    if value is None or isinstance(value, bool):
        return str(value) if value is None else str(value).lower()
    if isinstance(value, Chain):
        value = list(value)
    if isinstance(value, (bytes, list)) and value and all(type(x) is int and 0 <= x < 256 for x in value):
        return shown_bytes(bytes(value), most)
    if isinstance(value, (bytes, list)):
        return "[%s]" % ", ".join(shown(part) for part in value)
    if isinstance(value, tuple):
        if isinstance(value[0], Tag):
            return value[0] if len(value) == 1 else "(%s)" % " ".join([value[0]] + [shown(x) for x in value[1:]])
        return "Some " + shown(value[0]) if len(value) == 1 else "(%s)" % ", ".join(map(shown, value))
    return repr(value)


def shown_bytes(content, most):
    if len(content) <= 40 and re.fullmatch(rb"[ -~]+", content):
        return '"%s"' % content.decode()
    more = " .." if len(content) > most else ""
    return "<%d bytes: %s%s>" % (len(content), content[:most].hex(" "), more)


# ---- lists

class Chain:
    """A long list whose rest is shared with others: a first part, the rest, and how many parts there are."""

    __slots__ = ("first", "rest", "size")

    def __init__(self, first, rest):
        self.first, self.rest, self.size = first, rest, len(rest) + 1

    def __len__(self):
        return self.size

    def __iter__(self):
        while type(self) is Chain:
            yield self.first
            self = self.rest
        yield from self

    def __getitem__(self, place):
        if place == 0:
            return self.first
        if not isinstance(place, slice):
            return next(islice(self, place, None))
        if place.step is not None:
            return list(self)[place]
        start, stop = min(place.start or 0, self.size), place.stop
        if stop is not None:
            return list(islice(self, start, max(start, min(stop, self.size))))
        while start > 0 and type(self) is Chain:
            self, start = self.rest, start - 1
        return self[start:] if start else self

    def __add__(self, other):
        return list(self) + list(other)

    def __radd__(self, other):
        return list(other) + list(self)


SEQUENCES = (list, bytes, Chain)
# From this length on lists share their rests.
LONG = 400


def consed(head, rest):
    """Some first parts, and a list behind them."""
    if type(rest) is list and len(rest) < LONG:
        return head + rest
    if len(rest) > LONGEST:
        raise TooLarge()
    if len(rest) < LONG:
        return head + list(rest)
    for part in reversed(head):
        rest = Chain(part, rest)
    return rest


def rest_of(values):
    """A list without its first part."""
    if type(values) is Chain:
        return values.rest
    if type(values) is list and len(values) > LONG:
        out = values[-LONG:]
        for place in range(len(values) - LONG - 1, 0, -1):
            out = Chain(values[place], out)
        return out
    return values[1:]


def joined(a, b):
    if type(a) is type(b):
        if len(a) + len(b) > 100 * LONGEST:
            raise TooLarge()
        return a + b
    if len(a) == 0 or len(b) == 0:
        return a or b
    return list(a) + list(b)


def repeated(count, value):
    if count > LONGEST:
        raise TooLarge()
    return bytes([value]) * count if type(value) is int and 0 <= value < 256 else [value] * count


def numbers_from(first, count):
    if count > LONGEST:
        raise TooLarge()
    return list(range(first, first + count))


def flat_mapped(function, values):
    parts = [function(value) for value in values]
    if parts and all(type(part) is bytes for part in parts):
        return b"".join(parts)
    return [value for part in parts for value in part]


def kept(function, values):
    return [made[0] for made in map(function, values) if made is not None]


def found_at(values, index):
    return (values[index],) if index < len(values) else None


def value_at(values, index, otherwise):
    return values[index] if index < len(values) else otherwise


def replaced_at(values, index, value):
    if index >= len(values):
        return values
    return list(values[:index]) + [value] + list(values[index + 1 :])


def first_with(test, values):
    return next(((value,) for value in values if test(value)), None)


def place_with(test, values):
    return next(((place,) for place, value in enumerate(values) if test(value)), None)


def taken_while(test, values):
    place = place_with(lambda value: not test(value), values)
    return values if place is None else values[: place[0]]


def all_pairs(test, a, b):
    """Whether two lists are as long and each pair passes."""
    if len(a) != len(b):
        return False
    return all(test(x)(y) for x, y in zip(a, b))


def ordered(a, b):
    return (LESS if a < b else GREATER if b < a else EQUAL,)


def compared(compare, a, b):
    for x, y in zip(a, b):
        order = compare(x)(y)
        if order[0] is not EQUAL:
            return order
    return ordered(len(a), len(b))


def inserted(compare, entries, key, value):
    for place, entry in enumerate(entries):
        order = compare(key)(entry[0])[0]
        if order is LESS:
            return entries[:place] + [(key, value)] + entries[place:]
        if order is EQUAL:
            return entries[:place] + [(entry[0], value)] + entries[place + 1 :]
    return list(entries) + [(key, value)]


def looked_up(test, entries):
    return next(((entry[1],) for entry in entries if test(entry[0])), None)


def without_entry(test, entries):
    for place, entry in enumerate(entries):
        if test(entry[0]):
            return entries[:place] + entries[place + 1 :]
    return entries


def repeatedly(function, count, value):
    for _ in range(count):
        value = function(value)
    return value


# ---- numbers, text

def is_text(content):
    try:
        bytes(content).decode("utf-8")
    except ValueError:
        return False
    return True


def signed(bits, number):
    return number - (1 << bits) if number >> (bits - 1) & 1 else number


def unsigned(bits, number):
    return number if number >= 0 else max(0, (1 << bits) + number)


def bytes_of(order):
    return lambda bits, number: (number % (1 << bits)).to_bytes(bits // 8, order)


def number_of(order):
    def read(bits, content):
        part = bytes(content[: bits // 8])
        return int.from_bytes(part + bytes(bits // 8 - len(part)), order)

    return read


def quotient(a, b):
    return a // b if b else 0


def remainder(a, b):
    return a % b if b else a


def implied(a, b):
    return TYPE if a is TYPE or b is TYPE else (not a or b)


LESS, EQUAL, GREATER, OK, ERR, UNIT = map(Tag, ("Less", "Equal", "Greater", "Ok", "Err", "tt"))
CONSTANTS = {
    "⊥": False, "⊤": True, "tt": (UNIT,), "Less": (LESS,), "Equal": (EQUAL,), "Greater": (GREATER,),
    "w8": 8, "w16": 16, "w32": 32, "w64": 64, "w128": 128,
}
TYPES = {
    "ℕ", "ℤ", "Bool", "List", "Option", "Unit", "Width", "Result", "Ordering", "String", "Vec", "Type", "𝕀",
}
FUNCTIONS = {
    "length": (1, len), "map": (2, lambda f, xs: [f(x) for x in xs]), "reverse": (1, lambda xs: xs[::-1]),
    "take": (2, lambda n, xs: xs[:n]), "drop": (2, lambda n, xs: xs[n:]), "replicate": (2, repeated),
    "range_with_len": (2, numbers_from), "concat": (1, lambda xs: reduce(joined, xs, [])),
    "filter": (2, lambda f, xs: [x for x in xs if f(x)]), "filter_map": (2, kept), "flat_map": (2, flat_mapped),
    "fold": (3, lambda f, a, xs: reduce(lambda b, x: f(b)(x), xs, a)), "zip": (2, lambda a, b: list(zip(a, b))),
    "list_all": (2, lambda f, xs: all(map(f, xs))), "list_any": (2, lambda f, xs: any(map(f, xs))),
    "find": (2, first_with), "position": (2, place_with), "take_while": (2, taken_while),
    "push": (2, lambda xs, x: joined(xs, [x])), "cons_option": (2, lambda o, xs: xs if o is None else consed([o[0]], xs)),
    "slice_get": (2, found_at), "slice_index": (2, lambda xs, i: value_at(xs, i, 0)),
    "slice_index_or": (3, value_at), "get_or": (3, value_at), "slice_set": (3, replaced_at), "set": (3, replaced_at),
    "slice_range": (3, lambda xs, a, b: xs[a : max(a, b)]), "pointwise": (3, all_pairs),
    "starts_with": (3, lambda f, xs, ys: all_pairs(f, ys, xs[: len(ys)])), "slice_cmp": (3, compared),
    "sum": (1, sum), "sum_by": (2, lambda f, xs: sum(map(f, xs))), "count_by": (2, lambda f, xs: sum(1 for x in xs if f(x))),
    "lookup": (2, looked_up), "insert_entry": (4, inserted), "remove_entry": (2, without_entry), "iterate": (3, repeatedly),
    "min": (2, min), "max": (2, max), "suc": (1, lambda n: n + 1), "pred": (1, lambda n: max(0, n - 1)),
    "pos": (1, lambda n: n), "negsuc": (1, lambda n: -1 - n), "neg_ℤ": (1, lambda z: -z), "nat_abs": (1, abs),
    "unsigned_abs": (1, abs), "nat_eq": (2, lambda a, b: a == b), "nat_lt": (2, lambda a, b: a < b),
    "nat_le": (2, lambda a, b: a <= b), "int_eq": (2, lambda a, b: a == b), "int_lt": (2, lambda a, b: a < b),
    "int_le": (2, lambda a, b: a <= b), "nat_cmp": (2, ordered), "int_cmp": (2, ordered),
    "div_ceil": (2, lambda a, b: quotient(a, b) + min(1, remainder(a, b))), "bits": (1, lambda w: w),
    "next_multiple_of": (2, lambda a, b: a + remainder(b - remainder(a, b), b)), "byte_len": (1, lambda w: w // 8),
    "hbits": (1, lambda w: w - 1), "bit_and": (2, lambda a, b: a & b), "bit_or": (2, lambda a, b: a | b),
    "bit_xor": (2, lambda a, b: a ^ b), "to_le_bytes": (2, bytes_of("little")), "to_be_bytes": (2, bytes_of("big")),
    "from_le_bytes": (2, number_of("little")), "from_be_bytes": (2, number_of("big")), "cast_signed": (2, signed),
    "cast_unsigned": (2, unsigned), "from_bool": (1, int), "not": (1, lambda b: not b), "xor": (2, lambda a, b: a != b),
    "beq": (2, lambda a, b: a == b), "then_some": (2, lambda b, x: (x,) if b else None), "Some": (1, lambda x: (x,)),
    "is_some": (1, lambda o: o is not None), "is_none": (1, lambda o: o is None),
    "unwrap_or": (2, lambda o, x: x if o is None else o[0]), "option_or": (2, lambda o, p: p if o is None else o),
    "option_and": (2, lambda o, p: None if o is None else p), "option_to_list": (1, lambda o: [] if o is None else [o[0]]),
    "option_map": (2, lambda f, o: None if o is None else (f(o[0]),)), "option_flatten": (1, lambda o: None if o is None else o[0]),
    "option_and_then": (2, lambda f, o: None if o is None else f(o[0])),
    "option_map_or": (3, lambda f, o, x: x if o is None else f(o[0])),
    "option_zip": (2, lambda o, p: None if o is None or p is None else ((o[0], p[0]),)),
    "ok_or": (2, lambda o, e: (ERR, e) if o is None else (OK, o[0])), "Ok": (1, lambda x: (OK, x)), "Err": (1, lambda x: (ERR, x)),
    "is_utf8": (1, is_text), "IsUtf8": (1, is_text), "codes": (1, lambda text: text), "bytes_eq": (2, same),
    "string_bytes": (1, lambda text: text), "vec_items": (1, lambda xs: xs), "box_value": (1, lambda x: x),
    "all_ascii_digits": (1, lambda xs: all(48 <= x < 58 for x in xs)), "digits_value": (1, lambda xs: int(bytes(xs) or b"0")),
    "¬": (1, lambda p: not p), "IsTrue": (1, lambda b: b), "IsFalse": (1, lambda b: not b), "Contains": (2, lambda xs, x: x in xs),
    "All": (2, lambda f, xs: all(map(f, xs))), "Any": (2, lambda f, xs: any(map(f, xs))), "IsSome": (1, lambda o: o is not None),
    "IsNone": (1, lambda o: o is None), "IsSomeAnd": (2, lambda o, f: o is not None and f(o[0])),
    "IfSome": (2, lambda o, f: o is None or f(o[0])), "ForSome": (2, lambda o, f: o is None or f(o[0])),
    "IfNone": (2, lambda o, p: o is not None or p), "OnSome": (2, lambda o, p: o is None or p),
    "IfOk": (2, lambda r, f: r[0] is ERR or f(r[1])), "IfErr": (2, lambda r, f: r[0] is OK or f(r[1])),
    "MatchOption": (3, lambda o, p, f: p if o is None else f(o[0])),
}
OPERATORS = {
    "+": "(%s + %s)", "*": "(%s * %s)", "-": "max(0, %s - %s)", "/": "quotient(%s, %s)", "%": "remainder(%s, %s)",
    "^": "(%s ** %s)", "==": "(%s == %s)", "<": "(%s < %s)", "≤": "(%s <= %s)", "≡": "same(%s, %s)",
    "≢": "(not same(%s, %s))", "++": "joined(%s, %s)", "↔": "(bool(%s) == bool(%s))", "→": "implied(%s, %s)",
    "+ℤ": "(%s + %s)", "-ℤ": "(%s - %s)", "*ℤ": "(%s * %s)", "<ℤ": "(%s < %s)", "≤ℤ": "(%s <= %s)",
}
# Operators whose second operand counts only after one answer of the first.
WAITING = {"&&": "and", "||": "or", "×": "and", "⊎": "or"}
