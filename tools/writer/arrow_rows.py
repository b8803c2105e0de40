"""Which rows of values are accepted into open columns, and random rows that are and that are not.

Written from the public formats and the profile of this project, apart from the definitions of `specs/`.
"""

from arrow_sealed import distinct, is_of_type
from arrow_stored import StoredColumns
from arrow_trees import numbered
from arrow_types import BYTES, INTEGERS, KINDS, LISTS, TEXTS, Field, child_fields, holds_union, kind_of, storage_of

# Values of several types, most of which do not fit a column, and values out of their kind's range.
OTHER_CELLS = (
    True, ("number", "Int32", 1), ("number", "Int64", 1), ("pair", "DaysMs", 1, 2), ("text", b"a"), ("bytes", b"abc"),
    ("items", ()), ("items", (None,)), ("items", (None, None)), ("fields", ()), ("fields", (None,)), ("fields", (None, None)), None,
)
OUT_OF_RANGE = (
    ("number", "Int8", 128), ("number", "Int32", -(2**31) - 1), ("number", "UInt8", -1), ("number", "UInt8", 256),
    ("pair", "DaysMs", 1, 2**31), ("triple", "MonthDayNano", 1, 2, 2**63), ("text", b"\xff"), ("text", "ü".encode()),
)


def is_in_range(data_type, slot):
    """Whether the numbers of a value are those of its kind, and a text is UTF-8, at every depth; its shape fits already."""
    data_type = storage_of(data_type[2] if data_type[0] == "Dictionary" else data_type)
    if slot is None or isinstance(slot, bool):
        return True
    if kind_of(data_type):
        bounds = {"DaysMs": (31, 31), "MonthDayNano": (31, 31, 63), "Int128": (127,), "Int256": (255,)}.get(slot[1])
        if bounds is None:
            bits, is_signed = INTEGERS[slot[1]]
            return -(1 << bits - 1) <= slot[2] < 1 << bits - 1 if is_signed else 0 <= slot[2] < 1 << bits
        return all(-(1 << bits) <= number < 1 << bits for number, bits in zip(slot[2:], bounds))
    if slot[0] == "text":
        return is_text(slot[1])
    if slot[0] in ("items", "fields"):
        fields = child_fields(data_type)
        fields = fields * len(slot[1]) if slot[0] == "items" else fields
        return all(is_in_range(field.data_type, part) for field, part in zip(fields, slot[1]))
    return True


def is_text(content):
    try:
        content.decode("utf-8")
    except UnicodeDecodeError:
        return False
    return True


def keys_reach(data_type, slots):
    """Whether the keys of each dictionary of a type tell apart the distinct values that these slots bring to it."""
    name = data_type[0]
    if name == "Extension":
        return keys_reach(data_type[2], slots)
    if name == "Dictionary":
        bits, is_signed = INTEGERS[data_type[1]]
        values = distinct(slots)
        return len(values) <= 1 << bits - is_signed and keys_reach(data_type[2], values)
    if name in ("List", "LargeList"):
        return keys_reach(data_type[1].data_type, [item for slot in slots if slot for item in slot[1]])
    if name == "FixedSizeList":
        none = (None,) * data_type[2]
        return keys_reach(data_type[1].data_type, [item for slot in slots for item in (slot[1] if slot else none)])
    if name == "Struct":
        columns = ([slot[1][k] if slot else None for slot in slots] for k in range(len(data_type[1])))
        return all(keys_reach(field.data_type, column) for field, column in zip(data_type[1], columns))
    return True


def fits_column(data_type, slots):
    """Whether slots fit a column of a type together; no column here is long enough to pass a limit of lengths and offsets."""
    return all(takes(data_type, slot) for slot in slots) and keys_reach(data_type, slots)


def takes(data_type, slot):
    """Whether a type takes a value by itself: no map is taken."""
    return is_of_type(data_type, slot) and is_in_range(data_type, slot) and without_maps(data_type, slot) == slot


def accepts(fields, rows, row):
    """Whether a row is accepted where some rows are open; without fields none is."""
    if not fields or len(row) != len(fields):
        return False
    return all(fits_column(field.data_type, [other[k] for other in rows] + [row[k]]) for k, field in enumerate(fields))


def without_maps(data_type, slot):
    """A value with null in place of each map, which takes no cell."""
    data_type = storage_of(data_type[2] if data_type[0] == "Dictionary" else data_type)
    if data_type[0] == "Map" or slot is None or isinstance(slot, bool) or slot[0] not in ("items", "fields"):
        return None if data_type[0] == "Map" else slot
    fields = child_fields(data_type)
    fields = fields * len(slot[1]) if slot[0] == "items" else fields
    return (slot[0], tuple(without_maps(field.data_type, part) for field, part in zip(fields, slot[1])))


def other_row(row, random):
    """A row that may be of another width, or with another value in one place."""
    row = list(row)
    choice = random.random()
    if choice < 0.2:
        row = row[:-1] if random.random() < 0.5 else row + [None]
    elif choice < 0.6 and row:
        row[random.randrange(len(row))] = random.choice(OTHER_CELLS + OUT_OF_RANGE)
    return tuple(row)


def full_dictionaries():
    """Fields of a dictionary with as many values as its keys tell apart, and no fields, the rows so far, and rows to be pushed, of which the
    last is too much."""
    number, dictionary = (lambda n: ("number", "Int32", n)), ("Dictionary", "Int8", ("Int32",), False)
    values = tuple(number(n) for n in range(128))
    yield [Field(b"", dictionary, True, ())], [(value,) for value in values], [(number(5),), (number(128),)]
    lists = ("List", Field(b"item", dictionary, True, ()))
    yield [Field(b"", lists, True, ())], [(("items", values),)], [(("items", (None, number(-1))),)]
    yield [], [], [()]


class ColumnsOfSlots(StoredColumns):
    """Makes columns that store their values and nothing else."""

    def __init__(self, terms):
        super().__init__(None, terms)

    def mask(self, slots):
        return ([slot is not None for slot in slots],) if None in slots else None

    def fillers(self, data_type, most):
        return ()

    def numbers(self, kind):
        return (0,) * len(KINDS[kind])

    def flat(self, data_type, slots):
        name, make = data_type[0], self.terms.plain
        if name == "Boolean":
            return make("bits", [slot is True for slot in slots])
        if name == "FixedSizeBinary":
            return make("fixed_bytes", data_type[1], list(b"".join(slot[1] if slot else bytes(data_type[1]) for slot in slots)))
        if name in BYTES:
            offsets, content = self.offsets([slot[1] if slot else b"" for slot in slots], b"")
            return make("texts" if name in TEXTS else "byte_strings", offsets, list(content))
        return super().flat(data_type, slots)

    def dictionary(self, whole, data_type, slots):
        values = distinct(slots)
        keys = [values.index(slot) if slot is not None else 0 for slot in slots]
        return self.terms.plain("dictionary", whole, self.mask(slots), keys, self.column(data_type[2], values))


def number_widths(data_type):
    """For each buffer of a column, in pre-order, the bytes of the numbers of an element; none where it is of marks or bytes."""
    data_type = storage_of(data_type)
    name = data_type[0]
    if name == "Null":
        return []
    if name in LISTS:
        return [(), (LISTS[name],), *number_widths(data_type[1].data_type)]
    if name in ("FixedSizeList", "Struct"):
        return [(), *(widths for field in child_fields(data_type) for widths in number_widths(field.data_type))]
    if name in BYTES:
        return [(), (BYTES[name],), ()]
    if name in ("Boolean", "FixedSizeBinary"):
        return [(), ()]
    kind = data_type[1] if name == "Dictionary" else kind_of(data_type)
    return [(), tuple(width for width, _ in KINDS[kind])]


def turned(widths, buffer):
    """A buffer in the other byte order: each number of each element turned around by itself."""
    out, at = [], 0
    while widths and at < len(buffer):
        for width in widths:
            out += reversed(buffer[at : at + width])
            at += width
    return type(buffer)(out) if widths else buffer


class RowComparison:
    """Compares columns of slots and rows of cells; each comparison says what differs, or None."""

    def __init__(self, defined, counts):
        self.defined, self.counts = defined, counts

    def compare_table(self, table, random):
        """Columns that store the rows' slots and nothing else, and whether the last row is accepted, or another one."""
        fields = table.schema.fields
        if len(table.rows) > 50 or any(holds_union(field.data_type) for field in fields):
            return None
        rows = [tuple(without_maps(field.data_type, slot) for field, slot in zip(fields, row)) for row in table.rows]
        columns = [[row[k] for row in rows] for k in range(len(fields))]
        found = [self.compare_column(*column, random) for column in zip(fields, numbered(fields), columns)]
        if rows:
            found += [self.compare_row(fields, rows[:-1], row) for row in (rows[-1], other_row(rows[-1], random))]
        return next(filter(None, found), None)

    def compare_column(self, field, spec, slots, random):
        if not fits_column(field.data_type, slots):
            return None
        self.counts["columns of slots that keep all"] += 1
        expected = ColumnsOfSlots(self.defined.terms).column(field.data_type, slots)
        turn = lambda buffers: list(map(turned, number_widths(field.data_type), buffers))
        why = self.defined.why_not_fresh(field, spec, slots, expected, turn, random)
        return why and "the column of %s that stores %s does not keep %s" % (field, slots, why)

    def compare_row(self, fields, rows, row):
        """Whether a row is accepted where some are open, and the columns that they all become."""
        is_accepted = accepts(fields, rows, row)
        self.counts["rows accepted alike" if is_accepted else "rows not accepted alike"] += 1
        if self.defined.accepts(fields, rows, row) != is_accepted:
            return "%s is accepted otherwise than %s, under %s, where %s are open" % (row, is_accepted, fields, rows)
        columns = [list(column) for column in zip(*rows, row)]
        if is_accepted and self.defined.defined_batch(fields, rows + [row]) != columns:
            return "the rows %s and %s become other columns" % (rows, row)
        return None

    def compare_full_dictionaries(self):
        """Rows that bring a dictionary as many values as its keys tell apart, and one more."""
        found = [
            self.compare_row(fields, rows, row) or accepts(fields, rows, row) == is_last and "%s is too much or not" % (row,)
            for fields, rows, pushed in full_dictionaries()
            for row, is_last in zip(pushed, [False] * (len(pushed) - 1) + [True])
        ]
        return next(filter(None, found), None)
