"""Streams that break one rule of the columns each, and streams whose schemas differ in one thing each while their rows are the same."""

from arrow_columns import FixedLists, Flat, Keys, Lists, Records, Strings, Unions
from arrow_sealed import stream_of
from arrow_special import field_of
from arrow_stored_reading import StoredTable
from arrow_stored_writing import written
from arrow_trees import numbered
from arrow_types import INTEGERS, Schema


def schema_of(*fields):
    return Schema(tuple(fields), ())


def stream_with(data_type, *columns):
    """A stream of one column x, a batch for each stored column, which need not be sound."""
    return written(StoredTable(schema_of(field_of(data_type)), [[column] for column in columns]))


def int32(*numbers):
    mask = None if None not in numbers else [number is not None for number in numbers]
    return Flat(("Int32",), mask, [(number or 0,) for number in numbers])


def strings(name, *parts, mask=None):
    offsets = [0]
    for part in parts:
        offsets.append(offsets[-1] + len(part))
    return Strings((name,), mask, offsets, b"".join(parts))


def texts(*parts):
    return strings("Utf8", *parts)


# ---- one rule broken each

ITEM, ENTRY = field_of(("Int32",)), field_of(("Struct", (field_of(("Int32",), b"k"), field_of(("Int32",), b"v"))))
FIELDS = (field_of(("Int32",)), field_of(("Utf8",), b"y"))
BAD_TEXTS = (b"\xff", b"\xc3", b"a\x80", b"\xc0\x80", b"\xed\xa0\x80", b"\xf4\x90\x80\x80")


def bad_texts():
    """Texts that are no UTF-8, alone, under a null, as items and as values that no key names, and texts that are divided."""
    for name in ("Utf8", "LargeUtf8"):
        for number, text in enumerate(BAD_TEXTS):
            yield "%s_%d" % (name.lower(), number), strings(name, b"a", text, b"")
        yield name.lower() + "_under_null", strings(name, b"a", b"\xff", mask=[True, False])
        yield name.lower() + "_divided", Strings((name,), None, [0, 1, 4], "éè".encode())
        whole = ("List", field_of((name,)))
        yield name.lower() + "_item", Lists(whole, None, [0, 1, 2], strings(name, b"a", b"\xff"))
        whole = ("Dictionary", "Int8", (name,), False)
        yield name.lower() + "_value", Keys(whole, None, [0], strings(name, b"a", b"\xff"))


def bad_offsets():
    """Offsets that fall, and children with fewer items than the last offset says."""
    for name in ("Utf8", "LargeUtf8", "Binary", "LargeBinary"):
        yield name.lower() + "_falls", Strings((name,), None, [0, 3, 1, 2], b"abcd")
    for whole in (("List", ITEM), ("LargeList", ITEM), ("Map", ENTRY, False)):
        name, entries = whole[0].lower(), Records(ENTRY.data_type, None, 2, (int32(1, 2), int32(3, 4)))
        child = entries if whole[0] == "Map" else int32(1, 2)
        yield name + "_falls", Lists(whole, None, [0, 2, 1, 2], child)
        yield name + "_past_child", Lists(whole, None, [0, 1, 3], child)


def bad_children():
    """Children of another length."""
    fixed = ("FixedSizeList", ITEM, 2)
    yield "fixedsizelist_past_child", FixedLists(fixed, None, 2, int32(1, 2, 3))
    for count in (1, 3):
        yield "struct_with_%d" % count, Records(("Struct", FIELDS), None, 2, (int32(1, 2), texts(*[b"a"] * count)))
        yield "sparse_union_with_%d" % count, Unions(("Union", FIELDS, None, "Sparse"), [0, 1], None, (int32(1, 2), texts(*[b"a"] * count)))


def bad_choices():
    """Ids of unions that name no child, and places that are past theirs."""
    children = int32(1, 2), texts(b"a", b"b")
    for name, known, ids in (("2", None, [0, 2]), ("negative", None, [-1, 0]), ("other", (3, 5), [3, 0]), ("low", (3, 5), [3, -128])):
        for mode in ("Sparse", "Dense"):
            places = None if mode == "Sparse" else [0, 1]
            yield "union_%s_id_%s" % (mode.lower(), name), Unions(("Union", FIELDS, known, mode), ids, places, children)
    for name, place in (("2", 2), ("negative", -1), ("low", -(2**31)), ("high", 2**31 - 1)):
        yield "union_place_%s" % name, Unions(("Union", FIELDS, (3, 5), "Dense"), [5, 3], [1, place], children)


def bad_keys():
    """Keys of each type that name no value; those under nulls may be any."""
    for name, (bits, signed) in INTEGERS.items():
        whole, most = ("Dictionary", name, ("Utf8",), False), (1 << bits - signed) - 1
        yield "%s_key_2" % name.lower(), Keys(whole, [True, False], [2, 0], texts(b"a", b"b"))
        yield "%s_key_high" % name.lower(), Keys(whole, None, [0, most], texts(b"a", b"b"))
        if signed:
            yield "%s_key_negative" % name.lower(), Keys(whole, None, [0, -1], texts(b"a", b"b"))
    yield "no_values", Keys(("Dictionary", "Int32", ("Utf8",), False), None, [0], texts())


def good_keys():
    """Keys of each type of which the ones under nulls are the least and the greatest; those of 8 bits name as many values as they can."""
    for name, (bits, signed) in INTEGERS.items():
        most = (1 << bits - signed) - 1
        least = -1 - most if signed else 0
        whole = ("Dictionary", name, ("Utf8",), False)
        yield "%s_under_nulls" % name.lower(), Keys(whole, [False, False, True], [least, most, 0], texts(b"a", b"unused"))
        if bits == 8:
            values = Flat(("Boolean",), None, [key % 3 == 0 for key in range(most + 1)])
            yield "%s_all" % name.lower(), Keys(("Dictionary", name, ("Boolean",), False), None, [most, 0, most - 1], values)


def rule_cases(cases):
    """Streams that break a rule each, and some that keep it just so."""
    for make in (bad_texts, bad_offsets, bad_children, bad_choices, bad_keys):
        for name, column in make():
            cases.cut(0, 0, cases.put("%s_%s" % (make.__name__, name), stream_with(column.data_type, column)))
    for name, column in good_keys():
        named = cases.put("good_keys_%s" % name, stream_with(column.data_type, column))
        cases.cut(0, 3, named)
        cases.same(named, named)


# ---- schemas that differ in one thing each

def int32_slot(number):
    return ("number", "Int32", number)


def keyed(keys, is_ordered):
    return ("Dictionary", keys, ("Utf8",), is_ordered)


ONE, TWO = (field_of(("Int32",), b"a"), field_of(("Int32",), b"b")), (field_of(("Int32",), b"a"), field_of(("Int32",), b"c"))
PAIRS = field_of(("Struct", ONE))
LONG, TEXT, BYTES = ("number", "Int64", 5), ("text", b"abc"), ("bytes", b"abc")
ITEMS = ("items", (int32_slot(1), int32_slot(2)))
ENTRIES = ("items", (("fields", (int32_slot(1), int32_slot(2))),))

# Types beside one another of which each has the same value.
ALIKE = (
    (int32_slot(7), ("Int32",), ("Date32",), ("Time32", "Second"), ("Time32", "Millisecond"), ("Interval", "YearMonth"),
     ("Extension", b"e", ("Int32",), None), ("Extension", b"e", ("Int32",), b""), ("Extension", b"f", ("Int32",), None),
     ("Dictionary", "Int8", ("Int32",), False)),
    (LONG, ("Int64",), ("Date64",), ("Time64", "Microsecond"), ("Time64", "Nanosecond"), ("Timestamp", "Second", None),
     ("Timestamp", "Second", b""), ("Timestamp", "Second", b"UTC"), ("Timestamp", "Nanosecond", b"UTC"), ("Duration", "Second"),
     ("Duration", "Microsecond")),
    (("number", "Int128", 5), ("Decimal", 3, 1), ("Decimal", 4, 1), ("Decimal", 3, 2)),
    (("number", "Int256", 5), ("Decimal256", 3, 1), ("Decimal256", 4, 1), ("Decimal256", 3, 2)),
    (TEXT, ("Utf8",), ("LargeUtf8",), keyed("Int8", False), keyed("Int8", True), keyed("UInt8", False),
     ("Dictionary", "Int8", ("LargeUtf8",), False)),
    (BYTES, ("Binary",), ("LargeBinary",), ("FixedSizeBinary", 3)),
    (ITEMS, ("List", ITEM), ("LargeList", ITEM), ("FixedSizeList", ITEM, 2), ("List", ITEM._replace(is_nullable=False)),
     ("List", ITEM._replace(name=b"y")), ("List", ITEM._replace(metadata=((b"k", b"v"),)))),
    (ENTRIES, ("Map", PAIRS, False), ("Map", PAIRS, True), ("List", PAIRS), ("Map", field_of(("Struct", TWO)), False)),
    (("fields", (int32_slot(1), None)), ("Struct", ONE), ("Struct", TWO), ("Struct", ONE[:1] + (ONE[1]._replace(is_nullable=False),))),
    (None, ("Null",), ("Boolean",), ("Int8",), ("UInt8",), ("Int16",), ("UInt16",), ("UInt32",), ("UInt64",), ("Interval", "DayTime"),
     ("Interval", "MonthDayNano"), ("FixedSizeBinary", 1), ("FixedSizeBinary", 2), ("FixedSizeList", ITEM, 1), ("FixedSizeList", ITEM, 2)),
)


def alike_schemas():
    """Lists of schemas under which one row may stand."""
    for slot, *types in ALIKE:
        yield slot, [schema_of(field_of(data_type)) for data_type in types]
    field = field_of(("Int32",))
    others = field._replace(name=b"X"), field._replace(is_nullable=False), field._replace(metadata=((b"k", b"v"),))
    others += field._replace(metadata=((b"k", b"w"),)), field._replace(metadata=((b"k", b"v"), (b"l", b"")))
    pairs = ((b"k", b"v"),), ((b"k", b""),), ((b"k", b"v"), (b"l", b"v"))
    yield int32_slot(7), [schema_of(other) for other in (field, *others)] + [Schema((field,), pair) for pair in pairs]


def union_schemas():
    """Streams of unions of the same picks under other ids, modes and names."""
    children = int32(1, 2), texts(b"a", b"b")
    for ids in (None, (0, 1), (1, 0), (3, 5)):
        for mode in ("Sparse", "Dense"):
            known = (0, 1) if ids is None else ids
            yield stream_with(("Union", FIELDS, ids, mode), Unions(
                ("Union", FIELDS, ids, mode), [known[0], known[1]], None if mode == "Sparse" else [0, 1], children))
    other = FIELDS[:1] + (FIELDS[1]._replace(name=b"z"),)
    yield stream_with(("Union", other, None, "Sparse"), Unions(("Union", other, None, "Sparse"), [0, 1], None, children))


def compare_all(cases, names):
    """Each stream beside itself, and each beside the first and the one before it, none of whose schemas is its own."""
    for before, name in zip(names, names[1:]):
        cases.same(before, name)
        cases.same(name, names[0])
        cases.join(names[0], name)
    cases.same(names[-1], names[-1])


def schema_cases(cases):
    """The same rows under schemas that differ in one thing each are not the same."""
    for group, (slot, schemas) in enumerate(alike_schemas()):
        streams = [stream_of(numbered(schema.fields), schema.metadata, [[(slot,), (None,)]]) for schema in schemas]
        compare_all(cases, [cases.put("alike_%d_%d" % (group, k), content) for k, content in enumerate(streams)])
    compare_all(cases, [cases.put("alike_unions_%d" % k, content) for k, content in enumerate(union_schemas())])
    named = [cases.put("no_fields_%d" % k, stream_of((), pairs, [])) for k, pairs in enumerate(((), ((b"k", b"v"),), ((b"k", b"w"),)))]
    compare_all(cases, named)


def same_picks(cases):
    """A union's values of two children of one type are the same whichever child has them."""
    fields = (field_of(("Int32",)), field_of(("Int32",), b"y"))
    whole = ("Union", fields, None, "Dense")
    a = Unions(whole, [0, 1, 0], [0, 0, 1], (int32(1, 3), int32(2)))
    b = Unions(whole, [1, 0, 1], [1, 0, 0], (int32(2), int32(3, 1)))
    c = Unions(whole, [1, 0, 1], [0, 0, 1], (int32(2), int32(3, 1)))
    names = [cases.put("picks_%s" % name, stream_with(whole, column)) for name, column in (("a", a), ("b", b), ("c", c))]
    cases.same(names[0], names[1])
    cases.same(names[0], names[2])
    cases.join(names[0], names[1])
