#!/usr/bin/env python3
"""Worked values of what the definitions of `specs/` write: batches that do not belong to their schema, runs of a writer's calls, appended
files, and stored columns in both byte orders.

    worked_writing.py

As in `worked.py`, each value has a name and an expectation that is written out by hand.
"""

import os
import sys

sys.path += [os.path.join(os.path.dirname(os.path.dirname(os.path.abspath(__file__))), it) for it in ("reader", "writer")]

from arrow_trees import Spec, numbered
from arrow_types import NAME_KEY, Field
from definitions import deeply
from laying import END
from worked import (
    A, B, DENSE, EMPTY_FILE, FILE_OF_ONE_BATCH, FOOTER_X, INT32, KEYED, LIST, NO_BYTES, ONE, SEVEN_AND_NULL, SPARSE, TEXT, THREE, TWO,
    column, field, int32, items, number_pick, raw, run, schema_of, stored_dense, stored_keys, stored_lists, stored_numbers, stored_sparse,
    stored_texts, text_pick, two_columns, Q,
)

FORMS = ("stream", "file")
X = schema_of(field(b"x", INT32))
TWO_COLUMNS = schema_of(field(b"x", INT32), field(b"y", TEXT))


def of_slots(defined, *columns):
    """A batch of lists of slots."""
    return defined.terms.plain("slot_columns", [list(map(defined.terms.slot, column)) for column in columns])


def of_columns(defined, *columns):
    """A batch of stored columns."""
    return defined.stored_chunk(list(columns))


def is_written(defined, form, schema, *chunks):
    return defined.defined_written(form, schema, numbered(schema.fields), list(chunks)) is not None


# ---- batches that do not belong to their schema

def other_types(defined):
    """A column x of 32-bit integers, and batches of columns of other types."""
    terms = defined.terms
    unlike = terms.plain("flat", terms.data_type(INT32), None, terms.plain("texts", [0, 1], list(b"a")))
    unsigned = stored_numbers(terms, ("UInt32",), [4294967295])
    for form in FORMS:
        for name, chunk, answer in (
            ("slots of the type", of_slots(defined, [ONE, None]), True),
            ("a text's slot", of_slots(defined, [A]), False),
            ("the slot of UInt32 4294967295", of_slots(defined, [("number", "UInt32", 4294967295)]), False),
            ("a slot past the kind", of_slots(defined, [int32(2**31)]), False),
            ("a stored column of the type", of_columns(defined, stored_numbers(terms, INT32, [1])), True),
            ("a stored column of texts", of_columns(defined, stored_texts(terms, [0, 1], b"a")), False),
            ("a stored column of UInt32 4294967295", of_columns(defined, unsigned), False),
            ("a stored column of the type that stores texts", of_columns(defined, unlike), False),
        ):
            yield "a %s of Int32 with %s" % (form, name), is_written(defined, form, X, chunk), answer


def other_numbers_of_columns(defined):
    """Columns x of integers and y of texts, and batches of another number of columns, or of columns of another length."""
    terms = defined.terms
    one, two, texts = stored_numbers(terms, INT32, [1]), stored_numbers(terms, INT32, [1, 2]), stored_texts(terms, [0, 1], b"a")
    for form in FORMS:
        for name, slots, columns, answer in (
            ("two columns", ([ONE], [A]), (one, texts), True),
            ("one column", ([ONE],), (one,), False),
            ("three columns", ([ONE], [A], [A]), (one, texts, texts), False),
            ("no column", (), (), False),
            ("a longer column", ([ONE, TWO], [A]), (two, texts), False),
            ("two columns in the other order", ([A], [ONE]), (texts, one), False),
        ):
            yield "a %s of two fields with %s of slots" % (form, name), is_written(defined, form, TWO_COLUMNS, of_slots(defined, *slots)), answer
            yield "a %s of two fields with %s, stored" % (form, name), is_written(
                defined, form, TWO_COLUMNS, of_columns(defined, *columns)), answer


def normalised_types(defined):
    """A stored column's type is compared in its one form: the keys of an extension are those of its type, other pairs count."""
    terms, inner = defined.terms, ("Extension", b"mine", INT32, None)
    schema = schema_of(field(b"x", ("List", Field(b"item", inner, True, ()))))
    for name, pairs, answer in (("the key of another extension", ((NAME_KEY, b"other"),), True), ("another pair", ((b"a", b"b"),), False)):
        data_type = terms.data_type(("List", Field(b"item", inner, True, pairs)))
        child = terms.plain("flat", terms.data_type(inner), None, terms.plain("numbers", terms.plain("Int32"), [1]))
        stored = terms.plain("lists", data_type, None, [0, 1], child)
        yield "a stream of lists whose item has %s" % name, is_written(defined, "stream", schema, of_columns(defined, stored)), answer


def normalised_dictionaries(defined):
    """Dictionaries whose types have one form are the same: a file takes the second, and writes it once."""
    terms, inner = defined.terms, ("Extension", b"mine", INT32, None)
    schema, chunks = schema_of(field(b"d", ("Dictionary", "Int8", ("List", Field(b"item", inner, True, ())), False))), []
    for pairs in ((), ((NAME_KEY, b"other"),)):
        values = ("List", Field(b"item", inner, True, pairs))
        child = terms.plain("flat", terms.data_type(inner), None, terms.plain("numbers", terms.plain("Int32"), [5]))
        stored = terms.plain("lists", terms.data_type(values), None, [0, 1], child)
        chunks.append(of_columns(defined, terms.plain("dictionary", terms.data_type(("Dictionary", "Int8", values, False)), None, [0], stored)))
    for form in FORMS:
        found = defined.defined_written(form, schema, numbered(schema.fields), chunks) or NO_BYTES
        yield "a %s of two batches of one dictionary, which is written once" % form, found.count(raw("05000000") + bytes(60)), 1
        yield "a %s of two batches of one dictionary as read" % form, (defined.defined_table(form, found) or SEVEN_AND_NULL).rows, [
            (items(int32(5)),)] * 2


def ids(defined):
    """A dictionary's id is a signed number of eight bytes."""
    schema = schema_of(field(b"d", KEYED))
    table = column(b"d", KEYED, [A, B])
    for number, answer in ((2**63 - 1, True), (-(2**63), True), (2**63, False), (-(2**63) - 1, False), (2**64, False)):
        specs = (Spec(schema.fields[0], number, ()),)
        for form in FORMS:
            found = defined.defined_writing(form, schema, specs, [table.rows])
            yield "a %s with the id %d" % (form, number), found is not None, answer
            if found is not None:
                yield "a %s with the id %d as read" % (form, number), defined.defined_table(form, found), table


def lengths(defined):
    """Columns of 2^63 - 1 slots and of one more, also as children."""
    terms = defined.terms
    null = terms.data_type(("Null",))

    def nulls(count):
        return terms.plain("nulls", null, count)

    def lists(name, *parts):
        return lambda data_type, count: terms.plain(name, terms.data_type(data_type), None, *parts, nulls(count))

    fixed, large = ("FixedSizeList", field(b"item", ("Null",)), 2), ("LargeList", field(b"item", ("Null",)))
    record = ("Struct", (field(b"a", ("Null",)),))
    for name, data_type, stored, answer in (
        ("2^63 - 1 nulls", ("Null",), nulls(2**63 - 1), True),
        ("2^63 nulls", ("Null",), nulls(2**63), False),
        ("2^64 nulls", ("Null",), nulls(2**64), False),
        ("2^62 - 1 lists of two nulls", fixed, lists("fixed_lists", 2)(fixed, 2**63 - 2), True),
        ("2^62 lists of two nulls", fixed, lists("fixed_lists", 2)(fixed, 2**63), False),
        ("a list of 2^63 - 1 nulls", large, lists("lists", [0, 2**63 - 1])(large, 2**63 - 1), True),
        ("2^63 structs", record, terms.plain(
            "records", terms.data_type(record), None, 2**63, terms.plain("column_then", nulls(2**63), terms.plain("no_column"))), False),
    ):
        for form in FORMS:
            yield "a %s of %s" % (form, name), is_written(defined, form, schema_of(field(b"x", data_type)), of_columns(defined, stored)), answer


def unions(defined):
    """A union is written from what an array stores, and not from its slots: these have no node, at no depth."""
    yield "a union's slots, encoded", defined.defined_encoding(SPARSE, [number_pick(ONE), text_pick(Q)]), ([], [])
    yield "the slots of a list of unions, encoded", defined.defined_encoding(
        ("List", field(b"item", SPARSE)), [items(number_pick(ONE))]), ([(1, 0)], [NO_BYTES, raw("00000000 01000000")])
    for name, data_type, stored, slots in (
        ("sparse", SPARSE, stored_sparse(defined.terms), [number_pick(ONE), text_pick(Q), number_pick(THREE)]),
        ("dense", DENSE, stored_dense(defined.terms), None),
    ):
        schema = schema_of(field(b"c", data_type))
        for form in FORMS:
            yield "a %s of a %s union, stored" % (form, name), is_written(defined, form, schema, of_columns(defined, stored)), True
            if slots is not None:
                yield "a %s of a %s union's slots" % (form, name), is_written(defined, form, schema, of_slots(defined, slots)), False
    for name, data_type, slot in (
        ("a list", ("List", field(b"item", SPARSE)), items(number_pick(ONE))),
        ("a dictionary", ("Dictionary", "Int8", SPARSE, False), number_pick(ONE)),
        ("a list without items", ("List", field(b"item", SPARSE)), items()),
    ):
        yield "a stream of slots of a union in %s" % name, is_written(
            defined, "stream", schema_of(field(b"c", data_type)), of_slots(defined, [slot])), False


def keys(defined):
    """Keys of 8 bits tell 128 values apart."""
    schema = schema_of(field(b"d", ("Dictionary", "Int8", INT32, False)))
    for count, answer in ((128, True), (129, False)):
        for form in FORMS:
            yield "a %s of %d values under keys of 8 bits" % (form, count), is_written(
                defined, form, schema, of_slots(defined, [int32(n) for n in range(count)])), answer


# ---- seals

def seals(defined):
    """The batches of a seal have 1 to 65,536 rows, and each row a value a field."""
    table = column(b"x", INT32, [ONE, TWO])
    for size, answer in ((0, False), (1, True), (65536, True), (65537, False)):
        yield "a seal in batches of %d" % size, defined.defined_seal(table.schema, table.rows, size) is not None, answer
    for name, row in (("no value", ()), ("two values", (ONE, TWO))):
        yield "a seal with a row of %s under one field" % name, defined.defined_seal(table.schema, [(ONE,), row], 2), None
    yield "a seal with a row under no field", defined.defined_seal(schema_of(), [()], 2), None


# ---- stored columns, big-endian

def big_endian(defined):
    """Each number is turned around by itself, the parts of an interval singly."""
    terms = defined.terms

    def stored(data_type, name, kind, values):
        return terms.plain("flat", terms.data_type(data_type), None, terms.plain(name, terms.plain(kind), values))

    dense = ([(3, 0), (1, 0), (2, 0)], [
        raw("07 05 07"), raw("00000001 00000000 00000000"), NO_BYTES, raw("00000001"), NO_BYTES, raw("00000000 00000001 00000002"), b"pq",
    ])
    for name, column_, expected in (
        ("numbers", stored_numbers(terms, INT32, [1, -2]), ([(2, 0)], [NO_BYTES, raw("00000001 fffffffe")])),
        ("days and milliseconds", stored(("Interval", "DayTime"), "pairs", "DaysMs", [(1, -2)]), ([(1, 0)], [NO_BYTES, raw("00000001 fffffffe")])),
        ("months, days and nanoseconds", stored(("Interval", "MonthDayNano"), "triples", "MonthDayNano", [(1, 2, 3)]), (
            [(1, 0)], [NO_BYTES, raw("00000001 00000002 00000000 00000003")])),
        ("256 bits", stored(("Decimal256", 1, 0), "numbers", "Int256", [1]), ([(1, 0)], [NO_BYTES, bytes(31) + raw("01")])),
        ("lists", stored_lists(terms), ([(3, 0), (3, 0)], [
            NO_BYTES, raw("00000000 00000002 00000002 00000003"), NO_BYTES, raw("00000001 00000002 00000003")])),
        ("keys", stored_keys(terms), ([(3, 0)], [NO_BYTES, raw("00000000 00000001 00000000")])),
        ("a dense union", stored_dense(terms), dense),
    ):
        yield "%s as stored, big-endian" % name, defined.defined_stored_encoding(column_, False), expected


# ---- runs of calls

def runs(defined):
    """Writes between which one is refused: what it brought leaves nothing behind."""
    table, specs = column(b"d", KEYED, [A, B, A, B]), numbered((field(b"d", KEYED),))
    ab, b, text = of_slots(defined, [A, B]), of_slots(defined, [B]), of_slots(defined, [ONE])
    for form, chunks, bars, taken in (
        ("stream", [ab, text, ab], [None, "another_schema", None], [ab, ab]),
        ("file", [ab, text, ab], [None, "another_schema", None], [ab, ab]),
        ("stream", [ab, b, ab], [None, None, None], [ab, b, ab]),
        ("file", [ab, b, ab], [None, "another_dictionary", None], [ab, ab]),
    ):
        found = defined.defined_run(form, table.schema, specs, chunks)
        yield "a run of a %s's writes, which are refused" % form, found[0], bars
        whole = defined.defined_written(form, table.schema, specs, taken)
        start = NO_BYTES if form == "stream" else b"ARROW1\0\0"
        yield "a run of a %s's writes, its messages" % form, whole.startswith(start + found[1] + END), True
    fields = (field(b"d", KEYED), field(b"e", KEYED))
    shared = tuple(Spec(one, 0, ()) for one in fields)
    same, different = of_slots(defined, [A], [A]), of_slots(defined, [A], [B])
    bars = defined.defined_run("stream", schema_of(*fields), shared, [different, same])[0]
    yield "a batch of two dictionaries of one id, and one of the same", bars, ["another_dictionary", None]


# ---- append

MESSAGE_1_2_AT, MESSAGE_1_2_SIZE = 496, 8 + 152 + 64
BLOCK_496_160_64 = raw("f0010000 00000000 a0000000 00000000 40000000 00000000")


def with_body_length(content, length):
    """The file of one batch whose block says another length of its body."""
    return content[:-18] + length.to_bytes(8, "little", signed=True) + content[-10:]


def appended(defined):
    """1 and 2 behind the file of 7 and a null: the message begins where the last block ends, over the end mark and the footer."""
    table = SEVEN_AND_NULL
    joined = table._replace(rows=table.rows + [(ONE,), (TWO,)])
    new = of_slots(defined, [ONE, TWO])
    found = defined.defined_appended(FILE_OF_ONE_BATCH, [new]) or NO_BYTES
    yield "1 and 2 appended, its length", (len(found), int.from_bytes(found[-10:-6], "little")), (
        MESSAGE_1_2_AT + MESSAGE_1_2_SIZE + 8 + 256 + 10, 256)
    yield "1 and 2 appended, what stands before", found[:MESSAGE_1_2_AT], FILE_OF_ONE_BATCH[:MESSAGE_1_2_AT]
    yield "1 and 2 appended, the new body", found[656:720], raw("01000000 02000000") + bytes(56)
    yield "1 and 2 appended, its blocks", found[-58:-10], FOOTER_X[-24:] + BLOCK_496_160_64
    yield "1 and 2 appended as read", defined.defined_table("file", found), joined
    stored = of_columns(defined, stored_numbers(defined.terms, INT32, [1, 2]))
    yield "1 and 2 appended, stored", defined.defined_appended(FILE_OF_ONE_BATCH, [stored]), found
    yield "nothing appended", defined.defined_appended(FILE_OF_ONE_BATCH, []), FILE_OF_ONE_BATCH
    long = FILE_OF_ONE_BATCH[:504] + b"\x55" * 1000 + FILE_OF_ONE_BATCH[504:]
    found = defined.defined_appended(long, [new]) or NO_BYTES
    yield "1 and 2 appended before a long tail, its length", len(found), len(long)
    yield "1 and 2 appended before a long tail, zeros behind the end mark", found[728:-266], bytes(1746 - 728 - 266)
    yield "1 and 2 appended before a long tail as read", defined.defined_table("file", found), joined


def appended_dictionaries(defined):
    """Behind a file of the values a, b: the same values are not written again, other ones are refused."""
    table = column(b"d", KEYED, [A, B])
    file = defined.defined_writing("file", table.schema, numbered(table.schema.fields), [table.rows])
    found = defined.defined_appended(file, [of_slots(defined, [A, B, None])])
    yield "keys appended as read", defined.defined_table("file", found), table._replace(rows=table.rows + [(A,), (B,), (None,)])
    yield "keys appended, one dictionary's message", found.count(b"ab" + bytes(62)), 1
    yield "other values appended", defined.defined_appended(file, [of_slots(defined, [B])]), None
    keys = stored_keys(defined.terms)
    yield "stored keys of the same values appended as read", defined.defined_table("file", defined.defined_appended(
        file, [of_columns(defined, keys)])), table._replace(rows=table.rows + [(A,), (B,), (A,)])


def not_appended(defined):
    """Files to which nothing is appended, and why."""
    big = FILE_OF_ONE_BATCH
    for name, is_little_endian, content, bar in (
        ("a file", True, FILE_OF_ONE_BATCH, None),
        ("a big-endian file", False, big, "big_endian"),
        ("a file without a record batch", True, EMPTY_FILE, "no_record_batch"),
        ("a file whose block has a body of length -1", True, with_body_length(FILE_OF_ONE_BATCH, -1), "negative_body"),
        ("a file whose block ends with it", True, with_body_length(FILE_OF_ONE_BATCH, 746 - 368), None),
        ("a file whose block ends past it", True, with_body_length(FILE_OF_ONE_BATCH, 747 - 368), "block_past_end"),
    ):
        yield "why nothing is appended to %s" % name, defined.defined_append_bar(is_little_endian, content), bar
        if is_little_endian:
            yield "a file of nothing appended to %s" % name, defined.defined_appended(content, []) is not None, bar is None
    other = of_slots(defined, [A])
    yield "a batch of another schema appended", defined.defined_appended(FILE_OF_ONE_BATCH, [other]), None
    yield "something appended to no file", defined.defined_appended(b"ARROW1", []), None
    for count, answer in ((65536, True), (65537, False)):
        yield "a file that would have %d dictionaries" % count, defined.has_few_dictionaries(count), answer


# ---- the list

WORKED = (
    other_types, other_numbers_of_columns, normalised_types, normalised_dictionaries, ids, lengths, unions, keys, seals, big_endian, runs,
    appended, appended_dictionaries, not_appended,
)

if __name__ == "__main__":
    sys.exit(deeply(lambda: run(WORKED)))
