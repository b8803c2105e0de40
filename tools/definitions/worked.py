#!/usr/bin/env python3
"""Worked values of the definitions of `specs/`: small columns, streams, files and seals.

    worked.py

Each value has a name and an expectation that is written out by hand from the Arrow format: bytes of
buffers and of messages, slots, lengths. Inputs are laid from explicit nodes and buffers. A value that
is as expected prints a line; at the first that is not the exit status is 1.
"""

import os
import sys

sys.path += [os.path.join(os.path.dirname(os.path.dirname(os.path.abspath(__file__))), it) for it in ("reader", "writer")]

from arrow_trees import (
    DICTIONARY_BATCH, RECORD_BATCH, SCHEMA, V5, batch_tree, dictionary_tree, message_tree, numbered, schema_tree,
)
from arrow_types import Field, Schema, Table
from defined_values import Defined, as_type
from definitions import deeply
from laying import END, V4, framed, padded, usual

raw = bytes.fromhex

# ---- slots and fields

def int16(number):
    """A slot with a number of 16 bits."""
    return ("number", "Int16", number)


def int32(number):
    """A slot with a number of 32 bits."""
    return ("number", "Int32", number)


def text(content):
    """A slot with a text, given as its bytes."""
    return ("text", content)


def items(*slots):
    """A slot with a list of slots."""
    return ("items", slots)


def parts(*slots):
    """A slot with the slots of a struct's fields."""
    return ("fields", slots)


def field(name, data_type):
    """A nullable field."""
    return Field(name, data_type, True, ())


def schema_of(*fields):
    """A schema without metadata."""
    return Schema(fields, ())


def column(name, data_type, slots):
    """The table of one column."""
    return Table(schema_of(field(name, data_type)), [(slot,) for slot in slots])


INT16, INT32, TEXT = ("Int16",), ("Int32",), ("Utf8",)
ONE, TWO, THREE, SEVEN = int32(1), int32(2), int32(3), int32(7)
A, B, P, Q, R = text(b"a"), text(b"b"), text(b"p"), text(b"q"), text(b"r")

# ---- buffers

NO_BYTES = b""
NO_BIT = raw("00")
KEY_0 = raw("00")
VALID_NOT_VALID = raw("05")  # the first and the third of three slots are valid
NUMBERS_1_2_3 = raw("01000000 02000000 03000000")
NUMBERS_1_2 = raw("01000000 02000000")
NUMBERS_2_3 = raw("02000000 03000000")
NUMBER_3, NUMBER_7 = raw("03000000"), raw("07000000")
OFFSETS_0_1, OFFSETS_0_2 = raw("00000000 01000000"), raw("00000000 02000000")
OFFSETS_0_1_2 = raw("00000000 01000000 02000000")
OFFSETS_0_1_2_3 = raw("00000000 01000000 02000000 03000000")

# ---- the laying of inputs, as usual writers do it


def laid(tag, header, body=NO_BYTES, version=V5):
    """A message of a stream."""
    return framed(usual(message_tree(tag, header, len(body), version)), body)


def batch(nodes, buffers):
    """The table of a batch and its body, in which each buffer begins at a multiple of 8."""
    places, body = [], NO_BYTES
    for content in buffers:
        places.append((len(body), len(content)))
        body += padded(content, 8)
    return batch_tree(nodes[0][0], nodes, places), body


def record(nodes, buffers, version=V5):
    """A record batch's message."""
    header, body = batch(nodes, buffers)
    return laid(RECORD_BATCH, header, body, version)


def dictionary(number, nodes, buffers):
    """A dictionary's message, by its id and the batch of its values."""
    values, body = batch(nodes, buffers)
    return laid(DICTIONARY_BATCH, dictionary_tree(number, values), body)


def schema_message(schema, order="little", version=V5):
    """A schema's message, in which dictionaries are numbered from 0, an outer one before those within its values."""
    return laid(SCHEMA, schema_tree(numbered(schema.fields), (), order), NO_BYTES, version)


def stream(schema, *messages, order="little", version=V5):
    """A stream of a schema and messages behind it."""
    return schema_message(schema, order, version) + b"".join(messages) + END


def read(defined, data_type, nodes, buffers, order="little", version=V5):
    """What a stream of one batch of one column c reads as."""
    schema, message = schema_of(field(b"c", data_type)), record(nodes, buffers, version)
    return defined.defined_table("stream", stream(schema, message, order=order, version=version))


# ---- parts of what is written

def sealed(defined, schema, rows):
    """The seal of rows in batches of 2; no bytes where there is none."""
    return defined.defined_seal(schema, rows, 2) or NO_BYTES


def messages_of(content):
    """The metadata and the body of each message of a written stream; the end mark has neither."""
    found, at = [], 0
    while at < len(content):
        size = int.from_bytes(content[at + 4 : at + 8], "little")
        metadata = content[at + 8 : at + 8 + size]
        # where a message says how long its body is, the canonical laying has it 40 bytes from its beginning
        body = int.from_bytes(metadata[40:48], "little")
        found.append((metadata, content[at + 8 + size : at + 8 + size + body]))
        at += 8 + size + body
    return found


def sizes_of(content):
    """The bytes of a stream, and of each message: all of them, those of the metadata, those of the body."""
    sizes = [(len(metadata), len(body)) for metadata, body in messages_of(content)]
    return len(content), [(8 + metadata + body, metadata, body) for metadata, body in sizes]


def bodies_of(content):
    """The body of each message of a written stream."""
    return [body for _, body in messages_of(content)]


def body_of(*buffers):
    """Buffers that each take a multiple of 64 bytes."""
    return b"".join(padded(content, 64) for content in buffers)


# ---- stored columns and their cuts

def stored_numbers(terms, data_type, numbers, mask=None):
    """Numbers, whose kind has the name of their type, as an array stores them."""
    values = terms.plain("numbers", terms.plain(data_type[0]), numbers)
    return terms.plain("flat", terms.data_type(data_type), mask, values)


def stored_texts(terms, offsets, content):
    """Texts as an array stores them."""
    return terms.plain("flat", terms.data_type(TEXT), None, terms.plain("texts", offsets, list(content)))


def two_columns(terms, first, second):
    """The children of a struct or a union."""
    return terms.plain("column_then", first, terms.plain("column_then", second, terms.plain("no_column")))


def cuts(defined, name, stored, slots, nodes, buffers):
    """The second and the third of three stored slots, which have these nodes and buffers: cut out alone, and as the second of two lists."""
    cut, is_sound, found = defined.defined_cut(stored, 1, 2)
    yield "a cut of %s, its slots" % name, (is_sound, found), (True, slots)
    yield "a cut of %s as written" % name, defined.defined_stored_encoding(cut), (nodes, buffers)
    terms, data_type = defined.terms, as_type(stored[1])
    in_lists = terms.plain("lists", terms.data_type(("List", field(b"item", data_type))), None, [0, 1, 3], stored)
    cut, is_sound, found = defined.defined_cut(in_lists, 1, 1)
    yield "a cut of lists of %s, its slots" % name, (is_sound, found), (True, [items(*slots)])
    yield "a cut of lists of %s as written" % name, defined.defined_stored_encoding(cut), (
        [(1, 0)] + nodes, [NO_BYTES, OFFSETS_0_2] + buffers,
    )


# ---- lists

LIST = ("List", field(b"item", INT32))
LISTS, LIST_NODES = [items(ONE, TWO), items(), items(THREE)], [(3, 0), (3, 0)]
LIST_BUFFERS = [NO_BYTES, raw("00000000 02000000 02000000 03000000"), NO_BYTES, NUMBERS_1_2_3]


def stored_lists(terms):
    """The lists as an array stores them."""
    return terms.plain("lists", terms.data_type(LIST), None, [0, 2, 2, 3], stored_numbers(terms, INT32, [1, 2, 3]))


def lists(defined):
    """The column of lists [[1, 2], [], [3]]."""
    yield "lists as written", defined.defined_encoding(LIST, LISTS), (LIST_NODES, LIST_BUFFERS)
    yield "lists as read", read(defined, LIST, LIST_NODES, LIST_BUFFERS), column(b"c", LIST, LISTS)
    yield "lists under a bitmap without a null as read", read(
        defined, LIST, LIST_NODES, [NO_BIT] + LIST_BUFFERS[1:]), column(b"c", LIST, LISTS)
    yield "lists whose first offset is 1 as read", read(defined, LIST, [(3, 0), (4, 0)], [
        NO_BYTES, raw("01000000 03000000 03000000 04000000"), NO_BYTES, raw("09000000") + NUMBERS_1_2_3,
    ]), column(b"c", LIST, LISTS)
    stored = stored_lists(defined.terms)
    yield "stored lists as written", defined.defined_stored_encoding(stored), (LIST_NODES, LIST_BUFFERS)
    yield from cuts(defined, "lists", stored, [items(), items(THREE)], [(2, 0), (1, 0)], [
        NO_BYTES, raw("00000000 00000000 01000000"), NO_BYTES, NUMBER_3,
    ])


def null_lists(defined):
    """The column of lists [[1, 2], null, [3]]."""
    slots, nodes = [items(ONE, TWO), None, items(THREE)], [(3, 1), (3, 0)]
    buffers = [VALID_NOT_VALID] + LIST_BUFFERS[1:]
    yield "lists with a null as written", defined.defined_encoding(LIST, slots), (nodes, buffers)
    yield "lists with a null as read", read(defined, LIST, nodes, buffers), column(b"c", LIST, slots)


# ---- structs

PAIR = ("Struct", (field(b"a", INT32), field(b"b", INT16)))
PAIRS = [parts(ONE, None), None, parts(THREE, int16(6))]
PAIR_NODES = [(3, 1), (3, 0), (3, 1)]
PAIR_BUFFERS = [VALID_NOT_VALID, NO_BYTES, NUMBERS_1_2_3, raw("06"), raw("0400 0500 0600")]


def stored_pairs(terms):
    """The structs as an array stores them."""
    second = stored_numbers(terms, INT16, [4, 5, 6], ([False, True, True],))
    children = two_columns(terms, stored_numbers(terms, INT32, [1, 2, 3]), second)
    return terms.plain("records", terms.data_type(PAIR), ([True, False, True],), 3, children)


def structs(defined):
    """Structs of two fields, where the second struct is null, and the first one's field b."""
    yield "structs under nulls as read", read(defined, PAIR, PAIR_NODES, PAIR_BUFFERS), column(b"c", PAIR, PAIRS)
    yield "structs under nulls as written, zeros under nulls", defined.defined_encoding(PAIR, PAIRS), ([(3, 1), (3, 1), (3, 2)], [
        VALID_NOT_VALID, VALID_NOT_VALID, raw("01000000 00000000 03000000"), raw("04"), raw("0000 0000 0600"),
    ])
    stored = stored_pairs(defined.terms)
    yield "stored structs, their slots", defined.defined_cut(stored, 0, 3)[1:], (True, PAIRS)
    yield "stored structs as written, with what stands under nulls", defined.defined_stored_encoding(stored), (PAIR_NODES, PAIR_BUFFERS)
    yield from cuts(defined, "structs", stored, PAIRS[1:], [(2, 1), (2, 0), (2, 0)], [
        raw("02"), NO_BYTES, NUMBERS_2_3, NO_BYTES, raw("0500 0600"),
    ])


def texts_under_nulls(defined):
    """Structs of a text: one under a null struct is not shown, yet it has to be in UTF-8."""
    named, nodes = ("Struct", (field(b"name", TEXT),)), [(3, 1), (3, 0)]
    buffers = [VALID_NOT_VALID, NO_BYTES, OFFSETS_0_1_2_3]
    yield "a text under a null struct as read", read(defined, named, nodes, buffers + [b"pqr"]), column(b"c", named, [
        parts(P), None, parts(R),
    ])
    yield "a text under a null struct that is not in UTF-8", read(defined, named, nodes, buffers + [raw("70 ff 72")]), None


def columns_in_order(defined):
    """Lists, which have two nodes and four buffers, before numbers: as fields of a struct, and as columns of a batch."""
    fields = (field(b"a", LIST), field(b"b", INT32))
    nodes, buffers = [(1, 0), (2, 0), (1, 0)], [NO_BYTES, OFFSETS_0_2, NO_BYTES, NUMBERS_1_2, NO_BYTES, NUMBER_7]
    slots, record_nodes, record_buffers = (items(ONE, TWO), SEVEN), [(1, 0)] + nodes, [NO_BYTES] + buffers
    both = ("Struct", fields)
    yield "a list before a number in a struct as written", defined.defined_encoding(both, [parts(*slots)]), (record_nodes, record_buffers)
    yield "a list before a number in a struct as read", read(defined, both, record_nodes, record_buffers), column(
        b"c", both, [parts(*slots)])
    table = Table(schema_of(*fields), [slots])
    content = stream(table.schema, record(nodes, buffers))
    yield "a list before a number in a batch as read", defined.defined_table("stream", content), table
    yield "a list before a number in a batch as sealed", bodies_of(sealed(defined, table.schema, table.rows)), [
        NO_BYTES, body_of(*buffers), NO_BYTES,
    ]


# ---- missing nodes and buffers

def missing_parts(defined):
    """Types whose last buffer is a validity bitmap that isn't looked at: without it they are not read, nor without a node."""
    null = field(b"n", ("Null",))
    for name, data_type, nodes, slots in (
        ("a struct of nulls", ("Struct", (null,)), [(2, 0), (2, 2)], [parts(None), parts(None)]),
        ("lists of two nulls", ("FixedSizeList", null, 2), [(1, 0), (2, 2)], [items(None, None)]),
    ):
        yield "%s as read" % name, read(defined, data_type, nodes, [NO_BYTES]), column(b"c", data_type, slots)
        yield "%s with a buffer to spare" % name, read(defined, data_type, nodes, [NO_BYTES, NO_BIT]), column(b"c", data_type, slots)
        yield "%s with a node to spare" % name, read(defined, data_type, nodes + [(-1, 0)], [NO_BYTES]), column(b"c", data_type, slots)
        yield "%s without a buffer" % name, read(defined, data_type, nodes, []), None
        yield "%s without a node" % name, read(defined, data_type, nodes[:1], [NO_BYTES]), None
    wrapped = ("Dictionary", "Int8", ("Struct", (null,)), False)
    schema, keys = schema_of(field(b"c", wrapped)), record([(1, 0)], [NO_BYTES, KEY_0])
    for name, buffers, table in (("", [NO_BYTES], column(b"c", wrapped, [parts(None)])), (" without a buffer", [], None)):
        values = dictionary(0, [(1, 0), (1, 1)], buffers)
        yield "a dictionary of structs of nulls%s" % name, defined.defined_table("stream", stream(schema, values, keys)), table


# ---- dictionaries

KEYED = ("Dictionary", "Int32", TEXT, False)
WORDS = ("Dictionary", "Int8", ("Struct", (field(b"word", ("Dictionary", "Int8", TEXT, False)),)), False)


def stored_keys(terms):
    """Keys 0, 1, 0 over the texts a, b, as an array stores them."""
    return terms.plain("dictionary", terms.data_type(KEYED), None, [0, 1, 0], stored_texts(terms, [0, 1, 2], b"ab"))


def dictionaries(defined):
    """Keys 0, 1, 0 over the texts a, b: the cut of two from the second on, and its seal."""
    stored = stored_keys(defined.terms)
    yield from cuts(defined, "keys", stored, [B, A], [(2, 0)], [NO_BYTES, raw("01000000 00000000")])
    expected, slots = column(b"d", KEYED, [B, A]), defined.defined_cut(stored, 1, 2)[2]
    content = sealed(defined, expected.schema, [(slot,) for slot in slots])
    yield "the seal of a cut of keys, its lengths", sizes_of(content), (832, [(256, 248, 0), (344, 208, 128), (224, 152, 64), (8, 0, 0)])
    yield "the seal of a cut of keys, its bodies with values b, a and keys 0, 1", bodies_of(content), [
        NO_BYTES, body_of(OFFSETS_0_1_2, b"ba"), body_of(raw("00000000 01000000")), NO_BYTES,
    ]
    yield "the seal of a cut of keys as read", defined.defined_table("stream", content), expected


def nested_dictionaries(defined):
    """A dictionary's values hold a dictionary, which is replaced between two batches: the values are those of when they were read."""
    schema, key_0 = schema_of(field(b"c", WORDS)), [NO_BYTES, KEY_0]
    inner_a, inner_b = (dictionary(1, [(1, 0)], [NO_BYTES, OFFSETS_0_1, content]) for content in (b"a", b"b"))
    outer_0, row_0 = dictionary(0, [(1, 0), (1, 0)], [NO_BYTES] + key_0), record([(1, 0)], key_0)
    read_again = stream(schema, inner_a, outer_0, row_0, inner_b, row_0, outer_0, row_0)
    yield "an inner dictionary that is replaced", defined.defined_table("stream", read_again), column(b"c", WORDS, [
        parts(A), parts(A), parts(B),
    ])
    yield "an outer dictionary before the inner one", defined.defined_table("stream", stream(schema, outer_0, inner_a, row_0)), None


def sealed_nested_dictionaries(defined):
    """Rows a, a, b in batches of 2: the inner dictionary goes before the outer one, and both are replaced before the second batch."""
    table = column(b"c", WORDS, [parts(A), parts(A), parts(B)])
    content = sealed(defined, table.schema, table.rows)
    yield "the seal of nested dictionaries, its bodies", bodies_of(content), [
        NO_BYTES, body_of(OFFSETS_0_1, b"a"), body_of(KEY_0), body_of(raw("00 00")),
        body_of(OFFSETS_0_1, b"b"), body_of(KEY_0), body_of(KEY_0), NO_BYTES,
    ]
    yield "the seal of nested dictionaries as read", defined.defined_table("stream", content), table


# ---- unions

SPARSE = ("Union", (field(b"a", INT32), field(b"b", TEXT)), (5, 7), "Sparse")
DENSE = SPARSE[:3] + ("Dense",)
SPARSE_NODES, DENSE_NODES = [(3, 0), (3, 0), (3, 0)], [(3, 0), (1, 0), (2, 0)]
SPARSE_CHILDREN = [NO_BYTES, NUMBERS_1_2_3, NO_BYTES, OFFSETS_0_1_2_3, b"pqr"]
DENSE_CHILDREN = [NO_BYTES, raw("01000000"), NO_BYTES, OFFSETS_0_1_2, b"pq"]
IDS_5_7_5, IDS_7_5_7, PLACES_1_0_0 = raw("05 07 05"), raw("07 05 07"), raw("01000000 00000000 00000000")


def number_pick(slot):
    """A union's slot with its number."""
    return ("pick", INT32, slot)


def text_pick(slot):
    """A union's slot with its text."""
    return ("pick", TEXT, slot)


def stored_sparse(terms):
    """The sparse union as an array stores it."""
    children = two_columns(terms, stored_numbers(terms, INT32, [1, 2, 3]), stored_texts(terms, [0, 1, 2, 3], b"pqr"))
    return terms.plain("unions", terms.data_type(SPARSE), [5, 7, 5], None, children)


def stored_dense(terms):
    """The dense union as an array stores it."""
    children = two_columns(terms, stored_numbers(terms, INT32, [1]), stored_texts(terms, [0, 1, 2], b"pq"))
    return terms.plain("unions", terms.data_type(DENSE), [7, 5, 7], ([1, 0, 0],), children)


def sparse_unions(defined):
    """Ids 5, 7, 5: each child is as long as the union. Before V5 a validity bitmap stands before the ids."""
    picks = [number_pick(ONE), text_pick(Q), number_pick(THREE)]
    expected = column(b"c", SPARSE, picks)
    yield "a sparse union as read", read(defined, SPARSE, SPARSE_NODES, [IDS_5_7_5] + SPARSE_CHILDREN), expected
    yield "a sparse union in V4 as read", read(
        defined, SPARSE, SPARSE_NODES, [NO_BIT, IDS_5_7_5] + SPARSE_CHILDREN, version=V4), expected
    yield "a sparse union in V4 without its bitmap", read(
        defined, SPARSE, SPARSE_NODES, [IDS_5_7_5] + SPARSE_CHILDREN, version=V4), None
    stored = stored_sparse(defined.terms)
    yield "a sparse union as written", defined.defined_stored_encoding(stored), (SPARSE_NODES, [IDS_5_7_5] + SPARSE_CHILDREN)
    yield from cuts(defined, "sparse unions", stored, picks[1:], [(2, 0), (2, 0), (2, 0)], [
        raw("07 05"), NO_BYTES, NUMBERS_2_3, NO_BYTES, OFFSETS_0_1_2, b"qr",
    ])


def dense_unions(defined):
    """Ids 7, 5, 7 with the places 1, 0, 0 in their children."""
    picks, buffers = [text_pick(Q), number_pick(ONE), text_pick(P)], [IDS_7_5_7, PLACES_1_0_0] + DENSE_CHILDREN
    yield "a dense union as read", read(defined, DENSE, DENSE_NODES, buffers), column(b"c", DENSE, picks)
    outside = [IDS_7_5_7, raw("02000000 00000000 00000000")] + DENSE_CHILDREN
    yield "a dense union with a place outside its child", read(defined, DENSE, DENSE_NODES, outside), None
    yield "a dense union with an id of no child", read(defined, DENSE, DENSE_NODES, [raw("07 05 06")] + buffers[1:]), None
    stored = stored_dense(defined.terms)
    yield "a dense union as written", defined.defined_stored_encoding(stored), (DENSE_NODES, buffers)
    # the children of a cut stay whole
    yield from cuts(defined, "dense unions", stored, picks[1:], [(2, 0), (1, 0), (2, 0)], [
        raw("05 07"), raw("00000000 00000000")] + DENSE_CHILDREN)


# ---- numbers in big-endian input

def big_endian(defined):
    """Each number is swapped by itself, so the days of an interval stay before its milliseconds."""
    interval, nodes = ("Interval", "DayTime"), [(2, 0)]
    yield "big-endian numbers as read", read(
        defined, INT32, nodes, [NO_BYTES, raw("01020304 fffffffe")], order="big"), column(b"c", INT32, [int32(16909060), int32(-2)])
    yield "big-endian intervals as read", read(
        defined, interval, nodes, [NO_BYTES, raw("00000001 fffffffe 00000003 00000004")], order="big",
    ), column(b"c", interval, [("pair", "DaysMs", 1, -2), ("pair", "DaysMs", 3, 4)])


# ---- offsets of no slots

def short_offsets(defined):
    """Texts whose buffer of offsets has no byte: that is as good as the one offset 0 of no slot."""
    buffers = [NO_BYTES, NO_BYTES, NO_BYTES]
    yield "no text without offsets as read", read(defined, TEXT, [(0, 0)], buffers), column(b"c", TEXT, [])
    yield "one text without offsets", read(defined, TEXT, [(1, 0)], buffers), None
    yield "one empty text as read", read(defined, TEXT, [(1, 0)], [NO_BYTES, raw("00000000 00000000"), NO_BYTES]), column(
        b"c", TEXT, [text(b"")])


# ---- streams that end early

def early_ends(defined):
    """A stream that ends behind one batch, within the first four bytes of a message or later."""
    schema = schema_of(field(b"c", INT32))
    begun = schema_message(schema) + record([(3, 0)], [NO_BYTES, NUMBERS_1_2_3])
    rows = [(ONE,), (TWO,), (THREE,)]
    for name, rest in (("behind a batch", NO_BYTES), ("three bytes behind a batch", raw("ffffff"))):
        content = begun + rest
        yield "a stream that ends %s is truncated" % name, defined.defined_truncation(content), True
        yield "a stream that ends %s, its first batches" % name, defined.defined_first_rows("stream", content, 1), rows
        yield "a stream that ends %s, its rows before the end" % name, defined.defined_rows_before_end(content), rows
        yield "a stream that ends %s is no table" % name, defined.defined_table("stream", content), None
    yield "a stream that ends behind a marker is broken, not truncated", defined.defined_truncation(begun + raw("ffffffff")), None
    yield "a stream with its end mark is not truncated", defined.defined_truncation(begun + END), False


# ---- messages byte by byte: objects in pre-order at multiples of 8, each table behind its vtable

# the root's place, four zeros; the vtable of a message: version, tag, header, bodyLength; the table
SCHEMA_HEAD = raw(
    "18000000 00000000 0e001800 04000600 08001000 00000000 10000000 04000100 20000000 00000000 00000000 00000000")
RECORD_HEAD = raw(
    "18000000 00000000 0e001800 04000600 08001000 00000000 10000000 04000300 20000000 00000000 80000000 00000000")
# a schema: its vtable and table, and the vector of its fields
NO_FIELDS = raw("0c000c00 04000800 00000000 00000000 10000000 00000000 0c000000 00000000 00000000 00000000")
FIELD_X = raw(
    "0c000c00 04000800 00000000 00000000 10000000 00000000 0c000000 00000000 00000000 01000000 20000000 00000000"
    # the field's vtable and table: name, nullable, type tag, type, children
    "12001400 04000800 09000c00 00001000 00000000 00000000 18000000 18000000 01020000 24000000 34000000 00000000"
    # the name x; the type: 32 bits, signed; no children
    "00000000 01000000 78000000 00000000 08000900 04000800 08000000 20000000 01000000 00000000 00000000 00000000")
# a record batch of 2 rows; its node of 2 slots and 1 null; its buffers of 1 byte at 0 and 8 bytes at 64
TWO_ROWS = raw(
    "0c001800 08001000 14000000 00000000 10000000 00000000 02000000 00000000 0c000000 20000000"
    "00000000 01000000 02000000 00000000 01000000 00000000"
    "00000000 02000000 00000000 00000000 01000000 00000000 40000000 00000000 08000000 00000000")

NO_FIELDS_MESSAGE = raw("ffffffff 58000000") + SCHEMA_HEAD + NO_FIELDS
FIELD_X_MESSAGE = raw("ffffffff c0000000") + SCHEMA_HEAD + FIELD_X
SEVEN_AND_NULL_MESSAGE = raw("ffffffff 98000000") + RECORD_HEAD + TWO_ROWS + body_of(raw("01"), raw("07000000 00000000"))

EMPTY, SEVEN_AND_NULL = Table(schema_of(), []), column(b"x", INT32, [SEVEN, None])


def whole_seals(defined):
    """Seals of a schema without fields and of 7 and a null, byte by byte."""
    for name, table, length, content in (
        ("a schema without fields", EMPTY, 104, NO_FIELDS_MESSAGE + END),
        ("7 and a null", SEVEN_AND_NULL, 496, FIELD_X_MESSAGE + SEVEN_AND_NULL_MESSAGE + END),
    ):
        found = sealed(defined, table.schema, table.rows)
        yield "the seal of %s" % name, (len(found), found), (length, content)
        yield "the seal of %s as read" % name, defined.defined_table("stream", content), table


def seal_in_batches(defined):
    """The seal of 1, 2, 3 in batches of 2."""
    table = column(b"x", INT32, [ONE, TWO, THREE])
    content = sealed(defined, table.schema, table.rows)
    yield "the seal of 1, 2, 3 in batches of 2, its lengths", sizes_of(content), (
        656, [(200, 192, 0), (224, 152, 64), (224, 152, 64), (8, 0, 0)],
    )
    yield "the seal of 1, 2, 3 in batches of 2, its bodies", bodies_of(content), [
        NO_BYTES, body_of(NUMBERS_1_2), body_of(NUMBER_3), NO_BYTES,
    ]
    yield "the seal of 1, 2, 3 in batches of 2 as read", defined.defined_table("stream", content), table


# ---- files

# the root's place, four zeros; the vtable of a footer: version, schema, dictionaries, recordBatches; the table
FOOTER_VTABLE = raw("18000000 00000000 0e001400 04000800 0c001000 00000000 10000000 04000000")
EMPTY_FOOTER = FOOTER_VTABLE + raw("20000000 38000000 3c000000 00000000") + NO_FIELDS + raw("00000000 00000000 00000000 00000000")
BLOCK_208_160_128 = raw("d0000000 00000000 a0000000 00000000 80000000 00000000")
FOOTER_X = FOOTER_VTABLE + raw("20000000 a0000000 a4000000 00000000") + FIELD_X + raw(
    "00000000 00000000 00000000 01000000") + BLOCK_208_160_128
EMPTY_FILE = b"ARROW1\0\0" + NO_FIELDS_MESSAGE + END + EMPTY_FOOTER + raw("68000000") + b"ARROW1"
FILE_OF_ONE_BATCH = (
    b"ARROW1\0\0" + FIELD_X_MESSAGE + SEVEN_AND_NULL_MESSAGE + END + FOOTER_X + raw("e8000000") + b"ARROW1")


def files(defined):
    """Files of no batch and of one, byte by byte: their lengths, and what they say of their footers'."""
    for name, table, groups, lengths, content in (
        ("no batch", EMPTY, [], (226, 104), EMPTY_FILE),
        ("one batch", SEVEN_AND_NULL, [SEVEN_AND_NULL.rows], (746, 232), FILE_OF_ONE_BATCH),
    ):
        found = defined.defined_writing("file", table.schema, numbered(table.schema.fields), groups) or NO_BYTES
        stated = int.from_bytes(found[-10:-6], "little")
        yield "the file of %s" % name, ((len(found), stated), found), (lengths, content)
        yield "the file of %s as read" % name, defined.defined_table("file", content), table
    yield "the file of one batch, its block: offset 208, metadata 160, body 128", found[-34:-10], BLOCK_208_160_128


def blocks(defined):
    """The file of 7 and a null, whose one block is changed: no place and no length of metadata is negative, and a body's length isn't looked at."""
    place = len(FILE_OF_ONE_BATCH) - 34
    for name, at, stated, answer in (
        ("a negative offset", 0, raw("ffffffff ffffffff"), None),
        ("an offset that is not its message's", 0, raw("d8000000 00000000"), None),
        ("a negative length of metadata", 8, raw("ffffffff"), None),
        ("a negative length of the body", 16, raw("ffffffff ffffffff"), SEVEN_AND_NULL),
    ):
        content = FILE_OF_ONE_BATCH[: place + at] + stated + FILE_OF_ONE_BATCH[place + at + len(stated) :]
        yield "a file whose block has %s" % name, defined.defined_table("file", content), answer


def feather_marks(defined):
    """The mark of an older kind of file says something of what is taken for a file alone."""
    for name, form, content, answer in (
        ("a file with the mark of Feather", "file", b"FEA1" + bytes(12), True),
        ("a file of Arrow", "file", EMPTY_FILE, False),
        ("a stream with the mark of Feather", "stream", b"FEA1" + bytes(12), False),
    ):
        yield "the mark of Feather in %s" % name, defined.has_feather_mark(form, content), answer


# ---- which bytes a choice takes

def windows(defined):
    """The windows of chosen columns in the body of a message: no more bytes than are taken, and a mask only where a node states a null."""
    numbers, texts = field(b"x", INT32), field(b"y", TEXT)
    nodes = [(3, 0), (3, 1)]
    buffers = [NO_BYTES, NUMBERS_1_2_3 + bytes(4), VALID_NOT_VALID + bytes(3), OFFSETS_0_1_2_3 + bytes(8), b"abcde"]
    content = stream(schema_of(numbers, texts), record(nodes, buffers))
    for name, columns, answer in (
        ("no column", [], [[]]),
        ("the numbers", [0], [[(0, 12)]]),
        ("the texts", [1], [[(16, 1), (24, 16), (48, 3)]]),
    ):
        yield "the windows of %s" % name, [sorted(taken) for taken in defined.defined_windows("stream", content, columns)], answer
    content = FIELD_X_MESSAGE + SEVEN_AND_NULL_MESSAGE + END
    yield "the windows of 7 and a null", [sorted(taken) for taken in defined.defined_windows("stream", content, [0])], [[(0, 1), (64, 8)]]


# ---- the list

WORKED = (
    lists, null_lists, structs, texts_under_nulls, columns_in_order, missing_parts, dictionaries, nested_dictionaries, sealed_nested_dictionaries,
    sparse_unions, dense_unions, big_endian, short_offsets, early_ends, whole_seals, seal_in_batches, files,
    blocks, feather_marks, windows,
)


def shown(value):
    """A value in a line; bytes in hexadecimal."""
    if isinstance(value, bytes):
        return "<%d bytes: %s>" % (len(value), value.hex(" ", -4))
    if type(value) in (list, tuple):
        return "(%s)" % ", ".join(map(shown, value))
    return repr(value)


def run(worked=WORKED):
    """Finds the values one after another, up to the first that is not as expected; answers the exit status."""
    defined, count = Defined(), 0
    for values in worked:
        for name, found, expected in values(defined):
            if found != expected:
                print("%s: gives\n%s\nexpected is\n%s" % (name, shown(found), shown(expected)))
                return 1
            print("%s: as expected" % name)
            count += 1
    print("%d worked values" % count)
    return 0


if __name__ == "__main__":
    sys.exit(deeply(run))
