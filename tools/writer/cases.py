"""The inputs of the program `tables_files`, good and damaged, and the commands to run over them."""

import struct

from laying import (
    DICTIONARY_BATCH, END, FLOATING_POINT, MARK, RECORD_BATCH, SCHEMA, V4,
    Number, Table, batch_parts, field, framed, int_type, lay, message, padded,
    record_batch, schema, schema_message, stream, usual,
)

# Where the two messages of the example begin, past their 8-byte prefixes.
SCHEMA_AT, RECORD_AT = 8, 208

EXAMPLE = stream([b"x"], [[[7, None]]])
NAMES = [b"id", "größe".encode(), b""]
BATCHES = [
    [[1, 2, 3], [None, 20, 30], [-1, None, -3]],
    [[], [], []],
    [[4, 5], [40, None], [2147483647, -2147483648]],
]


def patched(*edits):
    """The example with other bytes at some places."""
    out = bytearray(EXAMPLE)
    for place, content in edits:
        out[place : place + len(content)] = content
    return bytes(out)


def signed(number):
    return struct.pack("<q", number)


def after_schema(fields, *messages):
    return schema_message(fields) + b"".join(messages) + END


def record(nodes, buffers, body, **more):
    return framed(lay(message(RECORD_BATCH, record_batch(1, nodes, buffers, **more), len(body))), body)


def one_column(node, buffers, body):
    return after_schema([field(b"x")], record([node], buffers, body))


def with_schema(*fields, **more):
    return framed(lay(message(SCHEMA, schema(list(fields), **more)))) + END


def with_type(kind):
    return with_schema(field(b"x", kind=kind))


def unaligned(root):
    return lay(root, 1)


def spare_parts():
    """Nodes and buffers past those of the columns, and metadata of the messages themselves."""
    nodes, buffers, body = batch_parts([[7, None]], 8)
    header = record_batch(2, nodes + [(5, 0)], buffers + [(0, 0)])
    metadata = [(b"made by", b"hand")]
    first = framed(lay(message(SCHEMA, schema([field(b"x")]), 77, metadata=metadata)))
    return first + framed(lay(message(RECORD_BATCH, header, len(body), metadata=metadata)), body) + END


def long_batch():
    columns = [[None if row % 8 == 3 else row * row for row in range(100)]]
    return stream([b"square"], [columns, columns], usual, 8)


def good_inputs():
    """Inputs that are read: name, bytes and the ranges to cut."""
    values = struct.pack("<3i", 7, 8, 9)
    everything = BATCHES + [BATCHES[0]]
    return [
        ("example", EXAMPLE, [(0, 2), (1, 1), (0, 1), (2, 0), (0, 0), (2, 1), (3, 0)]),
        ("no_fields", stream([], []), [(0, 0), (0, 1)]),
        ("no_fields_but_batches", after_schema([], record([], [], b"")), [(0, 0)]),
        ("no_batches", stream(NAMES, []), [(0, 0)]),
        ("not_nullable", stream(NAMES, BATCHES, nullable=False), [(0, 5), (2, 2)]),
        ("empty_between", stream(NAMES, everything), [(0, 8), (2, 2), (3, 1), (2, 4), (8, 0), (8, 1)]),
        ("usual", stream(NAMES, everything, usual, 8), [(0, 8), (2, 4)]),
        ("usual_version_4", stream(NAMES, everything, usual, 8, V4, False), [(1, 6)]),
        ("usual_version_1", stream(NAMES, BATCHES, usual, 8, 0, False), [(0, 5)]),
        ("unaligned", stream(NAMES, BATCHES, unaligned, 1), [(1, 3)]),
        ("hundred_rows", long_batch(), [(3, 1), (90, 20)]),
        ("spare_parts", spare_parts(), [(0, 2)]),
        ("end_without_mark", EXAMPLE[:-8] + bytes(4), [(0, 2)]),
        ("bytes_after_the_end", EXAMPLE + b"unread", [(0, 2)]),
        ("no_null_after_all", one_column((3, 3), [(0, 1), (8, 12)], padded(b"\xff", 8) + values), [(0, 3)]),
        ("bitmap_passed_over", one_column((3, 0), [(0, 1), (8, 12)], bytes(8) + values), [(0, 3)]),
        ("bitmap_out_of_place", one_column((3, 0), [(-9, 0), (0, 12)], values), [(1, 2)]),
        ("negative_null_count", one_column((3, -1), [(0, 1), (8, 12)], bytes(8) + values), [(0, 3)]),
        ("values_under_nulls", one_column((3, 1), [(0, 1), (8, 12)], padded(b"\xfd", 8) + values), [(0, 3)]),
        ("buffers_that_overlap", one_column((3, 1), [(0, 1), (0, 12)], padded(values, 16)), [(0, 3)]),
        ("buffers_in_another_order", one_column((3, 1), [(12, 1), (0, 12)], values + b"\x05"), [(0, 3)]),
    ]


def dictionary_message():
    nodes, buffers, body = batch_parts([[7]], 8)
    header = Table(Number(8, 0), record_batch(1, nodes, buffers), Number(1, 0))
    return framed(lay(message(DICTIONARY_BATCH, header, len(body))), body)


def compressed_batch():
    nodes, buffers, body = batch_parts([[7, None]], 8)
    compression = Table(Number(1, 1), Number(1, 0))
    return record(nodes, buffers, body, compression=compression)


def unequal_columns():
    nodes, buffers, body = batch_parts([[7, None], [1]], 8)
    return after_schema([field(b"x"), field(b"y")], record(nodes, buffers, body))


def bad_metadata():
    """The example with one mistake in its metadata."""
    past = struct.pack("<I", 10000)
    return [
        ("root_past_the_message", patched((SCHEMA_AT, past))),
        ("vtable_of_odd_size", patched((SCHEMA_AT + 8, b"\x0f\x00"))),
        ("vtable_too_short", patched((SCHEMA_AT + 8, b"\x02\x00"))),
        ("vtable_before_the_message", patched((SCHEMA_AT + 24, b"\x20\x00"))),
        ("table_too_short", patched((SCHEMA_AT + 10, b"\x03\x00"))),
        ("table_past_the_message", patched((SCHEMA_AT + 10, b"\xff\xff"))),
        ("field_past_its_table", patched((SCHEMA_AT + 16, b"\x16\x00"))),
        ("field_before_its_table", patched((SCHEMA_AT + 16, b"\x03\x00"))),
        ("reference_past_the_message", patched((SCHEMA_AT + 32, past))),
        ("name_not_text", patched((SCHEMA_AT + 152, b"\xff"))),
        ("name_past_the_message", patched((SCHEMA_AT + 148, past))),
        ("name_missing", patched((SCHEMA_AT + 100, b"\x00\x00"))),
        ("type_missing", patched((SCHEMA_AT + 106, b"\x00\x00"))),
        ("header_missing", patched((RECORD_AT + 16, b"\x00\x00"))),
        ("header_of_another_kind", patched((RECORD_AT + 30, b"\x04"))),
        ("nodes_past_the_message", patched((RECORD_AT + 92, MARK))),
        ("nodes_missing", patched((RECORD_AT + 54, b"\x00\x00"))),
        ("buffers_missing", patched((RECORD_AT + 56, b"\x00\x00"))),
        ("node_missing", patched((RECORD_AT + 92, bytes(4)))),
        ("buffer_missing", patched((RECORD_AT + 116, b"\x01"))),
        ("buffers_past_the_message", patched((RECORD_AT + 116, MARK))),
    ]


def bad_batches():
    """The example with one number out of its bounds."""
    node, buffers, length_at = RECORD_AT + 96, RECORD_AT + 120, RECORD_AT + 40
    return [
        ("node_length_negative", patched((node, signed(-1)))),
        ("node_length_too_large", patched((node, signed(3)))),
        ("node_length_huge", patched((node, signed(2**62)))),
        ("bitmap_too_short", patched((buffers + 8, signed(0)))),
        ("bitmap_length_negative", patched((buffers + 8, signed(-1)))),
        ("bitmap_past_the_body", patched((buffers, signed(128)))),
        ("bitmap_offset_negative", patched((buffers, signed(-1)))),
        ("values_too_short", patched((buffers + 24, signed(7)))),
        ("values_length_negative", patched((buffers + 24, signed(-8)))),
        ("values_past_the_body", patched((buffers + 16, signed(121)))),
        ("values_offset_negative", patched((buffers + 16, signed(-64)))),
        ("values_offset_huge", patched((buffers + 16, signed(2**63 - 1)))),
        ("buffers_above_the_body", patched((buffers + 24, signed(128)))),
        ("buffers_above_the_body_by_overlap", one_column((3, 1), [(0, 1), (0, 12)], bytes(12))),
        ("body_length_negative", patched((length_at, signed(-1)))),
        ("body_length_huge", patched((length_at, signed(2**62)))),
        ("body_shorter_than_stated", patched((length_at, signed(137)))),
        ("unequal_columns", unequal_columns()),
    ]


def bad_framing():
    """The example cut short, and messages that are none or out of their order."""
    schema_part, record_part = EXAMPLE[:200], EXAMPLE[200:488]
    cuts = [0, 3, 4, 7, 8, 100, 199, 200, 203, 204, 207, 208, 359, 360, 487, 488, 491, 492, 495]
    return [("first_%d_bytes" % count, EXAMPLE[:count]) for count in cuts] + [
        ("metadata_length_negative", patched((204, struct.pack("<i", -8)))),
        ("metadata_length_huge", patched((204, struct.pack("<i", 2147483640)))),
        ("end_first", END),
        ("batch_first", record_part + END),
        ("schema_twice", schema_part + schema_part + END),
        ("dictionary_unknown", schema_part + dictionary_message() + record_part + END),
        ("text_file", b"This is no stream at all.\n"),
    ]


def not_implemented():
    """What the format allows and the program does not read."""
    encoding = Table(Number(8, 0), int_type()[1], Number(1, 0), Number(2, 0))
    return [
        ("file_mark", b"ARROW1\x00\x00" + EXAMPLE),
        ("uint64_field", with_type(int_type(64, False))),
        ("uint32_field", with_type(int_type(32, False))),
        ("int64_field", with_type(int_type(64, True))),
        ("float_field", with_type((FLOATING_POINT, Table(Number(2, 1))))),
        ("dictionary_field", with_schema(field(b"x", dictionary=encoding))),
        ("pair_on_schema", with_schema(field(b"x"), metadata=[(b"key", b"value")])),
        ("pair_on_field", with_schema(field(b"x", metadata=[(b"key", b"value")]))),
        ("big_endian", with_schema(field(b"x"), endianness=1)),
        ("compressed", after_schema([field(b"x")], compressed_batch())),
    ]


def usage_commands():
    """Commands that are none, and places that cannot be used."""
    lines = """
        cut
        cut 0 1 example.stream
        cut 0 1 example.stream output.stream more
        cut a 1 example.stream output.stream
        cut 0 +1 example.stream output.stream
        cut 0 -1 example.stream output.stream
        cut 0 0x1 example.stream output.stream
        cut 0 18446744073709551616 example.stream output.stream
        cut 0 99999999999999999999999 missing.stream output.stream
        cat 0 1 example.stream output.stream
        seal 1 example.stream output.stream
        cut 0 18446744073709551615 example.stream output.stream
        cut 18446744073709551615 1 example.stream output.stream
        cut 18446744073709551615 18446744073709551615 example.stream output.stream
        cut 00 0000000000000000000000002 example.stream output.stream
        cut 0 1 missing.stream output.stream
        cut 0 1 example.stream no_folder/output.stream
        cut 0 3 example.stream no_folder/output.stream
        cut 0 1 . output.stream
        cut 0 1 example.stream .
        cut 0 0 output.stream output.stream
    """
    return [line.strip() for line in lines.strip().splitlines()]


def file_cases():
    """The inputs by file name, and the commands to run over them."""
    inputs, commands = {}, []
    for name, content, ranges in good_inputs():
        inputs[name + ".stream"] = content
        commands += ["cut %d %d %s.stream output.stream" % (*window, name) for window in ranges]
    for name, content in bad_metadata() + bad_batches() + bad_framing() + not_implemented():
        inputs[name + ".stream"] = content
        commands.append("cut 0 0 %s.stream output.stream" % name)
    return inputs, commands + usage_commands()
