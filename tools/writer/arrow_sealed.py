"""The project's canonical bytes: sealed streams, and files of the same messages.

Written from the public formats and the profile of this project, apart from the definitions of
`specs/`: the laying of metadata, `column_bytes` of slots, and `sealed`.
"""

import struct

from arrow_trees import (
    DICTIONARY_BATCH, RECORD_BATCH, SCHEMA, batch_tree, dictionary_tree, footer_tree, message_tree, numbered, schema_tree,
)
from arrow_types import BYTES, INTEGERS, KINDS, LISTS, TEXTS, child_fields, kind_of, storage_of
from laying import lay

MARKER = b"\xff\xff\xff\xff"
END = MARKER + bytes(4)
STEP = 64
MOST_BATCH_ROWS = 65536


def why_not_sealable(fields):
    """Why fields may not be sealed, or None."""
    for field in fields:
        data_type = field.data_type
        if data_type[0] == "Dictionary" and data_type[3]:
            return "an ordered dictionary"
        inner = storage_of(data_type[2] if data_type[0] == "Dictionary" else data_type)
        if inner[0] in ("Map", "Union"):
            return "a map or a union"
        if inner[0] == "Struct" and not inner[1]:
            return "a struct without fields"
        why = why_not_sealable(child_fields(inner))
        if why:
            return why
    return None


def is_of_type(data_type, slot):
    """Whether a value may stand in a column of a type; in a union none but a null."""
    data_type = storage_of(data_type[2] if data_type[0] == "Dictionary" else data_type)
    name, kind = data_type[0], kind_of(data_type)
    if slot is None:
        return True
    if isinstance(slot, bool):
        return name == "Boolean"
    if kind:
        return len(slot) > 1 and slot[0] == ("number", "pair", "triple")[len(KINDS[kind]) - 1] and slot[1] == kind
    if name in BYTES:
        return slot[0] == ("text" if name in TEXTS else "bytes")
    if name == "FixedSizeBinary":
        return slot[0] == "bytes" and len(slot[1]) == data_type[1]
    if name in LISTS or name == "FixedSizeList":
        is_long = name != "FixedSizeList" or slot[0] == "items" and len(slot[1]) == data_type[2]
        return slot[0] == "items" and is_long and all(is_of_type(data_type[1].data_type, item) for item in slot[1])
    if name != "Struct" or slot[0] != "fields" or len(slot[1]) != len(data_type[1]):
        return False
    return all(is_of_type(field.data_type, part) for field, part in zip(data_type[1], slot[1]))


def packed(flags):
    """Truth values as bits, least bit first."""
    out = bytearray((len(flags) + 7) // 8)
    for index, flag in enumerate(flags):
        out[index // 8] |= int(bool(flag)) << index % 8
    return bytes(out)


def distinct(slots):
    """The slots that are not null, each at its first use."""
    return list(dict.fromkeys(slot for slot in slots if slot is not None))


class NotWritten(Exception):
    """What is not written: more distinct values than keys can name, or different dictionaries under one id."""


class Batch:
    """The nodes and buffers of columns, and the dictionaries' lists, inner ones first."""

    def __init__(self):
        self.nodes, self.buffers, self.dictionaries = [], [], []

    def column(self, spec, slots):
        self.values(spec, spec.field.data_type, slots)

    def values(self, spec, data_type, slots):
        if data_type[0] == "Dictionary":
            return self.keys(spec, data_type, slots)
        data_type = storage_of(data_type)
        name, nulls = data_type[0], sum(slot is None for slot in slots)
        self.nodes.append((len(slots), nulls))
        if name == "Null":
            return None
        self.validity(slots, nulls)
        if name == "Boolean":
            self.buffers.append(packed(slots))
        elif kind_of(data_type):
            self.buffers.append(b"".join(numbers_of(slot, KINDS[kind_of(data_type)]) for slot in slots))
        elif name in BYTES:
            self.offsets(slots, BYTES[name])
            self.buffers.append(b"".join(slot[1] for slot in slots if slot))
        elif name == "FixedSizeBinary":
            self.buffers.append(b"".join(slot[1] if slot else bytes(data_type[1]) for slot in slots))
        elif name in LISTS:
            self.offsets(slots, LISTS[name])
            self.column(spec.children[0], [item for slot in slots if slot for item in slot[1]])
        elif name == "FixedSizeList":
            none = (None,) * data_type[2]
            self.column(spec.children[0], [item for slot in slots for item in (slot[1] if slot else none)])
        else:
            for place, child in enumerate(spec.children):
                self.column(child, [slot[1][place] if slot else None for slot in slots])
        return None

    def validity(self, slots, nulls):
        self.buffers.append(packed([slot is not None for slot in slots]) if nulls else b"")

    def offsets(self, slots, width):
        offsets = [0]
        for slot in slots:
            offsets.append(offsets[-1] + (len(slot[1]) if slot else 0))
        self.buffers.append(b"".join(offset.to_bytes(width, "little", signed=True) for offset in offsets))

    def keys(self, spec, data_type, slots):
        values = distinct(slots)
        place = {value: index for index, value in enumerate(values)}
        nulls = sum(slot is None for slot in slots)
        self.nodes.append((len(slots), nulls))
        self.validity(slots, nulls)
        bits, signed = INTEGERS[data_type[1]]
        if len(values) > 1 << bits - signed:
            raise NotWritten("too many distinct values")
        width = bits // 8
        self.buffers.append(b"".join(place.get(slot, 0).to_bytes(width, "little") for slot in slots))
        inner = Batch()
        inner.values(spec, data_type[2], values)
        self.dictionaries += inner.dictionaries + [(spec.number, data_type[2], values, inner)]

    def placed(self):
        """Where each buffer stands, and the body."""
        places, body = [], bytearray()
        for content in self.buffers:
            places.append((len(body), len(content)))
            body += content + bytes(-len(content) % STEP)
        return places, bytes(body)


def numbers_of(slot, widths):
    """A number, pair or triple with the lowest bytes first, and zeros for a null."""
    if slot is None:
        return bytes(sum(width for width, _ in widths))
    return b"".join(number.to_bytes(width, "little", signed=signed) for number, (width, signed) in zip(slot[2:], widths))


def framed(tree, body=b""):
    metadata = lay(tree)
    return MARKER + struct.pack("<i", len(metadata)) + metadata, body


def schema_message(specs, metadata):
    return framed(message_tree(SCHEMA, schema_tree(specs, metadata), 0))


def record_message(batch, count):
    places, body = batch.placed()
    return framed(message_tree(RECORD_BATCH, batch_tree(count, batch.nodes, places), len(body)), body)


def dictionary_message(number, values, batch):
    places, body = batch.placed()
    header = dictionary_tree(number, batch_tree(len(values), batch.nodes, places))
    return framed(message_tree(DICTIONARY_BATCH, header, len(body)), body)


def messages_of(specs, groups, may_replace=True, known=()):
    """Kind, head and body of each message behind the schema, for groups of rows, where some dictionaries stand already."""
    out, last = [], dict(known)
    for rows in groups:
        batch, own = Batch(), {}
        for place, spec in enumerate(specs):
            batch.column(spec, [row[place] for row in rows])
        for number, value_type, values, inner in batch.dictionaries:
            given = value_type, values
            if own.setdefault(number, given) != given:
                raise NotWritten("two dictionaries of one id in a batch")
            if last.get(number) != given:
                if number in last and not may_replace:
                    raise NotWritten("a dictionary is replaced")
                out.append((DICTIONARY_BATCH, *dictionary_message(number, values, inner)))
                last[number] = given
        out.append((RECORD_BATCH, *record_message(batch, len(rows))))
    return out


def groups_of(rows, size):
    return [rows[at : at + size] for at in range(0, len(rows), size)]


def stream_of(specs, metadata, groups):
    """A stream of groups of rows under fields with dictionary ids."""
    head, _ = schema_message(specs, metadata)
    return head + b"".join(head + body for _, head, body in messages_of(specs, groups)) + END


def sealed(schema, rows, size):
    """The seal of a table in groups of so many rows."""
    for row in rows:
        if len(row) != len(schema.fields) or not row:
            raise NotWritten("a row of another width")
        if not all(is_of_type(field.data_type, slot) for field, slot in zip(schema.fields, row)):
            raise NotWritten("a value of another type")
    if not 1 <= size <= MOST_BATCH_ROWS:
        raise NotWritten("a batch of another size")
    return stream_of(numbered(schema.fields), schema.metadata, groups_of(rows, size))


def file_of(specs, metadata, groups):
    """A file of groups of rows, where no dictionary changes."""
    start = b"ARROW1\0\0" + schema_message(specs, metadata)[0]
    return file_behind(start, specs, metadata, {DICTIONARY_BATCH: [], RECORD_BATCH: []}, messages_of(specs, groups, False))


def file_behind(out, specs, metadata, blocks, messages, least=0):
    """A file that begins with some bytes, which has these blocks, and messages behind them; it has at least so many bytes."""
    for kind, head, body in messages:
        blocks[kind].append((len(out), len(head), len(body)))
        out += head + body
    footer = lay(footer_tree(schema_tree(specs, metadata), blocks[DICTIONARY_BATCH], blocks[RECORD_BATCH]))
    end = footer + struct.pack("<i", len(footer)) + b"ARROW1"
    return out + END + bytes(max(0, least - len(out + END + end))) + end
