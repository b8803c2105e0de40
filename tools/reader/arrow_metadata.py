"""Reads Arrow's metadata: FlatBuffers by address, schemas, batches, messages and footers.

Written from the public formats and the profile of this project alone; it shares no words with the
definitions of `specs/`.
"""

import struct

from arrow_types import (
    DEEPEST, Field, INTEGERS, INTERVALS, METADATA_KEY, MODES, NAME_KEY, Schema, UNITS, child_fields, normalised,
    why_no_schema,
)

OUT_OF_SPEC, NOT_IMPLEMENTED, UNFINISHED = "out of specification", "not implemented", "unfinished"
SCHEMA, DICTIONARY_BATCH, RECORD_BATCH = 1, 2, 3
VERSIONS = range(5)
V5 = 4
INTEGER_NAMES = {shape: name for name, shape in INTEGERS.items()}
FLAT_TAGS = {1: "Null", 4: "Binary", 5: "Utf8", 6: "Boolean", 19: "LargeBinary", 20: "LargeUtf8"}
LIST_TAGS = {12: "List", 16: "FixedSizeList", 17: "Map", 21: "LargeList"}


class Refused(Exception):
    """An input that is not read: the kind of the refusal, and why."""

    def __init__(self, why, kind=OUT_OF_SPEC):
        super().__init__(why)
        self.kind = kind


def ask(holds, why, kind=OUT_OF_SPEC):
    if not holds:
        raise Refused(why, kind)


class Node:
    """A table of a message."""

    def __init__(self, message, place):
        self.message, self.place = message, place
        vtable = place - self.at(place, "<i")
        size = self.at(vtable, "<H")
        self.size = self.at(vtable + 2, "<H")
        ask(size >= 4 and size % 2 == 0 and vtable + size <= len(message), "a vtable's size")
        ask(self.size >= 4 and place + self.size <= len(message), "a table's size")
        self.entries = struct.unpack_from("<%dH" % (size // 2 - 2), message, vtable + 4)

    def at(self, place, form):
        ask(0 <= place and place + struct.calcsize(form) <= len(self.message), "a place outside the message")
        return struct.unpack_from(form, self.message, place)[0]

    def slot(self, index, width):
        """Where a field stands, or None where it is absent."""
        entry = self.entries[index] if index < len(self.entries) else 0
        if entry == 0:
            return None
        ask(4 <= entry and entry + width <= self.size, "a field outside its table")
        return self.place + entry

    def number(self, index, form, absent=0):
        place = self.slot(index, struct.calcsize(form))
        return absent if place is None else self.at(place, form)

    def truth(self, index):
        return self.number(index, "<B") != 0

    def target(self, index):
        place = self.slot(index, 4)
        return None if place is None else place + self.at(place, "<I")

    def table(self, index):
        place = self.target(index)
        return None if place is None else Node(self.message, place)

    def needed_table(self, index, why):
        found = self.table(index)
        ask(found is not None, why)
        return found

    def vector(self, index, width):
        """Where the elements of a vector stand and how many there are, or None."""
        place = self.target(index)
        if place is None:
            return None
        count = self.at(place, "<I")
        ask(place + 4 + width * count <= len(self.message), "a vector past the message")
        return place + 4, count

    def structs(self, index, form, why):
        """The structs of a vector that has to be there."""
        found = self.vector(index, struct.calcsize(form))
        ask(found is not None, why)
        start, count = found
        return list(struct.iter_unpack(form, self.message[start : start + count * struct.calcsize(form)]))

    def element(self, vector, k):
        place = vector[0] + 4 * k
        return Node(self.message, place + self.at(place, "<I"))

    def text(self, index):
        found = self.vector(index, 1)
        if found is None:
            return None
        content = self.message[found[0] : found[0] + found[1]]
        ask(is_text(content), "a string that is no UTF-8")
        return content


def is_text(content):
    try:
        content.decode("utf-8")
    except UnicodeDecodeError:
        return False
    return True


def root_of(message):
    ask(len(message) >= 4, "a message without a root")
    return Node(message, struct.unpack_from("<I", message)[0])


# ---- schemas

class Column:
    """A field of a schema as it is read: the field, the id of its dictionary, and the fields below it.

    `normal` is the field in the normalised schema.
    """

    def __init__(self, field, number, children):
        self.field, self.number, self.children, self.normal = field, number, children, None


class SchemaReader:
    """Reads the fields of one schema, counting the tables that it visits."""

    def __init__(self, message):
        self.left = len(message)

    def column(self, table, depth):
        self.left -= 1
        ask(self.left >= 0, "more fields than bytes")
        ask(depth <= DEEPEST, "fields nest too deep")
        name, tag = table.text(0), table.number(2, "<B")
        ask(name is not None, "a field without a name")
        ask(1 <= tag <= 21, "an unknown type")
        kind = table.needed_table(3, "a field without a type")
        data_type, children = self.data_type(table, tag, kind, depth)
        pairs = pairs_of(table, 6)
        if NAME_KEY in pairs:
            data_type = ("Extension", pairs[NAME_KEY], data_type, pairs.get(METADATA_KEY))
        encoding, number = table.table(4), None
        if encoding is not None:
            number = encoding.number(0, "<q")
            keys = integer_of(encoding.needed_table(1, "a dictionary without a type of keys"))
            data_type = ("Dictionary", keys, data_type, encoding.truth(2))
        field = Field(name, data_type, table.truth(1), tuple(sorted(pairs.items())))
        return Column(field, number, children)

    def data_type(self, table, tag, kind, depth):
        """A type and the columns below it."""
        if tag in FLAT_TAGS:
            return (FLAT_TAGS[tag],), []
        if tag in LIST_TAGS:
            children = self.children(table, depth, 1)
            ask(children, "a list without a child")
            more = (kind.number(0, "<i"),) if tag == 16 else (kind.truth(0),) if tag == 17 else ()
            return (LIST_TAGS[tag], children[0].field) + more, children
        if tag in (13, 14):
            more = union_of(kind) if tag == 14 else ()
            children = self.children(table, depth, None)
            fields = tuple(child.field for child in children)
            return ("Union" if tag == 14 else "Struct", fields) + more, children
        return plain_type(tag, kind), []

    def children(self, table, depth, most):
        vector = table.vector(5, 4)
        ask(vector is not None, "a nested field without children")
        count = vector[1] if most is None else min(most, vector[1])
        return [self.column(table.element(vector, k), depth + 1) for k in range(count)]


def plain_type(tag, kind):
    """The type of a tag whose type has no fields below it."""
    ask(tag != 3, "a float", NOT_IMPLEMENTED)
    if tag == 2:
        return (integer_of(kind),)
    if tag == 7:
        bits = kind.number(2, "<i", 128)
        ask(bits in (128, 256), "a decimal of other bits")
        return ("Decimal" if bits == 128 else "Decimal256", kind.number(0, "<i"), kind.number(1, "<i"))
    if tag == 8:
        return (chosen(("Date32", "Date64"), kind.number(0, "<h", 1)),)
    if tag == 9:
        unit, bits = chosen(UNITS, kind.number(0, "<h", 1)), kind.number(1, "<i", 32)
        ask(bits in (32, 64), "a time of other bits")
        return ("Time%d" % bits, unit)
    if tag == 10:
        return ("Timestamp", chosen(UNITS, kind.number(0, "<h")), kind.text(1))
    if tag == 11:
        return ("Interval", chosen(INTERVALS, kind.number(0, "<h")))
    if tag == 15:
        return ("FixedSizeBinary", kind.number(0, "<i"))
    return ("Duration", chosen(UNITS, kind.number(0, "<h", 1)))


def chosen(values, number):
    ask(0 <= number < len(values), "an unknown unit or mode")
    return values[number]


def integer_of(table):
    shape = table.number(0, "<i"), table.truth(1)
    ask(shape in INTEGER_NAMES, "an integer of other bits")
    return INTEGER_NAMES[shape]


def union_of(table):
    """A union's ids, where they are given, and its mode."""
    mode, found = chosen(MODES, table.number(0, "<h")), table.vector(1, 4)
    if found is None:
        return None, mode
    return struct.unpack_from("<%di" % found[1], table.message, found[0]), mode


def pairs_of(table, index):
    """Custom metadata: the last of a repeated key counts."""
    vector, pairs = table.vector(index, 4), {}
    for k in range(vector[1] if vector else 0):
        entry = table.element(vector, k)
        key, value = entry.text(0), entry.text(1)
        if key is not None and value is not None:
            pairs[key] = value
    return pairs


class ReadSchema:
    """A schema as it is read: its columns, the byte order, and the normalised schema."""

    def __init__(self, table):
        order = table.number(0, "<h")
        ask(order in (0, 1), "an unknown byte order")
        vector = table.vector(1, 4)
        ask(vector is not None, "a schema without fields")
        reader = SchemaReader(table.message)
        self.columns = [reader.column(table.element(vector, k), 1) for k in range(vector[1])]
        self.order = "big" if order else "little"
        read = Schema(tuple(column.field for column in self.columns), tuple(sorted(pairs_of(table, 2).items())))
        why = why_no_schema(read)
        ask(why is None, why)
        self.normal = normalised(read)
        set_normal(self.columns, self.normal.fields)

    def with_number(self, number):
        """The first column in pre-order whose dictionary has an id, or None."""
        waiting = list(reversed(self.columns))
        while waiting:
            column = waiting.pop()
            if column.number == number and column.field.data_type[0] == "Dictionary":
                return column
            waiting += reversed(column.children)
        return None


def set_normal(columns, fields):
    for column, field in zip(columns, fields):
        column.normal = field
        set_normal(column.children, child_fields(field.data_type))


# ---- batches, messages, footers

class Batch:
    """The parts of a record batch: nodes and buffers."""

    def __init__(self, table, room_size):
        self.nodes = table.structs(1, "<qq", "a batch without nodes")
        self.buffers = table.structs(2, "<qq", "a batch without buffers")
        ask(table.table(3) is None, "a compressed batch", NOT_IMPLEMENTED)
        ask(all(length >= 0 for _, length in self.buffers), "a buffer of negative length")
        ask(sum(length for _, length in self.buffers) <= room_size, "buffers longer than what there is")


class Message:
    """A message's metadata: its kind and header, and where they are asked for its version and the length of its body."""

    def __init__(self, content):
        root = root_of(content)
        self.tag = root.number(1, "<B")
        ask(self.tag in (SCHEMA, DICTIONARY_BATCH, RECORD_BATCH), "another kind of message")
        self.header = root.needed_table(2, "a message without a header")
        self.root = root

    def body_length(self):
        length = self.root.number(3, "<q")
        ask(length >= 0, "a body of negative length")
        return length

    def known_version(self):
        """The version, which is looked at where the layout of unions follows it."""
        version = self.root.number(0, "<h")
        ask(version in VERSIONS, "an unknown version")
        return version


class Footer:
    """A file's footer: its schema, and the places of its messages."""

    def __init__(self, content):
        root = root_of(content)
        self.schema = ReadSchema(root.needed_table(1, "a footer without a schema"))
        self.dictionaries = [] if root.vector(2, 24) is None else root.structs(2, "<qi4xq", "")
        self.records = root.structs(3, "<qi4xq", "a footer without record blocks")
        for offset, length, _ in self.dictionaries + self.records:
            ask(offset >= 0 and length >= 0, "a block at a negative place")
