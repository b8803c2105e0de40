"""An independent reader of Arrow's streams and files, for every type but floats.

Written from the public formats and the profile of this project alone. It answers the table of some
bytes, or a refusal with its reason:

    read("stream", content)     a Table of the normalised schema and the rows
    Refused                     an input that is not read
    TooLarge                    an input that states more slots than are made
"""

import struct

from arrow_metadata import (
    Batch, DICTIONARY_BATCH, Footer, Message, NOT_IMPLEMENTED, RECORD_BATCH, ReadSchema, Refused, SCHEMA, UNFINISHED, V5,
    ask, is_text,
)
from arrow_types import (
    BYTES, INTEGERS, KINDS, LISTS, MOST_DICTIONARIES, TEXTS, Schema, Table, kind_of, storage_of,
)

MARKER, MARK = b"\xff\xff\xff\xff", b"ARROW1"
NO_COLUMN = "no such column"
MOST_SLOTS = 100_000


class TooLarge(Exception):
    """More slots than are made here, as a column of nulls may state."""


class Source:
    """Where the parts of a batch stand, and how its numbers do.

    `room` holds the buffers, from `origin` on; in a file it is the whole file.
    """

    def __init__(self, batch, room, origin, order, version):
        self.batch, self.room, self.origin, self.order, self.version = batch, room, origin, order, version
        self.node, self.buffer = 0, 0

    def next_node(self):
        ask(self.node < len(self.batch.nodes), "a node is missing")
        self.node += 1
        length, nulls = self.batch.nodes[self.node - 1]
        return length, nulls

    def next_length(self):
        """Length and null count of the next node, whose length is not negative."""
        length, nulls = self.next_node()
        ask(length >= 0, "a negative number of slots")
        return length, nulls

    def next_buffer(self):
        ask(self.buffer < len(self.batch.buffers), "a buffer is missing")
        self.buffer += 1
        return self.batch.buffers[self.buffer - 1]

    def taken(self, buffer, needed):
        """The first bytes of a buffer."""
        offset, length = buffer
        ask(length >= needed, "a buffer is too short")
        ask(offset >= 0, "a buffer at a negative place")
        start = self.origin + offset
        ask(start + needed <= len(self.room), "a buffer past the end")
        return self.room[start : start + needed]

    def next_taken(self, needed):
        return self.taken(self.next_buffer(), needed)

    def numbers(self, content, width, signed):
        """The numbers of a width that some bytes hold."""
        step = range(0, len(content), width)
        return [int.from_bytes(content[at : at + width], self.order, signed=signed) for at in step]

    def validity(self, nulls, taken):
        """A truth value a slot; the buffer is passed over where no slot is said to be null."""
        buffer = self.next_buffer()
        if nulls <= 0:
            return None
        return bits_of(self.taken(buffer, (taken + 7) // 8), taken)

    def offsets(self, width, taken):
        buffer = self.next_buffer()
        if taken == 0 and buffer[1] < width:
            return [0]
        offsets = self.numbers(self.taken(buffer, (taken + 1) * width), width, True)
        ask(offsets[0] >= 0, "a negative offset")
        ask(all(a <= b for a, b in zip(offsets, offsets[1:])), "offsets fall")
        return offsets


def bits_of(content, count):
    return [bool(content[i >> 3] >> (i & 7) & 1) for i in range(count)]


def least(limit, length):
    taken = length if limit is None else min(limit, length)
    if taken > MOST_SLOTS:
        raise TooLarge()
    return taken


def masked(values, validity):
    if validity is None:
        return values
    return [value if is_valid else None for value, is_valid in zip(values, validity)]


class Columns:
    """Reads columns of one source under the dictionaries that stand."""

    def __init__(self, source, dictionaries):
        self.source, self.dictionaries = source, dictionaries

    def column(self, column, limit):
        """The slots of a column under a limit."""
        data_type = column.field.data_type
        if data_type[0] == "Dictionary":
            return self.dictionary(column, data_type, limit)
        return self.values(column, data_type, column.normal.data_type, limit)

    def values(self, column, data_type, normal, limit):
        """The slots of a type that is no dictionary, whose children are a column's."""
        data_type, normal = storage_of(data_type), storage_of(normal)
        name = data_type[0]
        if name == "Union":
            return self.union(column, data_type, normal, limit)
        length, nulls = self.source.next_length()
        if name == "Null":
            return [None] * least(limit, length)
        taken = self.counted(name, data_type, limit, length)
        validity = self.source.validity(nulls, taken)
        if name == "Boolean":
            return masked(bits_of(self.source.next_taken((taken + 7) // 8), taken), validity)
        if kind_of(data_type):
            return masked(self.primitives(kind_of(data_type), taken), validity)
        if name in BYTES or name == "FixedSizeBinary":
            return masked(self.strings(data_type, taken), validity)
        if name in LISTS:
            return masked(self.lists(column, LISTS[name], taken), validity)
        if name == "FixedSizeList":
            return masked(self.fixed_lists(column, data_type[2], taken, limit), validity)
        return masked(self.records(column, taken, limit), validity)

    def counted(self, name, data_type, limit, length):
        """The taken length; a length that no buffer could hold is refused before a list is made of it."""
        try:
            return least(limit, length)
        except TooLarge:
            if name in ("Struct", "FixedSizeList"):
                raise
            ask(length <= 8 * len(self.source.room) + 8, "more slots than bytes")
            raise

    def primitives(self, kind, taken):
        widths = KINDS[kind]
        size = sum(width for width, _ in widths)
        content = self.source.next_taken(taken * size)
        if len(widths) == 1:
            width, signed = widths[0]
            return [("number", kind, number) for number in self.source.numbers(content, width, signed)]
        label = "pair" if len(widths) == 2 else "triple"
        out = []
        for start in range(0, len(content), size):
            parts = []
            for width, signed in widths:
                parts += self.source.numbers(content[start : start + width], width, signed)
                start += width
            out.append((label, kind, *parts))
        return out

    def strings(self, data_type, taken):
        name = data_type[0]
        if name == "FixedSizeBinary":
            size = data_type[1]
            content = self.source.next_taken(taken * size)
            return [("bytes", content[i * size : (i + 1) * size]) for i in range(taken)]
        offsets = self.source.offsets(BYTES[name], taken)
        content = self.source.next_taken(offsets[-1])
        parts = [content[a:b] for a, b in zip(offsets, offsets[1:])]
        if name not in TEXTS:
            return [("bytes", part) for part in parts]
        ask(all(map(is_text, parts)), "a text that is no UTF-8")
        return [("text", part) for part in parts]

    def exact(self, column, limit, wanted):
        """The slots of a child, which have to be so many."""
        slots = self.column(column, limit)
        ask(len(slots) == wanted, "a child of another length")
        return slots

    def lists(self, column, width, taken):
        offsets = self.source.offsets(width, taken)
        child = self.exact(column.children[0], offsets[-1], offsets[-1])
        return [("items", tuple(child[a:b])) for a, b in zip(offsets, offsets[1:])]

    def fixed_lists(self, column, size, taken, limit):
        below = None if limit is None else limit * size
        child = self.exact(column.children[0], below, taken * size)
        return [("items", tuple(child[i * size : (i + 1) * size])) for i in range(taken)]

    def records(self, column, taken, limit):
        children = [self.exact(child, limit, taken) for child in column.children]
        return [("fields", row) for row in zip(*children)]

    def union(self, column, data_type, normal, limit):
        """A union is read whole, and then cut."""
        length, _ = self.source.next_length()
        if self.source.version < V5:
            self.source.next_buffer()
        types = self.source.numbers(self.source.next_taken(length), 1, True)
        is_dense = data_type[3] == "Dense"
        offsets = self.source.numbers(self.source.next_taken(length * 4), 4, True) if is_dense else range(length)
        children = [self.column(child, None) for child in column.children]
        ask(is_dense or all(len(child) == length for child in children), "a sparse union's child of another length")
        ids = range(len(children)) if data_type[2] is None else data_type[2]
        places = {number: place for place, number in enumerate(ids)}
        out = []
        for number, offset in zip(types, offsets):
            ask(number in places, "an unknown type in a union")
            child = children[places[number]]
            ask(0 <= offset < len(child), "a union's offset past its child")
            out.append(("pick", normal[1][places[number]].data_type, child[offset]))
        return out[: least(limit, length)]

    def dictionary(self, column, data_type, limit):
        length, nulls = self.source.next_length()
        taken = self.counted("Dictionary", data_type, limit, length)
        validity = self.source.validity(nulls, taken)
        bits, signed = INTEGERS[data_type[1]]
        keys = self.source.numbers(self.source.next_taken(taken * (bits // 8)), bits // 8, signed)
        ask(column.number in self.dictionaries, "a dictionary is missing")
        value_type, values = self.dictionaries[column.number]
        ask(value_type == column.normal.data_type[2], "a dictionary of another type")
        out = []
        for i, key in enumerate(keys):
            is_valid = validity is None or validity[i]
            ask(not is_valid or 0 <= key < len(values), "a key outside its dictionary")
            out.append(values[key] if is_valid else None)
        return out


def nodes_of(column):
    """How many nodes a column has, with those of the columns below it."""
    if column.field.data_type[0] == "Dictionary":
        return 1
    return 1 + sum(map(nodes_of, column.children))


def buffers_of(column, version):
    """How many buffers a column has, with those of the columns below it."""
    data_type = storage_of(column.field.data_type)
    name = data_type[0]
    if name == "Dictionary":
        return 2
    own = {"Null": 0, "Struct": 1, "FixedSizeList": 1}.get(name, 3 if name in BYTES else 2)
    if name == "Union":
        own = (version < V5) + (2 if data_type[3] == "Dense" else 1)
    return own + sum(buffers_of(child, version) for child in column.children)


class Reading:
    """One input that is read: its schema, the dictionaries that stand, and the rows."""

    def __init__(self, schema, columns, limit):
        self.schema, self.limit, self.dictionaries, self.rows = schema, limit, {}, []
        self.chosen = list(range(len(schema.columns))) if columns is None else columns
        ask(all(k < len(schema.columns) for k in self.chosen), "no such column", NO_COLUMN)

    def dictionary(self, message, room, origin, version):
        table = message.header
        number = table.number(0, "<q")
        data = table.needed_table(1, "a dictionary without values")
        ask(not table.truth(2), "a dictionary's delta", NOT_IMPLEMENTED)
        source = Source(Batch(data, len(room)), room, origin, self.schema.order, version)
        column = self.schema.with_number(number)
        ask(column is not None, "a dictionary of an unknown id")
        normal = column.normal.data_type[2]
        slots = Columns(source, self.dictionaries).values(column, column.field.data_type[2], normal, None)
        self.dictionaries[number] = normal, slots

    def record(self, message, room, origin, version):
        source = Source(Batch(message.header, len(room)), room, origin, self.schema.order, version)
        reader = Columns(source, self.dictionaries)
        left = None if self.limit is None else self.limit - len(self.rows)
        found = {}
        for k, column in enumerate(self.schema.columns):
            if k in self.chosen:
                found[k] = reader.column(column, left)
            else:
                source.node += nodes_of(column)
                source.buffer += buffers_of(column, version)
        columns = [found[k] for k in self.chosen]
        ask(all(len(column) == len(columns[0]) for column in columns), "columns of other lengths")
        self.rows += list(zip(*columns))

    def table(self):
        fields = tuple(self.schema.normal.fields[k] for k in self.chosen)
        return Table(Schema(fields, self.schema.normal.metadata), self.rows)


class Frames:
    """The messages of a stream, one after another."""

    def __init__(self, content):
        self.content, self.place = content, 0

    def take(self, count):
        ask(0 <= count and self.place + count <= len(self.content), "the input ends too early")
        self.place += count
        return self.content[self.place - count : self.place]

    def next(self):
        """The next message, or None at the end of the stream."""
        first = self.take(4)
        length = struct.unpack("<i", self.take(4) if first == MARKER else first)[0]
        return None if length == 0 else Message(self.take(length))


def read_stream(content, columns, limit):
    frames = Frames(content)
    first = frames.next()
    ask(first is not None and first.tag == SCHEMA, "no schema first")
    version = first.known_version()
    reading, in_a_row = Reading(ReadSchema(first.header), columns, limit), 0
    messages = []
    while True:
        if len(content) - frames.place < 4:
            raise Refused("the input ends before a message", UNFINISHED)
        message = frames.next()
        if message is None:
            break
        ask(message.tag != SCHEMA, "a second schema")
        in_a_row = in_a_row + 1 if message.tag == DICTIONARY_BATCH else 0
        ask(in_a_row <= MOST_DICTIONARIES, "too many dictionaries in a row")
        messages.append((message, frames.take(message.body_length())))
    for message, body in messages:
        read_one = reading.dictionary if message.tag == DICTIONARY_BATCH else reading.record
        read_one(message, body, 0, version)
    return reading.table()


def message_at(content, block, tag):
    """The message of a block, and where its buffers' offsets count from."""
    offset, length, _ = block
    frames = Frames(content)
    frames.place = offset
    message = frames.next()
    ask(message is not None and message.tag == tag, "a block of another kind")
    return message, offset + length


def read_file(content, columns, limit):
    ask(not content.startswith(b"FEA1"), "a feather file", NOT_IMPLEMENTED)
    ask(content.startswith(MARK) and content.endswith(MARK) and len(content) >= 10, "no file's marks")
    length = struct.unpack_from("<i", content, len(content) - 10)[0]
    start = len(content) - 10 - length
    ask(length >= 0 and start >= 0, "a footer outside the file")
    footer = Footer(content[start : start + length])
    reading = Reading(footer.schema, columns, limit)
    ask(not footer.records or len(footer.dictionaries) <= MOST_DICTIONARIES, "too many dictionary blocks")
    for block in footer.dictionaries if footer.records else []:
        message, origin = message_at(content, block, DICTIONARY_BATCH)
        reading.dictionary(message, content, origin, message.known_version())
    for block in footer.records:
        message, origin = message_at(content, block, RECORD_BATCH)
        reading.record(message, content, origin, message.known_version())
    return reading.table()


def read(form, content, columns=None, limit=None):
    """The table of some bytes; where columns are given, these in that order, and the first rows under a limit."""
    return (read_stream if form == "stream" else read_file)(content, columns, limit)
