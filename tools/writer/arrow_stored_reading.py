"""Reads streams and files of every type but floats into the columns that arrays store, batch by batch, or refuses them.

Written from the public formats and the profile of this project, apart from the definitions of `specs/`. It asks for nothing that
`arrow_reader` does not; that one answers slots, and this one what a writer has of an array.
"""

import struct
from collections import namedtuple

from arrow_columns import FixedLists, Flat, Keys, Lists, Nulls, Records, Strings, Unions, rows_in
from arrow_metadata import (
    Batch, DICTIONARY_BATCH, Footer, NOT_IMPLEMENTED, RECORD_BATCH, ReadSchema, Refused, SCHEMA, UNFINISHED, V5, ask, is_text, root_of,
)
from arrow_reader import Frames, MARK, NO_COLUMN, Source, bits_of, buffers_of, message_at, nodes_of
from arrow_types import BYTES, INTEGERS, KINDS, LISTS, MOST_DICTIONARIES, TEXTS, kind_of, storage_of

TOO_MANY_ROWS = "too many rows"
MOST_ROWS = 2**64 - 1

# Slots of a field's tag and children and of a schema's fields, of a dictionary's values and of whether it is a delta, of a compression, and of a
# footer's schema.
TAG_SLOT, CHILDREN_SLOT, FIELDS_SLOT, VALUES_SLOT, DELTA_SLOT, COMPRESSION_SLOT, FOOTER_SCHEMA_SLOT = 2, 5, 1, 1, 2, 3, 1
FLOATING_POINT = 3

# A normalised schema, and the batches under it, each a list of stored columns.
StoredTable = namedtuple("StoredTable", "schema batches")


def row_count(table):
    return sum(map(rows_in, table.batches))


class ColumnReader:
    """Reads columns of one source under the dictionaries that stand."""

    def __init__(self, source, dictionaries):
        self.source, self.dictionaries = source, dictionaries

    def column(self, column, limit):
        """The first slots of a column, at most as many as a limit."""
        data_type = column.normal.data_type
        if data_type[0] == "Dictionary":
            return self.keys(column, data_type, limit)
        return self.values(column, data_type, limit)

    def taken(self, limit):
        """How many slots are taken of the next node, and how many it says are null."""
        length, nulls = self.source.next_length()
        return length if limit is None else min(limit, length), nulls

    def values(self, column, whole, limit):
        """A column of a type that is no dictionary, whose children are a column's."""
        data_type = storage_of(whole)
        name = data_type[0]
        taken, nulls = self.taken(None if name == "Union" else limit)
        if name == "Null":
            return Nulls(whole, taken)
        if name == "Union":
            return self.union(column, whole, taken).cut(0, taken if limit is None else min(limit, taken))
        mask = self.source.validity(nulls, taken)
        if name in LISTS:
            offsets = self.source.offsets(LISTS[name], taken)
            return Lists(whole, mask, offsets, self.exact(column.children[0], offsets[-1], offsets[-1]))
        if name == "FixedSizeList":
            below = None if limit is None else limit * data_type[2]
            return FixedLists(whole, mask, data_type[2], self.exact(column.children[0], below, taken * data_type[2]))
        if name == "Struct":
            return Records(whole, mask, taken, tuple(self.exact(child, limit, taken) for child in column.children))
        return self.flat(whole, mask, taken)

    def flat(self, whole, mask, taken):
        data_type, kind = storage_of(whole), kind_of(storage_of(whole))
        if data_type[0] == "Boolean":
            return Flat(whole, mask, bits_of(self.source.next_taken((taken + 7) // 8), taken))
        if kind is not None:
            return Flat(whole, mask, self.primitives(KINDS[kind], taken))
        if data_type[0] == "FixedSizeBinary":
            size = data_type[1]
            content = self.source.next_taken(taken * size)
            return Flat(whole, mask, [content[at * size : (at + 1) * size] for at in range(taken)])
        offsets = self.source.offsets(BYTES[data_type[0]], taken)
        made = Strings(whole, mask, offsets, self.source.next_taken(offsets[-1]))
        if data_type[0] in TEXTS:
            ask(all(is_text(made.value(at)[1]) for at in range(taken)), "a text that is no UTF-8")
        return made

    def primitives(self, widths, taken):
        """So many tuples of numbers, each number in the source's byte order."""
        size = sum(width for width, _ in widths)
        content, out = self.source.next_taken(taken * size), []
        for start in range(0, taken * size, size):
            numbers = []
            for width, signed in widths:
                numbers += self.source.numbers(content[start : start + width], width, signed)
                start += width
            out.append(tuple(numbers))
        return out

    def exact(self, column, limit, wanted):
        """A child, which has to have so many slots."""
        child = self.column(column, limit)
        ask(child.length() == wanted, "a child of another length")
        return child

    def union(self, column, whole, length):
        """A union of all slots of its node."""
        data_type = storage_of(whole)
        if self.source.version < V5:
            self.source.next_buffer()
        ids = self.source.numbers(self.source.next_taken(length), 1, True)
        places = self.source.numbers(self.source.next_taken(length * 4), 4, True) if data_type[3] == "Dense" else None
        children = tuple(self.column(child, None) for child in column.children)
        ask(places is not None or all(child.length() == length for child in children), "a sparse union's child of another length")
        known = range(len(children)) if data_type[2] is None else data_type[2]
        ask(all(number in known for number in ids), "an unknown id in a union")
        made = Unions(whole, ids, places, children)
        for at, place in enumerate(places or ()):
            ask(0 <= place < children[made.child_at(at)].length(), "a union's place past its child")
        return made

    def keys(self, column, data_type, limit):
        taken, nulls = self.taken(limit)
        mask, (bits, signed) = self.source.validity(nulls, taken), INTEGERS[data_type[1]]
        keys = self.source.numbers(self.source.next_taken(taken * (bits // 8)), bits // 8, signed)
        ask(column.number in self.dictionaries, "a dictionary is missing")
        values = self.dictionaries[column.number]
        ask(values.data_type == data_type[2], "a dictionary of another type")
        for at, key in enumerate(keys):
            is_valid = mask is None or mask[at]
            ask(not is_valid or 0 <= key < values.length(), "a key outside its dictionary")
        return Keys(data_type, mask, keys, values)


class StoredReading:
    """One input that is read: its schema, the dictionaries that stand, and the batches, of all columns or of chosen ones under a limit."""

    def __init__(self, schema, columns=None, limit=None):
        self.schema, self.limit, self.is_choice = schema, limit, columns is not None
        self.chosen = list(range(len(schema.columns))) if columns is None else columns
        ask(all(k < len(schema.columns) for k in self.chosen), "no such column", NO_COLUMN)
        self.dictionaries, self.batches, self.rows = {}, [], 0

    def message(self, message, room, origin, version):
        read_one = self.dictionary if message.tag == DICTIONARY_BATCH else self.record
        read_one(message.header, lambda table: Source(Batch(table, len(room)), room, origin, self.schema.order, version), version)

    def dictionary(self, table, source_of, version):
        number, data = table.number(0, "<q"), table.needed_table(1, "a dictionary without values")
        ask(not table.truth(2), "a dictionary's delta", NOT_IMPLEMENTED)
        source, column = source_of(data), self.schema.with_number(number)
        ask(column is not None, "a dictionary of an unknown id")
        self.dictionaries[number] = ColumnReader(source, self.dictionaries).values(column, column.normal.data_type[2], None)

    def record(self, table, source_of, version):
        source = source_of(table)
        reader, found = ColumnReader(source, self.dictionaries), {}
        left = None if self.limit is None else self.limit - self.rows
        for k, column in enumerate(self.schema.columns[: max(self.chosen, default=-1) + 1]):
            if k in self.chosen:
                found[k] = reader.column(column, left)
            else:
                source.node += nodes_of(column)
                source.buffer += buffers_of(column, version)
        batch = [found[k] for k in self.chosen]
        ask(all(column.length() == batch[0].length() for column in batch), "columns of other lengths")
        self.rows += rows_in(batch)
        ask(self.rows <= MOST_ROWS, "more rows than 64 bits count", TOO_MANY_ROWS)
        if not self.is_choice or rows_in(batch) > 0:
            self.batches.append(batch)

    def table(self):
        normal = self.schema.normal
        return StoredTable(normal._replace(fields=tuple(normal.fields[k] for k in self.chosen)), self.batches)


def later_messages(frames):
    """The messages behind the first one with their bodies, one after another."""
    in_a_row = 0
    while True:
        if len(frames.content) - frames.place < 4:
            raise Refused("the input ends before a message", UNFINISHED)
        message = frames.next()
        if message is None:
            return
        ask(message.tag != SCHEMA, "a second schema")
        in_a_row = in_a_row + 1 if message.tag == DICTIONARY_BATCH else 0
        ask(in_a_row <= MOST_DICTIONARIES, "too many dictionaries in a row")
        yield message, frames.take(message.body_length())


def read_stored(content, is_framed_first=False, columns=None, limit=None):
    """The stored table of a stream; where messages are framed first, each of them is found before one is read."""
    frames = Frames(content)
    first = frames.next()
    ask(first is not None and first.tag == SCHEMA, "no schema first")
    version = first.known_version()
    reading, messages = StoredReading(ReadSchema(first.header), columns, limit), later_messages(frames)
    for message, body in list(messages) if is_framed_first else messages:
        reading.message(message, body, 0, version)
    return reading.table()


def footer_bytes(content):
    """The bytes of a file's footer."""
    ask(content.startswith(MARK) and content.endswith(MARK) and len(content) >= 10, "no file's marks")
    length = struct.unpack_from("<i", content, len(content) - 10)[0]
    start = len(content) - 10 - length
    ask(length >= 0 and start >= 0, "a footer outside the file")
    return content[start : start + length]


def blocks_of(footer):
    """The blocks of a file that are read, each with what its message holds; without a record batch there are none."""
    dictionaries = footer.dictionaries if footer.records else []
    return [(block, DICTIONARY_BATCH) for block in dictionaries] + [(block, RECORD_BATCH) for block in footer.records]


def read_stored_file(content, columns=None, limit=None):
    """The stored table of a file."""
    footer = Footer(footer_bytes(content))
    reading = StoredReading(footer.schema, columns, limit)
    ask(not footer.records or len(footer.dictionaries) <= MOST_DICTIONARIES, "too many dictionary blocks")
    for block, tag in blocks_of(footer):
        message, origin = message_at(content, block, tag)
        reading.message(message, content, origin, message.known_version())
    return reading.table()


# ---- which fault is named

def features_in(content):
    """Whether a float, a compression or a delta stands in what can be found of a stream, whatever else is broken there."""
    frames, found = Frames(content), False
    try:
        first = frames.next()
        if first is None:
            return False
        found = holds_float(first.header)
        for message, _ in later_messages(frames):
            found = found or has_feature(message)
    except (Refused, struct.error):
        pass
    return found


def features_in_file(content):
    """The same of a file."""
    found, blocks = False, []
    try:
        footer = footer_bytes(content)
        found = holds_float(root_of(footer).needed_table(FOOTER_SCHEMA_SLOT, "a footer without a schema"))
        blocks = blocks_of(Footer(footer))
    except (Refused, struct.error):
        pass
    for block, tag in blocks:
        try:
            found = found or has_feature(message_at(content, block, tag)[0])
        except (Refused, struct.error):
            pass
    return found


def has_feature(message):
    """Whether a compression stands in a message, or it is a dictionary that adds to an earlier one."""
    table, is_dictionary = message.header, message.tag == DICTIONARY_BATCH
    if is_dictionary and table.truth(DELTA_SLOT):
        return True
    batch = table.table(VALUES_SLOT) if is_dictionary else table
    return batch is not None and batch.slot(COMPRESSION_SLOT, 4) is not None


def holds_float(schema):
    """Whether a field of a schema's table, at any depth, is a float."""
    waiting, seen = [(schema, FIELDS_SLOT)], set()
    while waiting:
        table, slot = waiting.pop()
        if slot == CHILDREN_SLOT and table.number(TAG_SLOT, "<B") == FLOATING_POINT:
            return True
        vector = table.vector(slot, 4)
        for k in range(vector[1] if vector else 0):
            child = table.element(vector, k)
            if child.place not in seen:
                seen.add(child.place)
                waiting.append((child, CHILDREN_SLOT))
    return False


def refusal_of(content, is_framed_first=False):
    """A stream's refusal, or None where it is read."""
    try:
        read_stored(content, is_framed_first)
    except Refused as refused:
        return refused
    return None


def has_one_fault(content, is_feature=False):
    """Whether a stream is read, or refused in one way whichever of its messages and rules are looked at first.

    A stream with one feature that is not implemented is sound otherwise, where its maker says so.
    """
    refusals = refusal_of(content), refusal_of(content, True)
    kinds = {refusal and refusal.kind for refusal in refusals}
    return len(kinds) == 1 and features_in(content) == is_feature


def refusal_of_file(content):
    """A file's refusal, or None where it is read; what lacks a file's first mark is read as a stream."""
    try:
        read_stored_file(content) if content.startswith(MARK) else read_stored(content)
    except Refused as refused:
        return refused
    return None
