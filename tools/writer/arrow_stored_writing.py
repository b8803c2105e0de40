"""Streams and files of stored columns: the bytes that a writer lays of arrays.

Written from the public formats and the profile of this project, apart from the definitions of `specs/`: values as they stand, offsets less
the first one, of a list's child what stands between its offsets, a dictionary before its batch where it differs from the last one.
"""

from arrow_columns import FixedLists, Flat, Keys, Lists, Nulls, Records, Strings, Unions, nulls_in, rows_in
from arrow_sealed import (
    DICTIONARY_BATCH, END, RECORD_BATCH, Batch, NotWritten, dictionary_message, file_behind, packed, record_message, schema_message,
)
from arrow_trees import numbered
from arrow_types import INTEGERS, KINDS, LISTS, kind_of, storage_of


def integers(numbers, width, signed=True):
    return b"".join(number.to_bytes(width, "little", signed=signed) for number in numbers)


def moved(offsets, width):
    """Offsets less the first one."""
    return integers([offset - offsets[0] for offset in offsets], width)


def flat_bytes(column):
    """The values of a column without offsets."""
    kind = kind_of(storage_of(column.data_type))
    if kind is not None:
        widths = KINDS[kind]
        return b"".join(integers((n,), *width) for numbers in column.values for n, width in zip(numbers, widths))
    return packed(column.values) if storage_of(column.data_type)[0] == "Boolean" else b"".join(column.values)


def own_buffers(column):
    """The buffers of a column behind its validity."""
    if isinstance(column, Flat):
        return [flat_bytes(column)]
    if isinstance(column, Strings):
        return [moved(column.offsets, column.width()), column.content[column.offsets[0] : column.offsets[-1]]]
    if isinstance(column, Lists):
        return [moved(column.offsets, LISTS[storage_of(column.data_type)[0]])]
    if isinstance(column, Keys):
        bits, signed = INTEGERS[column.data_type[1]]
        return [integers(column.keys, bits // 8, signed)]
    if isinstance(column, Unions):
        return [integers(column.ids, 1)] + ([] if column.places is None else [integers(column.places, 4)])
    return []


class StoredBatch(Batch):
    """The nodes and buffers of stored columns, as they are laid."""

    def stored(self, column):
        if isinstance(column, Nulls):
            self.nodes.append((column.count, column.count))
        elif isinstance(column, Unions):
            self.nodes.append((column.length(), 0))
        else:
            nulls = nulls_in(column.mask)
            self.nodes.append((column.length(), nulls))
            self.buffers.append(packed(column.mask) if nulls else b"")
        self.buffers += own_buffers(column)
        for child in column.below():
            self.stored(child)


def batch_over(columns):
    """The nodes and buffers of columns, one after another."""
    batch = StoredBatch()
    for column in columns:
        batch.stored(column)
    return batch


def dictionaries_of(spec, column):
    """The ids and the values of the dictionaries of a column, those within values before them."""
    if isinstance(column, Keys):
        yield from dictionaries_of(spec._replace(number=None), column.values)
        yield spec.number, column.values
    elif isinstance(column, (Lists, FixedLists)):
        yield from dictionaries_of(spec.children[0], column.child)
    elif isinstance(column, (Records, Unions)):
        for child_spec, child in zip(spec.children, column.children):
            yield from dictionaries_of(child_spec, child)


class Told:
    """The dictionaries that are written, the last of each id, as their type and their values."""

    def __init__(self, may_replace=True):
        self.last, self.may_replace = {}, may_replace

    def tell(self, given):
        """Messages of those dictionaries of a batch that differ from the last one of their id."""
        own = {}
        for number, values in given:
            content = values.data_type, values.slots()
            if own.setdefault(number, content) != content:
                raise NotWritten("two dictionaries of one id in a batch")
            if self.last.get(number) != content:
                if number in self.last and not self.may_replace:
                    raise NotWritten("another dictionary of an id in a file")
                self.last[number] = content
                yield (DICTIONARY_BATCH, *dictionary_message(number, content[1], batch_over([values])))


def messages_behind(specs, table, may_replace):
    """The messages of a stored table behind its schema: of each its kind, what stands before its body, and its body."""
    told = Told(may_replace)
    for batch in table.batches:
        given = [pair for spec, column in zip(specs, batch) for pair in dictionaries_of(spec, column)]
        yield from told.tell(given)
        yield (RECORD_BATCH, *record_message(batch_over(batch), rows_in(batch)))


def written(table):
    """The stream of a stored table, its dictionaries numbered in pre-order."""
    specs = numbered(table.schema.fields)
    out = schema_message(specs, table.schema.metadata)[0]
    return out + b"".join(head + body for _, head, body in messages_behind(specs, table, True)) + END


def written_file(table):
    """The file of a stored table, none of whose dictionaries changes."""
    specs = numbered(table.schema.fields)
    start = b"ARROW1\0\0" + schema_message(specs, table.schema.metadata)[0]
    blocks = {DICTIONARY_BATCH: [], RECORD_BATCH: []}
    return file_behind(start, specs, table.schema.metadata, blocks, list(messages_behind(specs, table, False)))
