"""Arrow's metadata as trees of FlatBuffers objects, and their laying in many ways.

The tree of a schema, a batch, a message or a footer is the same for all layings. `laying.lay` gives
it the one canonical laying; `lay_freely` lays it as other writers may.
"""

import struct
from collections import namedtuple

from arrow_types import (
    INTEGERS, INTERVALS, METADATA_KEY, MODES, NAME_KEY, UNITS, child_fields, extension_of,
)
from laying import Number, Structs, Table, Text, Vector

# A field, the id of its dictionary, and the same of the fields below it.
Spec = namedtuple("Spec", "field number children")

TAGS = {
    "Null": 1, "Binary": 4, "Utf8": 5, "Boolean": 6, "Decimal": 7, "Decimal256": 7, "Date32": 8, "Date64": 8,
    "Time32": 9, "Time64": 9, "Timestamp": 10, "Interval": 11, "List": 12, "Struct": 13, "Union": 14,
    "FixedSizeBinary": 15, "FixedSizeList": 16, "Map": 17, "Duration": 18, "LargeBinary": 19, "LargeUtf8": 20,
    "LargeList": 21, "Float": 3,
}
SCHEMA, DICTIONARY_BATCH, RECORD_BATCH = 1, 2, 3
V5 = 4


class Elements(Structs):
    """A vector of numbers or structs, given as its bytes."""

    def __init__(self, count, content):
        self.count, self.bytes = count, content


def numbered(fields, start=0):
    """Specs of fields whose dictionaries are numbered in pre-order, an outer one before its inner ones."""
    counter = [start]

    def spec(field):
        number = None
        if field.data_type[0] == "Dictionary":
            number = counter[0]
            counter[0] += 1
        return Spec(field, number, tuple(spec(child) for child in child_fields(field.data_type)))

    return tuple(spec(field) for field in fields)


def integer_tree(name):
    bits, signed = INTEGERS[name]
    return Table(Number(4, bits), Number(1, int(signed)))


def type_tree(data_type):
    """The tag and the table of a type that is no dictionary and no extension."""
    name = data_type[0]
    if name in INTEGERS:
        return 2, integer_tree(name)
    tag = TAGS[name]
    if name in ("Decimal", "Decimal256"):
        bits = 128 if name == "Decimal" else 256
        return tag, Table(Number(4, data_type[1]), Number(4, data_type[2]), Number(4, bits, 128))
    if name in ("Date32", "Date64"):
        return tag, Table(Number(2, int(name == "Date64"), 1))
    if name in ("Time32", "Time64"):
        return tag, Table(Number(2, UNITS.index(data_type[1]), 1), Number(4, int(name[4:]), 32))
    if name == "Timestamp":
        zone = None if data_type[2] is None else Text(data_type[2])
        return tag, Table(Number(2, UNITS.index(data_type[1])), zone)
    if name == "Interval":
        return tag, Table(Number(2, INTERVALS.index(data_type[1])))
    if name == "Duration":
        return tag, Table(Number(2, UNITS.index(data_type[1]), 1))
    if name in ("FixedSizeBinary", "FixedSizeList"):
        return tag, Table(Number(4, data_type[-1]))
    if name == "Map":
        return tag, Table(Number(1, int(data_type[2])))
    if name == "Union":
        ids = data_type[2]
        vector = None if ids is None else Elements(len(ids), struct.pack("<%di" % len(ids), *ids))
        return tag, Table(Number(2, MODES.index(data_type[3])), vector)
    return tag, Table()


def pair_trees(pairs):
    return Vector([Table(Text(key), Text(value)) for key, value in pairs]) if pairs else None


def written_pairs(field):
    """A field's pairs as they are written: the extension's metadata and name, then the others by key."""
    others = [pair for pair in sorted(field.metadata) if pair[0] not in (NAME_KEY, METADATA_KEY)]
    extension = extension_of(field.data_type)
    if extension is None:
        return others
    more = [] if extension[3] is None else [(METADATA_KEY, extension[3])]
    return more + [(NAME_KEY, extension[1])] + others


def encoding_tree(spec):
    if spec.field.data_type[0] != "Dictionary":
        return None
    _, keys, _, is_ordered = spec.field.data_type
    return Table(Number(8, spec.number), integer_tree(keys), Number(1, int(is_ordered)), Number(2, 0))


def field_tree(spec, pairs_tree=lambda field: pair_trees(written_pairs(field))):
    """The table of a field; what lays its custom metadata may be given."""
    data_type = spec.field.data_type
    if data_type[0] == "Dictionary":
        data_type = data_type[2]
    if data_type[0] == "Extension":
        data_type = data_type[2]
    tag, table = type_tree(data_type)
    children = Vector([field_tree(child, pairs_tree) for child in spec.children])
    nullable = Number(1, int(spec.field.is_nullable))
    return Table(
        Text(spec.field.name), nullable, Number(1, tag), table, encoding_tree(spec), children, pairs_tree(spec.field)
    )


def schema_tree(specs, metadata, order="little", pairs_tree=None):
    make = {} if pairs_tree is None else {"pairs_tree": pairs_tree}
    fields = Vector([field_tree(spec, **make) for spec in specs])
    return Table(Number(2, int(order == "big")), fields, pair_trees(sorted(metadata)), None)


def batch_tree(rows, nodes, buffers):
    return Table(Number(8, rows), Structs(nodes), Structs(buffers), None)


def dictionary_tree(number, data):
    return Table(Number(8, number), data, Number(1, 0))


def message_tree(tag, header, body_length, version=V5):
    return Table(Number(2, version), Number(1, tag), header, Number(8, body_length), None)


def blocks_tree(blocks):
    content = b"".join(struct.pack("<qi4xq", *block) for block in blocks)
    return Elements(len(blocks), content)


def footer_tree(schema, dictionaries, records, version=V5):
    return Table(Number(2, version), schema, blocks_tree(dictionaries), blocks_tree(records), None)


class Free:
    """Lays a tree with objects in any order in which what is referred to stands behind.

    Where references to one object wait at the same time, it is laid once for all of them.
    """

    def __init__(self, random):
        self.random, self.out, self.vtables = random, bytearray(4), []
        self.is_aligned, self.shares = random.random() < 0.7, random.random() < 0.7
        self.drops, self.order = random.random() < 0.7, random.choice(("depth", "breadth", "any"))

    def lay(self, root):
        waiting = [(0, root)]
        while waiting:
            at = {"depth": -1, "breadth": 0, "any": self.random.randrange(len(waiting))}[self.order]
            place, thing = waiting.pop(at)
            start, references = self.table(thing) if isinstance(thing, Table) else self.vector(thing)
            for other, _ in [(place, thing)] + [entry for entry in waiting if entry[1] is thing]:
                self.out[other : other + 4] = struct.pack("<I", start - other)
            waiting = [entry for entry in waiting if entry[1] is not thing] + references
        self.align(8 if self.is_aligned else 1)
        return bytes(self.out)

    def align(self, step, ahead=0):
        """Zeros, or sometimes other bytes, so that what stands a few bytes ahead is aligned."""
        step = step if self.is_aligned else self.random.choice((1, 1, 2))
        while (len(self.out) + ahead) % step:
            self.out.append(self.random.choice((0, 0, 0, 255)))

    def is_dropped(self, slot):
        return slot is None or isinstance(slot, Number) and slot.is_default and self.drops

    def vtable(self, content):
        """A vtable before the table that is laid next, or one that stands already."""
        for place, known in self.vtables:
            if known == content and self.shares:
                return place
        self.align(2)
        self.vtables.append((len(self.out), content))
        self.out += content
        return self.vtables[-1][0]

    def table(self, table):
        present = [index for index, slot in enumerate(table.slots) if not self.is_dropped(slot)]
        if self.random.random() < 0.5:
            present.sort(key=lambda index: -width_of(table.slots[index]))
        elif self.random.random() < 0.3:
            self.random.shuffle(present)
        widest = max((width_of(table.slots[index]) for index in present), default=4)
        entries, size = {}, 4
        for index in present:
            width = width_of(table.slots[index])
            size += -size % width if self.is_aligned else 0
            entries[index] = size
            size += width
        size += self.random.choice((0, 0, 0, 4))
        count = len(table.slots) if self.random.random() < 0.3 else max(present, default=-1) + 1
        slots = [entries.get(index, 0) for index in range(count)]
        vtable = self.vtable(struct.pack("<HH%dH" % count, 4 + 2 * count, size, *slots))
        self.align(max(widest, 4))
        start = len(self.out)
        self.out += struct.pack("<i", start - vtable) + bytes(size - 4)
        references = []
        for index in present:
            slot, place = table.slots[index], start + entries[index]
            if isinstance(slot, Number):
                self.out[place : place + slot.width] = slot.bytes
            else:
                references.append((place, slot))
        return start, references

    def vector(self, thing):
        ahead = 4 if isinstance(thing, Structs) else 0
        self.align(8 if ahead else 4, ahead)
        start = len(self.out)
        if isinstance(thing, Vector):
            count = len(thing.items)
            self.out += struct.pack("<I", count) + bytes(4 * count)
            return start, [(start + 4 + 4 * index, item) for index, item in enumerate(thing.items)]
        if isinstance(thing, Structs):
            self.out += struct.pack("<I", thing.count) + thing.bytes
        else:
            self.out += struct.pack("<I", len(thing.bytes)) + thing.bytes
            if self.random.random() < 0.9:
                self.out.append(0)
        return start, []


def width_of(slot):
    return slot.width if isinstance(slot, Number) else 4


def lay_freely(root, random):
    """A tree as one of many writers might lay it."""
    return Free(random).lay(root)
