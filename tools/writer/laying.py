"""Lays Arrow IPC streams of plain columns, independently of the crates of this repository.

A metadata message is a tree of FlatBuffers objects. `lay` gives it the one canonical laying that
the crates write, and `Builder` lays the same tree as usual writers do: from its end, children
before parents, with shared vtables and without defaults.
"""

import struct

MARK = b"\xff\xff\xff\xff"
END = MARK + bytes(4)

# Metadata versions as the version slot of a message numbers them.
V4, V5 = 3, 4

# Header tags of a message and type tags of a field.
SCHEMA, DICTIONARY_BATCH, RECORD_BATCH = 1, 2, 3
INT, FLOATING_POINT, UTF8 = 2, 3, 5


class Number:
    """A number of `width` bytes, absent in a usual laying where it is the default."""

    def __init__(self, width, value, default=0):
        self.width = width
        self.bytes = value.to_bytes(width, "little", signed=value < 0)
        self.is_default = value == default


class Table:
    """A table of slots: each a `Number`, another object to refer to, or None where it is absent."""

    def __init__(self, *slots):
        self.slots = slots


class Vector:
    """A vector of objects to refer to."""

    def __init__(self, items):
        self.items = items


class Structs:
    """A vector of structs of 64-bit numbers."""

    def __init__(self, rows):
        self.count = len(rows)
        self.bytes = b"".join(struct.pack("<q", number) for row in rows for number in row)


class Text:
    """A string, given as its bytes."""

    def __init__(self, content):
        self.bytes = content


def padded(content, step):
    """The content with zeros up to a multiple of `step`."""
    return content + bytes(-len(content) % step)


def lay(root, step=8):
    """The canonical laying of a tree: objects in pre-order, each at the next multiple of 8.

    With `step` 1 nothing is aligned, which readers have to accept as well.
    """
    out = bytearray(8)

    def place_of(thing):
        while len(out) % step:
            out.append(0)
        return place_table(thing) if isinstance(thing, Table) else place_vector(thing)

    def refer(at, target):
        out[at : at + 4] = struct.pack("<I", target - at)

    def place_table(table):
        vtable = len(out)
        places, size = [], 4
        for slot in table.slots:
            width = slot.width if isinstance(slot, Number) else 4
            if slot is None:
                places.append(0)
                continue
            size += -size % min(width, step)
            places.append(size)
            size += width
        out.extend(struct.pack("<HH", 4 + 2 * len(places), size))
        out.extend(struct.pack("<%dH" % len(places), *places))
        while len(out) % step:
            out.append(0)
        start = len(out)
        out.extend(struct.pack("<i", start - vtable) + bytes(size - 4))
        for slot, place in zip(table.slots, places):
            if isinstance(slot, Number):
                out[start + place : start + place + slot.width] = slot.bytes
            elif slot is not None:
                refer(start + place, place_of(slot))
        return start

    def place_vector(thing):
        out.extend(bytes(4))
        start = len(out)
        if isinstance(thing, Vector):
            out.extend(struct.pack("<I", len(thing.items)) + bytes(4 * len(thing.items)))
            for index, item in enumerate(thing.items):
                refer(start + 4 + 4 * index, place_of(item))
        elif isinstance(thing, Structs):
            out.extend(struct.pack("<I", thing.count) + thing.bytes)
        else:
            out.extend(struct.pack("<I", len(thing.bytes)) + thing.bytes + bytes(1))
        return start

    root_place = place_of(root)
    out[0:4] = struct.pack("<I", root_place)
    while len(out) % step:
        out.append(0)
    return bytes(out)


class Builder:
    """Lays a tree from its end, as usual FlatBuffers writers do."""

    def __init__(self):
        self.out = b""
        self.vtables = {}

    def prepend(self, content, align):
        """Puts content in front, at a multiple of `align` from the end; answers its place."""
        self.out = content + bytes(-(len(self.out) + len(content)) % align) + self.out
        return len(self.out)

    def build(self, root):
        target = self.place(root)
        self.out = bytes(-(len(self.out) + 4) % 8) + self.out
        return struct.pack("<I", len(self.out) + 4 - target) + self.out

    def refer(self, target):
        """A reference to a place counted from the end, put in front."""
        self.prepend(b"", 4)
        return self.prepend(struct.pack("<I", len(self.out) + 4 - target), 4)

    def place(self, thing):
        if isinstance(thing, Table):
            return self.place_table(thing)
        if isinstance(thing, Vector):
            targets = [self.place(item) for item in thing.items]
            for target in reversed(targets):
                self.refer(target)
            return self.prepend(struct.pack("<I", len(targets)), 4)
        if isinstance(thing, Structs):
            self.prepend(thing.bytes, 8)
            return self.prepend(struct.pack("<I", thing.count), 4)
        content = struct.pack("<I", len(thing.bytes)) + thing.bytes + bytes(1)
        return self.prepend(content, 4)

    def place_table(self, table):
        present = [
            (index, slot, None if isinstance(slot, Number) else self.place(slot))
            for index, slot in enumerate(table.slots)
            if slot is not None and not (isinstance(slot, Number) and slot.is_default)
        ]
        self.prepend(b"", 4)
        end = len(self.out)
        places = {}
        for index, slot, target in sorted(present, key=lambda part: width_of(part[1])):
            if target is None:
                places[index] = self.prepend(slot.bytes, slot.width)
            else:
                places[index] = self.refer(target)
        start = self.prepend(bytes(4), 4)
        slots = [start - places[i] if i in places else 0 for i in range(max(places, default=-1) + 1)]
        vtable = struct.pack("<HH%dH" % len(slots), 4 + 2 * len(slots), start - end, *slots)
        if vtable not in self.vtables:
            self.vtables[vtable] = self.prepend(vtable, 2)
        at = len(self.out) - start
        distance = struct.pack("<i", self.vtables[vtable] - start)
        self.out = self.out[:at] + distance + self.out[at + 4 :]
        return start


def width_of(slot):
    return slot.width if isinstance(slot, Number) else 4


def usual(root):
    """The tree as usual writers lay it."""
    return Builder().build(root)


def int_type(bits=32, signed=True):
    return INT, Table(Number(4, bits), Number(1, int(signed)))


def pairs(entries):
    """A vector of key and value texts, or none."""
    if not entries:
        return None
    return Vector([Table(Text(key), Text(value)) for key, value in entries])


def field(name, nullable=True, kind=None, dictionary=None, metadata=()):
    tag, type_table = kind or int_type()
    flag, children = Number(1, int(nullable)), Vector([])
    return Table(Text(name), flag, Number(1, tag), type_table, dictionary, children, pairs(metadata))


def schema(fields, endianness=0, metadata=()):
    return Table(Number(2, endianness), Vector(fields), pairs(metadata), None)


def record_batch(length, nodes, buffers, compression=None):
    return Table(Number(8, length), Structs(nodes), Structs(buffers), compression)


def message(tag, header, body_length=0, version=V5, metadata=()):
    return Table(Number(2, version), Number(1, tag), header, Number(8, body_length), pairs(metadata))


def framed(metadata, body=b"", marker=True):
    """A message as it stands in a stream."""
    return (MARK if marker else b"") + struct.pack("<i", len(metadata)) + metadata + body


def bits(flags):
    """A validity bitmap, least bit first."""
    out = bytearray((len(flags) + 7) // 8)
    for index, flag in enumerate(flags):
        out[index // 8] |= int(flag) << index % 8
    return bytes(out)


def column_parts(values):
    """Node, bitmap and values of a column; there is a bitmap where a value is missing."""
    nulls = sum(value is None for value in values)
    mask = bits([value is not None for value in values]) if nulls else b""
    content = b"".join(struct.pack("<i", value or 0) for value in values)
    return (len(values), nulls), mask, content


def batch_parts(columns, pad):
    """Nodes, buffers and body of a batch, each buffer padded to a multiple of `pad`."""
    nodes, buffers, body = [], [], b""
    for values in columns:
        node, mask, content = column_parts(values)
        nodes.append(node)
        for part in (mask, content):
            buffers.append((len(body), len(part)))
            body += padded(part, pad)
    return nodes, buffers, body


def batch_message(columns, laying=lay, pad=64, version=V5, marker=True):
    nodes, buffers, body = batch_parts(columns, pad)
    rows = len(columns[0]) if columns else 0
    header = record_batch(rows, nodes, buffers)
    return framed(laying(message(RECORD_BATCH, header, len(body), version)), body, marker)


def schema_message(fields, laying=lay, version=V5, marker=True):
    return framed(laying(message(SCHEMA, schema(fields), 0, version)), b"", marker)


def stream(names, batches, laying=lay, pad=64, version=V5, marker=True, nullable=True):
    """A stream of Int32 columns: `batches` are lists of columns, a missing value is None.

    `nullable` is a flag for all columns, or a list of one for each.
    """
    flags = nullable if isinstance(nullable, list) else [nullable] * len(names)
    fields = [field(name, flag) for name, flag in zip(names, flags)]
    parts = [schema_message(fields, laying, version, marker)]
    parts += [batch_message(columns, laying, pad, version, marker) for columns in batches]
    return b"".join(parts) + (END if marker else bytes(4))
