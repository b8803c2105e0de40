"""Reads Arrow IPC streams of plain Int32 columns, and says what the program `tables` must answer.

It is written from the format alone and shares no code with the crates of this repository.
"""

import struct

from laying import DICTIONARY_BATCH, INT, MARK, RECORD_BATCH, SCHEMA, stream

USAGE = "usage: tables seal|same|pick|cut|join"
OUT_OF_SPEC = "ipc: out of specification"
NOT_IMPLEMENTED = "ipc: not implemented"

TYPE_TAGS = range(1, 22)
VERSIONS = range(5)


class Refused(Exception):
    """An input that is not read; the text is what the program prints."""


def refuse_unless(holds, text=OUT_OF_SPEC):
    if not holds:
        raise Refused(text)


class View:
    """A table of a message, read by address."""

    def __init__(self, message, place):
        self.message, self.place = message, place
        distance = self.number_at(place, "<i")
        vtable = place - distance
        size = self.number_at(vtable, "<H")
        refuse_unless(size >= 4 and size % 2 == 0 and vtable + size <= len(message))
        self.size = self.number_at(vtable + 2, "<H")
        refuse_unless(self.size >= 4 and place + self.size <= len(message))
        self.slots = struct.unpack_from("<%dH" % ((size - 4) // 2), message, vtable + 4)

    def number_at(self, place, form):
        refuse_unless(place >= 0 and place + struct.calcsize(form) <= len(self.message))
        return struct.unpack_from(form, self.message, place)[0]

    def field(self, slot, width):
        """The place of a field, or None where it is absent."""
        offset = self.slots[slot] if slot < len(self.slots) else 0
        if offset == 0:
            return None
        refuse_unless(offset >= 4 and offset + width <= self.size)
        return self.place + offset

    def number(self, slot, form, default=0):
        place = self.field(slot, struct.calcsize(form))
        return default if place is None else self.number_at(place, form)

    def target(self, slot):
        place = self.field(slot, 4)
        return None if place is None else place + self.number_at(place, "<I")

    def table(self, slot):
        place = self.target(slot)
        return None if place is None else View(self.message, place)

    def vector(self, slot, width):
        """The place of the first element and the count, or None."""
        place = self.target(slot)
        if place is None:
            return None
        count = self.number_at(place, "<I")
        refuse_unless(place + 4 + count * width <= len(self.message))
        return place + 4, count

    def tables(self, slot):
        found = self.vector(slot, 4)
        if found is None:
            return []
        start, count = found
        places = range(start, start + 4 * count, 4)
        return [View(self.message, place + self.number_at(place, "<I")) for place in places]

    def text(self, slot):
        found = self.vector(slot, 1)
        refuse_unless(found is not None)
        content = self.message[found[0] : found[0] + found[1]]
        try:
            content.decode("utf-8")
        except UnicodeDecodeError:
            raise Refused(OUT_OF_SPEC) from None
        return content

    def structs(self, slot, numbers):
        found = self.vector(slot, 8 * numbers)
        refuse_unless(found is not None)
        start, count = found
        form = "<%dq" % numbers
        return [struct.unpack_from(form, self.message, start + 8 * numbers * i) for i in range(count)]


def root_of(message):
    refuse_unless(len(message) >= 4)
    return View(message, struct.unpack_from("<I", message)[0])


def fields_of(header):
    """Name and nullability of each field of a schema of Int32 columns."""
    refuse_unless(header.number(0, "<h") in (0, 1) and header.vector(1, 4) is not None)
    refuse_unless(header.number(0, "<h") == 0 and not header.tables(2), NOT_IMPLEMENTED)
    fields = []
    for view in header.tables(1):
        name, nullable = view.text(0), view.number(1, "<B") != 0
        tag, kind = view.number(2, "<B"), view.table(3)
        refuse_unless(tag in TYPE_TAGS and kind is not None)
        refuse_unless(tag == INT and not view.tables(6) and view.table(4) is None, NOT_IMPLEMENTED)
        width, is_signed = kind.number(0, "<i"), kind.number(1, "<B") != 0
        refuse_unless(width in (8, 16, 32, 64))
        refuse_unless(width == 32 and is_signed, NOT_IMPLEMENTED)
        fields.append((name, nullable))
    return fields


def taken(body, buffer, needed):
    offset, length = buffer
    refuse_unless(length >= needed and offset >= 0 and offset + needed <= len(body))
    return body[offset : offset + needed]


def column_of(node, validity, values, body):
    length, null_count = node
    refuse_unless(length >= 0)
    mask = taken(body, validity, (length + 7) // 8) if null_count > 0 else None
    content = taken(body, values, 4 * length)
    numbers = struct.unpack("<%di" % length, content)
    if mask is None:
        return list(numbers)
    return [number if mask[i // 8] >> i % 8 & 1 else None for i, number in enumerate(numbers)]


def columns_of(header, body, count):
    """The columns of a record batch."""
    refuse_unless(header.table(3) is None, NOT_IMPLEMENTED)
    nodes, buffers = header.structs(1, 2), header.structs(2, 2)
    refuse_unless(len(nodes) >= count and len(buffers) >= 2 * count)
    refuse_unless(all(length >= 0 for _, length in buffers))
    refuse_unless(sum(length for _, length in buffers) <= len(body))
    columns = [column_of(nodes[i], buffers[2 * i], buffers[2 * i + 1], body) for i in range(count)]
    refuse_unless(all(len(column) == len(columns[0]) for column in columns))
    return columns


class Messages:
    """The messages of a stream, one after another."""

    def __init__(self, content):
        self.content, self.at, self.started = content, 0, False

    def take(self, count):
        refuse_unless(count >= 0 and self.at + count <= len(self.content))
        self.at += count
        return self.content[self.at - count : self.at]

    def next(self):
        """The root of the next message, or None at the end of the stream."""
        if self.started and len(self.content) - self.at < 4:
            raise Refused("unfinished stream")
        self.started = True
        first = self.take(4)
        length = struct.unpack("<i", self.take(4) if first == MARK else first)[0]
        return None if length == 0 else root_of(self.take(length))


def read(content):
    """Fields and batches of a stream."""
    refuse_unless(not content.startswith(b"ARROW1"), NOT_IMPLEMENTED)
    messages = Messages(content)
    root = messages.next()
    refuse_unless(root is not None and root.number(1, "<B") == SCHEMA)
    refuse_unless(root.number(0, "<h") in VERSIONS)
    header = root.table(2)
    refuse_unless(header is not None)
    fields, batches = fields_of(header), []
    while (root := messages.next()) is not None:
        tag, header, length = root.number(1, "<B"), root.table(2), root.number(3, "<q")
        refuse_unless(tag in (RECORD_BATCH, DICTIONARY_BATCH) and header is not None)
        body = messages.take(length)
        refuse_unless(tag == RECORD_BATCH)
        batches.append(columns_of(header, body, len(fields)))
    return fields, batches


def rows_of(columns):
    return len(columns[0]) if columns else 0


def windows(batches, offset, length):
    """A window of each batch that has a row in the range, and no other batch."""
    kept, start = [], 0
    for columns in batches:
        end = start + rows_of(columns)
        low, high = max(offset, start), min(offset + length, end)
        if low < high:
            kept.append([column[low - start : high - start] for column in columns])
        start = end
    return kept


def number(word):
    """The number of one or more ASCII digits that fits 64 bits, or None."""
    digits = word != "" and all(character in "0123456789" for character in word)
    return int(word) if digits and int(word) < 2**64 else None


def run(words, places):
    """Status, line on standard error and output bytes of a command; `places` maps names to bytes."""
    if len(words) != 5 or words[0] != "cut" or None in (number(words[1]), number(words[2])):
        return 3, USAGE, None
    offset, length, given = number(words[1]), number(words[2]), places.get(words[3])
    if given is None:
        return 2, "tables: cannot read the input", None
    try:
        fields, batches = read(given)
    except Refused as refused:
        return 2, "tables: " + str(refused), None
    if offset + length > sum(rows_of(columns) for columns in batches):
        return 2, "tables: range outside the rows", None
    if words[4] == "." or "/" in words[4]:
        return 2, "tables: cannot write the output", None
    names, flags = [name for name, _ in fields], [flag for _, flag in fields]
    return 0, None, stream(names, windows(batches, offset, length), nullable=flags)
