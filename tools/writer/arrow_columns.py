"""Columns as arrays store them: masks, values as they stand under nulls too, offsets, children, and dictionaries' keys and values.

A mask is a truth value a slot, or None where every slot is valid. Nothing is made of the slots before they are asked for, so that a column
of nulls may be as long as the format allows. Values are those of `arrow_types`.
"""

from arrow_types import BYTES, KINDS, TEXTS, kind_of, storage_of


def window(values, offset, length):
    """A part of some values, or of a mask, which may be none."""
    return None if values is None else values[offset : offset + length]


def nulls_in(mask):
    """How many slots a mask says are null."""
    return 0 if mask is None else mask.count(False)


class Column:
    """A stored column of a type of the normalised schema."""

    def slot(self, place):
        """The value at a place: None where the mask says so."""
        is_valid = self.mask is None or self.mask[place]
        return self.value(place) if is_valid else None

    def slots(self):
        return [self.slot(place) for place in range(self.length())]

    def below(self):
        """The columns below this one that are laid with it."""
        return ()


class Nulls(Column):
    """Nulls alone, and how many."""

    def __init__(self, data_type, count):
        self.data_type, self.count = data_type, count

    def length(self):
        return self.count

    def cut(self, offset, length):
        return Nulls(self.data_type, length)

    def slot(self, place):
        return None


class Flat(Column):
    """A value a slot: truth values, tuples of whole numbers, or byte strings of one size."""

    def __init__(self, data_type, mask, values):
        self.data_type, self.mask, self.values = data_type, mask, values

    def length(self):
        return len(self.values)

    def cut(self, offset, length):
        return Flat(self.data_type, window(self.mask, offset, length), window(self.values, offset, length))

    def value(self, place):
        stored, kind = self.values[place], kind_of(storage_of(self.data_type))
        if kind is None:
            return stored if isinstance(stored, bool) else ("bytes", stored)
        return (("number", "pair", "triple")[len(KINDS[kind]) - 1], kind, *stored)


class Strings(Column):
    """Offsets, and the bytes that they divide into byte strings or texts."""

    def __init__(self, data_type, mask, offsets, content):
        self.data_type, self.mask, self.offsets, self.content = data_type, mask, offsets, content

    def width(self):
        return BYTES[storage_of(self.data_type)[0]]

    def length(self):
        return len(self.offsets) - 1

    def cut(self, offset, length):
        return Strings(self.data_type, window(self.mask, offset, length), window(self.offsets, offset, length + 1), self.content)

    def value(self, place):
        label = "text" if storage_of(self.data_type)[0] in TEXTS else "bytes"
        return (label, self.content[self.offsets[place] : self.offsets[place + 1]])


class Lists(Column):
    """Lists and maps: offsets into one child, which a cut leaves whole."""

    def __init__(self, data_type, mask, offsets, child):
        self.data_type, self.mask, self.offsets, self.child = data_type, mask, offsets, child

    def length(self):
        return len(self.offsets) - 1

    def cut(self, offset, length):
        return Lists(self.data_type, window(self.mask, offset, length), window(self.offsets, offset, length + 1), self.child)

    def value(self, place):
        return ("items", tuple(map(self.child.slot, range(self.offsets[place], self.offsets[place + 1]))))

    def below(self):
        """What stands in the child between the first offset and the last."""
        return (self.child.cut(self.offsets[0], self.offsets[-1] - self.offsets[0]),)


class FixedLists(Column):
    """Lists of one size, one after another in the child."""

    def __init__(self, data_type, mask, size, child):
        self.data_type, self.mask, self.size, self.child = data_type, mask, size, child

    def length(self):
        return self.child.length() // self.size

    def cut(self, offset, length):
        child = self.child.cut(offset * self.size, length * self.size)
        return FixedLists(self.data_type, window(self.mask, offset, length), self.size, child)

    def value(self, place):
        return ("items", tuple(map(self.child.slot, range(place * self.size, (place + 1) * self.size))))

    def below(self):
        return (self.child,)


class Records(Column):
    """Structs: how many, and a child a field."""

    def __init__(self, data_type, mask, count, children):
        self.data_type, self.mask, self.count, self.children = data_type, mask, count, children

    def length(self):
        return self.count

    def cut(self, offset, length):
        children = tuple(child.cut(offset, length) for child in self.children)
        return Records(self.data_type, window(self.mask, offset, length), length, children)

    def value(self, place):
        return ("fields", tuple(child.slot(place) for child in self.children))

    def below(self):
        return self.children


class Unions(Column):
    """An id a slot; a dense union has places in its children, which a cut leaves whole, a sparse one children as long as it."""

    def __init__(self, data_type, ids, places, children):
        self.data_type, self.ids, self.places, self.children = data_type, ids, places, children

    def length(self):
        return len(self.ids)

    def cut(self, offset, length):
        is_dense = self.places is not None
        children = self.children if is_dense else tuple(child.cut(offset, length) for child in self.children)
        return Unions(self.data_type, window(self.ids, offset, length), window(self.places, offset, length), children)

    def child_at(self, place):
        """Which child the id of a slot names."""
        ids, number = storage_of(self.data_type)[2], self.ids[place]
        return number if ids is None else ids.index(number)

    def slot(self, place):
        child = self.children[self.child_at(place)]
        return ("pick", child.data_type, child.slot(place if self.places is None else self.places[place]))

    def below(self):
        return self.children


class Keys(Column):
    """A dictionary's keys, and the column of its values, which stands in a message of its own."""

    def __init__(self, data_type, mask, keys, values):
        self.data_type, self.mask, self.keys, self.values = data_type, mask, keys, values

    def length(self):
        return len(self.keys)

    def cut(self, offset, length):
        return Keys(self.data_type, window(self.mask, offset, length), window(self.keys, offset, length), self.values)

    def value(self, place):
        return self.values.slot(self.keys[place])


def rows_in(batch):
    """How many rows a batch has: none without a column."""
    return batch[0].length() if batch else 0


def rows_of(batches):
    """The rows of batches, one batch after another."""
    return [row for batch in batches if batch for row in zip(*(column.slots() for column in batch))]


def cut_batches(batches, offset, length):
    """A window of each batch that has a row in the range, and no other batch."""
    kept, start = [], 0
    for batch in batches:
        end = start + rows_in(batch)
        low, high = max(offset, start), min(offset + length, end)
        if low < high:
            kept.append([column.cut(low - start, high - low) for column in batch])
        start = end
    return kept
