"""Random schemas, and random columns laid as usual writers lay them, with the values that they hold.

All choices come from a `random.Random`, so that a seed gives the same again.
"""

from arrow_trees import Spec
from arrow_types import (
    BYTES, Field, INTEGERS, INTERVALS, KINDS, LISTS, METADATA_KEY, MODES, NAME_KEY, TEXTS, UNITS,
    child_fields, dictionaries_in, extension_of, kind_of, normalised_field, storage_of,
)

NAMES = (b"", b"x", b"id", "größe".encode(), b"a longer name of a column", b"k")
TEXT_PARTS = (b"", b"a", b"arrow", "é".encode(), "\U0001d11e".encode(), b"zz\x00", "ß".encode() * 3)
FLAT = ("Null", "Boolean", "Date32", "Date64", "Binary", "LargeBinary", "Utf8", "LargeUtf8") + tuple(INTEGERS)
NESTED = ("List", "LargeList", "FixedSizeList", "Struct", "Union", "Map")
V5 = 4


class Schemas:
    """Makes schemas with dictionary ids."""

    def __init__(self, random, damage):
        self.random, self.damage, self.shared = random, damage, []

    def some(self, most):
        return self.random.randint(0, most)

    def flat_type(self):
        name = self.random.choice(FLAT + ("Time32", "Time64", "Timestamp", "Duration", "Interval", "Decimal", "FixedSizeBinary"))
        if name == "Time32":
            return (name, self.random.choice(UNITS[:2]))
        if name == "Time64":
            return (name, self.random.choice(UNITS[2:]))
        if name == "Timestamp":
            return (name, self.random.choice(UNITS), self.random.choice((None, b"", b"UTC", b"+01:00")))
        if name == "Duration":
            return (name, self.random.choice(UNITS))
        if name == "Interval":
            return (name, self.random.choice(INTERVALS))
        if name == "Decimal":
            return (self.random.choice(("Decimal", "Decimal256")), self.some(40), self.some(9))
        return (name, self.random.randint(1, 5)) if name == "FixedSizeBinary" else (name,)

    def nested_type(self, depth):
        name = self.random.choice(NESTED)
        if name in ("List", "LargeList"):
            return (name, self.field(depth - 1))
        if name == "FixedSizeList":
            return (name, self.field(depth - 1), self.random.randint(1, 3))
        if name == "Map":
            entry = ("Struct", (self.field(depth - 2), self.field(depth - 2)))
            return (name, self.field(depth - 1, entry), self.random.random() < 0.5)
        fields = tuple(self.field(depth - 1) for _ in range(self.random.randint(1, 3)))
        if name == "Struct":
            return (name, fields)
        ids = None if self.random.random() < 0.5 else tuple(self.random.sample(range(128), len(fields)))
        return (name, fields, ids, self.random.choice(MODES))

    def data_type(self, depth):
        """A type that is no dictionary, perhaps in an extension."""
        made = self.nested_type(depth) if depth > 0 and self.random.random() < 0.5 else self.flat_type()
        if self.random.random() < 0.15:
            metadata = self.random.choice((None, b"", b"m"))
            return ("Extension", self.random.choice((b"e", b"", b"geo.point")), made, metadata)
        return made

    def field(self, depth, data_type=None):
        if data_type is None:
            data_type = self.data_type(depth)
            if self.random.random() < 0.18:
                is_ordered = self.random.random() < 0.3
                data_type = ("Dictionary", self.random.choice(tuple(INTEGERS)), data_type, is_ordered)
            if self.shared and self.random.random() < 0.1:
                data_type = self.random.choice(self.shared)
            if data_type[0] == "Dictionary":
                self.shared.append(data_type)
        metadata = {b"key%d" % self.some(3): b"value" for _ in range(self.random.choice((0, 0, 0, 1, 2)))}
        if extension_of(data_type) is None and self.random.random() < 0.05:
            metadata[METADATA_KEY] = b"of no extension"
        name = self.random.choice(NAMES)
        return Field(name, data_type, self.random.random() < 0.6, tuple(sorted(metadata.items())))

    def specs(self, count, depth):
        """Fields, with ids that some dictionaries of one type share."""
        fields = [self.field(self.some(depth)) for _ in range(count)]
        known = []

        def spec(field):
            number = None
            if field.data_type[0] == "Dictionary":
                number = self.number(known, field.data_type)
            return Spec(field, number, tuple(spec(child) for child in child_fields(field.data_type)))

        return tuple(spec(field) for field in fields)

    def number(self, known, data_type):
        same = [number for number, other in known if other[2] == data_type[2]]
        taken = {number for number, _ in known}
        if known and self.damage.is_due("clash"):
            same = list(taken)
        if same and not self.holds_dictionary(data_type) and self.random.random() < 0.6:
            number = self.random.choice(same)
        else:
            number = self.random.choice((len(taken), self.random.randint(-(2**63), 2**63 - 1), self.some(9)))
            while number in taken:
                number += 1 if number < 2**62 else -(2**62)
        known.append((number, data_type))
        return number


    def holds_dictionary(self, data_type):
        """Whether dictionaries stand below a dictionary, which then has ids of its own below."""
        return dictionaries_in(data_type[2]) > 0 and "clash" not in self.damage.kinds


def first_with(specs, number):
    """The first spec in pre-order whose dictionary has an id."""
    for spec in specs:
        if spec.number == number:
            return spec
        found = first_with(spec.children, number)
        if found is not None:
            return found
    return None


def numbers_inner_first(specs):
    """The ids of all dictionaries, inner ones before the ones that hold them."""
    out = []
    for spec in specs:
        out += [number for number in numbers_inner_first(spec.children) if number not in out]
        if spec.number is not None and spec.number not in out:
            out.append(spec.number)
    return out


class Arrays:
    """Lays the columns of one batch: nodes, buffers as (content, has to be in its place), and slots."""

    def __init__(self, random, order, version, standing, damage, tidy=False):
        self.random, self.order, self.version, self.standing = random, order, version, standing
        self.nodes, self.buffers, self.damage, self.tidy = [], [], damage, tidy

    def chance(self, part):
        return not self.tidy and self.random.random() < part

    def garbage(self, count):
        return bytes(self.random.choices((0, 1, 127, 128, 195, 255), k=count))

    def node(self, wanted, is_limited, nulls=0):
        """A node of at least so many slots; answers for how many there are buffers."""
        laid = wanted + (self.random.randint(0, 2) if is_limited else 0)
        more = self.random.choice((0, 0, 1, 5)) if is_limited else 0
        self.nodes.append((self.damage.count(laid + more), nulls))
        return laid

    def put(self, content):
        self.buffers.append((self.damage.buffer(content), True))

    def put_unseen(self, content=b""):
        """A buffer that is passed over."""
        self.buffers.append((content, False))

    def validity(self, at, laid):
        """A truth value a slot, laid as a bitmap or left out where each slot is valid."""
        length = self.nodes[at][0]
        if self.random.random() < 0.5:
            self.nodes[at] = (length, 0 if not self.chance(0.1) else -self.random.randint(1, 9))
            self.put_unseen(self.garbage((laid + 7) // 8) if self.chance(0.5) else b"")
            return [True] * laid
        flags = [self.random.random() < 0.7 for _ in range(laid)]
        spare = [self.random.random() < 0.5 and not self.tidy for _ in range(-laid % 8)]
        count = flags.count(False)
        self.nodes[at] = (length, max(1, count) if not self.chance(0.1) else self.random.randint(1, 2**40))
        self.put(bits(flags + spare))
        return flags

    def integer(self, number, width, signed):
        return number.to_bytes(width, self.order, signed=signed)

    def integers(self, numbers, width, signed=True):
        return b"".join(self.integer(number, width, signed) for number in numbers)

    def any_integer(self, width, signed):
        low = -(1 << 8 * width - 1) if signed else 0
        high = low + (1 << 8 * width) - 1
        return self.random.choice((0, 1, low, high, self.random.randint(low, high), min(high, self.random.randint(0, 300))))

    # ---- columns

    def column(self, spec, wanted, is_limited=False):
        """Lays a column of a spec; answers its first slots, as many as wanted."""
        data_type = spec.field.data_type
        if data_type[0] == "Dictionary":
            return self.keys(spec, data_type, wanted, is_limited)
        return self.values(spec, data_type, wanted, is_limited)

    def values(self, spec, data_type, wanted, is_limited=False):
        """Lays a column of a type that is no dictionary."""
        data_type = storage_of(data_type)
        name, at = data_type[0], len(self.nodes)
        if name == "Union":
            return self.union(spec, data_type, wanted, is_limited)
        laid = self.node(wanted, is_limited)
        if name == "Null":
            self.nodes[at] = (self.nodes[at][0], self.random.choice((0, laid, 7)))
            return [None] * wanted
        flags = self.validity(at, laid)
        if name == "Boolean":
            truths = [self.random.random() < 0.5 for _ in range(laid)]
            self.put(bits(truths + [self.random.random() < 0.5 for _ in range(-laid % 8)]))
            slots = truths
        elif kind_of(data_type):
            slots = self.primitives(kind_of(data_type), laid)
        elif name in BYTES or name == "FixedSizeBinary":
            slots = self.strings(data_type, laid, wanted)
        elif name in LISTS:
            slots = self.lists(spec, LISTS[name], laid, wanted)
        elif name == "FixedSizeList":
            child = self.column(spec.children[0], wanted * data_type[2], is_limited)
            slots = [("items", tuple(child[i * data_type[2] : (i + 1) * data_type[2]])) for i in range(wanted)]
        else:
            children = [self.column(child, wanted, is_limited) for child in spec.children]
            slots = [("fields", row) for row in zip(*children)]
        return [slot if is_valid else None for slot, is_valid in zip(slots, flags)][:wanted]

    def primitives(self, kind, laid):
        widths, slots, content = KINDS[kind], [], b""
        for _ in range(laid):
            numbers = [self.any_integer(*width) for width in widths]
            content += b"".join(self.integer(n, *width) for n, width in zip(numbers, widths))
            slots.append((("number", "pair", "triple")[len(numbers) - 1], kind, *numbers))
        self.put(content)
        return slots

    def lengths(self, laid):
        """Offsets that need not begin at 0."""
        offsets = [self.random.randint(0, 3) if self.chance(0.4) else 0]
        for _ in range(laid):
            offsets.append(offsets[-1] + self.random.choice((0, 0, 1, 2, 3)))
        return offsets

    def put_offsets(self, offsets, width):
        """Lays offsets; those of no slot may be left out."""
        if offsets == [0] and self.chance(0.5):
            self.put_unseen(self.garbage(self.random.choice((0, 0, 1, width - 1))))
        else:
            self.put(self.integers(offsets, width))

    def strings(self, data_type, laid, wanted):
        name = data_type[0]
        if name == "FixedSizeBinary":
            parts = [self.garbage(data_type[1]) for _ in range(laid)]
            self.put(b"".join(parts))
            return [("bytes", part) for part in parts]
        before = self.garbage(self.random.randint(0, 3)) if self.chance(0.4) else b""
        choices = TEXT_PARTS if name in TEXTS else TEXT_PARTS + (b"\xff\x80", b"\xc3")
        parts = [self.random.choice(choices) for _ in range(laid)]
        offsets = [len(before)]
        for part in parts:
            offsets.append(offsets[-1] + len(part))
        self.put_offsets(offsets, BYTES[name])
        self.put(before + b"".join(parts) + (self.garbage(2) if self.chance(0.2) else b""))
        return [("text" if name in TEXTS else "bytes", part) for part in parts]

    def lists(self, spec, width, laid, wanted):
        offsets = self.lengths(laid)
        self.put_offsets(offsets, width)
        child = self.column(spec.children[0], offsets[wanted], True)
        return [("items", tuple(child[a:b])) for a, b in zip(offsets, offsets[1 : wanted + 1])]

    def union(self, spec, data_type, wanted, is_limited):
        """A union is read whole, so all of its slots are sound."""
        length, children = wanted + (self.random.randint(0, 2) if is_limited else 0), spec.children
        nulls = self.random.choice((0, 0, 3, -1)) if not self.tidy else 0
        self.nodes.append((self.damage.count(length), nulls))
        is_dense = data_type[3] == "Dense"
        counts = [self.random.randint(0, 4) if is_dense else length for _ in children]
        if is_dense and length and not any(counts):
            counts[0] = 1
        full = [place for place, count in enumerate(counts) if count]
        places = [self.random.choice(full) for _ in range(length)]
        if self.version < V5:
            self.put_unseen(self.garbage(1))
        ids = range(len(children)) if data_type[2] is None else data_type[2]
        self.put(self.integers([ids[place] for place in places], 1))
        offsets = [self.random.randrange(counts[place]) for place in places] if is_dense else list(range(length))
        if is_dense:
            self.put(self.integers(offsets, 4))
        slots = [self.column(child, count) for child, count in zip(children, counts)]
        types = [normalised_field(child.field).data_type for child in children]
        picks = [("pick", types[place], slots[place][at]) for place, at in zip(places, offsets)]
        return picks[:wanted]

    def keys(self, spec, data_type, wanted, is_limited):
        at, values = len(self.nodes), self.standing.get(spec.number, [])
        laid = self.node(wanted, is_limited)
        flags = self.validity(at, laid) if values or laid == 0 else self.all_null(at, laid)
        bits_wide, signed = INTEGERS[data_type[1]]
        keys = [self.random.randrange(len(values)) if is_valid else self.any_integer(bits_wide // 8, signed) for is_valid in flags]
        self.put(self.integers(keys, bits_wide // 8, signed))
        return [values[key] if is_valid else None for key, is_valid in zip(keys, flags)][:wanted]

    def all_null(self, at, laid):
        self.nodes[at] = (self.nodes[at][0], laid)
        self.put(bytes((laid + 7) // 8))
        return [False] * laid


def bits(flags):
    """Truth values as bits, least bit first."""
    return bytes(sum(flag << i for i, flag in enumerate(flags[at : at + 8])) for at in range(0, len(flags), 8))


def normal_pairs(field):
    """A field's pairs with those of its extension, as a reader keeps them."""
    pairs = list(field.metadata)
    extension = extension_of(field.data_type)
    if extension is not None:
        pairs = [pair for pair in pairs if pair[0] not in (NAME_KEY, METADATA_KEY)] + [(NAME_KEY, extension[1])]
        pairs += [] if extension[3] is None else [(METADATA_KEY, extension[3])]
    return pairs
