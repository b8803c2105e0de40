"""Random stored columns of given values, as arrays have them: with values under nulls, offsets that do not begin at 0, values of a
dictionary that no key names or that stand twice, and children that are longer than what they show. They are terms of the definitions
(`Column`)."""

from arrow_types import BYTES, KINDS, LISTS, TEXTS, INTEGERS, kind_of, storage_of

JUNK = (b"", b"?", b"junk", "ü".encode())


def filler(data_type):
    """A value of a type that stands where none shows: null, save for a union, which has none."""
    stored = data_type
    while stored[0] in ("Dictionary", "Extension"):
        stored = stored[2]
    if stored[0] != "Union":
        return None
    inner = stored[1][0].data_type
    return ("pick", inner, filler(inner))


class StoredColumns:
    """Makes stored columns; `terms` turns values into those of the definitions.

    Where dictionaries of some types and values stand, dictionaries that fit into one of them have its values.
    """

    def __init__(self, random, terms, standing=()):
        self.random, self.terms, self.standing = random, terms, standing

    def mask(self, slots):
        """A mark for each value, or no mask where all are there."""
        marks = [slot is not None for slot in slots]
        return None if all(marks) and self.random.random() < 0.5 else (marks,)

    def column(self, data_type, slots):
        """A column that stores these values, and what stands around them is chosen freely."""
        name, make = storage_of(data_type)[0], self.terms.plain
        whole = self.terms.data_type(data_type)
        if name == "Null":
            return make("nulls", whole, len(slots))
        if name in LISTS:
            return make("lists", whole, self.mask(slots), *self.lists(storage_of(data_type)[1], slots))
        if name == "FixedSizeList":
            return self.fixed_lists(whole, storage_of(data_type), slots)
        if name == "Struct":
            return self.records(whole, storage_of(data_type), slots)
        if name == "Union":
            return self.union(whole, storage_of(data_type), slots)
        if name == "Dictionary":
            return self.dictionary(whole, storage_of(data_type), slots)
        return make("flat", whole, self.mask(slots), self.flat(storage_of(data_type), slots))

    # ---- without children

    def flat(self, data_type, slots):
        name, make = data_type[0], self.terms.plain
        if name == "Boolean":
            return make("bits", [self.random.random() < 0.5 if slot is None else slot for slot in slots])
        if name == "FixedSizeBinary":
            size = data_type[1]
            pieces = [bytes([self.random.randrange(256)] * size) if slot is None else slot[1] for slot in slots]
            return make("fixed_bytes", size, list(b"".join(pieces)))
        if name in BYTES:
            pieces = [self.random.choice(JUNK) if slot is None else slot[1] for slot in slots]
            offsets, content = self.offsets(pieces, self.random.choice(JUNK))
            content += self.random.choice(JUNK)
            return make("texts" if name in TEXTS else "byte_strings", offsets, list(content))
        kind = kind_of(data_type)
        values = [self.numbers(kind) if slot is None else tuple(slot[2:]) for slot in slots]
        if len(KINDS[kind]) == 1:
            return make("numbers", make(kind), [value[0] for value in values])
        return make("pairs" if len(KINDS[kind]) == 2 else "triples", make(kind), values)

    def numbers(self, kind):
        """Any numbers of a kind."""
        return tuple(self.random.randrange(-100 if signed else 0, 100) for _, signed in KINDS[kind])

    def offsets(self, pieces, before):
        """Where pieces stand that are joined behind something."""
        offsets, content = [len(before)], before
        for piece in pieces:
            content += piece
            offsets.append(len(content))
        return offsets, content

    # ---- with children

    def fillers(self, data_type, most):
        return tuple(filler(data_type) for _ in range(self.random.randint(0, most)))

    def lists(self, field, slots):
        pieces = [self.fillers(field.data_type, 2) if slot is None else slot[1] for slot in slots]
        offsets, items = self.offsets(pieces, self.fillers(field.data_type, 2))
        items += self.fillers(field.data_type, 2)
        return offsets, self.column(field.data_type, list(items))

    def fixed_lists(self, whole, data_type, slots):
        field, size = data_type[1:]
        items = []
        for slot in slots:
            items.extend((filler(field.data_type),) * size if slot is None else slot[1])
        return self.terms.plain("fixed_lists", whole, self.mask(slots), size, self.column(field.data_type, items))

    def records(self, whole, data_type, slots):
        children = []
        for k, field in enumerate(data_type[1]):
            values = [filler(field.data_type) if slot is None else slot[1][k] for slot in slots]
            children.append(self.column(field.data_type, values))
        return self.terms.plain("records", whole, self.mask(slots), len(slots), self.columns(children))

    def columns(self, children):
        out = self.terms.plain("no_column")
        for child in reversed(children):
            out = self.terms.plain("column_then", child, out)
        return out

    def union(self, whole, data_type, slots):
        fields, numbers, mode = data_type[1:]
        types = [field.data_type for field in fields]
        places = [self.random.choice([k for k, t in enumerate(types) if t == slot[1]]) for slot in slots]
        ids = [place if numbers is None else numbers[place] for place in places]
        values, offsets = [[] for _ in fields], None
        if mode == "Sparse":
            for slot, place in zip(slots, places):
                for k, column in enumerate(values):
                    column.append(slot[2] if k == place else filler(types[k]))
        else:
            offsets = ([],)
            for slot, place in zip(slots, places):
                values[place].extend(self.fillers(types[place], 1))
                offsets[0].append(len(values[place]))
                values[place].append(slot[2])
        children = [self.column(t, column) for t, column in zip(types, values)]
        return self.terms.plain("unions", whole, ids, offsets, self.columns(children))

    def dictionary(self, whole, data_type, slots):
        key, value_type = data_type[1:3]
        most = 2 ** (INTEGERS[key][0] - 1) - 1
        values = list(dict.fromkeys(slot for slot in slots if slot is not None))
        known = [list(found) for other, found in self.standing if other == value_type and set(values) <= set(found)]
        if known:
            values = self.random.choice(known)
        else:
            values += self.fillers(value_type, 2)
            values += self.random.choices(values, k=min(self.random.randint(0, 2), max(0, most - len(values)))) if values else []
            self.random.shuffle(values)
        places = {}
        for place, value in enumerate(values):
            places.setdefault(value, []).append(place)
        keys = [self.random.randint(0, min(most, 9)) if slot is None else self.random.choice(places[slot]) for slot in slots]
        return self.terms.plain("dictionary", whole, self.mask(slots), keys, self.column(value_type, values))
