"""Streams of each type that is no float, alone and within every kind of nested type, sound and damaged, as usual writers lay them.

All choices come from `random.Random`s of the type's name and the stream's number, so that the same streams are made again.
"""

from collections import Counter
from itertools import count
from random import Random

from arrow_cases import Case, Writer
from arrow_damage import Damage, FIELD_SLOTS, NoDamage, features, things_in
from arrow_generator import Schemas, numbers_inner_first
from arrow_metadata import NOT_IMPLEMENTED
from arrow_stored_reading import features_in_file, has_one_fault, refusal_of, refusal_of_file
from arrow_trees import DICTIONARY_BATCH, RECORD_BATCH, SCHEMA
from arrow_types import INTEGERS, Schema
from laying import Table

TYPES = tuple(INTEGERS) + (
    "Null", "Boolean", "Date32", "Date64", "Time32", "Time64", "Timestamp", "Duration", "Interval", "Decimal", "Decimal256",
    "Utf8", "LargeUtf8", "Binary", "LargeBinary", "FixedSizeBinary", "List", "LargeList", "FixedSizeList", "Struct", "Map", "Union",
    "Dictionary", "Extension",
)
NESTED = ("List", "LargeList", "FixedSizeList", "Struct", "Map", "Union")

# Where the type stands: as a column of its own, or below one.
PLACES = ("alone", "beside", "List", "Struct", "Dictionary", "Union", "FixedSizeList", "Map", "Extension", "nested dictionaries")

# No dictionary stands directly below a dictionary or an extension, and no extension below an extension.
OTHER_PLACES = {
    ("Dictionary", "Dictionary"): "nested dictionaries", ("Extension", "Dictionary"): "nested dictionaries",
    ("Extension", "Extension"): "List",
}

# One way each in which a stream is damaged.
DAMAGES = ("buffer", "count", "structs", "type", "tree", "framing", "buffer", "feature", "body", "count", "missing", "clash", "byte", "cut")
MARKER = b"\xff\xff\xff\xff"
FILE_MARK = b"ARROW1"
MOST_BYTES, TRIES = 2_400, 25
MAP_TAG = 17


class TypedSchemas(Schemas):
    """Makes fields of a type in some place, with dictionary ids."""

    def typed(self, name):
        """A type of a name, with random parts."""
        if name == "Dictionary":
            return (name, self.random.choice(tuple(INTEGERS)), self.inner(), self.random.random() < 0.4)
        if name == "Extension":
            return (name, self.random.choice((b"e", b"geo.point")), self.inner(), self.random.choice((None, b"", b"m")))
        made = ("",)
        while made[0] != name:
            made = self.nested_type(1) if name in NESTED else self.flat_type()
        return made

    def inner(self):
        """A type that may stand directly below a dictionary or an extension."""
        return self.nested_type(1) if self.random.random() < 0.4 else self.flat_type()

    def keyed(self, data_type):
        return ("Dictionary", self.random.choice(tuple(INTEGERS)), data_type, False)

    def within(self, place, data_type):
        """A type in which another one stands at a place."""
        place = OTHER_PLACES.get((place, data_type[0]), place)
        if place in ("alone", "beside"):
            return data_type
        if place == "Dictionary":
            return self.keyed(data_type)
        if place == "Extension":
            return ("Extension", b"e", data_type, self.random.choice((None, b"m")))
        field = self.field(0, data_type)
        if place == "nested dictionaries":
            below = data_type if data_type[0] == "Dictionary" else self.keyed(data_type)
            return self.keyed(("List", self.field(0, below)))
        if place == "List":
            return (self.random.choice(("List", "LargeList")), field)
        if place == "FixedSizeList":
            return (place, field, 2)
        other = self.field(0, self.flat_type())
        if place == "Struct":
            return (place, (field, other))
        if place == "Map":
            return (place, self.field(0, ("Struct", (other, field))), False)
        ids = self.random.choice((None, (5, 2), (127, 0)))
        return (place, (other, field), ids, self.random.choice(("Sparse", "Dense")))

    def fields_with(self, place, name):
        """The fields of a stream in which a type stands at a place."""
        fields = [self.field(0, self.within(place, self.typed(name)))]
        if place == "beside":
            fields.insert(self.random.randint(0, 1), self.field(1))
        return fields


class Numbered(TypedSchemas):
    """Numbers the dictionaries of given fields."""

    def __init__(self, random, damage, fields):
        super().__init__(random, damage)
        self.given = list(fields)

    def field(self, depth, data_type=None):
        return self.given.pop(0)


class OneDamage(Damage):
    """Damages one input in one way."""

    def __init__(self, random, kind):
        super().__init__(random)
        self.kinds, self.left, self.skips = [kind], [kind], random.randint(0, 2)

    def tree(self, tree):
        if self.kinds != ["feature"]:
            return super().tree(tree)
        if self.is_due("feature"):
            found = things_in(tree, [])
            entries = map_entries(found)
            choices = [choice for choice in features(found) if not any(choice[0] is entry for entry in entries)]
            if not choices:
                self.left = ["feature"]
                return tree
            self.change(*self.random.choice(choices))
        return tree

    def is_done(self):
        """Whether the damage was done, or is one that is done to the whole."""
        return not self.left or self.kinds[0] in ("byte", "cut")


def map_entries(found):
    """The fields of maps' entries, which are structs and nothing else."""
    tables = [thing for _, _, thing in found if isinstance(thing, Table) and len(thing.slots) == FIELD_SLOTS]
    return [table.slots[5].items[0] for table in tables if table.slots[2].bytes == bytes((MAP_TAG,))]


class TypedWriter(Writer):
    """Makes one stream of given fields, in a version and a byte order."""

    def __init__(self, random, fields, version, order, damage=None):
        super().__init__(random, damage, columns=0)
        self.version, self.order = version, order
        self.specs = Numbered(random, self.damage, fields).specs(len(fields), 0)
        self.schema = Schema(tuple(fields), self.metadata)

    def loosen(self, tree):
        """Leaves a schema as it is where it is to be damaged, so that what is damaged counts."""
        if not self.damage.kinds:
            super().loosen(tree)

    def parts(self):
        """Batches, each behind the dictionaries that it needs and some that are replaced."""
        out = []
        for _ in range(self.random.choice((2, 2, 3))):
            for number in numbers_inner_first(self.specs):
                if number not in self.standing or self.random.random() < 0.5:
                    part = self.part(DICTIONARY_BATCH, number, self.version)
                    out += [] if self.damage.is_due("missing") else [part]
            out.append(self.part(RECORD_BATCH, None, self.version))
        return out

    def stream(self):
        parts = self.parts()
        out = [self.framed(self.message(SCHEMA, self.schema_header(), self.random.choice((0, 0, 99, -1)), self.version))]
        for part in parts:
            if self.random.random() < 0.2:
                part = part._replace(version=self.random.choice((0, 3, 4, 99)))
            metadata, body = self.batch_message(part)
            out.append(self.framed(metadata) + body)
        end = self.random.choice((MARKER + bytes(4), MARKER + bytes(4), bytes(4), MARKER + bytes(4) + b"unread"))
        return Case("stream", b"".join(out) + end, self.table())


def place_and_form(name, number):
    """Where the type of a stream stands, the version and the byte order, so that all of them come."""
    at = TYPES.index(name)
    return PLACES[(number // 2 + 3 * at) % len(PLACES)], (number // 2 + at) % 5, ("little", "big")[(number // 2 + number // 4 + at // 5) % 2]


class TypedInputs:
    """Makes inputs of each type in one form; why damaged ones are refused is spread over many rules."""

    def __init__(self):
        self.reasons = Counter()

    def sound(self, name, number):
        """A sound input of a type: its bytes, and the table that it holds."""
        place, version, order = place_and_form(name, number)
        for attempt in count():
            random = self.random_of(name, number, attempt)
            fields = TypedSchemas(random, NoDamage()).fields_with(place, name)
            case = self.laid(TypedWriter(random, fields, version, order))
            if len(case.content) <= MOST_BYTES and len(case.table.rows) > 1:
                return case

    def damaged(self, name, number):
        """An input of a type, damaged in one way, and in most cases refused: its bytes."""
        place, version, order = place_and_form(name, number)
        first = number // 2 + 5 * TYPES.index(name)
        for attempt in count():
            random = self.random_of(name, number, attempt)
            damage = OneDamage(random, DAMAGES[(first + attempt // TRIES) % len(DAMAGES)])
            fields = TypedSchemas(random, damage).fields_with(place, name)
            content = damage.finish(self.laid(TypedWriter(random, fields, version, order, damage)).content)
            if damage.is_done() and len(content) <= MOST_BYTES and self.is_kept(content, damage, random, attempt):
                return content

    def is_kept(self, content, damage, random, attempt):
        """Whether a damaged input has one fault, which has not come often, or sometimes none, and is not too much to be made."""
        refusal, is_feature = self.refusal_of(content), damage.kinds == ["feature"]
        if not self.has_one_fault(content, is_feature):
            return False
        if refusal is None:
            return random.random() < 0.05
        if is_feature and refusal.kind != NOT_IMPLEMENTED:
            return False
        self.reasons[str(refusal)] += 1
        return self.reasons[str(refusal)] <= 6 + attempt


class TypedStreams(TypedInputs):
    """Makes streams of each type."""

    refusal_of, has_one_fault = staticmethod(refusal_of), staticmethod(has_one_fault)

    def random_of(self, name, number, attempt):
        return Random("%s/%d/%d" % (name, number, attempt))

    def laid(self, writer):
        return writer.stream()


class TypedFiles(TypedInputs):
    """Makes files of each type."""

    refusal_of = staticmethod(refusal_of_file)

    def random_of(self, name, number, attempt):
        return Random("%s/file/%d/%d" % (name, number, attempt))

    def laid(self, writer):
        return writer.file()

    def has_one_fault(self, content, is_feature):
        """Whether it is read as a file, and refused in one way whichever of its rules are looked at first."""
        return content.startswith(FILE_MARK) and features_in_file(content) == is_feature
