"""Arrow's types, schemas and values as plain Python values, shared by the independent reader, generator and writers.

A type is a tuple of its name and its parts, as arrow2's `DataType` has them: ("Int32",),
("Timestamp", unit, zone), ("List", field), ("Struct", fields), ("Union", fields, ids, mode),
("Dictionary", keys, values, is_ordered), ("Extension", name, storage, metadata) and so on.

A value is None, a truth value, or a tuple: ("number", kind, z), ("pair", kind, a, b),
("triple", kind, a, b, c), ("text", bytes), ("bytes", bytes), ("items", values),
("fields", values), ("pick", type, value).
"""

from collections import namedtuple

Field = namedtuple("Field", "name data_type is_nullable metadata")
Schema = namedtuple("Schema", "fields metadata")
Table = namedtuple("Table", "schema rows")

UNITS = ("Second", "Millisecond", "Microsecond", "Nanosecond")
INTERVALS = ("YearMonth", "DayTime", "MonthDayNano")
MODES = ("Sparse", "Dense")
INTEGERS = {
    "Int8": (8, True), "Int16": (16, True), "Int32": (32, True), "Int64": (64, True),
    "UInt8": (8, False), "UInt16": (16, False), "UInt32": (32, False), "UInt64": (64, False),
}
NAME_KEY, METADATA_KEY = b"ARROW:extension:name", b"ARROW:extension:metadata"

# What the values of a type are stored as: the kind, and its numbers as (bytes, signed).
KINDS = {name: ((bits // 8, signed),) for name, (bits, signed) in INTEGERS.items()}
KINDS.update({
    "DaysMs": ((4, True), (4, True)), "MonthDayNano": ((4, True), (4, True), (8, True)),
    "Int128": ((16, True),), "Int256": ((32, True),),
})
STORED = {name: name for name in INTEGERS}
STORED.update({
    "Date32": "Int32", "Time32": "Int32", "Date64": "Int64", "Time64": "Int64", "Timestamp": "Int64",
    "Duration": "Int64", "Decimal": "Int128", "Decimal256": "Int256",
})
INTERVAL_KINDS = {"YearMonth": "Int32", "DayTime": "DaysMs", "MonthDayNano": "MonthDayNano"}

# Bytes and text by the width of their offsets, and lists likewise.
BYTES = {"Binary": 4, "LargeBinary": 8, "Utf8": 4, "LargeUtf8": 8}
TEXTS = {"Utf8", "LargeUtf8"}
LISTS = {"List": 4, "LargeList": 8, "Map": 4}

DEEPEST = 64
MOST_DICTIONARIES = 65536


def kind_of(data_type):
    """The stored kind of a primitive type, or None for any other."""
    if data_type[0] == "Interval":
        return INTERVAL_KINDS[data_type[1]]
    return STORED.get(data_type[0])


def storage_of(data_type):
    """A type without the extension around it."""
    return data_type[2] if data_type[0] == "Extension" else data_type


def child_fields(data_type):
    """The fields directly below a type, through extensions and dictionaries."""
    name = data_type[0]
    if name in ("Extension", "Dictionary"):
        return child_fields(data_type[2])
    if name in ("List", "LargeList", "FixedSizeList", "Map"):
        return (data_type[1],)
    return data_type[1] if name in ("Struct", "Union") else ()


def with_child_fields(data_type, fields):
    """A type with other fields directly below it."""
    name = data_type[0]
    if name in ("Extension", "Dictionary"):
        return data_type[:2] + (with_child_fields(data_type[2], fields),) + data_type[3:]
    if name in ("List", "LargeList", "FixedSizeList", "Map"):
        return (name, fields[0]) + data_type[2:]
    return (name, tuple(fields)) + data_type[2:] if name in ("Struct", "Union") else data_type


def extension_of(data_type):
    """The extension of a field's type, or of the type directly under its dictionary."""
    inner = data_type[2] if data_type[0] == "Dictionary" else data_type
    return inner if inner[0] == "Extension" else None


def normalised_field(field):
    """A field with the extension's keys, at each depth, as the types have them."""
    below = [normalised_field(child) for child in child_fields(field.data_type)]
    data_type = with_child_fields(field.data_type, below)
    pairs = {key: value for key, value in field.metadata if key not in (NAME_KEY, METADATA_KEY)}
    extension = extension_of(data_type)
    if extension is not None:
        pairs[NAME_KEY] = extension[1]
        if extension[3] is not None:
            pairs[METADATA_KEY] = extension[3]
    return Field(field.name, data_type, field.is_nullable, tuple(sorted(pairs.items())))


def normalised(schema):
    return Schema(tuple(normalised_field(field) for field in schema.fields), schema.metadata)


def depth_of(data_type):
    return max((1 + depth_of(child.data_type) for child in child_fields(data_type)), default=0)


def dictionaries_in(data_type):
    inside = sum(dictionaries_in(child.data_type) for child in child_fields(data_type))
    return inside + is_dictionary(data_type)


def holds_union(data_type):
    """Whether a union stands anywhere in a type, whose values are not written from slots."""
    while data_type[0] in ("Dictionary", "Extension"):
        data_type = data_type[2]
    return data_type[0] == "Union" or any(holds_union(child.data_type) for child in child_fields(data_type))


def is_dictionary(data_type):
    return data_type[0] == "Dictionary"


def is_size(number):
    return 1 <= number < 2**31


def are_union_ids(ids, count):
    if ids is None:
        return count <= 128
    return len(ids) == count and len(set(ids)) == count and all(0 <= number < 128 for number in ids)


def why_not_writable(data_type):
    """Why a type is not one that is read and written, or None."""
    name = data_type[0]
    if name.startswith("Float"):
        return "a float"
    if name == "Time32" and data_type[1] not in UNITS[:2] or name == "Time64" and data_type[1] not in UNITS[2:]:
        return "a time of another unit"
    if name in ("Decimal", "Decimal256") and not all(0 <= number < 2**31 for number in data_type[1:]):
        return "a decimal's precision or scale"
    if name in ("FixedSizeBinary", "FixedSizeList") and not is_size(data_type[-1]):
        return "a fixed size"
    if name in ("Struct", "Union") and not data_type[1]:
        return "no child"
    if name == "Union" and not are_union_ids(data_type[2], len(data_type[1])):
        return "a union's ids"
    if name == "Map" and not is_entry(data_type[1].data_type):
        return "a map's child"
    if name == "Dictionary" and data_type[2][0] == "Dictionary":
        return "a dictionary in a dictionary"
    if name == "Extension" and data_type[2][0] in ("Dictionary", "Extension"):
        return "an extension around a dictionary or an extension"
    if name in ("Dictionary", "Extension"):
        return why_not_writable(data_type[2])
    return next(filter(None, (why_not_writable(child.data_type) for child in child_fields(data_type))), None)


def is_entry(data_type):
    """Whether a type is a struct of two fields."""
    return data_type[0] == "Struct" and len(data_type[1]) == 2


def why_no_schema(schema):
    """Why a schema is not one that is read and written, or None."""
    for field in schema.fields:
        why = why_not_writable(field.data_type)
        if why:
            return why
    if any(1 + depth_of(field.data_type) > DEEPEST for field in schema.fields):
        return "fields nest too deep"
    if sum(dictionaries_in(field.data_type) for field in schema.fields) > MOST_DICTIONARIES:
        return "too many dictionaries"
    return None
