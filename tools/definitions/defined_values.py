"""The definitions of the project, called on bytes, with their values as the independent reader has them."""

from itertools import takewhile

from antt_library import called, record_of, same
from arrow_types import Field, Schema, Table
from definitions import Definitions

FLATBUFFERS, GRAMMAR, ARRAYS = "ipc_format_flatbuffers", "ipc_format_grammar", "nested_arrays_columns"

# how many children of a field, and messages, are looked through
MOST_TRIED = 150

NAMED_PARTS = {"Time32", "Time64", "Duration", "Interval"}
WITH_CHILD = {"List", "LargeList", "FixedSizeList", "Map"}


def as_field(value):
    pairs = tuple((bytes(key), bytes(text)) for key, text in value.f_metadata)
    return Field(bytes(value.f_name), as_type(value.f_data_type), value.f_is_nullable, pairs)


def as_fields(values):
    return tuple(map(as_field, values))


def as_text(option):
    return None if option is None else bytes(option[0])


def as_type(value):
    """A `DataType` of the definitions."""
    name, parts = str(value[0]), value[1:]
    if name in NAMED_PARTS:
        return (name, str(parts[0][0]))
    if name == "Timestamp":
        return (name, str(parts[0][0]), as_text(parts[1]))
    if name in WITH_CHILD:
        return (name, as_field(parts[0])) + tuple(parts[1:])
    if name == "Struct":
        return (name, as_fields(parts[0]))
    if name == "Union":
        ids = None if parts[1] is None else tuple(parts[1][0])
        return (name, as_fields(parts[0]), ids, str(parts[2][0]))
    if name == "Dictionary":
        return (name, str(parts[0][0]), as_type(parts[1]), parts[2])
    if name == "Extension":
        return (name, bytes(parts[0]), as_type(parts[1]), as_text(parts[2]))
    return (name,) + tuple(parts)


class Slots:
    """Turns slots of the definitions into values; types of picks are turned once."""

    def __init__(self):
        self.types = {}

    def type_of(self, value):
        key = id(value)
        if key not in self.types:
            self.types[key] = (as_type(value), value)
        return self.types[key][0]

    def value(self, slot):
        name = slot[0]
        if name == "null":
            return None
        if name == "truth":
            return slot[1]
        if name in ("number", "pair", "triple"):
            return (str(name), str(slot[1][0]), *slot[2:])
        if name in ("text", "bytes"):
            return (str(name), bytes(slot[1]))
        if name in ("items", "fields"):
            return (str(name), tuple(self.listed(slot[1])))
        return ("pick", self.type_of(slot[1]), self.value(slot[2]))

    def listed(self, slots):
        while slots[0] == "slot_then":
            yield self.value(slots[1])
            slots = slots[2]


def as_schema(value):
    pairs = tuple((bytes(key), bytes(text)) for key, text in value.f_metadata)
    return Schema(as_fields(value.f_fields), pairs)


def as_table(value):
    slots = Slots()
    return Table(as_schema(value.f_schema), [tuple(map(slots.value, row)) for row in value.f_rows])


def as_encoded(value):
    """The nodes and buffers of a column."""
    return list(map(tuple, value.f_nodes)), list(map(bytes, value.f_buffers))


class Terms:
    """Turns values of the reader into values of the definitions."""

    def __init__(self, definitions):
        self.definitions = definitions

    def plain(self, name, *parts):
        """A constructor's value."""
        code = self.definitions.tag(name)
        return (self.definitions.space[code], *parts)

    def text(self, option):
        return None if option is None else (option,)

    def field(self, field):
        data_type = self.data_type(field.data_type)
        return record_of(
            name=field.name, data_type=data_type, is_nullable=field.is_nullable, metadata=list(field.metadata)
        )

    def fields(self, fields):
        return [self.field(field) for field in fields]

    def data_type(self, data_type):
        name, parts = data_type[0], data_type[1:]
        if name in NAMED_PARTS:
            return self.plain(name, self.plain(parts[0]))
        if name == "Timestamp":
            return self.plain(name, self.plain(parts[0]), self.text(parts[1]))
        if name in WITH_CHILD:
            return self.plain(name, self.field(parts[0]), *parts[1:])
        if name == "Struct":
            return self.plain(name, self.fields(parts[0]))
        if name == "Union":
            ids = None if parts[1] is None else (list(parts[1]),)
            return self.plain(name, self.fields(parts[0]), ids, self.plain(parts[2]))
        if name == "Dictionary":
            return self.plain(name, self.plain(parts[0]), self.data_type(parts[1]), parts[2])
        if name == "Extension":
            return self.plain(name, parts[0], self.data_type(parts[1]), self.text(parts[2]))
        return self.plain(name, *parts)

    def slot(self, value):
        if value is None:
            return self.plain("null")
        if isinstance(value, bool):
            return self.plain("truth", value)
        name = value[0]
        if name in ("number", "pair", "triple"):
            return self.plain(name, self.plain(value[1]), *value[2:])
        if name in ("text", "bytes"):
            return self.plain(name, value[1])
        if name in ("items", "fields"):
            return self.plain(name, self.slots(value[1]))
        return self.plain("pick", self.data_type(value[1]), self.slot(value[2]))

    def slots(self, values):
        out = self.plain("no_slot")
        for value in reversed(values):
            out = self.plain("slot_then", self.slot(value), out)
        return out

    def cell(self, value):
        """The cell of a value."""
        if value is None:
            return self.plain("null_cell")
        if isinstance(value, bool):
            return self.plain("boolean_cell", value)
        name = value[0]
        if name == "number":
            return self.plain("whole_cell", self.plain(value[1]), value[2])
        if name in ("pair", "triple"):
            return self.plain("days_ms_cell" if name == "pair" else "months_days_ns_cell", *value[2:])
        if name in ("text", "bytes"):
            return self.plain(name + "_cell", value[1])
        cells = self.plain("no_cell")
        for part in reversed(value[1]):
            cells = self.plain("cell_then", self.cell(part), cells)
        return self.plain("list_cell" if name == "items" else "record_cell", cells)

    def rows(self, rows):
        return [[self.slot(value) for value in row] for row in rows]

    def schema(self, schema):
        return record_of(fields=self.fields(schema.fields), metadata=list(schema.metadata))

    def ids(self, specs):
        """The tree of dictionary ids beside some fields."""
        out = self.plain("no_ids")
        for spec in reversed(specs):
            number = None if spec.number is None else (spec.number,)
            out = self.plain("ids_then", self.plain("ids", number, self.ids(spec.children)), out)
        return out


class Defined:
    """The definitions that are compared, compiled once.

    Each answer of the definitions stands in one method here, which is where a new name of theirs goes.
    """

    def __init__(self):
        self.definitions = Definitions()
        self.terms, find = Terms(self.definitions), self.definitions.named
        self.forms = {form: find(GRAMMAR, form) for form in ("stream", "file")}
        self.table, self.choice = find(GRAMMAR, "table_of"), find(GRAMMAR, "choice_of")
        self.choice_within, self.windows = find(ARRAYS, "choice_within"), find(GRAMMAR, "choice_windows")
        self.ends_early, self.is_truncated = find(GRAMMAR, "EndsInLaterMessage"), find(GRAMMAR, "is_truncated")
        self.schema_table, self.child_at, self.is_float = (find(GRAMMAR, name) for name in ("schema_table", "child_at", "IsFloat"))
        self.message_at, self.is_delta = find(GRAMMAR, "message_at"), find(GRAMMAR, "is_delta")
        self.compression, self.feather_mark = find(GRAMMAR, "compression_in"), find(GRAMMAR, "HasFeatherMark")
        self.first_batches, self.behind_messages = find(GRAMMAR, "first_batches"), find(GRAMMAR, "behind_messages")
        self.laid, self.schema_message = find(FLATBUFFERS, "laid"), find(GRAMMAR, "schema_message")
        self.default_ids, self.seal = find(GRAMMAR, "default_ids"), find(GRAMMAR, "sealed")
        self.base, self.appended = find(GRAMMAR, "base_of"), find(GRAMMAR, "appended")
        self.append_bar, self.write_bar = find(GRAMMAR, "append_bar"), find(GRAMMAR, "write_bar")
        self.few_dictionaries = find(GRAMMAR, "has_few_dictionaries")
        self.start, self.writes = find(GRAMMAR, "after_start"), find(GRAMMAR, "after_writes")
        self.is_written_with, self.footer = find(GRAMMAR, "is_written_with"), find(GRAMMAR, "footer_in")
        self.message_bytes = find(GRAMMAR, "bytes_of_messages")
        self.encode, self.encode_stored = find(GRAMMAR, "encode"), find(GRAMMAR, "encode_stored")
        self.union = find(GRAMMAR, "has_union")
        self.stream, self.file = find(GRAMMAR, "written_stream"), find(GRAMMAR, "written_file")
        self.slots, self.cut, self.is_sound = find(ARRAYS, "slots"), find(ARRAYS, "cut"), find(ARRAYS, "is_sound")
        self.fresh, self.fits, self.is_buildable = find(ARRAYS, "fresh"), find(ARRAYS, "fits"), find(ARRAYS, "is_buildable")
        self.is_accepted, self.batch_of_rows = find(ARRAYS, "is_accepted"), find(ARRAYS, "batch_of_rows")
        self.column_len, self.column_type = find(ARRAYS, "column_len"), find(ARRAYS, "column_type")
        self.given_by, self.given_stored = find(GRAMMAR, "given_by"), find(GRAMMAR, "given_stored")

    # ---- reading

    def defined_table(self, form, content):
        """The table that the definitions give, or None."""
        found = called(self.table, self.forms[form], content)
        return None if found is None else as_table(found[0])

    def defined_choice(self, form, content, columns, limit):
        """The table that the definitions give of chosen columns under a limit, or None."""
        limit = None if limit is None else (limit,)
        found = called(self.choice, self.forms[form], content, columns, limit)
        return None if found is None else as_table(found[0])

    def defined_part(self, form, content, columns, limit):
        """The chosen columns of the first rows of the table that the definitions give, or None."""
        limit, found = None if limit is None else (limit,), called(self.table, self.forms[form], content)
        return None if found is None else as_table(called(self.choice_within, columns, limit, found[0]))

    def defined_windows(self, form, content, columns):
        """The windows of each message that a choice takes, as beginnings and sizes, or None."""
        found = called(self.windows, self.forms[form], content, columns)
        return None if found is None else [[(window.f_start, window.f_size) for window in windows] for windows in found[0]]

    def defined_end(self, content):
        """Whether a stream ends within the first four bytes of a later message, as the definitions say."""
        return called(self.ends_early, content)

    def defined_truncation(self, content):
        """Whether a stream ends within the first four bytes of a later message, or None where it breaks off otherwise."""
        found = called(self.is_truncated, content)
        return None if found is None else found[0]

    def defined_first_rows(self, form, content, count):
        """The rows of the first messages of a stream, or of a file's first record batches, or None."""
        found = called(self.first_batches, self.forms[form], count, content)
        if found is None:
            return None
        slots = Slots()
        return [tuple(map(slots.value, row)) for batch in found[0] for row in zip(*batch)]

    def defined_rows_before_end(self, content):
        """The rows of the messages up to where a stream ends within the beginning of another one, or None."""
        count = self.message_count("stream", content)
        behind = called(self.behind_messages, count, content)
        is_early = behind is not None and behind[0][0] == "nothing_whole"
        return self.defined_first_rows("stream", content, count) if is_early else None

    def message_count(self, form, content):
        """How many messages stand behind a stream's schema, or record batches in a file."""
        return len(self.messages(form, content, False))

    # ---- causes of refusals, found by trying every place

    def has_feather_mark(self, form, content):
        return called(self.feather_mark, self.forms[form], content)

    def has_float(self, form, content):
        """Whether a float field stands at some path of the schema."""
        found = called(self.schema_table, self.forms[form], content)
        if found is None:
            return False
        metadata, schema = found[0]
        seen, tables = set(), self.children(metadata, schema, 1)
        while tables:
            table = tables.pop()
            if called(self.is_float, metadata, table):
                return True
            place = repr(table.parts())
            if place not in seen:
                seen.add(place)
                tables.extend(self.children(metadata, table, 5))
        return False

    def children(self, metadata, table, slot):
        found = (called(self.child_at, metadata, table, slot, k) for k in range(MOST_TRIED))
        return [child[0] for child in found if child is not None]

    def messages(self, form, content, among_dictionaries):
        """The messages that are found by their places; of a stream all of them."""
        found = (called(self.message_at, self.forms[form], content, among_dictionaries, k) for k in range(MOST_TRIED))
        return [message[0] for message in takewhile(lambda message: message is not None, found)]

    def has_compression(self, form, content, among_dictionaries):
        return any(self.compression(found) is not None for found in self.messages(form, content, among_dictionaries))

    def has_delta(self, form, content):
        return any(called(self.is_delta, *found) == (True,) for found in self.messages(form, content, True))

    # ---- writing

    def defined_encoding(self, data_type, slots):
        """The nodes and buffers of a column of slots."""
        return as_encoded(called(self.encode, self.terms.data_type(data_type), list(map(self.terms.slot, slots))))

    def defined_schema_message(self, schema, specs):
        """The metadata of a written schema's message."""
        return bytes(called(self.laid, called(self.schema_message, self.terms.schema(schema), self.terms.ids(specs))))

    def numbers_alike(self, schema, specs):
        """Whether the definitions number dictionaries as some specs do."""
        return same(self.default_ids(self.terms.fields(schema.fields)), self.terms.ids(specs))

    def defined_seal(self, schema, rows, size):
        """The seal of rows in groups, or None."""
        return as_text(called(self.seal, self.terms.schema(schema), self.terms.rows(rows), size))

    def slot_chunks(self, groups, width):
        """Groups of rows as a writer is given them, column by column."""
        return [
            self.terms.plain("slot_columns", [[self.terms.slot(row[place]) for row in rows] for place in range(width)])
            for rows in groups
        ]

    def stored_chunk(self, columns):
        """Stored columns as a writer is given them."""
        return self.terms.plain("stored_columns", columns)

    def defined_written(self, form, schema, specs, chunks):
        """A stream or a file of chunks, or None."""
        write = self.stream if form == "stream" else self.file
        return as_text(called(write, self.terms.schema(schema), self.terms.ids(specs), chunks))

    def defined_writing(self, form, schema, specs, groups):
        """A stream or a file of groups of rows, or None."""
        return self.defined_written(form, schema, specs, self.slot_chunks(groups, len(schema.fields)))

    def defined_run(self, form, schema, specs, chunks):
        """Of a run of calls of a writer: which chunks are refused, and the bytes of its messages; None where start is refused."""
        form, schema, ids = self.forms[form], self.terms.schema(schema), self.terms.ids(specs)
        started, bars = called(self.start, schema, ids), []
        if started is None:
            return None
        run = started[0]
        for chunk in chunks:
            bar = called(self.write_bar, form, schema, ids, run.f_told, chunk)
            bars.append(None if bar is None else str(bar[0][0]))
            run = called(self.writes, form, schema, ids, run, [chunk])
        return bars, bytes(called(self.message_bytes, run.f_messages))

    def defined_appended(self, content, chunks):
        """A file with chunks appended, or None."""
        return as_text(called(self.appended, content, chunks))

    def is_base(self, content):
        """Whether something may be appended to a file, whose schema may then be written with its ids."""
        base = called(self.base, content)
        return base is not None and called(self.is_written_with, base[0].f_found.f_schema, base[0].f_found.f_ids)

    def defined_append_bar(self, is_little_endian, content):
        """Why nothing may be appended to a file with a footer, or None."""
        footer = called(self.footer, content)[0]
        bar = called(self.append_bar, is_little_endian, len(content), footer.f_dictionaries, footer.f_record_batches)
        return None if bar is None else str(bar[0][0])

    def has_few_dictionaries(self, count):
        """Whether a file may have so many dictionary messages when batches are appended to it."""
        block = record_of(offset=8, metadata_length=8, body_length=0)
        return called(self.few_dictionaries, record_of(dictionaries=[block] * count, record_batches=[]))

    # ---- stored columns

    def defined_cut(self, column, offset, length):
        """A cut of a stored column, whether both are sound, and the values of the cut."""
        cut, values = called(self.cut, column, offset, length), Slots()
        are_sound = called(self.is_sound, column) and called(self.is_sound, cut)
        return cut, are_sound, [values.value(slot) for slot in called(self.slots, cut)]

    def defined_stored_encoding(self, column, is_little_endian=True):
        """The nodes and buffers of a stored column in a byte order."""
        return as_encoded(called(self.encode_stored, is_little_endian, column))

    def has_union(self, data_type):
        """Whether the definitions find a union in a type."""
        return called(self.union, self.terms.data_type(data_type))

    def defined_stored_stream(self, schema, specs, columns):
        """A stream of one batch of stored columns, or None."""
        return self.defined_written("stream", schema, specs, [self.stored_chunk(columns)])

    # ---- fresh columns and rows

    def why_not_fresh(self, field, spec, slots, expected, turned, random):
        """What a column that stores some slots, which fit, does not keep of them, or None; it is to have the parts of another one, and in the
        other byte order buffers that are turned."""
        data_type, terms = self.terms.data_type(field.data_type), list(map(self.terms.slot, slots))
        ids, values = self.terms.ids((spec,))[1], Slots()
        if not called(self.is_buildable, data_type) or not called(self.fits, data_type, terms):
            return "the slots do not fit"
        column, count = called(self.fresh, data_type, terms), len(slots)
        offset = random.randint(0, count)
        cut = called(self.cut, column, offset, count - offset)
        kept = {
            "its parts": lambda: same(column, expected),
            "the type": lambda: same(called(self.column_type, column), data_type),
            "the length": lambda: called(self.column_len, column) == count,
            "the slots": lambda: list(map(values.value, called(self.slots, column))) == slots,
            "soundness": lambda: called(self.is_sound, column),
            "the encoding": lambda: same(called(self.encode_stored, True, column), called(self.encode, data_type, terms)),
            "the big-endian encoding": lambda: self.is_turned(column, turned),
            "the dictionaries": lambda: same(called(self.given_stored, ids, column), called(self.given_by, data_type, ids, terms)),
            "a cut": lambda: called(self.is_sound, cut) and list(map(values.value, called(self.slots, cut))) == slots[offset:],
        }
        return next((name for name, is_kept in kept.items() if not is_kept()), None)

    def is_turned(self, column, turned):
        """Whether a column has the same nodes in the other byte order, and the buffers with their numbers turned around."""
        nodes, buffers = self.defined_stored_encoding(column)
        return self.defined_stored_encoding(column, False) == (nodes, turned(buffers))

    def fits_column(self, data_type, slots):
        return called(self.fits, self.terms.data_type(data_type), list(map(self.terms.slot, slots)))

    def accepts(self, fields, rows, row):
        """Whether a row of cells is accepted where some rows are open."""
        return called(self.is_accepted, self.terms.fields(fields), self.terms.rows(rows), list(map(self.terms.cell, row)))

    def defined_batch(self, fields, rows):
        """The values of the columns that a batch of open rows becomes."""
        values = Slots()
        columns = called(self.batch_of_rows, self.terms.fields(fields), self.terms.rows(rows))
        return [list(map(values.value, called(self.slots, column))) for column in columns]
