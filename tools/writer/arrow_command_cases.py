"""The inputs of the program `tables_files`, good and damaged, of every type that is no float, and the commands to run over them."""

from random import Random

from arrow_columns import Keys, Lists, Nulls, Unions, cut_batches
from arrow_rule_cases import int32, rule_cases, same_picks, schema_cases, stream_with, texts
from arrow_sealed import NotWritten, groups_of, stream_of
from arrow_special import deep, field_of, missing, shared, unwritable
from arrow_stored_reading import StoredTable, has_one_fault, read_stored, read_stored_file, refusal_of, refusal_of_file, row_count
from arrow_stored_writing import written, written_file
from arrow_trees import numbered
from arrow_typed import TYPES, TypedFiles, TypedStreams, TypedWriter
from arrow_types import Schema, holds_union
from cases import file_cases
from laying import usual

# How many streams of each type there are, and how many files, every second one damaged.
STREAMS_A_TYPE = 12
FILES_A_TYPE = 12
OUTPUT = "output.stream"
MOST_NULLS = 2**63 - 1


class Cases:
    """Inputs by file name, and the commands to run over them."""

    def __init__(self):
        self.inputs, self.commands = {}, []

    def put(self, name, content):
        """An input of a name, which is answered as a file's."""
        name += ".stream"
        assert name not in self.inputs, name
        self.inputs[name] = content
        return name

    def put_file(self, name, content):
        """An input in the other form."""
        name += ".file"
        assert name not in self.inputs, name
        self.inputs[name] = content
        return name

    def pick(self, columns, limit, name):
        words = ",".join(map(str, columns)) or "-", "-" if limit is None else limit
        self.commands.append("pick %s %s %s %s" % (*words, name, OUTPUT))

    def cut(self, offset, length, name):
        self.commands.append("cut %d %d %s %s" % (offset, length, name, OUTPUT))

    def join(self, *names):
        self.commands.append("join %s %s" % (OUTPUT, " ".join(names)))

    def same(self, a, b):
        self.commands.append("same %s %s" % (a, b))

    def seal(self, size, name):
        self.commands.append("seal %d %s %s" % (size, name, OUTPUT))


# ---- streams of each type

def twin_of(case, random):
    """The rows of a stream in other batches; where it is laid from slots, also with other dictionaries and zeros under nulls."""
    table = case.table
    size = random.randint(1 + len(table.rows) // 4, 2 + len(table.rows) // 3)
    if not any(holds_union(field.data_type) for field in table.schema.fields):
        try:
            return stream_of(numbered(table.schema.fields), table.schema.metadata, groups_of(table.rows, size))
        except NotWritten:
            pass
    return cut_apart(read_stored(case.content), size)


def cut_apart(stored, size):
    """A stored table's rows in batches of a size, as a stream."""
    pieces = [cut_batches(stored.batches, start, size) for start in range(0, row_count(stored), size)]
    return written(StoredTable(stored.schema, [batch for piece in pieces for batch in piece]))


def other_rows(case, random):
    """A stream under the same schema with a row less, or with two rows in each other's place."""
    stored = read_stored(case.content)
    rows, half = row_count(stored), random.randint(1, row_count(stored) - 1)
    parts = ((0, rows - 1),) if random.random() < 0.5 else ((half, rows - half), (0, half))
    batches = [batch for part in parts for batch in cut_batches(stored.batches, *part)]
    return written(StoredTable(stored.schema, batches))


def sound_cases(cases, name, number, case):
    """A sound stream, cut, joined with its rows laid otherwise, and compared with these and with others."""
    random, rows = Random("%s/%d/commands" % (name, number)), len(case.table.rows)
    own = cases.put("%s_%d" % (name.lower(), number), case.content)
    twin = cases.put("%s_%d_twin" % (name.lower(), number), twin_of(case, random))
    start = random.randint(0, rows - 1)
    cases.cut(start, random.randint(1, rows - start), own)
    width = len(case.table.schema.fields)
    columns, limit = random.sample(range(width), random.randint(1, width)), random.choice((None, random.randint(0, rows)))
    cases.pick(columns, limit, own)
    cases.cut(*random.choice(((rows, 0), (rows, 1), (0, rows + 1), (0, 0))), own)
    cases.same(own, twin)
    if number % 4 == 0:
        size = random.randint(1, rows + 1)
        cases.seal(size, own)
        cases.seal(size, twin)
        cases.join(own, twin)
        cases.same(own, cases.put("%s_%d_other" % (name.lower(), number), other_rows(case, random)))
    else:
        cases.cut(0, rows, own)
    if number == 2:
        cases.join(twin, own, own)
    if number % 4 == 0:
        filed_cases(cases, "%s_%d" % (name.lower(), number), own, (columns, limit), random)
    return own


def filed_cases(cases, name, own, choice, random):
    """A stream's rows as a file, sound and without its end, where no dictionary is replaced."""
    try:
        content = written_file(read_stored(cases.inputs[own]))
    except NotWritten:
        return
    filed = cases.put_file(name, content)
    cases.same(own, filed)
    cases.pick(*choice, filed)
    cases.join(filed, own)
    cases.cut(0, 0, cases.put_file(name + "_damaged", content[: -random.randint(1, 9)]))


def damaged_cases(cases, name, number, content, before):
    """A stream damaged in one way; what comes before it is sound."""
    own = cases.put("%s_%d_damaged" % (name.lower(), number), content)
    if refusal_of(content) is None:
        cases.cut(0, row_count(read_stored(content)), own)
        cases.same(own, before)
        return
    cases.pick([number // 2 % 3], None, own)
    cases.cut(0, 0, own)
    if number % 4 == 1:
        cases.join(before, own)
    else:
        cases.same(own, before)


def typed_cases(cases):
    """Streams of each type, every second one damaged."""
    streams, last = TypedStreams(), None
    for name in TYPES:
        for number in range(0, STREAMS_A_TYPE, 2):
            own = sound_cases(cases, name, number, streams.sound(name, number))
            if last is not None and number % 4 == 0:
                cases.same(own, last)
                cases.join(own, last)
            last = own
            damaged_cases(cases, name, number + 1, streams.damaged(name, number + 1), own)


# ---- files of each type

def sound_files(cases, name, number, case):
    """A sound file, cut, chosen from, and compared and joined with the stream of its rows."""
    random, rows, width = Random("%s/%d/file commands" % (name, number)), len(case.table.rows), len(case.table.schema.fields)
    own = cases.put_file("%s_%d_laid" % (name.lower(), number), case.content)
    start = random.randint(0, rows - 1)
    cases.cut(start, random.randint(1, rows - start), own)
    cases.pick(random.sample(range(width), random.randint(1, width)), random.choice((None, random.randint(0, rows))), own)
    twin = cases.put("%s_%d_laid" % (name.lower(), number), cut_apart(read_stored_file(case.content), random.randint(1, rows)))
    cases.same(own, twin)
    if number % 4 == 0:
        cases.seal(random.randint(1, rows + 1), own)
        cases.join(own, twin)
    return own


def damaged_files(cases, name, number, content, before):
    """A file damaged in one way; what comes before it is sound."""
    own = cases.put_file("%s_%d_spoiled" % (name.lower(), number), content)
    cases.cut(0, 0 if refusal_of_file(content) else row_count(read_stored_file(content)), own)
    if number % 4 == 1:
        cases.pick([number // 2 % 3], None, own)
    else:
        cases.same(own, before)


def typed_file_cases(cases):
    """Files of each type, every second one damaged."""
    files = TypedFiles()
    for name in TYPES:
        for number in range(0, FILES_A_TYPE, 2):
            own = sound_files(cases, name, number, files.sound(name, number))
            damaged_files(cases, name, number + 1, files.damaged(name, number + 1), own)


# ---- streams written out by hand

def integer_cases(cases):
    """Rows in several batches and in one, a stream that ends early, and ranges past its end."""
    three = cases.put("one_null_three", stream_with(("Int32",), int32(1, None, 3)))
    cases.cut(0, 3, three)
    apart = cases.put("x_in_two_batches", stream_with(("Int32",), int32(1), int32(2, 3)))
    whole = cases.put("x_in_one_batch", stream_with(("Int32",), int32(1, 2, 3)))
    cases.same(apart, whole)
    cases.join(apart, whole)
    cases.seal(2, apart)
    cases.seal(2, whole)
    cases.seal(65536, three)
    cases.join(whole, apart, three)
    cases.cut(2, 2, apart)
    cases.cut(1, 2, apart)
    cases.same(whole, three)
    for count in (8, 5, 4):
        cases.cut(0, 0, cases.put("without_the_last_%d" % count, cases.inputs[whole][:-count]))
    cases.cut(0, 0, cases.put("no_bytes", b""))


def text_cases(cases):
    """Texts of two bytes each."""
    accented = cases.put("two_texts", stream_with(("Utf8",), texts("é".encode(), "è".encode())))
    cases.cut(0, 2, accented)
    cases.cut(1, 1, accented)


def keyed(keys, *parts, mask=None):
    """Texts by keys of 32 bits."""
    return Keys(("Dictionary", "Int32", ("Utf8",), False), mask, list(keys), texts(*parts))


def dictionary_cases(cases):
    """Dictionaries that are cut, replaced between batches, with keys under nulls that name nothing, and one within another."""
    data_type = ("Dictionary", "Int32", ("Utf8",), False)
    first = cases.put("keys_0_1_0", stream_with(data_type, keyed((0, 1, 0), b"a", b"b")))
    second = cases.put("keys_1_0", stream_with(data_type, keyed((1, 0), b"a", b"b", b"a")))
    cases.cut(1, 2, first)
    cases.join(first, second)
    cases.join(second, first, second)
    replaced = stream_with(data_type, keyed((0, 1), b"a", b"b"), keyed((0, 1), b"b", b"a"), keyed((1,), b"b", b"a", mask=[True]))
    named = cases.put("dictionary_replaced", replaced)
    cases.cut(0, 5, named)
    cases.cut(1, 2, named)
    cases.same(named, cases.put("dictionary_kept", stream_with(data_type, keyed((0, 1, 1, 0, 0), b"a", b"b"))))
    cases.cut(0, 3, cases.put("keys_under_nulls", stream_with(data_type, keyed((-1, 0, 9), b"a", mask=[False, True, False]))))
    cases.cut(0, 0, cases.put("key_of_no_value", stream_with(data_type, keyed((0, 1), b"a"))))
    inner = ("Dictionary", "Int8", ("List", field_of(data_type)), False)
    nested = [
        Keys(inner, None, keys, Lists(inner[2], None, [0, 1, 3], keyed(below, b"a", b"b")))
        for keys, below in (([1, 0], (0, 1, 0)), ([0, 1], (1, 0, 1)), ([0], (1, 0, 1)))
    ]
    named = cases.put("dictionary_of_lists", stream_with(inner, *nested))
    cases.cut(0, 5, named)
    cases.cut(3, 2, named)
    cases.join(named, named)


def list_cases(cases):
    """Lists cut behind their first offset, and unions, whose children are cut where they are sparse."""
    data_type = ("List", field_of(("Int32",)))
    named = cases.put("lists", stream_with(data_type, Lists(data_type, None, [0, 2, 2, 3, 5], int32(1, 2, 3, 4, 5))))
    cases.cut(2, 2, named)
    for mode, places in (("Sparse", None), ("Dense", [3, 0, 1, 2])):
        fields = (field_of(("Int32",)), field_of(("Utf8",), b"y"))
        data_type = ("Union", fields, (4, 7), mode)
        column = Unions(data_type, [4, 7, 7, 4], places, (int32(1, 2, None, 4), texts(b"a", b"b", b"c", b"d")))
        named = cases.put("union_%s" % mode.lower(), stream_with(data_type, column))
        cases.cut(1, 2, named)
        cases.join(named, named)


def spoiled(content):
    """Bytes in which the one text is no UTF-8 any more."""
    assert content.count("é".encode()) == 1
    return content.replace("é".encode(), b"\xff\xff")


def pick_cases(cases):
    """Chosen columns in any order, and what is not chosen: a union before the column, and a text that is no text."""
    fields = field_of(("Int32",)), field_of(("Int32",), b"y")
    five = StoredTable(Schema(fields, ()), [[int32(*x), int32(*y)] for x, y in (((-1, 1), (1, -1)),) * 5])
    for named in (cases.put("x_and_y", written(five)), cases.put_file("x_and_y", written_file(five))):
        for columns, limit in (((1, 0), 3), ((0,), None), ((1,), 0), ((0, 1), 10), ((0, 1), 11), ((), None), ((), 2), ((2,), None), ((0, 2), 1)):
            cases.pick(columns, limit, named)
    for mode, places in (("Sparse", None), ("Dense", [0, 1])):
        union = ("Union", (field_of(("Int32",)),), None, mode)
        table = StoredTable(Schema((field_of(union), fields[0]), ()), [[Unions(union, [0, 0], places, (int32(5, 6),)), int32(7, None)]])
        for named in (cases.put("union_and_x_%s" % mode.lower(), written(table)), cases.put_file("union_and_x_%s" % mode.lower(), written_file(table))):
            cases.pick((1,), None, named)
            cases.pick((1, 0), 1, named)
    table = StoredTable(Schema((field_of(("Utf8",)), fields[1]), ()), [[texts("é".encode()), int32(1)], [texts(b"b"), int32(2)]])
    for named in (cases.put("no_text_and_y", spoiled(written(table))), cases.put_file("no_text_and_y", spoiled(written_file(table)))):
        cases.cut(0, 2, named)
        cases.pick((1,), None, named)
        cases.pick((0,), None, named)
        cases.pick((0,), 0, named)
    empty = StoredTable(Schema(fields[:1], ()), [[int32()], [int32(1, 2)], [int32()], [int32(3)]])
    named = cases.put_file("empty_between", written_file(empty))
    cases.cut(0, 3, named)
    cases.pick((0,), None, named)
    cases.pick((0,), 2, named)


def null_cases(cases):
    """Columns of nulls alone, as long as they may be: two fit 64 bits, three do not."""
    most = Nulls(("Null",), MOST_NULLS)
    two = cases.put("two_batches_of_nulls", stream_with(("Null",), most, most))
    cases.cut(0, 2**64 - 2, two)
    cases.cut(2**63 - 2, 2, two)
    cases.cut(2**64 - 2, 1, two)
    cases.join(two, two)
    cases.cut(0, 0, cases.put("three_batches_of_nulls", stream_with(("Null",), most, most, most)))


class Usual(TypedWriter):
    """A writer that lays metadata as usual ones do, and pads buffers to 8 bytes."""

    def __init__(self, random, fields):
        super().__init__(random, fields, 4, "little")
        self.lay, self.padding, self.tidy, self.marker_chance = usual, 8, True, 1


def usual_cases(cases):
    """Two columns as usual writers lay them, and the same rows as they are written here."""
    random = Random("usual")
    case = Usual(random, [field_of(("Int64",), b"id"), field_of(("Dictionary", "Int32", ("Utf8",), False), b"name")]).stream()
    laid = cases.put("usual_id_and_name", case.content)
    own = cases.put("usual_id_and_name_written", twin_of(case, random))
    cases.same(laid, own)
    cases.cut(0, len(case.table.rows), laid)
    cases.join(laid, own)


def limit_cases(cases):
    """Schemas at the limits of the format, and batches whose last buffers are missing."""
    wanted = ((deep, 2, True), (shared, 2, False), (unwritable, 21, False), (missing, 12, True))
    for make, count, may_be_read in wanted:
        found, attempt = 0, 0
        while found < count:
            attempt += 1
            case = make(Random("%s/%d" % (make.__name__, attempt)))
            is_read = case.table is not None
            if case.form != "stream" or not has_one_fault(case.content) or is_read and not may_be_read or len(case.content) > 9000:
                continue
            named = cases.put("%s_%d" % (make.__name__, found), case.content)
            cases.cut(0, len(case.table.rows) if is_read else 0, named)
            found += 1


# ---- words that state no command, and places that cannot be used

def usage_cases(cases):
    lines = """
        same
        same one_null_three.stream
        same one_null_three.stream one_null_three.stream one_null_three.stream
        join
        join output.stream
        join output.stream one_null_three.stream
        pick
        pick 0 - one_null_three.stream
        pick 0 - one_null_three.stream output.stream output.stream
        pick 0 - one_null_three.stream output.stream
        pick - - one_null_three.stream output.stream
        pick - 2 one_null_three.stream output.stream
        pick 1 - one_null_three.stream output.stream
        pick 1,1 - one_null_three.stream output.stream
        pick 0,00 - one_null_three.stream output.stream
        pick 00 002 one_null_three.stream output.stream
        pick 0, - one_null_three.stream output.stream
        pick ,0 - one_null_three.stream output.stream
        pick , - one_null_three.stream output.stream
        pick -1 - one_null_three.stream output.stream
        pick +0 - one_null_three.stream output.stream
        pick 0 +1 one_null_three.stream output.stream
        pick 0 -- one_null_three.stream output.stream
        pick 18446744073709551615 - one_null_three.stream output.stream
        pick 18446744073709551616 - one_null_three.stream output.stream
        pick 0 18446744073709551615 one_null_three.stream output.stream
        pick 0 18446744073709551616 one_null_three.stream output.stream
        pick 1,1 - missing.stream output.stream
        pick 0 - missing.stream output.stream
        pick 0 - key_of_no_value.stream output.stream
        pick 0 1 key_of_no_value.stream output.stream
        pick 0 - one_null_three.stream no_folder/output.stream
        pick 0 - no_fields.stream output.stream
        pick - - no_fields_but_batches.stream output.stream
        seal 1 missing.stream output.stream
        seal 0 one_null_three.stream output.stream
        seal 65537 one_null_three.stream output.stream
        seal 1 one_null_three.stream
        seal one_null_three.stream output.stream
        seal 1 no_fields.stream output.stream
        seal 1 key_of_no_value.stream output.stream
        seal 1 one_null_three.stream no_folder/output.stream
        same one_null_three.stream missing.stream
        same missing.stream key_of_no_value.stream
        same key_of_no_value.stream missing.stream
        same one_null_three.stream .
        same one_null_three.stream two_texts.stream
        same output.stream output.stream
        join output.stream one_null_three.stream missing.stream
        join output.stream key_of_no_value.stream missing.stream
        join output.stream one_null_three.stream two_texts.stream
        join output.stream one_null_three.stream one_null_three.stream key_of_no_value.stream
        join output.stream one_null_three.stream two_texts.stream key_of_no_value.stream
        join no_folder/output.stream one_null_three.stream x_in_one_batch.stream
        join . one_null_three.stream x_in_one_batch.stream
        join output.stream one_null_three.stream output.stream
        join output.stream no_fields.stream no_fields.stream
        join output.stream no_fields_but_batches.stream no_fields.stream
        join output.stream example.stream one_null_three.stream usual.stream
        same no_fields_but_batches.stream no_fields.stream
        same not_nullable.stream empty_between.stream
        same empty_between.stream usual.stream
        same usual.stream usual_version_4.stream
        same file_mark.stream example.stream
        same example.stream file_mark.stream
        cut 0 3 one_null_three.stream no_folder/output.stream
    """
    cases.commands += [line.strip() for line in lines.strip().splitlines()]


def command_cases():
    """The inputs by file name, and the commands to run over them."""
    cases = Cases()
    cases.inputs, cases.commands = file_cases()
    by_hand = integer_cases, text_cases, dictionary_cases, list_cases, null_cases, pick_cases, usual_cases, rule_cases, schema_cases, same_picks
    for put in by_hand + (limit_cases, usage_cases, typed_cases, typed_file_cases):
        put(cases)
    return cases.inputs, cases.commands
