#!/usr/bin/env python3
"""Compares the definitions of `specs/` with an independent reader and writer, on random inputs of every type.

    compare.py [--count N] [--seed S] [--form stream|file] [--case K] [--long] [--alone]

Half of the inputs are sound, as usual writers lay them, and half are damaged; one in twenty stands
at a limit of the format. It prints how many the definitions and the reader read alike and refused
alike, and how many bytes they lay alike. At the first disagreement the input is saved in bin/ and
the exit status is 1. With --case one input of a seed is made and shown. With --long a few inputs
with as many dictionaries as there may be, or one more, are compared, which takes a few minutes.
With --alone the definitions are left out: each sound input has to read as what it was made of.
"""

import argparse
import gc
import os
import sys
import time
from collections import Counter
from random import Random

sys.path += [os.path.join(os.path.dirname(os.path.dirname(os.path.abspath(__file__))), it) for it in ("reader", "writer")]

import antt_library
import arrow_reader
from arrow_cases import Writer
from arrow_damage import Damage
from arrow_metadata import NOT_IMPLEMENTED, UNFINISHED
from arrow_append import OldFile
from arrow_rows import OTHER_CELLS, RowComparison
from arrow_sealed import NotWritten, file_of, groups_of, is_of_type, schema_message, sealed, stream_of, why_not_sealable
from arrow_special import SMALL, long_cases
from arrow_stored import StoredColumns
from arrow_trees import (
    DICTIONARY_BATCH, RECORD_BATCH, SCHEMA, Spec, batch_tree, dictionary_tree, message_tree, numbered, schema_tree,
)
from arrow_types import Schema, Table, child_fields, holds_union
from arrow_windows import free_bytes
from defined_values import MOST_TRIED, Defined
from definitions import TOP, deeply
from laying import lay

FOLDER = os.path.join(TOP, "bin")
TOO_LARGE = "too large"
END_MARK = b"\xff\xff\xff\xff\0\0\0\0"


class Disagreement(Exception):
    """Two answers that differ."""


def made_case(seed, number, form):
    """An input by seed and number: the case, and whether it is damaged."""
    random = Random("%s/%s" % (seed, number))
    if number % 20 == 18:
        return random.choice(SMALL)(random), False
    damage = Damage(random) if number % 2 else None
    case = Writer(random, damage).case(form)
    if damage is None:
        return case, False
    return case._replace(content=damage.finish(case.content)), True


def answer_of(read, form, content):
    """A table, or why there is none."""
    try:
        return read(form, content)
    except arrow_reader.Refused as refused:
        return "%s: %s" % (refused.kind, refused)
    except (arrow_reader.TooLarge, antt_library.TooLarge, MemoryError):
        return TOO_LARGE


def defined_answer(defined, form, content):
    found = answer_of(defined.defined_table, form, content)
    return "refused by the definitions" if found is None else found


class Comparison:
    """Counts what agrees, and tells what does not."""

    def __init__(self, defined):
        self.defined, self.counts, self.reasons, self.types = defined, Counter(), Counter(), Counter()
        self.rows = RowComparison(defined, self.counts)

    def agree(self, why_not):
        """Stops at what two answers differ in."""
        if why_not is not None:
            raise Disagreement(why_not)

    def compare(self, case, is_damaged, random):
        read = answer_of(arrow_reader.read, case.form, case.content)
        self.compare_with_case(case, is_damaged, read)
        if self.defined is None:
            self.counts["inputs %s" % ("read" if isinstance(read, Table) else "refused")] += 1
            return
        defined = defined_answer(self.defined, case.form, case.content)
        if self.defined.has_feather_mark(case.form, case.content) != (case.form == "file" and case.content.startswith(b"FEA1")):
            raise Disagreement("the mark of a feather file is found where it isn't, or not where it is")
        if TOO_LARGE in (read, defined):
            self.counts["inputs too large to be compared"] += 1
        else:
            self.compare_answers(case, is_damaged, read, defined, random)
        if isinstance(read, Table):
            self.compare_laying(read)
            self.compare_choice(case, read, random)
            self.compare_windows(case, read, random)
            self.compare_seal(read, random)
            self.compare_writing(read, random)
            self.compare_stored(read, random)
            self.agree(self.rows.compare_table(read, random))
            if case.form == "file":
                self.compare_append(case, read, random)

    def compare_with_case(self, case, is_damaged, read):
        """A sound input reads as what it was made of, or is refused where it passes a limit."""
        if not is_damaged and isinstance(read, Table) != (case.table is not None):
            raise Disagreement("the reader gives %s" % (read,))
        if not is_damaged and case.table is not None and read != case.table:
            raise Disagreement("the reader does not give what was laid:\n%s\n%s" % (read, case.table))

    def compare_answers(self, case, is_damaged, read, defined, random):
        """What the reader and the definitions answer."""
        if isinstance(read, Table):
            if defined != read:
                raise Disagreement("the reader gives\n%s\nthe definitions give\n%s" % (read, defined))
            self.counts["inputs damaged, yet read alike" if is_damaged else "inputs sound, read alike"] += 1
            self.note_types(read.schema.fields)
            if case.form == "stream" and self.defined.defined_end(case.content):
                raise Disagreement("the input is read whole; the definitions say that it is cut off")
            self.compare_messages(case, read)
            self.compare_first_rows(case, read, random)
            return
        if isinstance(defined, Table):
            raise Disagreement("the reader refuses (%s)\nthe definitions give\n%s" % (read, defined))
        self.counts["inputs refused alike"] += 1
        self.reasons[read] += 1
        if read.startswith(UNFINISHED) and not self.defined.defined_end(case.content):
            raise Disagreement("the input is cut off within a message's beginning; the definitions say not")
        if read.startswith(UNFINISHED):
            self.compare_unfinished(case.content)
        if read.startswith(NOT_IMPLEMENTED):
            self.compare_cause(case, read)

    def compare_unfinished(self, content):
        """What stands before an early end reads as with an end mark there, or both refuse it."""
        ended = (answer_of(arrow_reader.read, "stream", content[: len(content) - left] + END_MARK) for left in range(4))
        read = next((table.rows for table in ended if isinstance(table, Table)), None)
        if self.defined.defined_rows_before_end(content) != read:
            raise Disagreement("what stands before the input's early end reads otherwise than the definitions say")
        self.counts["messages before an early end %s" % ("refused alike" if read is None else "read alike")] += 1

    def compare_cause(self, case, read):
        """What the reader has not implemented stands in the bytes, as the definitions find it."""
        defined, form, content = self.defined, case.form, case.content
        causes = {
            "a feather file": lambda: defined.has_feather_mark(form, content),
            "a float": lambda: defined.has_float(form, content),
            "a compressed batch": lambda: any(defined.has_compression(form, content, kind) for kind in (False, True)),
            "a dictionary's delta": lambda: defined.has_delta(form, content),
        }
        if not causes[read.split(": ", 1)[1]]():
            raise Disagreement("the reader refuses (%s), and the definitions do not find it" % read)
        self.counts["causes of refusals found alike"] += 1

    def compare_messages(self, case, read):
        """In what is read nothing is compressed and no dictionary adds to another."""
        defined, form, content = self.defined, case.form, case.content
        if form == "stream" or read.rows:
            if any(defined.has_compression(form, content, kind) for kind in (False, True)) or defined.has_delta(form, content):
                raise Disagreement("the input is read whole; the definitions find a compression or a delta")

    def compare_first_rows(self, case, read, random):
        """The first messages have the first rows, and all messages have all of them."""
        defined, form, content = self.defined, case.form, case.content
        count = defined.message_count(form, content)
        if count == MOST_TRIED:
            return
        some = random.randint(0, count)
        first, whole = (defined.defined_first_rows(form, content, n) for n in (some, count))
        if first is None or first != read.rows[: len(first)] or whole != read.rows:
            raise Disagreement("the first %d of %d messages have the rows\n%s\nof\n%s" % (some, count, first, whole))
        self.counts["first messages read alike"] += 1

    def compare_choice(self, case, table, random):
        """A choice of columns under a limit: the reader's, the definitions', and what it is of the whole table."""
        width = len(table.schema.fields)
        columns = random.sample(range(width), random.randint(0, width))
        limit = random.choice((None, 0, 1, 2, 5, 2**64 - 1))
        if self.defined.defined_choice(case.form, case.content, columns + [width], limit) is not None:
            raise Disagreement("a choice of a column that isn't there")
        read = answer_of(lambda form, content: arrow_reader.read(form, content, columns, limit), case.form, case.content)
        rows = [tuple(row[k] for k in columns) for row in table.rows[:limit]] if columns else []
        fields = tuple(table.schema.fields[k] for k in columns)
        if read != Table(Schema(fields, table.schema.metadata), rows):
            raise Disagreement("the reader's choice of %s under %s: %s" % (columns, limit, read))
        defined = self.defined.defined_choice(case.form, case.content, columns, limit)
        if defined != read:
            raise Disagreement("the choice of %s under %s: the reader gives\n%s\nthe definitions give\n%s" % (
                columns, limit, read, defined))
        if self.defined.defined_part(case.form, case.content, columns, limit) != read:
            raise Disagreement("the choice of %s under %s is not that of the whole table" % (columns, limit))
        self.counts["choices read alike"] += 1

    def compare_windows(self, case, table, random):
        """Bytes outside of the windows of a choice change no choice, under no limit; one inside may change it."""
        width = len(table.schema.fields)
        columns, limit = random.sample(range(width), random.randint(0, width)), random.choice((None, None, 0, 1, 2, 5))
        free, rooms = free_bytes(case.form, case.content)
        windows, inside = self.defined.defined_windows(case.form, case.content, columns), bytearray(len(case.content))
        if windows is None or len(windows) != len(rooms):
            raise Disagreement("windows of other messages: %s" % (windows,))
        for room, taken in zip(rooms, windows):
            for start, size in taken:
                if case.form == "stream" and not all(free[room + start : room + start + size]):
                    raise Disagreement("a window of the choice of %s with bytes that are no buffer's: %d, %d" % (columns, start, size))
                inside[room + start : room + start + size] = b"\1" * size
        before = self.defined.defined_choice(case.form, case.content, columns, limit)
        outside = bytes(random.randrange(256) if free[i] and not inside[i] else byte for i, byte in enumerate(case.content))
        if self.defined.defined_choice(case.form, outside, columns, limit) != before:
            raise Disagreement("bytes outside of its windows change the choice of %s under %s" % (columns, limit))
        self.counts["choices alike whatever stands outside of their windows"] += 1
        places = [i for i, is_inside in enumerate(inside) if is_inside]
        if places:
            other = bytearray(case.content)
            other[random.choice(places)] ^= 1 << random.randrange(8)
            is_alike = self.defined.defined_choice(case.form, bytes(other), columns, limit) == before
            self.counts["choices %s by a bit inside of their windows" % ("not changed" if is_alike else "changed")] += 1

    def compare_seal(self, table, random):
        """A seal as both lay it; it reads back, by the reader and by the definitions."""
        size, ours = random.choice((1, 2, 3, 4, 1, 2, 3, 4, 0, 65536, 65537)), None
        if table.rows and random.random() < 0.2:
            table = with_other_cell(table, random)
        elif table.rows and random.random() < 0.2:
            table = with_other_width(table, random)
        if not why_not_sealable(table.schema.fields):
            try:
                ours = sealed(table.schema, table.rows, size)
            except NotWritten:
                ours = None
        if self.defined.defined_seal(table.schema, table.rows, size) != ours:
            raise Disagreement("the seal in groups of %d is laid otherwise: %s" % (size, table))
        self.counts["seals %s" % ("refused alike" if ours is None else "laid alike")] += 1
        for read in (arrow_reader.read, self.defined.defined_table) if ours is not None else ():
            found = answer_of(read, "stream", ours)
            if found != table:
                raise Disagreement("what is sealed reads back as %s instead of %s" % (found, table))

    def note_types(self, fields):
        for field in fields:
            data_type = field.data_type
            while data_type[0] in ("Dictionary", "Extension"):
                self.types[data_type[0]] += 1
                data_type = data_type[2]
            self.types[data_type[0]] += 1
            self.note_types(child_fields(data_type))

    def compare_laying(self, table):
        """The schema's message, and the numbers of its dictionaries, as both lay them."""
        schema = table.schema
        specs = numbered(schema.fields)
        ours = schema_message(specs, schema.metadata)[0][8:]
        if self.defined.defined_schema_message(schema, specs) != ours or not self.defined.numbers_alike(schema, specs):
            raise Disagreement("the schema's message is laid otherwise: %s" % (schema,))
        self.counts["schemas laid alike"] += 1

    def compare_writing(self, table, random):
        """A stream and a file of the rows in groups, with ids that some dictionaries may share."""
        schema = table.schema
        unions = [holds_union(field.data_type) for field in schema.fields]
        if unions != [self.defined.has_union(field.data_type) for field in schema.fields]:
            raise Disagreement("unions stand in %s: %s" % (schema.fields, unions))
        if any(unions):
            return
        specs = numbered(schema.fields) if random.random() < 0.7 else renumbered(numbered(schema.fields), random)
        groups, is_fit = groups_of(table.rows, random.randint(1, 6)), True
        if random.random() < 0.1:
            return self.compare_misshaped(schema, specs, groups, random)
        if groups and random.random() < 0.2:
            place = random.randrange(len(groups))
            groups[place] = with_other_cell(Table(schema, groups[place]), random).rows
            is_fit = all(is_of_type(field.data_type, row[k]) for row in groups[place] for k, field in enumerate(schema.fields))
        for form, write in (("stream", stream_of), ("file", file_of)):
            try:
                ours = write(specs, schema.metadata, groups) if is_fit else None
            except NotWritten:
                ours = None
            if self.defined.defined_writing(form, schema, specs, groups) != ours:
                raise Disagreement("a %s is laid otherwise: %s %s" % (form, specs, groups))
            self.counts["%ss %s" % (form, "refused alike" if ours is None else "laid alike")] += 1
            self.compare_run(form, schema, specs, groups, ours, random)

    def compare_run(self, form, schema, specs, groups, ours, random):
        """A run of a writer's calls stands for what is written of the chunks that are not refused; the others leave nothing."""
        chunks, width = self.defined.slot_chunks(groups, len(schema.fields)), len(schema.fields)
        chunks.insert(random.randint(0, len(chunks)), self.defined.terms.plain("slot_columns", [[]] * (width + 1)))
        found = self.defined.defined_run(form, schema, specs, chunks)
        if found is None:
            raise Disagreement("a run of calls is refused at its start: %s" % (specs,))
        bars, messages = found
        taken = [chunk for chunk, bar in zip(chunks, bars) if bar is None]
        if ours is not None and bars.count(None) != len(groups) or "another_schema" not in bars:
            raise Disagreement("a run of calls of a %s is refused otherwise: %s" % (form, bars))
        written = self.defined.defined_written(form, schema, specs, taken)
        if written is None or not written.startswith((b"" if form == "stream" else b"ARROW1\0\0") + messages + END_MARK):
            raise Disagreement("a run of calls of a %s has other messages than what it writes" % form)
        self.counts["runs of calls alike"] += 1

    def compare_stored(self, table, random):
        """Stored columns of the rows, cut out of longer ones: the cut has the rows, and is written as a stream that reads as them."""
        if not table.rows or len(table.rows) > 50:
            return
        made, columns, offset = StoredColumns(random, self.defined.terms), [], random.randint(0, 2)
        for k, field in enumerate(table.schema.fields):
            slots = [row[k] for row in table.rows]
            around = [random.choice(slots) for _ in range(offset + random.randint(0, 2))]
            column = made.column(field.data_type, around[:offset] + slots + around[offset:])
            cut, are_sound, found = self.defined.defined_cut(column, offset, len(slots))
            if not are_sound or found != slots:
                raise Disagreement("a cut of %s has %s (sound: %s)" % (field, found, are_sound))
            columns.append(cut)
        self.counts["stored columns cut alike"] += len(columns)
        self.compare_big_endian(table, columns)
        self.compare_misfits(table, columns, random)
        content = self.defined.defined_stored_stream(table.schema, numbered(table.schema.fields), columns)
        read = None if content is None else answer_of(arrow_reader.read, "stream", content)
        if read != table:
            raise Disagreement("what stored columns are written as reads as %s instead of %s" % (read, table))
        self.counts["stored columns' streams read alike"] += 1

    def compare_misfits(self, table, columns, random):
        """Stored columns of another number, of another length, or in other places are not written, save where their types are the same."""
        schema, specs, made = table.schema, numbered(table.schema.fields), StoredColumns(random, self.defined.terms)
        place = random.randrange(len(columns))
        longer = made.column(schema.fields[place].data_type, [row[place] for row in table.rows[:1] + table.rows])
        others = {
            "a column less": columns[:place] + columns[place + 1 :],
            "a column more": columns + [columns[place]],
            "a longer column": columns[:place] + [longer] + columns[place + 1 :] if len(columns) > 1 else None,
            "another order": columns[1:] + columns[:1] if schema.fields[0].data_type != schema.fields[-1].data_type else None,
        }
        for form in ("stream", "file"):
            for name, other in others.items():
                if other is not None:
                    if self.defined.defined_written(form, schema, specs, [self.defined.stored_chunk(other)]) is not None:
                        raise Disagreement("a %s is written of %s: %s" % (form, name, schema))
                    self.counts["misfitting batches refused"] += 1

    def compare_append(self, case, table, random):
        """Rows that are appended to a file: the bytes as both lay them, and what is read of them."""
        old, content = OldFile(case.content), case.content
        if self.defined.defined_append_bar(old.is_little_endian, content) != old.bar():
            raise Disagreement("a file is barred from being appended to otherwise: %s" % old.bar())
        if old.bar() is not None and self.defined.defined_appended(content, []) is not None:
            raise Disagreement("something is appended to a file in spite of %s" % old.bar())
        if old.bar() is not None:
            self.counts["files barred alike: %s" % old.bar()] += 1
            return
        if not self.defined.is_base(content):
            raise Disagreement("a file's schema may not be written with its ids")
        count = random.randint(0, 2) if table.rows else 0
        groups = [[random.choice(table.rows) for _ in range(random.randint(1, 3))] for _ in range(count)]
        whole = all(answer_of(arrow_reader.read, "file", other) == table for other in old.with_other_tails())
        if not any(holds_union(field.data_type) for field in table.schema.fields):
            self.compare_appended_slots(old, table, groups, whole)
        made = StoredColumns(random, self.defined.terms, list(old.dictionaries().values()))
        chunks = [
            self.defined.stored_chunk([made.column(field.data_type, [row[k] for row in rows]) for k, field in enumerate(table.schema.fields)])
            for rows in groups
        ]
        found = self.defined.defined_appended(content, chunks)
        if found is None and not any(spec.number is not None for spec in all_specs(old.specs)):
            raise Disagreement("stored columns are not appended: %s" % (table.schema,))
        self.compare_joined(old, table, groups, found, whole)
        self.counts["stored columns %s to files" % ("not appended" if found is None else "appended")] += 1

    def compare_appended_slots(self, old, table, groups, whole):
        """Rows from their slots."""
        try:
            ours = old.appended(groups)
        except NotWritten:
            ours = None
        found = self.defined.defined_appended(old.content, self.defined.slot_chunks(groups, len(table.schema.fields)))
        if found != ours:
            raise Disagreement("rows are appended otherwise: %s" % (groups,))
        self.compare_joined(old, table, groups, found, whole)
        self.counts["files %s alike" % ("not appended to" if ours is None else "appended to")] += 1

    def compare_joined(self, old, table, groups, found, whole):
        """Where nothing of the file is read behind its last block, the new file reads as the old table joined with the rows."""
        if found is None or not whole:
            return
        if len(found) < len(old.content):
            raise Disagreement("a file to which rows were appended is shorter than before")
        joined = table._replace(rows=table.rows + [row for rows in groups for row in rows])
        for read in (arrow_reader.read, self.defined.defined_table):
            answer = answer_of(read, "file", found)
            if answer != joined:
                raise Disagreement("a file to which rows were appended reads as\n%s\ninstead of\n%s" % (answer, joined))
        self.counts["files appended to read as joined"] += 1

    def compare_big_endian(self, table, columns):
        """Stored columns in the other byte order: a stream that says so and has their buffers reads as the rows."""
        read = answer_of(arrow_reader.read, "stream", self.big_endian_stream(table, columns))
        if read != table:
            raise Disagreement("what stored columns are in big-endian bytes reads as %s instead of %s" % (read, table))
        self.counts["stored columns' big-endian streams read alike"] += 1

    def big_endian_stream(self, table, columns):
        """A big-endian stream of one batch of stored columns, their dictionaries before it."""
        specs, encoded = numbered(table.schema.fields), lambda column: self.defined.defined_stored_encoding(column, False)
        out = head_of(SCHEMA, schema_tree(specs, table.schema.metadata, "big"), 0)
        for number, values in dictionaries_of(specs, columns):
            nodes, buffers = encoded(values)
            places, body = placed(buffers)
            out += head_of(DICTIONARY_BATCH, dictionary_tree(number, batch_tree(nodes[0][0], nodes, places)), len(body)) + body
        parts = [encoded(column) for column in columns]
        nodes, buffers = ([thing for part in parts for thing in part[k]] for k in (0, 1))
        places, body = placed(buffers)
        return out + head_of(RECORD_BATCH, batch_tree(len(table.rows), nodes, places), len(body)) + body + END_MARK

    def compare_misshaped(self, schema, specs, groups, random):
        """Nothing is written under ids of another shape than the fields."""
        other = misshaped(specs, random)
        for form in ("stream", "file") if other != specs else ():
            if self.defined.defined_writing(form, schema, other, groups) is not None:
                raise Disagreement("a %s is written under ids of another shape: %s" % (form, other))
            self.counts["%ss refused alike" % form] += 1


def head_of(tag, header, body_length):
    """A message before its body."""
    metadata = lay(message_tree(tag, header, body_length))
    return b"\xff\xff\xff\xff" + len(metadata).to_bytes(4, "little") + metadata


def placed(buffers):
    """Where buffers stand that are laid one behind another, and their bytes."""
    places, body = [], b""
    for content in buffers:
        places.append((len(body), len(content)))
        body += content + bytes(-len(content) % 8)
    return places, body


def dictionaries_of(specs, columns):
    """The ids and the stored values of the dictionaries of columns, those within values before them."""
    for spec, column in zip(specs, columns):
        if column[0] == "dictionary":
            yield from dictionaries_of((spec._replace(number=None),), (column[4],))
            yield spec.number, column[4]
        elif column[0] in ("records", "unions"):
            yield from dictionaries_of(spec.children, children_of(column[4]))
        elif column[0] in ("lists", "fixed_lists"):
            yield from dictionaries_of(spec.children, (column[4],))


def children_of(columns):
    """The columns of a struct or a union."""
    while columns[0] == "column_then":
        yield columns[1]
        columns = columns[2]


def misshaped(specs, random):
    """Specs with one less, or with a dictionary's id left out, at some depth."""
    if not specs:
        return specs
    place = random.randrange(len(specs))
    spec = specs[place]
    if spec.children and random.random() < 0.6:
        spec = spec._replace(children=misshaped(spec.children, random))
    elif spec.number is not None and random.random() < 0.7:
        spec = spec._replace(number=None)
    else:
        return specs[:place] + specs[place + 1 :]
    return specs[:place] + (spec,) + specs[place + 1 :]


def all_specs(specs):
    """Specs, and those below them."""
    for spec in specs:
        yield spec
        yield from all_specs(spec.children)


def with_other_cell(table, random):
    """A table with another value in one place."""
    rows, at = list(table.rows), random.randrange(len(table.rows))
    row, place = list(rows[at]), random.randrange(len(rows[at]))
    row[place] = random.choice(OTHER_CELLS)
    rows[at] = tuple(row)
    return table._replace(rows=rows)


def with_other_width(table, random):
    """A table with a row that has a value less or more."""
    rows, at = list(table.rows), random.randrange(len(table.rows))
    rows[at] = rows[at][:-1] if random.random() < 0.5 else rows[at] + (None,)
    return table._replace(rows=rows)


def renumbered(specs, random):
    """Specs whose dictionaries have other ids, some of them the same."""
    return tuple(
        Spec(spec.field, None if spec.number is None else random.randint(-1, 2), renumbered(spec.children, random))
        for spec in specs
    )


def saved(case, seed, number):
    os.makedirs(FOLDER, exist_ok=True)
    path = os.path.join(FOLDER, "disagreement_%s_%d.%s" % (seed, number, case.form))
    with open(path, "wb") as out:
        out.write(case.content)
    return path


def report(comparison, count, seconds):
    print("%d inputs in %.1f s, %d a minute" % (count, seconds, 60 * count / seconds))
    for name, number in sorted(comparison.counts.items()):
        print("%8d %s" % (number, name))
    print("refused for: " + ", ".join("%s %d" % reason for reason in comparison.reasons.most_common()))
    print("fields read: " + ", ".join("%s %d" % kind for kind in sorted(comparison.types.items())))


def run(options):
    gc.set_threshold(200_000)
    comparison, start = Comparison(None if options.alone else Defined()), time.perf_counter()
    numbers = range(options.count) if options.case is None else [options.case]
    long = long_cases() if options.long else []
    if comparison.defined is not None:
        comparison.agree(comparison.rows.compare_full_dictionaries())
    for number in range(len(long)) if long else numbers:
        case, is_damaged = (long[number], False) if long else made_case(options.seed, number, options.form)
        try:
            comparison.compare(case, is_damaged, Random("%s/%s/choice" % (options.seed, number)))
        except Disagreement as disagreement:
            print("case %d of seed %s, %s: %s" % (number, options.seed, saved(case, options.seed, number), disagreement))
            return 1
        except Exception:
            print("case %d of seed %s: %s" % (number, options.seed, saved(case, options.seed, number)))
            raise
        if options.case is not None:
            print(answer_of(arrow_reader.read, case.form, case.content))
    report(comparison, len(long or numbers), time.perf_counter() - start)
    return 0


def main(words):
    parser = argparse.ArgumentParser(description=__doc__, formatter_class=argparse.RawDescriptionHelpFormatter)
    parser.add_argument("--count", type=int, default=2000)
    parser.add_argument("--seed", default="1")
    parser.add_argument("--form", choices=("stream", "file"))
    parser.add_argument("--case", type=int)
    parser.add_argument("--long", action="store_true")
    parser.add_argument("--alone", action="store_true")
    sys.exit(deeply(run, parser.parse_args(words)))


if __name__ == "__main__":
    main(sys.argv[1:])
