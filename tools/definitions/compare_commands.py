#!/usr/bin/env python3
"""Compares what `arrow_commands.py` reads, seals, picks, cuts, joins, compares and writes with the definitions of `specs/`.

    compare_commands.py [--count N]       over the first N inputs and all commands over these, or over all of them
    compare_commands.py --random N        over random streams of any schema, sound and damaged, each of them sealed, picked, cut and joined

Of each input the rows or the refusal are compared with `table_of`, and its columns have to be sound. Of each command that writes, the
batches are compared with `cut_batches`, and the bytes with `written_stream` of the stored columns under the default ids, or with `sealed`; what is
picked is compared with `choice_of`.
"""

import argparse
import os
import sys
import time
from collections import Counter
from random import Random

sys.path += [os.path.join(os.path.dirname(os.path.dirname(os.path.abspath(__file__))), it) for it in ("reader", "writer", "definitions")]

from antt_library import called, same
from arrow_columns import FixedLists, Flat, Keys, Lists, Nulls, Records, Strings, Unions, rows_of
from arrow_command_cases import MOST_NULLS, command_cases
from arrow_commands import DONE, columns_of, command_of, cut, pick, run, seal
from arrow_metadata import NOT_IMPLEMENTED, Refused, UNFINISHED
from arrow_stored_reading import MOST_ROWS, TOO_MANY_ROWS, features_in_file, has_one_fault, read_stored, read_stored_file, row_count
from arrow_trees import numbered
from arrow_types import KINDS, Table, TEXTS, kind_of, storage_of
from compare import made_case
from defined_values import Defined
from definitions import deeply

BATCHES = "tables_chunks"
MOST_COMPARED = 100_000


class Disagreement(Exception):
    """Two answers that differ."""


class StoredTerms:
    """Turns stored columns into those of the definitions."""

    def __init__(self, terms):
        self.terms, self.plain = terms, terms.plain

    def mask(self, column):
        return None if column.mask is None else (column.mask,)

    def columns(self, children):
        out = self.plain("no_column")
        for child in reversed(children):
            out = self.plain("column_then", self.column(child), out)
        return out

    def column(self, column):
        whole = self.terms.data_type(column.data_type)
        if isinstance(column, Nulls):
            return self.plain("nulls", whole, column.count)
        if isinstance(column, (Flat, Strings)):
            return self.plain("flat", whole, self.mask(column), self.stored(column))
        if isinstance(column, Lists):
            return self.plain("lists", whole, self.mask(column), column.offsets, self.column(column.child))
        if isinstance(column, FixedLists):
            return self.plain("fixed_lists", whole, self.mask(column), column.size, self.column(column.child))
        if isinstance(column, Records):
            return self.plain("records", whole, self.mask(column), column.count, self.columns(column.children))
        if isinstance(column, Unions):
            places = None if column.places is None else (column.places,)
            return self.plain("unions", whole, column.ids, places, self.columns(column.children))
        return self.plain("dictionary", whole, self.mask(column), column.keys, self.column(column.values))

    def stored(self, column):
        data_type = storage_of(column.data_type)
        kind = kind_of(data_type)
        if isinstance(column, Strings):
            return self.plain("texts" if data_type[0] in TEXTS else "byte_strings", column.offsets, list(column.content))
        if data_type[0] == "Boolean":
            return self.plain("bits", column.values)
        if data_type[0] == "FixedSizeBinary":
            return self.plain("fixed_bytes", data_type[1], list(b"".join(column.values)))
        if len(KINDS[kind]) == 1:
            return self.plain("numbers", self.plain(kind), [value[0] for value in column.values])
        return self.plain("pairs" if len(KINDS[kind]) == 2 else "triples", self.plain(kind), column.values)

    def batches(self, batches):
        return [[self.column(column) for column in batch] for batch in batches]


def form_of(content):
    return "file" if content.startswith(b"ARROW1") else "stream"


def read_input(content):
    return (read_stored_file if form_of(content) == "file" else read_stored)(content)


class Comparison:
    """Counts what agrees, and tells what does not."""

    def __init__(self, inputs):
        self.defined, self.counts, self.inputs = Defined(), Counter(), inputs
        self.terms, find = StoredTerms(self.defined.terms), self.defined.definitions.named
        self.cut_batches, self.stored_rows, self.is_batch = (find(BATCHES, name) for name in ("cut_batches", "stored_rows", "is_batch"))

    def agree(self, holds, name, why, *parts):
        if not holds:
            raise Disagreement("%s: %s\n%s" % (name, why, "\n".join(map(str, parts))))

    # ---- inputs

    def compare_input(self, name, content):
        """The rows or the refusal of an input, and its stored columns."""
        if "batches_of_nulls" in name:
            return self.compare_long(name, content)
        form = form_of(content)
        try:
            found = read_input(content)
        except Refused as refused:
            return self.compare_refusal(name, content, refused)
        defined = self.defined.defined_table(form, content)
        table = Table(found.schema, rows_of(found.batches))
        self.agree(defined == table, name, "the definitions give other rows", defined, table)
        terms = self.terms.batches(found.batches)
        self.agree(all(called(self.is_batch, batch) for batch in terms), name, "its columns are not sound")
        self.counts["%ss read alike" % form] += 1

    def compare_refusal(self, name, content, refused):
        """The definitions refuse an input too, and find why where they tell a reason apart."""
        self.agree(self.defined.defined_table(form_of(content), content) is None, name, "the definitions read it", refused)
        if form_of(content) == "file":
            return self.compare_refused_file(name, content, refused)
        if not has_one_fault(content, refused.kind == NOT_IMPLEMENTED):
            self.counts["inputs refused alike for one of several faults"] += 1
            return
        is_early = self.defined.defined_rows_before_end(content) is not None if self.defined.defined_end(content) else False
        self.agree(is_early == (refused.kind == UNFINISHED), name, "it ends early, or not", refused)
        self.agree(self.has_feature("stream", content) == (refused.kind == NOT_IMPLEMENTED), name, "a feature is found, or not", refused)
        self.counts["inputs refused alike: %s" % refused.kind] += 1

    def compare_refused_file(self, name, content, refused):
        """The definitions find what isn't implemented in a file exactly where it is refused for that, if it has one fault."""
        is_feature = refused.kind == NOT_IMPLEMENTED
        if features_in_file(content) != is_feature:
            self.counts["files refused alike for one of several faults"] += 1
            return
        self.agree(self.has_feature("file", content) == is_feature, name, "a feature is found in a file, or not", refused)
        self.counts["files refused alike: %s" % refused.kind] += 1

    def has_feature(self, form, content):
        """Whether the definitions find a float, a compression, or a dictionary that adds to an earlier one."""
        found = self.defined.has_float(form, content) or self.defined.has_delta(form, content)
        return bool(found or any(self.defined.has_compression(form, content, kind) for kind in (False, True)))

    def compare_long(self, name, content):
        """Batches of nulls alone, which no list holds: their number is compared by hand."""
        try:
            rows = row_count(read_stored(content))
        except Refused as refused:
            return self.agree(refused.kind == TOO_MANY_ROWS and 3 * MOST_NULLS > MOST_ROWS, name, "it is refused otherwise", refused)
        self.agree(rows == 2 * MOST_NULLS, name, "it has other rows", rows)

    # ---- commands

    def compare_command(self, line):
        """What a command writes, or whether tables are the same."""
        words = line.split()
        command, (status, text, _) = command_of(words), run(words, self.inputs)
        if text == "tables: cannot write the output":
            return
        names = [] if command is None else words[3:4] if command is cut else words[2:] if words[0] == "join" else words[1:]
        names = words[2:3] if command is seal else names
        if command is pick:
            return self.compare_pick(line, run(words, self.inputs), words)
        tables = list(map(self.table, names))
        if None in tables or not tables:
            return
        if words[0] == "same":
            return self.compare_same(line, status, names)
        if command is seal:
            return self.compare_seal(line, run(words, self.inputs)[2], tables[0], int(words[1]))
        if status != DONE:
            return
        batches = [batch for table in tables for batch in self.terms.batches(table.batches)]
        if command is cut:
            batches = called(self.cut_batches, int(words[1]), int(words[2]), batches)
        self.compare_written(line, run(words, self.inputs)[2], tables[0].schema, batches)

    def table(self, name):
        try:
            return read_input(self.inputs[name]) if name in self.inputs else None
        except Refused:
            return None

    def compare_same(self, line, status, names):
        a, b = (self.defined.defined_table(form_of(self.inputs[name]), self.inputs[name]) for name in names)
        self.agree((a == b) == (status == DONE), line, "the definitions compare otherwise", a, b)
        self.counts["tables compared alike"] += 1

    def compare_pick(self, line, answer, words):
        """The choice of columns of the first rows, or that there is none; also of what is not read as a whole."""
        content = self.inputs.get(words[3])
        if content is None or "batches_of_nulls" in words[3]:
            return
        limit = None if words[2] == "-" else int(words[2])
        defined = self.defined.defined_choice(form_of(content), content, columns_of(words[1]), limit)
        if answer[2] is None:
            self.agree(defined is None, line, "the definitions pick something", defined)
            self.counts["picks refused alike"] += 1
            return
        found = read_stored(answer[2])
        table = Table(found.schema, rows_of(found.batches))
        self.agree(defined == table, line, "the definitions pick other rows", defined, table)
        self.agree(all(row_count(found._replace(batches=[batch])) for batch in found.batches), line, "a batch without rows is kept")
        self.counts["picks alike"] += 1

    def compare_seal(self, line, content, table, size):
        """The seal of a table, or that it has none."""
        if row_count(table) > MOST_COMPARED:
            return
        defined = self.defined.defined_seal(table.schema, rows_of(table.batches), size)
        self.agree(defined == content, line, "the definitions seal otherwise", defined and defined.hex(), content and content.hex())
        self.counts["tables %s alike" % ("not sealed" if content is None else "sealed")] += 1

    def compare_written(self, line, content, schema, batches):
        """The bytes of stored batches, and that they read as the rows."""
        chunks = [self.defined.stored_chunk(batch) for batch in batches]
        defined = self.defined.defined_written("stream", schema, numbered(schema.fields), chunks)
        self.agree(defined == content, line, "the definitions write other bytes", defined and defined.hex(), content.hex())
        found = read_stored(content)
        if row_count(found) <= MOST_COMPARED:
            rows = called(self.stored_rows, self.terms.batches(found.batches))
            self.agree(same(rows, called(self.stored_rows, batches)), line, "what is written reads as other rows")
        self.counts["streams of %s written alike" % line.split()[0]] += 1


def compare_inputs(count):
    """The first inputs of the program's cases, and the commands over these."""
    inputs, commands = command_cases()
    chosen = dict(list(inputs.items())[:count])
    comparison = Comparison(inputs)
    for name, content in chosen.items():
        comparison.compare_input(name, content)
    for line in commands:
        if all(word in chosen for word in line.split() if word in inputs):
            comparison.compare_command(line)
    return comparison


def compare_random(count):
    """Random streams, each of them cut at a place and joined with itself."""
    comparison = Comparison({})
    for number in range(count):
        random, name = Random("commands/%d" % number), "random_%d" % number
        comparison.inputs[name] = made_case("commands", number, "stream")[0].content
        compare_one(comparison, name, random)
        del comparison.inputs[name]
    return comparison


def is_small(column):
    """Whether a column's slots may be made, at every depth."""
    below = (column.values,) if isinstance(column, Keys) else column.below()
    return column.length() <= MOST_COMPARED and all(map(is_small, below))


def compare_one(comparison, name, random):
    """One random stream."""
    table = comparison.table(name)
    if table is not None and not all(is_small(column) for batch in table.batches for column in batch):
        comparison.counts["inputs too large to be compared"] += 1
        return
    comparison.compare_input(name, comparison.inputs[name])
    if table is not None:
        start = random.randint(0, row_count(table))
        comparison.compare_command("cut %d %d %s output" % (start, random.randint(0, row_count(table) - start), name))
        comparison.compare_command("join output %s %s" % (name, name))
        comparison.compare_command("seal %d %s output" % (random.randint(1, 1 + row_count(table)), name))
    width = 3 if table is None else len(table.schema.fields)
    columns = ",".join(map(str, random.sample(range(width), random.randint(0, width)))) or "-"
    comparison.compare_command("pick %s %s %s output" % (columns, random.choice(("-", "0", "1", "2", "5")), name))


def compare(options):
    """Compares, and shows how many agree."""
    start = time.perf_counter()
    comparison = compare_inputs(options.count) if options.random is None else compare_random(options.random)
    for name, number in sorted(comparison.counts.items()):
        print("%6d %s" % (number, name))
    print("%.1f s" % (time.perf_counter() - start))


def main(words):
    parser = argparse.ArgumentParser(description=__doc__, formatter_class=argparse.RawDescriptionHelpFormatter)
    parser.add_argument("--count", type=int)
    parser.add_argument("--random", type=int)
    try:
        deeply(compare, parser.parse_args(words))
    except Disagreement as disagreement:
        sys.exit(str(disagreement))


if __name__ == "__main__":
    main(sys.argv[1:])
