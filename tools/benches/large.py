#!/usr/bin/env python3
"""Makes large inputs of one kind for measurements: a stream, or with `--file` a file, of about so many megabytes.

    large.py [--file] KIND MEGABYTES FILE

Batches have 65,536 rows, all the same; but `columns` is one batch of one row in many columns, `fields`
the same in a struct of many fields, `dictionaries` the same in columns with a dictionary each, and `batches` many batches of one row.
Prints how many rows there are. One slot in eight is null in `numbers`, and none elsewhere but for one in sixteen of `records`.
"""

import os
import sys

HERE = os.path.dirname(os.path.dirname(os.path.abspath(__file__)))
sys.path += [os.path.join(HERE, it) for it in ("reader", "writer")]

from arrow_sealed import DICTIONARY_BATCH, END, RECORD_BATCH, file_behind, messages_of, schema_message
from arrow_trees import numbered
from arrow_types import Field

ROWS = 65536


def field(name, data_type):
    return Field(name, data_type, True, ())


def number(value, kind="Int32"):
    return ("number", kind, value)


def text(row):
    return ("text", b"abcdefghijklmnopqrst"[row % 5 : row % 5 + row * 7 % 16])


def numbers():
    made = [None if row % 8 == 5 else number(row * 40503 % 2**31) for row in range(ROWS)]
    return [field(b"x", ("Int32",)), field(b"y", ("Int32",))], list(zip(made, reversed(made)))


def texts():
    return [field(b"t", ("Utf8",))], [(text(row),) for row in range(ROWS)]


def lists():
    item = field(b"item", ("Int32",))
    return [field(b"l", ("List", item))], [(("items", tuple(map(number, range(row, row + row % 7)))),) for row in range(ROWS)]


def keys():
    words = [("text", b"word-%06d" % (place * 7919 % 1000)) for place in range(1000)]
    return [field(b"k", ("Dictionary", "Int32", ("Utf8",), False))], [(words[row * 31 % 1000],) for row in range(ROWS)]


def records():
    fields = tuple(field(b"f%d" % place, ("Int32",) if place % 2 else ("Int64",)) for place in range(10))
    kinds = ["Int32" if place % 2 else "Int64" for place in range(10)]
    parts = lambda row: tuple(None if (row + place) % 16 == 3 else number(row * place, kinds[place]) for place in range(10))
    return [field(b"r", ("Struct", fields))], [(("fields", parts(row)),) for row in range(ROWS)]


KINDS = {"numbers": numbers, "texts": texts, "lists": lists, "keys": keys, "records": records}


def make(kind, size, out, is_file):
    """Writes the input to `out`, and returns its rows. `size` is in bytes, or counts columns or batches."""
    if kind == "columns":
        fields, rows, times = [field(b"c%d" % place, ("Int32",)) for place in range(size)], [tuple(map(number, range(size)))], 1
    elif kind == "fields":
        made = tuple(field(b"f%d" % place, ("Int32",)) for place in range(size))
        fields, rows, times = [field(b"r", ("Struct", made))], [(("fields", tuple(map(number, range(size)))),)], 1
    elif kind == "dictionaries":
        fields = [field(b"k%d" % place, ("Dictionary", "Int32", ("Utf8",), False)) for place in range(size)]
        rows, times = [tuple(text(place) for place in range(size))], 1
    elif kind == "batches":
        fields, rows, times = [field(b"x", ("Int32",)), field(b"t", ("Utf8",))], [(number(7), text(11))], size
    elif kind in KINDS:
        fields, rows = KINDS[kind]()
        times = None
    else:
        sys.exit(__doc__)
    specs = numbered(fields)
    *before, (_, head, body) = messages_of(specs, [rows])
    times = times or max(1, round(size / len(head + body)))
    start = (b"ARROW1\0\0" if is_file else b"") + schema_message(specs, ())[0]
    if is_file:
        messages = [*before, *[(RECORD_BATCH, head, body)] * times]
        out.write(file_behind(bytearray(start), specs, (), {DICTIONARY_BATCH: [], RECORD_BATCH: []}, messages))
        return len(rows) * times
    out.write(start + b"".join(a + b for _, a, b in before))
    for _ in range(times):
        out.write(head + body)
    out.write(END)
    return len(rows) * times


def main(words):
    is_file = words[:1] == ["--file"]
    words = words[is_file:]
    if len(words) != 3:
        sys.exit(__doc__)
    counts = words[0] in ("columns", "fields", "dictionaries", "batches")
    with open(words[2], "wb") as out:
        print(make(words[0], int(words[1]) if counts else round(float(words[1]) * 1e6), out, is_file))


if __name__ == "__main__":
    main(sys.argv[1:])
