#!/usr/bin/env python3
"""The program `tables` in plain Python, over streams and files of every type that is no float.

    arrow_commands.py write DATA STDOUT     inputs and commands for `tables_files`, and what it must print
    arrow_commands.py check DATA STDOUT     that the first command would make what stands there
    arrow_commands.py run WORD..            what the program answers for a command over the files that it names

It is written from the public formats and the profile of this project, apart from the crates and from the definitions of `specs/`.
"""

import os
import sys

sys.path.append(os.path.join(os.path.dirname(os.path.dirname(os.path.abspath(__file__))), "reader"))

from arrow_columns import cut_batches, rows_of
from arrow_command_cases import OUTPUT, command_cases
from arrow_metadata import NOT_IMPLEMENTED, OUT_OF_SPEC, Refused, UNFINISHED
from arrow_sealed import MOST_BATCH_ROWS, NotWritten, sealed
from arrow_reader import NO_COLUMN
from arrow_stored_reading import MOST_ROWS, StoredTable, TOO_MANY_ROWS, read_stored, read_stored_file, row_count
from arrow_stored_writing import written
from arrow_types import child_fields, storage_of

DONE, DIFFERENT, FAILED, MISUSED = 0, 1, 2, 3
USAGE = "usage: tables seal|same|pick|cut|join"
BEFORE = b"before"
BYTES_A_LINE = 32
# What keeps a schema from being sealed, in the order in which it is told.
BARS = "map", "union", "ordered dictionary", "struct without fields"
TEXTS = {
    OUT_OF_SPEC: "ipc: out of specification", NOT_IMPLEMENTED: "ipc: not implemented", UNFINISHED: "unfinished stream",
    TOO_MANY_ROWS: TOO_MANY_ROWS, NO_COLUMN: NO_COLUMN,
}


class Failed(Exception):
    """Why a command wrote nothing, as it is told."""


def is_number(word):
    """Whether a word is one or more ASCII digits whose number fits 64 bits."""
    return word != "" and all(character in "0123456789" for character in word) and int(word) < 2**64


def is_place(name):
    """Whether something can be put under a name: there is one folder."""
    return name != "." and "/" not in name


def read_table(name, places, columns=None, limit=None):
    """The table of what stands under a name, or of chosen columns of its first rows."""
    content = places.get(name)
    if content is None:
        raise Failed("cannot read the input")
    read = read_stored_file if content.startswith(b"ARROW1") else read_stored
    try:
        return read(content, columns=columns, limit=limit)
    except Refused as refused:
        raise Failed(TEXTS[refused.kind]) from None


def put_table(table, name):
    """The stream of a table, where it can be put under a name."""
    try:
        content = written(table)
    except NotWritten:
        raise Failed("ipc: invalid argument") from None
    if not is_place(name):
        raise Failed("cannot write the output")
    return DONE, content


def bars_in(fields):
    """What keeps fields from being sealed, at any depth."""
    bars = set()
    for field in fields:
        data_type = storage_of(field.data_type)
        if data_type[0] == "Dictionary":
            bars |= {"ordered dictionary"} if data_type[3] else set()
            data_type = storage_of(data_type[2])
        bars |= {"map"} if data_type[0] == "Map" else {"union"} if data_type[0] == "Union" else set()
        bars |= {"struct without fields"} if data_type[0] == "Struct" and not data_type[1] else set()
        bars |= bars_in(child_fields(data_type))
    return bars


def seal(words, places):
    size, table = int(words[0]), read_table(words[1], places)
    bars = bars_in(table.schema.fields)
    for bar in BARS:
        if bar in bars:
            raise Failed("not sealable: " + bar)
    try:
        content = sealed(table.schema, rows_of(table.batches), size)
    except NotWritten:
        raise Failed("lower: overflow") from None
    if not is_place(words[2]):
        raise Failed("cannot write the output")
    return DONE, content


def columns_of(word):
    """The columns that a word names, or None: numbers with commas between them, each once, or a dash for none."""
    pieces = [] if word == "-" else word.split(",")
    columns = [int(piece) for piece in pieces if is_number(piece)]
    return columns if len(columns) == len(pieces) == len(set(columns)) else None


def pick(words, places):
    limit = None if words[1] == "-" else int(words[1])
    return put_table(read_table(words[2], places, columns_of(words[0]), limit), words[3])


def cut(words, places):
    offset, length, table = int(words[0]), int(words[1]), read_table(words[2], places)
    if offset + length > row_count(table):
        raise Failed("range outside the rows")
    return put_table(StoredTable(table.schema, cut_batches(table.batches, offset, length)), words[3])


def join(words, places):
    first, *others = [read_table(name, places) for name in words[1:]]
    for table in others:
        if table.schema != first.schema:
            raise Failed("schemas differ")
        first = StoredTable(first.schema, first.batches + table.batches)
        if row_count(first) > MOST_ROWS:
            raise Failed(TOO_MANY_ROWS)
    return put_table(first, words[0])


def same(words, places):
    a, b = [read_table(name, places) for name in words]
    return DONE if a.schema == b.schema and rows_of(a.batches) == rows_of(b.batches) else DIFFERENT, None


def command_of(words):
    """The command that words state, and what it is run with, or None."""
    name, rest = words[0] if words else None, words[1:]
    if name == "seal" and len(rest) == 3 and is_number(rest[0]) and 1 <= int(rest[0]) <= MOST_BATCH_ROWS:
        return seal
    if name == "pick" and len(rest) == 4 and columns_of(rest[0]) is not None and (rest[1] == "-" or is_number(rest[1])):
        return pick
    if name == "cut" and len(rest) == 4 and all(map(is_number, rest[:2])):
        return cut
    if name == "join" and len(rest) >= 3:
        return join
    return same if name == "same" and len(rest) == 2 else None


def run(words, places):
    """Status, line on standard error and output bytes of a command; `places` maps names to bytes."""
    command = command_of(words)
    if command is None:
        return MISUSED, USAGE, None
    try:
        status, content = command(words[1:], places)
    except Failed as failed:
        return FAILED, "tables: %s" % failed, None
    return status, None, content


# ---- the files of `tables_files`

def printed(line, inputs):
    """What `tables_files` prints for a command, before which it writes an output of its own."""
    status, text, content = run(line.split(), {**inputs, OUTPUT: BEFORE})
    rows = BEFORE if content is None else content
    out = ["$ tables " + line, "status %d" % status] + ([text] if text else [])
    return out + [rows[at : at + BYTES_A_LINE].hex() for at in range(0, len(rows), BYTES_A_LINE)]


def files_of_cases():
    """What stands in the folder of inputs, by name, and what is printed."""
    inputs, commands = command_cases()
    files = {**inputs, "commands": "".join(line + "\n" for line in commands).encode()}
    return files, "".join(text + "\n" for line in commands for text in printed(line, inputs)).encode()


def write(folder, expectation):
    files, text = files_of_cases()
    os.makedirs(folder, exist_ok=True)
    for name, content in files.items():
        with open(os.path.join(folder, name), "wb") as out:
            out.write(content)
    with open(expectation, "wb") as out:
        out.write(text)


def content_of(*path):
    with open(os.path.join(*path), "rb") as found:
        return found.read()


def check(folder, expectation):
    files, text = files_of_cases()
    if {name: content_of(folder, name) for name in os.listdir(folder)} != files:
        sys.exit("%s is not what arrow_commands.py makes" % folder)
    if content_of(expectation) != text:
        sys.exit("%s is not what arrow_commands.py makes" % expectation)


def answer(*words):
    """Runs a command over files, and shows its status and its line; nothing is written."""
    names = [word for word in words[1:] if os.path.isfile(word)]
    status, text, content = run(list(words), {name: content_of(name) for name in names})
    print("status %d%s%s" % (status, "" if text is None else ", " + text, "" if content is None else ", %d bytes" % len(content)))


def main(words):
    commands = {("write", 2): write, ("check", 2): check}
    command = commands.get((words[0], len(words) - 1)) if words else None
    command = answer if words[:1] == ["run"] else command
    if command is None:
        sys.exit(__doc__)
    command(*words[1:])


if __name__ == "__main__":
    main(sys.argv[1:])
