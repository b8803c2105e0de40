#!/usr/bin/env python3
"""Makes Arrow IPC streams for tests, samples and measurements, and shows them.

    streams.py inputs FOLDER STDOUT     inputs and commands for `tables_files`, and what it must print
    streams.py samples FOLDER           the small streams of `make demo`
    streams.py constants                the stream of the tests of `tables`, as an array of bytes
    streams.py bench FILE BATCHES       batches of 65,536 rows of two columns, one value in eight missing
    streams.py show FILE                the rows of a stream of Int32 columns
    streams.py check FOLDER STDOUT      that the first command would make what stands there
"""

import os
import sys
import tempfile

sys.path.append(os.path.join(os.path.dirname(os.path.dirname(os.path.abspath(__file__))), "reader"))

from cases import EXAMPLE, file_cases
from laying import END, V4, batch_message, field, schema_message, stream, usual
from reading import Refused, read, run


def printed(line, inputs):
    """What `tables_files` prints for a command, before which it writes an output of its own."""
    before = b"before"
    status, text, content = run(line.split(), {**inputs, "output.stream": before})
    rows = before if content is None else content
    out = ["$ tables " + line, "status %d" % status] + ([text] if text else [])
    return out + [rows[at : at + 32].hex() for at in range(0, len(rows), 32)]


def write(folder, name, content):
    os.makedirs(folder or ".", exist_ok=True)
    with open(os.path.join(folder, name), "wb") as out:
        out.write(content)


def write_inputs(folder, expectation):
    inputs, commands = file_cases()
    for name, content in inputs.items():
        write(folder, name, content)
    write(folder, "commands", "".join(line + "\n" for line in commands).encode())
    lines = [text + "\n" for line in commands for text in printed(line, inputs)]
    write(os.path.dirname(expectation), os.path.basename(expectation), "".join(lines).encode())


def files_below(folder):
    return {name: open(os.path.join(folder, name), "rb").read() for name in os.listdir(folder)}


def check(folder, expectation):
    with tempfile.TemporaryDirectory() as made:
        write_inputs(os.path.join(made, "data"), os.path.join(made, "stdout"))
        if files_below(os.path.join(made, "data")) != files_below(folder):
            sys.exit("%s is not what streams.py makes" % folder)
        if open(os.path.join(made, "stdout"), "rb").read() != open(expectation, "rb").read():
            sys.exit("%s is not what streams.py makes" % expectation)


def write_samples(folder):
    write(folder, "example.stream", EXAMPLE)
    days = list(range(20, 30))
    steps = [None if day % 3 == 1 else 860 + 7 * day for day in days]
    batches = [[days[:5], steps[:5]], [days[5:], steps[5:]]]
    write(folder, "steps.stream", stream([b"day", b"steps"], batches))
    write(folder, "usual.stream", stream([b"day", b"steps"], batches, usual, 8, V4, False))


def print_constants():
    """The stream of the tests of `tables`, as the text of a module."""
    print("// A stream laid by `streams.py constants`.")
    print("\n// A nullable column x with the rows 7 and null.\npub const EXAMPLE: [u8; %d] = [" % len(EXAMPLE))
    for at in range(0, len(EXAMPLE), 16):
        print("    " + " ".join("%d," % byte for byte in EXAMPLE[at : at + 16]))
    print("];")


def write_bench(path, batches):
    rows = 65536
    numbers = [None if row % 8 == 5 else row * 40503 % 2**31 for row in range(rows)]
    batch = batch_message([numbers, numbers[::-1]])
    with open(path, "wb") as out:
        out.write(schema_message([field(b"x"), field(b"y")]))
        for _ in range(batches):
            out.write(batch)
        out.write(END)
    print(rows * batches)


def show(path, name=None):
    content = open(path, "rb").read()
    try:
        fields, batches = read(content)
    except Refused as refused:
        sys.exit("%s: %s" % (path, refused))
    print("%s: %d bytes, columns %s" % (name or path, len(content), " ".join(name.decode() for name, _ in fields)))
    for index, columns in enumerate(batches):
        for row in zip(*columns):
            cells = ["null" if value is None else str(value) for value in row]
            print("  batch %d: %s" % (index, " ".join(cells)))


def main(words):
    commands = {
        ("inputs", 2): write_inputs,
        ("samples", 1): write_samples,
        ("constants", 0): print_constants,
        ("bench", 2): lambda path, batches: write_bench(path, int(batches)),
        ("show", 1): show,
        ("check", 2): check,
    }
    command = commands.get((words[0], len(words) - 1)) if words else None
    if command is None:
        sys.exit(__doc__)
    command(*words[1:])


if __name__ == "__main__":
    main(sys.argv[1:])
