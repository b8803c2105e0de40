#!/usr/bin/env python3
"""Prints the table of crates of docs/GATE.md from the sources, in the order of the layers and of crates.txt.

    crates_table.py            the table
    crates_table.py write      puts it into docs/GATE.md, between its two marks

A crate's functions are those that are written in `src/`, also in traits, tests left out (the prover counts more: derived ones, and
those of macros); its tests are the functions that have the attribute; its edits the files of `must-fail/`; its lines those of `src/`.
"""

import os
import re
import sys

LAYERS = ["columnar_memory", "flat_arrays", "nested_arrays", "ipc_format", "tables"]
PAGE = "docs/GATE.md"
MARKS = "<!-- made by tools/crates_table.py write -->\n", "<!-- end of what it makes -->\n"
TEST = re.compile(r"#\s*\[[^]]*\btest\b[^]]*\]\s*(?:pub )?(?:const )?fn \w+")
FUNCTION = re.compile(r"(?m)^[ \t]*(?:pub(?:\([^)]*\))? +)?(?:const +)?(?:unsafe +)?fn +\w+")


def names_of(file):
    """The crates that crates.txt names, in its order."""
    with open(file, encoding="utf-8") as lines:
        return [line.partition(":")[0].split()[0] for line in lines if ":" in line and not line.startswith("#")]


def layer_of(name):
    return next((layer for layer in LAYERS if name == layer or name.startswith(layer + "_")), "beside the layers")


def counts_of(name):
    """Functions, tests, edits and lines of a crate."""
    functions = tests = lines = 0
    for at, _, files in os.walk("crates/%s/src" % name):
        for file in files:
            if file.endswith(".rt"):
                with open(os.path.join(at, file), encoding="utf-8") as it:
                    text = it.read()
                lines += text.count("\n")
                own = len(TEST.findall(text))
                tests += own
                functions += len(FUNCTION.findall(text)) - own
    folder = "crates/%s/must-fail" % name
    edits = len([it for it in os.listdir(folder) if it.endswith(".edit")]) if os.path.isdir(folder) else 0
    return functions, tests, edits, lines


def table():
    """The lines of the table: a row a crate, below a row of sums for each layer, and the sums of all."""
    names = names_of("crates.txt")
    rows, sums = ["| crate | functions | tests | edits | lines |", "|---|---|---|---|---|"], []

    def row(title, counts):
        return "| %s | %s |" % (title, " | ".join(str(it or "") for it in counts))

    for layer in [*LAYERS, "beside the layers"]:
        counts = {name: counts_of(name) for name in names if layer_of(name) == layer}
        if counts:
            sums.append([sum(it) for it in zip(*counts.values())])
            rows.append(row("**%s**, %d crates" % (layer, len(counts)), sums[-1]))
            rows += [row("`%s`" % name, it) for name, it in counts.items()]
    rows.append(row("**all**, %d crates" % len(names), [sum(it) for it in zip(*sums)]))
    return "".join(line + "\n" for line in rows)


def write_page():
    with open(PAGE, encoding="utf-8") as it:
        text = it.read()
    before, _, rest = text.partition(MARKS[0])
    _, _, after = rest.partition(MARKS[1])
    with open(PAGE, "w", encoding="utf-8") as it:
        it.write(before + MARKS[0] + "\n" + table() + "\n" + MARKS[1] + after)


if __name__ == "__main__":
    if sys.argv[1:] == ["write"]:
        write_page()
    elif not sys.argv[1:]:
        print(table(), end="")
    else:
        sys.exit(__doc__)
