#!/usr/bin/env python3
"""Measures proved programs against plain Rust of the same jobs, which is built by `rustc -O` from the files beside this one.

    bench.py cut PROGRAM FOLDER        `tables cut` on nearly all of a large stream, against plain_cut.rs and `cp` of the same file
    bench.py tables PROGRAM FOLDER     `tables cut`, `same` and `seal` on the large inputs of `large.py`, against plain_tables.rs, as a table, and on
                                       many columns, fields and batches of one row, as another one
    bench.py memory PROGRAM FOLDER     the jobs of `benches memory`, against plain_memory.rs, as a table
    bench.py flat PROGRAM FOLDER       the jobs of `benches flat`, against plain_flat.rs, as a table
    bench.py nested PROGRAM FOLDER     the jobs of `benches nested`, against plain_nested.rs, as a table
    bench.py builders PROGRAM FOLDER   the jobs of `benches builders`, against plain_builders.rs, as a table
    bench.py metadata PROGRAM FOLDER   the jobs of `benches_format metadata` at three sizes, against plain_metadata.rs and a copy of its bytes
    bench.py columns PROGRAM FOLDER    the jobs of `benches_format columns`, against plain_columns.rs and copies of the same bytes, as a table

PROGRAM is the one that is named: `tables`, `benches`, the jobs of arrays and of what is below them, or `benches_format`, those of the format.
What is made stands in FOLDER; streams are taken away at the end. Times of the program are the best of five rounds, those of the jobs
the best of 21. Outputs and checksums of both programs have to be the same.
"""

import filecmp
import os
import subprocess
import sys
import time

TOOLS = os.path.dirname(os.path.abspath(__file__))
ROUNDS = 5

# What `rt run` builds for.
CPU = "x86-64-v2"

# The kinds of large inputs, the commands on them with the megabytes they are measured on, and inputs that grow otherwise than in bytes.
KINDS = ["numbers", "texts", "lists", "keys", "records"]
COMMANDS = [("cut", 250), ("same", 250), ("seal", 25)]
COUNTED = [("columns", 4000), ("columns", 40000), ("fields", 4000), ("fields", 40000), ("batches", 100000), ("batches", 1000000),
           ("dictionaries", 1000), ("dictionaries", 10000)]

# How many fields the schemas of the metadata's jobs have.
FIELDS = [1000, 10000, 100000]

# How often the programs of jobs run in turn; each run is the best of seven rounds.
TURNS = 3

# The jobs of the memory layer: name, what is done, and the binary logarithm of the size.
MEMORY_JOBS = [
    ("and_aligned", "`and` of two bitmaps", 28),
    ("and_offsets", "`and` of bitmaps at offsets 1 and 3", 28),
    ("count_zeros", "`count_zeros` at offset 3", 28),
    ("extend_from_slice", "`extend_from_slice` at offset 3, behind 5 bits", 28),
    ("slices_runs", "`SlicesIterator` over runs of 1 to 256 bits", 28),
    ("slices_noise", "`SlicesIterator` over noise", 28),
    ("from_iter", "`Bitmap::from_iter` of booleans", 26),
    ("offsets", "`Offsets::<i32>::try_from_iter` of lengths", 24),
    ("zip_validity", "sum of 32-bit values by `ZipValidity`", 26),
]

# The same of flat arrays. The numbers have 32 bits, and one in eight is null.
FLAT_JOBS = [
    ("push_numbers", "numbers by `try_push`", 24),
    ("from_iter", "numbers by `from_iter`", 24),
    ("sum", "sum of numbers by `iter`", 24),
    ("cut", "clones cut to 16 numbers by `sliced`", 22),
    ("copy", "numbers by `try_extend_from_self`", 24),
    ("push_texts", "short texts by `push`", 23),
    ("from_slice", "short texts by `from_slice`", 23),
    ("try_new", "short texts by `try_new`, against `from_utf8` of all bytes at once", 23),
]

# The same of nested arrays. The struct has 50 columns of numbers, one in eight null, and 50 of short texts; each cut takes its first row away.
NESTED_JOBS = [
    ("cut", "a struct of 100 columns, by `slice` in place", 20),
    ("numbers", "`equal` of numbers", 24),
    ("slots", "`equal` of numbers, one in eight null", 24),
    ("texts", "`equal` of short texts", 22),
    ("lists", "`equal` of lists at other places of their items", 22),
    ("dictionaries", "`equal` of dictionaries with values in another order", 22),
]

# The same of builders. A row has a number, a short text, one of a thousand texts and a list of up to three numbers.
BUILDERS_JOBS = [
    ("cells", "rows of cells by `try_push_scalar`", 22),
    ("copied", "rows of slots of arrays by `try_push_from`", 22),
    ("typed", "rows by the calls of a builder of each type", 22),
]

# The same of columns, files and streams. The table has a hundred columns of numbers, 2^26 in all, in batches of 65,536 rows.
COLUMNS_JOBS = [
    ("read_numbers", "`read` of numbers, one in eight null", 24),
    ("read_texts", "`read` of short texts", 23),
    ("read_lists", "`read` of lists of up to three numbers", 22),
    ("read_keys", "`read` of keys of a thousand texts", 22),
    ("read_structs", "`read` of structs of ten numbers", 20),
    ("write_numbers", "`write` of the numbers", 24),
    ("write_texts", "`write` of the texts", 23),
    ("write_lists", "`write` of the lists", 22),
    ("write_keys", "`write` of the keys", 22),
    ("write_structs", "`write` of the structs", 20),
    ("read_choice", "one of 100 columns by `FileReader`", 26),
    ("write_file", "a file by `FileWriter`", 26),
    ("append_file", "a row by `append_file` to a copy of a file", 26),
    ("write_stream", "a stream by `StreamWriter`", 26),
    ("read_stream", "a stream by `StreamReader`", 26),
]


def measured(command, output):
    """Wall seconds and peak bytes of a command that has to succeed, and makes its output anew."""
    if os.path.exists(output):
        os.remove(output)
    os.sync()
    start = time.perf_counter()
    process = subprocess.Popen(command)
    _, status, usage = os.wait4(process.pid, 0)
    seconds = time.perf_counter() - start
    process.returncode = os.waitstatus_to_exitcode(status)
    if process.returncode != 0:
        sys.exit("%s: status %d" % (" ".join(command), process.returncode))
    return seconds, usage.ru_maxrss * 1024


def best(command, output):
    """The least seconds of a few rounds, and the most bytes."""
    rounds = [measured(command, output) for _ in range(ROUNDS)]
    return min(seconds for seconds, _ in rounds), max(peak for _, peak in rounds)


def built(folder, name):
    """A plain Rust program, built anew."""
    plain = os.path.join(folder, name)
    command = ["rustc", "--edition", "2021", "-O", "-C", "target-cpu=" + CPU, "-o", plain, os.path.join(TOOLS, name + ".rs")]
    subprocess.run(command, check=True)
    return plain


def measure(program, plain, folder, batches):
    """Seconds of the program, of cp and of plain Rust, and peak over size, on a stream of so many batches."""
    given, output = os.path.join(folder, "bench.stream"), os.path.join(folder, "bench.out")
    make = [sys.executable, "-B", os.path.join(os.path.dirname(TOOLS), "writer", "streams.py"), "bench", given, str(batches)]
    rows = int(subprocess.run(make, check=True, stdout=subprocess.PIPE).stdout)
    size = os.path.getsize(given)
    copying, _ = best(["cp", given, output], output)
    words = ["1", str(rows - 2), given]
    same = os.path.join(folder, "bench.plain")
    cutting, peak = best([program, "cut", *words, output], output)
    plainly, _ = best([plain, *words, same], same)
    if not filecmp.cmp(output, same, shallow=False):
        sys.exit("plain Rust makes another output")
    for made in (given, output, same):
        os.remove(made)
    print(
        "%6.1f MB: tables %.3f s, plain Rust %.3f s, ratio %.2f; cp %.3f s, ratio %.1f; peak memory %.2f times the input"
        % (size / 1e6, cutting, plainly, cutting / plainly, copying, cutting / copying, peak / size)
    )
    return cutting


def measure_cut(program, folder):
    plain = built(folder, "plain_cut")
    tenth = measure(program, plain, folder, 46)
    whole = measure(program, plain, folder, 460)
    print("ten times the input takes %.1f times as long" % (whole / tenth))


def made_large(kind, size, name):
    """Makes a large input. Returns its rows."""
    make = [sys.executable, "-B", os.path.join(TOOLS, "large.py"), kind, str(size), name]
    return int(subprocess.run(make, check=True, stdout=subprocess.PIPE).stdout)


def words_of(command, rows, given, output):
    """The words behind the name of a command, without the kind that plain Rust takes."""
    if command == "cut":
        return ["1", str(max(rows - 2, 0)), given, output]
    return {"seal": ["65536", given, output], "same": [given, given], "join": [output, given, given]}[command]


def measure_command(program, plain, folder, kind, command, size):
    """A row of the table: seconds of the program and of plain Rust, whose outputs are the same, and the peak memory over the size."""
    given, output, same = (os.path.join(folder, "bench." + it) for it in ("stream", "out", "plain"))
    rows = made_large(kind, size, given)
    ours, peak = best([program, command, *words_of(command, rows, given, output)], output)
    plainly, _ = best([plain, command, kind, *words_of(command, rows, given, same)], same)
    if command != "same" and not filecmp.cmp(output, same, shallow=False):
        sys.exit("%s of %s: plain Rust makes another output" % (command, kind))
    row = (command, kind, size, ours, plainly, ours / plainly, peak / os.path.getsize(given))
    print("| `%s` of %s | %d | %.3f | %.3f | %.2f | %.2f |" % row, flush=True)
    for made in (given, output, same):
        if os.path.exists(made):
            os.remove(made)


def measure_counted(program, folder, kind, count):
    given, output = os.path.join(folder, "bench.stream"), os.path.join(folder, "bench.out")
    rows = made_large(kind, count, given)
    commands = ("join", "same", "seal")
    least = [best([program, it, *words_of(it, rows, given, output)], output) for it in commands]
    size = os.path.getsize(given)
    peaks = max(peak for _, peak in least) / size
    seconds = " | ".join("%.3f" % it for it, _ in least)
    print("| %d %s | %.1f | %s | %.2f |" % (count, kind, size / 1e6, seconds, peaks), flush=True)
    os.remove(given)
    if os.path.exists(output):
        os.remove(output)


def measure_tables(program, folder):
    plain = built(folder, "plain_tables")
    print("| command | MB | ours, s | plain Rust, s | ratio | peak over input |")
    print("|---|---|---|---|---|---|")
    for command, size in COMMANDS:
        for kind in KINDS:
            measure_command(program, plain, folder, kind, command, size)
    print("\n| input | MB | `join`, s | `same`, s | `seal`, s | peak over input |")
    print("|---|---|---|---|---|---|")
    for kind, count in COUNTED:
        measure_counted(program, folder, kind, count)


def answered(command, job, size):
    """The words that a program answers of a job behind its name."""
    return subprocess.run([*command, job, str(size)], check=True, stdout=subprocess.PIPE, text=True).stdout.split()[1:]


def timed(command, job, size):
    """Nanoseconds and checksum of a job."""
    nanoseconds, checksum = answered(command, job, size)
    return int(nanoseconds), checksum


def measure_job(command, plain, job, size):
    """Nanoseconds of the program and of plain Rust, which run in turn."""
    turns = [(timed(command, job, size), timed([plain], job, size)) for _ in range(TURNS)]
    for ours, plainly in turns:
        if ours[1] != plainly[1]:
            sys.exit("%s: plain Rust makes another result" % job)
    return min(ours for (ours, _), _ in turns), min(plainly for _, (plainly, _) in turns)


def measure_jobs(program, folder, group, jobs):
    plain = built(folder, "plain_" + group)
    print("| job | size | ours, ms | plain Rust, ms | ratio |")
    print("|---|---|---|---|---|")
    for job, what, power in jobs:
        ours, plainly = measure_job([program, group], plain, job, 1 << power)
        print("| %s | 2^%d | %.1f | %.1f | %.2f |" % (what, power, ours / 1e6, plainly / 1e6, ours / plainly), flush=True)


def measure_memory(program, folder):
    measure_jobs(program, folder, "memory", MEMORY_JOBS)


def measure_flat(program, folder):
    measure_jobs(program, folder, "flat", FLAT_JOBS)


def measure_nested(program, folder):
    measure_jobs(program, folder, "nested", NESTED_JOBS)


def measure_builders(program, folder):
    measure_jobs(program, folder, "builders", BUILDERS_JOBS)


def measure_columns(program, folder):
    plain = built(folder, "plain_columns")
    print("| job | size | ours, ms | plain Rust, ms | ratio | copy, ms | to the copy |")
    print("|---|---|---|---|---|---|---|")
    for job, what, power in COLUMNS_JOBS:
        turns = [(answered([program, "columns"], job, 1 << power), answered([plain], job, 1 << power)) for _ in range(TURNS)]
        if any(ours[1] != plainly[1] for ours, plainly in turns):
            sys.exit("%s: plain Rust makes another result" % job)
        ours = min(int(it[0]) for it, _ in turns) / 1e6
        plainly, copy = (min(int(it[k]) for _, it in turns) / 1e6 for k in (0, 2))
        row = (what, power, ours, plainly, ours / plainly, copy, ours / copy)
        print("| %s | 2^%d | %.2f | %.2f | %.2f | %.2f | %.2f |" % row, flush=True)


def measure_metadata(program, folder):
    plain = built(folder, "plain_metadata")
    least = {}
    print("| fields | metadata, kB | job | ours, ms | plain Rust, ms | ratio | to a copy |")
    print("|---|---|---|---|---|---|---|")
    for fields in FIELDS:
        copy, kilobytes = min(timed([plain], "copy", fields) for _ in range(TURNS))
        for job in ("read", "write"):
            ours, plainly = measure_job([program, "metadata"], plain, job, fields)
            least[job, fields] = ours
            row = (fields, int(kilobytes) / 1e3, job, ours / 1e6, plainly / 1e6, ours / plainly, ours / copy)
            print("| %d | %.0f | %s | %.3f | %.3f | %.2f | %.0f |" % row, flush=True)
    few, many = FIELDS[0], FIELDS[-1]
    for job in ("read", "write"):
        print("%s: %.1f times as long for %d times the fields" % (job, least[job, many] / least[job, few], many // few))


if __name__ == "__main__":
    measures = {
        "cut": measure_cut,
        "tables": measure_tables,
        "memory": measure_memory,
        "flat": measure_flat,
        "nested": measure_nested,
        "builders": measure_builders,
        "metadata": measure_metadata,
        "columns": measure_columns,
    }
    if len(sys.argv) != 4 or sys.argv[1] not in measures:
        sys.exit(__doc__)
    measures[sys.argv[1]](sys.argv[2], sys.argv[3])
