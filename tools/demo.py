#!/usr/bin/env python3
"""Runs `tables` on the samples, shows what it makes of them, and compares that with what independent Python code expects.

    demo.py try [RT]      by `rt try`, which compiles the program with run-time checks and proves nothing
    demo.py run PROGRAM   the proved program, as `make program` builds it
"""

import os
import re
import subprocess
import sys
import tempfile

sys.path += [os.path.join(os.path.dirname(os.path.abspath(__file__)), it) for it in ("reader", "writer")]

from reading import run
from streams import show, write

PROGRAM = "crates/tables_program"

# Each job: its name, the range of rows, and the stream that is cut.
JOBS = [("days", 3, 4, "steps"), ("all", 0, 2, "example"), ("null", 1, 1, "example"), ("outside", 8, 5, "usual")]


def content_of(file):
    with open(file, "rb") as it:
        return it.read()


def expected(offset, length, sample):
    """The status, the line on standard error and the bytes of OUT that the independent code answers; no bytes where it refuses."""
    status, line, content = run(["cut", str(offset), str(length), "IN", "OUT"], {"IN": content_of("samples/%s.stream" % sample)})
    return status, line, content or b""


def try_jobs(rt):
    """Runs all jobs by one `rt try`, with OUT on standard output. Returns whether each ended as expected."""
    with tempfile.TemporaryDirectory() as cases:
        for name, offset, length, sample in JOBS:
            write(cases, name, content_of("samples/%s.stream" % sample))
            write(cases, name + ".args", ("cut\n%d\n%d\n{}\n/dev/stdout\n" % (offset, length)).encode())
            write(cases, name + ".stdout", expected(offset, length, sample)[2])
        command = rt + ["try", "--cases", cases]
        ran = subprocess.run(command, cwd=PROGRAM, stdout=subprocess.PIPE, stderr=subprocess.STDOUT)
    said = ran.stdout.decode(errors="replace")
    found = re.findall(r"(?m)^case=(\w+) run=ended status=(\d+) .*output=expected proved=no$", said)
    if dict(found) != {name: str(expected(*job)[0]) for name, *job in JOBS}:
        print(said)
        return False
    return True


def run_jobs(program):
    """Runs the jobs one by one. Returns whether each ended as expected, with OUT left out where it was refused."""
    is_well = True
    for _, offset, length, sample in JOBS:
        status, line, content = expected(offset, length, sample)
        with tempfile.TemporaryDirectory() as folder:
            out = folder + "/out.stream"
            words = [program, "cut", str(offset), str(length), "samples/%s.stream" % sample, out]
            ran = subprocess.run(words, stderr=subprocess.PIPE, text=True)
            written = content_of(out) if os.path.exists(out) else b""
            if (ran.returncode, ran.stderr.strip(), written) != (status, line or "", content):
                print("%s: status %d, %d bytes; it said: %s" % (" ".join(words), ran.returncode, len(written), ran.stderr))
                is_well = False
    return is_well


def show_jobs(shows_line):
    """Shows each sample and what its cut holds, or that it was refused, with the line that was compared."""
    for _, offset, length, sample in JOBS:
        status, line, content = expected(offset, length, sample)
        print("\n$ tables cut %d %d samples/%s.stream OUT     status %d" % (offset, length, sample, status))
        show("samples/%s.stream" % sample)
        if status:
            print("refused" + (": " + line if shows_line else ""))
            continue
        with tempfile.TemporaryDirectory() as folder:
            write(folder, "OUT", content)
            show(folder + "/OUT", "OUT")


def main(words):
    if words[:1] == ["try"]:
        print("rt try: the program as it stands, compiled with run-time checks, and not proved (make program proves it)", flush=True)
        is_well = try_jobs(words[1:] or ["rt"])
    elif words[:1] == ["run"] and len(words) == 2:
        is_well = run_jobs(words[1])
    else:
        sys.exit(__doc__)
    if not is_well:
        sys.exit("demo.py: the program did something else than the independent Python code expects")
    show_jobs(words[0] == "run")
    print("\nEach status and the bytes of each OUT are what the independent Python code expects.")
    if words[0] == "try":
        print("Nothing was proved.")


if __name__ == "__main__":
    main(sys.argv[1:])
