"""The end of the gate: starts `rt ci`, passes its output on as it comes, and watches the clock.

    gate.py [--minutes N] [--started SECONDS] [RT]     RT is the command in place of `rt`
    gate.py --selftest                                 a recorded output is counted and compared

Without --minutes all is run, and the last line is that of `rt ci`, 'N passed, M failed'. With it `rt ci` is ended
N minutes after the start (SECONDS since 1970, else now). What it had not said by then is skipped: it is named, and
the last line is 'N passed, M failed, K skipped'. N counts as `rt ci` does: packages proved with their tests, and edits
refused; K counts besides them the programs and tests that were not seen to run. The status is 0 where nothing failed.

Where something failed, the lines before the last say of each check that failed by itself what it said of that, and how much disk and memory were free
at the least: a machine that runs out of either refuses what is right.
"""
import argparse
import os
import re
import shutil
import signal
import subprocess
import sys
import tempfile
import threading
import time

# What a line of `rt ci` says of a check: its name, and whether all is well.
SAID = [
    (r"rt: (\w+) proved", "{}", True),
    (r"rt: (\w+) NOT PROVED.*", "{}", False),
    (r"rt: (\w+): its tests are proved", "{} (proof of its tests)", True),
    (r"rt: (\w+): its tests are NOT PROVED", "{} (proof of its tests)", False),
    (r"rt: must-fail (\S+)\.edit: refused, as it must be.*", "{} (edit)", True),
    (r"rt: must-fail (\S+)\.edit: (?:NOT REFUSED|BAD EDIT).*", "{} (edit)", False),
    (r"rt: crates/(\S+): BAD EDIT.*", "{} (edit)", False),
    (r"rt: (\w+): its tests passed", "{} (tests)", True),
    (r"rt: (\w+): its tests FAILED", "{} (tests)", False),
    (r"rt: (\w+) ran.*, and wrote what its file stdout has", "{} (run)", True),
    (r"rt: (\w+) was not run: .*", "{} (run)", False),
    (r"rt: (\w+)(?: \(built by .*?\))?: (?:the program|what the program wrote|the file args|the file status).*", "{} (run)", False),
]
SECONDS_TO_END = 30
SECONDS_BETWEEN_LOOKS = 10

# What a line says that tells why a check failed, and how many such lines are shown of a check and in all.
TELLS = re.compile(r"\berror\b|not proved|no proof|killed|for memory|No space|panicked|FAILED|rt fmt|could not|NOT ")
# A check that failed since another one did.
FOLLOWS = re.compile(r"rt: \w+ NOT PROVED: its library")
LINES_OF_EACH, LINES_IN_ALL, WIDEST = 3, 15, 160


def expected_checks(root):
    """Returns the names of all checks of the repository, in four groups: packages, proofs of tests, edits, runs."""
    packages, tests, edits, runs = [], [], [], []
    with open(f"{root}/crates.txt", encoding="utf-8") as lines:
        names = [line.split(":")[0].split()[0] for line in lines if ":" in line and not line.startswith("#")]
    for name in names:
        folder = f"{root}/crates/{name}"
        packages.append(name)
        if has_tests(folder):
            tests.append(f"{name} (proof of its tests)")
            runs.append(f"{name} (tests)")
        if os.path.isfile(f"{folder}/src/main.rt"):
            runs.append(f"{name} (run)")
        if os.path.isdir(f"{folder}/must-fail"):
            found = sorted(os.listdir(f"{folder}/must-fail"))
            edits += [f"{name}/{it[:-len('.edit')]} (edit)" for it in found if it.endswith(".edit")]
    return packages, tests, edits, runs


def has_tests(folder):
    """Returns whether a function of the package has the attribute of a test, as `rt` looks for it."""
    for at, _, files in os.walk(f"{folder}/src"):
        for file in files:
            with open(f"{at}/{file}", encoding="utf-8") as text:
                if file.endswith(".rt") and re.search(r"#\s*\[[^]]*\btest\b", text.read()):
                    return True
    return False


def take_note(line, seen):
    """Keeps in `seen` what the line says of a check. What failed once has failed."""
    for pattern, name, is_well in SAID:
        found = re.fullmatch(pattern, line.rstrip("\n"))
        if found:
            name = name.format(found[1])
            seen[name] = is_well and seen.get(name, True)


def summary(expected, seen):
    """Returns the lines that name what was skipped and what failed, with the line of counts last, and whether nothing failed."""
    packages, tests, edits, _ = expected
    well = {name for name, is_well in seen.items() if is_well}
    failed = [name for name in seen if name not in well]
    not_tested = {name.split()[0] for name in tests if name not in well}
    passed = [name for name in packages if name in well and name not in not_tested] + [name for name in edits if name in well]
    lines, skipped = [], 0
    for title, names in zip(["not seen proved", "not seen proved", "not seen refused", "not seen to run"], expected):
        names = [name for name in names if name not in seen]
        skipped += len(names)
        if names:
            lines.append(f"skipped, {title}: {', '.join(names)}")
    if failed:
        lines.append(f"failed: {', '.join(failed)}")
    return [*lines, f"{len(passed)} passed, {len(failed)} failed, {skipped} skipped"], not failed


def reason(line, section):
    """Returns the lines of a failed check's output that tell why it failed, the last of which said so."""
    told = [it for it in section if TELLS.search(it)] or section
    return [it.strip()[:WIDEST] for it in [*told[:LINES_OF_EACH - 1], line]]


class Reasons:
    """Why checks failed, and how much was free at the least while they ran."""

    def __init__(self):
        self.section, self.lines, self.disk, self.memory = [], [], None, None

    def take(self, line):
        """Keeps what a line of `rt ci` says."""
        if line.startswith("== "):
            self.section = []
            return
        if any(re.fullmatch(pattern, line.rstrip("\n")) and not is_well for pattern, _, is_well in SAID):
            if not FOLLOWS.match(line):
                self.lines += reason(line, self.section)
            self.section = []
            return
        self.section.append(line)

    def look(self):
        """Notes how much disk and memory are free, in megabytes."""
        disk = shutil.disk_usage(".").free >> 20
        self.disk = disk if self.disk is None else min(self.disk, disk)
        with open("/proc/meminfo", encoding="utf-8") as file:
            memory = int(re.search(r"MemAvailable:\s+(\d+)", file.read())[1]) >> 10
        self.memory = memory if self.memory is None else min(self.memory, memory)

    def told(self):
        """Returns the lines to show where something failed."""
        if not self.lines:
            return []
        free = [] if self.disk is None else [f"free at the least: {self.disk:,} MB of disk, {self.memory:,} MB of memory"]
        return [*self.lines[:LINES_IN_ALL], *free]


def below(process):
    """Returns the ids of the processes that this one started, and that those started."""
    parents = {}
    for it in os.listdir("/proc"):
        try:
            with open(f"/proc/{it}/stat", encoding="utf-8", errors="replace") as file:
                parents[int(it)] = int(file.read().rpartition(")")[2].split()[1])
        except (OSError, ValueError):
            pass
    found = [process]
    for it in found:
        found += [child for child, parent in parents.items() if parent == it]
    return found[1:]


def kill(processes):
    for it in processes:
        try:
            os.kill(it, signal.SIGKILL)
        except OSError:
            pass


def end(process):
    """Ends `rt ci` and all that it started. It is interrupted first, so that it puts back what it had set aside."""
    until = time.monotonic() + SECONDS_TO_END
    if process.poll() is None:
        process.send_signal(signal.SIGINT)
    while process.poll() is None and time.monotonic() < until:
        kill(below(process.pid))
        time.sleep(0.2)
    if process.poll() is None:
        kill([*below(process.pid), process.pid])


def watch(command, seconds, shows=True):
    """Runs the command for so many seconds at most (None: to its end). Returns what it said, why what failed did, and its status, None where time was
    over."""
    seen, over, reasons, ended = {}, threading.Event(), Reasons(), threading.Event()
    room = tempfile.mkdtemp(prefix="gate-")
    os.chmod(room, 0o711)
    how = {"stdin": subprocess.DEVNULL, "stdout": subprocess.PIPE, "stderr": subprocess.STDOUT, "text": True, "errors": "replace"}
    process = subprocess.Popen(command, env={**os.environ, "TMPDIR": room}, start_new_session=True, **how)

    def stop():
        over.set()
        end(process)

    def look():
        while not ended.wait(SECONDS_BETWEEN_LOOKS):
            reasons.look()

    timer = threading.Timer(seconds if seconds is not None else 0, stop)
    if seconds is not None:
        timer.start()
    reasons.look()
    threading.Thread(target=look, daemon=True).start()
    try:
        for line in process.stdout:
            # what is said once time is over comes of the end itself
            if not over.is_set():
                if shows:
                    print(line, end="", flush=True)
                take_note(line, seen)
                reasons.take(line)
        status = process.wait()
    finally:
        ended.set()
        timer.cancel()
        end(process)
        shutil.rmtree(room, ignore_errors=True)
    return seen, reasons.told(), None if over.is_set() else status


def main():
    parser = argparse.ArgumentParser()
    parser.add_argument("--minutes", type=float)
    parser.add_argument("--started", type=float, default=time.time())
    parser.add_argument("--selftest", action="store_true")
    parser.add_argument("rt", nargs="*", default=["rt"])
    given = parser.parse_args()
    if given.selftest:
        return selftest()
    signal.signal(signal.SIGTERM, lambda *_: sys.exit(1))
    expected = expected_checks(os.getcwd())
    seconds = None if given.minutes is None else max(0, given.started + 60 * given.minutes - time.time())
    seen, why, status = watch([*given.rt, "ci"], seconds)
    if status is not None:
        print(*why, sep="\n", end="\n" if why else "", flush=True)
        return 1 if status else 0
    lines, is_well = summary(expected, seen)
    print(f"The {given.minutes:g} minutes are over.", *why, *lines, sep="\n", flush=True)
    return 0 if is_well else 1


# Of the output of `rt ci` on two packages, with a test, a program and two edits.
RECORDED = """\
== aa
empty contracts: 0 found; tried 1 of 1 functions
rt: aa proved
== aa: its tests
rt: aa: its tests are proved
rt: aa: trying its must-fail edits (2)
== bb
rt: bb proved
rt: must-fail aa/forgets_one.edit: refused, as it must be: note: src/lib.rt:8:1: it is not proved that what the function ensures holds
rt: must-fail aa/thrice.edit: refused, as it must be: note: src/lib.rt:8:1: it is not proved that what the function ensures holds
test twice_three_is_six ... ok
rt: aa: its tests passed
rt: bb ran, and wrote what its file stdout has
rt: bb ran (built by Rattle's own compiler), and wrote what its file stdout has
"""
# Failures: what stands in the recorded output, what stands in place of it, and the name of the check that failed.
WRONG = [
    ("aa proved", "aa NOT PROVED", "aa"),
    ("bb proved", "bb NOT PROVED: its library aa failed", "bb"),
    ("its tests are proved", "its tests are NOT PROVED", "aa (proof of its tests)"),
    ("thrice.edit: refused, as it must be:", "thrice.edit: NOT REFUSED: the crate is still proved with this edit", "aa/thrice (edit)"),
    ("thrice.edit: refused, as it must be:", "thrice.edit: BAD EDIT: there is no file src/lib.rt", "aa/thrice (edit)"),
    ("its tests passed", "its tests FAILED", "aa (tests)"),
    ("bb ran, and", "bb: the program ended with status 2, and not 0; it said:", "bb (run)"),
    ("bb ran (built by Rattle's own compiler), and", "bb (built by Rattle's own compiler; the LLVM build passed): the program", "bb (run)"),
]


def selftest():
    """Counts the recorded output whole, cut short and with each failure, and has a command ended that would take a minute."""
    tests, edits, runs = ["aa (proof of its tests)"], ["aa/forgets_one (edit)", "aa/thrice (edit)"], ["aa (tests)", "bb (run)"]
    expected = ["aa", "bb"], tests, edits, runs

    def summary_of(text):
        seen = {}
        for line in text.splitlines(True):
            take_note(line, seen)
        return summary(expected, seen)

    assert summary_of(RECORDED) == (["4 passed, 0 failed, 0 skipped"], True)
    lines, is_well = summary_of(RECORDED.partition("rt: aa: its tests are")[0])
    assert is_well and lines[-1] == "0 passed, 0 failed, 6 skipped" and lines[0] == "skipped, not seen proved: bb", lines
    lines, is_well = summary_of(RECORDED.partition("rt: must-fail aa/thrice")[0])
    assert is_well and lines[-1] == "3 passed, 0 failed, 3 skipped" and lines[1] == "skipped, not seen to run: aa (tests), bb (run)", lines
    for old, new, name in WRONG:
        assert old in RECORDED
        lines, is_well = summary_of(RECORDED.replace(old, new))
        assert not is_well and lines[-2] == f"failed: {name}" and ", 1 failed, 0 skipped" in lines[-1], (new, lines)
    begun = time.monotonic()
    seen, _, status = watch(["sh", "-c", "echo rt: aa proved; sleep 60; echo rt: bb proved"], 0.2, shows=False)
    assert seen == {"aa": True} and status is None and time.monotonic() - begun < 30, (seen, status)
    assert watch(["sh", "-c", "echo rt: bb proved; exit 3"], None, shows=False) == ({"bb": True}, [], 3)
    said = ["== aa", "all", "error: none", "rt: aa NOT PROVED", "== bb", "rt: bb NOT PROVED: its library aa failed"]
    _, why, _ = watch(["printf", "%s\\n", *said], None, shows=False)
    assert why[:-1] == ["error: none", "rt: aa NOT PROVED"] and why[-1].startswith("free at the least: "), why
    print("gate.py: the recorded output is counted as it should be")
    return 0


if __name__ == "__main__":
    sys.exit(main())
