#!/usr/bin/env python3
"""Tries wrong bodies that are no part of the gate: each must be refused.

usage: try.py PACKAGE..     tries those of the packages in a copy of the repository, by `rt must-fail`, which proves what is below a package first
       try.py --apply       says which wrong bodies, of here and of the gate, no longer apply to the sources, and proves nothing

tools/wrong_bodies/PACKAGE/NAME.edit changes the body of a function of that package as an edit of must-fail/ does: lines 'file: PATH', then 'old: TEXT'
and 'new: TEXT' in turn, and each old text stands once in the file.
"""
import glob
import os
import shutil
import subprocess
import sys
import tempfile

HERE = os.path.dirname(os.path.abspath(__file__))
ROOT = os.path.dirname(os.path.dirname(HERE))


def applies(edit, package):
    """Whether each old text of the edit stands once in its file, with those before it replaced."""
    texts, path, old, changed = {}, None, None, False
    with open(edit, encoding="utf-8") as lines:
        for line in lines.read().split("\n"):
            if line.startswith("file: "):
                path = f"{ROOT}/crates/{package}/{line[len('file: '):]}"
                if path not in texts:
                    with open(path, encoding="utf-8") as text:
                        texts[path] = text.read()
            elif line.startswith("old: "):
                old = line[len("old: "):]
            elif line.startswith("new:"):
                if path is None or old is None or texts[path].count(old) != 1:
                    return False
                texts[path] = texts[path].replace(old, line[len("new: "):])
                old, changed = None, True
    return changed


def every():
    """Yields the package and the path of each wrong body."""
    for edit in sorted(glob.glob(f"{ROOT}/crates/*/must-fail/*.edit")):
        yield edit.split(os.sep)[-3], edit
    for edit in sorted(glob.glob(f"{HERE}/*/*.edit")):
        yield edit.split(os.sep)[-2], edit


def main(words):
    if words == ["--apply"]:
        found = [(edit, applies(edit, package)) for package, edit in every()]
        for edit, is_well in found:
            if not is_well:
                print(f"does not apply: {os.path.relpath(edit, ROOT)}")
        print(f"{len(found)} wrong bodies, {sum(not it for _, it in found)} do not apply")
        return any(not it for _, it in found)
    if not words or not all(os.path.isdir(f"{HERE}/{it}") for it in words):
        print(__doc__, file=sys.stderr)
        return 3
    with tempfile.TemporaryDirectory() as copy:
        subprocess.run(["git", "clone", "-q", ROOT, copy], check=True)
        for name in words:
            shutil.copytree(f"{HERE}/{name}", f"{copy}/crates/{name}/must-fail", dirs_exist_ok=True)
        return any([subprocess.call(["rt", "must-fail", it], cwd=f"{copy}/crates/{it}") for it in words])


if __name__ == "__main__":
    sys.exit(main(sys.argv[1:]))
