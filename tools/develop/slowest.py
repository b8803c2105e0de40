#!/usr/bin/env python3
"""Says on which functions the proof of a package spends its time.

usage: slowest.py FOLDER PACKAGE [COUNT]

FOLDER is the incremental directory of a first check of the whole package at one job, as `over_contracts.py` leaves it in COPY/incremental/PACKAGE.
A module's time is that between its file and the one written before it. Times are summed by function, and by kind of module: `Lts` has every step of a
function with the drops on each way out, and is most of the time where many ways out leave while much is owned.
"""
import collections, os, re, sys


# A longer gap than this lies between two runs.
BETWEEN_RUNS = 600


def modules_in(folder, package):
    """When each checked module of a package was written, and its name, in the order of time."""
    found = []
    for at, _, files in os.walk(folder):
        if os.path.basename(at) == 'records':
            continue
        for name in files:
            if name.endswith('.oantt') and re.match(r'Rattle-%s[-.]' % re.escape(package), name):
                found.append((os.stat(os.path.join(at, name)).st_mtime, name[len('Rattle-'):-len('.oantt')]))
    return sorted(found)


def kind_of(module):
    last = re.sub(r'-\d.*', '', module.split('.')[-1])
    if '-specs' in module:
        return 'specs'
    if last.startswith('Lts'):
        return 'Lts'
    return last if last in ('Proof', 'Tie', 'Kinds', 'Code', 'Answers', 'Goals', 'Statement', 'Met') else 'lemmas'


def function_of(module):
    return '.'.join(re.sub(r'-(proofs|specs)\.', '.', module).split('.')[1:-1])


def main():
    if len(sys.argv) not in (3, 4):
        sys.exit(__doc__)
    found = modules_in(sys.argv[1], sys.argv[2])
    count = int(sys.argv[3]) if len(sys.argv) > 3 else 20
    functions, kinds = collections.Counter(), collections.Counter()
    for (before, _), (after, module) in zip(found, found[1:]):
        if after - before < BETWEEN_RUNS:
            functions[function_of(module)] += after - before
            kinds[kind_of(module)] += after - before
    print('%.0f seconds in %d modules' % (sum(kinds.values()), len(found)))
    for seconds, name in [(s, n) for n, s in kinds.most_common()] + [(s, n) for n, s in functions.most_common(count)]:
        print('%8.1f  %s' % (seconds, name or '(the package itself)'))


if __name__ == '__main__':
    main()
