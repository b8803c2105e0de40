#!/usr/bin/env python3
"""Lists the paths into specs/ and proofs/ that lead nowhere, or into a package that crates.txt does not list for the one that writes them: those of
`use` and `ghost use`, and of the attributes `using` and `unfolding`.

usage: resolve.py      prints a line for each, and a count last; the status is 1 where there is one

A path is followed through what each Lib.antt and the modules below it declare or pass on. What is made of code (declarations, contracts, goals) and
what the kit has is not looked at. Text alone is read, so a move of files is looked through in seconds; whether a package is right a check says.
"""
import functools, os, re, sys

CRATES = os.path.join(os.path.dirname(os.path.dirname(os.path.dirname(os.path.abspath(__file__)))), 'crates')
MADE = {'declared', 'contracts', 'TheDeep', 'TheVariants'}
OF_FUNCTIONS = {'Goals', 'Given', 'Statement', 'Code', 'TheMeasures'}
USE = re.compile(r'^[ \t]*(?:[a-z]+ )*use (Rattle\.[^\s{};]*[^\s{};.])(?:\.\{([^}]*)\}| as (\S+?))?;?[ \t]*$', re.M)
ATTRIBUTE = re.compile(r'\b(?:using|unfolding)\(([^()]*)\)')
MODULE = re.compile(r'^[ \t]*(?:pub )?mod (\S+)[ \t]*$', re.M)


def uses(text):
    """Each path that a text uses, and the names that it then has here."""
    for path, names, other in USE.findall(text):
        if not names:
            yield path, other or path.split('.')[-1]
        for name in filter(None, (it.strip() for it in names.split(','))):
            whole, _, other = name.partition(' as ')
            yield path + '.' + whole, other or whole


def attributes(text, crate):
    """Each path of an attribute, as `use` writes it."""
    for words in ATTRIBUTE.findall(text):
        for word in re.sub(r'\s', '', words).split(','):
            first, *others = word.removeprefix('Rattle::').split('::')
            if others and others[0] in ('specs', 'proofs'):
                yield '.'.join(['Rattle', crate if first == 'crate' else first, *others])


@functools.lru_cache(None)
def listed(crate=None):
    """The packages and libraries that crates.txt names, or those that a package may name: itself, what its line lists, and what need not be listed."""
    with open(os.path.join(os.path.dirname(CRATES), 'crates.txt'), encoding='utf-8') as found:
        return {'std', 'core', *(it for line in found if not crate or line.startswith(crate + ':') for it in re.findall(r'\w+', line))}


@functools.lru_cache(None)
def module(path):
    """The text of a module, the modules that it declares, and what it uses by which name."""
    with open(path, encoding='utf-8') as found:
        text = found.read()
    return text, set(MODULE.findall(text)), {name: used for used, name in uses(text)}


@functools.lru_cache(None)
def lost(path):
    """Where a path leads nowhere, or None."""
    _, crate, kind, *parts = path.split('.') + [''] * 2
    parts = [it for it in parts if it]
    folder = os.path.join(CRATES, crate, kind)
    if not os.path.isdir(os.path.join(CRATES, crate)):
        return None if crate in listed() else 'no package ' + crate
    if MADE & set(parts[:1]) or OF_FUNCTIONS & set(parts):
        return None
    at = os.path.join(folder, 'Lib.antt')
    while parts:
        if not os.path.isfile(at):
            return 'no ' + os.path.relpath(at, CRATES)
        text, modules, used = module(at)
        name, *parts = parts
        if name in MADE:
            return None
        if name in modules:
            at = os.path.join(folder, name + '.antt')
        elif name in used:
            return lost('.'.join([used[name], *parts]))
        elif re.search(r'^[ \t]*(?:[a-z]+ )*%s(?![^\s:({,])' % re.escape(name), text, re.M):
            return None
        else:
            return 'no %s in %s' % (name, os.path.relpath(at, CRATES))
    return None


def main():
    count, wrong = 0, 0
    for crate in sorted(os.listdir(CRATES)):
        for folder, _, names in sorted(os.walk(os.path.join(CRATES, crate))):
            for path in (os.path.join(folder, it) for it in sorted(names) if it.endswith(('.antt', '.rt'))):
                with open(path, encoding='utf-8') as found:
                    text = found.read()
                for used in [*(it for it, _ in uses(text)), *attributes(text, crate)]:
                    library = used.split('.')[1]
                    count, where = count + 1, lost(used) if library in listed(crate) else library + ' is not listed'
                    if where:
                        wrong += 1
                        print('%s: %s: %s' % (os.path.relpath(path, CRATES), used, where))
    print('%d paths, %d lead nowhere' % (count, wrong))
    return int(wrong > 0)


if __name__ == '__main__':
    sys.exit(main())
