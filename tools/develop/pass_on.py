#!/usr/bin/env python3
"""Writes what packages pass on of those below them, item by item.

usage: pass_on.py [ROOT]      at the top of the repository; rewrites src/lib.rt of the packages of nested arrays, of the format and of tables

`pub use lower as name` gives a package a module for each function below it, and where the package above does the same there are twice as many:
columns that are written had 42,000 of them, which cost minutes and gigabytes. So a package passes on what some package above uses, and nothing
else. In src/lib.rt that is a module of this form, which this script makes anew from all `use` items above it:

    /// What `lower` has, as far as packages above use it.
    pub mod name { pub use lower::{..}; }

and a package above passes such a module on as it is, by `pub use lower::name;`. To use one more item of a package far below, write its `use`, and
run this. A module that a facade offers to callers keeps all its items. Some packages at the bottom still have lists where this passes modules.
"""
import collections, os, re, sys

ROOT = sys.argv[1] if len(sys.argv) > 1 else '.'
LAYERS = ('nested_arrays', 'ipc_format', 'tables')
# what a facade offers whole, beside its own items
WHOLE = {
    'ipc_format': ('columnar_memory', 'flatbuffers', 'messages', 'metadata', 'streams', 'reading_laws'),
    'tables': ('columnar_memory', 'nested_arrays_core', 'nested_arrays_cells'),
}
MADE = re.compile(r'\n*/// What `([\w:]+)` has(?:, as far as packages above use it)?\.\npub mod (\w+) \{')
USE = re.compile(r'(?m)^[ \t]*(pub(?:\([^)]*\))?\s+)?use\s+([^;]+);')


def path_of(name): return f'{ROOT}/crates/{name}/src'


def end_of_block(text, start):
    """The place behind the brace that closes the one before `start`."""
    depth = 1
    while depth:
        depth += {'{': 1, '}': -1}.get(text[start], 0)
        start += 1
    return start


def without_made(text):
    """A root file without the modules that this script made, and what each stood for."""
    made = {}
    while found := MADE.search(text):
        made[found[2]] = tuple(found[1].split('::'))
        text = text[:found.start()] + text[end_of_block(text, found.end()):]
    return text.rstrip('\n') + '\n', made


def code_of(text):
    """Without comments and what stands in strings."""
    text = re.sub(r'//[^\n]*', '', re.sub(r'"(?:\\.|[^"\\])*"', '""', text))
    return re.sub(r'(?m)^\s*ghost use [^;]*;', '', text)


def parts_of(tree):
    depth, part, parts = 0, '', []
    for letter in tree:
        depth += {'{': 1, '}': -1}.get(letter, 0)
        if letter == ',' and not depth:
            parts, part = [*parts, part], ''
        else:
            part += letter
    return [it for it in [*parts, part] if it.strip()]


def paths_in(tree, before=()):
    """The paths that a `use` names, each with the name that it gets."""
    tree = tree.strip()
    group = re.match(r'^(?:(.*?)::)?\{(.*)\}$', tree, re.S)
    if group:
        before += tuple(it.strip() for it in (group[1] or '').split('::') if it.strip())
        return [found for part in parts_of(group[2]) for found in paths_in(part, before)]
    named = re.match(r'^(.*?)\s+as\s+(\w+)$', tree)
    path = before + tuple(it.strip() for it in (named[1] if named else tree).split('::'))
    return [(path, named[2] if named else path[-1])]


def uses_in(text):
    """The paths of a file's `use` items (whether it passes each on, path, name), and the code beside them."""
    code = code_of(text)
    uses = [(bool(m[1]) and '(' not in m[1], *found) for m in USE.finditer(code) for found in paths_in(m[2])]
    return uses, USE.sub('', code)


class Packages:
    def __init__(self):
        self.below = {}
        for line in open(f'{ROOT}/crates.txt', encoding='utf-8'):
            line = line.split('#')[0].strip()
            if ':' in line:
                name, below = line.split(':')
                self.below[name.split()[0]] = below.split()
        self.order = []
        for name in self.below:
            self.visit(name)
        self.texts, self.exports, self.made = {}, {}, {}
        for name in self.order:
            self.load(name)
        self.items, self.modules = collections.defaultdict(set), collections.defaultdict(set)

    def visit(self, name):
        if name in self.below and name not in self.order:
            for it in self.below[name]:
                self.visit(it)
            self.order.append(name)

    def load(self, name):
        """What a package's root passes on: for each name the package below and the path there, or nothing for its own."""
        file = f'{path_of(name)}/lib.rt'
        text, made = without_made(open(file, encoding='utf-8').read() if os.path.exists(file) else '')
        uses, code = uses_in(text)
        self.texts[name], self.made[name] = text, made
        self.exports[name] = {it: None for it in re.findall(r'pub mod (\w+)\s*;', code)}
        for passed, path, own in uses:
            if passed:
                self.exports[name][own] = (path[0], path[1:]) if path[0] in self.below else None
        for own, path in made.items():
            self.exports[name][own] = (path[0], path[1:])

    def package_at(self, name, path):
        """The package that a path of a package stands for, if it does."""
        if not path:
            return name
        found = self.exports[name].get(path[0])
        return self.package_at(found[0], found[1] + tuple(path[1:])) if found else None

    def is_made(self, to):
        """Whether a path of a package below is a module that this script makes or passes on there."""
        return len(to[1]) == 1 and is_treated(to[0]) and self.exports[to[0]].get(to[1][0]) is not None and to[1][0] not in self.below

    def with_modules_whole(self, lower, groups):
        """Items of a package below by their paths, where what stands in a module that it makes or passes on is that module."""
        whole = collections.defaultdict(set)
        for path, items in groups.items():
            if path and self.is_made((lower, path[:1])):
                whole[()].add(path[0])
            else:
                whole[path] |= items
        return dict(whole)

    def own_items(self, name): return [it for it in sorted(self.exports[name]) if self.package_at(name, (it,)) is None]

    def passes_modules(self, name): return len(self.own_items(name)) < len(self.exports[name])

    def want(self, name, path):
        if path:
            (self.items if self.package_at(name, path) is None else self.modules)[name].add(tuple(path))

    def up_to_library(self, path):
        """A path up to what has the name of a library, which is passed on whole: no module may have such a name."""
        return path[:next((k + 1 for k, it in enumerate(path) if it in self.below), len(path))]

    def want_uses_of(self, name):
        """Notes what the files of a package use of packages below it, and of its own root."""
        for folder, _, files in os.walk(path_of(name)):
            for file in sorted(it for it in files if it.endswith('.rt')):
                is_root = folder == path_of(name) and file == 'lib.rt'
                text = self.texts[name] if is_root else open(os.path.join(folder, file), encoding='utf-8').read()
                uses, code = uses_in(text)
                for passed, path, own in uses:
                    if path[0] == 'crate' and self.exports[name].get(path[1]):
                        self.want(name, path[1:])
                    if path[0] in self.below and path[0] != name:
                        self.want_use(name, is_root and passed, path, own, code)

    def want_use(self, name, passed, path, own, code):
        is_module = self.package_at(path[0], path[1:]) is not None
        if is_module and passed and is_treated(name):
            return
        inner = re.findall(rf'\b{own}::((?:[a-z_]\w*::)*\w+)', code) if is_module and not passed else []
        for it in inner:
            self.want(path[0], path[1:] + tuple(it.split('::')))
        if not inner:
            self.want(path[0], path[1:])

    def passed_on(self, name):
        """For each module of a package's root: what it has (a path within it, an item), or None where it is passed on whole."""
        found = {}
        for own, to in self.exports[name].items():
            if self.package_at(name, (own,)) is None:
                continue
            groups, wanted = collections.defaultdict(set), [it for it in self.items[name] if it[0] == own]
            for path in [*self.modules[name], *[(it,) for it in WHOLE.get(name, ()) if it == own]]:
                if path[0] == own:
                    target = self.package_at(name, path)
                    if self.passes_modules(target) or (path == (own,) and own in self.made[name]):
                        wanted += [path + (it,) for it in self.own_items(target)]
                    else:
                        wanted.append(path)
            for path in wanted:
                self.want(to[0], to[1] + path[1:])
                path = self.up_to_library(path)
                groups[path[1:-1]].add(path[-1]) if path[1:] else groups.setdefault(None, set())
            if groups:
                found[own] = None if None in groups else dict(groups)
        return found


def is_treated(name): return name.startswith(LAYERS) and not name.endswith('_tests') and name != 'nested_arrays'


def module(source, groups, path, name, doc, indent=''):
    items = sorted(groups.get(path, ()))
    deeper = sorted({it[len(path)] for it in groups if it[:len(path)] == path and len(it) > len(path)} - set(items))
    at = '::'.join([*source, *path])
    lines = [f'{indent}/// {doc}', f'{indent}pub mod {name} {{']
    if items:
        lines.append(f'{indent}    pub use {at}::{{{", ".join(items)}}};' if items[1:] else f'{indent}    pub use {at}::{items[0]};')
    for it in deeper:
        lines += [*[''] * bool(lines[2:]), module(source, groups, path + (it,), it, f'Of `{it}`.', indent + '    ')]
    return '\n'.join([*lines, f'{indent}}}'])


def rewritten(packages, name, found):
    """A root's text with these modules in place of what it passed on of packages."""
    stays = {it for it in found if found[it] is None}
    gone = {it for it in packages.exports[name] if packages.package_at(name, (it,)) is not None} - stays

    def kept(use):
        if not use[1] or '(' in use[1]:
            return use[0]
        groups, paths = collections.defaultdict(list), paths_in(use[2].replace('\n', ' '))
        if not any(own in gone and path[0] in packages.below for path, own in paths):
            return use[0]
        for path, own in paths:
            if own not in gone or path[0] not in packages.below:
                groups[path[:-1]].append(path[-1] if own == path[-1] else f'{path[-1]} as {own}')
        return ''.join(f'pub use {"::".join([*at, ""])}{{{", ".join(its)}}};\n' for at, its in groups.items())

    text = re.sub(r'(?m)^(pub(?:\([^)]*\))?\s+)use\s+([^;]+);\n', kept, packages.texts[name])
    text = re.sub(r'\n{3,}', '\n\n', text).rstrip('\n') + '\n'
    whole = collections.defaultdict(list)
    for own in sorted(set(found) - stays):
        to = packages.exports[name][own]
        if packages.is_made(to) and own not in WHOLE.get(name, ()):
            whole[to[0]].append(to[1][0] if own == to[1][0] else f'{to[1][0]} as {own}')
    for lower, its in whole.items():
        line = f'pub use {lower}::{{{", ".join(its)}}};\n' if its[1:] else f'pub use {lower}::{its[0]};\n'
        behind = [m.end() for m in re.finditer(r'(?m)^pub use [^;]+;\n', text)]
        text = text[:behind[-1]] + line + text[behind[-1]:] if behind else text + '\n' + line
    for own in sorted(set(found) - stays):
        to = packages.exports[name][own]
        if packages.is_made(to) and own not in WHOLE.get(name, ()):
            continue
        source = [to[0], *to[1]]
        if not to[1] and own not in WHOLE.get(name, ()):
            found[own] = packages.with_modules_whole(to[0], found[own])
        part = '' if own in WHOLE.get(name, ()) else ', as far as packages above use it'
        text += '\n' + module(source, found[own], (), own, f'What `{"::".join(source)}` has{part}.') + '\n'
    return text


def main():
    packages = Packages()
    for name in reversed(packages.order):
        packages.want_uses_of(name)
        if is_treated(name) and packages.texts[name]:
            found = packages.passed_on(name)
            file = f'{path_of(name)}/lib.rt'
            if any(packages.package_at(name, (it,)) is not None for it in packages.exports[name]):
                with open(file, 'w', encoding='utf-8') as it:
                    it.write(rewritten(packages, name, found))


main()
