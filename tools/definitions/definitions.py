#!/usr/bin/env python3
"""Runs the definitions of `crates/*/specs` on real values, by translation to Python.

usage: definitions.py CRATE MODULE EXPRESSION [NAME=FILE]..

    definitions.py ipc_format_grammar Tables 'table_of stream input' input=samples/example.stream
    definitions.py ipc_format_values_tests Examples x_int32

EXPRESSION stands as it would in crates/CRATE/specs/MODULE.antt, with the imports of that module;
NAME is the bytes of FILE. It proves nothing: it shows what a definition says. Of statements those
are evaluated that can be decided (`≡`, `≤`, `×`, `¬`, `IfSome`, `All`), as True or False.
"""

import glob
import os
import re
import sys
import threading

import antt_library as library
from antt_compiler import CASES, Generator, Reference
from antt_library import CONSTANTS, FUNCTIONS, OPERATORS, Tag, TYPES, curried, mangled, shown
from antt_syntax import (
    FIXITIES, LEFT, MARKS, NEITHER, NotUnderstood, Parser, RIGHT, add_clause, blocks_of, outside_brackets, tokens_of,
)
from rust_types import RustTypes

TOP = os.path.dirname(os.path.dirname(os.path.dirname(os.path.abspath(__file__))))
STANDARD = {"std", "core", "alloc"}
SIDES = {"infixl": LEFT, "infixr": RIGHT, "infix": NEITHER}
TRUTHS = {"true": "True", "false": "False", "None": "None", "[]": "[]", "zero": "0"}
# Definitions over the codes that Rattle generates: the sameness of two coded values.
REPLACED = {("columnar_memory_types", "Sameness", "same"): (3, lambda code, a, b: library.same(a, b))}
IGNORED = {"mod", "unfolding", "ruleset", "open", "axiom", "deriving"}


class Module:
    """A file of definitions: what it declares and what it takes from elsewhere."""

    def __init__(self, definitions, crate, path, text):
        self.definitions, self.crate, self.path = definitions, crate, path
        self.clauses, self.constructors, self.types = {}, {}, set()
        self.imports, self.aliases, self.parameters = {}, {}, {}
        self.declare(tokens_of(text), [])

    def declare(self, tokens, parameters):
        for block in blocks_of(tokens):
            while block and block[0].text in MARKS:
                block = block[1:]
            if block:
                self.declare_one(block, parameters)

    def declare_one(self, block, parameters):
        head = block[0].text
        if head == "mutual":
            self.declare(block[1:], parameters)
        elif head == "module":
            where = outside_brackets(block, "where")
            self.declare(block[where + 1 :], parameters + explicit_names(block[1:where]))
        elif head == "use":
            self.use(block[1:])
        elif head == "data":
            self.types.add(block[1].text)
            self.declare_data(block)
        elif head == "record":
            self.types.add(block[1].text)
        elif head not in IGNORED and head not in SIDES:
            before = set(self.clauses)
            add_clause(self.clauses, block, self.definitions.fixities)
            for name in set(self.clauses) - before:
                self.parameters[name] = parameters

    def declare_data(self, block):
        where = outside_brackets(block, "where")
        if where is None:
            return
        for signature in blocks_of(block[where + 1 :]):
            while signature[0].text in MARKS:
                signature = signature[1:]
            colon = outside_brackets(signature, ":")
            if colon is None:
                continue
            for token in signature[:colon]:
                self.constructors[token.text] = arity_of(signature[colon + 1 :])

    def use(self, tokens):
        """A `use` line: items in braces, or a module, either with another name behind `as`."""
        path, place = [], 0
        while place < len(tokens) and tokens[place].text not in ("{", "as"):
            if tokens[place].text != ".":
                path.append(tokens[place].text)
            place += 1
        if place < len(tokens) and tokens[place].text == "{":
            words = [token.text for token in tokens[place + 1 :]]
            items = " ".join("\n" if word in (",", "}") else word for word in words).split("\n")
            for item in filter(None, (item.split() for item in items)):
                self.imports[item[-1]] = (path, item[0])
        elif place < len(tokens):
            self.aliases[tokens[place + 1].text] = path
        elif path:
            self.aliases[path[-1]] = path


def arity_of(tokens):
    """How many explicit arguments a constructor's type has."""
    arity, arrow = 0, outside_brackets(tokens, "→")
    while arrow is not None:
        part, tokens = tokens[:arrow], tokens[arrow + 1 :]
        is_named = any(token.text == ":" for token in part)
        arity += len(explicit_names(part)) if is_named else part[0].text != "{"
        arrow = outside_brackets(tokens, "→")
    return arity


def explicit_names(tokens):
    """The names in round brackets of a module's parameters."""
    out, depth = [], ""
    for token in tokens:
        if token.text in "({":
            depth = token.text
        elif token.text in (")", "}", ":"):
            depth = ""
        elif depth == "(":
            out.append(token.text)
    return out


class Definitions:
    """All definitions below a folder, compiled as they are first used."""

    def __init__(self, root=TOP):
        self.root, self.rust = root, RustTypes(root)
        self.modules, self.references, self.compiled, self.tags = {}, {}, {}, {}
        self.fixities = dict(FIXITIES)
        self.space = dict(vars(library))
        self.read_fixities()

    def read_fixities(self):
        for path in glob.glob(os.path.join(self.root, "crates", "*", "specs", "**", "*.antt"), recursive=True):
            with open(path, encoding="utf-8") as source:
                for line in re.findall(r"^\s*(infix[lr]?) (\d+) (.+)$", source.read(), re.M):
                    for name in line[2].split():
                        if name.startswith("◌") and name.endswith("◌") and name.count("◌") == 2:
                            self.fixities[name.strip("◌")] = (int(line[1]), SIDES[line[0]])

    # ---- modules

    def module(self, path, crate=None):
        """The module of a path, through the facades that pass it on."""
        key = ".".join(path)
        if key not in self.modules:
            self.modules[key] = self.find_module(path, crate)
        return self.modules[key]

    def find_module(self, path, crate):
        owner, names = (crate, path[1:]) if path[0] in ("crate", "package") else (path[1], path[3:])
        folder = os.path.join(self.root, "crates", owner, "specs")
        file = os.path.join(folder, *(names or ["Lib"])) + ".antt"
        if os.path.exists(file):
            with open(file, encoding="utf-8") as source:
                return Module(self, owner, ".".join(names), source.read())
        facade = os.path.join(folder, "Lib.antt")
        if names and os.path.exists(facade):
            with open(facade, encoding="utf-8") as source:
                for line, other_name in re.findall(r"^pub use ([\w.]+)(?: as (\w+))?\s*$", source.read(), re.M):
                    if (other_name or line.split(".")[-1]) == names[0]:
                        return self.module(line.split(".") + names[1:], owner)
        raise NotUnderstood("no module %s" % ".".join(path))

    # ---- names

    def own_of(self, module, name):
        return (module.crate, module.path, name)

    def is_own(self, module, name, own, count):
        return (own is not None and own == self.own_of(module, name) and name in module.clauses
                and not module.parameters[name] and len(module.clauses[name][0].parts()[0]) == count)

    def defines(self, module, name):
        """Whether a name is the project's own, and no word of the standard library."""
        return name in module.clauses or (name in module.imports and not self.is_standard(module.imports[name][0]))

    def is_standard(self, path):
        return len(path) < 2 or path[1] in STANDARD or path[0] in ("lib", "mathlib", "Prim")

    def reference(self, module, name, own=None):
        """How a global name is written in the Python of a module."""
        if name in module.clauses:
            return self.own_reference(module, name, own)
        if name in module.constructors:
            return self.plain(name, module.constructors[name])
        if name in module.types:
            return Reference("TYPE")
        if name in module.imports:
            return self.foreign(*module.imports[name], module.crate)
        return self.standard(name)

    def qualified(self, module, path):
        """The reference of a dotted path whose head is a module, or None."""
        if path[0] not in module.aliases:
            return None
        full = module.aliases[path[0]] + path[1:-1]
        if "contracts" in full:
            return Reference("TYPE")
        return self.foreign(full, path[-1], module.crate)

    def foreign(self, path, name, crate):
        if path[-1] in ("TheVariants", "TheOpen"):
            return self.plain(name, len(self.variants(path)[name]))
        if path[-1] == "TheViews":
            return self.once(("view", name), lambda: Reference(self.keep(lambda x: x), 1, template="%s"))
        if path[-1] == "TheFolds":
            return self.once(("fold", path[1], name), lambda: self.fold(path, name))
        if "declared" in path:
            return Reference("TYPE")
        if self.is_standard(path):
            return self.standard(name)
        return self.reference(self.module(path, crate), name)

    def variants(self, path):
        found = self.rust.of(path[-2], path[1])
        if found is None or found[0] != "enum":
            raise NotUnderstood("no enum %s" % path[-2])
        return found[1]

    def once(self, key, make):
        if key not in self.references:
            self.references[key] = make()
        return self.references[key]

    def keep(self, value, stem="kept"):
        name = "%s_%d" % (stem, len(self.space))
        self.space[name] = value
        return name

    def standard(self, name):
        """A word of the standard library."""
        if name in TRUTHS:
            return Reference(TRUTHS[name])
        if name in TYPES:
            return Reference("TYPE")
        if name in CONSTANTS:
            return self.once(("constant", name), lambda: Reference(self.keep(CONSTANTS[name])))
        operator = name.strip("◌")
        if name.startswith("◌") and operator in OPERATORS:
            make = eval("lambda a, b: " + OPERATORS[operator] % ("a", "b"), self.space)
            return self.once(("operator", name), lambda: Reference(self.keep(curried(2, make)), 2, self.keep(make)))
        if name == "◌∷◌":
            make = lambda a, b: library.consed([a], b)
            return self.once(name, lambda: Reference(self.keep(curried(2, make)), 2, self.keep(make)))
        if name in ("◌&&◌", "◌||◌"):
            make = (lambda a, b: a and b) if name == "◌&&◌" else (lambda a, b: a or b)
            return self.once(name, lambda: Reference(self.keep(curried(2, make)), 2, self.keep(make)))
        if name not in FUNCTIONS:
            raise NotUnderstood("no word %s of the standard library (antt_library.py)" % name)
        return self.once(("standard", name), lambda: self.function(name))

    def function(self, name):
        arity, make = FUNCTIONS[name]
        templates = {"Some": "(%s,)", "pos": "%s", "suc": "(%s + 1)", "not": "(not %s)"}
        return Reference(self.keep(curried(arity, make)), arity, self.keep(make), templates.get(name))

    def tag(self, name):
        """The constructor's name as a value that is the same object everywhere."""
        if name not in self.tags:
            known = {tag: tag for tag in vars(library).values() if isinstance(tag, Tag)}
            self.tags[name] = known.get(name, Tag(name))
            self.space["TAG_" + mangled(name)] = self.tags[name]
        return "TAG_" + mangled(name)

    def plain(self, name, arity):
        """A constructor of a `data` type or an enum."""
        def make():
            code, tag = self.tag(name), self.tags[name]
            if arity == 0:
                return Reference(self.keep((tag,)))
            build = lambda *parts: (tag, *parts)
            return Reference(self.keep(curried(arity, build)), arity, template="(%s%s)" % (code, ", %s" * arity))

        return self.once(("constructor", name, arity), make)

    def constructor(self, module, names, scope):
        """What a name in a pattern matches: a word with cases of its own, a tag's code, or None for a variable."""
        if len(names) > 1:
            path = module.aliases.get(names[0], []) + names[1:-1]
            if self.is_standard(path) and names[-1] in CASES:
                return names[-1]
            self.qualified(module, names)
            return Reference(self.tag(names[-1]))
        name = names[0]
        if name in module.constructors:
            return Reference(self.tag(name))
        if name in module.imports:
            return self.imported_constructor(module, *module.imports[name])
        return name if name in ("∷", "[]") else None

    def imported_constructor(self, module, path, name):
        if path[-1] in ("TheVariants", "TheOpen"):
            return name if name in CASES else Reference(self.tag(name))
        if self.is_standard(path):
            if name in ("Less", "Equal", "Greater", "tt"):
                return Reference(self.tag(name))
            return name if name in CASES or name in ("w8", "w16", "w32", "w64", "w128") else None
        if "declared" in path or path[-1] in ("TheViews", "TheFolds"):
            return None
        return self.constructor(self.module(path, module.crate), [name], {})

    def fold(self, path, name):
        kind, kind_of = name.split("-", 1)
        if kind not in ("fold", "para"):
            raise NotUnderstood("no fold %s" % name)
        count, make = self.rust.fold(kind_of, path[1], kind == "para")
        build = lambda *given: make(*given[count:])
        return Reference(self.keep(curried(2 * count, build)), 2 * count, self.keep(build))

    def record(self, labels):
        name = "RECORD_" + "_".join(mangled(label) for label in labels)
        self.space.setdefault(name, library.record_class(labels))
        return name

    def has_option_bind(self, module):
        """Whether the steps of a `do` block there give an option each."""
        found = module.imports.get("◌>>=◌")
        source = module if "◌>>=◌" in module.clauses else self.module(found[0], module.crate) if found else None
        if source is None:
            return False
        first = source.clauses["◌>>=◌"][0].parts()[0][0]
        return first == ("constructor", ["None"], [])

    # ---- compiling

    def own_reference(self, module, name, own):
        if self.own_of(module, name) in REPLACED:
            arity, make = REPLACED[self.own_of(module, name)]
            return self.once(("replaced", name), lambda: Reference(self.keep(curried(arity, make)), arity, self.keep(make)))
        return self.once(self.own_of(module, name), lambda: self.declare(module, name))

    def shared_parameters(self, module, name, own):
        """The parameters of a block, which a name of it is given where a sibling names it."""
        if own is None or name not in module.clauses or own[:2] != (module.crate, module.path):
            return []
        given = module.parameters[name]
        return given if given and module.parameters.get(own[2]) == given else []

    def declare(self, module, name):
        """A definition: stubs that compile it when it is first called."""
        clauses, parameters = module.clauses[name], module.parameters[name]
        arity = len(clauses[0].parts()[0]) + len(parameters)
        direct = "%s_%d" % (mangled(name), len(self.space))

        def stub(*arguments):
            self.compile(module, name, direct, arity, clauses, parameters)
            return self.space[direct](*arguments)

        self.space[direct] = stub
        if arity == 0:
            return Reference(direct + "()")
        late = curried(arity, lambda *arguments: self.space[direct](*arguments))
        return Reference(self.keep(late), arity, direct)

    def compile(self, module, name, direct, arity, clauses, parameters):
        generator = Generator(self, module, self.own_of(module, name))
        try:
            text = generator.definition(direct, arity, clauses, parameters)
            exec(compile(text, "%s.%s.%s" % (module.crate, module.path, name), "exec"), self.space)
        except NotUnderstood as error:
            raise NotUnderstood("%s.%s.%s: %s" % (module.crate, module.path, name, error)) from None
        self.compiled[direct] = text
        if arity == 0:
            value = self.space[direct]()
            self.space[direct] = lambda: value

    # ---- use

    def value(self, crate, module, name):
        """A definition's value; a function takes its arguments one by one."""
        source = self.module(["Rattle", crate, "specs"] + module.split("."))
        return eval(self.reference(source, name).code, self.space)

    def named(self, crate, name):
        """The value of the one definition or constructor of a name in a crate, in whichever module it stands."""
        folder = os.path.join(self.root, "crates", crate, "specs")
        for path in sorted(glob.glob(os.path.join(folder, "**", "*.antt"), recursive=True)):
            names = os.path.relpath(path, folder)[: -len(".antt")].split(os.sep)
            module = self.module(["Rattle", crate, "specs"] + names)
            if name in module.clauses or name in module.constructors:
                return eval(self.reference(module, name).code, self.space)
        raise NotUnderstood("no %s in %s" % (name, crate))

    def evaluate(self, crate, module, text, **names):
        """The value of an expression that stands in a module; names are Python values that it may use."""
        source = self.module(["Rattle", crate, "specs"] + module.split("."))
        generator = Generator(self, source)
        generator.emit("def evaluated(%s):" % ", ".join("g_" + mangled(name) for name in names))
        generator.depth, generator.scope = 1, {name: "g_" + mangled(name) for name in names}
        generator.tail(Parser(tokens_of(text), self.fixities).whole())
        space = self.space
        exec("\n".join(generator.lines), space)
        return space["evaluated"](*names.values())


def deeply(function, *arguments):
    """Runs a function on a stack that is deep enough for recursions over long lists."""
    out = []

    def run():
        try:
            out.append((True, function(*arguments)))
        except BaseException as error:
            out.append((False, error))

    sys.setrecursionlimit(1_000_000)
    threading.stack_size(1 << 29)
    thread = threading.Thread(target=run)
    thread.start()
    thread.join()
    if not out[0][0]:
        raise out[0][1]
    return out[0][1]


def content_of(path):
    with open(path, "rb") as source:
        return source.read()


def main(words):
    if len(words) < 3:
        sys.exit(__doc__)
    names = {word.split("=", 1)[0]: content_of(word.split("=", 1)[1]) for word in words[3:]}
    try:
        print(shown(deeply(lambda: Definitions().evaluate(*words[:3], **names))))
    except NotUnderstood as error:
        sys.exit("not evaluated: %s" % error)


if __name__ == "__main__":
    main(sys.argv[1:])
