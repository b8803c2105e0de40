"""Turns the clauses of a definition into the text of a Python function.

A clause's body becomes statements where it stands last, so that `do` blocks, cases and calls of
the function itself run without deeper and deeper calls; elsewhere it becomes an expression.
"""

from antt_library import CONSTANTS, OPERATORS, WAITING, mangled
from antt_syntax import NotUnderstood

CLOSING_KINDS = {"function", "cases"}


class Reference:
    """How a name's value is written: as a value, and as a call of its arguments at once."""

    __slots__ = ("code", "arity", "direct", "template")

    def __init__(self, code, arity=0, direct=None, template=None):
        self.code, self.arity, self.direct, self.template = code, arity, direct, template

    def call(self, arguments):
        if self.template:
            return self.template % tuple(arguments)
        return "%s(%s)" % (self.direct, ", ".join(arguments))


def mentions(tree, names):
    """Adds the names that a tree holds."""
    if isinstance(tree, tuple):
        if len(tree) == 2 and tree[0] == "name":
            names.add(tree[1])
        for part in tree:
            mentions(part, names)
    elif isinstance(tree, list):
        for part in tree:
            mentions(part, names)
    return names


def has_closure(tree):
    """Whether an expression makes a function, which keeps the variables that it was made with."""
    if isinstance(tree, tuple):
        if tree and tree[0] in CLOSING_KINDS and len(tree) >= 3:
            return True
        if tree and tree[0] == "bind" and len(tree) == 4 and tree[3][0] in ("choose", "cases"):
            return True
        return any(has_closure(part) for part in tree)
    return isinstance(tree, list) and any(has_closure(part) for part in tree)


class Matching:
    """The tests of a pattern, and what its variables are."""

    def __init__(self, generator):
        self.generator, self.tests, self.bindings, self.again = generator, [], [], []

    def add(self, pattern, path):
        getattr(self, "add_" + pattern[0])(pattern, path)

    def add_any(self, pattern, path):
        pass

    def add_tuple(self, pattern, path):
        for index, part in enumerate(pattern[1]):
            self.add(part, "%s[%d]" % (path, index))

    def add_record(self, pattern, path):
        for _, label, part in pattern[1]:
            self.add(part, "%s.f_%s" % (path, mangled(label)))

    def add_recursion(self, pattern, path):
        self.add(pattern[1], path)
        self.again.append((pattern[2], path))

    def add_constructor(self, pattern, path):
        names, parts = pattern[1], pattern[2]
        found = self.generator.names.constructor(self.generator.module, names, self.generator.scope)
        if found is None:
            self.bindings.append((names[0], path))
            return
        tests, inner = CASES.get(found, (None, None)) if isinstance(found, str) else (None, None)
        if tests is None and isinstance(found, str):
            tests, inner = "%s == " + repr(CONSTANTS[found]), []
        if tests is None:
            tests = "%s[0] is " + found.code
            inner = ["%%s[%d]" % (index + 1) for index in range(len(parts))]
        self.tests.append(tests % path)
        for part, way in zip(parts, inner):
            self.add(part, way % path)


# The constructors with values of their own: the test, and where the parts are.
CASES = {
    "None": ("%s is None", []), "Some": ("%s is not None", ["%s[0]"]), "true": ("%s", []), "false": ("not %s", []),
    "zero": ("%s == 0", []), "suc": ("%s > 0", ["(%s - 1)"]), "pos": ("%s >= 0", ["%s"]),
    "negsuc": ("%s < 0", ["(-1 - %s)"]), "[]": ("not %s", []), "∷": ("%s", ["%s[0]", "rest_of(%s)"]),
    "Ok": ("%s[0] is OK", ["%s[1]"]), "Err": ("%s[0] is ERR", ["%s[1]"]),
}


class Generator:
    """Writes one Python function."""

    counter = 0

    def __init__(self, names, module, own=None):
        self.names, self.module, self.own = names, module, own
        self.lines, self.depth, self.scope, self.parameters = [], 0, {}, ()
        self.is_loop, self.collects = False, False

    # ---- lines

    def fresh(self, stem="t"):
        Generator.counter += 1
        return "%s_%d" % (mangled(stem), Generator.counter)

    def emit(self, text):
        self.lines.append("    " * self.depth + text)

    def apart(self, make):
        """Runs a step whose lines are kept apart, one level deeper, with a scope of its own."""
        lines, scope = self.lines, self.scope
        self.lines, self.scope = [], dict(scope)
        self.depth += 1
        out = make()
        self.depth -= 1
        made, self.lines, self.scope = self.lines, lines, scope
        return made, out

    def within(self, head, make):
        """A block below a head line."""
        made, out = self.apart(make)
        self.emit(head)
        self.lines += made or ["    " * (self.depth + 1) + "pass"]
        return out

    def named(self, code):
        """The code of a value that is written several times."""
        if code.isidentifier():
            return code
        name = self.fresh()
        self.emit("%s = %s" % (name, code))
        return name

    # ---- functions

    def definition(self, direct, arity, clauses, parameters=()):
        """The text of the function of some clauses."""
        own = ["a%d" % index for index in range(arity)]
        self.is_loop = self.can_loop(clauses, arity)
        self.collects = self.is_loop and any(self.is_collecting(clause.parts()[2]) for clause in clauses)
        self.emit("def %s(%s):" % (direct, ", ".join(own)))
        self.depth += 1
        if self.collects:
            self.emit("collected = []")
        if self.is_loop:
            self.emit("while True:")
            self.depth += 1
        self.clauses(clauses, own, list(parameters))
        return "\n".join(self.lines)

    def clauses(self, clauses, own, parameters):
        self.parameters = parameters
        for clause in clauses:
            patterns, implicit, body, helpers = clause.parts()
            self.scope.update({name: "TYPE" for name in implicit})
            given = [("constructor", [name], []) for name in parameters] + patterns
            rest = own[len(given) :]
            matching = Matching(self)
            for pattern, path in zip(given, own):
                matching.add(pattern, path)
            make = lambda: self.clause(matching, body, helpers, rest)
            if not matching.tests:
                made, _ = self.apart(make)
                self.lines += [line[4:] for line in made]
                return
            self.within("if %s:" % " and ".join(matching.tests), make)
        self.emit("raise NoCase(%r)" % (self.own[1] if self.own else "a case"))

    def clause(self, matching, body, helpers, rest):
        used = mentions(body, set())
        for _, clauses in helpers:
            for clause in clauses:
                mentions(clause.parts()[2], used)
        self.bind_all(matching, used)
        for name, clauses in helpers:
            self.helper(name, clauses)
        if rest:
            code = self.value(body)
            self.give(code + "".join("(%s)" % name for name in rest))
        else:
            self.tail(body)

    def bind_all(self, matching, used):
        for name, path in matching.bindings:
            if name in used or name in self.parameters:
                variable = self.fresh("v_" + name)
                self.emit("%s = %s" % (variable, path))
                self.scope[name] = variable
            else:
                self.scope[name] = "UNUSED"

    def helper(self, name, clauses):
        """A local definition, as a function that takes its arguments one by one."""
        arity, function = len(clauses[0].parts()[0]), self.fresh("h")
        inner = Generator(self.names, self.module, (None, name))
        inner.scope, inner.depth = dict(self.scope), self.depth
        own = ["%s_%d" % (function, index) for index in range(arity)]
        inner.emit("def %s(%s):" % (function, ", ".join(own)))
        inner.depth += 1
        inner.scope[name] = "curried(%d, %s)" % (arity, function) if arity else function + "()"
        inner.clauses(clauses, own, [])
        self.lines += inner.lines
        self.scope[name] = inner.scope[name]

    def can_loop(self, clauses, arity):
        """Whether calls of the function itself that come last may go round instead."""
        if self.own is None or arity == 0:
            return False
        bodies = [clause.parts()[2] for clause in clauses]
        if any(clause.parts()[3] for clause in clauses) or has_closure(bodies):
            return False
        return all(len(clause.parts()[0]) == arity for clause in clauses)

    def is_collecting(self, body):
        """Whether a body ends in a part put before a call of the function itself."""
        kind = body[0]
        if kind == "operator" and body[1] == "∷":
            return self.is_own_call(body[2][1])
        if kind == "choose":
            return self.is_collecting(body[2]) or self.is_collecting(body[3])
        return kind == "bind" and self.is_collecting(body[3])

    def is_own_call(self, tree):
        if tree[0] != "apply" or tree[1][0] != "name" or tree[1][1] in self.scope:
            return False
        return self.names.is_own(self.module, tree[1][1], self.own, len(tree[2]))

    # ---- what a function answers

    def give(self, code):
        self.emit("return consed(collected, %s)" % code if self.collects else "return " + code)

    def tail(self, tree):
        """Statements that answer an expression's value."""
        if self.is_loop and self.is_own_call(tree):
            return self.again(tree[2])
        if self.collects and tree[0] == "operator" and tree[1] == "∷" and self.is_own_call(tree[2][1]):
            self.emit("collected.append(%s)" % self.value(tree[2][0]))
            self.emit("if len(collected) > LONGEST: raise TooLarge()")
            return self.again(tree[2][1][2])
        make = getattr(self, "tail_" + tree[0], None)
        return make(tree) if make else self.give(self.value(tree))

    def again(self, arguments):
        codes = [self.value(argument) for argument in arguments]
        self.emit("%s = %s" % (", ".join("a%d" % i for i in range(len(codes))), ", ".join(codes)))
        self.emit("continue")

    def tail_choose(self, tree):
        test = self.value(tree[1])
        self.within("if %s:" % test, lambda: self.tail(tree[2]))
        self.tail(tree[3])

    def tail_bind(self, tree):
        self.bind(tree)
        self.tail(tree[3])

    def tail_cases(self, tree):
        if tree[1] is None or self.has_recursion(tree):
            return self.give(self.value(tree))
        subject = self.named(self.value(tree[1]))
        for pattern, body in tree[2]:
            matching = Matching(self)
            matching.add(pattern, subject)
            self.within("if %s:" % (" and ".join(matching.tests) or "True"), lambda: self.branch(matching, body))
        self.emit("raise NoCase('elim')")

    def branch(self, matching, body):
        self.bind_all(matching, mentions(body, set()))
        self.tail(body)

    def tail_steps(self, tree):
        if not self.names.has_option_bind(self.module):
            return self.give(self.value(tree))
        for kind, pattern, value in self.statements(tree)[:-1]:
            code = self.value(value)
            if kind == "let":
                self.take_apart(pattern, code)
            elif kind == "arrow":
                found = self.named(code)
                self.emit("if %s is None:" % found)
                self.depth += 1
                self.give_nothing()
                self.depth -= 1
                self.take_apart(pattern, found + "[0]")
            else:
                raise NotUnderstood("a statement without an arrow in a do block")
        self.tail(self.statements(tree)[-1][2])

    def give_nothing(self):
        self.emit("return None")

    def take_apart(self, pattern, code):
        """Binds the variables of a pattern that always fits."""
        if pattern[0] == "any":
            return
        matching = Matching(self)
        simple = pattern[0] == "constructor" and not pattern[2]
        matching.add(pattern, code if simple else self.named(code))
        for name, path in matching.bindings:
            variable = self.fresh("v_" + name)
            self.emit("%s = %s" % (variable, path))
            self.scope[name] = variable

    def statements(self, tree):
        """The statements of a block, with nested actions taken out before them."""
        out = []
        for kind, pattern, value in tree[1]:
            before = []
            value = self.hoisted(value, before)
            out += before + [(kind, pattern, value)]
        return out

    def hoisted(self, tree, before):
        if isinstance(tree, tuple) and tree and tree[0] == "action":
            name = "·action%d" % id(tree)
            before.append(("arrow", ("constructor", [name], []), self.hoisted(tree[1], before)))
            return ("name", name)
        if isinstance(tree, tuple) and not (tree and tree[0] == "steps"):
            return tuple(self.hoisted(part, before) for part in tree)
        return [self.hoisted(part, before) for part in tree] if isinstance(tree, list) else tree

    # ---- values

    def value(self, tree):
        """Code of an expression's value; statements that it needs are written before."""
        return getattr(self, "value_" + tree[0])(tree)

    def value_number(self, tree):
        return str(tree[1])

    def value_text(self, tree):
        return repr(tree[1])

    def value_type(self, tree):
        return "TYPE"

    def value_name(self, tree):
        if tree[1] in self.scope:
            return self.scope[tree[1]]
        code = self.names.reference(self.module, tree[1], self.own).code
        return code + "".join("(%s)" % given for given in self.given(tree))

    def given(self, head):
        """The codes of the parameters that a sibling in one block is given beside its arguments."""
        if head[0] != "name":
            return []
        return [self.scope[name] for name in self.names.shared_parameters(self.module, head[1], self.own)]

    def reference(self, head):
        """The reference of a global name, or None for any other expression."""
        if head[0] == "name" and head[1] not in self.scope:
            return self.names.reference(self.module, head[1], self.own)
        if head[0] == "part":
            path = self.path(head)
            if path and path[0] not in self.scope:
                return self.names.qualified(self.module, path)
        return None

    def path(self, tree):
        """The names of a dotted path, or None."""
        if tree[0] == "name":
            return [tree[1]]
        inner = self.path(tree[1]) if tree[0] == "part" else None
        return inner + [tree[2]] if inner else None

    def part_of_list(self, tree):
        """The code of `take n (drop k xs)`, which is a window, or None."""
        if tree[1] != ("name", "take") or len(tree[2]) != 2:
            return None
        inner = tree[2][1]
        if inner[0] != "apply" or inner[1] != ("name", "drop") or len(inner[2]) != 2:
            return None
        if any(name in self.scope or self.names.defines(self.module, name) for name in ("take", "drop")):
            return None
        place, content = self.named(self.value(inner[2][0])), self.value(inner[2][1])
        return "%s[%s : %s + %s]" % (content, place, place, self.value(tree[2][0]))

    def value_apply(self, tree):
        window = self.part_of_list(tree)
        if window is not None:
            return window
        head, arguments = tree[1], [self.value(argument) for argument in tree[2]]
        if head[0] == "name" and head[1] == "cond" and "cond" not in self.scope and len(arguments) == 3:
            return self.value(("choose", *tree[2]))
        found = self.reference(head)
        if found is not None:
            arguments = self.given(head) + arguments
        if found is not None and found.arity and len(arguments) >= found.arity:
            code, arguments = found.call(arguments[: found.arity]), arguments[found.arity :]
        else:
            code = found.code if found is not None else self.value(head)
        return code + "".join("(%s)" % argument for argument in arguments)

    def value_part(self, tree):
        found = self.reference(tree)
        if found is not None:
            return found.code
        if tree[2].isdigit():
            return "%s[%s]" % (self.value(tree[1]), tree[2])
        return "%s.f_%s" % (self.value(tree[1]), mangled(tree[2]))

    def value_tuple(self, tree):
        return "(%s)" % ", ".join(self.value(part) for part in tree[1])

    def value_record(self, tree):
        fields = sorted((label, self.value(part)) for _, label, part in tree[2])
        labels = tuple(label for label, _ in fields)
        codes = ", ".join(code for _, code in fields)
        if tree[1] is None:
            return "%s(%s)" % (self.names.record(labels), codes)
        return "record_with(%s, %r, (%s,))" % (self.value(tree[1]), labels, codes)

    def value_operator(self, tree):
        name, (left, right) = tree[1], tree[2]
        if name == "∷":
            return self.list_of(tree)
        if "◌%s◌" % name in self.scope:
            return "%s(%s)(%s)" % (self.scope["◌%s◌" % name], self.value(left), self.value(right))
        if name in WAITING and not self.names.defines(self.module, "◌%s◌" % name):
            return self.waiting(WAITING[name], self.value(left), right)
        if name in OPERATORS and not self.names.defines(self.module, "◌%s◌" % name):
            return OPERATORS[name] % (self.value(left), self.value(right))
        return self.names.reference(self.module, "◌%s◌" % name, self.own).call([self.value(left), self.value(right)])

    def waiting(self, word, left, right):
        """The second operand's statements run only where it counts."""
        lines, code = self.apart(lambda: self.value(right))
        if not lines:
            return "(%s %s %s)" % (left, word, code)
        result = self.fresh()
        self.emit("%s = %s" % (result, left))
        self.emit("if %s%s:" % ("" if word == "and" else "not ", result))
        self.lines += lines + ["    " * (self.depth + 1) + "%s = %s" % (result, code)]
        return result

    def list_of(self, tree):
        parts = []
        while tree[0] == "operator" and tree[1] == "∷":
            parts.append(self.value(tree[2][0]))
            tree = tree[2][1]
        first = "[%s]" % ", ".join(parts)
        return first if tree == ("name", "[]") else "consed(%s, %s)" % (first, self.value(tree))

    def value_choose(self, tree):
        test = self.value(tree[1])
        first, first_code = self.apart(lambda: self.value(tree[2]))
        second, second_code = self.apart(lambda: self.value(tree[3]))
        if not first and not second:
            return "(%s if %s else %s)" % (first_code, test, second_code)
        result, deeper = self.fresh(), "    " * (self.depth + 1)
        self.emit("if %s:" % test)
        self.lines += first + [deeper + "%s = %s" % (result, first_code)]
        self.emit("else:")
        self.lines += second + [deeper + "%s = %s" % (result, second_code)]
        return result

    def bind(self, tree):
        """Binds a `let`; its value waits where the body may not ask for it."""
        pattern, value, body = tree[1:]
        may_wait = pattern[0] == "constructor" and not pattern[2] and body[0] in ("choose", "cases")
        if not may_wait or value[0] in ("name", "number", "function", "part"):
            return self.take_apart(pattern, self.value(value))
        name, function = self.fresh("v_" + pattern[1][0]), self.local("()", value)
        self.emit("%s = Delayed(%s)" % (name, function))
        self.scope[pattern[1][0]] = name + "()"

    def value_bind(self, tree):
        scope = dict(self.scope)
        self.bind(tree)
        code = self.value(tree[3])
        self.scope = scope
        return code

    def local(self, head, tree, prepare=None):
        """A function inside the one that is being written; answers its name."""
        name = self.fresh("l")
        kept = self.is_loop, self.collects
        self.is_loop = self.collects = False

        def make():
            if prepare:
                prepare()
            self.tail(tree)

        self.within("def %s%s:" % (name, head), make)
        self.is_loop, self.collects = kept
        return name

    def value_function(self, tree):
        pattern, rest = tree[1][0], tree[1][1:]
        body = ("function", rest, tree[2]) if rest else tree[2]
        argument = self.fresh("x")
        return self.local("(%s)" % argument, body, lambda: self.take_apart(pattern, argument))

    def value_steps(self, tree):
        if not self.names.has_option_bind(self.module):
            return self.general_steps(self.statements(tree))
        return self.local("()", tree) + "()"

    def general_steps(self, statements):
        kind, pattern, value = statements[0]
        if len(statements) == 1:
            return self.value(value)
        rest = ("steps", statements[1:])
        if kind == "let":
            return self.value(("bind", pattern, value, rest))
        step = self.names.reference(self.module, "◌>>=◌", self.own)
        return step.call([self.value(value), self.value(("function", [pattern], rest))])

    def has_recursion(self, tree):
        return any("recursion" in repr(pattern) for pattern, _ in tree[2])

    def value_cases(self, tree):
        """A function of the value that is taken apart, called at it."""
        argument, name = self.fresh("x"), self.fresh("l")

        def make():
            for pattern, body in tree[2]:
                matching = Matching(self)
                matching.add(pattern, argument)
                again = [(label, "%s(%s)" % (name, path)) for label, path in matching.again]
                matching.bindings += again
                test = "if %s:" % (" and ".join(matching.tests) or "True")
                self.within(test, lambda: self.branch(matching, body))
            self.emit("raise NoCase('elim')")

        kept = self.is_loop, self.collects
        self.is_loop = self.collects = False
        self.within("def %s(%s):" % (name, argument), make)
        self.is_loop, self.collects = kept
        return name if tree[1] is None else "%s(%s)" % (name, self.value(tree[1]))
