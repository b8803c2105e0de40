"""Reads the definitions of `specs/*.antt`: tokens, declarations, patterns and expressions.

A module's text is cut into declarations by its layout. The clauses of a definition are parsed when
they are first wanted, so that what is only proved and never run is not read at all.

Expressions are tuples whose first part names their kind:

    name NAME                    a name as it is written
    number N, text BYTES         literals
    apply HEAD ARGUMENTS
    operator NAME OPERANDS       an infix operator
    function PATTERNS BODY       a λ
    bind PATTERN VALUE BODY      a `let`
    choose TEST FIRST SECOND     an `if`
    cases SCRUTINEE BRANCHES     an `elim`; without a scrutinee it is a function
    steps STATEMENTS             a `do` block, of (arrow | let | plain, pattern, expression)
    action EXPRESSION            `(← e)` inside a statement
    record BASE FIELDS, tuple PARTS, part VALUE LABEL, type

Patterns: any, variable NAME, constructor PATH PATTERNS, tuple PATTERNS, record FIELDS, and
recursion PATTERN NAME for a case that names what the recursion gives there.
"""

import re

LEFT, RIGHT, NEITHER = "left", "right", "neither"

# How tight the operators of the standard library bind.
FIXITIES = {
    "^": (75, RIGHT), "*": (70, LEFT), "/": (70, LEFT), "%": (70, LEFT), "∷": (67, RIGHT),
    "+": (65, LEFT), "-": (65, LEFT), "++": (65, RIGHT), "<": (50, NEITHER), "≤": (50, NEITHER),
    "==": (40, NEITHER), "&&": (30, RIGHT), "||": (25, RIGHT), "≡": (4, NEITHER), "≢": (4, NEITHER),
    "×": (2, RIGHT), "⊎": (1, RIGHT), "↔": (0, NEITHER), "→": (-1, RIGHT),
    "+ℤ": (65, LEFT), "-ℤ": (65, LEFT), "*ℤ": (70, LEFT), "≤ℤ": (50, NEITHER), "<ℤ": (50, NEITHER),
}
LOWEST = -9
MARKS = ("abbrev", "unfoldable", "pub", "pattern")
CLOSERS = {None, ")", "}", "]", ",", ";", "=", "|", "↦", "then", "else", "in", "where", "←", ":", "as", "."}
OPENERS = {"λ", "let", "do", "if", "elim", "unfold"}
ESCAPES = {"n": "\n", "t": "\t", "r": "\r", "0": "\0", "\\": "\\", '"': '"'}


class NotUnderstood(Exception):
    """A part of a definition that is not translated."""


class Token:
    """A word of a text: its place, and whether it stands right behind the one before."""

    __slots__ = ("text", "line", "column", "is_glued", "is_first", "is_quoted")

    def __init__(self, text, line, column, is_glued, is_first, is_quoted=False):
        self.text, self.line, self.column = text, line, column
        self.is_glued, self.is_first, self.is_quoted = is_glued, is_first, is_quoted


WORD = re.compile(r'"(?:\\.|[^"\\])*"|«[^»]*»|[(){}.;,@]|[^\s(){}.;,@"«»]+')
COMMENT = re.compile(r"\{-.*?-\}", re.S)


def tokens_of(text):
    """The words of a text, without comments."""
    text = COMMENT.sub(lambda found: re.sub(r"[^\n]", " ", found.group()), text)
    out = []
    for number, line in enumerate(text.split("\n")):
        is_first = True
        for found in WORD.finditer(line):
            word = found.group()
            if word.startswith("--"):
                break
            start = found.start()
            is_glued = start > 0 and not line[start - 1].isspace()
            is_quoted = word.startswith('"')
            if word.startswith("«"):
                word = word[1:-1]
            out.append(Token(word, number, start, is_glued, is_first, is_quoted))
            is_first = False
    return out


def blocks_of(tokens):
    """The declarations of a layout block: each begins a line at the column of the first word."""
    if not tokens:
        return []
    column, starts = tokens[0].column, [0]
    for index in range(1, len(tokens)):
        token = tokens[index]
        if token.is_first and token.column == column and token.text not in (")", "}", "]"):
            starts.append(index)
    return [tokens[a:b] for a, b in zip(starts, starts[1:] + [len(tokens)])]


def outside_brackets(tokens, word):
    """The place of the first such word that stands in no bracket, or None."""
    depth = 0
    for index, token in enumerate(tokens):
        if not token.is_quoted:
            depth += (token.text in "({[") - (token.text in ")}]")
            if depth == 0 and token.text == word:
                return index
    return None


class Clause:
    """One clause of a definition, parsed when it is wanted."""

    def __init__(self, tokens, fixities, own_operator=None):
        self.tokens, self.fixities, self.own_operator = tokens, fixities, own_operator
        self.parsed = None

    def parts(self):
        """The patterns, the names of implicit arguments, the body and its local definitions."""
        if self.parsed is None:
            self.parsed = self.parse()
        return self.parsed

    def parse(self):
        equals = outside_brackets(self.tokens, "=")
        left, right = self.tokens[:equals], self.tokens[equals + 1 :]
        where = outside_brackets(right, "where")
        helpers = [] if where is None else declared_in(right[where + 1 :], self.fixities)
        body = Parser(right[:where], self.fixities).whole()
        if self.own_operator:
            place = next(i for i, token in enumerate(left) if token.text == self.own_operator)
            sides = Parser(left[:place], self.fixities), Parser(left[place + 1 :], self.fixities)
            return [side.pattern() for side in sides], [], body, helpers
        reader = Parser(left[1:], self.fixities)
        patterns, implicit = reader.patterns()
        return patterns, implicit, body, helpers


def declared_in(tokens, fixities):
    """The clauses of a block by the names that they define, in order."""
    found = {}
    for block in blocks_of(tokens):
        add_clause(found, block, fixities)
    return list(found.items())


def add_clause(found, block, fixities):
    """Adds a block to the clauses of its name, if it is a clause and no signature."""
    equals, colon = outside_brackets(block, "="), outside_brackets(block, ":")
    if equals is None or (colon is not None and colon < equals):
        return
    own, depth = None, 0
    for token in block[1:equals]:
        depth += (token.text in "({[") - (token.text in ")}]")
        if depth == 0 and token.text in fixities and token.text != "∷":
            own = token.text
    name = "◌%s◌" % own if own else block[0].text
    found.setdefault(name, []).append(Clause(block, fixities, own))


class Parser:
    """Parses the words of one clause."""

    def __init__(self, tokens, fixities):
        self.tokens, self.fixities, self.place, self.fences = tokens, fixities, 0, []

    # ---- words

    def word(self):
        """The next word, or None at the end of what is being parsed."""
        if self.place >= len(self.tokens):
            return None
        token = self.tokens[self.place]
        if self.fences and token.is_first and token.column <= self.fences[-1][0] and self.place != self.fences[-1][1]:
            return None
        return token.text

    def take(self, wanted=None):
        word = self.word()
        if word is None or (wanted is not None and word != wanted):
            raise NotUnderstood("%s stands where %s is wanted, %s" % (word, wanted or "a word", self.where()))
        self.place += 1
        return word

    def where(self):
        if not self.tokens:
            return "in an empty text"
        return "line %d" % (self.tokens[min(self.place, len(self.tokens) - 1)].line + 1)

    def glued(self, word):
        """Whether the next word is this one, right behind the word before."""
        return self.word() == word and self.tokens[self.place].is_glued

    def field_follows(self):
        if not self.glued(".") or self.place + 1 >= len(self.tokens):
            return False
        return self.tokens[self.place + 1].is_glued

    def inside(self, closer, parse):
        """Parses in brackets, where the layout around them does not count."""
        fences, self.fences = self.fences, []
        out = parse()
        self.take(closer)
        self.fences = fences
        return out

    def skip_braces(self):
        """The words of an implicit argument."""
        depth, words = 0, []
        while True:
            word = self.take()
            depth += (word in "{(") - (word in "})")
            if depth == 0:
                return words[1:]
            words.append(word)

    # ---- patterns

    def patterns(self):
        """The patterns up to the end, and the names that implicit arguments bind."""
        out, implicit = [], []
        while self.word() is not None:
            if self.word() == "{":
                words = self.skip_braces()
                implicit += words[-1:]
            else:
                out.append(self.pattern_atom())
        return out, implicit

    def pattern(self):
        """A pattern with a constructor's arguments, or a list's first part and the others."""
        first = self.pattern_applied()
        if self.word() == "∷":
            self.take()
            return ("constructor", ["∷"], [first, self.pattern()])
        return first

    def pattern_applied(self):
        if self.word() in ("(", "_", "record"):
            return self.pattern_atom()
        path, arguments = self.path(), []
        while self.word() not in CLOSERS and self.word() not in ("∷", "→"):
            if self.word() == "{":
                self.skip_braces()
            else:
                arguments.append(self.pattern_atom())
        return ("constructor", path, arguments)

    def path(self):
        path = [self.take()]
        while self.field_follows():
            self.take(".")
            path.append(self.take())
        return path

    def pattern_atom(self):
        word = self.word()
        if word == "(":
            self.take()
            return self.inside(")", self.pattern_inside)
        if word == "_":
            self.take()
            return ("any",)
        if word == "record":
            self.take()
            self.take("{")
            return self.inside("}", self.pattern_fields)
        return ("constructor", self.path(), [])

    def pattern_inside(self):
        parts = [self.pattern()]
        if self.word() == "→":
            self.take()
            return ("recursion", parts[0], self.take())
        if self.word() == ":":
            while self.word() != ")":
                self.take()
        while self.word() == ",":
            self.take()
            if self.word() != ")":
                parts.append(self.pattern())
        return parts[0] if len(parts) == 1 else ("tuple", parts)

    def pattern_fields(self):
        fields = []
        while self.word() != "}":
            label = self.take()
            self.take("=")
            fields.append(("field", label, self.pattern()))
            if self.word() == ";":
                self.take()
        return ("record", fields)

    # ---- expressions

    def whole(self):
        out = self.expression()
        if self.place < len(self.tokens):
            raise NotUnderstood("%s is not understood, %s" % (self.tokens[self.place].text, self.where()))
        return out

    def expression(self, lowest=LOWEST):
        """An expression of operators that bind at least as tight as a number says."""
        left = self.negation() if self.word() == "¬" else self.application()
        while True:
            name = self.word()
            if self.is_section(name):
                self.take()
                body = ("operator", name[:-1], [left, ("name", "·right")])
                return ("function", [("constructor", ["·right"], [])], body)
            if name not in self.fixities or self.fixities[name][0] < lowest:
                return left
            strength, side = self.fixities[name]
            self.take()
            right = self.expression(strength + (side != RIGHT))
            left = ("operator", name, [left, right])

    def is_section(self, word):
        """Whether a word is an operator with a hole for its right operand."""
        return word is not None and word.endswith("◌") and word[:-1] in self.fixities

    def negation(self):
        self.take("¬")
        return ("apply", ("name", "¬"), [self.expression(60)])

    def application(self):
        if self.word() in OPENERS:
            return self.opened()
        head, arguments = self.atom(), []
        while self.word() not in CLOSERS and self.word() not in self.fixities:
            word = self.word()
            if word == "{":
                self.skip_braces()
            elif word in ("[", "@") or self.is_section(word):
                break
            elif word in OPENERS:
                arguments.append(self.opened())
                break
            else:
                arguments.append(self.atom())
        return ("apply", head, arguments) if arguments else head

    def opened(self):
        word = self.take()
        return {
            "λ": self.function, "let": self.bound, "do": self.steps, "if": self.choice,
            "elim": self.cases, "unfold": self.unfolded,
        }[word]()

    def function(self):
        patterns = []
        while self.word() != ".":
            patterns.append(self.pattern_atom())
        self.take(".")
        return ("function", patterns, self.expression())

    def bound(self):
        pattern, value = self.binding()
        self.take("in")
        return ("bind", pattern, value, self.expression())

    def binding(self):
        """The pattern and the value of a `let`; what follows a name are its arguments."""
        name, arguments = self.pattern_atom(), []
        while self.word() not in ("=", ":"):
            arguments.append(self.pattern_atom())
        if self.word() == ":":
            self.take()
            self.expression()
        self.take("=")
        value = self.expression()
        return name, ("function", arguments, value) if arguments else value

    def choice(self):
        test = self.expression()
        self.take("then")
        first = self.expression()
        self.take("else")
        return ("choose", test, first, self.expression())

    def unfolded(self):
        while self.take() != "in":
            pass
        return self.expression()

    def cases(self):
        scrutinee, branches = None, []
        if self.word() != "[":
            scrutinee = self.atom()
        if self.word() == "as":
            self.take()
            while self.word() != "[":
                self.atom()
        self.take("[")

        def read():
            while self.word() != "]":
                if self.word() == "|":
                    self.take()
                pattern = self.pattern()
                self.take("↦")
                branches.append((pattern, self.expression()))

        self.inside("]", read)
        return ("cases", scrutinee, branches)

    def steps(self):
        """The statements of a `do` block, at one column or with semicolons between them."""
        column, statements = self.tokens[self.place].column, []
        while True:
            self.fences.append((column, self.place))
            statements.append(self.statement())
            at_semicolon = self.word() == ";"
            self.fences.pop()
            if at_semicolon:
                self.take()
            elif self.word() is None or self.tokens[self.place].column != column or not self.tokens[self.place].is_first:
                return ("steps", statements)

    def statement(self):
        if self.word() == "let":
            start = self.place
            self.take()
            pattern, value = self.binding()
            if self.word() != "in":
                return ("let", pattern, value)
            self.place = start
            return ("plain", None, self.expression())
        start = self.place
        try:
            pattern = self.pattern_atom()
            if self.word() == "←":
                self.take()
                return ("arrow", pattern, self.expression())
        except NotUnderstood:
            pass
        self.place = start
        return ("plain", None, self.expression())

    def atom(self):
        token, word = self.tokens[self.place] if self.place < len(self.tokens) else None, self.word()
        if word is None or word in (")", "}", "]", ",", ";"):
            raise NotUnderstood("%s stands where an expression is wanted, %s" % (word, self.where()))
        self.take()
        if token.is_quoted:
            out = ("text", unescaped(word[1:-1]).encode())
        elif word == "(":
            out = self.bracket()
        elif word == "record":
            out = self.record()
        elif re.fullmatch(r"0[xob][0-9a-fA-F_]+|[0-9][0-9_]*", word):
            return ("number", int(word, 0) if word[:1] == "0" and len(word) > 1 and not word[1].isdigit() else int(word))
        else:
            out = ("name", word)
        while self.field_follows():
            self.take(".")
            out = ("part", out, self.take())
        return out

    def bracket(self):
        """What stands in round brackets: an expression, a tuple, a section, or a binder of a type."""
        word = self.word()
        if word == "←":
            self.take()
            return ("action", self.inside(")", self.expression))
        if word is not None and word.startswith("◌") and not word.endswith("◌") and word[1:] in self.fixities:
            self.take()
            body = lambda: ("operator", word[1:], [("name", "·left"), self.expression()])
            return ("function", [("constructor", ["·left"], [])], self.inside(")", body))
        if self.is_binder():
            return self.inside(")", self.skipped_binder)
        parts = self.inside(")", self.parts)
        return parts[0] if len(parts) == 1 else ("tuple", parts)

    def is_binder(self):
        place = self.place
        while place < len(self.tokens) and self.tokens[place].text not in "(){},;.":
            if self.tokens[place].text == ":":
                return True
            place += 1
        return False

    def skipped_binder(self):
        depth = 0
        while depth > 0 or self.word() != ")":
            word = self.take()
            depth += (word in "({") - (word in ")}")
        return ("type",)

    def parts(self):
        parts = [self.expression()]
        while self.word() == ",":
            self.take()
            if self.word() != ")":
                parts.append(self.expression())
        return parts

    def record(self):
        base = None if self.word() == "{" else self.atom()
        self.take("{")
        return ("record", base, self.inside("}", self.record_fields))

    def record_fields(self):
        fields = []
        while self.word() != "}":
            label = self.take()
            if self.word() == ":":
                self.take()
                self.expression()
            else:
                self.take("=")
                fields.append(("field", label, self.expression()))
            if self.word() == ";":
                self.take()
        return fields


def unescaped(text):
    """A quoted text with its escapes replaced."""
    return re.sub(r"\\(.)", lambda found: ESCAPES.get(found.group(1), found.group(1)), text)
