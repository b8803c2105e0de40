"""The types of the code that definitions use: their variants and fields, and folds over recursive ones."""

import glob
import os
import re

from antt_library import mangled, record_with

COMMENT = re.compile(r"//[^\n]*")
HEAD = re.compile(r"\bpub (enum|struct) (\w+)(?:<[^>]*>)?\s*\{")
# Wrappers are seen as what they hold.
TRANSPARENT = {"Boxed", "Box", "Rc"}
LISTS = {"Items", "Vec"}


def split_at_commas(text):
    """The parts of a text between the commas that stand in no bracket."""
    out, depth, start = [], 0, 0
    for place, letter in enumerate(text):
        depth += (letter in "<([{") - (letter in ">)]}")
        if letter == "," and depth == 0:
            out.append(text[start:place].strip())
            start = place + 1
    return [part for part in out + [text[start:].strip()] if part]


def body_from(text, place):
    """What stands in the braces that open just before a place."""
    depth, end = 1, place
    while depth:
        depth += (text[end] == "{") - (text[end] == "}")
        end += 1
    return text[place : end - 1]


def variant_of(text):
    """The name of an enum's variant, and the types of its parts."""
    text = re.sub(r"#\[[^\]]*\]", "", text).strip()
    found = re.match(r"(\w+)\s*(?:\((.*)\)|\{(.*)\})?$", text, re.S)
    if found is None:
        return None
    if found.group(3) is not None:
        return found.group(1), [part.split(":", 1)[1].strip() for part in split_at_commas(found.group(3))]
    return found.group(1), split_at_commas(found.group(2) or "")


def field_of(text):
    """The name and the type of a struct's field."""
    text = re.sub(r"#\[[^\]]*\]", "", text).strip()
    name, kind = text.split(":", 1)
    return name.replace("pub ", "").strip(), kind.strip()


class RustTypes:
    """The enums and structs of all crates below a folder."""

    def __init__(self, root):
        self.found, self.order = {}, []
        for path in sorted(glob.glob(os.path.join(root, "crates", "*", "src", "**", "*.rt"), recursive=True)):
            self.read(path, os.path.relpath(path, os.path.join(root, "crates")).split(os.sep)[0])

    def read(self, path, crate):
        with open(path, encoding="utf-8") as source:
            text = COMMENT.sub("", source.read())
        for head in HEAD.finditer(text):
            parts = split_at_commas(body_from(text, head.end()))
            if head.group(1) == "enum":
                value = ("enum", dict(filter(None, map(variant_of, parts))))
            else:
                value = ("struct", [field_of(part) for part in parts])
            self.found.setdefault(head.group(2), []).append((crate, value))
            self.order.append((crate, head.group(2)))

    def of(self, name, crate):
        """What a type of a crate is, or of the crates that a facade of that name stands for."""
        found = self.found.get(name, [])
        exact = [value for owner, value in found if owner == crate]
        near = [value for owner, value in found if owner.startswith(crate + "_")]
        for values in (exact, near, [value for _, value in found]):
            if values:
                return values[0]
        return None

    def group(self, name, crate):
        """The types that hold one another with a type, in the order of the source."""
        reached, waiting = {name}, [name]
        edges = {}
        while waiting:
            kind, parts = self.of(waiting[-1], crate)
            here = waiting.pop()
            texts = sum(parts.values(), []) if kind == "enum" else [text for _, text in parts]
            edges[here] = {word for text in texts for word in re.findall(r"\w+", text) if word in self.found}
            for word in edges[here] - reached:
                reached.add(word)
                waiting.append(word)
        back = {name}
        for _ in reached:
            back |= {other for other in reached if edges[other] & back}
        ordered = []
        for _, other in self.order:
            if other in back and other not in ordered:
                ordered.append(other)
        return ordered

    def fold(self, name, crate, keeps):
        """A fold over a recursive type: a step for each type of its group. `keeps` puts each part beside its result."""
        group = self.group(name, crate)
        walker = Walker(self, crate, group, keeps)

        def make(*steps):
            named = dict(zip(group, steps))
            return lambda value: walker.visit(name, value, named)

        return len(group), make


class Walker:
    """Takes values of recursive types apart, replacing what stands inside by its results."""

    def __init__(self, types, crate, group, keeps):
        self.keeps, self.group, self.steps = keeps, set(group), {}
        self.plans = {name: self.plan(*types.of(name, crate)) for name in group}

    def plan(self, kind, parts):
        """How each part of a variant, or each field, is replaced; None where it stays."""
        if kind == "enum":
            return {name: [self.way(text) for text in texts] for name, texts in parts.items()}
        return [(label, "f_" + mangled(label), self.way(text)) for label, text in parts if self.way(text)]

    def visit(self, name, value, steps):
        plan = self.plans[name]
        if isinstance(plan, dict):
            ways = zip(plan[value[0]], value[1:])
            return steps[name]((value[0], *[way(part, steps) if way else part for way, part in ways]))
        made = [way(getattr(value, slot), steps) for _, slot, way in plan]
        return steps[name](record_with(value, [label for label, _, _ in plan], made))

    def way(self, text):
        """How a part of a type's text is replaced, or None where it holds no type of the group."""
        if not self.group.intersection(re.findall(r"\w+", text)):
            return None
        found = re.match(r"(\w+)<(.*)>$", text, re.S)
        if found is None:
            return self.kept(text) if self.keeps else lambda value, steps: self.visit(text, value, steps)
        inner = self.way(found.group(2))
        if found.group(1) in TRANSPARENT:
            return inner
        if found.group(1) in LISTS:
            return lambda values, steps: [inner(value, steps) for value in values]
        if found.group(1) == "Option":
            return lambda option, steps: None if option is None else (inner(option[0], steps),)
        raise ValueError("a fold through %s" % text)

    def kept(self, text):
        return lambda value, steps: (value, self.visit(text, value, steps))
