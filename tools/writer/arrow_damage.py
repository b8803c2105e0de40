"""Damages inputs: numbers, references and texts of metadata, bodies, framing, single bytes and lengths."""

import struct

from laying import FLOATING_POINT, Number, Structs, Table, Text, Vector

EXTREMES = (0, 1, -1, 2, 3, 4, 5, 7, 8, 21, 22, 63, 64, 65, 127, 128, 255, 2**31 - 1, -(2**31), 2**32, 2**40, 2**63 - 1, -(2**63))


# What is damaged: bytes and length of the whole, metadata, bodies and single buffers, numbers of slots, framing,
# a dictionary that is left out, dictionaries of several types under one id, what a type's table says, and what is not implemented.
KINDS = (
    "byte", "cut", "tree", "tree", "tree", "structs", "structs", "body", "buffer", "buffer", "buffer", "count", "count",
    "framing", "missing", "clash", "type", "type", "feature",
)


# The slots of a field's table, and those of its type's tag and table.
FIELD_SLOTS, TAG_SLOT, TYPE_SLOT = 7, 2, 3

# Where a record batch has its compression, and a dictionary batch its values and whether it is a delta.
COMPRESSION_SLOT, VALUES_SLOT, DELTA_SLOT = 3, 1, 2


def things_in(tree, found):
    """All objects and numbers of a tree, each with the object that holds it and where."""
    if isinstance(tree, Table):
        for index, slot in enumerate(tree.slots):
            if slot is not None:
                found.append((tree, index, slot))
                things_in(slot, found)
    elif isinstance(tree, Vector):
        for index, item in enumerate(tree.items):
            found.append((tree, index, item))
            things_in(item, found)
    return found


def parts_of_types(found):
    """What stands in the tables of types, each with its table and where."""
    tables = [
        thing for owner, index, thing in found
        if isinstance(owner, Table) and len(owner.slots) == FIELD_SLOTS and index == TYPE_SLOT and isinstance(thing, Table)
    ]
    return [(table, index, slot) for table in tables for index, slot in enumerate(table.slots) if slot is not None]


def is_record_batch(thing):
    return isinstance(thing, Table) and len(thing.slots) > 2 and all(isinstance(slot, Structs) for slot in thing.slots[1:3])


def features(found):
    """Each place where a float, a compression or a dictionary's delta may stand, with what stands there."""
    tables = [thing for _, _, thing in found if isinstance(thing, Table)]
    floats = [(table, TAG_SLOT, Number(1, FLOATING_POINT)) for table in tables if len(table.slots) == FIELD_SLOTS]
    compressions = [(table, COMPRESSION_SLOT, Table()) for table in tables if is_record_batch(table)]
    deltas = [
        (table, DELTA_SLOT, Number(1, 1)) for table in tables
        if len(table.slots) > VALUES_SLOT and is_record_batch(table.slots[VALUES_SLOT])
    ]
    return floats + compressions + deltas


def holds(tree, thing):
    """Whether a thing stands in a tree, so that a reference to the tree from there would not end."""
    return tree is thing or any(other is thing for _, _, other in things_in(tree, []))


class NoDamage:
    """Leaves everything as it is."""

    kinds = ()

    def is_due(self, *kinds):
        return None

    def same(self, thing):
        return thing

    tree = body = framing = count = buffer = same


class Damage:
    """Damages one input in one or two places."""

    def __init__(self, random):
        self.random = random
        self.kinds = [random.choice(KINDS) for _ in range(random.choice((1, 1, 1, 2)))]
        self.left = list(self.kinds)
        self.skips = random.randint(0, 3)

    def is_due(self, *kinds):
        """Whether a damage of such a kind is to be done here; earlier places are sometimes skipped."""
        for kind in kinds:
            if kind in self.left:
                if self.skips > 0 and self.random.random() < 0.6:
                    self.skips -= 1
                    return None
                self.left.remove(kind)
                return kind
        return None

    # ---- metadata

    def tree(self, tree):
        kind = self.is_due("tree", "structs", "type", "feature")
        if kind is None:
            return tree
        found = things_in(tree, [])
        if kind == "feature":
            for owner, index, thing in self.random.sample(features(found), min(1, len(features(found)))):
                self.change(owner, index, thing)
            return tree
        if self.random.random() < 0.1:
            return self.filled(tree, found)
        structs = [entry for entry in found if isinstance(entry[2], Structs) and entry[2].bytes]
        chosen = {"structs": structs, "type": parts_of_types(found)}.get(kind) or found
        owner, index, thing = self.random.choice(chosen)
        self.change(owner, index, self.changed(owner, thing, found))
        return tree

    def filled(self, tree, found):
        """Something where a slot was left out, such as a compression."""
        empty = [(thing, index) for thing in [tree] + [entry[2] for entry in found] if isinstance(thing, Table)
                 for index, slot in enumerate(thing.slots) if slot is None]
        if empty:
            owner, index = self.random.choice(empty)
            others = [other for _, _, other in found if not isinstance(other, Number) and not holds(other, owner)]
            self.change(owner, index, self.random.choice(others + [Table()]))
        return tree

    def change(self, owner, index, thing):
        if isinstance(owner, Table):
            before = owner.slots + (None,) * (index - len(owner.slots))
            owner.slots = before[:index] + (thing,) + before[index + 1 :]
        elif thing is None:
            del owner.items[index]
        else:
            owner.items[index] = thing

    def changed(self, owner, thing, found):
        """Another thing in the place of one; None leaves it out."""
        chance = self.random.random()
        if isinstance(thing, Number):
            return None if chance < 0.15 else self.number(thing)
        if chance < 0.15:
            return None
        if chance < 0.25:
            others = [other for _, _, other in found if not isinstance(other, Number) and not holds(other, owner)]
            return self.random.choice(others)
        if isinstance(thing, Structs):
            return self.structs(thing)
        if isinstance(thing, Text):
            return Text(self.random.choice((b"", b"\xff", b"\xc3", thing.bytes[:-1], thing.bytes + b"x")))
        if isinstance(thing, Vector) and thing.items:
            item = self.random.choice(thing.items)
            return Vector(self.random.choice((thing.items[:-1], thing.items + [item], [], thing.items[::-1])))
        return thing

    def number(self, thing):
        now = int.from_bytes(thing.bytes, "little", signed=True)
        wanted = self.random.choice((*EXTREMES, now + 1, now - 1, now + 8, now * 2, now ^ 1))
        low, high = -(1 << 8 * thing.width - 1), (1 << 8 * thing.width) - 1
        return Number(thing.width, max(low, min(high, wanted)), None)

    def structs(self, thing):
        """One number of the structs changed, or one struct more or less."""
        made = Structs([])
        made.count, content = thing.count, bytearray(thing.bytes)
        if thing.count and self.random.random() < 0.85:
            at = self.random.randrange(len(content) // 4) * 4
            width = 8 if at % 8 == 0 and at + 8 <= len(content) and self.random.random() < 0.9 else 4
            now = int.from_bytes(content[at : at + width], "little", signed=True)
            wanted = self.random.choice((*EXTREMES, now + 1, now - 1, now + 8, now - 8, now + 64))
            content[at : at + width] = (wanted % (1 << 8 * width)).to_bytes(width, "little")
        elif thing.count and self.random.random() < 0.6:
            size = len(content) // thing.count
            made.count, content = thing.count - 1, content[: len(content) - size]
        else:
            made.count = self.random.choice((thing.count + 1, 2**32 - 1, 0))
        made.bytes = bytes(content)
        return made

    # ---- columns

    def count(self, count):
        """Another number of slots."""
        if not self.is_due("count"):
            return count
        return count + self.random.choice((1, -1, 2, -2, 8, 9))

    def buffer(self, content):
        """A buffer with another byte, or shorter."""
        if not content or not self.is_due("buffer"):
            return content
        out = bytearray(content)
        if self.random.random() < 0.15:
            return bytes(out[:-1])
        out[self.random.randrange(len(out))] = self.random.choice((0, 1, 2, 5, 127, 128, 200, 255))
        return bytes(out)

    # ---- the rest

    def body(self, body):
        if not body or not self.is_due("body"):
            return body
        out = bytearray(body)
        for _ in range(self.random.choice((1, 1, 3))):
            out[self.random.randrange(len(out))] = self.random.choice((0, 1, 127, 128, 255, self.random.randrange(256)))
        return bytes(out) if self.random.random() < 0.8 else bytes(out[: self.random.randrange(len(out))])

    def framing(self, head):
        if not self.is_due("framing"):
            return head
        now = struct.unpack("<i", head[-4:])[0]
        wanted = self.random.choice((0, -1, -2, now + 1, now - 1, now + 8, now - 8, 2**31 - 1, -(2**31), 4))
        return self.random.choice((b"", head[:-4])) + struct.pack("<i", max(-(2**31), min(2**31 - 1, wanted)))

    def finish(self, content):
        """What is done to the bytes as a whole."""
        for kind in self.left:
            if kind == "cut":
                content = content[: self.random.randrange(len(content) + 1)]
            elif content:
                out = bytearray(content)
                for _ in range(self.random.choice((1, 1, 2))):
                    place = self.random.randrange(len(out))
                    out[place] = self.random.choice((0, 127, 128, 255, self.random.randrange(256), out[place] ^ 1))
                content = bytes(out)
        return content
