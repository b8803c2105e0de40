"""Files to which groups of rows are appended, apart from the definitions of `specs/`."""

import struct

from arrow_metadata import Footer
from arrow_reader import Reading, message_at
from arrow_sealed import file_behind, messages_of
from arrow_trees import DICTIONARY_BATCH, RECORD_BATCH, Spec


class OldFile:
    """A file that reads: its schema, its blocks, its dictionaries, and where the last of its blocks ends."""

    def __init__(self, content):
        length = struct.unpack_from("<i", content, len(content) - 10)[0]
        self.content, self.footer_at = content, len(content) - 10 - length
        footer = Footer(content[self.footer_at : len(content) - 10])
        self.schema, self.blocks = footer.schema, {DICTIONARY_BATCH: footer.dictionaries, RECORD_BATCH: footer.records}
        self.specs = tuple(map(spec_of, self.schema.columns))
        blocks = footer.dictionaries + footer.records
        self.end = max((sum(block) for block in blocks), default=0)
        self.is_little_endian, self.bodies = self.schema.order == "little", [body for _, _, body in blocks]

    def bar(self):
        """Why nothing may be appended, or None."""
        if not self.is_little_endian:
            return "big_endian"
        if not self.blocks[RECORD_BATCH]:
            return "no_record_batch"
        if any(body < 0 for body in self.bodies):
            return "negative_body"
        return "block_past_end" if self.end > len(self.content) else None

    def dictionaries(self):
        """The type and the values of each dictionary, by its id."""
        reading = Reading(self.schema, None, None)
        for block in self.blocks[DICTIONARY_BATCH]:
            message, origin = message_at(self.content, block, DICTIONARY_BATCH)
            reading.dictionary(message, self.content, origin, message.known_version())
        return reading.dictionaries

    def appended(self, groups):
        """The file with groups of rows behind its last block."""
        known = {number: (value_type, list(values)) for number, (value_type, values) in self.dictionaries().items()}
        start = self.content[: self.end] + bytes(-self.end % 8)
        blocks = {kind: [tuple(block) for block in blocks] for kind, blocks in self.blocks.items()}
        messages = messages_of(self.specs, groups, False, known)
        return file_behind(start, self.specs, self.schema.normal.metadata, blocks, messages, len(self.content))

    def with_other_tails(self):
        """The file with other bytes behind its last block, and its footer further behind, so that nothing stands where it stood."""
        footer = self.content[max(self.footer_at, self.end) :]
        for filler in (b"\xaa", b"\x55"):
            yield self.content[: self.end] + filler * (max(self.footer_at - self.end, 0) + len(footer)) + footer


def spec_of(column):
    """A column as it is written again."""
    return Spec(column.normal, column.number, tuple(map(spec_of, column.children)))
