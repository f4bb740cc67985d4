"""How many searches of an echo file are answered and which refusal follows, from document 01's table of refusals and their order. Whether a tree has more than
512 nodes (13) is left open: `builds` tells whether a build was tried. 20 cannot hold: there is room for the text of as many labels as 11 allows."""
import struct

from echo_file import is_search, record_end

LONGEST = 65536


class Outcome:
    """A file as far as it was read."""

    def __init__(self, data):
        self.dimension = self.vectors = self.entries = self.answers = 0
        self.started = self.builds = False
        self.refusal = 18 if len(data) > LONGEST else self.first_refusal(data)

    def first_refusal(self, data):
        at = 0
        while at < len(data):
            end = record_end(data, at, self.dimension)
            if end is None:
                return 16
            refusal = self.carry(data[at:end])
            if refusal:
                return refusal
            at = end
        return None

    def carry(self, record):
        """What a complete record is refused for."""
        if (record[1] == 1) == self.started:
            return 17
        if record[1] == 1:
            return self.settings(*struct.unpack("<5I", record[2:]))
        if is_search(record):
            return self.search(record)
        return self.add(record)

    def settings(self, dimension, branching, leaf_size, ef, beam):
        if not 1 <= dimension <= 128:
            return 1
        if dimension > 16 or not 1 <= branching <= 64 or leaf_size > 4096 or ef > 65537 or beam > 65535:
            return 2
        self.started, self.dimension = True, dimension
        return None

    def not_finite(self, record):
        patterns = struct.unpack(f"<{self.dimension}I", record[len(record) - 4 * self.dimension:])
        return any(pattern & 0x7F800000 == 0x7F800000 for pattern in patterns)

    def add(self, record):
        labels = record[6]
        if self.builds:
            return 5
        if self.not_finite(record):
            return 8
        if self.vectors == 128:
            return 10
        if self.entries + labels > 256:
            return 11
        self.vectors += 1
        self.entries += labels
        return None

    def search(self, record):
        if self.vectors == 0:
            return 12
        self.builds = True
        if self.not_finite(record):
            return 8
        if struct.unpack_from("<H", record, 2)[0] > 256:
            return 14
        self.answers += 1
        return None
