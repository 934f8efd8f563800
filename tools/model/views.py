"""Tables: the numbers of each row, how a layout holds them, and how often they were read and written. No blob is kept."""
from accesses import Log
from layouts import image, product
from mappings import blobs_of, counters_of, full, holds_of, lengths_of, range_of
from records import leaves_of


class View:
    """A table: its record, extents, mapping and mode, the rows that are not all 0, and its accesses where they can be shown."""

    def __init__(self, record, extents, mapping, wrap):
        self.record, self.extents, self.mapping, self.wrap = record, extents, mapping, wrap
        self.leaves = leaves_of(record)
        self.declared = [declared_range(leaf) for leaf in self.leaves]
        self.held = [range_of(hold) for hold in holds_of(mapping, self.leaves)]
        self.kept = {}
        self.counters = counters_of(mapping)
        self.log = Log() if self.counters else None

    def count(self):
        return product(self.extents)

    def row(self, number):
        return self.kept.get(number, [0] * len(self.leaves))

    def rows(self):
        return (self.row(number) for number in range(self.count()))

    def index(self, row):
        index = []
        for extent in reversed(self.extents):
            index.insert(0, row % extent)
            row //= extent
        return index

    def row_of(self, index):
        row = 0
        for at, extent in zip(index, self.extents):
            row = row * extent + at
        return row

    def lengths(self):
        return lengths_of(self.mapping, self.leaves, self.extents)

    def blobs(self):
        return blobs_of(self.mapping, self.leaves, self.extents)

    def bytes_of(self, blob):
        """The bytes of one of the blobs."""
        return image(blob, lambda row, leaf: self.row(row)[leaf])

    def memory(self):
        """The bytes of all blobs, one behind the other."""
        return b''.join(map(self.bytes_of, self.blobs()))

    def touch(self, row, leaf, reads, writes):
        if self.log is not None:
            self.log.add(row, leaf, reads, writes)

    def touch_row(self, row, reads, writes):
        """So many accesses of each leaf of a row."""
        for leaf in range(len(self.leaves)):
            self.touch(row, leaf, reads, writes)

    def touch_leaf(self, leaf, reads, writes):
        """So many accesses of a leaf in each row."""
        if self.log is not None:
            for row in range(self.count()):
                self.log.add(row, leaf, reads, writes)

    def touch_all(self, reads, writes):
        """So many accesses of each leaf of each row."""
        for leaf in range(len(self.leaves)):
            self.touch_leaf(leaf, reads, writes)

    def refusal(self, leaf, value):
        """What refuses a value in a strict view: it is outside of the leaf's type, or of what the mapping holds of it. None where it fits."""
        if self.wrap:
            return None
        if not is_within(value, self.declared[leaf]):
            return 'Range'
        return None if is_within(value, self.held[leaf]) else 'Narrow'

    def left(self, leaf, value):
        """What a store of a value leaves: the value in a strict view, and else the number of the leaf's type that is congruent to it, where the
        mapping has room for all bits of the type; where it has not, that of its type which is congruent to what the mapping can hold."""
        if not self.wrap:
            return value
        own, held = self.declared[leaf], self.held[leaf]
        number = congruent(value, own)
        if self.leaves[leaf].kind == 'bool' or count_of(held) >= count_of(own):
            return number
        return congruent(congruent(number, held), own)

    def number_of(self, leaf, low):
        """The number that the bits of a leaf say, read as the mapping holds it, and that as one of the leaf's type."""
        return congruent(congruent(low, self.held[leaf]), self.declared[leaf])


def count_of(limits):
    return limits[1] - limits[0] + 1


def congruent(value, limits):
    """The number within the limits that differs from a value by a multiple of how many numbers lie there."""
    return limits[0] + (value - limits[0]) % count_of(limits)


def is_within(value, limits):
    least, greatest = limits
    return least <= value <= greatest


def declared_range(leaf):
    return (0, 1) if leaf.kind == 'bool' else range_of(full(leaf))
