"""The accesses of a table, how often they touch each granule of a blob, and the runs of a blob.

A blob is a list of owners, as layouts.py makes it.
"""
from collections import Counter

MOST_SHOWN = 2 ** 64 - 1


class Log:
    """How often each leaf of each row was read, and written."""

    def __init__(self):
        self.reads, self.writes = Counter(), Counter()

    def add(self, row, leaf, reads, writes):
        self.reads[row, leaf] += reads
        self.writes[row, leaf] += writes

    def of_entry(self, row, leaf):
        return self.reads[row, leaf] + self.writes[row, leaf]

    def of_leaves(self, leaves):
        """The reads and the writes of each of so many leaves."""
        reads, writes = [0] * leaves, [0] * leaves
        for totals, entries in ((reads, self.reads), (writes, self.writes)):
            for (_, leaf), times in entries.items():
                totals[leaf] += times
        return [(shown(times), shown(others)) for times, others in zip(reads, writes)]


def shown(times):
    return min(times, MOST_SHOWN)


def heat_of(blob, granule, log):
    """How often each granule of a blob was touched: once by each access of a leaf of a row that has a bit in it."""
    heat = []
    for begin in range(0, len(blob), 8 * granule):
        entries = {owner[:2] for owner in blob[begin:begin + 8 * granule] if owner is not None}
        heat.append(shown(sum(log.of_entry(row, leaf) for row, leaf in entries)))
    return heat


def is_next(owner, other):
    """Whether two bits side by side are padding, or consecutive bits of one leaf of one row."""
    if owner is None or other is None:
        return owner is other
    row, leaf, bit = owner
    return other == (row, leaf, bit + 1)


def runs_of(blob):
    """The runs of a blob: where each begins, how many bits it has, and the owner of its first bit."""
    begins = [at for at, owner in enumerate(blob) if at == 0 or not is_next(blob[at - 1], owner)]
    return [(begin, end - begin, blob[begin]) for begin, end in zip(begins, begins[1:] + [len(blob)])]
