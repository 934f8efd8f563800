"""Candidates for the layout of a table, and what passes over it cost under each.

A pass is a set of numbers of leaves, and how often it is made. It touches each granule that holds a byte that holds a bit of one of them.
"""
from mappings import COUNTERS, MOST_GRANULE, blobs_of

MOST_PASSES, MOST_CANDIDATES = 16, 16


def bad_advice(granule, passes, listed):
    """The first refusal of the numbers of an advice, or None."""
    if granule not in [2 ** power for power in range(MOST_GRANULE.bit_length())]:
        return 'Granule'
    if len(passes) > MOST_PASSES:
        return 'Passes'
    return 'Candidates' if len(listed) > MOST_CANDIDATES else None


def uncounted(mapping):
    """A mapping without the counters on its top."""
    while mapping[0] in COUNTERS:
        mapping = mapping[-1]
    return mapping


def splits_of(record, listed):
    """The splits of each field of a record, with each listed mapping on each side."""
    return [('split', (name,), first, rest) for name, _ in record[1] for first in listed for rest in listed]


def touched(blobs, leaves, granule):
    """How many granules hold a byte that holds a bit of one of the leaves."""
    return sum(any(owner is not None and owner[1] in leaves for owner in blob[begin:begin + 8 * granule])
               for blob in blobs for begin in range(0, len(blob), 8 * granule))


def cost_of(mapping, cells, extents, passes, granule):
    blobs = blobs_of(mapping, cells, extents)
    return sum(times * touched(blobs, leaves, granule) for leaves, times in passes)
