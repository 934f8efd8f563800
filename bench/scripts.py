"""The work of bench/scripts by pandas and numpy.

usage: python3 scripts.py print|update|sum|add|sums|copy FILE     as bench/scripts.c
"""
import sys

import numpy
import pandas

TYPES = {'id': 'uint32', 'x': 'int32', 'y': 'int64', 'w': 'uint16'}
LANES, TURNS, ADDS = 8, 3, 10
LIMITS = numpy.iinfo('int32')


def add(x):
    """x + 1 in each row, in 32 bits, where all fit."""
    values = x.astype('int64') + 1
    assert LIMITS.min <= values.min() and values.max() <= LIMITS.max
    return values.astype('int32')


def copied(columns):
    """The columns after some turns from packed records to arrays, to blocks of rows and back."""
    count = len(columns['y'])
    rows = numpy.empty(count, dtype=list(TYPES.items()))
    blocks = numpy.zeros(-(-count // LANES), dtype=[(name, kind, LANES) for name, kind in TYPES.items()])
    arrays = {name: numpy.empty(count, dtype=kind) for name, kind in TYPES.items()}
    whole = count // LANES * LANES
    for name in TYPES:
        rows[name] = columns[name]
    for _ in range(TURNS):
        for name in TYPES:
            arrays[name][:] = rows[name]
            blocks[name][:count // LANES] = arrays[name][:whole].reshape(-1, LANES)
            blocks[name][-1, :count - whole] = arrays[name][whole:]
            rows[name][:whole].reshape(-1, LANES)[:] = blocks[name][:count // LANES]
            rows[name][whole:] = blocks[name][-1, :count - whole]
    return rows


def main(work, file):
    frame = pandas.read_csv(file, dtype=TYPES)
    if work == 'print':
        frame.to_csv(sys.stdout, index=False)
        return
    columns = {name: frame[name].to_numpy() for name in TYPES}
    y = columns['y']
    if work == 'update':
        x = columns['x'].astype('int64')
        y = numpy.where(x > 0, x * 3 + numpy.arange(len(x)) % 7, y)
    elif work == 'add':
        for _ in range(ADDS):
            columns['x'] = add(columns['x'])
    elif work == 'sums':
        for _ in range(ADDS):
            print(y.sum())
    elif work == 'copy':
        y = copied(columns)['y']
    print(y.sum())


main(*sys.argv[1:])
