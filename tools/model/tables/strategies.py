"""Copies by whole blobs, by runs of slots and field by field, and tables laid out anew in each of these ways.

A copy goes by whole blobs where the expressions are the same but for counters, by runs where both are columns or blocks of one order, and
field by field else. No output tells which; each must give the same bytes and counts. What is printed is worked out by addresses.py, and the
model must agree.
"""
from .case import Case
from .copies import name_of
from .nested import asked, Dice, due_of, Table, text_of, written
from .tallies import shown_counts, Tally

ORDERS = ('row', 'col', 'morton')
FIVE = 'a:i8, c { x:u32, y:i16 }[2]'
FOUR = 'h:u16[2], f:bool, k:i64'
THREE = 'a:u8, b:i16, c:bool'
EXTENTS = {'row': [(13,), (3, 5), (2, 3, 3)], 'col': [(5, 3), (3, 1, 2, 2), (11,)], 'morton': [(3, 3), (5, 2), (3, 2, 3)]}


# counters on either side

def counting(inner):
    return ('count', inner)


def heating(granule):
    return lambda inner: ('heat', granule, inner)


def plain(inner):
    return inner


COUNTERS = [(plain, plain), (counting, plain), (plain, heating(8)), (lambda inner: ('count', ('heat', 4, inner)), lambda inner: ('heat', 64, ('count', inner))),
            (heating(1), counting), (counting, counting), (heating(16), plain), (plain, lambda inner: ('count', ('heat', 2, inner)))]


def form_name(mapping):
    """The words of a mapping without its counters."""
    return form_name(mapping[-1]) if mapping[0] in ('count', 'heat') else name_of(text_of(mapping).replace('->', ' to ').replace('[', ' ').replace(']', ' ').replace('.', ' '))


# a copy, and a table laid out anew

def loaded(view, extents, mapping, file):
    return f'load {view} : P {written(extents)} as {text_of(mapping)} from "{file}"'


def moved_case(name, record, extents, source, target):
    """A table that is copied over another one, then laid out anew as that one is; and what both views counted."""
    dice = Dice(sum(name.encode()))
    table, stood = Table(dice, record, extents, source, target), Table(dice, record, extents, target)
    views = [Tally('V', record, extents, source), Tally('W', record, extents, target)]
    anew = Tally('V', record, extents, target)
    views[0].writes, views[0].reads = views[0].entries, views[0].entries
    views[1].writes = 2 * views[1].entries
    anew.writes = anew.entries
    blobs = table.blobs(target)
    script = [f'record P {{ {record} }}', loaded('V', extents, source, 'd.csv'), loaded('W', extents, target, 'e.csv'), 'copy V to W']
    due = []
    for tally in views:
        lines, printed = shown_counts(tally)
        script, due = script + lines, due + printed
    lines, printed = shown_counts(anew)
    script += [*asked('W', blobs), 'print W', *asked('V', table.blobs(source)), f'relayout V as {text_of(target)}', *lines, *asked('V', blobs), 'print V']
    due += [*blobs, table.printed(), *table.blobs(source), *printed, *blobs, table.printed()]
    return Case(name, ' | '.join(script), due_of(due), table.dataset(), {'e.csv': stood.dataset()})


def pair_name(way, source, target):
    return f'{way}_from_{form_name(source)}_to_{form_name(target)}'


def moved_pair(way, number, record, extents, source, target):
    on_source, on_target = COUNTERS[number % len(COUNTERS)]
    return moved_case(pair_name(way, source, target), record, extents, on_source(source), on_target(target))


# whole blobs: the same expression but for counters

SAME = [
    ('aos', 'packed', 'row'), ('aos', 'aligned', 'col'), ('aos', 'min', 'morton'), ('soa', 'single', 'morton'), ('soa', 'aligned', 'row'), ('soa', 'multi', 'col'),
    ('aosoa', 3, 'morton'), ('aosoa', 5, 'col'), ('aosoa', 64, 'row'), ('bitaos', 7, 'morton'), ('bitaos', 33, 'row'), ('bitsoa', 5, 'col'),
    ('split', ('c',), ('soa', 'multi', 'morton'), ('aosoa', 5, 'col')), ('byteswap', ('aosoa', 5, 'col')), ('bytesplit', ('soa', 'aligned', 'morton')),
    ('change', 'u32', 'u8', ('aos', 'min', 'row')), ('change', 'i8', 'i64', ('bitsoa', 20, 'morton')),
    ('split', ('c', 1, 'y'), ('bitaos', 9, 'row'), ('bytesplit', ('byteswap', ('soa', 'single', 'col')))),
]
BLOBS = [moved_case(f'blobs_of_{form_name(mapping)}', FIVE, EXTENTS[ORDERS[at % 3]][at // 3 % 3], on_source(mapping), on_target(mapping))
         for at, mapping in enumerate(SAME) for on_source, on_target in [COUNTERS[at % len(COUNTERS)]]]


# runs: columns and blocks of one order

ARRAYS = [
    (('soa', 'multi'), ('soa', 'single')), (('soa', 'single'), ('soa', 'aligned')), (('soa', 'aligned'), ('soa', 'multi')), (('soa', 'multi'), ('aosoa', 8)),
    (('aosoa', 8), ('soa', 'single')), (('aosoa', 2), ('soa', 'aligned')), (('aosoa', 3), ('aosoa', 5)), (('aosoa', 5), ('aosoa', 3)), (('aosoa', 8), ('aosoa', 12)),
    (('aosoa', 12), ('aosoa', 8)), (('aosoa', 4), ('aosoa', 8)), (('aosoa', 6), ('aosoa', 4)), (('aosoa', 1), ('aosoa', 64)), (('aosoa', 64), ('aosoa', 7)),
]
RUNS = [moved_pair('runs', at + turn, FIVE if (at + turn) % 2 else FOUR, EXTENTS[order][(at + turn) % 3], source + (order,), target + (order,))
        for turn, order in enumerate(ORDERS) for at, (source, target) in enumerate(ARRAYS)]


# field by field: all others, those that only look like the same or lie alike among them

APART = [
    (('soa', 'multi', 'row'), ('soa', 'multi', 'col')), (('soa', 'single', 'morton'), ('soa', 'single', 'row')), (('aosoa', 4, 'row'), ('aosoa', 4, 'morton')),
    (('aosoa', 3, 'col'), ('soa', 'aligned', 'row')), (('aos', 'packed', 'row'), ('soa', 'multi', 'row')), (('soa', 'multi', 'col'), ('aos', 'min', 'col')),
    (('aos', 'packed', 'morton'), ('aos', 'aligned', 'morton')), (('aos', 'packed', 'row'), ('aos', 'packed', 'col')), (('aosoa', 1, 'row'), ('aos', 'packed', 'row')),
    (('byteswap', ('aosoa', 4, 'row')), ('aosoa', 4, 'row')), (('soa', 'multi', 'row'), ('bytesplit', ('soa', 'multi', 'row'))),
    (('byteswap', ('soa', 'single', 'row')), ('bytesplit', ('soa', 'single', 'row'))), (('change', 'bool', 'u8', ('soa', 'multi', 'row')), ('soa', 'multi', 'row')),
    (('soa', 'multi', 'morton'), ('split', ('c',), ('soa', 'multi', 'morton'), ('soa', 'multi', 'morton'))),
    (('split', ('c', 0), ('soa', 'multi', 'row'), ('aosoa', 3, 'row')), ('split', ('c', 1), ('soa', 'multi', 'row'), ('aosoa', 3, 'row'))),
    (('split', ('c',), ('soa', 'multi', 'row'), ('aosoa', 3, 'row')), ('split', ('c',), ('aosoa', 3, 'row'), ('soa', 'multi', 'row'))),
    (('bitaos', 12, 'row'), ('bitaos', 13, 'row')), (('bitaos', 64, 'morton'), ('bitsoa', 64, 'morton')), (('bitsoa', 32, 'row'), ('soa', 'multi', 'row')),
    (('soa', 'multi', 'col'), ('bitsoa', 64, 'col')), (('bitsoa', 6, 'morton'), ('aosoa', 5, 'morton')),
    (('change', 'u32', 'u16', ('aosoa', 3, 'row')), ('change', 'u32', 'u8', ('aosoa', 3, 'row'))), (('aosoa', 3, 'row'), ('change', 'u32', 'u64', ('aosoa', 3, 'row'))),
]
FIELDS = [moved_pair('fields', at, FIVE, EXTENTS[ORDERS[at % 3]][at // 3 % 3], source, target) for at, (source, target) in enumerate(APART)]


# one row, and none; blobs and runs of up to 64 bytes and a rest

WAYS = [('blobs', ('soa', 'multi', 'row'), ('soa', 'multi', 'row')), ('blobs', ('aos', 'aligned', 'morton'), ('aos', 'aligned', 'morton')),
        ('runs', ('soa', 'aligned', 'morton'), ('aosoa', 3, 'morton')), ('runs', ('aosoa', 5, 'col'), ('aosoa', 2, 'col')), ('fields', ('aosoa', 4, 'row'), ('bitaos', 64, 'morton'))]
NUMBERS = {0: [(0,), (2, 0), (0, 3), (0, 0, 2)], 1: [(1,), (1, 1), (1, 1, 1)]}
FEW = [moved_case(f'{pair_name(way, source, target)}_of_{"one" if rows else "no"}_row', THREE, each[at % len(each)], counting(source), heating(4)(target))
       for rows, each in NUMBERS.items() for at, (way, source, target) in enumerate(WAYS)]
SIZES = [moved_case(f'{way}_of_{rows}_bytes_a_leaf', 'a:u8, b:i8', (rows,), source, target)
         for way, source, target in [('blobs', ('soa', 'multi', 'row'), ('soa', 'multi', 'row')), ('runs', ('soa', 'multi', 'row'), ('soa', 'single', 'row')),
                                     ('runs_in_blocks', ('aosoa', 64, 'col'), ('soa', 'aligned', 'col'))]
         for rows in (63, 64, 65, 127, 128, 129)]
LONG = [moved_case(f'runs_of_{lanes}_numbers_of_64_bits_to_runs_of_{others}', 'a:u64, b:u8', (100,), ('aosoa', lanes, 'row'), ('aosoa', others, 'row'))
        for lanes, others in ((64, 40), (33, 8), (9, 64))]


# a value that the other mapping does not hold

def past_held(table, target, leaf, below):
    """The number just past what a mapping holds of a leaf, below it where that is asked and the leaf has a sign."""
    least, greatest = table.limits(target)[leaf]
    return least - 1 if below and table.cells[leaf][1][0] == 'i' else greatest + 1


def narrow_case(number, way, source, target, spots):
    """A table that is copied as long as it is held; then numbers that are not, in these rows and leaves, of which the first is told."""
    extents = EXTENTS[ORDERS[number % 3]][number % 3]
    name = pair_name(f'narrow_{way}', source, target)
    table = Table(Dice(number), FIVE, extents, source, target)
    blobs = table.blobs(target)
    script = [f'record P {{ {FIVE} }}', loaded('V', extents, source, 'd.csv'), f'view W : P {written(extents)} as {text_of(target)}', 'copy V to W', *asked('W', blobs)]
    for row, leaf in spots:
        script.append(f'set V{written(table.indices[row])}.{table.cells[leaf][0]} = {past_held(table, target, leaf, number % 2 == 1)}')
    row, leaf = min((row % len(table.indices), leaf) for row, leaf in spots)
    script.append('copy V to W' if way == 'copy' else f'relayout V as {text_of(target)}')
    return Case(name, ' | '.join(script), due_of(blobs + [f'line {len(script)}: Narrow record {row} leaf {table.cells[leaf][0]}']), table.dataset())


# rows, and leaves (a, c[0].x, c[0].y, c[1].x, c[1].y); row -1 is the last
UNHELD = [
    (('aos', 'packed', 'row'), ('bitaos', 5, 'row'), [(0, 0)]), (('soa', 'multi', 'col'), ('bitsoa', 12, 'col'), [(-1, 4)]),
    (('soa', 'multi', 'row'), ('bitsoa', 31, 'morton'), [(3, 3), (3, 1)]), (('aosoa', 3, 'morton'), ('change', 'u32', 'i32', ('aosoa', 3, 'morton')), [(2, 3), (5, 1)]),
    (('soa', 'single', 'col'), ('change', 'i16', 'i8', ('soa', 'single', 'col')), [(4, 2), (1, 4), (-1, 2)]), (('bitaos', 20, 'row'), ('bitaos', 19, 'row'), [(1, 1)]),
    (('aosoa', 8, 'morton'), ('split', ('c', 1), ('bitsoa', 10, 'morton'), ('aosoa', 8, 'morton')), [(-1, 3)]),
    (('byteswap', ('aos', 'min', 'row')), ('change', 'i8', 'u8', ('change', 'u8', 'u16', ('aos', 'min', 'row'))), [(-1, 0), (10, 0)]),
    (('aosoa', 12, 'col'), ('split', ('a',), ('change', 'i8', 'u16', ('bitaos', 6, 'row')), ('aosoa', 12, 'col')), [(6, 0), (2, 0)]),
]
NARROW = [narrow_case(at, way, source, target, spots) for at, (source, target, spots) in enumerate(UNHELD) for way in ('copy', 'relayout')]


# a view onto itself

def itself(mapping):
    """A view that is copied onto itself twice."""
    extents = EXTENTS['morton'][0]
    table, tally = Table(Dice(5), FIVE, extents, mapping), Tally('V', FIVE, extents, mapping)
    tally.writes, tally.reads = 3 * tally.entries, 2 * tally.entries
    lines, printed = shown_counts(tally)
    script = [f'record P {{ {FIVE} }}', loaded('V', extents, mapping, 'd.csv'), 'copy V to V', 'copy V to V', *lines, *asked('V', table.blobs(mapping)), 'print V']
    return Case(f'onto_itself_under_{name_of(text_of(mapping))}', ' | '.join(script), due_of([*printed, *table.blobs(mapping), table.printed()]), table.dataset())


ITSELF = [itself(mapping) for mapping in (
    ('count', ('soa', 'multi', 'morton')), ('heat', 4, ('aosoa', 3, 'col')), ('count', ('heat', 8, ('bitaos', 9, 'morton'))), ('heat', 2, ('count', ('bytesplit', ('aos', 'min', 'row')))))]

CASES = BLOBS + RUNS + FIELDS + FEW + SIZES + LONG + NARROW + ITSELF
