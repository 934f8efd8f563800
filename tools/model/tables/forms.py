"""Each base form over a record of every type, one of 64 leaves and one of flags alone, in both orders and in each rank, also of no row.

What `layout` tells is worked out by addresses.py, and the model must agree.
"""
from .case import Case
from .nested import written
from .tallies import Tally

KINDS = ['i16', 'bool', 'u64', 'u8', 'i32', 'u16', 'i64', 'i8', 'u32']
RECORDS = {'every_type': KINDS, '64_leaves': [KINDS[leaf % 9] for leaf in range(64)], 'flags': ['bool'] * 5}
EXTENTS = [(0,), (1,), (5,), (2, 3), (3, 1, 2), (2, 0, 3), (2, 1, 2, 2)]


def structs(order):
    return [('aos', form, order) for form in ('packed', 'aligned', 'min')]


def bases(order):
    return structs(order) + [('soa', form, order) for form in ('single', 'aligned', 'multi')] + [('aosoa', lanes, order) for lanes in (1, 3, 8, 64)]


def drawn(name, kinds, extents, mappings):
    """The layout of each mapping in turn; of no row, also how many blobs the columns have."""
    record = ', '.join(f'f{leaf}:{kind}' for leaf, kind in enumerate(kinds))
    script, due = [f'record P {{ {record} }}'], []
    for form, part, order in mappings:
        script += [f'view V : P {written(extents)} as {form}({part}, {order})', 'layout V', 'drop V']
        due.append(Tally('V', record, extents, (form, part, order)).drawn())
    if 0 in extents:
        script += [f'view V : P {written(extents)} as soa(multi, row)', f'bytes V {len(kinds) - 1}', f'bytes V {len(kinds)}']
        due.append(f'line {len(script)}: BadIndex')
    return Case(f'forms_of_{name}_over_{"_".join(map(str, extents))}', ' | '.join(script), ' | '.join(due))


CASES = [drawn(name, kinds, extents, bases('row') + bases('col')) for name, kinds in RECORDS.items() for extents in EXTENTS] + [
    drawn(name, kinds, extents, structs('row')) for name, kinds in RECORDS.items() for extents in [(2,), (17,)]]
