"""Forms in forms: each form over each base form in each order, and thrown expressions of each depth, over all types and widths.

What is printed is worked out by addresses.py, and the model must agree.
"""
import itertools
import re

from .addresses import BYTES, held, laid, memory
from .bit_fields import TYPES, refusal
from .case import Case
from .copies import shown

ORDERS = ('row', 'col', 'morton')


class Dice:
    """Numbers that look thrown, and are the same each time."""

    def __init__(self, seed):
        self.state = seed

    def below(self, most):
        self.state = (self.state * 6364136223846793005 + 1442695040888963407) % 2 ** 64
        return (self.state >> 33) % most

    def of(self, items):
        return items[self.below(len(items))]


# expressions as texts, and the paths of a record

def text_of(mapping):
    form = mapping[0]
    if form == 'split':
        return f'split({path_text(mapping[1])}, {text_of(mapping[2])}, {text_of(mapping[3])})'
    if form == 'change':
        return f'change({mapping[1]}->{mapping[2]}, {text_of(mapping[3])})'
    if form in ('bitaos', 'bitsoa') and isinstance(mapping[1], tuple):
        number, entries = mapping[1]
        return f'{form}({number} {{ {", ".join(f"{path}: {width}" for path, width in entries)} }}, {mapping[2]})'
    inner = [text_of(part) if isinstance(part, tuple) else str(part) for part in mapping[1:]]
    return f'{form}({", ".join(inner)})'


def path_text(path):
    return ''.join(f'[{step}]' if isinstance(step, int) else '.' + step for step in path)[1:]


def steps_of(text):
    return tuple(int(number) if number else name for name, number in re.findall(r'(\w*[a-z]\w*)|\[(\d+)\]', text))


def fronts_of(cells):
    """The paths that some of the cells are under."""
    return sorted({path[:end] for path, _ in cells for end in [at for at, sign in enumerate(path) if sign in '.['] + [len(path)]})


def choices_of(cells):
    """The paths that some of the cells are under, and some are not."""
    return [steps_of(text) for text in fronts_of(cells) if 0 < len(sides(text, cells)[0]) < len(cells)]


def sides(text, cells):
    first = [cell for cell in cells if cell[0] == text or cell[0].startswith((text + '.', text + '['))]
    return first, [cell for cell in cells if cell not in first]


# tables: rows of numbers, and what a script prints of them

class Table:
    """A record over extents, its numbers thrown among those that each of some mappings holds."""

    def __init__(self, dice, record, extents, *mappings):
        self.record, self.extents = record, extents
        self.cells = cells_of(record)
        self.indices = list(itertools.product(*map(range, extents)))
        self.rows = [[thrown(dice, within(ranges)) for ranges in zip(*map(self.limits, mappings))] for _ in self.indices]

    def places(self, mapping):
        lengths, at = laid(mapping, self.cells, self.extents)
        return lengths, [[at(index, cell) for cell in range(len(self.cells))] for index in self.indices]

    def limits(self, mapping):
        """What fits each leaf."""
        places = self.places(mapping)[1][0]
        return [(max(TYPES[kind][0], held(place)[0]), min(TYPES[kind][1], held(place)[1])) for (_, kind), place in zip(self.cells, places)]

    def blobs(self, mapping):
        lengths, places = self.places(mapping)
        entries = [entry for row, numbers in zip(places, self.rows) for entry in zip(row, numbers)]
        return [shown(blob.hex(' ')) for blob in memory(lengths, entries)]

    def unheld(self, mapping):
        """The first row and leaf whose number a mapping does not hold, or None."""
        for row, numbers in enumerate(self.rows):
            for leaf, (number, (least, greatest)) in enumerate(zip(numbers, self.limits(mapping))):
                if not least <= number <= greatest:
                    return row, leaf
        return None

    def dataset(self):
        lines = [','.join(path for path, _ in self.cells)] + [','.join(map(str, row)) for row in self.rows]
        return ''.join(line + '\n' for line in lines).encode()

    def printed(self):
        return self.dataset().decode().replace('\n', ' | ')[:-3]


def within(ranges):
    """What lies in each of some ranges."""
    return max(least for least, _ in ranges), min(greatest for _, greatest in ranges)


def thrown(dice, limits):
    least, greatest = limits
    near = [number for number in (least, greatest, greatest - 1, least + 1, 0, 1, -1) if least <= number <= greatest]
    return dice.of(near) if dice.below(2) else least + dice.below(2 ** 31) * dice.below(2 ** 31) * 4 % (greatest - least + 1)


RECORDS = {
    'a:u8, b:i16, c:bool': [('a', 'u8'), ('b', 'i16'), ('c', 'bool')],
    'p { x:i32, y:i8 }, id:u64': [('p.x', 'i32'), ('p.y', 'i8'), ('id', 'u64')],
    'h:u16[2], f:bool, k:i64': [('h[0]', 'u16'), ('h[1]', 'u16'), ('f', 'bool'), ('k', 'i64')],
    'a:i8, c { x:u32, y:i16 }[2]': [('a', 'i8'), ('c[0].x', 'u32'), ('c[0].y', 'i16'), ('c[1].x', 'u32'), ('c[1].y', 'i16')],
    'u:u64, s:i64': [('u', 'u64'), ('s', 'i64')],
    'f:bool, a:u8, b:u16, c:u32, d:u64, e:i8, g:i16, h:i32, k:i64': [
        ('f', 'bool'), ('a', 'u8'), ('b', 'u16'), ('c', 'u32'), ('d', 'u64'), ('e', 'i8'), ('g', 'i16'), ('h', 'i32'), ('k', 'i64')],
}


def cells_of(record):
    """The paths and types of the leaves of one of these records, or of one that has a list of leaves alone."""
    return RECORDS[record] if record in RECORDS else [tuple(field.split(':')) for field in record.split(', ')]


def asked(view, blobs):
    return [f'bytes {view} {blob}' for blob in range(len(blobs))]


def due_of(lines):
    return ' | '.join(line for line in lines if line)


# each form over each base form

def bases(order):
    return [('aos', 'packed', order), ('aos', 'aligned', order), ('aos', 'min', order), ('soa', 'single', order), ('soa', 'aligned', order), ('soa', 'multi', order),
            ('aosoa', 3, order), ('bitaos', 64, order), ('bitsoa', 64, order)]


OVER = {
    'split_first': lambda base: ('split', ('c', 0), base, ('aos', 'packed', 'row')),
    'split_rest': lambda base: ('split', ('c', 1, 'y'), ('soa', 'multi', 'row'), base),
    'byteswap': lambda base: ('byteswap', base),
    'bytesplit': lambda base: ('bytesplit', base),
    'change_to_less': lambda base: ('change', 'u32', 'u8', base),
    'change_to_more': lambda base: ('change', 'i8', 'i64', base),
    'byteswap_of_a_split': lambda base: ('byteswap', ('split', ('c',), base, ('soa', 'single', 'col'))),
    'bytesplit_of_a_split': lambda base: ('bytesplit', ('split', ('c', 1, 'x'), base, base)),
}


def over_each_base(name, form, order):
    """A table that is copied to a view of the form over each base form, and laid out anew under each."""
    record = 'a:i8, c { x:u32, y:i16 }[2]'
    mappings = [form(base) for base in bases(order)]
    table = Table(Dice(len(name) + len(order)), record, (2, 3), mappings[0])
    script, due = [f'record P {{ {record} }}', 'load V : P [2, 3] as aos(packed, row) from "d.csv"'], []
    for at, mapping in enumerate(mappings):
        blobs = table.blobs(mapping)
        script += [f'view To{at} : P [2, 3] as {text_of(mapping)}', f'copy V to To{at}', *asked(f'To{at}', blobs), f'print To{at}']
        due += blobs + [table.printed()]
    return Case(f'nested_{name}_over_each_base_in_{order}_order', ' | '.join(script), due_of(due), table.dataset())


EACH = [over_each_base(name, form, order) for name, form in OVER.items() for order in ORDERS]


# thrown expressions

def thrown_base(dice, cells, is_full):
    form, order = dice.of(['aos', 'soa', 'aosoa', 'bitaos', 'bitsoa']), dice.of(ORDERS)
    if form in ('aos', 'soa'):
        return (form, dice.of({'aos': ['packed', 'aligned', 'min'], 'soa': ['single', 'aligned', 'multi']}[form]), order)
    if form == 'aosoa':
        return (form, 1 + dice.below(9), order)
    least = max(8 * BYTES[kind] for _, kind in cells) if is_full else 1
    return (form, least + dice.below(65 - least), order)


def thrown_form(dice, cells, depth, is_full):
    """An expression of just this depth over these cells; a full one holds each of them whole."""
    if depth == 1:
        return thrown_base(dice, cells, is_full)
    form = dice.of(['split', 'split', 'byteswap', 'bytesplit', 'change', 'change'])
    if form == 'byteswap':
        return (form, thrown_form(dice, cells, depth - 1, True))
    if form == 'bytesplit':
        return (form, thrown_form(dice, [(path, 'u8') for path, kind in cells for _ in range(BYTES[kind])], depth - 1, True))
    if form == 'split' and choices_of(cells):
        path = dice.of(choices_of(cells))
        first, rest = sides(path_text(path), cells)
        depths = [depth - 1, 1 + dice.below(depth - 1)]
        swap = dice.below(2)
        return (form, path, thrown_form(dice, first, depths[swap], is_full), thrown_form(dice, rest, depths[1 - swap], is_full))
    kinds = {kind for _, kind in cells}
    of = dice.of(sorted(kinds)) if not is_full and dice.below(4) else dice.of(sorted(set(TYPES) - kinds) or ['i64'])
    to = of if is_full and of in kinds else dice.of(sorted(set(TYPES) - {'bool'}))
    return ('change', of, to, thrown_form(dice, [(path, to if kind == of else kind) for path, kind in cells], depth - 1, is_full))


EXTENTS = [(3,), (1,), (5,), (2, 2), (2, 3), (3, 1), (1, 2, 2), (2, 1, 3), (2, 1, 2, 1)]


def written(index):
    return '[' + ', '.join(map(str, index)) + ']'


def thrown_case(number, depth, form_of=thrown_form):
    """A dataset under a thrown expression; the same under another one, if it holds it; and a number past what that one holds."""
    dice = Dice(1000 * depth + number)
    record, extents = dice.of(sorted(RECORDS)), dice.of(EXTENTS)
    first, second = (form_of(dice, RECORDS[record], depth, False) for _ in range(2))
    table = Table(dice, record, extents, first)
    blobs = table.blobs(first)
    script = [f'record P {{ {record} }}', f'mapping M = {text_of(first)}', f'load V : P {written(extents)} as M from "d.csv"', *asked('V', blobs), 'print V',
              f'view W : P {written(extents)} as M', 'copy V to W', *asked('W', blobs), f'relayout V as {text_of(second)}']
    due = blobs + [table.printed()] + blobs
    unheld = table.unheld(second)
    if unheld is None:
        anew = table.blobs(second)
        leaf = dice.below(len(table.cells))
        row = dice.below(len(table.indices))
        path, kind = table.cells[leaf]
        past = table.limits(second)[leaf][1] + 1
        script += [*asked('V', anew), 'print V', f'set V{written(table.indices[row])}.{path} = {past}']
        due += anew + [table.printed(), f'line {len(script)}: {refusal(kind, past)} record {row} leaf {path}']
    else:
        row, leaf = unheld
        due.append(f'line {len(script)}: Narrow record {row} leaf {table.cells[leaf][0]}')
    return Case(f'nested_thrown_of_depth_{depth}_number_{number}', ' | '.join(script), due_of(due), table.dataset())


THROWN = [thrown_case(number, depth) for depth in range(1, 9) for number in range(15)]

# kernels and updates over forms in forms

FORMS = [
    ('bytesplit(byteswap(aos(aligned, morton)))', 'swapped_and_split_bytes'), ('change(i32->i64, byteswap(soa(single, col)))', 'big_endian_numbers_of_64_bits'),
    ('split(x, bitaos(4, morton), byteswap(aosoa(3, col)))', 'bits_beside_big_endian_lanes'), ('split(y, bytesplit(soa(multi, morton)), bitsoa(5, row))', 'bytes_beside_bits'),
    ('change(i32->i8, change(i16->i32, aos(min, morton)))', 'lesser_and_greater_types'), ('byteswap(split(z, aosoa(2, row), bytesplit(soa(aligned, col))))', 'a_split_of_bytes_in_reverse_order'),
    ('split(z, bitsoa(3, col), change(i32->i16, bytesplit(split(x, aosoa(4, morton), soa(multi, row)))))', 'splits_in_splits'),
    ('bitaos(7, morton)', 'bits_along_a_curve'), ('bitsoa(6, col)', 'bits_by_columns'),
]
RUNS = ('update V set x = 3 * i0 + i1, y = 10, z = 4 | kernel V axpy(-3, x, y) lanes 4 | kernel V sum(y) lanes 2 | kernel V least(y) lanes 8 | kernel V greatest(x) lanes 1 | '
        'kernel V clamp(y, 0, 5) lanes 16 | kernel V count_where(y > 3) lanes 2 | update V where x % 2 == 0 set z = z + 1 | print V | kernel V axpy(-1, y, z) lanes 4')
UNDER = [Case(f'nested_under_kernels_{name}', f'record P {{ x:i16, y:i32, z:u8 }} | view V : P [2, 3] as {form} | {RUNS}',
              '15 | -5 | 5 | 3 | x,y,z | 0,5,5 | 1,5,4 | 2,4,5 | 3,1,4 | 4,0,5 | 5,0,4 | line 12: Range record 1 leaf z') for form, name in FORMS]

CASES = EACH + THROWN + UNDER
