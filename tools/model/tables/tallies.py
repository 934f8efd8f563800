"""Thrown scripts over counted views of thrown expressions: each command is thrown with the accesses that it makes.

What counts, heat and layout print is worked out here by addresses.py and by tallies of lists, and the model must agree. All numbers of the
tables stay 0, so that each mapping holds them.
"""
import itertools


from .addresses import BYTES, good_cuts, laid, runs, touched
from .case import Case
from .copies import shown as shown_bytes
from .files import spelled
from .nested import cells_of, Dice, EXTENTS, RECORDS, text_of, thrown_form, written

GRANULES = [1, 1, 2, 2, 4, 8, 16, 64, 4096]
MOST_LAYOUT_BYTES = 300


class Tally:
    """A view: its record, extents and mapping, and the reads and writes of each row and leaf."""

    def __init__(self, name, record, extents, mapping):
        self.name, self.cells, self.extents, self.mapping = name, cells_of(record), extents, mapping
        self.indices = list(itertools.product(*map(range, extents)))
        self.entries = [(row, leaf) for row in range(len(self.indices)) for leaf in range(len(self.cells))]
        self.reads, self.writes = [], []

    def counted(self):
        lines = [f'{path},{sum(leaf == of for _, of in self.reads)},{sum(leaf == of for _, of in self.writes)}'
                 for leaf, (path, _) in enumerate(self.cells)]
        return ' | '.join(['leaf,reads,writes'] + lines)

    def places(self):
        lengths, at = laid(self.mapping, self.cells, self.extents)
        return lengths, {(row, leaf): at(self.indices[row], leaf) for row, leaf in self.entries}

    def heated(self, granule):
        _, places = self.places()
        heat = {}
        for entry in self.reads + self.writes:
            for there in touched(granule, places[entry]):
                heat[there] = heat.get(there, 0) + 1
        return ' | '.join(['blob,granule,accesses'] + [f'{blob},{number},{times}' for (blob, number), times in sorted(heat.items())])

    def drawn(self):
        lines = [f'{blob},{bit},{bits},-,-,-' if row is None else f'{blob},{bit},{bits},{row},{self.cells[leaf][0]},{low}'
                 for blob, bit, bits, row, leaf, low in runs(*self.places())]
        return ' | '.join(['blob,bit,bits,record,leaf,low'] + lines)


# expressions: a text, and a function from an index to the value and the leaves that are read

def thrown_expr(dice, tally, depth):
    kind = dice.of(['path', 'path', 'path', 'index', 'number']) if depth == 0 else dice.of(['and', 'or', '+', '==', '<', 'min', 'not', '-'])
    if kind == 'path':
        leaf = dice.below(len(tally.cells))
        return tally.cells[leaf][0], lambda index: (0, [leaf])
    if kind == 'index':
        dimension = dice.below(len(tally.extents))
        return f'i{dimension}', lambda index: (index[dimension], [])
    if kind == 'number':
        number = dice.below(3)
        return str(number), lambda index: (number, [])
    left, of_left = thrown_expr(dice, tally, dice.below(depth))
    right, of_right = thrown_expr(dice, tally, dice.below(depth))
    if kind == 'not':
        return f'(not {left})', lambda index: (int(of_left(index)[0] == 0), of_left(index)[1])
    if kind == '-':
        return f'(-{left})', lambda index: (-of_left(index)[0], of_left(index)[1])
    text = f'min({left}, {right})' if kind == 'min' else f'({left} {kind} {right})'
    return text, lambda index: joined(kind, of_left(index), of_right(index))


def joined(kind, left, right):
    (first, reads), (second, more) = left, right
    if kind == 'and':
        return (0, reads) if first == 0 else (int(second != 0), reads + more)
    if kind == 'or':
        return (1, reads) if first != 0 else (int(second != 0), reads + more)
    value = {'+': first + second, '==': int(first == second), '<': int(first < second), 'min': min(first, second)}[kind]
    return value, reads + more


# commands: each gives its line and what is printed, and adds its accesses

def thrown_set(dice, tally):
    row, leaf = dice.of(tally.entries)
    text, of_text = thrown_expr(dice, tally, dice.below(4))
    tally.reads += [(row, read) for read in of_text(tally.indices[row])[1]]
    tally.writes.append((row, leaf))
    return f'set {tally.name}{written(tally.indices[row])}.{tally.cells[leaf][0]} = 0 * {text}', []


def thrown_update(dice, tally):
    return f'update {tally.name} {thrown_sets(dice, tally)}', []


def thrown_actors(dice, tally):
    """An update by actors, at up to three cuts that leave them bytes of their own."""
    line = f'update {tally.name} {thrown_sets(dice, tally)}'
    lengths, places = tally.places()
    cuts = [dice.of(good_cuts(places, len(tally.indices))) for _ in range(dice.below(4))]
    memory = [shown_bytes(' '.join(['00'] * (length // 8))) for length in lengths]
    return f'{line} actors {written(sorted(cuts))} schedule {dice.below(2 ** 31)} turns {dice.below(100)}', [line for line in memory if line]


def thrown_sets(dice, tally):
    """A filter or none, and what is set."""
    where, of_where = thrown_expr(dice, tally, 1 + dice.below(3)) if dice.below(3) else (None, lambda index: (1, []))
    first = dice.below(len(tally.cells))
    leaves = [(first + step) % len(tally.cells) for step in range(1 + dice.below(min(2, len(tally.cells))))]
    values = [thrown_expr(dice, tally, dice.below(3)) for _ in leaves]
    for row, index in enumerate(tally.indices):
        goes, reads = of_where(index)
        tally.reads += [(row, read) for read in reads]
        if goes != 0:
            tally.reads += [(row, read) for _, of_value in values for read in of_value(index)[1]]
            tally.writes += [(row, leaf) for leaf in leaves]
    sets = ', '.join(f'{tally.cells[leaf][0]} = 0 * {text}' for leaf, (text, _) in zip(leaves, values))
    return (f'where {where} ' if where else '') + f'set {sets}'


def each_row(tally, leaf):
    return [(row, leaf) for row in range(len(tally.indices))]


def thrown_reduce(dice, tally):
    if dice.below(2):
        text, of_text = thrown_expr(dice, tally, 1 + dice.below(3))
        found = [of_text(index) for index in tally.indices]
        tally.reads += [(row, read) for row, (_, reads) in enumerate(found) for read in reads]
        return f'reduce {tally.name} count where {text}', [str(sum(value != 0 for value, _ in found))]
    leaf = dice.below(len(tally.cells))
    tally.reads += each_row(tally, leaf)
    return f'reduce {tally.name} {dice.of(["sum", "min", "max"])} {tally.cells[leaf][0]}', ['0']


def thrown_kernel(dice, tally):
    small = [leaf for leaf, (_, kind) in enumerate(tally.cells) if BYTES[kind] < 8]
    if not small:
        return thrown_print(dice, tally)
    x, y = dice.of(small), dice.of(small)
    (of_x, _), (of_y, _) = tally.cells[x], tally.cells[y]
    kern, reads, writes, printed = dice.of([
        (f'axpy(3, {of_x}, {of_y})', [x, y], [y], []), (f'clamp({of_x}, 0, 1)', [x], [x], []), (f'sum({of_x})', [x], [], ['0']),
        (f'least({of_x})', [x], [], ['0']), (f'greatest({of_x})', [x], [], ['0']), (f'count_where({of_x} < 1)', [x], [], [str(len(tally.indices))])])
    tally.reads += [entry for leaf in reads for entry in each_row(tally, leaf)]
    tally.writes += [entry for leaf in writes for entry in each_row(tally, leaf)]
    return f'kernel {tally.name} {kern} lanes {dice.of([1, 2, 4, 8, 16])}', printed


def thrown_print(dice, tally):
    tally.reads += tally.entries
    return f'print {tally.name}', [','.join(path for path, _ in tally.cells)] + [','.join(['0'] * len(tally.cells))] * len(tally.indices)


def within(window, index):
    return all(begin <= number < end for (begin, end), number in zip(window, index))


def span_text(window):
    return 'window [' + ', '.join(f'{begin} : {end}' for begin, end in window) + ']'


def thrown_span(dice, extent):
    begin = dice.below(extent + 1)
    return begin, begin + dice.below(extent - begin + 1)


def thrown_window(dice, tally):
    """A print of a window, which may be empty."""
    window = [thrown_span(dice, extent) for extent in tally.extents]
    rows = [row for row, index in enumerate(tally.indices) if within(window, index)]
    tally.reads += [(row, leaf) for row in rows for leaf in range(len(tally.cells))]
    return f'print {tally.name} {span_text(window)}', [','.join(path for path, _ in tally.cells)] + [','.join(['0'] * len(tally.cells))] * len(rows)


def thrown_stencil(dice, tally):
    """A stencil of zeros: each round has a read of each term at its place, and a write, for each row of the window."""
    begins = [dice.below(extent) for extent in tally.extents]
    window = [(begin, begin + 1 + dice.below(extent - begin)) for begin, extent in zip(begins, tally.extents)]
    terms = [(dice.below(len(tally.cells)), [dice.below(extent - end + begin + 1) - begin for (begin, end), extent in zip(window, tally.extents)]) for _ in range(1 + dice.below(4))]
    leaf, rounds = dice.below(len(tally.cells)), dice.below(4)
    for row, index in enumerate(tally.indices):
        if within(window, index):
            there = [(tally.indices.index(tuple(map(sum, zip(index, offsets)))), of) for of, offsets in terms]
            tally.reads += there * rounds
            tally.writes += [(row, leaf)] * rounds
    sums = ', '.join(f'{dice.below(9) - 4} * {tally.cells[of][0]} at {written(offsets)}' for of, offsets in terms)
    return f'stencil {tally.name} {span_text(window)} set {tally.cells[leaf][0]} = ({sums}) / {1 + dice.below(9)} rounds {rounds}', []


def thrown_advice(dice, tally):
    """Advice on two layouts, for which each entry is read once."""
    granule, leaf, times = dice.of(GRANULES), dice.below(len(tally.cells)), dice.below(5)
    maps, found = [('aos', dice.of(['packed', 'min']), 'row'), ('soa', dice.of(['single', 'multi']), 'morton')], []
    for mapping in maps:
        _, at = laid(mapping, tally.cells, tally.extents)
        found.append((times * len({there for index in tally.indices for there in touched(granule, at(index, leaf))}), spelled(text_of(mapping))))
    tally.reads += tally.entries
    best, text = min(found, key=lambda pair: pair[0])
    return (f'advise {tally.name} granule {granule} pass {tally.cells[leaf][0]} times {times} among {", ".join(map(text_of, maps))}',
            ['candidate,cost', *(f'{number},{cost}' for number, (cost, _) in enumerate(found, 1)), f'best {best} {text}'])


def thrown_bytes(dice, tally):
    lengths, _ = tally.places()
    blob = dice.below(len(lengths))
    size = lengths[blob] // 8
    return f'bytes {tally.name} {blob}', [' '.join(['00'] * min(16, size - at)) for at in range(0, size, 16)]


ALONE = [thrown_set, thrown_set, thrown_update, thrown_update, thrown_update, thrown_reduce, thrown_reduce, thrown_kernel, thrown_kernel, thrown_print, thrown_bytes]


def thrown_command(dice, views, alone):
    """A command over one of the views, or a copy between them."""
    tally, other = dice.of(views), dice.of(views)
    if dice.below(6):
        return dice.of(alone)(dice, tally)
    tally.reads += tally.entries
    other.writes += other.entries
    return f'copy {tally.name} to {other.name}', []


# scripts

def counted_form(dice, record, depth, form_of):
    """An expression of this depth below count and heat, in either order, or below one of them alone."""
    inner = form_of(dice, RECORDS[record], depth, False)
    heat = ('heat', dice.of(GRANULES))
    return dice.of([('count', heat + (inner,)), heat + (('count', inner),), ('count', heat + (inner,)), heat + (inner,), ('count', inner)])


def shown_counts(tally):
    """The lines that show what a view counted, and what they print."""
    script, due = [], []
    heat = next((part[1] for part in (tally.mapping, tally.mapping[-1]) if part[0] == 'heat'), None)
    if tally.mapping[0] == 'count' or tally.mapping[-1][0] == 'count':
        script, due = script + [f'counts {tally.name}'], due + [tally.counted()]
    if heat:
        script, due = script + [f'heat {tally.name}'], due + [tally.heated(heat)]
    return script, due


def shown(tally):
    """The lines that show what a view counted and how it lies, and what they print."""
    script, due = shown_counts(tally)
    if sum(tally.places()[0]) // 8 <= MOST_LAYOUT_BYTES:
        script, due = script + [f'layout {tally.name}'], due + [tally.drawn()]
    return script, due


def thrown_case(number, depth, form_of=thrown_form, alone=None):
    """Two views under thrown expressions, thrown commands, and what was counted; then a new expression for one of them, and the same."""
    dice = Dice(77777 * depth + 31 * number)
    record, extents = dice.of(sorted(RECORDS)), dice.of(EXTENTS)
    views = [Tally(name, record, extents, counted_form(dice, record, depth, form_of)) for name in ('V', 'W')]
    script, due = [f'record P {{ {record} }}'], []
    for tally in views:
        script.append(f'view {tally.name} : P {written(extents)} as {text_of(tally.mapping)}')
    for turn in range(2):
        for _ in range(2 + dice.below(4)):
            line, printed = thrown_command(dice, views, alone or ALONE)
            script, due = script + [line], due + printed
        for tally in views[turn:]:
            lines, printed = shown(tally)
            script, due = script + lines, due + printed
        if turn == 0:
            views[1] = Tally('W', record, extents, counted_form(dice, record, 1 + dice.below(depth), form_of))
            views[1].writes += views[1].entries
            script.append(f'relayout W as {text_of(views[1].mapping)}')
    return Case(f'tallies_thrown_of_depth_{depth}_number_{number}', ' | '.join(script), ' | '.join(line for line in due if line))


CASES = [thrown_case(number, depth) for depth in range(1, 9) for number in range(5)]
