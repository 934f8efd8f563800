"""Thrown runs of the program: scripts of all commands, faults and limits, with datasets and blob files, damaged here and there.

A run is told by a seed and a number. What is thrown knows the names, leaves and limits of its tables, so that most lines are done; it says
nothing of what is printed: that is for the model.
"""
import random
from collections import namedtuple

from blob_files import file_of, texts_of
from grammar import SyntaxFault, read_line
from layouts import product
from llama_model import Fault, nameless
from mappings import bad_mapping, blobs_of, holds_of, lengths_of, range_of
from records import leaves_of, record_depth
from thrown_texts import TOO_GREAT, Exprs, damaged, damaged_file, deep_expr, one_in, respaced, thrown_dataset, thrown_number, with_comment
from views import View, declared_range

Thrown = namedtuple('Thrown', 'words files')
Table = namedtuple('Table', 'record leaves extents limits mapping wrap')
ANY = (-2 ** 66, 2 ** 66)
TYPES = ['bool', 'u8', 'u16', 'u32', 'u64', 'i8', 'i16', 'i32', 'i64']
ORDERS = ['row', 'row', 'col', 'morton']
FIELDS = ['a', 'b', 'c', 'x', 'y', 'pos', 'h', 'row', 'where', 'aos', 'set', 'i4', '_', 'n' * 32]
MOST_ROWS = 40


def good_cuts(table, rows):
    """The numbers of rows before and behind which no byte has bits of rows."""
    parted = set()
    for owners in blobs_of(table.mapping, table.leaves, table.extents):
        for begin in range(0, len(owners), 8):
            within = [owner[0] for owner in owners[begin:begin + 8] if owner is not None]
            parted |= set(range(min(within) + 1, max(within) + 1)) if within else set()
    return [cut for cut in range(rows + 1) if cut not in parted]


class Script:
    """The lines so far, and what they named. One in three is of version 2."""

    def __init__(self, dice):
        self.dice, self.lines, self.files = dice, [], {}
        self.records, self.mappings, self.tables = {}, {}, {}
        self.version = 2 if one_in(dice, 3) else 1

    # names

    def new_name(self, names, letter):
        if names and one_in(self.dice, 60):
            return self.dice.choice(sorted(names))
        if one_in(self.dice, 200):
            return self.dice.choice(['and', 'i0', 'x' * 33, '1a', 'min', 'é'])
        return f'{letter}{len(names)}_{len(self.lines)}'

    def known(self, names):
        if not names or one_in(self.dice, 120):
            return self.dice.choice(['None', 'V', 'P', 'M'])
        return self.dice.choice(sorted(names))

    # records

    def type_of_field(self, depth):
        if depth > 0 and one_in(self.dice, 4):
            return f' {self.fields(depth - 1)}'
        return ':' + self.dice.choice(TYPES)

    def fields(self, depth):
        count = self.dice.choice([1, 1, 2, 2, 3, 4])
        names = self.dice.sample(FIELDS, count)
        if one_in(self.dice, 150):
            names[-1] = names[0]
        parts = []
        for name in names:
            dims = ''.join(f'[{self.dice.choice([1, 2, 2, 3] if self.dice.randrange(300) else [0, 65, 2 ** 32 - 1, 2 ** 32])}]' for _ in range(self.dice.choice([0, 0, 0, 1, 1, 2])))
            parts.append(name + self.type_of_field(depth) + dims)
        return '{ ' + ', '.join(parts) + ' }'

    def record(self):
        name = self.new_name(self.records, 'P')
        text = self.fields(2)
        if one_in(self.dice, 40):
            text = self.dice.choice(['{ a:u8[64] }', '{ a:u8[65] }', '{ a:u8[8][8], b:u8 }', '{ a { b { c { d { e { f { g { h:u8 } } } } } } } }',
                                     '{ a:u8[1][1][1][1][1][1][1] }', '{ a:u8[1][1][1][1][1][1][1][1] }'])
        self.add(f'record {name} {text}')
        try:
            _, line = self.read(f'record P {text}')
        except SyntaxFault:
            return
        if record_depth(line['record']) <= 8 and 1 <= len(text) and self.leaf_count(line['record']) <= 64:
            self.records[name] = line['record']

    def leaf_count(self, dim):
        if dim[0] == 'leaf':
            return 1
        if dim[0] == 'array':
            return dim[1] * self.leaf_count(dim[2]) or 65
        return sum(self.leaf_count(field) for _, field in dim[1])

    # mappings

    def width(self):
        return self.dice.choice([1, 2, 7, 8, 13, 24, 32, 33, 63, 64, 64, 64] if self.dice.randrange(60) else [0, 65])

    def widths(self, paths):
        """The number of a bit mapping, and in version 2 mostly entries behind it."""
        dice = self.dice
        if one_in(dice, 5) if self.version == 2 else dice.randrange(150):
            return str(self.width())
        paths = [self.under(paths) if dice.randrange(60) else 'z' for _ in range(dice.choice([1, 1, 2, 2, 3, 5]))]
        return f'{self.width()} {{ {", ".join(f"{path}: {self.width()}" for path in paths)} }}'

    def base(self, paths):
        dice, order = self.dice, self.dice.choice(ORDERS)
        lanes = dice.choice([1, 2, 3, 4, 8, 64] if dice.randrange(60) else [0, 65])
        bits = f'{dice.choice(["bitaos", "bitsoa"])}({self.widths(paths)}, {order})'
        return dice.choice([f'aos({dice.choice(["packed", "aligned", "min"])}, {order})', f'soa({dice.choice(["single", "aligned", "multi"])}, {order})', f'aosoa({lanes}, {order})'] +
                           [bits] * (4 if self.version == 2 else 2))

    def under(self, paths):
        """A path of a leaf, or a front of one."""
        path = self.dice.choice(paths) if paths else 'a'
        cuts = [at for at, sign in enumerate(path) if sign in '.[']
        return path[:self.dice.choice(cuts)] if cuts and one_in(self.dice, 2) else path

    def layout(self, depth, paths):
        dice = self.dice
        if depth <= 1 or one_in(dice, 4):
            return self.known(self.mappings) if self.mappings and one_in(dice, 3) else self.base(paths)
        kind = dice.choice(['split', 'split', 'byteswap', 'bytesplit', 'change'])
        if kind == 'split':
            return f'split({self.under(paths)}, {self.layout(depth - 1, paths)}, {self.layout(depth - 1, paths)})'
        if kind == 'change':
            return f'change({dice.choice(TYPES)}->{dice.choice(TYPES[1:])}, {self.layout(depth - 1, paths)})'
        return f'{kind}({self.layout(depth - 1, paths)})'

    def counted(self, inner):
        dice = self.dice
        granule = dice.choice([1, 2, 4, 8, 64, 4096] if dice.randrange(60) else [0, 3, 8192, 48])
        counters = dice.choice([[], [], ['count'], [f'heat:{granule}'], ['count', f'heat:{granule}'], [f'heat:{granule}', 'count']])
        counters = counters * 2 if one_in(dice, 100) else counters
        for counter in counters:
            form, _, number = counter.partition(':')
            inner = f'{form}({number}, {inner})' if number else f'{form}({inner})'
        return inner

    def whole(self, text):
        """The mapping of a text with names replaced, or None."""
        try:
            _, line = self.read(f'mapping M = {text}')
            return nameless(self, line['map'])
        except (SyntaxFault, Fault):
            return None

    def layout_for(self, leaves):
        """A layout that is mostly accepted over these leaves, and its mapping where it is."""
        text = whole = None
        for _ in range(1 if one_in(self.dice, 25) else 8):
            text = self.counted(self.layout(self.dice.choice([1, 1, 2, 3, 4, 8, 9]), [leaf.path for leaf in leaves]))
            whole = self.whole(text)
            if whole and not bad_mapping(whole, leaves):
                return text, whole
        return text, None

    def mapping(self):
        name = self.new_name(self.mappings, 'M')
        record = self.dice.choice(sorted(self.records)) if self.records else None
        text, whole = self.layout_for(leaves_of(self.records[record])) if record else (self.base([]), None)
        self.add(f'mapping {name} = {text}')
        if whole:
            self.mappings[name] = whole

    # views

    def extents(self):
        rank = self.dice.choice([1, 1, 1, 2, 2, 3, 4])
        most = {1: 17, 2: 6, 3: 4, 4: 3}[rank]
        return [self.dice.randrange(most) if one_in(self.dice, 12) else self.dice.randint(1, most) for _ in range(rank)]

    def mode(self):
        """The word of a view that keeps low bits, in one of three."""
        return ' wrap' * (2 if one_in(self.dice, 200) else 1) if one_in(self.dice, 3) else ''

    def table(self, name, record, extents, whole, wrap):
        """Keeps what is known of a table, where its layout is accepted and it is small."""
        leaves = leaves_of(self.records[record])
        limits = [ANY if wrap else (max(least, low), min(greatest, high)) for (least, greatest), (low, high) in
                  ((declared_range(leaf), range_of(hold)) for leaf, hold in zip(leaves, holds_of(whole, leaves)))]
        self.tables[name] = Table(record, leaves, extents, limits, whole, wrap)

    def view(self):
        name, record = self.new_name(self.tables, 'V'), self.known(self.records)
        text, whole = self.layout_for(leaves_of(self.records[record]) if record in self.records else [])
        extents = self.extents()
        if one_in(self.dice, 80):
            extents = self.dice.choice([[1, 1, 1, 1, 1], [2 ** 32 - 1], [2 ** 24 + 1], [4097, 4096], [65536] * 4, [2 ** 32]])
            whole = None
        mode = self.mode()
        self.add(f'view {name} : {record} [{", ".join(map(str, extents))}]{mode} as {text}')
        if whole and record in self.records:
            self.table(name, record, extents, whole, bool(mode))

    def load(self):
        name, record = self.new_name(self.tables, 'V'), self.known(self.records)
        leaves = leaves_of(self.records[record]) if record in self.records else []
        text, whole = self.layout_for(leaves)
        extents = self.extents()
        words, rows = list(map(str, extents)), product(extents)
        place = self.dice.randrange(len(extents))
        if self.dice.randrange(3) and 0 not in extents or one_in(self.dice, 40):
            words[place] = '?'
        if one_in(self.dice, 40):
            words[self.dice.randrange(len(words))] = self.dice.choice(['?', '0', '7'])
        file = f'd{len(self.files)}.csv' if self.dice.randrange(30) else self.dice.choice(['none.csv', '.', 'f' * 200, 'f' * 201, 'a b', 'd0.csv'])
        mode = self.mode()
        self.add(f'load {name} : {record} [{", ".join(words)}]{mode} as {text} from "{file}"')
        if not leaves or not file.startswith(('d', 'f', 'a')) or len(file) > 200:
            return
        rows = rows if self.dice.randrange(40) else self.dice.randrange(MOST_ROWS)
        if whole:
            self.table(name, record, extents, whole, bool(mode))
            limits = self.tables[name].limits
        else:
            limits = [declared_range(leaf) for leaf in leaves]
        self.files.setdefault(file, thrown_dataset(self.dice, [leaf.path for leaf in leaves], limits, rows))

    # blob files

    def save(self, name, _):
        self.add(f'save {name}')

    def open(self):
        """Opens the file of a view of a known record, which is thrown here, or rarely another file."""
        dice, name, record = self.dice, self.new_name(self.tables, 'V'), self.known(self.records)
        file = f'b{len(self.files)}' if dice.randrange(30) else dice.choice(['none', '.', 'script.llama', 'b' * 200, 'b' * 201, 'd0.csv', 'b0'])
        self.add(f'open {name} from "{file}"')
        if record not in self.records or not file.startswith('b') or len(file) > 200 or file in self.files:
            return
        text, whole = self.layout_for(leaves_of(self.records[record]))
        extents, wrap = self.extents(), one_in(dice, 3)
        if whole:
            data = self.file(View(self.records[record], extents, whole, wrap))
            is_damaged = one_in(dice, 4)
            self.files[file] = damaged_file(dice, data) if is_damaged else data
            if not is_damaged:
                self.table(name, record, extents, whole, wrap)

    def file(self, view):
        """The file of a view of thrown numbers."""
        limits = [ANY if view.wrap else (max(least, low), min(greatest, high)) for (least, greatest), (low, high) in zip(view.declared, view.held)]
        for row in range(view.count()):
            view.kept[row] = [view.left(leaf, max(least, min(greatest, thrown_number(self.dice, (least, greatest))))) for leaf, (least, greatest) in enumerate(limits)]
        return file_of(texts_of(view.record, view.extents, view.wrap, view.mapping), view.memory())

    # the other commands

    def path(self, table):
        if one_in(self.dice, 150):
            return self.dice.choice(['q', 'a.b.c', 'h[9]', 'a[0][0]', 'pos'])
        return self.dice.choice(table.leaves).path

    def expr(self, table, size):
        if one_in(self.dice, 120):
            return deep_expr(self.dice)
        return Exprs(self.dice, [leaf.path for leaf in table.leaves], len(table.extents)).thrown(size)

    def value(self, table, path):
        """An expression whose value mostly fits the leaf of this path."""
        expr = self.expr(table, self.dice.choice([1, 4, 10, 20]))
        limits = [limits for leaf, limits in zip(table.leaves, table.limits) if leaf.path == path]
        if not limits or one_in(self.dice, 30):
            return expr
        least, greatest = limits[0]
        if one_in(self.dice, 4):
            return str(thrown_number(self.dice, limits[0]))
        return f'max({least}, min({greatest}, {expr}))'

    def set(self, name, table):
        if 0 in table.extents and self.dice.randrange(10):
            return
        index = [self.dice.randrange(extent) if extent and self.dice.randrange(80) else extent for extent in table.extents]
        path = self.path(table)
        index = index if self.dice.randrange(80) else index + [0]
        self.add(f'set {name}[{", ".join(map(str, index))}].{path} = {self.value(table, path)}')

    def update(self, name, table):
        where = f'where {self.expr(table, self.dice.choice([2, 6, 12]))} ' if one_in(self.dice, 2) else ''
        paths = list(dict.fromkeys(self.path(table) for _ in range(self.dice.choice([1, 1, 2, 3]))))
        paths = paths + paths[:1] if one_in(self.dice, 80) else paths
        self.add(f'update {name} {where}set ' + ', '.join(f'{path} = {self.value(table, path)}' for path in paths) + self.actors(table))

    def actors(self, table):
        """In version 2 every second update is split among actors, mostly where no byte is of two."""
        dice = self.dice
        if dice.randrange(2 if self.version == 2 else 300):
            return ''
        seed = dice.choice([0, 1, 2 ** 31, 2 ** 32 - 1]) if one_in(dice, 4) else dice.randrange(2 ** 32)
        turns = dice.choice([0, 2, 5, 10, 20, 40, 60, 100, 150, 200, 300, 500, 2000] if dice.randrange(60) else [2 ** 20, 2 ** 20 + 1, 2 ** 32 - 1, 2 ** 32])
        return f' actors [{", ".join(map(str, self.cuts(table)))}] schedule {seed} turns {turns}'

    def cuts(self, table):
        """Numbers of rows that mostly do not fall and do not part the rows of a byte."""
        dice, rows = self.dice, product(table.extents)
        if one_in(dice, 40):
            return dice.choice([[rows + 1], [rows, 0], [0, rows, 1], [2 ** 32 - 1], [2 ** 32], [0] * 64, [rows] * 64, list(range(64))])
        good = list(range(rows + 1)) if one_in(dice, 5) else good_cuts(table, rows)
        return sorted(dice.choice(good) for _ in range(dice.choice([0, 1, 1, 1, 2, 2, 3, 5, 63])))

    def constant(self, usual):
        if one_in(self.dice, 30):
            return self.dice.choice([-2 ** 31 - 1, -2 ** 31, 2 ** 31 - 1, 2 ** 31, 2 ** 32 - 1, 2 ** 32, 2 ** 127 - 1, -2 ** 127 + 1, 2 ** 127])
        return usual

    # windows and stencils

    def spans(self, table):
        """A window of a table, rarely one that is none."""
        dice, spans = self.dice, []
        for extent in table.extents:
            begin = dice.randrange(extent + 1) if one_in(dice, 6) else dice.randrange(max(extent, 1))
            spans.append((begin, dice.randint(begin, extent) if one_in(dice, 8) else dice.randint(min(begin + 1, extent), extent)))
        if one_in(dice, 40):
            spans[dice.randrange(len(spans))] = dice.choice([(0, table.extents[0] + 1), (2, 1), (0, 2 ** 32 - 1), (0, 2 ** 32), (99, 99)])
        return spans + [(0, 1)] if one_in(dice, 80) else spans

    def window(self, spans):
        return f'window [{", ".join(f"{begin} : {end}" for begin, end in spans)}]'

    def offsets(self, table, spans):
        """Offsets by which a window mostly stays inside of the table."""
        dice = self.dice
        if one_in(dice, 150):
            return dice.choice([[0] * (len(spans) + 1), [2 ** 32] * len(spans), [-2 ** 32 - 1] * len(spans), [TOO_GREAT] * len(spans), [1] * len(spans), [-1] * len(spans)])
        return [dice.randint(-begin, max(extent - end, -begin)) for (begin, end), extent in zip(spans, table.extents)]

    def weight(self, usual):
        return self.dice.choice([2 ** 31 - 1, -2 ** 31, 2 ** 31, -2 ** 31 - 1, TOO_GREAT - 1, TOO_GREAT]) if one_in(self.dice, 250) else usual

    def stencil(self, name, table):
        """A stencil that mostly keeps within the numbers that it reads, or keeps low bits."""
        dice, spans, path = self.dice, self.spans(table), self.path(table)
        calm = not table.wrap and dice.randrange(20)
        weights = [dice.randint(0, 5) if calm else dice.choice([1, -1, 3, -300, 2 ** 31 - 1, -2 ** 31]) for _ in range(dice.choice([1, 2, 3, 5] if dice.randrange(60) else [64, 65]))]
        terms = [f'{self.weight(weight)} * {path if calm else self.path(table)} at [{", ".join(map(str, self.offsets(table, spans)))}]' for weight in weights]
        divisor = max(sum(weights), 1) if calm else dice.choice([1, 2, 7, 2 ** 31])
        divisor = dice.choice([0, 2 ** 31 + 1, 2 ** 32]) if one_in(dice, 100) else divisor
        rounds = dice.choice([0, 1, 1, 2, 3, 10] if dice.randrange(80) else [1001, 2 ** 32 - 1] if len(weights) > 9 else [1000, 1001])
        self.add(f'stencil {name} {self.window(spans)} set {path} = ({", ".join(terms)}) / {divisor} rounds {rounds}')

    def advise(self, name, table):
        """Advice on layouts that are mostly accepted, for passes over leaves and what they stand under."""
        dice, paths = self.dice, [leaf.path for leaf in table.leaves]
        granule = dice.choice([1, 2, 4, 8, 64, 4096] if dice.randrange(60) else [0, 3, 8192])
        passes = [f'pass {", ".join(self.under(paths) if dice.randrange(150) else "q" for _ in range(dice.choice([1, 1, 2, 3])))} times {dice.choice([0, 1, 1, 2, 10, 2 ** 32 - 1])}'
                  for _ in range(dice.choice([1, 2, 3] if dice.randrange(80) else [16, 17]))]
        maps = [self.layout_for(table.leaves)[0] for _ in range(dice.choice([1, 2, 3, 4] if dice.randrange(80) else [16, 17]))]
        self.add(f'advise {name} granule {granule} {" ".join(passes)} among {", ".join(maps)}{" splits" if len(maps) < 5 and one_in(dice, 2) else ""}')

    def kernel(self, name, table):
        dice = self.dice
        narrow = [leaf.path for leaf in table.leaves if not leaf.kind.endswith('64')]
        if not narrow and dice.randrange(20):
            return
        paths = narrow if narrow and dice.randrange(40) else [leaf.path for leaf in table.leaves]
        x, y = dice.choice(paths), dice.choice(paths)
        limits = dict(zip((leaf.path for leaf in table.leaves), table.limits))
        low = self.constant(max(limits[x][0], -9) if limits[x][0] < 0 else 0)
        high = self.constant(min(limits[x][1], 100))
        factor = dice.choice([3, -7, 1000, 2 ** 31 - 1] if table.wrap else [0, 0, 1, -1])
        kern = dice.choice([f'axpy({self.constant(factor)}, {x}, {y})', f'clamp({x}, {low}, {high})', f'sum({x})', f'least({x})', f'greatest({x})',
                            f'count_where({x} {dice.choice(["==", "!=", "<", "<=", ">", ">="])} {self.constant(dice.randint(-5, 300))})'])
        self.add(f'kernel {name} {kern} lanes {dice.choice([1, 2, 4, 8, 16] if dice.randrange(60) else [0, 3, 32])}')

    def reduce(self, name, table):
        if one_in(self.dice, 2):
            self.add(f'reduce {name} count where {self.expr(table, self.dice.choice([2, 8, 16]))}')
        else:
            self.add(f'reduce {name} {self.dice.choice(["sum", "sum", "min", "max"] if product(table.extents) else ["sum"] * 30 + ["min"])} {self.path(table)}')

    def copy(self, name, table):
        alike = [other for other, of in self.tables.items() if (of.record, of.extents) == (table.record, table.extents)]
        self.add(f'copy {name} to {self.dice.choice(alike) if self.dice.randrange(30) else self.known(self.tables)}')

    def relayout(self, name, table):
        text, whole = self.layout_for(table.leaves)
        self.add(f'relayout {name} as {text}')
        if whole:
            self.table(name, table.record, table.extents, whole, table.wrap)

    def show(self, name, table):
        counters = [form for form in ('count', 'heat') if form in (table.mapping[0], table.mapping[-1][0])]
        shown = ['print', 'print', 'layout', 'bytes', 'bytes'] + [{'count': 'counts', 'heat': 'heat'}[form] for form in counters] * 3
        command = self.dice.choice(shown) if self.dice.randrange(60) else self.dice.choice(['counts', 'heat'])
        if command == 'bytes':
            blobs = len(lengths_of(table.mapping, table.leaves, table.extents))
            self.add(f'bytes {name} {self.dice.randrange(blobs if self.dice.randrange(60) else 70)}')
        elif command == 'print' and one_in(self.dice, 2 if self.version == 2 else 200):
            self.add(f'print {name} {self.window(self.spans(table))}')
        else:
            self.add(f'{command} {name}')

    def drop(self, name, _):
        self.add(f'drop {name}')
        del self.tables[name]

    # lines

    def read(self, line):
        return read_line(line.encode(), self.version)

    def add(self, line):
        self.lines.append(line)

    def line(self):
        dice = self.dice
        if not self.records or one_in(dice, 12):
            return self.record()
        if not self.tables or one_in(dice, 8):
            return dice.choice([self.view, self.view, self.load, self.load])()
        if one_in(dice, 10):
            return self.mapping()
        if one_in(dice, 12) if self.version == 2 else one_in(dice, 400):
            return self.open()
        if one_in(dice, 20):
            return self.add(dice.choice(['', '', '# note', '   ', '\t#', 'nothing', 'print', 'print V V', 'drop 5', '}', '"', 'version 2', 'version 1', 'save', 'open V', 'open V from f', 'stencil V', 'print V window', 'advise V']) if one_in(dice, 4) else '')
        name = dice.choice(sorted(self.tables))
        act = dice.choice([self.set, self.set, self.update, self.update, self.update, self.kernel, self.kernel, self.reduce, self.reduce, self.copy, self.relayout,
                           self.show, self.show, self.show] + [self.save] * (self.version == 2 or one_in(dice, 20)) + [self.update] * 2 * (self.version == 2) +
                          [self.stencil] * (2 if self.version == 2 else one_in(dice, 20)) + [self.advise] * (2 if self.version == 2 else one_in(dice, 20)) + [self.drop] * one_in(dice, 2))
        return act(name, self.tables[name])

    def rendered(self):
        """The bytes of the script."""
        dice, spaced = self.dice, one_in(self.dice, 3)
        lines = [with_comment(dice, self.respaced(line) if spaced else line) for line in version_lines(dice, self.version) + self.lines]
        if one_in(dice, 60):
            at = dice.randrange(len(lines))
            lines[at] += b' ' * (dice.choice([4096, 4097]) - len(lines[at]))
        end = dice.choice([b'\n', b'\n', b'\n', b'\r\n'])
        return end.join(lines) + (end if dice.randrange(6) else b'')

    def respaced(self, line):
        """The line with other blanks, where it has no bad token."""
        try:
            line.encode('ascii')
            text = respaced(self.dice, line)
            same = self.read(text) == self.read(line)
        except (SyntaxFault, UnicodeEncodeError):
            return line
        return text if same else line


RIGHT = ['version 2', 'version 2', 'version 02', '\tversion  2 ', 'version 2# note', 'version 2' + ' ' * 4087]
OTHERS = ['version 1', 'version 1', 'version 001', 'version 2', 'version 0', 'version 3', 'version 12', 'version 4294967295', 'version 4294967296', f'version {TOO_GREAT}', 'version', 'version 2 2',
          'version two', 'versions 2', 'Version 2', 'version2', 'version 2' + ' ' * 4088]


def version_lines(dice, version):
    """The lines before those of a script: blank ones, and mostly the version line that it needs, or none."""
    blank = [dice.choice(['', '# note', '# version 2', ' \t']) for _ in range(dice.choice([0, 0, 0, 1, 2]))]
    if one_in(dice, 16):
        return blank + [dice.choice(OTHERS)]
    return blank + ([dice.choice(RIGHT)] if version == 2 else [])


def limit_script(dice):
    """A script at or past a limit of lines, bytes or views."""
    views = 'record P { a:u8 }\n' + ''.join(f'view V{number} : P [1] as soa(multi, row)\n' for number in range(64))
    return dice.choice(['\n' * 65536, '\n' * 65537, '\n' * 65535 + 'version 3', '\n' * 65536 + 'version 3', '#' * 4096 + '\nversion 3', '#' * 4097 + '\nversion 3', '\n' * 65535 + 'print V', '#' * 4096 + '\n', '#' * 4097, ('#' * 1023 + '\n') * 1024, ('#' * 1023 + '\n') * 1024 + '\n',
                        views + 'print V63', views + 'view V64 : P [1] as soa(multi, row)', views + 'drop V3\nview V64 : P [1] as soa(multi, row)\nprint V64', '',
                        f'version 2\nrecord P {{ a:u64 }}\nview V : P [{dice.choice([8192, 8193])}] as aos(packed, row)\nupdate V where i0 == 5 set a = 7 actors [] schedule 1 turns {dice.choice([2, 2 ** 20, 2 ** 20 + 1])}',
                        'record P { a:u8[64] }\nview V : P [1024] as aos(packed, row)\nreduce V sum a[0]\nlayout V', 'record P { a:u64 }\nview V : P [8193] as aos(packed, row)\nbytes V 0']).encode()


def thrown_words(dice):
    """Words that run no script of these files."""
    number = dice.choice(['0', '01', '65537', '-1', '', '1e3', '+1', ' 1', '2' * 50]) if one_in(dice, 2) else str(dice.randint(1, 60))
    return dice.choice([['gen', number], ['gen', number], ['run'], [], ['run', 'none.llama'], ['run', 'a', 'b'], ['gen'], ['help'], ['run', ''], ['run', '.'], ['gen', '1', '2']])


def thrown(seed, number):
    """The run of this number."""
    dice = random.Random(f'{seed} {number}')
    if one_in(dice, 60):
        return Thrown(thrown_words(dice), {})
    if one_in(dice, 150):
        return Thrown(['run', 'script.llama'], {'script.llama': limit_script(dice)})
    script = Script(dice)
    for _ in range(dice.choice([4, 8, 12, 16, 24, 32])):
        script.line()
    data = script.rendered()
    if one_in(dice, 8):
        data = damaged(dice, data)
        data = damaged(dice, data) if one_in(dice, 4) else data
    return Thrown(['run', 'script.llama'], script.files | {'script.llama': data})
