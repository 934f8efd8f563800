"""Thrown calls of the library for C: sequences of them over a few handles, with lines, datasets and blob files as thrown.py throws them.

A sequence is told by a seed and a number. What is thrown knows most of what the handles hold, so that most calls are done; it says nothing of what they answer.
"""
import random
import struct
from collections import namedtuple

from layouts import WIDTHS, product
from mappings import counters_of, lengths_of
from thrown import ANY, Script
from thrown_texts import NUMBERS, damaged, deep_expr, one_in, thrown_number, with_comment
from views import declared_range

# of each kind of call its pointers in their order: what is written or read at once by `o`, an array by `a`; then m where it takes memory, and f where it reports a fault
KINDS = {'version': '', 'new': 'oaao mf', 'load': 'oaaao mf', 'open': 'oao mf', 'drop': 'o', 'rows': 'oo', 'leaves': 'oo', 'blobs': 'oo', 'row': 'oao', 'leaf': 'oao', 'extents': 'oao', 'path': 'oao',
         'type': 'ooo', 'counts': 'ooo', 'get': 'oo', 'get_u64': 'oo', 'set': 'o', 'set_u64': 'o', 'get_run': 'oa', 'get_run_u64': 'oa', 'set_run': 'oao f', 'set_run_u64': 'oao f', 'gather': 'oaa',
         'gather_u64': 'oaa', 'scatter': 'oaao f', 'scatter_u64': 'oaao f', 'scatter_add': 'oaao f', 'copy': 'ooo f', 'relayout': 'oao mf', 'kernel': 'oaoo mf', 'do': 'oaoo mf', 'tell': 'oaaoo mf',
         'print': 'oao m', 'save': 'oao m', 'blob': 'oao', 'message': 'oao m', 'place': 'ooo f', 'blob_at': 'ooo', 'get_box': 'oaaa', 'get_box_u64': 'oaaa',
         'set_box': 'oaaao f', 'set_box_u64': 'oaaao f', 'get_run_as': 'oa', 'set_run_as': 'oao f', 'record': 'oao m', 'layout': 'oao m', 'lend': 'oao', 'return': 'oao mf'}
OPS = ['end', *KINDS]
POINTERS = {op: kind.split(' ')[0] for op, kind in KINDS.items()}
TAKE_MEMORY = [op for op, kind in KINDS.items() if 'm' in kind[len(POINTERS[op]):]]
TELL_FAULTS = [op for op, kind in KINDS.items() if 'f' in kind[len(POINTERS[op]):]]
# what throws the lines of a call; an update is by actors in one of two
ACTS = {'do': ['set', 'update', 'update', 'reduce', 'kernel', 'relayout', 'stencil'], 'tell': ['show', 'show', 'advise']}
# the memory of a view that is lent and returned: the model reads it bit by bit
MOST_LENT_BYTES = 4096
HANDLES = 4
WORD = 2 ** 64
LEAST, GREATEST = {'': -2 ** 63, '_u64': 0}, {'': 2 ** 63 - 1, '_u64': WORD - 1}
OTHER_LINES = ['', '  # a note', 'print V', 'record Q { a:u8 }', 'view V : P [1] as aos(packed, row)', 'relayout V as aos(packed, row)', 'kernel V sum(a) lanes 1', 'open V from "f"', 'version 2',
               'load V : P [?] as aos(packed, row) from "f"']

Call = namedtuple('Call', 'op handle refused nulls a b c words texts')
END = Call('end', 0, 0, 0, 0, 0, 0, (), ())


def coded(call):
    """A call as library/thrown_calls.c reads it."""
    texts = [*call.texts, b'', b'', b''][:3]
    numbers = [OPS.index(call.op), call.refused, call.nulls, call.handle, call.a, call.b, call.c, len(call.words), *map(len, texts)]
    return struct.pack(f'<{len(numbers) + len(call.words)}Q', *(number % WORD for number in [*numbers, *call.words])) + b''.join(texts)


class Calls(Script):
    """The calls so far, what each handle is thought to hold, and the text of each record."""

    def __init__(self, dice):
        super().__init__(dice)
        self.version = 2
        self.calls, self.held, self.texts, self.names, self.of, self.is_small = [], {}, {}, 0, None, False

    # what scripts would name otherwise

    def new_name(self, names, letter):
        self.names += 1
        return f'{letter}{self.names}'

    def known(self, names):
        return self.of if names is self.records and self.dice.randrange(80) else self.dice.choice(['None', 'V', 'M'])

    def layout_for(self, leaves):
        """Rarely a layout whose canonical text is longer than that of a file may be."""
        if one_in(self.dice, 150) and leaves:
            path = leaves[0].path
            text = f'bitsoa(3{{{",".join([f"{path}:1"] * (3500 // (len(path) + 3)))}}},row)'
            return text, self.whole(text)
        return super().layout_for(leaves)

    def counted(self, inner):
        """Every second layout counts nothing, so that its leaves may have places."""
        return super().counted(inner) if one_in(self.dice, 2) else inner

    def extents(self):
        if one_in(self.dice, 10) and not self.is_small:
            return self.dice.choice([[self.dice.randint(60, 700)], [self.dice.randint(2, 20), self.dice.randint(2, 30)]])
        return super().extents()

    def taken(self, act, *words):
        """The line that an act of a script adds, or None."""
        count = len(self.lines)
        act(*words)
        return self.lines.pop() if len(self.lines) > count else None

    # calls

    def call(self, op, handle=0, a=0, b=0, c=0, words=(), texts=()):
        dice, pointers = self.dice, POINTERS[op]
        nulls = dice.randrange(1, 2 ** len(pointers)) if pointers and one_in(dice, 80) else 0
        refused = dice.choice([1, 2]) if op in TAKE_MEMORY and not nulls and one_in(dice, 10) else 0
        self.calls.append(Call(op, handle, refused, nulls, a, b, c, tuple(words), tuple(texts)))
        if op != 'message' and one_in(dice, 10):
            self.message()
        return nulls == 0

    def message(self):
        """The words of the call before it, for which there are no words here, or of a number with a fault."""
        dice = self.dice
        fault = [] if dice.randrange(3) else [dice.choice([0, 7, WORD - 1]) for _ in range(3)]
        self.call('message', 0, dice.randint(-1, 37), dice.choice([0, 0, 1, 2, dice.randint(-1, 9)]), dice.choice([0, 0, 0, -1, 3]), fault)

    def text(self, line, others=True):
        """A line as a call is handed it: with other blanks, a comment, as long as it may be, or damaged, or another line."""
        dice = self.dice
        if others and one_in(dice, 60):
            line = dice.choice(OTHER_LINES) if dice.randrange(3) else f'update V set a = {deep_expr(dice)}'
        text = with_comment(dice, self.respaced(line) if one_in(dice, 4) else line)
        if one_in(dice, 80):
            text += b' ' * (dice.choice([4096, 4097]) - len(text))
        return (damaged(dice, text) if one_in(dice, 16) else text).replace(b'\n', b'\r')

    def table_in(self, handle):
        return self.tables.get(self.held.get(handle))

    def make(self, handle):
        """Puts a view into a handle, mostly one that a copy may go to or come from."""
        dice = self.dice
        if not self.records or one_in(dice, 3):
            self.of = 'None'
            line = self.taken(self.record)
            self.of = f'P{self.names}'
            self.texts[self.of] = line
        else:
            self.of = dice.choice(sorted(self.records))
        likes = [table for table in map(self.table_in, range(HANDLES)) if table]
        if likes and one_in(dice, 2):
            like = dice.choice(likes)
            self.of = like.record
            line = self.taken(self.sibling, like)
            done = self.call('new', handle, texts=[self.text(self.texts[self.of]), self.text(line)])
        else:
            done = self.make_by(dice.choice(['view', 'load', 'open', 'open']), handle)
        if done and f'V{self.names}' in self.tables:
            self.held[handle] = f'V{self.names}'
        self.print_of(handle)

    def sibling(self, like):
        """A view of the same record and extents."""
        name, (text, whole), mode = self.new_name(self.tables, 'V'), self.layout_for(like.leaves), self.mode()
        self.add(f'view {name} : {like.record} [{", ".join(map(str, like.extents))}]{mode} as {text}')
        if whole:
            self.table(name, like.record, like.extents, whole, bool(mode))

    def make_by(self, command, handle):
        self.is_small = command != 'view'
        line = self.taken({'view': self.view, 'load': self.load, 'open': self.open}[command])
        files = list(self.files.values())
        self.files.clear()
        if command == 'view':
            if one_in(self.dice, 60):
                self.tables.pop(f'V{self.names}', None)
                line = f'view V : {self.of} [4097, 1] as soa(multi, morton)'
            return self.call('new', handle, texts=[self.text(self.texts[self.of]), self.text(line)])
        if command == 'open':
            return self.call('open', handle, texts=files or [b''])
        return self.call('load', handle, texts=[self.text(self.texts[self.of]), self.text(line), *(files or [b''])])

    # where things are

    def row_for(self, table):
        rows = product(table.extents) if table else 3
        return self.dice.randrange(rows) if rows and self.dice.randrange(25) else self.dice.choice([rows, rows + 1, 2 ** 32, 2 ** 63, WORD - 1])

    def leaf_for(self, table):
        leaves = len(table.leaves) if table else 2
        return self.dice.randrange(leaves) if self.dice.randrange(30) else self.dice.choice([leaves, leaves + 1, 64, WORD - 1])

    def run_for(self, table):
        """A first row and a number of rows."""
        dice, rows = self.dice, product(table.extents) if table else 3
        first = dice.randint(0, rows) if dice.randrange(25) else self.row_for(table)
        left = max(rows - first, 0)
        return first, dice.choice([0, 1, left, left, dice.randint(0, left), dice.randint(0, left)]) if dice.randrange(25) else left + dice.randint(1, 3)

    def box_for(self, table):
        """The low bounds of a box, the high ones, and how many rows it has; rarely it is no box, or has others."""
        dice, extents = self.dice, table.extents if table else [3]
        spans = [sorted(dice.randint(0, extent) for _ in range(2)) for extent in extents]
        count = product(high - low for low, high in spans) + one_in(dice, 25)
        if one_in(dice, 10):
            at = dice.randrange(len(spans))
            spans[at] = dice.choice([spans[at][::-1], [spans[at][0], extents[at] + 1], [WORD - 1] * 2, [0, WORD - 1]])
        spans = dice.choice([[], spans[1:], spans + [[0, 1]]]) if one_in(dice, 40) else spans
        return [low for low, _ in spans], [high for _, high in spans], count

    def type_for(self, table, leaf):
        """The bits of the numbers of an array and whether they have a sign, mostly as the leaf needs; how many bytes a number has, or 1 where that is no width."""
        dice, kind = self.dice, table.leaves[leaf].kind if table and leaf < len(table.leaves) else 'u8'
        bits = dice.choice([8, 16, 32, 64]) if one_in(dice, 4) else max(dice.choice([8, 16, 32, 64]), WIDTHS[kind])
        bits = dice.choice([0, 1, 24, 128, 2 ** 32 - 8]) if one_in(dice, 30) else bits
        return bits, (kind[0] == 'i') != one_in(dice, 6), bits // 8 if bits in (8, 16, 32, 64) else 1

    def form_for(self, table, leaf):
        """Whether a call goes by numbers without a sign, mostly as the leaf needs."""
        needs = table and leaf < len(table.leaves) and table.leaves[leaf].kind[0] == 'u'
        return '_u64' if bool(needs) != one_in(self.dice, 6) else ''

    def number_for(self, table, leaf, form, odds):
        """A number for a leaf, rarely one that it does not take."""
        dice = self.dice
        limits = table.limits[leaf] if table and leaf < len(table.leaves) else ANY
        if one_in(dice, odds):
            least, greatest = declared_range(table.leaves[leaf]) if table and leaf < len(table.leaves) else limits
            value = dice.choice([limits[0] - 1, limits[1] + 1, least - 1, greatest + 1, dice.choice(NUMBERS), -dice.choice(NUMBERS)])
        else:
            value = dice.randint(*limits) if limits != ANY and one_in(dice, 2) else thrown_number(dice, limits)
        return max(LEAST[form], min(GREATEST[form], value))

    # reads and writes

    def print_of(self, handle):
        self.calls.append(Call('print', handle, 0, 0, 0, 0, 0, (), ()))

    def reads(self, handle):
        """Reads of a view, with its table behind them."""
        for _ in range(self.dice.choice([2, 6, 12, 30])):
            self.read_one(handle, self.table_in(handle))
        self.print_of(handle)

    def read_one(self, handle, table):
        dice = self.dice
        op = dice.choice(['get'] * 6 + ['run', 'gather', 'get_box', 'get_run_as', 'place'] * 4 + ['record', 'layout', 'lend', 'lend'] + ['rows', 'leaves', 'blobs', 'row', 'row', 'leaf', 'leaf', 'extents', 'path', 'path', 'type', 'type', 'counts', 'counts', 'save',
                         'print', 'blob', 'blob', 'blob_at', 'blob_at', 'version'])
        leaf = self.leaf_for(table)
        if op == 'get':
            self.call('get' + self.form_for(table, leaf), handle, self.row_for(table), leaf)
        elif op == 'run':
            first, count = self.run_for(table)
            self.call('get_run' + self.form_for(table, leaf), handle, first, leaf, count)
        elif op == 'row':
            extents = table.extents if table else [3]
            index = [dice.randrange(extent) if extent and dice.randrange(12) else dice.choice([extent, WORD - 1]) for extent in extents]
            self.call(op, handle, words=index if dice.randrange(20) else dice.choice([[], index + [0], index[1:]]))
        elif op == 'leaf':
            self.call(op, handle, texts=[self.path(table).encode() if table and dice.randrange(10) else dice.choice([b'', b'a.', b'a[0', b'\xff', b'h[02]', b'a' * 300])])
        elif op == 'get_box':
            low, high, count = self.box_for(table)
            self.call(op + self.form_for(table, leaf), handle, len(low), leaf, count, words=low + high)
        elif op == 'get_run_as':
            (first, count), (bits, sign, size) = self.run_for(table), self.type_for(table, leaf)
            self.call(op, handle, first, leaf, count * size + one_in(dice, 25), words=[bits, sign])
        elif op in ('save', 'print', 'record', 'layout', 'lend'):
            self.call(op, handle, c=dice.choice([0, 0, 0, -1, 3, -4096]))
        elif op in ('blob', 'blob_at'):
            blobs = len(lengths_of(table.mapping, table.leaves, table.extents)) if table else 1
            self.call(op, handle, dice.randrange(blobs) if dice.randrange(12) else dice.choice([blobs, 64, 2 ** 32, WORD - 1]), c=dice.choice([0, 0, 0, -1, 3]) if op == 'blob' else 0)
        elif op == 'gather':
            self.call(op + self.form_for(table, leaf), handle, b=leaf, words=self.list_for(table))
        elif op in ('path', 'type', 'place', 'extents'):
            self.call(op, handle, b=leaf, c=dice.choice([0, 0, 0, -1, 3]) if op in ('path', 'extents') else 0)
        elif op == 'counts':
            self.counts_of(handle, table, leaf)
        else:
            self.call(op, handle)

    def counts_of(self, handle, table, leaf):
        """Those of all leaves, where they are counted."""
        for each in range(len(table.leaves)) if table and 'count' in counters_of(table.mapping) else [leaf]:
            self.call('counts', handle, b=each)

    def write(self, handle):
        table, dice = self.table_in(handle), self.dice
        leaf = self.leaf_for(table)
        form = self.form_for(table, leaf)
        if dice.randrange(3):
            return dice.choice([self.scatter, self.scatter, self.set_box, self.set_run_as, self.lend_and_return])(handle, table, leaf, form)
        if dice.randrange(3):
            return self.call('set' + form, handle, self.row_for(table), leaf, self.number_for(table, leaf, form, 12))
        first, count = self.run_for(table)
        odds = dice.choice([30, 400])
        return self.call('set_run' + form, handle, first, leaf, words=[self.number_for(table, leaf, form, odds) for _ in range(count)])

    def set_box(self, handle, table, leaf, form):
        low, high, count = self.box_for(table)
        odds = self.dice.choice([30, 400])
        self.call('set_box' + form, handle, len(low), leaf, words=low + high + [self.number_for(table, leaf, form, odds) for _ in range(count)])
        self.counts_of(handle, table, leaf)

    def set_run_as(self, handle, table, leaf, form):
        (first, count), (bits, sign, size), odds = self.run_for(table), self.type_for(table, leaf), self.dice.choice([30, 400])
        values = [self.number_for(table, leaf, form, odds) % 2 ** (8 * size) for _ in range(count)]
        self.call('set_run_as', handle, first, leaf, words=[bits, sign], texts=[b''.join(value.to_bytes(size, 'little') for value in values) + bytes(one_in(self.dice, 25))])

    def lend_and_return(self, handle, table, leaf, _):
        """Mostly as it was lent, or with bits of a byte changed; what is there is shown before."""
        dice, size = self.dice, sum(lengths_of(table.mapping, table.leaves, table.extents)) if table else 0
        if size <= MOST_LENT_BYTES:
            self.print_of(handle)
            self.call('return', handle, dice.randrange(size or 1), dice.choice([0, 1 << dice.randrange(8), dice.randrange(256)]), dice.choice([-1, 1]) if one_in(dice, 15) else 0)
            self.counts_of(handle, table, leaf)

    def list_for(self, table):
        """Rows in any order, some of them more than once."""
        dice, rows = self.dice, product(table.extents) if table else 3
        some = [dice.randrange(rows) for _ in range(dice.choice([0, 1, 2, 5, 20]))] if rows else []
        return some + [self.row_for(table)] * one_in(dice, 20) + some[:dice.choice([0, 0, 1, 3])]

    def scatter(self, handle, table, leaf, form):
        """A value for each row of a list, or one that is added to what is shown before: so that it mostly fits, a small one."""
        dice, rows = self.dice, self.list_for(table)
        odds = dice.choice([12, 200])
        if dice.randrange(2):
            return self.call('scatter' + form, handle, b=leaf, words=rows + [self.number_for(table, leaf, form, odds) for _ in rows])
        self.print_of(handle)
        return self.call('scatter_add', handle, b=leaf, words=rows + [self.number_for(table, leaf, '', odds) if one_in(dice, odds) else dice.choice([-2, -1, 0, 1, 3]) for _ in rows])

    def copy_to(self, handle):
        """A copy from another handle, mostly of the same record and extents; what is there is shown before."""
        table, dice = self.table_in(handle), self.dice
        alike = [other for other in range(HANDLES) if other != handle and table and self.table_in(other) and self.table_in(other)[:3] == table[:3]]
        other = dice.choice(alike) if alike and dice.randrange(30) else dice.randrange(HANDLES)
        self.print_of(other)
        self.call('copy', other, handle)

    def by_line(self, handle):
        """A kernel, another layout, or a line that does or tells something."""
        table, name, dice = self.table_in(handle), self.held.get(handle), self.dice
        op = dice.choice(['relayout', 'kernel', 'do', 'do', 'do', 'tell', 'tell'])
        act = getattr(self, dice.choice(ACTS.get(op, [op])))
        line = self.taken(act, name, table) if table else dice.choice(OTHER_LINES)
        if act == self.stencil:
            self.print_of(handle)
        if line is not None:
            self.call(op, handle, c=dice.choice([0, 0, 0, -1, 3]) if op == 'tell' else 0, texts=[self.text(line)])

    def drop_one(self, handle):
        if self.call('drop', handle):
            self.held.pop(handle, None)

    def step(self):
        dice, handle = self.dice, self.dice.randrange(HANDLES)
        if handle not in self.held and dice.randrange(12) or one_in(dice, 30):
            return self.make(handle)
        return dice.choice([self.reads] * 5 + [self.write] * 7 + [self.by_line] * 4 + [self.copy_to] * 2 + [self.drop_one] * one_in(dice, 2))(handle)


def thrown_calls(seed, number):
    """The calls of this number, with all tables at their end."""
    maker = Calls(random.Random(f'calls {seed} {number}'))
    for _ in range(maker.dice.choice([6, 15, 30, 60])):
        maker.step()
    for handle in range(HANDLES):
        maker.print_of(handle)
    return maker.calls
