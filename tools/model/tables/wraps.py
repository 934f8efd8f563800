"""Views that keep the low bits of what does not fit.

What a store leaves is worked out here by the bits of its place: those of the value that the place has, as the place's sign and width say them,
and of that number those that the type has, as the type's sign and width say them. The model asks which numbers are congruent, and must agree.
"""
from .addresses import BYTES, laid, memory
from .bit_fields import BITS, TYPES
from .case import Case
from .copies import name_of, shown
from .nested import text_of

MOST = 2 ** 127 - 1
FAR = [2 ** 64, -2 ** 64, 2 ** 64 + 5, -2 ** 66 - 3, MOST, -MOST, 2 ** 126 + 2 ** 63 + 200]


# what is left of a value

def said(number, width, signed):
    """What so many low bits of a number say."""
    low = number & (1 << width) - 1
    return low - (1 << width) if signed and low >> width - 1 else low


def left(kind, place, value):
    """What a leaf of a type holds once a value is stored at its place."""
    return said(said(value, len(place.bits), place.signed), 1 if kind == 'bool' else BITS[kind], kind[0] == 'i')


class Wrapped:
    """A table of one record under a mapping, each number of which is what is left of a value."""

    def __init__(self, cells, mapping, rows):
        self.cells, self.count = cells, len(rows)
        self.lengths, at = laid(mapping, cells, (len(rows),))
        self.places = [[at((row,), cell) for cell in range(len(cells))] for row in range(len(rows))]
        self.rows = [[left(kind, place, value) for (_, kind), place, value in zip(cells, places, values)] for places, values in zip(self.places, rows)]

    def printed(self):
        return ' | '.join(','.join(map(str, line)) for line in [[path for path, _ in self.cells], *self.rows])

    def shown(self):
        entries = [entry for places, numbers in zip(self.places, self.rows) for entry in zip(places, numbers)]
        return ' | '.join(line for blob in memory(self.lengths, entries) for line in [shown(blob.hex(' '))] if line)

    def asked(self, view):
        return ' | '.join(f'bytes {view} {blob}' for blob in range(len(self.lengths)))


def written(value):
    return f'-{-value}' if value < 0 else str(value)


# each type under holds that are narrower, as wide and wider, with a sign and without

def values_of(kind):
    least, greatest = TYPES[kind]
    return [least, greatest, least - 1, greatest + 1, 2 * greatest + 5, 200, -100, 2 ** 31, -2 ** 33 - 7, *FAR]


def holds_of(kind):
    width = BITS[kind]
    packed = [(form, most, 'row') for form in ('bitaos', 'bitsoa') for most in sorted({1, width - 1, width, min(64, width + 3)})]
    changed = [('change', kind, to, ('aos', 'packed', 'row')) for to in TYPES if to not in (kind, 'bool')]
    both = [('change', kind, to, ('bitaos', most, 'row')) for to, most in (('i8', 1), ('i16', 5), ('u32', 7), ('i64', 33)) if to != kind]
    return packed + changed + both


def of_hold(kind, mapping):
    """Values that are stored one in each row beside a leaf of another type, and then laid out with room for all."""
    cells, values = [('x', kind), ('t', 'u8' if kind != 'u8' else 'u16')], values_of(kind)
    table = Wrapped(cells, mapping, [(value, row) for row, value in enumerate(values)])
    roomy = Wrapped(cells, ('soa', 'multi', 'row'), table.rows)
    stores = ' | '.join(f'set V[{row}].x = {written(value)} | set V[{row}].t = {row}' for row, value in enumerate(values))
    name = '_'.join(name_of(text_of(mapping).replace('->', ' to ')).split())
    script = (f'record P {{ x:{kind}, t:{cells[1][1]} }} | view V : P [{len(values)}] wrap as {text_of(mapping)} | {stores} | print V | {table.asked("V")} | '
              f'relayout V as soa(multi, row) | print V | {roomy.asked("V")}')
    return Case(f'wrap_{kind}_as_{name}', script, ' | '.join([table.printed(), table.shown(), roomy.printed(), roomy.shown()]))


HOLDS = [of_hold(kind, mapping) for kind in TYPES for mapping in holds_of(kind)]


# datasets of numbers of any length

def fields_of(kind):
    """Fields, each with the number that it tells."""
    digits = '1234567890' * 4
    return [(digits, int(digits)), ('-' + digits, -int(digits)), ('0' * 40 + '7', 7), ('+' + '9' * 40, 10 ** 40 - 1), ('-0', 0), (' 300\t', 300), ('"-300"', -300),
            ('9' * 200, 10 ** 200 - 1), ('-' + '9' * 200, 1 - 10 ** 200), (str(TYPES[kind][1] + 1), TYPES[kind][1] + 1), (str(TYPES[kind][0] - 1), TYPES[kind][0] - 1),
            (str(2 ** 65), 2 ** 65), (str(2 ** 65 + 1), 2 ** 65 + 1), (str(-2 ** 65 - 1), -2 ** 65 - 1), (str(2 ** 65 - 1), 2 ** 65 - 1), ('18446744073709551616', 2 ** 64)]


def of_dataset(kind, mapping):
    fields = fields_of(kind)
    table = Wrapped([('x', kind)], mapping, [(value,) for _, value in fields])
    name = '_'.join(name_of(text_of(mapping).replace('->', ' to ')).split())
    return Case(f'wrap_dataset_of_{kind}_as_{name}', f'record P {{ x:{kind} }} | load V : P [?] wrap as {text_of(mapping)} from "d.csv" | print V | {table.asked("V")}',
                ' | '.join([table.printed(), table.shown()]), ('x\n' + ''.join(field + '\n' for field, _ in fields)).encode())


DATASETS = [of_dataset(kind, mapping) for kind in TYPES
            for mapping in [('aos', 'packed', 'row'), ('bitaos', 3, 'row'), ('change', kind, 'i16' if kind != 'i16' else 'u8', ('aosoa', 4, 'row'))]]

P1 = 'record P { a:u8, b:i32 } | '
LOADED = [
    Case('wrap_load_keeps_the_low_bits', P1 + 'load V : P [?] wrap as aos(packed, row) from "d.csv" | print V', 'a,b | 1,-1', b'a,b\n257,4294967295\n'),
    Case('wrap_load_still_wants_each_column', P1 + 'load V : P [?] wrap as aos(packed, row) from "d.csv"', 'line 2: MissingColumn b', b'a\n257\n'),
    Case('wrap_load_still_wants_no_column_twice', P1 + 'load V : P [?] wrap as aos(packed, row) from "d.csv"', 'line 2: ColumnTwice a', b'a,b,a\n1,2,3\n'),
    Case('wrap_load_still_wants_numbers', P1 + 'load V : P [?] wrap as aos(packed, row) from "d.csv"', 'line 2: Number record 1 leaf a', b'a,b\n257,1\n1e3,1\n'),
    Case('wrap_load_still_wants_whole_rows', P1 + 'load V : P [?] wrap as aos(packed, row) from "d.csv"', 'line 2: ShortRow record 1 leaf b', b'a,b\n257,1\n300\n'),
    Case('wrap_load_counts_a_write_of_each_leaf', P1 + 'load V : P [?] wrap as count(aos(packed, row)) from "d.csv" | counts V', 'leaf,reads,writes | a,0,2 | b,0,2',
         b'a,b\n257,1\n300,99999999999\n'),
    Case('wrap_load_of_what_was_printed', P1 + 'load V : P [?] wrap as bitaos(4, row) from "d.csv" | print V', 'a,b | 15,-8 | 0,7', b'a,b\n15,-8\n0,7\n'),
    Case('strict_load_of_what_wrap_keeps', P1 + 'load V : P [?] as aos(packed, row) from "d.csv"', 'line 2: Range record 0 leaf a', b'a,b\n257,4294967295\n'),
]


# the commands

P2 = 'record P { x:i8, y:u16 } | '
START = P2 + 'view V : P [4] wrap as {} | update V set x = 120 + i0 * 4, y = 65534 + i0 | print V | '
BEGUN = 'x,y | 120,65534 | 124,65535 | -128,0 | -124,1'
PACKED = START.replace('{}', 'aos(packed, row)')
COMMANDS = [
    Case('wrap_of_an_update', PACKED + 'update V set x = x * 3, y = y - 2 | print V', BEGUN + ' | x,y | 104,65532 | 116,65533 | -128,65534 | -116,65535'),
    Case('wrap_of_an_update_where', PACKED + 'update V where x < 0 set x = x - 1 | print V', BEGUN + ' | x,y | 120,65534 | 124,65535 | 127,0 | -125,1'),
    Case('wrap_of_an_update_of_two_leaves_by_each_other', PACKED + 'update V set x = y, y = x | print V', BEGUN + ' | x,y | -2,120 | -1,124 | 0,65408 | 1,65412'),
    Case('wrap_of_an_update_still_faults_in_its_expression', PACKED + 'update V set x = 1000 / (y - 1)', BEGUN + ' | line 5: DivideByZero record 3'),
    Case('wrap_of_an_update_still_overflows', PACKED + f'update V set x = {MOST} + y | print V', BEGUN + ' | line 5: Overflow record 0'),
    Case('wrap_of_an_update_keeps_the_rows_before_a_fault', P2 + 'view V : P [2] wrap as aosoa(2, row) | update V set x = 1000 / (1 - i0)', 'line 3: DivideByZero record 1'),
    Case('wrap_of_a_set', PACKED + 'set V[2].x = 1000 | set V[2].y = -1 | print V', BEGUN + ' | x,y | 120,65534 | 124,65535 | -24,65535 | -124,1'),
    Case('wrap_of_a_set_reads_what_was_kept', PACKED + 'set V[0].x = x + 300 | set V[0].y = x | print V', BEGUN + ' | x,y | -92,65444 | 124,65535 | -128,0 | -124,1'),
    Case('wrap_of_reductions', PACKED + 'reduce V sum x | reduce V min x | reduce V max y | reduce V count where x < 0', BEGUN + ' | -8 | -128 | 65535 | 2'),
    Case('wrap_of_a_counting_view', START.replace('{}', 'count(aos(packed, row))') + 'counts V', BEGUN + ' | leaf,reads,writes | x,4,4 | y,4,4'),
    Case('wrap_of_an_axpy', PACKED + 'kernel V axpy(3, x, y) lanes 4 | print V', BEGUN + ' | x,y | 120,358 | 124,371 | -128,65152 | -124,65165'),
    Case('wrap_of_an_axpy_onto_itself', PACKED + 'kernel V axpy(2, x, x) lanes 16 | print V', BEGUN + ' | x,y | 104,65534 | 116,65535 | -128,0 | -116,1'),
    Case('wrap_of_a_clamp_past_the_type', PACKED + 'kernel V clamp(x, 1000, 2000) lanes 2 | print V', BEGUN + ' | x,y | -24,65534 | -24,65535 | -24,0 | -24,1'),
    Case('wrap_of_a_clamp_within_it', PACKED + 'kernel V clamp(x, -3, 3) lanes 1 | print V', BEGUN + ' | x,y | 3,65534 | 3,65535 | -3,0 | -3,1'),
    Case('wrap_of_kernels_that_read', PACKED + 'kernel V sum(x) lanes 4 | kernel V least(y) lanes 2 | kernel V greatest(x) lanes 8 | kernel V count_where(x >= 0) lanes 1',
         BEGUN + ' | -8 | 0 | 124 | 2'),
    Case('wrap_of_a_kernel_over_no_row', P2 + 'view V : P [0] wrap as aos(packed, row) | kernel V least(x) lanes 1', 'line 3: Empty'),
    Case('wrap_of_a_kernel_still_wants_narrow_leaves', 'record P { x:i64 } | view V : P [1] wrap as aos(packed, row) | kernel V axpy(1, x, x) lanes 1', 'line 3: BadKernel Wide'),
]


def of_kernel(form, lanes, rows):
    """An axpy and a clamp over more than a block of sixteen rows, some of whose values run over."""
    cells = [('x', 'i16'), ('y', 'u8')]
    first = [(row * 3001 - 20000, row * 37) for row in range(rows)]
    table = Wrapped(cells, form, first)
    second = Wrapped(cells, form, [(x, -5 * x + y) for x, y in table.rows])
    third = Wrapped(cells, form, [(max(min(x, 70000), 12), y) for x, y in second.rows])
    name = '_'.join(name_of(text_of(form).replace('->', ' to ')).split())
    return Case(f'wrap_of_kernels_by_{lanes}_over_{rows}_rows_as_{name}',
                f'record P {{ x:i16, y:u8 }} | view V : P [{rows}] wrap as {text_of(form)} | update V set x = i0 * 3001 - 20000, y = i0 * 37 | print V | '
                f'kernel V axpy(-5, x, y) lanes {lanes} | print V | kernel V clamp(x, 12, 70000) lanes {lanes} | print V | {third.asked("V")}',
                ' | '.join([table.printed(), second.printed(), third.printed(), third.shown()]))


KERNELS = [of_kernel(form, lanes, rows) for form in [('aos', 'packed', 'row'), ('soa', 'multi', 'row'), ('aosoa', 8, 'row'), ('bitaos', 5, 'row'),
                                                     ('byteswap', ('aos', 'aligned', 'row')), ('change', 'i16', 'u8', ('soa', 'single', 'row')), ('aos', 'min', 'col')]
           for lanes, rows in ((16, 35), (4, 19))]


# copies between the modes, and tables laid out anew

COPIES = [
    Case('wrap_copy_of_a_strict_view', P2 + 'view V : P [2] as aos(packed, row) | update V set x = -100, y = 40000 + i0 | view W : P [2] wrap as bitaos(5, row) | copy V to W | print W',
         'x,y | -4,0 | -4,1'),
    Case('wrap_copy_to_a_strict_view_by_blobs', P2 + 'view V : P [2] wrap as aosoa(2, row) | update V set x = 300, y = -1 - i0 | view W : P [2] as aosoa(2, row) | copy V to W | print W',
         'x,y | 44,65535 | 44,65534'),
    Case('wrap_copy_to_a_strict_view_of_one_narrow_form', P2 + 'view V : P [2] wrap as bitaos(4, row) | update V set x = 9, y = 65537 + i0 | view W : P [2] as bitaos(4, row) | copy V to W | print W | bytes W 0',
         'x,y | -7,1 | -7,2 | 19 29 00 00 00 00 00 00'),
    Case('wrap_copy_to_a_strict_view_that_does_not_hold_it', 'record P { u:u16 } | view V : P [1] wrap as change(u16->i8, aos(packed, row)) | set V[0].u = 200 | print V | bytes V 0 | '
         'view W : P [1] as change(u16->i8, aos(packed, row)) | copy V to W', 'u | 65480 | c8 | line 7: Narrow record 0 leaf u'),
    Case('wrap_copy_to_a_strict_view_refuses_in_row_order', 'record P { u:u16, v:u8 } | view V : P [3] wrap as change(u16->i8, aos(packed, row)) | update V set u = 126 + i0, v = 300 | '
         'view W : P [3] as change(u16->i8, aos(packed, row)) | copy V to W', 'line 5: Narrow record 2 leaf u'),
    Case('wrap_copy_to_a_strict_view_by_runs', P2 + 'view V : P [5] wrap as soa(multi, row) | update V set x = 300 + i0, y = -1 - i0 | view W : P [5] as aosoa(4, row) | copy V to W | print W',
         'x,y | 44,65535 | 45,65534 | 46,65533 | 47,65532 | 48,65531'),
    Case('wrap_copy_between_two_wrap_views', P2 + 'view V : P [2] wrap as bitaos(5, row) | update V set x = 15 + i0, y = 33 | view W : P [2] wrap as bitsoa(3, row) | copy V to W | print V | print W',
         'x,y | 15,1 | -16,1 | x,y | -1,1 | 0,1'),
    Case('wrap_copy_between_two_wrap_views_of_one_form', 'record P { u:u16 } | view V : P [1] wrap as change(u16->i8, aos(packed, row)) | set V[0].u = 200 | '
         'view W : P [1] wrap as change(u16->i8, aos(packed, row)) | copy V to W | print W | bytes W 0', 'u | 65480 | c8'),
    Case('wrap_copy_onto_itself', 'record P { u:u16 } | view V : P [2] wrap as change(u16->i8, aos(packed, row)) | set V[1].u = 200 | copy V to V | print V', 'u | 0 | 65480'),
    Case('wrap_copy_counts_as_any_copy', P2 + 'view V : P [2] wrap as count(bitaos(4, row)) | view W : P [2] as count(bitaos(4, row)) | update V set x = 9 | copy V to W | counts V | counts W',
         'leaf,reads,writes | x,2,2 | y,2,0 | leaf,reads,writes | x,0,2 | y,0,2'),
    Case('wrap_copy_there_and_back', P2 + 'view V : P [2] as aos(packed, row) | view W : P [2] wrap as bitaos(4, row) | update V set x = 100 + i0, y = 17 | copy V to W | copy W to V | print V',
         'x,y | 4,1 | 5,1'),
    Case('wrap_copy_of_flags', 'record P { f:bool, a:u8 } | view V : P [2] wrap as change(bool->i8, bitaos(1, row)) | update V set f = 3 + i0, a = 6 + i0 | print V | bytes V 0 | '
         'view W : P [2] as aos(packed, row) | copy V to W | print W | view X : P [2] as change(bool->i8, bitaos(1, row)) | copy V to X', 'f,a | 1,0 | 0,1 | 09 00 00 00 00 00 00 00 | f,a | 1,0 | 0,1 | line 10: Narrow record 0 leaf f'),
    Case('wrap_copy_still_wants_one_record', P2 + 'record Q { x:i8 } | view V : P [2] wrap as aos(packed, row) | view W : Q [2] wrap as aos(packed, row) | copy V to W', 'line 5: Mismatch'),
    Case('wrap_relayout_keeps_the_mode', P2 + 'view V : P [1] wrap as aos(packed, row) | relayout V as bitaos(3, row) | set V[0].x = 5 | set V[0].y = 12 | print V', 'x,y | -3,4'),
    Case('wrap_relayout_cuts_for_good', P2 + 'view V : P [1] wrap as aos(packed, row) | set V[0].x = 100 | relayout V as bitaos(3, row) | relayout V as aos(packed, row) | print V', 'x,y | -4,0'),
    Case('strict_relayout_keeps_the_mode', P2 + 'view V : P [1] as aos(packed, row) | relayout V as soa(multi, row) | set V[0].x = 200', 'line 4: Range record 0 leaf x'),
    Case('strict_relayout_beside_a_wrap_view', P2 + 'view V : P [1] wrap as aos(packed, row) | view W : P [1] as aos(packed, row) | relayout W as bitaos(3, row) | set V[0].x = 200 | print V | set W[0].x = 5',
         'x,y | -56,0 | line 7: Narrow record 0 leaf x'),
    Case('wrap_of_a_wide_hold_clears_its_high_bits', 'record P { a:u8, b:i8 } | view V : P [2] wrap as change(u8->u64, change(i8->i32, aos(packed, row))) | update V set a = 511 + i0, b = 255 | bytes V 0 | print V',
         'ff 00 00 00 00 00 00 00 ff ff ff ff 00 00 00 00 | 00 00 00 00 ff ff ff ff | a,b | 255,-1 | 0,-1'),
    Case('wrap_of_each_mode_beside_the_other', 'record P { a:i8, b:u16 } | view V : P [2] wrap as bitaos(4, row) | set V[0].a = 9 | set V[0].b = 65537 | set V[1].a = -100 | print V | bytes V 0',
         'a,b | -7,1 | -4,0 | 19 0c 00 00 00 00 00 00'),
    Case('wrap_of_heat', P2 + 'view V : P [2] wrap as heat(1, aos(packed, row)) | update V set x = 300 | heat V', 'blob,granule,accesses | 0,0,1 | 0,3,1'),
    Case('wrap_of_a_layout', P2 + 'view V : P [1] wrap as bitaos(4, row) | layout V', 'blob,bit,bits,record,leaf,low | 0,0,4,0,x,0 | 0,4,4,0,y,0 | 0,8,56,-,-,-'),
    Case('wrap_of_a_view_that_is_dropped', P2 + 'view V : P [1] wrap as aos(packed, row) | drop V | view V : P [1] as aos(packed, row) | set V[0].x = 128', 'line 5: Range record 0 leaf x'),
]


# the word itself

WORD = [
    Case('wrap_is_a_name_elsewhere', 'record wrap { wrap:u8 } | mapping wrap = aos(packed, row) | view wrap : wrap [1] wrap as wrap | set wrap[0].wrap = 257 | print wrap', 'wrap | 1'),
    Case('wrap_is_a_name_of_a_mapping_alone', 'record P { a:u8 } | mapping wrap = aos(packed, row) | view V : P [1] as wrap | set V[0].a = 257', 'line 4: Range record 0 leaf a'),
    Case('wrap_twice', 'record P { a:u8 } | view V : P [1] wrap wrap as aos(packed, row)', 'line 2: Syntax column 21'),
    Case('wrap_without_as', 'record P { a:u8 } | view V : P [1] wrap', 'line 2: Syntax column 20'),
    Case('wrap_before_its_extents', 'record P { a:u8 } | view V : P wrap [1] as aos(packed, row)', 'line 2: Syntax column 12'),
    Case('wrap_behind_its_layout', 'record P { a:u8 } | view V : P [1] as aos(packed, row) wrap', 'line 2: Syntax column 36'),
    Case('wrap_in_a_relayout', 'record P { a:u8 } | view V : P [1] as aos(packed, row) | relayout V wrap as aos(packed, row)', 'line 3: Syntax column 12'),
    Case('wrap_in_a_mapping', 'mapping M = wrap as aos(packed, row)', 'line 1: Syntax column 18'),
    Case('wrap_in_capitals', 'record P { a:u8 } | view V : P [1] Wrap as aos(packed, row)', 'line 2: Syntax column 16'),
    Case('wrap_behind_the_file_of_a_load', 'record P { a:u8 } | load V : P [?] as aos(packed, row) from "d.csv" wrap', 'line 2: Syntax column 49', b'a\n1\n'),
    Case('wrap_of_a_view_that_is_taken', 'record P { a:u8 } | view V : P [1] as aos(packed, row) | view V : P [1] wrap as aos(packed, row)', 'line 3: Taken V'),
    Case('wrap_of_a_bad_mapping', 'record P { a:u8 } | view V : P [1] wrap as bitaos(0, row)', 'line 2: BadMapping Width'),
    Case('wrap_of_a_view_that_is_too_big', 'record P { a:u64[64] } | view V : P [16777216] wrap as aos(packed, row)', 'line 2: TooBig'),
]

CASES = HOLDS + DATASETS + LOADED + COMMANDS + KERNELS + COPIES + WORD
