"""Widths of chosen leaves in bit mappings: what each leaf holds, where its bits lie, and what refuses a width.

The bits of each leaf stand here as they were told apart by hand. A blob of bits is one number, the first field lowest, so its bytes are
worked out by shifts. What is thrown, and what lies in another order than that of rows, is worked out by addresses.py. The model must agree.
"""
import re

from . import nested, strategies, tallies, wraps
from .addresses import BYTES
from .bit_fields import BITS, TYPES, held, packed, refusal
from .case import Case, in_version_2
from .nested import asked, Dice, due_of, fronts_of, path_text, sides, Table, text_of, thrown_form, written

TWO = 'version 2 | '
ONES = 2 ** 64 - 1


def words_of(mapping):
    return re.sub(r'\W+', '_', text_of(mapping).replace('->', ' to ')).strip('_')


# which leaf has which bits

RECORD = 'a:u16, pos { x:i16, y:i16 }, h:u8[3], c { p:u32, f:bool }[2]'
LEAVES = [('a', 'u16'), ('pos.x', 'i16'), ('pos.y', 'i16'), ('h[0]', 'u8'), ('h[1]', 'u8'), ('h[2]', 'u8'), ('c[0].p', 'u32'), ('c[0].f', 'bool'), ('c[1].p', 'u32'), ('c[1].f', 'bool')]
# name, widths, and the bits of each of these leaves
TOLD = [
    ('a_leaf', '5 { a: 12 }', [12, 5, 5, 5, 5, 5, 5, 5, 5, 5]), ('a_leaf_in_a_record', '5 { pos.y: 11 }', [5, 5, 11, 5, 5, 5, 5, 5, 5, 5]), ('a_record', '5 { pos: 3 }', [5, 3, 3, 5, 5, 5, 5, 5, 5, 5]),
    ('an_array', '5 { h: 7 }', [5, 5, 5, 7, 7, 7, 5, 5, 5, 5]), ('an_element', '5 { h[1]: 8 }', [5, 5, 5, 5, 8, 5, 5, 5, 5, 5]), ('an_array_of_records', '5 { c: 9 }', [5, 5, 5, 5, 5, 5, 9, 8, 9, 8]),
    ('an_element_of_an_array_of_records', '5 { c[1]: 32 }', [5, 5, 5, 5, 5, 5, 5, 5, 32, 8]), ('a_leaf_of_one_element', '5 { c[0].p: 20 }', [5, 5, 5, 5, 5, 5, 20, 5, 5, 5]),
    ('each_leaf', '64 { a: 16, pos.x: 2, pos.y: 3, h[0]: 4, h[1]: 5, h[2]: 6, c[0].p: 7, c[0].f: 1, c[1].p: 9, c[1].f: 2 }', [16, 2, 3, 4, 5, 6, 7, 1, 9, 2]),
    ('a_leaf_and_a_record', '8 { a: 12, pos: 4 }', [12, 4, 4, 8, 8, 8, 8, 8, 8, 8]), ('less_than_the_first_number', '33 { a: 1, c: 1 }', [1, 16, 16, 8, 8, 8, 1, 1, 1, 1]),
    ('the_first_number_again', '6 { a: 6, c: 6 }', [6, 6, 6, 6, 6, 6, 6, 6, 6, 6]), ('leaves_in_another_order', '5 { c[1].f: 3, h[0]: 2, a: 9 }', [9, 5, 5, 2, 5, 5, 5, 5, 5, 3]),
    ('a_leaf_after_its_record', '5 { pos: 4, pos.x: 12 }', [5, 12, 4, 5, 5, 5, 5, 5, 5, 5]), ('a_record_after_its_leaf', '5 { pos.x: 12, pos: 4 }', [5, 4, 4, 5, 5, 5, 5, 5, 5, 5]),
    ('an_element_after_its_array', '5 { h: 3, h[2]: 6 }', [5, 5, 5, 3, 3, 6, 5, 5, 5, 5]), ('an_array_after_its_element', '5 { h[2]: 6, h: 3 }', [5, 5, 5, 3, 3, 3, 5, 5, 5, 5]),
    ('an_array_before_and_after_its_element', '5 { h: 2, h[1]: 6, h: 3 }', [5, 5, 5, 3, 3, 3, 5, 5, 5, 5]), ('a_leaf_twice', '5 { a: 3, a: 9 }', [9, 5, 5, 5, 5, 5, 5, 5, 5, 5]),
    ('a_leaf_three_times', '5 { a: 16, a: 1, a: 7 }', [7, 5, 5, 5, 5, 5, 5, 5, 5, 5]), ('leaves_between_their_records', '2 { c[0].p: 31, c: 6, c[1]: 11, c[1].f: 1 }', [2, 2, 2, 2, 2, 2, 6, 6, 11, 1]),
    ('more_than_a_type_has', '5 { a: 17, h[0]: 9, c[0].f: 64, c[1].p: 33 }', [16, 5, 5, 8, 5, 5, 5, 8, 32, 5]), ('64_of_each', '1 { a: 64, pos: 64, h: 64, c: 64 }', [16, 16, 16, 8, 8, 8, 32, 8, 32, 8]),
    ('1_of_each', '64 { a: 1, pos: 1, h: 1, c: 1 }', [1] * 10),
]


def drawn(bits):
    """What `layout` prints of two slots of leaves of so many bits, one after the other."""
    lines, place = ['blob,bit,bits,record,leaf,low'], 0
    for row in range(2):
        for (path, _), width in zip(LEAVES, bits):
            lines.append(f'0,{place},{width},{row},{path},0')
            place += width
    rest = -place % 64
    return lines + [f'0,{place},{rest},-,-,-'] * (rest > 0)


def told(name, widths, bits):
    """The ends of what each leaf holds, in one blob and in a blob for each; and the first number past an end."""
    ends = [held(kind, width) for (_, kind), width in zip(LEAVES, bits)]
    rows = [[greatest for _, greatest in ends], [least for least, _ in ends]]
    stores = [f'update V where i0 == {row} set ' + ', '.join(f'{path} = {value}' for (path, _), value in zip(LEAVES, values)) for row, values in enumerate(rows)]
    leaf = next((leaf for leaf, (_, kind) in enumerate(LEAVES) if bits[leaf] not in (5, BITS[kind])), 0)
    path, kind = LEAVES[leaf]
    past = ends[leaf][1] + 1
    script = ['version 2', f'record P {{ {RECORD} }}', f'view V : P [2] as bitaos({widths}, row)', *stores, 'print V', 'layout V', 'bytes V 0', f'relayout V as bitsoa({widths}, row)',
              *asked('V', LEAVES), 'print V', f'set V[1].{path} = {past}']
    printed = [','.join(path for path, _ in LEAVES)] + [','.join(map(str, values)) for values in rows]
    due = [*printed, *drawn(bits), packed(*[field for values in rows for field in zip(values, bits)]), *[packed(*[(values[leaf], bits[leaf]) for values in rows]) for leaf in range(len(LEAVES))],
           *printed, f'line {len(script)}: {refusal(kind, past)} record 1 leaf {path}']
    return Case(f'widths_of_{name}', ' | '.join(script), ' | '.join(due))


CHOSEN = [told(*row) for row in TOLD]


# each type in chosen bits between leaves of 3

def of_type(kind, most):
    least, greatest = held(kind, most)
    width = min(most, BITS[kind])
    start = (f'version 2 | record P {{ a:u8, x:{kind}, b:u8 }} | view V : P [2] as {{}}(3 {{ x: {most} }}, row) | update V set a = 1, b = 6 | set V[0].x = {least} | set V[1].x = {greatest} | print V | ')
    due = f'a,x,b | 1,{least},6 | 1,{greatest},6 | '
    together = packed(*[field for value in (least, greatest) for field in ((1, 3), (value, width), (6, 3))])
    apart = ' | '.join([packed((1, 3), (1, 3)), packed((least, width), (greatest, width)), packed((6, 3), (6, 3))])
    return [Case(f'widths_of_{kind}_in_{most}_and_above', start.replace('{}', 'bitaos') + f'bytes V 0 | set V[1].x = {greatest + 1}',
                 due + together + f' | line 9: {refusal(kind, greatest + 1)} record 1 leaf x'),
            Case(f'widths_of_{kind}_in_{most}_and_below', start.replace('{}', 'bitsoa') + f'bytes V 0 | bytes V 1 | bytes V 2 | set V[0].x = {least - 1}',
                 due + apart + f' | line 11: {refusal(kind, least - 1)} record 0 leaf x')]


KINDS = [case for kind in TYPES for most in sorted({1, BITS[kind] - 1, BITS[kind], min(64, BITS[kind] + 1), 64}) for case in of_type(kind, most)]


# views that keep low bits

def kept_forms(kind):
    """Bit mappings whose first number is not that of x."""
    chosen = sorted({1, BITS[kind] // 2, BITS[kind] - 1, BITS[kind], min(64, BITS[kind] + 3)})
    plain = [(('bitaos', 'bitsoa')[at % 2], (6, (('x', most),)), 'row') for at, most in enumerate(chosen)]
    changed = [('change', kind, to, ('bitaos', (64, (('x', most),)), 'row')) for to, most in (('i8', 3), ('i64', 33)) if to != kind]
    return plain + changed


def kept(make, kind, mapping, name):
    return in_version_2(make(kind, mapping))._replace(name=f'widths_{name}_of_{kind}_as_{words_of(mapping)}')


KEPT = [kept(wraps.of_hold, kind, mapping, 'kept') for kind in TYPES for mapping in kept_forms(kind)] + [
    kept(wraps.of_dataset, kind, ('bitaos', (64, (('x', 3),)), 'row'), 'kept_dataset') for kind in TYPES] + [
    Case('widths_of_each_leaf_of_a_wrap_view', TWO + 'record P { a:i8, b:u16, f:bool } | view V : P [2] wrap as bitaos(8 { a: 4, b: 12, f: 1 }, row) | set V[0].a = 9 | '
         'set V[0].b = 4101 | set V[0].f = 6 | '
         'update V where i0 == 1 set a = -100, b = -1, f = 3 | print V | bytes V 0', 'a,b,f | -7,5,0 | -4,4095,1 | ' + packed((9, 4), (5, 12), (0, 1), (12, 4), (4095, 12), (1, 1))),
    Case('widths_of_a_wrap_view_under_a_kernel', TWO + 'record P { x:u8, y:u8 } | view V : P [5] wrap as bitaos(8 { y: 4 }, row) | update V set x = i0, y = 9 | kernel V axpy(2, x, y) lanes 4 | print V',
         'x,y | 0,9 | 1,11 | 2,13 | 3,15 | 4,1'),
    Case('widths_of_a_wrap_view_after_a_relayout', TWO + 'record P { a:u8, b:i8 } | view V : P [1] wrap as aos(packed, row) | update V set a = 255, b = 5 | '
         'relayout V as bitaos(8 { a: 6, b: 3 }, row) | print V | '
         'relayout V as bitsoa(8 { a: 2 }, row) | print V', 'a,b | 63,-3 | a,b | 3,-3'),
    Case('widths_of_a_wrap_view_copied_to_other_ones', TWO + 'record P { a:u8, b:i8 } | view V : P [1] as bitaos(8 { a: 7 }, row) | '
         'view W : P [1] wrap as bitaos(2 { a: 5 }, row) | set V[0].a = 100 | set V[0].b = -3 | '
         'copy V to W | print W | copy W to V | print V', 'a,b | 4,1 | a,b | 4,1'),
]


# worked out one by one

Q = 'version 2 | record P { a:u16, b:u8 } | '
FLAGS = 'record P { f:bool, g:bool, n:u8 } | '
NIBBLES = ('record P { a:u16, b:u16, c:u8 } | view V : P [2] as bitaos(8 { a: 12, b: 4 }, row) | set V[0].a = 2748 | set V[0].b = 13 | set V[0].c = 239 | bytes V 0 | '
           'set V[0].b = 16')
HAND = [
    Case('widths_of_two_leaves', TWO + NIBBLES, 'bc da ef 00 00 00 00 00 | line 8: Narrow record 0 leaf b'),
    Case('widths_of_two_leaves_in_version_1', NIBBLES, 'line 2: Syntax column 28'),
    Case('widths_of_two_leaves_one_of_which_is_not_there', TWO + NIBBLES.replace('b: 4', 'z: 4'), 'line 3: BadMapping Field'),
    Case('widths_of_flags', TWO + FLAGS + 'view V : P [4] as bitaos(8 { f: 1, g: 1 }, row) | update V set f = i0 % 2, g = i0 / 2, n = 255 - i0 | bytes V 0 | set V[1].f = 2',
         packed((0, 1), (0, 1), (255, 8), (1, 1), (0, 1), (254, 8), (0, 1), (1, 1), (253, 8), (1, 1), (1, 1), (252, 8)) + ' | line 6: Range record 1 leaf f'),
    Case('widths_of_an_element_and_not_of_longer_numbers', TWO + 'record P { h:u8[12] } | view V : P [1] as bitaos(8 { h[1]: 3 }, row) | set V[0].h[10] = 255 | '
         'set V[0].h[11] = 255 | set V[0].h[1] = 7 | bytes V 0 | '
         'set V[0].h[1] = 8', packed((0, 8), (7, 3), (0, 64), (ONES, 16)) + ' | line 8: Narrow record 0 leaf h[1]'),
    Case('widths_of_a_name_and_not_of_longer_names', TWO + 'record P { a:u8, ab:u8, a_:u8 } | view V : P [1] as bitaos(8 { a: 3 }, row) | update V set ab = 255, a_ = 255, a = 7 | '
         'bytes V 0 | set V[0].a = 8', packed((7, 3), (ONES, 16)) + ' | line 6: Narrow record 0 leaf a'),
    Case('widths_of_one_name_in_two_records', TWO + 'record P { a { x:u8 }, x:u8 } | view V : P [1] as bitaos(8 { x: 3 }, row) | set V[0].a.x = 255 | set V[0].x = 7 | bytes V 0 | set V[0].x = 8',
         packed((255, 8), (7, 3)) + ' | line 7: Narrow record 0 leaf x'),
    Case('widths_of_each_of_64_leaves', TWO + 'record P { h:u64[64] } | view V : P [1] as bitaos(1 { ' + ', '.join(f'h[{at}]: {at + 1}' for at in range(64)) + ' }, row) | '
         + ' | '.join(f'set V[0].h[{at}] = {2 ** (at + 1) - 1}' for at in range(64)) + ' | bytes V 0 | set V[0].h[40] = 2199023255552',
         packed(*[(ONES, at + 1) for at in range(64)]) + ' | line 69: Narrow record 0 leaf h[40]'),
    Case('widths_of_a_leaf_200_times', Q + 'view V : P [1] as bitaos(8 { ' + ', '.join(f'a: {at % 16 + 1}' for at in range(200)) + ' }, row) | set V[0].a = 255 | set V[0].b = 1 | '
         'bytes V 0 | set V[0].a = 256', 'ff 01 00 00 00 00 00 00 | line 7: Narrow record 0 leaf a'),
    Case('widths_of_blobs_of_different_lengths', TWO + 'record P { a:u16, b:u64, f:bool } | view V : P [10] as bitsoa(1 { a: 7, b: 33 }, row) | '
         'update V set a = 127 - i0, b = 8589934591 - i0, f = i0 % 3 == 0 | '
         'bytes V 0 | bytes V 1 | bytes V 2 | bytes V 3', ' | '.join([packed(*[(127 - row, 7) for row in range(10)]), packed(*[(2 ** 33 - 1 - row, 33) for row in range(10)]),
                                                                      packed(*[(int(row % 3 == 0), 1) for row in range(10)]), 'line 8: BadIndex'])),
    Case('widths_beside_others_stay', TWO + 'record P { a:u8, b:u16, c:i8 } | view V : P [2] as bitaos(5 { b: 11 }, row) | update V set a = 31, b = 2047, c = -1 | bytes V 0 | set V[0].b = 0 | bytes V 0 | '
         'update V set a = 0, c = 0 | bytes V 0', ' | '.join([packed((ONES, 42)), packed((31, 5), (0, 11), (ONES, 26)), packed((0, 26), (ONES, 11), (0, 5))])),
    Case('widths_of_a_layout_of_arrays', Q + 'view V : P [3] as bitsoa(8 { a: 12 }, row) | layout V',
         'blob,bit,bits,record,leaf,low | 0,0,12,0,a,0 | 0,12,12,1,a,0 | 0,24,12,2,a,0 | 0,36,28,-,-,- | 1,0,8,0,b,0 | 1,8,8,1,b,0 | 1,16,8,2,b,0 | 1,24,40,-,-,-'),
    Case('widths_under_a_count', Q + 'view V : P [3] as count(bitaos(4 { a: 12 }, row)) | update V where a == 0 set b = i0 | counts V', 'leaf,reads,writes | a,3,0 | b,0,3'),
    Case('widths_under_a_heat', Q + 'view V : P [3] as heat(1, bitaos(8 { a: 12 }, row)) | update V set a = i0 | heat V',
         'blob,granule,accesses | 0,0,1 | 0,1,1 | 0,2,1 | 0,3,1 | 0,5,1 | 0,6,1'),
    Case('widths_of_a_mapping_that_is_named', Q + 'mapping M = bitaos(8 { a: 12 }, row) | mapping N = M | view V : P [1] as N | set V[0].a = 4095 | relayout V as M | '
         'set V[0].a = 4096', 'line 8: Narrow record 0 leaf a'),
    Case('widths_of_a_mapping_of_another_record', TWO + 'record P { z:u8 } | record Q { y:u8 } | mapping M = bitaos(8 { z: 4 }, row) | view V : P [1] as M | set V[0].z = 15 | '
         'print V | view W : Q [1] as M', 'z | 15 | line 8: BadMapping Field'),
    Case('widths_of_the_sides_of_a_split', TWO + 'record P { a:u16, pos { x:i16, y:i16 } } | view V : P [2] as split(pos, bitaos(3 { pos.y: 5 }, row), bitsoa(2 { a: 9 }, row)) | '
         'update V set a = 511 - i0, pos.x = 3 - i0, pos.y = -16 + i0 | bytes V 0 | bytes V 1 | set V[0].pos.x = 4', packed((3, 3), (-16, 5), (2, 3), (-15, 5)) + ' | ' + packed((511, 9), (510, 9)) +
         ' | line 7: Narrow record 0 leaf pos.x'),
    Case('widths_of_a_record_that_a_split_parts', TWO + 'record P { pos { x:i16, y:i16 } } | view V : P [2] as split(pos.x, bitsoa(8 { pos: 4 }, row), bitsoa(8 { pos: 5 }, row)) | '
         'update V set pos.x = 7, pos.y = 15 | '
         'bytes V 0 | bytes V 1 | set V[0].pos.x = 8', packed((7, 4), (7, 4)) + ' | ' + packed((15, 5), (15, 5)) + ' | line 7: Narrow record 0 leaf pos.x'),
    Case('widths_under_a_byteswap', Q + 'view V : P [2] as byteswap(bitaos(1 { a: 16, b: 8 }, row)) | update V set a = 258 + i0, b = 7 | bytes V 0', '01 02 07 01 03 07 00 00'),
    Case('widths_under_a_byteswap_that_are_overruled', Q + 'view V : P [2] as byteswap(bitaos(1 { a: 15, a: 16, b: 64 }, row)) | update V set a = 258 + i0, b = 7 | bytes V 0', '01 02 07 01 03 07 00 00'),
    Case('widths_under_a_bytesplit', Q + 'view V : P [2] as bytesplit(bitaos(1 { a: 8, b: 9 }, row)) | update V set a = 258 + i0, b = 7 | layout V | bytes V 0',
         'blob,bit,bits,record,leaf,low | 0,0,16,0,a,0 | 0,16,8,0,b,0 | 0,24,16,1,a,0 | 0,40,8,1,b,0 | 0,48,16,-,-,- | 02 01 07 03 01 07 00 00'),
    Case('widths_under_a_bytesplit_in_arrays', Q + 'view V : P [2] as bytesplit(bitsoa(1 { a: 64, b: 8 }, row)) | update V set a = 258 + i0, b = 7 | bytes V 0 | bytes V 1 | bytes V 2 | bytes V 3',
         ' | '.join([packed((2, 8), (3, 8)), packed((1, 8), (1, 8)), packed((7, 8), (7, 8)), 'line 8: BadIndex'])),
    Case('widths_under_a_change_to_less', TWO + 'record P { a:i32, b:u16 } | view V : P [2] as change(i32->i16, bitaos(8 { a: 12 }, row)) | '
         'update V set a = 4095 * i0 - 2048, b = 255 | bytes V 0 | set V[0].a = 2048',
         packed((-2048, 12), (255, 8), (2047, 12), (255, 8)) + ' | line 6: Narrow record 0 leaf a'),
    Case('widths_under_a_change_past_its_type', TWO + 'record P { a:i32, b:u16 } | view V : P [1] as change(i32->i16, bitaos(8 { a: 20 }, row)) | set V[0].a = -32768 | '
         'set V[0].b = 255 | bytes V 0 | set V[0].a = 32768',
         packed((-32768, 16), (255, 8)) + ' | line 7: Narrow record 0 leaf a'),
    Case('widths_under_a_change_to_more', TWO + 'record P { a:i32, b:u16 } | view V : P [2] as change(i32->i64, bitaos(8 { a: 40 }, row)) | update V set a = i0 - 1, b = 255 | '
         'bytes V 0 | set V[0].a = 2147483648',
         packed((-1, 40), (255, 8), (0, 40), (255, 8)) + ' | line 6: Range record 0 leaf a'),
    Case('widths_under_a_change_of_sign', TWO + 'record P { a:i32, b:u16 } | view V : P [1] as change(u16->i8, bitaos(64 { b: 3 }, row)) | set V[0].b = 3 | bytes V 0 | set V[0].b = 4',
         packed((0, 32), (3, 3)) + ' | line 6: Narrow record 0 leaf b'),
    Case('widths_under_a_change_of_sign_in_a_wrap_view', TWO + 'record P { a:i32, b:u16 } | view V : P [3] wrap as change(u16->i8, bitaos(64 { b: 3 }, row)) | '
         'update V set b = 3 + 2 * i0 - i0 / 2 | print V', 'a,b | 0,3 | 0,65533 | 0,65534'),
    Case('widths_past_the_type_refuse_by_its_range', TWO + 'record P { a:u8, b:u8 } | view V : P [1] as bitaos(4 { a: 64 }, row) | set V[0].a = 255 | bytes V 0 | set V[0].a = 256',
         'ff 00 00 00 00 00 00 00 | line 6: Range record 0 leaf a'),
    Case('widths_refuse_past_the_type_first', Q + 'view V : P [1] as bitaos(8 { a: 12 }, row) | set V[0].a = 65536', 'line 4: Range record 0 leaf a'),
    Case('widths_refuse_an_update_in_a_later_row', Q + 'view V : P [5] as bitaos(8 { a: 3 }, row) | update V set b = 200, a = 5 + i0', 'line 4: Narrow record 3 leaf a'),
    Case('widths_refuse_the_first_right_side', Q + 'view V : P [5] as bitaos(3 { a: 12 }, row) | update V set b = 8, a = 4096', 'line 4: Narrow record 0 leaf b'),
    Case('widths_refuse_an_axpy', TWO + 'record P { x:u8, y:u8 } | view V : P [5] as bitaos(8 { y: 4 }, row) | update V set x = i0, y = 9 | kernel V axpy(2, x, y) lanes 4',
         'line 5: Narrow record 4 leaf y'),
    Case('widths_refuse_a_clamp', TWO + 'record P { x:i16, y:i16 } | view V : P [3] as bitaos(16 { x: 4 }, row) | update V set x = i0 | kernel V clamp(y, 8, 9) lanes 1 | kernel V clamp(x, 8, 9) lanes 1',
         'line 6: Narrow record 0 leaf x'),
    Case('widths_under_reductions', Q + 'view V : P [5] as bitsoa(2 { a: 13 }, col) | update V set a = 8191 - 2 * i0, b = i0 % 4 | reduce V sum a | reduce V min a | '
         'reduce V max a | reduce V count where a > 8185 and b != 1', '40935 | 8183 | 8191 | 2'),
    Case('widths_by_columns', Q + 'view V : P [2, 2] as bitaos(4 { a: 12 }, col) | update V set a = 256 * (2 * i0 + i1) + 17, b = i1 | bytes V 0',
         packed((17, 12), (0, 4), (529, 12), (0, 4), (273, 12), (1, 4), (785, 12), (1, 4))),
    Case('widths_along_a_curve', Q + 'view V : P [3, 2] as bitsoa(1 { a: 12 }, morton) | update V set a = 2 * i0 + i1 + 1, b = 1 | bytes V 0 | bytes V 1',
         packed((1, 12), (2, 12), (3, 12), (4, 12), (0, 48), (5, 12), (6, 12), (0, 72)) + ' | ' + packed((15, 8), (3, 8))),
]

LOADED = [
    Case('widths_of_a_dataset', TWO + 'record P { a:u8, b:i32 } | load V : P [?] as bitaos(5 { b: 9 }, row) from "d.csv" | bytes V 0 | print V',
         packed((31, 5), (255, 9), (0, 5), (-256, 9)) + ' | a,b | 31,255 | 0,-256', b'a,b\n31,255\n0,-256\n'),
    Case('widths_refuse_a_dataset', TWO + 'record P { a:u8, b:i32 } | load V : P [?] as bitaos(5 { b: 9 }, row) from "d.csv"', 'line 3: Narrow record 1 leaf b', b'a,b\n31,255\n0,256\n32,x\n'),
    Case('widths_refuse_a_dataset_by_its_first_leaf', TWO + 'record P { a:u8, b:i32 } | load V : P [?] as bitaos(9 { a: 5 }, row) from "d.csv"', 'line 3: Narrow record 0 leaf a', b'b,a\nx,32\n'),
    Case('widths_range_of_a_dataset_before_what_they_hold', TWO + 'record P { a:u8, b:i32 } | load V : P [?] as bitsoa(9 { a: 5 }, row) from "d.csv"', 'line 3: Range record 0 leaf a', b'a,b\n256,x\n'),
    Case('widths_of_flags_of_a_dataset', TWO + 'record P { f:bool, a:u16 } | load V : P [?] as bitaos(10 { f: 1 }, row) from "d.csv" | bytes V 0',
         packed((1, 1), (1023, 10), (0, 1), (512, 10), (1, 1), (0, 10)), b'f,a\n1,1023\n0,512\n1,0\n'),
    Case('widths_of_what_was_printed', TWO + 'record P { a:u8, b:i32 } | load V : P [?] as bitsoa(1 { a: 3, b: 4 }, row) from "d.csv" | print V', 'a,b | 7,-8 | 0,7', b'a,b\n7,-8\n0,7\n'),
]

R = 'version 2 | record P { a:u8, b:u8 } | view V : P [2] as {} | update V set a = 6 + i0, b = 200 + i0 | '
MOVED = [
    Case('widths_copied_to_the_same_by_other_words', R.replace('{}', 'bitaos(8 { a: 3 }, row)') + 'view W : P [2] as bitaos(3 { b: 8 }, row) | copy V to W | bytes W 0 | print W',
         packed((6, 3), (200, 8), (7, 3), (201, 8)) + ' | a,b | 6,200 | 7,201'),
    Case('widths_copied_to_the_same_in_another_order', R.replace('{}', 'bitsoa(8 { a: 3, b: 8 }, row)') + 'view W : P [2] as bitsoa(8 { b: 8, a: 3 }, row) | copy V to W | '
         'bytes W 0 | bytes W 1', packed((6, 3), (7, 3)) + ' | ' + packed((200, 8), (201, 8))),
    Case('widths_copied_to_more', R.replace('{}', 'bitaos(8 { a: 3 }, row)') + 'view W : P [2] as bitaos(8 { a: 7 }, row) | copy V to W | bytes W 0', packed((6, 7), (200, 8), (7, 7), (201, 8))),
    Case('widths_refuse_a_copy', R.replace('{}', 'bitaos(8 { a: 3 }, row)') + 'view W : P [2] as bitaos(8 { a: 2 }, row) | copy V to W', 'line 6: Narrow record 0 leaf a'),
    Case('widths_refuse_a_copy_by_the_first_number', R.replace('{}', 'bitaos(8 { a: 3 }, row)') + 'view W : P [2] as bitaos(3 { b: 7 }, row) | copy V to W', 'line 6: Narrow record 0 leaf b'),
    Case('widths_copied_with_a_leaf_of_each_in_fewer', 'version 2 | record P { a:u8, b:u8 } | view V : P [2] as bitaos(8 { a: 3 }, row) | update V set a = 6, b = 5 + 2 * i0 | '
         'view W : P [2] as bitaos(8 { b: 3 }, row) | copy V to W | bytes W 0 | copy W to V | bytes V 0',
         packed((6, 8), (5, 3), (6, 8), (7, 3)) + ' | ' + packed((6, 3), (5, 8), (6, 3), (7, 8))),
    Case('widths_refuse_a_copy_onto_itself_never', R.replace('{}', 'bitaos(8 { a: 3 }, row)') + 'copy V to V | print V', 'a,b | 6,200 | 7,201'),
    Case('widths_of_a_relayout', R.replace('{}', 'bitaos(8 { a: 3 }, row)') + 'relayout V as bitaos(8 { a: 4 }, row) | bytes V 0 | relayout V as aos(packed, row) | bytes V 0',
         packed((6, 4), (200, 8), (7, 4), (201, 8)) + ' | 06 c8 07 c9'),
    Case('widths_refuse_a_relayout_in_a_later_row', 'version 2 | record P { a:u8, b:u8 } | view V : P [2] as bitaos(8 { a: 3 }, row) | update V set a = 3 + i0, b = 200 | '
         'relayout V as bitaos(8 { a: 2 }, row)', 'line 5: Narrow record 1 leaf a'),
    Case('widths_of_a_relayout_by_the_same_in_another_order', R.replace('{}', 'bitaos(8 { a: 3, b: 8 }, row)') + 'relayout V as bitaos(1 { b: 8, a: 3 }, row) | bytes V 0',
         packed((6, 3), (200, 8), (7, 3), (201, 8))),
]

KERNELS = [in_version_2(Case(f'widths_under_kernels_{name}', f'record P {{ x:i16, y:i32, z:u8 }} | view V : P [2, 3] as {form} | {nested.RUNS}',
                             '15 | -5 | 5 | 3 | x,y,z | 0,5,5 | 1,5,4 | 2,4,5 | 3,1,4 | 4,0,5 | 5,0,4 | line 12: Range record 1 leaf z')) for form, name in (
    ('bitaos(3 { x: 4, y: 5 }, morton)', 'that_just_hold_their_numbers'), ('bitsoa(64 { x: 4, y: 5, z: 3 }, col)', 'in_blobs_of_different_lengths'),
    ('split(y, bitaos(1 { y: 5 }, row), bitsoa(9 { z: 3, x: 4 }, morton))', 'in_both_sides_of_a_split'), ('change(i32->i8, bitaos(5 { z: 3, x: 4 }, row))', 'in_a_lesser_type'),
    ('split(x, bytesplit(bitsoa(1 { x: 8 }, row)), bitaos(5 { z: 3 }, col))', 'beside_bytes'), ('count(heat(8, bitaos(3 { x: 4, y: 5 }, row)))', 'that_are_counted'))]


# what refuses a width

P = 'version 2 | record P { a:u16, pos { x:i16, y:i16 }, b:i32 } | '
H = 'version 2 | record P { h:u8[3], c { x:u8 }[2] } | '
MULTI = 'soa(multi, row)'


def refused(name, form, fault, start=P):
    return Case(f'widths_{name}', f'{start}view V : P [2] as {form} | print W', f'line 3: BadMapping {fault}' if fault else 'line 4: Unknown W')


FIELD = [
    refused('of_no_field', 'bitaos(8 { z: 4 }, row)', 'Field'), refused('of_no_field_in_arrays', 'bitsoa(8 { z: 4 }, row)', 'Field'), refused('of_a_field_in_capitals', 'bitaos(8 { A: 4 }, row)', 'Field'),
    refused('of_no_field_of_a_record', 'bitaos(8 { pos.z: 4 }, row)', 'Field'), refused('below_a_leaf', 'bitaos(8 { pos.x.y: 4 }, row)', 'Field'),
    refused('of_a_leaf_without_its_record', 'bitaos(8 { x: 4 }, row)', 'Field'),
    refused('of_a_front_of_a_name', 'bitaos(8 { po: 4 }, row)', 'Field'), refused('of_a_longer_name', 'bitaos(8 { pos_: 4 }, row)', 'Field'),
    refused('of_an_element_of_a_leaf', 'bitaos(8 { a[0]: 4 }, row)', 'Field'),
    refused('of_an_element_of_a_record', 'bitaos(8 { pos[0]: 4 }, row)', 'Field'), refused('of_an_element_past_the_last', 'bitaos(8 { h[3]: 4 }, row)', 'Field', H),
    refused('of_an_element_of_an_element', 'bitaos(8 { h[0][0]: 4 }, row)', 'Field', H), refused('of_a_field_of_an_array', 'bitaos(8 { c.x: 4 }, row)', 'Field', H),
    refused('of_the_record', 'bitaos(8 { P: 4 }, row)', 'Field'),
    refused('of_no_field_behind_a_leaf', 'bitaos(8 { a: 4, z: 4 }, row)', 'Field'), refused('of_no_field_before_a_leaf', 'bitaos(8 { z: 4, a: 4 }, row)', 'Field'),
    refused('of_no_field_twice', 'bitaos(8 { z: 4, z: 4 }, row)', 'Field'),
    refused('of_a_leaf_of_the_second_side', f'split(a, bitaos(8 {{ b: 4 }}, row), {MULTI})', 'Field'), refused('of_a_leaf_of_the_first_side', f'split(a, {MULTI}, bitaos(8 {{ a: 4 }}, row))', 'Field'),
    refused('of_a_leaf_that_a_split_took', f'split(pos.x, bitaos(8 {{ pos.y: 4 }}, row), {MULTI})', 'Field'),
    refused('of_a_leaf_that_a_deeper_split_took', f'split(pos, split(pos.x, {MULTI}, bitaos(8 {{ pos.x: 4 }}, row)), {MULTI})', 'Field'),
    refused('of_the_leaves_of_both_sides', 'split(a, bitaos(8 { a: 4 }, row), bitaos(8 { pos: 4, b: 3 }, row))', ''),
    refused('of_a_record_on_both_sides', 'split(pos.x, bitaos(8 { pos: 4 }, row), bitaos(8 { pos: 5 }, row))', ''),
    refused('of_splits_in_a_split', 'split(pos, split(pos.x, bitaos(8 { pos.x: 3 }, row), bitsoa(8 { pos: 4 }, row)), bitaos(8 { a: 3 }, row))', ''),
    refused('of_no_field_under_a_byteswap', 'byteswap(bitaos(64 { z: 64 }, row))', 'Field'), refused('of_no_field_under_a_bytesplit', 'bytesplit(bitsoa(8 { z: 8 }, row))', 'Field'),
    refused('of_no_field_under_a_change', 'change(i32->i16, bitaos(8 { z: 8 }, row))', 'Field'), refused('of_no_field_under_a_count', 'count(bitaos(8 { z: 8 }, row))', 'Field'),
    refused('of_no_field_under_a_heat', 'heat(8, bitsoa(8 { z: 8 }, row))', 'Field'), refused('of_a_leaf_that_is_overruled', 'bitaos(8 { pos.x: 4, pos: 5 }, row)', ''),
    refused('of_all_elements', 'bitaos(8 { h: 1, h[0]: 2, h[2]: 3, c: 4, c[1].x: 5 }, row)', '', H),
    Case('widths_of_no_field_are_named', TWO + 'mapping M = bitaos(8 { z: 4 }, row) | mapping N = count(M)', ''),
    Case('widths_of_no_field_of_a_named_mapping', P + 'mapping M = bitaos(8 { a: 4 }, row) | view V : P [2] as split(a, M, M)', 'line 4: BadMapping Field'),
    Case('widths_of_no_field_in_a_wrap_view', P + 'view V : P [2] wrap as bitaos(8 { z: 4 }, row)', 'line 3: BadMapping Field'),
    Case('widths_of_no_field_in_a_view_of_no_row', P + 'view V : P [0] as bitaos(8 { z: 4 }, row)', 'line 3: BadMapping Field'),
    Case('widths_of_no_field_in_a_relayout', P + 'view V : P [2] as bitaos(8 { a: 4 }, row) | print V | relayout V as bitaos(8 { q: 4 }, row)',
         'a,pos.x,pos.y,b | 0,0,0,0 | 0,0,0,0 | line 5: BadMapping Field'),
    Case('widths_of_no_field_in_a_load', P + 'load V : P [?] as bitaos(8 { z: 4 }, row) from "d.csv"', 'line 3: BadMapping Field', b'a,pos.x,pos.y,b\n1,2,3,4\n'),
]

WIDTH = [Case(f'widths_of_{number}_{place}', f'version 2 | mapping M = {form.replace("{}", str(number))}', 'line 2: BadMapping Width') for number in (0, 65, 4294967295) for place, form in (
    ('in_an_entry', 'bitaos(8 { a: {} }, row)'), ('in_the_last_entry', 'bitsoa(8 { a: 4, b: 4, c: {} }, row)'), ('in_an_entry_that_is_overruled', 'bitaos(8 { a: {}, a: 4 }, row)'),
    ('before_an_entry', 'bitsoa({} { a: 4 }, row)'))] + [
    Case('widths_of_1_and_64', TWO + 'mapping M = bitaos(1 { a: 64, b: 1 }, row) | mapping N = bitsoa(64 { a: 1, b: 64 }, row) | print V', 'line 4: Unknown V'),
    Case('widths_of_64_beside_65', TWO + 'mapping M = bitaos(64 { a: 64, b: 65 }, row)', 'line 2: BadMapping Width'),
    Case('widths_of_0_in_a_view', P + 'view V : P [2] as bitaos(8 { a: 0 }, row)', 'line 3: BadMapping Width'),
    Case('widths_of_0_in_a_wrap_view', P + 'view V : P [2] wrap as bitaos(8 { a: 0 }, row)', 'line 3: BadMapping Width'),
    Case('widths_of_65_in_a_load', P + 'load V : P [?] as bitsoa(8 { a: 65 }, row) from "d.csv"', 'line 3: BadMapping Width', b'z\n1\n'),
    Case('widths_of_65_in_a_relayout', P + 'view V : P [2] as bitaos(8, row) | relayout V as bitaos(8 { a: 65 }, row)', 'line 4: BadMapping Width'),
    Case('widths_of_0_under_a_count', TWO + 'mapping M = count(heat(8, bitaos(8 { a: 0 }, row)))', 'line 2: BadMapping Width'),
]

DEEP = 'byteswap(' * 8
# two faults in one layout: the one that is told is tried first
ORDER = [
    refused('too_deep_before_a_width', f'{DEEP}bitaos(8 {{ a: 0 }}, row){")" * 8}', 'TooDeep'), refused('too_deep_before_a_field', f'{DEEP}bitaos(8 {{ z: 4 }}, row){")" * 8}', 'TooDeep'),
    refused('counter_before_a_width', 'byteswap(count(bitaos(8 { a: 0 }, row)))', 'Counter'), refused('counter_before_a_field', 'count(count(bitaos(8 { z: 4 }, row)))', 'Counter'),
    refused('lanes_before_a_width', 'split(a, aosoa(0, row), bitaos(8 { b: 0 }, row))', 'Lanes'), refused('width_before_lanes', 'split(a, bitaos(8 { a: 0 }, row), aosoa(0, row))', 'Width'),
    refused('granule_before_a_width', 'heat(3, bitaos(8 { a: 65 }, row))', 'Granule'), refused('lanes_before_a_field', 'split(a, bitaos(8 { z: 4 }, row), aosoa(65, row))', 'Lanes'),
    refused('granule_before_a_field', 'heat(3, bitaos(8 { z: 4 }, row))', 'Granule'), refused('width_of_an_entry_before_a_side', f'split(z, bitaos(8 {{ a: 0 }}, row), {MULTI})', 'Width'),
    refused('width_before_a_field_in_the_same_entry', 'bitaos(8 { z: 0 }, row)', 'Width'), refused('width_before_a_field_in_another_entry', 'bitaos(8 { z: 4, a: 0 }, row)', 'Width'),
    refused('width_before_the_braces_before_a_field', 'bitaos(65 { z: 4 }, row)', 'Width'), refused('width_before_a_field_of_another_side', 'split(a, bitaos(8 { z: 4 }, row), bitsoa(65, row))', 'Width'),
    refused('width_before_what_is_not_full', 'byteswap(bitaos(8 { a: 0 }, row))', 'Width'), refused('side_before_a_field', f'split(z, bitaos(8 {{ y: 4 }}, row), {MULTI})', 'Side'),
    refused('side_before_a_field_that_stands_first', f'split(a, bitaos(8 {{ b: 4 }}, row), split(a, {MULTI}, {MULTI}))', 'Side'),
    refused('side_without_a_cell_for_a_field', f'split(a, split(a, {MULTI}, bitaos(8 {{ a: 4 }}, row)), {MULTI})', 'Side'),
    refused('side_before_what_is_not_full', f'byteswap(split(z, bitaos(8 {{ a: 15 }}, row), {MULTI}))', 'Side'),
    refused('field_before_what_is_not_full', 'byteswap(bitaos(8 { z: 16 }, row))', 'Field'),
    refused('field_before_what_is_not_full_and_stands_first', 'split(a, byteswap(bitaos(4, row)), bitaos(8 { a: 4 }, row))', 'Field'),
    refused('field_before_bytes_that_are_not_full', 'bytesplit(bitaos(8 { b: 7, z: 8 }, row))', 'Field'),
    Case('widths_too_big_behind_a_field', TWO + 'record P { a:u64[3] } | view V : P [16777216] as bitaos(64 { z: 4 }, row)', 'line 3: BadMapping Field'),
    Case('widths_too_many_rows_before_a_field', P + 'view V : P [4097, 4097] as bitaos(8 { z: 4 }, row)', 'line 3: BadExtents TooMany'),
    Case('widths_too_many_rows_before_a_width', P + 'view V : P [4097, 4097] as bitaos(8 { a: 0 }, row)', 'line 3: BadExtents TooMany'),
    Case('widths_unknown_name_before_a_field', P + 'view V : P [2] as split(a, bitaos(8 { z: 4 }, row), N)', 'line 3: Unknown N'),
    Case('widths_unknown_name_before_a_width', P + 'relayout V as bitaos(8 { a: 0 }, row)', 'line 3: Unknown V'),
    Case('widths_taken_before_a_width', P + 'mapping M = soa(multi, row) | mapping M = bitaos(8 { a: 0 }, row)', 'line 4: Taken M'),
    Case('widths_file_that_is_not_there_before_a_field', P + 'load V : P [?] as bitaos(8 { z: 4 }, row) from "none.csv"', 'line 3: cannot read none.csv'),
    Case('widths_not_divisible_before_a_field', P + 'load V : P [?, 2] as bitaos(8 { z: 4 }, row) from "d.csv"', 'line 3: BadExtents NotDivisible', b'a\n1\n'),
    Case('widths_field_before_a_missing_column', P + 'load V : P [?] as bitaos(8 { z: 4 }, row) from "d.csv"', 'line 3: BadMapping Field', b'a\n1\n'),
]

FULL = [
    refused('not_full_under_a_byteswap', 'byteswap(bitaos(64 { a: 15 }, row))', 'NotFull'), refused('not_full_beside_an_entry', 'byteswap(bitaos(16 { a: 16 }, row))', 'NotFull'),
    refused('full_by_entries', 'byteswap(bitaos(1 { a: 16, pos: 16, b: 32 }, row))', ''), refused('full_by_the_first_number', 'byteswap(bitaos(16 { b: 32 }, row))', ''),
    refused('not_full_where_the_last_entry_is_less', 'byteswap(bitaos(64 { b: 32, b: 31 }, row))', 'NotFull'),
    refused('full_where_the_last_entry_is_more', 'byteswap(bitaos(64 { b: 31, b: 32 }, row))', ''),
    refused('of_7_under_a_bytesplit', 'bytesplit(bitaos(8 { a: 7 }, row))', 'NotFull'), refused('of_7_beside_an_entry_under_a_bytesplit', 'bytesplit(bitaos(7 { a: 8, pos: 8 }, row))', 'NotFull'),
    refused('of_8_under_a_bytesplit', 'bytesplit(bitaos(7 { a: 8, pos: 8, b: 9 }, row))', ''),
    refused('of_8_of_each_part_under_a_bytesplit', 'bytesplit(split(a, bitaos(1 { a: 8 }, row), bitsoa(1 { pos: 8, b: 8 }, col)))', ''),
    refused('of_7_of_one_part_under_a_bytesplit', 'bytesplit(split(a, bitaos(1 { a: 8 }, row), bitsoa(8 { pos.y: 7 }, col)))', 'NotFull'),
    refused('of_a_part_beside_a_byteswap', 'split(a, byteswap(bitaos(1 { a: 16 }, row)), bitaos(8 { b: 3 }, row))', ''),
    refused('full_under_two_byteswaps', 'byteswap(byteswap(bitaos(16 { b: 32 }, row)))', ''), refused('full_in_another_type', 'change(i32->i16, byteswap(bitaos(8 { a: 16, pos: 16, b: 16 }, row)))', ''),
    refused('not_full_in_another_type', 'change(i32->i16, byteswap(bitaos(16 { b: 15 }, row)))', 'NotFull'),
]

MOST = 2 ** 24
BIG = [
    Case('widths_of_2_to_the_28_bytes', f'version 2 | record P {{ a:u64[2], f:bool }} | view V : P [{MOST}] as bitaos(64 {{ a[0]: 63, f: 1 }}, row) | print W', 'line 4: Unknown W'),
    Case('widths_of_2_to_the_28_bytes_and_more', f'version 2 | record P {{ a:u64[2], f:bool }} | view V : P [{MOST}] as bitaos(64 {{ f: 1 }}, row)', 'line 3: TooBig'),
    Case('widths_of_2_to_the_28_bytes_in_arrays', f'version 2 | record P {{ a:u64[2], f:bool }} | view V : P [{MOST}] as bitsoa(1 {{ a: 64, a[1]: 63 }}, row) | print W', 'line 4: Unknown W'),
    Case('widths_of_2_to_the_28_bytes_in_arrays_and_more', f'version 2 | record P {{ a:u64[2], f:bool }} | view V : P [{MOST}] as bitsoa(2 {{ a: 64, a[1]: 63 }}, row)', 'line 3: TooBig'),
    Case('widths_of_65536_bytes_that_are_shown', 'version 2 | record P { a:u8, f:bool } | view V : P [58254] as bitaos(8 { f: 1 }, row) | update V set a = 255 | bytes V 1', 'line 5: BadIndex'),
    Case('widths_of_65544_bytes_that_are_not_shown', 'version 2 | record P { a:u8, f:bool } | view V : P [58255] as bitaos(8 { f: 1 }, row) | update V set a = 255 | bytes V 0', 'line 5: TooBig'),
]


# thrown

def widened(dice, mapping, cells, is_full):
    """A mapping whose bit mappings say numbers of some of their cells too; a full one holds each of them whole."""
    form, inner = mapping[0], mapping[-1]
    if form in ('bitaos', 'bitsoa'):
        texts = [dice.of(fronts_of(cells)) for _ in range(1 + dice.below(3))]
        leasts = [max(8 * BYTES[kind] for _, kind in sides(text, cells)[0]) if is_full else 1 for text in texts]
        return (form, (mapping[1], tuple((text, least + dice.below(65 - least)) for text, least in zip(texts, leasts))), mapping[2])
    if form == 'split':
        first, rest = sides(path_text(mapping[1]), cells)
        return (form, mapping[1], widened(dice, mapping[2], first, is_full), widened(dice, inner, rest, is_full))
    if form == 'byteswap':
        return (form, widened(dice, inner, cells, True))
    if form == 'bytesplit':
        return (form, widened(dice, inner, [(path, 'u8') for path, kind in cells for _ in range(BYTES[kind])], True))
    if form == 'change':
        return (*mapping[:3], widened(dice, inner, [(path, mapping[2] if kind == mapping[1] else kind) for path, kind in cells], is_full))
    return mapping


def thrown_widths(dice, cells, depth, is_full):
    """A thrown expression of just this depth, with widths of leaves somewhere."""
    while True:
        mapping = widened(dice, thrown_form(dice, cells, depth, is_full), cells, is_full)
        if '{' in text_of(mapping):
            return mapping


def thrown_case(table, name, number, depth):
    return in_version_2(table.thrown_case(number, depth, thrown_widths))._replace(name=f'widths_{name}_of_depth_{depth}_number_{number}')


THROWN = [thrown_case(nested, 'thrown', number, depth) for depth in range(1, 9) for number in range(3)] + [
    thrown_case(tallies, 'tallied', 0, depth) for depth in range(1, 9)]


# each order, and copies in each way

FIVE = strategies.FIVE
CHOICES = {'part': (12, (('c[0]', 20), ('a', 5))), 'turned': (12, (('a', 5), ('c[0]', 20))), 'by_others': (5, (('c', 12), ('c[0]', 20))), 'less': (11, (('c[0].x', 19),
('a', 4))), 'whole': (32, (('a', 8),))}


def ordered(form, order):
    """A table in an order, laid out anew in the two others."""
    extents = strategies.EXTENTS['morton'][1]
    mappings = [(form, CHOICES['part'], other) for other in (order, *(other for other in nested.ORDERS if other != order))]
    table = Table(Dice(len(form) + len(order)), FIVE, extents, mappings[0])
    script = [f'record P {{ {FIVE} }}', f'load V : P {written(extents)} as {text_of(mappings[0])} from "d.csv"', *asked('V', table.blobs(mappings[0]))]
    due = table.blobs(mappings[0])
    for mapping in mappings[1:]:
        script += [f'relayout V as {text_of(mapping)}', *asked('V', table.blobs(mapping)), 'print V']
        due += table.blobs(mapping) + [table.printed()]
    return in_version_2(Case(f'widths_of_{form}_in_{order}_order', ' | '.join(script), due_of(due), table.dataset()))


ORDERS = [ordered(form, order) for form in ('bitaos', 'bitsoa') for order in nested.ORDERS]


def bits(form, choice, order):
    return (form, CHOICES[choice], order)


SAME_CELLS = ('part', 'turned', 'by_others')
WAYS = [(f'{form}_from_{one}_to_{other}', bits(form, one, order), bits(form, other, order)) for form, order in (('bitaos', 'row'),
('bitsoa', 'morton')) for one in SAME_CELLS for other in SAME_CELLS if one <= other] + [
    ('from_less_to_part', bits('bitaos', 'less', 'row'), bits('bitaos', 'part', 'row')), ('from_part_to_less', bits('bitsoa', 'part', 'col'), bits('bitsoa', 'less', 'col')),
    ('from_structs_to_arrays', bits('bitaos', 'part', 'col'), bits('bitsoa', 'part', 'col')), ('from_rows_to_columns', bits('bitaos', 'part', 'row'), bits('bitaos', 'part', 'col')),
    ('from_lanes', ('aosoa', 3, 'row'), bits('bitaos', 'part', 'row')), ('to_lanes', bits('bitsoa', 'part', 'row'), ('aosoa', 3, 'row')),
    ('to_whole_columns', bits('bitsoa', 'whole', 'row'), ('soa', 'multi', 'row')),
    ('beside_lanes', ('split', ('a',), bits('bitaos', 'whole', 'row'), ('aosoa', 2, 'row')), ('split', ('a',), ('bitaos', (8, (('a', 8),)), 'row'), ('aosoa', 5, 'row'))),
]
COPIES = [in_version_2(strategies.moved_case(f'widths_copied_{name}', FIVE, strategies.EXTENTS[strategies.ORDERS[at % 3]][at // 3 % 3], on_source(source), on_target(target)))
          for at, (name, source, target) in enumerate(WAYS) for on_source, on_target in [strategies.COUNTERS[at % len(strategies.COUNTERS)]]]
UNHELD = [
    (bits('bitaos', 'part', 'row'), bits('bitaos', 'less', 'row'), [(2, 1), (4, 0)]), (bits('bitsoa', 'whole', 'col'), bits('bitsoa', 'by_others', 'col'), [(-1, 4)]),
    (('aosoa', 3, 'morton'), bits('bitaos', 'turned', 'morton'), [(3, 3), (3, 1)]),
]
NARROW = [in_version_2(strategies.narrow_case(at, way, source, target, spots))._replace(name=f'widths_refuse_a_{way}_as_{words_of(target)}')
          for at, (source, target, spots) in enumerate(UNHELD) for way in ('copy', 'relayout')]

CASES = CHOSEN + KINDS + KEPT + HAND + LOADED + MOVED + KERNELS + FIELD + WIDTH + ORDER + FULL + BIG + THROWN + ORDERS + COPIES + NARROW
