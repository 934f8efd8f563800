"""Bit-packed layouts: fields of every width, what they hold, and what refuses a width.

A blob of bits is one number, the first field lowest, so its bytes are worked out here by shifts.
"""
from .case import Case, PAIR
from .copies import shown

TYPES = {'bool': (0, 1), 'u8': (0, 2 ** 8 - 1), 'u16': (0, 2 ** 16 - 1), 'u32': (0, 2 ** 32 - 1), 'u64': (0, 2 ** 64 - 1),
         'i8': (-2 ** 7, 2 ** 7 - 1), 'i16': (-2 ** 15, 2 ** 15 - 1), 'i32': (-2 ** 31, 2 ** 31 - 1), 'i64': (-2 ** 63, 2 ** 63 - 1)}
BITS = {'bool': 8, 'u8': 8, 'u16': 16, 'u32': 32, 'u64': 64, 'i8': 8, 'i16': 16, 'i32': 32, 'i64': 64}


def packed(*fields):
    """The bytes of fields, each a value and a width, one after the other and up to a multiple of 64 bits."""
    number = place = 0
    for value, width in fields:
        number |= value % 2 ** width << place
        place += width
    return shown(number.to_bytes(8 * -(-place // 64), 'little').hex(' '))


def held(kind, most):
    """The least and the greatest number that a field of a type holds in so many bits."""
    width = min(most, BITS[kind])
    return (-2 ** (width - 1), 2 ** (width - 1) - 1) if kind[0] == 'i' else (0, min(2 ** width - 1, TYPES[kind][1]))


def refusal(kind, value):
    least, greatest = TYPES[kind]
    return 'Narrow' if least <= value <= greatest else 'Range'


def of_width(most):
    """Numbers without and with a sign, at the ends of what so many bits hold."""
    least, greatest = held('i64', most)
    ones = held('u64', most)[1]
    u, s = [ones, 0, 1], [least, -1, greatest]
    rows = ' | '.join(f'set V[{row}].u = {u[row]} | set V[{row}].s = {s[row]}' for row in range(3))
    due = [packed(*[(value, most) for pair in zip(u, s) for value in pair]), packed(*[(value, most) for value in u]), packed(*[(value, most) for value in s]),
           'u,s', *(f'{u[row]},{s[row]}' for row in range(3)), f'line 15: {refusal("u64", ones + 1)} record 1 leaf u']
    return Case(f'bits_of_width_{most}', f'record P {{ u:u64, s:i64 }} | view V : P [3] as bitaos({most}, row) | view W : P [3] as bitsoa({most}, row) | {rows} | '
                f'bytes V 0 | copy V to W | bytes W 0 | bytes W 1 | print W | set W[1].u = {ones + 1}', ' | '.join(due))


WIDTHS = [of_width(most) for most in range(1, 65)]


def of_type(kind, most):
    """A type in so many bits: its ends between fields of 3 bits, which stay, and the numbers below and above."""
    least, greatest = held(kind, most)
    width, small = min(most, BITS[kind]), min(most, 8)
    start = (f'record P {{ a:u8, x:{kind}, b:u8 }} | view V : P [2] as bitaos({most}, row) | update V set a = 1, b = 1 | '
             f'set V[0].x = {least} | set V[1].x = {greatest} | bytes V 0 | print V | ')
    due = packed(*[field for value in (least, greatest) for field in ((1, small), (value, width), (1, small))]) + f' | a,x,b | 1,{least},1 | 1,{greatest},1 | '
    return [Case(f'bits_of_{kind}_in_{most}_and_above', start + f'set V[1].x = {greatest + 1}', due + f'line 8: {refusal(kind, greatest + 1)} record 1 leaf x'),
            Case(f'bits_of_{kind}_in_{most}_and_below', start + f'set V[0].x = {least - 1}', due + f'line 8: {refusal(kind, least - 1)} record 0 leaf x')]


KINDS = [case for kind in TYPES for most in sorted({1, BITS[kind] - 1, BITS[kind], min(64, BITS[kind] + 1), 64}) for case in of_type(kind, most)]

NARROW = [
    Case('bits_of_12_share_bytes', 'record P { a:u16, b:u16 } | view V : P [3] as bitaos(12, row) | set V[0].a = 2748 | set V[0].b = 291 | set V[1].b = 4095 | bytes V 0',
         'bc 3a 12 00 f0 ff 00 00 00 00 00 00 00 00 00 00'),
    Case('bits_of_4_with_a_sign', 'record P { a:i8 } | view V : P [4] as bitsoa(4, row) | set V[0].a = -1 | set V[1].a = -8 | set V[2].a = 7 | bytes V 0 | print V | '
         'set V[3].a = 8', '8f 07 00 00 00 00 00 00 | a | -1 | -8 | 7 | 0 | line 8: Narrow record 3 leaf a'),
    Case('bits_of_4_past_the_type', 'record P { a:i8 } | view V : P [4] as bitsoa(4, row) | set V[0].a = -1 | set V[1].a = -8 | set V[2].a = 7 | bytes V 0 | print V | '
         'set V[3].a = 200', '8f 07 00 00 00 00 00 00 | a | -1 | -8 | 7 | 0 | line 8: Range record 3 leaf a'),
    Case('bits_of_64_at_their_ends', 'record P { u:u64, s:i64 } | view V : P [1] as bitaos(64, row) | set V[0].u = 18446744073709551615 | '
         'set V[0].s = -9223372036854775808 | bytes V 0 | print V',
         'ff ff ff ff ff ff ff ff 00 00 00 00 00 00 00 80 | u,s | 18446744073709551615,-9223372036854775808'),
    Case('bits_of_1_are_flags', 'record P { f:bool } | view V : P [3] as bitaos(1, row) | set V[0].f = 1 | set V[2].f = 1 | bytes V 0 | set V[1].f = 2',
         '05 00 00 00 00 00 00 00 | line 6: Range record 1 leaf f'),
    Case('bits_of_33_lie_over_five_bytes', 'record P { t:u64 } | view V : P [2] as bitaos(33, row) | set V[1].t = 8589934591 | bytes V 0 | set V[0].t = 8589934592',
         '00 00 00 00 fe ff ff ff 03 00 00 00 00 00 00 00 | line 5: Narrow record 0 leaf t'),
    Case('bits_in_the_rest_of_a_split', 'record S { pos { x:u8, y:u8 }, m:u32 } | view V : S [2, 2] as split(pos, soa(multi, col), bitaos(20, row)) | '
         'update V set pos.x = 2 * i0 + i1 + 1, pos.y = 16, m = i1 | bytes V 0 | bytes V 1 | bytes V 2',
         '01 03 02 04 | 10 10 10 10 | 00 00 10 00 00 00 00 10 00 00 00 00 00 00 00 00'),
    Case('bits_refuse_a_relayout', 'record P { a:u8, b:u16 } | view V : P [5] as aosoa(4, row) | update V set a = i0, b = 300 + i0 | relayout V as bitsoa(8, row)',
         'line 4: Narrow record 0 leaf b'),
    Case('bits_refuse_a_relayout_in_a_later_row', 'record P { a:u8, b:u16 } | view V : P [5] as aosoa(4, row) | update V set a = 200, b = 252 + i0 | relayout V as bitsoa(8, row)',
         'line 4: Narrow record 4 leaf b'),
    Case('bits_refuse_the_first_leaf_of_a_row', 'record P { a:u8, b:u16 } | view V : P [3] as aos(packed, row) | update V set a = 7 + i0, b = 7 + 2 * i0 | relayout V as bitaos(3, col)',
         'line 4: Narrow record 1 leaf a'),
    Case('bits_hold_a_relayout_that_fits', 'record P { a:u8, b:u16 } | view V : P [3] as aos(packed, row) | update V set a = 5 + i0, b = i0 | relayout V as bitaos(3, row) | bytes V 0 | print V | '
         'relayout V as soa(multi, row) | bytes V 0', packed((5, 3), (0, 3), (6, 3), (1, 3), (7, 3), (2, 3)) + ' | a,b | 5,0 | 6,1 | 7,2 | 05 06 07'),
    Case('bits_refuse_a_copy_in_the_first_row_and_leaf', 'record P { a:u8, b:i16, c:u8 } | view V : P [3] as aos(packed, row) | view W : P [3] as bitsoa(4, row) | '
         'update V set a = 5, b = 6 + i0, c = 15 + i0 | copy V to W', 'line 5: Narrow record 1 leaf c'),
    Case('bits_refuse_a_copy_in_row_order', 'record P { a:u8 } | view V : P [2, 2] as soa(multi, col) | view W : P [2, 2] as bitaos(2, col) | update V set a = 4 * (i0 != i1) | '
         'copy V to W', 'line 5: Narrow record 1 leaf a'),
    Case('bits_refuse_a_copy_below_0', 'record P { a:i8 } | view V : P [3] as soa(multi, row) | view W : P [3] as bitaos(4, row) | update V set a = -7 - i0 | copy V to W',
         'line 5: Narrow record 2 leaf a'),
    Case('bits_refuse_no_copy_onto_itself', 'record P { a:i8 } | view V : P [3] as bitaos(4, row) | update V set a = -6 - i0 | copy V to V | print V', 'a | -6 | -7 | -8'),
    Case('bits_mismatch_before_what_they_hold', 'record P { a:u8 } | view V : P [3] as soa(multi, row) | view W : P [4] as bitaos(4, row) | update V set a = 200 | copy V to W',
         'line 5: Mismatch'),
    Case('bits_refuse_an_axpy', 'record P { x:u8, y:u8 } | view V : P [5] as bitaos(4, row) | update V set x = i0, y = 9 | kernel V axpy(2, x, y) lanes 4', 'line 4: Narrow record 4 leaf y'),
    Case('bits_refuse_an_axpy_past_the_type_first', 'record P { x:u8, y:u8 } | view V : P [5] as bitaos(4, row) | update V set x = i0, y = 9 | kernel V axpy(200, x, y) lanes 4',
         'line 4: Narrow record 1 leaf y'),
    Case('bits_range_of_an_axpy_before_what_they_hold', 'record P { x:u8, y:u8 } | view V : P [5] as bitaos(4, row) | update V set x = i0, y = 9 | kernel V axpy(300, x, y) lanes 4',
         'line 4: Range record 1 leaf y'),
    Case('bits_refuse_a_clamp', 'record P { x:i16 } | view V : P [3] as bitaos(4, row) | update V set x = i0 | kernel V clamp(x, 8, 9) lanes 1', 'line 4: Narrow record 0 leaf x'),
    Case('bits_under_kernels', 'record P { x:i16, y:i32 } | view V : P [5] as bitsoa(6, row) | update V set x = 3 * i0 - 6, y = i0 | kernel V axpy(-4, x, y) lanes 2 | kernel V sum(y) lanes 4 | '
         'kernel V least(y) lanes 8 | kernel V greatest(y) lanes 1 | kernel V clamp(x, -4, 4) lanes 16 | kernel V count_where(x < 0) lanes 2 | print V',
         '10 | -20 | 24 | 2 | x,y | -4,24 | -3,13 | 0,2 | 3,-9 | 4,-20'),
    Case('bits_refuse_an_update_in_a_later_row', 'record P { a:u8, b:u8 } | view V : P [5] as bitaos(3, row) | update V set a = 5 + i0', 'line 3: Narrow record 3 leaf a'),
    Case('bits_refuse_the_first_right_side_of_an_update', 'record P { a:u8, b:u8 } | view V : P [5] as bitaos(3, row) | update V set b = 8, a = 256', 'line 3: Narrow record 0 leaf b'),
    Case('bits_range_of_the_first_right_side_of_an_update', 'record P { a:u8, b:u8 } | view V : P [5] as bitaos(3, row) | update V set b = 256, a = 8', 'line 3: Range record 0 leaf b'),
    Case('bits_refuse_before_a_later_right_side', 'record P { a:u8, b:u8 } | view V : P [5] as bitaos(3, row) | update V set b = 8, a = 1 / 0', 'line 3: Narrow record 0 leaf b'),
    Case('bits_refuse_no_row_that_is_left', 'record P { a:u8, b:u8 } | view V : P [3] as bitaos(3, row) | update V where i0 == 1 set a = 6 + i0 | print V', 'a,b | 0,0 | 7,0 | 0,0'),
    Case('bits_refuse_a_dataset', PAIR + 'load V : P [?] as bitaos(5, row) from "d.csv"', 'line 2: Narrow record 1 leaf b', b'a,b\n31,15\n0,16\n32,x\n'),
    Case('bits_refuse_a_dataset_by_its_first_leaf', PAIR + 'load V : P [?] as bitaos(5, row) from "d.csv"', 'line 2: Narrow record 0 leaf a', b'b,a\nx,32\n'),
    Case('bits_range_of_a_dataset_before_what_they_hold', PAIR + 'load V : P [?] as bitaos(5, row) from "d.csv"', 'line 2: Range record 0 leaf a', b'a,b\n256,x\n'),
    Case('bits_number_of_a_dataset_before_what_they_hold', PAIR + 'load V : P [?] as bitaos(5, row) from "d.csv"', 'line 2: Number record 0 leaf a', b'a,b\nx,99\n'),
    Case('bits_of_a_dataset', PAIR + 'load V : P [?] as bitsoa(5, row) from "d.csv" | bytes V 0 | bytes V 1 | print V', 'ff 03 00 00 00 00 00 00 | 0f 02 00 00 00 00 00 00 | a,b | 31,15 | 31,-16',
         b'a,b\n31,15\n31,-16\n'),
    Case('bits_beside_others_stay', 'record P { a:u8, b:u16, c:i8 } | view V : P [2] as bitaos(5, row) | update V set a = 31, b = 31, c = -1 | bytes V 0 | set V[0].b = 0 | bytes V 0 | '
         'update V set a = 0, c = 0 | bytes V 0', ' | '.join([packed((2 ** 30 - 1, 30)), packed((31, 5), (0, 5), (2 ** 20 - 1, 20)), packed((0, 20), (31, 5))])),
    Case('bits_in_column_order', 'record P { a:u8, b:u8 } | view V : P [2, 3] as bitaos(4, col) | update V set a = 3 * i0 + i1, b = 8 + 3 * i0 + i1 | bytes V 0',
         '80 b3 91 c4 a2 d5 00 00'),
    Case('bits_in_arrays_in_column_order', 'record P { a:u8, b:u8 } | view V : P [2, 3] as bitsoa(4, col) | update V set a = 3 * i0 + i1, b = 8 + 3 * i0 + i1 | bytes V 0 | bytes V 1',
         '30 41 52 00 00 00 00 00 | b8 c9 da 00 00 00 00 00'),
    Case('bits_of_a_split_in_two_widths', 'record P { f:bool, a:u16 } | view V : P [4] as split(f, bitsoa(1, row), bitaos(12, row)) | update V set f = i0 != 1, a = 256 + i0 | '
         'bytes V 0 | bytes V 1 | print V | '
         'set V[2].a = 4096', '0d 00 00 00 00 00 00 00 | 00 11 10 02 31 10 00 00 | f,a | 1,256 | 0,257 | 1,258 | 1,259 | line 7: Narrow record 2 leaf a'),
]


def length(name, rows, form, record, lines):
    return Case(f'bits_padded_{name}', f'record P {{ {record} }} | view V : P [{rows}] as {form} | bytes V 0', lines)


EIGHT, SIXTEEN = '00' + ' 00' * 7, '00' + ' 00' * 15
LENGTHS = [
    length('from_no_bit', 0, 'bitaos(7, row)', 'a:u8', ''), length('from_no_bit_of_an_array', 0, 'bitsoa(7, row)', 'a:u8', ''), length('from_1_bit', 1, 'bitaos(1, row)', 'f:bool', EIGHT),
    length('from_63_bits', 9, 'bitaos(7, row)', 'a:u8', EIGHT), length('from_64_bits', 64, 'bitaos(1, row)', 'f:bool', EIGHT), length('from_65_bits', 65, 'bitaos(1, row)', 'f:bool', SIXTEEN),
    length('from_64_bits_of_an_array', 8, 'bitsoa(8, row)', 'a:u8', EIGHT), length('from_66_bits_of_an_array', 11, 'bitsoa(6, row)', 'a:u8', SIXTEEN),
    length('from_64_leaves', 1, 'bitaos(1, row)', 'f:bool[64]', EIGHT), length('from_65_bits_of_two_leaves', 1, 'bitaos(33, row)', 'a:u64, b:u32', SIXTEEN),
    Case('bits_show_no_blob_past_their_last', 'record P { a:u8, b:u8 } | view V : P [1] as bitsoa(4, row) | bytes V 1 | bytes V 2', f'{EIGHT} | line 4: BadIndex'),
    Case('bits_of_structs_show_one_blob', 'record P { a:u8, b:u8 } | view V : P [1] as bitaos(4, row) | bytes V 1', 'line 3: BadIndex'),
]

MOST = 2 ** 24
REFUSED = [Case(f'bits_of_{most}_as_{form}', f'mapping M = {form}({most}, row)', 'line 1: BadMapping Width') for form in ('bitaos', 'bitsoa') for most in (0, 65, 4294967295)] + [
    Case('bits_of_0_in_a_view', PAIR + 'view V : P [1] as bitsoa(0, col)', 'line 2: BadMapping Width'),
    Case('bits_of_65_in_a_load', PAIR + 'load V : P [?] as bitaos(65, row) from "d.csv"', 'line 2: BadMapping Width', b'z\n1\n'),
    Case('bits_of_65_in_a_relayout', PAIR + 'view V : P [1] as bitaos(64, row) | relayout V as bitaos(65, row)', 'line 3: BadMapping Width'),
    Case('bits_of_65_before_lanes_behind_them', 'mapping M = split(a, bitaos(65, row), aosoa(65, row))', 'line 1: BadMapping Width'),
    Case('bits_of_65_behind_lanes', 'mapping M = split(a, aosoa(65, row), bitaos(65, row))', 'line 1: BadMapping Lanes'),
    Case('bits_of_65_before_a_side', PAIR + 'view V : P [1] as split(q, aos(packed, row), bitsoa(65, row))', 'line 2: BadMapping Width'),
    Case('bits_of_65_behind_a_depth', 'mapping M = ' + 'split(a, bitsoa(0, row), ' * 8 + 'bitaos(0, row)' + ')' * 8, 'line 1: BadMapping TooDeep'),
    Case('bits_too_many_rows_before_a_width', PAIR + 'view V : P [4097, 4097] as bitaos(0, row)', 'line 2: BadExtents TooMany'),
    Case('bits_of_2_to_the_28_bytes', f'record P {{ a:u64[2] }} | view V : P [{MOST}] as bitaos(64, row) | print W', 'line 3: Unknown W'),
    Case('bits_of_2_to_the_28_bytes_and_more', f'record P {{ a:u64[2], f:bool }} | view V : P [{MOST}] as bitaos(64, row)', 'line 2: TooBig'),
    Case('bits_of_2_to_the_28_bytes_by_127_and_1', f'record P {{ a:u64[2], f:bool }} | view V : P [{MOST}] as split(f, bitaos(1, row), split(a[0], bitsoa(63, row), bitaos(64, row))) | print W',
         'line 3: Unknown W'),
    Case('bits_of_2_to_the_28_bytes_by_padding', f'record P {{ a:u64[2], f:bool[2] }} | view V : P [{MOST - 1}] as split(f, bitsoa(1, row), split(a[0], bitsoa(63, row), bitaos(63, row))) | print W',
         'line 3: Unknown W'),
    Case('bits_of_2_to_the_28_bytes_and_more_by_padding', f'record P {{ a:u64[2], f:bool }} | view V : P [{MOST - 1}] as split(f, bitsoa(8, row), split(a[0], bitsoa(61, row), bitaos(63, row)))',
         'line 2: TooBig'),
    Case('bits_too_big_in_a_relayout', f'record P {{ a:u64[3] }} | view V : P [{MOST}] as bitaos(1, row) | relayout V as bitaos(64, row)', 'line 3: TooBig'),
]

CASES = WIDTHS + KINDS + NARROW + LENGTHS + REFUSED
