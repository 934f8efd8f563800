"""Bytes in reverse order, bytes by themselves, and cells that are kept in another type: where they lie, what they hold, what refuses them."""
from .bit_fields import BITS, TYPES, refusal
from .case import Case, PAIR
from .copies import shown

SOA, AOS = 'soa(multi, row)', 'aos(packed, row)'
INTEGERS = [kind for kind in TYPES if kind != 'bool']


def stored(kind, value):
    """The bytes of a value that is kept in this type."""
    width = BITS[kind] // 8
    return (value % 256 ** width).to_bytes(width, 'little').hex(' ')


def changed(kind, other):
    """Each type that is kept in each other: the ends of what both have, and what lies past them."""
    least, greatest = max(TYPES[kind][0], TYPES[other][0]), min(TYPES[kind][1], TYPES[other][1])
    start = (f'record P {{ x:{kind}, y:u8 }} | view V : P [2] as change({kind}->{other}, {AOS}) | set V[0].x = {least} | set V[1].x = {greatest} | '
             'update V set y = 7 | bytes V 0 | print V | ')
    rest = '07' if kind != 'u8' else stored(other, 7)
    due = shown(f'{stored(other, least)} {rest} {stored(other, greatest)} {rest}') + f' | x,y | {least},7 | {greatest},7 | '
    return [Case(f'change_{kind}_to_{other}_and_above', start + f'set V[1].x = {greatest + 1}', due + f'line 8: {refusal(kind, greatest + 1)} record 1 leaf x'),
            Case(f'change_{kind}_to_{other}_and_below', start + f'set V[0].x = {least - 1}', due + f'line 8: {refusal(kind, least - 1)} record 0 leaf x')]


CHANGES = [case for kind in TYPES for other in INTEGERS for case in changed(kind, other)]


def table(name, record, extents, form, sets, *blobs):
    """A table under a form, its blobs one by one, and the number that is one too great for a blob."""
    asked = ' | '.join(f'bytes V {blob}' for blob in range(len(blobs) + 1))
    due = ' | '.join([shown(blob) for blob in blobs if blob] + [f'line {4 + len(blobs)}: BadIndex'])
    return Case(name, f'record P {{ {record} }} | view V : P {extents} as {form} | update V set {sets} | {asked}', due)


MIXED, FILL = 'a:u8, b:u32, c:i16', 'a = 1 + i0, b = 16909060 + i0, c = -2 - i0'     # b: 04 03 02 01, c: fe ff
BIG = {'aos(packed, row)': ['01 01 02 03 04 ff fe 02 01 02 03 05 ff fd'],
       'aos(aligned, row)': ['01 00 00 00 01 02 03 04 ff fe 00 00 02 00 00 00 01 02 03 05 ff fd 00 00'],
       'aos(min, row)': ['01 02 03 04 ff fe 01 00 01 02 03 05 ff fd 02 00'],
       'soa(single, row)': ['01 02 01 02 03 04 01 02 03 05 ff fe ff fd'],
       'soa(aligned, row)': ['01 02 00 00 01 02 03 04 01 02 03 05 ff fe ff fd'],
       'soa(multi, row)': ['01 02', '01 02 03 04 01 02 03 05', 'ff fe ff fd'],
       'aosoa(3, row)': ['01 02 00 01 02 03 04 01 02 03 05 00 00 00 00 ff fe ff fd 00 00'],
       'bitaos(32, row)': ['01 01 02 03 04 ff fe 02 01 02 03 05 ff fd 00 00'],
       'bitsoa(64, row)': ['01 02 00 00 00 00 00 00', '01 02 03 04 01 02 03 05', 'ff fe ff fd 00 00 00 00'],
       'split(b, soa(multi, row), aos(aligned, row))': ['01 02 03 04 01 02 03 05', '01 00 ff fe 02 00 ff fd']}
LITTLE = {'aos(packed, row)': ['01 04 03 02 01 fe ff 02 05 03 02 01 fd ff'],
          'aos(aligned, row)': ['01 04 03 02 01 fe ff 02 05 03 02 01 fd ff'],
          'aos(min, row)': ['01 04 03 02 01 fe ff 02 05 03 02 01 fd ff'],
          'soa(single, row)': ['01 02 04 05 03 03 02 02 01 01 fe fd ff ff'],
          'soa(aligned, row)': ['01 02 04 05 03 03 02 02 01 01 fe fd ff ff'],
          'soa(multi, row)': ['01 02', '04 05', '03 03', '02 02', '01 01', 'fe fd', 'ff ff'],
          'aosoa(3, row)': ['01 02 00 04 05 00 03 03 00 02 02 00 01 01 00 fe fd 00 ff ff 00'],
          'bitaos(8, row)': ['01 04 03 02 01 fe ff 02 05 03 02 01 fd ff 00 00'],
          'bitsoa(64, row)': ['01 02 00 00 00 00 00 00', '04 05 00 00 00 00 00 00', '03 03 00 00 00 00 00 00', '02 02 00 00 00 00 00 00', '01 01 00 00 00 00 00 00',
                              'fe fd 00 00 00 00 00 00', 'ff ff 00 00 00 00 00 00'],
          'split(b, soa(multi, row), aos(aligned, row))': ['04 05', '03 03', '02 02', '01 01', '01 fe ff 02 fd ff']}


def named(form):
    return '_'.join(form.replace('(', ' ').replace(')', ' ').replace(',', ' ').split())


SWAPS = [table(f'byteswap_{named(form)}', MIXED, '[2]', f'byteswap({form})', FILL, *blobs) for form, blobs in BIG.items()] + [
    table(f'bytesplit_{named(form)}', MIXED, '[2]', f'bytesplit({form})', FILL, *blobs) for form, blobs in LITTLE.items()] + [
    table(f'bytesplit_of_byteswap_{named(form)}', MIXED, '[2]', f'bytesplit(byteswap({form}))', FILL, *blobs) for form, blobs in LITTLE.items()] + [
    table(f'byteswap_twice_{named(form)}', 'a:u8, b:u32', '[1]', f'byteswap(byteswap({form}))', 'a = 1, b = 16909060', *blobs)
    for form, blobs in [(AOS, ['01 04 03 02 01']), (SOA, ['01', '04 03 02 01']), ('bitaos(32, row)', ['01 04 03 02 01 00 00 00'])]] + [
    table('byteswap_of_bytesplit_of_structs', MIXED, '[2]', f'byteswap(bytesplit({AOS}))', FILL, *BIG[AOS]),
    table('byteswap_of_bytesplit_of_arrays', 'a:u8, b:u32', '[2]', f'byteswap(bytesplit({SOA}))', 'a = 1 + i0, b = 16909060 + i0', '01 02', '01 01', '02 02', '03 03', '04 05'),
    table('bytesplit_of_bytesplit', MIXED, '[2]', f'bytesplit(bytesplit({SOA}))', FILL, *LITTLE[SOA]),
    table('bytesplit_in_a_split_by_a_leaf', 'a:u16, b:u16', '[2]', f'bytesplit(split(b, {SOA}, {AOS}))', 'a = 513 + i0, b = 1027 + i0', '03 04', '04 04', '01 02 02 02'),
    table('bytesplit_in_a_split_by_a_record', 'p { x:u16, y:u8 }, m:u16', '[2]', f'bytesplit(split(p, {AOS}, {SOA}))', 'p.x = 513 + i0, p.y = 9, m = 1027 + i0', '01 02 09 02 02 09', '03 04', '04 04'),
    table('bytesplit_in_one_side_of_a_split', 'a:u16, b:u16', '[2]', f'split(a, bytesplit({SOA}), byteswap({AOS}))', 'a = 513 + i0, b = 1027 + i0', '01 02', '02 02', '04 03 04 04'),
    table('bytesplit_of_flags_and_bytes', 'f:bool, a:i8', '[2]', f'bytesplit({SOA})', 'f = i0, a = -1 - i0', '00 01', 'ff fe'),
    table('byteswap_of_eight_bytes', 'a:u64, b:i64', '[1]', f'byteswap({AOS})', 'a = 72623859790382856, b = -2', '01 02 03 04 05 06 07 08 ff ff ff ff ff ff ff fe'),
    table('bytesplit_of_eight_bytes', 'a:i64', '[1]', f'bytesplit({SOA})', 'a = 72623859790382856', '08', '07', '06', '05', '04', '03', '02', '01'),
    table('byteswap_in_column_order', 'a:u16', '[2, 2]', 'byteswap(soa(multi, col))', 'a = 256 * i0 + i1', '00 00 01 00 00 01 01 01'),
    table('bytesplit_in_column_order', 'a:u16', '[2, 2]', 'bytesplit(soa(multi, col))', 'a = 256 * i0 + i1 + 2', '02 02 03 03', '00 01 00 01'),
    table('bytesplit_in_morton_order', 'a:u16', '[2, 3]', 'bytesplit(soa(multi, morton))', 'a = 256 * i0 + i1 + 2', '02 03 02 03 04 00 04 00' + ' 00' * 8, '00 00 01 01 00 00 01 00' + ' 00' * 8),
    table('byteswap_of_no_row', MIXED, '[0]', f'byteswap({SOA})', FILL, '', '', ''),
    Case('byteswap_then_relaid_by_bytes', f'record P {{ a:u32 }} | view V : P [1] as byteswap({AOS}) | set V[0].a = 16909060 | bytes V 0 | relayout V as bytesplit({SOA}) | '
         'bytes V 0 | bytes V 1 | bytes V 2 | bytes V 3 | print V', '01 02 03 04 | 04 | 03 | 02 | 01 | a | 16909060'),
    Case('byteswap_keeps_other_bytes', f'record P {{ a:u16, b:i32 }} | view V : P [1] as byteswap({AOS}) | update V set a = 65535, b = -1 | set V[0].b = 1 | bytes V 0 | '
         'set V[0].a = 2 | bytes V 0 | print V',
         'ff ff 00 00 00 01 | 00 02 00 00 00 01 | a,b | 2,1'),
    Case('bytesplit_keeps_other_bytes', f'record P {{ a:u16, b:i32 }} | view V : P [1] as bytesplit({AOS}) | update V set a = 65535, b = -1 | set V[0].b = 1 | bytes V 0 | '
         'set V[0].a = 2 | bytes V 0 | print V',
         'ff ff 01 00 00 00 | 02 00 01 00 00 00 | a,b | 2,1'),
    Case('byteswap_is_loaded', PAIR + f'load V : P [?] as byteswap({SOA}) from "d.csv" | bytes V 1 | print V', 'ff ff ff fe 00 00 01 00 | a,b | 1,-2 | 255,256', b'a,b\n1,-2\n255,256\n'),
]

CHANGED = [
    table('change_of_one_type_alone', 'a:i32, b:i16, c:i32', '[2]', f'change(i32->i8, {AOS})', 'a = i0 - 1, b = 513, c = 9', 'ff 01 02 09 00 01 02 09'),
    table('change_of_no_cell', 'a:i32', '[2]', f'change(u32->i8, {AOS})', 'a = i0 - 1', 'ff ff ff ff 00 00 00 00'),
    table('change_to_its_own_type', 'a:i32', '[1]', f'change(i32->i32, {AOS})', 'a = -2', 'fe ff ff ff'),
    table('change_of_a_change', 'a:i64, b:i32', '[1]', f'change(i64->i32, change(i32->i16, {AOS}))', 'a = -2, b = 3', 'fe ff 03 00'),
    table('change_of_a_change_that_comes_too_late', 'a:i64, b:i32', '[1]', f'change(i32->i16, change(i64->i32, {AOS}))', 'a = -2, b = 3', 'fe ff ff ff 03 00'),
    table('change_there_and_back', 'a:i32, b:i16', '[1]', f'change(i32->i16, change(i16->i32, {AOS}))', 'a = -2, b = 3', 'fe ff ff ff 03 00 00 00'),
    table('change_of_alignment', 'a:u8, b:u32', '[2]', 'change(u32->u16, aos(aligned, row))', 'a = 1 + i0, b = 17 + i0', '01 00 11 00 02 00 12 00'),
    table('change_by_falling_size', 'a:u8, b:u32', '[1]', 'change(u8->u64, aos(min, row))', 'a = 1, b = 17', '01 00 00 00 00 00 00 00 11 00 00 00 00 00 00 00'),
    table('change_in_one_side_of_a_split', 'a:u16, b:u16', '[2]', f'split(a, change(u16->u8, {SOA}), {SOA})', 'a = 7 + i0, b = 257', '07 08', '01 01 01 01'),
    table('change_of_a_split', 'a:u16, b:u16', '[2]', f'change(u16->u8, split(a, {SOA}, {AOS}))', 'a = 7 + i0, b = 255', '07 08', 'ff ff'),
    table('change_then_bits', 'a:i32, b:u8', '[2]', 'change(i32->i16, bitaos(12, row))', 'a = -1 - i0, b = 7', 'ff 7f e0 ff 07 00 00 00'),
    table('change_then_bits_of_a_greater_type', 'a:i8', '[2]', 'change(i8->i64, bitsoa(12, row))', 'a = -1 - i0', 'ff ef ff 00 00 00 00 00'),
    table('change_then_byteswap', 'a:i32', '[1]', f'change(i32->i16, byteswap({AOS}))', 'a = 258', '01 02'),
    table('change_then_bytesplit', 'a:i32', '[2]', f'change(i32->i16, bytesplit({SOA}))', 'a = -2 + i0', 'fe ff', 'ff ff'),
    table('change_of_bytes_that_are_split', 'a:i32', '[1]', f'bytesplit(change(i32->i16, {SOA}))', 'a = -2', 'fe', 'ff', 'ff', 'ff'),
    Case('change_holds_less', f'record P {{ a:i32 }} | view V : P [1] as change(i32->i16, byteswap({AOS})) | set V[0].a = 258 | bytes V 0 | set V[0].a = 40000',
         '01 02 | line 5: Narrow record 0 leaf a'),
    Case('change_of_a_change_holds_the_least', f'record P {{ a:i64 }} | view V : P [2] as change(i64->i32, change(i32->i16, {AOS})) | set V[1].a = 32768', 'line 3: Narrow record 1 leaf a'),
    Case('change_then_bits_holds_the_least', 'record P { a:i64 } | view V : P [2] as change(i64->i32, bitsoa(7, row)) | set V[1].a = -64 | set V[1].a = -65',
         'line 4: Narrow record 1 leaf a'),
    Case('change_then_bits_holds_what_the_type_does', 'record P { a:i64 } | view V : P [2] as change(i64->i8, bitsoa(20, row)) | set V[1].a = -128 | set V[1].a = -129',
         'line 4: Narrow record 1 leaf a'),
    Case('change_refuses_a_copy', f'record P {{ a:i32, b:u8 }} | view V : P [3] as {AOS} | view W : P [3] as change(i32->u8, {SOA}) | update V set a = 254 + i0, b = 9 | copy V to W',
         'line 5: Narrow record 2 leaf a'),
    Case('change_refuses_a_relayout', f'record P {{ a:i32, b:u8 }} | view V : P [3] as {AOS} | update V set a = 1 - i0, b = 9 | relayout V as change(i32->u8, {SOA})',
         'line 4: Narrow record 2 leaf a'),
    Case('change_refuses_a_kernel', f'record P {{ x:i32, y:i32 }} | view V : P [5] as change(i32->i8, {AOS}) | update V set x = 10 * i0, y = 100 | kernel V axpy(1, x, y) lanes 4',
         'line 4: Narrow record 3 leaf y'),
    Case('change_refuses_a_clamp', f'record P {{ x:u16 }} | view V : P [5] as change(u16->i8, {AOS}) | kernel V clamp(x, 127, 200) lanes 4 | print V | kernel V clamp(x, 128, 128) lanes 4',
         'x | 127 | 127 | 127 | 127 | 127 | line 5: Narrow record 0 leaf x'),
    Case('change_leaves_a_wide_leaf_wide', f'record P {{ x:u64 }} | view V : P [5] as change(u64->u8, {AOS}) | kernel V sum(x) lanes 4', 'line 3: BadKernel Wide'),
    Case('change_leaves_a_leaf_of_32_bits', f'record P {{ x:u32 }} | view V : P [5] as change(u32->u64, {AOS}) | update V set x = 4294967295 | kernel V sum(x) lanes 4', '21474836475'),
    Case('change_refuses_a_dataset', PAIR + f'load V : P [?] as change(i32->i8, {AOS}) from "d.csv"', 'line 2: Narrow record 1 leaf b', b'a,b\n1,127\n2,-129\nx,y\n'),
    Case('change_under_kernels', f'record P {{ x:i16, y:i32, z:u64 }} | view V : P [5] as change(i32->i64, change(u64->i8, byteswap({SOA}))) | update V set x = i0, y = 10, z = 127 | '
         'kernel V axpy(-3, x, y) lanes 4 | kernel V sum(y) lanes 2 | kernel V least(y) lanes 8 | kernel V clamp(y, 0, 5) lanes 16 | print V | set V[0].z = 128',
         '20 | -2 | x,y,z | 0,5,127 | 1,5,127 | 2,4,127 | 3,1,127 | 4,0,127 | line 9: Narrow record 0 leaf z'),
]


def not_full(name, record, form, extents='[2]'):
    return Case(f'not_full_{name}', f'record P {{ {record} }} | view V : P {extents} as {form}', 'line 2: BadMapping NotFull')


def full(name, record, form, due):
    return Case(f'full_{name}', f'record P {{ {record} }} | view V : P [1] as {form} | update V set a = -2 | bytes V 0', due)


FULL = [
    not_full('byteswap_of_a_lesser_type', 'a:i32', f'byteswap(change(i32->i16, {AOS}))', '[1]'), not_full('byteswap_of_a_greater_type', 'a:i16', f'byteswap(change(i16->i32, {AOS}))'),
    not_full('byteswap_of_another_sign', 'a:i32', f'byteswap(change(i32->u32, {AOS}))'), not_full('byteswap_of_another_sign_turned', 'a:u8', f'byteswap(change(u8->i8, {AOS}))'),
    not_full('byteswap_of_bits', 'a:u32', 'byteswap(bitaos(31, row))'), not_full('byteswap_of_bits_for_one_of_two', 'a:u8, b:u16', 'byteswap(bitsoa(15, row))'),
    not_full('byteswap_of_a_side', 'a:u8, b:u16', f'byteswap(split(b, bitsoa(15, row), {AOS}))'), not_full('byteswap_of_the_other_side', 'a:u8, b:u16', f'byteswap(split(b, {AOS}, bitsoa(7, row)))'),
    not_full('byteswap_below_a_byteswap', 'a:u16', 'byteswap(byteswap(bitaos(8, row)))'), not_full('byteswap_below_a_change', 'a:i64', 'change(i64->i32, byteswap(bitaos(31, row)))'),
    not_full('byteswap_in_the_first_side_of_a_split', 'a:u16, b:u8', f'split(a, byteswap(bitaos(8, row)), {AOS})'), not_full('byteswap_in_the_rest_of_a_split', 'a:u8, b:u16',
         f'split(a, {AOS}, byteswap(bitaos(8, row)))'),
    not_full('byteswap_of_no_row', 'a:u16', 'byteswap(bitaos(8, row))', '[0]'), not_full('byteswap_of_flags_in_a_bit', 'a:bool', 'byteswap(bitaos(1, row))'),
    not_full('bytesplit_of_bits', 'a:u32', 'bytesplit(bitaos(7, row))'), not_full('bytesplit_of_bits_of_arrays', 'a:u8', 'bytesplit(bitsoa(1, col))'),
    not_full('bytesplit_of_another_sign', 'a:u32', f'bytesplit(change(u8->i8, {AOS}))'), not_full('bytesplit_of_a_greater_type', 'a:u32', f'bytesplit(change(u8->u16, {AOS}))'),
    not_full('bytesplit_of_a_side', 'a:u16, b:u8', f'bytesplit(split(a, {AOS}, bitsoa(7, row)))'), not_full('bytesplit_below_a_byteswap', 'a:u16', 'byteswap(bytesplit(bitaos(7, row)))'),
    not_full('byteswap_below_a_bytesplit', 'a:u16', f'bytesplit(byteswap(change(u8->u32, {AOS})))'),
    full('byteswap_of_bits_of_the_whole_type', 'a:i16', 'byteswap(bitaos(16, row))', 'ff fe 00 00 00 00 00 00'), full('byteswap_of_more_bits_than_the_type_has', 'a:i16', 'byteswap(bitsoa(64, row))',
    'ff fe 00 00 00 00 00 00'),
    full('byteswap_of_its_own_type', 'a:i16', f'byteswap(change(i16->i16, {AOS}))', 'ff fe'), full('byteswap_of_a_change_of_no_cell', 'a:i16', f'byteswap(change(u16->u8, {AOS}))', 'ff fe'),
    full('byteswap_of_a_change_there_and_back', 'a:i16', f'byteswap(change(i16->i64, change(i64->i16, {AOS})))', 'ff fe'), full('byteswap_of_flags_as_bytes', 'f:bool, a:i16',
    f'byteswap(change(bool->u8, {AOS}))', '00 ff fe'),
    full('bytesplit_of_bits_of_whole_bytes', 'a:i16', 'bytesplit(bitaos(8, row))', 'fe ff 00 00 00 00 00 00'), full('bytesplit_of_a_change_of_no_byte', 'a:i16', f'bytesplit(change(i16->i8, {AOS}))',
    'fe ff'),
    full('bytesplit_of_bytes_of_their_own_type', 'a:i16', f'bytesplit(change(u8->u8, {AOS}))', 'fe ff'), full('change_below_a_byteswap_that_is_not_full', 'a:i16', f'change(i16->i8, byteswap({AOS}))',
    'fe'),
]

MOST = 2 ** 24
DEEP = [('byteswap(' * depth + AOS + ')' * depth) for depth in range(9)]
ORDER = [
    Case('byteswap_of_depth_9', 'record P { a:u8, b:i32 } | mapping M = ' + DEEP[8], 'line 2: BadMapping TooDeep'),
    Case('byteswap_of_depth_8', 'record P { a:u8, b:i32 } | mapping M = ' + DEEP[7], ''),
    Case('byteswap_of_depth_8_turns_bytes_seven_times', 'record P { a:u8, b:i32 } | mapping M = ' + DEEP[7] + ' | view V : P [1] as M | set V[0].b = 258 | bytes V 0', '00 00 00 01 02'),
    Case('bytesplit_of_depth_9', 'mapping M = ' + DEEP[8].replace('byteswap', 'bytesplit'), 'line 1: BadMapping TooDeep'),
    Case('bytesplit_of_depth_8', PAIR + 'view V : P [1] as ' + DEEP[7].replace('byteswap', 'bytesplit') + ' | set V[0].b = 258 | bytes V 0', '00 02 01 00 00'),
    Case('change_of_depth_9', 'mapping M = ' + 'change(i32->i16, ' * 8 + AOS + ')' * 8, 'line 1: BadMapping TooDeep'),
    Case('change_of_depth_8', PAIR + 'view V : P [1] as ' + 'change(i32->i16, ' * 7 + AOS + ')' * 7 + ' | set V[0].b = 258 | bytes V 0', '00 02 01'),
    Case('byteswap_unknown_name', PAIR + 'mapping M = byteswap(N)', 'line 2: Unknown N'), Case('bytesplit_unknown_name', PAIR + 'mapping M = bytesplit(N)', 'line 2: Unknown N'),
    Case('change_unknown_name', PAIR + 'mapping M = change(i32->i16, N)', 'line 2: Unknown N'),
    Case('byteswap_of_a_name', PAIR + f'mapping M = {SOA} | mapping N = byteswap(M) | view V : P [1] as change(i32->i16, N) | set V[0].b = 258 | bytes V 1', '01 02'),
    Case('not_full_as_a_mapping', PAIR + 'mapping M = byteswap(bitaos(7, row)) | view V : P [1] as M', 'line 3: BadMapping NotFull'),
    Case('not_full_by_a_name', PAIR + 'mapping M = bitaos(31, row) | view V : P [1] as byteswap(M)', 'line 3: BadMapping NotFull'),
    Case('too_deep_before_a_width_in_a_byteswap', 'mapping M = ' + DEEP[8].replace(AOS, 'bitaos(0, row)'), 'line 1: BadMapping TooDeep'),
    Case('width_before_a_part_that_is_not_full', PAIR + f'view V : P [1] as split(a, byteswap(change(u8->i8, {AOS})), bitsoa(0, row))', 'line 2: BadMapping Width'),
    Case('lanes_in_a_byteswap_before_a_width', 'mapping M = split(a, byteswap(aosoa(0, row)), bitsoa(0, row))', 'line 1: BadMapping Lanes'),
    Case('side_before_a_part_that_is_not_full', PAIR + f'view V : P [1] as split(a, byteswap(bitaos(7, row)), split(q, {AOS}, {SOA}))', 'line 2: BadMapping Side'),
    Case('side_within_a_part_that_is_not_full', PAIR + f'view V : P [1] as byteswap(split(q, bitaos(7, row), {SOA}))', 'line 2: BadMapping Side'),
    Case('side_among_bytes', 'record P { a:u32 } | view V : P [1] as ' + f'bytesplit(split(a, {AOS}, {SOA}))', 'line 2: BadMapping Side'),
    Case('not_full_before_its_size', f'record P {{ a:u64[64] }} | view V : P [{MOST}] as byteswap(bitaos(63, row))', 'line 2: BadMapping NotFull'),
    Case('not_full_before_too_many_places', 'record P { a:u64 } | view V : P [4097, 1] as byteswap(bitaos(63, morton))', 'line 2: BadMapping NotFull'),
    Case('not_full_before_a_missing_column', PAIR + 'load V : P [?] as byteswap(bitaos(31, row)) from "d.csv"', 'line 2: BadMapping NotFull', b'z\n1\n'),
    Case('not_full_behind_too_many_rows', PAIR + 'view V : P [4097, 4097] as byteswap(bitaos(31, row))', 'line 2: BadExtents TooMany'),
    Case('not_full_in_a_relayout', PAIR + f'view V : P [1] as {AOS} | set V[0].b = -129 | relayout V as byteswap(change(i32->i8, {AOS}))', 'line 4: BadMapping NotFull'),
    Case('bytes_of_2_to_the_28_by_a_byteswap', f'record P {{ a:u64[2] }} | view V : P [{MOST}] as byteswap({SOA}) | print W', 'line 3: Unknown W'),
    Case('bytes_of_2_to_the_28_and_more_by_a_bytesplit', f'record P {{ a:u64[2], b:u8 }} | view V : P [{MOST}] as bytesplit({SOA})', 'line 2: TooBig'),
    Case('bytes_of_2_to_the_28_by_a_change', f'record P {{ a:u64[2], b:u8 }} | view V : P [{MOST}] as change(u64->i32, {SOA}) | print W', 'line 3: Unknown W'),
    Case('bytes_of_2_to_the_28_and_more_by_a_change', f'record P {{ a:u32[4], b:u8 }} | view V : P [{MOST}] as change(u8->i32, {SOA})', 'line 2: TooBig'),
    Case('bytes_of_2_to_the_28_by_a_bytesplit_without_gaps', f'record P {{ a:u64, b:u32, c:u16, d:u8, e:u8 }} | view V : P [{MOST}] as bytesplit(aos(aligned, row)) | print W', 'line 3: Unknown W'),
    Case('bytesplit_of_512_blobs', f'record P {{ a:u64[64] }} | view V : P [1] as bytesplit({SOA}) | set V[0].a[63] = 72057594037927936 | bytes V 511 | bytes V 512', '01 | line 5: BadIndex'),
]

EACH = [('bytesplit(byteswap(aos(packed, row)))', 'swapped_and_split_bytes'), ('aos(aligned, col)', 'structs_by_columns'), ('soa(multi, row)', 'arrays'), ('aosoa(3, col)', 'lanes_by_columns'),
        ('bitaos(7, morton)', 'bits_in_morton_order'), ('split(b, bitsoa(7, row), soa(single, morton))', 'a_split_into_bits'), ('change(i16->i64, aos(min, row))', 'a_greater_type')]
SAME = [Case(f'same_table_under_{name}', f'record R {{ a:u8, b:i16 }} | view V : R [2, 2] as {form} | update V set a = 2 * i0 + i1 + 1 | update V set b = -a * 10 | print V',
             'a,b | 1,-10 | 2,-20 | 3,-30 | 4,-40') for form, name in EACH]

CASES = CHANGES + SWAPS + CHANGED + FULL + ORDER + SAME
