"""Examples that were worked out by hand before there was a program: each form of a layout, each kind of fault, and each command that came later."""
from .case import Case

PAIR = 'record P { a:u8, b:i32 }'
LOAD = PAIR + ' | load V : P [?] as aos(packed, row) from "d.csv"'
LOADED = LOAD + ' | print V'
THREE = ('record Q { a:u8, b:u32, c:u16 } | view V : Q [2] as {} | set V[0].a = 1 | set V[0].b = 258 | set V[0].c = 3'
         ' | set V[1].a = 255 | set V[1].b = 4294967295 | bytes V 0')
LANES = 'record P { a:u8, b:u16 } | view V : P [3] as aosoa(2, row) | update V set a = i0 + 1, b = (i0 + 1) * 10 | bytes V 0'
DIVIDED = 'record P { a:i32 } | load V : P [?] as aos(packed, row) from "d.csv" | print V | update V set a = 10 / a | print V'
EMPTY = ('record P { a:u64 } | view V : P [2] as soa(multi, row) | update V set a = 18446744073709551615 | reduce V sum a'
         ' | view W : P [0] as soa(multi, row) | reduce W min a')
SQUARE = PAIR + ' | view V : P [4097, 4097] as soa(multi, row)'
KERNELS = ('record P { x:i32, y:i32 } | view V : P [5] as aosoa(2, row) | update V set x = i0, y = 10 | kernel V axpy(-3, x, y) lanes 4'
           ' | kernel V sum(y) lanes 2 | kernel V least(y) lanes 8 | kernel V clamp(y, 0, 5) lanes 16'
           ' | kernel V count_where(y >= 4) lanes 1 | print V | kernel V axpy(2147483647, x, y) lanes 4')
SPLIT = ('record S { pos { x:u8, y:u8 }, m:u32 } | view V : S [2] as split(pos, soa(multi, row), aos(packed, row))'
         ' | update V set pos.x = 1 + 3 * i0, pos.y = 2 + 3 * i0, m = 3 + 3 * i0 | bytes V 0 | bytes V 1 | bytes V 2'
         ' | relayout V as aosoa(2, col) | print V | relayout V as split(q, soa(multi, row), aos(packed, row))')
SAME = 'record R { a:u8, b:i16 } | view V : R [2, 2] as {} | update V set a = 2 * i0 + i1 + 1 | update V set b = -a * 10 | print V'
CURVE = 'record P { a:u8 } | view V : P [2, 3] as aos(packed, morton) | update V set a = 1 + 3 * i0 + i1 | bytes V 0'
SHARED = ('record P { a:u16, b:u16 } | view V : P [3] as bitaos(12, row) | set V[0].a = 2748 | set V[0].b = 291 | set V[1].b = 4095'
          ' | bytes V 0')
SIGNED = ('record P { a:i8 } | view V : P [4] as bitsoa(4, row) | set V[0].a = -1 | set V[1].a = -8 | set V[2].a = 7 | bytes V 0 | print V'
          ' | set V[3].a = ')
WIDE = ('record P { u:u64, s:i64 } | view V : P [1] as bitaos(64, row) | set V[0].u = 18446744073709551615'
        ' | set V[0].s = -9223372036854775808 | bytes V 0 | print V')
FLAGS = ('record P { f:bool } | view V : P [3] as bitaos(1, row) | set V[0].f = 1 | set V[2].f = 1 | bytes V 0 | set V[1].f = 2')
ACROSS = ('record P { t:u64 } | view V : P [2] as bitaos(33, row) | set V[1].t = 8589934591 | bytes V 0 | set V[0].t = 8589934592')
SWAPPED = ('record P { a:u32 } | view V : P [1] as byteswap(aos(packed, row)) | set V[0].a = 16909060 | bytes V 0'
           ' | relayout V as bytesplit(soa(multi, row)) | bytes V 0 | bytes V 1 | bytes V 2 | bytes V 3 | print V')
CHANGED = ('record P { a:i32 } | view V : P [1] as change(i32->i16, byteswap(aos(packed, row))) | set V[0].a = 258 | bytes V 0'
           ' | set V[0].a = 40000')
NOT_FULL = 'record P { a:i32 } | view V : P [1] as byteswap(change(i32->i16, aos(packed, row)))'
SIDES = ('record S { pos { x:u8, y:u8 }, m:u32 } | view V : S [2, 2] as split(pos, soa(multi, col), bitaos(20, row))'
         ' | update V set pos.x = 2 * i0 + i1 + 1, pos.y = 16, m = i1 | bytes V 0 | bytes V 1 | bytes V 2')
UNHELD = ('record P { a:u8, b:u16 } | view V : P [5] as aosoa(4, row) | update V set a = i0, b = 300 + i0 | relayout V as bitsoa(8, row)')
DEEP = PAIR + ' | mapping M = ' + 8 * 'byteswap(' + 'aos(packed, row)' + 8 * ')'
SIX = b'a,b\n' + 6 * b'0,0\n'
DRAWN = ('blob,bit,bits,record,leaf,low | 0,0,8,0,a,0 | 0,8,24,-,-,- | 0,32,32,0,b,0 | 0,64,16,0,c,0 | 0,80,16,-,-,- | 0,96,8,1,a,0 | 0,104,24,-,-,-'
         ' | 0,128,32,1,b,0 | 0,160,16,1,c,0 | 0,176,16,-,-,-')
HEATED = ('record P { a:u8, b:u32 } | view V : P [16] as count(heat(64, aosoa(8, row))) | update V set a = i0 % 2 | update V where a == 0 set b = i0 | counts V'
          ' | heat V')
COPIED = ('record P { a:u8, b:u16 } | view V : P [5] as aosoa(4, row) | update V set a = i0, b = 300 + i0 | view W : P [5] as count(soa(multi, row)) | copy V to W'
          ' | copy W to W | print W | counts W | view X : P [4] as aos(packed, row) | copy V to X')
ACTED = 'version 2 | record P { a:u8 } | view V : P [4] as bitaos(4, row) | update V set a = i0 + 1 actors [2] schedule 0 turns 6 | bytes V 0'
ROD = 'version 2 | record P { t:i32 } | view V : P [5] as aosoa(2, row) | set V[2].t = 16 | '
WARMED = ROD + 'stencil V window [1 : 4] set t = (1 * t at [-1], 2 * t at [0], 1 * t at [1]) / 4 rounds 2 | print V | print V window [1 : 3]'
ASKED = 'version 2 | record P { a:u8, b:u64 } | view V : P [64] as aos(packed, row) | advise V granule 64 pass a times 10 pass b times 1 among aos(packed, row)'
CHOSEN = ('record P { a:u16, b:u16, c:u8 } | view V : P [2] as bitaos(8 { a: 12, b: 4 }, row) | set V[0].a = 2748 | set V[0].b = 13 | set V[0].c = 239'
          ' | bytes V 0 | set V[0].b = 16')
MANY = 'record P { x:u32 } | view V : P [19] as bitsoa(32, row) | update V set x = 4294967295 - i0' + ''.join(
    f' | kernel V sum(x) lanes {lanes} | kernel V least(x) lanes {lanes} | kernel V count_where(x < 4294967290) lanes {lanes}' for lanes in (1, 2, 4, 8, 16))
USAGE = b'usage: llama run FILE | llama gen N\n'
GENERATED = '2 | 3 | 65537 | 0 | leaf,reads,writes | pos.x,3,3 | pos.y,2,2 | mass,3,3 | hot,4,2 | h[0],2,2 | h[1],2,2 | id,2,2'
Z = ' 00'


def three(mapping):
    return THREE.replace('{}', mapping)


def loaded(name, due, data):
    """The first script with another dataset."""
    return Case(f'worked_{name}', LOADED, due, data)


def loaded_as(name, extents, due):
    """The first script with other extents, over six rows."""
    return Case(f'worked_{name}', LOAD.replace('[?]', extents), f'line 2: BadExtents {due}', SIX)


def same(name, form):
    """One table under each of several layouts."""
    return Case(f'worked_same_under_{name}', SAME.replace('{}', form), 'a,b | 1,-10 | 2,-20 | 3,-30 | 4,-40')


DATASETS = [
    loaded('load_and_print', 'a,b | 1,-5 | 255,7 | 0,2147483647', b'a,b\n1,-5\n255,7\n0,2147483647\n'),
    Case('worked_load_of_no_row', LOADED + ' | bytes V 0', 'a,b', b'a,b\n'),
    loaded('mark_and_quotes', 'a,b | 7,-5', b'\xef\xbb\xbfb,extra,a\r\n"-5","z,z",+7\r\n'),
    loaded('short_row', 'line 2: ShortRow record 0 leaf b', b'a,b\n1\n'),
    loaded('no_number', 'line 2: Number record 0 leaf b', b'a,b\n1,\n'),
    loaded('long_number', 'line 2: Range record 0 leaf b', b'a,b\n1,1' + 39 * b'0' + b'\n'),
    loaded('missing_column', 'line 2: MissingColumn b', b'a\n1\n'),
    loaded('column_twice', 'line 2: ColumnTwice a', b'a,b,a\n'),
    loaded('signs_and_zeros', 'a,b | 1,-5 | 255,7', b'a,b\n+01, -5\n255,0007\n'),
    loaded('number_past_its_range', 'line 2: Range record 1 leaf a', b'a,b\n0,0\n256,0\n'),
    loaded('no_dataset', 'line 2: cannot read d.csv', None),
    loaded_as('rows_that_are_not_divisible', '[?, 4]', 'NotDivisible'),
    loaded_as('other_rows', '[5]', 'NotEqual'),
    loaded_as('two_rows', '[?, ?]', 'TwoRows'),
    loaded_as('rows_beside_zero', '[?, 0]', 'RowsBesideZero'),
    Case('worked_too_many_rows', SQUARE, 'line 2: BadExtents TooMany'),
]

LINES = [
    Case('worked_record_that_is_cut', 'record P { a:u8', 'line 1: Syntax column 16'),
    Case('worked_print_of_two', 'print V V', 'line 1: Syntax column 9'),
    Case('worked_drop_of_a_number', 'drop 5', 'line 1: Syntax column 6'),
    Case('worked_unknown_view', 'print V', 'line 1: Unknown V'),
    Case('worked_taken_record', PAIR + ' | ' + PAIR, 'line 2: Taken P'),
    Case('worked_empty_script', '', ''),
    Case('worked_comment_and_blank_lines', '# note |  | ', ''),
    Case('worked_long_line', '#' * 4097, 'line 1: LineTooLong'),
    Case('worked_mapping_of_depth_9', DEEP, 'line 2: BadMapping TooDeep'),
    Case('worked_mapping_of_depth_8', DEEP.replace('byteswap(', '', 1).replace(')', '', 1), ''),
    Case('worked_script_that_is_not_there', None, 'line 0: cannot read s', words=['run', 's']),
    Case('worked_no_words', None, USAGE, words=[]),
    Case('worked_words_without_a_file', None, USAGE, words=['run']),
    Case('worked_words_of_two_files', None, USAGE, words=['run', 'a', 'b']),
]

LAYOUTS = [
    Case('worked_packed_structs', three('aos(packed, row)'), '01 02 01 00 00 03 00 ff ff ff ff ff 00 00'),
    Case('worked_aligned_structs', three('aos(aligned, row)'), '01 00 00 00 02 01 00 00 03 00 00 00 ff 00 00 00 | ff ff ff ff 00 00 00 00'),
    Case('worked_structs_of_least_padding', three('aos(min, row)'), '02 01 00 00 03 00 01 00 ff ff ff ff 00 00 ff 00'),
    Case('worked_layout_of_aligned_structs', three('aos(aligned, row)').replace('bytes V 0', 'layout V'), DRAWN),
    Case('worked_arrays_in_one_blob', three('soa(single, row)'), '01 ff 02 01 00 00 ff ff ff ff 03 00 00 00'),
    Case('worked_aligned_arrays', three('soa(aligned, row)'), '01 ff 00 00 02 01 00 00 ff ff ff ff 03 00 00 00'),
    Case('worked_arrays_in_own_blobs', three('soa(multi, row)') + ' | bytes V 1 | bytes V 2 | bytes V 3',
         '01 ff | 02 01 00 00 ff ff ff ff | 03 00 00 00 | line 11: BadIndex'),
    Case('worked_blocks_of_lanes', LANES, '01 02 0a 00 14 00 03 00 1e 00 00 00'),
    Case('worked_curve', CURVE, '01 02 04 05 03 00 06' + 9 * Z),
    Case('worked_shared_bytes', SHARED, 'bc 3a 12 00 f0 ff' + 10 * Z),
    Case('worked_bits_with_a_sign', SIGNED + '8', '8f 07' + 6 * Z + ' | a | -1 | -8 | 7 | 0 | line 8: Narrow record 3 leaf a'),
    Case('worked_bits_past_their_type', SIGNED + '200', '8f 07' + 6 * Z + ' | a | -1 | -8 | 7 | 0 | line 8: Range record 3 leaf a'),
    Case('worked_64_bits', WIDE, 'ff ff ff ff ff ff ff ff 00 00 00 00 00 00 00 80 | u,s | 18446744073709551615,-9223372036854775808'),
    Case('worked_flags', FLAGS, '05' + 7 * Z + ' | line 6: Range record 1 leaf f'),
    Case('worked_33_bits', ACROSS, '00 00 00 00 fe ff ff ff 03' + 7 * Z + ' | line 5: Narrow record 0 leaf t'),
    Case('worked_bytes_turned_and_split', SWAPPED, '01 02 03 04 | 04 | 03 | 02 | 01 | a | 16909060'),
    Case('worked_lesser_type', CHANGED, '01 02 | line 5: Narrow record 0 leaf a'),
    Case('worked_not_full', NOT_FULL, 'line 2: BadMapping NotFull'),
    Case('worked_sides', SIDES, '01 03 02 04 | 10 10 10 10 | 00 00 10 00 00 00 00 10' + 8 * Z),
    Case('worked_split_laid_anew', SPLIT, '01 04 | 02 05 | 03 00 00 00 06 00 00 00 | pos.x,pos.y,m | 1,2,3 | 4,5,6 | line 9: BadMapping Side'),
    Case('worked_too_few_bits_to_lay_anew', UNHELD, 'line 4: Narrow record 0 leaf b'),
    same('structs_by_columns', 'aos(aligned, col)'),
    same('arrays', 'soa(multi, row)'),
    same('lanes_by_columns', 'aosoa(3, col)'),
    same('bits_along_a_curve', 'bitaos(7, morton)'),
    same('bytes_turned_and_split', 'bytesplit(byteswap(aos(packed, row)))'),
    same('sides', 'split(b, bitsoa(7, row), soa(single, morton))'),
    same('a_greater_type', 'change(i16->i64, aos(min, row))'),
]

COMMANDS = [
    Case('worked_divide_by_zero', DIVIDED, 'a | 5 | 1 | 0 | 4 | line 4: DivideByZero record 2', b'a\n5\n1\n0\n4\n'),
    Case('worked_sum_and_empty', EMPTY, '36893488147419103230 | line 6: Empty'),
    Case('worked_kernels', KERNELS, '20 | -2 | 3 | x,y | 0,5 | 1,5 | 2,4 | 3,1 | 4,0 | line 10: Range record 1 leaf y'),
    Case('worked_kernels_of_19_rows', MANY, ' | '.join(5 * ['81604378434', '4294967277', '13'])),
    Case('worked_counts_and_heat', HEATED, 'leaf,reads,writes | a,16,16 | b,0,8 | blob,granule,accesses | 0,0,38 | 0,1,2'),
    Case('worked_copies', COPIED, 'a,b | 0,300 | 1,301 | 2,302 | 3,303 | 4,304 | leaf,reads,writes | a,10,10 | b,10,10 | line 10: Mismatch'),
    Case('worked_generator', None, GENERATED, words=['gen', '2']),
]

LATER = [
    Case('worked_widths', 'version 2 | ' + CHOSEN, 'bc da ef 00 00 00 00 00 | line 8: Narrow record 0 leaf b'),
    Case('worked_widths_in_version_1', CHOSEN, 'line 2: Syntax column 28'),
    Case('worked_widths_of_no_leaf', 'version 2 | ' + CHOSEN.replace('b: 4', 'z: 4'), 'line 3: BadMapping Field'),
    Case('worked_version_3', 'version 3', 'line 1: BadVersion'),
    Case('worked_version_behind_a_line', 'record P { a:u8 } | version 2', 'line 2: Syntax column 1'),
    Case('worked_actors', ACTED, '21 03' + 6 * Z + ' | 21 43' + 6 * Z),
    Case('worked_shared_byte', ACTED.replace('[2]', '[1]'), 'line 4: SharedByte blob 0 byte 0'),
    Case('worked_stencil', WARMED, 't | 0 | 4 | 6 | 4 | 0 | t | 4 | 6'),
    Case('worked_stencil_past_the_view', WARMED.replace('[1 : 4]', '[0 : 4]'), 'line 5: BadStencil Reach'),
    Case('worked_window_past_the_view', WARMED.replace('[1 : 4]', '[1 : 6]'), 'line 5: BadWindow'),
    Case('worked_advice', ASKED + ', soa(multi, row)', 'candidate,cost | 1,99 | 2,18 | best 18 soa ( multi , row )'),
    Case('worked_advice_of_splits', ASKED + ' splits', 'candidate,cost | 1,99 | best 18 split ( a , aos ( packed , row ) , aos ( packed , row ) )'),
]

# the file of two packed records, saved; opened whole, without its last byte, and with another first byte; and one that holds a bool of 2
SAVED = b'LLAMAB1\n\x47\0\0\0record R { a : u8 , b : u16 }\nview V : R [ 2 ] as aos ( packed , row )\n\0\0\0\0\x02\x01'
TWO = b'LLAMAB1\n\x3f\0\0\0record R { f : bool }\nview V : R [ 1 ] as aos ( packed , row )\n\x02'
FILES = [Case('worked_save', 'version 2 | record P { a:u8, b:u16 } | view V : P [2] as aos(packed, row) | set V[1].b = 258 | save V', SAVED)] + [
    Case(f'worked_open_{name}', 'version 2 | open V from "f" | print V', due, files={'f': data}) for name, due, data in [
        ('of_what_was_saved', 'a,b | 0,0 | 0,258', SAVED), ('without_the_last_byte', 'line 2: BadFile Length', SAVED[:-1]),
        ('of_another_first_byte', 'line 2: BadFile Magic', b'\0' + SAVED[1:]), ('of_a_bool_of_2', 'line 2: BadFile Contents', TWO)]]

CASES = DATASETS + LINES + LAYOUTS + COMMANDS + LATER + FILES
