"""Each command, by each of its alternatives."""
from .case import BOTH, Case, LOAD, PAIR

TRIPLE = 'record Q { a:u8, b:u32, c:u16 } | '
FILLED = ('set V[0].a = 1 | set V[0].b = 258 | set V[0].c = 3 | set V[1].a = 255 | set V[1].b = 4294967295 | ')
LONG = 'abcdefghijklmnopqrstuvwxyz_01234'
ROWS = b'a,b\n1,-1\n2,-2\n3,-3\n4,-4\n'
NUMBERED = 'record P { a:i16 } | view V : P [4] as soa(multi, row) | update V set a = i0 * 5 - 7 | '


def of(leaf_record, header, values):
    return leaf_record + ' | view V : P [1] as aos(packed, row) | print V', header + ' | ' + values


def counted(extents, value):
    return f'record P {{ a:u16 }} | view V : P {extents} as aos(packed, row) | update V set a = {value} | print V'


RECORDS = [
    Case('record_of_each_type_holds_its_least_and_greatest_value',
         'record P { f:bool, a:u8, b:u16, c:u32, d:u64, e:i8, g:i16, h:i32, k:i64 } | view V : P [2] as aos(packed, row) | '
         'update V where i0 == 0 set e = -128, g = -32768, h = -2147483648, k = -9223372036854775808 | '
         'update V where i0 == 1 set f = 1, a = 255, b = 65535, c = 4294967295, d = 18446744073709551615, e = 127, '
         'g = 32767, h = 2147483647, k = 9223372036854775807 | print V',
         'f,a,b,c,d,e,g,h,k | 0,0,0,0,0,-128,-32768,-2147483648,-9223372036854775808 | '
         '1,255,65535,4294967295,18446744073709551615,127,32767,2147483647,9223372036854775807'),
    Case('record_in_a_record_joins_names_with_a_point', *of('record P { pos { x:u8, y:u8 }, m:u32 }', 'pos.x,pos.y,m', '0,0,0')),
    Case('record_has_a_leaf_for_each_element_of_an_array', *of('record P { h:u8[3], m:i8 }', 'h[0],h[1],h[2],m', '0,0,0,0')),
    Case('record_array_of_arrays_has_the_first_length_outside', *of(
        'record P { h:u8[2][3] }', 'h[0][0],h[0][1],h[0][2],h[1][0],h[1][1],h[1][2]', '0,0,0,0,0,0')),
    Case('record_array_of_records', *of('record P { c { x:i8, y:i16 }[2] }', 'c[0].x,c[0].y,c[1].x,c[1].y', '0,0,0,0')),
    Case('record_array_of_arrays_of_records_with_arrays', *of(
        'record P { c { x:u8[2] }[1][2] }', 'c[0][0].x[0],c[0][0].x[1],c[0][1].x[0],c[0][1].x[1]', '0,0,0,0')),
    Case('record_fields_of_one_name_in_different_records', *of('record P { a { x:u8 }, b { x:u8 } }', 'a.x,b.x', '0,0')),
    Case('record_names_differ_by_case', *of('record P { a:u8, A:u8, _a:u8 }', 'a,A,_a', '0,0,0')),
    Case('record_of_an_array_of_one', *of('record P { h:u8[1] }', 'h[0]', '0')),
    Case('record_alone_prints_nothing', 'record P { a:u8 }', ''),
    Case('names_of_records_mappings_and_views_are_apart',
         'record X { X:u8 } | mapping X = soa(multi, row) | view X : X [1] as X | set X[0].X = 7 | print X', 'X | 7'),
    Case('words_of_the_language_are_names',
         'record record { record:u8, aos:u16, row:u8, u8:u8, where:u8, set:u8 } | mapping aos = aos(packed, row) | '
         'view view : record [1] as aos | update view where where == 0 set set = 1 | print view',
         'record,aos,row,u8,where,set | 0,0,0,0,0,1'),
    Case('names_of_32_bytes', f'record {LONG} {{ {LONG}:u8 }} | view {LONG} : {LONG} [1] as soa(multi, row) | print {LONG}',
         f'{LONG} | 0'),
]

LAYOUTS = [
    ('aos_packed', 'aos(packed, row)', '01 02 01 00 00 03 00 ff ff ff ff ff 00 00'),
    ('aos_aligned', 'aos(aligned, row)', '01 00 00 00 02 01 00 00 03 00 00 00 ff 00 00 00 | ff ff ff ff 00 00 00 00'),
    ('aos_min', 'aos(min, row)', '02 01 00 00 03 00 01 00 ff ff ff ff 00 00 ff 00'),
    ('soa_single', 'soa(single, row)', '01 ff 02 01 00 00 ff ff ff ff 03 00 00 00'),
    ('soa_aligned', 'soa(aligned, row)', '01 ff 00 00 02 01 00 00 ff ff ff ff 03 00 00 00'),
    ('soa_multi', 'soa(multi, row)', '01 ff'),
    ('aosoa', 'aosoa(2, row)', '01 ff 02 01 00 00 ff ff ff ff 03 00 00 00'),
    ('split', 'split(b, soa(multi, row), aos(packed, row))', '02 01 00 00 ff ff ff ff'),
]

MAPPINGS = [Case(f'view_as_{name}', TRIPLE + f'view V : Q [2] as {text} | ' + FILLED + 'bytes V 0', due)
            for name, text, due in LAYOUTS] + [
    Case(f'mapping_names_{name}', TRIPLE + f'mapping M = {text} | view V : Q [2] as M | ' + FILLED + 'bytes V 0', due)
    for name, text, due in LAYOUTS] + [
    Case('mapping_of_a_mapping', TRIPLE + 'mapping M = aos(min, row) | mapping N = M | view V : Q [2] as N | ' + FILLED
         + 'bytes V 0', LAYOUTS[2][2]),
    Case('mapping_has_the_name_of_a_form', TRIPLE + 'mapping soa = aos(min, row) | view V : Q [2] as soa | ' + FILLED + 'bytes V 0',
         LAYOUTS[2][2]),
    Case('mapping_stands_after_its_view_is_dropped', TRIPLE + 'mapping M = soa(multi, row) | view V : Q [1] as M | drop V | '
         'view V : Q [1] as M | print V', 'a,b,c | 0,0,0'),
]

VIEWS = [
    Case('view_begins_with_zeros', BOTH + 'print V', 'a,b | 0,0 | 0,0 | 0,0'),
    Case('view_of_one_row', PAIR + 'view V : P [1] as aos(packed, row) | print V', 'a,b | 0,0'),
    Case('view_of_two_dimensions', counted('[2, 3]', '10 * i0 + i1'), 'a | 0 | 1 | 2 | 10 | 11 | 12'),
    Case('view_of_three_dimensions', counted('[2, 1, 2]', '100 * i0 + 10 * i1 + i2 + 1'), 'a | 1 | 2 | 101 | 102'),
    Case('view_of_four_dimensions', counted('[1, 2, 1, 2]', '1000 * i0 + 100 * i1 + 10 * i2 + i3'),
         'a | 0 | 1 | 100 | 101'),
    Case('view_of_no_row', PAIR + 'view V : P [0] as aos(packed, row) | print V', 'a,b'),
    Case('view_of_no_row_by_its_last_dimension', PAIR + 'view V : P [4294967295, 0] as soa(multi, col) | print V', 'a,b'),
    Case('view_of_no_row_is_updated_without_fault', PAIR + 'view V : P [0] as aosoa(4, row) | update V set a = 1 / 0 | print V', 'a,b'),
    Case('view_in_column_order_prints_rows_in_row_order',
         'record P { a:u8 } | view V : P [2, 3] as aos(packed, col) | update V set a = 10 * i0 + i1 | print V | bytes V 0',
         'a | 0 | 1 | 2 | 10 | 11 | 12 | 00 0a 01 0b 02 0c'),
    Case('view_of_a_record_that_another_view_has', BOTH + 'view W : P [1] as soa(multi, row) | set V[0].a = 5 | print W | print V',
         'a,b | 0,0 | a,b | 5,0 | 0,0 | 0,0'),
    Case('view_after_a_later_record', PAIR + 'record Q { c:u8 } | view V : P [1] as soa(multi, row) | view W : Q [1] as soa(multi, row) | '
         'print W | print V', 'c | 0 | a,b | 0,0'),
]


def loaded(extents, mapping='aos(packed, row)', behind='print V'):
    return PAIR + f'load V : P {extents} as {mapping} from "d.csv" | {behind}'


TABLE = 'a,b | 1,-1 | 2,-2 | 3,-3 | 4,-4'
LOADS = [
    Case('load_as_many_rows_as_the_dataset_has', loaded('[?]'), TABLE, ROWS),
    Case('load_a_fixed_number_of_rows', loaded('[4]'), TABLE, ROWS),
    Case('load_two_fixed_dimensions', loaded('[2, 2]', behind='print V | reduce V count where a == 2 * i0 + i1 + 1'),
         TABLE + ' | 4', ROWS),
    Case('load_rows_in_the_first_dimension', loaded('[?, 2]', behind='reduce V count where a == 2 * i0 + i1 + 1'), '4', ROWS),
    Case('load_rows_in_the_last_dimension', loaded('[4, ?]', behind='reduce V count where a == i0 + 1 and i1 == 0'), '4', ROWS),
    Case('load_rows_between_fixed_dimensions', loaded('[2, ?, 1, 2]', behind='reduce V count where a == 2 * i0 + i3 + 1'), '4', ROWS),
    Case('load_no_row_by_question_mark', loaded('[?]'), 'a,b', b'a,b\n'),
    Case('load_no_row_beside_a_great_dimension', loaded('[?, 4294967295, 4294967295]'), 'a,b', b'a,b\n'),
    Case('load_no_row_by_a_fixed_number', loaded('[0]'), 'a,b', b'a,b\n'),
    Case('load_no_row_by_a_dimension_of_none', loaded('[3, 0]'), 'a,b', b'a,b\n'),
    Case('load_by_the_name_of_a_mapping', PAIR + 'mapping M = soa(single, col) | load V : P [?] as M from "d.csv" | print V', TABLE, ROWS),
    Case('load_from_a_folder', PAIR + 'load V : P [?] as aos(packed, row) from "data/d.csv" | print V', TABLE,
         files={'data/d.csv': ROWS}),
    Case('load_from_a_name_with_blanks_and_signs', PAIR + 'load V : P [?] as aos(packed, row) from "a #b [1].csv" # note | print V',
         TABLE, files={'a #b [1].csv': ROWS}),
    Case('load_the_same_file_twice', LOAD + 'load W : P [2, 2] as soa(multi, row) from "d.csv" | set V[0].a = 9 | print W', TABLE, ROWS),
    Case('load_leaves_other_views', PAIR + 'view W : P [1] as aos(packed, row) | load V : P [?] as aos(packed, row) from "d.csv" | print W',
         'a,b | 0,0', ROWS),
] + [Case(f'load_as_{name}_prints_the_same', loaded('[2, ?]', text.replace('row', 'col')), TABLE, ROWS) for name, text, _ in LAYOUTS]

SETS = [
    Case('set_stores_one_value', BOTH + 'set V[1].b = -7 | print V', 'a,b | 0,0 | 0,-7 | 0,0'),
    Case('set_reads_its_own_row', BOTH + 'set V[1].a = 5 | set V[1].b = a * a - b | set V[0].b = a + 1 | print V', 'a,b | 0,1 | 5,25 | 0,0'),
    Case('set_reads_the_value_that_it_changes', BOTH + 'set V[2].a = a + 1 | set V[2].a = a + 1 | print V', 'a,b | 0,0 | 0,0 | 2,0'),
    Case('set_knows_its_index', 'record P { a:u8 } | view V : P [2, 3] as aos(packed, col) | set V[1, 2].a = 10 * i0 + i1 | print V',
         'a | 0 | 0 | 0 | 0 | 0 | 12'),
    Case('set_in_four_dimensions', 'record P { a:u8 } | view V : P [1, 2, 1, 2] as soa(multi, row) | set V[0, 1, 0, 1].a = i1 + i3 | print V',
         'a | 0 | 0 | 0 | 2'),
    Case('set_a_leaf_of_a_record_in_an_array',
         'record P { c { x:u8, y:u8 }[2] } | view V : P [1] as aos(packed, row) | set V[0].c[1].x = 3 | set V[0].c[0].y = c[1].x + 1 | print V',
         'c[0].x,c[0].y,c[1].x,c[1].y | 0,4,3,0'),
    Case('set_by_numbers_with_leading_zeros', BOTH + 'set V[0001].a = 007 | print V', 'a,b | 0,0 | 7,0 | 0,0'),
]

UPDATES = [
    Case('update_each_row', BOTH + 'update V set b = i0 * i0 - 2 | print V', 'a,b | 0,-2 | 0,-1 | 0,2'),
    Case('update_the_rows_that_pass', BOTH + 'update V where i0 != 1 set a = 9 | print V', 'a,b | 9,0 | 0,0 | 9,0'),
    Case('update_takes_any_filter_but_0_as_true', BOTH + 'update V where i0 - 1 set a = 9 | print V', 'a,b | 9,0 | 0,0 | 9,0'),
    Case('update_no_row_where_the_filter_is_0', BOTH + 'update V where 0 set a = 1000 | print V', 'a,b | 0,0 | 0,0 | 0,0'),
    Case('update_several_leaves', BOTH + 'update V set a = i0 + 1, b = -i0 | print V', 'a,b | 1,0 | 2,-1 | 3,-2'),
    Case('update_reads_the_row_as_it_stood',
         'record P { x:i8, y:i8 } | view V : P [2] as aosoa(2, row) | update V set x = i0 + 1, y = i0 + 10 | update V set x = y, y = x | print V',
         'x,y | 10,1 | 11,2'),
    Case('update_filter_reads_what_it_changes', BOTH + 'update V set a = i0 | update V where a < 2 set a = a + 5 | print V',
         'a,b | 5,0 | 6,0 | 2,0'),
    Case('update_elements_of_an_array', 'record P { h:i8[2] } | view V : P [2] as soa(multi, row) | update V set h[1] = i0 - 1, h[0] = h[1] | print V',
         'h[0],h[1] | 0,-1 | 0,0'),
    Case('update_in_column_order', 'record P { a:u8 } | view V : P [2, 2] as aosoa(3, col) | update V where i0 == i1 set a = 1 + i0 | print V | bytes V 0',
         'a | 1 | 0 | 0 | 2 | 01 00 00 02 00 00'),
    Case('update_with_a_path_named_set', 'record P { set:u8 } | view V : P [1] as aos(packed, row) | update V where not set set set = 4 | print V',
         'set | 4'),
]

REDUCTIONS = [
    Case('reduce_sum', NUMBERED + 'reduce V sum a', '2'),
    Case('reduce_min', NUMBERED + 'reduce V min a', '-7'),
    Case('reduce_max', NUMBERED + 'reduce V max a', '8'),
    Case('reduce_count', NUMBERED + 'reduce V count where a > 0', '2'),
    Case('reduce_count_of_any_value_but_0', NUMBERED + 'reduce V count where i0 % 2', '2'),
    Case('reduce_count_by_index', NUMBERED + 'reduce V count where a == i0 * 5 - 7', '4'),
    Case('reduce_sum_of_no_row', PAIR + 'view V : P [0] as soa(multi, row) | reduce V sum b', '0'),
    Case('reduce_count_of_no_row', PAIR + 'view V : P [0] as soa(multi, row) | reduce V count where 1 / 0', '0'),
    Case('reduce_sum_past_64_bits', 'record P { a:u64, b:i64 } | view V : P [3] as aos(min, row) | '
         'update V set a = 18446744073709551615, b = -9223372036854775808 | reduce V sum a | reduce V sum b',
         '55340232221128654845 | -27670116110564327424'),
    Case('reduce_of_one_row', PAIR + 'view V : P [1] as aos(packed, row) | set V[0].b = -3 | reduce V sum b | reduce V min b | reduce V max b',
         '-3 | -3 | -3'),
    Case('reduce_of_flags', 'record P { f:bool } | view V : P [5] as aosoa(4, row) | update V where i0 % 2 == 0 set f = 1 | reduce V sum f | '
         'reduce V min f | reduce V max f', '3 | 0 | 1'),
    Case('reduce_min_and_max_below_zero', 'record P { a:i8 } | view V : P [3] as soa(single, row) | update V set a = -5 - i0 | reduce V min a | '
         'reduce V max a', '-7 | -5'),
    Case('reduce_an_element_in_an_array', 'record P { c { x:u8 }[2] } | view V : P [3] as aos(packed, row) | update V set c[1].x = i0 | '
         'reduce V sum c[1].x | reduce V sum c[0].x', '3 | 0'),
]

OTHERS = [
    Case('print_twice', BOTH + 'print V | set V[0].a = 1 | print V', 'a,b | 0,0 | 0,0 | 0,0 | a,b | 1,0 | 0,0 | 0,0'),
    Case('print_below_zero_and_one_digit', BOTH + 'update V set b = i0 - 1 | print V', 'a,b | 0,-1 | 0,0 | 0,1'),
    Case('drop_frees_the_name', BOTH + 'set V[0].a = 1 | drop V | view V : P [1] as soa(multi, row) | print V', 'a,b | 0,0'),
    Case('drop_leaves_other_views', BOTH + 'view W : P [1] as soa(multi, row) | set W[0].a = 2 | drop V | print W', 'a,b | 2,0'),
    Case('drop_leaves_record_and_mapping_of_the_name', 'record X { a:u8 } | mapping X = soa(multi, row) | view X : X [1] as X | drop X | '
         'view X : X [1] as X | print X', 'a | 0'),
    Case('drop_of_a_middle_view', PAIR + 'view V : P [1] as soa(multi, row) | view W : P [2] as soa(multi, row) | view X : P [3] as soa(multi, row) | '
         'drop W | print V | print X | print W', 'a,b | 0,0 | a,b | 0,0 | 0,0 | 0,0 | line 8: Unknown W'),
]

CASES = RECORDS + MAPPINGS + VIEWS + LOADS + SETS + UPDATES + REDUCTIONS + OTHERS
