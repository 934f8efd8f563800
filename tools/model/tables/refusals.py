"""The order of refusals: each script has a fault and the next ones too, so that the first one is told."""
from .case import BOTH, Case, LOAD, PAIR

ROWS = b'a,b\n1,2\n3,4\n'
VIEWS = ''.join(f'view V{number} : P [0] as soa(multi, row) | ' for number in range(64))
NESTED = 'a { b { c { d { e { f { g { h { i:u8, i:u8 } } } } } } } }'
MINUS = '-' * 40


def load(extents, mapping='aos(packed, row)', file='d.csv', name='V', record='P'):
    return f'load {name} : {record} {extents} as {mapping} from "{file}"'


LINES = [
    Case('a_long_line_before_its_syntax', 'print V V #'.ljust(4097, '#'), 'line 1: LineTooLong'),
    Case('a_line_of_4096_bytes_has_a_syntax_fault', 'print V V #'.ljust(4096, '#'), 'line 1: Syntax column 9'),
    Case('a_long_line_before_a_deep_expression', f'reduce V count where {MINUS}1 #'.ljust(4097, '#'), 'line 1: LineTooLong'),
    Case('syntax_before_a_deep_expression', f'reduce V count where {MINUS}1 1', 'line 1: Syntax column 64'),
    Case('syntax_before_a_name', 'print W W', 'line 1: Syntax column 9'),
    Case('syntax_before_an_unknown_name_in_a_form', 'relayout V as count(M', 'line 1: Syntax column 22'),
    Case('syntax_before_an_unknown_view_of_counts', 'counts V W', 'line 1: Syntax column 10'),
    Case('a_deep_expression_before_a_name', f'set W[0].z = {MINUS}1', 'line 1: TooDeep'),
    Case('a_deep_filter_before_a_name', f'update W where {MINUS}1 set z = y', 'line 1: TooDeep'),
    Case('a_deep_right_side_before_a_name', f'update W where z set z = y, z = {MINUS}1', 'line 1: TooDeep'),
    Case('a_deep_count_before_a_name', f'reduce W count where {MINUS}z', 'line 1: TooDeep'),
    Case('the_first_line_that_is_refused_ends_the_run', 'print V | print W | nothing', 'line 1: Unknown V'),
    Case('a_later_line_is_not_read_before_it_is_reached', 'print V | {', 'line 1: Unknown V'),
]

NAMES = [
    Case('record_taken_before_a_bad_record', 'record P { a:u8 } | record P { a:u8, a:u8 }', 'line 2: Taken P'),
    Case('mapping_taken_before_an_unknown_name', 'mapping M = soa(multi, row) | mapping M = N', 'line 2: Taken M'),
    Case('mapping_taken_before_its_lanes', 'mapping M = soa(multi, row) | mapping M = aosoa(0, row)', 'line 2: Taken M'),
    Case('mapping_does_not_know_itself', 'mapping M = M', 'line 1: Unknown M'),
    Case('mapping_does_not_know_a_record', 'record N { a:u8 } | mapping M = N', 'line 2: Unknown N'),
    Case('mapping_does_not_know_a_form_without_bracket', 'mapping M = aos', 'line 1: Unknown aos'),
    Case('view_taken_before_an_unknown_record', BOTH + 'view V : Q [1] as M', 'line 3: Taken V'),
    Case('view_unknown_record_before_an_unknown_mapping', PAIR + 'view V : Q [1] as M', 'line 2: Unknown Q'),
    Case('view_unknown_mapping_before_its_rank', PAIR + 'view V : P [1, 1, 1, 1, 1] as M', 'line 2: Unknown M'),
    Case('view_does_not_know_a_mapping_of_its_record', PAIR + 'view V : P [1] as P', 'line 2: Unknown P'),
    Case('view_does_not_know_a_record_of_a_mapping', 'mapping P = soa(multi, row) | view V : P [1] as P', 'line 2: Unknown P'),
    Case('view_taken_before_too_many_views', PAIR + VIEWS + 'view V63 : P [1] as soa(multi, row)', 'line 66: Taken V63'),
    Case('view_unknown_record_before_too_many_views', PAIR + VIEWS + 'view X : Q [1] as soa(multi, row)', 'line 66: Unknown Q'),
    Case('view_unknown_mapping_before_too_many_views', PAIR + VIEWS + 'view X : P [1] as M', 'line 66: Unknown M'),
    Case('view_too_many_before_its_rank', PAIR + VIEWS + 'view X : P [1, 1, 1, 1, 1] as aosoa(0, row)', 'line 66: TooManyViews'),
    Case('load_taken_before_an_unknown_record', BOTH + load('[?]', 'M', record='Q'), 'line 3: Taken V'),
    Case('load_unknown_record_before_an_unknown_mapping', load('[?]', 'M'), 'line 1: Unknown P'),
    Case('load_unknown_mapping_before_its_rank', PAIR + load('[?, ?, 0, 0, 0]', 'M'), 'line 2: Unknown M'),
    Case('load_too_many_views_before_its_rank', PAIR + VIEWS + load('[?, ?, 0, 0, 0]', name='X'), 'line 66: TooManyViews'),
    Case('load_too_many_views_before_its_file', PAIR + VIEWS + load('[?]', name='X'), 'line 66: TooManyViews'),
    Case('set_unknown_view_before_its_path', PAIR + 'set V[9, 9].z = y', 'line 2: Unknown V'),
    Case('update_unknown_view_before_its_paths', PAIR + 'update V where z set y = 1, y = 2', 'line 2: Unknown V'),
    Case('reduce_unknown_view_before_its_path', PAIR + 'reduce V sum z', 'line 2: Unknown V'),
    Case('reduce_count_unknown_view_before_its_path', PAIR + 'reduce V count where z', 'line 2: Unknown V'),
    Case('print_unknown_view', PAIR + 'print V', 'line 2: Unknown V'),
    Case('print_does_not_know_a_record', PAIR + 'print P', 'line 2: Unknown P'),
    Case('bytes_unknown_view_before_its_blob', PAIR + 'bytes V 9', 'line 2: Unknown V'),
    Case('drop_unknown_view', PAIR + 'drop V', 'line 2: Unknown V'),
    Case('drop_does_not_know_a_dropped_view', BOTH + 'drop V | drop V', 'line 4: Unknown V'),
    Case('names_are_compared_whole', BOTH + 'print VV', 'line 3: Unknown VV'),
    Case('names_are_compared_by_case', BOTH + 'print v', 'line 3: Unknown v'),
]

NEST = 'record P { pos { x:u8 }, h:u8[2], c { y:u8 }[2] } | view V : P [2] as aos(packed, row) | '
PATHS = [
    Case('set_unknown_left_path_before_the_right_one', BOTH + 'set V[9].z = y', 'line 3: Unknown z'),
    Case('set_unknown_right_path_before_a_bad_index', BOTH + 'set V[9].a = y + 1/0', 'line 3: Unknown y'),
    Case('set_unknown_paths_from_left_to_right', BOTH + 'set V[0].a = a + (x - y) * z', 'line 3: Unknown x'),
    Case('set_unknown_index_before_a_path', BOTH + 'set V[0].a = i1 + z', 'line 3: Unknown i1'),
    Case('set_unknown_path_before_an_index', BOTH + 'set V[0].a = z + i1', 'line 3: Unknown z'),
    Case('set_unknown_path_in_a_part_that_is_left_out', BOTH + 'set V[0].a = 0 and z', 'line 3: Unknown z'),
    Case('set_unknown_index_of_a_third_dimension', 'record P { a:u8 } | view V : P [1, 1] as soa(multi, row) | set V[0, 0].a = i1 + i2',
         'line 3: Unknown i2'),
    Case('set_unknown_index_of_a_fourth_dimension', 'record P { a:u8 } | view V : P [1, 1, 1] as soa(multi, row) | set V[0, 0, 0].a = i3',
         'line 3: Unknown i3'),
    Case('update_unknown_filter_before_the_sets', BOTH + 'update V where z set y = x', 'line 3: Unknown z'),
    Case('update_unknown_first_path_before_its_value', BOTH + 'update V where a set z = y, x = w', 'line 3: Unknown z'),
    Case('update_unknown_first_value_before_the_second_path', BOTH + 'update V where a set a = y, x = w', 'line 3: Unknown y'),
    Case('update_unknown_second_path_before_its_value', BOTH + 'update V set a = 1, x = w', 'line 3: Unknown x'),
    Case('update_unknown_last_path_before_a_leaf_twice', BOTH + 'update V set a = 1, a = 2, z = 3', 'line 3: Unknown z'),
    Case('update_unknown_index_in_a_filter', BOTH + 'update V where i1 set z = 1', 'line 3: Unknown i1'),
    Case('update_unknown_path_without_a_row', PAIR + 'view V : P [0] as soa(multi, row) | update V set a = z', 'line 3: Unknown z'),
    Case('reduce_unknown_path_before_an_empty_view', PAIR + 'view V : P [0] as soa(multi, row) | reduce V min z', 'line 3: Unknown z'),
    Case('reduce_sum_unknown_path', BOTH + 'reduce V sum a.x', 'line 3: Unknown a.x'),
    Case('reduce_count_unknown_path', BOTH + 'reduce V count where a < b or c', 'line 3: Unknown c'),
    Case('reduce_count_unknown_index', BOTH + 'reduce V count where i0 < i3', 'line 3: Unknown i3'),
    Case('path_of_a_record_is_no_leaf', NEST + 'reduce V sum pos', 'line 3: Unknown pos'),
    Case('path_of_an_array_is_no_leaf', NEST + 'reduce V sum h', 'line 3: Unknown h'),
    Case('path_of_an_element_that_is_a_record_is_no_leaf', NEST + 'reduce V sum c[1]', 'line 3: Unknown c[1]'),
    Case('path_past_an_array', NEST + 'reduce V sum h[ 002 ]', 'line 3: Unknown h[2]'),
    Case('path_past_a_leaf', NEST + 'reduce V sum pos . x . y', 'line 3: Unknown pos.x.y'),
    Case('path_with_an_element_of_a_leaf', NEST + 'reduce V sum pos.x[0]', 'line 3: Unknown pos.x[0]'),
    Case('path_with_a_field_of_an_array', NEST + 'reduce V sum c.y', 'line 3: Unknown c.y'),
    Case('path_of_a_great_element', NEST + 'set V[0].c[4294967295].y = 1', 'line 3: Unknown c[4294967295].y'),
    Case('path_of_a_view', NEST + 'set V[0].V = 1', 'line 3: Unknown V'),
    Case('twice_before_the_faults_of_rows', BOTH + 'update V where 1/0 set a = 1/0, a = 1', 'line 3: Twice a'),
    Case('twice_tells_the_first_second_time', BOTH + 'update V set a = 1, b = 1, b = 2, a = 2', 'line 3: Twice b'),
    Case('twice_an_element', NEST + 'update V set h[0] = 1, h[1] = 1, c[1].y = 2, h[00] = 3', 'line 3: Twice h[0]'),
    Case('twice_without_a_row', PAIR + 'view V : P [0] as soa(multi, row) | update V set b = 1, b = 1', 'line 3: Twice b'),
]

RECORDS = [
    Case('record_too_deep_before_a_name_twice', f'record P {{ {NESTED} }}', 'line 1: BadRecord TooDeep'),
    Case('record_name_twice_before_an_array_of_none', 'record P { a:u8[0], b { c:u8, c:u8 } }', 'line 1: BadRecord Twice'),
    Case('record_array_of_none_before_too_many_leaves', 'record P { a:u8[65], b:u8[0] }', 'line 1: BadRecord NoElements'),
    Case('record_array_of_none_in_a_great_array', 'record P { a:u8[4294967295][0][4294967295] }', 'line 1: BadRecord NoElements'),
    Case('record_name_twice_at_its_top', 'record P { a:u8, b:u8, a:i64 }', 'line 1: BadRecord Twice'),
    Case('record_name_twice_as_leaf_and_record', 'record P { a:u8, a { b:u8 } }', 'line 1: BadRecord Twice'),
    Case('record_name_twice_in_an_array', 'record P { a { b:u8, b:u8 }[2] }', 'line 1: BadRecord Twice'),
    Case('record_too_many_leaves_by_an_array', 'record P { a:u8[65] }', 'line 1: BadRecord TooManyLeaves'),
    Case('record_too_many_leaves_by_arrays_of_arrays', 'record P { a:u8[8][8], b:u8 }', 'line 1: BadRecord TooManyLeaves'),
    Case('record_too_many_leaves_past_64_bits', 'record P { a:u8[4294967295][4294967295][4294967295][4294967295][4294967295] }',
         'line 1: BadRecord TooManyLeaves'),
    Case('record_refused_is_the_end', 'record P { a:u8[0] } | print P', 'line 1: BadRecord NoElements'),
]

EXTENTS = [
    Case('view_rank_before_its_rows', PAIR + 'view V : P [4294967295, 4294967295, 1, 1, 1] as aosoa(0, row)', 'line 2: BadExtents Rank'),
    Case('load_rank_before_two_rows', PAIR + load('[?, ?, 0, 1, 1]'), 'line 2: BadExtents Rank'),
    Case('load_two_rows_before_rows_beside_zero', PAIR + load('[?, 0, ?]'), 'line 2: BadExtents TwoRows'),
    Case('load_two_rows_before_its_file', PAIR + load('[?, ?]'), 'line 2: BadExtents TwoRows'),
    Case('load_rows_beside_zero_before_its_file', PAIR + load('[0, ?]'), 'line 2: BadExtents RowsBesideZero'),
    Case('load_rank_before_its_lanes', PAIR + load('[?, 1, 1, 1, 1]', 'aosoa(65, row)'), 'line 2: BadExtents Rank', ROWS),
    Case('set_bad_index_before_its_value', BOTH + 'set V[3].a = 1/0', 'line 3: BadIndex'),
    Case('set_bad_index_before_its_range', BOTH + 'set V[4294967295].a = 300', 'line 3: BadIndex'),
    Case('set_index_of_too_great_a_rank', BOTH + 'set V[0, 0].a = 1', 'line 3: BadIndex'),
    Case('set_index_of_five_dimensions', BOTH + 'set V[0, 0, 0, 0, 0].a = 1', 'line 3: BadIndex'),
    Case('set_index_of_too_small_a_rank', PAIR + 'view V : P [2, 3] as soa(multi, row) | set V[1].a = 1', 'line 3: BadIndex'),
    Case('set_index_past_the_last_dimension', PAIR + 'view V : P [2, 3] as soa(multi, row) | set V[0, 3].a = 1', 'line 3: BadIndex'),
    Case('set_index_past_the_first_dimension', PAIR + 'view V : P [2, 3] as soa(multi, row) | set V[2, 0].a = 1', 'line 3: BadIndex'),
    Case('set_index_of_a_view_of_no_row', PAIR + 'view V : P [0] as soa(multi, row) | set V[0].a = 1', 'line 3: BadIndex'),
    Case('bytes_bad_blob_of_a_big_view', PAIR + 'view V : P [16384] as aos(packed, row) | bytes V 1', 'line 3: BadIndex'),
    Case('bytes_big_view', PAIR + 'view V : P [16384] as aos(packed, row) | bytes V 0', 'line 3: TooBig'),
    Case('bytes_greatest_blob', PAIR + 'view V : P [1] as soa(multi, row) | bytes V 2 | print V', 'line 3: BadIndex'),
    Case('bytes_blob_of_the_greatest_number', PAIR + 'view V : P [1] as soa(multi, row) | bytes V 4294967295', 'line 3: BadIndex'),
]

BROKEN = b'z,a\n1\n'
DATASETS = [
    Case('load_missing_file_before_its_lanes', PAIR + load('[5]', 'aosoa(0, row)'), 'line 2: cannot read d.csv'),
    Case('load_missing_file_in_a_missing_folder', PAIR + load('[?]', file='none/d.csv'), 'line 2: cannot read none/d.csv'),
    Case('load_a_folder', PAIR + load('[?]', file='.'), 'line 2: cannot read .'),
    Case('load_a_missing_file_after_output', BOTH + 'print V | ' + load('[?]', name='W'), '.. | line 4: cannot read d.csv'),
    Case('load_not_divisible_before_its_lanes', PAIR + load('[?, 2]', 'aosoa(0, row)'), 'line 2: BadExtents NotDivisible', b'a,b\n1\n2\n3\n'),
    Case('load_not_equal_before_its_lanes', PAIR + load('[2]', 'aosoa(0, row)'), 'line 2: BadExtents NotEqual', BROKEN),
    Case('load_not_equal_before_too_many', PAIR + load('[4097, 4097]', 'aosoa(0, row)'), 'line 2: BadExtents NotEqual', BROKEN),
    Case('load_not_equal_before_a_missing_column', PAIR + load('[2]'), 'line 2: BadExtents NotEqual', BROKEN),
    Case('load_not_equal_without_a_record', PAIR + load('[1]'), 'line 2: BadExtents NotEqual', b''),
    Case('load_not_equal_to_none', PAIR + load('[0]'), 'line 2: BadExtents NotEqual', ROWS),
    Case('load_not_equal_past_64_bits', PAIR + load('[4294967295, 4294967295, 4294967295, 4294967295]'), 'line 2: BadExtents NotEqual', ROWS),
    Case('load_not_divisible_past_64_bits', PAIR + load('[4294967295, 4294967295, ?, 4294967295]'), 'line 2: BadExtents NotDivisible', ROWS),
    Case('load_lanes_before_a_missing_column', PAIR + load('[?]', 'aosoa(0, row)'), 'line 2: BadMapping Lanes', BROKEN),
    Case('load_missing_column_before_a_short_row', LOAD, 'line 2: MissingColumn b', BROKEN),
    Case('view_too_many_before_its_lanes', PAIR + 'view V : P [4097, 4097] as aosoa(0, row)', 'line 2: BadExtents TooMany'),
    Case('view_too_many_past_64_bits', PAIR + 'view V : P [4294967295, 4294967295, 4294967295, 4294967295] as soa(multi, row)',
         'line 2: BadExtents TooMany'),
    Case('view_too_many_that_wraps_to_none', PAIR + 'view V : P [2147483648, 2147483648, 4, 1] as soa(multi, row)', 'line 2: BadExtents TooMany'),
    Case('view_lanes_before_its_size', 'record P { a:u64[64] } | view V : P [16777216] as aosoa(65, row)', 'line 2: BadMapping Lanes'),
    Case('view_too_big', 'record P { a:u64[64] } | view V : P [16777216] as aosoa(64, row)', 'line 2: TooBig'),
    Case('load_too_big_before_a_missing_column', 'record P { a:u64[64] } | load V : P [?] as aos(packed, row) from "d.csv"',
         'line 2: TooBig', make='{ echo z; yes 0 | head -n 524289; } >d.csv\n'),
]

VALUES = [
    Case('load_first_row_with_a_fault', LOAD, 'line 2: Number record 1 leaf b', b'a,b\n1,2\n3,x\n300,4\n'),
    Case('load_first_leaf_with_a_fault', LOAD, 'line 2: Range record 0 leaf a', b'b,a\nx,256\n'),
    Case('load_first_leaf_before_a_short_row', LOAD, 'line 2: Number record 0 leaf a', b'a,b\nx\n'),
    Case('load_short_row_of_the_first_leaf', LOAD, 'line 2: ShortRow record 0 leaf a', b'b,z,a\nx\n'),
    Case('load_fault_in_the_last_row', LOAD, 'line 2: Range record 2 leaf b', b'a,b\n1,2\n3,4\n5,2147483648\n'),
    Case('update_filter_fault_before_the_values', BOTH + 'update V where 1/0 set a = 256', 'line 3: DivideByZero record 0'),
    Case('update_range_of_the_first_before_the_second', BOTH + 'update V set a = 256, b = 1/0', 'line 3: Range record 0 leaf a'),
    Case('update_fault_of_the_first_before_the_range_of_the_second', BOTH + 'update V set a = 1/0, b = 2147483648',
         'line 3: DivideByZero record 0'),
    Case('update_first_row_with_a_fault', BOTH + 'update V set a = 255 + i0, b = 1/(i0 - 2)', 'line 3: Range record 1 leaf a'),
    Case('update_fault_in_an_earlier_row', BOTH + 'update V set a = 254 + i0, b = 1/(i0 - 1)', 'line 3: DivideByZero record 1'),
    Case('update_leaves_out_rows_with_a_fault', BOTH + 'update V where i0 == 0 set a = 1/(1 - i0), b = 5 | print V', 'a,b | 1,5 | 0,0 | 0,0'),
    Case('update_filter_fault_in_a_later_row', BOTH + 'update V where 4/(2 - i0) set a = 1', 'line 3: DivideByZero record 2'),
    Case('update_below_the_range', BOTH + 'update V set a = -i0', 'line 3: Range record 1 leaf a'),
    Case('update_row_of_two_dimensions', 'record P { a:i8 } | view V : P [2, 3] as soa(multi, col) | update V set a = 1/(i0 * i1 - 1)',
         'line 3: DivideByZero record 4'),
    Case('set_fault_at_its_row', 'record P { a:u8 } | view V : P [2, 3] as aos(packed, col) | set V[1, 1].a = 1/a', 'line 3: DivideByZero record 4'),
    Case('set_range_at_its_row', 'record P { a:u8 } | view V : P [2, 3] as aos(packed, col) | set V[1, 0].a = 256', 'line 3: Range record 3 leaf a'),
    Case('set_overflow_at_its_row', BOTH + 'set V[2].b = 170141183460469231731687303715884105727 + 1', 'line 3: Overflow record 2'),
    Case('set_fault_before_its_range', BOTH + 'set V[2].a = 300 + 1/0', 'line 3: DivideByZero record 2'),
    Case('reduce_count_fault_at_its_row', BOTH + 'reduce V count where 1/(i0 - 1)', 'line 3: DivideByZero record 1'),
    Case('reduce_min_of_no_row', PAIR + 'view V : P [0] as soa(multi, row) | reduce V min a', 'line 3: Empty'),
    Case('reduce_max_of_no_row', PAIR + 'view V : P [2, 0] as soa(multi, row) | reduce V max a', 'line 3: Empty'),
    Case('set_range_of_a_flag', 'record P { f:bool } | view V : P [2] as soa(multi, row) | set V[1].f = 2', 'line 3: Range record 1 leaf f'),
    Case('set_range_below_a_flag', 'record P { f:bool } | view V : P [2] as soa(multi, row) | set V[1].f = -1', 'line 3: Range record 1 leaf f'),
    Case('set_range_of_an_element', 'record P { c { x:i8 }[2] } | view V : P [2] as soa(multi, row) | set V[1].c[1].x = 128',
         'line 3: Range record 1 leaf c[1].x'),
]

EDGES = [('u8', 0, 255), ('u16', 0, 65535), ('u32', 0, 4294967295), ('u64', 0, 18446744073709551615), ('i8', -128, 127),
         ('i16', -32768, 32767), ('i32', -2147483648, 2147483647), ('i64', -9223372036854775808, 9223372036854775807)]


def past(kind, which, value):
    return Case(f'set_{kind}_{which}', f'record P {{ x:{kind} }} | view V : P [1] as aosoa(2, row) | set V[0].x = {value}',
                'line 3: Range record 0 leaf x')


RANGES = [case for kind, least, greatest in EDGES
          for case in (past(kind, 'below_its_range', least - 1), past(kind, 'above_its_range', greatest + 1))]

CASES = LINES + NAMES + PATHS + RECORDS + EXTENTS + DATASETS + VALUES + RANGES
