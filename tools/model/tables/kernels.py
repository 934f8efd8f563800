"""Kernels: what each stores or gives, at the edges of types, over no row and many, and what refuses it."""
from .case import BOTH, Case, PAIR

# y is 75 84 91 96 99 100 99 96 91 84 75 64 51 36 19 0 -21 over 17 rows
CURVE = '100 - (i0 - 5) * (i0 - 5)'
VIEWS = ('record P { x:i16, y:i32 } | ' + ''.join(f'view V{rows} : P [{rows}] as aosoa(4, row) | update V{rows} set x = i0, y = {CURVE} | ' for rows in (17, 1, 0)))
LANES = (1, 2, 4, 8, 16)


def on_each(kern, lanes, behind=''):
    """The kernel on 17 rows, on one and on none, and each time what follows."""
    return VIEWS + ' | '.join(f'kernel V{rows} {kern} lanes {lanes}' + (f' | {behind.replace("V", f"V{rows}")}' if behind else '') for rows in (17, 1, 0))


ROWS = [case for lanes in LANES for case in (
    Case(f'kernel_sum_by_{lanes}', on_each('sum(y)', lanes), '1139 | 75 | 0'),
    Case(f'kernel_least_by_{lanes}', on_each('least(y)', lanes), '-21 | 75 | line 10: Empty'),
    Case(f'kernel_greatest_by_{lanes}', on_each('greatest(y)', lanes), '100 | 75 | line 10: Empty'),
    Case(f'kernel_count_where_by_{lanes}', on_each('count_where(y >= 75)', lanes), '11 | 1 | 0'),
    Case(f'kernel_axpy_by_{lanes}', on_each('axpy(-2, x, y)', lanes, f'reduce V sum y | reduce V count where y == {CURVE} - 2 * i0'), '867 | 17 | 75 | 1 | 0 | 0'),
    Case(f'kernel_clamp_by_{lanes}', on_each('clamp(y, 0, 99)', lanes, f'reduce V sum y | reduce V count where y == min(max({CURVE}, 0), 99)'),
         '1159 | 17 | 75 | 1 | 0 | 0'),
)]

# x is 4294967295 4294967294 .. 4294967277 over 19 rows; below 4294967290 lie the last 13
FIELDS = 'record P { x:u32 } | view V : P [19] as bitsoa(32, row) | update V set x = 4294967295 - i0 | '


# over 22 rows x is 1, and y 200, but for 1 and 100 in record 10, and 500 and 100 in record 13, which stands in a block for each number of lanes
def faults(form):
    return f'record P {{ x:u16, y:u8 }} | view V : P [22] as {form} | update V set x = 1, y = 200 | set V[10].y = 100 | set V[13].x = 500 | set V[13].y = 100 | '


BLOCKS = [case for lanes in LANES for case in (
    Case(f'kernel_numbers_of_fields_by_{lanes}', FIELDS + f'kernel V sum(x) lanes {lanes} | kernel V least(x) lanes {lanes} | kernel V count_where(x < 4294967290) lanes {lanes}',
         '81604378434 | 4294967277 | 13'),
    Case(f'kernel_axpy_up_to_a_fault_by_{lanes}', faults('aosoa(4, row)') + f'kernel V axpy(55, x, y) lanes {lanes} | print V', 'line 7: Range record 13 leaf y'),
    Case(f'kernel_axpy_of_a_counted_view_up_to_a_fault_by_{lanes}', faults('count(heat(1, soa(multi, row)))') + f'kernel V axpy(55, x, y) lanes {lanes} | counts V',
         'line 7: Range record 13 leaf y'),
    Case(f'kernel_axpy_up_to_what_is_not_held_by_{lanes}', faults('bitaos(9, row)') + f'kernel V clamp(x, 0, 511) lanes {lanes} | kernel V axpy(1, y, x) lanes {lanes} | print V',
         'line 8: Narrow record 13 leaf x'),
    Case(f'kernel_clamp_of_each_row_by_{lanes}', faults('aosoa(4, row)') + f'kernel V clamp(y, 0, 255) lanes {lanes} | kernel V sum(y) lanes {lanes} | kernel V clamp(x, -1, 200) lanes {lanes} | '
         f'kernel V sum(x) lanes {lanes} | kernel V clamp(y, 256, 300) lanes {lanes}', '4200 | 221 | line 11: Range record 0 leaf y'),
)]

SMALL = [('bool', 0, 1), ('u8', 0, 255), ('u16', 0, 65535), ('u32', 0, 4294967295), ('i8', -128, 127), ('i16', -32768, 32767), ('i32', -2147483648, 2147483647)]


def two(kind):
    return f'record P {{ x:{kind}, y:{kind} }} | view V : P [2] as soa(multi, row) | '


def edges(kind, least, greatest):
    ends = f'set V[0].y = {least} | set V[1].y = {greatest} | '
    return [
        Case(f'kernel_axpy_up_to_the_greatest_{kind}', two(kind) + f'update V set x = 1, y = {greatest - 1} | kernel V axpy(1, x, y) lanes 2 | print V | '
             'kernel V axpy(1, x, y) lanes 2', f'x,y | 1,{greatest} | 1,{greatest} | line 6: Range record 0 leaf y'),
        Case(f'kernel_axpy_down_to_the_least_{kind}', two(kind) + f'update V set x = 1, y = {least + 1} | kernel V axpy(-1, x, y) lanes 2 | print V | '
             'kernel V axpy(-1, x, y) lanes 2', f'x,y | 1,{least} | 1,{least} | line 6: Range record 0 leaf y'),
        Case(f'kernel_numbers_of_the_least_and_the_greatest_{kind}', two(kind) + ends + 'kernel V sum(y) lanes 2 | kernel V least(y) lanes 1 | '
             f'kernel V greatest(y) lanes 4 | kernel V count_where(y == {greatest}) lanes 8 | kernel V count_where(y < {greatest}) lanes 16 | '
             f'kernel V count_where(y <= {least}) lanes 2', f'{least + greatest} | {least} | {greatest} | 1 | 1 | 1'),
        Case(f'kernel_clamp_to_all_of_{kind}', two(kind) + ends + f'kernel V clamp(y, {least}, {greatest}) lanes 4 | print V', f'x,y | 0,{least} | 0,{greatest}'),
        Case(f'kernel_clamp_to_the_greatest_{kind}', two(kind) + ends + f'kernel V clamp(y, {greatest}, {greatest}) lanes 4 | print V', f'x,y | 0,{greatest} | 0,{greatest}'),
        Case(f'kernel_clamp_to_the_least_{kind}', two(kind) + ends + f'kernel V clamp(y, {least}, {least}) lanes 4 | print V', f'x,y | 0,{least} | 0,{least}'),
    ] + [Case(f'kernel_clamp_below_the_least_{kind}', two(kind) + ends + f'kernel V clamp(y, {least - 1}, {least - 1}) lanes 4', 'line 5: Range record 0 leaf y')
         for _ in range(least > -2 ** 31)] + [
        Case(f'kernel_clamp_above_the_greatest_{kind}', two(kind) + ends + f'kernel V clamp(y, {greatest}, {greatest + 1}) lanes 4 | kernel V clamp(y, {greatest + 1}, {greatest + 1}) lanes 4',
             'line 6: Range record 0 leaf y') for _ in range(greatest < 2 ** 32 - 1)]


EDGES = [case for kind, least, greatest in SMALL for case in edges(kind, least, greatest)]

WORKED = 'record P { x:i32, y:i32 } | view V : P [5] as aosoa(2, row) | update V set x = i0, y = 10 | '
FIVE = 'record P { x:i16, y:i16, z:u8 } | view V : P [5] as aos(packed, row) | update V set x = 3 * i0 - 6, y = i0, z = 9 | '
GREAT = 'record P { x:u32, y:i32 } | view V : P [3] as soa(multi, row) | update V set x = 4294967295 | '
DOES = [
    Case('kernels_one_after_the_other', WORKED + 'kernel V axpy(-3, x, y) lanes 4 | kernel V sum(y) lanes 2 | kernel V least(y) lanes 8 | kernel V clamp(y, 0, 5) lanes 16 | '
         'kernel V count_where(y >= 4) lanes 1 | print V | kernel V axpy(2147483647, x, y) lanes 4',
         '20 | -2 | 3 | x,y | 0,5 | 1,5 | 2,4 | 3,1 | 4,0 | line 10: Range record 1 leaf y'),
    Case('kernel_axpy_by_0', FIVE + 'kernel V axpy(0, x, y) lanes 4 | print V', 'x,y,z | -6,0,9 | -3,1,9 | 0,2,9 | 3,3,9 | 6,4,9'),
    Case('kernel_axpy_by_minus_0', FIVE + 'kernel V axpy(-0, x, y) lanes 004 | reduce V sum y', '10'),
    Case('kernel_axpy_into_the_leaf_that_it_reads', FIVE + 'kernel V axpy(2, x, x) lanes 4 | print V', 'x,y,z | -18,0,9 | -9,1,9 | 0,2,9 | 9,3,9 | 18,4,9'),
    Case('kernel_axpy_into_the_leaf_that_it_reads_by_minus_1', FIVE + 'kernel V axpy(-1, x, x) lanes 2 | print V', 'x,y,z | 0,0,9 | 0,1,9 | 0,2,9 | 0,3,9 | 0,4,9'),
    Case('kernel_axpy_into_the_leaf_that_it_reads_past_its_range', FIVE + 'kernel V axpy(10000, x, x) lanes 2', 'line 4: Range record 0 leaf x'),
    Case('kernel_axpy_of_another_type', FIVE + 'kernel V axpy(1, z, x) lanes 8 | kernel V axpy(-1, y, z) lanes 8 | print V', 'x,y,z | 3,0,9 | 6,1,8 | 9,2,7 | 12,3,6 | 15,4,5'),
    Case('kernel_axpy_by_the_least_factor', GREAT + 'update V set x = 1, y = 0 | kernel V axpy(-2147483648, x, y) lanes 1 | kernel V sum(y) lanes 1', '-6442450944'),
    Case('kernel_axpy_by_the_greatest_factor', GREAT + 'update V set x = 1, y = 0 | kernel V axpy(2147483647, x, y) lanes 1 | kernel V sum(y) lanes 1', '6442450941'),
    Case('kernel_axpy_of_the_greatest_product', GREAT + 'kernel V axpy(2147483647, x, y) lanes 16', 'line 4: Range record 0 leaf y'),
    Case('kernel_axpy_of_the_least_product', GREAT + 'kernel V axpy(-2147483648, x, y) lanes 16', 'line 4: Range record 0 leaf y'),
    Case('kernel_axpy_of_a_product_that_wraps_to_0', 'record P { x:i32, y:i32 } | view V : P [3] as soa(multi, row) | set V[1].x = -2147483648 | '
         'kernel V axpy(-2147483648, x, y) lanes 2', 'line 4: Range record 1 leaf y'),
    Case('kernel_clamp_inside_its_bounds', FIVE + 'kernel V clamp(x, -6, 6) lanes 4 | print V', 'x,y,z | -6,0,9 | -3,1,9 | 0,2,9 | 3,3,9 | 6,4,9'),
    Case('kernel_clamp_between_its_bounds', FIVE + 'kernel V clamp(x, -4, 2) lanes 4 | print V', 'x,y,z | -4,0,9 | -3,1,9 | 0,2,9 | 2,3,9 | 2,4,9'),
    Case('kernel_clamp_to_one_number', FIVE + 'kernel V clamp(x, 2, 2) lanes 4 | print V', 'x,y,z | 2,0,9 | 2,1,9 | 2,2,9 | 2,3,9 | 2,4,9'),
    Case('kernel_clamp_by_the_widest_bounds', FIVE + 'kernel V clamp(x, -2147483648, 4294967295) lanes 4 | reduce V sum x', '0'),
    Case('kernel_clamp_past_the_range_in_a_later_row', FIVE + 'kernel V clamp(z, 0, 300) lanes 4 | update V set y = 300 * (i0 == 3) | kernel V clamp(y, -1, 0) lanes 1 | '
         'kernel V sum(y) lanes 1 | set V[3].x = -7 | kernel V clamp(x, -40000, 0) lanes 2 | kernel V sum(x) lanes 2', '0 | -16'),
    Case('kernel_numbers_of_one_leaf_alone', FIVE + 'kernel V sum(z) lanes 4 | kernel V least(x) lanes 4 | kernel V greatest(x) lanes 4 | kernel V sum(x) lanes 4', '45 | -6 | 6 | 0'),
    Case('kernel_sum_past_32_bits', GREAT + 'kernel V sum(x) lanes 2', '12884901885'),
    Case('kernel_sum_of_65536_rows', 'record P { x:u32, y:i32 } | view V : P [65536] as soa(multi, row) | update V set x = 4294967295, y = -2147483648 | '
         'kernel V sum(x) lanes 16 | kernel V sum(y) lanes 8', '281474976645120 | -140737488355328'),
    Case('kernel_least_and_greatest_below_0', FIVE + 'update V set x = -5 - i0 | kernel V least(x) lanes 2 | kernel V greatest(x) lanes 2', '-9 | -5'),
    Case('kernel_count_where_by_each_comparison', FIVE + ' | '.join(f'kernel V count_where(x {sign} 3) lanes 2' for sign in ('==', '!=', '<', '<=', '>', '>=')),
         '1 | 4 | 3 | 4 | 1 | 2'),
    Case('kernel_count_where_below_0', FIVE + ' | '.join(f'kernel V count_where(x {sign} -3) lanes 4' for sign in ('==', '!=', '<', '<=', '>', '>=')),
         '1 | 4 | 1 | 2 | 3 | 4'),
    Case('kernel_count_where_at_the_widest_constants', GREAT + 'kernel V count_where(x == 4294967295) lanes 2 | kernel V count_where(y > -2147483648) lanes 2 | '
         'kernel V count_where(y < 4294967295) lanes 2', '3 | 3 | 3'),
    Case('kernel_stores_leave_what_they_do_not_name', FIVE + 'kernel V axpy(1, x, y) lanes 4 | kernel V clamp(y, 0, 3) lanes 4 | print V',
         'x,y,z | -6,0,9 | -3,0,9 | 0,2,9 | 3,3,9 | 6,3,9'),
    Case('kernel_numbers_leave_the_table', FIVE + 'kernel V sum(x) lanes 4 | kernel V count_where(x < 0) lanes 4 | print V',
         '0 | 2 | x,y,z | -6,0,9 | -3,1,9 | 0,2,9 | 3,3,9 | 6,4,9'),
    Case('kernel_of_leaves_in_records_and_arrays', 'record P { pos { x:i8, y:i8 }, h:i8[2] } | view V : P [2] as aos(aligned, row) | update V set pos.y = i0 + 1, h[1] = 5 | '
         'kernel V axpy(3, pos.y, h[1]) lanes 4 | kernel V sum(h[ 01 ]) lanes 2 | kernel V least(pos . y) lanes 2 | print V', '19 | 1 | pos.x,pos.y,h[0],h[1] | 0,1,0,8 | 0,2,0,11'),
    Case('kernel_of_names_that_are_words', 'record kernel { sum:u8, axpy:u8, lanes:u8 } | view lanes : kernel [1] as soa(multi, row) | set lanes[0].sum = 4 | '
         'kernel lanes axpy(2, sum, axpy) lanes 1 | kernel lanes sum(axpy) lanes 2 | kernel lanes least(lanes) lanes 4', '8 | 0'),
    Case('kernel_in_row_order_names_the_row', 'record P { x:u8, y:u8 } | view V : P [2, 3] as aosoa(2, row) | update V set x = i0 * (i1 == 1) | kernel V axpy(256, x, y) lanes 2',
         'line 4: Range record 4 leaf y'),
    Case('kernel_in_column_order_names_the_row', 'record P { x:u8, y:u8 } | view V : P [2, 3] as aosoa(2, col) | update V set x = i0 * (i1 == 1) | kernel V axpy(256, x, y) lanes 2',
         'line 4: Range record 4 leaf y'),
    Case('kernel_in_column_order_takes_rows_in_their_order', 'record P { x:u8, y:u8 } | view V : P [2, 2] as soa(multi, col) | update V set x = i0 != i1 | '
         'kernel V axpy(256, x, y) lanes 4', 'line 4: Range record 1 leaf y'),
    Case('kernel_fault_in_the_last_row', 'record P { x:u8, y:u8 } | view V : P [17] as soa(multi, row) | set V[16].x = 1 | kernel V axpy(-1, x, y) lanes 16', 'line 4: Range record 16 leaf y'),
    Case('kernel_fault_in_the_middle_of_a_block', 'record P { x:u8, y:u8 } | view V : P [17] as soa(multi, row) | update V where i0 == 5 or i0 == 9 set x = 1 | '
         'kernel V axpy(256, x, y) lanes 8', 'line 4: Range record 5 leaf y'),
    Case('kernel_of_a_loaded_table', PAIR + 'load V : P [?] as aosoa(2, row) from "d.csv" | kernel V axpy(10, a, b) lanes 2 | print V', 'a,b | 1,15 | 2,14 | 3,37',
         b'b,a\n5,1\n-6,2\n7,3\n'),
]

FORMS = ['aos(packed, {})', 'aos(aligned, {})', 'aos(min, {})', 'soa(single, {})', 'soa(aligned, {})', 'soa(multi, {})', 'aosoa(2, {})', 'aosoa(8, {})',
         'split(x, soa(multi, {}), aos(packed, {}))', 'split(y, aosoa(4, {}), split(x, aos(min, {}), soa(single, {})))']
RUNS = ('kernel V axpy(-3, x, y) lanes 4 | kernel V sum(y) lanes 2 | kernel V least(y) lanes 8 | kernel V greatest(x) lanes 1 | kernel V clamp(y, 0, 5) lanes 16 | '
        'kernel V count_where(y > 3) lanes 2 | print V | kernel V axpy(-1, y, z) lanes 4')
LAID = [Case(f'kernels_over_{"_".join(form.replace("{}", order).replace("(", " ").replace(")", " ").replace(",", " ").split())}',
             f'record P {{ x:i16, y:i32, z:u8 }} | view V : P [2, 3] as {form.replace("{}", order)} | update V set x = 3 * i0 + i1, y = 10, z = 4 | {RUNS}',
             '15 | -5 | 5 | 3 | x,y,z | 0,5,4 | 1,5,4 | 2,4,4 | 3,1,4 | 4,0,4 | 5,0,4 | line 11: Range record 0 leaf z')
        for form in FORMS for order in ('row', 'col')]

WIDE = 'record P { x:u64, y:i64, a:u8 } | view V : P [2] as soa(multi, row) | '
NONE = 'record P { x:u64, a:u8 } | view V : P [0] as soa(multi, row) | '


def bad(name, start, kern, fault, lanes=4):
    return Case(f'kernel_{name}', start + f'kernel V {kern} lanes {lanes}', f'line {start.count(" | ") + 1}: {fault}')


PAST = 2 ** 31
REFUSED = [
    Case('kernel_line_too_long_before_its_syntax', 'kernel V sum(a) #'.ljust(4097, '#'), 'line 1: LineTooLong'),
    bad('syntax_before_its_view', '', 'total(z)', 'Syntax column 10', 3),
    bad('unknown_view_before_its_path', PAIR, 'sum(z)', 'Unknown V', 3),
    bad('unknown_x_before_y', BOTH, f'axpy({PAST}, z, w)', 'Unknown z', 3),
    bad('unknown_y_before_its_lanes', WIDE, f'axpy({PAST}, x, w)', 'Unknown w', 3),
    bad('unknown_path_of_clamp_before_its_lanes', BOTH, 'clamp(z, 5, 4)', 'Unknown z', 3),
    bad('unknown_path_of_sum_before_its_lanes', BOTH, 'sum(a.b)', 'Unknown a.b', 3),
    bad('unknown_path_of_least_before_its_lanes', NONE, 'least(z)', 'Unknown z', 3),
    bad('unknown_path_of_greatest_before_its_lanes', NONE, 'greatest(a[0])', 'Unknown a[0]', 3),
    bad('unknown_path_of_count_where_before_its_lanes', BOTH, f'count_where(z > {2 ** 32})', 'Unknown z', 3),
    bad('lanes_before_a_wide_leaf', WIDE, f'axpy({PAST}, x, y)', 'BadKernel Lanes', 3),
    bad('lanes_of_least_before_an_empty_view', NONE, 'least(x)', 'BadKernel Lanes', 0),
    bad('lanes_of_0', BOTH, 'sum(a)', 'BadKernel Lanes', 0), bad('lanes_of_3', BOTH, 'sum(a)', 'BadKernel Lanes', 3), bad('lanes_of_6', BOTH, 'sum(a)', 'BadKernel Lanes', 6),
    bad('lanes_of_12', BOTH, 'clamp(a, 5, 4)', 'BadKernel Lanes', 12), bad('lanes_of_15', BOTH, 'sum(a)', 'BadKernel Lanes', 15), bad('lanes_of_17', BOTH, 'sum(a)', 'BadKernel Lanes', 17),
    bad('lanes_of_32', BOTH, f'axpy({PAST}, a, b)', 'BadKernel Lanes', 32), bad('lanes_of_the_greatest_number', BOTH, 'sum(a)', 'BadKernel Lanes', 4294967295),
    bad('wide_x_before_its_constant', WIDE, f'axpy({PAST}, x, a)', 'BadKernel Wide'), bad('wide_y_before_its_constant', WIDE, f'axpy({PAST}, a, y)', 'BadKernel Wide'),
    bad('wide_leaf_of_clamp_before_its_bounds', WIDE, 'clamp(y, 5, 4)', 'BadKernel Wide'), bad('wide_leaf_of_sum', WIDE, 'sum(x)', 'BadKernel Wide'),
    bad('wide_leaf_of_least_before_an_empty_view', NONE, 'least(x)', 'BadKernel Wide'), bad('wide_leaf_of_greatest_before_an_empty_view', NONE, 'greatest(x)', 'BadKernel Wide'),
    bad('wide_leaf_of_count_where_before_its_constant', WIDE, f'count_where(y == {2 ** 32})', 'BadKernel Wide'),
    bad('factor_past_its_greatest', BOTH, f'axpy({PAST}, a, b)', 'BadKernel Constant'), bad('factor_below_its_least', BOTH, f'axpy({-PAST - 1}, a, b)', 'BadKernel Constant'),
    bad('factor_of_127_bits', BOTH, f'axpy({2 ** 127 - 1}, a, b)', 'BadKernel Constant'), bad('factor_of_127_bits_below_0', BOTH, f'axpy({1 - 2 ** 127}, a, b)', 'BadKernel Constant'),
    bad('factor_past_127_bits', BOTH, f'axpy({2 ** 127}, a, b)', 'Syntax column 15'), bad('factor_that_wraps_to_1', BOTH, f'axpy({2 ** 64 + 1}, a, b)', 'BadKernel Constant'),
    bad('lower_bound_below_its_least', BOTH, f'clamp(b, {-PAST - 1}, 0)', 'BadKernel Constant'), bad('lower_bound_past_its_greatest', BOTH, f'clamp(b, {2 ** 32}, {2 ** 32})', 'BadKernel Constant'),
    bad('upper_bound_past_its_greatest', BOTH, f'clamp(b, 0, {2 ** 32})', 'BadKernel Constant'), bad('upper_bound_below_its_least', BOTH, f'clamp(b, {-PAST - 1}, {-PAST - 1})', 'BadKernel Constant'),
    bad('bounds_in_the_wrong_order', BOTH, 'clamp(b, 5, 4)', 'BadKernel Constant'), bad('bounds_in_the_wrong_order_below_0', BOTH, 'clamp(b, -4, -5)', 'BadKernel Constant'),
    bad('bounds_in_the_wrong_order_of_no_row', NONE, 'clamp(a, 1, 0)', 'BadKernel Constant'), bad('constant_past_its_greatest', BOTH, f'count_where(b < {2 ** 32})', 'BadKernel Constant'),
    bad('constant_below_its_least', BOTH, f'count_where(b < {-PAST - 1})', 'BadKernel Constant'),
    bad('constant_before_its_range', BOTH + 'update V set a = 255 | ', f'axpy({PAST}, a, a)', 'BadKernel Constant'),
    bad('least_of_no_row', NONE, 'least(a)', 'Empty'), bad('greatest_of_no_row', NONE, 'greatest(a)', 'Empty'),
    bad('least_of_no_row_of_two_dimensions', 'record P { a:u8 } | view V : P [3, 0] as soa(multi, row) | ', 'least(a)', 'Empty'),
]

CASES = ROWS + BLOCKS + EDGES + DOES + LAID + REFUSED
