"""How often each leaf is read and written: after each command, in parts of expressions that are left out, and under each form."""

from .case import BOTH, Case, LOAD, PAIR

HEADER = 'leaf,reads,writes'
COUNTED = PAIR + 'view V : P [3] as count(aos(packed, row)) | '
OTHER = 'view W : P [3] as soa(multi, row) | '
STEPS = 'update V set a = i0 | '
NONE = 'a,b | 0,0 | 0,0 | 0,0 | '


def after(name, commands, of_a, of_b, printed=''):
    """The counts of a view of three rows of zeros after these commands: its reads and writes of a, and those of b."""
    return Case(f'counts_after_{name}', COUNTED + commands + 'counts V', f'{printed}{HEADER} | a,{of_a} | b,{of_b}')


COMMANDS = [
    after('nothing', '', '0,0', '0,0'),
    after('a_set', 'set V[1].a = 5 | ', '0,1', '0,0'),
    after('a_set_that_reads_a_leaf_twice', 'set V[1].a = a + b * a | ', '2,1', '1,0'),
    after('a_set_by_an_index', 'set V[2].b = i0 | ', '0,0', '0,1'),
    after('three_sets', 'set V[0].a = 1 | set V[0].a = 2 | set V[2].a = 3 | ', '0,3', '0,0'),
    after('a_set_of_what_stood', 'set V[0].a = 0 | set V[0].a = a | ', '1,2', '0,0'),
    after('an_update', 'update V set a = i0 | ', '0,3', '0,0'),
    after('an_update_that_reads', 'update V set a = a + 1, b = a | ', '6,3', '0,3'),
    after('an_update_that_exchanges_leaves', 'update V set a = b, b = a | ', '3,3', '3,3'),
    after('an_update_of_one_row', 'update V where i0 == 1 set a = b | ', '0,1', '1,0'),
    after('an_update_of_no_row', 'update V where a set b = 1 | ', '3,0', '0,0'),
    after('an_update_whose_values_are_not_reached', 'update V where 0 set a = a + b, b = a | ', '0,0', '0,0'),
    after('an_update_whose_filter_reads_twice', 'update V where a == 0 and a < 5 set b = a | ', '9,0', '0,3'),
    after('an_update_that_sees_what_was_stored', STEPS + 'update V where a > 0 set a = a - 1 | ', '5,5', '0,0'),
    after('an_update_whose_filter_is_its_leaf', 'update V set a = i0 == 1 | update V where a set a = 0 | ', '3,4', '0,0'),
    after('a_sum', 'reduce V sum a | ', '3,0', '0,0', '0 | '),
    after('a_least_number', 'reduce V min b | ', '0,0', '3,0', '0 | '),
    after('a_greatest_number', 'reduce V max b | ', '0,0', '3,0', '0 | '),
    after('a_count_of_both_leaves', 'reduce V count where a == 0 and b == 0 | ', '3,0', '3,0', '3 | '),
    after('a_count_by_an_index', 'reduce V count where i0 == 1 | ', '0,0', '0,0', '1 | '),
    after('axpy', 'kernel V axpy(2, a, b) lanes 4 | ', '3,0', '3,3'),
    after('axpy_by_16', 'kernel V axpy(2, a, b) lanes 16 | ', '3,0', '3,3'),
    after('axpy_by_1', 'kernel V axpy(2, a, b) lanes 1 | ', '3,0', '3,3'),
    after('axpy_by_0_times', 'kernel V axpy(0, a, b) lanes 2 | ', '3,0', '3,3'),
    after('axpy_into_the_leaf_that_it_reads', 'kernel V axpy(1, a, a) lanes 2 | ', '6,3', '0,0'),
    after('clamp', 'kernel V clamp(b, 1, 5) lanes 8 | ', '0,0', '3,3'),
    after('clamp_that_changes_nothing', 'kernel V clamp(a, 0, 5) lanes 2 | ', '3,3', '0,0'),
    after('the_kernel_sum', 'kernel V sum(b) lanes 2 | ', '0,0', '3,0', '0 | '),
    after('the_kernel_least', 'kernel V least(a) lanes 4 | ', '3,0', '0,0', '0 | '),
    after('the_kernel_greatest', 'kernel V greatest(b) lanes 8 | ', '0,0', '3,0', '0 | '),
    after('the_kernel_count_where', 'kernel V count_where(a < 1) lanes 1 | ', '3,0', '0,0', '3 | '),
    after('print', 'print V | ', '3,0', '3,0', NONE),
    after('print_twice', 'print V | print V | ', '6,0', '6,0', NONE + NONE),
    after('bytes', 'bytes V 0 | ', '0,0', '0,0', '00' + ' 00' * 14 + ' | '),
    after('layout', 'layout V | ', '0,0', '0,0',
          'blob,bit,bits,record,leaf,low | 0,0,8,0,a,0 | 0,8,32,0,b,0 | 0,40,8,1,a,0 | 0,48,32,1,b,0 | 0,80,8,2,a,0 | 0,88,32,2,b,0 | '),
    after('counts', 'set V[0].a = 1 | counts V | ', '0,1', '0,0', f'{HEADER} | a,0,1 | b,0,0 | '),
    after('a_mapping_and_a_record', 'mapping M = count(soa(multi, row)) | record Q { a:u8 } | ', '0,0', '0,0'),
    after('a_drop_and_a_view_of_its_name', 'print V | drop V | view V : P [3] as count(aosoa(2, row)) | ', '0,0', '0,0', NONE),
    after('accesses_of_another_view', 'view W : P [3] as count(soa(multi, row)) | update W set a = b | counts W | ', '0,0', '0,0', f'{HEADER} | a,0,3 | b,3,0 | '),
]

COPIES = [
    after('a_copy_from_it', OTHER + 'copy V to W | ', '3,0', '3,0'),
    after('a_copy_to_it', OTHER + 'copy W to V | ', '0,3', '0,3'),
    after('a_copy_onto_itself', 'copy V to V | ', '3,3', '3,3'),
    after('copies_there_and_back', OTHER + 'copy V to W | copy W to V | ', '3,3', '3,3'),
    after('a_copy_to_another_counted_view', 'view W : P [3] as count(soa(multi, row)) | copy V to W | counts W | ', '3,0', '3,0', f'{HEADER} | a,0,3 | b,0,3 | '),
    after('a_copy_to_a_counted_view_of_its_form', 'view W : P [3] as count(aos(packed, row)) | copy V to W | counts W | ', '3,0', '3,0', f'{HEADER} | a,0,3 | b,0,3 | '),
    after('a_copy_to_a_view_of_its_form', 'view W : P [3] as aos(packed, row) | copy V to W | ', '3,0', '3,0'),
    after('a_copy_from_a_view_of_its_form', 'view W : P [3] as aos(packed, row) | copy W to V | ', '0,3', '0,3'),
    after('a_copy_among_others', 'view W : P [3] as soa(multi, row) | view X : P [3] as aosoa(2, row) | copy W to X | copy X to W | copy W to W | ', '0,0', '0,0'),
    Case('counts_after_copies_between_columns_and_blocks', PAIR + 'view V : P [5] as count(soa(multi, row)) | view W : P [5] as count(aosoa(2, row)) | '
         'copy V to W | copy W to V | copy W to W | counts V | counts W', f'{HEADER} | a,5,5 | b,5,5 | {HEADER} | a,10,10 | b,10,10'),
    Case('counts_after_copies_onto_it_and_a_mismatch', 'record P { a:u8, b:u16 } | view V : P [5] as aosoa(4, row) | update V set a = i0, b = 300 + i0 | '
         'view W : P [5] as count(soa(multi, row)) | copy V to W | copy W to W | print W | counts W | view X : P [4] as aos(packed, row) | copy V to X',
         f'a,b | 0,300 | 1,301 | 2,302 | 3,303 | 4,304 | {HEADER} | a,10,10 | b,10,10 | line 10: Mismatch'),
    after('a_relayout', 'print V | relayout V as count(soa(multi, row)) | ', '0,3', '0,3', NONE),
    after('a_relayout_as_it_is', 'set V[0].a = 1 | relayout V as count(aos(packed, row)) | ', '0,3', '0,3'),
    after('two_relayouts', 'relayout V as count(soa(multi, row)) | relayout V as count(aosoa(2, row)) | ', '0,3', '0,3'),
    after('a_relayout_and_an_update', 'relayout V as count(soa(multi, row)) | update V set a = a + 1 | ', '3,6', '0,3'),
    after('a_relayout_without_counts_and_back', 'print V | relayout V as aos(packed, row) | print V | relayout V as count(soa(multi, row)) | ', '0,3', '0,3', NONE + NONE),
    after('a_relayout_under_heat_too', 'print V | relayout V as heat(4, count(aos(packed, row))) | ', '0,3', '0,3', NONE),
    after('a_relayout_of_another_view', OTHER + 'relayout W as count(aosoa(4, row)) | ', '0,0', '0,0'),
    Case('counts_after_a_relayout_of_a_view_that_was_not_counted', BOTH + 'update V set a = b | relayout V as count(aos(packed, row)) | counts V', f'{HEADER} | a,0,3 | b,0,3'),
]

# a is 0, 1, 2 in the three rows, and b is 0
LEFT_OUT = [
    after('and_left_out_where_its_left_is_0', STEPS + 'reduce V count where a and b | ', '3,3', '2,0', '0 | '),
    after('or_left_out_where_its_left_is_not_0', STEPS + 'reduce V count where a or b | ', '3,3', '1,0', '2 | '),
    after('and_left_out_in_a_chain', STEPS + 'reduce V count where a > 1 and b == 0 and a | ', '4,3', '1,0', '1 | '),
    after('or_left_out_in_a_chain', STEPS + 'reduce V count where a == 0 or a == 1 or b | ', '5,3', '1,0', '2 | '),
    after('and_left_out_below_not', STEPS + 'reduce V count where not (a and b) | ', '3,3', '2,0', '3 | '),
    after('and_left_out_behind_or', STEPS + 'reduce V count where (a or b) and b | ', '3,3', '3,0', '0 | '),
    after('or_left_out_behind_and', STEPS + 'reduce V count where a and b or b == 0 | ', '3,3', '5,0', '3 | '),
    after('and_of_a_number_that_is_0', 'reduce V count where 0 and a | ', '0,0', '0,0', '0 | '),
    after('or_of_a_number_that_is_not_0', 'reduce V count where 7 or a | ', '0,0', '0,0', '3 | '),
    after('and_of_a_number_that_is_not_0', 'reduce V count where -1 and a | ', '3,0', '0,0', '0 | '),
    after('or_of_a_number_that_is_0', 'reduce V count where 0 or a | ', '3,0', '0,0', '0 | '),
    after('and_left_out_by_the_index', 'reduce V count where i0 == 2 and a == 0 | ', '1,0', '0,0', '1 | '),
    after('or_left_out_by_the_index', 'reduce V count where i0 == 2 or a == 0 | ', '2,0', '0,0', '3 | '),
    after('a_division_that_is_left_out', STEPS + 'reduce V count where a != 0 and 2 / a == 1 | ', '5,3', '0,0', '1 | '),
    after('a_set_whose_right_side_is_left_out', 'set V[0].b = a and b | ', '1,0', '0,1'),
    after('a_set_whose_right_side_is_reached', 'set V[0].b = a or b | ', '1,0', '1,1'),
    after('an_update_whose_right_side_is_left_out', STEPS + 'update V set b = a and b | ', '3,3', '2,3'),
    after('an_update_whose_filter_is_left_out_in_part', STEPS + 'update V where a and b == 0 set b = a | ', '5,3', '2,2'),
    after('products_with_0', STEPS + 'reduce V count where 0 * a + b * a | ', '6,3', '3,0', '0 | '),
    after('least_and_greatest_of_two', STEPS + 'reduce V count where min(a, b) < max(a, b) | ', '6,3', '6,0', '2 | '),
    after('comparisons_and_signs', STEPS + 'reduce V count where -a == (not b) - 1 | ', '3,3', '3,0', '1 | '),
]

FORMS = {
    'packed_structs': 'aos(packed, col)', 'aligned_structs': 'aos(aligned, row)', 'least_structs': 'aos(min, morton)', 'one_blob_of_columns': 'soa(single, row)',
    'aligned_columns': 'soa(aligned, col)', 'columns': 'soa(multi, morton)', 'blocks': 'aosoa(3, row)', 'bits': 'bitaos(7, col)', 'bits_by_columns': 'bitsoa(3, row)',
    'a_split': 'split(b, soa(multi, row), aosoa(2, col))', 'bytes_in_reverse_order': 'byteswap(aos(packed, row))', 'bytes_apart': 'bytesplit(soa(multi, row))',
    'bytes_of_bytes': 'bytesplit(byteswap(aos(aligned, morton)))', 'another_type': 'change(i32->i8, aos(packed, row))', 'heat': 'heat(1, bytesplit(soa(multi, row)))',
}
LAID = [Case(f'counts_over_{name}', PAIR + f'view V : P [2, 2] as count({form}) | update V set a = i0 + i1, b = a | reduce V sum a | counts V',
             f'4 | {HEADER} | a,8,4 | b,0,4') for name, form in FORMS.items()]

# each row is read thrice in x and four times in y, and written twice in y; the 17th row of y lies behind 64 bytes
KERNELS = ('kernel V axpy(2, x, y) lanes {0} | kernel V clamp(y, 0, 9) lanes {0} | kernel V sum(x) lanes {0} | kernel V least(y) lanes {0} | kernel V greatest(x) lanes {0} | '
           'kernel V count_where(y > 0) lanes {0} | ')
LANES = [Case(f'counts_after_each_kernel_by_{lanes}', 'record P { x:i16, y:i32 } | view V : P [17] as count(heat(64, soa(multi, row))) | ' + KERNELS.format(lanes) + 'counts V | heat V',
              f'0 | 0 | 0 | 0 | {HEADER} | x,51,0 | y,68,34 | blob,granule,accesses | 0,0,51 | 1,0,96 | 1,1,6') for lanes in (1, 2, 4, 8, 16)]

# two packed records of 7 bytes; the second leaf of the first record lies in bytes 1 to 4, and the last of the second in bytes 12 and 13
CROSSING = 'record P { f0:u8, f1:u32, f2:u16 } | view V : P [2] as count(heat(4, aos(packed, row))) | '


def crossing(name, commands, counts, granules, printed=''):
    due = [HEADER] + [f'f{leaf},{each}' for leaf, each in enumerate(counts)] + ['blob,granule,accesses'] + [f'0,{granule},{times}' for granule, times in granules]
    return Case(f'counts_beside_granules_after_{name}', CROSSING + commands + 'counts V | heat V', printed + ' | '.join(due))


GRANULES = [
    crossing('sets_and_reads', 'set V[0].f1 = 258 | set V[1].f2 = 7 | reduce V count where i0 == 0 and f1 == 258 and f1 > 0 | reduce V count where i0 == 1 and f0 == 0 | ',
             ['1,0', '2,1', '0,1'], [(0, 3), (1, 4), (3, 1)], '1 | 1 | '),
    crossing('a_copy_onto_itself', 'copy V to V | ', ['2,2'] * 3, [(0, 4), (1, 6), (2, 2), (3, 2)]),
    crossing('a_copy_onto_itself_and_one_to_it', 'view W : P [2] as aos(packed, row) | copy V to V | copy W to V | ', ['2,4'] * 3, [(0, 6), (1, 9), (2, 3), (3, 3)]),
]

SAMPLES = b'b,a\n1,2\n3,4\n5,6\n7,8\n'
OTHERS = [
    Case('counts_of_a_loaded_view', PAIR + 'load V : P [?] as count(soa(multi, row)) from "d.csv" | counts V', f'{HEADER} | a,0,4 | b,0,4', SAMPLES),
    Case('counts_of_a_view_loaded_in_two_dimensions', PAIR + 'load V : P [2, ?] as count(bitaos(9, col)) from "d.csv" | print V | counts V',
         f'a,b | 2,1 | 4,3 | 6,5 | 8,7 | {HEADER} | a,4,4 | b,4,4', SAMPLES),
    Case('counts_of_a_view_loaded_without_a_row', PAIR + 'load V : P [?] as count(soa(multi, row)) from "d.csv" | print V | counts V', f'a,b | {HEADER} | a,0,0 | b,0,0', b'a,b\n'),
    Case('counts_of_a_view_of_no_row', PAIR + 'view V : P [2, 0] as count(aos(packed, row)) | update V set a = b | reduce V sum a | kernel V axpy(2, a, b) lanes 4 | '
         'copy V to V | print V | relayout V as count(soa(multi, col)) | counts V', f'0 | a,b | {HEADER} | a,0,0 | b,0,0'),
    Case('counts_of_each_leaf_by_its_path', 'record P { pos { x:i8, y:i8 }, h:u8[2], c { q:u16 }[2] } | view V : P [2] as count(aos(min, row)) | '
         'update V set h[1] = pos.x, c[0].q = h[1] + h[1] | set V[1].c[1].q = c[0].q | counts V',
         f'{HEADER} | pos.x,2,0 | pos.y,0,0 | h[0],0,0 | h[1],4,2 | c[0].q,1,2 | c[1].q,0,1'),
    Case('counts_of_64_leaves', 'record P { a:u8[64] } | view V : P [2] as count(soa(single, row)) | update V set a[63] = a[0] + a[0] | copy V to V | counts V',
         f'{HEADER} | a[0],6,2 | ' + ' | '.join(f'a[{number}],2,2' for number in range(1, 63)) + ' | a[63],2,4'),
    Case('counts_in_four_dimensions', PAIR + 'view V : P [1, 2, 2, 3] as count(aos(packed, morton)) | update V where i1 < i2 set b = b + a | counts V', f'{HEADER} | a,3,0 | b,3,3'),
    Case('counts_of_65536_rows', PAIR + 'view V : P [65536] as count(soa(multi, row)) | update V where i0 % 65536 != 0 set a = 1 | reduce V sum a | counts V',
         f'65535 | {HEADER} | a,65536,65535 | b,0,0'),
    Case('counts_under_heat', PAIR + 'view V : P [3] as heat(64, count(aos(packed, row))) | update V set a = b | counts V', f'{HEADER} | a,0,3 | b,3,0'),
    Case('counts_above_heat', PAIR + 'view V : P [3] as count(heat(64, aos(packed, row))) | update V set a = b | heat V | counts V',
         f'blob,granule,accesses | 0,0,6 | {HEADER} | a,0,3 | b,3,0'),
    Case('counts_by_the_name_of_a_mapping', PAIR + 'mapping N = aos(packed, row) | mapping M = count(N) | view V : P [3] as M | view W : P [3] as heat(4, M) | '
         'set V[0].a = 1 | counts V | counts W', f'{HEADER} | a,0,1 | b,0,0 | {HEADER} | a,0,0 | b,0,0'),
    Case('counts_of_names_that_are_words', 'record counts { heat:u8, layout:u8 } | view heat : counts [1] as count(heat(4, soa(multi, row))) | set heat[0].layout = heat | counts heat | '
         'heat heat | layout heat', f'{HEADER} | heat,1,0 | layout,0,1 | blob,granule,accesses | 0,0,1 | 1,0,1 | blob,bit,bits,record,leaf,low | 0,0,8,0,heat,0 | 1,0,8,0,layout,0'),
    Case('counts_before_a_fault', COUNTED + 'set V[0].a = 1 | counts V | set V[0].a = 256', f'{HEADER} | a,0,1 | b,0,0 | line 5: Range record 0 leaf a'),
    Case('counts_and_blanks', COUNTED + '\tcounts   V # note', f'{HEADER} | a,0,0 | b,0,0'),
]

REFUSED = [
    Case('counts_line_too_long_before_its_syntax', 'counts V W #'.ljust(4097, '#'), 'line 1: LineTooLong'),
    Case('counts_syntax_before_its_view', PAIR + 'counts V 0', 'line 2: Syntax column 10'),
    Case('counts_of_a_view_alone', 'counts', 'line 1: Syntax column 7'),
    Case('counts_unknown_view', PAIR + 'counts V', 'line 2: Unknown V'),
    Case('counts_does_not_know_a_record', BOTH + 'counts P', 'line 3: Unknown P'),
    Case('counts_does_not_know_a_mapping', BOTH + 'mapping M = count(soa(multi, row)) | counts M', 'line 4: Unknown M'),
    Case('counts_does_not_know_a_dropped_view', COUNTED + 'drop V | counts V', 'line 4: Unknown V'),
    Case('counts_not_counted', BOTH + 'counts V', 'line 3: NotCounted'),
    Case('counts_not_counted_without_a_row', PAIR + 'view V : P [0] as soa(multi, row) | counts V', 'line 3: NotCounted'),
    Case('counts_not_counted_by_heat_alone', PAIR + 'view V : P [3] as heat(64, soa(multi, row)) | counts V', 'line 3: NotCounted'),
    Case('counts_not_counted_after_a_relayout', COUNTED + 'relayout V as heat(1, aos(packed, row)) | counts V', 'line 4: NotCounted'),
    Case('counts_not_counted_after_a_copy_from_a_counted_view', COUNTED + OTHER + 'copy V to W | counts W', 'line 5: NotCounted'),
    Case('counts_not_counted_of_a_loaded_view', LOAD + 'counts V', 'line 3: NotCounted', b'a,b\n'),
]

CASES = COMMANDS + COPIES + LEFT_OUT + LAID + LANES + GRANULES + OTHERS + REFUSED
