"""Stencils: what a round makes of a window, what refuses one, and what they count.

Under the forms of a layout and where stencils are thrown, what is printed is worked out by plates.py, and the model must agree.
"""
from .actors import FIVE, IN_ORDERS, ROWS, counters_of
from .bit_fields import TYPES
from .case import Case
from .files import BYTE, due_of, file_of
from .nested import Dice, RECORDS, text_of, thrown_form, written
from .plates import EXTENTS, Plate, stencil_text, thrown_term, thrown_window, window_text
from .tallies import counted_form
from .widths import thrown_widths

TWO = 'version 2 | '
ROD, PAIR = TWO + 'record P { t:i32 } | ', TWO + 'record P { t:u8, u:u8 } | '
FIVE_CELLS = ROD + 'view V : P [5] as aosoa(2, row) | '
HOT = FIVE_CELLS + 'set V[2].t = 16 | '
BYTES = PAIR + 'view V : P [4] as aos(packed, row) | update V set t = 10 * i0, u = i0 | '
MEAN = 'set t = (1 * t at [-1], 2 * t at [0], 1 * t at [1]) / 4'
SQUARE = ROD + 'view V : P [3, 4] as soa(multi, row) | update V set t = 10 * i0 + i1 | '
GREATEST_64 = 2 ** 63 - 1


def case(name, script, due):
    return Case(f'stencil_{name}', script, due)


def column(*values):
    return ' | '.join(['t', *map(str, values)])


def stood(window, what):
    return f'stencil V window {window} {what} | print V'


# what a round makes, by hand

ROUNDS = [case(name, script, due) for name, script, due in [
    ('of_heat_in_a_rod', HOT + f'stencil V window [1 : 4] {MEAN} rounds 2 | print V | print V window [1 : 3]', column(0, 4, 6, 4, 0) + ' | ' + column(4, 6)),
    ('of_one_round', HOT + stood('[1 : 4]', MEAN + ' rounds 1'), column(0, 4, 8, 4, 0)),
    ('of_three_rounds', HOT + stood('[1 : 4]', MEAN + ' rounds 3'), column(0, 3, 5, 3, 0)),
    ('of_no_round', HOT + stood('[1 : 4]', MEAN + ' rounds 0'), column(0, 0, 16, 0, 0)),
    ('of_1000_rounds', HOT + stood('[1 : 4]', 'set t = (1 * t at [0]) / 1 rounds 1000'), column(0, 0, 16, 0, 0)),
    ('of_1000_rounds_that_run', FIVE_CELLS + stood('[1 : 5]', 'set t = (1 * t at [-1]) / 1 rounds 1000 | set V[0].t = 7 | stencil V window [1 : 5] set t = (1 * t at [-1]) / 1 rounds 1000'), column(7, 7, 7, 7, 7)),
    ('that_moves_a_row_on', BYTES + 'stencil V window [1 : 4] set t = (1 * t at [-1]) / 1 rounds 1 | print V', 't,u | 0,0 | 0,1 | 10,2 | 20,3'),
    ('that_moves_a_row_on_twice', BYTES + 'stencil V window [1 : 4] set t = (1 * t at [-1]) / 1 rounds 2 | print V', 't,u | 0,0 | 0,1 | 0,2 | 10,3'),
    ('that_moves_a_row_back', BYTES + 'stencil V window [0 : 3] set t = (1 * t at [1]) / 1 rounds 1 | print V', 't,u | 10,0 | 20,1 | 30,2 | 30,3'),
    ('of_the_whole_table', BYTES + 'stencil V window [0 : 4] set t = (3 * t at [0]) / 1 rounds 1 | print V', 't,u | 0,0 | 30,1 | 60,2 | 90,3'),
    ('of_one_cell', BYTES + 'stencil V window [2 : 3] set t = (1 * t at [-2], 1 * t at [1]) / 1 rounds 1 | print V', 't,u | 0,0 | 10,1 | 30,2 | 30,3'),
    ('of_one_cell_that_doubles', BYTES + 'stencil V window [1 : 2] set t = (2 * t at [0]) / 1 rounds 4 | print V', 't,u | 0,0 | 160,1 | 20,2 | 30,3'),
    ('of_an_empty_window', BYTES + 'stencil V window [2 : 2] set t = (1 * t at [-100], 300 * t at [100]) / 1 rounds 9 | print V', 't,u | 0,0 | 10,1 | 20,2 | 30,3'),
    ('of_an_empty_window_at_the_end', BYTES + 'stencil V window [4 : 4] set t = (1 * t at [1]) / 1 rounds 1 | reduce V sum t', '60'),
    ('of_another_leaf', BYTES + 'stencil V window [0 : 4] set t = (2 * u at [0]) / 1 rounds 1 | print V', 't,u | 0,0 | 2,1 | 4,2 | 6,3'),
    ('of_two_leaves', BYTES + 'stencil V window [1 : 4] set u = (1 * t at [-1], 1 * u at [0]) / 1 rounds 2 | print V', 't,u | 0,0 | 10,1 | 20,22 | 30,43'),
    ('that_adds_a_term_twice', BYTES + 'stencil V window [1 : 2] set t = (1 * t at [1], 1 * t at [1]) / 1 rounds 1 | print V', 't,u | 0,0 | 40,1 | 20,2 | 30,3'),
    ('that_takes_a_term_off', BYTES + 'stencil V window [1 : 4] set t = (1 * t at [0], -1 * t at [-1]) / 1 rounds 1 | print V', 't,u | 0,0 | 10,1 | 10,2 | 10,3'),
    ('of_a_weight_of_0', BYTES + 'stencil V window [0 : 4] set t = (0 * t at [0]) / 7 rounds 1 | print V', 't,u | 0,0 | 0,1 | 0,2 | 0,3'),
    ('that_cuts_toward_0', ROD + 'view V : P [6] as aos(packed, row) | update V set t = 2 * i0 - 5 | stencil V window [0 : 6] set t = (1 * t at [0]) / 2 rounds 1 | print V', column(-2, -1, 0, 0, 1, 2)),
    ('that_cuts_a_sum_and_not_its_terms', BYTES + 'stencil V window [1 : 3] set t = (1 * t at [0], 1 * u at [0]) / 7 rounds 1 | print V', 't,u | 0,0 | 1,1 | 3,2 | 30,3'),
    ('that_cuts_a_sum_below_0', ROD + 'view V : P [3] as aos(packed, row) | update V set t = -7 | stencil V window [1 : 2] set t = (1 * t at [-1], 1 * t at [1], 1 * t at [0]) / 4 rounds 1 | print V', column(-7, -5, -7)),
    ('that_cuts_by_weights_below_0', ROD + 'view V : P [2] as aos(packed, row) | update V set t = 3 | stencil V window [0 : 1] set t = (-1 * t at [0]) / 2 rounds 1 | print V', column(-1, 3)),
    ('in_two_dimensions', SQUARE + 'stencil V window [1 : 2, 1 : 3] set t = (1 * t at [-1, 0], 1 * t at [1, 0], 1 * t at [0, -1], 1 * t at [0, 1]) / 2 rounds 1 | print V',
     column(0, 1, 2, 3, 10, 22, 24, 13, 20, 21, 22, 23)),
    ('in_two_dimensions_by_the_first', SQUARE + 'stencil V window [1 : 3, 0 : 4] set t = (1 * t at [-1, 0]) / 1 rounds 1 | print V', column(0, 1, 2, 3, 0, 1, 2, 3, 10, 11, 12, 13)),
    ('in_two_dimensions_by_the_second', SQUARE + 'stencil V window [0 : 3, 0 : 3] set t = (1 * t at [0, 1]) / 1 rounds 1 | print V', column(1, 2, 3, 3, 11, 12, 13, 13, 21, 22, 23, 23)),
    ('in_two_dimensions_by_both', SQUARE + 'stencil V window [1 : 3, 0 : 3] set t = (1 * t at [-1, 1]) / 1 rounds 2 | print V', column(0, 1, 2, 3, 1, 2, 3, 13, 2, 3, 13, 23)),
    ('in_two_dimensions_of_one_cell', SQUARE + 'stencil V window [2 : 3, 3 : 4] set t = (1 * t at [-2, -3], 100 * t at [0, 0]) / 1 rounds 1 | print V window [2 : 3, 2 : 4]', column(22, 2300)),
    ('in_two_dimensions_of_no_row', SQUARE + 'stencil V window [1 : 1, 0 : 4] set t = (1 * t at [9, -9]) / 1 rounds 1 | reduce V sum t', '138'),
    ('in_two_dimensions_of_no_column', SQUARE + 'stencil V window [0 : 3, 4 : 4] set t = (1 * t at [9, -9]) / 1 rounds 1 | reduce V sum t', '138'),
    ('in_three_dimensions', ROD + 'view V : P [2, 2, 2] as aos(min, morton) | update V set t = 4 * i0 + 2 * i1 + i2 | stencil V window [1 : 2, 0 : 1, 0 : 2] set t = (1 * t at [-1, 1, 0], 10 * t at [0, 0, 0]) / 1 rounds 1 | print V',
     column(0, 1, 2, 3, 42, 53, 6, 7)),
    ('in_four_dimensions', ROD + 'view V : P [2, 1, 2, 2] as bitsoa(9, col) | update V set t = 4 * i0 + 2 * i2 + i3 | stencil V window [0 : 1, 0 : 1, 1 : 2, 0 : 2] set t = (1 * t at [1, 0, -1, 0], 1 * t at [0, 0, 0, 0]) / 1 rounds 3 | print V',
     column(0, 1, 14, 18, 4, 5, 6, 7)),
    ('of_a_truth_value', TWO + 'record P { f:bool } | view V : P [5] as bitaos(1, row) | set V[2].f = 1 | stencil V window [1 : 4] set f = (1 * f at [-1], 1 * f at [0], 1 * f at [1]) / 1 rounds 1 | print V',
     'f | 0 | 1 | 1 | 1 | 0'),
    ('of_an_element_of_an_array', TWO + 'record P { h { t:u8, u:u16 }[2] } | view V : P [2] as aos(packed, row) | set V[0].h[1].u = 500 | stencil V window [1 : 2] set h[0].t = (1 * h[1].u at [-1], 5 * h[01].u at [0]) / 2 rounds 1 | print V',
     'h[0].t,h[0].u,h[1].t,h[1].u | 0,0,0,500 | 250,0,0,0'),
    ('of_great_sums', TWO + f'record P {{ a:i64, b:i64 }} | view V : P [1] as aos(packed, row) | set V[0].a = {GREATEST_64} | stencil V window [0 : 1] set b = ({", ".join(["2147483647 * a at [0]"] * 64)}) / 2147483648 rounds 1',
     'line 5: Range record 0 leaf b'),
    ('of_great_sums_that_cancel', TWO + f'record P {{ a:i64, b:i64 }} | view V : P [1] as aos(packed, row) | set V[0].a = {GREATEST_64} | '
     f'stencil V window [0 : 1] set b = ({", ".join(["2147483647 * a at [0]"] * 32 + ["-2147483647 * a at [0]"] * 31 + ["-2147483646 * a at [0]"])}) / 1 rounds 1 | print V',
     f'a,b | {GREATEST_64},{GREATEST_64}'),
    ('of_the_greatest_divisor', TWO + f'record P {{ a:u64, b:u64 }} | view V : P [1] as aos(packed, row) | set V[0].a = {2 ** 64 - 1} | stencil V window [0 : 1] set b = (1 * a at [0]) / 2147483648 rounds 1 | print V',
     f'a,b | {2 ** 64 - 1},{2 ** 33 - 1}'),
    ('of_the_greatest_and_the_least_weight', TWO + 'record P { a:i64, b:i64 } | view V : P [2] as aos(packed, row) | set V[0].a = 3 | stencil V window [0 : 2] set b = (2147483647 * a at [0]) / 1 rounds 1 | print V | '
     'stencil V window [0 : 2] set b = (-2147483648 * a at [0]) / 1 rounds 1 | print V', 'a,b | 3,6442450941 | 0,0 | a,b | 3,-6442450944 | 0,0'),
    ('of_the_greatest_offsets_of_an_empty_window', BYTES + 'stencil V window [0 : 0] set t = (1 * t at [4294967296], 1 * t at [-4294967296]) / 1 rounds 1 | reduce V sum t', '60'),
    ('of_64_terms', BYTES + f'stencil V window [0 : 4] set t = ({", ".join(["1 * u at [0]"] * 64)}) / 1 rounds 1 | print V', 't,u | 0,0 | 64,1 | 128,2 | 192,3'),
    ('of_64_terms_over_64', BYTES + f'stencil V window [0 : 4] set t = ({", ".join(["1 * t at [0]"] * 64)}) / 64 rounds 1000 | print V', 't,u | 0,0 | 10,1 | 20,2 | 30,3'),
    ('after_another', HOT + f'stencil V window [1 : 4] {MEAN} rounds 1 | ' + stood('[1 : 4]', MEAN + ' rounds 1'), column(0, 4, 6, 4, 0)),
    ('of_a_view_without_rows', PAIR + 'view V : P [0] as aos(packed, row) | stencil V window [0 : 0] set t = (1 * t at [7]) / 1 rounds 3 | print V', 't,u'),
    ('of_a_view_without_rows_in_two_dimensions', PAIR + 'view V : P [2, 0] as aos(packed, col) | stencil V window [0 : 2, 0 : 0] set t = (1 * t at [0, 1]) / 1 rounds 3 | print V', 't,u'),
]]


# refusals, each at its ends

LONG = 'stencil V window [0 : 4] set t = '
REFUSED = [case(f'is_refused_{name}', script, f'line {script.count(" | ") + 1}: {fault}') for name, script, fault in [
    ('before_the_first_row', HOT + f'stencil V window [0 : 4] {MEAN} rounds 2', 'BadStencil Reach'),
    ('behind_the_last_row', HOT + f'stencil V window [1 : 5] {MEAN} rounds 2', 'BadStencil Reach'),
    ('of_a_window_past_the_end', HOT + f'stencil V window [1 : 6] {MEAN} rounds 2', 'BadWindow'),
    ('of_a_window_that_ends_before_it_begins', HOT + f'stencil V window [3 : 2] {MEAN} rounds 2', 'BadWindow'),
    ('of_an_empty_window_past_the_end', HOT + f'stencil V window [6 : 6] {MEAN} rounds 2', 'BadWindow'),
    ('of_a_window_of_another_rank', HOT + 'stencil V window [1 : 2, 0 : 1] set t = (1 * t at [0]) / 1 rounds 1', 'BadWindow'),
    ('of_a_window_of_a_lesser_rank', SQUARE + 'stencil V window [1 : 2] set t = (1 * t at [0, 0]) / 1 rounds 1', 'BadWindow'),
    ('of_offsets_of_another_rank', HOT + 'stencil V window [1 : 2] set t = (1 * t at [0, 0]) / 1 rounds 1', 'BadStencil Reach'),
    ('of_offsets_of_a_lesser_rank', SQUARE + 'stencil V window [1 : 2, 1 : 2] set t = (1 * t at [0, 0], 1 * t at [0]) / 1 rounds 1', 'BadStencil Reach'),
    ('of_offsets_of_another_rank_in_an_empty_window', HOT + 'stencil V window [1 : 1] set t = (1 * t at [0, 0]) / 1 rounds 1', 'BadStencil Reach'),
    ('of_an_offset_past_32_bits_in_an_empty_window', HOT + 'stencil V window [1 : 1] set t = (1 * t at [4294967297]) / 1 rounds 1', 'BadStencil Reach'),
    ('of_an_offset_below_32_bits_in_an_empty_window', HOT + 'stencil V window [1 : 1] set t = (1 * t at [-4294967297]) / 1 rounds 1', 'BadStencil Reach'),
    ('of_the_greatest_offset', HOT + 'stencil V window [0 : 1] set t = (1 * t at [4294967296]) / 1 rounds 1', 'BadStencil Reach'),
    ('of_the_least_offset', HOT + 'stencil V window [4 : 5] set t = (1 * t at [-4294967296]) / 1 rounds 1', 'BadStencil Reach'),
    ('of_an_offset_of_127_bits', HOT + f'stencil V window [0 : 1] set t = (1 * t at [{2 ** 127 - 1}]) / 1 rounds 1', 'BadStencil Reach'),
    ('of_an_offset_of_2_to_the_64', HOT + f'stencil V window [0 : 5] set t = (1 * t at [{2 ** 64}]) / 1 rounds 1', 'BadStencil Reach'),
    ('though_no_round_is_made', HOT + 'stencil V window [0 : 1] set t = (1 * t at [-1]) / 1 rounds 0', 'BadStencil Reach'),
    ('though_its_weight_is_0', HOT + 'stencil V window [0 : 1] set t = (0 * t at [-1]) / 1 rounds 1', 'BadStencil Reach'),
    ('of_its_last_term_that_leaves', HOT + 'stencil V window [0 : 4] set t = (1 * t at [0], 1 * t at [1], 1 * t at [2]) / 1 rounds 1', 'BadStencil Reach'),
    ('in_the_first_dimension', SQUARE + 'stencil V window [0 : 3, 1 : 3] set t = (1 * t at [1, 0]) / 1 rounds 1', 'BadStencil Reach'),
    ('in_the_second_dimension', SQUARE + 'stencil V window [0 : 2, 0 : 3] set t = (1 * t at [1, -1]) / 1 rounds 1', 'BadStencil Reach'),
    ('that_would_go_round_to_the_next_row', SQUARE + 'stencil V window [0 : 2, 3 : 4] set t = (1 * t at [0, 1]) / 1 rounds 1', 'BadStencil Reach'),
    ('of_a_weight_past_31_bits', HOT + 'stencil V window [0 : 1] set t = (2147483648 * t at [0]) / 1 rounds 1', 'BadStencil Weight'),
    ('of_a_weight_below_31_bits', HOT + 'stencil V window [0 : 1] set t = (1 * t at [0], -2147483649 * t at [0]) / 1 rounds 1', 'BadStencil Weight'),
    ('of_a_weight_of_127_bits', HOT + f'stencil V window [0 : 0] set t = (-{2 ** 127 - 1} * t at [0]) / 1 rounds 0', 'BadStencil Weight'),
    ('of_a_divisor_of_0', HOT + 'stencil V window [0 : 1] set t = (1 * t at [0]) / 0 rounds 1', 'BadStencil Weight'),
    ('of_a_divisor_of_0_without_a_row', HOT + 'stencil V window [0 : 0] set t = (1 * t at [0]) / 0 rounds 0', 'BadStencil Weight'),
    ('of_a_divisor_past_2_to_the_31', HOT + 'stencil V window [0 : 1] set t = (1 * t at [0]) / 2147483649 rounds 1', 'BadStencil Weight'),
    ('of_the_greatest_count_as_a_divisor', HOT + 'stencil V window [0 : 1] set t = (1 * t at [0]) / 4294967295 rounds 1', 'BadStencil Weight'),
    ('of_65_terms', BYTES + LONG + f'({", ".join(["1 * u at [0]"] * 65)}) / 1 rounds 1', 'BadStencil Terms'),
    ('of_200_terms_of_no_row', BYTES + f'stencil V window [0 : 0] set t = ({", ".join(["1 * u at [0]"] * 200)}) / 1 rounds 0', 'BadStencil Terms'),
    ('of_1001_rounds', HOT + 'stencil V window [1 : 4] set t = (1 * t at [0]) / 1 rounds 1001', 'BadStencil Rounds'),
    ('of_4294967295_rounds_of_no_row', HOT + 'stencil V window [4 : 4] set t = (1 * t at [0]) / 1 rounds 4294967295', 'BadStencil Rounds'),
]]


# which refusal comes first

MANY = ', '.join(['1 * t at [0]'] * 65)
FIRST = [case(f'wants_{name}', HOT + line, f'line 5: {fault}') for name, line, fault in [
    ('a_line_before_a_view', 'stencil W window [9 : 0] set x = (1 * y at [99]) / 0 rounds', 'Syntax column 60'),
    ('a_view_before_a_leaf', 'stencil W window [9 : 0] set x = (1 * y at [99]) / 0 rounds 1001', 'Unknown W'),
    ('the_leaf_that_is_set_first', 'stencil V window [9 : 0] set x = (1 * y at [99]) / 0 rounds 1001', 'Unknown x'),
    ('the_leaves_of_its_terms', 'stencil V window [9 : 0] set t = (1 * t at [0], 1 * y at [99], 1 * z at [0]) / 0 rounds 1001', 'Unknown y'),
    ('the_leaves_of_all_terms', f'stencil V window [9 : 0] set t = ({MANY}, 1 * z at [0]) / 0 rounds 1001', 'Unknown z'),
    ('a_window_before_reach', f'stencil V window [0 : 6] set t = (2147483648 * t at [9], {MANY}) / 0 rounds 1001', 'BadWindow'),
    ('reach_before_weight', f'stencil V window [0 : 5] set t = (2147483648 * t at [0], 1 * t at [9], {MANY}) / 0 rounds 1001', 'BadStencil Reach'),
    ('ranks_before_weight', f'stencil V window [0 : 5] set t = (2147483648 * t at [0], 1 * t at [0, 0], {MANY}) / 0 rounds 1001', 'BadStencil Reach'),
    ('reach_of_the_65th_term', f'stencil V window [0 : 5] set t = ({MANY}, 1 * t at [1]) / 1 rounds 1', 'BadStencil Reach'),
    ('weight_before_terms', f'stencil V window [0 : 5] set t = ({MANY}, 2147483648 * t at [0]) / 1 rounds 1001', 'BadStencil Weight'),
    ('a_divisor_before_terms', f'stencil V window [0 : 5] set t = ({MANY}) / 0 rounds 1001', 'BadStencil Weight'),
    ('terms_before_rounds', f'stencil V window [0 : 5] set t = ({MANY}) / 1 rounds 1001', 'BadStencil Terms'),
    ('rounds_before_values', 'stencil V window [0 : 5] set t = (2147483647 * t at [0]) / 1 rounds 1001', 'BadStencil Rounds'),
]]

GREAT = 16777216
BIG = TWO + 'record P { a:u64[2] } | record B { b:u8 } | ' + ''.join(f'view V{number} : P [{GREAT}] as {form} | ' for number, form in enumerate(['aos(packed, row)', 'soa(multi, row)', 'soa(single, row)']))
BIG_STENCIL = 'stencil V1 window [7 : 9] set a[1] = (3 * a[1] at [0], 1 * a[0] at [-7]) / 2 rounds {} | print V1 window [7 : 10]'
AFTER = 'a[0],a[1] | 0,7 | 0,4 | 0,0'
FILLED = 'set V1[7].a[1] = 5 | set V1[8].a[1] = 3 | '
LIVE = [case(f'of_{name}', script, due) for name, script, due in [
    ('2_to_the_30_bytes_with_its_buffer', BIG + FILLED + BIG_STENCIL.format(1), AFTER),
    ('2_to_the_30_bytes_that_are_free_again', BIG + FILLED + f'{BIG_STENCIL.format(1)} | view V3 : P [{GREAT}] as aos(min, row) | view W : B [1] as soa(multi, row)', AFTER + ' | line 12: TooBig'),
    ('2_to_the_30_bytes_and_one_more', BIG + 'view W : B [1] as soa(multi, row) | ' + BIG_STENCIL.format(1), 'line 8: TooBig'),
    ('2_to_the_30_bytes_and_one_more_for_no_round', BIG + 'view W : B [1] as soa(multi, row) | ' + BIG_STENCIL.format(0), 'line 8: TooBig'),
    ('2_to_the_30_bytes_and_one_more_for_no_row', BIG + 'view W : B [1] as soa(multi, row) | stencil V1 window [0 : 0] set a[0] = (1 * a[0] at [0]) / 1 rounds 1', 'line 8: TooBig'),
    ('2_to_the_30_bytes_and_one_more_behind_other_refusals', BIG + 'view W : B [1] as soa(multi, row) | stencil V1 window [0 : 1] set a[0] = (1 * a[0] at [0]) / 1 rounds 1001', 'line 8: BadStencil Rounds'),
    ('2_to_the_30_bytes_and_one_more_before_values', BIG + 'set V1[0].a[0] = 2 | view W : B [1] as soa(multi, row) | stencil V1 window [0 : 1] set a[0] = (-1 * a[0] at [0]) / 1 rounds 1', 'line 9: TooBig'),
    ('a_small_view_beside_2_to_the_30_bytes', BIG + f'drop V2 | view V2 : P [{GREAT - 2}] as soa(multi, row) | view W : B [16] as soa(multi, row) | view V3 : P [{GREAT}] as aos(min, row) | '
     'stencil W window [0 : 16] set b = (1 * b at [0]) / 1 rounds 1 | view X : B [16] as soa(multi, row) | stencil W window [0 : 16] set b = (1 * b at [0]) / 1 rounds 1', 'line 13: TooBig'),
]]


# values that have no place

FAULTS = [case(f'does_not_keep_{name}', script, due) for name, script, due in [
    ('a_number_past_its_type', BYTES + 'stencil V window [0 : 4] set t = (9 * t at [0]) / 1 rounds 1', 'line 5: Range record 3 leaf t'),
    ('a_number_below_0', BYTES + 'stencil V window [0 : 4] set t = (1 * u at [0], -2 * u at [0]) / 1 rounds 1', 'line 5: Range record 1 leaf t'),
    ('a_number_past_its_type_that_is_cut_to_it', BYTES + 'stencil V window [0 : 4] set t = (17 * t at [0]) / 2 rounds 1 | print V', 't,u | 0,0 | 85,1 | 170,2 | 255,3'),
    ('what_is_cut_to_0', BYTES + 'stencil V window [0 : 4] set t = (-1 * u at [0]) / 4 rounds 1 | print V', 't,u | 0,0 | 0,1 | 0,2 | 0,3'),
    ('a_number_past_its_bits', PAIR + 'view V : P [4] as bitaos(4, row) | update V set t = 5 | stencil V window [1 : 4] set t = (2 * t at [0], 6 * u at [0], 6 * t at [-1]) / 2 rounds 1', 'line 5: Narrow record 1 leaf t'),
    ('a_number_in_its_second_round', BYTES + 'stencil V window [0 : 4] set t = (4 * t at [0]) / 1 rounds 2', 'line 5: Range record 2 leaf t'),
    ('a_number_of_its_second_round_before_one_of_a_lesser_row', PAIR + 'view V : P [3] as aos(packed, row) | update V set t = 100 | set V[2].t = 130 | stencil V window [0 : 3] set t = (2 * t at [0]) / 1 rounds 2', 'line 6: Range record 2 leaf t'),
    ('the_first_row_of_a_round', PAIR + 'view V : P [3] as aos(packed, col) | update V set t = 200 - i0 | stencil V window [0 : 3] set t = (2 * t at [0]) / 1 rounds 1', 'line 5: Range record 0 leaf t'),
    ('a_number_in_its_last_of_1000_rounds', TWO + 'record P { n:u16 } | view V : P [2] as aos(packed, row) | set V[1].n = 1 | set V[0].n = 64536 | stencil V window [0 : 1] set n = (1 * n at [0], 1 * n at [1]) / 1 rounds 999 | print V | '
     'stencil V window [0 : 1] set n = (1 * n at [0], 1 * n at [1]) / 1 rounds 1000', 'n | 65535 | 1 | line 8: Range record 0 leaf n'),
    ('a_row_by_its_view', SQUARE + 'stencil V window [1 : 3, 2 : 4] set t = (1000000000 * t at [-1, -2]) / 1 rounds 1', 'line 5: Range record 10 leaf t'),
    ('a_number_outside_the_window_alone', BYTES + 'stencil V window [0 : 2] set t = (25 * t at [0]) / 1 rounds 1 | print V', 't,u | 0,0 | 250,1 | 20,2 | 30,3'),
    ('a_sum_that_would_fit_once_it_is_divided_later', BYTES + 'stencil V window [3 : 4] set t = (8 * t at [0]) / 1 rounds 1 | print V | stencil V window [3 : 4] set t = (2 * t at [0]) / 1 rounds 1', 't,u | 0,0 | 10,1 | 20,2 | 240,3 | line 7: Range record 3 leaf t'),
    ('two_of_a_truth_value', TWO + 'record P { f:bool } | view V : P [2] as bitaos(1, row) | update V set f = 1 | stencil V window [0 : 1] set f = (1 * f at [0], 1 * f at [1]) / 1 rounds 1', 'line 5: Range record 0 leaf f'),
]]


# low bits, counts and heat, and what comes behind

COUNTED = PAIR + 'view V : P [4] as count(heat(1, aos(packed, row))) | '
BEHIND = [case(name, script, due) for name, script, due in [
    ('keeps_low_bits', PAIR + 'view V : P [3] wrap as aos(packed, row) | update V set t = 100 + i0 | stencil V window [0 : 3] set t = (3 * t at [0]) / 1 rounds 1 | print V', 't,u | 44,0 | 47,0 | 50,0'),
    ('keeps_low_bits_between_rounds', PAIR + 'view V : P [3] wrap as aos(packed, row) | update V set t = 128 + i0 | stencil V window [0 : 3] set t = (3 * t at [0]) / 2 rounds 2 | print V', 't,u | 32,0 | 33,0 | 36,0'),
    ('keeps_low_bits_of_sums_below_0', PAIR + 'view V : P [2] wrap as bitsoa(4, row) | update V set t = 5 | stencil V window [0 : 2] set t = (-1 * t at [0]) / 2 rounds 1 | print V', 't,u | 14,0 | 14,0'),
    ('keeps_low_bits_with_a_sign', TWO + 'record P { t:i8 } | view V : P [2] wrap as bitaos(4, row) | update V set t = 7 | stencil V window [0 : 2] set t = (3 * t at [0]) / 2 rounds 2 | print V', 't | 7 | 7'),
    ('keeps_whether_a_number_is_odd', TWO + 'record P { f:bool } | view V : P [5] wrap as aos(packed, row) | set V[2].f = 1 | stencil V window [1 : 4] set f = (1 * f at [-1], 1 * f at [0], 1 * f at [1]) / 1 rounds 3 | print V', 'f | 0 | 1 | 1 | 1 | 0'),
    ('keeps_low_bits_of_great_sums', TWO + f'record P {{ a:u64, b:u64 }} | view V : P [1] wrap as aos(packed, row) | set V[0].a = -1 | stencil V window [0 : 1] set b = ({", ".join(["-2147483648 * a at [0]"] * 64)}) / 1 rounds 1 | print V',
     f'a,b | {2 ** 64 - 1},{2 ** 37}'),
    ('keeps_low_bits_of_what_is_read_as_another_type', TWO + 'record P { u:u16 } | view V : P [2] wrap as change(u16->i8, aos(packed, row)) | update V set u = 200 | stencil V window [0 : 2] set u = (1 * u at [0]) / 1 rounds 2 | print V',
     'u | 65480 | 65480'),
    ('counts_a_read_of_each_term_and_a_write', COUNTED + 'stencil V window [1 : 3] set t = (1 * t at [-1], 1 * u at [1]) / 2 rounds 3 | counts V | heat V',
     'leaf,reads,writes | t,6,6 | u,6,0 | blob,granule,accesses | 0,0,3 | 0,2,6 | 0,4,3 | 0,5,3 | 0,7,3'),
    ('counts_none_in_no_round', COUNTED + 'stencil V window [1 : 3] set t = (1 * t at [-1], 1 * u at [1]) / 2 rounds 0 | counts V | heat V', 'leaf,reads,writes | t,0,0 | u,0,0 | blob,granule,accesses'),
    ('counts_none_of_no_row', COUNTED + 'stencil V window [3 : 3] set t = (1 * t at [-1], 1 * u at [1]) / 2 rounds 9 | counts V', 'leaf,reads,writes | t,0,0 | u,0,0'),
    ('counts_a_term_that_stands_twice_twice', COUNTED + 'stencil V window [0 : 4] set u = (1 * t at [0], 0 * t at [0]) / 2 rounds 1 | counts V', 'leaf,reads,writes | t,8,0 | u,0,4'),
    ('counts_no_read_of_the_leaf_that_is_set', COUNTED + 'stencil V window [0 : 4] set u = (1 * t at [0]) / 1 rounds 5 | counts V', 'leaf,reads,writes | t,20,0 | u,0,20'),
    ('heats_the_cells_that_it_reads', PAIR + 'view V : P [4, 4] as heat(4, soa(multi, row)) | stencil V window [1 : 2, 1 : 3] set t = (1 * t at [2, 0], 1 * t at [-1, 1]) / 1 rounds 1 | heat V', 'blob,granule,accesses | 0,0,2 | 0,1,2 | 0,3,2'),
    ('counts_in_a_loaded_view_behind_its_load', TWO + 'record P { t:u8 } | open V from "f" | stencil V window [0 : 1] set t = (1 * t at [1]) / 1 rounds 2 | counts V', 'leaf,reads,writes | t,2,4'),
    ('before_a_new_layout', HOT + f'stencil V window [1 : 4] {MEAN} rounds 1 | relayout V as count(bitaos(5, col)) | stencil V window [1 : 4] {MEAN} rounds 1 | counts V | print V', 'leaf,reads,writes | t,9,8 | ' + column(0, 4, 6, 4, 0)),
    ('before_a_copy', HOT + f'view W : P [5] as soa(multi, row) | stencil V window [1 : 4] {MEAN} rounds 1 | copy V to W | print W', column(0, 4, 8, 4, 0)),
    ('leaves_other_views', HOT + f'view W : P [5] as aosoa(2, row) | copy V to W | stencil V window [1 : 4] {MEAN} rounds 1 | print W', column(0, 0, 16, 0, 0)),
    ('before_an_update_and_reductions', HOT + f'stencil V window [1 : 4] {MEAN} rounds 1 | update V where t set t = t + i0 | reduce V sum t | kernel V greatest(t) lanes 4', '22 | 10'),
    ('leaves_bytes_as_a_set_does', HOT + f'stencil V window [1 : 4] {MEAN} rounds 1 | bytes V 0', '00 00 00 00 04 00 00 00 08 00 00 00 04 00 00 00 | 00 00 00 00 00 00 00 00'),
    ('leaves_padding_and_neighbours', PAIR + 'view V : P [3] as bitaos(3 { u: 5 }, row) | update V set t = 1 + i0, u = 31 | stencil V window [0 : 3] set t = (2 * t at [0]) / 1 rounds 1 | bytes V 0', 'fa fc fe 00 00 00 00 00'),
    ('before_actors', TWO + 'record P { t:u8 } | view V : P [4] as aos(packed, row) | update V set t = i0 | stencil V window [1 : 4] set t = (1 * t at [-1]) / 1 rounds 1 | update V set t = t + 1 actors [2] schedule 0 turns 3', '01 00 01 02'),
    ('before_a_drop', HOT + f'stencil V window [1 : 4] {MEAN} rounds 1 | drop V | stencil V window [1 : 4] {MEAN} rounds 1', 'line 7: Unknown V'),
    ('on_a_layout_by_its_name', TWO + 'record P { t:i32 } | mapping M = heat(8, aosoa(2, row)) | mapping N = count(M) | view V : P [3] as N | set V[1].t = 5 | stencil V window [0 : 2] set t = (1 * t at [1]) / 1 rounds 1 | counts V | print V',
     'leaf,reads,writes | t,2,3 | ' + column(5, 0, 0)),
]]
BEHIND = [found._replace(files={'f': file_of('t:u8', '[2] as count(aos(packed, row))', '01 02')}) if '"f"' in found.script else found for found in BEHIND]
FILES = [
    Case('stencil_before_a_save', TWO + 'record P { a:u8 } | view V : P [4] as aos(packed, row) | update V set a = 2 * i0 | stencil V window [1 : 3] set a = (1 * a at [-1], 1 * a at [1], 1 * a at [0]) / 2 rounds 1 | save V',
         due_of(file_of(BYTE, '[4] as aos(packed, row)', '00 03 06 06'))),
    Case('stencil_on_a_view_that_was_loaded', TWO + 'record P { t:i32 } | load V : P [?, 3] as aosoa(2, col) from "d.csv" | stencil V window [1 : 2, 1 : 2] set t = (1 * t at [-1, 0], 1 * t at [0, -1], 1 * t at [0, 1]) / 3 rounds 1 | print V',
         column(9, 8, 7, 6, 6, 4), b't\n9\n8\n7\n6\n0\n4\n'),
]


# lines and names

OF = 'stencil V window [1 : 4] set t = '
SYNTAX = [Case(f'stencil_{name}', script + text.replace('^', ''), f'line {script.count("|") + 1}: Syntax column {text.index("^") + 1}') for name, script, text in [
    ('in_version_1', HOT.replace('2', '1', 1), f'^{OF}(1 * t at [0]) / 1 rounds 1'),
    ('in_a_script_without_a_version', HOT.replace(TWO, ''), f'^{OF}(1 * t at [0]) / 1 rounds 1'),
    ('without_a_view', HOT, 'stencil^'),
    ('without_a_window', HOT, 'stencil V ^set t = (1 * t at [0]) / 1 rounds 1'),
    ('without_an_end', HOT, 'stencil V window [1 ^] set t = (1 * t at [0]) / 1 rounds 1'),
    ('without_a_leaf', HOT, 'stencil V window [1 : 4] set ^= (1 * t at [0]) / 1 rounds 1'),
    ('without_parentheses', HOT, f'{OF}^1 * t at [0] / 1 rounds 1'),
    ('without_terms', HOT, f'{OF}(^) / 1 rounds 1'),
    ('of_a_sum_of_terms', HOT, f'{OF}(1 * t at [0] ^+ 1 * t at [1]) / 1 rounds 1'),
    ('of_a_term_without_a_weight', HOT, f'{OF}(^t at [0]) / 1 rounds 1'),
    ('of_a_weight_behind_a_leaf', HOT, f'{OF}(^t * 1 at [0]) / 1 rounds 1'),
    ('of_a_weight_with_a_plus', HOT, f'{OF}(^+1 * t at [0]) / 1 rounds 1'),
    ('of_a_weight_with_two_signs', HOT, f'{OF}(-^-1 * t at [0]) / 1 rounds 1'),
    ('of_a_weight_past_127_bits', HOT, f'{OF}(^{2 ** 127} * t at [0]) / 1 rounds 1'),
    ('of_a_number_for_a_leaf', HOT, f'{OF}(1 * ^7 at [0]) / 1 rounds 1'),
    ('of_an_index_for_a_leaf', HOT, f'{OF}(1 * ^i0 at [0]) / 1 rounds 1'),
    ('of_a_term_without_a_place', HOT, f'{OF}(1 * t^) / 1 rounds 1'),
    ('of_a_term_with_its_place_behind_its_leaf', HOT, f'{OF}(1 * t[^-1]) / 1 rounds 1'),
    ('of_a_term_without_offsets', HOT, f'{OF}(1 * t at [^]) / 1 rounds 1'),
    ('of_offsets_in_parentheses', HOT, f'{OF}(1 * t at ^(0)) / 1 rounds 1'),
    ('of_offsets_that_are_worked_out', HOT, f'{OF}(1 * t at [1 ^- 1]) / 1 rounds 1'),
    ('of_terms_without_commas', HOT, f'{OF}(1 * t at [0] ^1 * t at [1]) / 1 rounds 1'),
    ('of_a_list_that_ends_with_a_comma', HOT, f'{OF}(1 * t at [0], ^) / 1 rounds 1'),
    ('without_a_divisor', HOT, f'{OF}(1 * t at [0]) ^rounds 1'),
    ('of_a_divisor_below_0', HOT, f'{OF}(1 * t at [0]) / ^-1 rounds 1'),
    ('of_a_divisor_of_33_bits', HOT, f'{OF}(1 * t at [0]) / ^4294967296 rounds 1'),
    ('of_a_remainder', HOT, f'{OF}(1 * t at [0]) ^% 2 rounds 1'),
    ('without_rounds', HOT, f'{OF}(1 * t at [0]) / 1^'),
    ('without_a_number_of_rounds', HOT, f'{OF}(1 * t at [0]) / 1 rounds^'),
    ('of_rounds_of_33_bits', HOT, f'{OF}(1 * t at [0]) / 1 rounds ^4294967296'),
    ('of_two_leaves_at_once', HOT, f'{OF}(1 * t at [0]) / 1^, u = (1 * t at [0]) / 1 rounds 1'),
    ('with_a_filter', HOT, 'stencil V window [1 : 4] ^where t set t = (1 * t at [0]) / 1 rounds 1'),
    ('of_two_commands', HOT, f'{OF}(1 * t at [0]) / 1 rounds 1 ^rounds 2'),
    ('in_capitals', HOT, f'^Stencil{OF[7:]}(1 * t at [0]) / 1 rounds 1')]]
NAMES = [case(name, script, due) for name, script, due in [
    ('of_names_that_are_its_words', TWO + 'record stencil { window:i8, at:i8[2], rounds:i8 } | mapping set = aos(packed, row) | view stencil : stencil [3] as set | update stencil set at[1] = i0 + 1, rounds = 9 | '
     'stencil stencil window [0 : 2] set window = (1 * at[1] at [1], -1 * rounds at [0]) / 2 rounds 1 | print stencil', 'window,at[0],at[1],rounds | -3,0,1,9 | -3,0,2,9 | 0,0,3,9'),
    ('without_blanks_and_with_leading_zeros', HOT + ' stencil V window[01:04]set t=(001*t at[-01],2*t at[-0],1*t at[01])/04rounds 02# a note | print V', column(0, 4, 6, 4, 0)),
    ('is_a_name_in_version_1', 'record stencil { rounds:u8 } | view stencil : stencil [1] as aos(packed, row) | print stencil', 'rounds | 0')]]


# each form of a layout in each order

NINE = (3, 4)
MEANS = [
    ([(1, 2), (0, 4)], 'a', [(1, 'a', (-1, 0)), (2, 'b', (0, 0)), (1, 'a', (1, 0))], 4, 2),
    ([(0, 3), (1, 3)], 'p.x', [(2, 'p.x', (0, -1)), (1, 'p.x', (0, 1)), (1, 'a', (0, 0)), (-1, 'b', (0, 0))], 5, 3),
    ([(0, 2), (0, 3)], 'p.y', [(1, 'p.y', (1, 1)), (1, 'p.y', (1, 0)), (1, 'b', (0, 1)), (3, 'f', (0, 0))], 4, 2),
    ([(1, 3), (1, 4)], 'f', [(1, 'f', (-1, -1)), (1, 'f', (0, 0)), (1, 'f', (-1, 0))], 3, 4),
    ([(2, 3), (0, 4)], 'b', [(1, 'a', (-2, 0)), (1, 'b', (-1, 0)), (-1, 'f', (0, 0))], 3, 1),
]
WINDOWS = [[(1, 2), (1, 3)], [(0, 3), (0, 4)], [(2, 3), (3, 4)], [(0, 3), (2, 2)], [(0, 1), (1, 4)]]


def shown_behind(plate, mapping, window):
    """The lines that show a window, what a view counted and what it holds, and what they print."""
    counters = counters_of(mapping)
    part = plate.print_window(window)
    script, due = [f'print V {window_text(window)}'], [part]
    if 'count' in counters:
        script, due = script + ['counts V'], due + [plate.counted()]
    if 'heat' in counters:
        script, due = script + ['heat V'], due + [plate.heated(counters['heat'][1])]
    return script + ['print V'], due + [plate.printed()]


def plate_case(name, record, plate, extents, mapping, stencils, window):
    """A dataset that is loaded, stencils over it, and what is left."""
    mode, data = '' if plate.is_strict else ' wrap', plate.dataset()
    plate.touch_all()
    script = [f'record P {{ {record} }}', f'load V : P {written(extents)}{mode} as {text_of(mapping)} from "d.csv"']
    for stencil in stencils:
        script.append(f'stencil V {stencil_text(*stencil)}')
        fault = plate.stencil(*stencil)
        if fault:
            return Case(f'stencil_{name}', TWO + ' | '.join(script), f'line {len(script) + 1}: {fault}', data)
    behind, due = shown_behind(plate, mapping, window)
    return Case(f'stencil_{name}', TWO + ' | '.join(script + behind), ' | '.join(due), data)


def of_form(number, name, mapping):
    plate = Plate(FIVE, NINE, mapping, ROWS, True)
    return plate_case(f'over_{name}', 'a:u8, b:u8, p { x:i16, y:u32 }, f:bool', plate, NINE, mapping, [MEANS[number % len(MEANS)], MEANS[(number + 2) % len(MEANS)]], WINDOWS[number % len(WINDOWS)])


FORMS = [of_form(number, name, mapping) for number, (name, mapping, _) in enumerate(IN_ORDERS)]


# thrown: under expressions of each depth, strict and with low bits

SMALL, GREAT_WEIGHTS = [1, 1, 2, -1, 3], [1, -1, 3, 100, -1000, 2 ** 31 - 1, -2 ** 31]


def thrown_case(number, depth, form_of):
    dice = Dice(5555 * depth + number)
    record, extents = dice.of(sorted(RECORDS)), dice.of(EXTENTS)
    mapping = counted_form(dice, record, depth, form_of) if dice.below(2) else form_of(dice, RECORDS[record], depth, False)
    is_strict, rows = number % 2 == 0, 1
    for extent in extents:
        rows *= extent
    numbers = [[dice.below(2) if is_strict else TYPES[kind][0] + dice.below(2 ** 31) * dice.below(2 ** 31) for _, kind in RECORDS[record]] for _ in range(rows)]
    plate = Plate(RECORDS[record], extents, mapping, numbers)
    if is_strict:
        plate.keep_what_fits()
    stencils = []
    for _ in range(1 + dice.below(3)):
        window = thrown_window(dice, extents)
        terms = [thrown_term(dice, plate.paths, window, extents, SMALL if is_strict else GREAT_WEIGHTS) for _ in range(1 + dice.below(4))]
        divisor = max(sum(max(weight, 0) for weight, _, _ in terms), 1) if is_strict else dice.of([1, 2, 3, 7, 2 ** 31])
        stencils.append((window, dice.of(plate.paths), terms, divisor, dice.below(4)))
    return plate_case(f'thrown_of_depth_{depth}_number_{number}', record, plate, extents, mapping, stencils, thrown_window(dice, extents))


THROWN = [thrown_case(number, depth, form_of) for depth in range(1, 9) for number, form_of in enumerate([thrown_form, thrown_form, thrown_widths, thrown_widths])]

CASES = ROUNDS + REFUSED + FIRST + LIVE + FAULTS + BEHIND + FILES + SYNTAX + NAMES + FORMS + THROWN
