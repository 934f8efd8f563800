"""Windows that are printed: in each rank, empty ones and whole ones, what refuses them, and what they count.

Under thrown expressions, what is printed is worked out by plates.py, and the model must agree.
"""
from .bit_fields import TYPES
from .case import Case
from .files import BYTE, file_of
from .nested import Dice, RECORDS, text_of, thrown_form, written
from .plates import EXTENTS, Plate, thrown_window, window_text
from .stencils import shown_behind
from .tallies import counted_form
from .widths import thrown_widths

TWO = 'version 2 | '
PAIR = TWO + 'record P { a:u8, b:i16 } | '
FIVE = PAIR + 'view V : P [5] as aos(packed, row) | update V set a = i0, b = -i0 | '
SQUARE = PAIR + 'view V : P [3, 4] as soa(multi, col) | update V set a = 10 * i0 + i1, b = a | update V set b = -a | '
CUBE = TWO + 'record P { a:u16 } | view V : P [2, 3, 2] as aosoa(4, morton) | update V set a = 100 * i0 + 10 * i1 + i2 | '
FOUR = TWO + 'record P { a:u16 } | view V : P [2, 2, 1, 3] as bitaos(13, col) | update V set a = 1000 * i0 + 100 * i1 + 10 * i2 + i3 | '


def case(name, script, due):
    return Case(f'window_{name}', script, due)


def pairs(*numbers):
    return ' | '.join(['a,b', *(f'{number},{-number}' for number in numbers)])


def column(*numbers):
    return ' | '.join(['a', *map(str, numbers)])


PRINTED = [case(name, begin + f'print V window {window}', due) for name, begin, window, due in [
    ('in_the_midst', FIVE, '[1 : 3]', pairs(1, 2)), ('from_the_first_row', FIVE, '[0 : 2]', pairs(0, 1)), ('to_the_last_row', FIVE, '[3 : 5]', pairs(3, 4)), ('of_one_row', FIVE, '[4 : 5]', pairs(4)),
    ('of_all_rows', FIVE, '[0 : 5]', pairs(0, 1, 2, 3, 4)), ('of_no_row', FIVE, '[2 : 2]', 'a,b'), ('of_no_row_at_the_begin', FIVE, '[0 : 0]', 'a,b'), ('of_no_row_at_the_end', FIVE, '[5 : 5]', 'a,b'),
    ('with_leading_zeros', FIVE, '[01 : 0000000000003]', pairs(1, 2)), ('without_blanks', FIVE, '[1:3]# a note', pairs(1, 2)),
    ('in_two_dimensions', SQUARE, '[1 : 3, 1 : 3]', pairs(11, 12, 21, 22)), ('of_one_row_of_a_square', SQUARE, '[1 : 2, 0 : 4]', pairs(10, 11, 12, 13)), ('of_one_column', SQUARE, '[0 : 3, 2 : 3]', pairs(2, 12, 22)),
    ('of_one_cell', SQUARE, '[2 : 3, 3 : 4]', pairs(23)), ('of_a_whole_square', SQUARE, '[0 : 3, 0 : 4]', pairs(0, 1, 2, 3, 10, 11, 12, 13, 20, 21, 22, 23)), ('of_no_row_of_a_square', SQUARE, '[1 : 1, 0 : 4]', 'a,b'),
    ('of_no_column', SQUARE, '[0 : 3, 4 : 4]', 'a,b'), ('of_no_row_and_no_column', SQUARE, '[3 : 3, 4 : 4]', 'a,b'),
    ('in_three_dimensions', CUBE, '[0 : 2, 1 : 3, 1 : 2]', column(11, 21, 111, 121)), ('of_one_cell_of_three_dimensions', CUBE, '[1 : 2, 2 : 3, 0 : 1]', column(120)), ('of_a_whole_cube', CUBE, '[0 : 2, 0 : 3, 0 : 2]',
     column(0, 1, 10, 11, 20, 21, 100, 101, 110, 111, 120, 121)), ('of_no_row_of_a_cube', CUBE, '[0 : 2, 2 : 2, 0 : 2]', 'a'),
    ('in_four_dimensions', FOUR, '[0 : 2, 1 : 2, 0 : 1, 1 : 3]', column(101, 102, 1101, 1102)), ('of_one_cell_of_four_dimensions', FOUR, '[1 : 2, 0 : 1, 0 : 1, 2 : 3]', column(1002)), ('of_no_row_of_four_dimensions', FOUR, '[0 : 2, 0 : 2, 1 : 1, 0 : 3]', 'a'),
]]

REFUSED = [case(f'is_refused_{name}', begin + line, f'line {begin.count("|") + 1}: {fault}') for name, begin, line, fault in [
    ('past_the_end', FIVE, 'print V window [1 : 6]', 'BadWindow'), ('where_it_begins_past_the_end', FIVE, 'print V window [6 : 6]', 'BadWindow'), ('where_it_ends_before_it_begins', FIVE, 'print V window [3 : 2]', 'BadWindow'),
    ('where_it_ends_at_0', FIVE, 'print V window [1 : 0]', 'BadWindow'), ('of_4294967295_rows', FIVE, 'print V window [0 : 4294967295]', 'BadWindow'), ('of_no_row_far_away', FIVE, 'print V window [4294967295 : 4294967295]', 'BadWindow'),
    ('of_a_greater_rank', FIVE, 'print V window [0 : 5, 0 : 1]', 'BadWindow'), ('of_a_greater_rank_without_a_row', FIVE, 'print V window [0 : 0, 0 : 0]', 'BadWindow'), ('of_rank_5', FOUR, 'print V window [0 : 1, 0 : 1, 0 : 1, 0 : 1, 0 : 1]', 'BadWindow'),
    ('of_rank_500', FOUR, f'print V window [{", ".join(["0:0"] * 500)}]', 'BadWindow'), ('of_a_lesser_rank', SQUARE, 'print V window [1 : 3]', 'BadWindow'), ('past_its_first_dimension', SQUARE, 'print V window [0 : 4, 0 : 3]', 'BadWindow'),
    ('past_its_second_dimension', SQUARE, 'print V window [0 : 3, 0 : 5]', 'BadWindow'), ('past_its_end_without_a_row', SQUARE, 'print V window [1 : 1, 0 : 5]', 'BadWindow'), ('where_its_second_dimension_falls', SQUARE, 'print V window [0 : 3, 4 : 3]', 'BadWindow'),
    ('past_its_last_dimension', FOUR, 'print V window [0 : 2, 0 : 2, 0 : 1, 0 : 4]', 'BadWindow'),
    ('of_no_view', FIVE, 'print W window [9 : 0]', 'Unknown W'), ('of_a_view_that_was_dropped', FIVE + 'drop V | ', 'print V window [1 : 3]', 'Unknown V'), ('behind_its_line', FIVE, 'print W window [9 : 0] 7', 'Syntax column 24'),
    ('of_rows_where_there_are_none', PAIR + 'view V : P [0] as soa(multi, row) | ', 'print V window [0 : 1]', 'BadWindow'),
]]

SYNTAX = [Case(f'window_{name}', begin + text.replace('^', ''), f'line {begin.count("|") + 1}: Syntax column {text.index("^") + 1}') for name, begin, text in [
    ('in_version_1', FIVE.replace('2', '1', 1), 'print V ^window [1 : 3]'), ('in_a_script_without_a_version', FIVE.replace(TWO, ''), 'print V ^window [1 : 3]'),
    ('without_brackets', FIVE, 'print V window ^1 : 3'), ('without_a_list', FIVE, 'print V window^'), ('of_an_empty_list', FIVE, 'print V window [^]'), ('without_an_end', FIVE, 'print V window [1 ^]'),
    ('without_a_begin', FIVE, 'print V window [^: 3]'), ('of_three_numbers', FIVE, 'print V window [1 : 2 ^: 3]'), ('that_is_not_closed', FIVE, 'print V window [1 : 3^'), ('of_a_list_that_ends_with_a_comma', FIVE, 'print V window [1 : 3,^]'),
    ('from_below_0', FIVE, 'print V window [^-1 : 3]'), ('that_is_worked_out', FIVE, 'print V window [1 ^+ 1 : 3]'), ('by_an_index', FIVE, 'print V window [^i0 : 3]'), ('of_33_bits', FIVE, 'print V window [1 : ^4294967296]'),
    ('by_a_comma', FIVE, 'print V window [1^, 3]'), ('by_two_signs', FIVE, 'print V window [1 ^.. 3]'), ('twice', FIVE, 'print V window [1 : 3] ^window [1 : 3]'), ('before_a_view', FIVE, 'print window ^[1 : 3] V'), ('of_counts', FIVE, 'counts V ^window [1 : 3]'),
    ('of_bytes', FIVE, 'bytes V 0 ^window [1 : 3]'), ('of_a_save', FIVE, 'save V ^window [1 : 3]'), ('of_a_reduction', FIVE, 'reduce V sum a ^window [1 : 3]'), ('in_capitals', FIVE, 'print V ^Window [1 : 3]'), ('of_a_question', FIVE, 'print V window [^? : 3]'),
    ('by_another_word', FIVE, 'print V ^rows [1 : 3]')]]

COUNTED = PAIR + 'view V : P [2, 3] as count(heat(1, aos(packed, row))) | '
OTHERS = [case(name, script, due) for name, script, due in [
    ('counts_a_read_of_each_entry', COUNTED + 'print V window [1 : 2, 1 : 3] | counts V | heat V', 'a,b | 0,0 | 0,0 | leaf,reads,writes | a,2,0 | b,2,0 | blob,granule,accesses | '
     + ' | '.join(f'0,{byte},1' for byte in range(12, 18))),
    ('counts_none_where_it_has_no_row', COUNTED + 'print V window [1 : 1, 1 : 3] | counts V | heat V', 'a,b | leaf,reads,writes | a,0,0 | b,0,0 | blob,granule,accesses'),
    ('counts_each_time', COUNTED + 'print V window [0 : 1, 0 : 1] | print V window [0 : 1, 0 : 2] | print V | counts V', 'a,b | 0,0 | a,b | 0,0 | 0,0 | a,b' + ' | 0,0' * 6 + ' | leaf,reads,writes | a,9,0 | b,9,0'),
    ('of_the_whole_counts_as_print_does', COUNTED + 'print V window [0 : 2, 0 : 3] | counts V', 'a,b' + ' | 0,0' * 6 + ' | leaf,reads,writes | a,6,0 | b,6,0'),
    ('of_a_view_that_was_loaded', PAIR + 'load V : P [?, 2] as byteswap(aos(packed, row)) from "d.csv" | print V window [1 : 2, 0 : 2]', 'a,b | 3,-30 | 4,-40'),
    ('of_a_view_that_was_opened', TWO + 'open V from "f" | print V window [1 : 3]', 'a | 2 | 3'),
    ('of_a_new_layout', SQUARE + 'relayout V as bitaos(7, morton) | print V window [1 : 2, 1 : 3]', pairs(11, 12)),
    ('of_low_bits', PAIR + 'view V : P [3] wrap as bitaos(4, row) | update V set a = 15 + i0, b = 7 + i0 | print V window [0 : 2]', 'a,b | 15,7 | 0,-8'),
    ('of_a_view_without_rows', PAIR + 'view V : P [0] as soa(multi, row) | print V window [0 : 0]', 'a,b'),
    ('of_a_view_without_rows_in_one_dimension', PAIR + 'view V : P [3, 0] as aos(packed, col) | print V window [0 : 3, 0 : 0] | print V window [3 : 3, 0 : 0]', 'a,b | a,b'),
    ('of_an_array', TWO + 'record P { p { x:u8[2] }[2], f:bool } | view V : P [2] as soa(multi, row) | set V[1].p[1].x[0] = 9 | print V window [1 : 2]', 'p[0].x[0],p[0].x[1],p[1].x[0],p[1].x[1],f | 0,0,9,0,0'),
    ('of_a_view_of_that_name', TWO + 'record window { window:u8 } | view window : window [2] as aos(packed, row) | set window[1].window = 3 | print window | print window window [1 : 2]', 'window | 0 | 3 | window | 3'),
    ('is_a_name_in_version_1', 'record P { window:u8 } | view window : P [1] as aos(packed, row) | print window', 'window | 0'),
    ('of_two_views', FIVE + 'view W : P [3] as aos(min, row) | print W window [0 : 1] | print V window [4 : 5]', 'a,b | 0,0 | ' + pairs(4)),
    ('of_a_great_view', PAIR + 'view V : P [4096, 4096] as aos(packed, col) | set V[4095, 4095].a = 7 | print V window [4094 : 4096, 4095 : 4096]', 'a,b | 0,0 | 7,0'),
    ('of_the_greatest_view_by_rows', PAIR + 'view V : P [16777216] as aos(packed, row) | set V[16777215].b = -7 | print V window [16777214 : 16777216] | print V window [16777216 : 16777216] | print V window [0 : 16777217]', 'a,b | 0,0 | 0,-7 | a,b | line 7: BadWindow'),
]]
OTHERS = [found._replace(csv=b'a,b\n1,-10\n2,-20\n3,-30\n4,-40\n') if '"d.csv"' in found.script else found._replace(files={'f': file_of(BYTE, '[3] as soa(multi, row)', '01 02 03')}) if '"f"' in found.script else found for found in OTHERS]


# thrown

def thrown_case(number, depth, form_of):
    dice = Dice(6666 * depth + number)
    record, extents = dice.of(sorted(RECORDS)), dice.of(EXTENTS)
    mapping = counted_form(dice, record, depth, form_of)
    rows = 1
    for extent in extents:
        rows *= extent
    plate = Plate(RECORDS[record], extents, mapping, [[TYPES[kind][0] + dice.below(2 ** 31) * dice.below(2 ** 31) for _, kind in RECORDS[record]] for _ in range(rows)])
    data = plate.dataset()
    plate.touch_all()
    script, due = [f'record P {{ {record} }}', f'load V : P {written(extents)} wrap as {text_of(mapping)} from "d.csv"'], []
    for _ in range(1 + dice.below(3)):
        window = thrown_window(dice, extents)
        script, due = script + [f'print V {window_text(window)}'], due + [plate.print_window(window)]
    lines, printed = shown_behind(plate, mapping, thrown_window(dice, extents))
    return Case(f'window_thrown_of_depth_{depth}_number_{number}', TWO + ' | '.join(script + lines), ' | '.join(due + printed), data)


THROWN = [thrown_case(number, depth, form_of) for depth in range(1, 9) for number, form_of in enumerate([thrown_form, thrown_widths])]

CASES = PRINTED + REFUSED + SYNTAX + OTHERS + THROWN
