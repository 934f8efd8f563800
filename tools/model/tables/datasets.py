"""Datasets: what is read, and each fault of a row."""
from .case import Case, LOAD

SHOW = LOAD + 'print V'
MARK = b'\xef\xbb\xbf'
NEST = 'record P { pos { x:i8 }, h:u8[2] } | load V : P [?] as soa(multi, row) from "d.csv" | print V'
FLAG = 'record P { f:bool } | load V : P [?] as aosoa(4, row) from "d.csv" | print V'


def good(name, data, due):
    return Case(name, SHOW, 'a,b | ' + due if due else 'a,b', data)


def bad(name, data, fault):
    return Case(name, SHOW, 'line 2: ' + fault, data)


def number(name, field):
    """A field that is no number, in the second row."""
    return bad(name, b'a,b\n1,2\n3,' + field + b'\n', 'Number record 1 leaf b')


ENDS = [
    good('dataset_with_a_byte_order_mark', MARK + b'a,b\n1,2\n', '1,2'),
    good('dataset_with_two_byte_order_marks', MARK + MARK + b'a,b\n1,2\n', '1,2'),
    bad('dataset_with_three_byte_order_marks', MARK + MARK + MARK + b'a,b\n1,2\n', 'MissingColumn a'),
    good('dataset_with_a_mark_before_a_quote', MARK + b'"a","b"\n1,2\n', '1,2'),
    good('dataset_with_two_marks_before_a_quote', MARK + MARK + b'"a",b\n1,2\n', '1,2'),
    bad('dataset_with_a_mark_in_a_row', b'a,b\n' + MARK + b'1,2\n', 'Number record 0 leaf a'),
    bad('dataset_with_half_a_mark', b'\xef\xbba,b\n1,2\n', 'MissingColumn a'),
    good('dataset_with_carriage_returns_and_line_feeds', b'a,b\r\n1,2\r\n3,4\r\n', '1,2 | 3,4'),
    good('dataset_with_carriage_returns_alone', b'a,b\r1,2\r3,4\r', '1,2 | 3,4'),
    good('dataset_with_ends_of_every_kind', b'a,b\n1,2\r3,4\r\n5,6', '1,2 | 3,4 | 5,6'),
    good('dataset_with_carriage_returns_behind_ignored_fields', b'a,b,note,more\r\n1,2,x,y\r\n\r\n3,4,z,\r5,6,,\n', '1,2 | 3,4 | 5,6'),
    good('dataset_with_carriage_returns_and_no_last_line_end', b'a,b\r\n1,2\r\n3,-4', '1,2 | 3,-4'),
    good('dataset_with_ignored_fields_and_no_last_line_end', b'a,b,c\n1,2,x\n3,4,y', '1,2 | 3,4'),
    good('dataset_without_a_last_line_end', b'a,b\n1,2\n3,4', '1,2 | 3,4'),
    good('dataset_with_empty_lines', b'\n\na,b\n\n1,2\n\r\n\n3,4\n\n', '1,2 | 3,4'),
    good('dataset_with_a_header_alone', b'a,b\n', ''),
    good('dataset_with_a_header_without_line_end', b'a,b', ''),
    bad('dataset_without_bytes', b'', 'MissingColumn a'),
    bad('dataset_of_a_mark_alone', MARK, 'MissingColumn a'),
    bad('dataset_of_line_ends_alone', b'\n\r\n\n', 'MissingColumn a'),
    bad('dataset_with_a_line_of_a_blank', b'a,b\n \n', 'Number record 0 leaf a'),
    bad('dataset_with_a_line_of_a_comma', b'a,b\n,\n', 'Number record 0 leaf a'),
    bad('dataset_has_no_comments', b'a,b\n# note\n', 'Number record 0 leaf a'),
    bad('dataset_ends_behind_a_comma', b'a,b\n1,', 'Number record 0 leaf b'),
]

QUOTES = [
    good('field_in_quotes', b'"a","b"\n"1","-2"\n', '1,-2'),
    good('field_in_quotes_with_blanks_at_its_ends', b'" a",b\n" 1\t","  -2"\n', '1,-2'),
    good('field_with_blanks_behind_its_quotes', b'a,b\n"1" ,"2"\t\n', '1,2'),
    good('field_with_digits_behind_its_quotes', b'a,b\n"1"2,"-"3\n', '12,-3'),
    good('ignored_field_with_commas_and_line_ends', b'a,note,b\n1,"x,y\nz\r\n",2\n', '1,2'),
    good('ignored_column_whose_name_has_a_line_end_and_a_quote', b'"a",b,"c\n"""\n1,2,"\n"\n3,4\n', '1,2 | 3,4'),
    good('ignored_field_with_quotes_in_quotes', b'a,note,b\n1,"say ""no"", then",2\n', '1,2'),
    good('ignored_field_with_a_quote_inside', b'a,note,b\n1,5" wide,2\n', '1,2'),
    good('field_in_quotes_that_the_end_closes', b'a,b\n1,"2', '1,2'),
    number('field_in_quotes_that_nothing_closes', b'"2'),
    number('field_in_quotes_with_a_line_end', b'"2\n"'),
    number('field_in_quotes_without_bytes', b'""'),
    number('field_in_quotes_of_a_tab', b'"\t"'),
    number('field_of_a_quote_in_quotes', b'""""'),
    number('field_with_a_blank_before_its_quotes', b' "2"'),
    number('field_with_a_quote_behind_a_digit', b'2"'),
    number('field_with_quotes_of_another_kind', b"'2'"),
    bad('header_in_quotes_with_a_line_end', b'"a\n",b\n1,2\n', 'MissingColumn a'),
]

# One record of several has a quote, or some have.
QUOTED_RECORDS = [
    good('quotes_in_the_header_alone', b'"a",b\n1,2\n3,4\n', '1,2 | 3,4'),
    good('quotes_in_the_first_record_alone', b'a,b\n"1",2\n3,4\n5,6\n', '1,2 | 3,4 | 5,6'),
    good('quotes_in_a_record_amid_others', b'a,b\n1,2\n3,"4"\n5,6\n', '1,2 | 3,4 | 5,6'),
    good('quotes_in_the_last_record_alone', b'a,b\n1,2\n3,4\n5,"6"\n', '1,2 | 3,4 | 5,6'),
    good('quotes_in_the_last_record_without_a_line_end', b'a,b\n1,2\n"3","4"', '1,2 | 3,4'),
    good('quotes_in_the_first_and_the_last_record', b'a,b\n"1",2\n3,4\n5,"6"', '1,2 | 3,4 | 5,6'),
    good('quotes_in_the_header_and_the_last_record', b'"a",b\n1,2\n3,4\n5,"6"\n', '1,2 | 3,4 | 5,6'),
    good('quotes_in_a_header_without_line_end', b'a,"b"', ''),
    good('quotes_in_every_other_record', b'a,b\n"1",2\n3,4\n5,"6"\n7,8\n"9","10"\n11,12\n', '1,2 | 3,4 | 5,6 | 7,8 | 9,10 | 11,12'),
    good('quotes_amid_empty_lines', b'\n\n"a",b\n\n\n1,2\n\n3,"4"\n\r\n\n5,6\n\n', '1,2 | 3,4 | 5,6'),
    good('quotes_inside_a_field_behind_the_leaves', b'a,b,note\n1,2,x\n3,4,5" wide\n5,6,x\n', '1,2 | 3,4 | 5,6'),
    good('quotes_round_a_line_end_behind_the_leaves', b'a,b,note\n1,2,x\n3,4,"y\n7,8,z"\n5,6,x\n', '1,2 | 3,4 | 5,6'),
    good('quotes_round_a_line_end_behind_the_leaves_of_the_last_record', b'a,b,note\n1,2,x\n3,4,"y\n7,8,z"', '1,2 | 3,4'),
    bad('row_before_quotes_is_short', b'a,b\n1\n"3",4\n', 'ShortRow record 0 leaf b'),
    bad('field_before_a_line_with_quotes', b'a,b\n1,2\n3,4x\n"5",6\n', 'Number record 1 leaf b'),
    good('quotes_in_a_column_that_names_no_leaf', b'a,note,b\n1,x,2\n3,"y, z",4\n5,x,6\n', '1,2 | 3,4 | 5,6'),
    good('quotes_round_a_line_end_amid_others', b'a,note,b\n1,x,2\n3,"y\nz",4\n5,x,6\n', '1,2 | 3,4 | 5,6'),
    good('quotes_round_carriage_returns_and_line_feeds', b'a,note,b\r\n1,x,2\r\n3,"y\r\n\r\nz",4\r\n5,x,6\r\n', '1,2 | 3,4 | 5,6'),
    good('quotes_before_carriage_returns_alone', b'a,b\r"1",2\r3,4\r5,"6"\r7,8', '1,2 | 3,4 | 5,6 | 7,8'),
    good('quotes_before_empty_lines', b'a,b\n"1",2\n\n\r\n3,4\n\n5,"6"\n\n', '1,2 | 3,4 | 5,6'),
    bad('fault_of_a_line_behind_quotes', b'a,b\n"1",2\n3,x\n5,6\n', 'Number record 1 leaf b'),
    bad('fault_in_quotes_behind_lines', b'a,b\n1,2\n3,"x"\n5,6\n', 'Number record 1 leaf b'),
    bad('row_in_quotes_behind_lines_is_short', b'a,b\n1,2\n"3"\n5,6\n', 'ShortRow record 1 leaf b'),
    bad('row_of_one_field_with_a_comma_in_quotes', b'a,b\n1,2\n"3,4"\n5,6\n', 'Number record 1 leaf a'),
    bad('quotes_that_nothing_closes_amid_others', b'a,b\n1,2\n3,"4\n5,6\n', 'Number record 1 leaf b'),
    bad('byte_order_mark_in_a_line_behind_quotes', b'a,b\n"1",2\n' + MARK + b'3,4\n', 'Number record 1 leaf a'),
    bad('byte_order_mark_before_quotes_in_a_row', b'a,b\n1,2\n' + MARK + b'"3",4\n', 'Number record 1 leaf a'),
]

NUMBERS = [
    good('field_with_blanks_at_its_ends', b'a,b\n 1\t,\t -2  \n', '1,-2'),
    good('field_with_a_plus', b'a,b\n+1,+2\n', '1,2'),
    good('field_of_minus_zero', b'a,b\n-0,-000\n', '0,0'),
    good('field_of_plus_zero', b'a,b\n+0,+00\n', '0,0'),
    good('field_with_leading_zeros', b'a,b\n0001,-0002\n', '1,-2'),
    good('field_of_100_digits', b'a,b\n' + b'0' * 99 + b'7,-' + b'0' * 99 + b'8\n', '7,-8'),
    good('field_of_5000_zeros', b'a,b\n' + b'0' * 5000 + b',1\n', '0,1'),
    good('fields_of_17_to_20_digits', b'a,b\n' + b'0' * 16 + b'1,' + b'0' * 17 + b'2\n' + b'0' * 18 + b'3,-' + b'0' * 19 + b'4\n', '1,2 | 3,-4'),
    good('fields_of_18_digits_behind_signs', b'a,b\n+' + b'0' * 17 + b'1,-' + b'0' * 17 + b'2\n', '1,-2'),
    bad('field_of_18_digits_past_its_range', b'a,b\n1,' + b'9' * 18 + b'\n', 'Range record 0 leaf b'),
    bad('field_of_19_digits_past_its_range', b'a,b\n1,' + b'9' * 19 + b'\n', 'Range record 0 leaf b'),
    number('field_of_17_digits_and_a_letter', b'0' * 16 + b'1x'),
    number('field_of_18_digits_and_a_letter', b'0' * 17 + b'1x'),
    number('field_of_19_digits_and_a_letter', b'0' * 18 + b'1x'),
    bad('field_of_100_digits_past_its_range', b'a,b\n' + b'9' * 100 + b',1\n', 'Range record 0 leaf a'),
    bad('field_of_100_digits_below_its_range', b'a,b\n1,-' + b'9' * 100 + b'\n', 'Range record 0 leaf b'),
    bad('field_past_64_bits_that_wraps_to_its_range', b'a,b\n18446744073709551617,1\n', 'Range record 0 leaf a'),
    bad('field_past_128_bits_that_wraps_to_its_range', b'a,b\n340282366920938463463374607431768211457,1\n', 'Range record 0 leaf a'),
    number('field_without_bytes', b''),
    number('field_of_blanks', b' \t'),
    number('field_of_a_plus', b'+'),
    number('field_of_a_minus', b'-'),
    number('field_of_plus_and_minus', b'+-1'),
    number('field_of_two_minuses', b'--1'),
    number('field_with_a_blank_behind_its_sign', b'- 1'),
    number('field_with_a_minus_behind', b'1-'),
    number('field_with_a_blank_inside', b'1 2'),
    number('field_with_a_point', b'1.0'),
    number('field_with_an_exponent', b'1e3'),
    number('field_in_hexadecimal', b'0x1f'),
    number('field_with_an_underscore', b'1_000'),
    number('field_with_an_apostrophe', b"1'000"),
    number('field_of_letters', b'one'),
    number('field_of_other_digits', '٣'.encode()),
    number('field_with_another_minus', '−1'.encode()),
    number('field_with_a_form_feed', b'1\x0c'),
    number('field_with_a_vertical_tab', b'\x0b1'),
    number('field_with_a_null_byte', b'1\x00'),
    number('field_with_another_blank', b'1\xc2\xa0'),
    number('field_of_many_digits_and_a_letter', b'9' * 100 + b'x'),
    Case('flags_are_0_and_1', FLAG, 'f | 0 | 1 | 1 | 0', b'f\n0\n1\n+01\n-0\n'),
    Case('flag_is_no_word', FLAG, 'line 2: Number record 1 leaf f', b'f\n0\ntrue\n'),
    Case('flag_of_2', FLAG, 'line 2: Range record 2 leaf f', b'f\n0\n1\n2\n'),
    Case('flag_below_0', FLAG, 'line 2: Range record 0 leaf f', b'f\n-1\n'),
]

# Leaves whose columns stand from the last to the first.
EIGHT = 'record P { h:u8[8] } | load V : P [?] as aosoa(3, col) from "d.csv" | print V'
EIGHT_BACK = b'h[7],h[6],h[5],h[4],h[3],h[2],h[1],h[0]\n'
EIGHT_ON = 'h[0],h[1],h[2],h[3],h[4],h[5],h[6],h[7]'
ROWS_BACK = b'8,7,6,5,4,3,2,1\n18,17,16,15,14,13,12,11\n'

BACKWARDS = [
    Case('columns_of_eight_leaves_in_the_opposite_order', EIGHT, EIGHT_ON + ' | 1,2,3,4,5,6,7,8 | 11,12,13,14,15,16,17,18', EIGHT_BACK + ROWS_BACK),
    Case('columns_in_the_opposite_order_with_marks', EIGHT, EIGHT_ON + ' | 1,2,3,4,5,6,7,8 | 11,12,13,14,15,16,17,18',
         MARK + MARK + EIGHT_BACK + ROWS_BACK),
    Case('columns_in_the_opposite_order_of_no_row', EIGHT, EIGHT_ON, EIGHT_BACK),
    Case('columns_in_the_opposite_order_with_a_short_row', EIGHT, 'line 2: ShortRow record 1 leaf h[0]', EIGHT_BACK + b'8,7,6,5,4,3,2,1\n8,7,6,5,4,3,2\n'),
    Case('columns_in_the_opposite_order_and_the_first_fault_is_the_first_leafs', EIGHT, 'line 2: Number record 0 leaf h[1]', EIGHT_BACK + b'x,7,6,5,4,3,y,1\n'),
    Case('columns_in_the_opposite_order_with_quotes', EIGHT, EIGHT_ON + ' | 1,2,3,4,5,6,7,8 | 11,12,13,14,15,16,17,18 | 0,0,0,0,0,0,0,9',
         EIGHT_BACK + b'8,7,6,5,4,3,2,1\n"18",17,16,"15",14,13,12,11\n9,0,0,0,0,0,0,0\n'),
    Case('columns_in_the_opposite_order_behind_others', EIGHT, EIGHT_ON + ' | 1,2,3,4,5,6,7,8',
         b'x,' * 200 + EIGHT_BACK + b'no,' * 200 + b'8,7,6,5,4,3,2,1\n'),
]

COLUMNS = [
    good('columns_are_named_in_any_order', b'b,a\n-1,2\n-3,4\n', '2,-1 | 4,-3'),
    good('columns_that_name_no_leaf_are_ignored', b'x,b,,a,y z\none,-1,,2,\xff\xfe\n', '2,-1'),
    good('columns_that_name_no_leaf_stand_twice', b'x,a,x,b,x\n9,1,9,2,9\n', '1,2'),
    good('columns_with_blanks_at_their_ends', b' a ,\tb\n1,2\n', '1,2'),
    good('row_longer_than_the_header', b'a,b\n1,2,3,x\n', '1,2'),
    good('row_shorter_than_the_header', b'a,b,c,d\n1,2\n3,4,\n', '1,2 | 3,4'),
    bad('row_without_the_last_column', b'a,b\n1,2\n3\n', 'ShortRow record 1 leaf b'),
    bad('row_without_the_column_of_the_first_leaf', b'x,b,a\n1,2\n', 'ShortRow record 0 leaf a'),
    bad('row_of_an_empty_field_is_not_short', b'a,b\n1,\n', 'Number record 0 leaf b'),
    bad('column_missing', b'a,c\n1,2\n', 'MissingColumn b'),
    bad('columns_missing', b'c,d\n1,2\n', 'MissingColumn a'),
    bad('column_of_another_case', b'A,b\n1,2\n', 'MissingColumn a'),
    bad('column_of_a_longer_name', b'aa,b\n1,2\n', 'MissingColumn a'),
    bad('column_behind_another_separator', b'a;b\n1;2\n', 'MissingColumn a'),
    bad('column_twice', b'a,b,a\n1,2,1\n', 'ColumnTwice a'),
    bad('column_twice_but_for_blanks', b'a,b, b\n1,2,2\n', 'ColumnTwice b'),
    bad('column_three_times', b'a,b,b,b\n1,2,3,4\n', 'ColumnTwice b'),
    bad('column_twice_of_the_first_leaf_before_a_missing_one', b'a,a\n1,1\n', 'ColumnTwice a'),
    bad('column_missing_of_the_first_leaf_before_one_twice', b'b,b\n1,1\n', 'MissingColumn a'),
    bad('column_twice_before_a_fault_of_a_row', b'a,b,a\nx\n', 'ColumnTwice a'),
    bad('header_of_numbers', b'1,2\n3,4\n', 'MissingColumn a'),
    Case('columns_of_paths', NEST, 'pos.x,h[0],h[1] | -1,2,3', b'h[1],pos.x,h[0]\n3,-1,2\n'),
    Case('column_of_a_path_with_blanks', NEST, 'line 2: MissingColumn pos.x', b'pos . x,h[0],h[1]\n1,2,3\n'),
    Case('column_of_a_path_with_zeros', NEST, 'line 2: MissingColumn h[0]', b'pos.x,h[00],h[1]\n1,2,3\n'),
    Case('column_of_the_last_name_of_a_path', NEST, 'line 2: MissingColumn pos.x', b'x,h[0],h[1]\n1,2,3\n'),
    Case('column_of_an_element_twice', NEST, 'line 2: ColumnTwice h[1]', b'h[1],h[0],pos.x,h[1]\n1,2,3,1\n'),
    Case('row_short_of_an_element', NEST, 'line 2: ShortRow record 1 leaf h[1]', b'pos.x,h[0],h[1]\n1,2,3\n4,5\n'),
]

EDGES = [('u8', 0, 255), ('u16', 0, 65535), ('u32', 0, 4294967295), ('u64', 0, 18446744073709551615), ('i8', -128, 127),
         ('i16', -32768, 32767), ('i32', -2147483648, 2147483647), ('i64', -9223372036854775808, 9223372036854775807)]


def edge(kind, name, values, due):
    script = f'record P {{ x:{kind} }} | load V : P [?] as soa(aligned, col) from "d.csv" | print V'
    return Case(f'load_{kind}_{name}', script, due, ''.join(f'{text}\n' for text in ['x'] + values).encode())


RANGES = [case for kind, least, greatest in EDGES for case in (
    edge(kind, 'at_the_ends_of_its_range', [least, greatest], f'x | {least} | {greatest}'),
    edge(kind, 'below_its_range', [greatest, least - 1], 'line 2: Range record 1 leaf x'),
    edge(kind, 'above_its_range', [least, greatest, greatest + 1], 'line 2: Range record 2 leaf x'))]

# Numbers beyond every range, some of which have the low bits of one within.
BEYOND = [('2_to_the_65_less_one', 2 ** 65 - 1), ('2_to_the_65', 2 ** 65), ('2_to_the_65_and_one', 2 ** 65 + 1), ('2_to_the_66', 2 ** 66),
          ('10_times_2_to_the_65_and_one', 10 * 2 ** 65 + 1), ('20_nines', 10 ** 20 - 1), ('40_digits_and_a_low_one', 2 ** 64 * 10 ** 20 + 1)]
FAR = [case for name, value in BEYOND for case in (
    edge('u64', f'of_{name}', [1, value], 'line 2: Range record 1 leaf x'),
    edge('i64', f'of_minus_{name}', [1, -value], 'line 2: Range record 1 leaf x'))] + [
    edge('u64', 'of_its_greatest_behind_zeros', ['0' * 30 + str(2 ** 64 - 1)], f'x | {2 ** 64 - 1}'),
    edge('i64', 'of_its_least_behind_zeros', ['-' + '0' * 30 + str(2 ** 63)], f'x | {-2 ** 63}')]

BIG = 'record P { a:u32 } | load V : P [?] as aosoa(16, row) from "d.csv" | '
BIGS = [
    Case('dataset_of_100000_rows', BIG + 'reduce V sum a | reduce V count where a == i0', '4999950000 | 100000',
         make='{ echo a; seq 0 99999; } >d.csv\n'),
    Case('dataset_of_100000_rows_behind_quotes', BIG + 'reduce V sum a | reduce V count where a == i0', '4999950000 | 100000',
         make="{ echo a; echo '\"0\"'; seq 1 99999; } >d.csv\n"),
    Case('dataset_of_100000_rows_in_quotes', BIG + 'reduce V sum a | reduce V count where a == i0', '4999950000 | 100000',
         make="{ echo a; seq 0 99999 | sed 's/.*/\"&\"/'; } >d.csv\n"),
    Case('dataset_with_a_fault_in_row_99999', BIG + 'print V', 'line 2: Number record 99999 leaf a',
         make='{ echo a; seq 0 99998; echo x; } >d.csv\n'),
    Case('dataset_with_a_field_of_100000_bytes', BIG + 'print V', 'a | 7',
         make='{ echo x,a; head -c 100000 /dev/zero; echo ,7; } >d.csv\n'),
    Case('dataset_with_a_number_of_100000_digits', BIG + 'print V', 'line 2: Range record 0 leaf a',
         make="{ echo a; head -c 100000 /dev/zero | tr '\\0' 9; echo; } >d.csv\n", by_hand=True),
]

PRINTED = [
    Case('what_is_printed_is_loaded_again', 'record P { f:bool, c { x:i64, y:u64 }[2] } | load V : P [?, 2] as aos(min, col) from "d.csv" | print V',
         'f,c[0].x,c[0].y,c[1].x,c[1].y | 1,-9223372036854775808,0,5,18446744073709551615 | 0,0,0,0,0 | 1,-1,1,-1,1 | 0,7,8,9,10',
         b'f,c[0].x,c[0].y,c[1].x,c[1].y\n1,-9223372036854775808,0,5,18446744073709551615\n0,0,0,0,0\n1,-1,1,-1,1\n0,7,8,9,10\n'),
]

CASES = ENDS + QUOTES + QUOTED_RECORDS + NUMBERS + COLUMNS + BACKWARDS + RANGES + FAR + BIGS + PRINTED
