"""Lines: what is read, where a syntax fault is told, and the script's bytes."""
from .case import BOTH, Case, PAIR

LOADING = 'load V : P [?] as M '
SETTING = 'update V set a = '
GREATEST = str(2 ** 127 - 1)

# name, line, column
FAULTS = [
    ('no_command', 'fetch V', 1), ('a_command_in_capitals', 'PRINT V', 1), ('a_number_first', '1 print V', 1), ('a_sign_first', ': print', 1),
    ('a_string_first', '"print" V', 1), ('a_reserved_word_first', 'min V', 1),
    ('print_alone', 'print', 6), ('print_of_two', 'print V V', 9), ('print_of_a_number', 'print 5', 7), ('print_of_a_reserved_word', 'print not', 7),
    ('print_of_an_index', 'print i0', 7), ('print_of_a_path', 'print V.a', 8), ('print_with_a_comma', 'print V, W', 8),
    ('record_alone', 'record', 7), ('record_without_fields', 'record P', 9), ('record_that_ends_behind_its_bracket', 'record P {', 11),
    ('record_of_no_field', 'record P { }', 12), ('record_field_without_type', 'record P { a }', 14), ('record_field_with_no_type', 'record P { a: }', 15),
    ('record_field_of_an_unknown_type', 'record P { a:f32 }', 14), ('record_field_of_a_type_in_capitals', 'record P { a:U8 }', 14),
    ('record_with_a_last_comma', 'record P { a:u8, }', 18), ('record_without_a_comma', 'record P { a:u8 b:u8 }', 17),
    ('record_that_is_open', 'record P { b { c:u8 }', 22), ('record_closed_twice', 'record P { a:u8 } }', 19),
    ('record_closed_by_another_bracket', 'record P { a:u8 )', 17), ('record_array_without_length', 'record P { a:u8[] }', 17),
    ('record_array_of_a_name', 'record P { a:u8[n] }', 17), ('record_array_below_none', 'record P { a:u8[-1] }', 17),
    ('record_array_past_32_bits', 'record P { a:u8[4294967296] }', 17), ('record_array_that_is_open', 'record P { a:u8[2 }', 19),
    ('record_array_of_itself', 'record P { a:u8 }[2]', 18), ('record_of_a_reserved_name', 'record not { a:u8 }', 8),
    ('record_field_of_a_reserved_name', 'record P { i0:u8 }', 12), ('record_with_an_array_before_its_fields', 'record P { a[2] { b:u8 } }', 13),
    ('record_of_a_type', 'record P : u8', 10),
    ('mapping_alone', 'mapping', 8), ('mapping_without_a_sign', 'mapping M', 10), ('mapping_of_nothing', 'mapping M =', 12),
    ('mapping_of_two_signs', 'mapping M == N', 11), ('mapping_of_a_reserved_word', 'mapping M = min', 13), ('mapping_of_a_number', 'mapping M = 8', 13),
    ('mapping_of_two_names', 'mapping M = aos N', 17), ('mapping_of_a_name_with_brackets', 'mapping M = N()', 14),
    ('aos_that_is_open', 'mapping M = aos(', 17), ('aos_of_an_unknown_form', 'mapping M = aos(tight, row)', 17),
    ('aos_of_a_form_of_soa', 'mapping M = aos(multi, row)', 17), ('aos_without_a_comma', 'mapping M = aos(packed row)', 24),
    ('aos_of_an_unknown_order', 'mapping M = aos(packed, diagonal)', 25), ('aos_without_an_order', 'mapping M = aos(packed)', 23),
    ('aos_that_is_not_closed', 'mapping M = aos(packed, row', 28), ('soa_of_a_form_of_aos', 'mapping M = soa(packed, row)', 17),
    ('aosoa_without_lanes', 'mapping M = aosoa(row)', 19), ('aosoa_past_32_bits', 'mapping M = aosoa(4294967296, row)', 19),
    ('aosoa_below_none', 'mapping M = aosoa(-8, row)', 19), ('bitaos_without_an_order', 'mapping M = bitaos(12)', 22),
    ('bitsoa_without_a_width', 'mapping M = bitsoa(row)', 20), ('split_of_one', 'mapping M = split(a, M)', 23), ('split_of_a_number', 'mapping M = split(1, M, N)', 19),
    ('byteswap_of_nothing', 'mapping M = byteswap()', 22), ('bytesplit_of_two', 'mapping M = bytesplit(M, N)', 24),
    ('change_to_a_flag', 'mapping M = change(i32->bool, M)', 25), ('change_without_an_arrow', 'mapping M = change(i32-i16, M)', 23),
    ('change_of_an_unknown_type', 'mapping M = change(f32->i16, M)', 20), ('count_of_a_number', 'mapping M = count(4, M)', 19),
    ('heat_without_a_number', 'mapping M = heat(M)', 18),
    ('view_alone', 'view', 5), ('view_of_nothing', 'view V', 7), ('view_without_a_colon', 'view V P [1] as M', 8), ('view_without_extents', 'view V : P as M', 12),
    ('view_that_is_open', 'view V : P [', 13), ('view_of_no_extent', 'view V : P [] as M', 13), ('view_of_a_question_mark', 'view V : P [?] as M', 13),
    ('view_with_a_last_comma', 'view V : P [1,] as M', 15), ('view_without_as', 'view V : P [1] M', 16), ('view_without_a_mapping', 'view V : P [1] as', 18),
    ('view_from_a_file', 'view V : P [1] as M from "d"', 21), ('view_past_32_bits', 'view V : P [4294967296] as M', 13),
    ('load_without_a_file', LOADING[:-1], 20), ('load_from_nothing', LOADING + 'from', 25), ('load_from_a_name', LOADING + 'from d.csv', 26),
    ('load_from_no_byte', LOADING + 'from ""', 26), ('load_from_a_string_that_is_open', LOADING + 'from "d.csv', 26),
    ('load_from_a_string_with_a_backslash', LOADING + 'from "a\\b"', 26), ('load_from_a_string_with_a_tab', LOADING + 'from "a\tb"', 26),
    ('load_from_a_string_in_other_quotes', LOADING + "from 'd.csv'", 26), ('load_from_two_files', LOADING + 'from "d" "e"', 30),
    ('load_of_two_question_marks_in_one_place', 'load V : P [??] as M from "d"', 14),
    ('set_without_an_index', 'set V.a = 1', 6), ('set_without_a_path', 'set V[0] = 1', 10), ('set_at_an_index_name', 'set V[i0].a = 1', 7),
    ('set_of_no_index', 'set V[].a = 1', 7), ('set_without_a_sign', 'set V[0].a 1', 12), ('set_to_nothing', 'set V[0].a =', 13),
    ('set_by_a_comparison', 'set V[0].a == 1', 12), ('set_of_two', 'set V[0].a = 1, b = 2', 15), ('set_of_a_number', 'set V[0].5 = 1', 10),
    ('set_of_a_reserved_name', 'set V[0].min = 1', 10), ('set_at_an_expression', 'set V[1+1].a = 1', 8), ('set_below_the_first_row', 'set V[-1].a = 1', 7),
    ('update_alone', 'update V', 9), ('update_of_nothing', 'update V set', 13), ('update_without_set', 'update V a = 1', 10),
    ('update_whose_set_is_its_filter', 'update V where set a = 1', 20), ('update_with_a_last_comma', SETTING + '1,', 20),
    ('update_without_a_comma', SETTING + '1 b = 2', 20), ('update_of_a_sum', 'update V set a + 1 = 2', 16), ('update_with_where_behind', SETTING + '1 where b', 20),
    ('kernel_without_lanes', 'kernel V sum(y)', 16), ('kernel_unknown', 'kernel V total(y) lanes 4', 10), ('kernel_of_a_path_for_a_number', 'kernel V axpy(x, x, y) lanes 4', 15),
    ('kernel_with_one_sign', 'kernel V count_where(y = 4) lanes 1', 24), ('kernel_with_too_few', 'kernel V clamp(y, 0) lanes 4', 20),
    ('kernel_of_a_name_for_lanes', 'kernel V sum(y) lanes x', 23), ('kernel_below_no_lane', 'kernel V sum(y) lanes -1', 23),
    ('kernel_with_two_minuses', 'kernel V axpy(--1, x, y) lanes 4', 16),
    ('reduce_alone', 'reduce V', 9), ('reduce_unknown', 'reduce V mean a', 10), ('reduce_of_nothing', 'reduce V sum', 13), ('reduce_count_without_where', 'reduce V count a', 16),
    ('reduce_count_of_nothing', 'reduce V count where', 21), ('reduce_of_a_sum', 'reduce V sum a + 1', 16), ('reduce_of_a_number', 'reduce V sum 1', 14),
    ('reduce_at_an_index_name', 'reduce V sum a[i0]', 16), ('reduce_with_brackets', 'reduce V min(a)', 13), ('reduce_with_where', 'reduce V sum a where b', 16),
    ('copy_without_to', 'copy V W', 8), ('copy_to_nothing', 'copy V to', 10), ('relayout_without_as', 'relayout V M', 12), ('counts_alone', 'counts', 7),
    ('heat_of_two', 'heat V 64', 8), ('layout_of_two', 'layout V W', 10), ('drop_of_two', 'drop V W', 8), ('drop_of_a_number', 'drop 5', 6),
    ('bytes_of_no_blob', 'bytes V', 8), ('bytes_of_a_name', 'bytes V x', 9), ('bytes_of_two_blobs', 'bytes V 0 1', 11), ('bytes_below_no_blob', 'bytes V -1', 9),
    ('bytes_past_32_bits', 'bytes V 4294967296', 9),
]

# name, expression, column in the expression
EXPRESSIONS = [
    ('no_right_side', '1 +', 4), ('no_left_side', '* 2', 1), ('two_numbers', '1 2', 3), ('an_open_bracket', '(1', 3), ('a_closed_bracket', '1)', 2),
    ('empty_brackets', '()', 2), ('a_chain_of_comparisons', '1 < 2 < 3', 7), ('a_chain_of_equalities', '1 == 1 == 1', 8), ('not_behind_a_comparison', '1 == not 2', 6),
    ('not_behind_a_sum', '1 + not 2', 5), ('not_alone', 'not', 4), ('and_without_a_right_side', '1 and', 6), ('and_first', 'and 1', 1), ('or_twice', '1 or or 2', 6),
    ('min_of_one', 'min(1)', 6), ('min_without_brackets', 'min 1', 5), ('max_of_three', 'max(1, 2, 3)', 9), ('a_path_that_ends_at_its_point', 'a.', 3),
    ('an_open_element', 'a[1', 4), ('an_element_of_nothing', 'a[', 3), ('an_element_of_a_name', 'a[b]', 3), ('an_element_with_a_point', 'a[1.5]', 4),
    ('an_element_past_32_bits', 'a[4294967296]', 3), ('a_number_with_a_point', '1.5', 2), ('one_equal_sign', 'a = 1', 3), ('an_ampersand', 'a & b', 3),
    ('an_exclamation_mark', '!a', 1), ('half_an_inequality', 'a ! b', 3), ('an_inequality_of_nothing', 'a !=', 5), ('a_plus_as_a_sign', '+1', 1), ('a_minus_alone', '-', 2),
    ('an_arrow', 'a->b', 2), ('a_minus_and_a_greater', 'a - > b', 5), ('a_string', '"x"', 1), ('a_question_mark', 'a ? b', 3), ('braces', '{1}', 1),
    ('square_brackets', '[1]', 1), ('a_number_with_letters', '12ab', 3), ('a_name_behind_a_point_with_a_digit', 'a.1b', 3),
    ('a_reserved_word_in_a_path', 'a.and', 3), ('a_power', '2 ** 3', 4), ('an_underscore_in_a_number', '1_000', 2), ('a_colon', 'a : 1', 3),
    ('a_number_past_127_bits', str(2 ** 127), 1), ('a_number_of_100_digits', '1 + ' + '9' * 100, 5), ('a_word_of_33_bytes', 'a' * 33, 1),
    ('a_word_of_33_bytes_behind_a_point', 'a.' + 'b' * 33, 3), ('a_letter_past_ascii', 'ä', 1), ('an_index_without_number', 'i + 1', None), ('a_dollar', '1 + $x', 5),
]

SYNTAX = [Case(f'syntax_{name}', line, f'line 1: Syntax column {column}') for name, line, column in FAULTS] + [
    Case(f'syntax_expression_with_{name}', SETTING + text, f'line 1: Syntax column {17 + column}')
    for name, text, column in EXPRESSIONS if column is not None]

BAD = [
    Case('bad_token_behind_a_command', 'print V;', 'line 1: Syntax column 8'),
    Case('bad_token_behind_a_useless_one', 'print V V ;', 'line 1: Syntax column 9'),
    Case('bad_token_before_a_useless_one', 'print ; V V', 'line 1: Syntax column 7'),
    Case('bad_token_before_a_comment', 'print V @ # note', 'line 1: Syntax column 9'),
    Case('bad_token_of_a_quote_behind_a_command', 'print V "', 'line 1: Syntax column 9'),
    Case('bad_token_of_a_quote_before_a_comment', 'print V " # "', 'line 1: Syntax column 9'),
    Case('bad_token_of_a_null_byte', b'print V \x00\n', 'line 1: Syntax column 9'),
    Case('bad_token_of_a_byte_past_ascii', b'print V\xff\n', 'line 1: Syntax column 8'),
    Case('bad_token_of_another_blank', b'print\xc2\xa0V\n', 'line 1: Syntax column 6'),
    Case('bad_token_of_a_form_feed', b'print\x0cV\n', 'line 1: Syntax column 6'),
    Case('column_counts_a_tab_as_one', b'print\tV\t\tV\n', 'line 1: Syntax column 10'),
    Case('column_counts_blanks_before_the_line', '   print V V', 'line 1: Syntax column 12'),
    Case('column_past_the_last_token_and_not_the_line', 'print   # note', 'line 1: Syntax column 6'),
    Case('column_of_a_later_line', BOTH + 'set V[0].a = (1', 'line 3: Syntax column 16'),
]

READ = [
    Case('line_without_blanks', 'record P{a:u8,b:i32}|view V:P[1]as soa(multi,row)|set V[0].a=1+2*3|print V'.replace('|', ' | '), 'a,b | 7,0'),
    Case('line_with_blanks_between_all_tokens', 'record  P\t{ a : u8 , h : u8 [ 2 ] } | view V : P [ 1 , 1 ] as aos ( packed , row ) | '
         'set V [ 0 , 0 ] . h [ 1 ] = max ( 1 , 2 ) | print V \t ', 'a,h[0],h[1] | 0,0,2'),
    Case('line_with_leading_zeros', 'record P { h:u8[02] } | view V : P [0001] as aosoa(008, row) | set V[000].h[01] = 0009 | bytes V 00',
         '00 00 00 00 00 00 00 00 09 00 00 00 00 00 00 00'),
    Case('line_with_words_beside_numbers', 'record P { a:u8 } | view V : P [1]as soa(multi,row) | update V where 1set a=2 | print V', 'a | 2'),
    Case('line_with_a_comment_behind', PAIR + 'view V : P [1] as soa(multi, row)# a view "of | print V#', 'a,b | 0,0'),
    Case('line_with_signs_side_by_side', BOTH + 'update V set b = 2--3, a = 1<-1 | reduce V sum b', '15'),
    Case('line_with_not_before_a_bracket', BOTH + 'update V where not(a)and not(b)set a=not(1)or(1) | reduce V sum a', '3'),
    Case('line_with_an_index_that_is_a_name', 'record P { i:u8, i4:u8, i00:u8 } | view V : P [1] as soa(multi, row) | set V[0].i = i4 + i00 + 1 | print V',
         'i,i4,i00 | 1,0,0'),
]

MARK = b'\xef\xbb\xbf'
SMALL = b'record P { a:u8 }\nview V : P [1] as soa(multi, row)\nprint V\n'
SCRIPTS = [
    Case('script_with_a_byte_order_mark', MARK + SMALL, 'a | 0'),
    Case('script_with_two_byte_order_marks', MARK + MARK + SMALL, 'line 1: Syntax column 1'),
    Case('script_with_a_mark_in_its_second_line', b'\n' + MARK + SMALL, 'line 2: Syntax column 1'),
    Case('script_with_half_a_mark', b'\xef\xbb' + SMALL, 'line 1: Syntax column 1'),
    Case('script_of_a_mark_alone', MARK, ''),
    Case('script_of_a_mark_and_a_line_end', MARK + b'\n', ''),
    Case('script_with_a_mark_counts_columns_behind_it', MARK + b'print V V\n', 'line 1: Syntax column 9'),
    Case('script_without_bytes', b'', ''),
    Case('script_of_a_line_end', b'\n', ''),
    Case('script_of_a_carriage_return', b'\r', ''),
    Case('script_of_blank_lines', b'\n \n\t\t\n\r\n  \r\n', ''),
    Case('script_of_comments', b'# note\n  # "note\n#\xff\x00\n##\n', ''),
    Case('script_with_carriage_returns', SMALL.replace(b'\n', b'\r\n'), 'a | 0'),
    Case('script_with_carriage_returns_in_some_lines', SMALL.replace(b'}\n', b'}\r\n'), 'a | 0'),
    Case('script_that_ends_with_a_carriage_return', SMALL[:-1] + b'\r', 'a | 0'),
    Case('script_without_a_last_line_end', SMALL[:-1], 'a | 0'),
    Case('script_with_two_carriage_returns_in_a_line', b'print V\r\r\n', 'line 1: Syntax column 8'),
    Case('script_with_two_carriage_returns_at_its_end', b'print V\r\r', 'line 1: Syntax column 8'),
    Case('script_with_a_carriage_return_inside_a_line', b'print V\r V\n', 'line 1: Syntax column 8'),
    Case('script_with_lines_that_carriage_returns_end', SMALL.replace(b'\n', b'\r'), 'line 1: Syntax column 18'),
    Case('script_with_a_carriage_return_in_a_comment', b'# a\rb\r\r\n' + SMALL, 'a | 0'),
    Case('script_counts_blank_lines_and_comments', b'\n# note\n\r\n' + SMALL + b'\n  \nprint W\n', 'a | 0 | line 9: Unknown W'),
    Case('script_tells_the_line_of_a_last_line_without_end', SMALL + b'print W', 'a | 0 | line 4: Unknown W'),
    Case('script_with_a_comment_without_line_end', SMALL + b'# note', 'a | 0'),
    Case('script_prints_what_stood_before_its_fault', SMALL + SMALL, 'a | 0 | line 4: Taken P'),
]

CASES = SYNTAX + BAD + READ + SCRIPTS
