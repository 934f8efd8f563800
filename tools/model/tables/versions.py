"""Version lines: where one stands, which numbers it may say, and what is read in one version alone.

Where a fault is a token, `^` stands before that token in the lines below.
"""
from . import commands, wraps
from .case import Case, in_version_2

MARK = b'\xef\xbb\xbf'
MOST_LINE = 4096
# a leaf in 12 bits: as a version 2 script alone says it, and as any script does
CHOSEN = 'record P { a:u16 } | view V : P [1] as bitaos(8 { a: 12 }, row) | set V[0].a = 2748 | bytes V 0'
PLAIN = CHOSEN.replace('8 { a: 12 }', '12')
SHOWN = 'bc 0a 00 00 00 00 00 00'
BRACE = 'Syntax column 28'


def in_bytes(text, end=b'\n'):
    return b''.join(line.encode() + end for line in text.split(' | '))


def marked(line):
    """The line without its mark, and the column of what stands behind the mark."""
    return line.replace('^', ''), line.index('^') + 1


# a version line that is right

WHOLE = in_bytes(CHOSEN)
SECOND = [
    Case('version_2_on_the_first_line', 'version 2 | ' + CHOSEN, SHOWN),
    Case('version_2_behind_comments', '# version 1 | # version 3 | version 2 | ' + CHOSEN, SHOWN),
    Case('version_2_behind_blank_lines', b'\n \n\t\t\n   # note\nversion 2\n' + WHOLE, SHOWN),
    Case('version_2_behind_a_comment_of_any_bytes', b'#\xff\x00\r\t"\n' + b'version 2\n' + WHOLE, SHOWN),
    Case('version_2_behind_a_byte_order_mark', MARK + b'version 2\n' + WHOLE, SHOWN),
    Case('version_2_behind_a_mark_and_blank_lines', MARK + b'\n# note\nversion 2\n' + WHOLE, SHOWN),
    Case('version_2_with_carriage_returns', in_bytes('version 2 | ' + CHOSEN, b'\r\n'), SHOWN),
    Case('version_2_behind_carriage_returns', b'\r\n  \r\n# note\r\nversion 2\r\n' + WHOLE, SHOWN),
    Case('version_2_between_blanks', b' \t version\t \t2 \t \n' + WHOLE, SHOWN),
    Case('version_2_between_tabs', b'\tversion\t2\t\n' + WHOLE, SHOWN),
    Case('version_2_before_a_comment', b'version 2 # version 3\n' + WHOLE, SHOWN),
    Case('version_2_right_before_a_comment', b'version 2#\xff\x00\n' + WHOLE, SHOWN),
    Case('version_2_with_a_leading_zero', 'version 02 | ' + CHOSEN, SHOWN),
    Case('version_2_with_4087_leading_zeros', f'version {"2".zfill(MOST_LINE - 8)} | ' + CHOSEN, SHOWN),
    Case('version_2_in_4096_bytes_by_blanks', 'version' + '2 | '.rjust(MOST_LINE - 4) + CHOSEN, SHOWN),
    Case('version_2_in_4096_bytes_by_a_comment', 'version 2 '.ljust(MOST_LINE, '#') + ' | ' + CHOSEN, SHOWN),
    Case('version_2_in_4096_bytes_before_a_carriage_return', b'version 2 '.ljust(MOST_LINE, b'#') + b'\r\n' + WHOLE, SHOWN),
    Case('version_2_behind_a_comment_of_4096_bytes', '#' * MOST_LINE + ' | version 2 | ' + CHOSEN, SHOWN),
    Case('version_2_behind_4096_blanks', b' ' * MOST_LINE + b'\nversion 2\n' + WHOLE, SHOWN),
    Case('version_2_behind_1000_lines', b'\n' * 1000 + b'version 2\n' + WHOLE + b'print W\n', SHOWN + ' | line 1006: Unknown W'),
    Case('version_2_counts_the_lines_before_it', '# | # | # | version 2 | print V', 'line 5: Unknown V'),
    Case('version_2_reads_what_version_1_has', 'version 2 | ' + PLAIN, SHOWN),
]

FIRST = [
    Case('version_1_on_the_first_line', 'version 1 | ' + PLAIN, SHOWN),
    Case('version_1_with_leading_zeros', 'version 001 | ' + PLAIN, SHOWN),
    Case('version_1_behind_comments', '# version 2 | # note | version 1 | ' + PLAIN, SHOWN),
    Case('version_1_behind_a_byte_order_mark', MARK + b'version 1\r\n' + in_bytes(PLAIN, b'\r\n'), SHOWN),
    Case('version_1_counts_its_line', 'version 1 | print V', 'line 2: Unknown V'),
    Case('version_1_has_no_widths_of_leaves', 'version 1 | ' + CHOSEN, f'line 3: {BRACE}'),
    Case('version_1_where_there_is_no_version_line', PLAIN, SHOWN),
    Case('version_1_without_a_version_line_has_no_widths_of_leaves', CHOSEN, f'line 2: {BRACE}'),
    Case('version_1_where_a_comment_says_2', '# version 2 | ' + CHOSEN, f'line 3: {BRACE}'),
]

ALONE = [
    Case('version_2_alone', 'version 2', ''), Case('version_1_alone', 'version 1', ''), Case('version_2_alone_without_a_line_end', b'version 2', ''),
    Case('version_2_alone_before_a_carriage_return', b'version 2\r', ''), Case('version_2_alone_behind_a_mark', MARK + b'version 2', ''),
    Case('version_2_before_blank_lines_alone', 'version 2 | # note |  | # note', ''),
    Case('version_2_as_the_last_of_65536_lines', None, '', make="{ yes '' | head -n 65535; echo 'version 2'; } >script.llama\n"),
]


# numbers of no version

NUMBERS = [Case(f'version_{number}', f'version {number} | ' + PLAIN, 'line 1: BadVersion') for number in (
    '0', '00', '3', '03', '4', '10', '11', '12', '20', '21', '22', '257', '258', '65537', '65538', '2147483650', '4294967295')]
OTHERS = [
    Case('version_3_alone', 'version 3', 'line 1: BadVersion'),
    Case('version_3_behind_comments', '# note |  | # version 2 | version 3 | ' + CHOSEN, 'line 4: BadVersion'),
    Case('version_3_behind_a_byte_order_mark', MARK + b'\nversion 3\n', 'line 2: BadVersion'),
    Case('version_3_with_carriage_returns', b'\r\nversion 3\r\n', 'line 2: BadVersion'),
    Case('version_3_between_blanks', b'\t version \t3\t # note\n', 'line 1: BadVersion'),
    Case('version_3_without_a_line_end', b'# note\nversion 3', 'line 2: BadVersion'),
    Case('version_3_before_a_carriage_return', b'version 3\r', 'line 1: BadVersion'),
    Case('version_3_in_4096_bytes', 'version 3 '.ljust(MOST_LINE, '#'), 'line 1: BadVersion'),
    Case('version_3_behind_a_comment_of_4096_bytes', '#' * MOST_LINE + ' | version 3', 'line 2: BadVersion'),
    Case('version_3_as_the_last_of_65536_lines', None, 'line 65536: BadVersion', make="{ yes '' | head -n 65535; echo 'version 3'; } >script.llama\n"),
    Case('version_3_before_version_2', 'version 3 | version 2 | ' + CHOSEN, 'line 1: BadVersion'),
    Case('version_3_before_a_syntax_fault', 'version 3 | { | print V V', 'line 1: BadVersion'),
    Case('version_3_before_a_long_line', 'version 3 | ' + '#' * (MOST_LINE + 1), 'line 1: BadVersion'),
    Case('version_3_before_a_file_that_is_not_there', 'version 3 | record P { a:u8 } | load V : P [?] as soa(multi, row) from "none.csv"', 'line 1: BadVersion'),
    Case('version_0_into_a_full_output', 'version 0', 'line 1: BadVersion', into='/dev/full'),
    Case('version_3_of_too_many_lines', None, 'line 0: ScriptTooLong', make="{ echo 'version 3'; yes '' | head -n 65536; } >script.llama\n"),
    Case('version_3_of_too_many_bytes', None, 'line 0: ScriptTooLong', make="{ echo 'version 3'; yes '# note' | head -c 1048576; } >script.llama\n"),
]


# a first line that is no version line: no line of either version begins with it

NONE = [Case(f'version_line_{name}', f'{line} | {PLAIN}', 'line 1: Syntax column 1') for name, line in (
    ('without_a_number', 'version'), ('of_two_numbers', 'version 2 3'), ('of_one_number_twice', 'version 2 2'), ('twice_in_a_line', 'version 2 version 2'), ('of_a_word', 'version two'),
    ('of_a_string', 'version "2"'), ('below_none', 'version -2'), ('with_a_point', 'version 2.0'), ('with_a_semicolon', 'version 2;'), ('with_an_equal_sign', 'version = 2'),
    ('with_a_colon', 'version: 2'), ('in_brackets', 'version (2)'), ('in_braces', 'version { 2 }'), ('without_a_blank', 'version2'), ('with_letters_behind', 'version 2a'),
    ('in_hexadecimal', 'version 0x2'), ('of_a_question_mark', 'version ?'), ('with_a_capital', 'Version 2'), ('in_capitals', 'VERSION 2'), ('of_another_word', 'versions 2'),
    ('of_a_shorter_word', 'ver 2'), ('of_a_number_alone', '2'), ('with_its_number_first', '2 version'), ('of_2_to_the_32', 'version 4294967296'), ('of_2_to_the_32_and_2', 'version 4294967298'),
    ('of_2_to_the_64_and_2', 'version 18446744073709551618'), ('of_2_to_the_127', f'version {2 ** 127}'), ('of_100_digits', 'version ' + '2' * 100), ('before_a_command', 'version 2 print V'),
    ('before_a_bad_token', 'version 2 @'), ('before_a_quote', 'version 2 "'), ('whose_number_is_a_comment', 'version # 2'), ('in_quotes', '"version" 2'))] + [
    Case('version_line_over_two_lines', 'version | 2 | ' + PLAIN, 'line 1: Syntax column 1'),
    Case('version_line_of_two_numbers_behind_blanks', b'  version 2 2\n', 'line 1: Syntax column 3'),
    Case('version_line_behind_two_byte_order_marks', MARK + MARK + b'version 2\n', 'line 1: Syntax column 1'),
    Case('version_line_behind_half_a_mark', MARK[:2] + b'version 2\n', 'line 1: Syntax column 1'),
    Case('version_line_with_two_carriage_returns', b'version 2\r\r\n', 'line 1: Syntax column 1'),
    Case('version_line_between_other_blanks', 'version\u00a02\n'.encode(), 'line 1: Syntax column 1'),
    Case('version_line_behind_one_that_is_none', 'version 2 2 | version 2', 'line 1: Syntax column 1'),
]


# a version line that stands behind another line

LATE = [
    Case('version_2_behind_a_record', 'record P { a:u8 } | version 2', 'line 2: Syntax column 1'),
    Case('version_1_behind_a_record', 'record P { a:u8 } | version 1', 'line 2: Syntax column 1'),
    Case('version_3_behind_a_record', 'record P { a:u8 } | version 3', 'line 2: Syntax column 1'),
    Case('version_2_twice', 'version 2 | version 2 | ' + CHOSEN, 'line 2: Syntax column 1'),
    Case('version_2_behind_version_1', 'version 1 | version 2 | ' + CHOSEN, 'line 2: Syntax column 1'),
    Case('version_1_behind_version_2', 'version 2 | version 1 | ' + PLAIN, 'line 2: Syntax column 1'),
    Case('version_3_behind_version_2', 'version 2 | version 3', 'line 2: Syntax column 1'),
    Case('version_2_behind_version_2_and_comments', 'version 2 | # note |  |   version 2', 'line 4: Syntax column 3'),
    Case('version_2_in_the_middle', CHOSEN.replace(' | set', ' | version 2 | set').replace('8 { a: 12 }', '12'), 'line 3: Syntax column 1'),
    Case('version_2_at_the_end', PLAIN + ' | version 2', SHOWN + ' | line 5: Syntax column 1'),
    Case('version_2_at_the_end_of_a_script_of_version_2', 'version 2 | ' + CHOSEN + ' | version 2', SHOWN + ' | line 6: Syntax column 1'),
    Case('version_2_behind_a_line_that_is_refused', 'print V | version 2', 'line 1: Unknown V'),
    Case('version_2_behind_a_syntax_fault', 'drop | version 2', 'line 1: Syntax column 5'),
    Case('version_3_behind_a_syntax_fault', '{ | version 3', 'line 1: Syntax column 1'),
    Case('version_2_behind_a_bad_token', b'\x00\nversion 2\n', 'line 1: Syntax column 1'),
]

LONG = [
    Case('version_2_in_4097_bytes_by_a_comment', 'version 2 '.ljust(MOST_LINE + 1, '#') + ' | ' + CHOSEN, 'line 1: LineTooLong'),
    Case('version_2_in_4097_bytes_by_blanks', b'version 2'.ljust(MOST_LINE + 1) + b'\n' + WHOLE, 'line 1: LineTooLong'),
    Case('version_2_in_4097_bytes_by_leading_zeros', f'version {"2".zfill(MOST_LINE - 7)} | ' + CHOSEN, 'line 1: LineTooLong'),
    Case('version_3_in_4097_bytes', 'version 3 '.ljust(MOST_LINE + 1, '#'), 'line 1: LineTooLong'),
    Case('version_3_in_4097_bytes_behind_comments', '# note | # note | ' + 'version 3 '.ljust(MOST_LINE + 1, '#'), 'line 3: LineTooLong'),
    Case('version_2_behind_a_comment_of_4097_bytes', '#' * (MOST_LINE + 1) + ' | version 2 | ' + CHOSEN, 'line 1: LineTooLong'),
    Case('version_3_behind_a_comment_of_4097_bytes', '#' * (MOST_LINE + 1) + ' | version 3', 'line 1: LineTooLong'),
    Case('version_3_behind_4097_blanks', b' ' * (MOST_LINE + 1) + b'\nversion 3\n', 'line 1: LineTooLong'),
    Case('version_2_before_a_line_of_4097_bytes', 'version 2 | ' + '#' * (MOST_LINE + 1), 'line 2: LineTooLong'),
]


# `version` as a name

NAMES = [
    Case('version_is_a_name_in_version_2', 'version 2 | record version { version:u8 } | mapping version = bitaos(8 { version: 3 }, row) | view version : version [1] as version | '
         'set version[0].version = 5 | print version | set version[0].version = version + 3', 'version | 5 | line 7: Narrow record 0 leaf version'),
    Case('version_is_a_name_in_version_1', 'record version { version:u8 } | mapping version = bitaos(3, row) | view version : version [1] as version | update version where version == 0 set version = 5 | '
         'print version | drop version | print version', 'version | 5 | line 7: Unknown version'),
    Case('version_is_a_name_behind_version_1', 'version 1 | record version { version:u8 } | view version : version [2] as soa(multi, row) | copy version to version | '
         'kernel version sum(version) lanes 2', '0'),
]


# widths of leaves in each place of a layout

PLACES = [
    ('bitaos', 'mapping M = bitaos(8 ^{ a: 12 }, row)', ''), ('bitsoa', 'mapping M = bitsoa(8 ^{ a: 12 }, col)', ''),
    ('two_leaves', 'mapping M = bitaos(8 ^{ a: 12, pos: 4 }, morton)', ''), ('elements', 'mapping M = bitsoa(8 ^{ h[2].x: 12, h[0]: 4, a.b.c[1][2]: 3 }, row)', ''),
    ('the_first_side_of_a_split', 'mapping M = split(a, bitaos(8 ^{ a: 12 }, row), aos(packed, row))', ''),
    ('the_second_side_of_a_split', 'mapping M = split(a, soa(multi, row), bitsoa(8 ^{ b: 12 }, row))', ''),
    ('a_byteswap', 'mapping M = byteswap(bitaos(8 ^{ a: 16 }, row))', ''), ('a_bytesplit', 'mapping M = bytesplit(bitsoa(7 ^{ a: 8 }, row))', ''),
    ('a_change', 'mapping M = change(i32->i16, bitaos(8 ^{ a: 12 }, row))', ''), ('a_count', 'mapping M = count(bitaos(8 ^{ a: 12 }, row))', ''),
    ('a_heat', 'mapping M = heat(8, bitsoa(8 ^{ a: 12 }, row))', ''),
    ('a_view', 'view V : P [2] as bitaos(8 ^{ a: 12 }, row)', 'Unknown P'), ('a_wrap_view', 'view V : P [2] wrap as bitaos(8 ^{ a: 12 }, row)', 'Unknown P'),
    ('a_load', 'load V : P [?] as bitsoa(8 ^{ a: 12 }, row) from "d.csv"', 'Unknown P'), ('a_relayout', 'relayout V as bitaos(8 ^{ a: 12 }, row)', 'Unknown V'),
]
IN_ONE = [Case(f'version_1_has_no_widths_in_{name}', line, f'line 1: Syntax column {column}') for name, (line, column) in ((name, marked(line)) for name, line, _ in PLACES)]
IN_TWO = [Case(f'version_2_has_widths_in_{name}', f'version 2 | {marked(line)[0]}', due and f'line 2: {due}') for name, line, due in PLACES]
WRITTEN = [
    Case('version_2_widths_without_blanks', 'version 2 | record P{a:u16,h:u8[2]} | view V:P[1]as bitaos(8{a:12,h[1]:3},row) | set V[0].a=2748 | set V[0].h[0]=255 | set V[0].h[1]=5 | bytes V 0',
         'bc fa 5f 00 00 00 00 00'),
    Case('version_2_widths_with_blanks_and_leading_zeros', 'version 2 | record P { a:u16, h:u8[2] } | view V : P [1] as bitaos ( 08\t{ a : 0012 ,\th [ 01 ] : 03 } , row ) | '
         'set V[0].a = 2748 | set V[0].h[0] = 255 | set V[0].h[1] = 5 | bytes V 0', 'bc fa 5f 00 00 00 00 00'),
    Case('version_2_widths_of_words_of_the_language', 'version 2 | record P { row:u8, bitaos { version:u8, where:u8 } } | '
         'view V : P [1] as bitaos(8 { row: 4, bitaos.version: 3, bitaos.where: 5 }, row) | set V[0].row = 15 | set V[0].bitaos.where = 31 | bytes V 0', '8f 0f 00 00 00 00 00 00'),
]


# what is no line of version 2

WRONG = [
    ('empty_braces', 'bitaos(8 { ^}, row)'), ('a_path_alone', 'bitaos(8 { a ^}, row)'), ('a_path_without_its_number', 'bitaos(8 { a: ^}, row)'), ('a_last_comma', 'bitaos(8 { a: 4, ^}, row)'),
    ('a_first_comma', 'bitaos(8 { ^, a: 4 }, row)'), ('two_commas', 'bitaos(8 { a: 4, ^, b: 4 }, row)'), ('entries_without_a_comma', 'bitaos(8 { a: 4 ^b: 4 }, row)'), ('an_equal_sign', 'bitaos(8 { a ^= 4 }, row)'),
    ('entry_without_a_colon', 'bitaos(8 { a ^4 }, row)'), ('two_colons', 'bitaos(8 { a: ^: 4 }, row)'), ('a_number_alone', 'bitaos(8 { ^4 }, row)'), ('a_number_first', 'bitaos(8 { ^4: a }, row)'),
    ('a_number_below_none', 'bitaos(8 { a: ^-4 }, row)'), ('a_name_for_a_number', 'bitaos(8 { a: ^b }, row)'), ('a_sum', 'bitaos(8 { a: 4 ^+ 4 }, row)'),
    ('a_number_with_a_point', 'bitaos(8 { a: 4^.5 }, row)'),
    ('a_number_past_32_bits', 'bitaos(8 { a: ^4294967296 }, row)'), ('a_number_past_127_bits', f'bitaos(8 {{ a: ^{2 ** 127} }}, row)'), ('a_type', 'bitaos(8 { a:^u8 }, row)'),
    ('a_question_mark', 'bitaos(8 { a: ^? }, row)'), ('a_reserved_word', 'bitaos(8 { ^min: 4 }, row)'), ('a_reserved_word_in_a_path', 'bitaos(8 { a.^not: 4 }, row)'),
    ('an_index_name', 'bitaos(8 { ^i0: 4 }, row)'),
    ('a_path_that_ends_at_its_point', 'bitaos(8 { a.^: 4 }, row)'), ('an_element_of_a_name', 'bitaos(8 { a[^b]: 4 }, row)'), ('an_open_element', 'bitaos(8 { a[1^: 4 }, row)'),
    ('an_element_of_nothing', 'bitaos(8 { a[^]: 4 }, row)'),
    ('an_element_past_32_bits', 'bitaos(8 { a[^4294967296]: 4 }, row)'), ('a_string', 'bitaos(8 { ^"a": 4 }, row)'), ('a_word_of_33_bytes', f'bitaos(8 {{ ^{"a" * 33}: 4 }}, row)'),
    ('a_star', 'bitaos(8 { ^*: 4 }, row)'),
    ('parentheses', 'bitaos(8 ^( a: 4 ), row)'), ('square_brackets', 'bitaos(8 ^[ a: 4 ], row)'), ('braces_that_a_parenthesis_closes', 'bitaos(8 { a: 4 ^), row)'),
    ('braces_that_are_open', 'bitaos(8 { a: 4, row^)'),
    ('braces_twice', 'bitaos(8 { a: 4 } ^{ b: 4 }, row)'), ('braces_in_braces', 'bitaos(8 { ^{ a: 4 } }, row)'), ('braces_without_a_number_before', 'bitaos(^{ a: 4 }, row)'),
    ('braces_behind_the_comma', 'bitaos(8, ^{ a: 4 }, row)'),
    ('braces_behind_the_order', 'bitaos(8, row ^{ a: 4 })'), ('braces_before_the_parenthesis', 'bitaos ^{ a: 4 }(8, row)'),
    ('braces_without_a_comma_behind', 'bitaos(8 { a: 4 } ^row)'), ('comma_without_an_order', 'bitaos(8 { a: 4 }, ^)'),
    ('braces_without_an_order', 'bitaos(8 { a: 4 }^)'), ('another_order', 'bitaos(8 { a: 4 }, ^diagonal)'), ('a_layout_for_an_order', 'bitaos(8 { a: 4 }, ^bitaos(8, row))'),
    ('braces_of_lanes', 'aosoa(8 ^{ a: 4 }, row)'), ('braces_of_structs', 'aos(packed ^{ a: 4 }, row)'), ('braces_of_arrays', 'soa(multi ^{ a: 4 }, row)'), ('braces_of_a_granule', 'heat(8 ^{ a: 4 }, N)'),
    ('braces_of_a_split', 'split(a ^{ a: 4 }, N, N)'), ('braces_of_a_type', 'change(i32 ^{ a: 4 }->i16, N)'), ('braces_of_a_name', 'N ^{ a: 4 }'), ('braces_in_capitals', 'BITAOS^(8 { a: 4 }, row)'),
]
# where a layout ends too soon
END = [('at_a_brace', 'bitaos(8 {'), ('at_a_path', 'bitaos(8 { a'), ('at_a_colon', 'bitaos(8 { a:'), ('at_a_number', 'bitaos(8 { a: 4'), ('at_a_comma', 'bitaos(8 { a: 4,'),
       ('behind_its_braces', 'bitaos(8 { a: 4 }'), ('at_its_order', 'bitaos(8 { a: 4 }, row')]
MARKED = [(f'has_no_{name}', text) for name, text in WRONG] + [(f'layout_that_ends_{name}', text + '^') for name, text in END]
SYNTAX = [Case(f'version_2_{name}', f'version 2 | {line}', f'line 2: Syntax column {column}') for name, (line, column) in ((name, marked(f'mapping M = {text}')) for name, text in MARKED)]


def in_brackets(before, entry):
    """An entry in so many brackets and one more, that of the bit mapping, and its braces."""
    return f'mapping M = {"count(" * before}bitaos(8 ^{{ {entry}: 4 }}, row){")" * before}'


BRACKETS = [
    Case('version_2_braces_are_the_64th_bracket', f'version 2 | {marked(in_brackets(62, "a"))[0]}', 'line 2: BadMapping Counter'),
    Case('version_2_braces_are_the_65th_bracket', f'version 2 | {marked(in_brackets(63, "a"))[0]}', f'line 2: Syntax column {marked(in_brackets(63, "a"))[1]}'),
    Case('version_2_an_element_is_the_64th_bracket', f'version 2 | {marked(in_brackets(61, "a[1]"))[0]}', 'line 2: BadMapping Counter'),
    Case('version_2_an_element_is_the_65th_bracket', f'version 2 | {marked(in_brackets(62, "a[1]"))[0]}', f'line 2: Syntax column {marked(in_brackets(62, "a[1]"))[1] + 3}'),
]


# all else is as in version 1

REST = [in_version_2(case)._replace(name=f'version_2_{case.name}') for case in commands.SETS + commands.UPDATES + commands.REDUCTIONS + commands.OTHERS + wraps.WORD]

CASES = SECOND + FIRST + ALONE + NUMBERS + OTHERS + NONE + LATE + LONG + NAMES + IN_ONE + IN_TWO + WRITTEN + SYNTAX + BRACKETS + REST
