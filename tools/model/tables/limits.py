"""Each limit, at it and one past it. What is big is made where the case is run."""
from .case import BOTH, Case, PAIR
from .files import file_of

BYTE = 'record P { a:u8 } | '
HALVES = 'record P { a:u64[2] } | '
WIDE = 'record P { a:u8, b:u8, c:u16, d:u32, e:u64[31] } | '
MOST_ROWS, MOST_BYTES = 2 ** 24, 2 ** 28
SETTING = 'update V set a = '


def new_views(count, behind):
    return BYTE + ''.join(f'view V{number} : P [1] as soa(multi, row) | ' for number in range(count)) + behind


VIEWS = [
    Case('limit_64_views', new_views(64, 'print V63'), 'a | 0'),
    Case('limit_65_views', new_views(64, 'view V64 : P [1] as soa(multi, row)'), 'line 66: TooManyViews'),
    Case('limit_64_views_after_one_was_dropped', new_views(64, 'drop V5 | view X : P [1] as soa(multi, row) | print X | view Y : P [1] as soa(multi, row)'),
         'a | 0 | line 69: TooManyViews'),
    Case('limit_64_views_with_a_loaded_one', new_views(63, 'load X : P [?] as soa(multi, row) from "d.csv" | print X'), 'a | 9', b'a\n9\n'),
    Case('limit_65_views_with_a_loaded_one', new_views(64, 'load X : P [?] as soa(multi, row) from "d.csv"'), 'line 66: TooManyViews', b'a\n9\n'),
    Case('limit_is_of_live_views_and_not_of_records_and_mappings', ''.join(
        f'record R_{number} {{ a:u8 }} | mapping M_{number} = aosoa({number % 64 + 1}, row) | ' for number in range(200))
        + 'view V : R_199 [2] as M_7 | bytes V 0', '00 00 00 00 00 00 00 00'),
]


def rows(name, extents, due, form='soa(multi, row)'):
    return Case(f'limit_{name}', BYTE + f'view V : P {extents} as {form} | print W', due)


GOES, TOO_MANY = 'line 3: Unknown W', 'line 2: BadExtents TooMany'
ROWS = [
    rows('2_to_the_24_rows', '[16777216]', GOES), rows('2_to_the_24_rows_and_one_more', '[16777217]', TOO_MANY),
    rows('2_to_the_24_rows_in_two_dimensions', '[4096, 4096]', GOES), rows('2_to_the_24_rows_in_two_dimensions_and_more', '[4096, 4097]', TOO_MANY),
    rows('2_to_the_24_rows_in_four_dimensions', '[64, 64, 64, 64]', GOES), rows('2_to_the_24_rows_in_four_dimensions_and_more', '[65, 64, 64, 64]', TOO_MANY),
    rows('2_to_the_24_rows_of_packed_records', '[4096, 4096]', GOES, 'aos(packed, row)'),
    rows('2_to_the_24_rows_of_packed_records_and_more', '[4097, 4096]', TOO_MANY, 'aos(packed, row)'),
    rows('2_to_the_24_slots', '[1, 4096]', GOES, 'aos(packed, morton)'), rows('2_to_the_24_slots_and_more', '[1, 4097]', 'line 2: TooBig', 'aos(packed, morton)'),
    rows('2_to_the_24_rows_beside_ones', '[1, 16777216, 1, 1]', GOES), rows('2_to_the_32_rows', '[65536, 65536]', TOO_MANY),
    rows('4294967295_rows', '[4294967295]', TOO_MANY), rows('2_to_the_64_rows', '[65536, 65536, 65536, 65536]', TOO_MANY),
    rows('no_row_among_great_dimensions', '[4294967295, 4294967295, 4294967295, 0]', GOES),
    Case('limit_last_of_2_to_the_24_rows_is_set', BYTE + 'view V : P [4096, 4096] as aos(packed, col) | set V[4095, 4095].a = 256',
         'line 3: Range record 16777215 leaf a'),
    Case('limit_2_to_the_24_rows_of_a_dataset', BYTE + 'load V : P [?] as soa(multi, row) from "d.csv" | reduce V sum a', '50331648',
         make='{ echo a; yes 3 | head -n 16777216; } >d.csv\n', by_hand=True),
    Case('limit_2_to_the_24_rows_and_one_more_of_a_dataset', BYTE + 'load V : P [?] as soa(multi, row) from "d.csv"', 'line 2: BadExtents TooMany',
         make='{ echo a; yes 0 | head -n 16777217; } >d.csv\n', by_hand=True),
    rows('rank_4', '[1, 2, 3, 4]', GOES), rows('rank_5', '[1, 2, 3, 4, 5]', 'line 2: BadExtents Rank'),
    rows('rank_1000', '[' + ', '.join(['1'] * 1000) + ']', 'line 2: BadExtents Rank'),
]


def bytes_of_view(name, record, rows_, form, goes):
    return Case(f'limit_{name}', f'record P {{ {record} }} | view V : P [{rows_}] as {form} | print W', GOES if goes else 'line 2: TooBig')


SIZES = [
    bytes_of_view('2_to_the_28_bytes_of_a_view', 'a:u64[2]', MOST_ROWS, 'aos(packed, row)', True),
    bytes_of_view('2_to_the_28_bytes_of_a_view_and_more', 'a:u64[2], b:u8', MOST_ROWS, 'aos(packed, row)', False),
    bytes_of_view('2_to_the_28_bytes_of_a_view_by_all_its_blobs', 'a:u64[2]', MOST_ROWS, 'soa(multi, row)', True),
    bytes_of_view('2_to_the_28_bytes_of_a_view_and_more_by_all_its_blobs', 'a:u64[2], b:u8', MOST_ROWS, 'soa(multi, row)', False),
    bytes_of_view('2_to_the_28_bytes_of_a_view_with_padding', 'a:u8, b:u64', MOST_ROWS, 'aos(aligned, row)', True),
    bytes_of_view('2_to_the_28_bytes_of_a_view_and_more_with_padding', 'a:u8, b:u64, c:u8', MOST_ROWS, 'aos(aligned, row)', False),
    bytes_of_view('2_to_the_28_bytes_of_a_view_with_less_padding', 'a:u8, b:u64, c:u8', MOST_ROWS, 'aos(min, row)', True),
    bytes_of_view('2_to_the_28_bytes_of_a_view_by_whole_blocks', 'a:u64[64]', 524288, 'aosoa(64, row)', True),
    bytes_of_view('2_to_the_28_bytes_of_a_view_and_more_by_a_whole_block', 'a:u64[64]', 524225, 'aosoa(63, row)', True),
    bytes_of_view('2_to_the_28_bytes_of_a_view_and_more_by_the_padding_of_a_block', 'a:u64[64]', 524287, 'aosoa(63, row)', False),
    bytes_of_view('2_to_the_28_bytes_of_a_view_and_one_more_row', 'a:u64[64]', 524289, 'aos(packed, row)', False),
    Case('limit_2_to_the_30_bytes_of_all_views', HALVES + ''.join(f'view V{number} : P [{MOST_ROWS}] as soa(multi, row) | ' for number in range(4))
         + 'record Q { a:u8 } | view W : Q [0] as soa(multi, row) | view X : Q [1] as soa(multi, row)', 'line 8: TooBig'),
    Case('limit_2_to_the_30_bytes_of_all_views_after_one_was_dropped', HALVES + ''.join(
        f'view V{number} : P [{MOST_ROWS}] as soa(multi, row) | ' for number in range(4)) + 'record Q {{ a:u8 }} | drop V2 | '.replace('{{', '{').replace('}}', '}')
        + f'view X : Q [1] as soa(multi, row) | print X | view V2 : P [{MOST_ROWS}] as soa(multi, row)', 'a | 0 | line 10: TooBig'),
    Case('limit_65536_bytes_that_are_shown', WIDE + 'view V : P [256] as soa(multi, row) | bytes V 0', ' | '.join(['00' + ' 00' * 15] * 16)),
    Case('limit_65536_bytes_that_are_shown_and_more', WIDE + 'view V : P [257] as soa(multi, row) | bytes V 0', 'line 3: TooBig'),
    Case('limit_65537_bytes_that_are_shown', BYTE + 'view V : P [65537] as soa(multi, row) | bytes V 0', 'line 3: TooBig'),
    Case('limit_65536_bytes_that_are_shown_by_whole_blocks', 'record P { a:u32[64] } | view V : P [193] as aosoa(64, row) | set V[0].a[0] = 1 | reduce V sum a[0] | bytes V 1',
         '1 | line 5: BadIndex'),
    Case('limit_65536_bytes_that_are_shown_and_more_by_a_whole_block', 'record P { a:u32[64] } | view V : P [255] as aosoa(60, row) | bytes V 0', 'line 3: TooBig'),
]


def deep_record(depth):
    """Records in records, so many of them."""
    return 'record P ' + '{ a ' * (depth - 1) + '{ a:u8' + ' }' * depth


RECORDS = [
    Case('limit_64_leaves', 'record P { a:u8[8][8] } | view V : P [1] as soa(multi, row) | set V[0].a[7][7] = 5 | bytes V 63 | bytes V 64', '05 | line 5: BadIndex'),
    Case('limit_65_leaves', 'record P { a:u8[64], b:u8 }', 'line 1: BadRecord TooManyLeaves'),
    Case('limit_64_leaves_by_name', 'record P { ' + ', '.join(f'a{number}:u8' for number in range(64)) + ' } | view V : P [1] as aos(packed, row) | reduce V sum a63', '0'),
    Case('limit_65_leaves_by_name', 'record P { ' + ', '.join(f'a{number}:u8' for number in range(65)) + ' }', 'line 1: BadRecord TooManyLeaves'),
    Case('limit_64_leaves_are_all_set', 'record P { a:u8[64] } | view V : P [1] as soa(single, row) | update V set '
         + ', '.join(f'a[{number}] = {number + 1}' for number in range(64)) + ' | reduce V sum a[63] | reduce V count where a[0] == 1 and a[40] == 41', '64 | 1'),
    Case('limit_depth_8_of_records', deep_record(8) + ' | view V : P [1] as soa(multi, row) | print V', 'a.a.a.a.a.a.a.a | 0'),
    Case('limit_depth_9_of_records', deep_record(9), 'line 1: BadRecord TooDeep'),
    Case('limit_depth_8_of_arrays', 'record P { a:u8' + '[1]' * 7 + ' } | view V : P [1] as soa(multi, row) | print V', 'a' + '[0]' * 7 + ' | 0'),
    Case('limit_depth_9_of_arrays', 'record P { a:u8' + '[1]' * 8 + ' }', 'line 1: BadRecord TooDeep'),
    Case('limit_depth_8_of_records_and_arrays', 'record P { a { b { c:u8[1][1] }[1] }[1] } | view V : P [1] as soa(multi, row) | print V',
         'a[0].b[0].c[0][0] | 0'),
    Case('limit_depth_9_of_records_and_arrays', 'record P { a { b { c:u8[1][1][1] }[1][1] }[1] }', 'line 1: BadRecord TooDeep'),
    Case('limit_depth_64_of_records', deep_record(64), 'line 1: BadRecord TooDeep'),
    Case('limit_depth_65_of_records_is_a_bracket_too_many', deep_record(65), 'line 1: Syntax column 266'),
]

LANES = [
    Case('limit_1_lane', BYTE + 'mapping M = aosoa(1, row) | view V : P [2] as M | bytes V 0', '00 00'),
    Case('limit_64_lanes', BYTE + 'mapping M = aosoa(64, col) | view V : P [1] as M | reduce V count where a == 0 | bytes V 1', '1 | line 5: BadIndex'),
    Case('limit_no_lane', 'mapping M = aosoa(0, row)', 'line 1: BadMapping Lanes'),
    Case('limit_65_lanes', 'mapping M = aosoa(65, row)', 'line 1: BadMapping Lanes'),
    Case('limit_4294967295_lanes', 'mapping M = aosoa(4294967295, row)', 'line 1: BadMapping Lanes'),
    Case('limit_no_lane_of_a_view', BYTE + 'view V : P [1] as aosoa(0, col)', 'line 2: BadMapping Lanes'),
    Case('limit_65_lanes_of_a_view', BYTE + 'view V : P [1] as aosoa(65, row)', 'line 2: BadMapping Lanes'),
    Case('limit_65_lanes_of_a_view_of_no_row', BYTE + 'view V : P [0] as aosoa(65, row)', 'line 2: BadMapping Lanes'),
    Case('limit_65_lanes_of_a_loaded_view', BYTE + 'load V : P [?] as aosoa(65, row) from "d.csv"', 'line 2: BadMapping Lanes', b'a\n'),
]


def depth(name, text, goes):
    return Case(f'limit_depth_{name}', BOTH + text, '3' if goes else 'line 3: TooDeep')


EXPRESSIONS = [
    depth('32_of_minuses', 'reduce V count where ' + '-' * 31 + '1', True), depth('33_of_minuses', 'reduce V count where ' + '-' * 32 + '1', False),
    depth('32_of_nots', 'reduce V count where ' + 'not ' * 31 + '0', True), depth('33_of_nots', 'reduce V count where ' + 'not ' * 32 + '1', False),
    depth('32_of_a_sum', 'reduce V count where 1' + ' + 1' * 31, True), depth('33_of_a_sum', 'reduce V count where 1' + ' + 1' * 32, False),
    depth('32_of_an_or', 'reduce V count where 1' + ' or 1' * 31, True), depth('33_of_an_or', 'reduce V count where 1' + ' or 1' * 32, False),
    depth('32_of_brackets_to_the_right', 'reduce V count where ' + '1 + (' * 31 + '1' + ')' * 31, True),
    depth('33_of_brackets_to_the_right', 'reduce V count where ' + '1 + (' * 32 + '1' + ')' * 32, False),
    depth('32_of_min', 'reduce V count where ' + 'min(1, ' * 31 + '1' + ')' * 31, True), depth('33_of_min', 'reduce V count where ' + 'min(1, ' * 32 + '1' + ')' * 32, False),
    depth('1_in_64_brackets', 'reduce V count where ' + '(' * 64 + '1' + ')' * 64, True),
    depth('33_of_a_filter', 'update V where ' + '-' * 32 + '1 set a = 1', False), depth('33_of_a_first_value', SETTING + '-' * 32 + '1, b = 1', False),
    depth('33_of_a_last_value', SETTING + '1, b = ' + '-' * 32 + '1', False), depth('33_of_a_set', 'set V[0].a = ' + '-' * 32 + '1', False),
    depth('of_2000', 'reduce V count where ' + '-' * 2000 + '1', False), depth('of_1000_terms', 'reduce V count where 1' + '+1' * 1000, False),
    Case('limit_depth_32_of_each_part', BOTH + 'update V where ' + '-' * 31 + '1 set a = ' + '- ' * 30 + '5, b = ' + '-' * 31 + '5 | print V',
         'a,b | 5,-5 | 5,-5 | 5,-5'),
]

TOKENS = [
    Case('limit_64_open_brackets', BOTH + SETTING + '(' * 64 + '2' + ')' * 64 + ' | reduce V sum a', '6'),
    Case('limit_65_open_brackets', BOTH + SETTING + '(' * 65 + '2' + ')' * 65, 'line 3: Syntax column 82'),
    Case('limit_65_open_brackets_of_two_kinds', BOTH + SETTING + '(' * 64 + 'a[0]' + ')' * 64, 'line 3: Syntax column 83'),
    Case('limit_65_brackets_that_are_closed', 'record P { h:u8[64] } | view V : P [1] as soa(multi, row) | update V where (1) set '
         + ', '.join(f'h[{number}] = (1)' for number in range(64)) + ' | reduce V sum h[63]', '1'),
    Case('limit_65_open_brackets_in_a_comment', 'print V # ' + '(' * 65, 'line 1: Unknown V'),
    Case('limit_number_of_127_bits', BOTH + f'reduce V count where {2 ** 127 - 1}', '3'),
    Case('limit_number_past_127_bits', BOTH + f'reduce V count where {2 ** 127}', 'line 3: Syntax column 22'),
    Case('limit_count_of_32_bits', BOTH + 'bytes V 4294967295', 'line 3: BadIndex'),
    Case('limit_count_past_32_bits', BOTH + 'bytes V 4294967296', 'line 3: Syntax column 9'),
    Case('limit_word_of_32_bytes', 'print ' + 'a' * 32, 'line 1: Unknown ' + 'a' * 32),
    Case('limit_word_of_33_bytes', 'print ' + 'a' * 33, 'line 1: Syntax column 7'),
    Case('limit_word_of_33_bytes_for_a_command', 'print' + '_' * 28 + ' V', 'line 1: Syntax column 1'),
    Case('limit_string_of_1_byte', PAIR + 'load V : P [?] as soa(multi, row) from "d" | print V', 'a,b | 1,2', files={'d': b'a,b\n1,2\n'}),
    Case('limit_string_of_200_bytes', PAIR + 'load V : P [?] as soa(multi, row) from "' + 'd' * 200 + '" | print V', 'a,b | 1,2', files={'d' * 200: b'a,b\n1,2\n'}),
    Case('limit_string_of_201_bytes', PAIR + 'load V : P [?] as soa(multi, row) from "' + 'd' * 201 + '"', 'line 2: Syntax column 40'),
    Case('limit_string_of_every_sign', PAIR + "load V : P [?] as soa(multi, row) from \" !#$%&'()*+,-.:;<=>?@[]^_`{|}~\"",
         "line 2: cannot read  !#$%&'()*+,-.:;<=>?@[]^_`{|}~"),
]

def pipe(name, text):
    """A shell script that makes a pipe: it can be read once, from its beginning on."""
    return f"mkfifo {name}\ntimeout 20 sh -c \"printf '{text}' >{name}\" >/dev/null 2>&1 &\n"


def piped(size):
    """A dataset that a pipe of a name of so many bytes gives."""
    name = 'd' * size
    return Case(f'limit_pipe_of_a_name_of_{size}_bytes', PAIR + f'load V : P [?] as soa(multi, row) from "{name}" | print V', 'a,b | 1,2',
                make=pipe(name, 'a,b\\\\n1,2\\\\n'))


# The longest word that is the name of a file has 4,095 bytes.
LONG = './' * 2047
PIPES = [
    piped(1), piped(128), piped(129), piped(200),
    Case('limit_pipe_of_a_script_of_a_name_of_4095_bytes', None, 'line 2: Unknown V', words=['run', LONG + 's'],
         make=pipe('s', 'record P { a:u8 }\\\\nprint V\\\\n')),
    Case('limit_script_of_a_name_of_4096_bytes', None, f'line 0: cannot read {LONG}ss', words=['run', LONG + 'ss'], files={'ss': b'print V\n'}),
]

AFTER = b'\nprint V\n'
LINES = [
    Case('limit_line_of_4096_bytes', b'#' * 4096 + AFTER, 'line 2: Unknown V'),
    Case('limit_line_of_4097_bytes', b'#' * 4097 + AFTER, 'line 1: LineTooLong'),
    Case('limit_line_of_4096_bytes_and_a_carriage_return', b'#' * 4096 + b'\r' + AFTER, 'line 2: Unknown V'),
    Case('limit_line_of_4097_bytes_and_a_carriage_return', b'#' * 4097 + b'\r' + AFTER, 'line 1: LineTooLong'),
    Case('limit_line_of_4096_bytes_behind_a_mark', b'\xef\xbb\xbf' + b'#' * 4096 + AFTER, 'line 2: Unknown V'),
    Case('limit_line_of_4097_bytes_behind_a_mark', b'\xef\xbb\xbf' + b'#' * 4097 + AFTER, 'line 1: LineTooLong'),
    Case('limit_line_of_4096_bytes_at_the_end', b'\nprint V' + b' ' * 4089, 'line 2: Unknown V'),
    Case('limit_line_of_4097_bytes_at_the_end', b'\nprint V' + b' ' * 4090, 'line 2: LineTooLong'),
    Case('limit_line_of_4097_blanks', b' ' * 4097 + AFTER, 'line 1: LineTooLong'),
    Case('limit_line_of_4096_bytes_of_a_command', b'print ' + b' ' * 4089 + b'V\n', 'line 1: Unknown V'),
    Case('limit_line_of_4097_bytes_of_a_command', b'print ' + b' ' * 4090 + b'V\n', 'line 1: LineTooLong'),
    Case('limit_line_too_long_behind_what_was_printed', BYTE + 'view V : P [1] as soa(multi, row) | print V | ' + '#' * 4097 + ' | print V',
         'a | 0 | line 4: LineTooLong'),
]


def made(name, make, due):
    return Case(f'limit_{name}', None, due, make=make)


SHORT = "yes '#' | head -n {} >script.llama\n"
LONG = "yes '###############################################################' | head -c {} >script.llama\n"
SCRIPTS = [
    made('script_of_65536_lines', SHORT.format(65535) + "echo 'print V' >>script.llama\n", 'line 65536: Unknown V'),
    made('script_of_65537_lines', SHORT.format(65536) + "echo 'print V' >>script.llama\n", 'line 0: ScriptTooLong'),
    made('script_of_65536_lines_without_a_last_line_end', SHORT.format(65535) + "printf 'print V' >>script.llama\n", 'line 65536: Unknown V'),
    made('script_of_65537_lines_without_a_last_line_end', SHORT.format(65536) + "printf 'print V' >>script.llama\n", 'line 0: ScriptTooLong'),
    made('script_of_65536_empty_lines', "yes '' | head -n 65536 >script.llama\n", ''),
    made('script_of_65537_empty_lines', "yes '' | head -n 65537 >script.llama\n", 'line 0: ScriptTooLong'),
    made('script_of_2_to_the_20_bytes', LONG.format(2 ** 20 - 8) + "printf '\\nprint V' >>script.llama\n", 'line 16385: Unknown V'),
    made('script_of_2_to_the_20_bytes_and_one_more', LONG.format(2 ** 20 - 8) + "printf '\\nprint V\\n' >>script.llama\n", 'line 0: ScriptTooLong'),
    made('script_of_2_to_the_20_bytes_with_its_mark', "printf '\\357\\273\\277' >script.llama\n" + LONG.format(2 ** 20 - 3).replace('>', '>>'), ''),
    made('script_of_2_to_the_20_bytes_but_for_its_mark', "printf '\\357\\273\\277' >script.llama\n" + LONG.format(2 ** 20).replace('>', '>>'), 'line 0: ScriptTooLong'),
    made('script_of_one_long_line', "head -c 1048576 /dev/zero | tr '\\0' '#' >script.llama\n", 'line 1: LineTooLong'),
    made('script_of_one_line_past_all_limits', "head -c 1048577 /dev/zero | tr '\\0' '#' >script.llama\n", 'line 0: ScriptTooLong'),
    made('script_too_long_before_its_first_line', "echo 'nothing' >script.llama\n" + SHORT.format(65536).replace('>', '>>'), 'line 0: ScriptTooLong'),
]


def dataset(name, extents, size, due):
    return Case(f'limit_dataset_of_{name}', BYTE + f'load V : P {extents} as aosoa(0, row) from "d.csv"', due,
                make=f"yes '' | head -c {size} >d.csv\n", by_hand=True)


DATASETS = [
    dataset('2_to_the_28_bytes', '[7]', MOST_BYTES, 'line 2: BadExtents NotEqual'),
    dataset('2_to_the_28_bytes_and_one_more', '[7]', MOST_BYTES + 1, 'line 2: TooBig'),
]



def blob_file(name, front, size, due):
    """A file of so many bytes, zeros behind its front."""
    written = ''.join(chr(byte) if 0x20 <= byte < 0x7F else f'\\{byte:03o}' for byte in front)
    return Case(f'limit_blob_file_of_{name}', 'version 2 | open V from "f" | reduce V sum a[1]', due, make=f"printf '{written}' >f\ntruncate -s {size} f\n", by_hand=True)


MOST_FILE = MOST_BYTES + 8206
GREAT = file_of('a:u64[2]', f'[{MOST_ROWS}] as aos(packed, row)')
BLOB_FILES = [
    blob_file('2_to_the_28_and_8206_bytes', b'', MOST_FILE, 'line 2: BadFile Magic'), blob_file('2_to_the_28_and_8206_bytes_and_one_more', b'', MOST_FILE + 1, 'line 2: TooBig'),
    blob_file('2_to_the_28_bytes_of_blobs', GREAT, len(GREAT) + MOST_BYTES, '0'), blob_file('2_to_the_28_bytes_of_blobs_and_one_more', GREAT, len(GREAT) + MOST_BYTES + 1, 'line 2: BadFile Length'),
]

CASES = VIEWS + ROWS + SIZES + RECORDS + LANES + EXPRESSIONS + TOKENS + PIPES + LINES + SCRIPTS + DATASETS + BLOB_FILES
