"""Names that begin alike: they share their first 7, 8, 15 or 31 bytes, or one begins with the whole of another."""
from .case import Case

SHORT = ('abcdefg', 'abcdefgh', 'abcdefgi', 'abcdefghi', 'abcdefghj')
LONG = ('abcdefghijklmnop', 'abcdefghijklmnoq', 'abcdefghijklmnopqrstuvwxyz_0123', 'abcdefghijklmnopqrstuvwxyz_01234', 'abcdefghijklmnopqrstuvwxyz_01235')
ALIKE = SHORT + LONG
SEVEN, EIGHT, _, NINE, OTHER_NINE = SHORT
SIXTEEN, OTHER_SIXTEEN, THIRTY_ONE, WHOLE, OTHER_WHOLE = LONG
BYTE = 'record P { a:u8 } | '
LANES = 'mapping {} = aosoa({}, row) | '


def each(form):
    """A part of a script for each name, with its number from 1 on."""
    return [form.format(name, number + 1) for number, name in enumerate(ALIKE)]


ZEROS = ['00', '00 00', '00 00 00', '00 00 00 00', '00 00 00 00 00', '00 00 00 00 00 00', '00 00 00 00 00 00 00', '00 00 00 00 00 00 00 00',
         '00 00 00 00 00 00 00 00 00', '00 00 00 00 00 00 00 00 00 00']
MANY = ("{{ echo 'mapping m=aos(packed,row)'; echo 'record P{{a:u8}}'; seq -f '{}' 10000 {}; echo 'view V:{}'; echo 'print V'; echo '{}'; }} "
        '>script.llama\n')

CASES = [
    Case('names_of_records_begin_alike', ''.join(each('record {} {{ f{}:u8 }} | ')) + ''.join(
        f'view V : {name} [1] as soa(multi, row) | print V | drop V | ' for name in reversed(ALIKE)),
         'f10 | 0 | f9 | 0 | f8 | 0 | f7 | 0 | f6 | 0 | f5 | 0 | f4 | 0 | f3 | 0 | f2 | 0 | f1 | 0'),
    Case('names_of_mappings_begin_alike', BYTE + ''.join(reversed(each(LANES))) + ''.join(
        f'view V : P [1] as {name} | bytes V 0 | drop V | ' for name in ALIKE), ' | '.join(ZEROS)),
    Case('names_of_views_begin_alike', BYTE + ''.join(each('view {0} : P [1] as soa(multi, row) | set {0}[0].a = {1} | ')) + ''.join(
        f'reduce {name} sum a | ' for name in reversed(ALIKE)), '10 | 9 | 8 | 7 | 6 | 5 | 4 | 3 | 2 | 1'),
    Case('names_of_views_begin_alike_and_one_is_dropped_and_made_again',
         BYTE + ''.join(each('view {0} : P [1] as soa(multi, row) | set {0}[0].a = {1} | ')) + f'drop {EIGHT} | view {EIGHT} : P [1] as soa(multi, row) | '
         f'set {EIGHT}[0].a = 20 | ' + ''.join(f'reduce {name} sum a | ' for name in ALIKE) + f'drop {NINE} | print {NINE}',
         '1 | 20 | 3 | 4 | 5 | 6 | 7 | 8 | 9 | 10 | line 36: Unknown abcdefghi'),
    Case('record_taken_among_names_that_begin_alike', ''.join(each('record {} {{ f{}:u8 }} | ')) + f'record {SIXTEEN} {{ a:u8 }}',
         'line 11: Taken abcdefghijklmnop'),
    Case('mapping_taken_among_names_that_begin_alike', ''.join(each(LANES)) + f'mapping {WHOLE} = aos(packed, row)',
         'line 11: Taken abcdefghijklmnopqrstuvwxyz_01234'),
    Case('view_taken_among_names_that_begin_alike', BYTE + ''.join(each('view {} : P [{}] as soa(multi, row) | ')) + f'view {EIGHT} : P [1] as soa(multi, row)',
         'line 12: Taken abcdefgh'),
    Case('record_unknown_where_a_longer_name_begins_with_it', f'record {WHOLE} {{ a:u8 }} | record {OTHER_WHOLE} {{ a:u8 }} | record {SIXTEEN} {{ a:u8 }} | '
         f'view V : {THIRTY_ONE} [1] as soa(multi, row)', 'line 4: Unknown abcdefghijklmnopqrstuvwxyz_0123'),
    Case('mapping_unknown_where_names_share_eight_bytes', BYTE + LANES.format(SEVEN, 1) + LANES.format(EIGHT, 2) + LANES.format(NINE, 3) + LANES.format(SIXTEEN, 4)
         + f'mapping M = split(a, {NINE}, {OTHER_NINE})', 'line 6: Unknown abcdefghj'),
    Case('view_unknown_where_names_share_fifteen_bytes', BYTE + f'view {SIXTEEN} : P [1] as soa(multi, row) | print {SIXTEEN} | print {OTHER_SIXTEEN}',
         'a | 0 | line 4: Unknown abcdefghijklmnoq'),
    Case('record_is_found_among_52000', None, 'n | 0 | line 52005: Taken _10000', by_hand=True,
         make=MANY.format('record _%.0f{n:u8}', 61999, '_61999[1]as m', 'record _10000{a:u8}')),
    Case('mapping_is_found_among_60000', None, 'a | 0 | line 60005: Taken _10000', by_hand=True,
         make=MANY.format('mapping _%.0f=m', 69999, 'P[1]as _69999', 'mapping _10000=m')),
]
