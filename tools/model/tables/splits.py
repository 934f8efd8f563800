"""Splits: which cells go where, splits in splits, and what refuses them."""
from .case import Case, PAIR

POS = 'record S { pos { x:u8, y:u8 }, m:u32 } | '
POS_SETS = 'update V set pos.x = 1 + 3 * i0, pos.y = 2 + 3 * i0, m = 3 + 3 * i0 | '
SOA, AOS = 'soa(multi, row)', 'aos(packed, row)'


def shown(name, record, extents, form, sets, *blobs):
    """A table under a split, its blobs one by one, and the number that is one too great for a blob."""
    asked = ' | '.join(f'bytes V {blob}' for blob in range(len(blobs) + 1))
    due = ' | '.join([blob for blob in blobs if blob] + [f'line {4 + len(blobs)}: BadIndex'])
    return Case(f'split_{name}', f'record P {{ {record} }} | view V : P {extents} as {form} | update V set {sets} | {asked}', due)


MIXED, FILL = 'a:u8, b:u16, c:u8', 'a = i0 + 1, b = 513 + i0, c = 255 - i0'
ARRAY, ARRAY_FILL = 'h:u8[3], m:u16', 'h[0] = 1 + i0, h[1] = 17 + i0, h[2] = 33 + i0, m = 513 + i0'
PAIRS, PAIRS_FILL = 'c { x:u8, y:u8 }[2], m:u8', 'c[0].x = 1 + i0, c[0].y = 17 + i0, c[1].x = 33 + i0, c[1].y = 49 + i0, m = 65 + i0'
FLAT = 'a:u8, b:u8, c:u8, d:u8, e:u8, f:u8, g:u8, h:u8'
FLAT_FILL = ', '.join(f'{name} = {16 * (at + 1)} + i0' for at, name in enumerate('abcdefgh'))
PATHS = [
    shown('of_the_first_leaf', MIXED, '[2]', f'split(a, {SOA}, {AOS})', FILL, '01 02', '01 02 ff 02 02 fe'),
    shown('of_a_leaf_between', MIXED, '[2]', f'split(b, {SOA}, {AOS})', FILL, '01 02 02 02', '01 ff 02 fe'),
    shown('of_the_last_leaf', MIXED, '[2]', f'split(c, {SOA}, {AOS})', FILL, 'ff fe', '01 01 02 02 02 02'),
    shown('of_a_record', 'pos { x:u8, y:u8 }, m:u16', '[2]', f'split(pos, {AOS}, {SOA})', 'pos.x = 1 + i0, pos.y = 17 + i0, m = 513 + i0',
          '01 11 02 12', '01 02 02 02'),
    shown('of_a_record_behind_leaves', 'm:u16, pos { x:u8, y:u8 }', '[2]', f'split(pos, {AOS}, {SOA})', 'pos.x = 1 + i0, pos.y = 17 + i0, m = 513 + i0',
          '01 11 02 12', '01 02 02 02'),
    shown('of_a_leaf_in_a_record', 'pos { x:u8, y:u8 }, m:u16', '[2]', f'split(pos.y, {SOA}, {AOS})', 'pos.x = 1 + i0, pos.y = 17 + i0, m = 513 + i0',
          '11 12', '01 01 02 02 02 02'),
    shown('of_an_array', ARRAY, '[2]', f'split(h, {SOA}, {AOS})', ARRAY_FILL, '01 02', '11 12', '21 22', '01 02 02 02'),
    shown('of_an_element', ARRAY, '[2]', f'split(h[1], {SOA}, {AOS})', ARRAY_FILL, '11 12', '01 21 01 02 02 22 02 02'),
    shown('of_an_element_with_leading_zeros', ARRAY, '[2]', f'split(h [ 002 ], {SOA}, {AOS})', ARRAY_FILL, '21 22', '01 11 01 02 02 12 02 02'),
    shown('of_an_array_of_records', PAIRS, '[2]', f'split(c, {AOS}, {SOA})', PAIRS_FILL, '01 11 21 31 02 12 22 32', '41 42'),
    shown('of_an_element_that_is_a_record', PAIRS, '[2]', f'split(c[1], {AOS}, {SOA})', PAIRS_FILL, '21 31 22 32', '01 02', '11 12', '41 42'),
    shown('of_a_leaf_in_an_element', PAIRS, '[2]', f'split(c[0].y, {SOA}, {AOS})', PAIRS_FILL, '11 12', '01 21 31 41 02 22 32 42'),
    shown('of_a_row_of_an_array_of_arrays', 'h:u8[2][2], m:u8', '[2]', f'split(h[1], {SOA}, {AOS})',
          'h[0][0] = 1 + i0, h[0][1] = 17 + i0, h[1][0] = 33 + i0, h[1][1] = 49 + i0, m = 65 + i0', '21 22', '31 32', '01 11 41 02 12 42'),
    shown('of_an_element_of_an_array_of_arrays', 'h:u8[2][2], m:u8', '[2]', f'split(h[0][1], {SOA}, {AOS})',
          'h[0][0] = 1 + i0, h[0][1] = 17 + i0, h[1][0] = 33 + i0, h[1][1] = 49 + i0, m = 65 + i0', '11 12', '01 21 31 41 02 22 32 42'),
    shown('of_a_name_and_not_of_a_longer_one', 'pos:u8, posx:u8, po:u8', '[2]', f'split(pos, {SOA}, {AOS})', 'pos = 1 + i0, posx = 17 + i0, po = 33 + i0',
          '01 02', '11 21 12 22'),
    shown('of_an_element_and_not_of_a_greater_one', 'h:u8[12]', '[1]', f'split(h[1], {SOA}, {AOS})',
          ', '.join(f'h[{at}] = {at}' for at in range(12)), '01', '00 02 03 04 05 06 07 08 09 0a 0b'),
    shown('of_names_that_are_words', 'aos:u8, split:u8', '[2]', 'split(split, aos(packed, row), soa(single, row))', 'aos = 1 + i0, split = 17 + i0',
          '11 12', '01 02'),
    shown('of_no_row', MIXED, '[0]', f'split(b, {SOA}, {AOS})', FILL, '', ''),
]

SQUARE = 'a = 3 * i0 + i1 + 1, b = 16 * (3 * i0 + i1 + 1)'
SIDES = [
    shown('by_rows_and_by_columns', 'a:u8, b:u8', '[2, 3]', 'split(a, soa(multi, row), soa(multi, col))', SQUARE, '01 02 03 04 05 06', '10 40 20 50 30 60'),
    shown('by_columns_and_by_rows', 'a:u8, b:u8', '[2, 3]', 'split(a, aosoa(4, col), aos(packed, row))', SQUARE, '01 04 02 05 03 06 00 00', '10 20 30 40 50 60'),
    shown('whose_sides_are_aligned_by_themselves', 'a:u8, b:u64, c:u8, d:u16', '[2]', 'split(b, aos(aligned, row), aos(aligned, row))',
          'a = 1 + i0, b = 17 + i0, c = 33 + i0, d = 49 + i0', '11 00 00 00 00 00 00 00 12 00 00 00 00 00 00 00', '01 21 31 00 02 22 32 00'),
    shown('whose_rest_goes_by_falling_size', 'a:u8, b:u64, c:u8, d:u16', '[1]', 'split(b, aos(min, row), aos(min, row))',
          'a = 1, b = 17, c = 33, d = 49', '11 00 00 00 00 00 00 00', '31 00 01 21'),
    shown('whose_arrays_are_aligned_by_themselves', 'a:u8, b:u8, d:u16', '[3]', 'split(a, soa(aligned, row), soa(aligned, row))',
          'a = 1 + i0, b = 17 + i0, d = 49 + i0', '01 02 03', '11 12 13 00 31 00 32 00 33 00'),
    shown('in_lanes_of_two_numbers', MIXED, '[3]', 'split(b, aosoa(2, row), aosoa(4, row))', FILL, '01 02 02 02 03 02 00 00', '01 02 03 00 ff fe fd 00'),
    Case('split_is_set_and_read', PAIR + f'view V : P [2] as split(b, {SOA}, {SOA}) | set V[1].a = 7 | set V[1].b = a - 9 | set V[0].b = -1 | print V | '
         'bytes V 0 | bytes V 1', 'a,b | 0,-1 | 7,-2 | ff ff ff ff fe ff ff ff | 00 07'),
    Case('split_is_reduced', POS + f'view V : S [2] as split(pos, {SOA}, {AOS}) | ' + POS_SETS + 'reduce V sum m | reduce V max pos.y | '
         'reduce V count where pos.x < m', '9 | 5 | 2'),
    Case('split_is_loaded', PAIR + 'load V : P [?, 2] as split(a, soa(single, col), aos(packed, row)) from "d.csv" | print V | bytes V 0 | bytes V 1',
         'a,b | 1,-1 | 2,-2 | 3,-3 | 4,-4 | 01 03 02 04 | ff ff ff ff fe ff ff ff fd ff ff ff fc ff ff ff', b'a,b\n1,-1\n2,-2\n3,-3\n4,-4\n'),
    Case('split_of_a_mapping', PAIR + f'mapping M = {SOA} | mapping N = split(a, M, M) | view V : P [2] as N | set V[0].a = 5 | bytes V 0 | bytes V 1',
         '05 00 | 00 00 00 00 00 00 00 00'),
    Case('split_then_relaid_in_lanes', POS + f'view V : S [2] as split(pos, {SOA}, {AOS}) | ' + POS_SETS + 'bytes V 0 | bytes V 1 | bytes V 2 | '
         f'relayout V as aosoa(2, col) | print V | relayout V as split(q, {SOA}, {AOS})',
         '01 04 | 02 05 | 03 00 00 00 06 00 00 00 | pos.x,pos.y,m | 1,2,3 | 4,5,6 | line 9: BadMapping Side'),
]


def chain(names):
    """A split of each name but the last from those behind it: as deep as there are names."""
    return ''.join(f'split({name}, {SOA}, ' for name in names[:-1]) + SOA + ')' * (len(names) - 1)


def first_chain(names):
    """The same with the splits in the first side, over records in records."""
    return ''.join(f'split({"." .join(names[:at])}, ' for at in range(1, len(names))) + SOA + f', {SOA})' * (len(names) - 1)


EACH = [f'{16 * (at + 1):02x} {16 * (at + 1) + 1:02x}' for at in range(8)]
NINE = FLAT + ', j:u8'
DEEP = 'a { x:u8, a { x:u8, a { x:u8 } } }'
DEEP_FILL = 'a.x = 1 + i0, a.a.x = 17 + i0, a.a.a.x = 33 + i0'
NESTED = [
    shown('in_the_rest_of_a_split', MIXED, '[2]', f'split(b, {SOA}, split(c, {SOA}, {SOA}))', FILL, '01 02 02 02', 'ff fe', '01 02'),
    shown('in_the_first_side_of_a_split', PAIRS, '[2]', f'split(c, split(c[1], {AOS}, {SOA}), {AOS})', PAIRS_FILL, '21 31 22 32', '01 02', '11 12', '41 42'),
    shown('in_both_sides_of_a_split', PAIRS, '[2]', f'split(c[0], split(c[0].y, {SOA}, {SOA}), split(c, {AOS}, {SOA}))', PAIRS_FILL,
          '11 12', '01 02', '21 31 22 32', '41 42'),
    shown('of_what_another_split_left_of_a_record', 'pos { x:u8, y:u8 }, m:u8', '[2]', f'split(pos.x, {SOA}, split(pos, {SOA}, {SOA}))',
          'pos.x = 1 + i0, pos.y = 17 + i0, m = 33 + i0', '01 02', '11 12', '21 22'),
    shown('of_depth_8', FLAT, '[2]', chain('abcdefgh'), FLAT_FILL, *EACH),
    shown('of_depth_8_from_the_last_leaf', FLAT, '[2]', chain('hgfedcba'), FLAT_FILL, *EACH[::-1]),
    shown('of_depth_3_in_first_sides', DEEP, '[2]', f'split(a.a, split(a.a.a, {SOA}, {SOA}), {SOA})', DEEP_FILL, '21 22', '11 12', '01 02'),
    shown('of_depth_8_in_one_of_two_sides', 'a { ' + FLAT.replace(', h:u8', '') + ' }, b:u8', '[1]',
          f'split(b, {AOS}, ' + chain(['a.a', 'a.b', 'a.c', 'a.d', 'a.e', 'a.f', 'a.g']) + ')',
          'b = 1, ' + ', '.join(f'a.{name} = {17 + at}' for at, name in enumerate('abcdefg')), '01', '11', '12', '13', '14', '15', '16', '17'),
    Case('split_of_depth_9', f'record P {{ {NINE} }} | view V : P [1] as ' + chain('abcdefghj'), 'line 2: BadMapping TooDeep'),
    Case('split_of_depth_9_as_a_mapping', 'mapping M = ' + chain('abcdefghj'), 'line 1: BadMapping TooDeep'),
    Case('split_of_depth_9_in_first_sides', 'mapping M = ' + first_chain('abcdefghj'), 'line 1: BadMapping TooDeep'),
    Case('split_of_depth_8_in_first_sides_as_a_mapping', 'mapping M = ' + first_chain('abcdefgh') + ' | mapping M = M', 'line 2: Taken M'),
    Case('split_of_depth_8_by_names', f'record P {{ {FLAT} }} | mapping M = ' + chain('defgh') + f' | mapping N = split(c, {SOA}, M) | '
         f'view V : P [1] as split(a, {SOA}, split(b, {SOA}, N)) | update V set {FLAT_FILL} | bytes V 0 | bytes V 2 | bytes V 7', '10 | 30 | 80'),
    Case('split_of_depth_9_by_names', f'mapping M = {SOA} | mapping N = split(a, M, M) | ' + ' | '.join(
        f'mapping N{at} = split(a, M, N{at - 1 if at else ""})' for at in range(8)), 'line 9: BadMapping TooDeep'),
    Case('split_of_depth_9_by_names_in_a_view', f'record P {{ {NINE} }} | mapping M = ' + chain('bcdefghj') + f' | view V : P [1] as split(a, {SOA}, M)',
         'line 3: BadMapping TooDeep'),
]


def bad_side(name, record, form, extents='[2]'):
    return Case(f'split_with_{name}', f'record P {{ {record} }} | view V : P {extents} as {form}', 'line 2: BadMapping Side')


BAD_SIDES = [
    bad_side('a_path_of_nothing', MIXED, f'split(q, {SOA}, {AOS})'),
    bad_side('a_path_past_a_leaf', MIXED, f'split(a.x, {SOA}, {AOS})'),
    bad_side('an_element_of_a_leaf', MIXED, f'split(a[0], {SOA}, {AOS})'),
    bad_side('an_element_past_an_array', ARRAY, f'split(h[3], {SOA}, {AOS})'),
    bad_side('a_great_element', ARRAY, f'split(h[4294967295], {SOA}, {AOS})'),
    bad_side('a_field_of_an_array', PAIRS, f'split(c.x, {SOA}, {AOS})'),
    bad_side('the_beginning_of_a_name', 'pos:u8, m:u8', f'split(po, {SOA}, {AOS})'),
    bad_side('a_name_of_another_case', 'pos:u8, m:u8', f'split(Pos, {SOA}, {AOS})'),
    bad_side('a_name_from_within_a_record', 'pos { x:u8 }, m:u8', f'split(x, {SOA}, {AOS})'),
    bad_side('the_name_of_its_record', MIXED, f'split(P, {SOA}, {AOS})'),
    bad_side('its_only_leaf', 'a:u8', f'split(a, {SOA}, {AOS})'),
    bad_side('every_leaf_of_a_record', 'pos { x:u8, y:u8 }', f'split(pos, {SOA}, {AOS})'),
    bad_side('every_element_of_an_array', 'h:u8[3]', f'split(h, {SOA}, {AOS})'),
    bad_side('no_row', MIXED, f'split(q, {SOA}, {AOS})', '[0]'),
    bad_side('a_split_in_its_rest_under_its_own_path', 'pos { x:u8, y:u8 }, m:u8', f'split(pos, {SOA}, split(pos.x, {SOA}, {SOA}))'),
    bad_side('a_split_in_its_first_side_under_the_same_path', 'pos { x:u8, y:u8 }, m:u8', f'split(pos, split(pos, {SOA}, {SOA}), {SOA})'),
    bad_side('a_split_in_its_first_side_under_a_path_of_the_rest', 'pos { x:u8, y:u8 }, m:u8', f'split(pos, split(m, {SOA}, {SOA}), {SOA})'),
    bad_side('a_split_of_one_leaf_in_its_first_side', MIXED, f'split(a, split(a, {SOA}, {SOA}), {SOA})'),
    bad_side('a_split_of_all_that_is_left', MIXED, f'split(a, {SOA}, split(b, {SOA}, split(c, {SOA}, {SOA})))'),
    bad_side('two_bad_splits', MIXED, f'split(q, split(r, {SOA}, {SOA}), {SOA})'),
    Case('split_with_a_bad_side_is_a_mapping', PAIR + f'mapping M = split(q, {SOA}, {AOS}) | view V : P [1] as M', 'line 3: BadMapping Side'),
    Case('split_with_a_side_that_another_record_has', 'record P { a:u8, b:u8 } | record Q { a:u8, c:u8 } | '
         f'mapping M = split(b, {SOA}, {SOA}) | view V : P [1] as M | print V | view W : Q [1] as M', 'a,b | 0,0 | line 6: BadMapping Side'),
]

MOST = 2 ** 24
WIDE = 'record P { a:u64, b:u64, c:u8 } | '
ORDER = [
    Case('split_unknown_name_in_its_first_side', PAIR + 'mapping M = split(q, N, O)', 'line 2: Unknown N'),
    Case('split_unknown_name_in_its_rest', PAIR + f'mapping N = {SOA} | mapping M = split(q, N, split(q, N, O))', 'line 3: Unknown O'),
    Case('split_unknown_name_before_too_many_rows', PAIR + f'view V : P [4097, 4097] as split(a, {SOA}, M)', 'line 2: Unknown M'),
    Case('split_unknown_name_in_its_first_side_before_its_rest', PAIR + 'view V : P [1] as split(a, split(a, M, N), O)', 'line 2: Unknown M'),
    Case('split_taken_before_an_unknown_name', PAIR + f'view V : P [1] as {SOA} | view V : P [1] as split(q, M, M)', 'line 3: Taken V'),
    Case('split_too_many_rows_before_its_depth', PAIR + 'view V : P [4097, 4097] as ' + chain('abcdefghj'), 'line 2: BadExtents TooMany'),
    Case('split_too_deep_before_its_lanes', PAIR + 'view V : P [1] as ' + chain('abcdefghj').replace(SOA, 'aosoa(0, row)'), 'line 2: BadMapping TooDeep'),
    Case('split_lanes_before_its_side', PAIR + f'view V : P [1] as split(q, {SOA}, aosoa(65, row))', 'line 2: BadMapping Lanes'),
    Case('split_lanes_in_its_first_side', f'mapping M = split(q, aosoa(0, row), {SOA})', 'line 1: BadMapping Lanes'),
    Case('split_lanes_in_its_rest', f'mapping M = split(q, {SOA}, split(r, {SOA}, aosoa(0, row)))', 'line 1: BadMapping Lanes'),
    Case('split_side_before_its_size', f'record P {{ a:u64[64] }} | view V : P [{MOST}] as split(q, {SOA}, {AOS})', 'line 2: BadMapping Side'),
    Case('split_side_before_a_missing_column', PAIR + f'load V : P [?] as split(q, {SOA}, {AOS}) from "d.csv"', 'line 2: BadMapping Side', b'z\n1\n'),
    Case('split_not_equal_before_its_side', PAIR + f'load V : P [2] as split(q, {SOA}, {AOS}) from "d.csv"', 'line 2: BadExtents NotEqual', b'z\n1\n'),
    Case('split_missing_file_before_its_side', PAIR + f'load V : P [2] as split(q, {SOA}, {AOS}) from "d.csv"', 'line 2: cannot read d.csv'),
    Case('split_of_2_to_the_28_bytes', f'record P {{ a:u64, b:u64 }} | view V : P [{MOST}] as split(b, {SOA}, {AOS}) | print W', 'line 3: Unknown W'),
    Case('split_of_2_to_the_28_bytes_and_more', WIDE + f'view V : P [{MOST}] as split(b, {SOA}, {AOS})', 'line 2: TooBig'),
    Case('split_of_2_to_the_28_bytes_and_more_in_its_first_side', WIDE + f'view V : P [{MOST}] as split(c, {AOS}, {SOA})', 'line 2: TooBig'),
    Case('split_of_2_to_the_28_bytes_and_more_by_padding', WIDE + f'view V : P [{MOST}] as split(a, {SOA}, aos(aligned, row))', 'line 2: TooBig'),
    Case('split_shows_65536_bytes', f'record P {{ a:u8[8], b:u64[31] }} | view V : P [256] as split(a[0], {SOA}, {AOS}) | bytes V 0',
         ' | '.join(['00' + ' 00' * 15] * 16)),
    Case('split_shows_no_65537_bytes', f'record P {{ a:u8, b:u8 }} | view V : P [32769] as split(a, {SOA}, {AOS}) | bytes V 0', 'line 3: TooBig'),
]

CASES = PATHS + SIDES + NESTED + BAD_SIDES + ORDER
