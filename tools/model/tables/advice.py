"""Advice on the layout of a table: the cost of each candidate, which one is best, and what refuses candidates and passes.

Under the forms of a layout and where candidates are thrown, what is printed is worked out by advisers.py, and the model must agree.
"""
from .actors import FIVE, IN_ORDERS, ROWS, counters_of
from .advisers import Advised, advise_text, is_accepted, uncounted
from .bit_fields import TYPES
from .case import Case
from .files import BYTE, file_of, spelled
from .nested import Dice, RECORDS, fronts_of, text_of, thrown_form, written
from .plates import EXTENTS
from .tallies import counted_form
from .widths import thrown_widths

TWO = 'version 2 | '
A, SOA = 'aos(packed, row)', 'soa(multi, row)'
SHORT, LONG = TWO + 'record P { a:u8, b:u8 } | ', TWO + 'record P { a:u8, b:u64 } | '
EIGHT, SIXTY_FOUR = SHORT + f'view V : P [8] as {A} | ', LONG + f'view V : P [64] as {A} | '
HOT = 'pass a times 10 pass b times 1'
GREATEST = 2 ** 32 - 1


def case(name, script, due):
    return Case(f'advice_{name}', script, due)


def told(costs, best, layout=''):
    lines = ' | '.join(f'{number},{cost}' for number, cost in enumerate(costs, 1))
    return f'candidate,cost | {lines} | best {best} {spelled(layout)}'.rstrip()


def over(granule, passes, *maps, splits=False):
    return f'advise V granule {granule} {passes} among {", ".join(maps)}{" splits" if splits else ""}'


# costs, by hand

COSTS = [case(name, begin + line, due) for name, begin, line, due in [
    ('of_structs_and_arrays', SIXTY_FOUR, over(64, HOT, A, SOA), told([99, 18], 18, SOA)),
    ('of_splits', SIXTY_FOUR, over(64, HOT, A, splits=True), told([99], 18, f'split(a, {A}, {A})')),
    ('of_one_leaf', EIGHT, over(4, 'pass a times 1', A, SOA), told([4, 2], 2, SOA)),
    ('of_two_leaves_in_a_pass', EIGHT, over(4, 'pass a, b times 1', A, SOA), told([4, 4], 4, A)),
    ('of_two_leaves_in_two_passes', EIGHT, over(4, 'pass a times 1 pass b times 1', A, SOA), told([8, 4], 4, SOA)),
    ('that_are_equal_is_of_the_first', EIGHT, over(4, 'pass a, b times 1', SOA, A), told([4, 4], 4, SOA)),
    ('that_are_equal_is_of_the_first_of_three', EIGHT, over(4, 'pass a times 1', A, 'soa(single, row)', SOA, 'soa(aligned, row)'), told([4, 2, 2, 2], 2, 'soa(single, row)')),
    ('that_are_equal_is_of_a_listed_one_before_splits', EIGHT, over(4, 'pass a times 1', SOA, splits=True), told([2], 2, SOA)),
    ('that_are_equal_is_of_the_first_split', EIGHT, over(4, 'pass a times 1 pass b times 1', A, splits=True), told([8], 4, f'split(a, {A}, {A})')),
    ('that_are_equal_is_of_the_first_sides', EIGHT, over(16, 'pass a times 1 pass b times 1', 'bitaos(64, row)', A, SOA, 'aosoa(1, row)', splits=True), told([2, 2, 2, 2], 2, 'bitaos(64, row)')),
    ('of_a_leaf_that_stands_twice_in_a_pass', EIGHT, over(4, 'pass a, a times 3', A, SOA), told([12, 6], 6, SOA)),
    ('of_a_leaf_that_stands_in_two_passes', EIGHT, over(4, 'pass a times 3 pass a times 1', A, SOA), told([16, 8], 8, SOA)),
    ('of_no_time', EIGHT, over(4, 'pass a times 0', A, SOA), told([0, 0], 0, A)),
    ('of_no_time_beside_five', EIGHT, over(4, 'pass a times 0 pass b times 5', A, SOA), told([20, 10], 10, SOA)),
    ('of_4294967295_times', EIGHT, over(4, f'pass a times {GREATEST}', A, SOA), told([4 * GREATEST, 2 * GREATEST], 2 * GREATEST, SOA)),
    ('of_16_times_4294967295_times', EIGHT, over(1, ' '.join([f'pass a times {GREATEST}'] * 16), A), told([128 * GREATEST], 128 * GREATEST, A)),
    ('of_the_same_candidate_twice', EIGHT, over(4, 'pass a times 1', SOA, SOA), told([2, 2], 2, SOA)),
    ('of_lanes', EIGHT, over(4, 'pass a times 1 pass b times 10', 'aosoa(3, row)', 'aosoa(4, row)'), told([54, 22], 22, 'aosoa(4, row)')),
    ('of_bits', EIGHT, over(4, 'pass a times 1 pass b times 1', A, 'bitaos(4, row)', 'bitsoa(4, row)'), told([8, 4, 2], 2, 'bitsoa(4, row)')),
    ('of_bits_by_leaf', EIGHT, over(1, 'pass a times 1 pass b times 1', 'bitaos(1 { b: 3 }, row)', 'bitsoa(1 { b: 3 }, row)'), told([8, 4], 4, 'bitsoa(1 { b: 3 }, row)')),
    ('of_a_bit_that_lies_in_two_bytes', SHORT + f'view V : P [8] as {A} | ', over(1, 'pass a times 1 pass b times 1', 'bitaos(7, row)'), told([28], 28, 'bitaos(7, row)')),
    ('of_greater_types', EIGHT, over(4, 'pass a times 1', 'change(u8->u32, aos(packed, row))', 'change(u8->u16, soa(multi, row))'), told([8, 4], 4, 'change(u8->u16, soa(multi, row))')),
    ('of_bytes_that_are_parted', SIXTY_FOUR, over(64, 'pass b times 1', 'bytesplit(soa(multi, row))', SOA, A), told([8, 8, 9], 8, 'bytesplit(soa(multi, row))')),
    ('of_bytes_in_reverse_order', SIXTY_FOUR, over(64, HOT, f'byteswap({A})', f'byteswap({SOA})'), told([99, 18], 18, f'byteswap({SOA})')),
    ('of_structs_with_padding', SIXTY_FOUR, over(8, HOT, 'aos(aligned, row)', 'aos(min, row)', 'aos(min, col)'), told([704, 704, 704], 704, 'aos(aligned, row)')),
    ('of_padding_that_is_not_touched', SIXTY_FOUR, over(1, HOT, 'aos(aligned, row)', A), told([1152, 1152], 1152, 'aos(aligned, row)')),
    ('of_the_last_granule_of_a_blob', SHORT + f'view V : P [5] as {A} | ', over(4, 'pass a times 1 pass b times 1', SOA, A), told([4, 6], 4, SOA)),
    ('of_granules_of_each_blob', SHORT + f'view V : P [5] as {A} | ', over(4096, 'pass a times 1 pass b times 1', SOA, A, 'soa(single, row)'), told([2, 2, 2], 2, SOA)),
    ('of_two_leaves_in_granules_of_each_blob', SHORT + f'view V : P [5] as {A} | ', over(4096, 'pass a, b times 1', SOA, A), told([2, 1], 1, A)),
    ('of_a_square_by_columns', SHORT + f'view V : P [2, 4] as {A} | ', over(4, 'pass a times 1', 'soa(multi, col)', 'aos(packed, col)'), told([2, 4], 2, 'soa(multi, col)')),
    ('of_a_curve', SHORT + f'view V : P [1, 8] as {A} | ', over(8, 'pass a times 1', 'soa(multi, morton)', SOA), told([2, 1], 1, SOA)),
    ('of_a_curve_of_whole_blobs', SHORT + f'view V : P [1, 8] as {A} | ', over(4096, 'pass a times 1', 'soa(multi, morton)', SOA), told([1, 1], 1, 'soa(multi, morton)')),
    ('of_a_mapping_by_its_name', SIXTY_FOUR + f'mapping M = {SOA} | mapping N = count(M) | ', over(64, HOT, A, 'N'), told([99, 18], 18, SOA)),
    ('of_a_mapping_by_its_name_in_splits', SIXTY_FOUR + f'mapping splits = {A} | ', over(64, HOT, 'splits', splits=True), told([99], 18, f'split(a, {A}, {A})')),
    ('of_a_mapping_named_splits', SIXTY_FOUR + f'mapping splits = {A} | ', over(64, HOT, 'splits'), told([99], 99, A)),
    ('of_names_that_are_its_words', TWO + f'record advise {{ pass:u8, times:u8, among:u8 }} | mapping among = {A} | view granule : advise [4] as among | advise granule granule 4 pass pass, times times 2 pass among times 3 among among splits', '',
     'candidate,cost | 1,15 | best 7 ' + spelled(f'split(among, {A}, {A})')),
    ('of_splits_that_are_listed', SIXTY_FOUR, over(64, HOT, f'split(b, {A}, {A})', splits=True), told([18], 18, f'split(b, {A}, {A})')),
    ('of_numbers_with_leading_zeros', SIXTY_FOUR, 'advise V granule 0064 pass a times 010 pass b times 01 among aos(packed,row),soa(multi,row)# a note', told([99, 18], 18, SOA)),
]]


# granules of each size: 64 records of 9 bytes

GRANULES = [2 ** power for power in range(13)]
PLAIN, ARRAYS = ('aos', 'packed', 'row'), ('soa', 'multi', 'row')


def of_table(name, record, advised, extents, mapping, granule, passes, maps, splits, data=None):
    """A table that is asked for advice, and what it counted."""
    mode = '' if advised.is_strict else ' wrap'
    if data is not None:
        advised.touch_all()
    begin = f'load V : P {written(extents)}{mode} as {text_of(mapping)} from "d.csv"' if data is not None else f'view V : P {written(extents)}{mode} as {text_of(mapping)}'
    due = [advised.advice(granule, passes, maps, splits)]
    script, counters = [f'record P {{ {record} }}', begin, f'advise V {advise_text(granule, passes, maps, splits)}'], counters_of(mapping)
    if 'count' in counters:
        script, due = script + ['counts V'], due + [advised.counted()]
    if 'heat' in counters:
        script, due = script + ['heat V'], due + [advised.heated(counters['heat'][1])]
    return Case(f'advice_{name}', TWO + ' | '.join(script), ' | '.join(due), data)


def of_granule(granule):
    advised = Advised([('a', 'u8'), ('b', 'u64')], (64,), PLAIN, [[0, 0]] * 64, True)
    return of_table(f'of_granules_of_{granule}', 'a:u8, b:u64', advised, (64,), PLAIN, granule, [(['a'], 10), (['b'], 1)], [PLAIN, ARRAYS, ('aosoa', 8, 'row'), ('bitaos', 4, 'row')], granule in (1, 64, 4096))


SIZES = [of_granule(granule) for granule in GRANULES]


# what does not suit, fields and inner nodes, counters, and tables without rows

NINE = EIGHT + 'set V[3].a = 9 | '
WRAPPED = TWO + 'record P { u:u16 } | view V : P [3] wrap as aos(packed, row) | update V set u = 5 | set V[1].u = 65480 | '
NESTED = TWO + f'record P {{ f:bool, h:u8[2], p {{ x:u8, y:u16 }}[2] }} | view V : P [4] as {A} | '
COUNTED = SHORT + 'view V : P [2] as count(heat(1, aos(packed, row))) | '
SUITS = [case(name, begin + line, due) for name, begin, line, due in [
    ('of_a_narrow_one', NINE, over(4, 'pass a times 1', 'bitaos(3, row)', A), told(['narrow', 4], 4, A)),
    ('of_a_narrow_one_that_would_be_cheapest', NINE, over(4, 'pass a times 1', A, 'bitsoa(3, row)', SOA), told([4, 'narrow', 2], 2, SOA)),
    ('of_narrow_ones_alone', NINE, over(4, 'pass a times 1', 'bitaos(3, row)', 'bitsoa(3, row)'), told(['narrow', 'narrow'], 'none')),
    ('of_narrow_ones_alone_in_splits', NINE, over(4, 'pass a times 1', 'bitaos(3, row)', splits=True), told(['narrow'], 'none')),
    ('of_narrow_ones_that_suit_on_one_side', NINE, over(4, 'pass a times 1 pass b times 1', 'bitaos(3, row)', A, splits=True), told(['narrow', 8], 3, f'split(a, {A}, bitaos(3, row))')),
    ('of_one_that_holds_just_enough', NINE, over(4, 'pass a times 1', 'bitaos(4, row)', 'bitaos(3, row)'), told([2, 'narrow'], 2, 'bitaos(4, row)')),
    ('of_a_lesser_type_with_a_sign', EIGHT + 'set V[7].b = 128 | ', over(4, 'pass a times 1', 'change(u8->i8, aos(packed, row))', 'change(u8->i16, soa(multi, row))'), told(['narrow', 4], 4, 'change(u8->i16, soa(multi, row))')),
    ('of_a_number_below_0', TWO + f'record P {{ a:i8, b:i8 }} | view V : P [8] as {A} | set V[0].b = -1 | ', over(4, 'pass a times 1', 'change(i8->u16, aos(packed, row))', 'bitsoa(1, row)'), told(['narrow', 1], 1, 'bitsoa(1, row)')),
    ('of_low_bits', SHORT + f'view V : P [8] wrap as {A} | set V[3].a = 9 | ', over(4, 'pass a times 1', 'bitaos(3, row)', 'bitaos(4, row)'), told(['narrow', 2], 2, 'bitaos(4, row)')),
    ('of_low_bits_that_are_kept_by_a_lesser_type', WRAPPED, over(1, 'pass u times 1', 'change(u16->i8, aos(packed, row))', A), told([3, 6], 3, 'change(u16->i8, aos(packed, row))')),
    ('of_low_bits_between_those_that_are_kept', WRAPPED + 'set V[2].u = 200 | ', over(1, 'pass u times 1', 'change(u16->i8, aos(packed, row))', A), told(['narrow', 6], 6, A)),
    ('of_the_same_numbers_in_a_strict_view', WRAPPED.replace(' wrap', ''), over(1, 'pass u times 1', 'change(u16->i8, aos(packed, row))', A), told(['narrow', 6], 6, A)),
    ('of_a_truth_value_of_a_bit', TWO + f'record P {{ f:bool, g:bool }} | view V : P [8] wrap as {A} | update V set f = i0, g = i0 / 2 | ', over(1, 'pass f times 1', 'bitsoa(1, row)', A), told([1, 8], 1, 'bitsoa(1, row)')),
    ('of_an_array_as_a_field', NESTED, over(4, 'pass h times 1', A, splits=True), told([5], 2, f'split(h, {A}, {A})')),
    ('of_an_element', NESTED, over(1, 'pass h[1] times 1', A, SOA), told([4, 4], 4, A)),
    ('of_records_in_an_array', NESTED, over(4, 'pass p[0] times 1', A, SOA), told([6, 3], 3, SOA)),
    ('of_a_leaf_of_records_in_an_array', NESTED, over(2, 'pass p[1].y times 1', A, SOA), told([6, 4], 4, SOA)),
    ('of_an_inner_node_and_a_leaf_under_it', NESTED, over(4, 'pass p, p[1].y, p[0].x times 1', SOA), told([6], 6, SOA)),
    ('of_all_leaves_by_their_fields', NESTED, over(4, 'pass f, h, p times 1', A, splits=True), told([9], 9, A)),
    ('of_fields_and_not_of_inner_ones', TWO + f'record P {{ p {{ x:u8, y:u8 }} }} | view V : P [8] as {A} | ', over(4, 'pass p.x times 1', A, splits=True), told([4], 4, A)),
    ('of_a_record_of_one_leaf_in_splits', TWO + f'record P {{ a:u8 }} | view V : P [8] as {A} | ', over(4, 'pass a times 1', A, 'bitaos(4, row)', splits=True), told([2, 1], 1, 'bitaos(4, row)')),
    ('of_a_record_of_one_array_in_splits', TWO + f'record P {{ a:u8[2] }} | view V : P [8] as {A} | ', over(4, 'pass a[0] times 1', A, splits=True), told([4], 4, A)),
    ('of_entries_that_have_no_leaf_on_one_side', EIGHT, over(1, 'pass b times 1', 'bitaos(8 { a: 1 }, row)', splits=True), told([9], 9, 'bitaos(8 { a: 1 }, row)')),
    ('of_entries_of_the_side_that_is_hot', EIGHT, over(1, 'pass a times 1', 'bitaos(8 { a: 1 }, row)', A, splits=True), told([8, 8], 1, f'split(a, bitaos(8 {{ a: 1 }}, row), {A})')),
    ('of_a_split_that_is_no_side', NESTED, over(4, 'pass h times 1', f'split(h, {A}, {A})', splits=True), told([2], 2, f'split(h, {A}, {A})')),
    ('of_a_split_on_one_side', NESTED, over(4, 'pass h[0] times 1', f'split(h[0], {A}, {A})', A, splits=True), told([1, 4], 1, f'split(h[0], {A}, {A})')),
    ('of_depth_8_that_is_no_side', EIGHT, over(4, 'pass a times 1', f'{"byteswap(" * 7}{A}{")" * 7}', splits=True), told([4], 4, f'{"byteswap(" * 7}{A}{")" * 7}')),
    ('of_depth_7_that_is_a_side', EIGHT, over(4, 'pass a times 1', f'{"byteswap(" * 6}{A}{")" * 6}', splits=True), told([4], 2, f'split(a, {"byteswap(" * 6}{A}{")" * 6}, {"byteswap(" * 6}{A}{")" * 6})')),
    ('takes_counters_off', SIXTY_FOUR, over(64, HOT, f'count({A})', f'heat(8, count({SOA}))'), told([99, 18], 18, SOA)),
    ('takes_counters_off_that_stand_twice', SIXTY_FOUR, over(64, HOT, f'count(count(heat(1, heat(2, {SOA}))))'), told([18], 18, SOA)),
    ('takes_counters_off_whatever_their_numbers', SIXTY_FOUR, over(64, HOT, f'heat(48, {SOA})'), told([18], 18, SOA)),
    ('takes_counters_off_in_splits', SIXTY_FOUR, over(64, HOT, f'count({A})', splits=True), told([99], 18, f'split(a, {A}, {A})')),
    ('of_a_view_without_rows', SHORT + f'view V : P [0] as {A} | ', over(4, 'pass a times 1', A, SOA), told([0, 0], 0, A)),
    ('of_a_view_without_rows_in_splits', SHORT + f'view V : P [0, 3] as {A} | ', over(1, 'pass a times 1', 'bitaos(1, morton)', A, splits=True), told([0, 0], 0, 'bitaos(1, morton)')),
    ('of_16_passes', EIGHT, over(4, ' '.join(['pass a times 1'] * 16), A, SOA), told([64, 32], 32, SOA)),
    ('of_16_candidates', EIGHT, over(4, 'pass a times 1', *[A] * 15, SOA), told([4] * 15 + [2], 2, SOA)),
    ('of_16_passes_and_16_candidates_in_splits', EIGHT, over(4, ' '.join(['pass a times 1'] * 15 + ['pass b times 9']), *[A] * 16, splits=True), told([96] * 16, 48, f'split(a, {A}, {A})')),
    ('of_64_paths_in_a_pass', EIGHT, over(4, f'pass {", ".join(["a"] * 64)} times 1', A), told([4], 4, A)),
    ('counts_a_read_of_each_entry', COUNTED, over(1, 'pass a times 9', A, SOA) + ' | counts V | heat V', told([18, 18], 18, A) + ' | leaf,reads,writes | a,2,0 | b,2,0 | blob,granule,accesses | 0,0,1 | 0,1,1 | 0,2,1 | 0,3,1'),
    ('counts_the_same_of_a_narrow_one', COUNTED + 'update V set b = 200 | ', over(1, 'pass a times 0', 'bitaos(2, row)') + ' | counts V', told(['narrow'], 'none') + ' | leaf,reads,writes | a,2,0 | b,2,2'),
    ('counts_the_same_of_many_candidates', COUNTED, over(1, 'pass a times 1 pass b times 1', A, SOA, 'bitaos(1, row)', splits=True) + ' | counts V', told([4, 4, 2], 2, 'bitaos(1, row)') + ' | leaf,reads,writes | a,2,0 | b,2,0'),
    ('changes_nothing', NINE, over(4, 'pass a times 1', SOA) + ' | bytes V 0 | reduce V sum a', told([2], 2, SOA) + ' | 00 00 00 00 00 00 09 00 00 00 00 00 00 00 00 00 | 9'),
    ('twice', EIGHT, over(4, 'pass a times 1', SOA) + ' | ' + over(4, 'pass b times 1', A), told([2], 2, SOA) + ' | ' + told([4], 4, A)),
    ('before_a_new_layout', SIXTY_FOUR, over(64, HOT, A, SOA) + f' | relayout V as {SOA} | ' + over(64, HOT, SOA), told([99, 18], 18, SOA) + ' | ' + told([18], 18, SOA)),
    ('whatever_the_layout_of_the_view', LONG + 'view V : P [64] as bitsoa(1, morton) | ', over(64, HOT, A, SOA), told([99, 18], 18, SOA)),
    ('before_a_drop', EIGHT, over(4, 'pass a times 1', A) + ' | drop V | ' + over(4, 'pass a times 1', A), told([4], 4, A) + ' | line 6: Unknown V'),
]]
FILES = [
    Case('advice_on_a_view_that_was_opened', TWO + 'open V from "f" | ' + over(1, 'pass a times 2', 'bitaos(2, row)', A, 'bitaos(1, row)'), told([2, 6, 'narrow'], 2, 'bitaos(2, row)'), files={'f': file_of(BYTE, '[3] as aos(packed, row)', '01 02 03')}),
    Case('advice_on_a_view_that_was_loaded', SHORT + 'load V : P [?] as aosoa(4, row) from "d.csv" | ' + over(1, 'pass a times 1', 'bitaos(3, row)', 'bitsoa(3 { b: 8 }, row)', splits=True),
         told(['narrow', 1], 1, 'bitsoa(3 { b: 8 }, row)'), b'a,b\n7,255\n3,0\n'),
]


# refusals

REFUSED = [case(f'is_refused_{name}', begin + line, f'line {begin.count(" | ") + 1}: {fault}') for name, begin, line, fault in [
    ('of_granules_of_0', EIGHT, over(0, 'pass a times 1', A), 'BadAdvice Granule'), ('of_granules_of_3', EIGHT, over(3, 'pass a times 1', A), 'BadAdvice Granule'), ('of_granules_of_48', EIGHT, over(48, 'pass a times 1', A), 'BadAdvice Granule'),
    ('of_granules_of_8192', EIGHT, over(8192, 'pass a times 1', A), 'BadAdvice Granule'), ('of_granules_of_4294967295', EIGHT, over(GREATEST, 'pass a times 1', A), 'BadAdvice Granule'),
    ('of_17_passes', EIGHT, over(4, ' '.join(['pass a times 1'] * 17), A), 'BadAdvice Passes'), ('of_17_passes_of_no_time', EIGHT, over(4, ' '.join(['pass a times 0'] * 17), A), 'BadAdvice Passes'),
    ('of_200_passes', EIGHT, over(4, ' '.join(['pass a times 1'] * 200), A), 'BadAdvice Passes'), ('of_17_candidates', EIGHT, over(4, 'pass a times 1', *[A] * 17), 'BadAdvice Candidates'),
    ('of_150_candidates', EIGHT, over(4, 'pass a times 1', *[A] * 150), 'BadAdvice Candidates'),
    ('of_lanes', EIGHT, over(4, 'pass a times 1', A, 'aosoa(65, row)'), 'BadMapping Lanes'), ('of_a_width', EIGHT, over(4, 'pass a times 1', 'bitaos(0, row)'), 'BadMapping Width'), ('of_a_width_by_leaf', EIGHT, over(4, 'pass a times 1', 'bitaos(8 { a: 65 }, row)'), 'BadMapping Width'),
    ('of_a_side', EIGHT, over(4, 'pass a times 1', f'split(z, {A}, {A})'), 'BadMapping Side'), ('of_an_entry', EIGHT, over(4, 'pass a times 1', 'bitaos(8 { z: 4 }, row)'), 'BadMapping Field'), ('of_bits_in_reverse_order', EIGHT, over(4, 'pass a times 1', 'byteswap(bitaos(7, row))'), 'BadMapping NotFull'),
    ('of_depth_9', EIGHT, over(4, 'pass a times 1', f'{"byteswap(" * 8}{A}{")" * 8}'), 'BadMapping TooDeep'), ('of_a_counter_inside', EIGHT, over(4, 'pass a times 1', f'split(a, count({A}), {A})'), 'BadMapping Counter'), ('of_a_counter_under_one_that_is_taken_off', EIGHT, over(4, 'pass a times 1', f'count(byteswap(count({A})))'), 'BadMapping Counter'),
    ('of_a_granule_inside', EIGHT, over(4, 'pass a times 1', f'byteswap(heat(3, {A}))'), 'BadMapping Counter'),
    ('of_the_first_of_two', EIGHT, over(4, 'pass a times 1', A, 'bitaos(65, row)', 'aosoa(0, row)'), 'BadMapping Width'), ('of_the_last_of_16', EIGHT, over(4, 'pass a times 1', *[A] * 15, 'aosoa(0, row)'), 'BadMapping Lanes'),
    ('of_too_many_slots', SHORT + 'view V : P [4097, 1] as bitaos(1, row) | ', over(4, 'pass a times 1', 'soa(multi, morton)'), 'TooBig'),
    ('of_too_much_memory', TWO + 'record P { a:u8, b:u64, c:u8 } | view V : P [16777216] as bitaos(1, row) | ', over(64, 'pass a times 1', 'aos(aligned, row)'), 'TooBig'),
    ('of_too_much_memory_by_a_greater_type', TWO + 'record P { a:u8, b:u8, c:u8 } | view V : P [16777216] as bitaos(1, row) | ', over(4096, 'pass a times 1', 'change(u8->u64, aos(packed, row))'), 'TooBig'),
    ('of_too_many_granules', SHORT + 'view V : P [8388609] as bitaos(1, row) | ', over(1, 'pass a times 1', A), 'TooBig'),
    ('of_too_many_granules_of_two_bytes', TWO + 'record P { a:u8, b:u32 } | view V : P [8388609] as bitaos(1, row) | ', over(2, 'pass a times 1', SOA), 'TooBig'),
    ('of_the_first_that_is_too_big', SHORT + 'view V : P [4097, 1] as bitaos(1, row) | ', over(4, 'pass a times 1', 'soa(multi, morton)', 'bitaos(65, row)'), 'TooBig'),
    ('of_the_first_before_one_that_is_too_big', SHORT + 'view V : P [4097, 1] as bitaos(1, row) | ', over(4, 'pass a times 1', 'bitaos(65, row)', 'soa(multi, morton)'), 'BadMapping Width'),
    ('of_one_that_is_both', SHORT + 'view V : P [4097, 1] as bitaos(1, row) | ', over(4, 'pass a times 1', 'bitaos(65, morton)'), 'BadMapping Width'),
    ('of_one_that_would_not_suit', NINE, over(4, 'pass a times 1', 'bitaos(1, row)', 'byteswap(bitaos(7, row))'), 'BadMapping NotFull'),
    ('of_a_view_without_rows', SHORT + f'view V : P [0] as {A} | ', over(4, 'pass a times 1', 'bitaos(65, row)'), 'BadMapping Width'),
    ('though_splits_would_go', SIXTY_FOUR, over(64, HOT, f'byteswap(bitaos(8 {{ b: 64 }}, row))', 'byteswap(bitaos(63, row))', splits=True), 'BadMapping NotFull'),
]]
BAD = 'pass a times 1 ' * 17
FIRST = [case(f'wants_{name}', EIGHT + line, f'line 4: {fault}') for name, line, fault in [
    ('a_line_before_a_view', 'advise W granule 3 pass z times 1 among', 'Syntax column 40'),
    ('a_view_before_mappings', 'advise W granule 3 pass z times 1 among N', 'Unknown W'),
    ('mappings_before_leaves', f'advise V granule 3 pass z times 1 among {A}, N', 'Unknown N'),
    ('the_first_mapping', f'advise V granule 3 pass z times 1 among count(split(z, {A}, K)), L', 'Unknown K'),
    ('leaves_before_granules', f'advise V granule 3 pass a, z times 1 {BAD}among aosoa(0, row)', 'Unknown z'),
    ('the_first_leaf', 'advise V granule 3 pass a times 1 pass x, z times 1 among aosoa(0, row)', 'Unknown x'),
    ('the_leaves_of_the_17th_pass', f'advise V granule 4 {BAD}pass z times 1 among aosoa(0, row)', 'Unknown z'),
    ('a_leaf_by_its_whole_path', f'advise V granule 4 pass a.b times 1 among {A}', 'Unknown a.b'),
    ('a_leaf_without_a_place', f'advise V granule 4 pass a[0] times 1 among {A}', 'Unknown a[0]'),
    ('granules_before_passes', f'advise V granule 3 {BAD}among {", ".join([A] * 17)}', 'BadAdvice Granule'),
    ('passes_before_candidates', f'advise V granule 4 {BAD}among {", ".join([A] * 17)}', 'BadAdvice Passes'),
    ('candidates_before_mappings', f'advise V granule 4 pass a times 1 among {", ".join([A] * 16)}, aosoa(0, row)', 'BadAdvice Candidates'),
    ('granules_before_mappings', 'advise V granule 3 pass a times 1 among aosoa(0, row)', 'BadAdvice Granule'),
    ('paths_in_splits_last', f'advise V granule 4 pass a times 1 among split(z, {A}, {A})', 'BadMapping Side')]]
PATHS = [case(f'wants_{name}', NESTED + line, f'line 4: {fault}') for name, line, fault in [
    ('an_element_that_is_there', f'advise V granule 4 pass h[2] times 1 among {A}', 'Unknown h[2]'), ('a_field_of_a_record', f'advise V granule 4 pass p[1].z times 1 among {A}', 'Unknown p[1].z'),
    ('an_element_before_its_field', f'advise V granule 4 pass p.x times 1 among {A}', 'Unknown p.x'), ('whole_names', f'advise V granule 4 pass ff times 1 among {A}', 'Unknown ff'), ('a_record_that_is_there', f'advise V granule 4 pass p[0].x[0] times 1 among {A}', 'Unknown p[0].x[0]')]]

LIMITS = [Case(f'advice_{name}', script, due, by_hand=True) for name, script, due in [
    ('of_2_to_the_24_granules', TWO + 'record P { a:u8 } | view V : P [16777216] as bitaos(1, row) | ' + over(1, 'pass a times 3', A, 'bitaos(1, row)'), told([3 * 2 ** 24, 3 * 2 ** 21], 3 * 2 ** 21, 'bitaos(1, row)')),
    ('of_2_to_the_24_slots', TWO + 'record P { a:u8, b:u8 } | view V : P [1, 4096] as bitaos(1, row) | ' + over(4096, 'pass a times 1', 'bitaos(1, morton)', 'soa(multi, morton)'), told([32, 64], 32, 'bitaos(1, morton)')),
    ('of_2_to_the_28_bytes', TWO + 'record P { a:u8, b:u64 } | view V : P [16777216] as bitaos(1, row) | ' + over(64, 'pass a times 1', 'aos(aligned, row)', SOA), told([2 ** 22, 2 ** 18], 2 ** 18, SOA)),
]]


# lines

SYNTAX = [Case(f'advice_{name}', begin + text.replace('^', ''), f'line {begin.count("|") + 1}: Syntax column {text.index("^") + 1}') for name, begin, text in [
    ('in_version_1', EIGHT.replace('2', '1', 1), f'^advise V granule 4 pass a times 1 among {A}'), ('in_a_script_without_a_version', EIGHT.replace(TWO, ''), f'^advise V granule 4 pass a times 1 among {A}'),
    ('without_a_view', EIGHT, 'advise^'), ('without_granules', EIGHT, f'advise V ^pass a times 1 among {A}'), ('without_a_size_of_granules', EIGHT, f'advise V granule ^pass a times 1 among {A}'), ('of_granules_below_0', EIGHT, f'advise V granule ^-4 pass a times 1 among {A}'),
    ('of_granules_of_33_bits', EIGHT, f'advise V granule ^4294967296 pass a times 1 among {A}'), ('without_passes', EIGHT, f'advise V granule 4 ^among {A}'), ('without_an_end', EIGHT, 'advise V granule 4^'), ('of_a_pass_without_leaves', EIGHT, f'advise V granule 4 pass times ^1 among {A}'),
    ('of_a_pass_without_its_word', EIGHT, f'advise V granule 4 ^a times 1 among {A}'), ('of_a_pass_without_times', EIGHT, f'advise V granule 4 pass a ^among {A}'), ('of_a_pass_without_a_number', EIGHT, f'advise V granule 4 pass a times ^among {A}'), ('of_a_pass_below_0_times', EIGHT, f'advise V granule 4 pass a times ^-1 among {A}'),
    ('of_a_pass_of_33_bits', EIGHT, f'advise V granule 4 pass a times ^4294967296 among {A}'), ('of_leaves_without_commas', EIGHT, f'advise V granule 4 pass a ^b times 1 among {A}'), ('of_leaves_that_end_with_a_comma', EIGHT, f'advise V granule 4 pass a, times ^1 among {A}'),
    ('of_passes_with_commas', EIGHT, f'advise V granule 4 pass a times 1^, pass b times 1 among {A}'), ('of_an_index_for_a_leaf', EIGHT, f'advise V granule 4 pass ^i0 times 1 among {A}'), ('of_a_value_for_a_leaf', EIGHT, f'advise V granule 4 pass a ^+ b times 1 among {A}'),
    ('without_candidates', EIGHT, 'advise V granule 4 pass a times 1 among^'), ('without_among', EIGHT, f'advise V granule 4 pass a times 1 ^aos(packed, row)'), ('of_candidates_without_commas', EIGHT, f'advise V granule 4 pass a times 1 among {A} ^soa(multi, row)'),
    ('of_candidates_that_end_with_a_comma', EIGHT, f'advise V granule 4 pass a times 1 among {A},^'), ('of_candidates_in_brackets', EIGHT, f'advise V granule 4 pass a times 1 among ^[{A}]'), ('of_a_candidate_that_is_none', EIGHT, 'advise V granule 4 pass a times 1 among aos(^tight, row)'),
    ('of_splits_before_candidates', EIGHT, f'advise V granule 4 pass a times 1 among splits ^{A}'), ('of_splits_twice', EIGHT, f'advise V granule 4 pass a times 1 among {A} splits ^splits'), ('of_a_split_for_splits', EIGHT, f'advise V granule 4 pass a times 1 among {A} ^split'),
    ('of_splits_in_capitals', EIGHT, f'advise V granule 4 pass a times 1 among {A} ^Splits'), ('in_capitals', EIGHT, f'^Advise V granule 4 pass a times 1 among {A}'), ('of_a_window', EIGHT, f'advise V ^window [0 : 4] granule 4 pass a times 1 among {A}'), ('of_granules_behind_passes', EIGHT, f'advise V ^pass a times 1 granule 4 among {A}')]]
NAMES = [case('is_a_name_in_version_1', 'record advise { pass:u8 } | view advise : advise [1] as aos(packed, row) | print advise', 'pass | 0')]


# each form of a layout in each order

PASSES = [[(['a'], 5), (['p'], 1)], [(['p.x', 'f'], 2), (['a', 'b'], 1), (['b'], 0)], [(['f'], 7)], [(['a', 'b', 'p', 'f'], 1)], [(['p.y'], 3), (['p.y', 'p.x'], 2), (['a'], 1), (['b'], 1)]]
OTHERS = [('aos', 'packed', 'row'), ('bitaos', 6, 'row'), ('bitaos', 4, 'col'), ('soa', 'multi', 'row'), ('byteswap', ('aosoa', 4, 'morton'))]


def of_form(number, name, mapping):
    advised = Advised(FIVE, (3, 4), mapping, ROWS, True)
    maps = [OTHERS[number % 5], mapping, OTHERS[(number + 2) % 5]]
    return of_table(f'of_{name}', 'a:u8, b:u8, p { x:i16, y:u32 }, f:bool', advised, (3, 4), mapping, [1, 2, 4, 8, 16, 64][number % 6], PASSES[number % 5], maps, number % 3 == 0, advised.dataset())


FORMS = [of_form(number, name, mapping) for number, (name, mapping, _) in enumerate(IN_ORDERS)]


# thrown: strict and with low bits, under candidates of each depth

def thrown_case(number, depth, form_of):
    dice = Dice(7777 * depth + number)
    record, extents = dice.of(sorted(RECORDS)), dice.of(EXTENTS)
    cells, rows, is_strict = RECORDS[record], 1, number % 2 == 0
    for extent in extents:
        rows *= extent
    maps = [mapping for mapping in [counted_form(dice, record, 1 + dice.below(depth), form_of) if dice.below(4) == 0 else form_of(dice, cells, 1 + dice.below(depth), False) for _ in range(1 + dice.below(6))]
            if is_accepted(uncounted(mapping), cells)] or [ARRAYS]
    numbers = [[dice.below(2) if is_strict or dice.below(2) else TYPES[kind][0] + dice.below(2 ** 31) * dice.below(2 ** 31) for _, kind in cells] for _ in range(rows)]
    mapping = ('count', ('heat', 8, PLAIN)) if dice.below(2) else ('aosoa', 4, 'col')
    advised = Advised(cells, extents, mapping, numbers, is_strict)
    passes = [([dice.of(fronts_of(cells)) for _ in range(1 + dice.below(3))], dice.below(9)) for _ in range(1 + dice.below(4))]
    return of_table(f'thrown_of_depth_{depth}_number_{number}', record, advised, extents, mapping, 2 ** dice.below(8), passes, maps, dice.below(2) == 0, advised.dataset())


THROWN = [thrown_case(number, depth, form_of) for depth in range(1, 9) for number, form_of in enumerate([thrown_form, thrown_widths, thrown_widths, thrown_form])]

CASES = COSTS + SIZES + SUITS + FILES + REFUSED + FIRST + PATHS + LIMITS + SYNTAX + NAMES + FORMS + THROWN
