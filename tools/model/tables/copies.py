"""Copies between views, and views that are laid out anew."""
from .case import BOTH, Case, PAIR

# Where the rows of [2, 3] lie, by slots: `a0` is the byte of a in slot 0, `b1` stands for the four bytes of b in slot 1, `..` for a byte
# of padding, and `/` begins another blob. Slot s has row s in the order of rows.
DRAWN = {
    'aos(packed, {})': 'a0 b0 a1 b1 a2 b2 a3 b3 a4 b4 a5 b5',
    'aos(aligned, {})': 'a0 .. .. .. b0 a1 .. .. .. b1 a2 .. .. .. b2 a3 .. .. .. b3 a4 .. .. .. b4 a5 .. .. .. b5',
    'aos(min, {})': 'b0 a0 .. .. .. b1 a1 .. .. .. b2 a2 .. .. .. b3 a3 .. .. .. b4 a4 .. .. .. b5 a5 .. .. ..',
    'soa(single, {})': 'a0 a1 a2 a3 a4 a5 b0 b1 b2 b3 b4 b5',
    'soa(aligned, {})': 'a0 a1 a2 a3 a4 a5 .. .. b0 b1 b2 b3 b4 b5',
    'soa(multi, {})': 'a0 a1 a2 a3 a4 a5 / b0 b1 b2 b3 b4 b5',
    'aosoa(1, {})': 'a0 b0 a1 b1 a2 b2 a3 b3 a4 b4 a5 b5',
    'aosoa(4, {})': 'a0 a1 a2 a3 b0 b1 b2 b3 a4 a5 .. .. b4 b5' + ' ..' * 8,
    'split(b, aos(packed, {}), aosoa(4, {}))': 'b0 b1 b2 b3 b4 b5 / a0 a1 a2 a3 a4 a5 .. ..',
}
ROW_OF_SLOT = {'row': '012345', 'col': '031425'}
RECORD = 'record P { a:u8, b:u32 } | '
FILLED = 'update V set a = 3 * i0 + i1 + 1, b = 1093738769 + 16843009 * (3 * i0 + i1) | '
BYTES = {'..': '00'} | {f'a{row}': f'0{row + 1}' for row in range(6)} | {f'b{row}': f'1{row + 1} 2{row + 1} 3{row + 1} 4{row + 1}' for row in range(6)}
PRINTED = 'a,b | ' + ' | '.join(f'{row + 1},{1093738769 + 16843009 * row}' for row in range(6))


def shown(data):
    """Bytes as they are shown, 16 a line."""
    each = data.split()
    return ' | '.join(' '.join(each[at:at + 16]) for at in range(0, len(each), 16))


def blobs_drawn(drawing, order):
    rows = {f'{leaf}{slot}': f'{leaf}{row}' for slot, row in enumerate(ROW_OF_SLOT[order]) for leaf in 'ab'}
    return [shown(' '.join(BYTES[rows.get(word, word)] for word in blob.split())) for blob in drawing.split('/')]


FORMS = [(form.replace('{}', order), blobs_drawn(drawing, order)) for form, drawing in DRAWN.items() for order in ROW_OF_SLOT]


def name_of(form):
    return '_'.join(form.replace('(', ' ').replace(')', ' ').replace(',', ' ').split())


def asked(view, blobs):
    return ' | '.join(f'bytes {view} {blob}' for blob in range(len(blobs)))


DUE = ' | '.join(line for _, blobs in FORMS for line in blobs)
EACH = [Case(f'copy_{name_of(source)}_to_each_form', RECORD + f'view V : P [2, 3] as {source} | ' + FILLED + ' | '.join(
    f'view To{at} : P [2, 3] as {form} | copy V to To{at} | {asked(f"To{at}", blobs)}' for at, (form, blobs) in enumerate(FORMS)) + ' | print V',
    DUE + ' | ' + PRINTED) for source, _ in FORMS] + [
    Case(f'relayout_{name_of(source)}_as_each_form', RECORD + f'view V : P [2, 3] as {source} | ' + FILLED + ' | '.join(
        f'relayout V as {form} | {asked("V", blobs)} | relayout V as {source}' for form, blobs in FORMS) + ' | print V',
        DUE + ' | ' + PRINTED) for source, _ in FORMS]

TWO = PAIR + 'view V : P [2] as aos(packed, row) | view W : P [2] as soa(multi, row) | update V set a = i0 + 1, b = -i0 | '
NINE = 'f:bool, a:u8, b:u16, c:u32, d:u64, e:i8, g:i16, h:i32, k:i64'
LEAST_AND_GREATEST = ('update V where i0 == 0 set e = -128, g = -32768, h = -2147483648, k = -9223372036854775808 | '
                      'update V where i0 == 1 set f = 1, a = 255, b = 65535, c = 4294967295, d = 18446744073709551615, e = 127, '
                      'g = 32767, h = 2147483647, k = 9223372036854775807 | ')
NINE_PRINTED = ('f,a,b,c,d,e,g,h,k | 0,0,0,0,0,-128,-32768,-2147483648,-9223372036854775808 | '
                '1,255,65535,4294967295,18446744073709551615,127,32767,2147483647,9223372036854775807')
COPIES = [
    Case('copy_takes_the_rows_as_they_stand', TWO + 'copy V to W | set V[0].a = 9 | print W | print V', 'a,b | 1,0 | 2,-1 | a,b | 9,0 | 2,-1'),
    Case('copy_leaves_nothing_of_what_stood', TWO + 'update W set a = 200, b = 7 | set V[1].a = 0 | copy V to W | print W', 'a,b | 1,0 | 0,-1'),
    Case('copy_of_zeros', PAIR + 'view V : P [2] as aosoa(2, row) | view W : P [2] as soa(multi, row) | update W set a = 200, b = 7 | copy V to W | print W',
         'a,b | 0,0 | 0,0'),
    Case('copy_leaves_padding_0', 'record P { a:u8, b:u16 } | view V : P [3] as aos(packed, row) | view W : P [3] as aosoa(2, row) | '
         'update V set a = 255, b = 65535 | copy V to W | bytes W 0', 'ff ff ff ff ff ff ff 00 ff ff 00 00'),
    Case('copy_twice', TWO + 'copy V to W | update V set a = a + 1 | copy V to W | print W', 'a,b | 2,0 | 3,-1'),
    Case('copy_there_and_back', TWO + 'copy V to W | update V set b = 5 | copy W to V | print V', 'a,b | 1,0 | 2,-1'),
    Case('copy_onto_itself', TWO + 'copy V to V | print V | bytes V 0', 'a,b | 1,0 | 2,-1 | 01 00 00 00 00 02 ff ff ff ff'),
    Case('copy_onto_itself_under_a_split', PAIR + 'view V : P [2] as split(b, soa(multi, col), aosoa(4, row)) | update V set a = i0 + 1, b = -i0 | '
         'copy V to V | print V | bytes V 1', 'a,b | 1,0 | 2,-1 | 01 02 00 00'),
    Case('copy_onto_itself_of_no_row', PAIR + 'view V : P [0] as aosoa(2, row) | copy V to V | print V', 'a,b'),
    Case('copy_of_no_row', PAIR + 'view V : P [2, 0] as aosoa(2, row) | view W : P [2, 0] as soa(multi, col) | copy V to W | print W', 'a,b'),
    Case('copy_of_one_row', PAIR + 'view V : P [1] as aosoa(64, row) | view W : P [1] as aos(min, row) | set V[0].b = -3 | copy V to W | print W', 'a,b | 0,-3'),
    Case('copy_to_an_earlier_view', TWO + 'copy W to V | print V', 'a,b | 0,0 | 0,0'),
    Case('copy_among_many_views', PAIR + ''.join(f'view V{at} : P [1] as aosoa({at + 1}, row) | set V{at}[0].a = {at} | ' for at in range(6))
         + 'copy V1 to V4 | copy V5 to V0 | copy V2 to V3 | ' + ' | '.join(f'reduce V{at} sum a' for at in range(6)), '5 | 1 | 2 | 2 | 1 | 5'),
    Case('copy_after_a_view_between_was_dropped', PAIR + ''.join(f'view V{at} : P [1] as aosoa({at + 1}, row) | set V{at}[0].a = {at} | ' for at in range(3))
         + 'drop V1 | copy V2 to V0 | reduce V0 sum a | copy V0 to V1', '2 | line 11: Unknown V1'),
    Case('copy_the_least_and_the_greatest_of_each_type', f'record P {{ {NINE} }} | view V : P [2] as aos(packed, row) | view W : P [2] as soa(multi, col) | '
         'view X : P [2] as aosoa(4, row) | view Y : P [2] as aos(min, row) | ' + LEAST_AND_GREATEST + 'copy V to W | copy W to X | copy X to Y | print Y', NINE_PRINTED),
    Case('copy_a_loaded_table', PAIR + 'load V : P [2, ?] as aos(packed, col) from "d.csv" | view W : P [2, 2] as aosoa(4, col) | copy V to W | print W | bytes W 0',
         'a,b | 1,-1 | 2,-2 | 3,-3 | 4,-4 | 01 03 02 04 ff ff ff ff fd ff ff ff fe ff ff ff | fc ff ff ff', b'a,b\n1,-1\n2,-2\n3,-3\n4,-4\n'),
    Case('copy_between_records_of_one_form', 'record P { a:u8, c { x:i8 }[2] } | record Q { a:u8, c { x:i8 }[2] } | view V : P [1] as soa(multi, row) | '
         'view W : Q [1] as aos(packed, row) | set V[0].c[1].x = -4 | copy V to W | print W', 'a,c[0].x,c[1].x | 0,0,-4'),
    Case('copy_in_four_dimensions', 'record P { a:u8 } | view V : P [1, 2, 1, 2] as aos(packed, row) | view W : P [1, 2, 1, 2] as soa(single, col) | '
         'update V set a = 16 * i1 + i3 | copy V to W | bytes W 0 | print W', '00 10 01 11 | a | 0 | 1 | 16 | 17'),
    Case('copy_by_names_that_are_words', 'record to { to:u8 } | view copy : to [1] as soa(multi, row) | view to : to [1] as aos(packed, row) | set to[0].to = 3 | '
         'copy to to copy | print copy', 'to | 3'),
]


def mismatch(name, source, target, extents=('[2]', '[2]')):
    return Case(f'copy_mismatch_of_{name}', f'record P {{ {source} }} | record Q {{ {target} }} | view V : P {extents[0]} as soa(multi, row) | '
                f'view W : Q {extents[1]} as soa(multi, row) | copy V to W', 'line 5: Mismatch')


FIELD = 'a:u8, b:u16'
MISMATCHES = [
    mismatch('names', FIELD, 'a:u8, c:u16'), mismatch('the_case_of_a_name', FIELD, 'a:u8, B:u16'), mismatch('types_of_one_width', FIELD, 'a:u8, b:i16'),
    mismatch('a_flag_and_a_byte', 'a:u8', 'a:bool'), mismatch('widths', FIELD, 'a:u8, b:u32'), mismatch('the_order_of_fields', FIELD, 'b:u16, a:u8'),
    mismatch('a_field_more', FIELD, FIELD + ', c:u8'), mismatch('a_field_less', FIELD, 'a:u8'), mismatch('a_leaf_and_a_record', 'a:u8', 'a { a:u8 }'),
    mismatch('a_leaf_and_an_array_of_one', 'a:u8', 'a:u8[1]'), mismatch('lengths', 'a:u8[2]', 'a:u8[3]'), mismatch('arrays_of_arrays', 'a:u8[2][3]', 'a:u8[3][2]'),
    mismatch('a_record_and_an_array_of_one', 'a { b:u8 }', 'a { b:u8 }[1]'), mismatch('a_name_in_a_record', 'a { b:u8 }', 'a { c:u8 }'),
    mismatch('a_type_in_an_array_of_records', 'a { b:u8, c:u8 }[2]', 'a { b:u8, c:i8 }[2]'),
    mismatch('extents', FIELD, FIELD, ('[2]', '[3]')), mismatch('turned_extents', FIELD, FIELD, ('[2, 3]', '[3, 2]')),
    mismatch('ranks', FIELD, FIELD, ('[6]', '[2, 3]')), mismatch('a_last_extent_of_1', FIELD, FIELD, ('[6]', '[6, 1]')),
    mismatch('a_first_extent_of_1', FIELD, FIELD, ('[1, 6]', '[6]')), mismatch('no_row_of_other_extents', FIELD, FIELD, ('[0, 2]', '[0, 3]')),
    mismatch('records_of_no_row', FIELD, 'a:u8', ('[0]', '[0]')), mismatch('records_and_extents', FIELD, 'a:u8', ('[2]', '[3]')),
]

HALVES = 'record P { a:u64[2] } | '
MOST = 2 ** 24
FOUR_BIG = HALVES + ''.join(f'view V{at} : P [{MOST}] as soa(multi, row) | ' for at in range(3)) + f'view V3 : P [{MOST - 2}] as soa(multi, row) | '
RELAYOUTS = [
    Case('relayout_keeps_the_table', TWO + 'relayout V as aosoa(2, col) | print V | bytes V 0', 'a,b | 1,0 | 2,-1 | 01 02 00 00 00 00 ff ff ff ff'),
    Case('relayout_leaves_other_views', TWO + 'relayout V as aosoa(2, col) | set V[0].a = 9 | print W | bytes W 0', 'a,b | 0,0 | 0,0 | 00 00'),
    Case('relayout_as_it_is', TWO + 'relayout V as aos(packed, row) | print V | bytes V 0', 'a,b | 1,0 | 2,-1 | 01 00 00 00 00 02 ff ff ff ff'),
    Case('relayout_by_the_name_of_a_mapping', 'mapping M = soa(multi, row) | mapping N = split(b, M, aosoa(2, row)) | ' + TWO
         + 'relayout V as N | bytes V 0 | bytes V 1 | relayout V as M | bytes V 0', '00 00 00 00 ff ff ff ff | 01 02 | 01 02'),
    Case('relayout_changes_the_number_of_blobs', TWO + 'relayout V as soa(multi, row) | bytes V 1 | relayout V as soa(single, row) | bytes V 1',
         '00 00 00 00 ff ff ff ff | line 8: BadIndex'),
    Case('relayout_then_set_update_and_reduce', TWO + 'relayout V as split(a, soa(multi, row), aosoa(8, row)) | set V[0].b = a - 9 | update V set a = a + 1 | '
         'reduce V sum b | print V', '-9 | a,b | 2,-8 | 3,-1'),
    Case('relayout_then_copy', TWO + 'relayout V as soa(single, row) | copy V to W | relayout W as aos(min, row) | copy W to V | print V | bytes W 0',
         'a,b | 1,0 | 2,-1 | 00 00 00 00 01 00 00 00 ff ff ff ff 02 00 00 00'),
    Case('relayout_then_drop_frees_the_name', TWO + 'relayout V as soa(single, row) | drop V | view V : P [1] as soa(multi, row) | print V', 'a,b | 0,0'),
    Case('relayout_of_no_row', PAIR + 'view V : P [0] as aos(packed, row) | relayout V as soa(multi, col) | print V | bytes V 1 | bytes V 2',
         'a,b | line 6: BadIndex'),
    Case('relayout_of_a_loaded_table', PAIR + 'load V : P [2, ?] as aos(packed, row) from "d.csv" | relayout V as soa(multi, col) | bytes V 0 | print V',
         '01 03 02 04 | a,b | 1,-1 | 2,-2 | 3,-3 | 4,-4', b'a,b\n1,-1\n2,-2\n3,-3\n4,-4\n'),
    Case('relayout_the_least_and_the_greatest_of_each_type', f'record P {{ {NINE} }} | view V : P [2] as aos(packed, row) | ' + LEAST_AND_GREATEST
         + 'relayout V as soa(aligned, row) | relayout V as split(e, aosoa(4, col), aos(aligned, row)) | print V', NINE_PRINTED),
    Case('relayout_of_a_middle_view', PAIR + ''.join(f'view V{at} : P [1] as aosoa({at + 1}, row) | set V{at}[0].a = {at} | ' for at in range(3))
         + 'relayout V1 as soa(multi, row) | reduce V0 sum a | reduce V1 sum a | reduce V2 sum a', '0 | 1 | 2'),
    Case('relayout_with_64_views', PAIR + ''.join(f'view V{at} : P [1] as soa(multi, row) | ' for at in range(64)) + 'relayout V5 as aosoa(2, row) | print V5',
         'a,b | 0,0'),
    Case('relayout_by_names_that_are_words', 'record as { as:u8 } | mapping as = aosoa(2, row) | view as : as [1] as as | set as[0].as = 3 | '
         'relayout as as as | bytes as 0', '03 00'),
    Case('relayout_with_its_old_bytes_at_the_limit', FOUR_BIG + 'view W : P [1] as soa(multi, row) | set W[0].a[1] = 5 | relayout W as aos(packed, row) | print W',
         'a[0],a[1] | 0,5'),
    Case('relayout_with_its_old_bytes_past_the_limit', FOUR_BIG + 'view W : P [1] as soa(multi, row) | record Q { c:u8 } | view X : Q [1] as soa(multi, row) | '
         'relayout W as aos(packed, row)', 'line 9: TooBig'),
    Case('relayout_frees_its_old_bytes', FOUR_BIG + 'view W : P [1] as soa(multi, row) | relayout W as aos(packed, row) | view X : P [1] as soa(multi, row) | print X | '
         'relayout W as soa(multi, row)', 'a[0],a[1] | 0,0 | line 10: TooBig'),
    Case('relayout_of_a_big_view_as_it_is', HALVES + ''.join(f'view V{at} : P [{MOST}] as soa(multi, row) | ' for at in range(4))
         + 'relayout V2 as soa(multi, row)', 'line 6: TooBig'),
]

DEEP = 'split(q, aosoa(0, row), ' * 8 + 'aosoa(0, row)' + ')' * 8
BIG = f'record P {{ a:u8, b:u64, c:u8 }} | view V : P [{MOST}] as aos(min, row) | '
ORDER = [
    Case('copy_line_too_long_before_its_syntax', 'copy V W #'.ljust(4097, '#'), 'line 1: LineTooLong'),
    Case('copy_syntax_before_its_names', 'copy V to W X', 'line 1: Syntax column 13'),
    Case('copy_unknown_source_before_its_target', PAIR + 'copy V to W', 'line 2: Unknown V'),
    Case('copy_unknown_target', BOTH + 'copy V to W', 'line 3: Unknown W'),
    Case('copy_unknown_source_before_a_mismatch', BOTH + 'copy W to V', 'line 3: Unknown W'),
    Case('copy_does_not_know_a_record', BOTH + 'copy V to P', 'line 3: Unknown P'),
    Case('relayout_line_too_long_before_its_syntax', 'relayout V M #'.ljust(4097, '#'), 'line 1: LineTooLong'),
    Case('relayout_syntax_before_its_names', 'relayout V as aos(packed)', 'line 1: Syntax column 25'),
    Case('relayout_unknown_view_before_its_mapping', PAIR + 'relayout V as M', 'line 2: Unknown V'),
    Case('relayout_unknown_mapping', BOTH + 'relayout V as M', 'line 3: Unknown M'),
    Case('relayout_unknown_mapping_before_its_lanes', BOTH + 'relayout V as split(q, aosoa(0, row), M)', 'line 3: Unknown M'),
    Case('relayout_unknown_mapping_from_left_to_right', BOTH + 'relayout V as split(q, split(r, M, N), O)', 'line 3: Unknown M'),
    Case('relayout_does_not_know_a_view_as_a_mapping', BOTH + 'relayout V as V', 'line 3: Unknown V'),
    Case('relayout_too_deep_before_its_lanes', BOTH + f'relayout V as {DEEP}', 'line 3: BadMapping TooDeep'),
    Case('relayout_lanes_before_its_side', BOTH + 'relayout V as split(q, soa(multi, row), aosoa(65, row))', 'line 3: BadMapping Lanes'),
    Case('relayout_lanes', BOTH + 'relayout V as aosoa(0, col)', 'line 3: BadMapping Lanes'),
    Case('relayout_lanes_of_no_row', PAIR + 'view V : P [0] as aosoa(1, row) | relayout V as aosoa(0, row)', 'line 3: BadMapping Lanes'),
    Case('relayout_side_before_its_size', BIG + 'relayout V as split(q, aos(aligned, row), aos(aligned, row))', 'line 3: BadMapping Side'),
    Case('relayout_side_of_no_row', PAIR + 'view V : P [0] as aosoa(1, row) | relayout V as split(a.x, soa(multi, row), soa(multi, row))', 'line 3: BadMapping Side'),
    Case('relayout_too_big', BIG + 'relayout V as aos(aligned, row)', 'line 3: TooBig'),
]

CASES = EACH + COPIES + MISMATCHES + RELAYOUTS + ORDER
