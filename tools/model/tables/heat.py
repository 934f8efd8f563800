"""How often each granule is touched: granules that leaves share, bits over bytes, granules of 1 to 4,096 bytes, and each command and form."""

from .case import BOTH, Case, PAIR

HEADER = 'blob,granule,accesses'


def heated(heat):
    """`1:2 4:1 / 0:3` is granule 1 of blob 0 touched twice, granule 4 once, and granule 0 of blob 1 three times."""
    blobs = [part.split() for part in heat.split('/')]
    return ' | '.join([HEADER] + [f'{blob},{part.replace(":", ",")}' for blob, parts in enumerate(blobs) for part in parts])


def of(name, record, extents, mapping, commands, heat, printed=''):
    return Case(f'heat_{name}', f'record P {{ {record} }} | view V : P {extents} as {mapping} | {commands}heat V', printed + heated(heat))


ONE, BOTH_SET = 'update V set b = 1 | ', 'update V set a = 1, b = 1 | '

# a lies at byte 3r, and b at 3r + 1 and 3r + 2: the granules of 2 bytes have a0 b0, b0 a1, b1, a2 b2, b2 a3, b3
THREES = 'a:u8, b:u16', '[4]'
SHARED = [
    of('of_nothing', *THREES, 'heat(2, aos(packed, row))', '', ''),
    of('of_one_number_over_two_granules', *THREES, 'heat(2, aos(packed, row))', 'set V[0].b = 1 | ', '0:1 1:1'),
    of('of_one_number_in_one_granule', *THREES, 'heat(2, aos(packed, row))', 'set V[1].b = 1 | ', '2:1'),
    of('of_one_leaf', *THREES, 'heat(2, aos(packed, row))', 'update V set a = 1 | ', '0:1 1:1 3:1 4:1'),
    of('of_one_leaf_over_granules', *THREES, 'heat(2, aos(packed, row))', ONE, '0:1 1:1 2:1 3:1 4:1 5:1'),
    of('of_two_leaves_that_share_granules', *THREES, 'heat(2, aos(packed, row))', BOTH_SET, '0:2 1:2 2:1 3:2 4:2 5:1'),
    of('of_two_leaves_by_bytes', *THREES, 'heat(1, aos(packed, row))', BOTH_SET, ' '.join(f'{byte}:1' for byte in range(12))),
    of('of_two_leaves_by_4_bytes', *THREES, 'heat(4, aos(packed, row))', BOTH_SET, '0:3 1:3 2:3'),
    of('of_two_leaves_by_8_bytes', *THREES, 'heat(8, aos(packed, row))', BOTH_SET, '0:6 1:3'),
    of('of_two_leaves_by_16_bytes', *THREES, 'heat(16, aos(packed, row))', BOTH_SET, '0:8'),
    of('of_two_leaves_by_4096_bytes', *THREES, 'heat(4096, aos(packed, row))', BOTH_SET, '0:8'),
    of('of_reads_and_writes_together', *THREES, 'heat(2, aos(packed, row))', 'update V set b = a + a | ', '0:3 1:3 2:1 3:3 4:3 5:1'),
    of('of_rows_beside_padding', *THREES, 'heat(1, aos(aligned, row))', BOTH_SET, '0:1 2:1 3:1 4:1 6:1 7:1 8:1 10:1 11:1 12:1 14:1 15:1'),
    of('of_padding_alone_is_not_told', 'a:u8, b:u64', '[2]', 'heat(4, aos(aligned, row))', BOTH_SET, '0:1 2:1 3:1 4:1 6:1 7:1'),
    of('of_each_part_of_a_number', 'a:u64, b:u8', '[2]', 'heat(2, aos(packed, row))', 'set V[1].a = 1 | ', '4:1 5:1 6:1 7:1 8:1'),
    of('that_goes_on', *THREES, 'heat(2, aos(packed, row))', 'set V[0].b = 1 | heat V | set V[0].a = 1 | ', '0:2 1:1', heated('0:1 1:1') + ' | '),
]

# a0 has the bits 0 to 11, b0 12 to 23, a1 24 to 35, b1 36 to 47, a2 48 to 59, b2 60 to 71, and padding goes up to 128
TWELVES = 'a:u16, b:u16', '[3]'
BITS = [
    of('of_bits_of_a', *TWELVES, 'heat(1, bitaos(12, row))', 'update V set a = 1 | ', '0:1 1:1 3:1 4:1 6:1 7:1'),
    of('of_bits_of_b', *TWELVES, 'heat(1, bitaos(12, row))', ONE, '1:1 2:1 4:1 5:1 7:1 8:1'),
    of('of_bits_that_share_bytes', *TWELVES, 'heat(1, bitaos(12, row))', BOTH_SET, '0:1 1:2 2:1 3:1 4:2 5:1 6:1 7:2 8:1'),
    of('of_bits_by_2_bytes', *TWELVES, 'heat(2, bitaos(12, row))', BOTH_SET, '0:2 1:2 2:2 3:2 4:1'),
    of('of_bits_by_8_bytes', *TWELVES, 'heat(8, bitaos(12, row))', BOTH_SET, '0:6 1:1'),
    of('of_bits_by_64_bytes', *TWELVES, 'heat(64, bitaos(12, row))', BOTH_SET, '0:6'),
    of('of_bits_of_one_number', *TWELVES, 'heat(1, bitaos(12, row))', 'set V[2].b = 4095 | reduce V count where i0 == 2 and b | ', '7:2 8:2', '1 | '),
    of('of_flags', 'f:bool', '[9]', 'heat(1, bitsoa(1, row))', 'update V set f = 1 | ', '0:8 1:1'),
    of('of_one_flag', 'f:bool', '[9]', 'heat(1, bitsoa(1, row))', 'set V[8].f = 1 | set V[7].f = 1 | ', '0:1 1:1'),
    of('of_flags_by_2_bytes', 'f:bool', '[17]', 'heat(2, bitsoa(1, row))', 'update V set f = 1 | reduce V sum f | ', '0:32 1:2', '17 | '),
    of('of_flags_in_column_order', 'f:bool', '[3, 3]', 'heat(1, bitsoa(1, col))', 'set V[2, 2].f = 1 | set V[2, 1].f = 1 | set V[0, 2].f = 0 | ', '0:2 1:1'),
    of('of_3_bits', 'a:u8', '[8]', 'heat(1, bitaos(3, row))', 'update V set a = i0 | ', '0:3 1:4 2:3'),
    of('of_33_bits', 't:u64', '[2]', 'heat(1, bitaos(33, row))', 'set V[1].t = 1 | ', '4:1 5:1 6:1 7:1 8:1'),
    of('of_33_bits_in_both_rows', 't:u64', '[2]', 'heat(1, bitaos(33, row))', 'update V set t = 1 | ', '0:1 1:1 2:1 3:1 4:2 5:1 6:1 7:1 8:1'),
    of('of_33_bits_by_8_bytes', 't:u64', '[2]', 'heat(8, bitaos(33, row))', 'update V set t = 1 | ', '0:2 1:1'),
    of('of_63_bits_over_9_bytes', 't:u64', '[4]', 'heat(1, bitsoa(63, row))', 'set V[2].t = 1 | ', ' '.join(f'{byte}:1' for byte in range(15, 24))),
    of('of_63_bits_from_the_last_bit_of_a_byte', 'a:bool, t:u64', '[2]', 'heat(1, bitaos(63, row))', 'set V[1].t = 1 | ', ' '.join(f'{byte}:1' for byte in range(9, 18))),
    of('of_bits_of_their_own_blobs', *TWELVES, 'heat(2, bitsoa(12, row))', 'update V set a = 1 | set V[1].b = 1 | ', '0:2 1:2 2:1 / 0:1 1:1'),
]

SIZES = [
    of('of_blocks_by_64_bytes', 'a:u8, b:u32', '[16]', 'count(heat(64, aosoa(8, row)))', 'update V set a = i0 % 2 | update V where a == 0 set b = i0 | counts V | ', '0:38 1:2',
       'leaf,reads,writes | a,16,16 | b,0,8 | '),
    of('of_rows_by_4096_bytes', 'a:u64[64]', '[9]', 'heat(4096, aos(packed, row))', 'update V set a[0] = 1 | ', '0:8 1:1'),
    of('of_a_number_over_4096_bytes', 'b:u16, a:u8', '[1366]', 'heat(4096, aos(packed, row))', 'set V[1365].b = 1 | ', '0:1 1:1'),
    of('of_numbers_beside_4096_bytes', 'a:u8, b:u16', '[1366]', 'heat(4096, aos(packed, row))', 'set V[1365].a = 1 | set V[1365].b = 1 | set V[1364].b = 1 | ', '0:2 1:1'),
    of('of_one_byte_in_a_granule_of_4096', 'a:u8', '[1]', 'heat(4096, soa(multi, row))', 'set V[0].a = 1 | ', '0:1'),
    of('of_a_last_granule_that_is_not_whole', 'a:u8', '[65]', 'heat(64, soa(multi, row))', 'update V set a = 1 | ', '0:64 1:1'),
    of('of_64_bytes_in_64', 'a:u8', '[64]', 'heat(64, soa(multi, row))', 'update V set a = 1 | ', '0:64'),
    of('by_32_bytes', 'a:u32', '[16]', 'heat(32, aos(packed, row))', 'update V set a = 1 | ', '0:8 1:8'),
    of('by_512_bytes', 'a:u8', '[1025]', 'heat(512, soa(multi, row))', 'update V where i0 % 2 == 0 set a = 1 | ', '0:256 1:256 2:1'),
    of('by_128_256_and_1024_bytes', 'a:u8', '[300]', 'heat(128, soa(multi, row))', 'update V set a = 1 | heat V | relayout V as heat(256, soa(multi, row)) | heat V | '
       'relayout V as heat(1024, soa(multi, row)) | ', '0:300', heated('0:128 1:128 2:44') + ' | ' + heated('0:256 1:44') + ' | '),
    of('by_2048_bytes', 'a:u16', '[1025]', 'heat(2048, soa(multi, row))', 'reduce V sum a | ', '0:1024 1:1', '0 | '),
    of('of_no_row', 'a:u8, b:u16', '[0]', 'heat(1, aosoa(4, row))', BOTH_SET + 'print V | copy V to V | ', '', 'a,b | '),
]

# two rows, b at bytes 1 to 4 and 6 to 9 of packed structs
BIG = 'a:u8, b:u32', '[2]'
FORMS = [
    of('over_packed_structs', *BIG, 'heat(1, aos(packed, row))', 'set V[1].b = 1 | ', '6:1 7:1 8:1 9:1'),
    of('over_aligned_structs', *BIG, 'heat(1, aos(aligned, row))', 'set V[1].b = 1 | set V[1].a = 1 | ', '8:1 12:1 13:1 14:1 15:1'),
    of('over_least_structs', *BIG, 'heat(4, aos(min, row))', BOTH_SET, '0:1 1:1 2:1 3:1'),
    of('over_columns_in_one_blob', *BIG, 'heat(2, soa(single, row))', BOTH_SET, '0:2 1:1 2:1 3:1 4:1'),
    of('over_aligned_columns', *BIG, 'heat(2, soa(aligned, row))', BOTH_SET, '0:2 2:1 3:1 4:1 5:1'),
    of('over_columns', 'a:u8, b:u16', '[5]', 'heat(4, soa(multi, row))', BOTH_SET, '0:4 1:1 / 0:2 1:2 2:1'),
    of('over_columns_of_one_leaf', 'a:u8, b:u16', '[5]', 'heat(4, soa(multi, row))', 'set V[4].b = 1 | ', ' / 2:1'),
    of('over_blocks_of_2', 'a:u8, b:u16', '[3]', 'heat(2, aosoa(2, row))', BOTH_SET, '0:2 1:1 2:1 3:1 4:1'),
    of('over_blocks_of_64', 'a:u8, b:u16', '[3]', 'heat(64, aosoa(64, row))', BOTH_SET, '0:3 1:3'),
    of('over_a_split', 'a:u8, b:u16', '[4]', 'heat(2, split(b, soa(multi, row), aos(packed, row)))', BOTH_SET, '0:1 1:1 2:1 3:1 / 0:2 1:2'),
    of('over_bytes_in_reverse_order', *BIG, 'heat(1, byteswap(aos(packed, row)))', 'set V[1].b = 1 | ', '6:1 7:1 8:1 9:1'),
    of('over_bytes_apart', *BIG, 'heat(1, bytesplit(soa(multi, row)))', 'set V[1].b = 1 | ', ' / 1:1 / 1:1 / 1:1 / 1:1'),
    of('over_bytes_apart_in_one_blob', *BIG, 'heat(2, bytesplit(soa(single, row)))', 'set V[1].b = 1 | set V[0].a = 1 | ', '0:1 1:1 2:1 3:1 4:1'),
    of('over_bytes_apart_in_one_granule', *BIG, 'heat(64, bytesplit(soa(single, row)))', BOTH_SET, '0:4'),
    of('over_a_greater_type', *BIG, 'heat(1, change(u8->u32, aos(packed, row)))', 'set V[1].a = 1 | ', '8:1 9:1 10:1 11:1'),
    of('over_a_lesser_type', *BIG, 'heat(1, change(u32->u8, aos(packed, row)))', BOTH_SET, '0:1 1:1 2:1 3:1'),
    of('over_a_lesser_type_in_few_bits', *BIG, 'heat(1, change(u32->u8, bitaos(6, row)))', BOTH_SET, '0:2 1:2 2:2'),
    of('over_column_order', 'a:u8', '[2, 3]', 'heat(1, aos(packed, col))', 'update V where i0 == 1 set a = 1 | ', '1:1 3:1 5:1'),
    of('over_column_order_by_2_bytes', 'a:u8', '[2, 3]', 'heat(2, aos(packed, col))', 'update V where i1 == 1 set a = 1 | ', '1:2'),
    of('over_a_curve', 'a:u8', '[2, 3]', 'heat(1, aos(packed, morton))', 'update V set a = 1 | ', '0:1 1:1 2:1 3:1 4:1 6:1'),
    of('over_a_curve_by_4_bytes', 'a:u8', '[2, 3]', 'heat(4, aos(packed, morton))', 'update V where i1 < 2 set a = 1 | set V[1, 2].a = 1 | ', '0:4 1:1'),
    of('over_two_orders_in_a_split', 'a:u8, b:u8', '[2, 2]', 'heat(1, split(a, soa(multi, row), soa(multi, col)))', 'set V[0, 1].a = 1 | set V[0, 1].b = 1 | ', '1:1 / 2:1'),
    of('under_counts', *THREES, 'count(heat(2, aos(packed, row)))', BOTH_SET, '0:2 1:2 2:1 3:2 4:2 5:1'),
    of('above_counts', *THREES, 'heat(2, count(aos(packed, row)))', BOTH_SET, '0:2 1:2 2:1 3:2 4:2 5:1'),
    of('by_the_name_of_a_mapping', *THREES, 'aos(packed, row)', 'mapping M = count(soa(multi, row)) | relayout V as heat(4, M) | ', '0:4 / 0:2 1:2'),
]

# a0 b0 b0 a1 b1 b1 in granules of 2 bytes: a0 b0, b0 a1, b1
TWO = 'a:u8, b:u16', '[2]', 'heat(2, aos(packed, row))'
OTHER = 'view W : P [2] as soa(multi, row) | '
EACH = '0:2 1:2 2:1'
TWICE = '0:4 1:4 2:2'
AFTER = [
    of('after_print', *TWO, 'print V | ', EACH, 'a,b | 0,0 | 0,0 | '),
    of('after_bytes', *TWO, 'bytes V 0 | ', '', '00 00 00 00 00 00 | '),
    of('after_layout_and_heat', *TWO, 'set V[1].b = 1 | layout V | heat V | ', '2:1', 'blob,bit,bits,record,leaf,low | 0,0,8,0,a,0 | 0,8,16,0,b,0 | 0,24,8,1,a,0 | 0,32,16,1,b,0 | '
       + heated('2:1') + ' | '),
    of('after_a_copy_from_it', *TWO, OTHER + 'copy V to W | ', EACH),
    of('after_a_copy_to_it', *TWO, OTHER + 'copy W to V | ', EACH),
    of('after_a_copy_to_a_view_of_its_form', *TWO, 'view W : P [2] as aos(packed, row) | copy V to W | ', EACH),
    of('after_a_copy_from_a_view_of_its_form', *TWO, 'view W : P [2] as aos(packed, row) | copy W to V | ', EACH),
    of('after_a_copy_onto_itself', *TWO, 'copy V to V | ', TWICE),
    of('after_a_copy_between_two_granules', *TWO, 'view W : P [2] as heat(1, soa(multi, row)) | copy V to W | heat W | ', EACH, heated('0:1 1:1 / 0:1 1:1 2:1 3:1') + ' | '),
    of('after_a_relayout', *TWO, 'print V | relayout V as heat(2, aos(packed, row)) | ', EACH, 'a,b | 0,0 | 0,0 | '),
    of('after_a_relayout_to_greater_granules', *TWO, 'print V | relayout V as heat(4, aos(packed, row)) | ', '0:3 1:1', 'a,b | 0,0 | 0,0 | '),
    of('after_a_relayout_from_counts', 'a:u8, b:u16', '[2]', 'count(aos(packed, row))', 'print V | relayout V as heat(2, aos(packed, row)) | ', EACH, 'a,b | 0,0 | 0,0 | '),
    of('after_a_drop_and_a_view_of_its_name', *TWO, 'print V | drop V | view V : P [2] as heat(1, soa(multi, row)) | ', '', 'a,b | 0,0 | 0,0 | '),
    of('after_a_sum', *TWO, 'reduce V sum b | ', '0:1 1:1 2:1', '0 | '),
    of('after_a_least_number', *TWO, 'reduce V min a | ', '0:1 1:1', '0 | '),
    of('after_a_count', *TWO, 'reduce V count where a == 0 and i0 == 1 and b == 0 | ', '0:1 1:1 2:1', '1 | '),
    of('after_axpy', *TWO, 'kernel V axpy(2, a, b) lanes 2 | ', '0:3 1:3 2:2'),
    of('after_axpy_into_the_leaf_that_it_reads', *TWO, 'kernel V axpy(2, a, a) lanes 16 | ', '0:3 1:3'),
    of('after_clamp', *TWO, 'kernel V clamp(b, 0, 1) lanes 1 | ', '0:2 1:2 2:2'),
    of('after_the_kernels_of_numbers', *TWO, 'kernel V sum(b) lanes 2 | kernel V least(b) lanes 4 | kernel V greatest(a) lanes 8 | kernel V count_where(a < 1) lanes 16 | ',
       '0:4 1:4 2:2', '0 | 0 | 0 | 2 | '),
    of('after_a_filter_that_is_0', *TWO, 'update V where a set b = 1 | ', '0:1 1:1'),
    of('after_parts_that_are_left_out', *TWO, 'update V set a = i0 | reduce V count where a and b | ', '0:2 1:2 2:1', '0 | '),
    Case('heat_of_a_loaded_view', 'record P { a:u8, b:u16 } | load V : P [?] as heat(2, aos(packed, row)) from "d.csv" | heat V | print V | heat V',
         heated(EACH) + ' | a,b | 1,2 | 3,4 | ' + heated(TWICE), b'a,b\n1,2\n3,4\n'),
]

REFUSED = [
    Case('heat_line_too_long_before_its_syntax', 'heat V W #'.ljust(4097, '#'), 'line 1: LineTooLong'),
    Case('heat_syntax_before_its_view', PAIR + 'heat V 64', 'line 2: Syntax column 8'),
    Case('heat_of_a_number', PAIR + 'heat 64', 'line 2: Syntax column 6'),
    Case('heat_unknown_view', PAIR + 'heat V', 'line 2: Unknown V'),
    Case('heat_does_not_know_a_record', BOTH + 'heat P', 'line 3: Unknown P'),
    Case('heat_does_not_know_a_dropped_view', PAIR + 'view V : P [1] as heat(1, soa(multi, row)) | drop V | heat V', 'line 4: Unknown V'),
    Case('heat_not_counted', BOTH + 'heat V', 'line 3: NotCounted'),
    Case('heat_not_counted_without_a_row', PAIR + 'view V : P [0] as soa(multi, row) | heat V', 'line 3: NotCounted'),
    Case('heat_not_counted_by_count_alone', PAIR + 'view V : P [3] as count(soa(multi, row)) | heat V', 'line 3: NotCounted'),
    Case('heat_not_counted_after_a_relayout', PAIR + 'view V : P [3] as heat(64, soa(multi, row)) | relayout V as count(soa(multi, row)) | heat V', 'line 4: NotCounted'),
    Case('heat_not_counted_after_a_copy_from_another', PAIR + 'view V : P [3] as heat(64, soa(multi, row)) | view W : P [3] as soa(multi, row) | copy V to W | heat W',
         'line 5: NotCounted'),
]

CASES = SHARED + BITS + SIZES + FORMS + AFTER + REFUSED
