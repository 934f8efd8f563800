"""The runs that `layout` tells, drawn for each form; maximal runs, padding, limits and refusals."""
import re


from .case import BOTH, Case, PAIR

HEADER = 'blob,bit,bits,record,leaf,low'


def drawn(drawing):
    """`b2:32` is a run of 32 bits of leaf b of record 2 from its bit 0 on, `b2/8:24` one from its bit 8 on, `.:16` 16 bits of padding. A leaf
    that is no letter stands before `@`, as in `h[1]@2:8`. `/` between blanks stands between blobs."""
    lines = [HEADER]
    for blob, words in enumerate(drawing.split(' / ')):
        bit = 0
        for word in words.split():
            leaf, row, low, bits = re.fullmatch(r'(\.|\w|.+@)(\d*)/?(\d*):(\d+)', word).groups()
            owner = '-,-,-' if leaf == '.' else f'{row},{leaf.rstrip("@")},{low or 0}'
            lines.append(f'{blob},{bit},{bits},{owner}')
            bit += int(bits)
    return ' | '.join(lines)


def of(name, record, extents, mapping, drawing):
    return Case(f'layout_{name}', f'record P {{ {record} }} | view V : P {extents} as {mapping} | layout V', drawn(drawing))


THREE = 'a:u8, b:u32, c:u16', '[2]'
BASES = [
    of('of_packed_structs', *THREE, 'aos(packed, row)', 'a0:8 b0:32 c0:16 a1:8 b1:32 c1:16'),
    of('of_least_structs', *THREE, 'aos(min, row)', 'b0:32 c0:16 a0:8 .:8 b1:32 c1:16 a1:8 .:8'),
    of('of_columns_in_one_blob', *THREE, 'soa(single, row)', 'a0:8 a1:8 b0:32 b1:32 c0:16 c1:16'),
    of('of_aligned_columns', *THREE, 'soa(aligned, row)', 'a0:8 a1:8 .:16 b0:32 b1:32 c0:16 c1:16'),
    of('of_columns', *THREE, 'soa(multi, row)', 'a0:8 a1:8 / b0:32 b1:32 / c0:16 c1:16'),
    of('of_blocks_of_1', *THREE, 'aosoa(1, row)', 'a0:8 b0:32 c0:16 a1:8 b1:32 c1:16'),
    of('of_blocks_of_2', *THREE, 'aosoa(2, row)', 'a0:8 a1:8 b0:32 b1:32 c0:16 c1:16'),
    of('of_blocks_of_3', *THREE, 'aosoa(3, row)', 'a0:8 a1:8 .:8 b0:32 b1:32 .:32 c0:16 c1:16 .:16'),
    of('of_blocks_of_64', *THREE, 'aosoa(64, row)', 'a0:8 a1:8 .:496 b0:32 b1:32 .:1984 c0:16 c1:16 .:992'),
    of('of_two_blocks', 'a:u8, b:u16', '[3]', 'aosoa(2, row)', 'a0:8 a1:8 b0:16 b1:16 a2:8 .:8 b2:16 .:16'),
    of('of_whole_bits', *THREE, 'bitaos(64, row)', 'a0:8 b0:32 c0:16 a1:8 b1:32 c1:16 .:16'),
    of('of_12_bits_without_padding', *THREE, 'bitaos(12, row)', 'a0:8 b0:12 c0:12 a1:8 b1:12 c1:12'),
    of('of_5_bits', *THREE, 'bitaos(5, row)', 'a0:5 b0:5 c0:5 a1:5 b1:5 c1:5 .:34'),
    of('of_1_bit', *THREE, 'bitaos(1, row)', 'a0:1 b0:1 c0:1 a1:1 b1:1 c1:1 .:58'),
    of('of_12_bits_by_columns', *THREE, 'bitsoa(12, row)', 'a0:8 a1:8 .:48 / b0:12 b1:12 .:40 / c0:12 c1:12 .:40'),
    of('of_32_bits_by_columns', *THREE, 'bitsoa(32, row)', 'a0:8 a1:8 .:48 / b0:32 b1:32 / c0:16 c1:16 .:32'),
    of('of_33_bits', 't:u64', '[2]', 'bitaos(33, row)', 't0:33 t1:33 .:62'),
    Case('layout_of_aligned_structs', 'record Q { a:u8, b:u32, c:u16 } | view V : Q [2] as aos(aligned, row) | set V[0].a = 1 | set V[0].b = 258 | set V[0].c = 3 | set V[1].a = 255 | '
         'set V[1].b = 4294967295 | layout V', 'blob,bit,bits,record,leaf,low | 0,0,8,0,a,0 | 0,8,24,-,-,- | 0,32,32,0,b,0 | 0,64,16,0,c,0 | 0,80,16,-,-,- | 0,96,8,1,a,0 | '
         '0,104,24,-,-,- | 0,128,32,1,b,0 | 0,160,16,1,c,0 | 0,176,16,-,-,-'),
]

ORDERS = [
    of('in_column_order', 'a:u8, b:u32', '[2, 3]', 'aos(packed, col)', 'a0:8 b0:32 a3:8 b3:32 a1:8 b1:32 a4:8 b4:32 a2:8 b2:32 a5:8 b5:32'),
    of('of_columns_in_column_order', 'a:u8', '[2, 3]', 'soa(single, col)', 'a0:8 a3:8 a1:8 a4:8 a2:8 a5:8'),
    of('of_columns_in_row_order', 'a:u8', '[2, 3]', 'soa(single, row)', 'a0:8 a1:8 a2:8 a3:8 a4:8 a5:8'),
    of('along_a_curve', 'a:u8', '[2, 3]', 'aos(packed, morton)', 'a0:8 a1:8 a3:8 a4:8 a2:8 .:8 a5:8 .:72'),
    of('along_a_curve_in_columns', 'a:u8, b:u16', '[1, 3]', 'soa(multi, morton)', 'a0:8 a1:8 .:16 a2:8 .:88 / b0:16 b1:16 .:32 b2:16 .:176'),
    of('along_a_curve_in_bits', 'a:u8', '[3, 1]', 'bitaos(3, morton)', 'a0:3 .:3 a1:3 .:15 a2:3 .:37'),
    of('along_a_curve_in_blocks', 'a:u8, b:u16', '[2, 1]', 'aosoa(2, morton)', 'a0:8 .:8 b0:16 .:16 a1:8 .:8 b1:16 .:16'),
    of('in_four_dimensions', 'a:u8', '[2, 1, 1, 2]', 'aos(packed, morton)', 'a0:8 a1:8 .:48 a2:8 a3:8 .:48'),
]

FORMS = [
    of('of_a_split', *THREE, 'split(b, soa(multi, row), aos(packed, row))', 'b0:32 b1:32 / a0:8 c0:16 a1:8 c1:16'),
    of('of_a_split_in_a_split', *THREE, 'split(c, aosoa(4, row), split(b, bitaos(9, row), soa(multi, row)))', 'c0:16 c1:16 .:32 / b0:9 b1:9 .:46 / a0:8 a1:8'),
    of('of_a_split_in_two_orders', 'a:u8, b:u8', '[2, 2]', 'split(b, soa(multi, col), soa(multi, row))', 'b0:8 b2:8 b1:8 b3:8 / a0:8 a1:8 a2:8 a3:8'),
    of('of_bytes_in_reverse_order', *THREE, 'byteswap(aos(packed, row))', 'a0:8 b0/24:8 b0/16:8 b0/8:8 b0:8 c0/8:8 c0:8 a1:8 b1/24:8 b1/16:8 b1/8:8 b1:8 c1/8:8 c1:8'),
    of('of_bytes_in_reverse_order_twice', *THREE, 'byteswap(byteswap(aos(packed, row)))', 'a0:8 b0:32 c0:16 a1:8 b1:32 c1:16'),
    of('of_bytes_apart', *THREE, 'bytesplit(soa(multi, row))', 'a0:8 a1:8 / b0:8 b1:8 / b0/8:8 b1/8:8 / b0/16:8 b1/16:8 / b0/24:8 b1/24:8 / c0:8 c1:8 / c0/8:8 c1/8:8'),
    of('of_bytes_side_by_side', *THREE, 'bytesplit(aos(packed, row))', 'a0:8 b0:32 c0:16 a1:8 b1:32 c1:16'),
    of('of_bytes_in_blocks_of_1', *THREE, 'bytesplit(aosoa(1, row))', 'a0:8 b0:32 c0:16 a1:8 b1:32 c1:16'),
    of('of_bytes_in_blocks_of_2', 'a:u8, b:u16', '[2]', 'bytesplit(aosoa(2, row))', 'a0:8 a1:8 b0:8 b1:8 b0/8:8 b1/8:8'),
    of('of_bytes_of_one_row_side_by_side', *THREE[:1], '[1]', 'bytesplit(soa(aligned, row))', 'a0:8 b0:32 c0:16'),
    of('of_bytes_in_reverse_order_apart', 'a:u8, b:u16', '[2]', 'byteswap(bytesplit(soa(single, row)))', 'a0:8 a1:8 b0/8:8 b1/8:8 b0:8 b1:8'),
    of('of_bytes_apart_in_reverse_order', 'a:u8, b:u16', '[2]', 'bytesplit(byteswap(aos(packed, row)))', 'a0:8 b0:16 a1:8 b1:16'),
    of('of_bytes_in_reverse_order_side_by_side', 'a:u8, b:u16', '[2]', 'byteswap(bytesplit(aos(packed, row)))', 'a0:8 b0/8:8 b0:8 a1:8 b1/8:8 b1:8'),
    of('of_bytes_in_two_blobs', 'a:u8, b:u16', '[2]', 'bytesplit(split(b, aos(packed, row), soa(multi, row)))', 'b0:16 b1:16 / a0:8 a1:8'),
    of('of_a_lesser_type', *THREE, 'change(u32->u16, aos(packed, row))', 'a0:8 b0:16 c0:16 a1:8 b1:16 c1:16'),
    of('of_a_greater_type', *THREE, 'change(u8->i64, aos(aligned, row))', 'a0:64 b0:32 c0:16 .:16 a1:64 b1:32 c1:16 .:16'),
    of('of_a_greater_type_in_reverse_order', 'a:u8', '[2]', 'change(u8->u16, byteswap(soa(multi, row)))', 'a0/8:8 a0:8 a1/8:8 a1:8'),
    of('of_a_greater_type_in_bits', 'a:u8', '[2]', 'change(u8->u32, bitaos(20, row))', 'a0:20 a1:20 .:24'),
    of('of_types_that_are_not_there', *THREE, 'change(i8->i64, aos(packed, row))', 'a0:8 b0:32 c0:16 a1:8 b1:32 c1:16'),
    of('of_a_counted_view', 'a:u8, b:u16', '[2]', 'count(aos(aligned, row))', 'a0:8 .:8 b0:16 a1:8 .:8 b1:16'),
    of('of_a_view_with_heat', 'a:u8, b:u16', '[2]', 'count(heat(1, aos(aligned, row)))', 'a0:8 .:8 b0:16 a1:8 .:8 b1:16'),
    of('of_a_flag', 'f:bool, a:i8', '[2]', 'soa(single, row)', 'f0:8 f1:8 a0:8 a1:8'),
    of('of_64_bits', 'a:u64, b:i64', '[1]', 'aos(aligned, row)', 'a0:64 b0:64'),
    of('of_records_and_arrays', 'pos { x:u8, y:i16 }, h:u8[2], c { q:bool }[2]', '[1]', 'aos(aligned, row)', 'pos.x@0:8 .:8 pos.y@0:16 h[0]@0:8 h[1]@0:8 c[0].q@0:8 c[1].q@0:8'),
    of('of_a_record_apart', 'pos { x:u8, y:i16 }, h:u8[2]', '[1]', 'split(pos, byteswap(aos(packed, row)), soa(multi, row))',
       'pos.x@0:8 pos.y@0/8:8 pos.y@0:8 / h[0]@0:8 / h[1]@0:8'),
    of('of_one_byte', 'a:u8', '[1]', 'soa(multi, row)', 'a0:8'),
    of('of_no_row', 'a:u8, b:u16', '[0]', 'aosoa(4, row)', ''),
    of('of_no_row_in_bits', 'a:u8, b:u16', '[2, 0]', 'bitsoa(4, col)', ''),
    of('of_no_row_along_a_curve', 'a:u8', '[0]', 'soa(multi, morton)', '.:8'),
    of('of_no_row_of_two_along_a_curve', 'a:u8', '[2, 0]', 'soa(multi, morton)', '.:32'),
    of('of_no_row_in_a_split', 'a:u8, b:u16', '[0]', 'split(a, aos(packed, row), soa(multi, row))', ''),
]

OTHERS = [
    Case('layout_by_the_name_of_a_mapping', PAIR + 'mapping M = byteswap(soa(multi, row)) | view V : P [1] as M | layout V', drawn('a0:8 / b0/24:8 b0/16:8 b0/8:8 b0:8')),
    Case('layout_after_a_relayout', PAIR + 'view V : P [1] as aos(aligned, row) | layout V | relayout V as aos(packed, row) | layout V',
         drawn('a0:8 .:24 b0:32') + ' | ' + drawn('a0:8 b0:32')),
    Case('layout_leaves_the_table', PAIR + 'view V : P [1] as soa(single, row) | set V[0].b = -2 | layout V | print V | bytes V 0',
         drawn('a0:8 b0:32') + ' | a,b | 0,-2 | 00 fe ff ff ff'),
    Case('layout_of_a_loaded_view', PAIR + 'load V : P [?] as aosoa(2, row) from "d.csv" | layout V', drawn('a0:8 .:8 b0:32 .:32'), b'a,b\n1,2\n'),
    Case('layout_of_a_name_that_is_a_word', 'record layout { layout:u8 } | view layout : layout [1] as soa(multi, row) | layout layout', f'{HEADER} | 0,0,8,0,layout,0'),
    # the slots of 16 rows along a curve of four dimensions are 0, 1, 16, 17, 256, 257, 272, 273, 4096 and so on
    of('of_65536_bytes', 'a:u8', '[1, 1, 1, 16]', 'aos(packed, morton)',
       'a0:8 a1:8 .:112 a2:8 a3:8 .:1904 a4:8 a5:8 .:112 a6:8 a7:8 .:30576 a8:8 a9:8 .:112 a10:8 a11:8 .:1904 a12:8 a13:8 .:112 a14:8 a15:8 .:489328'),
    of('of_65536_bytes_in_blobs', 'a:u8', '[1, 1, 1, 9]', 'soa(multi, morton)', 'a0:8 a1:8 .:112 a2:8 a3:8 .:1904 a4:8 a5:8 .:112 a6:8 a7:8 .:30576 a8:8 .:491512'),
]

REFUSED = [
    Case('layout_line_too_long_before_its_syntax', 'layout V W #'.ljust(4097, '#'), 'line 1: LineTooLong'),
    Case('layout_syntax_before_its_view', PAIR + 'layout V 0', 'line 2: Syntax column 10'),
    Case('layout_unknown_view', PAIR + 'layout V', 'line 2: Unknown V'),
    Case('layout_does_not_know_a_record', BOTH + 'layout P', 'line 3: Unknown P'),
    Case('layout_does_not_know_a_dropped_view', BOTH + 'drop V | layout V', 'line 4: Unknown V'),
    Case('layout_needs_no_counts', BOTH + 'layout V | counts V', drawn('a0:8 b0:32 a1:8 b1:32 a2:8 b2:32') + ' | line 4: NotCounted'),
    Case('layout_of_65537_bytes', 'record P { a:u8 } | view V : P [65537] as soa(multi, row) | layout V', 'line 3: TooBig'),
    Case('layout_of_more_than_65536_bytes_in_all_blobs', 'record P { a:u8, b:u8 } | view V : P [32769] as soa(multi, row) | layout V', 'line 3: TooBig'),
    Case('layout_of_more_than_65536_bytes_by_a_split', 'record P { a:u8, b:u8 } | view V : P [1, 1, 1, 16] as split(a, aos(packed, morton), aos(packed, row)) | layout V',
         'line 3: TooBig'),
    Case('layout_of_more_than_65536_bytes_by_padding', 'record P { a:u32[64] } | view V : P [255] as aosoa(60, row) | layout V', 'line 3: TooBig'),
    Case('layout_of_more_than_65536_bytes_after_a_relayout', 'record P { a:u8 } | view V : P [1, 1, 1, 17] as aos(packed, row) | relayout V as aos(packed, morton) | layout V',
         'line 4: TooBig'),
]

CASES = BASES + ORDERS + FORMS + OTHERS + REFUSED
