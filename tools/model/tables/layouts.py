"""The bytes of each layout: padding, lanes, orders, and values as bytes."""
from .case import Case

FORMS = {
    'aos_packed': 'aos(packed, {})', 'aos_aligned': 'aos(aligned, {})', 'aos_min': 'aos(min, {})',
    'soa_single': 'soa(single, {})', 'soa_aligned': 'soa(aligned, {})', 'soa_multi': 'soa(multi, {})',
    'aosoa_of_2': 'aosoa(2, {})', 'aosoa_of_4': 'aosoa(4, {})',
}

VALUES = [
    ('bool', 1, '01'), ('u8', 254, 'fe'), ('u16', 4660, '34 12'), ('u32', 305419896, '78 56 34 12'),
    ('u64', 1311768467463790320, 'f0 de bc 9a 78 56 34 12'), ('i8', -2, 'fe'), ('i8', -128, '80'), ('i16', -2, 'fe ff'),
    ('i16', -32768, '00 80'), ('i32', -2, 'fe ff ff ff'), ('i32', -2147483648, '00 00 00 80'),
    ('i64', -2, 'fe ff ff ff ff ff ff ff'), ('i64', -9223372036854775808, '00 00 00 00 00 00 00 80'),
    ('i64', 1311768467463790320, 'f0 de bc 9a 78 56 34 12'),
]


def bytes_of_value(kind, value, due):
    size = 'least' if value < -100 else 'minus' if value < 0 else 'plus'
    return Case(f'bytes_of_{size}_{kind}', f'record P {{ x:{kind} }} | view V : P [1] as aos(packed, row) | set V[0].x = {value} | bytes V 0 | '
                'reduce V sum x', f'{due} | {value}')


def padded(name, record, extents, form, sets, due, blobs=(0,)):
    shown = ' | '.join(f'bytes V {blob}' for blob in blobs)
    return Case(f'bytes_{name}', f'record P {{ {record} }} | view V : P {extents} as {form} | update V set {sets} | {shown}', due)


MIXED, FILL = 'a:u8, b:u16, c:u8', 'a = i0 + 1, b = 513 + i0, c = 255 - i0'
PADDED = [
    padded('of_aos_packed_without_padding', MIXED, '[2]', 'aos(packed, row)', FILL, '01 01 02 ff 02 02 02 fe'),
    padded('of_aos_aligned_with_padding_before_a_cell_and_at_the_end', MIXED, '[2]', 'aos(aligned, row)', FILL,
           '01 00 01 02 ff 00 02 00 02 02 fe 00'),
    padded('of_aos_min_by_falling_size', MIXED, '[2]', 'aos(min, row)', FILL, '01 02 01 ff 02 02 02 fe'),
    padded('of_aos_min_with_padding_at_the_end', 'a:u8, b:u32, c:u8', '[1]', 'aos(min, row)', 'a = 1, b = 2, c = 3', '02 00 00 00 01 03 00 00'),
    padded('of_aos_min_keeps_cells_of_one_size_in_order', 'a:u8, b:u16, c:i8, d:i16, e:bool', '[1]', 'aos(min, row)',
           'a = 1, b = 2, c = 3, d = 4, e = 1', '02 00 04 00 01 03 01 00'),
    padded('of_soa_single_without_padding', MIXED, '[3]', 'soa(single, row)', FILL, '01 02 03 01 02 02 02 03 02 ff fe fd'),
    padded('of_soa_aligned_with_padding_before_a_cell_and_none_at_the_end', MIXED, '[3]', 'soa(aligned, row)', FILL,
           '01 02 03 00 01 02 02 02 03 02 ff fe fd'),
    padded('of_soa_multi_blob_by_blob', MIXED, '[3]', 'soa(multi, row)', FILL, '01 02 03 | 01 02 02 02 03 02 | ff fe fd', (0, 1, 2)),
    padded('of_soa_multi_in_any_order_of_blobs', MIXED, '[1]', 'soa(multi, row)', FILL, 'ff | 01 | 01 02', (2, 0, 1)),
    padded('of_aosoa_with_lanes_of_padding', MIXED, '[3]', 'aosoa(2, row)', FILL, '01 02 01 02 02 02 ff fe 03 00 03 02 00 00 fd 00'),
    padded('of_aosoa_of_one_lane', MIXED, '[2]', 'aosoa(1, row)', FILL, '01 01 02 ff 02 02 02 fe'),
    padded('of_aosoa_with_more_lanes_than_rows', MIXED, '[1]', 'aosoa(4, row)', FILL, '01 00 00 00 01 02 00 00 00 00 00 00 ff 00 00 00'),
    padded('of_aosoa_with_as_many_lanes_as_rows', MIXED, '[4]', 'aosoa(4, row)', FILL, '01 02 03 04 01 02 02 02 03 02 04 02 ff fe fd fc'),
    padded('of_aosoa_with_64_lanes', 'a:u8', '[1]', 'aosoa(64, row)', 'a = 7',
           '07' + ' 00' * 15 + ' | 00' + ' 00' * 15 + ' | 00' + ' 00' * 15 + ' | 00' + ' 00' * 15),
    padded('of_aos_aligned_to_8', 'a:u8, b:u64', '[1]', 'aos(aligned, row)', 'a = 1, b = 2', '01 00 00 00 00 00 00 00 02 00 00 00 00 00 00 00'),
    padded('of_aos_aligned_with_7_bytes_at_the_end', 'b:u64, a:u8', '[1]', 'aos(aligned, row)', 'a = 1, b = 2',
           '02 00 00 00 00 00 00 00 01 00 00 00 00 00 00 00'),
    padded('of_aos_aligned_of_single_bytes', 'a:u8, b:bool, c:i8', '[2]', 'aos(aligned, row)', 'a = 1, b = 1, c = -1', '01 01 ff 01 01 ff'),
    padded('of_aos_aligned_goes_by_leaves_and_not_by_records', 'p { a:u32, b:u8 }, q { c:u8, d:u16 }', '[1]', 'aos(aligned, row)',
           'p.a = 1, p.b = 2, q.c = 3, q.d = 4', '01 00 00 00 02 03 04 00'),
    padded('of_aos_aligned_elements_of_an_array', 'a:u8, h:u16[2]', '[1]', 'aos(aligned, row)', 'a = 1, h[0] = 2, h[1] = 3', '01 00 02 00 03 00'),
    padded('of_soa_aligned_to_8_twice', 'a:u8, b:i64, c:bool, d:u64', '[1]', 'soa(aligned, row)', 'a = 1, b = 2, c = 1, d = 4',
           '01 00 00 00 00 00 00 00 02 00 00 00 00 00 00 00 | 01 00 00 00 00 00 00 00 04 00 00 00 00 00 00 00'),
    padded('of_soa_multi_elements_of_an_array', 'h:u8[2][2]', '[2]', 'soa(multi, row)', 'h[1][0] = i0 + 1, h[0][1] = 9', '00 00 | 09 09 | 01 02 | 00 00',
           (0, 1, 2, 3)),
    padded('of_16_bytes_are_one_line', 'a:u8', '[16]', 'aos(packed, row)', 'a = i0', '00 01 02 03 04 05 06 07 08 09 0a 0b 0c 0d 0e 0f'),
    padded('of_17_bytes_are_two_lines', 'a:u8', '[17]', 'aos(packed, row)', 'a = i0 + 160',
           'a0 a1 a2 a3 a4 a5 a6 a7 a8 a9 aa ab ac ad ae af | b0'),
    padded('of_a_blob_without_bytes_are_no_line', 'a:u8', '[0]', 'soa(multi, row)', 'a = 1', ''),
    padded('of_aosoa_without_rows_are_no_line', 'a:u8', '[0]', 'aosoa(8, row)', 'a = 1', ''),
]

# row r of [2, 3] has a = r + 1, and b = 16 * (r + 1): in column order slots have the rows 0 3 1 4 2 5
SQUARE = {
    'aos_packed': '01 10 04 40 02 20 05 50 03 30 06 60',
    'aos_aligned': '01 10 04 40 02 20 05 50 03 30 06 60',
    'aos_min': '01 10 04 40 02 20 05 50 03 30 06 60',
    'soa_single': '01 04 02 05 03 06 10 40 20 50 30 60',
    'soa_aligned': '01 04 02 05 03 06 10 40 20 50 30 60',
    'soa_multi': '01 04 02 05 03 06',
    'aosoa_of_2': '01 04 10 40 02 05 20 50 03 06 30 60',
    'aosoa_of_4': '01 04 02 05 10 40 20 50 03 06 00 00 30 60 00 00',
}
ORDERED = [padded(f'of_{name}_in_column_order', 'a:u8, b:u8', '[2, 3]', FORMS[name].format('col'),
                  'a = 3 * i0 + i1 + 1, b = 16 * (3 * i0 + i1 + 1)', due) for name, due in SQUARE.items()]

RANKS = [
    padded('in_column_order_of_one_dimension', 'a:u8', '[4]', 'soa(single, col)', 'a = i0', '00 01 02 03'),
    padded('in_row_order_of_two_dimensions', 'a:u8', '[3, 2]', 'soa(single, row)', 'a = 16 * i0 + i1', '00 01 10 11 20 21'),
    padded('in_column_order_of_two_dimensions', 'a:u8', '[3, 2]', 'soa(single, col)', 'a = 16 * i0 + i1', '00 10 20 01 11 21'),
    padded('in_row_order_of_three_dimensions', 'a:u8', '[2, 2, 2]', 'soa(single, row)', 'a = 4 * i0 + 2 * i1 + i2', '00 01 02 03 04 05 06 07'),
    padded('in_column_order_of_three_dimensions', 'a:u8', '[2, 2, 2]', 'soa(single, col)', 'a = 4 * i0 + 2 * i1 + i2', '00 04 02 06 01 05 03 07'),
    padded('in_column_order_of_four_dimensions', 'a:u8', '[2, 1, 3, 1]', 'soa(single, col)', 'a = 16 * i0 + i2', '00 10 01 11 02 12'),
    padded('in_row_order_of_four_dimensions', 'a:u8', '[2, 1, 3, 1]', 'soa(single, row)', 'a = 16 * i0 + i2', '00 01 02 10 11 12'),
]

TABLE = 'record P { a:u8, b:i16 } | load V : P [2, ?] as {} from "d.csv" | '
ROWS = b'b,a\n-1,1\n-2,2\n-3,3\n-4,4\n'
LOADED = {
    'aos_packed': '01 ff ff 03 fd ff 02 fe ff 04 fc ff', 'aos_aligned': '01 00 ff ff 03 00 fd ff 02 00 fe ff 04 00 fc ff',
    'aos_min': 'ff ff 01 00 fd ff 03 00 fe ff 02 00 fc ff 04 00', 'soa_single': '01 03 02 04 ff ff fd ff fe ff fc ff',
    'soa_aligned': '01 03 02 04 ff ff fd ff fe ff fc ff', 'soa_multi': '01 03 02 04', 'aosoa_of_2': '01 03 ff ff fd ff 02 04 fe ff fc ff',
    'aosoa_of_4': '01 03 02 04 ff ff fd ff fe ff fc ff',
}
FROM_DATASETS = [Case(f'bytes_of_a_loaded_{name}', TABLE.replace('{}', FORMS[name].format('col')) + 'bytes V 0', due, ROWS)
                 for name, due in LOADED.items()]

KEPT = [
    Case('bytes_of_other_values_stay', 'record P { a:u8, b:u16, c:u8 } | view V : P [2] as aos(aligned, row) | update V set a = 255, b = 65535, c = 255 | '
         'set V[1].b = 0 | bytes V 0 | set V[0].a = 0 | set V[1].c = 1 | bytes V 0',
         'ff 00 ff ff ff 00 ff 00 00 00 ff 00 | 00 00 ff ff ff 00 ff 00 00 00 01 00'),
    Case('bytes_after_a_value_is_stored_again', 'record P { a:i32 } | view V : P [1] as aosoa(2, row) | set V[0].a = -1 | set V[0].a = 1 | bytes V 0',
         '01 00 00 00 00 00 00 00'),
    Case('bytes_are_shown_twice_the_same', 'record P { a:u8 } | view V : P [2] as soa(multi, row) | set V[1].a = 3 | bytes V 0 | print V | bytes V 0',
         '00 03 | a | 0 | 3 | 00 03'),
    Case('bytes_of_blob_0_with_leading_zeros', 'record P { a:u8 } | view V : P [2] as soa(multi, row) | bytes V 000', '00 00'),
]

CASES = [bytes_of_value(*row) for row in VALUES] + PADDED + ORDERED + RANKS + FROM_DATASETS + KEPT
