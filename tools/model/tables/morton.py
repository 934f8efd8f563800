"""Morton order: the digits of an index, taken in turn, are the place of its row. Places that no row has are padding."""
from .bit_fields import packed
from .case import Case, PAIR
from .copies import BYTES, DUE, FILLED, FORMS, PRINTED, RECORD, asked, name_of, shown

# The rows of [2, 3] by the 16 places of a square of 4, `.` where there is none: 0 is at [0, 0], 3 at [1, 0], 2 at [0, 2].
PLACES = '0 1 3 4 2 . 5 . . . . . . . . .'.split()


def each(*leaves, of=PLACES):
    """The bytes of leaves, `..` for one of padding, place by place."""
    sizes = {'a': 1, 'b': 4}
    return ' '.join(word for place in of for leaf in leaves
                    for word in (['..'] * sizes[leaf] if place == '.' and leaf in sizes else [leaf] if leaf == '..' else [leaf + place]))


def fields(widths):
    """The fields of all places in so many bits, for packed."""
    values = {'a': lambda row: row + 1, 'b': lambda row: 1093738769 + 16843009 * row}
    return [(0 if place == '.' else values[leaf](int(place)), width) for place in PLACES for leaf, width in widths]


BLOCKS = [PLACES[at:at + 4] for at in (0, 4, 8, 12)]
THREES = [(PLACES + ['.', '.'])[at:at + 3] for at in range(0, 18, 3)]
PAD = ['..'] * 3
DRAWN = {
    'aos(packed, morton)': each('a', 'b'),
    'aos(aligned, morton)': each('a', *PAD, 'b'),
    'aos(min, morton)': each('b', 'a', *PAD),
    'soa(single, morton)': each('a') + ' ' + each('b'),
    'soa(aligned, morton)': each('a') + ' ' + each('b'),
    'soa(multi, morton)': each('a') + ' / ' + each('b'),
    'aosoa(1, morton)': each('a', 'b'),
    'aosoa(3, morton)': ' '.join(each('a', of=block) + ' ' + each('b', of=block) for block in THREES),
    'aosoa(4, morton)': ' '.join(each('a', of=block) + ' ' + each('b', of=block) for block in BLOCKS),
    'split(b, aos(packed, morton), aosoa(4, row))': each('b') + ' / a0 a1 a2 a3 a4 a5 .. ..',
    'split(b, aos(packed, col), aosoa(4, morton))': 'b0 b3 b1 b4 b2 b5 / ' + each('a'),
}
BY_BYTES = [(form, [shown(' '.join(BYTES[word] for word in blob.split())) for blob in drawing.split('/')]) for form, drawing in DRAWN.items()]
BY_BITS = [('bitaos(33, morton)', [packed(*fields([('a', 8), ('b', 32)]))]), ('bitsoa(64, morton)', [packed(*fields([('a', 8)])), packed(*fields([('b', 32)]))])]
CURVES = BY_BYTES + BY_BITS
CURVES_DUE = ' | '.join(line for _, blobs in CURVES for line in blobs)


def copied(source, targets, due):
    views = ' | '.join(f'view To{at} : P [2, 3] as {form} | copy V to To{at} | {asked(f"To{at}", blobs)}' for at, (form, blobs) in enumerate(targets))
    return RECORD + f'view V : P [2, 3] as {source} | ' + FILLED + views + ' | print V', due + ' | ' + PRINTED


def relaid(source, targets, due):
    anew = ' | '.join(f'relayout V as {form} | {asked("V", blobs)} | relayout V as {source}' for form, blobs in targets)
    return RECORD + f'view V : P [2, 3] as {source} | ' + FILLED + anew + ' | print V', due + ' | ' + PRINTED


COPIES = [Case(f'copy_{name_of(source)}_to_each_form', *copied(source, FORMS + CURVES, DUE + ' | ' + CURVES_DUE)) for source, _ in CURVES] + [
    Case(f'relayout_{name_of(source)}_as_each_form', *relaid(source, FORMS + CURVES, DUE + ' | ' + CURVES_DUE)) for source, _ in CURVES] + [
    Case(f'copy_{name_of(source)}_to_each_form_in_morton_order', *copied(source, CURVES, CURVES_DUE)) for source, _ in FORMS]


def bytes_by(name, extents, value, *data):
    return Case(f'morton_of_{name}', f'record P {{ a:u8 }} | view V : P {extents} as soa(multi, morton) | update V set a = {value} | bytes V 0',
                shown(' '.join(data)))


def gap(count):
    return ' '.join(['00'] * count)


RANKS = [
    Case('morton_of_structs', 'record P { a:u8 } | view V : P [2, 3] as aos(packed, morton) | update V set a = 1 + 3 * i0 + i1 | bytes V 0', shown('01 02 04 05 03 00 06 ' + gap(9))),
    bytes_by('two_dimensions', '[2, 3]', '1 + 3 * i0 + i1', '01 02 04 05 03 00 06', gap(9)),
    bytes_by('two_dimensions_turned', '[3, 2]', '1 + 2 * i0 + i1', '01 02 03 04', gap(4), '05 06', gap(6)),
    bytes_by('a_square_of_4', '[4, 4]', '16 * i0 + i1', '00 01 10 11 02 03 12 13 20 21 30 31 22 23 32 33'),
    bytes_by('a_column', '[4, 1]', '1 + i0', '01 00 02 00 00 00 00 00 03 00 04 00 00 00 00 00'),
    bytes_by('a_row', '[1, 4]', '1 + i1', '01 02 00 00 03 04', gap(10)),
    bytes_by('one_dimension', '[5]', '1 + i0', '01 02 03 04 05', gap(3)), bytes_by('one_dimension_of_a_power_of_two', '[4]', '1 + i0', '01 02 03 04'),
    bytes_by('one_row', '[1]', '7', '07'), bytes_by('one_row_of_four_dimensions', '[1, 1, 1, 1]', '7', '07'),
    bytes_by('three_dimensions', '[2, 2, 2]', '1 + 4 * i0 + 2 * i1 + i2', '01 02 03 04 05 06 07 08'),
    bytes_by('three_dimensions_with_gaps', '[3, 1, 2]', '1 + 16 * i0 + i2', '01 02', gap(2), '11 12', gap(26), '21 22', gap(30)),
    bytes_by('four_dimensions', '[2, 1, 2, 2]', '1 + 64 * i0 + 4 * i2 + i3', '01 02 05 06', gap(4), '41 42 45 46', gap(4)),
    bytes_by('four_dimensions_whose_last_is_3', '[1, 1, 1, 3]', '1 + i3', '01 02', gap(14), '03', gap(239)),
    bytes_by('no_row', '[0]', '7', '00'), bytes_by('no_row_of_two_dimensions', '[0, 0]', '7', '00'), bytes_by('no_row_beside_3', '[0, 3]', '7', gap(16)),
    Case('morton_is_set_and_read_by_index', 'record P { a:u8 } | view V : P [3, 3] as aosoa(2, morton) | set V[2, 1].a = 10 * i0 + i1 | set V[0, 2].a = 2 | set V[2, 2].a = 22 | print V',
         'a | 0 | 0 | 2 | 0 | 0 | 0 | 0 | 21 | 22'),
    Case('morton_is_loaded', PAIR + 'load V : P [?, 2] as soa(multi, morton) from "d.csv" | print V | bytes V 0', 'a,b | 1,-1 | 2,-2 | 3,-3 | 4,-4 | 5,-5 | 6,-6 | '
         + shown('01 02 03 04 00 00 00 00 05 06 ' + gap(6)), b'a,b\n1,-1\n2,-2\n3,-3\n4,-4\n5,-5\n6,-6\n'),
    Case('morton_names_rows_in_row_order', 'record P { a:u8 } | view V : P [2, 2] as soa(multi, morton) | update V set a = 1000 * (i0 != i1)', 'line 3: Range record 1 leaf a'),
    Case('morton_under_kernels', 'record P { x:i16, y:i32 } | view V : P [3, 2] as aosoa(4, morton) | update V set x = 2 * i0 + i1, y = 10 | kernel V axpy(-3, x, y) lanes 4 | '
         'kernel V sum(y) lanes 2 | '
         'kernel V least(y) lanes 8 | kernel V clamp(y, 0, 5) lanes 16 | kernel V count_where(y >= 4) lanes 1 | print V | kernel V axpy(2147483647, x, y) lanes 4',
         '15 | -5 | 3 | x,y | 0,5 | 1,5 | 2,4 | 3,1 | 4,0 | 5,0 | line 10: Range record 1 leaf y'),
]


def sized(name, extents, due, record='a:u8', form='soa(multi, morton)'):
    return Case(f'morton_of_{name}', f'record P {{ {record} }} | view V : P {extents} as {form} | print W', due)


GOES, BIG = 'line 3: Unknown W', 'line 2: TooBig'
SIZES = [
    sized('2_to_the_24_places', '[4096, 4096]', GOES), sized('2_to_the_24_places_with_gaps', '[4096, 1]', GOES), sized('2_to_the_24_places_and_more', '[4097, 1]', BIG),
    sized('2_to_the_24_places_and_more_turned', '[1, 4097]', BIG), sized('2_to_the_24_places_of_one_dimension', '[8388609]', GOES),
    sized('2_to_the_24_rows_of_one_dimension', '[16777216]', GOES), sized('too_many_rows', '[16777217]', 'line 2: BadExtents TooMany'),
    sized('2_to_the_24_places_of_three_dimensions', '[256, 1, 2]', GOES), sized('2_to_the_24_places_and_more_of_three_dimensions', '[257, 1, 1]', BIG),
    sized('2_to_the_24_places_of_four_dimensions', '[1, 64, 1, 33]', GOES), sized('2_to_the_24_places_and_more_of_four_dimensions', '[1, 1, 65, 1]', BIG),
    sized('no_row_and_2_to_the_24_places', '[0, 4096]', GOES), sized('no_row_and_2_to_the_24_places_and_more', '[0, 4097]', BIG),
    sized('no_row_and_2_to_the_64_places', '[4294967295, 0]', BIG), sized('no_row_and_2_to_the_128_places', '[0, 4294967295, 0, 2147483649]', BIG),
    sized('no_row_and_2_to_the_128_places_in_row_order', '[0, 4294967295, 0, 2147483649]', GOES, form='soa(multi, row)'),
    sized('2_to_the_28_bytes_by_gaps', '[2049, 1]', GOES, 'a:u64[2]'), sized('2_to_the_28_bytes_and_more_by_gaps', '[2049, 1]', BIG, 'a:u64[2], b:u8'),
    sized('2_to_the_28_bytes_and_less_in_bits', '[2049, 1]', GOES, 'a:u64[2], b:u8', 'bitaos(60, morton)'),
    sized('a_side_with_too_many_places', '[4097, 1]', BIG, 'a:u8, b:u8', 'split(a, soa(multi, row), soa(multi, morton))'),
    sized('too_many_places_behind_its_lanes', '[4097, 1]', 'line 2: BadMapping Lanes', form='aosoa(0, morton)'),
    sized('too_many_places_behind_its_width', '[4097, 1]', 'line 2: BadMapping Width', form='bitsoa(0, morton)'),
    sized('too_many_places_behind_its_side', '[4097, 1]', 'line 2: BadMapping Side', form='split(a, soa(multi, row), soa(multi, morton))'),
    Case('morton_of_too_many_places_in_a_relayout', 'record P { a:u8 } | view V : P [4097, 1] as soa(multi, row) | relayout V as soa(multi, morton)', 'line 3: TooBig'),
    Case('morton_of_too_many_places_in_a_load', 'record P { a:u8 } | load V : P [?, 4097] as soa(multi, morton) from "d.csv"', 'line 2: TooBig', b'z\n'),
    Case('morton_shows_no_65537_bytes', 'record P { a:u8 } | view V : P [257, 1] as soa(multi, morton) | bytes V 0', 'line 3: TooBig'),
    Case('morton_as_a_mapping', 'mapping M = aos(packed, morton) | mapping N = bitaos(64, morton) | mapping O = split(a, M, N) | mapping O = M', 'line 4: Taken O'),
]

CASES = COPIES + RANKS + SIZES
