"""Blob files: what `save` writes, what `open` makes of a file, and what it refuses.

A header stands here as it is told in a script, and is spelled with a blank between its tokens. What lies behind it is worked out by
addresses.py, or told byte by byte. tools/checks/files goes over many more files.
"""
import itertools
import re

from .addresses import held, laid, memory
from .bit_fields import TYPES
from .case import Case
from .nested import Dice, text_of, thrown, within
from .wraps import left

TWO = 'version 2 | '
MAGIC = b'LLAMAB1\n'
MOST_TEXT, MOST_HEADER = 4096, 8194


# files, and what is printed

def spelled(text):
    """The tokens of a text with a blank between each two."""
    return ' '.join(re.findall(r'->|\w+|[^\w\s]', text))


def behind(size, rest):
    """The magic bytes, the size of a header, and what stands behind it."""
    return MAGIC + size.to_bytes(4, 'little') + rest


def headed(header, data=b''):
    """A file of a header and the bytes behind it."""
    return behind(len(header), header + data)


def lined(*texts):
    return ''.join(text + '\n' for text in texts).encode()


def header_of(fields, view):
    """The header of a record of these fields, and of a view: its extents, its mode and its layout."""
    return lined(spelled(f'record R {{ {fields} }}'), spelled(f'view V : R {view}'))


def file_of(fields, view, data=''):
    """The file of a record of these fields, a view, and blobs, told in hexadecimal."""
    return headed(header_of(fields, view), bytes.fromhex(data))


def due_of(*parts):
    """Lines, ` | ` between them, and files, one behind the other."""
    return b''.join(part if isinstance(part, bytes) else lined(*part.split(' | ')) for part in parts)


# each form in each order: a dataset is saved from a view of each mode; the files are opened, printed and saved again

FIELDS = 'f:bool, p { x:i16, y:u8 }, h:u32[2]'
CELLS = [('f', 'bool'), ('p.x', 'i16'), ('p.y', 'u8'), ('h[0]', 'u32'), ('h[1]', 'u32')]
EXTENTS = (2, 3)
FORMS = {
    'packed_records': lambda order: ('aos', 'packed', order),
    'aligned_records': lambda order: ('aos', 'aligned', order),
    'records_with_the_least_gaps': lambda order: ('aos', 'min', order),
    'arrays_in_one_blob': lambda order: ('soa', 'single', order),
    'aligned_arrays': lambda order: ('soa', 'aligned', order),
    'arrays_in_blobs': lambda order: ('soa', 'multi', order),
    'blocks': lambda order: ('aosoa', 4, order),
    'bits': lambda order: ('bitaos', 5, order),
    'bits_in_blobs': lambda order: ('bitsoa', 11, order),
    'bits_of_leaves': lambda order: ('bitaos', (7, (('p', 9), ('h[1]', 20))), order),
    'a_split': lambda order: ('split', ('p',), ('bitsoa', 13, order), ('aosoa', 3, 'row')),
    'bytes_in_reverse_order': lambda order: ('byteswap', ('soa', 'aligned', order)),
    'split_bytes': lambda order: ('bytesplit', ('aosoa', 5, order)),
    'a_lesser_type': lambda order: ('change', 'u32', 'i8', ('aos', 'aligned', order)),
    'a_greater_type': lambda order: ('change', 'u8', 'i64', ('soa', 'single', order)),
    'counters': lambda order: ('count', ('heat', 8, ('aosoa', 2, order))),
}
ANY = (-2 ** 66, 2 ** 66)


class Saved:
    """A dataset of a few rows, what a view of it holds, and the file of this view."""

    def __init__(self, dice, mapping, wrap):
        lengths, at = laid(mapping, CELLS, EXTENTS)
        places = [[at(index, cell) for cell in range(len(CELLS))] for index in itertools.product(*map(range, EXTENTS))]
        limits = [ANY if wrap else within([TYPES[kind], held(place)]) for (_, kind), place in zip(CELLS, places[0])]
        given = [[thrown(dice, of_leaf) for of_leaf in limits] for _ in places]
        rows = [[left(kind, place, value) for (_, kind), place, value in zip(CELLS, row, values)] for row, values in zip(places, given)]
        assert wrap or given == rows
        self.dataset, self.printed = lined(*table(given)), lined(*table(rows))
        self.view = '[2, 3]' + ' wrap' * wrap + ' as '
        entries = [entry for row, values in zip(places, rows) for entry in zip(row, values)]
        self.file = headed(header_of(FIELDS, self.view + text_of(mapping)), b''.join(memory(lengths, entries)))


def table(rows):
    return [','.join(map(str, line)) for line in [[path for path, _ in CELLS], *rows]]


def of_form(name, form, order):
    strict, low = (Saved(Dice(len(name) + 10 * len(order) + wrap), form(order), wrap) for wrap in (False, True))
    counted = lined('leaf,reads,writes', *[f'{path},6,6' for path, _ in CELLS]) if name == 'counters' else b''
    opened = 'open {0}_again from "{0}.blob" | print {0}_again | ' + 'counts {0}_again | ' * bool(counted) + 'save {0}_again'
    script = (f'{TWO}record Q {{ {FIELDS} }} | mapping M = {text_of(form(order))} | load V : Q {strict.view}M from "d.csv" | load W : Q {low.view}M from "w.csv" | '
              f'save V | save W | {opened.format("V")} | {opened.format("W")}')
    due = strict.file + low.file + strict.printed + counted + strict.file + low.printed + counted + low.file
    return Case(f'file_of_{name}_in_{order}_order', script, due, strict.dataset, {'w.csv': low.dataset, 'V.blob': strict.file, 'W.blob': low.file})


EACH = [of_form(name, form, order) for name, form in FORMS.items() for order in ('row', 'col', 'morton')]


# a file that is opened

PAIR, PAIRS = 'a:u8, b:u16', '[2] as aos(packed, row)'
RECORD, VIEW = lined(spelled(f'record R {{ {PAIR} }}')), lined(spelled(f'view V : R {PAIRS}'))
HEAD, BODY = RECORD + VIEW, bytes.fromhex('00 00 00 00 02 01')
GOOD, SHOWN = headed(HEAD, BODY), 'a,b | 0,0 | 0,258'
BYTE, FLAG, ROW = 'a:u8', 'f:bool', '[1] as aos(packed, row)'


def refused(fault, files):
    """A case for each of these names and files, all of which are refused alike."""
    return [Case(f'open_of_{name}', TWO + 'open V from "f" | print V', f'line 2: BadFile {fault}', files={'f': data}) for name, data in files]


def changed(old, new):
    """The good file with its header changed in one place."""
    assert HEAD.count(old) == 1, old
    return headed(HEAD.replace(old, new), BODY)


def with_record(text):
    return headed(lined(text) + VIEW, BODY)


def with_view(text):
    return headed(RECORD + lined(spelled(text)), BODY)


MAGICS = refused('Magic', [
    ('an_empty_file', b''), ('7_bytes', MAGIC[:7]), ('another_last_magic_byte', MAGIC[:7] + b'\r' + GOOD[8:]), ('small_letters', GOOD.replace(b'LLAMA', b'llama', 1)),
    ('a_carriage_return_before_the_first_line_end', GOOD.replace(b'1\n', b'1\r\n', 1)), ('a_byte_order_mark', b'\xef\xbb\xbf' + GOOD), ('a_dataset', b'a,b\n0,0\n0,258\n'),
])


# a header's size, and the limits of its texts

def long_record(size):
    """The fields of a record of 64 leaves whose canonical text has so many bytes."""
    names = size - len('record R { a : u8 }') - 63 * len(' ,  {  : u8 }')
    inner = [names // 63 - 32 + (number < names % 63) for number in range(63)]
    return ', '.join(['a:u8'] + [f'{"x" * 30}{number:02} {{ {"y" * length}:u8 }}' for number, length in enumerate(inner)])


def long_layout(size):
    """A layout under which the canonical text of a view of one row has so many bytes."""
    count, more = divmod(size - len('view V : R [ 1 ] as bitaos ( 8 {  } , row )') + len(' , '), len('a : 1 , '))
    return f'bitaos(8 {{ {", ".join(["a: 10"] * more + ["a: 1"] * (count - more))} }}, row)'


def long_file(of_record, of_view):
    header = header_of(long_record(of_record), f'[1] as {long_layout(of_view)}')
    assert len(header) == of_record + of_view + 2
    return headed(header, bytes(64))


LONGEST = long_file(MOST_TEXT, MOST_TEXT)
HEADERS = refused('Header', [
    ('the_magic_bytes_alone', MAGIC), ('three_bytes_of_a_size', MAGIC + b'\x47\0\0'), ('a_size_alone', MAGIC + b'\x47\0\0\0'), ('a_size_of_0_alone', behind(0, b'')), ('a_size_of_0', behind(0, HEAD + BODY)),
    ('a_header_that_is_cut', GOOD[:12 + len(HEAD) - 1]), ('a_size_past_the_end', behind(len(HEAD) + 1, HEAD)), ('a_size_that_takes_a_byte_of_the_blobs', behind(len(HEAD) + 1, HEAD + BODY)),
    ('a_size_that_leaves_a_line_end', behind(len(HEAD) - 1, HEAD + BODY)), ('a_size_from_the_other_end', MAGIC + b'\0\0\0\x47' + HEAD + BODY), ('a_size_of_8194_past_the_end', behind(MOST_HEADER, HEAD + BODY)),
    ('a_size_of_8195_past_the_end', behind(MOST_HEADER + 1, HEAD + BODY)), ('a_size_of_2_to_the_32_less_one', behind(2 ** 32 - 1, HEAD + BODY)), ('a_header_of_8195_bytes', long_file(MOST_TEXT, MOST_TEXT + 1)),
    ('a_record_in_4097_bytes', long_file(MOST_TEXT + 1, 200)), ('a_view_in_4097_bytes', long_file(3000, MOST_TEXT + 1)),
]) + [Case('open_of_a_header_of_8194_bytes', TWO + 'open V from "f" | reduce V sum a | save V', due_of('0', LONGEST), files={'f': LONGEST})]


# a header's texts

SPELLINGS = refused('Header', [
    ('two_blanks', changed(b'R {', b'R  {')), ('no_blanks', headed(b'record R{a:u8,b:u16}\nview V:R[2]as aos(packed,row)\n', BODY)), ('a_blank_before_its_record', headed(b' ' + HEAD, BODY)),
    ('a_blank_behind_its_view', changed(b')\n', b') \n')), ('a_tab', changed(b'view V', b'view\tV')), ('a_leading_zero', changed(b'[ 2 ]', b'[ 02 ]')), ('a_leading_zero_of_bits', with_view('view V : R [2] as bitaos(08, row)')),
    ('a_comment', changed(b'}\n', b'} # note\n')), ('a_comment_behind_its_view', changed(b')\n', b')#\n')), ('a_carriage_return', changed(b'}\n', b'}\r\n')), ('a_carriage_return_for_a_line_end', changed(b'}\n', b'}\r')),
    ('a_mark_before_its_header', headed(b'\xef\xbb\xbf' + HEAD, BODY)), ('a_byte_that_is_no_text', changed(b'a : u8', b'\xff : u8')), ('a_letter_past_ascii', changed(b'a : u8', 'é : u8'.encode())),
    ('capitals', changed(b'record', b'RECORD')), ('a_missing_line_end', headed(HEAD[:-1], BODY)), ('a_line_end_for_a_blank', changed(b'as aos', b'as\naos')), ('an_empty_line_in_front', headed(b'\n' + HEAD, BODY)),
    ('an_empty_line_behind', headed(HEAD + b'\n', BODY)), ('a_record_alone', headed(RECORD, BODY)), ('a_view_alone', headed(VIEW, BODY)), ('a_view_before_its_record', headed(VIEW + RECORD, BODY)),
    ('a_version_line', headed(b'version 2\n' + HEAD, BODY)), ('a_third_line', headed(HEAD + b'print V\n', BODY)),
])
LINES = refused('Header', [
    ('a_record_of_another_name', changed(b'record R', b'record P')), ('a_view_of_another_name', changed(b'view V', b'view W')), ('a_view_of_another_record', changed(b': R [', b': P [')),
    ('a_named_layout', with_view('view V : R [2] as M')), ('a_named_layout_in_another', with_view('view V : R [2] as split(a, count(M), aos(packed, row))')),
    ('a_load', with_view('load V : R [2] as aos(packed, row) from "f"')), ('a_mapping', with_record('mapping R = aos ( packed , row )')), ('a_save', with_view('save V')),
    ('a_question_mark', with_view('view V : R [?] as aos(packed, row)')), ('an_extent_of_2_to_the_32', with_view('view V : R [4294967296] as aos(packed, row)')), ('an_extent_below_none', with_view('view V : R [-2] as aos(packed, row)')),
    ('wrap_twice', with_view('view V : R [2] wrap wrap as aos(packed, row)')), ('another_form', with_view('view V : R [2] as aso(packed, row)')), ('empty_braces_of_bits', with_view('view V : R [2] as bitaos(8 { }, row)')),
    ('a_record_without_fields', with_record('record R { }')), ('a_reserved_name', changed(b'a : u8', b'min : u8')), ('a_name_of_33_bytes', changed(b'a : u8', b'a' * 33 + b' : u8')),
    ('an_array_of_2_to_the_32', with_record('record R { a : u8 [ 4294967296 ] }')), ('65_brackets', with_record('record R ' + '{ a ' * 64 + '{ a : u8 ' + '} ' * 64 + '}')),
])


# a layout, a length, and contents

LAYOUTS = refused('Layout', [(name, file_of(fields, view)) for name, fields, view in [
    ('a_record_of_depth_9', 'a { ' * 8 + 'a:u8' + ' }' * 8, ROW), ('64_brackets', 'a { ' * 63 + 'a:u8' + ' }' * 63, ROW), ('a_name_twice', 'a:u8, b:u8, a:u16', ROW), ('an_array_without_elements', 'a:u8[0]', ROW),
    ('65_leaves', 'a:u8[64], b:u8', ROW), ('leaves_past_64_bits', 'a:u8[4294967295][4294967295][4294967295]', ROW), ('5_extents', PAIR, '[1, 1, 1, 1, 1] as aos(packed, row)'),
    ('2_to_the_24_rows_and_one_more', PAIR, '[16777217] as aos(packed, row)'), ('2_to_the_64_rows', PAIR, '[65536, 65536, 65536, 65536] as aos(packed, row)'),
    ('a_layout_of_depth_9', PAIR, '[2] as ' + 'byteswap(' * 8 + 'aos(packed, row)' + ')' * 8), ('a_counter_below', PAIR, '[2] as byteswap(count(aos(packed, row)))'), ('65_lanes', PAIR, '[2] as aosoa(65, row)'),
    ('65_bits', PAIR, '[2] as bitaos(65, row)'), ('no_bits_of_a_leaf', PAIR, '[2] as bitsoa(8 { b: 0 }, row)'), ('granules_of_3', PAIR, '[2] as heat(3, aos(packed, row))'),
    ('a_side_without_leaves', PAIR, '[2] as split(c, aos(packed, row), aos(packed, row))'), ('bits_of_no_leaf', PAIR, '[2] as bitaos(8 { c: 4 }, row)'), ('swapped_bits', PAIR, '[2] as byteswap(bitaos(7, row))'),
    ('2_to_the_24_slots_and_more', BYTE, '[1, 4097] as aos(packed, morton)'), ('2_to_the_28_bytes_and_more', 'a:u64[2], b:u8', '[16777216] as soa(multi, row)'),
    ('2_to_the_24_granules_and_more', 'a:u8, b:u8', '[16777216] as heat(1, soa(multi, row))')]])
LENGTHS = refused('Length', [
    ('no_blobs', headed(HEAD)), ('blobs_without_their_last_byte', GOOD[:-1]), ('one_byte_more', GOOD + b'\0'), ('a_file_twice', GOOD + GOOD), ('a_byte_of_no_row', file_of(PAIR, '[0] as aos(packed, row)', '00')),
    ('one_blob_of_two', file_of(PAIR, '[2] as soa(multi, row)', '00 00')), ('bits_without_their_padding', file_of(PAIR, '[1] as bitaos(8, row)', '01 02')),
    ('a_block_without_its_last_lanes', file_of(PAIR, '[1] as aosoa(2, row)', '01 02 00')),
])
PADDING = refused('Contents', [(f'padding_{name}', file_of(fields, view, data)) for name, fields, view, data in [
    ('between_leaves', PAIR, '[1] as aos(aligned, row)', '01 01 02 00'), ('behind_leaves', 'b:u16, a:u8', '[1] as aos(aligned, row)', '02 00 01 80'), ('behind_sorted_leaves', PAIR, '[2] as aos(min, row)', '02 00 01 00 02 00 01 01'),
    ('between_arrays', PAIR, '[1] as soa(aligned, row)', '01 80 02 00'), ('of_missing_lanes', PAIR, '[1] as aosoa(2, row)', '01 01 02 00 00 00'), ('right_behind_bits', BYTE, '[1] as bitaos(3, row)', '08' + ' 00' * 7),
    ('at_the_end_of_bits', BYTE, '[1] as bitaos(3, row)', '01 00 00 00 00 00 00 80'), ('behind_bits_of_the_second_blob', PAIR, '[1] as bitsoa(3, row)', '01' + ' 00' * 7 + '0f' + ' 00' * 7),
    ('of_a_slot_without_a_row', BYTE, '[2, 3] as aos(packed, morton)', '01 02 04 05 03 01 06' + ' 00' * 9), ('of_the_last_slot', BYTE, '[2, 3] as soa(multi, morton)', '01 02 04 05 03 00 06' + ' 00' * 8 + ' 80'),
    ('on_the_second_side', PAIR, '[1] as split(a, aos(packed, row), bitaos(5, row))', '01 ff' + ' 00' * 7), ('of_swapped_bytes', PAIR, '[1] as byteswap(aos(aligned, row))', '01 01 00 02'),
    ('of_split_bytes', PAIR, '[1] as bytesplit(aosoa(2, row))', '01 00 02 01 00 00'), ('under_a_change', PAIR, '[1] as change(u16->u32, aos(aligned, row))', '01 00 01 00 02 00 00 00'),
    ('under_counters', PAIR, '[1] as count(heat(1, aos(aligned, row)))', '01 01 02 00'), ('of_low_bits', PAIR, '[1] wrap as aos(aligned, row)', '01 01 02 00')]])
VALUES = refused('Contents', [(name, file_of(fields, view, data)) for name, fields, view, data in [
    ('a_bool_of_3', FLAG, ROW, '03'), ('a_bool_of_255_in_the_last_row', FLAG, '[3] as soa(multi, row)', '00 01 ff'), ('a_bool_of_2_of_low_bits', FLAG, '[1] wrap as aos(packed, row)', '02'),
    ('a_bool_of_2_in_2_bits', FLAG, '[1] as bitaos(2, row)', '02' + ' 00' * 7), ('a_bool_of_2_in_2_low_bits', FLAG, '[1] wrap as bitsoa(2, row)', '02' + ' 00' * 7),
    ('a_bool_of_256_as_another_type', FLAG, '[1] as change(bool->i32, aos(packed, row))', '00 01 00 00'), ('a_bool_below_0_of_low_bits', FLAG, '[1] wrap as change(bool->i8, aos(packed, row))', 'ff'),
    ('256_for_a_byte', BYTE, '[1] as change(u8->u16, aos(packed, row))', '00 01'), ('128_below_0_for_a_byte', BYTE, '[1] as change(u8->i8, aos(packed, row))', '80'),
    ('1_below_0_for_a_byte_in_four', BYTE, '[1] as change(u8->i32, aos(packed, row))', 'ff ff ff ff'), ('128_for_a_signed_byte', 'a:i8', '[1] as change(i8->i16, aos(packed, row))', '80 00'),
    ('2_to_the_63_for_a_signed_number', 'a:i64', '[1] as change(i64->u64, aos(packed, row))', '00' * 7 + '80'), ('a_lesser_type_below_0', 'a:u16', '[1] as change(u16->i8, aos(packed, row))', 'c8'),
    ('4_bits_below_0', 'a:u16', '[1] as change(u16->i32, bitaos(4, row))', '08' + ' 00' * 7), ('256_for_a_byte_of_low_bits', BYTE, '[1] wrap as change(u8->u16, aos(packed, row))', '00 01'),
    ('255_for_a_signed_byte_of_low_bits', 'a:i8', '[1] wrap as change(i8->i32, aos(packed, row))', 'ff 00 00 00'), ('257_in_the_last_row', BYTE, '[20] as change(u8->u16, soa(single, row))', '01 00' * 19 + '01 01')]])


def taken(name, *files):
    """A case that opens, prints and saves each of some files: their records, views, blobs and what is printed."""
    script, due, given = [], [], {}
    for number, (fields, view, data, printed) in enumerate(files):
        given[f'f{number}'] = file_of(fields, view, data)
        script.append(f'open V{number} from "f{number}" | print V{number} | save V{number}')
        due += [printed, given[f'f{number}']]
    return Case(f'open_of_{name}', TWO + ' | '.join(script), due_of(*due), files=given)


TAKEN = [
    taken('numbers_in_another_type', (BYTE, '[1] as change(u8->u16, aos(packed, row))', 'ff 00', 'a | 255'), ('a:i8', '[2] as change(i8->i32, aos(packed, row))', 'ff ff ff ff 7f 00 00 00', 'a | -1 | 127'),
          (FLAG, '[2] as change(bool->i32, byteswap(aos(packed, row)))', '00 00 00 01 00 00 00 00', 'f | 1 | 0'), ('a:u16', '[1] as change(u16->i8, aos(packed, row))', '7f', 'a | 127')),
    taken('low_bits_in_another_type', (BYTE, '[2] wrap as change(u8->i8, aos(packed, row))', '80 7f', 'a | 128 | 127'), ('a:i8', '[1] wrap as change(i8->u32, aos(packed, row))', 'ff ff ff ff', 'a | -1'),
          ('a:u16', '[1] wrap as change(u16->i8, aos(packed, row))', 'c8', 'a | 65480'), ('a:i64', '[1] wrap as change(i64->u64, aos(packed, row))', '00' * 7 + '80', 'a | -9223372036854775808')),
    taken('bits', ('a:i8, b:u16', '[2] as bitaos(4, row)', '19 0c' + ' 00' * 6, 'a,b | -7,1 | -4,0'), ('a:i8, b:u16', '[2] wrap as bitaos(4, row)', '19 0c' + ' 00' * 6, 'a,b | -7,1 | -4,0'),
          (FLAG, '[3] as bitaos(1, row)', '05' + ' 00' * 7, 'f | 1 | 0 | 1'), ('u:u64, s:i64', '[1] as bitaos(64, row)', 'ff' * 8 + '00' * 7 + '80', 'u,s | 18446744073709551615,-9223372036854775808')),
    taken('no_row', (PAIR, '[0] as aos(aligned, row)', '', 'a,b'), (PAIR, '[4294967295, 0] as soa(multi, col)', '', 'a,b'), (BYTE, '[0] as aos(packed, morton)', '00', 'a'), (PAIR, '[0] wrap as aosoa(64, row)', '', 'a,b')),
    taken('other_extents', (BYTE, '[1, 2, 1, 2] as aos(packed, col)', '01 03 02 04', 'a | 1 | 2 | 3 | 4'), (BYTE, '[2, 3] as soa(multi, morton)', '01 02 04 05 03 00 06' + ' 00' * 9, 'a | 1 | 2 | 3 | 4 | 5 | 6')),
    taken('bytes_of_texts', (BYTE, '[3] as aos(packed, row)', '0a 0a 0a', 'a | 10 | 10 | 10'), (BYTE, '[8] as aos(packed, row)', MAGIC.hex(), 'a | 76 | 76 | 65 | 77 | 65 | 66 | 49 | 10')),
    taken('what_is_8_deep', (BYTE, '[1] as ' + 'byteswap(' * 7 + 'aos(packed, row)' + ')' * 7, '07', 'a | 7'), ('a { ' * 7 + 'a:u8' + ' }' * 7, ROW, '07', 'a.a.a.a.a.a.a.a | 7')),
]


# which refusal comes first

FIRST = [case for fault, files in {
    'Magic': [('another_magic_before_a_size_past_the_end', b'LLAMAB2\n\xff\xff\xff\xff'), ('another_magic_before_a_bool_of_2', b'\0' + file_of(FLAG, ROW, '02')[1:])],
    'Header': [('a_second_spelling_before_a_bad_record', headed(lined('record R { a : u8 [ 0 ] }', 'view V : R [ 01 ] as aos ( packed , row )'))),
               ('a_second_spelling_before_another_length', changed(b'[ 2 ]', b'[ 03 ]')), ('a_named_layout_before_a_bad_one', with_view('view V : R [2] as split(c, M, aosoa(0, row))'))],
    'Layout': [('a_bad_record_before_a_length', file_of('a:u8, a:u8', ROW, '00')), ('a_bad_layout_before_a_length', file_of(PAIR, '[2] as aosoa(0, row)', '00' * 50))],
    'Length': [('a_length_before_a_bool_of_2', file_of(FLAG, ROW, '02 00')), ('a_length_before_padding', file_of(PAIR, '[1] as aos(aligned, row)', '01 01 02'))],
}.items() for case in refused(fault, files)]

P = 'record P { a:u8, b:u16 } | view V : P [2] as aos(packed, row) | '
FULL = P + ''.join(f'view V{number} : P [1] as aos(packed, row) | ' for number in range(63))
# 16 bytes less than may live, but for the 6 of V
WHOLE, LESS = 'H [16777216]', 'H [16777215]'
GREAT = P + 'record H { a:u64[2] } | ' + ''.join(f'view Big{number} : {of} as soa(multi, row) | ' for number, of in enumerate([WHOLE, WHOLE, WHOLE, LESS]))
TEN, ELEVEN = (file_of(BYTE, f'[{rows}] as aos(packed, row)', '00' * rows) for rows in (10, 11))
STEPS = [Case(f'open_{name}', TWO + script, due, files=data and {'f': data}) for name, script, due, data in [
    ('of_a_taken_name', P + 'open V from "f"', 'line 4: Taken V', GOOD), ('of_a_taken_name_before_a_missing_file', P + 'open V from "f"', 'line 4: Taken V', None), ('twice', 'open V from "f" | open V from "f"', 'line 3: Taken V', GOOD),
    ('of_a_65th_view', FULL + 'open W from "f"', 'line 67: TooManyViews', GOOD), ('of_a_65th_view_before_a_missing_file', FULL + 'open W from "f"', 'line 67: TooManyViews', None),
    ('of_a_taken_name_before_a_65th_view', FULL + 'open V from "f"', 'line 67: Taken V', GOOD), ('of_a_64th_view', FULL + 'drop V | open W from "f" | print W | open V from "f"', SHOWN + ' | line 70: TooManyViews', GOOD),
    ('of_a_missing_file', 'open V from "f" | print V', 'line 2: cannot read f', None), ('of_a_folder', 'open V from "."', 'line 2: cannot read .', None), ('of_its_own_script', 'open V from "script.llama"', 'line 2: BadFile Magic', None),
    ('beside_2_to_the_30_bytes', GREAT + 'open W from "f" | open X from "f"', 'line 10: TooBig', TEN), ('beside_2_to_the_30_bytes_and_one_more', GREAT + 'open W from "f"', 'line 9: TooBig', ELEVEN),
    ('of_a_bad_file_beside_2_to_the_30_bytes', GREAT + 'open W from "f"', 'line 9: BadFile Contents', file_of(FLAG, '[11] as aos(packed, row)', '02' * 11))]]


# lines and names

SYNTAX = [Case(f'{text.split(" ")[0].strip("^")}_{name}', script + text.replace('^', ''), f'line {script.count("|") + 1}: Syntax column {text.index("^") + 1}', files={'f': GOOD}) for name, script, text in [
    ('in_a_script_without_a_version', P, '^save V'), ('in_version_1', 'version 1 | ' + P, '^save V'), ('of_nothing', TWO, 'save^'), ('of_two_names', TWO, 'save V ^V'), ('of_a_string', TWO, 'save ^"V"'), ('with_a_file', TWO, 'save V ^to "f"'),
    ('of_a_path', TWO, 'save V^.a'), ('in_a_script_without_a_version', '', '^open V from "f"'), ('in_version_1', 'version 1 | ', '^open V from "f"'), ('of_nothing', TWO, 'open^'), ('without_a_file', TWO, 'open V^'),
    ('without_its_file', TWO, 'open V from^'), ('of_a_word', TWO, 'open V from ^f'), ('without_from', TWO, 'open V ^"f"'), ('with_a_layout', TWO, 'open V ^as aos(packed, row) from "f"'), ('of_two_files', TWO, 'open V from "f" ^"f"'),
    ('of_an_empty_name', TWO, 'open V from ^""')]]
NAMES = [
    Case('save_and_open_are_names', TWO + 'record save { open:u8, from:u8 } | mapping open = aos(packed, row) | view open : save [1] as open | save open | drop open | open open from "f" | print open',
         due_of(file_of('open:u8, from:u8', ROW, '00 00'), SHOWN), files={'f': GOOD}),
    Case('save_and_open_are_names_in_version_1', 'record save { open:u8 } | view open : save [1] as aos(packed, row) | print open', 'open | 0'),
    Case('save_with_blanks_and_a_comment', TWO + P + '  save\tV   # the file', file_of(PAIR, PAIRS, '00' * 6)), Case('save_of_no_view', TWO + 'save V', 'line 2: Unknown V'), Case('save_of_a_record', TWO + P + 'save P', 'line 4: Unknown P'),
    Case('open_with_blanks_and_a_comment', TWO + '\topen  V\tfrom"f"# the file | print V', SHOWN, files={'f': GOOD}), Case('open_of_a_name_of_200_bytes', TWO + f'open V from "{"f" * 200}" | print V', SHOWN, files={'f' * 200: GOOD}),
    Case('open_of_a_file_in_a_folder', TWO + 'open V from "sub/f" | print V', SHOWN, files={'sub/f': GOOD}), Case('open_names_no_record', TWO + 'open V from "f" | view W : R [1] as aos(packed, row)', 'line 3: Unknown R', files={'f': GOOD}),
    Case('open_names_no_other_view', TWO + 'open W from "f" | print V', 'line 3: Unknown V', files={'f': GOOD}),
]


# what is saved

Q = 'record Q { a:u8 } | '
FILLED = 'update V set a = i0 + 1, b = 258 + i0 | '
FILE = file_of(PAIR, PAIRS, '01 02 01 02 03 01')
SAVES = [Case(f'save_{name}', TWO + script, due) for name, script, due in [
    ('between_prints', P + FILLED + 'print V | save V | print V', due_of('a,b | 1,258 | 2,259', FILE, 'a,b | 1,258 | 2,259')), ('twice', P + FILLED + 'save V | save V', FILE + FILE),
    ('of_two_views', P + FILLED + 'view W : P [1] wrap as soa(multi, col) | set W[0].a = 257 | save W | save V', file_of(PAIR, '[1] wrap as soa(multi, col)', '01 00 00') + FILE),
    ('before_a_fault', P + FILLED + 'save V | print W', FILE + b'line 6: Unknown W\n'), ('behind_a_set', P + FILLED + 'save V | set V[0].a = 7 | save V', FILE + file_of(PAIR, PAIRS, '07 02 01 02 03 01')),
    ('of_zeros', P + 'save V', file_of(PAIR, PAIRS, '00' * 6)), ('of_no_row', Q + 'view V : Q [0] as aos(packed, row) | view W : Q [0, 0] as aos(packed, morton) | save V | save W',
                                                                 file_of(BYTE, '[0] as aos(packed, row)') + file_of(BYTE, '[0, 0] as aos(packed, morton)', '00')),
    ('of_leading_zeros', 'record Z { a:u8[02] } | view V : Z [01] as bitaos(008 { a[01]: 03 }, row) | save V', file_of('a:u8[2]', '[1] as bitaos(8 { a[1]: 3 }, row)', '00' * 8)),
    ('of_lines_without_blanks', 'record Z{a:u8[4][2],b{c:i8}[2]} | view V:Z[1]as split(a[0],soa(multi,row),change(i8->i16,aos(min,col))) | save V',
     file_of('a:u8[4][2], b { c:i8 }[2]', '[1] as split(a[0], soa(multi, row), change(i8->i16, aos(min, col)))', '00' * 12)),
    ('of_named_layouts', 'record P { a:u8, b:u16 } | mapping M = aos(packed, row) | mapping N = split(a, M, byteswap(M)) | mapping O = heat(64, count(N)) | view V : P [2] as O | ' + FILLED + 'save V',
     file_of(PAIR, '[2] as heat(64, count(split(a, aos(packed, row), byteswap(aos(packed, row)))))', '01 02 01 02 01 03')),
    ('behind_a_relayout', P + FILLED + 'relayout V as soa(multi, row) | save V', file_of(PAIR, '[2] as soa(multi, row)', '01 02 02 01 03 01')),
    ('behind_a_relayout_of_low_bits', Q + 'view V : Q [1] wrap as aos(packed, row) | set V[0].a = 255 | relayout V as bitaos(3, row) | save V', file_of(BYTE, '[1] wrap as bitaos(3, row)', '07' + '00' * 7)),
    ('counts_no_access', Q + 'view V : Q [2] as count(heat(1, aos(packed, row))) | set V[1].a = 5 | save V | counts V | heat V',
     due_of(file_of(BYTE, '[2] as count(heat(1, aos(packed, row)))', '00 05'), 'leaf,reads,writes | a,0,1 | blob,granule,accesses | 0,1,1')),
    ('of_two_texts_of_4096_bytes', f'record P {{ {long_record(MOST_TEXT)} }} | view V : P [1] as {long_layout(MOST_TEXT)} | save V', LONGEST),
    ('of_a_record_in_4097_bytes', f'record P {{ {long_record(MOST_TEXT + 1)} }} | view V : P [1] as aos(packed, row) | reduce V sum a | save V', '0 | line 5: TooBig'),
    ('of_a_view_in_4097_bytes', Q + f'view V : Q [1] as {long_layout(MOST_TEXT + 1)} | print V | save V', 'a | 0 | line 5: TooBig'),
    ('of_a_view_in_4097_bytes_behind_a_file', P + FILLED + f'save V | mapping M = {long_layout(MOST_TEXT)} | view W : P [10] as M | save V | save W', FILE + FILE + b'line 9: TooBig\n')]]


# a view that was opened is a view like others

COUNTING = file_of(PAIR, '[2] as count(heat(4, aos(packed, row)))', '00 00 00 00 02 01')
ALIKE = 'record A { a:u8, b:u16 } | record B { a:u8, c:u16 } | view A : A [2] as aosoa(2, row) | view B : B [2] as aosoa(2, row) | '
USES = [Case(f'open_then_{name}', TWO + 'open V from "f" | ' + script, due, files={'f': data}) for name, script, due, data in [
    ('set_and_update', 'set V[0].a = 255 | update V where b > 0 set a = b / 2, b = b - 1 | print V', 'a,b | 255,0 | 129,257', GOOD), ('reduce', 'reduce V sum b | reduce V max b | reduce V count where b', '258 | 258 | 1', GOOD),
    ('kernel', 'kernel V sum(b) lanes 4 | kernel V axpy(2, b, b) lanes 2 | print V', '258 | a,b | 0,0 | 0,774', GOOD),
    ('layout_and_bytes', 'layout V | bytes V 0 | bytes V 1', 'blob,bit,bits,record,leaf,low | 0,0,8,0,a,0 | 0,8,16,0,b,0 | 0,24,8,1,a,0 | 0,32,16,1,b,0 | 00 00 00 00 02 01 | line 5: BadIndex', GOOD),
    ('relayout', 'relayout V as byteswap(soa(multi, row)) | bytes V 1 | save V', due_of('00 00 01 02', file_of(PAIR, '[2] as byteswap(soa(multi, row))', '00 00 00 00 01 02')), GOOD),
    ('copy', ALIKE + 'copy V to A | print A | copy V to B', SHOWN + ' | line 9: Mismatch', GOOD), ('drop', 'drop V | open V from "f" | drop V | print V', 'line 6: Unknown V', GOOD),
    ('set_past_its_type', 'set V[0].a = 256', 'line 3: Range record 0 leaf a', GOOD), ('set_past_its_bits', 'set V[0].a = 8', 'line 3: Narrow record 0 leaf a', file_of(BYTE, '[1] as bitaos(3, row)', '07' + '00' * 7)),
    ('set_low_bits', 'set V[0].a = 266 | print V', 'a | 2', file_of(BYTE, '[1] wrap as bitaos(3, row)', '07' + '00' * 7)),
    ('counts', 'counts V | print V | counts V', 'leaf,reads,writes | a,0,2 | b,0,2 | a,b | 0,0 | 0,258 | leaf,reads,writes | a,2,2 | b,2,2', COUNTING), ('heat', 'heat V', 'blob,granule,accesses | 0,0,3 | 0,1,1', COUNTING),
    ('counts_of_no_row', 'counts V | heat V', 'leaf,reads,writes | a,0,0 | blob,granule,accesses', file_of(BYTE, '[0] as heat(1, count(aos(packed, row)))')), ('counts_of_no_counter', 'counts V', 'line 3: NotCounted', GOOD)]]

CASES = EACH + MAGICS + HEADERS + SPELLINGS + LINES + LAYOUTS + LENGTHS + PADDING + VALUES + TAKEN + FIRST + STEPS + SYNTAX + NAMES + SAVES + USES
