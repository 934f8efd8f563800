"""Pairs of scripts that differ in their mapping expressions alone, and yet not in vain: each shows that a premise of the law of equal results is needed.

The two of a pair keep every premise but the one that they are named for, and print or end otherwise. Those that keep all of them print the same.
"""
from .case import Case

PAIR = 'record P { a:u8, b:i32 } | '


def pair(name, script, one, one_due, other, other_due):
    """A script over each of two mapping expressions."""
    return [Case(f'exchange_{name}_before', script.replace('{}', one), one_due), Case(f'exchange_{name}_after', script.replace('{}', other), other_due)]


def alike(name, script, due, *mappings):
    """A script over each of some mapping expressions, which prints the same."""
    return [Case(f'exchange_{name}_{place}', script.replace('{}', mapping), due) for place, mapping in enumerate(mappings)]


PACKED = 'aos(packed, row)'
TAIL = ' | print V'
TABLE = 'a,b | 0,0 | 7,0'
SET = PAIR + 'view V : P [2] as {} | set V[1].a = 7' + TAIL
EVERYWHERE = [PACKED, 'soa(multi, col)', 'aosoa(3, morton)', 'bitaos(32, row)', 'byteswap(aos(min, col))', 'bytesplit(soa(single, morton))', 'count(heat(4, split(b, bitsoa(32, row), aos(aligned, row))))', 'change(u8->i64, aos(packed, col))']
LINE_ROOM = 4096 - len('view V : P [2] as aos(packed, row)')

CASES = [
    # a value that one layout holds and the other does not
    *pair('narrow', SET, PACKED, TABLE, 'bitaos(2, row)', 'line 3: Narrow record 1 leaf a'),
    # an expression that is no mapping of the record
    *pair('bad_mapping', SET, PACKED, TABLE, 'byteswap(bitaos(7, row))', 'line 2: BadMapping NotFull'),
    # more memory than a view may have
    *pair('too_big', PAIR + 'view V : P [4097, 1] as {} | reduce V sum a', PACKED, '0', 'soa(multi, morton)', 'line 2: TooBig'),
    # a name that names no mapping
    *pair('unknown_mapping', SET, PACKED, TABLE, 'M', 'line 2: Unknown M'),
    # counts of a view that does not count
    *pair('not_counted', PAIR + 'view V : P [2] as {} | counts V', 'count(aos(packed, row))', 'leaf,reads,writes | a,0,0 | b,0,0', PACKED, 'line 3: NotCounted'),
    # a view that keeps low bits, and holds fewer of them
    *pair('wrap', PAIR + 'view V : P [2] wrap as {} | set V[1].a = 7' + TAIL, PACKED, TABLE, 'bitaos(2, row)', 'a,b | 0,0 | 3,0'),
    # commands that show how a table lies
    *pair('bytes', PAIR + 'view V : P [2] as {} | set V[1].a = 7 | bytes V 0', PACKED, '00 00 00 00 00 07 00 00 00 00', 'aos(aligned, row)',
          '00 00 00 00 00 00 00 00 07 00 00 00 00 00 00 00'),
    *pair('layout', PAIR + 'view V : P [1] as {} | layout V', PACKED, 'blob,bit,bits,record,leaf,low | 0,0,8,0,a,0 | 0,8,32,0,b,0', 'soa(multi, row)',
          'blob,bit,bits,record,leaf,low | 0,0,8,0,a,0 | 1,0,32,0,b,0'),
    *pair('heat', PAIR + 'view V : P [2] as {} | update V set a = 7 | heat V', 'heat(64, aos(packed, row))', 'blob,granule,accesses | 0,0,2', 'heat(4, aos(packed, row))',
          'blob,granule,accesses | 0,0,1 | 0,1,1'),
    *pair('actors', 'version 2 | ' + PAIR + 'view V : P [1] as {} | update V set b = 258 actors [] schedule 0 turns 2', PACKED, '00 02 00 00 00', 'byteswap(aos(packed, row))', '00 00 00 00 00'),
    *pair('shared_byte', 'version 2 | record P { a:u8 } | view V : P [2] as {} | update V set a = 7 actors [1] schedule 0 turns 0', 'bitaos(8, row)', '00' + 7 * ' 00', 'bitaos(4, row)', 'line 4: SharedByte blob 0 byte 0'),
    *pair('advice', 'version 2 | record P { a:u8, b:u64 } | view V : P [64] as aos(packed, row) | advise V granule 64 pass a times 10 pass b times 1 among {}', PACKED, 'candidate,cost | 1,99 | best 99 aos ( packed , row )',
          'soa(multi, row)', 'candidate,cost | 1,18 | best 18 soa ( multi , row )'),
    # a line past its limit
    *pair('long_line', SET, PACKED, TABLE, PACKED.replace(', ', ',' + (LINE_ROOM + 2) * ' '), 'line 2: LineTooLong'),
    # scripts of different versions, and of a version that is none
    *pair('version', '{} | ' + PAIR + 'view V : P [2] as bitaos(8 { b: 12 }, row)' + TAIL, 'version 2', 'a,b | 0,0 | 0,0', 'version 1', 'line 3: Syntax column 28'),
    *pair('version_line', '{} | ' + PAIR + 'view V : P [2] as bitaos(8 { b: 12 }, row)' + TAIL, 'version 2', 'a,b | 0,0 | 0,0', '# version 2', 'line 3: Syntax column 28'),
    *pair('version_that_is_none', '{} | ' + PAIR + 'view V : P [2] as aos(packed, row)' + TAIL, 'version 2', 'a,b | 0,0 | 0,0', 'version 3', 'line 1: BadVersion'),
    # a stencil of values that one layout holds and the other does not, and one whose second table is too big beside the first
    *pair('narrow_of_a_stencil', 'version 2 | ' + PAIR + 'view V : P [2] as {} | set V[1].a = 3 | stencil V window [0 : 2] set a = (2 * a at [0]) / 1 rounds 1' + TAIL, PACKED, 'a,b | 0,0 | 6,0', 'bitaos(2, row)',
          'line 5: Narrow record 1 leaf a'),
    *pair('wrap_of_a_stencil', 'version 2 | ' + PAIR + 'view V : P [2] wrap as {} | set V[1].a = 3 | stencil V window [0 : 2] set a = (2 * a at [0]) / 1 rounds 1' + TAIL, PACKED, 'a,b | 0,0 | 6,0', 'bitaos(2, row)', 'a,b | 0,0 | 2,0'),
    *pair('too_big_of_a_stencil', 'version 2 | record P { a:u64[2] } | ' + ''.join(f'view V{number} : P [16777216] as aos(packed, row) | ' for number in range(3))
          + 'view W : P [3, 4096] as {} | stencil W window [0 : 1, 0 : 1] set a[0] = (1 * a[0] at [2, 4095]) / 1 rounds 1 | print W window [0 : 1, 0 : 1]', PACKED, 'a[0],a[1] | 0,0', 'aos(packed, morton)', 'line 7: TooBig'),
    # lines that differ in more than their mapping expressions, and scripts of other lines
    *pair('another_line', PAIR + 'view V : P [1] as aos(packed, row) | view W : P [2] as aos(packed, row) | print {}', 'V', 'a,b | 0,0', 'W', 'a,b | 0,0 | 0,0'),
    *pair('more_lines', PAIR + 'view V : P [1] as aos(packed, row){}', ' | print V', 'a,b | 0,0', '', ''),
    # windows and stencils, which show nothing of how a table lies
    *alike('window', 'version 2 | ' + PAIR + 'view V : P [2, 3] as {} | update V set a = 10 * i0 + i1, b = -a | print V window [1 : 2, 0 : 2] | print V window [0 : 2, 3 : 3]', 'a,b | 10,0 | 11,0 | a,b', *EVERYWHERE),
    *alike('stencil', 'version 2 | ' + PAIR + 'view V : P [3, 4] as {} | update V set a = 5 * i0 + i1, b = 3 * i0 - 7 * i1 | stencil V window [1 : 3, 1 : 3] set b = (2 * b at [-1, 1], 1 * a at [0, -1], -1 * b at [0, 0]) / 3 rounds 2 | '
           'reduce V sum b | print V window [1 : 3, 0 : 4]', '-87 | a,b | 5,3 | 6,-5 | 7,-9 | 8,-18 | 10,6 | 11,-1 | 12,-6 | 13,-15', *EVERYWHERE),
    *alike('stencil_that_is_refused', 'version 2 | ' + PAIR + 'view V : P [3, 4] as {} | update V set a = 5 * i0 + i1 | stencil V window [1 : 3, 1 : 3] set a = (9 * a at [0, 0], 1 * a at [-1, 1]) / 1 rounds 3', 'line 5: Range record 5 leaf a', *EVERYWHERE),
]
