"""Updates that are split among actors: what the memory is in the midst of a schedule, and what refuses cuts, turns and a memory.

The entries of seed 0 are 0 0 0 1 0 1 1 1 0 0 1 0 1 for two actors, those of seed 1 are 0 0 1 1 1 1 0 1 0. Under the forms of a layout and where
updates are thrown, what is printed is worked out by turns.py, and the model must agree.
"""
from .bit_fields import TYPES
from .case import Case
from .copies import shown
from .files import BYTE, due_of, file_of
from .nested import Dice, EXTENTS, RECORDS, text_of, thrown_form, written
from .tallies import counted_form
from .turns import Acted, numbers, thrown_cuts, thrown_value
from .widths import thrown_widths

TWO = 'version 2 | '
P, PAIR = TWO + 'record P { a:u8 } | ', TWO + 'record P { a:u8, b:u8 } | '
NIBBLES = P + 'view V : P [4] as bitaos(4, row) | '
COUNT = 'update V set a = i0 + 1 '
PACKED = PAIR + 'view V : P [2] as aos(packed, row) | update V set b = i0 + 1 | '
Z6 = ' 00' * 6
MOST_TURNS = 2 ** 20


def case(name, script, due):
    return Case(f'actors_{name}', script, due)


def turned(begin, command, until):
    """The lines of a script that does a command behind each of some schedules, each time from the same beginning."""
    return ' | '.join(f'{begin}{command} turns {turns}' for turns in until)


# the memory behind each entry of a schedule, by hand

EACH_TURN = [case(f'behind_each_turn_of_{name}', NIBBLES + turned('update V set a = 0 | ', COUNT + f'actors [2] schedule {seed}', range(10)), ' | '.join(two + Z6 for two in due)) for name, seed, due in [
    ('seed_0', 0, ['00 00', '00 00', '01 00', '01 00', '01 00', '21 00', '21 03', '21 03', '21 43', '21 43']),
    ('seed_1', 1, ['00 00', '00 00', '01 00', '01 00', '01 03', '01 03', '01 43', '01 43', '01 43', '21 43']),
    ('seed_5_which_is_1_1_0_1_1_0_0_1_0', 5, ['00 00', '00 00', '00 03', '00 03', '00 03', '00 43', '01 43', '01 43', '01 43', '21 43']),
    ('the_greatest_seed_which_is_1_1_0_0_1_0_0_1', 2 ** 32 - 1, ['00 00', '00 00', '00 03', '00 03', '01 03', '01 03', '01 03', '21 03', '21 43', '21 43']),
    ('seed_2147483648_which_is_0_again', 2 ** 31, ['00 00', '00 00', '01 00', '01 00', '01 00', '21 00', '21 03', '21 03', '21 43', '21 43']),
    ('seed_2147483649_which_is_1_again', 2 ** 31 + 1, ['00 00', '00 00', '01 00', '01 00', '01 03', '01 03', '01 43', '01 43', '01 43', '21 43'])]]

MIDST = [case(name, script, due) for name, script, due in [
    ('of_four_rows_in_two_bytes', NIBBLES + COUNT + 'actors [2] schedule 0 turns 6 | bytes V 0', f'21 03{Z6} | 21 43{Z6}'),
    ('starve_the_first_of_two', NIBBLES + COUNT + 'actors [2] schedule 3 turns 3 | print V', f'00 03{Z6} | a | 1 | 2 | 3 | 4'),
    ('tear_a_number_of_12_bits', TWO + 'record P { a:u16 } | view V : P [4] as bitaos(12, row) | ' + turned('update V set a = 0 | ', 'update V set a = 4095 actors [2] schedule 0', (2, 4, 5, 6, 99)),
     ' | '.join(line + ' 00 00' for line in ['ff 00 00 00 00 00', 'ff 00 00 00 00 00', 'ff 0f 00 00 00 00', 'ff 0f 00 ff 00 00', 'ff ff ff ff ff ff'])),
    ('exchange_two_leaves_of_one_byte', PAIR + 'view V : P [2] as bitaos(4, row) | ' + turned('update V set a = 3 + 2 * i0, b = 12 - 2 * i0 | ', 'update V set a = b, b = a actors [1] schedule 0', (4, 5, 8, 10, 13))
     + ' | print V', ' | '.join(two + Z6 for two in ['c3 a5', 'cc a5', 'cc aa', '3c aa', '3c 5a']) + ' | a,b | 12,3 | 10,5'),
    ('exchange_two_leaves_of_whole_bytes', PACKED + turned('update V set a = 7, b = i0 + 1 | ', 'update V set a = b, b = a actors [] schedule 0', (3, 4, 5, 6, 10)),
     '07 01 07 02 | 01 01 07 02 | 01 01 07 02 | 01 07 07 02 | 01 07 02 02'),
    ('read_a_sign', TWO + 'record P { a:i8 } | view V : P [4] as bitaos(4, row) | ' + turned('update V set a = i0 - 7 | ', 'update V set a = a / 2 actors [2] schedule 0', (0, 3, 8, 10, 13)) + ' | print V',
     ' | '.join(two + Z6 for two in ['a9 cb', 'ad cb', 'ad ce', 'dd ce', 'dd ee']) + ' | a | -3 | -3 | -2 | -2'),
    ('load_a_leaf_that_is_read_twice_once', PACKED + turned('update V set a = 0 | ', 'update V set a = b + b actors [] schedule 0', (2, 3, 5, 6)),
     '00 01 00 02 | 02 01 00 02 | 02 01 00 02 | 02 01 04 02'),
    ('load_a_leaf_of_filter_and_value_once', PACKED + turned('update V set a = 0 | ', 'update V where b set a = b actors [] schedule 0', (2, 3, 5, 6)),
     '00 01 00 02 | 01 01 00 02 | 01 01 00 02 | 01 01 02 02'),
    ('load_for_the_filter_alone_where_it_leaves_a_row', PACKED + turned('update V set a = 0 | ', 'update V where b > 1 set a = 7 actors [] schedule 0', (3, 4)), '00 01 00 02 | 00 01 07 02'),
    ('load_what_is_looked_at_alone', PACKED + turned('update V set a = i0 | ', 'update V where a and b set a = 9 actors [] schedule 0', (4, 5)) + ' | ' + turned('update V set a = i0 | ', 'update V where a or b set a = 9 actors [] schedule 0', (4, 6, 7)),
     '00 01 01 02 | 00 01 09 02 | 09 01 01 02 | 09 01 01 02 | 09 01 09 02'),
    ('keep_the_value_of_a_number_of_two_bytes', TWO + 'record P { a:u16 } | view V : P [1] as aos(packed, row) | ' + turned('update V set a = 200 | ', 'update V set a = a * 3 actors [] schedule 0', (3, 4, 5, 6)) + ' | print V',
     'c8 00 | 58 00 | 58 00 | 58 02 | a | 600'),
    ('store_by_byte_and_not_by_digit', TWO + 'record P { a:u16 } | view V : P [1] as byteswap(aos(packed, row)) | ' + turned('update V set a = 0 | ', 'update V set a = 258 actors [] schedule 0', (2, 4)),
     '01 00 | 01 02'),
    ('store_by_blob_then_byte', TWO + 'record P { a:u16 } | view V : P [2] as bytesplit(soa(multi, row)) | ' + turned('update V set a = 0 | ', 'update V set a = 258 + i0 actors [] schedule 0', (2, 4, 6)),
     '02 00 | 00 00 | 02 00 | 01 00 | 02 03 | 01 00'),
    ('store_leaves_in_the_order_of_the_text', PAIR + 'view V : P [2] as soa(multi, row) | ' + turned('update V set a = 0, b = 0 | ', 'update V set b = 9, a = 7 actors [] schedule 0', (2, 4, 6)),
     '00 00 | 09 00 | 07 00 | 09 00 | 07 00 | 09 09'),
    ('load_two_leaves_of_two_blobs', PAIR + 'view V : P [2] as soa(multi, row) | update V set a = 1, b = 2 | update V set a = b + a actors [1] schedule 0 turns 5', '03 01 | 02 02'),
    ('store_64_bits_in_9_bytes', TWO + 'record P { f:bool, t:u64 } | view V : P [1] as bitaos(64 { f: 1 }, row) | ' + turned('update V set t = 0 | ', 'update V set t = 18446744073709551615 actors [] schedule 0', (2, 16, 17, 18)),
     ' | '.join([f'fe{" 00" * 15}', f'fe{" ff" * 7}{" 00" * 8}', f'fe{" ff" * 7}{" 00" * 8}', f'fe{" ff" * 7} 01{" 00" * 7}'])),
    ('leave_what_else_a_byte_holds', TWO + 'record P { f:bool, t:u8, g:bool } | view V : P [1] as bitaos(3 { f: 1, g: 1 }, row) | update V set f = 1, t = 5, g = 1 | update V set t = 2 actors [] schedule 0 turns 2',
     '15 00' + Z6),
    ('set_a_number_that_it_has', NIBBLES + COUNT + '| ' + COUNT + 'actors [2] schedule 0 turns 5', '21 43' + Z6),
    ('of_no_step_at_all', NIBBLES + COUNT + '| update V where 0 set a = 9 actors [2] schedule 0 turns 99 | print V', f'21 43{Z6} | a | 1 | 2 | 3 | 4'),
    ('know_rows_by_their_indices', P + 'view V : P [2, 3] as aos(packed, col) | update V set a = 10 * i0 + i1 + 1 actors [3] schedule 0 turns 6', '01 0b 02 00 00 00'),
]]


# cuts

CUTS = [case(f'cut_{name}', script, due) for name, script, due in [
    ('nowhere', NIBBLES + turned('update V set a = 0 | ', COUNT + 'actors [] schedule 7', (5, 8, 100)), f'21 00{Z6} | 21 43{Z6} | 21 43{Z6}'),
    ('at_0', NIBBLES + COUNT + 'actors [0] schedule 0 turns 8', f'21 00{Z6}'),
    ('at_the_count', NIBBLES + COUNT + 'actors [4] schedule 0 turns 7', f'21 00{Z6}'),
    ('past_the_count', NIBBLES + COUNT + 'actors [5] schedule 0 turns 7', 'line 4: BadActors Cuts'),
    ('twice_at_0_and_at_the_count', NIBBLES + turned('update V set a = 0 | ', COUNT + 'actors [0, 0, 4] schedule 0', (8, 9, 13, 14)) + ' | print V',
     f'00 00{Z6} | 01 00{Z6} | 01 00{Z6} | 21 00{Z6} | a | 1 | 2 | 3 | 4'),
    ('twice_at_the_count', NIBBLES + turned('update V set a = 0 | ', COUNT + 'actors [4, 4] schedule 0', (5, 10, 11)), f'01 00{Z6} | 01 00{Z6} | 21 00{Z6}'),
    ('twice_in_the_midst', NIBBLES + turned('update V set a = 0 | ', COUNT + 'actors [2, 2] schedule 0', (9, 11, 14)), f'01 00{Z6} | 21 00{Z6} | 21 03{Z6}'),
    ('and_fall', NIBBLES + COUNT + 'actors [2, 0] schedule 0 turns 0', 'line 4: BadActors Cuts'),
    ('and_fall_behind_others', NIBBLES + COUNT + 'actors [0, 2, 4, 2] schedule 0 turns 0', 'line 4: BadActors Cuts'),
    ('past_the_count_before_others', NIBBLES + COUNT + 'actors [4294967295, 2] schedule 0 turns 0', 'line 4: BadActors Cuts'),
    ('at_4294967295', NIBBLES + COUNT + 'actors [2, 4294967295] schedule 0 turns 0', 'line 4: BadActors Cuts'),
    ('with_leading_zeros', NIBBLES + COUNT + 'actors [0002] schedule 000 turns 06', '21 03' + Z6),
    ('rows_and_not_indices', P + 'view V : P [2, 2] as bitaos(4, row) | set V[1, 1].a = 15 | update V set a = 2 * i0 + i1 + 1 actors [2] schedule 0 turns 6', '21 f3' + Z6),
    ('a_view_without_rows', P + 'view V : P [0] as aos(packed, row) | update V set a = 1 / 0 actors [0, 0] schedule 0 turns 9 | print V', 'a'),
    ('a_view_without_rows_nowhere', P + 'view V : P [3, 0] as soa(multi, col) | update V set a = 1 actors [] schedule 0 turns 9 | print V', 'a'),
    ('a_view_without_rows_past_them', P + 'view V : P [0] as aos(packed, row) | update V set a = 1 actors [1] schedule 0 turns 9', 'line 4: BadActors Cuts'),
    ('a_view_without_rows_that_has_memory', P + 'view V : P [0] as aos(packed, morton) | update V set a = 1 actors [0] schedule 0 turns 9', '00')]]

HITS = [entry % 64 for entry, _ in zip(numbers(0), range(200))]
SIXTY_FOUR = P + 'view V : P [64] as aos(packed, row) | '


def cut_63_times(turns):
    """Each row has an actor of its own, which stores its byte by its second entry."""
    return shown(' '.join(f'{row + 1:02x}' if HITS[:turns].count(row) >= 2 else '00' for row in range(64)))


def listed(cuts):
    return ', '.join(map(str, cuts))


MANY = [case(f'of_{name}', script, due) for name, script, due in [
    ('63_cuts', SIXTY_FOUR + turned('update V set a = 0 | ', COUNT + f'actors [{listed(range(1, 64))}] schedule 0', (20, 64, 200)), ' | '.join(map(cut_63_times, (20, 64, 200)))),
    ('64_cuts', SIXTY_FOUR + COUNT + f'actors [{listed(range(1, 65))}] schedule 0 turns 0', 'line 4: BadActors Cuts'),
    ('63_cuts_at_one_place', NIBBLES + COUNT + f'actors [{listed([2] * 63)}] schedule 0 turns 0 | print V', '00 00' + Z6 + ' | a | 1 | 2 | 3 | 4'),
    ('64_cuts_at_one_place', NIBBLES + COUNT + f'actors [{listed([2] * 64)}] schedule 0 turns 0', 'line 4: BadActors Cuts'),
    ('500_cuts', P + f'view V : P [600] as aos(packed, row) | {COUNT}actors [{listed(range(500))}] schedule 0 turns 0', 'line 4: BadActors Cuts'),
    ('64_cuts_of_a_view_without_rows', P + f'view V : P [0] as aos(packed, row) | {COUNT}actors [{listed([0] * 64)}] schedule 0 turns 0', 'line 4: BadActors Cuts'),
    ('no_turn', NIBBLES + COUNT + 'actors [2] schedule 9 turns 0 | print V', '00 00' + Z6 + ' | a | 1 | 2 | 3 | 4'),
    ('2_to_the_20_turns', NIBBLES + COUNT + f'actors [2] schedule 4 turns {MOST_TURNS}', '21 43' + Z6),
    ('65536_rows_of_which_one_has_steps_in_2_to_the_20_turns', TWO + 'record P { f:bool } | view V : P [65536] as bitaos(1, row) | '
        f'update V where i0 == 5 set f = 1 actors [] schedule 1 turns {MOST_TURNS}', ' | '.join(['20' + ' 00' * 15] + ['00' + ' 00' * 15] * 511)),
    ('2_to_the_20_turns_and_one_more', NIBBLES + COUNT + f'actors [2] schedule 4 turns {MOST_TURNS + 1}', 'line 4: BadActors Turns'),
    ('4294967295_turns', NIBBLES + COUNT + 'actors [2] schedule 4 turns 4294967295', 'line 4: BadActors Turns')]]


# bytes of two actors

NINE_FLAGS, SEVEN_FLAGS = (TWO + f'record P {{ f:bool }} | view V : P [{rows}] as bitaos(1, row) | ' for rows in (9, 7))
SHARED = [case(f'share_{name}', script, due) for name, script, due in [
    ('the_first_byte', NIBBLES + COUNT + 'actors [1] schedule 0 turns 6', 'line 4: SharedByte blob 0 byte 0'),
    ('the_second_byte', NIBBLES + COUNT + 'actors [3] schedule 0 turns 6', 'line 4: SharedByte blob 0 byte 1'),
    ('two_bytes', NIBBLES + COUNT + 'actors [1, 3] schedule 0 turns 6', 'line 4: SharedByte blob 0 byte 0'),
    ('a_byte_behind_a_good_cut', NIBBLES + COUNT + 'actors [2, 3] schedule 0 turns 6', 'line 4: SharedByte blob 0 byte 1'),
    ('a_byte_of_which_one_has_the_upper_half', TWO + 'record P { a:u16 } | view V : P [4] as bitaos(12, row) | update V set a = 1 actors [2] schedule 0 turns 0 | update V set a = 1 actors [3] schedule 0 turns 0',
     f'00 00{Z6} | line 5: SharedByte blob 0 byte 4'),
    ('a_byte_of_bits_by_leaf', PAIR + 'view V : P [3] as bitaos(8 { a: 4 }, row) | update V set a = 1 actors [2] schedule 0 turns 2 | update V set a = 2 actors [1] schedule 0 turns 2',
     f'01 00{Z6} | line 5: SharedByte blob 0 byte 1'),
    ('a_byte_of_each_blob', PAIR + 'view V : P [4] as bitsoa(4, row) | update V set b = 1 actors [1] schedule 0 turns 2', 'line 4: SharedByte blob 0 byte 0'),
    ('a_byte_of_the_second_blob', PAIR + 'view V : P [4] as bitsoa(8 { b: 4 }, row) | update V set a = 1 actors [1] schedule 0 turns 2', 'line 4: SharedByte blob 1 byte 0'),
    ('a_byte_that_is_not_touched', PAIR + 'view V : P [4] as split(a, soa(multi, row), bitsoa(4, row)) | update V set a = a + 1 actors [3] schedule 0 turns 2',
     'line 4: SharedByte blob 1 byte 1'),
    ('a_byte_though_no_row_is_let_through', NIBBLES + 'update V where 0 set a = 1 actors [1] schedule 0 turns 6', 'line 4: SharedByte blob 0 byte 0'),
    ('a_byte_though_no_actor_moves', NIBBLES + COUNT + 'actors [1] schedule 0 turns 0', 'line 4: SharedByte blob 0 byte 0'),
    ('a_byte_by_columns', P + 'view V : P [2, 2] as bitaos(4, col) | update V set a = 1 actors [2] schedule 0 turns 6', 'line 4: SharedByte blob 0 byte 0'),
    ('the_second_byte_by_columns', P + 'view V : P [2, 2] as bitaos(4, col) | update V set a = 1 actors [3] schedule 0 turns 6', 'line 4: SharedByte blob 0 byte 1'),
    ('no_byte_by_columns', P + 'view V : P [2, 2] as bitaos(8, col) | update V set a = 1 + 2 * i0 + i1 actors [1, 2, 3] schedule 0 turns 12', '01 03 02 00 00 00 00 00'),
    ('a_byte_with_padding_between', P + 'view V : P [3, 1] as bitaos(2, morton) | update V set a = i0 actors [2] schedule 0 turns 8 | update V set a = i0 actors [1] schedule 0 turns 6',
     '10 00 02 00 00 00 00 00 | line 5: SharedByte blob 0 byte 0'),
    ('a_byte_with_more_padding_between', P + 'view V : P [1, 3] as bitaos(1, morton) | update V set a = 1 actors [2] schedule 0 turns 6', 'line 4: SharedByte blob 0 byte 0'),
    ('a_byte_of_the_second_blob_with_padding_between', PAIR + 'view V : P [1, 3] as bitsoa(8 { b: 1 }, morton) | update V set a = 1 actors [2] schedule 0 turns 6', 'line 4: SharedByte blob 1 byte 0'),
    ('eight_flags', NINE_FLAGS + 'update V set f = 1 actors [8] schedule 0 turns 16 | update V set f = 0 actors [7] schedule 0 turns 0', f'0f 01{Z6} | line 5: SharedByte blob 0 byte 0'),
    ('seven_flags_of_no_second_actor', SEVEN_FLAGS + 'update V set f = 1 actors [0, 7] schedule 0 turns 0 | bytes V 0 | update V set f = 0 actors [6] schedule 0 turns 0',
     f'00 00{Z6} | 7f 00{Z6} | line 6: SharedByte blob 0 byte 0'),
    ('a_byte_behind_many', P + 'view V : P [30] as bitaos(5, row) | update V set a = 1 actors [8, 16, 24] schedule 0 turns 0 | update V set a = 1 actors [8, 16, 25] schedule 0 turns 0',
     f'{shown("00 " * 24)} | line 5: SharedByte blob 0 byte 15')]]


# which refusal comes first

TOO_BIG = P + 'view V : P [65537] as aos(packed, row) | '
BITS_TOO_BIG = TWO + 'record P { f:bool } | view V : P [524289] as bitaos(1, row) | '
BAD = ' actors [9] schedule 0 turns 1048577'
FIRST = [case(name, script, due) for name, script, due in [
    ('want_a_line_before_a_view', NIBBLES + 'update W set a = 1 actors [9] schedule 0', 'line 4: Syntax column 41'),
    ('want_a_short_value_before_a_view', NIBBLES + f'update W set a = {"-" * 32}1{BAD}', 'line 4: TooDeep'),
    ('want_a_view', NIBBLES + 'update W where y set z = x' + BAD, 'line 4: Unknown W'),
    ('want_the_leaves_of_the_filter', NIBBLES + 'update V where y set z = x' + BAD, 'line 4: Unknown y'),
    ('want_the_leaves_that_are_set', NIBBLES + 'update V where a set z = x' + BAD, 'line 4: Unknown z'),
    ('want_the_leaves_of_values', NIBBLES + 'update V where a set a = x, z = a' + BAD, 'line 4: Unknown x'),
    ('want_the_indices_of_values', NIBBLES + 'update V set a = i1, z = a' + BAD, 'line 4: Unknown i1'),
    ('want_known_leaves_before_each_once', NIBBLES + 'update V set a = 1, a = x' + BAD, 'line 4: Unknown x'),
    ('set_a_leaf_once', NIBBLES + 'update V set a = 1, a = 2' + BAD, 'line 4: Twice a'),
    ('want_cuts_before_turns', NIBBLES + 'update V set a = 1' + BAD, 'line 4: BadActors Cuts'),
    ('want_cuts_before_a_small_memory', TOO_BIG + 'update V set a = 1 actors [65538] schedule 0 turns 0', 'line 4: BadActors Cuts'),
    ('want_turns_before_a_small_memory', TOO_BIG + 'update V set a = 1 actors [] schedule 0 turns 1048577', 'line 4: BadActors Turns'),
    ('want_cuts_before_a_byte_each', NIBBLES + COUNT + 'actors [1, 0] schedule 0 turns 0', 'line 4: BadActors Cuts'),
    ('want_turns_before_a_byte_each', NIBBLES + COUNT + 'actors [1] schedule 0 turns 1048577', 'line 4: BadActors Turns'),
    ('want_a_small_memory_before_a_byte_each', BITS_TOO_BIG + 'update V set f = 1 actors [1] schedule 0 turns 0', 'line 4: TooBig'),
    ('want_cuts_before_values', NIBBLES + 'update V set a = 1 / 0 actors [5] schedule 0 turns 0', 'line 4: BadActors Cuts'),
    ('want_turns_before_values', NIBBLES + 'update V set a = 1 / 0 actors [] schedule 0 turns 1048577', 'line 4: BadActors Turns'),
    ('want_a_small_memory_before_values', TOO_BIG + 'update V set a = 1 / 0 actors [] schedule 0 turns 0', 'line 4: TooBig'),
    ('want_a_byte_each_before_values', NIBBLES + 'update V set a = 1 / 0 actors [1] schedule 0 turns 0', 'line 4: SharedByte blob 0 byte 0'),
    ('want_each_once_before_values', NIBBLES + 'update V set a = 1 / 0, a = 1 actors [1] schedule 0 turns 0', 'line 4: Twice a')]]

LIMIT = [case(f'over_{name}', script, due) for name, script, due in [
    ('65536_bytes', TWO + 'record P { a:u64 } | view V : P [8192] as aos(packed, row) | update V set a = i0 actors [4096] schedule 0 turns 0 | reduce V sum a',
     ' | '.join(['00' + ' 00' * 15] * 4096) + ' | 33550336'),
    ('65537_bytes', TOO_BIG + 'update V set a = 1 actors [] schedule 0 turns 0', 'line 4: TooBig'),
    ('65538_bytes_of_two_blobs', PAIR + 'view V : P [32769] as soa(multi, row) | update V set a = 1 actors [] schedule 0 turns 0', 'line 4: TooBig'),
    ('65544_bytes_of_bits', BITS_TOO_BIG + 'update V where 0 set f = 1 actors [] schedule 0 turns 0', 'line 4: TooBig'),
    ('a_memory_whose_padding_is_too_much', PAIR + 'view V : P [1, 200] as aos(packed, morton) | update V set a = 1 actors [] schedule 0 turns 0', 'line 4: TooBig')]]


# values that have no place, or are none: nothing moves

FAULTS = [case(f'do_nothing_before_{name}', script, due) for name, script, due in [
    ('a_number_past_its_type', P + 'view V : P [4] as aos(packed, row) | print V | update V set a = 253 + i0 actors [2] schedule 0 turns 9', 'a | 0 | 0 | 0 | 0 | line 5: Range record 3 leaf a'),
    ('a_number_past_its_bits', NIBBLES + 'update V set a = 13 + i0 actors [2] schedule 0 turns 9', 'line 4: Narrow record 3 leaf a'),
    ('a_number_below_0', NIBBLES + 'update V set a = 2 - i0 actors [2] schedule 0 turns 0', 'line 4: Range record 3 leaf a'),
    ('a_divisor_of_0', NIBBLES + 'update V set a = 6 / (3 - i0) actors [2] schedule 0 turns 3', 'line 4: DivideByZero record 3'),
    ('an_overflow', NIBBLES + f'update V set a = 0 * ({2 ** 127 - 1} + i0) actors [2] schedule 0 turns 3', 'line 4: Overflow record 1'),
    ('a_fault_of_the_filter', NIBBLES + 'update V where 1 % (2 - i0) set a = 1 actors [2] schedule 0 turns 3', 'line 4: DivideByZero record 2'),
    ('the_first_row_of_two', NIBBLES + 'update V set a = 18 - 2 * i0 actors [2] schedule 3 turns 9', 'line 4: Narrow record 0 leaf a'),
    ('the_first_of_two_values', PAIR + 'view V : P [2] as aos(packed, row) | update V set b = 300, a = 1 / 0 actors [1] schedule 0 turns 9', 'line 4: Range record 0 leaf b'),
    ('a_fault_of_a_row_that_no_actor_reaches', NIBBLES + 'update V set a = 1 / (3 - i0) actors [2] schedule 0 turns 1', 'line 4: DivideByZero record 3'),
    ('a_fault_and_not_where_it_is_left_out', NIBBLES + 'update V where i0 < 3 set a = 6 / (3 - i0) actors [2] schedule 0 turns 6 | print V', f'32 06{Z6} | a | 2 | 3 | 6 | 0'),
    ('what_and_leaves_out', NIBBLES + 'update V where i0 < 3 and 6 / (3 - i0) > 2 set a = 7 actors [2] schedule 0 turns 6 | print V', f'70 07{Z6} | a | 0 | 7 | 7 | 0')]]


# low bits, counts and heat, and what comes behind

WRAP = P + 'view V : P [4] wrap as bitaos(4, row) | '
COUNTED = PAIR + 'view V : P [2] as count(heat(1, aos(packed, row))) | update V set a = i0 | '
BEHIND = [case(name, script, due) for name, script, due in [
    ('keep_low_bits', WRAP + 'update V set a = 14 + i0 actors [2] schedule 0 turns 3 | bytes V 0', f'0e 00{Z6} | fe 10{Z6}'),
    ('keep_low_bits_of_a_number_below_0', WRAP + 'update V set a = -i0 - 1 actors [2] schedule 0 turns 6 | print V', f'ef 0d{Z6} | a | 15 | 14 | 13 | 12'),
    ('keep_whether_a_number_is_odd', TWO + 'record P { f:bool } | view V : P [10] wrap as bitaos(1, row) | update V set f = 7 * i0 actors [8] schedule 0 turns 99', f'aa 02{Z6}'),
    ('read_low_bits_as_another_type', TWO + 'record P { u:u16 } | view V : P [1] wrap as change(u16->i8, aos(packed, row)) | set V[0].u = 200 | ' + turned('', 'update V set u = u / 2 actors [] schedule 0', (3, )) + ' | print V',
     'e4 | u | 65508'),
    ('keep_low_bits_and_still_divide', WRAP + 'update V set a = 1 / i0 actors [2] schedule 0 turns 3', 'line 4: DivideByZero record 0'),
    ('keep_low_bits_of_two_bytes', TWO + 'record P { a:i16 } | view V : P [2] wrap as aos(packed, row) | ' + turned('update V set a = 258 | ', 'update V set a = a * 1000 actors [1] schedule 0', (5, 9, 12)) + ' | print V',
     'd0 01 02 01 | d0 01 d0 01 | d0 ef d0 01 | a | -4144 | -4144'),
    ('count_as_the_whole_update_does', COUNTED + 'update V where a set b = a + b actors [1] schedule 0 turns 4 | counts V | heat V | print V',
     '00 00 01 00 | leaf,reads,writes | a,3,2 | b,1,1 | blob,granule,accesses | 0,0,2 | 0,2,3 | 0,3,2 | a,b | 0,0 | 1,1'),
    ('count_none_where_no_row_is_let_through', COUNTED + 'update V where 0 set b = a actors [1] schedule 0 turns 4 | counts V', '00 00 01 00 | leaf,reads,writes | a,0,2 | b,0,0'),
    ('count_the_same_whatever_the_schedule', COUNTED + ' | '.join(f'update V set b = a actors [{cuts}] schedule {seed} turns {turns} | counts V' for cuts, seed, turns in [('', 0, 0), ('1', 0, 5), ('0, 1, 2', 9, 99)]),
     '00 00 01 00 | leaf,reads,writes | a,2,2 | b,0,2 | 00 00 01 01 | leaf,reads,writes | a,4,2 | b,0,4 | 00 00 01 01 | leaf,reads,writes | a,6,2 | b,0,6'),
    ('begin_a_schedule_anew_each_time', NIBBLES + f'{COUNT}actors [2] schedule 0 turns 3 | update V set a = 15 actors [2] schedule 0 turns 3 | update V set a = 0 actors [2] schedule 0 turns 2 | bytes V 0',
     f'01 00{Z6} | 2f 43{Z6} | f0 ff{Z6} | 00 00{Z6}'),
    ('read_what_others_left_before', NIBBLES + f'{COUNT}actors [2] schedule 0 turns 0 | update V set a = a * 3 actors [2] schedule 0 turns 3 | print V',
     f'00 00{Z6} | 23 43{Z6} | a | 3 | 6 | 9 | 12'),
    ('before_a_new_layout', NIBBLES + COUNT + 'actors [2] schedule 0 turns 4 | relayout V as aos(packed, row) | bytes V 0 | update V set a = a + 1 actors [1] schedule 0 turns 8 | print V',
     f'01 00{Z6} | 01 02 03 04 | 02 03 03 04 | a | 2 | 3 | 4 | 5'),
    ('before_a_copy', NIBBLES + 'view W : P [4] as soa(multi, row) | ' + COUNT + 'actors [2] schedule 0 turns 4 | copy V to W | print W', f'01 00{Z6} | a | 1 | 2 | 3 | 4'),
    ('leave_other_views', NIBBLES + 'view W : P [4] as bitaos(4, row) | ' + COUNT + 'actors [2] schedule 0 turns 4 | bytes W 0', f'01 00{Z6} | 00 00{Z6}'),
    ('before_reductions', NIBBLES + COUNT + 'actors [2] schedule 0 turns 4 | reduce V sum a | kernel V greatest(a) lanes 4 | set V[0].a = a + 1 | print V',
     f'01 00{Z6} | 10 | 4 | a | 2 | 2 | 3 | 4'),
    ('before_a_drop', NIBBLES + COUNT + 'actors [2] schedule 0 turns 4 | drop V | ' + COUNT + 'actors [] schedule 0 turns 0', f'01 00{Z6} | line 6: Unknown V'),
    ('on_a_layout_by_its_name', TWO + 'mapping M = bitaos(4, row) | mapping N = count(M) | record P { a:u8 } | view V : P [4] as N | ' + COUNT + 'actors [2] schedule 0 turns 6 | counts V',
     f'21 03{Z6} | leaf,reads,writes | a,0,4')]]
FILES = [
    Case('actors_before_a_save', NIBBLES + COUNT + 'actors [2] schedule 0 turns 6 | save V', due_of('21 03' + Z6, file_of(BYTE, '[4] as bitaos(4, row)', '21 43' + Z6))),
    Case('actors_on_a_view_that_was_opened', TWO + 'open V from "f" | update V set a = a * 2 actors [1, 2] schedule 0 turns 12 | save V', due_of('02 04 03 04', file_of(BYTE, '[4] as aos(packed, row)', '02 04 06 08')), files={'f': file_of(BYTE, '[4] as aos(packed, row)', '01 02 03 04')}),
    Case('actors_on_a_view_that_was_loaded', P + 'load V : P [?, 2] as bitaos(4, row) from "d.csv" | update V set a = 15 - a actors [2] schedule 0 turns 5 | print V', f'2e 43{Z6} | a | 14 | 13 | 12 | 11', b'a\n1\n2\n3\n4\n'),
]


# lines and names

SYNTAX = [Case(f'actors_{name}', script + text.replace('^', ''), f'line {script.count("|") + 1}: Syntax column {text.index("^") + 1}') for name, script, text in [
    ('in_a_script_without_a_version', NIBBLES.replace(TWO, ''), 'update V set a = 1 ^actors [2] schedule 0 turns 6'),
    ('in_version_1', NIBBLES.replace('2', '1', 1), 'update V set a = 1 ^actors [2] schedule 0 turns 6'),
    ('without_a_list', NIBBLES, 'update V set a = 1 actors^'),
    ('without_brackets', NIBBLES, 'update V set a = 1 actors ^2 schedule 0 turns 6'),
    ('in_parentheses', NIBBLES, 'update V set a = 1 actors ^(2) schedule 0 turns 6'),
    ('of_a_list_without_an_end', NIBBLES, 'update V set a = 1 actors [2 ^schedule 0 turns 6'),
    ('of_a_list_that_begins_with_a_comma', NIBBLES, 'update V set a = 1 actors [^, 2] schedule 0 turns 6'),
    ('of_a_list_that_ends_with_a_comma', NIBBLES, 'update V set a = 1 actors [2,^] schedule 0 turns 6'),
    ('of_a_list_without_commas', NIBBLES, 'update V set a = 1 actors [1 ^2] schedule 0 turns 6'),
    ('at_a_cut_below_0', NIBBLES, 'update V set a = 1 actors [^-1] schedule 0 turns 6'),
    ('at_a_cut_that_is_worked_out', NIBBLES, 'update V set a = 1 actors [1 ^+ 1] schedule 0 turns 6'),
    ('at_a_cut_by_its_name', NIBBLES, 'update V set a = 1 actors [^i0] schedule 0 turns 6'),
    ('at_a_cut_of_33_bits', NIBBLES, 'update V set a = 1 actors [2, ^4294967296] schedule 0 turns 6'),
    ('without_a_schedule', NIBBLES, 'update V set a = 1 actors [2]^'),
    ('with_turns_before_a_schedule', NIBBLES, 'update V set a = 1 actors [2] ^turns 6 schedule 0'),
    ('without_a_seed', NIBBLES, 'update V set a = 1 actors [2] schedule ^turns 6'),
    ('of_a_seed_below_0', NIBBLES, 'update V set a = 1 actors [2] schedule ^-1 turns 6'),
    ('of_a_seed_of_33_bits', NIBBLES, 'update V set a = 1 actors [2] schedule ^4294967296 turns 6'),
    ('of_a_list_of_entries', NIBBLES, 'update V set a = 1 actors [2] schedule ^[0, 0, 1] turns 6'),
    ('without_turns', NIBBLES, 'update V set a = 1 actors [2] schedule 0^'),
    ('without_a_number_of_turns', NIBBLES, 'update V set a = 1 actors [2] schedule 0 turns^'),
    ('of_turns_of_33_bits', NIBBLES, 'update V set a = 1 actors [2] schedule 0 turns ^4294967296'),
    ('of_two_numbers_of_turns', NIBBLES, 'update V set a = 1 actors [2] schedule 0 turns 6 ^7'),
    ('twice', NIBBLES, 'update V set a = 1 actors [2] schedule 0 turns 6 ^actors [2] schedule 0 turns 6'),
    ('before_what_is_set', NIBBLES, 'update V ^actors [2] schedule 0 turns 6 set a = 1'),
    ('before_a_further_set', NIBBLES, 'update V set a = 1 actors [2] schedule 0 turns 6^, a = 2'),
    ('before_a_filter', NIBBLES, 'update V set a = 1 actors [2] schedule 0 turns 6 ^where a'),
    ('in_capitals', NIBBLES, 'update V set a = 1 ^Actors [2] schedule 0 turns 6'),
    ('behind_a_comma', NIBBLES, 'update V set a = 1, actors [2] ^schedule 0 turns 6'),
    ('behind_an_operator', NIBBLES, 'update V set a = 1 + actors [2] ^schedule 0 turns 6'),
    ('of_a_set', NIBBLES, 'set V[0].a = 1 ^actors [2] schedule 0 turns 6'),
    ('of_a_kernel', NIBBLES, 'kernel V clamp(a, 0, 1) lanes 4 ^actors [2] schedule 0 turns 6'),
    ('of_a_copy', NIBBLES, 'copy V to V ^actors [2] schedule 0 turns 6')]]
NAMES = [case(name, script, due) for name, script, due in [
    ('schedule_and_turns_are_names', TWO + 'record actors { schedule:u8, turns:u8[3], actors:u8 } | mapping schedule = aos(packed, row) | view turns : actors [1] as schedule | '
     'update turns where actors == 0 set schedule = 7, turns[2] = turns[1] + i0, actors = actors actors [1] schedule 0 turns 9 | print turns', '07 00 00 00 00 | schedule,turns[0],turns[1],turns[2],actors | 7,0,0,0,0'),
    ('of_a_leaf_of_that_name', TWO + 'record P { actors:u8[3] } | view V : P [1] as aos(packed, row) | set V[0].actors[2] = 9 | update V set actors[0] = actors[2]actors[]schedule 0 turns 99',
     '09 00 09'),
    ('are_names_in_version_1', 'record P { actors:u8, schedule:u8, turns:u8 } | view V : P [1] as aos(packed, row) | update V set actors = turns + 1, schedule = actors + 2 | print V',
     'actors,schedule,turns | 1,2,0'),
    ('with_blanks_and_a_comment', NIBBLES + ' update\tV set a=i0+1\tactors[ 2 ]schedule 0turns 6# a note', '21 03' + Z6)]]


# each form of a layout in each order

FIVE = [('a', 'u8'), ('b', 'u8'), ('p.x', 'i16'), ('p.y', 'u32'), ('f', 'bool')]
ROWS = [((7 * row + 3) % 60, (11 * row + 50) % 60, 5 * row - 25, (13 * row + 1) % 60, row % 2) for row in range(12)]
UPDATES = [
    ('set a = b, b = a', None, [('a', lambda read, index: read('b')), ('b', lambda read, index: read('a'))]),
    ('where f set p.x = -p.x, p.y = a, a = b', lambda read, index: read('f'),
     [('p.x', lambda read, index: -read('p.x')), ('p.y', lambda read, index: read('a')), ('a', lambda read, index: read('b'))]),
    ('where a > 20 or f and b < 30 set p.y = p.y + i0, f = not f', lambda read, index: read('a') > 20 or read('f') and read('b') < 30,
     [('p.y', lambda read, index: read('p.y') + index[0]), ('f', lambda read, index: int(not read('f')))]),
    ('set f = a < b, b = max(a, p.y) % 50 + i1, p.y = b', None,
     [('f', lambda read, index: int(read('a') < read('b'))), ('b', lambda read, index: max(read('a'), read('p.y')) % 50 + index[1]), ('p.y', lambda read, index: read('b'))]),
]
SEEDS = [0, 1, 2 ** 31, 2 ** 32 - 1, 77, 123456789]


def forms(order):
    """Expressions by their names, those of whole bytes and those of bits."""
    packed, six = ('aos', 'packed', order), ('bitaos', 6, order)
    return {
        'packed_structs': packed, 'aligned_structs': ('aos', 'aligned', order), 'sorted_structs': ('aos', 'min', order), 'arrays_in_one_blob': ('soa', 'single', order),
        'aligned_arrays': ('soa', 'aligned', order), 'arrays': ('soa', 'multi', order), 'lanes': ('aosoa', 5, order), 'big_endian_structs': ('byteswap', packed),
        'arrays_of_bytes': ('bytesplit', ('soa', 'multi', order)), 'bytes_in_bits': ('bytesplit', ('bitaos', 8, order)), 'a_lesser_type': ('change', 'u32', 'u8', packed),
        'greater_types': ('change', 'u8', 'u64', ('aos', 'min', order)), 'counted_structs': ('count', packed), 'arrays_with_heat': ('heat', 4, ('soa', 'single', order)),
        'big_endian_bits': ('byteswap', ('split', ('f',), packed, ('bitaos', 32, order))),
    }, {
        'bits_of_structs': six, 'bits_of_arrays': ('bitsoa', 6, order), 'bits_by_leaf_of_structs': ('bitaos', (8, (('p', 12), ('f', 1), ('p.x', 7))), order),
        'bits_by_leaf_of_arrays': ('bitsoa', (16, (('a', 8), ('p.x', 6), ('f', 1))), order), 'structs_beside_bits': ('split', ('p',), packed, ('bitaos', (7, (('f', 6),)), order)),
        'bits_beside_arrays': ('split', ('p', 'x'), ('bitsoa', 6, order), ('soa', 'multi', order)),
        'bits_of_a_greater_type': ('change', 'i16', 'i64', ('bitsoa', 7, order)), 'bits_with_heat_and_counts': ('count', ('heat', 1, six)),
    }


def counters_of(mapping):
    """The counters on top of a mapping, by their forms."""
    return {part[0]: part for part in (mapping, mapping[-1]) if part[0] in ('count', 'heat')}


def shown_behind(acted, mapping):
    """The lines that show what a view counted and what it holds, and what they print."""
    counters = counters_of(mapping)
    script = ['counts V'] * ('count' in counters) + ['heat V'] * ('heat' in counters) + ['print V']
    return script, [acted.counted()] * ('count' in counters) + [acted.heated(counters['heat'][1]) if 'heat' in counters else ''] + [acted.printed()]


def acted_case(name, record, acted, extents, mapping, update, cuts, seed, turns):
    """A dataset that is loaded, an update of it by actors, and what is left."""
    text, where, sets = update
    mode, data = '' if acted.is_strict else ' wrap', acted.dataset()
    acted.touch_all()
    midst = acted.update(where, sets, cuts, seed, turns)
    script, due = shown_behind(acted, mapping)
    begin = [f'record P {{ {record} }}', f'load V : P {written(extents)}{mode} as {text_of(mapping)} from "d.csv"', f'update V {text} actors {written(cuts)} schedule {seed} turns {turns}']
    return Case(f'actors_{name}', TWO + ' | '.join(begin + script), ' | '.join(line for line in [midst, *due] if line), data)


def of_form(number, name, mapping):
    acted, dice, update = Acted(FIVE, (3, 4), mapping, ROWS, True), Dice(31 * number), UPDATES[number % len(UPDATES)]
    cuts, steps = thrown_cuts(dice, acted), acted.steps(*update[1:])
    return acted_case(name, 'a:u8, b:u8, p { x:i16, y:u32 }, f:bool', acted, (3, 4), mapping, update, cuts, SEEDS[number % len(SEEDS)], steps // 4 + dice.below(steps // 2))


def of_bad_cut(number, name, mapping):
    """Cuts one of which parts the rows of some byte."""
    acted, dice = Acted(FIVE, (3, 4), mapping, ROWS, True), Dice(number)
    good = acted.good_cuts()
    cuts = sorted([dice.of([cut for cut in range(13) if cut not in good]), dice.of(good)])
    return case(name, TWO + f'record P {{ a:u8, b:u8, p {{ x:i16, y:u32 }}, f:bool }} | view V : P [3, 4] as {text_of(mapping)} | update V set a = 1 actors {written(cuts)} schedule 0 turns 9',
                'line 4: SharedByte blob {} byte {}'.format(*acted.shared(cuts)))


IN_ORDERS = [(f'{name}_in_{order}_order', mapping, side) for order in ('row', 'col', 'morton') for side, of in enumerate(forms(order)) for name, mapping in of.items()]
FORMS = [of_form(number, f'over_{name}', mapping) for number, (name, mapping, _) in enumerate(IN_ORDERS)]
BAD_CUTS = [of_bad_cut(number, f'share_a_byte_of_{name}', mapping) for number, (name, mapping, side) in enumerate(IN_ORDERS) if side == 1]


# thrown: views that keep low bits under expressions of each depth

def thrown_update(dice, paths, rank):
    """Some leaves, a value of each, and mostly a filter."""
    where = thrown_value(dice, paths, rank, 1 + dice.below(3)) if dice.below(3) else None
    first = dice.below(len(paths))
    sets = [(paths[(first + step) % len(paths)], thrown_value(dice, paths, rank, dice.below(3))) for step in range(1 + dice.below(min(3, len(paths))))]
    text = (f'where {where[0]} ' if where else '') + 'set ' + ', '.join(f'{path} = {of}' for path, (of, _) in sets)
    return text, where and where[1], [(path, of) for path, (_, of) in sets]


def thrown_case(number, depth, form_of):
    dice = Dice(4444 * depth + number)
    record, extents = dice.of(sorted(RECORDS)), dice.of(EXTENTS)
    mapping = counted_form(dice, record, depth, form_of) if dice.below(2) else form_of(dice, RECORDS[record], depth, False)
    rows = 1
    for extent in extents:
        rows *= extent
    acted = Acted(RECORDS[record], extents, mapping, [[TYPES[kind][0] + dice.below(2 ** 31) * dice.below(2 ** 31) for _, kind in RECORDS[record]] for _ in range(rows)])
    update = thrown_update(dice, acted.paths, len(extents))
    return acted_case(f'thrown_of_depth_{depth}_number_{number}', record, acted, extents, mapping, update, thrown_cuts(dice, acted), dice.below(2 ** 31), dice.below(acted.steps(*update[1:]) * 3 // 2 + 3))


THROWN = [thrown_case(number, depth, form_of) for depth in range(1, 9) for number, form_of in enumerate([thrown_form, thrown_form, thrown_widths])]

CASES = EACH_TURN + MIDST + CUTS + MANY + SHARED + FIRST + LIMIT + FAULTS + BEHIND + FILES + SYNTAX + NAMES + FORMS + BAD_CUTS + THROWN
