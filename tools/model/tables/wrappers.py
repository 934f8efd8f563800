"""The forms count and heat: where they may stand, the sizes of granules, what they leave as it is, and what refuses them in its order."""

from .case import BOTH, Case, PAIR

AOS, SOA = 'aos(packed, row)', 'soa(multi, row)'
GOES = ' | print W'


def bad(name, mapping, fault):
    """A mapping by itself that is refused, and the same in a view of a record and in a relayout."""
    return [Case(f'wrapper_{name}', f'mapping M = {mapping}', f'line 1: BadMapping {fault}'),
            Case(f'wrapper_{name}_in_a_view', PAIR + f'view V : P [2] as {mapping}', f'line 2: BadMapping {fault}'),
            Case(f'wrapper_{name}_in_a_relayout', BOTH + f'relayout V as {mapping}', f'line 3: BadMapping {fault}')]


def nested(form, depth, inner):
    return f'{form}(' * depth + inner + ')' * depth


COUNTER = [
    *bad('count_twice', f'count(count({AOS}))', 'Counter'),
    *bad('heat_twice', f'heat(4, heat(8, {AOS}))', 'Counter'),
    *bad('count_twice_around_heat', f'count(heat(4, count({AOS})))', 'Counter'),
    *bad('heat_twice_around_count', f'heat(4, count(heat(4, {AOS})))', 'Counter'),
    *bad('count_below_byteswap', f'byteswap(count({AOS}))', 'Counter'),
    *bad('heat_below_bytesplit', f'bytesplit(heat(4, {AOS}))', 'Counter'),
    *bad('count_below_change', f'change(u8->u16, count({AOS}))', 'Counter'),
    *bad('count_in_the_first_side_of_a_split', f'split(a, count({AOS}), {SOA})', 'Counter'),
    *bad('heat_in_the_rest_of_a_split', f'split(a, {AOS}, heat(4, {SOA}))', 'Counter'),
    *bad('count_in_both_sides_of_a_split', f'split(a, count({AOS}), count({SOA}))', 'Counter'),
    *bad('count_twice_around_a_form', f'count(byteswap(count({AOS})))', 'Counter'),
    *bad('heat_deep_below_count', f'count({nested("byteswap", 7, f"heat(4, {AOS})")})', 'Counter'),
    *bad('counter_before_granule', f'heat(3, heat(5, {AOS}))', 'Counter'),
    *bad('counter_before_lanes', 'byteswap(count(aosoa(0, row)))', 'Counter'),
    *bad('counter_before_width', 'heat(3, byteswap(count(bitaos(65, row))))', 'Counter'),
    *bad('counter_before_side', f'split(q, count({AOS}), {SOA})', 'Counter'),
    *bad('counter_before_not_full', 'count(byteswap(count(bitaos(3, row))))', 'Counter'),
    Case('wrapper_count_twice_by_names', f'mapping N = count({AOS}) | mapping M = count(N)', 'line 2: BadMapping Counter'),
    Case('wrapper_count_below_a_form_by_a_name', f'mapping N = heat(4, {AOS}) | mapping M = split(a, {SOA}, N)', 'line 2: BadMapping Counter'),
    Case('wrapper_count_twice_by_names_in_a_view', PAIR + f'mapping N = count({AOS}) | mapping M = heat(4, N) | view V : P [2] as count(M)', 'line 4: BadMapping Counter'),
    Case('wrapper_heat_around_a_name_with_count', PAIR + f'mapping N = count({AOS}) | view V : P [1] as heat(4, N) | counts V | heat V',
         'leaf,reads,writes | a,0,0 | b,0,0 | blob,granule,accesses'),
    Case('wrapper_count_twice_in_a_load', PAIR + f'load V : P [1] as count(count({AOS})) from "d.csv"', 'line 2: BadMapping Counter', b'z\n1\n'),
]

TOO_DEEP = nested('byteswap', 8, AOS)
DEPTH = [
    *bad('too_deep_below_count', f'count({TOO_DEEP})', 'TooDeep'),
    *bad('too_deep_below_heat', f'heat(4, {TOO_DEEP})', 'TooDeep'),
    *bad('too_deep_before_counter', f'count(count({TOO_DEEP}))', 'TooDeep'),
    *bad('too_deep_before_granule', f'heat(3, {TOO_DEEP})', 'TooDeep'),
    *bad('too_deep_with_counters_among_it', nested('byteswap', 4, f'count({nested("byteswap", 4, AOS)})'), 'TooDeep'),
    *bad('too_deep_in_one_side', f'count(split(a, {AOS}, {nested("byteswap", 7, AOS)}))', 'TooDeep'),
    Case('wrapper_depth_8_below_count_and_heat', PAIR + f'mapping M = count(heat(4, {nested("byteswap", 7, AOS)})) | view V : P [1] as M | set V[0].b = 1 | bytes V 0 | counts V | heat V',
         '00 00 00 00 01 | leaf,reads,writes | a,0,0 | b,0,1 | blob,granule,accesses | 0,0,1 | 0,1,1'),
    *bad('counter_at_depth_8_without_itself', nested('byteswap', 4, f'count({nested("byteswap", 3, AOS)})'), 'Counter'),
    Case('wrapper_33_counters', f'mapping M = {nested("count", 33, AOS)}', 'line 1: BadMapping Counter'),
    Case('wrapper_of_64_brackets', f'mapping M = {nested("count", 63, AOS)}', 'line 1: BadMapping Counter'),
    Case('wrapper_of_65_brackets', f'mapping M = {nested("count", 64, AOS)}', 'line 1: Syntax column 400'),
]

GRANULE = [case for size in (0, 3, 5, 6, 7, 9, 12, 63, 65, 100, 1000, 4095, 4097, 6144, 8192, 65536, 2147483648, 4294967295)
           for case in bad(f'granule_of_{size}', f'heat({size}, {AOS})', 'Granule')[:1]] + [
    Case('wrapper_granules_of_each_size', ' | '.join(f'mapping M{power} = heat({2 ** power}, {AOS})' for power in range(13)), ''),
    Case('wrapper_granule_with_leading_zeros', f'mapping M = heat(00064, {AOS})', ''),
    Case('wrapper_granule_past_32_bits', f'mapping M = heat(4294967296, {AOS})', 'line 1: Syntax column 18'),
    Case('wrapper_granule_below_0', f'mapping M = heat(-1, {AOS})', 'line 1: Syntax column 18'),
    Case('wrapper_heat_without_a_granule', f'mapping M = heat({AOS})', 'line 1: Syntax column 18'),
    Case('wrapper_count_with_a_granule', f'mapping M = count(4, {AOS})', 'line 1: Syntax column 19'),
    *bad('granule_below_count', f'count(heat(24, {AOS}))', 'Granule'),
    *bad('granule_around_count', f'heat(24, count({AOS}))', 'Granule'),
    *bad('granule_before_lanes', 'heat(3, aosoa(0, row))', 'Granule'),
    *bad('granule_before_width', 'count(heat(0, bitaos(0, row)))', 'Granule'),
    *bad('granule_before_side', f'heat(3, split(q, {AOS}, {SOA}))', 'Granule'),
    *bad('granule_before_not_full', 'heat(3, byteswap(bitaos(4, row)))', 'Granule'),
    *bad('lanes_below_heat', 'heat(4, aosoa(65, row))', 'Lanes'),
    *bad('width_below_count', 'count(bitsoa(0, row))', 'Width'),
    *bad('width_before_lanes_below_count', 'count(split(a, bitaos(65, row), aosoa(0, row)))', 'Width'),
]

SIDES = [case for name, mapping, fault in [
    ('side_below_count', f'count(split(q, {AOS}, {SOA}))', 'Side'), ('side_of_all_below_heat', f'heat(4, split(a, {AOS}, split(b, {AOS}, {SOA})))', 'Side'),
    ('side_before_not_full', 'count(split(q, byteswap(bitaos(3, row)), aos(packed, row)))', 'Side'),
    ('not_full_below_count', 'count(byteswap(bitaos(7, row)))', 'NotFull'), ('not_full_below_heat', f'heat(4, byteswap(change(i32->u32, {AOS})))', 'NotFull'),
] for case in bad(name, mapping, fault)[1:]] + [
    Case('wrapper_side_is_not_looked_at_in_a_mapping', f'mapping M = count(split(q, {AOS}, {SOA}))', ''),
    Case('wrapper_not_full_is_not_looked_at_in_a_mapping', 'mapping M = heat(4, byteswap(bitaos(7, row)))', ''),
    Case('wrapper_of_bytes_that_no_change_reaches', PAIR + f'view V : P [1] as heat(4, bytesplit(change(i32->u32, {AOS}))) | set V[0].b = -1 | heat V',
         'blob,granule,accesses | 0,0,1 | 0,1,1'),
]

HELD = [
    Case('wrapper_holds_what_it_wraps', PAIR + f'view V : P [2] as count(bitaos(9, row)) | set V[1].b = -256 | print V | set V[0].b = 256',
         'a,b | 0,0 | 0,-256 | line 5: Narrow record 0 leaf b'),
    Case('wrapper_holds_another_type', PAIR + f'view V : P [2] as heat(4, change(i32->i8, {AOS})) | set V[1].b = -128 | bytes V 0 | update V set b = 127 + i0',
         '00 00 00 80 | line 5: Narrow record 1 leaf b'),
    Case('wrapper_has_the_blobs_of_what_it_wraps', PAIR + f'view V : P [2] as count(heat(1, split(b, {SOA}, aosoa(2, row)))) | update V set a = i0 + 1, b = -i0 | bytes V 0 | bytes V 1 | '
         'bytes V 2', '00 00 00 00 ff ff ff ff | 01 02 | line 6: BadIndex'),
    Case('wrapper_copies_to_and_from_others', PAIR + f'view V : P [2] as count(heat(2, {AOS})) | update V set a = i0 + 1, b = -i0 | view W : P [2] as {AOS} | copy V to W | print W | '
         f'view X : P [2] as heat(64, {SOA}) | copy W to X | print X | bytes X 0 | copy X to V | print V',
         'a,b | 1,0 | 2,-1 | a,b | 1,0 | 2,-1 | 01 02 | a,b | 1,0 | 2,-1'),
    Case('wrapper_copy_that_is_narrow', PAIR + f'view V : P [2] as count({AOS}) | update V set b = 100 * i0 | view W : P [2] as heat(4, bitsoa(7, row)) | copy V to W',
         'line 5: Narrow record 1 leaf b'),
    Case('wrapper_relayout_that_is_narrow', PAIR + f'view V : P [2] as count({AOS}) | update V set b = 100 * i0 | relayout V as count(bitsoa(7, row))', 'line 4: Narrow record 1 leaf b'),
    Case('wrapper_mismatch', PAIR + f'view V : P [2] as count({AOS}) | view W : P [3] as count({AOS}) | copy V to W', 'line 4: Mismatch'),
    Case('wrapper_loads_by_its_holds', PAIR + 'load V : P [?] as count(bitaos(4, row)) from "d.csv"', 'line 2: Narrow record 1 leaf b', b'a,b\n15,7\n15,8\n'),
    Case('wrapper_that_is_a_name', PAIR + f'mapping count = {AOS} | mapping heat = count | view V : P [1] as count(heat(1, heat)) | view W : P [1] as heat | set V[0].a = 1 | counts V | '
         'heat V | counts W', 'leaf,reads,writes | a,0,1 | b,0,0 | blob,granule,accesses | 0,0,1 | line 9: NotCounted'),
]

MOST = 2 ** 24
PAIR_OF_BYTES = 'record P { a:u8, b:u8 } | '
BYTE = 'record P { a:u8 } | '


def granules(name, record, rows, mapping, goes):
    return Case(f'limit_{name}', f'record P {{ {record} }} | view V : P [{rows}] as {mapping} | print W', 'line 3: Unknown W' if goes else 'line 2: TooBig')


LIMITS = [
    granules('2_to_the_24_granules', 'a:u8', MOST, f'heat(1, {SOA})', True),
    granules('2_to_the_24_granules_and_more', 'a:u8, b:u8', MOST, f'heat(1, {SOA})', False),
    granules('2_to_the_24_granules_and_one_more', 'a:u8[17]', 986896, f'heat(1, {AOS})', False),
    granules('2_to_the_24_granules_but_one', 'a:u8[17]', 986895, f'heat(1, {AOS})', True),
    granules('2_to_the_24_granules_in_two_blobs', 'a:u8, b:u8', MOST // 2, f'count(heat(1, {SOA}))', True),
    granules('2_to_the_24_granules_in_two_blobs_and_more', 'a:u8, b:u8', MOST // 2 + 1, f'count(heat(1, {SOA}))', False),
    granules('2_to_the_24_granules_of_2_bytes', 'a:u8, b:u8', MOST, f'heat(2, {AOS})', True),
    granules('2_to_the_24_granules_of_2_bytes_and_more', 'a:u8, b:u16', MOST, f'heat(2, count({AOS}))', False),
    granules('granules_that_are_not_whole_in_each_blob', 'a:u8[18]', 14913080, f'heat(16, {SOA})', False),
    granules('granules_of_padding', 'a:u8', '1, 4096', 'heat(1, aos(packed, morton))', True),
    granules('granules_of_padding_and_more', 'a:u8, b:u8', '1, 4096', 'heat(1, aos(packed, morton))', False),
    granules('granules_of_many_slots', 'a:u8', '1, 4097', 'heat(4096, aos(packed, morton))', False),
    granules('granules_of_2_to_the_28_bytes', 'a:u64[2]', MOST, f'heat(4096, {AOS})', True),
    granules('granules_of_2_to_the_28_bytes_and_more', 'a:u64[2], b:u8', MOST, f'heat(4096, {AOS})', False),
    Case('limit_2_to_the_24_granules_in_a_relayout', PAIR_OF_BYTES + f'view V : P [{MOST}] as {SOA} | relayout V as heat(1, {SOA})', 'line 3: TooBig'),
    Case('limit_2_to_the_24_granules_in_a_load', 'record P { a:u64[64] } | load V : P [?] as heat(1, soa(multi, row)) from "d.csv"', 'line 2: TooBig',
         make='{ echo z; yes 0 | head -n 32769; } >d.csv\n'),
    Case('limit_heat_of_the_last_of_2_to_the_24_granules', BYTE + f'view V : P [{MOST}] as heat(1, {SOA}) | set V[{MOST - 1}].a = 7 | set V[0].a = 1 | heat V',
         'blob,granule,accesses | 0,0,1 | 0,16777215,1', by_hand=True),
]

ORDER = [
    Case('wrapper_taken_before_an_unknown_name', f'mapping M = {SOA} | mapping M = count(N)', 'line 2: Taken M'),
    Case('wrapper_taken_before_counter', f'mapping M = {SOA} | mapping M = count(count(M))', 'line 2: Taken M'),
    Case('wrapper_unknown_name_before_counter', 'mapping M = count(count(N))', 'line 1: Unknown N'),
    Case('wrapper_unknown_name_before_granule', 'mapping M = heat(3, N)', 'line 1: Unknown N'),
    Case('wrapper_unknown_name_behind_a_counter', f'mapping M = split(a, count({AOS}), N)', 'line 1: Unknown N'),
    Case('wrapper_unknown_names_from_left_to_right', 'mapping M = split(a, heat(3, N), count(O))', 'line 1: Unknown N'),
    Case('wrapper_unknown_record_before_its_mapping', 'view V : P [1, 2, 3, 4, 5] as heat(3, M)', 'line 1: Unknown P'),
    Case('wrapper_unknown_mapping_before_its_rank', PAIR + 'view V : P [1, 2, 3, 4, 5] as heat(3, M)', 'line 2: Unknown M'),
    Case('wrapper_rank_before_counter', PAIR + f'view V : P [1, 1, 1, 1, 1] as count(count({AOS}))', 'line 2: BadExtents Rank'),
    Case('wrapper_too_many_rows_before_counter', PAIR + f'view V : P [4097, 4097] as count(count({AOS}))', 'line 2: BadExtents TooMany'),
    Case('wrapper_two_rows_before_granule', PAIR + f'load V : P [?, ?] as heat(3, {AOS}) from "d.csv"', 'line 2: BadExtents TwoRows'),
    Case('wrapper_missing_file_before_granule', PAIR + f'load V : P [?] as heat(3, {AOS}) from "d.csv"', 'line 2: cannot read d.csv'),
    Case('wrapper_not_equal_before_granule', PAIR + f'load V : P [2] as heat(3, {AOS}) from "d.csv"', 'line 2: BadExtents NotEqual', b'z\n1\n'),
    Case('wrapper_granule_before_a_missing_column', PAIR + f'load V : P [1] as heat(3, {AOS}) from "d.csv"', 'line 2: BadMapping Granule', b'z\n1\n'),
    Case('wrapper_side_before_granules', PAIR_OF_BYTES + f'view V : P [{MOST}] as heat(1, split(q, {AOS}, {SOA}))', 'line 2: BadMapping Side'),
    Case('wrapper_of_an_unknown_view_in_a_relayout', PAIR + 'relayout V as count(M)', 'line 2: Unknown V'),
    Case('wrapper_unknown_mapping_in_a_relayout', BOTH + 'relayout V as count(M)', 'line 3: Unknown M'),
    Case('wrapper_syntax_before_its_names', 'relayout V as count(M', 'line 1: Syntax column 22'),
    Case('wrapper_without_a_bracket_is_a_name', 'mapping M = count', 'line 1: Unknown count'),
    Case('wrapper_heat_without_a_bracket_is_a_name', BOTH + 'relayout V as heat', 'line 3: Unknown heat'),
]

CASES = COUNTER + DEPTH + GRANULE + SIDES + HELD + LIMITS + ORDER
