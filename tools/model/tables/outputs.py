"""Outputs that are full, and memory that is wanting: what is taken of the output is a front of it, and the status is 4 or 5."""
from .case import Case
from .files import file_of

FULL = '/dev/full'
VIEW = 'record P { a:u8, b:i32 } | view V : P [3] as count(heat(64, aos(packed, row))) | update V set a = i0 + 1, b = -i0 | '
LAID = ('blob,bit,bits,record,leaf,low | 0,0,8,0,a,0 | 0,8,32,0,b,0 | 0,40,8,1,a,0 | 0,48,32,1,b,0 | 0,80,8,2,a,0 | 0,88,32,2,b,0')

# each command that writes, and what it writes where there is room
WRITING = [
    ('print', 'print V', 'a,b | 1,0 | 2,-1 | 3,-2'),
    ('counts', 'counts V', 'leaf,reads,writes | a,0,3 | b,0,3'),
    ('heat', 'heat V', 'blob,granule,accesses | 0,0,6'),
    ('layout', 'layout V', LAID),
    ('bytes', 'bytes V 0', '01 00 00 00 00 02 ff ff ff ff 03 fe ff ff ff'),
    ('reduce_sum', 'reduce V sum a', '6'), ('reduce_min', 'reduce V min b', '-2'), ('reduce_max', 'reduce V max a', '3'),
    ('reduce_count', 'reduce V count where a > 1', '2'),
    ('kernel_sum', 'kernel V sum(b) lanes 4', '-3'), ('kernel_least', 'kernel V least(a) lanes 1', '1'), ('kernel_greatest', 'kernel V greatest(b) lanes 8', '0'),
    ('kernel_count_where', 'kernel V count_where(b < 0) lanes 2', '2'),
    ('a_fault', 'print W', 'line 4: Unknown W'),
    ('a_file_that_is_not_read', 'load W : P [?] as aos(packed, row) from "none.csv"', 'line 4: cannot read none.csv'),
]
FULL_CASES = [Case(f'full_output_of_{name}', VIEW + line, due, into=FULL) for name, line, due in WRITING]
SAVED = file_of('a:u8, b:i32', '[3] as count(heat(64, aos(packed, row)))', '01 00 00 00 00 02 ff ff ff ff 03 fe ff ff ff')
FULL_CASES += [Case('full_output_of_an_update_by_actors', 'version 2 | ' + VIEW + 'update V set a = 9 actors [1] schedule 0 turns 4', '09 00 00 00 00 02 ff ff ff ff 03 fe ff ff ff', into=FULL)]
FULL_CASES += [Case('full_output_of_a_window', 'version 2 | ' + VIEW + 'stencil V window [0 : 2] set a = (1 * a at [1]) / 1 rounds 1 | print V window [1 : 3]', 'a,b | 3,-1 | 3,-2', into=FULL)]
FULL_CASES += [Case('full_output_of_advice', 'version 2 | ' + VIEW + 'advise V granule 4 pass a times 2 among soa(multi, row), aos(packed, row)', 'candidate,cost | 1,2 | 2,6 | best 2 soa ( multi , row )', into=FULL)]
FULL_CASES += [Case('full_output_of_save', 'version 2 | ' + VIEW + 'save V', SAVED, into=FULL)]
# a later command would have a fault, or a result: the run is over at the first write that fails
LATER = [
    Case('full_output_before_a_fault', VIEW + 'print V | print W', 'a,b | 1,0 | 2,-1 | 3,-2 | line 5: Unknown W', into=FULL),
    Case('full_output_before_a_file_that_is_not_read', VIEW + 'reduce V sum a | load W : P [?] as aos(packed, row) from "none.csv"', '6 | line 5: cannot read none.csv', into=FULL),
]
WORDS = [
    Case('full_output_of_gen', None, '2 | 3 | 65537 | 0 | leaf,reads,writes | pos.x,3,3 | pos.y,2,2 | mass,3,3 | hot,4,2 | h[0],2,2 | h[1],2,2 | id,2,2', words=['gen', '2'], into=FULL),
    Case('full_output_of_the_usage_line', None, b'usage: llama run FILE | llama gen N\n', words=['gen', '0'], into=FULL),
    Case('full_output_of_a_script_that_is_not_there', None, b'line 0: cannot read none.llama\n', words=['run', 'none.llama'], into=FULL),
]
# a script that writes nothing does not meet its output
QUIET = [Case('full_output_that_nothing_is_written_to', VIEW + 'copy V to V', '', files={'into': b'/dev/full\n'})]

MANY = 'record P { a:u16 } | view V : P [2000] as count(soa(multi, row)) | update V set a = 10000 + i0 | '
TABLE = 'a | ' + ' | '.join(str(10000 + row) for row in range(2000))
BYTES = ' '.join(f'{(10000 + row) % 256:02x} {(10000 + row) // 256:02x}' for row in range(2000)).split(' ')
SHOWN = ' | '.join(' '.join(BYTES[at:at + 16]) for at in range(0, len(BYTES), 16))
RUNS = 'blob,bit,bits,record,leaf,low | ' + ' | '.join(f'0,{16 * row},16,{row},a,0' for row in range(2000))
HOT = 'record P { a:u16 } | view V : P [2000] as heat(1, soa(multi, row)) | update V set a = i0 | heat V'
HEAT = 'blob,granule,accesses | ' + ' | '.join(f'0,{byte},1' for byte in range(4000))
FILE = file_of('a:u16', '[2000] as count(soa(multi, row))', ' '.join(BYTES))
# a file that takes so many KiB and no more: what was taken is the front of what is due
ROOMS = [
    Case('output_of_print_ends_in_a_full_file', MANY + 'print V', TABLE, room=4), Case('output_of_print_ends_late_in_a_full_file', MANY + 'print V', TABLE, room=8),
    Case('output_of_bytes_ends_in_a_full_file', MANY + 'bytes V 0', SHOWN, room=4), Case('output_of_layout_ends_in_a_full_file', MANY + 'layout V', RUNS, room=4),
    Case('output_of_heat_ends_in_a_full_file', HOT, HEAT, room=4), Case('output_of_many_prints_ends_in_a_full_file', MANY + 'print V | reduce V sum a | print V',
                                                                       TABLE + f' | {sum(range(10000, 12000))} | ' + TABLE, room=16),
    Case('output_of_an_update_by_actors_ends_in_a_full_file', 'version 2 | ' + MANY + 'update V set a = 0 actors [1000] schedule 0 turns 0', SHOWN, room=4),
    Case('output_of_a_window_ends_in_a_full_file', 'version 2 | ' + MANY + 'print V window [500 : 1500]', 'a | ' + ' | '.join(str(10500 + row) for row in range(1000)), room=4),
    Case('output_of_saves_ends_in_a_full_file', 'version 2 | ' + MANY + 'save V | save V', FILE + FILE, room=4),
]

# 2^28 bytes of blobs in 100,000 KiB of memory, and twice as many in 400,000
GREAT = 'record P { a:u64[2] } | view V : P [16777216] as soa(multi, row)'
MEMORY = [
    Case('memory_is_wanting_for_a_view', GREAT, '', memory=100000, by_hand=True),
    Case('memory_is_wanting_for_a_stencil', f'version 2 | {GREAT} | stencil V window [0 : 1] set a[0] = (1 * a[1] at [0]) / 1 rounds 1', '', memory=400000, by_hand=True),
]

CASES = FULL_CASES + LATER + WORDS + QUIET + ROOMS + MEMORY
