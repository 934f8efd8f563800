"""The advice of bench/scripts: eight candidates and their splits, four passes, over 2^20 rows of eight leaves and over a quarter of these.

Of each run the same run without the line `advise` is taken off. There is no peer.
"""
from measured import Runner, ratio

ROWS, FEWER, COUNTED = 2 ** 20, 2 ** 18, 2 ** 10
CANDIDATES = ('aos(packed, row)', 'aos(aligned, row)', 'soa(multi, row)', 'soa(single, row)', 'aosoa(8, row)', 'aosoa(64, row)', 'bitaos(24, row)', 'bitsoa(42, row)')
PASSES = 'pass a, b times 10 pass c, d, e times 5 pass f times 20 pass g, h times 1'
TABLE = '''version 2
record P {{ a:u8, b:u16, c:i32, d:i64, e:u32, f:i16, g:u64, h:bool }}
view V : P [{rows}] as aos(packed, row)
update V set a = i0 % 200, b = i0 % 5000, c = 500 - i0, d = i0 * i0, e = i0, f = i0 % 100 - 50, g = i0, h = i0 % 2
'''
ADVISE = f'advise V granule 64 {PASSES} among {", ".join(CANDIDATES)} splits\n'


def of_rows(llama, folder, rows):
    """The run of an advice over so many rows."""
    (folder / f'table_{rows}.llama').write_text(TABLE.format(rows=rows))
    (folder / f'advise_{rows}.llama').write_text(TABLE.format(rows=rows) + ADVISE)
    table = Runner('llama', [llama, 'run', f'table_{rows}.llama'], True)
    return Runner('llama', [llama, 'run', f'advise_{rows}.llama'], True, table)


def measure_advice(llama, work, rounds):
    """Prints the line of the table that is of advice, and what it says of other numbers of rows."""
    folder = work / 'advice'
    folder.mkdir()
    all_rows, fewer, counted = (of_rows(llama, folder, rows) for rows in (ROWS, FEWER, COUNTED))
    for _ in range(rounds):
        for runner in (all_rows.base, all_rows, fewer.base, fewer):
            runner.round(folder)
    for runner in (counted.base, counted):
        runner.count(folder)
    print(f'| a script: `advise` over {ROWS:,} rows | {all_rows.time():.3f} s | - | - | - | - |')
    each = f', and {counted.each / COUNTED:.0f} instructions a row over {COUNTED:,} rows' if counted.each else ''
    print(f'\nOver {FEWER:,} rows an `advise` took {fewer.time():.3f} s: {ROWS // FEWER} times the rows take {ratio(all_rows.time(), fewer.time())} times the time{each}. '
          f'At most {all_rows.memory / 1e6:.1f} MB were held at once.')
