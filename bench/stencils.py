"""The stencil of bench/scripts: heat that spreads over a square of cells, by rounds of five terms, against C and scipy.

A cell has two numbers of 32 bits, of which the stencil takes one, so that the bytes of the two layouts differ. Of each run the same run with no
round is taken off.
"""
import pathlib
import sys

from measured import Runner, build, print_line, python_with, same_output, tell

HERE = pathlib.Path(__file__).resolve().parent
LAYOUTS = {'soa': 'soa(multi, row)', 'aosoa': 'aosoa(16, row)'}
# cells along each side, and rounds, of the timed runs and of those whose instructions are counted
TIMED, COUNTED = (1024, 100), (128, 10)
PEERS = 'fixed', 'general'
SCRIPT = '''version 2
record Cell {{ t:i32, other:i32 }}
view V : Cell [{side}, {side}] as {layout}
update V set t = (i0 * 31 + i1 * 17) % 2001 - 1000
update V where i0 == 0 set t = 1000000
stencil V window [1 : {last}, 1 : {last}] set t = (1 * t at [-1, 0], 1 * t at [0, -1], 4 * t at [0, 0], 1 * t at [0, 1], 1 * t at [1, 0]) / 8 rounds {rounds}
reduce V sum t
'''


def write_works(folder, side, rounds):
    """The script of each layout, and what the peers are told, with all rounds and with none."""
    folder.mkdir()
    for work, count in (('heat', rounds), ('none', 0)):
        (folder / work).write_text(f'{side} {count}\n')
        for form, layout in LAYOUTS.items():
            (folder / f'{form}_{work}.llama').write_text(SCRIPT.format(side=side, last=side - 1, layout=layout, rounds=count))


def commands_of(llama, work, form):
    """Of each program its name, its command on a file that tells the side and the rounds, and whether its instructions are counted."""
    found = [('llama', lambda file: [llama, 'run', f'{form}_{file}.llama'], True)]
    found += [(peer, lambda file, peer=peer: [work / 'stencil_c', peer, form, file], True) for peer in PEERS]
    python = python_with('scipy.ndimage')
    if python:
        found.append(('scipy', lambda file: [python, HERE / 'stencil_scipy.py', file], False))
    return found


def measure_form(llama, work, folders, form, rounds):
    runners = []
    for name, command, counted in commands_of(llama, work, form):
        base = Runner(name, command('none'), counted)
        runners.append(Runner(name, command('heat'), counted, base))
    bases = [runner.base for runner in runners]
    if not all(same_output(alike, folder) for folder in folders for alike in (bases, runners)):
        return
    for _ in range(rounds):
        for runner in bases + runners:
            runner.round(folders[0])
    for runner in bases + runners:
        runner.count(folders[1])
    label, side = f'`stencil` over `{LAYOUTS[form]}`', COUNTED[0] - 2
    print_line(label, runners, PEERS)
    tell(label, runners, side * side * COUNTED[1], 'cell and round')


def measure_stencils(llama, work, rounds):
    """Prints the lines of the table that are of stencils."""
    build('gcc', '-std=c11', '-O2', '-Wall', '-Wextra', '-o', work / 'stencil_c', HERE / 'stencil.c')
    if not python_with('scipy.ndimage'):
        print('There is no scipy here.', file=sys.stderr)
    folders = [work / 'stencil_timed', work / 'stencil_counted']
    for folder, size in zip(folders, (TIMED, COUNTED)):
        write_works(folder, *size)
    for form in LAYOUTS:
        measure_form(llama, work, folders, form, rounds)
