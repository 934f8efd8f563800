"""The kernels and copies of bench/scripts by columns and in Morton order, over a plane and a space, against C that learns the order when it runs.

A row has two numbers of 32 bits, each in an array of its own. A kernel goes over a table of the order; a copy goes to it from one by rows. Of each
run the same run with no round is taken off.
"""
import math
import pathlib

from measured import Runner, build, print_line, same_output, tell

HERE = pathlib.Path(__file__).resolve().parent
ORDERS = 'col', 'morton'
# of the timed runs, and of those whose instructions are counted
GRIDS = {'plane': ((1024, 1000), (64, 100)), 'space': ((100, 100, 100), (16, 20, 20))}
ROUNDS = 20
PEERS = 'none', 'general'
HEAD = '''version 2
record Pair {{ x:i32, y:i32 }}
view V : Pair [{extents}] as soa(multi, {order})
view W : Pair [{extents}] as soa(multi, row)
update {filled} set x = i0 * 31 + i1 * 17
'''
WORKS = {
    'sum': ('V', 'kernel V sum(x) lanes 16\n', 'reduce V sum y\n'),
    'axpy': ('V', 'kernel V axpy(3, x, y) lanes 16\n', 'reduce V sum y\n'),
    'copy': ('W', 'copy W to V\n', 'reduce V sum x\n'),
}


def runners_of(llama, work, name, order, rounds):
    """The runs of all rounds, each with the run of none."""
    peer = work / 'curves_c'
    found = []
    for program, command in (('llama', lambda count: [llama, 'run', f'{name}_{order}_{count}.llama']),
                             ('general', lambda count: [peer, name, order, str(count)])):
        base = Runner(program, command(0), True)
        found.append(Runner(program, command(rounds), True, base))
    return found


def write_scripts(folder, extents, name, order):
    folder.mkdir(exist_ok=True)
    filled, line, end = WORKS[name]
    head = HEAD.format(extents=', '.join(map(str, extents)), order=order, filled=filled)
    for rounds in (0, ROUNDS):
        (folder / f'{name}_{order}_{rounds}.llama').write_text(head + rounds * line + end)


def with_extents(runner, extents):
    """Tells C the extents, which the script of llama has."""
    if runner.name == 'general':
        runner.command = [*runner.command[:4], *map(str, extents)]


def measure_curves(llama, work, rounds):
    """Prints the lines of the table that are by columns and in Morton order."""
    build('gcc', '-std=c11', '-O2', '-fno-tree-vectorize', '-Wall', '-Wextra', '-o', work / 'curves_c', HERE / 'curves.c')
    for grid, sizes in GRIDS.items():
        folders = [work / f'{grid}_timed', work / f'{grid}_counted']
        for name in WORKS:
            for order in ORDERS:
                measure_one(llama, work, folders, sizes, (name, order, grid), rounds)


def measure_one(llama, work, folders, sizes, label, rounds):
    name, order, grid = label
    runners = runners_of(llama, work, name, order, ROUNDS)
    bases = [runner.base for runner in runners]
    for folder, extents in zip(folders, sizes):
        write_scripts(folder, extents, name, order)
        for runner in bases + runners:
            with_extents(runner, extents)
        if not all(same_output(alike, folder) for alike in (bases, runners)):
            return
        for runner in bases + runners:
            if folder == folders[0]:
                for _ in range(rounds):
                    runner.round(folder)
            else:
                runner.count(folder)
    print_line(f'`{name}` by `{order}` over a `{grid}`', runners, PEERS)
    tell(f'{name} {order} {grid}', runners, math.prod(sizes[1]) * ROUNDS, 'row')
