#!/usr/bin/env python3
"""A slow, plain model of llama: what the program's words, a script and datasets must print, and the status.

usage: llama_model.py run FILE, in the folder of the datasets

It follows the rules of docs/LANGUAGE.md and docs/FILES.md and nothing else, so that it can say what llama owes. A view is a list of
rows; no blob is kept.
"""
import os
import pathlib
import sys
import tempfile

import generator
from accesses import heat_of, runs_of
from actors import Run, bad_actors, entries_of, shared_byte
from advice import bad_advice, cost_of, splits_of, uncounted
from blob_files import MOST_FILE_BYTES, MOST_TEXT_BYTES, FileFault, file_of, parts_of_file, texts_of, tokens_of_map
from datasets import DatasetFault, records_of, table_of, without_mark
from grammar import COMMANDS, VERSIONS, SyntaxFault, depth, expressions_of, path_text, read_line, tokens_of, version_in
from kernels import bad_kernel, leaves_of as leaves_of_kernel, number_of, stored
from layouts import digit, product
from mappings import bad_alone, bad_mapping, granules_of, inner_of, is_under, lengths_of, most_slots
from records import leaf_count, leaves_of, names_twice, parts_of, record_depth
from stencils import bad_stencil, indices_in, is_window, leaf_behind_a_round
from values import ValueFault, value_of
from views import View

USAGE = b'usage: llama run FILE | llama gen N\n'
MOST_SCRIPT_BYTES, MOST_LINES, MOST_LINE_BYTES = 2 ** 20, 2 ** 16, 4096
MOST_DEPTH, MOST_RECORD_DEPTH, MOST_LEAVES, MOST_VIEWS = 32, 8, 64, 64
MOST_ROWS, MOST_SLOTS, MOST_VIEW_BYTES, MOST_LIVE_BYTES = 2 ** 24, 2 ** 24, 2 ** 28, 2 ** 30
MOST_DATASET_BYTES, MOST_SHOWN_BYTES, MOST_GRANULES = 2 ** 28, 65536, 2 ** 24


class Fault(Exception):
    """A named fault, with its detail."""

    def __init__(self, name, detail=''):
        super().__init__(name + (' ' + detail if detail else ''))


class CannotRead(Exception):
    """A file that cannot be read."""


class World:
    """Records, mappings and views by their names."""

    def __init__(self, folder):
        self.folder = folder
        self.records, self.mappings, self.views = {}, {}, {}


# names, paths and expressions

def known(name, entries):
    if name not in entries:
        raise Fault('Unknown', name)
    return entries[name]


def free(name, entries):
    if name in entries:
        raise Fault('Taken', name)


def nameless(world, mapping):
    """The mapping with what its names stand for in their places; names are looked at from left to right."""
    if mapping[0] == 'name':
        return known(mapping[1], world.mappings)
    inner = [nameless(world, part) for part in inner_of(mapping)]
    return mapping[:len(mapping) - len(inner)] + tuple(inner)


def leaf_of(view, path):
    text = path_text(path)
    for number, leaf in enumerate(view.leaves):
        if leaf.path == text:
            return number
    raise Fault('Unknown', text)


def bound(view, expr):
    """The expression with numbers of leaves for its paths; the first path or index that is not known refuses."""
    if expr is None or expr[0] == 'number':
        return expr
    if expr[0] == 'path':
        return ('leaf', leaf_of(view, expr[1]))
    if expr[0] == 'index':
        if expr[1] >= len(view.extents):
            raise Fault('Unknown', f'i{expr[1]}')
        return expr
    return tuple(bound(view, part) if isinstance(part, tuple) else part for part in expr)


def value_on(view, row, values, expr, seen=None):
    """The value of an expression on a row that stands so. The leaves that are read are told in `seen`."""
    def read(leaf):
        view.touch(row, leaf, 1, 0)
        if seen is not None:
            seen.add(leaf)
        return values[leaf]
    try:
        return value_of(expr, read, view.index(row))
    except ValueFault as fault:
        raise Fault(str(fault), f'record {row}') from None


def storable(view, row, leaf, value):
    fault = view.refusal(leaf, value)
    if fault:
        raise Fault(fault, f'record {row} leaf {view.leaves[leaf].path}')


# records

def record(world, line):
    free(line['name'], world.records)
    refuse_record(line['record'])
    world.records[line['name']] = line['record']


def refuse_record(dim):
    if record_depth(dim) > MOST_RECORD_DEPTH:
        raise Fault('BadRecord', 'TooDeep')
    if any(names_twice(node) for node in parts_of(dim)):
        raise Fault('BadRecord', 'Twice')
    if any(node[0] == 'array' and node[1] == 0 for node in parts_of(dim)):
        raise Fault('BadRecord', 'NoElements')
    if leaf_count(dim) > MOST_LEAVES:
        raise Fault('BadRecord', 'TooManyLeaves')


# mappings and views

def mapping(world, line):
    free(line['name'], world.mappings)
    whole = nameless(world, line['map'])
    if bad_alone(whole):
        raise Fault('BadMapping', bad_alone(whole))
    world.mappings[line['name']] = whole


def names_of_a_view(world, line):
    """The record and the mapping that the names of a new view stand for."""
    free(line['name'], world.views)
    dim = known(line['record'], world.records)
    whole = nameless(world, line['map'])
    refuse_many_views(world)
    return dim, whole


def refuse_many_views(world):
    if len(world.views) >= MOST_VIEWS:
        raise Fault('TooManyViews')


def refuse_words(words):
    if not 1 <= len(words) <= 4:
        raise Fault('BadExtents', 'Rank')
    if words.count('?') > 1:
        raise Fault('BadExtents', 'TwoRows')
    if '?' in words and 0 in words:
        raise Fault('BadExtents', 'RowsBesideZero')


def resolved(words, rows):
    """The extents of the words, where a dataset has so many rows, or of a view without one (None)."""
    others = product(word for word in words if word != '?')
    if '?' in words:
        if rows % others != 0:
            raise Fault('BadExtents', 'NotDivisible')
        words = [rows // others if word == '?' else word for word in words]
    elif rows is not None and others != rows:
        raise Fault('BadExtents', 'NotEqual')
    if product(words) > MOST_ROWS:
        raise Fault('BadExtents', 'TooMany')
    return words


def zeros(dim, extents, whole, wrap):
    """A view of zeros."""
    fault = bad_mapping(whole, leaves_of(dim))
    if fault:
        raise Fault('BadMapping', fault)
    if is_too_big(whole, leaves_of(dim), extents):
        raise Fault('TooBig')
    return View(dim, extents, whole, wrap)


def is_too_big(whole, leaves, extents):
    lengths = lengths_of(whole, leaves, extents)
    return most_slots(whole, extents) > MOST_SLOTS or sum(lengths) > MOST_VIEW_BYTES or granules_of(whole, lengths) > MOST_GRANULES


def refuse_live_bytes(world, view):
    """A new view stands beside the live ones."""
    if sum(sum(each.lengths()) for each in [*world.views.values(), view]) > MOST_LIVE_BYTES:
        raise Fault('TooBig')


def made(world, dim, extents, whole, wrap):
    """A view of zeros beside the live ones."""
    view = zeros(dim, extents, whole, wrap)
    refuse_live_bytes(world, view)
    return view


def new_view(world, line):
    dim, whole = names_of_a_view(world, line)
    refuse_words(line['words'])
    world.views[line['name']] = made(world, dim, resolved(line['words'], None), whole, line['wrap'])


def read_file(world, name):
    """The bytes of a file. Its name is taken from the folder and not joined with it, which may make it too long."""
    try:
        folder = os.open(world.folder, os.O_RDONLY)
        try:
            with open(name, 'rb', opener=lambda path, flags: os.open(path, flags, dir_fd=folder)) as file:
                return file.read()
        finally:
            os.close(folder)
    except OSError:
        raise CannotRead(name) from None


def load(world, line):
    dim, whole = names_of_a_view(world, line)
    refuse_words(line['words'])
    data = read_file(world, line['file'])
    if len(data) > MOST_DATASET_BYTES:
        raise Fault('TooBig')
    records = records_of(data)
    extents = resolved(line['words'], len(records[1:]))
    view = made(world, dim, extents, whole, line['wrap'])
    try:
        table = table_of(records, [leaf.path for leaf in view.leaves], view.refusal)
    except DatasetFault as fault:
        name, row, path = fault.args
        raise Fault(name, path if row is None else f'record {row} leaf {path}') from None
    view.kept = {row: [view.left(leaf, value) for leaf, value in enumerate(values)] for row, values in enumerate(table)}
    view.touch_all(0, 1)
    world.views[line['name']] = view


# the other commands

def assign(world, line):
    view = known(line['name'], world.views)
    leaf = leaf_of(view, line['path'])
    expr = bound(view, line['value'])
    if len(line['index']) != len(view.extents) or any(at >= extent for at, extent in zip(line['index'], view.extents)):
        raise Fault('BadIndex')
    row = view.row_of(line['index'])
    value = value_on(view, row, view.row(row), expr)
    store(view, row, leaf, value)


def store(view, row, leaf, value):
    storable(view, row, leaf, value)
    view.touch(row, leaf, 0, 1)
    view.kept[row] = replaced(view.row(row), leaf, view.left(leaf, value))


def replaced(values, leaf, value):
    return values[:leaf] + [value] + values[leaf + 1:]


def update(world, line):
    view = known(line['name'], world.views)
    where = bound(view, line['where'])
    sets = [(leaf_of(view, path), bound(view, value)) for path, value in line['sets']]
    leaves = [leaf for leaf, _ in sets]
    for place, leaf in enumerate(leaves):
        if leaf in leaves[:place]:
            raise Fault('Twice', view.leaves[leaf].path)
    if line['actors']:
        return update_by_actors(view, where, sets, **line['actors'])
    for row in range(view.count()):
        _, new = tried_row(view, row, where, sets)
        if new is not None:
            keep_row(view, row, sets, new)


def tried_row(view, row, where, sets):
    """The leaves that an update reads on a row, and what it makes of the row, None where the filter leaves it."""
    old, seen = view.row(row), set()
    if where is not None and value_on(view, row, old, where, seen) == 0:
        return seen, None
    new = old
    for leaf, expr in sets:
        value = value_on(view, row, old, expr, seen)
        storable(view, row, leaf, value)
        new = replaced(new, leaf, view.left(leaf, value))
    return seen, new


def keep_row(view, row, sets, new):
    for leaf, _ in sets:
        view.touch(row, leaf, 0, 1)
    view.kept[row] = new


def update_by_actors(view, where, sets, cuts, seed, turns):
    """Prints the memory behind the schedule. What each actor leaves is read off the memory behind all micro-steps."""
    fault = bad_actors(cuts, view.count(), turns)
    if fault:
        raise Fault('BadActors', fault)
    refuse_much_memory(view)
    place = shared_byte(view.blobs(), cuts, view.count())
    if place:
        raise Fault('SharedByte', 'blob {} byte {}'.format(*place))
    tried = [tried_row(view, row, where, sets) for row in range(view.count())]
    passed = {row: new for row, (_, new) in enumerate(tried) if new is not None}
    run = Run(view, sets, cuts, [seen for seen, _ in tried], passed)
    for actor in entries_of(seed, turns, len(cuts) + 1):
        run.turn(actor)
    text = b''.join(map(shown_bytes, run.memory))
    run.finish()
    for row, due in passed.items():
        new = view.row(row)
        for leaf, _ in sets:
            new = replaced(new, leaf, run.entry(row, leaf))
        assert new == due, 'actors leave what the plain update leaves'
        keep_row(view, row, sets, new)
    assert b''.join(run.memory) == view.memory(), 'and so does the memory'
    return text


def stencil(world, line):
    view = known(line['name'], world.views)
    leaf = leaf_of(view, line['path'])
    terms = [(weight, leaf_of(view, path), offsets) for weight, path, offsets in line['terms']]
    refuse_window(view, line['window'])
    fault = bad_stencil(line['window'], view.extents, terms, line['divisor'], line['rounds'])
    if fault:
        raise Fault('BadStencil', fault)
    refuse_live_bytes(world, view)
    rows = rows_in(view, line['window'])
    for _ in range(line['rounds']):
        new = leaf_behind_a_round(view, line['window'], terms, line['divisor'])
        for row, value in zip(rows, new):
            storable(view, row, leaf, value)
        for row, value in zip(rows, new):
            store(view, row, leaf, value)


def bound_kernel(view, kernel):
    """The kernel with numbers of leaves for its paths."""
    return tuple(leaf_of(view, part) if isinstance(part, tuple) else part for part in kernel)


def kernel(world, line):
    view = known(line['name'], world.views)
    whole = bound_kernel(view, line['kernel'])
    fault = bad_kernel(whole, line['lanes'], [leaf.kind for leaf in view.leaves])
    if fault:
        raise Fault('BadKernel', fault)
    for leaf in leaves_of_kernel(whole):
        view.touch_leaf(leaf, 1, 0)
    if whole[0] in ('axpy', 'clamp'):
        return run_kernel(view, whole)
    if whole[0] in ('least', 'greatest') and view.count() == 0:
        raise Fault('Empty')
    return number_line(number_of(whole, view.rows()))


def run_kernel(view, whole):
    for row in range(view.count()):
        leaf, value = stored(whole, view.row(row))
        store(view, row, leaf, value)


def number_line(number):
    return b'%d\n' % number


def reduce(world, line):
    view = known(line['name'], world.views)
    if line['kind'] == 'count':
        expr = bound(view, line['filter'])
        return number_line(sum(value_on(view, row, values, expr) != 0 for row, values in enumerate(view.rows())))
    leaf = leaf_of(view, line['path'])
    view.touch_leaf(leaf, 1, 0)
    values = [values[leaf] for values in view.rows()]
    if line['kind'] == 'sum':
        return number_line(sum(values))
    if not values:
        raise Fault('Empty')
    return number_line(min(values) if line['kind'] == 'min' else max(values))


def copy(world, line):
    source, target = known(line['name'], world.views), known(line['target'], world.views)
    if (source.record, source.extents) != (target.record, target.extents):
        raise Fault('Mismatch')
    source.touch_all(1, 0)
    copy_rows(source, target)


def copy_rows(source, target):
    target.touch_all(0, 1)
    for row in sorted(source.kept):
        for leaf, value in enumerate(source.row(row)):
            storable(target, row, leaf, value)
    target.kept = {row: [target.left(leaf, value) for leaf, value in enumerate(values)] for row, values in source.kept.items()}


def relayout(world, line):
    old = known(line['name'], world.views)
    new = made(world, old.record, old.extents, nameless(world, line['map']), old.wrap)
    copy_rows(old, new)
    world.views[line['name']] = new


def print_view(world, line):
    view = known(line['name'], world.views)
    rows = range(view.count()) if line['window'] is None else rows_in(view, line['window'])
    for row in rows:
        view.touch_row(row, 1, 0)
    return text_of([[leaf.path for leaf in view.leaves], *map(view.row, rows)])


def rows_in(view, window):
    refuse_window(view, window)
    return list(map(view.row_of, indices_in(window)))


def refuse_window(view, window):
    if not is_window(window, view.extents):
        raise Fault('BadWindow')


def text_of(lines):
    return ''.join(','.join(map(str, line)) + '\n' for line in lines).encode()


def counts(world, line):
    view = known(line['name'], world.views)
    if 'count' not in view.counters:
        raise Fault('NotCounted')
    tallies = view.log.of_leaves(len(view.leaves))
    return text_of([('leaf', 'reads', 'writes')] + [(leaf.path, *tally) for leaf, tally in zip(view.leaves, tallies)])


def heat(world, line):
    view = known(line['name'], world.views)
    if 'heat' not in view.counters:
        raise Fault('NotCounted')
    size = view.counters['heat'][1]
    return text_of([('blob', 'granule', 'accesses')] + [
        (number, granule, times) for number, blob in enumerate(view.blobs())
        for granule, times in enumerate(heat_of(blob, size, view.log)) if times != 0])


def refuse_much_memory(view):
    if sum(view.lengths()) > MOST_SHOWN_BYTES:
        raise Fault('TooBig')


def layout(world, line):
    view = known(line['name'], world.views)
    refuse_much_memory(view)
    return text_of([('blob', 'bit', 'bits', 'record', 'leaf', 'low')] + [
        (number, begin, bits, *shown_owner(view, owner)) for number, blob in enumerate(view.blobs()) for begin, bits, owner in runs_of(blob)])


def shown_owner(view, owner):
    if owner is None:
        return '-', '-', '-'
    row, leaf, low = owner
    return row, view.leaves[leaf].path, low


def bytes_of(world, line):
    view = known(line['name'], world.views)
    lengths = view.lengths()
    if line['blob'] >= len(lengths):
        raise Fault('BadIndex')
    refuse_much_memory(view)
    data = view.bytes_of(view.blobs()[line['blob']])
    assert len(data) == lengths[line['blob']]
    return shown_bytes(data)


def shown_bytes(data):
    return ''.join(data[at:at + 16].hex(' ') + '\n' for at in range(0, len(data), 16)).encode()


# advice

def advise(world, line):
    view, granule = known(line['name'], world.views), line['granule']
    listed = [uncounted(nameless(world, whole)) for whole in line['maps']]
    passes = [({leaf for path in paths for leaf in leaves_under(view, path)}, times) for paths, times in line['passes']]
    fault = bad_advice(granule, passes, listed)
    if fault:
        raise Fault('BadAdvice', fault)
    for whole in listed:
        refuse_candidate(view, granule, whole)
    costs = [cost_of(whole, view.leaves, view.extents, passes, granule) if suits(view, whole) else None for whole in listed]
    view.touch_all(1, 0)
    found = [(cost, whole) for cost, whole in zip(costs, listed) if cost is not None]
    for whole in splits_of(view.record, listed) if line['splits'] else []:
        if is_candidate(view, granule, whole) and suits(view, whole):
            found.append((cost_of(whole, view.leaves, view.extents, passes, granule), whole))
    best = min(found, key=lambda pair: pair[0], default=None)
    return text_of([('candidate', 'cost')] + [(place, 'narrow' if cost is None else cost) for place, cost in enumerate(costs, 1)]
                   + [(f'best {best[0]} {" ".join(tokens_of_map(best[1]))}' if best else 'best none',)])


def leaves_under(view, path):
    leaves = [leaf for leaf, cell in enumerate(view.leaves) if is_under(path, cell)]
    if not leaves:
        raise Fault('Unknown', path_text(path))
    return leaves


def refuse_candidate(view, granule, whole):
    fault = bad_mapping(whole, view.leaves)
    if fault:
        raise Fault('BadMapping', fault)
    if is_too_big(('heat', granule, whole), view.leaves, view.extents):
        raise Fault('TooBig')


def is_candidate(view, granule, whole):
    try:
        refuse_candidate(view, granule, whole)
    except Fault:
        return False
    return True


def suits(view, whole):
    """Whether a view that lay so would hold all the numbers of this one as they are."""
    other = View(view.record, view.extents, whole, view.wrap)
    return all(is_settled(other, leaf, value) for values in view.kept.values() for leaf, value in enumerate(values))


def drop(world, line):
    known(line['name'], world.views)
    del world.views[line['name']]


# blob files

def save(world, line):
    view = known(line['name'], world.views)
    texts = texts_of(view.record, view.extents, view.wrap, view.mapping)
    if any(len(text) > MOST_TEXT_BYTES for text in texts):
        raise Fault('TooBig')
    return file_of(texts, view.memory())


def open_file(world, line):
    free(line['name'], world.views)
    refuse_many_views(world)
    data = read_file(world, line['file'])
    if len(data) > MOST_FILE_BYTES:
        raise Fault('TooBig')
    try:
        view = view_in(data)
    except FileFault as fault:
        raise Fault('BadFile', str(fault)) from None
    refuse_live_bytes(world, view)
    view.touch_all(0, 1)
    world.views[line['name']] = view


def view_in(data):
    """The view whose file this is."""
    record_line, view_line, rest = parts_of_file(data)
    try:
        refuse_record(record_line['record'])
        refuse_words(view_line['words'])
        view = zeros(record_line['record'], resolved(view_line['words'], None), view_line['map'], view_line['wrap'])
    except Fault:
        raise FileFault('Layout') from None
    return filled(view, rest)


def filled(view, rest):
    """A view of zeros, with the table that has this memory."""
    if len(rest) != sum(view.lengths()):
        raise FileFault('Length')
    view.kept = table_in(view, rest)
    if any(not is_settled(view, leaf, value) for values in view.kept.values() for leaf, value in enumerate(values)) or view.memory() != rest:
        raise FileFault('Contents')
    return view


def table_in(view, data):
    """The one table that may have this memory: of each leaf the number of its type that is congruent to what its bits say."""
    said = {}
    for at, owner in enumerate(owner for blob in view.blobs() for owner in blob):
        if owner is not None:
            row, leaf, bit = owner
            said.setdefault((row, leaf), {})[bit] = digit(data[at // 8], at % 8)
    table = {}
    for (row, leaf), bits in said.items():
        low = sum(is_set << bit for bit, is_set in bits.items())
        table.setdefault(row, [0] * len(view.leaves))[leaf] = view.number_of(leaf, low)
    return table


def is_settled(view, leaf, value):
    """Whether a view may hold a value: a strict one takes it, and one that keeps low bits leaves it as it is."""
    return view.refusal(leaf, value) is None and view.left(leaf, value) == value


DOES = {
    'record': record, 'mapping': mapping, 'view': new_view, 'load': load, 'set': assign, 'update': update,
    'kernel': kernel, 'reduce': reduce, 'copy': copy, 'relayout': relayout, 'print': print_view, 'counts': counts, 'heat': heat,
    'layout': layout, 'bytes': bytes_of, 'drop': drop, 'save': save, 'open': open_file, 'stencil': stencil,
    'advise': advise,
}
assert set(DOES) == set(COMMANDS)


# lines and the run

def step(world, text, version):
    """What a line of a version prints."""
    if len(text) > MOST_LINE_BYTES:
        raise Fault('LineTooLong')
    try:
        line = read_line(text, version)
    except SyntaxFault as fault:
        raise Fault('Syntax', f'column {fault.column}') from None
    if line is None:
        return b''
    command, parts = line
    if any(depth(expr) > MOST_DEPTH for expr in expressions_of(command, parts)):
        raise Fault('TooDeep')
    return DOES[command](world, parts) or b''


def lines_of(script):
    lines = without_mark(script).split(b'\n')
    if lines[-1] == b'':
        lines.pop()
    return [line[:-1] if line.endswith(b'\r') else line for line in lines]


def version_line(lines):
    """The number of the version line, counted from 1, and the version that it says. A script has one where its first line that is not
    blank is one, and no line before it is too long; else it has none, and is read in version 1."""
    for number, text in enumerate(lines, 1):
        if len(text) > MOST_LINE_BYTES:
            break
        if tokens_of(text):
            version = version_in(text)
            return (None, 1) if version is None else (number, version)
    return None, 1


def run_lines(world, lines):
    printed = b''
    said, version = version_line(lines)
    if version not in VERSIONS:
        return f'line {said}: BadVersion\n'.encode(), 1
    for number, text in enumerate(lines, 1):
        if number == said:
            continue
        try:
            printed += step(world, text, version)
        except Fault as fault:
            return printed + f'line {number}: {fault}\n'.encode(), 1
        except CannotRead as missing:
            return printed + f'line {number}: cannot read {missing}\n'.encode(), 3
    return printed, 0


def run(words, folder):
    """The bytes that are printed, and the status."""
    if len(words) == 2 and words[0] == 'gen' and generator.rows_in(words[1]):
        return generated(generator.rows_in(words[1]))
    if len(words) != 2 or words[0] != 'run':
        return USAGE, 2
    world = World(folder)
    try:
        script = read_file(world, words[1])
    except CannotRead as missing:
        return f'line 0: cannot read {missing}\n'.encode(), 3
    lines = lines_of(script)
    if len(script) > MOST_SCRIPT_BYTES or len(lines) > MOST_LINES:
        return b'line 0: ScriptTooLong\n', 1
    return run_lines(world, lines)


def generated(rows):
    with tempfile.TemporaryDirectory() as folder:
        pathlib.Path(folder, generator.FILE).write_bytes(generator.dataset_of(rows))
        return run_lines(World(folder), lines_of(generator.script_of(rows)))


sys.setrecursionlimit(100000)

if __name__ == '__main__':
    text, status = run(sys.argv[1:], '.')
    sys.stdout.buffer.write(text)
    sys.exit(status)
