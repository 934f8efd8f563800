"""Updates by actors, a second account: each actor is a generator that rests behind each byte that it loads or stores.

Bytes are found by the addresses of addresses.py, and nothing is shared with the model. What an update says is told by functions: a function is
handed one that reads a leaf by its path, and the index of the row.
"""
import itertools

from .addresses import good_cuts, laid, memory, touched
from .copies import shown
from .wraps import left


def numbers(seed):
    """The numbers of a schedule: of each the upper 15 of 31 bits."""
    state = seed & 0x7fffffff
    while True:
        state = state * 0x41c64e6d + 0x3039 & 0x7fffffff
        yield state >> 16


class Acted:
    """A table under a mapping, and what it counted. Its numbers are what is left of those that it is made of: where it is strict, these themselves."""

    def __init__(self, cells, extents, mapping, rows, is_strict=False):
        self.cells, self.extents, self.paths, self.is_strict = cells, extents, [path for path, _ in cells], is_strict
        self.indices = list(itertools.product(*map(range, extents)))
        self.lengths, at = laid(mapping, cells, extents)
        self.places = [[at(index, cell) for cell in range(len(cells))] for index in self.indices]
        self.rows = [[self.kept(row, cell, value) for cell, value in enumerate(values)] for row, values in enumerate(rows)]
        self.reads, self.writes = [], []

    def left(self, row, cell, value):
        return left(self.cells[cell][1], self.places[row][cell], value)

    def kept(self, row, cell, value):
        number = self.left(row, cell, value)
        assert number == value or not self.is_strict, f'{value} does not fit {self.paths[cell]}'
        return number

    def touch_all(self):
        """One write of each leaf of each row."""
        self.writes += [(row, cell) for row in range(len(self.rows)) for cell in range(len(self.cells))]

    # texts

    def blobs(self):
        return memory(self.lengths, [entry for places, values in zip(self.places, self.rows) for entry in zip(places, values)])

    def dataset(self):
        return ''.join(','.join(map(str, line)) + '\n' for line in [self.paths, *self.rows]).encode()

    def printed(self):
        return self.dataset().decode().replace('\n', ' | ')[:-3]

    def counted(self):
        lines = [f'{path},{sum(cell == of for _, of in self.reads)},{sum(cell == of for _, of in self.writes)}' for cell, path in enumerate(self.paths)]
        return ' | '.join(['leaf,reads,writes'] + lines)

    def heated(self, granule):
        heat = {}
        for row, cell in self.reads + self.writes:
            for there in touched(granule, self.places[row][cell]):
                heat[there] = heat.get(there, 0) + 1
        return ' | '.join(['blob,granule,accesses'] + [f'{blob},{number},{times}' for (blob, number), times in sorted(heat.items())])

    # bytes

    def bytes_of(self, row, cell):
        return sorted({(blob, bit // 8) for blob, bit in self.places[row][cell].bits})

    def shared(self, cuts):
        """The first byte, as a pair of a blob and a number, in which the first and the last row are of two actors; or None."""
        rows = {}
        for row in range(len(self.indices)):
            for cell in range(len(self.cells)):
                for there in self.bytes_of(row, cell):
                    rows.setdefault(there, []).append(row)
        first, *_ = [*sorted(there for there, of in rows.items() if any(min(of) < cut <= max(of) for cut in cuts)), None]
        return first

    def good_cuts(self):
        return good_cuts({(row, cell): place for row, places in enumerate(self.places) for cell, place in enumerate(places)}, len(self.rows))

    # updates

    def values_of(self, row, value, read):
        return value(lambda path: read(self.paths.index(path)), self.indices[row])

    def plain(self, where, sets):
        """Of each row the leaves that an update reads, in the order of its text, and the numbers that it sets, or None where it is left."""
        for row, old in enumerate(self.rows):
            reads = []

            def read(cell):
                reads.append(cell)
                return old[cell]
            goes = where is None or self.values_of(row, where, read) != 0
            yield reads, [self.kept(row, self.paths.index(path), self.values_of(row, value, read)) for path, value in sets] if goes else None

    def steps(self, where, sets):
        """How many bytes all actors load and store."""
        return sum(len(self.bytes_of(row, cell)) for row, (reads, _) in enumerate(self.plain(where, sets)) for cell in set(reads)) + sum(
            2 * len(self.bytes_of(row, self.paths.index(path))) for row, (_, new) in enumerate(self.plain(where, sets)) if new is not None for path, _ in sets)

    def actor(self, rows, done, sets, blobs):
        """One actor over these rows: it rests behind each byte."""
        for row in rows:
            reads, goes = done[row]
            seen = {}
            for blob, byte in itertools.chain.from_iterable(self.bytes_of(row, cell) for cell in sorted(set(reads))):
                seen[blob, byte] = blobs[blob][byte]
                yield
            for path, value in sets if goes is not None else []:
                cell = self.paths.index(path)
                for blob, byte in self.bytes_of(row, cell):
                    whole = blobs[blob][byte]
                    yield
                    number = self.kept(row, cell, self.values_of(row, value, lambda other: self.said(row, other, seen)))
                    for k, (in_blob, bit) in enumerate(self.places[row][cell].bits):
                        if (in_blob, bit // 8) == (blob, byte):
                            whole += ((number >> k & 1) - (whole >> bit % 8 & 1)) * 2 ** (bit % 8)
                    blobs[blob][byte] = whole
                    yield

    def said(self, row, cell, seen):
        """The number of a leaf, by the bytes that were seen."""
        place = self.places[row][cell]
        return self.left(row, cell, sum((seen[blob, bit // 8] >> bit % 8 & 1) << k for k, (blob, bit) in enumerate(place.bits)))

    def update(self, where, sets, cuts, seed, turns):
        """Does an update by actors; gives the lines of the memory behind its schedule."""
        done, blobs = list(self.plain(where, sets)), [bytearray(blob) for blob in self.blobs()]
        ends = [0, *cuts, len(self.rows)]
        actors = [self.actor(range(begin, end), done, sets, blobs) for begin, end in zip(ends, ends[1:])]
        for number in itertools.islice(numbers(seed), turns):
            next(actors[number % len(actors)], None)
        between = [shown(blob.hex(' ')) for blob in blobs]
        for actor in actors:
            for _ in actor:
                pass
        for row, (reads, new) in enumerate(done):
            self.reads += [(row, cell) for cell in reads]
            for (path, _), number in zip(sets, new or []):
                self.rows[row][self.paths.index(path)] = number
                self.writes.append((row, self.paths.index(path)))
        assert [bytes(blob) for blob in blobs] == self.blobs(), 'the actors left another table'
        return ' | '.join(line for line in between if line)


# thrown values: a text, and the function that it tells

def thrown_value(dice, paths, rank, depth):
    kind = dice.of(['path', 'path', 'path', 'index', 'number']) if depth == 0 else dice.of(['path', '+', '-', '*', 'min', 'and', 'or', '<', 'not', 'minus'])
    if kind == 'path':
        path = dice.of(paths)
        return path, lambda read, index: read(path)
    if kind == 'index':
        dimension = dice.below(rank)
        return f'i{dimension}', lambda read, index: index[dimension]
    if kind == 'number':
        number = dice.below(300)
        return str(number), lambda read, index: number
    text, of = thrown_value(dice, paths, rank, dice.below(depth))
    if kind == '*':
        factor = dice.below(1000)
        return f'({text} * {factor})', lambda read, index: of(read, index) * factor
    if kind in ('not', 'minus'):
        return (f'(not {text})', lambda read, index: int(of(read, index) == 0)) if kind == 'not' else (f'(-{text})', lambda read, index: -of(read, index))
    more, of_more = thrown_value(dice, paths, rank, dice.below(depth))
    return f'min({text}, {more})' if kind == 'min' else f'({text} {kind} {more})', {
        '+': lambda read, index: of(read, index) + of_more(read, index), '-': lambda read, index: of(read, index) - of_more(read, index),
        'min': lambda read, index: min(of(read, index), of_more(read, index)), '<': lambda read, index: int(of(read, index) < of_more(read, index)),
        'and': lambda read, index: int(of(read, index) != 0 and of_more(read, index) != 0), 'or': lambda read, index: int(of(read, index) != 0 or of_more(read, index) != 0)}[kind]


def thrown_cuts(dice, acted):
    """Up to three cuts in the midst of a table, at which no byte is shared; those at its ends where there are none."""
    within = [cut for cut in acted.good_cuts() if 0 < cut < len(acted.rows)]
    return sorted(dice.of(within) for _ in range(1 + dice.below(3))) if within else [0, len(acted.rows)][dice.below(2):]
