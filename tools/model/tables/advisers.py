"""Costs of candidates, a second account: each cell of each row marks the granules of its bits, and a split costs what its sides cost.

Places come from addresses.py. The model goes over the owners of all bits of each candidate; nothing is shared with it.
"""
from .addresses import BYTES, held, laid, touched
from .bit_fields import TYPES
from .files import spelled
from .nested import path_text, sides, text_of
from .turns import Acted

MOST_DEPTH = 8


def uncounted(mapping):
    return uncounted(mapping[-1]) if mapping[0] in ('count', 'heat') else mapping


def is_whole(mapping, cells):
    """Whether each cell has all its bits, and its own sign."""
    _, at = laid(mapping, cells, (1,))
    places = [at((0,), cell) for cell in range(len(cells))]
    return all(len(place.bits) == 8 * BYTES[kind] and place.signed == (kind[0] == 'i') for place, (_, kind) in zip(places, cells))


def is_accepted(mapping, cells, depth=MOST_DEPTH):
    """Whether a mapping with good numbers and no counters is one of these cells."""
    form = mapping[0]
    if depth == 0:
        return False
    if form == 'split':
        first, rest = sides(path_text(mapping[1]), cells)
        return bool(first and rest) and is_accepted(mapping[2], first, depth - 1) and is_accepted(mapping[3], rest, depth - 1)
    if form == 'change':
        return is_accepted(mapping[3], [(path, mapping[2] if kind == mapping[1] else kind) for path, kind in cells], depth - 1)
    if form in ('byteswap', 'bytesplit'):
        below = cells if form == 'byteswap' else [(path, 'u8') for path, kind in cells for _ in range(BYTES[kind])]
        return is_accepted(mapping[1], below, depth - 1) and is_whole(mapping[1], below)
    entries = mapping[1][1] if form in ('bitaos', 'bitsoa') and isinstance(mapping[1], tuple) else ()
    return all(sides(text, cells)[0] for text, _ in entries)


class Advised(Acted):
    """A table whose layout is asked for."""

    def part(self, mapping, cells):
        """The places of these cells of the table in each row, where they alone lie under a mapping."""
        _, at = laid(mapping, [self.cells[cell] for cell in cells], self.extents)
        return [{cell: at(index, number) for number, cell in enumerate(cells)} for index in self.indices]

    def is_held(self, places):
        return all(self.would_keep(cell, place, self.rows[row][cell]) for row, there in enumerate(places) for cell, place in there.items())

    def would_keep(self, cell, place, value):
        if not self.is_strict:
            return self.kept_at(cell, place, value) == value
        least, greatest = held(place)
        return max(least, TYPES[self.cells[cell][1]][0]) <= value <= min(greatest, TYPES[self.cells[cell][1]][1])

    def kept_at(self, cell, place, value):
        low = value % 2 ** len(place.bits)
        low -= 2 ** len(place.bits) if place.signed and low >= 2 ** (len(place.bits) - 1) else 0
        least, greatest = TYPES[self.cells[cell][1]]
        return (low - least) % (greatest - least + 1) + least

    def cost(self, places, passes, granule):
        total = 0
        for paths, times in passes:
            named = {self.paths.index(path) for text in paths for path, _ in sides(text, self.cells)[0]}
            total += times * len({there for of in places for cell in named & of.keys() for there in touched(granule, of[cell])})
        return total

    def judged(self, mapping, cells, passes, granule):
        """What some cells cost under a mapping, None where it does not hold their numbers."""
        places = self.part(mapping, cells)
        return self.cost(places, passes, granule) if self.is_held(places) else None

    def advice(self, granule, passes, maps, splits):
        """What is printed. Each cell of each row is read."""
        listed, everything = [uncounted(mapping) for mapping in maps], list(range(len(self.cells)))
        assert all(is_accepted(mapping, self.cells) for mapping in listed)
        costs = [self.judged(mapping, everything, passes, granule) for mapping in listed]
        found = [(cost, mapping) for cost, mapping in zip(costs, listed) if cost is not None]
        for field in dict.fromkeys(path.replace('[', '.').split('.')[0] for path in self.paths) if splits else []:
            found += self.splits(field, listed, passes, granule)
        self.reads += [(row, cell) for row in range(len(self.rows)) for cell in everything]
        best = None
        for cost, mapping in found:
            if best is None or cost < best[0]:
                best = cost, mapping
        lines = [f'{number},{"narrow" if cost is None else cost}' for number, cost in enumerate(costs, 1)]
        return ' | '.join(['candidate,cost', *lines, f'best {best[0]} {spelled(text_of(best[1]))}' if best else 'best none'])

    def splits(self, field, listed, passes, granule):
        under = sides(field, self.cells)[0]
        both = [[cell for cell, of in enumerate(self.cells) if (of in under) == is_first] for is_first in (True, False)]
        if not all(both):
            return []
        costs = [[self.judged(mapping, cells, passes, granule) if is_accepted(mapping, [self.cells[cell] for cell in cells], MOST_DEPTH - 1) else None for mapping in listed] for cells in both]
        return [(first + rest, ('split', (field,), one, other)) for first, one in zip(costs[0], listed) if first is not None for rest, other in zip(costs[1], listed) if rest is not None]


def advise_text(granule, passes, maps, splits):
    told = ' '.join(f'pass {", ".join(paths)} times {times}' for paths, times in passes)
    return f'granule {granule} {told} among {", ".join(map(text_of, maps))}{" splits" if splits else ""}'
