"""Windows and stencils, a second account: each row is handed on to the rows that it counts for, and windows are asked of each index.

Bytes are found by the addresses of addresses.py. The model gathers for each index of a window what its terms read; nothing is shared with it.
"""
import math
from fractions import Fraction

from .addresses import held
from .bit_fields import TYPES
from .nested import written
from .turns import Acted


class Plate(Acted):
    """A table under a mapping, and what it counted."""

    def rows_in(self, window):
        return [row for row, index in enumerate(self.indices) if len(window) == len(index) and all(number in range(*span) for number, span in zip(index, window))]

    def print_window(self, window):
        """What is printed of a window: each of its entries is read."""
        rows = self.rows_in(window)
        self.reads += [(row, cell) for row in rows for cell in range(len(self.cells))]
        return ' | '.join(','.join(map(str, line)) for line in [self.paths, *(self.rows[row] for row in rows)])

    def refusal(self, row, cell, value):
        least, greatest = TYPES[self.cells[cell][1]]
        if not least <= value <= greatest:
            return 'Range'
        least, greatest = held(self.places[row][cell])
        return None if least <= value <= greatest else 'Narrow'

    def keep_what_fits(self):
        """Makes the table strict, with 0 in place of what would not fit."""
        self.rows = [[0 if self.refusal(row, cell, value) else value for cell, value in enumerate(values)] for row, values in enumerate(self.rows)]
        self.is_strict = True

    def sums(self, window, terms):
        """Of each row of a window the sum of its terms: each index hands its number on, against the offsets."""
        within = {self.indices[row]: [] for row in self.rows_in(window)}
        for row, index in enumerate(self.indices):
            for weight, path, offsets in terms:
                there = within.get(tuple(number - offset for number, offset in zip(index, offsets)))
                if there is not None:
                    there.append(weight * self.rows[row][self.paths.index(path)])
                    self.reads.append((row, self.paths.index(path)))
        assert all(len(parts) == len(terms) for parts in within.values()), 'a term leaves the table'
        return {self.indices.index(index): sum(parts) for index, parts in within.items()}

    def stencil(self, window, path, terms, divisor, rounds):
        """Does a stencil; gives its fault, or None."""
        cell = self.paths.index(path)
        for _ in range(rounds):
            values = {row: math.trunc(Fraction(total, divisor)) for row, total in self.sums(window, terms).items()}
            for row, value in sorted(values.items()):
                if self.is_strict and self.refusal(row, cell, value):
                    return f'{self.refusal(row, cell, value)} record {row} leaf {path}'
            for row, value in values.items():
                self.rows[row][cell] = self.kept(row, cell, value)
                self.writes.append((row, cell))
        return None


def window_text(window):
    return 'window [' + ', '.join(f'{begin} : {end}' for begin, end in window) + ']'


def stencil_text(window, path, terms, divisor, rounds):
    sums = ', '.join(f'{weight} * {of} at {written(offsets)}' for weight, of, offsets in terms)
    return f'{window_text(window)} set {path} = ({sums}) / {divisor} rounds {rounds}'


# thrown ones

EXTENTS = [(5,), (7,), (1,), (3, 4), (4, 4), (2, 3), (2, 3, 3), (3, 1, 4), (2, 2, 2, 2), (2, 1, 3, 2)]


def thrown_window(dice, extents):
    """A window, one in nine of which has an empty dimension."""
    begins = [dice.below(extent) for extent in extents]
    window = [(begin, begin + 1 + dice.below(extent - begin)) for begin, extent in zip(begins, extents)]
    return window if dice.below(9) else [(begin, begin) for begin, _ in window[:1]] + window[1:]


def thrown_term(dice, paths, window, extents, weights):
    """A term that leaves the table nowhere."""
    return dice.of(weights), dice.of(paths), tuple(dice.below(extent - end + begin + 1) - begin for (begin, end), extent in zip(window, extents))
