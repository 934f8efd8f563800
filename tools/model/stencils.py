"""Windows of a table, and stencils over them: what refuses them, and what a round makes of a leaf.

A window has for each dimension a pair, the first number and the one behind the last. A term is a weight, a leaf, and an offset for each dimension.
"""
import itertools

from values import quotient

MOST_TERMS, MOST_ROUNDS = 64, 1000
OFFSETS, WEIGHTS, DIVISORS = (-2 ** 32, 2 ** 32), (-2 ** 31, 2 ** 31 - 1), (1, 2 ** 31)


def is_window(window, extents):
    return len(window) == len(extents) and all(begin <= end <= extent for (begin, end), extent in zip(window, extents))


def indices_in(window):
    """The indices that a window has, the last number fastest."""
    return itertools.product(*(range(begin, end) for begin, end in window))


def moved(index, offsets):
    return tuple(number + offset for number, offset in zip(index, offsets))


def corners_of(window):
    """The first and the last index of a window, none where it is empty."""
    if any(begin == end for begin, end in window):
        return []
    return [[begin for begin, _ in window], [end - 1 for _, end in window]]


def is_inside(index, extents):
    return all(0 <= number < extent for number, extent in zip(index, extents))


def is_among(number, limits):
    least, greatest = limits
    return least <= number <= greatest


def bad_stencil(window, extents, terms, divisor, rounds):
    """The first refusal of a stencil over a window of these extents, or None."""
    lists = [offsets for _, _, offsets in terms]
    if any(len(offsets) != len(extents) or not all(is_among(offset, OFFSETS) for offset in offsets) for offsets in lists):
        return 'Reach'
    if not all(is_inside(moved(corner, offsets), extents) for offsets in lists for corner in corners_of(window)):
        return 'Reach'
    if not all(is_among(weight, WEIGHTS) for weight, _, _ in terms) or not is_among(divisor, DIVISORS):
        return 'Weight'
    if len(terms) > MOST_TERMS:
        return 'Terms'
    return 'Rounds' if rounds > MOST_ROUNDS else None


def leaf_behind_a_round(view, window, terms, divisor):
    """Of each index of a window the quotient that a round makes of the table as it is. What is read is told to the table."""
    def entry(leaf, index):
        row = view.row_of(index)
        view.touch(row, leaf, 1, 0)
        return view.row(row)[leaf]
    return [quotient(sum(weight * entry(leaf, moved(index, offsets)) for weight, leaf, offsets in terms), divisor) for index in indices_in(window)]
