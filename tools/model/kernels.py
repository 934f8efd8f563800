"""Kernels over the rows of a table: what refuses them, what they store in a row, and the number that they give.

A kernel is a tuple as grammar.py reads it, its kind first, with numbers of leaves for its paths.
"""
from layouts import WIDTHS
from values import OPERATORS

MOST_WIDTH = 32
LANES = (1, 2, 4, 8, 16)
FACTORS, CONSTANTS = (-2 ** 31, 2 ** 31 - 1), (-2 ** 31, 2 ** 32 - 1)


def leaves_of(kernel):
    return kernel[2:] if kernel[0] == 'axpy' else kernel[1:2]


def constants_of(kernel):
    """The constants of a kernel, each with the least and the greatest that it may be."""
    if kernel[0] == 'axpy':
        return [(kernel[1], *FACTORS)]
    if kernel[0] == 'clamp':
        return [(kernel[2], *CONSTANTS), (kernel[3], *CONSTANTS)]
    return [(kernel[3], *CONSTANTS)] if kernel[0] == 'count_where' else []


def bad_kernel(kernel, lanes, kinds):
    """The first refusal of a kernel over leaves of these types, or None."""
    if lanes not in LANES:
        return 'Lanes'
    if any(WIDTHS[kinds[leaf]] > MOST_WIDTH for leaf in leaves_of(kernel)):
        return 'Wide'
    if any(not least <= value <= greatest for value, least, greatest in constants_of(kernel)):
        return 'Constant'
    return 'Constant' if kernel[0] == 'clamp' and kernel[2] > kernel[3] else None


def stored(kernel, row):
    """The leaf that a kernel sets in a row, and the value; None where it sets none."""
    if kernel[0] == 'axpy':
        _, factor, x, y = kernel
        return (y, factor * row[x] + row[y])
    if kernel[0] == 'clamp':
        _, x, least, greatest = kernel
        return (x, min(max(row[x], least), greatest))
    return None


def number_of(kernel, rows):
    """The number that a kernel gives over the rows, None where it gives none. There is no least and no greatest of no row."""
    values = [row[kernel[1]] for row in rows]
    if kernel[0] == 'count_where':
        _, _, operator, constant = kernel
        return sum(OPERATORS[operator](value, constant) for value in values)
    return {'sum': sum, 'least': min, 'greatest': max}[kernel[0]](values)
