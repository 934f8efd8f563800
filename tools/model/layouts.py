"""Where the bits of a table lie in the base forms: each blob is a list of owners, one a bit, made by putting lists side by side.

An owner is (row, cell, bit), or None where the bit is padding. The cells are told by the bits that they take, and the slots by their
rows: None where a slot has no row.
"""
import itertools

WIDTHS = {'bool': 8, 'u8': 8, 'u16': 16, 'u32': 32, 'u64': 64, 'i8': 8, 'i16': 16, 'i32': 32, 'i64': 64}
WHOLE = 64


def product(numbers):
    result = 1
    for number in numbers:
        result *= number
    return result


def rises_to(length, multiple):
    return -(-length // multiple) * multiple


def digit(value, bit):
    return (value >> bit) & 1


# orders

def indices_of(extents):
    """All indices, the last number fastest. A row is a place in this list."""
    return [] if 0 in extents else list(itertools.product(*map(range, extents)))


def side_of(extents):
    """The least power of two that is at least 1 and each of the extents."""
    side = 1
    while side < max(extents):
        side *= 2
    return side


def slots_of(order, extents):
    return side_of(extents) ** len(extents) if order == 'morton' else product(extents)


def morton_slot(index, digits):
    """The binary digits of all numbers of an index, taken in turn, those of the last number lowest."""
    rank = len(index)
    return sum(digit(number, place) << (place * rank + rank - 1 - dimension)
               for place in range(digits) for dimension, number in enumerate(index))


def indices_by_slot(order, extents):
    """The index of each slot, None where it has none."""
    if order == 'row':
        return indices_of(extents)
    if order == 'col':
        return [index[::-1] for index in indices_of(extents[::-1])]
    slots = [None] * slots_of(order, extents)
    for index in indices_of(extents):
        slots[morton_slot(index, side_of(extents).bit_length())] = index
    return slots


def rows_by_slot(order, extents):
    """The row of each slot, None where it has none."""
    row_of = {index: row for row, index in enumerate(indices_of(extents))}
    return [row_of.get(index) for index in indices_by_slot(order, extents)]


# base forms

def pads(count):
    return [None] * count


def padded(blob, multiple):
    return blob + pads(rises_to(len(blob), multiple) - len(blob))


def field(row, cell, widths):
    return pads(widths[cell]) if row is None else [(row, cell, bit) for bit in range(widths[cell])]


def cells_of(form, widths):
    """The cells in the order in which a slot has them."""
    cells = range(len(widths))
    return sorted(cells, key=lambda cell: -widths[cell]) if form == 'min' else cells


def aligned_slot(row, cells, widths):
    """The cells one after the other, each at a multiple of its width, up to a multiple of the greatest width."""
    part = []
    for cell in cells:
        part = padded(part, widths[cell]) + field(row, cell, widths)
    return padded(part, max(widths))


def aos_blobs(form, rows, widths):
    if form == 'packed':
        return [[owner for row in rows for cell in range(len(widths)) for owner in field(row, cell, widths)]]
    return [[owner for row in rows for owner in aligned_slot(row, cells_of(form, widths), widths)]]


def soa_blobs(form, rows, widths):
    columns = [[owner for row in rows for owner in field(row, cell, widths)] for cell in range(len(widths))]
    if form == 'multi':
        return columns
    blob = []
    for width, column in zip(widths, columns):
        blob = (padded(blob, width) if form == 'aligned' else blob) + column
    return [blob]


def aosoa_blobs(lanes, rows, widths):
    blob = []
    for block in range(0, len(rows), lanes):
        for cell in range(len(widths)):
            for lane in range(block, block + lanes):
                blob += field(rows[lane] if lane < len(rows) else None, cell, widths)
    return [blob]


def bitaos_blobs(_, rows, widths):
    return [padded(blob, WHOLE) for blob in aos_blobs('packed', rows, widths)]


def bitsoa_blobs(_, rows, widths):
    return [padded(blob, WHOLE) for blob in soa_blobs('multi', rows, widths)]


BLOBS = {'aos': aos_blobs, 'soa': soa_blobs, 'aosoa': aosoa_blobs, 'bitaos': bitaos_blobs, 'bitsoa': bitsoa_blobs}


# the bits of each blob, without making them

def aos_lengths(form, slots, widths):
    return [slots * (sum(widths) if form == 'packed' else len(aligned_slot(0, cells_of(form, widths), widths)))]


def soa_lengths(form, slots, widths):
    if form == 'multi':
        return [slots * width for width in widths]
    length = 0
    for width in widths:
        length = (rises_to(length, width) if form == 'aligned' else length) + slots * width
    return [length]


def aosoa_lengths(lanes, slots, widths):
    return [rises_to(slots, lanes) * sum(widths)]


def bitaos_lengths(_, slots, widths):
    return [rises_to(slots * sum(widths), WHOLE)]


def bitsoa_lengths(_, slots, widths):
    return [rises_to(slots * width, WHOLE) for width in widths]


LENGTHS = {'aos': aos_lengths, 'soa': soa_lengths, 'aosoa': aosoa_lengths, 'bitaos': bitaos_lengths, 'bitsoa': bitsoa_lengths}


def image(blob, value_at):
    """The bytes of a blob: each bit is that digit of the value that owns it, and 0 in padding."""
    bits = [0 if owner is None else digit(value_at(owner[0], owner[1]), owner[2]) for owner in blob]
    return bytes(sum(bit << place for place, bit in enumerate(bits[at:at + 8])) for at in range(0, len(bits), 8))
