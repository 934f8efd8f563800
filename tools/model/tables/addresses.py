"""Where the bits of an entry lie, by strides and offsets: a second account of the layouts, which the table of nested ones goes by.

The model puts lists of owners side by side. Here each bit has an address, a blob and a bit of it, that is worked out from the index, and
nothing is shared with the model but the form of a mapping: a tuple, its form first. A bit mapping has a number of bits behind its form, or
a pair: the number, and pairs of a path and a number for what is under that path.
"""
from collections import namedtuple

BYTES = {'bool': 1, 'u8': 1, 'i8': 1, 'u16': 2, 'i16': 2, 'u32': 4, 'i32': 4, 'u64': 8, 'i64': 8}
Place = namedtuple('Place', 'bits signed')
Place.__doc__ = """The addresses of the bits of an entry, the least significant first, and whether its number has a sign."""


def up(number, multiple):
    return (number + multiple - 1) // multiple * multiple


# orders

def slot_of(order, extents, index):
    if order == 'morton':
        digits = [format(number, '032b') for number in index]
        return int(''.join(digit for turn in zip(*digits) for digit in turn), 2)
    slot = 0
    pairs = list(zip(extents, index))
    for extent, number in pairs if order == 'row' else reversed(pairs):
        slot = slot * extent + number
    return slot


def slot_count(order, extents):
    if order == 'morton':
        return (1 << max(max(extents) - 1, 0).bit_length()) ** len(extents)
    count = 1
    for extent in extents:
        count *= extent
    return count


# base forms: each gives a list of lengths of blobs in bits, and the blob, bit and width of a cell in a slot

def structs(widths, offsets, stride, end):
    return lambda slots: ([up(slots * stride, end)], lambda slot, cell: (0, slot * stride + offsets[cell], widths[cell]))


def offsets_in(order, widths, is_aligned):
    """The offset of each cell where the cells stand in this order, and what they take together."""
    offsets, place = {}, 0
    for cell in order:
        offsets[cell] = place = up(place, widths[cell]) if is_aligned else place
        place += widths[cell]
    return offsets, up(place, max(widths)) if is_aligned else place


def aos(form, widths):
    order = sorted(range(len(widths)), key=lambda cell: (-widths[cell], cell)) if form == 'min' else range(len(widths))
    offsets, stride = offsets_in(order, widths, form != 'packed')
    return structs(widths, offsets, stride, 1)


def soa(form, widths):
    def laid(slots):
        if form == 'multi':
            return [slots * width for width in widths], lambda slot, cell: (cell, slot * widths[cell], widths[cell])
        begins, place = [], 0
        for width in widths:
            begins.append(up(place, width) if form == 'aligned' else place)
            place = begins[-1] + slots * width
        return [place], lambda slot, cell: (0, begins[cell] + slot * widths[cell], widths[cell])
    return laid


def aosoa(lanes, widths):
    offsets, stride = offsets_in(range(len(widths)), widths, False)

    def laid(slots):
        return [up(slots, lanes) // lanes * lanes * stride], lambda slot, cell: (
            0, slot // lanes * lanes * stride + offsets[cell] * lanes + slot % lanes * widths[cell], widths[cell])
    return laid


def bitaos(_, widths):
    offsets, stride = offsets_in(range(len(widths)), widths, False)
    return structs(widths, offsets, stride, 64)


def bitsoa(_, widths):
    def laid(slots):
        return [up(slots * width, 64) for width in widths], lambda slot, cell: (cell, slot * widths[cell], widths[cell])
    return laid


BASES = {'aos': aos, 'soa': soa, 'aosoa': aosoa, 'bitaos': bitaos, 'bitsoa': bitsoa}


def stands_under(path, text):
    return path == text or path[:len(text)] == text and path[len(text)] in '.['


def widths_in(mapping, cells):
    """The bits that each cell takes in a base form. Where numbers are said of paths, each takes the place of those said before it."""
    whole = [8 * BYTES[kind] for _, kind in cells]
    if not mapping[0].startswith('bit'):
        return whole
    first, entries = mapping[1] if isinstance(mapping[1], tuple) else (mapping[1], ())
    said = [first for _ in cells]
    for text, number in entries:
        said = [number if stands_under(path, text) else before for (path, _), before in zip(cells, said)]
    return [min(pair) for pair in zip(said, whole)]


# forms over others: a mapping over the types of cells and their paths, as the lengths of its blobs and a function from index and cell

def laid(mapping, cells, extents):
    """The lengths of the blobs in bits, and the place of a cell (a pair of path and type) at an index."""
    form = mapping[0]
    if form in ('count', 'heat'):
        return laid(mapping[-1], cells, extents)
    if form in BASES:
        lengths, at = BASES[form](mapping[1], widths_in(mapping, cells))(slot_count(mapping[2], extents))

        def place(index, cell):
            blob, bit, width = at(slot_of(mapping[2], extents, index), cell)
            return Place([(blob, bit + k) for k in range(width)], cells[cell][1][0] == 'i')
        return lengths, place
    return {'split': split, 'byteswap': byteswap, 'bytesplit': bytesplit, 'change': change}[form](mapping, cells, extents)


def split(mapping, cells, extents):
    _, path, first, rest = mapping
    text = ''.join(f'[{step}]' if isinstance(step, int) else '.' + step for step in path)[1:]
    under = [stands_under(path, text) for path, _ in cells]
    lengths, at = laid(first, [cell for cell, is_first in zip(cells, under) if is_first], extents)
    more, at_rest = laid(rest, [cell for cell, is_first in zip(cells, under) if not is_first], extents)

    def place(index, cell):
        number = [other for other in range(cell) if under[other] == under[cell]]
        if under[cell]:
            return at(index, len(number))
        there = at_rest(index, len(number))
        return Place([(blob + len(lengths), bit) for blob, bit in there.bits], there.signed)
    return lengths + more, place


def byteswap(mapping, cells, extents):
    lengths, at = laid(mapping[1], cells, extents)

    def place(index, cell):
        there = at(index, cell)
        groups = [there.bits[k:k + 8] for k in range(0, len(there.bits), 8)]
        return Place([bit for group in reversed(groups) for bit in group], there.signed)
    return lengths, place


def bytesplit(mapping, cells, extents):
    first, each = [], []
    for path, kind in cells:
        first.append(len(each))
        each += [(path, 'u8')] * BYTES[kind]
    lengths, at = laid(mapping[1], each, extents)

    def place(index, cell):
        path, kind = cells[cell]
        return Place([bit for byte in range(BYTES[kind]) for bit in at(index, first[cell] + byte).bits], kind[0] == 'i')
    return lengths, place


def change(mapping, cells, extents):
    _, of, to, inner = mapping
    return laid(inner, [(path, to if kind == of else kind) for path, kind in cells], extents)


# numbers

def held(place):
    """The least and the greatest number that a place holds."""
    width = len(place.bits)
    return (-1 << width - 1, (1 << width - 1) - 1) if place.signed else (0, (1 << width) - 1)


def memory(lengths, entries):
    """The bytes of each blob that holds these entries, pairs of a place and a number."""
    blobs = [0] * len(lengths)
    for place, number in entries:
        for k, (blob, bit) in enumerate(place.bits):
            blobs[blob] |= (number >> k & 1) << bit
    return [blob.to_bytes(length // 8, 'little') for blob, length in zip(blobs, lengths)]


# cuts, runs and granules

def good_cuts(places, rows):
    """The numbers of rows before and behind which no byte has bits of rows. `places` has those of each row and cell."""
    of_bytes = {}
    for (row, _), place in places.items():
        for there in touched(1, place):
            of_bytes.setdefault(there, set()).add(row)
    return [cut for cut in range(rows + 1) if not any(min(of) < cut <= max(of) for of in of_bytes.values())]


def stretches(place):
    """Where a place runs through consecutive bits: the blob, the first bit, how many, and the lowest bit of the number there."""
    found = []
    for low, (blob, bit) in enumerate(place.bits):
        if found and (blob, bit) == (found[-1][0], found[-1][1] + found[-1][2]):
            found[-1][2] += 1
        else:
            found.append([blob, bit, 1, low])
    return found


def runs(lengths, places):
    """The runs of all blobs, as tuples of blob, bit, bits, and the row, cell and lowest bit, each None in padding. `places` has those of
    each row and cell."""
    owned = sorted((blob, bit, bits, row, cell, low) for (row, cell), place in places.items() for blob, bit, bits, low in stretches(place))
    found = []
    for blob, length in enumerate(lengths):
        at = 0
        for run in [run for run in owned if run[0] == blob] + [(blob, length, 0, None, None, None)]:
            found += [(blob, at, run[1] - at, None, None, None)] * (at < run[1])
            found += [run] * (run[2] > 0)
            at = run[1] + run[2]
    return found


def touched(granule, place):
    """The granules, as pairs of a blob and a number, that an access of a place touches."""
    return {(blob, bit // 8 // granule) for blob, bit in place.bits}
