#!/usr/bin/env python3
"""Blob files of llama as structured arrays of numpy.

usage: llama_numpy.py show FILE                  what the file's header tells, and its table as `print` writes it
       llama_numpy.py npy FILE TO                writes the table as a .npy file
       llama_numpy.py blob FROM TO LAYOUT [wrap] writes a .npy file as a blob file, which `open` of a script takes

In Python: `table, header = load(path)` and `save(path, table, layout, wrap)`. The table has the record's fields under their names, and the view's extents as its shape.
It is a copy: changing it leaves the file alone. Layouts of whole bytes are known, and these are all but `bitaos` and `bitsoa`. As `open` does, `load` refuses bytes that are not the file of its table;
whether its depth, its extents or its layout pass a limit of the language is left to `open`.
"""
import math
import pathlib
import re
import sys
from collections import namedtuple

import numpy

MAGIC = b'LLAMAB1\n'
SIZE_BYTES, MOST_HEADER_BYTES, MOST_TEXT_BYTES, MOST_NAME_BYTES, MOST_LEAVES, MOST_LANES = 4, 8194, 4096, 32, 64, 64
TYPES = {'bool': '?', 'u8': 'u1', 'u16': '<u2', 'u32': '<u4', 'u64': '<u8', 'i8': 'i1', 'i16': '<i2', 'i32': '<i4', 'i64': '<i8'}
RESERVED = {'and', 'or', 'not', 'min', 'max', 'i0', 'i1', 'i2', 'i3'}

Header = namedtuple('Header', 'record extents wrap layout')
Header.__doc__ = """The numpy type of a record, the extents of its table, whether this keeps low bits, and the text of its layout."""
Cell = namedtuple('Cell', 'path kind')
Place = namedtuple('Place', 'order blob base lanes block lane')
Place.__doc__ = """Where a byte of a cell stands: in slot s of this order at base + s // lanes * block + s % lanes * lane of the blob."""
Column = namedtuple('Column', 'kind places')
Column.__doc__ = """The type in which a cell is kept, and the places of its bytes, the least significant first."""


class BadFile(ValueError):
    """What is no blob file, or none that numpy can have."""


# texts

class Tokens:
    """The tokens of a text, and how many of them were read."""

    def __init__(self, text):
        self.tokens, self.place = re.findall(r'->|\w+|[^\w\s]', text), 0

    def take(self, *values):
        token = self.tokens[self.place] if self.place < len(self.tokens) else None
        if token is None or values and token not in values:
            raise BadFile(f'{" or ".join(values) or "more"} is missing before {token or "the end"} in: {" ".join(self.tokens)}')
        self.place += 1
        return token

    def number(self):
        return int(self.take()) if self.stands('[0-9]+') else self.take('a number')

    def stands(self, pattern):
        """Whether the next token is such."""
        return self.place < len(self.tokens) and re.fullmatch(pattern, self.tokens[self.place]) is not None

    def listed(self, item):
        items = [item()]
        while self.stands(','):
            self.take()
            items.append(item())
        return items

    def dims(self):
        sizes = []
        while self.stands(r'\['):
            self.take()
            sizes.append(self.number())
            self.take(']')
        return tuple(sizes)

    def record(self):
        self.take('{')
        fields = self.listed(self.field)
        self.take('}')
        return numpy.dtype(fields)

    def field(self):
        name = self.take()
        kind = self.record() if self.stands('{') else (self.take(':'), TYPES[self.take(*TYPES)])[1]
        dims = self.dims()
        return (name, kind, dims) if dims else (name, kind)

    def path(self):
        text = self.take()
        while self.stands(r'\.|\['):
            text += self.take() + self.take() + (self.take(']') if self.tokens[self.place - 2] == '[' else '')
        return text

    def layout(self):
        form = self.take('aos', 'soa', 'aosoa', 'split', 'byteswap', 'bytesplit', 'change', 'count', 'heat', 'bitaos', 'bitsoa')
        if form in ('bitaos', 'bitsoa'):
            raise BadFile(f'{form} keeps numbers in bits: give the view a layout of whole bytes, by relayout, before it is saved')
        self.take('(')
        parts = {'aos': self.formed, 'soa': self.formed, 'aosoa': self.lanes, 'split': self.sides, 'change': self.types, 'heat': self.granule}.get(form, self.inner)()
        self.take(')')
        return (form, *parts)

    def behind_comma(self, item):
        self.take(',')
        return item()

    def order(self):
        return self.take('row', 'col', 'morton')

    def formed(self):
        return self.take('packed', 'aligned', 'min', 'single', 'multi'), self.behind_comma(self.order)

    def lanes(self):
        lanes = self.number()
        if not 1 <= lanes <= MOST_LANES:
            raise BadFile(f'{lanes} lanes are none')
        return lanes, self.behind_comma(self.order)

    def sides(self):
        return self.path(), self.behind_comma(self.layout), self.behind_comma(self.layout)

    def types(self):
        return self.take(*TYPES), (self.take('->'), self.take(*TYPES))[1], self.behind_comma(self.layout)

    def granule(self):
        self.number()
        return (self.behind_comma(self.layout),)

    def inner(self):
        return (self.layout(),)


def layout_in(text):
    tokens = Tokens(text)
    mapping = tokens.layout()
    if tokens.place < len(tokens.tokens):
        raise BadFile(f'{tokens.take()} stands behind a layout')
    return mapping


def texts_in(header):
    """What the two texts of a header tell."""
    record, _, view = header.decode('ascii').partition('\n')
    record, view = Tokens(record), Tokens(view)
    record.take('record'), record.take('R')
    kind = record.record()
    if not 1 <= leaf_count(kind) <= MOST_LEAVES:
        raise BadFile(f'{leaf_count(kind)} leaves are not 1 to {MOST_LEAVES}')
    for token in ('view', 'V', ':', 'R', '['):
        view.take(token)
    extents = view.listed(view.number)
    view.take(']')
    wrap = view.take('wrap', 'as') == 'wrap'
    if wrap:
        view.take('as')
    return Header(kind, tuple(extents), wrap, ' '.join(view.tokens[view.place:]))


def spelled(text):
    return ' '.join(str(int(token)) if token.isdigit() else token for token in Tokens(text).tokens)


def text_of_record(kind):
    return '{ ' + ' , '.join(text_of_field(name, kind[name]) for name in kind.names) + ' }'


def text_of_field(name, kind):
    if not re.fullmatch(r'[A-Za-z_][A-Za-z0-9_]*', name, re.ASCII) or len(name) > MOST_NAME_BYTES or name in RESERVED:
        raise BadFile(f'{name} is no name of a field')
    base, dims = kind.subdtype or (kind, ())
    if base.names:
        return ' '.join([name, text_of_record(base)] + [f'[ {size} ]' for size in dims])
    return ' '.join([name, ':', kind_of(base)] + [f'[ {size} ]' for size in dims])


def kind_of(base):
    """The name of a leaf's type."""
    name = 'bool' if base.kind == 'b' else f'{base.kind}{8 * base.itemsize}'
    if name not in TYPES:
        raise BadFile(f'{base} is no type of a leaf')
    return name


def header_of(header):
    """The bytes of the two texts."""
    extents, mode = ' , '.join(map(str, header.extents)), 'wrap as' if header.wrap else 'as'
    texts = [f'record R {text_of_record(header.record)}', f'view V : R [ {extents} ] {mode} {spelled(header.layout)}']
    if any(len(text) > MOST_TEXT_BYTES for text in texts):
        raise BadFile(f'a text of the header has more than {MOST_TEXT_BYTES} bytes')
    return ''.join(text + '\n' for text in texts).encode()


# leaves

def leaf_count(kind):
    fields = [kind[name].subdtype or (kind[name], ()) for name in kind.names]
    return sum(math.prod(dims) * (leaf_count(base) if base.names else 1) for base, dims in fields)


def leaves_of(kind, path='', steps=()):
    """The path and type of each leaf, and the steps that lead to it from a structured array."""
    for name in kind.names:
        base, dims = kind[name].subdtype or (kind[name], ())
        for element in numpy.ndindex(*dims):
            here = path + name + ''.join(f'[{at}]' for at in element)
            there = (*steps, name, *[(..., *element)] * bool(element))
            if base.names:
                yield from leaves_of(base, here + '.', there)
            else:
                yield Cell(here, kind_of(base)), there


def leaf_in(table, steps):
    for step in steps:
        table = table[step]
    return table


# layouts: the lengths of their blobs, and a column for each cell

def size_of(cell):
    return numpy.dtype(TYPES[cell.kind]).itemsize


def rises_to(length, multiple):
    return -(-length // multiple) * multiple


def side_of(extents):
    return 1 << max(max(extents) - 1, 0).bit_length()


def slot_count(order, extents):
    return side_of(extents) ** len(extents) if order == 'morton' else math.prod(extents)


def slots_of(order, extents):
    """The slot of each row."""
    count = slot_count('row', extents)
    if order == 'row':
        return numpy.arange(count)
    if order == 'col':
        return numpy.arange(count).reshape(extents, order='F').ravel()
    index, rank = numpy.indices(extents).reshape(len(extents), -1), len(extents)
    slots = numpy.zeros(count, 'i8')
    for dimension in range(rank):
        for bit in range(side_of(extents).bit_length() - 1):
            slots |= (index[dimension] >> bit & 1) << bit * rank + rank - 1 - dimension
    return slots


def column(cell, order, blob, base, stride, lanes=1, lane=0):
    return Column(cell.kind, [Place(order, blob, base + byte, lanes, stride, lane) for byte in range(size_of(cell))])


def aos(form, order, cells, slots):
    sorted_cells = sorted(range(len(cells)), key=lambda number: -size_of(cells[number])) if form == 'min' else range(len(cells))
    offsets, end = {}, 0
    for number in sorted_cells:
        offsets[number] = end if form == 'packed' else rises_to(end, size_of(cells[number]))
        end = offsets[number] + size_of(cells[number])
    stride = end if form == 'packed' else rises_to(end, max(map(size_of, cells)))
    return [slots * stride], [column(cell, order, 0, offsets[number], stride) for number, cell in enumerate(cells)]


def soa(form, order, cells, slots):
    if form == 'multi':
        return [slots * size_of(cell) for cell in cells], [column(cell, order, number, 0, size_of(cell)) for number, cell in enumerate(cells)]
    columns, end = [], 0
    for cell in cells:
        begin = rises_to(end, size_of(cell)) if form == 'aligned' else end
        columns.append(column(cell, order, 0, begin, size_of(cell)))
        end = begin + slots * size_of(cell)
    return [end], columns


def aosoa(lanes, order, cells, slots):
    columns, end = [], 0
    block = lanes * sum(map(size_of, cells))
    for cell in cells:
        columns.append(column(cell, order, 0, end, block, lanes, size_of(cell)))
        end += lanes * size_of(cell)
    return [rises_to(slots, lanes) // lanes * block], columns


BASES = {'aos': aos, 'soa': soa, 'aosoa': aosoa}


def is_under(path, cell):
    return cell.path == path or cell.path.startswith((path + '.', path + '['))


def plan_of(mapping, cells, extents):
    """The bytes of each blob, and the column of each cell."""
    form, *parts = mapping
    if form in BASES:
        return BASES[form](parts[0], parts[1], cells, slot_count(parts[1], extents))
    if form == 'split':
        return split(parts, cells, extents)
    if form == 'bytesplit':
        return bytesplit(parts[0], cells, extents)
    if form == 'change':
        cells = [Cell(cell.path, parts[1] if cell.kind == parts[0] else cell.kind) for cell in cells]
    lengths, columns = plan_of(parts[-1], cells, extents)
    return lengths, [Column(of.kind, of.places[::-1]) for of in columns] if form == 'byteswap' else columns


def split(parts, cells, extents):
    path, *sides = parts
    numbers = [[number for number, cell in enumerate(cells) if is_under(path, cell) == first] for first in (True, False)]
    if [] in numbers:
        raise BadFile(f'no leaf, or each, is under {path}')
    lengths, columns = [], {}
    for side, of_side in zip(sides, numbers):
        more, found = plan_of(side, [cells[number] for number in of_side], extents)
        for number, of in zip(of_side, found):
            columns[number] = Column(of.kind, [place._replace(blob=place.blob + len(lengths)) for place in of.places])
        lengths += more
    return lengths, [columns[number] for number in range(len(cells))]


def bytesplit(inner, cells, extents):
    lengths, columns = plan_of(inner, [Cell(cell.path, 'u8') for cell in cells for _ in range(size_of(cell))], extents)
    places = iter([place for of in columns for place in of.places])
    return lengths, [Column(cell.kind, [next(places) for _ in range(size_of(cell))]) for cell in cells]


# memory

def bytes_at(place, blobs, extents):
    """What stands at a place in each slot; changing it changes the blob."""
    shape = (-(-slot_count(place.order, extents) // place.lanes), place.lanes)
    return numpy.ndarray(shape, 'u1', blobs[place.blob], place.base, (place.block, place.lane))


def numbers_at(of, blobs, extents):
    """What a column has in each row."""
    each = numpy.empty((slot_count('row', extents), len(of.places)), 'u1')
    for byte, place in enumerate(of.places if len(each) else []):
        each[:, byte] = bytes_at(place, blobs, extents).ravel()[slots_of(place.order, extents)]
    return each.view('u1' if of.kind == 'bool' else TYPES[of.kind])[:, 0]


def put(of, blobs, extents, numbers):
    each = numpy.ascontiguousarray(numbers.astype(TYPES[of.kind])).reshape(-1, 1).view('u1')
    for byte, place in enumerate(of.places if len(each) else []):
        there = bytes_at(place, blobs, extents)
        slots = numpy.zeros(there.size, 'u1')
        slots[slots_of(place.order, extents)] = each[:, byte]
        there[...] = slots.reshape(there.shape)


def is_held(numbers, kind):
    """Whether a type has all these numbers."""
    if kind == 'bool' or numbers.dtype.kind == 'b' or not numbers.size:
        return True
    limits = numpy.iinfo(TYPES[kind])
    return limits.min <= int(numbers.min()) and int(numbers.max()) <= limits.max


def memory_of(header, table):
    """The bytes of all blobs."""
    cells = list(leaves_of(header.record))
    lengths, columns = plan_of(layout_in(header.layout), [cell for cell, _ in cells], header.extents)
    blobs = [numpy.zeros(length, 'u1') for length in lengths]
    for (cell, steps), of in zip(cells, columns):
        numbers = leaf_in(table, steps).ravel()
        if not header.wrap and not is_held(numbers, of.kind):
            raise BadFile(f'{of.kind} has not all numbers of {cell.path}')
        put(of, blobs, header.extents, numbers)
    return b''.join(blob.tobytes() for blob in blobs)


def load(path):
    """The table of a blob file, and what its header tells."""
    data = pathlib.Path(path).read_bytes()
    begin = len(MAGIC) + SIZE_BYTES
    size = int.from_bytes(data[len(MAGIC):begin], 'little')
    if data[:len(MAGIC)] != MAGIC or len(data) < begin + size or size > MOST_HEADER_BYTES:
        raise BadFile(f'{path} is no blob file')
    header, rest = texts_in(data[begin:begin + size]), data[begin + size:]
    table = table_in(header, rest)
    if header_of(header) != data[begin:begin + size] or memory_of(header, table) != rest:
        raise BadFile(f'{path} is none that llama saves')
    return table, header


def table_in(header, data):
    cells = list(leaves_of(header.record))
    lengths, columns = plan_of(layout_in(header.layout), [cell for cell, _ in cells], header.extents)
    if len(data) != sum(lengths):
        raise BadFile(f'{len(data)} bytes of blobs stand in place of {sum(lengths)}')
    ends = numpy.cumsum([0, *lengths])
    blobs = [numpy.frombuffer(data, 'u1', length, begin) for length, begin in zip(lengths, ends)]
    table = numpy.zeros(header.extents, header.record)
    for (cell, steps), of in zip(cells, columns):
        numbers = numbers_at(of, blobs, header.extents)
        leaf_in(table, steps)[...] = (numbers % 2 if cell.kind == 'bool' else numbers).astype(TYPES[cell.kind]).reshape(header.extents)
    return table


def save(path, table, layout='aos(packed, row)', wrap=False):
    """Writes a structured array as a blob file."""
    header = Header(table.dtype, table.shape, wrap, layout)
    texts = header_of(header)
    pathlib.Path(path).write_bytes(MAGIC + len(texts).to_bytes(SIZE_BYTES, 'little') + texts + memory_of(header, table))


# the words of a call

def shown(table):
    """The table as `print` of a script writes it."""
    cells = list(leaves_of(table.dtype))
    columns = [leaf_in(table, steps).ravel().astype('O') * 1 for _, steps in cells]
    lines = [[cell.path for cell, _ in cells], *zip(*columns)]
    return ''.join(','.join(map(str, line)) + '\n' for line in lines)


def main(words):
    if len(words) == 2 and words[0] == 'show':
        table, header = load(words[1])
        mode = 'wrap' if header.wrap else 'strict'
        print(f'{header.record}\n{list(header.extents)} {mode}, {header.layout}\n{shown(table)}', end='')
    elif len(words) == 3 and words[0] == 'npy':
        numpy.save(words[2], load(words[1])[0])
    elif len(words) in (4, 5) and words[0] == 'blob' and words[4:] in ([], ['wrap']):
        save(words[2], numpy.load(words[1]), words[3], wrap=words[4:] == ['wrap'])
    else:
        sys.exit(__doc__)


if __name__ == '__main__':
    try:
        main(sys.argv[1:])
    except (ValueError, OverflowError, RecursionError, OSError) as fault:
        sys.exit(f'llama_numpy: {fault}')
