"""Mapping expressions: what refuses them, how they hold their cells, and where the bits lie.

A mapping is a tuple as grammar.py reads it, its form first. It is built over a list of cells, and hands cells to the mappings below it.
"""
from collections import namedtuple

from grammar import path_text
from layouts import BLOBS, LENGTHS, WIDTHS, rows_by_slot, slots_of

Cell = namedtuple('Cell', 'path kind')
Cell.__doc__ = """The path of a leaf, and the type in which it is kept."""
Hold = namedtuple('Hold', 'signed width')
MOST_DEPTH, MOST_LANES, MOST_WIDTH, MOST_GRANULE = 8, 64, 64, 4096
COUNTERS = ('count', 'heat')
BIT_FORMS = ('bitaos', 'bitsoa')


# what a mapping is made of

def inner_of(mapping):
    """The mappings right below a mapping."""
    if mapping[0] in BLOBS or mapping[0] == 'name':
        return []
    return list(mapping[2:]) if mapping[0] == 'split' else [mapping[-1]]


def is_under(path, cell):
    text = path_text(path)
    return cell.path == text or cell.path.startswith((text + '.', text + '['))


def sides_of(path, cells):
    """The numbers of the cells under a path, and of the others."""
    first = [number for number, cell in enumerate(cells) if is_under(path, cell)]
    return first, [number for number in range(len(cells)) if number not in first]


def bytes_of(cells):
    """A cell for each byte of each cell."""
    return [Cell(cell.path, 'u8') for cell in cells for _ in range(WIDTHS[cell.kind] // 8)]


def cells_below(mapping, cells):
    """The cells that each of the mappings right below is handed."""
    if mapping[0] == 'split':
        return [[cells[number] for number in side] for side in sides_of(mapping[1], cells)]
    if mapping[0] == 'bytesplit':
        return [bytes_of(cells)]
    if mapping[0] == 'change':
        return [[Cell(cell.path, mapping[2] if cell.kind == mapping[1] else cell.kind) for cell in cells]]
    return [cells]


def parts_of(mapping, cells):
    return list(zip(inner_of(mapping), cells_below(mapping, cells)))


def nodes_of(mapping):
    """A mapping and all below it, in the order of the text."""
    return [mapping] + [node for inner in inner_of(mapping) for node in nodes_of(inner)]


def handed_to(mapping, cells):
    """A mapping and all below it, each with the cells that it is handed."""
    return [(mapping, cells)] + [node for part in parts_of(mapping, cells) for node in handed_to(*part)]


# how cells are held

def full(cell):
    return Hold(cell.kind[0] == 'i', WIDTHS[cell.kind])


def said_of(widths, cell):
    """The number that a bit mapping says of a cell: that of the last entry which the cell is under, and the first number where it is under none."""
    return next((width for path, width in reversed(widths.entries) if is_under(path, cell)), widths.most)


def holds_of(mapping, cells):
    form = mapping[0]
    if form in BIT_FORMS:
        return [Hold(full(cell).signed, min(said_of(mapping[1], cell), full(cell).width)) for cell in cells]
    if form in ('aos', 'soa', 'aosoa', 'byteswap', 'bytesplit'):
        return [full(cell) for cell in cells]
    below = [hold for part in parts_of(mapping, cells) for hold in holds_of(*part)]
    if form != 'split':
        return below
    first, rest = sides_of(mapping[1], cells)
    held = dict(zip(first + rest, below))
    return [held[number] for number in range(len(cells))]


def range_of(hold):
    return (-2 ** (hold.width - 1), 2 ** (hold.width - 1) - 1) if hold.signed else (0, 2 ** hold.width - 1)


# what refuses a mapping, in the order in which it is tried

def depth(mapping):
    return (mapping[0] not in COUNTERS) + max((depth(inner) for inner in inner_of(mapping)), default=0)


def counters_of(mapping):
    """The counters on top of a mapping, by their forms."""
    counters = {}
    while mapping[0] in COUNTERS:
        counters[mapping[0]] = mapping
        mapping = mapping[-1]
    return counters


def counts_wrongly(mapping):
    """A counter stands twice, or below a node that is none."""
    return sum(node[0] in COUNTERS for node in nodes_of(mapping)) != len(counters_of(mapping))


def bad_number(mapping):
    """Lanes, Width or Granule where the number of a node by itself is none."""
    if mapping[0] == 'aosoa' and not 1 <= mapping[1] <= MOST_LANES:
        return 'Lanes'
    if mapping[0] in BIT_FORMS and not all(1 <= width <= MOST_WIDTH for width in [mapping[1].most, *(width for _, width in mapping[1].entries)]):
        return 'Width'
    if mapping[0] == 'heat' and mapping[1] not in [2 ** power for power in range(MOST_GRANULE.bit_length())]:
        return 'Granule'
    return None


def bad_alone(mapping):
    """The first refusal of a mapping by itself, or None."""
    if depth(mapping) > MOST_DEPTH:
        return 'TooDeep'
    if counts_wrongly(mapping):
        return 'Counter'
    return next((fault for fault in map(bad_number, nodes_of(mapping)) if fault), None)


def has_bad_side(mapping, cells):
    return mapping[0] == 'split' and [] in sides_of(mapping[1], cells)


def has_idle_entry(mapping, cells):
    """An entry of a bit mapping says a number of none of its cells, whatever the others say."""
    return mapping[0] in BIT_FORMS and not all(any(is_under(path, cell) for cell in cells) for path, _ in mapping[1].entries)


def is_not_full(mapping, cells):
    if mapping[0] not in ('byteswap', 'bytesplit'):
        return False
    (inner, below), = parts_of(mapping, cells)
    return holds_of(inner, below) != [full(cell) for cell in below]


def bad_mapping(mapping, cells):
    """The first refusal of a mapping over these cells, or None."""
    if bad_alone(mapping):
        return bad_alone(mapping)
    over_cells = (('Side', has_bad_side), ('Field', has_idle_entry), ('NotFull', is_not_full))
    return next((fault for fault, is_so in over_cells if any(is_so(*node) for node in handed_to(mapping, cells))), None)


# where the bits lie

def renamed(blobs, owner_of):
    return [[None if owner is None else owner_of(*owner) for owner in blob] for blob in blobs]


def split_blobs(mapping, cells, extents):
    return [blob for (inner, below), numbers in zip(parts_of(mapping, cells), sides_of(mapping[1], cells))
            for blob in renamed(blobs_of(inner, below, extents), lambda row, cell, bit: (row, numbers[cell], bit))]


def byteswap_blobs(mapping, cells, extents):
    def swapped(row, cell, bit):
        return (row, cell, WIDTHS[cells[cell].kind] - 8 - 8 * (bit // 8) + bit % 8)
    return renamed(blobs_of(mapping[1], cells, extents), swapped)


def bytesplit_blobs(mapping, cells, extents):
    places = [(cell, byte) for cell, of in enumerate(cells) for byte in range(WIDTHS[of.kind] // 8)]

    def joined(row, place, bit):
        cell, byte = places[place]
        return (row, cell, 8 * byte + bit)
    return renamed(blobs_of(mapping[1], bytes_of(cells), extents), joined)


def bits_taken(mapping, cells):
    return [hold.width for hold in holds_of(mapping, cells)]


RULES = {'split': split_blobs, 'byteswap': byteswap_blobs, 'bytesplit': bytesplit_blobs}


def blobs_of(mapping, cells, extents):
    """The blobs of a mapping over these cells, their owners by rows and by numbers of cells."""
    form = mapping[0]
    if form in BLOBS:
        return BLOBS[form](mapping[1], rows_by_slot(mapping[2], extents), bits_taken(mapping, cells))
    if form in RULES:
        return RULES[form](mapping, cells, extents)
    (inner, below), = parts_of(mapping, cells)
    return blobs_of(inner, below, extents)


def lengths_of(mapping, cells, extents):
    """The bytes of each blob, without making them."""
    form = mapping[0]
    if form in BLOBS:
        bits = LENGTHS[form](mapping[1], slots_of(mapping[2], extents), bits_taken(mapping, cells))
        return [length // 8 for length in bits]
    return [length for inner, below in parts_of(mapping, cells) for length in lengths_of(inner, below, extents)]


def most_slots(mapping, extents):
    return max(slots_of(node[2], extents) for node in nodes_of(mapping) if node[0] in BLOBS)


def granules_of(mapping, lengths):
    """How many granules a mapping counts in blobs of so many bytes."""
    heat = counters_of(mapping).get('heat')
    return sum(-(-length // heat[1]) for length in lengths) if heat else 0
