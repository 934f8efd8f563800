"""Where the numbers of a leaf lie, as lly_place tells it: whether what is told is so, and whether there is anything to tell. Both are asked of the owners of each bit."""
import struct
from collections import namedtuple

from layouts import digit
from mappings import holds_of

TOLD = struct.Struct('<6QI4?')
Places = namedtuple('Places', 'blob bytes base lanes lane block width is_signed is_turned in_bits in_digits')
MOST_BITS, BYTE_WIDTHS = 57, (8, 16, 32, 64)


def hold_of(view, leaf):
    """How a leaf is stored, or None where a read of it is more than a read of what is stored."""
    hold = holds_of(view.mapping, view.leaves)[leaf]
    return hold if not view.counters and hold.signed == (view.leaves[leaf].kind[0] == 'i') else None


def interleaved(line, column):
    """The number whose binary digits are those of two in turn, those of the column lowest."""
    return sum(digit(number, place) << 2 * place + at for at, number in enumerate((column, line)) for place in range(32))


def spot(places, row):
    group, rest = divmod(row, places.lanes)
    return places.base + (interleaved(group, rest) * places.block if places.in_digits else group * places.block + rest * places.lane)


def bit_of(is_turned, first, width, bit):
    """Where a bit of a number stands, whose first is this one."""
    return first + (width - 8 - bit // 8 * 8 + bit % 8 if is_turned else bit)


def is_form(in_bits, is_turned, width):
    return not is_turned and width <= MOST_BITS if in_bits else width in BYTE_WIDTHS


def are_places(view, leaf, places):
    """Whether these are places of a leaf of a view: of each bit in each row."""
    hold, blobs = hold_of(view, leaf), view.blobs()
    if hold is None or places.blob >= len(blobs) or not places.lanes or not is_form(places.in_bits, places.is_turned, places.width):
        return False
    owners = blobs[places.blob]
    if (places.width, places.is_signed, 8 * places.bytes) != (hold.width, hold.signed, len(owners)):
        return False
    firsts = [spot(places, row) * (1 if places.in_bits else 8) for row in range(view.count())]
    return all(first + hold.width <= len(owners) and all(owners[bit_of(places.is_turned, first, hold.width, bit)] == (row, leaf, bit) for bit in range(hold.width))
               for row, first in enumerate(firsts))


def must_be_told(view, leaf):
    """Whether there are places of groups of rows, of a view that has rows."""
    hold = hold_of(view, leaf)
    if hold is None or not view.count():
        return False
    bits = {owner: (blob, at) for blob, owners in enumerate(view.blobs()) for at, owner in enumerate(owners) if owner is not None and owner[1] == leaf}
    firsts, blob = [], bits[0, leaf, 0][0]
    for is_turned in (False, True):
        firsts = [bits[row, leaf, 0][1] - bit_of(is_turned, 0, hold.width, 0) for row in range(view.count())]
        if all(bits[row, leaf, bit] == (blob, bit_of(is_turned, first, hold.width, bit)) for row, first in enumerate(firsts) for bit in range(hold.width)):
            in_bytes = is_form(False, is_turned, hold.width) and not any(first % 8 for first in firsts)
            return (in_bytes or is_form(True, is_turned, hold.width)) and any(are_grouped(firsts, lanes) for lanes in range(1, len(firsts) + 1))
    return False


def are_grouped(firsts, lanes):
    """Whether groups of so many rows lie evenly, and evenly in each of them."""
    lane = firsts[1] - firsts[0] if lanes > 1 else 0
    block = firsts[lanes] - firsts[0] if lanes < len(firsts) else 0
    return lane >= 0 and block >= 0 and all(first == firsts[0] + row // lanes * block + row % lanes * lane for row, first in enumerate(firsts))
