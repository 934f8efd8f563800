#!/usr/bin/env python3
"""Draws what `layout` and `heat` print: whose each byte of a view's memory is, and how often each granule was accessed.

usage: llama run script.llama | llama_picture.py [--width N] [--image FILE]

What is drawn is read from standard input; lines that belong to neither table are left out. A layout is drawn by bytes, a letter for each
leaf, and a heat by granules, as a ramp. --width says how many stand on a line, 64 where it is not given. --image writes the same as a
picture, by the ending of its name a .png or a .ppm: there each bit of a layout has a column of its own. All heats of one input have one scale.
"""
import argparse
import colorsys
import pathlib
import string
import sys
import zlib
from typing import NamedTuple

LAYOUT, HEAT = 'blob,bit,bits,record,leaf,low', 'blob,granule,accesses'
LETTERS = string.ascii_lowercase + string.ascii_uppercase + string.digits + '@%'
PAD, SEVERAL = '.', '+'
RAMP = '.:-=+*#%@'
SQUARE, GAP = 8, 4  # of pixels: the side of a byte or a granule, and what stands between two blobs
WHITE, GREY = (255, 255, 255), (224, 224, 224)


class Layout(NamedTuple):
    """The leaves in the order in which they are met, and for each blob the leaf that each bit belongs to, None where it is padding."""
    leaves: list
    blobs: dict


class Heat(NamedTuple):
    """For each blob the accesses of each granule, up to the last that was touched."""
    blobs: dict


# what was printed

def tables_of(lines):
    """The rows of each table among the lines, with the header before them."""
    tables = []
    for line in lines:
        cells = line.split(',')
        if line in (LAYOUT, HEAT):
            tables.append((line, []))
        elif tables and len(cells) == len(tables[-1][0].split(',')) and cells[0].isdigit():
            tables[-1][1].append(cells)
        elif tables and tables[-1][1]:
            tables.append(('', []))
    return [(header, rows) for header, rows in tables if rows and header]


def layout_of(rows):
    numbers, blobs = {}, {}
    for blob, _, bits, _, leaf, _ in rows:
        number = None if leaf == '-' else numbers.setdefault(leaf, len(numbers))
        blobs.setdefault(int(blob), []).extend([number] * int(bits))
    return Layout(list(numbers), blobs)


def heat_of(rows):
    blobs = {}
    for blob, granule, accesses in rows:
        seen = blobs.setdefault(int(blob), [])
        seen.extend([0] * (int(granule) - len(seen)) + [int(accesses)])
    return Heat(blobs)


# letters

def letter_of(owners):
    """The letter of a byte, from the leaves of its bits."""
    there = {owner for owner in owners if owner is not None}
    return PAD if not there else SEVERAL if len(there) > 1 else LETTERS[there.pop()]


def step_of(accesses, most):
    """How far up the ramp so many accesses stand: at 0 with none, at its end with the most."""
    return 0 if accesses == 0 else 1 + (accesses - 1) * (len(RAMP) - 1) // max(most, 1)


def lines_of(blobs, width):
    """The lines of a drawing, each with the blob and the place at which it begins."""
    places = [(f'blob {blob}', str(at), text[at:at + width]) for blob, text in blobs.items() for at in range(0, len(text), width)]
    widest = [max(len(place[column]) for place in places) for column in range(2)]
    return [f'{blob:<{widest[0]}}  {at:>{widest[1]}}  {text}' for blob, at, text in places]


def layout_text(layout, width):
    drawn = {blob: ''.join(letter_of(bits[at:at + 8]) for at in range(0, len(bits), 8)) for blob, bits in layout.blobs.items()}
    legend = [f'{LETTERS[at]} {leaf}' for at, leaf in enumerate(layout.leaves)]
    legend += [f'{sign} {what}' for sign, what in ((PAD, 'padding'), (SEVERAL, 'several')) if any(sign in text for text in drawn.values())]
    return [*lines_of(drawn, width), '  '.join(legend)]


def heat_text(heat, width, most):
    drawn = {blob: ''.join(RAMP[step_of(accesses, most)] for accesses in seen) for blob, seen in heat.blobs.items()}
    return [*lines_of(drawn, width), f'{RAMP[0]} none  {RAMP[1:]} up to {most}']


# pictures

def leaf_color(owner, leaves):
    if owner is None:
        return GREY
    return tuple(round(255 * part) for part in colorsys.hsv_to_rgb(owner / max(leaves, 1), 0.55 + 0.3 * (owner % 2), 0.9))


def heat_color(accesses, most):
    """From black over red and yellow to white."""
    heat = 3 * accesses / max(most, 1)
    return tuple(round(255 * min(max(heat - part, 0), 1)) for part in range(3))


def rows_of(colors, width, repeat):
    """Rows of pixels: each color stands `repeat` times in a row, and each row of squares has the height of one."""
    rows = []
    for at in range(0, len(colors), width):
        row = [color for color in colors[at:at + width] for _ in range(repeat)]
        rows += [row + [WHITE] * (width * repeat - len(row))] * SQUARE
    return rows


def longest_of(tables):
    """Of all blobs, how many bytes or granules the longest has."""
    return max(len(blob) if isinstance(table, Heat) else -(-len(blob) // 8) for table in tables for blob in table.blobs.values())


def pixels_of(table, width, most):
    rows = []
    for blob in table.blobs.values():
        if isinstance(table, Heat):
            drawn = rows_of([heat_color(accesses, most) for accesses in blob], width, SQUARE)
        else:
            drawn = rows_of([leaf_color(owner, len(table.leaves)) for owner in blob], width * 8, SQUARE // 8)
        rows += drawn + [[WHITE] * width * SQUARE] * GAP
    return rows


def bytes_of(rows):
    """The bytes of each row of pixels. A row that is repeated is worked out once."""
    last = None
    for row in rows:
        if row is not last:
            last, data = row, bytes(part for color in row for part in color)
        yield data


def ppm_of(rows):
    return b'P6\n%d %d\n255\n' % (len(rows[0]), len(rows)) + b''.join(bytes_of(rows))


def chunk(name, data):
    return len(data).to_bytes(4, 'big') + name + data + zlib.crc32(name + data).to_bytes(4, 'big')


def png_of(rows):
    """The rows as they are, in blocks that are not compressed: so the bytes are the same on each machine."""
    data = b''.join(b'\0' + row for row in bytes_of(rows))
    blocks = [data[at:at + 65535] for at in range(0, len(data), 65535)]
    stored = b''.join(bytes([block is blocks[-1]]) + len(block).to_bytes(2, 'little') + (65535 - len(block)).to_bytes(2, 'little') + block for block in blocks)
    head = len(rows[0]).to_bytes(4, 'big') + len(rows).to_bytes(4, 'big') + bytes([8, 2, 0, 0, 0])
    return (b'\x89PNG\r\n\x1a\n' + chunk(b'IHDR', head) + chunk(b'IDAT', b'\x78\x01' + stored + zlib.adler32(data).to_bytes(4, 'big')) + chunk(b'IEND', b''))


def main():
    words = argparse.ArgumentParser(description=__doc__, formatter_class=argparse.RawDescriptionHelpFormatter)
    words.add_argument('--width', type=int, default=64)
    words.add_argument('--image', type=pathlib.Path)
    asked = words.parse_args()
    tables = [layout_of(rows) if header == LAYOUT else heat_of(rows) for header, rows in tables_of(sys.stdin.read().splitlines())]
    if not tables or asked.width < 1:
        sys.exit('llama_picture: nothing to draw: neither layout nor heat was printed')
    most = max((accesses for table in tables if isinstance(table, Heat) for seen in table.blobs.values() for accesses in seen), default=0)
    print('\n\n'.join('\n'.join(layout_text(table, asked.width) if isinstance(table, Layout) else heat_text(table, asked.width, most)) for table in tables))
    if asked.image:
        width = min(asked.width, longest_of(tables))
        rows = [row for table in tables for row in pixels_of(table, width, most)]
        asked.image.write_bytes((ppm_of if asked.image.suffix == '.ppm' else png_of)(rows))


if __name__ == '__main__':
    main()
