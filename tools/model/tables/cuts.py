"""A script and its dataset, cut after each byte in turn.

The second account of a cut script goes by its tokens alone: a word that is cut is no longer the word that belongs there, so it is
the fault, but for `aos`, whose beginnings are names of layouts. Where no token is cut, what is missing is missing behind the last one.
That of a cut dataset stands here byte by byte.
"""
from .case import Case

LINES = [
    'record P { a : u8 , b : i32 }'.split(' '),
    'load V : P [ ? ] as aos ( packed , row ) from "d.csv"'.split(' '),
    'print V'.split(' '),
]
TEXTS = ['record P { a:u8, b:i32 }', 'load V : P [?] as aos(packed, row) from "d.csv"', 'print V']
SCRIPT = ''.join(text + '\n' for text in TEXTS).encode()
DATASET = b'a,b\n1,-5\n255,7\n0,2147483647\n'
NAMES = {'aos'}
PRINTED = 'a,b | 1,-5 | 255,7 | 0,2147483647'


def places_of(text, tokens):
    """Where each token of a line begins and ends."""
    places, at = [], 0
    for token in tokens:
        begin = text.index(token, at)
        at = begin + len(token)
        places.append((token, begin, at))
    return places


def column_of(text, tokens, size):
    """The column of the fault in a line that is cut after so many bytes, at least one, and not whole."""
    begun = [place for place in places_of(text, tokens) if place[1] < size]
    token, begin, end = begun[-1]
    if size < end and token not in NAMES:
        return begin + 1
    return min(end, size) + 1


def due_of_script(size):
    """What is printed of the script that is cut after so many bytes."""
    for number, (text, tokens) in enumerate(zip(TEXTS, LINES), 1):
        if 0 < size < len(text):
            return f'line {number}: Syntax column {column_of(text, tokens, size)}'
        size -= len(text) + 1
    return PRINTED if size >= -1 else ''


MISSING_A, MISSING_B = 'line 2: MissingColumn a', 'line 2: MissingColumn b'
NO_ROW, ONE, TWO = 'a,b', 'a,b | 1,-5', 'a,b | 1,-5 | 255,7'


def short(row):
    return f'line 2: ShortRow record {row} leaf b'


def no_number(row):
    return f'line 2: Number record {row} leaf b'


# what is printed of the dataset that is cut after no byte, after `a`, after `a,` and so on
DUE_OF_DATASET = [
    MISSING_A, MISSING_B, MISSING_B, NO_ROW, NO_ROW,
    short(0), no_number(0), no_number(0), ONE, ONE,
    short(1), short(1), short(1), no_number(1), TWO, TWO,
    short(2), no_number(2),
] + [f'{TWO} | 0,{"2147483647"[:digits]}' for digits in range(1, 11)] + [PRINTED]

CASES = [Case(f'script_cut_after_{size}', SCRIPT[:size], due_of_script(size), DATASET) for size in range(len(SCRIPT) + 1)]
CASES += [Case(f'dataset_cut_after_{size}', SCRIPT, due, DATASET[:size]) for size, due in enumerate(DUE_OF_DATASET)]
assert len(DUE_OF_DATASET) == len(DATASET) + 1
