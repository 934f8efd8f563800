"""The script and the dataset that `gen N` runs."""
import re

MOST_ROWS = 65536
FILE = 'gen.csv'
SCRIPT = """record P { pos { x:i32, y:i32 }, mass:u16, hot:bool, h:u8[2], id:u64 }
load A : P [?] as count(aos(packed, row)) from "gen.csv"
view B : P [<N>] as soa(multi, row)
view C : P [<N>] as aosoa(8, row)
view D : P [<N>] as bitaos(40, row)
view E : P [<N>] as split(pos, byteswap(soa(single, col)), bitsoa(34, row))
view F : P [<N>] as bytesplit(aos(aligned, morton))
update A where hot set pos.x = pos.x * 2, mass = mass + 1
copy A to B
update B set pos.y = pos.y - pos.x
copy B to C
kernel C axpy(3, pos.x, pos.y) lanes 8
copy C to D
copy D to E
copy E to F
reduce F sum pos.x
reduce F sum pos.y
reduce F max id
reduce E count where hot and h[0] > h[1]
counts A
"""


def rows_in(word):
    """The number of rows that a word asks for, or None."""
    if not re.fullmatch('[1-9][0-9]{0,4}', word, re.ASCII):
        return None
    return int(word) if int(word) <= MOST_ROWS else None


def script_of(rows):
    return SCRIPT.replace('<N>', str(rows)).encode()


def dataset_of(rows):
    lines = ['pos.x,pos.y,mass,hot,h[0],h[1],id']
    lines += [f'{row},{-row},{row % 1000},{row % 2},{row % 256},{255 - row % 256},{65537 * row}' for row in range(rows)]
    return ''.join(line + '\n' for line in lines).encode()
