"""The form of a case in these tables."""
import re
from collections import namedtuple

Case = namedtuple('Case', 'name script due csv files make by_hand words into room memory', defaults=(None, None, None, False, None, None, None, None))
Case.__doc__ = """A case of the language.

name     what it shows
script   its lines, ` | ` between them; or the bytes of the file
due      what is printed, worked out by hand, ` | ` between the lines; `.. | ` stands for lines before those that are told; or the bytes
csv      the bytes of d.csv
files    other files, as a dict from names to bytes
make     a shell script that makes big files in the folder of the case
by_hand  what is printed stands in due alone, since the model would take too long
words    the words of the program, where they are not those that run the script
into     what takes the output in place of a file, as /dev/full: the run ends with 4, and nothing is taken of what is due
room     how many KiB of the output are taken: the run ends with 4, and so much is taken of what is due
memory   how many KiB of memory the program has: the run ends with 5, and nothing is due
"""

PAIR = 'record P { a:u8, b:i32 } | '
VIEW = 'view V : P [3] as aos(packed, row) | '
BOTH = PAIR + VIEW
LOAD = PAIR + 'load V : P [?] as aos(packed, row) from "d.csv" | '


def in_version_2(case):
    """The case behind a version line, so that each line has a number that is greater by one."""
    due = re.sub(r'(^|\| )line (\d+): ', lambda found: f'{found[1]}line {int(found[2]) + 1}: ', case.due)
    return case._replace(script=f'version 2 | {case.script}', due=due)
