"""What calls of the library answer and report: the numbers of include/llama_layout.h, and the words of the program that say the same."""
DONE, NO_VIEW, NO_PLACE, NO_ROOM, BAD_TYPE, RANGE, NARROW, MISMATCH, SYNTAX, TOO_DEEP, OTHER_LINE, LONG, UNKNOWN, TOO_BIG, NULL, SAME = 0, 1, 2, 4, 5, 6, 7, 8, 9, 10, 11, 12, 13, 17, 25, 26
BAD_FILE, OVERFLOW, DIVIDE_BY_ZERO, NOT_COUNTED, BAD_WINDOW, IRREGULAR = 24, 28, 29, 30, 31, 32
NAMED = {'Range': RANGE, 'Narrow': NARROW, 'Mismatch': MISMATCH, 'Syntax': SYNTAX, 'TooDeep': TOO_DEEP, 'LineTooLong': LONG, 'Unknown': UNKNOWN, 'BadRecord': 14, 'BadExtents': 15, 'BadMapping': 16,
         'TooBig': TOO_BIG, 'BadKernel': 18, 'Empty': 19, 'MissingColumn': 20, 'ColumnTwice': 21, 'ShortRow': 22, 'Number': 23, 'BadFile': BAD_FILE, 'BadIndex': NO_PLACE,
         'Twice': 27, 'Overflow': OVERFLOW, 'DivideByZero': DIVIDE_BY_ZERO, 'NotCounted': NOT_COUNTED, 'BadWindow': BAD_WINDOW, 'BadStencil': 33, 'BadActors': 34, 'BadAdvice': 35, 'SharedByte': 36}
CAUSES = {'BadRecord': ['TooDeep', 'Empty', 'Twice', 'NoElements', 'TooManyLeaves'], 'BadExtents': ['Rank', 'TwoRows', 'RowsBesideZero', 'NotDivisible', 'NotEqual', 'TooMany'],
          'BadMapping': ['TooDeep', 'Counter', 'Lanes', 'Width', 'Granule', 'Side', 'Field', 'NotFull'], 'BadKernel': ['Lanes', 'Wide', 'Constant'],
          'BadFile': ['Magic', 'Header', 'Layout', 'Length', 'Contents'], 'BadActors': ['Cuts', 'Turns'], 'BadStencil': ['Reach', 'Weight', 'Terms', 'Rounds'],
          'BadAdvice': ['Granule', 'Passes', 'Candidates']}
OF_TEXTS = ('Syntax', 'TooDeep', 'LineTooLong', 'OtherLine')
# the answers that no script has a word for, or that have no name with them in a message
OTHER_NAMES = {'Done': DONE, 'NoView': NO_VIEW, 'NoPlace': NO_PLACE, 'NoMemory': 3, 'NoRoom': NO_ROOM, 'BadType': BAD_TYPE, 'OtherLine': OTHER_LINE, 'Null': NULL, 'Same': SAME, 'Irregular': IRREGULAR}
OF_ROWS, OF_LEAVES, OF_BOTH = ('Overflow', 'DivideByZero'), ('MissingColumn', 'ColumnTwice', 'Twice'), ('Range', 'Narrow', 'ShortRow', 'Number')


def words_of(answer, cause, row, leaf, column):
    """What lly_message says of an answer and its fault, or None where no call answers so."""
    names = {number: name for name, number in (NAMED | OTHER_NAMES).items() if name != 'BadIndex'}
    name = names.get(answer)
    if name in ('Done', 'Null', 'Same'):
        return name
    causes = [1, 2] if name in OF_TEXTS else range(1, len(CAUSES[name]) + 1) if name in CAUSES else [0]
    if name is None or cause not in causes:
        return None
    detail = f' column {column}' if name == 'Syntax' else f' record {row}' if name in OF_ROWS else f' {leaf}' if name in OF_LEAVES else f' record {row} leaf {leaf}' if name in OF_BOTH \
        else f' blob {row} byte {column}' if name == 'SharedByte' else ''
    return name + (f' {CAUSES[name][cause - 1]}' if name in CAUSES else detail)
