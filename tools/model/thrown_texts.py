"""Thrown texts: expressions, blanks between tokens, datasets, and what damages a text or a blob file. All choices come from one `random.Random`."""
import re

from blob_files import MAGIC, SIZE_BYTES
from grammar import GREATEST_COUNT, tokens_of

MARK = b'\xef\xbb\xbf'
ODD_BYTES = b'"\r\n\t ,#\\\x00\x7f\x80\xc3\xa9\xff\xef\xbb\xbf;.+-0123456789aZ_()[]{}:=<>!*/%?'
NUMBERS = [0, 1, 2, 3, 7, 8, 10, 127, 128, 255, 256, 32767, 32768, 65535, 65536, 2 ** 31 - 1, 2 ** 31, 2 ** 32 - 1, 2 ** 32, 2 ** 63 - 1, 2 ** 63, 2 ** 64 - 1, 2 ** 64,
           2 ** 126, 2 ** 127 - 1]
TOO_GREAT = 2 ** 127
DIGITS = 10000


def one_in(dice, times):
    return dice.randrange(times) == 0


# expressions, by the levels of the grammar

class Exprs:
    """Expressions over these paths and so many indices. `size` bounds how much is thrown."""

    def __init__(self, dice, paths, rank):
        self.dice, self.paths, self.rank, self.size = dice, paths, rank, 0

    def thrown(self, size):
        self.size = size
        return self.chain('or', self.conj)

    def goes_on(self, times=2):
        self.size -= 1
        return self.size > 0 and one_in(self.dice, times)

    def chain(self, operators, part):
        text = part()
        while self.goes_on(5):
            text += f' {self.dice.choice(operators.split(" "))} {part()}'
        return text

    def conj(self):
        return self.chain('and', self.neg)

    def neg(self):
        return f'not {self.neg()}' if self.goes_on(8) else self.comp()

    def comp(self):
        text = self.sum()
        return f'{text} {self.dice.choice(["==", "!=", "<", "<=", ">", ">="])} {self.sum()}' if self.goes_on(6) else text

    def sum(self):
        return self.chain('+ -', self.prod)

    def prod(self):
        text = self.unary()
        while self.goes_on(4):
            operator = self.dice.choice('*/%')
            text += f' {operator} ' + (self.unary() if operator == '*' or one_in(self.dice, 8) else self.dice.choice(['', '-']) + str(self.dice.randint(1, 9)))
        return text

    def unary(self):
        return f'-{self.unary()}' if self.goes_on(4) else self.atom()

    def atom(self):
        if self.goes_on(3):
            inner = self.chain('or', self.conj)
            return f'{self.dice.choice(["min", "max"])}({inner}, {self.atom()})' if one_in(self.dice, 2) else f'({inner})'
        kind = self.dice.randrange(10)
        if kind < 4:
            return self.dice.choice(self.paths)
        if kind < 6:
            return f'i{self.dice.randrange(self.rank if self.dice.randrange(40) else 4)}'
        return '0' * self.dice.randrange(3) + str(self.dice.choice(NUMBERS) if one_in(self.dice, 6) else self.dice.randrange(10))


def deep_expr(dice):
    """An expression at or past the limits of depth and of open brackets."""
    return dice.choice(['-' * 31 + '1', '-' * 32 + '1', 'not ' * 32 + '1', '1' + ' + 1' * 31, '1' + ' + 1' * 32, '(' * 64 + '1' + ')' * 64, '(' * 65 + '1' + ')' * 65,
                        'max(1, ' * 31 + '1' + ')' * 31, '1 - (' * 32 + '1' + ')' * 32, str(TOO_GREAT - 1), str(TOO_GREAT), '0' * 200 + '1'])


# blanks and comments

def blanks(dice):
    return dice.choice(['', '', ' ', ' ', ' ', '  ', '\t', ' \t '])


def respaced(dice, line):
    """The same tokens with other blanks between them."""
    text, before = blanks(dice), None
    for token in tokens_of(line.encode()):
        if before is not None:
            parted = before.kind == token.kind == 'sign' and (before.value + token.value) not in ('==', '!=', '<=', '>=', '->')
            needs = before.kind != 'sign' and token.kind != 'sign' and not (before.kind == 'text' or token.kind == 'text')
            text += blanks(dice) or (' ' if needs or not (parted or 'sign' in (before.kind, token.kind)) else '')
        text += line.encode()[token.begin:token.end].decode()
        before = token
    return text + blanks(dice)


def with_comment(dice, line):
    """A line as bytes, sometimes with a comment of any bytes but line feeds."""
    if dice.randrange(20):
        return line.encode()
    return line.encode() + b' #' + bytes(byte for byte in dice.choices(range(256), k=dice.randrange(12)) if byte != 0x0A)


# damage

def damaged(dice, data):
    """A text with one thing changed, anywhere."""
    at, end = dice.randrange(len(data) + 1), dice.randrange(len(data) + 1)
    byte = bytes([dice.choice(ODD_BYTES) if dice.randrange(4) else dice.randrange(256)])
    lines = data.split(b'\n')
    one, other = dice.randrange(len(lines)), dice.randrange(len(lines))
    swapped = lines[:]
    swapped[one], swapped[other] = swapped[other], swapped[one]
    return dice.choice([data[:at], data[at:], data[:at] + data[at + 1:], data[:at] + byte + data[at:], data[:at] + byte + data[at + 1:], data[:min(at, end)] + data[max(at, end):],
                        b'\n'.join(swapped), b'\n'.join(lines[:one] + lines[one + 1:]), b'\n'.join(lines[:one] + [lines[other]] + lines[one:]), data + byte, MARK + data,
                        data.replace(b'\n', b'\r\n'), data.replace(b'\n', b'\r'), data.rstrip(b'\n'), data[:at] + data[at:at + 8] * 2 + data[at + 8:],
                        token_exchanged(dice, data)])


def token_exchanged(dice, data):
    """The text with one word, number or sign in place of another of its own."""
    places = list(re.finditer(rb'[A-Za-z_]+|[0-9]+|[^A-Za-z_0-9 \n]', data))
    if not places:
        return data
    place, other = dice.choice(places), dice.choice(places)
    return data[:place.start()] + other.group() + data[place.end():]


def bit_turned(dice, data, begin):
    """The bytes with one bit turned round, from a place on; those of an empty rest stay."""
    if begin == len(data):
        return data
    at = dice.randrange(begin, len(data))
    return data[:at] + bytes([data[at] ^ 1 << dice.randrange(8)]) + data[at + 1:]


def sized(header, rest, size=None):
    """A blob file of these texts, whose header says this size, or the right one."""
    return MAGIC + (len(header) if size is None else size).to_bytes(SIZE_BYTES, 'little') + header + rest


def with_another_number(dice, text):
    """The text with another number in place of one of its own."""
    place = dice.choice(list(re.finditer(rb'(?<= )[0-9]+(?= )', text)) or [None])
    number = dice.choice([0, 1, 2, 3, 7, 8, 64, 65, 2 ** 24, 2 ** 24 + 1, GREATEST_COUNT, GREATEST_COUNT + 1])
    return text[:place.start()] + b'%d' % number + text[place.end():] if place else text


def damaged_file(dice, data):
    """A blob file with one thing changed: anywhere, in its texts, in the size of its header, or in its blobs."""
    begin = len(MAGIC) + SIZE_BYTES
    size = int.from_bytes(data[len(MAGIC):begin], 'little')
    header, rest = data[begin:begin + size], data[begin + size:]

    def blobs_turned():
        return bit_turned(dice, data, begin + size)

    def header_respaced():
        return sized(b''.join(respaced(dice, line.decode()).encode() + b'\n' for line in header.split(b'\n')[:-1]), rest)

    def header_with_another_number():
        return sized(with_another_number(dice, header), rest)

    ways = [blobs_turned, blobs_turned, header_respaced, header_with_another_number, header_with_another_number,
            lambda: bit_turned(dice, data, 0), lambda: sized(damaged(dice, header), rest), lambda: damaged(dice, data),
            lambda: sized(header, rest, dice.choice([0, size - 1, size + 1, 8194, 8195, 2 ** 32 - 1, int.from_bytes(size.to_bytes(SIZE_BYTES, 'little'), 'big'), dice.randrange(200)])),
            lambda: dice.choice([data[:-1], data + b'\0', data[:dice.randrange(len(data))], data + data, header, b''])]
    return dice.choice(ways)()


# datasets

def thrown_number(dice, limits):
    """A number within these limits, or rarely anywhere."""
    least, greatest = limits
    if one_in(dice, 1200):
        return dice.choice([least - 1, greatest + 1, -TOO_GREAT, TOO_GREAT, dice.choice(NUMBERS), -dice.choice(NUMBERS)])
    if one_in(dice, 3):
        return dice.choice([least, greatest, max(least, min(greatest, 0)), max(least, min(greatest, -1))])
    return max(least, min(greatest, dice.randint(-300, 300)))


def thrown_field(dice, limits):
    """A field that tells a number, written in one of many ways, or rarely none."""
    value = thrown_number(dice, limits)
    digits = str(abs(value))
    if one_in(dice, 8):
        digits = '0' * dice.choice([1, 2, 3, 30, 200]) + digits
    if one_in(dice, 3000):
        digits = '0' * DIGITS + digits if one_in(dice, 2) else '1' * DIGITS
    sign = '-' if value < 0 or value == 0 and one_in(dice, 10) else dice.choice(['', '', '', '', '+'])
    text = sign + digits
    if one_in(dice, 8):
        text = dice.choice([' ', '\t', '  ', ' \t']) * dice.randrange(2) + text + dice.choice(['', ' ', '\t'])
    if one_in(dice, 1500):
        text = dice.choice(['', '-', '+', '1.0', '1e3', '0x1', '--1', '+-1', '1 2', 'é', '１', '1\x00', '"', '1"', "'1'", '1_0', 'true', '-\t1', '\u00a01'])
    return f'"{text}"' if one_in(dice, 10) else text


def other_field(dice):
    """A field of a column that names no leaf."""
    return '"' if one_in(dice, 400) else dice.choice(['', 'x', '1', '-', '"a,b"', '"a""b"', '"two\nlines"', 'é', '""', ' ', '"\r\n"', 'a"b', '"a"b'])


def thrown_header(dice, paths):
    """The names of the columns, and the number of the leaf of each, or None."""
    columns = list(enumerate(paths))
    if dice.randrange(3):
        dice.shuffle(columns)
    for _ in range(dice.choice([0, 0, 0, 1, 2])):
        columns.insert(dice.randrange(len(columns) + 1), (None, dice.choice(['', 'extra', 'name', 'A', '"q,r"', 'é', 'x y'])))
    if one_in(dice, 60) and columns:
        columns.pop(dice.randrange(len(columns)))
    if one_in(dice, 60):
        columns.append(dice.choice(list(enumerate(paths))))
    names = []
    for _, name in columns:
        name = f'"{name}"' if one_in(dice, 12) and '"' not in name else name
        names.append(dice.choice([' ', '\t', '']) + name + dice.choice([' ', '']) if one_in(dice, 10) and '"' not in name else name)
    return names, [leaf for leaf, _ in columns]


def thrown_dataset(dice, paths, limits, rows):
    """A dataset of so many rows of these leaves, whose values are mostly within their limits."""
    names, leaves = thrown_header(dice, paths)
    lines = [','.join(names)]
    for _ in range(rows):
        fields = [other_field(dice) if leaf is None else thrown_field(dice, limits[leaf]) for leaf in leaves]
        if one_in(dice, 500):
            fields = fields[:dice.randrange(len(fields) + 1)]
        if one_in(dice, 50):
            fields += [other_field(dice)] * dice.randrange(3)
        lines.append(','.join(fields))
    data, end = b'', dice.choice(['\n', '\n', '\n', '\r\n', '\r'])
    for line in lines:
        data += (line + (end if dice.randrange(20) else dice.choice(['\n', '\r\n', '\r', '\n\n', '\r\n\r\n', '\n\r']))).encode()
    data = data if dice.randrange(6) else data.rstrip(b'\r\n')
    data = MARK * dice.choice([1, 1, 1, 2]) + data if one_in(dice, 10) else data
    return damaged(dice, data) if one_in(dice, 20) else data
