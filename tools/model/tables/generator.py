"""`gen N` for numbers at the edges of its rows, and words that ask for none. What is printed is worked out by closed formulas."""

from .case import Case

USAGE = b'usage: llama run FILE | llama gen N\n'


def printed(rows):
    """With S the sum of all rows, T that of the odd ones and K their number: each odd row doubles its pos.x."""
    whole, odd = rows * (rows - 1) // 2, rows // 2
    rest = max(0, rows % 256 - 128) // 2
    leaves = [('pos.x', rows + odd, rows + odd), ('pos.y', rows, rows), ('mass', rows + odd, rows + odd), ('hot', 2 * rows, rows), ('h[0]', rows, rows), ('h[1]', rows, rows),
              ('id', rows, rows)]
    numbers = [whole + odd * odd, whole + 2 * odd * odd, 65537 * (rows - 1), rows // 256 * 64 + rest]
    return ' | '.join([str(number) for number in numbers] + ['leaf,reads,writes'] + [f'{path},{reads},{writes}' for path, reads, writes in leaves])


def of(rows):
    return Case(f'gen_{rows}', None, printed(rows), words=['gen', str(rows)], by_hand=rows > 2000)


def usage(name, *words):
    return Case(f'gen_usage_of_{name}', None, USAGE, words=list(words))


ROWS = [of(rows) for rows in (1, 3, 5, 7, 8, 9, 15, 16, 17, 128, 129, 130, 131, 255, 256, 257, 384, 387, 511, 512, 999, 1000, 1001, 1025, 4096, 32768, 65535)]
WORKED = [
    Case('gen_of_2_worked_by_hand', None, '2 | 3 | 65537 | 0 | leaf,reads,writes | pos.x,3,3 | pos.y,2,2 | mass,3,3 | hot,4,2 | h[0],2,2 | h[1],2,2 | id,2,2', words=['gen', '2']),
    Case('gen_of_65536_worked_by_hand', None, '3221192704 | 4294934528 | 4294967295 | 16384 | leaf,reads,writes | pos.x,98304,98304 | pos.y,65536,65536 | mass,98304,98304 | '
         'hot,131072,65536 | h[0],65536,65536 | h[1],65536,65536 | id,65536,65536', words=['gen', '65536'], by_hand=True),
    Case('gen_asks_no_file', None, printed(4), words=['gen', '4'], files={'gen.csv': b'pos.x\nx\n'}),
]
NONE = [
    usage('gen_alone', 'gen'), usage('two_numbers', 'gen', '2', '3'), usage('00', 'gen', '00'), usage('a_sign', 'gen', '+2'), usage('a_minus', 'gen', '-2'), usage('a_blank', 'gen', '2 '),
    usage('a_blank_before', 'gen', ' 2'), usage('no_digit', 'gen', ''), usage('a_letter', 'gen', '2x'), usage('hexadecimal', 'gen', '0x2'), usage('a_point', 'gen', '2.0'),
    usage('an_exponent', 'gen', '1e3'), usage('another_word', 'GEN', '2'), usage('65537', 'gen', '65537'), usage('100000', 'gen', '100000'),
    usage('2_to_the_32_and_2', 'gen', str(2 ** 32 + 2)), usage('2_to_the_64_and_2', 'gen', str(2 ** 64 + 2)), usage('2_to_the_128_and_2', 'gen', str(2 ** 128 + 2)),
    usage('1000_digits', 'gen', '1' * 1000), usage('065536', 'gen', '065536'), usage('other_digits', 'gen', '٢'),
]

CASES = ROWS + WORKED + NONE
