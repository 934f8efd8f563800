"""Expressions: the value of each operator, their order, and their faults."""
from .case import Case

MOST = 2 ** 127 - 1
LEAST = f'(-{MOST} - 1)'
ONE = 'record P { x:i64, y:i64, u:u64, f:bool } | view V : P [1] as aosoa(2, row) | set V[0].x = 7 | set V[0].u = 18446744073709551615 | set V[0].f = 1 | '


def values(name, *pairs):
    """The values of expressions of at most 64 bits."""
    shown = ' | '.join(f'set V[0].y = {text} | reduce V sum y' for text, _ in pairs)
    return Case(f'value_of_{name}', ONE + shown, ' | '.join(str(value) for _, value in pairs))


def holds(name, *texts):
    """Expressions that are not 0."""
    shown = ' | '.join(f'reduce V count where {text}' for text in texts)
    return Case(f'value_of_{name}', ONE + shown, ' | '.join('1' for _ in texts))


def fault(name, text, due):
    return Case(f'fault_of_{name}', ONE + f'set V[0].y = {text}', f'line 6: {due} record 0')


VALUES = [
    values('sums', ('x + 3', 10), ('1 + x + x', 15), ('x + -9', -2), ('f + f', 2)),
    values('differences', ('x - 3', 4), ('3 - x', -4), ('x - -3', 10), ('x--3', 10)),
    values('products', ('x * 3', 21), ('x * -3', -21), ('-x * -3', 21), ('0 * x', 0)),
    values('quotients_cut_toward_zero', ('x / 2', 3), ('-x / 2', -3), ('x / -2', -3), ('-x / -2', 3), ('1 / x', 0), ('-1 / x', 0)),
    values('remainders_with_the_sign_of_the_left', ('x % 3', 1), ('-x % 3', -1), ('x % -3', 1), ('-x % -3', -1), ('6 % 3', 0), ('2 % x', 2)),
    values('negations', ('-x', -7), ('--x', 7), ('- - -x', -7), ('-(x - 9)', 2), ('-0', 0)),
    values('the_lesser', ('min(3, x)', 3), ('min(x, 3)', 3), ('min(-3, x - 11)', -4), ('min(1 + 1, 1 or 0)', 1), ('min(x, x)', 7)),
    values('the_greater', ('max(3, x)', 7), ('max(x, 9)', 9), ('max(-3, x - 11)', -3), ('max(max(1, 2), min(8, 9))', 8)),
    values('equal', ('x == 7', 1), ('x == 8', 0), ('x == -7', 0), ('u == 18446744073709551615', 1), ('u == -1', 0)),
    values('not_equal', ('x != 7', 0), ('x != 8', 1), ('u != -1', 1)),
    values('less', ('x < 8', 1), ('x < 7', 0), ('x < 6', 0), ('-8 < -7', 1)),
    values('at_most', ('x <= 8', 1), ('x <= 7', 1), ('x <= 6', 0), ('-8 <= -9', 0)),
    values('greater', ('x > 6', 1), ('x > 7', 0), ('x > 8', 0), ('u > x', 1)),
    values('at_least', ('x >= 6', 1), ('x >= 7', 1), ('x >= 8', 0), ('u >= -1', 1)),
    values('not', ('not 0', 1), ('not 1', 0), ('not 5', 0), ('not -1', 0), ('not not 5', 1), ('not x', 0)),
    values('and', ('5 and -3', 1), ('5 and 0', 0), ('0 and 5', 0), ('0 and 0', 0), ('1 and 2 and 3', 1)),
    values('or', ('0 or 7', 1), ('7 or 0', 1), ('0 or 0', 0), ('-1 or 1', 1), ('0 or 0 or 2', 1)),
    values('and_that_leaves_out_its_right_side', ('0 and 1 / 0', 0), ('x < 0 and x / 0 > 1', 0), ('0 and 1 / 0 and 1', 0)),
    values('or_that_leaves_out_its_right_side', ('1 or 1 / 0', 1), ('x > 0 or x % 0', 1), ('1 or 1 / 0 or 0', 1)),
    values('products_before_sums', ('2 + 3 * 4', 14), ('(2 + 3) * 4', 20), ('2 * 3 + 4', 10), ('10 - 6 / 2', 7), ('1 + 7 % 4', 4)),
    values('sums_before_comparisons', ('x + 1 == 4 * 2', 1), ('1 + (x == 7)', 2), ('2 * (1 < 2) + 3', 5)),
    values('comparisons_before_not', ('not 1 == 2', 1), ('(not 1) == 2', 0), ('not 0 + 1', 0)),
    values('not_before_and', ('not 0 and 0', 0), ('not (0 and 0)', 1), ('0 == 0 and not 1 == 2', 1)),
    values('and_before_or', ('1 or 0 and 0', 1), ('(1 or 0) and 0', 0), ('0 and 0 or 1', 1), ('0 and (0 or 1)', 0)),
    values('minus_before_products', ('-2 * 3', -6), ('2 * -3', -6), ('-7 / 2', -3), ('-(7 / 2)', -3), ('-7 % 4', -3), ('-(7 % 4)', -3), ('8 / -3', -2)),
    values('differences_from_the_left', ('10 - 3 - 2', 5), ('10 - (3 - 2)', 9), ('10 - 3 + 2', 9), ('10 - (3 + 2)', 5)),
    values('quotients_from_the_left', ('100 / 10 / 5', 2), ('100 / (10 / 5)', 50), ('7 * 3 / 2', 10), ('7 * (3 / 2)', 7), ('7 / 2 * 3', 9), ('7 % 4 * 2', 6)),
    holds('numbers_past_64_bits', '18446744073709551616 > u', 'u + 1 == 18446744073709551616',
          'u * 9223372036854775808 == 170141183460469231722463931679029329920', '-u - 1 == -18446744073709551616'),
    holds('the_greatest_number', f'{MOST} == {MOST - 1} + 1', f'-{MOST} < 0', f'{MOST} - {MOST - 1}', f'0{MOST} == {MOST}'),
    holds('the_least_number', f'{LEAST} + {MOST} == -1', f'{LEAST} < -{MOST}', f'{LEAST} / 1 == {LEAST}', f'{LEAST} / 2 == -85070591730234615865843651857942052864',
          '-18446744073709551616 * 9223372036854775808 == ' + LEAST, f'-(-{MOST}) == {MOST}'),
    holds('the_least_number_by_minus_one', f'({LEAST} % -1) == 0', f'not {LEAST} % -1', f'(-{MOST} / -1) == {MOST}'),
    Case('value_of_each_index', 'record P { a:u16 } | view V : P [2, 2, 2, 2] as aos(packed, col) | set V[1, 0, 1, 1].a = 1000 * i0 + 100 * i1 + 10 * i2 + i3 | '
         'reduce V sum a', '1011'),
    Case('value_of_the_least_of_each_type', 'record P { a:i8, b:i16, c:i32, d:i64 } | view V : P [1] as aos(packed, row) | '
         'update V set a = -128, b = -32768, c = -2147483648, d = -9223372036854775808 | '
         'reduce V count where a == -128 and b == -32768 and c == -2147483648 and d == -9223372036854775808 and a + b < -32800', '1'),
    Case('value_of_the_greatest_of_each_type', 'record P { a:u8, b:u16, c:u32, d:u64 } | view V : P [1] as aos(packed, row) | '
         'update V set a = 255, b = 65535, c = 4294967295, d = 18446744073709551615 | '
         'reduce V count where a == 255 and b == 65535 and c == 4294967295 and d == 18446744073709551615 and d + d > d', '1'),
    Case('value_that_passes_64_bits_on_its_way', ONE + 'set V[0].y = u * 3 - u * 2 - u - 5 | print V', 'x,y,u,f | 7,-5,18446744073709551615,1'),
]

FAULTS = [
    fault('a_sum_past_the_greatest', f'{MOST} + 1', 'Overflow'), fault('a_sum_below_the_least', f'{LEAST} + -1', 'Overflow'),
    fault('a_difference_below_the_least', f'-{MOST} - 2', 'Overflow'), fault('a_difference_past_the_greatest', f'1 - -{MOST}', 'Overflow'),
    fault('a_product_past_the_greatest', '18446744073709551616 * 9223372036854775808', 'Overflow'),
    fault('a_product_below_the_least', f'{LEAST} * 2', 'Overflow'), fault('a_product_of_the_least_and_minus_one', f'{LEAST} * -1', 'Overflow'),
    fault('a_product_that_wraps_to_zero', '18446744073709551616 * 18446744073709551616', 'Overflow'),
    fault('a_quotient_of_the_least_and_minus_one', f'{LEAST} / -1', 'Overflow'), fault('the_negated_least', f'-{LEAST}', 'Overflow'),
    fault('a_quotient_by_zero', '1 / 0', 'DivideByZero'), fault('a_remainder_by_zero', 'x % 0', 'DivideByZero'), fault('zero_by_zero', '0 / 0', 'DivideByZero'),
    fault('a_quotient_by_a_leaf_of_zero', '1 / y', 'DivideByZero'), fault('the_least_by_zero', f'{LEAST} / 0', 'DivideByZero'),
    fault('the_left_side_first', f'1 / 0 + ({MOST} + 1)', 'DivideByZero'), fault('the_left_side_first_too', f'{MOST} + 1 + 1 / 0', 'Overflow'),
    fault('the_operands_before_the_operator', f'({MOST} + 1) / 0', 'Overflow'), fault('the_right_side_before_the_operator', f'{MOST} * ({MOST} / 0)', 'DivideByZero'),
    fault('a_product_with_zero', '0 * (1 / 0)', 'DivideByZero'), fault('the_right_side_of_and', '1 and 1 / 0', 'DivideByZero'),
    fault('the_right_side_of_or', '0 or 1 / 0', 'DivideByZero'), fault('the_left_side_of_and', '1 / 0 and 0', 'DivideByZero'),
    fault('the_left_side_of_or', f'{MOST} + 1 or 1', 'Overflow'), fault('the_lesser_by_its_right_side', 'min(0, 1 / 0)', 'DivideByZero'),
    fault('the_greater_by_its_left_side_first', f'max({MOST} + 1, 1 / 0)', 'Overflow'), fault('not', 'not (1 / 0)', 'DivideByZero'),
    fault('a_comparison', f'{MOST} + 1 == {MOST} + 1', 'Overflow'), fault('a_sum_on_its_way', f'{MOST} + 1 - 1', 'Overflow'),
]

CASES = VALUES + FAULTS
