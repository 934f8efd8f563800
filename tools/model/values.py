"""Expressions over whole numbers: the left operand first, then the right one, then the operator."""

LEAST, GREATEST = -2 ** 127, 2 ** 127 - 1


class ValueFault(Exception):
    """Overflow or DivideByZero."""


def within(value):
    if not LEAST <= value <= GREATEST:
        raise ValueFault('Overflow')
    return value


def quotient(left, right):
    """The quotient, cut toward zero."""
    if right == 0:
        raise ValueFault('DivideByZero')
    size = abs(left) // abs(right)
    return size if (left < 0) == (right < 0) else -size


OPERATORS = {
    '+': lambda left, right: left + right,
    '-': lambda left, right: left - right,
    '*': lambda left, right: left * right,
    '/': quotient,
    '%': lambda left, right: left - right * quotient(left, right),
    'min': min,
    'max': max,
    '==': lambda left, right: int(left == right),
    '!=': lambda left, right: int(left != right),
    '<': lambda left, right: int(left < right),
    '<=': lambda left, right: int(left <= right),
    '>': lambda left, right: int(left > right),
    '>=': lambda left, right: int(left >= right),
}


def value_of(expr, read, index):
    """The value of a bound expression (its paths are numbers of leaves) on a row with this index. `read` gives the value of a leaf."""
    form = expr[0]
    if form == 'number':
        return expr[1]
    if form == 'leaf':
        return read(expr[1])
    if form == 'index':
        return index[expr[1]]
    if form == 'neg':
        return within(-value_of(expr[1], read, index))
    if form == 'not':
        return int(value_of(expr[1], read, index) == 0)
    return binary(expr, read, index)


def binary(expr, read, index):
    _, operator, left, right = expr
    first = value_of(left, read, index)
    if operator == 'and':
        return int(first != 0 and value_of(right, read, index) != 0)
    if operator == 'or':
        return int(first != 0 or value_of(right, read, index) != 0)
    return within(OPERATORS[operator](first, value_of(right, read, index)))
