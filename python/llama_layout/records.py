"""Records of llama as types of numpy, and back. A line is read here after the library has taken it."""
import re

import numpy

TYPES = {'bool': 'bool', **{f'{sign}{bits}': f'{name}int{bits}' for sign, name in (('u', 'u'), ('i', '')) for bits in (8, 16, 32, 64)}}


def dtype_of(line):
    """The numpy type of a line `record NAME { .. }`."""
    tokens = re.findall(r'\w+|[^\w\s]', line.partition('#')[0])[:1:-1]
    return _fields(tokens)


def _fields(tokens):
    fields = []
    while tokens.pop() != '}':
        name, kind, dims = tokens.pop(), None, []
        if tokens[-1] == ':':
            tokens.pop()
            kind = TYPES[tokens.pop()]
        else:
            kind = _fields(tokens)
        while tokens[-1:] == ['[']:
            _, size, _ = tokens.pop(), tokens.pop(), tokens.pop()
            dims.append(int(size))
        fields.append((name, kind, tuple(dims)) if dims else (name, kind))
    return numpy.dtype(fields)


def fields_of(dtype):
    """The fields of a record line, for a structured type."""
    return '{ ' + ', '.join(_field(name, dtype[name]) for name in dtype.names) + ' }'


def _field(name, dtype):
    base, dims = dtype.subdtype or (dtype, ())
    what = f' {fields_of(base)}' if base.names else f':{_type(name, base)}'
    return name + what + ''.join(f'[{size}]' for size in dims)


def _type(name, dtype):
    found = [kind for kind, other in TYPES.items() if other == dtype.name]
    if not found:
        raise TypeError(f'{name}: {dtype} is no type of whole numbers')
    return found[0]


def leaves_of(dtype, path='', steps=()):
    """The path and type of each leaf in their order, and the steps that lead to it from a structured array."""
    for name in dtype.names:
        base, dims = dtype[name].subdtype or (dtype[name], ())
        for element in numpy.ndindex(*dims):
            here, there = path + name + ''.join(f'[{at}]' for at in element), (*steps, name, *[(..., *element)] * bool(element))
            if base.names:
                yield from leaves_of(base, here + '.', there)
            else:
                yield here, base, there


def part_of(array, steps):
    for step in steps:
        array = array[step]
    return array
