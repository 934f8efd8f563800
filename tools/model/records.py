"""Records: their parts, their leaves, and how deep they are.

A record is a tuple as grammar.py reads it: fields of pairs of a name and a part, an array with its length, or a leaf with its type.
"""
from mappings import Cell


def parts_of(dim):
    """The nodes of a record, itself among them."""
    inner = [field for _, field in dim[1]] if dim[0] == 'fields' else [dim[2]] if dim[0] == 'array' else []
    return [dim] + [node for part in inner for node in parts_of(part)]


def record_depth(dim):
    if dim[0] == 'leaf':
        return 0
    if dim[0] == 'array':
        return 1 + record_depth(dim[2])
    return 1 + max(record_depth(field) for _, field in dim[1])


def leaf_count(dim):
    if dim[0] == 'leaf':
        return 1
    if dim[0] == 'array':
        return dim[1] * leaf_count(dim[2])
    return sum(leaf_count(field) for _, field in dim[1])


def leaves_of(dim, path=''):
    if dim[0] == 'leaf':
        return [Cell(path, dim[1])]
    if dim[0] == 'array':
        return [leaf for at in range(dim[1]) for leaf in leaves_of(dim[2], f'{path}[{at}]')]
    dot = '.' if path else ''
    return [leaf for name, field in dim[1] for leaf in leaves_of(field, path + dot + name)]


def names_twice(dim):
    names = [name for name, _ in dim[1]] if dim[0] == 'fields' else []
    return len(names) != len(set(names))
