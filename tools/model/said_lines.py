"""Lines of a script that say what a call does, or what a refused one has done in part. `held` is what throw_calls knows of the table."""
import re

from grammar import SyntaxFault, path_text, read_line
from llama_model import MOST_LINE_BYTES, leaf_of, replaced
from stencils import indices_in, leaf_behind_a_round


def told(text):
    """What a line says, or None where it is none."""
    try:
        return read_line(text, 2) if len(text) <= MOST_LINE_BYTES else None
    except SyntaxFault:
        return None


def renamed(text, names):
    """A line with other names for its words and strings at these places of its tokens."""
    places = [place.span() for place in re.finditer(rb'"[^"]*"|[A-Za-z_0-9]+|[^\sA-Za-z_0-9]', text.split(b'#')[0])]
    for at, name in sorted(names.items(), reverse=True):
        begin, end = places[at]
        text = text[:begin] + name.encode() + text[end:]
    return fitted(text)


def fitted(text):
    """A line with other names, without the many blanks that would now make it too long."""
    return text if len(text) <= MOST_LINE_BYTES else re.sub(rb' {60,}', b' ', text)


def ended(line):
    """A line as it stands in a script, where a carriage return at its end is its own."""
    return line + (b'\r\n' if line.endswith(b'\r') else b'\n')


def set_line(held, row, path, value):
    return f'set {held.name}[{", ".join(map(str, held.index(row)))}].{path} = {value}'.encode()


def before(held, row):
    """The condition of the rows before this one."""
    index, before = held.index(row), '0'
    for dimension, at in reversed(list(enumerate(index))):
        before = f'i{dimension} < {at} or i{dimension} == {at} and ({before})'
    return before


def update_before(held, line, row):
    """An update in the rows before this one alone."""
    words = re.fullmatch(rb'([ \t]*update[ \t]+\w+[ \t]+)(?:where\b(.*?))?\bset\b(.*)', line.split(b'#')[0], re.S)
    return b'%s where (%s) and (%s) set %s' % tuple(part.strip() for part in (words[1], before(held, row).encode(), words[2] or b'1', words[3]))


def kernel_before(held, kernel, row):
    """What a kernel does in the rows before this one, as an update."""
    if kernel[0] == 'axpy':
        x, y = path_text(kernel[2]), path_text(kernel[3])
        change = f'{y} = {kernel[1]} * {x} + {y}'
    else:
        x = path_text(kernel[1])
        change = f'{x} = max({kernel[2]}, min({kernel[3]}, {x}))'
    return f'update {held.name} where {before(held, row)} set {change}'.encode()


def rounds_before(held, said, line):
    """A stencil of the rounds before the one in which the model refuses a number of the rows that were shown. None where that is the first."""
    view = held.view()
    leaf = leaf_of(view, said['path'])
    terms = [(weight, leaf_of(view, path), offsets) for weight, path, offsets in said['terms']]
    rows = [view.row_of(index) for index in indices_in(said['window'])]
    for done in range(said['rounds']):
        new = leaf_behind_a_round(view, said['window'], terms, said['divisor'])
        if any(view.refusal(leaf, value) for value in new):
            return re.sub(rb'[0-9]+[ \t]*\Z', b'%d' % done, line.split(b'#')[0].rstrip()) if done else None
        for row, value in zip(rows, new):
            view.kept[row] = replaced(view.row(row), leaf, view.left(leaf, value))
    raise ValueError('the model refuses no round')


def without_actors(line):
    """An update by actors as one without them, which leaves the same rows."""
    return re.sub(rb'\bactors\b.*', b'', line.split(b'#')[0], flags=re.S)
