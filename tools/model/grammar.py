"""Lines of a script: tokens, and the grammar of docs/LANGUAGE.md in each of its versions, read from left to right.

A map, a record, a path and an expression are tuples whose first entry says which form they are.
"""
from collections import namedtuple

LETTERS = b'ABCDEFGHIJKLMNOPQRSTUVWXYZabcdefghijklmnopqrstuvwxyz_'
DIGITS = b'0123456789'
SIGNS = ['==', '!=', '<=', '>=', '->'] + list('{}[]():,.=<>+-*/%?')
RESERVED = {'and', 'or', 'not', 'min', 'max', 'i0', 'i1', 'i2', 'i3'}
TYPES = {'bool', 'u8', 'u16', 'u32', 'u64', 'i8', 'i16', 'i32', 'i64'}
COMPARISONS = {'==', '!=', '<', '<=', '>', '>='}
GREATEST_NUMBER = 2 ** 127 - 1
GREATEST_COUNT = 2 ** 32 - 1
VERSIONS = (1, 2)

Token = namedtuple('Token', 'kind value begin end')
Widths = namedtuple('Widths', 'most entries')
Widths.__doc__ = """The bits that a bit mapping says: a number, and pairs of a path and a number of its own."""


class SyntaxFault(Exception):
    """No line of the grammar has this text; the first useless token begins at this column."""

    def __init__(self, column):
        super().__init__(column)
        self.column = column


def end_of_run(line, at, alphabet):
    while at < len(line) and line[at] in alphabet:
        at += 1
    return at


def word_at(line, at):
    end = end_of_run(line, at, LETTERS + DIGITS)
    kind = 'word' if end - at <= 32 else 'bad'
    return Token(kind, line[at:end].decode(), at, end)


def number_at(line, at):
    end = end_of_run(line, at, DIGITS)
    value = int(line[at:end])
    return Token('number' if value <= GREATEST_NUMBER else 'bad', value, at, end)


def text_at(line, at):
    end = at + 1
    while end < len(line) and 0x20 <= line[end] <= 0x7E and line[end] not in b'"\\':
        end += 1
    closed = end < len(line) and line[end] == ord('"') and 1 <= end - at - 1 <= 200
    return Token('text', line[at + 1:end].decode(), at, end + 1) if closed else Token('bad', None, at, at + 1)


def sign_at(line, at, brackets):
    for sign in SIGNS:
        if line[at:at + len(sign)] == sign.encode():
            kind = 'bad' if sign in '([{' and brackets == 64 else 'sign'
            return Token(kind, sign, at, at + len(sign))
    return Token('bad', None, at, at + 1)


def token_at(line, at, brackets):
    if line[at] in LETTERS:
        return word_at(line, at)
    if line[at] in DIGITS:
        return number_at(line, at)
    if line[at] == ord('"'):
        return text_at(line, at)
    return sign_at(line, at, brackets)


def tokens_of(line):
    """The tokens of a line, up to the first bad one."""
    tokens, at, brackets = [], 0, 0
    while True:
        at = end_of_run(line, at, b' \t')
        if at == len(line) or line[at] == ord('#'):
            return tokens
        token = token_at(line, at, brackets)
        tokens.append(token)
        if token.kind == 'bad':
            return tokens
        if token.kind == 'sign' and token.value in '([{':
            brackets += 1
        if token.kind == 'sign' and token.value in ')]}':
            brackets = max(0, brackets - 1)
        at = token.end


class Reader:
    """The tokens of a line of a version, and how many of them were read."""

    def __init__(self, tokens, version):
        self.tokens, self.version = tokens, version
        self.place = 0

    def fail(self):
        if self.place < len(self.tokens):
            raise SyntaxFault(self.tokens[self.place].begin + 1)
        raise SyntaxFault(self.tokens[-1].end + 1)

    def stands(self, kind, values):
        """Whether the next token is of this kind, with one of these values."""
        token = self.tokens[self.place] if self.place < len(self.tokens) else None
        return token is not None and token.kind == kind and token.value in values

    def take(self):
        self.place += 1
        return self.tokens[self.place - 1].value

    def sign(self, *values):
        return self.take() if self.stands('sign', values) else self.fail()

    def word(self, *values):
        return self.take() if self.stands('word', values) else self.fail()

    def of_kind(self, kind, test):
        token = self.tokens[self.place] if self.place < len(self.tokens) else None
        if token is None or token.kind != kind or not test(token.value):
            self.fail()
        return self.take()

    def name(self):
        return self.of_kind('word', lambda value: value not in RESERVED)

    def count(self):
        return self.of_kind('number', lambda value: value <= GREATEST_COUNT)

    def number(self):
        return self.of_kind('number', lambda value: True)

    def text(self):
        return self.of_kind('text', lambda value: True)


def listed(reader, item):
    """item (',' item)*"""
    items = [item(reader)]
    while reader.stands('sign', [',']):
        reader.take()
        items.append(item(reader))
    return items


def in_parens(reader, item):
    reader.sign('(')
    value = item(reader)
    reader.sign(')')
    return value


def listed_in_braces(reader, item):
    reader.sign('{')
    items = listed(reader, item)
    reader.sign('}')
    return items


def listed_in_brackets(reader, item):
    reader.sign('[')
    items = listed(reader, item)
    reader.sign(']')
    return items


# records

def read_fields(reader):
    return ('fields', listed_in_braces(reader, read_field))


def read_field(reader):
    name = reader.name()
    if reader.stands('sign', ['{']):
        inner = read_fields(reader)
    else:
        reader.sign(':')
        inner = ('leaf', reader.word(*TYPES))
    return (name, with_dims(inner, read_dims(reader)))


def read_dims(reader):
    dims = []
    while reader.stands('sign', ['[']):
        reader.take()
        dims.append(reader.count())
        reader.sign(']')
    return dims


def with_dims(inner, dims):
    for length in reversed(dims):
        inner = ('array', length, inner)
    return inner


# paths and maps

def read_path(reader):
    steps = [reader.name()]
    while reader.stands('sign', ['.', '[']):
        if reader.take() == '.':
            steps.append(reader.name())
        else:
            steps.append(reader.count())
            reader.sign(']')
    return tuple(steps)


def read_order(reader):
    return reader.word('row', 'col', 'morton')


def read_formed(*forms):
    def read(reader):
        form = reader.word(*forms)
        reader.sign(',')
        return (form, read_order(reader))
    return read


def read_counted(read_rest):
    def read(reader):
        count = reader.count()
        reader.sign(',')
        return (count, read_rest(reader))
    return read


def read_entry(reader):
    path = read_path(reader)
    reader.sign(':')
    return (path, reader.count())


def read_bits(reader):
    most, entries = reader.count(), []
    if reader.version >= 2 and reader.stands('sign', ['{']):
        entries = listed_in_braces(reader, read_entry)
    reader.sign(',')
    return (Widths(most, tuple(entries)), read_order(reader))


def read_split(reader):
    path = read_path(reader)
    reader.sign(',')
    first = read_map(reader)
    reader.sign(',')
    return (path, first, read_map(reader))


def read_change(reader):
    of = reader.word(*TYPES)
    reader.sign('->')
    to = reader.word(*(TYPES - {'bool'}))
    reader.sign(',')
    return (of, to, read_map(reader))


def read_inner(reader):
    return (read_map(reader),)


FORMS = {
    'aos': read_formed('packed', 'aligned', 'min'),
    'soa': read_formed('single', 'aligned', 'multi'),
    'aosoa': read_counted(read_order),
    'bitaos': read_bits,
    'bitsoa': read_bits,
    'split': read_split,
    'byteswap': read_inner,
    'bytesplit': read_inner,
    'change': read_change,
    'count': read_inner,
    'heat': read_counted(lambda reader: read_map(reader)),
}


def read_map(reader):
    word = reader.name()
    if word in FORMS and reader.stands('sign', ['(']):
        return (word,) + in_parens(reader, FORMS[word])
    return ('name', word)


# expressions

def read_chain(reader, kind, values, read_part):
    """part (operator part)*, grouped to the left"""
    left = read_part(reader)
    while reader.stands(kind, values):
        operator = reader.take()
        left = ('binary', operator, left, read_part(reader))
    return left


def read_expr(reader):
    return read_chain(reader, 'word', ['or'], read_conj)


def read_conj(reader):
    return read_chain(reader, 'word', ['and'], read_neg)


def read_neg(reader):
    if reader.stands('word', ['not']):
        reader.take()
        return ('not', read_neg(reader))
    return read_comp(reader)


def read_comp(reader):
    left = read_sum(reader)
    if reader.stands('sign', COMPARISONS):
        operator = reader.take()
        return ('binary', operator, left, read_sum(reader))
    return left


def read_sum(reader):
    return read_chain(reader, 'sign', ['+', '-'], read_prod)


def read_prod(reader):
    return read_chain(reader, 'sign', ['*', '/', '%'], read_unary)


def read_unary(reader):
    if reader.stands('sign', ['-']):
        reader.take()
        return ('neg', read_unary(reader))
    return read_atom(reader)


def read_two(reader):
    left = read_expr(reader)
    reader.sign(',')
    return (left, read_expr(reader))


def read_atom(reader):
    if reader.stands('word', ['min', 'max']):
        operator = reader.take()
        return ('binary', operator) + in_parens(reader, read_two)
    if reader.stands('word', ['i0', 'i1', 'i2', 'i3']):
        return ('index', int(reader.take()[1]))
    if reader.stands('sign', ['(']):
        return in_parens(reader, read_expr)
    place = reader.place
    if place < len(reader.tokens) and reader.tokens[place].kind == 'number':
        return ('number', reader.number())
    return ('path', read_path(reader))


# commands

def read_record(reader):
    return {'name': reader.name(), 'record': read_fields(reader)}


def read_mapping(reader):
    name = reader.name()
    reader.sign('=')
    return {'name': name, 'map': read_map(reader)}


def read_extent(reader):
    if reader.stands('sign', ['?']):
        return reader.take()
    return reader.count()


def read_new_view(reader, read_word):
    name = reader.name()
    reader.sign(':')
    record = reader.name()
    reader.sign('[')
    words = listed(reader, read_word)
    reader.sign(']')
    wrap = reader.stands('word', ['wrap'])
    if wrap:
        reader.take()
    reader.word('as')
    return {'name': name, 'record': record, 'words': words, 'wrap': wrap, 'map': read_map(reader)}


def read_view(reader):
    return read_new_view(reader, Reader.count)


def read_load(reader):
    line = read_new_view(reader, read_extent)
    reader.word('from')
    return line | {'file': reader.text()}


def read_one_set(reader):
    path = read_path(reader)
    reader.sign('=')
    return (path, read_expr(reader))


def read_set(reader):
    name = reader.name()
    reader.sign('[')
    index = listed(reader, Reader.count)
    reader.sign(']')
    reader.sign('.')
    path, value = read_one_set(reader)
    return {'name': name, 'index': index, 'path': path, 'value': value}


def read_update(reader):
    name, where = reader.name(), None
    if reader.stands('word', ['where']):
        reader.take()
        where = read_expr(reader)
    reader.word('set')
    sets = listed(reader, read_one_set)
    by_actors = reader.version >= 2 and reader.stands('word', ['actors'])
    return {'name': name, 'where': where, 'sets': sets, 'actors': read_actors(reader) if by_actors else None}


def read_actors(reader):
    reader.word('actors')
    reader.sign('[')
    cuts = [] if reader.stands('sign', [']']) else listed(reader, Reader.count)
    reader.sign(']')
    reader.word('schedule')
    seed = reader.count()
    reader.word('turns')
    return {'cuts': cuts, 'seed': seed, 'turns': reader.count()}


def read_const(reader):
    if reader.stands('sign', ['-']):
        reader.take()
        return -reader.number()
    return reader.number()


def read_kern(reader):
    kind = reader.word('axpy', 'clamp', 'sum', 'least', 'greatest', 'count_where')
    parts = {
        'axpy': [read_const, ',', read_path, ',', read_path],
        'clamp': [read_path, ',', read_const, ',', read_const],
        'count_where': [read_path, COMPARISONS, read_const],
    }.get(kind, [read_path])
    reader.sign('(')
    values = [part(reader) if callable(part) else reader.sign(*part) for part in parts]
    reader.sign(')')
    return (kind,) + tuple(value for value in values if value != ',')


def read_kernel(reader):
    name, kernel = reader.name(), read_kern(reader)
    reader.word('lanes')
    return {'name': name, 'kernel': kernel, 'lanes': reader.count()}


def read_reduce(reader):
    name, kind = reader.name(), reader.word('sum', 'min', 'max', 'count')
    if kind == 'count':
        reader.word('where')
        return {'name': name, 'kind': kind, 'filter': read_expr(reader)}
    return {'name': name, 'kind': kind, 'path': read_path(reader)}


def read_copy(reader):
    name = reader.name()
    reader.word('to')
    return {'name': name, 'target': reader.name()}


def read_relayout(reader):
    name = reader.name()
    reader.word('as')
    return {'name': name, 'map': read_map(reader)}


def read_one(reader):
    return {'name': reader.name()}


def read_print(reader):
    name = reader.name()
    is_windowed = reader.version >= 2 and reader.stands('word', ['window'])
    return {'name': name, 'window': read_window(reader) if is_windowed else None}


def read_span(reader):
    begin = reader.count()
    reader.sign(':')
    return (begin, reader.count())


def read_window(reader):
    reader.word('window')
    return listed_in_brackets(reader, read_span)


def read_term(reader):
    weight = read_const(reader)
    reader.sign('*')
    path = read_path(reader)
    reader.word('at')
    return (weight, path, listed_in_brackets(reader, read_const))


def read_stencil(reader):
    name, window = reader.name(), read_window(reader)
    reader.word('set')
    path = read_path(reader)
    reader.sign('=')
    terms = in_parens(reader, lambda within: listed(within, read_term))
    reader.sign('/')
    divisor = reader.count()
    reader.word('rounds')
    return {'name': name, 'window': window, 'path': path, 'terms': terms, 'divisor': divisor, 'rounds': reader.count()}


def read_bytes(reader):
    return {'name': reader.name(), 'blob': reader.count()}


def read_open(reader):
    name = reader.name()
    reader.word('from')
    return {'name': name, 'file': reader.text()}


def read_pass(reader):
    reader.word('pass')
    paths = listed(reader, read_path)
    reader.word('times')
    return (paths, reader.count())


def read_advise(reader):
    name = reader.name()
    reader.word('granule')
    granule, passes = reader.count(), [read_pass(reader)]
    while reader.stands('word', ['pass']):
        passes.append(read_pass(reader))
    reader.word('among')
    maps, splits = listed(reader, read_map), reader.stands('word', ['splits'])
    if splits:
        reader.take()
    return {'name': name, 'granule': granule, 'passes': passes, 'maps': maps, 'splits': splits}


FIRST = {
    'record': read_record, 'mapping': read_mapping, 'view': read_view, 'load': read_load, 'set': read_set,
    'update': read_update, 'kernel': read_kernel, 'reduce': read_reduce, 'copy': read_copy,
    'relayout': read_relayout, 'print': read_print, 'counts': read_one, 'heat': read_one, 'layout': read_one,
    'drop': read_one, 'bytes': read_bytes,
}
COMMANDS = FIRST | {'save': read_one, 'open': read_open, 'stencil': read_stencil, 'advise': read_advise}


def read_line(text, version):
    """The command of a line of a version as its word and its parts, or None where the line is blank."""
    tokens = tokens_of(text)
    if not tokens:
        return None
    reader = Reader(tokens, version)
    command = reader.word(*(FIRST if version == 1 else COMMANDS))
    line = COMMANDS[command](reader)
    if reader.place < len(tokens):
        reader.fail()
    return (command, line)


def version_in(text):
    """The number that a version line says, or None where the line is none."""
    tokens = [(token.kind, token.value) for token in tokens_of(text)]
    if len(tokens) != 2 or tokens[0] != ('word', 'version'):
        return None
    kind, number = tokens[1]
    return number if kind == 'number' and number <= GREATEST_COUNT else None


def depth(expr):
    """How deep an expression is: 1 where it has no operand."""
    operands = {'neg': expr[1:], 'not': expr[1:], 'binary': expr[2:]}.get(expr[0], ())
    return 1 + max((depth(operand) for operand in operands), default=0)


def expressions_of(command, line):
    if command == 'set':
        return [line['value']]
    if command == 'update':
        return [line['where']] * (line['where'] is not None) + [value for _, value in line['sets']]
    return [line['filter']] if command == 'reduce' and line['kind'] == 'count' else []


def path_text(path):
    return ''.join(f'[{step}]' if isinstance(step, int) else f'.{step}' for step in path)[1:]
