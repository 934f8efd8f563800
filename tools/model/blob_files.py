"""Blob files: the texts of a header, how a file is put together, and how it is taken apart.

A canonical text has its tokens with one space between each two, and its numbers without leading zeros. It is written here from what a
line tells; whether a text is canonical is asked of its own tokens.
"""
from grammar import SyntaxFault, read_line, tokens_of
from mappings import nodes_of

MAGIC = bytes.fromhex('4c 4c 41 4d 41 42 31 0a')
SIZE_BYTES = 4
MOST_TEXT_BYTES, MOST_HEADER_BYTES, MOST_FILE_BYTES = 4096, 8194, 2 ** 28 + 8206


class FileFault(Exception):
    """Why bytes are no blob file: Magic, Header, Layout, Length or Contents."""


# canonical texts, written

def joined(items, sign):
    """Lists of tokens, one behind the other, with a sign between each two."""
    return [token for number, item in enumerate(items) for token in [sign] * (number > 0) + item]


def tokens_of_path(path):
    steps = [['[', str(step), ']'] if isinstance(step, int) else ['.', step] for step in path]
    return [token for step in steps for token in step][1:]


def tokens_of_record(dim):
    return ['{', *joined([tokens_of_field(name, field) for name, field in dim[1]], ','), '}']


def tokens_of_field(name, dim):
    dims = []
    while dim[0] == 'array':
        dims += ['[', str(dim[1]), ']']
        dim = dim[2]
    return [name, *([':', dim[1]] if dim[0] == 'leaf' else tokens_of_record(dim)), *dims]


def tokens_of_widths(widths):
    entries = joined([[*tokens_of_path(path), ':', str(width)] for path, width in widths.entries], ',')
    return [str(widths.most), *(['{', *entries, '}'] if entries else [])]


def tokens_of_map(mapping):
    form, *parts = mapping
    if form == 'split':
        inner = [tokens_of_path(parts[0]), tokens_of_map(parts[1]), tokens_of_map(parts[2])]
    elif form == 'change':
        inner = [[parts[0], '->', parts[1]], tokens_of_map(parts[2])]
    elif form in ('bitaos', 'bitsoa'):
        inner = [tokens_of_widths(parts[0]), [parts[1]]]
    else:
        inner = [tokens_of_map(part) if isinstance(part, tuple) else [str(part)] for part in parts]
    return [form, '(', *joined(inner, ','), ')']


def texts_of(record, extents, wrap, mapping):
    """The two texts of a header: that of the record, and that of the view."""
    tokens_of_view = ['view', 'V', ':', 'R', '[', *joined([[str(extent)] for extent in extents], ','), ']', *['wrap'] * wrap, 'as', *tokens_of_map(mapping)]
    return [' '.join(tokens).encode() for tokens in (['record', 'R', *tokens_of_record(record)], tokens_of_view)]


def file_of(texts, memory):
    """The bytes of a file, where the blobs one behind the other are these."""
    header = b''.join(text + b'\n' for text in texts)
    return MAGIC + len(header).to_bytes(SIZE_BYTES, 'little') + header + memory


# files, taken apart

def respelled(text):
    """The tokens of a text, none of them bad, with one space between each two and no leading zeros."""
    return b' '.join(str(token.value).encode() if token.kind == 'number' else text[token.begin:token.end] for token in tokens_of(text))


def line_in(text, command):
    """What a text tells that is the canonical one of a line which begins with this word, in the second version."""
    try:
        line = read_line(text, 2) if len(text) <= MOST_TEXT_BYTES else None
    except SyntaxFault:
        line = None
    if line is None or line[0] != command or respelled(text) != text:
        raise FileFault('Header')
    return line[1]


def parts_of_file(data):
    """What the lines of the record and of the view tell, and the bytes behind the header."""
    if data[:len(MAGIC)] != MAGIC:
        raise FileFault('Magic')
    begin = len(MAGIC) + SIZE_BYTES
    size = int.from_bytes(data[len(MAGIC):begin], 'little')
    if len(data) < begin or size > MOST_HEADER_BYTES or len(data) < begin + size:
        raise FileFault('Header')
    texts = data[begin:begin + size].split(b'\n')
    if len(texts) != 3 or texts[2] != b'':
        raise FileFault('Header')
    record, view = line_in(texts[0], 'record'), line_in(texts[1], 'view')
    if (record['name'], view['name'], view['record']) != ('R', 'V', 'R') or any(node[0] == 'name' for node in nodes_of(view['map'])):
        raise FileFault('Header')
    return record, view, data[begin + size:]
