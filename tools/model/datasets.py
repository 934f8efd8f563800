"""Datasets: the records of a CSV text, and the table that they tell."""

MARK = b'\xef\xbb\xbf'


class DatasetFault(Exception):
    """A fault's name, the row or None, and the leaf's path."""


def without_mark(data):
    return data[len(MARK):] if data.startswith(MARK) else data


def records_of(data):
    """Records end with CR, LF or both, and lines without bytes are none. A field may stand in quotes, in which a quote is
    written twice; quotes elsewhere are bytes like others. The reader of records drops a mark of its own."""
    data = without_mark(without_mark(data))
    records, at = [], 0
    while True:
        while at < len(data) and data[at] in b'\r\n':
            at += 1
        if at == len(data):
            return records
        fields = []
        while True:
            field, at = field_at(data, at)
            fields.append(field)
            if at == len(data) or data[at] in b'\r\n':
                break
            at += 1
        records.append(fields)


def field_at(data, at):
    """The field that begins here, and the place of what ends it."""
    front = b''
    if data[at:at + 1] == b'"':
        front, at = quoted_at(data, at + 1)
    end = at
    while end < len(data) and data[end] not in b',\r\n':
        end += 1
    return front + data[at:end], end


def quoted_at(data, at):
    """The bytes up to the closing quote, or to the end of the data, and the place behind."""
    front = b''
    while True:
        end = data.find(b'"', at)
        if end < 0:
            return front + data[at:], len(data)
        front += data[at:end]
        if data[end + 1:end + 2] != b'"':
            return front, end + 1
        front, at = front + b'"', end + 2


def trimmed(field):
    return field.strip(b' \t')


def number_in(field):
    """The number that a field tells, or None."""
    text = trimmed(field)
    digits = text[1:] if text[:1] in (b'+', b'-') else text
    if not digits or any(byte not in b'0123456789' for byte in digits):
        return None
    value = value_of_digits(digits)
    return -value if text[:1] == b'-' else value


def value_of_digits(digits):
    value = 0
    for byte in digits:
        value = 10 * value + byte - ord('0')
    return value


def columns_of(header, paths):
    """The column of each leaf."""
    names = [trimmed(name) for name in header]
    columns = []
    for path in paths:
        places = [place for place, name in enumerate(names) if name == path.encode()]
        if len(places) != 1:
            raise DatasetFault('ColumnTwice' if places else 'MissingColumn', None, path)
        columns.append(places[0])
    return columns


def table_of(records, paths, refusal):
    """The rows of a dataset, or its first fault. `refusal` names what refuses a value of a leaf, by its number, or is None."""
    columns = columns_of(records[0] if records else [], paths)
    return [row_of(number, fields, columns, paths, refusal) for number, fields in enumerate(records[1:])]


def row_of(number, fields, columns, paths, refusal):
    row = []
    for leaf, (path, column) in enumerate(zip(paths, columns)):
        if column >= len(fields):
            raise DatasetFault('ShortRow', number, path)
        value = number_in(fields[column])
        if value is None:
            raise DatasetFault('Number', number, path)
        if refusal(leaf, value):
            raise DatasetFault(refusal(leaf, value), number, path)
        row.append(value)
    return row
