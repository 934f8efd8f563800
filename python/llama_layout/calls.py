"""The calls of libllama_layout, as llama_layout.h declares them, and what they answer.

LLAMA_LAYOUT_LIBRARY names the library; without it the system finds libllama_layout.so.1. The interpreter's lock is held in each call, so there is one at a time.
"""
import ctypes
import enum
import os
from ctypes import POINTER, c_bool, c_char_p, c_int32, c_int64, c_size_t, c_uint32, c_uint64, c_void_p

MAJOR = 1
LIBRARY = os.environ.get('LLAMA_LAYOUT_LIBRARY', f'libllama_layout.so.{MAJOR}')


class Answer(enum.IntEnum):
    """The number of an answer, with what it says and what its causes say: tests compare this with the header."""

    def __new__(cls, number, message, *causes):
        answer = int.__new__(cls, number)
        answer._value_, answer.message, answer.causes = number, message, causes
        return answer

    DONE = 0, 'done'
    NO_VIEW = 1, 'the handle holds no view'
    NO_PLACE = 2, 'there is no such row, leaf, blob, path or index'
    NO_MEMORY = 3, 'memory ran out'
    NO_ROOM = 4, 'the buffer is too short'
    BAD_TYPE = 5, "a number, or some value of the leaf's type, is none of the caller's type"
    RANGE = 6, 'the value lies outside of the declared range of its leaf, and the view is strict'
    NARROW = 7, 'it lies in that range and not in the range of how its leaf is stored, and the view is strict'
    MISMATCH = 8, 'the views have other records or other extents'
    SYNTAX = 9, 'a text is no line, from its column on'
    TOO_DEEP = 10, 'an expression in a text is more than 32 deep'
    OTHER_LINE = 11, 'a text is a line of another command'
    LINE_TOO_LONG = 12, 'a text has more than 4,096 bytes'
    UNKNOWN = 13, 'a name or a path stands in a text that names nothing'
    BAD_RECORD = (
        14, 'the record is refused', 'fields and arrays nest more than 8 deep', 'some record has no field', 'two fields of one record share a name',
        'some array has no element', 'there are more than 64 leaves')
    BAD_EXTENTS = (
        15, 'the extents are refused', 'there are not 1 to 4 extents', 'two extents are written `?`', 'an extent is 0 beside one that is written `?`',
        'the other extents do not divide the number of rows of the dataset', 'the extents have another number of rows than the dataset', 'there are more than 2^24 rows')
    BAD_MAPPING = (
        16, 'the mapping is refused', 'the mapping nests more than 8 deep, counters left out', 'a counter stands below a node that is none, or twice', 'the lanes are not 1 to 64',
        'a width is not 1 to 64', 'the granule is no power of two from 1 to 4,096', 'one side of a split has no leaf', 'a width is said of a path that no leaf is under',
        'a leaf below byteswap or bytesplit is not stored as its type is')
    TOO_BIG = 17, 'a limit is passed'
    BAD_KERNEL = (
        18, 'the kernel is refused', 'the lanes are not 1, 2, 4, 8 or 16', 'the type of a leaf has more than 32 bits',
        'a constant lies outside of its range, or the least is above the greatest')
    EMPTY = 19, 'there is no row, so no least and no greatest value'
    MISSING_COLUMN = 20, 'no column of the dataset names the leaf'
    COLUMN_TWICE = 21, 'two columns of the dataset name the leaf'
    SHORT_ROW = 22, "the row of the dataset has no field in the leaf's column"
    NUMBER = 23, 'the field of the dataset is no number'
    BAD_FILE = (
        24, 'the bytes are no file of a view', 'the first eight bytes are not those of a file', 'behind them there is no header', 'no view is made of the header',
        'the bytes behind the header are not as many as those of the blobs', 'they are not the image of rows that such a view may hold')
    NULL = 25, 'a pointer is NULL'
    SAME = 26, 'both handles are one'
    TWICE = 27, 'an update sets the leaf a second time'
    OVERFLOW = 28, 'a result of an expression lies outside of 128 bits'
    DIVIDE_BY_ZERO = 29, 'a divisor in an expression is 0'
    NOT_COUNTED = 30, 'the view counts no accesses'
    BAD_WINDOW = 31, 'the spans are no window of the extents'
    IRREGULAR = 32, 'the numbers of the leaf lie as no lly_places says, or accesses to them are counted'
    BAD_STENCIL = (
        33, 'the stencil is refused', 'offsets have another rank or are out of range, or from some row of the window they reach outside the extents',
        'a weight or the divisor is out of range', 'there are more than 64 terms', 'there are more than 1,000 rounds')
    BAD_ACTORS = (
        34, 'the rows are not shared out among actors', 'there are more than 63 cuts, they fall somewhere, or one is over the number of rows', 'there are more than 2^20 turns')
    BAD_ADVICE = (
        35, 'no layout is advised', 'the granule is no power of two from 1 to 4,096', 'there are more than 16 passes', 'there are more than 16 candidates')
    SHARED_BYTE = 36, 'a byte holds bits of rows of two actors'


class Handle(ctypes.Structure):
    """A view, which is let go with its handle."""

    _fields_ = [('full', c_bool), ('at', c_void_p)]

    def __del__(self):
        if self.full:
            lly.drop(self)


class Fault(ctypes.Structure):
    _fields_ = [('cause', c_int32), ('row', c_uint64), ('leaf', c_size_t), ('column', c_uint64)]


class Places(ctypes.Structure):
    _fields_ = [
        ('blob', c_size_t), ('bytes', c_uint64), ('base', c_uint64), ('lanes', c_uint64), ('lane', c_uint64), ('block', c_uint64), ('width', c_uint32),
        ('is_signed', c_bool), ('is_turned', c_bool), ('in_bits', c_bool), ('in_digits', c_bool)]


class Refused(ValueError):
    """A call was refused: its answer, and what its fault names, as llama_layout.h says of the answer. What it does not name is 0."""

    def __init__(self, answer, fault):
        self.answer, self.cause, self.row, self.leaf, self.column = Answer(answer), fault.cause, fault.row, fault.leaf, fault.column
        causes, place = self.answer.causes, ''.join(f', {name} {number}' for name, number in (('row', self.row), ('column', self.column)) if number)
        super().__init__(f'{self.answer.name}: {causes[self.cause - 1] if causes and self.cause else self.answer.message}{place}')

    @property
    def words(self):
        """What a script prints of it, but a leaf is its number: `Range record 3 leaf 1`."""
        return filled(lly.message, self.answer, Fault(self.cause, self.row, self.leaf, self.column)).decode()


_VIEW, _FAULT, _ROW, _SIZE, _NUMBER = POINTER(Handle), POINTER(Fault), POINTER(c_uint64), POINTER(c_size_t), POINTER(c_int64)
_TEXT, _RUN, _BUFFER = (c_char_p, c_size_t), (c_uint64, c_size_t, c_void_p, c_size_t), (c_void_p, c_size_t, _SIZE)
_NUMBERS = (c_uint64, c_size_t, c_uint32, c_bool, c_void_p, c_size_t)
_LIST, _BOX = (c_void_p, c_size_t, c_size_t, c_void_p), (_ROW, _ROW, c_size_t, c_size_t, c_void_p, c_size_t)
_PROTOTYPES = {
    'version': (), 'drop': (_VIEW,), 'new': (_VIEW, *_TEXT, *_TEXT, _FAULT), 'load': (_VIEW, *_TEXT, *_TEXT, *_TEXT, _FAULT), 'open': (_VIEW, *_TEXT, _FAULT),
    'rows': (_VIEW, _ROW), 'leaves': (_VIEW, _SIZE), 'blobs': (_VIEW, _SIZE), 'row': (_VIEW, _ROW, c_size_t, _ROW), 'leaf': (_VIEW, *_TEXT, _SIZE),
    'extents': (_VIEW, _ROW, c_size_t, _SIZE), 'path': (_VIEW, c_size_t, *_BUFFER), 'type': (_VIEW, c_size_t, POINTER(c_uint32), POINTER(c_bool)),
    'counts': (_VIEW, c_size_t, _ROW, _ROW),
    'get': (_VIEW, c_uint64, c_size_t, _NUMBER), 'get_u64': (_VIEW, c_uint64, c_size_t, _ROW), 'set': (_VIEW, c_uint64, c_size_t, c_int64),
    'set_u64': (_VIEW, c_uint64, c_size_t, c_uint64), 'get_run': (_VIEW, *_RUN), 'get_run_u64': (_VIEW, *_RUN), 'set_run': (_VIEW, *_RUN, _FAULT),
    'set_run_u64': (_VIEW, *_RUN, _FAULT), 'get_run_as': (_VIEW, *_NUMBERS), 'set_run_as': (_VIEW, *_NUMBERS, _FAULT),
    'gather': (_VIEW, *_LIST), 'gather_u64': (_VIEW, *_LIST), 'scatter': (_VIEW, *_LIST, _FAULT),
    'scatter_u64': (_VIEW, *_LIST, _FAULT), 'scatter_add': (_VIEW, *_LIST, _FAULT), 'get_box': (_VIEW, *_BOX), 'get_box_u64': (_VIEW, *_BOX),
    'set_box': (_VIEW, *_BOX, _FAULT), 'set_box_u64': (_VIEW, *_BOX, _FAULT), 'copy': (_VIEW, _VIEW, _FAULT), 'relayout': (_VIEW, *_TEXT, _FAULT),
    'kernel': (_VIEW, *_TEXT, _NUMBER, _FAULT), 'do': (_VIEW, *_TEXT, _NUMBER, _FAULT), 'tell': (_VIEW, *_TEXT, *_BUFFER, _FAULT),
    'print': (_VIEW, *_BUFFER), 'save': (_VIEW, *_BUFFER), 'blob': (_VIEW, c_size_t, *_BUFFER),
    'record': (_VIEW, *_BUFFER), 'layout': (_VIEW, *_BUFFER), 'lend': (_VIEW, *_BUFFER), 'return': (_VIEW, *_TEXT, _FAULT), 'message': (c_int32, _FAULT, *_BUFFER),
    'place': (_VIEW, c_size_t, POINTER(Places), _FAULT), 'blob_at': (_VIEW, c_size_t, POINTER(c_void_p), _SIZE),
}


class Calls:
    """Each call under its name without the prefix."""

    def __init__(self):
        try:
            library = ctypes.PyDLL(LIBRARY)
        except OSError as fault:
            raise ImportError(f'{fault}: LLAMA_LAYOUT_LIBRARY may name the library') from None
        for name, words in _PROTOTYPES.items():
            call = getattr(library, f'lly_{name}')
            call.argtypes, call.restype = words, None if name == 'drop' else c_int32
            setattr(self, name, call)
        if self.version() // 10_000 != MAJOR:
            raise ImportError(f'{LIBRARY} has the version {self.version()}, and not {MAJOR}')


lly = Calls()


def must(answer, fault=None):
    if answer == Answer.NO_MEMORY:
        raise MemoryError
    if answer != Answer.DONE:
        raise Refused(answer, fault or Fault())


def sized(*texts):
    """The bytes of texts, each with its length behind it."""
    return [word for text in texts for data in [text.encode() if isinstance(text, str) else text] for word in (data, len(data))]


def made(call, *texts):
    """The handle of a new view."""
    handle, fault = Handle(), Fault()
    must(call(handle, *sized(*texts), fault), fault)
    return handle


def asked(call, kind, *words):
    """The number that a call writes behind these words."""
    number = kind()
    must(call(*words, number))
    return number.value


def filled(call, *words, behind=()):
    """The bytes that a call puts into a buffer, which is asked for their number first; `behind` the buffer may stand a fault."""
    needed = c_size_t()
    answer = call(*words, None, 0, needed, *behind)
    if answer == Answer.NO_ROOM:
        buffer = ctypes.create_string_buffer(needed.value)
        must(call(*words, buffer, needed, needed, *behind), *behind)
        return buffer.raw
    must(answer, *behind)
    return b''
