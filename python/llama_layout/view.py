"""The class View."""
import contextlib
import math
import operator
import pathlib
import re
import weakref
from ctypes import c_int64, c_size_t, c_uint64, c_void_p

import numpy

from .calls import Answer, Fault, Places, asked, filled, lly, made, must, sized
from .records import dtype_of, fields_of, leaves_of, part_of

SAYS_NOTHING = ('axpy', 'clamp')
SAYS_A_NUMBER = re.compile(r'\s*(reduce\s|kernel\s+\w+\s+(?!axpy|clamp))')


class View:
    """A table of whole numbers whose layout in memory is a text of the script language.

    It has the extents `shape`, records of the numpy type `dtype`, and a leaf for each of `paths`. `view[path]` is a copy of a leaf in an array of that shape, and
    `view[path] = numbers` stores one. What a call refuses is raised as `Refused`.
    """

    def __init__(self, record, view):
        """A view of zeros, of a line `record P { .. }` and a line `view V : P [..] as ..`."""
        self._take(made(lly.new, record, view))

    def _take(self, handle):
        self._handle = handle
        self.dtype, extents, rank = dtype_of(self.record), (c_uint64 * 4)(), c_size_t()
        must(lly.extents(handle, extents, 4, rank))
        self.shape = tuple(extents[:rank.value])
        self._leaves = {path: (asked(lly.leaf, c_size_t, handle, *sized(path)), kind) for path, kind, _ in leaves_of(self.dtype)}
        self.paths = list(self._leaves)
        self._columns = weakref.WeakSet()
        return self

    @classmethod
    def load(cls, record, view, csv):
        """A view of a dataset, of a line `load V : P [..] as .. from ".."`: the rows are `csv`, which is a path, or the bytes of such a file."""
        data = csv if isinstance(csv, bytes) else pathlib.Path(csv).read_bytes()
        return cls.__new__(cls)._take(made(lly.load, record, view, data))

    @classmethod
    def from_bytes(cls, data):
        """The view of which these bytes are the file."""
        return cls.__new__(cls)._take(made(lly.open, data))

    @classmethod
    def open(cls, file):
        """The view of a blob file, as `save` here and in a script writes it."""
        return cls.from_bytes(pathlib.Path(file).read_bytes())

    @classmethod
    def from_array(cls, array, layout='soa(multi, row)', wrap=False):
        """A view of a structured array: its fields, its shape and its numbers."""
        array = numpy.asarray(array)
        if not array.dtype.names:
            raise TypeError(f'an array of {array.dtype} has no fields')
        view = cls(f'record R {fields_of(array.dtype)}', _line(array.shape, wrap, layout))
        for path, _, steps in leaves_of(view.dtype):
            view[path] = part_of(array, steps)
        return view

    @classmethod
    def from_frame(cls, frame, layout='soa(multi, row)', record=None, wrap=False):
        """A view of a frame of pandas, a row for each of its rows. The columns are its fields in their order, or, by a record line, those that have the paths of its leaves."""
        columns = {str(name): frame[name].to_numpy() for name in frame.columns}
        if record is None:
            record = f'record R {fields_of(numpy.dtype([(name, column.dtype) for name, column in columns.items()]))}'
        view = cls(record, _line([len(frame)], wrap, layout, re.match(r'\s*record\s+(\w+)', record)[1]))
        for path in view.paths:
            view[path] = columns[path]
        return view

    def __len__(self):
        """How many rows it has."""
        return asked(lly.rows, c_uint64, self._handle)

    def __repr__(self):
        return f'<View of {fields_of(self.dtype)} {list(self.shape)}>'

    @property
    def record(self):
        """The line of its record."""
        return filled(lly.record, self._handle).decode()

    @property
    def layout(self):
        """The line `view V : R [..] as ..` of which and of `record` a view of zeros like it is made."""
        return filled(lly.layout, self._handle).decode()

    def __getitem__(self, path):
        return self.run(path, 0, len(self)).reshape(self.shape)

    def __setitem__(self, path, numbers):
        self.set_run(path, 0, numpy.broadcast_to(numbers, self.shape).ravel())

    def run(self, path, first, count):
        """The numbers of a leaf in so many rows from `first` on."""
        leaf, kind = self._leaves[path]
        numbers = numpy.empty(count, kind)
        must(lly.get_run_as(self._handle, self.row(first), leaf, *_numbers(numbers)))
        return numbers

    def column(self, path):
        """The numbers of a leaf where they lie, as an array that copies nothing and cannot be written. As long as there is one, the view is neither laid anew nor let go."""
        places, kind, strides = self._placed(path)
        if not len(self):
            return numpy.broadcast_to(numpy.empty(1, kind), self.shape)
        lent = _Column(self, kind.str, self._blob(places.blob)[0] + places.base, strides)
        self._columns.add(lent)
        return numpy.asarray(lent)

    def _placed(self, path):
        """Where the numbers of a leaf lie, their type there, and how far they lie apart along each extent."""
        leaf, kind = self._leaves[path]
        places, fault = Places(), Fault()
        must(lly.place(self._handle, leaf, places, fault), fault)
        strides = _strides(places, self.shape)
        if strides is None:
            raise ValueError(f'{path}: no strides say where its numbers lie')
        if 8 * kind.itemsize != places.width:
            kind = numpy.dtype(f'{"i" if places.is_signed else "u"}{places.width // 8}')
        return places, kind.newbyteorder('>' if places.is_turned else '<'), strides

    def _blob(self, blob):
        """Where the bytes of a blob lie, and how many they are."""
        at, length = c_void_p(), c_size_t()
        must(lly.blob_at(self._handle, blob, at, length))
        return at.value or 0, length.value

    @contextlib.contextmanager
    def edit(self):
        """Lends the numbers where they lie: `with view.edit() as columns: columns[path][:] = numbers`, an array for each leaf that has a column. They come back at the end of the block;
        where it raises, or a number is none that the view may hold, the view stays as it was."""
        self._keep()
        lent, fault = bytearray(filled(lly.lend, self._handle)), Fault()
        yield _Lent(self, lent)
        self._keep()
        must(getattr(lly, 'return')(self._handle, *sized(bytes(lent)), fault), fault)

    def set_run(self, path, first, numbers):
        """Stores numbers in a leaf of the rows from `first` on. Of a strict view that refuses one, those before it are stored."""
        numbers, fault = _whole(path, numbers), Fault()
        numbers = numpy.ascontiguousarray(numbers, numbers.dtype.newbyteorder('<'))
        must(lly.set_run_as(self._handle, self.row(first), self._leaves[path][0], *_numbers(numbers), fault), fault)

    def gather(self, path, rows):
        """The numbers of a leaf in the rows of a list, in its order."""
        leaf, kind = self._leaves[path]
        call, wide = (lly.gather_u64, numpy.uint64) if kind == numpy.uint64 else (lly.gather, numpy.int64)
        rows = _rows(rows)
        numbers = numpy.empty(rows.shape, wide)
        must(call(self._handle, rows.ctypes.data, rows.size, leaf, numbers.ctypes.data))
        return numbers.astype(kind, copy=False)

    def scatter(self, path, rows, numbers):
        """Stores a number in each row of a list, in its order. Of a strict view that refuses one, those before it are stored."""
        numbers = _whole(path, numbers)
        call, wide = (lly.scatter_u64, numpy.uint64) if numbers.dtype == numpy.uint64 else (lly.scatter, numpy.int64)
        self._scatter(call, path, rows, numbers, wide)

    def scatter_add(self, path, rows, numbers):
        """Adds a number, of 64 bits with a sign, to what stands in each row of a list, in its order."""
        numbers = _whole(path, numbers)
        if numbers.dtype == numpy.uint64 and numbers.size and numbers.max() >= 2 ** 63:
            raise OverflowError(f'{numbers.max()} is not below 2^63')
        self._scatter(lly.scatter_add, path, rows, numbers, numpy.int64)

    def box(self, path, low, high):
        """The numbers of a leaf at the indices from `low` up to, and without, `high`, each a number for each extent, in an array of that shape."""
        leaf, kind = self._leaves[path]
        call, wide = (lly.get_box_u64, numpy.uint64) if kind == numpy.uint64 else (lly.get_box, numpy.int64)
        bounds, shape = self._bounds(low, high)
        numbers = numpy.empty(shape, wide)
        must(call(self._handle, *bounds, leaf, numbers.ctypes.data, numbers.size))
        return numbers.astype(kind, copy=False)

    def set_box(self, path, low, high, numbers):
        """Stores numbers there. Of a strict view that refuses one, those before it are stored."""
        numbers = _whole(path, numbers)
        call, wide = (lly.set_box_u64, numpy.uint64) if numbers.dtype == numpy.uint64 else (lly.set_box, numpy.int64)
        bounds, shape = self._bounds(low, high)
        numbers, fault = numpy.ascontiguousarray(numpy.broadcast_to(numbers, shape), wide), Fault()
        must(call(self._handle, *bounds, self._leaves[path][0], numbers.ctypes.data, numbers.size, fault), fault)

    def _bounds(self, low, high):
        """Bounds as calls take them, and the shape of the box if they have one."""
        low, high = ([_within(0, number) for number in bounds] for bounds in (low, high))
        must(Answer.DONE if len(low) == len(high) else Answer.BAD_WINDOW)
        kind = c_uint64 * len(low)
        return (kind(*low), kind(*high), len(low)), [max(min(end, most) - first, 0) for first, end, most in zip(low, high, self.shape)]

    def _scatter(self, call, path, rows, numbers, wide):
        rows, fault = _rows(rows), Fault()
        numbers = numpy.ascontiguousarray(numpy.broadcast_to(numbers, rows.shape), wide)
        must(call(self._handle, rows.ctypes.data, rows.size, self._leaves[path][0], numbers.ctypes.data, fault), fault)

    def row(self, index):
        """The row of an index, which has as many numbers as there are extents; or that of its number."""
        if not isinstance(index, tuple):
            return _within(0, index)
        numbers = (c_uint64 * len(index))(*[_within(0, number) for number in index])
        return asked(lly.row, c_uint64, self._handle, numbers, len(index))

    def get(self, row, path):
        """One number, of a row that `row` takes."""
        leaf, kind = self._leaves[path]
        call, wide = (lly.get_u64, c_uint64) if kind == numpy.uint64 else (lly.get, c_int64)
        return asked(call, wide, self._handle, self.row(row), leaf)

    def set(self, row, path, number):
        number = _within(-2 ** 63, number)
        call = lly.set_u64 if number >= 2 ** 63 else lly.set
        must(call(self._handle, self.row(row), self._leaves[path][0], number))

    def counts(self, path):
        """How often a leaf was read, and written, where the layout counts that."""
        reads, writes = c_uint64(), c_uint64()
        must(lly.counts(self._handle, self._leaves[path][0], reads, writes))
        return reads.value, writes.value

    def relayout(self, layout):
        """Lays the table out anew."""
        self._keep()
        fault = Fault()
        must(lly.relayout(self._handle, *sized(f'relayout V as {layout}'), fault), fault)

    def kernel(self, kernel, lanes=1):
        """Runs a kernel such as `sum(x)` over the rows, and returns its number if it has one."""
        number, fault = c_int64(), Fault()
        must(lly.kernel(self._handle, *sized(f'kernel V {kernel} lanes {lanes}'), number, fault), fault)
        return None if kernel.lstrip().startswith(SAYS_NOTHING) else number.value

    def do(self, line):
        """Does a line `set V[..].path = ..`, `update V ..`, `kernel V ..` or `reduce V ..`, whatever name it gives the view, and returns its number if it has one."""
        number, fault = c_int64(), Fault()
        must(lly.do(self._handle, *sized(line), number, fault), fault)
        return number.value if SAYS_A_NUMBER.match(line) else None

    def tell(self, line):
        """What a line `print V window [..]`, `counts V`, `heat V`, `layout V` or `bytes V B` writes, whatever name it gives the view."""
        return filled(lly.tell, self._handle, *sized(line), behind=(Fault(),)).decode()

    def copy_to(self, target):
        """Makes the table of a view of the same record and extents that of this one."""
        fault = Fault()
        must(lly.copy(self._handle, target._handle, fault), fault)

    def to_array(self):
        """The table in a structured array."""
        array = numpy.zeros(self.shape, self.dtype)
        for path, _, steps in leaves_of(self.dtype):
            part_of(array, steps)[...] = self[path]
        return array

    def to_frame(self):
        """The table in a frame of pandas, a column for each path."""
        import pandas
        return pandas.DataFrame({path: self[path].ravel() for path in self.paths})

    def text(self):
        """The table as CSV, as `print` of a script shows it."""
        return filled(lly.print, self._handle).decode()

    def blobs(self):
        """The bytes of each blob, as the layout says."""
        return [filled(lly.blob, self._handle, blob) for blob in range(asked(lly.blobs, c_size_t, self._handle))]

    def to_bytes(self):
        """The bytes of its file."""
        return filled(lly.save, self._handle)

    def save(self, file):
        pathlib.Path(file).write_bytes(self.to_bytes())

    def drop(self):
        """Lets the table go before the object does; then every call is refused."""
        self._keep()
        lly.drop(self._handle)

    def _keep(self):
        if self._columns:
            raise BufferError('a column of the view is in use')


class _Column:
    """What an array of a column holds: it keeps the view."""

    def __init__(self, view, kind, at, strides):
        self._view = view
        self.__array_interface__ = {'version': 3, 'shape': view.shape, 'typestr': kind, 'data': (at, True), 'strides': strides}


class _Lent:
    """The leaves of a view in the bytes of its blobs, one behind another."""

    def __init__(self, view, lent):
        self._view, self._bytes = view, lent

    def __getitem__(self, path):
        places, kind, strides = self._view._placed(path)
        before = sum(self._view._blob(blob)[1] for blob in range(places.blob))
        return numpy.ndarray(self._view.shape, kind, self._bytes, before + places.base, strides)


def _strides(places, shape):
    """How far the numbers of a leaf lie apart along each extent, or None where that is not one number."""
    if places.in_bits or places.in_digits:
        return None
    if places.lanes >= math.prod(shape):
        return tuple(places.lane * math.prod(shape[at + 1:]) for at in range(len(shape)))
    return (places.block, places.lane) if shape[1:] == (places.lanes,) else None


def _whole(of, numbers):
    """Whole numbers in an array."""
    numbers = numpy.asarray(numbers)
    if numbers.size and numbers.dtype.kind not in 'bui':
        raise TypeError(f'{of}: {numbers.dtype} is no type of whole numbers')
    return numbers


def _numbers(array):
    """The numbers of an array as calls take them: how wide they are, whether they have a sign, and their bytes."""
    return 8 * array.itemsize, array.dtype.kind == 'i', array.ctypes.data, array.nbytes


def _rows(rows):
    """Rows as calls take them. One below 0 is no row."""
    rows = _whole('rows', rows)
    if rows.size and rows.min() < 0:
        raise OverflowError(f'{rows.min()} is no row')
    return numpy.ascontiguousarray(rows, numpy.uint64)


def _within(least, number):
    """A number that a call takes, whose low 64 bits would else be handed on."""
    number = operator.index(number)
    if not least <= number < 2 ** 64:
        raise OverflowError(f'{number} is not from {least} to {2 ** 64 - 1}')
    return number


def _line(extents, wrap, layout, record='R'):
    return f'view V : {record} [{", ".join(map(str, extents))}]{" wrap" * wrap} as {layout}'
