"""Tests of llama_layout: python3 -m unittest discover tests. What pandas is needed for is left out where it is not."""
import copy
import pathlib
import re
import tempfile
import unittest

import numpy

from llama_layout import Answer, Refused, View

try:
    import pandas
except ImportError:
    pandas = None

HEADER = pathlib.Path(__file__).resolve().parents[2] / 'include/llama_layout.h'
KIND = numpy.dtype([('on', '?'), ('pos', [('x', 'i2'), ('y', 'u1')]), ('h', 'u4', (2, 2)), ('big', 'u8'), ('low', 'i8')])
LAYOUTS = ('aos(packed, row)', 'soa(multi, col)', 'aosoa(4, morton)', 'bitsoa(64, row)', 'split(pos, byteswap(aos(min, row)), bitaos(64, col))', 'bytesplit(soa(aligned, row))')


def filled(shape=(3, 5)):
    """An array of this type with the limits of each number in it."""
    array = numpy.zeros(shape, KIND)
    array['on'] = numpy.arange(array.size).reshape(shape) % 3 == 0
    for part in (array['pos']['x'], array['pos']['y'], array['h'], array['big'], array['low']):
        limits = numpy.iinfo(part.dtype)
        part[...] = numpy.arange(part.size).reshape(part.shape)
        part[0, 0], part[-1, -1] = limits.min, limits.max
    return array


class OfArrays(unittest.TestCase):
    def test_each_layout_keeps_the_table(self):
        array = filled()
        for layout in LAYOUTS:
            view = View.from_array(array, layout)
            self.assertEqual((view.dtype, view.shape, len(view)), (KIND, (3, 5), 15))
            self.assertTrue((view.to_array() == array).all(), layout)

    def test_a_leaf_is_an_array_of_its_type(self):
        view = View.from_array(filled())
        self.assertEqual(view.paths, ['on', 'pos.x', 'pos.y', 'h[0][0]', 'h[0][1]', 'h[1][0]', 'h[1][1]', 'big', 'low'])
        for path, kind in (('on', bool), ('pos.x', 'i2'), ('h[1][0]', 'u4'), ('big', 'u8'), ('low', 'i8')):
            self.assertEqual((view[path].dtype, view[path].shape), (numpy.dtype(kind), (3, 5)))
        self.assertTrue((view['h[1][0]'] == filled()['h'][..., 1, 0]).all())

    def test_what_is_read_is_a_copy(self):
        view = View.from_array(filled())
        view['pos.y'][...] = 7
        self.assertTrue((view['pos.y'] == filled()['pos']['y']).all())

    def test_a_column_is_where_the_numbers_lie(self):
        for layout in ('aos(packed, row)', 'aos(aligned, row)', 'soa(multi, row)', 'soa(single, col)', 'byteswap(aos(min, col))', 'bitsoa(64, row)'):
            view = View.from_array(filled(), layout)
            for path in ('on', 'pos.x', 'h[1][0]', 'big', 'low'):
                column = view.column(path)
                self.assertEqual((column.dtype.newbyteorder('='), column.shape), (view[path].dtype, (3, 5)))
                self.assertTrue((column == view[path]).all(), (layout, path))
                self.assertFalse(column.flags.writeable)
            view.set((1, 2), 'low', -77)
            self.assertEqual(column[1, 2], -77)

    def test_a_column_keeps_its_view(self):
        view = View.from_array(filled())
        column = view.column('low')[::2]
        self.assertRaises(BufferError, view.relayout, 'aos(packed, row)')
        self.assertRaises(BufferError, view.drop)
        due = view['low'][::2]
        del view
        self.assertTrue((column == due).all())
        view = View.from_array(filled())
        view.column('low')
        view.relayout('aos(packed, row)')

    def test_other_leaves_have_no_column(self):
        for layout in ('aosoa(4, row)', 'soa(multi, morton)', 'bitaos(20, row)'):
            self.assertRaises(ValueError, View('record P { x: i32 }', f'view V : P [3, 5] as {layout}').column, 'x')
        with self.assertRaises(Refused) as caught:
            View.from_array(filled(), 'bytesplit(soa(aligned, row))').column('big')
        self.assertEqual(caught.exception.answer, Answer.IRREGULAR)
        self.assertEqual(View('record P { x: i32 }', 'view V : P [0, 3] as soa(multi, row)').column('x').shape, (0, 3))

    def test_numbers_are_changed_where_they_lie(self):
        for layout in ('aos(packed, row)', 'soa(multi, row)', 'byteswap(soa(single, col))', 'bitsoa(64, row)'):
            view, due = View.from_array(filled(), layout), filled()
            with view.edit() as columns:
                columns['pos.x'][1:] = 9
                columns['big'][...] += numpy.uint64(1)
            due['pos']['x'][1:], due['big'] = 9, due['big'] + numpy.uint64(1)
            self.assertTrue((view.to_array() == due).all(), layout)
            with self.assertRaises(Refused) as caught, view.edit() as columns:
                columns['on'].view('u1')[0, 0] = 2
            self.assertEqual((caught.exception.answer, caught.exception.cause), (Answer.BAD_FILE, 5))
            with self.assertRaises(KeyError), view.edit() as columns:
                columns['low'][...] = 0
                columns['none']
            self.assertTrue((view.to_array() == due).all(), layout)
            self.assertTrue((View(view.record, view.layout).blobs()[-1] == bytes(len(view.blobs()[-1]))), layout)

    def test_the_memory_is_that_of_numpy(self):
        packed, aligned = numpy.dtype([('a', 'u1'), ('b', '<i4')]), numpy.dtype([('a', 'u1'), ('b', '<i4')], align=True)
        for kind, layout in ((aligned, 'aos(aligned, row)'), (packed, 'aos(packed, row)')):
            table = numpy.zeros(9, kind)
            table['a'], table['b'] = range(9), range(-4, 5)
            self.assertEqual(View.from_array(table, layout).blobs(), [table.tobytes()])
        self.assertEqual(View.from_array(table, 'soa(multi, row)').blobs(), [table['a'].tobytes(), table['b'].tobytes()])
        self.assertEqual(View.from_array(table, 'byteswap(soa(multi, row))').blobs()[1], table['b'].astype('>i4').tobytes())
        self.assertEqual(View.from_array(table, 'change(i32->i8, soa(multi, row))').blobs()[1], table['b'].astype('i1').tobytes())
        bits = sum((int(row['a']) + ((int(row['b']) & 15) << 4)) << 8 * k for k, row in enumerate(table))
        self.assertEqual(View.from_array(table, 'bitaos(4, row)', wrap=True).blobs(), [(bits & (1 << 72) - 1).to_bytes(16, 'little')])

    def test_other_arrays_are_taken(self):
        big_end = numpy.array([(1, -2), (3, 4)], [('a', '>u2'), ('b', '>i8')])
        self.assertEqual(View.from_array(big_end).text(), 'a,b\n1,-2\n3,4\n')
        self.assertEqual(View.from_array(big_end[::-1]).text(), 'a,b\n3,4\n1,-2\n')
        self.assertEqual(View.from_array(numpy.zeros((0, 3), KIND)).to_array().shape, (0, 3))

    def test_what_is_no_table_is_refused(self):
        for array in (numpy.zeros(3), numpy.zeros(3, [('a', 'f8')]), numpy.zeros(3, [('a', 'S4')])):
            self.assertRaises(TypeError, View.from_array, array)
        for kind in ([('min', 'u1')], [('a b', 'u1')]):
            self.assertRaises(Refused, View.from_array, numpy.zeros(3, kind))


class OfCalls(unittest.TestCase):
    def setUp(self):
        self.view = View('record P { x: i32, n: u16, on: bool, big: u64 }', 'view V : P [2, 3] as aos(packed, row)')

    def refused(self, answer, act, *words, **fault):
        with self.assertRaises(Refused) as caught:
            act(*words)
        named = {name: getattr(caught.exception, name) for name in fault}
        self.assertEqual((caught.exception.answer, named), (answer, fault))
        return str(caught.exception)

    def test_one_number(self):
        self.view.set((1, 2), 'x', -7)
        self.view.set(5, 'big', 2 ** 64 - 1)
        self.view.set(numpy.int64(5), 'on', numpy.uint8(1))
        self.assertEqual([self.view.get(5, path) for path in self.view.paths], [-7, 0, 1, 2 ** 64 - 1])
        self.assertEqual(self.view.row((1, 2)), 5)
        self.refused(Answer.RANGE, self.view.set, 0, 'n', 65536)
        self.refused(Answer.RANGE, self.view.set, 0, 'n', 2 ** 64 - 1)
        self.refused(Answer.NO_PLACE, self.view.get, 6, 'x')
        self.refused(Answer.NO_PLACE, self.view.row, (2, 0))
        self.assertRaises(TypeError, self.view.set, 0, 'x', 1.0)
        self.assertRaises(KeyError, self.view.get, 0, 'y')
        for act, words in ((self.view.set, (0, 'big', 2 ** 64)), (self.view.set, (0, 'x', -2 ** 63 - 1)), (self.view.get, (2 ** 64, 'x')), (self.view.row, ((0, -1),)), (self.view.run, ('x', -1, 1))):
            self.assertRaises(OverflowError, act, *words)

    def test_runs(self):
        self.view.set_run('x', 2, [5, 6])
        self.assertEqual(list(self.view.run('x', 1, 4)), [0, 5, 6, 0])
        self.view['n'] = 4
        self.view['big'] = numpy.array([[2 ** 64 - 1] * 3] * 2, 'u8')
        self.assertEqual((self.view['n'].sum(), self.view['big'].max()), (24, 2 ** 64 - 1))
        last = 3
        self.assertIn(f'row {last}', self.refused(Answer.RANGE, self.view.set_run, 'n', 1, [1, 2, -1], row=last, leaf=1))
        self.assertEqual(list(self.view['n'].ravel()), [4, 1, 2, 4, 4, 4])
        for kind in ('i1', '>i2', '<u4', '?'):
            self.view.set_run('x', 0, numpy.arange(12).astype(kind)[::2])
            self.assertEqual(list(self.view['x'].ravel()), list(numpy.arange(0, 12, 2).astype(kind)))
        self.view.set_run('big', 0, numpy.array([0.5, -2.25]).view('u8'))
        self.assertEqual(list(self.view.run('big', 0, 2).view('f8')), [0.5, -2.25])
        self.refused(Answer.NO_PLACE, self.view.run, 'x', 5, 2)
        self.assertRaises(TypeError, self.view.set_run, 'x', 0, [0.5])
        self.assertRaises(ValueError, self.view.__setitem__, 'x', [1, 2])

    def test_counts(self):
        self.refused(Answer.NO_PLACE, self.view.counts, 'x')
        self.view.relayout('count(soa(multi, row))')
        self.view.set(0, 'x', 1)
        self.view.run('x', 0, 2)
        self.assertEqual((self.view.counts('x'), self.view.counts('n')), ((2, 7), (0, 6)))

    def test_lists_of_rows(self):
        rows = [5, 1, 5]
        self.view.scatter('x', rows, [1, 2, 3])
        self.view.scatter_add('x', rows, [10, 20, -30])
        self.assertEqual(list(self.view.gather('x', rows)), [-17, 22, -17])
        self.view.scatter('big', rows, numpy.array([1, 2, 2 ** 64 - 1], 'u8'))
        self.assertEqual(self.view.gather('big', numpy.array([5, 0])).tolist(), [2 ** 64 - 1, 0])
        self.view.scatter_add('n', rows, 1)
        self.assertEqual(list(self.view['n'].ravel()), [0, 1, 0, 0, 0, 2])
        self.refused(Answer.RANGE, self.view.scatter_add, 'n', [1, 5], [1, -3], row=5, leaf=1)
        self.refused(Answer.NO_PLACE, self.view.gather, 'x', [6])
        self.assertEqual(self.view.gather('x', []).size, 0)
        self.assertRaises(TypeError, self.view.scatter, 'x', rows, 0.5)
        self.assertRaises(OverflowError, self.view.gather, 'x', [-1])
        self.assertRaises(OverflowError, self.view.scatter_add, 'x', rows, numpy.uint64(2 ** 63))

    def test_boxes(self):
        self.view['x'] = numpy.arange(6).reshape(2, 3)
        self.assertEqual(self.view.box('x', (0, 1), (2, 3)).tolist(), [[1, 2], [4, 5]])
        self.view.set_box('big', (1, 0), (2, 3), numpy.array([[1, 2, 2 ** 64 - 1]], 'u8'))
        self.assertEqual(self.view.box('big', (0, 2), (2, 3)).tolist(), [[0], [2 ** 64 - 1]])
        self.view.set_box('n', (0, 0), (2, 2), 7)
        self.assertEqual(self.view['n'].tolist(), [[7, 7, 0], [7, 7, 0]])
        self.assertEqual(self.view.box('x', (2, 0), (2, 3)).shape, (0, 3))
        self.refused(Answer.RANGE, self.view.set_box, 'n', (1, 0), (2, 3), [1, 2, -1], row=5, leaf=1)
        for bounds in (((0,), (2,)), ((0, 0), (2,)), ((1, 0), (0, 3)), ((0, 0), (2, 4)), ((0, 0), (2, 2 ** 64 - 1))):
            self.refused(Answer.BAD_WINDOW, self.view.box, 'x', *bounds)
        self.assertRaises(ValueError, self.view.set_box, 'n', (0, 0), (2, 2), [1, 2, 3])
        self.assertRaises(OverflowError, self.view.box, 'x', (0, -1), (2, 3))

    def test_whole_tables(self):
        self.view['x'] = numpy.arange(6).reshape(2, 3)
        self.view.relayout('bitsoa(64, morton)')
        self.assertEqual([self.view.kernel(text) for text in ('sum(x)', 'clamp(x, 1, 4)', 'greatest(x)', 'count_where(x == 1)')], [15, None, 4, 2])
        other = View('record Q { x: i32, n: u16, on: bool, big: u64 }', 'view W : Q [2, 3] as soa(multi, row)')
        self.view.copy_to(other)
        self.assertEqual(other.text(), self.view.text())
        self.refused(Answer.SAME, self.view.copy_to, self.view)
        self.refused(Answer.BAD_MAPPING, self.view.relayout, 'aosoa(65, row)', cause=3)
        self.refused(Answer.BAD_KERNEL, self.view.kernel, 'sum(big)', cause=2)

    def test_lines(self):
        self.view['x'] = numpy.arange(6).reshape(2, 3)
        lines = 'set V[0, 0].x = 7', 'update V where x < 5 set n = x', 'reduce V sum n', 'kernel V clamp(x, 0, 5) lanes 2', 'kernel V sum(x) lanes 2'
        self.assertEqual([self.view.do(line) for line in lines], [None, None, 10, None, 20])
        self.assertEqual(self.view.tell('print V window [0 : 1, 0 : 2]'), 'x,n,on,big\n5,0,0,0\n1,1,0,0\n')
        self.refused(Answer.DIVIDE_BY_ZERO, self.view.do, 'update V set x = 1 / (x - 2)', row=2)
        self.refused(Answer.BAD_WINDOW, self.view.tell, 'print V window [0 : 3, 0 : 2]')
        self.refused(Answer.TWICE, self.view.do, 'update V set n = 1, n = 2', words='Twice 1')

    def test_refused_lines(self):
        self.assertIn('column 14', self.refused(Answer.SYNTAX, View, 'record P { x i32 }', 'view V : P [1] as aos(packed, row)', cause=1, column=14))
        self.assertIn('share a name', self.refused(Answer.BAD_RECORD, View, 'record P { x:i8, x:i8 }', 'view V : P [1] as aos(packed, row)', cause=3))
        self.refused(Answer.LINE_TOO_LONG, View, ' ' * 4097, '')

    def test_wrap_keeps_low_bits(self):
        view = View('record P { x: u8 } # a byte', 'view V : P [2] wrap as aos(packed, row)')
        view['x'] = [257, -1]
        self.assertEqual(list(view['x']), [1, 255])

    def test_a_dropped_view_is_none(self):
        shared = copy.copy(self.view)
        self.view.drop()
        self.refused(Answer.NO_VIEW, len, shared)

    def test_a_dataset(self):
        view = View.load('record P { x: i32, on: bool }', 'load V : P [2, ?] as soa(multi, row) from "any"', b'on,x\n1,-5\n0,6\n1,7\n0,8\n')
        self.assertEqual((view.shape, view['x'].tolist()), ((2, 2), [[-5, 6], [7, 8]]))
        self.refused(Answer.NUMBER, View.load, 'record P { x: i32 }', 'load V : P [?] as soa(multi, row) from "any"', b'x\n1\nnone\n', row=1)


class OfFiles(unittest.TestCase):
    def test_files_are_opened_again(self):
        with tempfile.TemporaryDirectory() as folder:
            file = pathlib.Path(folder, 'table.blob')
            for layout in LAYOUTS:
                View.from_array(filled(), layout).save(file)
                view = View.open(file)
                self.assertEqual((view.dtype, view.shape), (KIND, (3, 5)))
                self.assertTrue((view.to_array() == filled()).all(), layout)
                self.assertEqual(view.to_bytes(), file.read_bytes())

    def test_other_bytes_are_refused(self):
        data = View.from_array(filled()).to_bytes()
        for other in (b'', data[:-1], data + b'\0', data.replace(b'LLAMAB1', b'LLAMAB2')):
            self.assertRaises(Refused, View.from_bytes, other)


@unittest.skipUnless(pandas, 'there is no pandas')
class OfFrames(unittest.TestCase):
    def setUp(self):
        self.frame = pandas.DataFrame({'x': [1, -2, 3], 'good': [True, False, True], 'n': numpy.array([7, 8, 9], 'u2')})

    def test_columns_are_fields(self):
        view = View.from_frame(self.frame, 'bitsoa(64, row)')
        self.assertEqual(view.dtype, numpy.dtype([('x', 'i8'), ('good', '?'), ('n', 'u2')]))
        pandas.testing.assert_frame_equal(view.to_frame(), self.frame)

    def test_a_record_names_its_columns(self):
        view = View.from_frame(pandas.DataFrame({'y': [1, 2], 'pos.x': [3, 4], 'h[0]': [5, 6], 'other': ['a', 'b']}), record='record P { pos { x:i8 }, h:u8[1] }')
        self.assertEqual(view.to_frame().to_dict('list'), {'pos.x': [3, 4], 'h[0]': [5, 6]})
        self.assertRaises(KeyError, View.from_frame, self.frame, record='record P { z:i8 }')

    def test_other_columns_are_refused(self):
        for column in ([1.5, 2.5, 3.5], ['a', 'b', 'c']):
            self.assertRaises(TypeError, View.from_frame, self.frame.assign(bad=column))
        self.assertRaises(Refused, View.from_frame, self.frame, record='record P { x:u8 }')


@unittest.skipUnless(HEADER.exists(), 'the header is not beside the package')
class OfTheHeader(unittest.TestCase):
    def test_answers_are_those_of_the_header(self):
        blocks = re.findall(r'enum \{\n(.*?)\};', HEADER.read_text(), re.S)
        answers, *causes = [[(name, int(number), said) for name, number, said in re.findall(r'LLY_(\w+) = (\d+),? */?\*? ?([^:\n]*?)(?::.*)?(?: \*/)?\n', block)] for block in blocks]
        self.assertEqual([(answer.name, answer.value) for answer in Answer], [(name, number) for name, number, _ in answers])
        self.assertEqual([answer.message for answer in Answer][1:], [said for _, _, said in answers[1:]])
        self.assertEqual([answer.causes for answer in Answer if answer.causes], [tuple(said for _, _, said in cause) for cause in causes])


if __name__ == '__main__':
    unittest.main()
