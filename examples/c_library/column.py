"""Columns of a view as arrays of numpy, and what a view refuses."""
import numpy
from llama_layout import Refused, View

view = View('record Cell { heat: i16, kind: u8 }', 'view Cells : Cell [100, 10] as soa(multi, row)')
view['heat'] = numpy.arange(-500, 500).reshape(100, 10)
heat = view.run('heat', 350, 300)
print(heat[0], heat[-1], heat.sum(), heat.dtype)
view.relayout('bitsoa(10, row)')
print(len(view.to_bytes()), view.kernel('least(heat)'), view.get((99, 9), 'heat'))
try:
    view['heat'] = 40000
except Refused as refusal:
    print(refusal)
