"""The cases of the language, a table for each subject."""
from . import (actors, advice, bit_fields, byte_forms, commands, copies, counts, cuts, datasets, exchanges, files, forms, generator, heat, kernels, layouts, limits, lines, morton, names, nested, outputs, refusals, runs, splits,
               stencils, strategies, tallies, values, versions, widths, windows, worked, wrappers, wraps)

TABLES = [commands, lines, refusals, datasets, layouts, forms, splits, bit_fields, copies, morton, byte_forms, nested, kernels, values, limits, counts, heat, runs, wrappers, tallies,
          strategies, generator, outputs, exchanges, cuts, names, wraps, versions, widths, files, actors, windows, stencils, advice, worked]
