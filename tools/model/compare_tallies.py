#!/usr/bin/env python3
"""Compares the model with the second account of counts, heat and layout (tables/tallies.py) over thrown scripts."""
import sys

import llama_model
from tables.case import in_version_2
from tables.tallies import ALONE, thrown_actors, thrown_advice, thrown_case, thrown_stencil, thrown_window
from tables.widths import thrown_widths

DEPTHS, EACH, EACH_OF_VERSION_2 = range(1, 9), range(100, 125), range(100, 115)
ALONE_IN_VERSION_2 = ALONE + [thrown_actors] * 4 + [thrown_window, thrown_window, thrown_stencil, thrown_stencil, thrown_stencil, thrown_advice]


def printed(script):
    """What a script prints in the model."""
    text, _ = llama_model.run_lines(llama_model.World('.'), script.encode().split(b' | '))
    return text.decode()


def main():
    cases = [thrown_case(number, depth) for depth in DEPTHS for number in EACH]
    cases += [in_version_2(thrown_case(number, depth, thrown_widths, ALONE_IN_VERSION_2)) for depth in DEPTHS for number in EACH_OF_VERSION_2]
    wrong = 0
    for case in cases:
        due = case.due.replace(' | ', '\n') + '\n'
        if printed(case.script) != due:
            wrong += 1
            print(f'{case.name}\n  script: {case.script}\n  due: {due}\n  got: {printed(case.script)}')
    print(f'model: {len(cases) - wrong} of {len(cases)} thrown scripts counted and drawn as the second account has them')
    return 1 if wrong else 0


sys.exit(main())
