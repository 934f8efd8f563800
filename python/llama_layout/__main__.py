"""Blob files from a shell.

usage: python3 -m llama_layout show FILE                  the two lines that say what the table is, and the table as `print` shows it
       python3 -m llama_layout npy FILE TO                writes the table as a .npy file
       python3 -m llama_layout blob FROM TO LAYOUT [wrap] writes a .npy file as a blob file
"""
import sys

import numpy

from .view import View


def main(words):
    if len(words) == 2 and words[0] == 'show':
        view = View.open(words[1])
        print(view.record, view.layout, view.text(), sep='\n', end='')
    elif len(words) == 3 and words[0] == 'npy':
        numpy.save(words[2], View.open(words[1]).to_array())
    elif len(words) in (4, 5) and words[0] == 'blob' and words[4:] in ([], ['wrap']):
        View.from_array(numpy.load(words[1]), words[3], words[4:] == ['wrap']).save(words[2])
    else:
        sys.exit(__doc__)


if __name__ == '__main__':
    try:
        main(sys.argv[1:])
    except (ValueError, TypeError, OSError) as fault:
        sys.exit(f'llama_layout: {fault}')
