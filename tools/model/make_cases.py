#!/usr/bin/env python3
"""Writes the cases of the tables: a transcript for each table, and a folder for each case that no transcript can tell.

usage: make_cases.py FOLDER          writes them as FOLDER/TABLE.txt and FOLDER/TABLE/NAME
       make_cases.py --check FOLDER  tells the cases that do not stand there as they are written, and what else stands there

What is printed comes from the model, and must be what the table tells, which was worked out by hand. FOLDER/by_hand.txt and FOLDER/by_hand have the cases
of no table.
"""
import pathlib
import re
import shutil
import subprocess
import sys
import tempfile

import llama_model
from tables import TABLES
from transcripts import BadTranscript, cases_below, files_below, tree_of, write_files

BY_HAND = 'by_hand'
FULL, NO_MEMORY = 4, 5
CASES = {f'{table.__name__.rsplit(".", 1)[-1]}/{case.name}': case for table in TABLES for case in table.CASES}


def lines(text):
    """The bytes of a text of lines; bytes stay as they are."""
    if isinstance(text, bytes):
        return text
    return ''.join(line + '\n' for line in text.split(' | ')).encode() if text else b''


def status_of(printed):
    """The status that goes with what is printed. A file may stand right before the last line."""
    if re.search(rb'line \d+: cannot read [^\n]*\n\Z', printed):
        return 3
    if re.search(rb'usage: [^\n]*\n\Z', printed):
        return 2
    return 1 if re.search(rb'line \d+: [^\n]*\n\Z', printed) else 0


def inputs_of(case):
    """The files of a case, but for what is printed and the status."""
    files = dict(case.files or {})
    if case.script is not None:
        files['script.llama'] = lines(case.script)
    if case.words is not None:
        files['words'] = ''.join(word + '\n' for word in case.words).encode()
    if case.csv is not None:
        files['d.csv'] = case.csv
    if case.make is not None:
        files['make'] = case.make.encode()
    for name, value in (('into', case.into), ('room', case.room), ('memory', case.memory)):
        if value is not None:
            files[name] = f'{value}\n'.encode()
    return files


def modelled(files, words):
    """What the model prints for these words in a folder of the files, where the big ones are made."""
    with tempfile.TemporaryDirectory() as folder:
        write_files(files, folder)
        if 'make' in files:
            subprocess.run(['sh', 'make'], cwd=folder, check=True)
        return llama_model.run(words, folder)


def agrees(printed, due):
    if isinstance(due, str) and due.startswith('.. | '):
        return printed.endswith(b'\n' + lines(due[5:]))
    return printed == lines(due)


def what_is_taken(case, printed, status):
    """What of a run's output is taken, and how the run ends, where the output is full or memory is wanting."""
    if case.into is not None:
        return b'', FULL
    if case.room is not None:
        assert len(printed) > 1024 * case.room, f'{case.name} prints too little'
        return printed[:1024 * case.room], FULL
    return (b'', NO_MEMORY) if case.memory is not None else (printed, status)


def files_of(case):
    """The files of a case, and whether the model and the table agree."""
    files = inputs_of(case)
    printed, status = (lines(case.due), status_of(lines(case.due))) if case.by_hand else modelled(files, ['run', 'script.llama'] if case.words is None else case.words)
    taken, ended = what_is_taken(case, printed, status)
    if taken:
        files['stdout'] = taken
    if ended:
        files['status'] = f'{ended}\n'.encode()
    if agrees(printed, case.due) and status == status_of(printed):
        return files, True
    print(f'{case.name}\n  table: {case.due}\n  model: {printed[-400:].decode(errors="replace")}({status})')
    return files, False


def is_by_hand(place):
    return re.split('[/.]', place)[0] == BY_HAND


def check(folder, cases):
    """Tells the cases that do not stand in the folder as they are written, and those there that are of no table. Where none differs, the files have to be
    those that are written: each case in its form, and in the order of its table."""
    found = {place: files for place, files in cases_below(folder).items() if not is_by_hand(place)}
    wrong = [f'not as the table and the model have it: {place}' for place, files in cases.items() if found.get(place) != files]
    wrong += [f'of no table: {place}' for place in found if place not in cases]
    if not wrong:
        due, there = tree_of(cases), {name: data for name, data in files_below(folder).items() if not is_by_hand(name)}
        wrong = [f'not as it is written: {name}' for name in sorted(due.keys() | there.keys()) if due.get(name) != there.get(name)]
    for how in wrong:
        print(how)
    return not wrong


def write(folder, cases):
    for table in {place.split('/')[0] for place in cases}:
        shutil.rmtree(folder / table, ignore_errors=True)
    write_files(tree_of(cases), folder)


def main(words):
    assert len(CASES) == sum(len(table.CASES) for table in TABLES), 'two cases of a table have one name'
    folder = pathlib.Path(words[-1])
    made = {place: files_of(case) for place, case in CASES.items()}
    good, cases = all(agree for _, agree in made.values()), {place: files for place, (files, _) in made.items()}
    if words[:1] == ['--check']:
        good = check(folder, cases) and good
    else:
        write(folder, cases)
    print(f'model: {len(CASES)} cases of the tables')
    return 0 if good else 1


try:
    sys.exit(main(sys.argv[1:]))
except BadTranscript as bad:
    sys.exit(f'model: {bad}')
