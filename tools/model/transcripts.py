"""Transcripts: the cases of a table as one text, in the form that docs/LANGUAGE.md has for its examples. They are read and written here alone.

A case is told by the files that it would have in a folder; tools/checks/cases says what each of them is. In a transcript it begins with a line
`== NAME`, and these fences stand below:

  csv NAME        a file that the script names
  llama           the script, the file script.llama
  bytes NAME      a file or the script in hexadecimal, with its text beside
  words           what the program is called with, as in a shell (no fence: llama run script.llama)
  output STATUS   what is printed, and the status (no number: 0; no fence: nothing, and 0)
  saved STATUS    the same in hexadecimal

In hexadecimal stands what a page would not show: bytes that are neither printed ASCII nor line ends, a blank before a line end, a last line without
line end, and a line that begins like a fence or a case.
"""
import itertools
import os
import pathlib
import re
import shlex

SCRIPT, WORDS, PRINTED, STATUS = 'script.llama', 'words', 'stdout', 'status'
# what a folder may have, and a transcript has no fence for
BEYOND = {'make', 'into', 'room', 'memory'}
HEADS = re.compile('llama|words|(csv|bytes) .+|(output|saved)( [0-9]+)?')
PLAIN = re.compile(rb'(?:(?!== |```)(?:[ -~]*[!-~])?\n)*')
HEX_COLUMNS = 47


class BadTranscript(Exception):
    """A transcript that is not in this form: its place, and what is wrong."""


def is_plain(data):
    return PLAIN.fullmatch(data) is not None


def hexed(data):
    """A line for up to 16 bytes, of which a line end is the last."""
    rows = re.findall(rb'[^\n]{0,15}\n|[^\n]{1,16}', data)
    return ''.join(f'{row.hex(" "):{HEX_COLUMNS}}  |{re.sub(rb"[^ -~]", b".", row).decode()}|\n' for row in rows)


def unhexed(text):
    return bytes.fromhex(''.join(line[:HEX_COLUMNS] for line in text.splitlines()))


def called(words):
    """The line that calls the program with these words, a word a line."""
    return shlex.join(['llama', *os.fsdecode(words).split('\n')[:-1]]) + '\n'


def words_in(line):
    return ''.join(word + '\n' for word in shlex.split(line)[1:]).encode()


def is_told(files):
    """Whether a transcript can tell a case."""
    return not BEYOND & files.keys() and (WORDS not in files or is_plain(os.fsencode(called(files[WORDS]))))


# written

def fence(head, text):
    return f'```{head}\n{text}```\n'


def of_file(name, data):
    if is_plain(data):
        return fence('llama' if name == SCRIPT else f'csv {name}', data.decode())
    return fence(f'bytes {name}', hexed(data))


def of_end(printed, status):
    kind, text = ('output', printed.decode()) if is_plain(printed) else ('saved', hexed(printed))
    return fence(f'{kind} {status}' if status else kind, text)


def text_of_case(name, files):
    given = sorted(files.keys() - {SCRIPT, WORDS, PRINTED, STATUS}) + [SCRIPT] * (SCRIPT in files)
    fences = [of_file(file, files[file]) for file in given]
    if WORDS in files:
        fences.append(fence('words', called(files[WORDS])))
    if PRINTED in files or STATUS in files:
        fences.append(of_end(files.get(PRINTED, b''), int(files.get(STATUS, 0))))
    return '\n'.join([f'== {name}\n', *fences])


def text_of(cases):
    return '\n'.join(text_of_case(name, files) for name, files in cases.items())


def tree_of(cases):
    """What stands below the folder of the cases: the transcript of each table, and the files of the cases that none can tell."""
    told, tree = {}, {}
    for place, files in cases.items():
        table, name = place.split('/')
        if is_told(files):
            told.setdefault(table, {})[name] = files
        else:
            tree |= {f'{place}/{file}': data for file, data in files.items()}
    return tree | {f'{table}.txt': text_of(those).encode() for table, those in told.items()}


def write_files(files, folder):
    for name, data in files.items():
        path = pathlib.Path(folder, name)
        path.parent.mkdir(parents=True, exist_ok=True)
        path.write_bytes(data)


# read

def files_in(text):
    """The files of a case, from its fences: every second one ends what the one before it begins."""
    files, pieces = {}, re.split(r'^```(.*)\n', text, flags=re.M)
    for head, body in zip(pieces[1::4], pieces[2::4]):
        if not HEADS.fullmatch(head):
            raise ValueError(f'there is no fence ```{head}')
        kind, _, rest = head.partition(' ')
        data = words_in(body) if kind == 'words' else unhexed(body) if kind in ('bytes', 'saved') else body.encode()
        if kind not in ('output', 'saved'):
            files[{'llama': SCRIPT, 'words': WORDS}.get(kind, rest)] = data
        elif data:
            files[PRINTED] = data
        if kind in ('output', 'saved') and rest:
            files[STATUS] = f'{int(rest)}\n'.encode()
    return files


def cases_in(path):
    """The cases of a transcript, the files of each by its name. It has to be as it is written here."""
    text = path.read_bytes().decode('latin-1')
    pieces, cases = re.split(r'^== (.*)\n', text, flags=re.M), {}
    for name, body in zip(pieces[1::2], pieces[2::2]):
        if name in cases:
            raise BadTranscript(f'{path}: two cases have the name {name}')
        try:
            cases[name] = files_in(body)
        except ValueError as bad:
            raise BadTranscript(f'{path}: {name}: {bad}') from None
        if not is_told(cases[name]):
            raise BadTranscript(f'{path}: {name}: this case has to be a folder')
    for number, (line, due) in enumerate(itertools.zip_longest(text.split('\n'), text_of(cases).split('\n')), 1):
        if line != due:
            raise BadTranscript(f'{path}:{number}: {line!r} stands where a transcript has {due!r}')
    return cases


def files_below(folder):
    return {str(path.relative_to(folder)): path.read_bytes() for path in sorted(folder.rglob('*')) if path.is_file()}


def cases_below(folder):
    """The cases TABLE/NAME of a folder: those of its transcripts TABLE.txt, and its folders TABLE/NAME."""
    told = {f'{path.stem}/{name}': files for path in sorted(folder.glob('*.txt')) for name, files in cases_in(path).items()}
    kept = {f'{path.parent.name}/{path.name}': files_below(path) for path in sorted(folder.glob('*/*')) if path.is_dir()}
    for place in told.keys() & kept.keys():
        raise BadTranscript(f'{folder}: {place} is a folder, and in a transcript too')
    return told | kept
