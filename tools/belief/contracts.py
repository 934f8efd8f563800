"""The files of src/: contracts, types with their views, and traits."""
import re

from belief.words import trait_members, used

GHOST_USE = re.compile(r'ghost use Rattle\.([^;{]+?)(?:\.\{([^}]*)\})?(?: as (\S+))?;')
USE = re.compile(r'^(?:pub )?use ([^;]+);', re.M)
FUNCTION = re.compile(r'^( *)(?:pub(?:\(\w+\))? )?(?:const )?(?:unsafe )?(?:extern "C" )?fn (\w+)')
DECLARED = re.compile(r'^(?:pub(?:\(\w+\))? )?(struct|enum|trait|type|const) (\w+)')
BLOCK = re.compile(r'^(?:unsafe )?impl\b')
CLAUSE = re.compile(r'^ *(requires|ensures) (?:(\w+) )?\{ ?')
GHOST = re.compile(r'^    ghost (\w+)(?: =|:) ')
UPPER = re.compile(r'\b[A-Z]\w*')


class Item:
    """A type, a trait or a function of a file of src/, or the view or a member of an impl."""

    def __init__(self, source, kind, name, first, lines):
        self.source, self.kind, self.name, self.first, self.lines = source, kind, name, first, lines
        self.owner, self.view, self.imports, self.aliases = None, None, {}, {}
        self.read_imports()

    @property
    def path(self):
        return self.source.path

    @property
    def text(self):
        return '\n'.join(self.lines)

    @property
    def read_lines(self):
        """The lines that a reader has to read: of a trait its ghost members, and of a type that is seen as another value how it is."""
        if self.kind == 'trait':
            return [self.lines[0], *(line for _, lines in ghosts_of(self.lines) for line in lines), '}']
        return self.lines + (self.view.lines if self.view is not None else [])

    @property
    def size(self):
        return len(self.read_lines)

    def read_imports(self):
        for module, names, alias in GHOST_USE.findall(self.text):
            add_import(self.imports, self.aliases, module, names, alias)


def add_import(imports, aliases, module, names, alias):
    if not names:
        aliases[alias or module.rpartition('.')[2]] = module
        return
    for item in names.split(','):
        name, _, other = item.strip().partition(' as ')
        imports[other or name] = (module, name)


def paths_of(text):
    """The paths of a `use`, each with the name under which it stands in the file."""
    text = ' '.join(text.split())
    front, brace, rest = text.partition('::{')
    if not brace:
        path, _, other = text.partition(' as ')
        yield path, other or path.rpartition('::')[2]
        return
    for item in split_commas(rest[:-1]):
        yield from ((f'{front}::{path}', name) for path, name in paths_of(item.strip()) if item.strip())


def split_commas(text):
    """The parts of a text between commas that stand in no brackets."""
    parts, depth = [''], 0
    for letter in text:
        depth += {'{': 1, '<': 1, '(': 1, '}': -1, '>': -1, ')': -1}.get(letter, 0)
        if letter == ',' and depth == 0:
            parts.append('')
        else:
            parts[-1] += letter
    return [part for part in parts if part.strip()]


class RustSource:
    """A file of src/."""

    def __init__(self, crate, path, top):
        self.crate, self.path = crate, path
        self.where = str(path.relative_to(top / 'crates'))
        self.lines = path.read_text().split('\n')
        self.imports, self.aliases, self.uses = {}, {}, {}
        self.functions, self.types, self.views, self.members = {}, {}, {}, {}
        self.read_uses()
        self.read_items()

    @property
    def stem(self):
        return self.path.stem

    def read_uses(self):
        text = '\n'.join(line for line in self.lines if not line.startswith('    '))
        for module, names, alias in GHOST_USE.findall(text):
            add_import(self.imports, self.aliases, module, names, alias)
        for use in USE.findall('\n'.join(self.lines)):
            for path, name in paths_of(use):
                first, *_, last = path.split('::') if '::' in path else ('', path)
                self.uses[name] = (self.crate if first in ('crate', 'super', 'self', '') else first, last)

    def read_items(self):
        place = 0
        while place < len(self.lines):
            line = self.lines[place]
            end = block_end(self.lines, place)
            declared = DECLARED.match(line)
            if BLOCK.match(line):
                self.read_impl(self.lines[place:end], place)
            elif declared:
                item = Item(self, declared[1], declared[2], place + 1, self.lines[place:end])
                self.types[declared[2]] = item
                if declared[1] == 'trait':
                    self.read_functions(item.lines, place, declared[2], item)
            elif FUNCTION.match(line):
                self.read_functions(self.lines[place:end], place, None, None)
            else:
                place += 1
                continue
            place = end

    def read_impl(self, lines, place):
        head = ' '.join(' '.join(lines).split('{')[0].split())
        plain = re.sub(r'^(?:unsafe )?impl ?', '', head).split(' where ')[0]
        while re.search(r'<[^<>]*>', plain):
            plain = re.sub(r'<[^<>]*>', '', plain)
        trait, _, owner = plain.strip().rpartition(' for ')
        owner = owner.strip().lstrip('&').strip()
        block = Item(self, 'impl', f'{trait} for {owner}' if trait else owner, place + 1, lines)
        if trait == 'Model':
            self.views[owner] = block
        elif trait:
            for name, body in ghosts_of(lines):
                member = Item(self, 'member', f'{trait} of {owner}: {name}', place + 1, body)
                member.owner = block
                self.members[(owner, trait, name)] = member
        self.read_functions(lines, place, owner, block)

    def read_functions(self, lines, place, owner, block):
        for number, line in enumerate(lines):
            found = FUNCTION.match(line)
            if found and len(found[1]) == (4 if block else 0):
                item = Item(self, 'function', found[2], place + number + 1, head_of(lines, number))
                item.owner = block
                self.functions.setdefault(f'{owner}::{found[2]}' if owner else found[2], item)


def block_end(lines, place):
    """The line behind an item that begins here: it ends with its bracket, or on its line."""
    if re.search(r'[;}]$', lines[place]) and not lines[place].endswith('{'):
        return place + 1
    is_value = re.match(r'(?:pub(?:\(\w+\))? )?(?:const|static|type) \w+[:<= ]', lines[place])
    for end in range(place + 1, len(lines)):
        if lines[end].endswith(';') if is_value else lines[end].startswith('}') or lines[end] in ('{}', ');'):
            return end + 1
    return len(lines)


def head_of(lines, place):
    """The signature and the contract of a function."""
    indent = re.match(r' *', lines[place])[0]
    for end in range(place, len(lines)):
        line = lines[end]
        if line in (indent + '{', indent + '{}') or line.endswith(';'):
            return lines[place:end + 1]
        if CLAUSE.match(line) is None and re.search(r'\{(?:\}| .* \})?$', line) and not any(map(CLAUSE.match, lines[place:end])):
            return lines[place:end + 1]
    return lines[place:]


def ghosts_of(lines):
    """The ghost members of a trait or of an impl, each with its lines."""
    found = []
    for number, line in enumerate(lines):
        head = GHOST.match(line)
        if head and not line.startswith('    ghost use'):
            end = number
            while is_open(lines[number:end + 1]) and end + 1 < len(lines):
                end += 1
            found.append((head[1], lines[number:end + 1]))
    return found


def shown_fields(item):
    """The lines of a type that others see: the public fields of a struct, and all of an enum."""
    lines = [line for line in item.lines[1:] if not re.match(r' *(?:ghost|//|#)', line)]
    return [line for line in lines if line.startswith('    pub ')] if item.kind == 'struct' else lines


def is_open(lines):
    """Whether some bracket of a text is not closed in it."""
    text = ''.join(lines)
    return text.count('{') > text.count('}')


def clauses_of(function):
    """The clauses of a function: what it is, its name or '', and its lines."""
    found = []
    for line in function.lines:
        head = CLAUSE.match(line)
        if head:
            found.append((head[1], head[2] or '', [line]))
        elif found and line.strip() and not line.strip().startswith('//') and not re.match(r' *\{\}?$', line):
            found[-1][2].append(line)
    return found


def signature_of(function):
    """The text of a function in front of its clauses."""
    kept = []
    for line in function.lines:
        if CLAUSE.match(line):
            break
        kept.append(line)
    return re.sub(r"'\w+ ?", '', ' '.join(' '.join(kept).split()))


def clause_text(lines):
    return re.sub(r' *\}$', '', CLAUSE.sub('', ' '.join(line.strip() for line in lines)).rstrip(' ;'))


def parameters_of(signature):
    """The parameters of a function with their types, and its result."""
    inner = re.sub(r'^.*?fn \w+', '', signature)
    generic = ''
    if inner.startswith('<'):
        end = matching(inner, '<', '>')
        generic, inner = inner[1:end], inner[end + 1:]
    end = matching(inner, '(', ')')
    found = {}
    for part in split_commas(inner[1:end]):
        name, _, kind = part.partition(':')
        found[re.sub(r'^(?:mut|ghost) ', '', name.strip().lstrip('&')).replace('mut ', '').strip()] = kind.strip()
    found['result'] = inner[end + 1:].partition('->')[2].split('{')[0]
    return generic, found


def matching(text, opens, closes):
    depth = 0
    for place, letter in enumerate(text):
        if letter == opens:
            depth += 1
        elif letter == closes and text[place - 1] != '-':
            depth -= 1
            if depth == 0:
                return place
    return len(text)


def bounds_of(text):
    """The type parameters of a list in pointed brackets, each with its bounds."""
    found = {}
    for part in split_commas(text):
        name, _, bound = part.partition(':')
        found[name.strip().removeprefix('const ')] = UPPER.findall(bound)
    return found


def names_of_clauses(texts, bound):
    """The names that some clauses use, and the members of impls that they name."""
    names, members = [], []
    for text in texts:
        names += used(text, bound)
        members += trait_members(text)
    return names, members
