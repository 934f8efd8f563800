"""The files of specs/: what each defines, imports and passes on."""
import re

from belief.words import binders, code_of, pattern_names, used

IMPORT = re.compile(r'^((?:unfoldable )?pub )?use (\S+?)(?:\.\{(.*)\})?(?: as (\S+))?$')
HEAD = re.compile(r'^(?:(?P<kind>abbrev pub|unfoldable pub|pub record|pub data|record|data|pub|abbrev) )?(?P<name>[^\s:(){}]+) (?=[^=]*:)')
GROUP_HEAD = re.compile(r'(?:abbrev |unfoldable )?mutual$|module ')
OTHER = re.compile(r'(?:unfoldable )?(?:pub )?use |infix|unfolding ')
MEMBER = re.compile(r'^\s+(?:pub )?(\S+) :')


class Definition:
    """One definition of a file of specs/."""

    def __init__(self, source, kind, name, first, comments, outer):
        self.source, self.kind, self.name, self.first = source, kind, name, first
        self.comments, self.outer, self.lines = comments, outer, []

    @property
    def path(self):
        return self.source.path

    @property
    def is_type(self):
        return self.kind.endswith(('record', 'data'))

    @property
    def is_law(self):
        """Whether it is a lemma: only such a one is public and neither an abbreviation, a type nor unfoldable."""
        return self.kind in ('pub', '')

    @property
    def size(self):
        """How many lines it has, with its comment."""
        return len(self.lines) + len(self.comments)

    @property
    def comment(self):
        return ' '.join(self.comments)

    def members(self):
        """The constructors or the fields of a type."""
        return [found[1] for found in map(MEMBER.match, self.lines[1:]) if found] if self.is_type else []

    def names(self):
        return typed_names(self) if self.is_type else clause_names(self)


def typed_names(definition):
    """What a type's parameters, and its fields or constructors, name: each field stands in the types of those behind it."""
    found, bound = [], set(definition.outer) | {definition.name}
    head, *members = whole_lines(definition)
    bound |= binders(head)
    found += used(head, bound)
    for line in members:
        name, _, kind = re.sub(r'^\s*(?:pub )?', '', line).partition(' : ')
        found += used(kind, bound)
        if 'record' in definition.kind:
            bound.add(name)
    return found


def clause_names(definition):
    """What the type of a definition and each of its clauses name."""
    found = []
    for place, piece in enumerate(whole_lines(definition)):
        left, equals, right = piece.partition(' = ')
        if place == 0 or not equals:
            found += used(piece, definition.outer | {definition.name})
            continue
        bound = definition.outer | pattern_names(left)
        found += [parts for parts in used(left, bound) if parts[0] != definition.name]
        found += used(right, bound | {definition.name})
    return found


def whole_lines(definition):
    """The lines of a definition, those that go on joined to the ones that they go on from; of a type each member is one."""
    depth = min(len(line) - len(line.lstrip()) for line in definition.lines)
    depths = {depth, depth + 2} if definition.is_type else {depth}
    pieces = []
    for line in definition.lines:
        code = code_of(line)
        if code.strip() and (not pieces or len(line) - len(line.lstrip()) in depths):
            pieces.append(code)
        elif code.strip():
            pieces[-1] += ' ' + code.strip()
    return pieces


class Source:
    """A file of specs/."""

    def __init__(self, crate, path, top):
        self.crate, self.path = crate, path
        self.name = path.stem
        self.text = path.read_text()
        self.where = str(path.relative_to(top / 'crates'))
        self.imports, self.aliases, self.passed_on = {}, {}, {}
        self.definitions = read_definitions(self)
        self.own = own_names(self.definitions)
        self.read_imports()

    @property
    def is_of_laws(self):
        return self.name.endswith('Laws')

    @property
    def head(self):
        """The comment at the head of the file."""
        lines = []
        for line in self.text.split('\n'):
            if not line.startswith('-- '):
                break
            lines.append(line[3:])
        return ' '.join(lines)

    def read_imports(self):
        for line in self.text.split('\n'):
            found = IMPORT.match(line)
            if found:
                is_public, module, names, alias = found.groups()
                self.add_import(bool(is_public), re.sub(r'^Rattle\.', '', module), names, alias)

    def add_import(self, is_public, module, names, alias):
        if names is None:
            self.aliases[alias or module.rpartition('.')[2]] = module
            return
        for item in names.split(', '):
            name, _, other = item.strip().partition(' as ')
            self.imports[other or name] = (module, name)
            if is_public:
                self.passed_on[other or name] = (module, name)


def own_names(definitions):
    """What a file defines, by name; a constructor stands for its type."""
    own = {}
    for definition in definitions:
        own[definition.name] = definition
        if 'data' in definition.kind:
            own.update((name, definition) for name in definition.members())
    return own


class Reader:
    """Reads the definitions of a file line by line, each with the comment right above it."""

    def __init__(self, source):
        self.source, self.found, self.comment = source, [], []
        self.leave_group()

    def leave_group(self):
        """A group is a `mutual` block, or a module with parameters: its definitions are indented, and may share the comment above it."""
        self.depth, self.outer, self.shared, self.short = 0, set(), [], False

    def enter_group(self, body):
        self.depth, self.outer, self.shared, self.comment = 2, binders(body), self.comment, []
        self.short = not body.startswith(('mutual', 'module'))

    def take(self, number, line):
        body = line.strip()
        indent = len(line) - len(line.lstrip())
        if not body:
            self.comment = []
        elif body.startswith('-- '):
            self.comment.append(body[3:])
        elif GROUP_HEAD.match(body):
            self.enter_group(body)
        elif not OTHER.match(body):
            if indent == 0:
                self.leave_group()
            self.take_code(number, line, HEAD.match(body) if indent == self.depth else None)

    def take_code(self, number, line, head):
        """A line of a definition: it begins one, or goes on with the last one."""
        if head and not (self.found and self.found[-1].name == head['name'] and not head['kind']):
            kind = ('abbrev ' * self.short + (head['kind'] or '')).strip()
            self.found.append(Definition(self.source, kind, head['name'], number, self.comment or self.shared, self.outer))
        if self.found:
            self.found[-1].lines.append(line)
        self.comment, self.shared = [], []


def read_definitions(source):
    reader = Reader(source)
    for number, line in enumerate(source.text.split('\n'), 1):
        reader.take(number, line)
    return reader.found
