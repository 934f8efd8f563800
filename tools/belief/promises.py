"""The promises of docs/PROOFS.md, what each rests on, and of which kind each file of specs/ is."""
import re

from belief.closure import Project, is_definition

HEADING = 'The clauses of each promise'
ROW = re.compile(r'^\| (\d+) \| (.*) \|$', re.M)
NAMED = re.compile(r'^(\d+)\. \*\*(.*?)\.?\*\*', re.M)
SECTION = re.compile(r'^- Clauses: (.*)$', re.M)
INNER = 'Inner'


class Promise:
    """A promise: its number, its name, its clauses and what these rest on."""

    def __init__(self, number, name, clauses, reached):
        self.number, self.name, self.reached = number, name, reached
        self.clauses = clauses
        self.definitions = [target for target in reached if is_definition(target)]
        self.types = [target for target in reached if not is_definition(target)]

    @property
    def clause_lines(self):
        return sum(function.lines for function in self.clauses)

    @property
    def lines(self):
        return sum(definition.size for definition in self.definitions)

    @property
    def files(self):
        return {definition.path for definition in self.definitions}

    @property
    def type_lines(self):
        return sum(target.size for target in self.types)


class Promises:
    """The promises with a number, all of them as one, and what the other clauses of the page rest on beside these."""

    def __init__(self, top):
        self.project = Project(top)
        page = (self.project.top / 'docs/PROOFS.md').read_text()
        self.numbered = [self.promise(*row) for row in rows_of(page)]
        reached = set().union(*(promise.reached for promise in self.numbered))
        self.whole = Promise('all', 'All of them', [function for promise in self.numbered for function in promise.clauses], reached)
        self.kit = len(self.project.kit)
        others = [function for cell in SECTION.findall(page) for function in functions_of(cell)]
        self.others = self.project.reached_from(others)[1] - reached

    def promise(self, number, name, cell):
        return Promise(number, name, *self.project.reached_from(functions_of(cell)))

    @property
    def sources(self):
        """The files of specs/, those of lower crates first."""
        return sorted(self.project.specs.values(), key=lambda source: (self.project.order(source.crate), source.where))

    def resting_on(self, targets):
        """The numbers of the promises that rest on some of these."""
        return {promise.number for promise in self.numbered if promise.reached & set(targets)}

    def kind_of(self, source):
        """The kind of a file of specs/, by what reaches it."""
        if set(source.definitions) & (self.whole.reached | self.others):
            return 'promise'
        return 'law' if source.is_of_laws else 'inner'

    def wrong_kinds(self):
        """The files whose place or name tells another kind than they are of, once there are places for inner ones."""
        if any(kind_told(source) == 'inner' for source in self.sources):
            for source in self.sources:
                told, kind = kind_told(source), self.kind_of(source)
                if told != kind and source.definitions:
                    yield f'{source.where} is of the kind {kind}, and its place and name tell {told}'


def rows_of(page):
    """The number, the name and the clauses of each promise, by the table under the heading of the page."""
    table = re.search(rf'^## {HEADING}$(.*?)(?=^## |\Z)', page, re.M | re.S)
    if table is None:
        raise SystemExit(f'docs/PROOFS.md has no heading: {HEADING}')
    names = dict(NAMED.findall(page))
    return [(int(number), names.get(number, ''), cell) for number, cell in ROW.findall(table[1])]


def functions_of(cell):
    """The functions that a text lists, each with the names of the clauses that are meant: none where all are."""
    found = []
    for item in cell.split(';'):
        name, *clauses = re.findall(r'`([^`]+)`', item)
        found.append((name, clauses))
    return found


def kind_told(source):
    """The kind that the place and the name of a file tell."""
    if source.path.parent.name == INNER:
        return 'inner'
    return 'law' if source.is_of_laws else 'promise'
