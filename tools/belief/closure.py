"""Which definitions a promise rests on: names are followed from its clauses through the definitions of specs/, and the types of src/."""
import pathlib
import re
import typing

from belief import contracts, definitions

PRIMITIVES = {'Self', 'Option', 'Result', 'Vec', 'Box', 'String', 'Some', 'None', 'Ok', 'Err'}


class Project:
    """All files of specs/ and of src/."""

    def __init__(self, top):
        self.top = pathlib.Path(top)
        self.specs, self.sources, self.passed_on, self.kit, self.unknown = {}, {}, {}, set(), set()
        for crate in sorted(path for path in (self.top / 'crates').iterdir() if path.is_dir()):
            self.read_crate(crate)

        listed = re.findall(r'^(\w+)[^:\n#]*:', (self.top / 'crates.txt').read_text(), re.M)
        self.orders = {crate: place for place, crate in enumerate(listed)}

    def order(self, crate):
        """The place of a crate among those of crates.txt, where lower ones come first."""
        return self.orders.get(crate, len(self.orders))

    def read_crate(self, crate):
        for path in sorted((crate / 'specs').rglob('*.antt')):
            if path.name != 'Lib.antt':
                module = '.'.join([crate.name, *path.relative_to(crate).with_suffix('').parts])
                self.specs[module] = definitions.Source(crate.name, path, self.top)
            else:
                for module in re.findall(r'^pub use Rattle\.(\S+)$', path.read_text(), re.M):
                    self.passed_on[f'{crate.name}.specs.{module.rpartition(".")[2]}'] = module
        files = sorted((crate / 'src').rglob('*.rt'))
        self.sources[crate.name] = [contracts.RustSource(crate.name, path, self.top) for path in files]
        views = {name: view for source in self.sources[crate.name] for name, view in source.views.items()}
        for source in self.sources[crate.name]:
            for name, item in source.types.items():
                item.view = views.get(name)

    # -- what a name stands for

    def named(self, module, name):
        """What a name of a module stands for: a definition, a type, or nothing of this project."""
        crate, *parts = module.split('.')
        if crate not in self.sources:
            self.kit.add(f'{module}.{name}')
            return None
        if 'declared' in parts or 'contracts' in parts:
            kind = [part for part in parts if part != 'TheVariants'][-1]
            return self.type_named(crate, kind, parts[2:-1])
        source = self.specs.get(self.passed_on.get(module, module))
        if source is None:
            self.unknown.add(module)
            return None
        if name in source.own:
            return source.own[name]
        if name in source.passed_on:
            return self.named(*source.passed_on[name])
        self.unknown.add(f'{module}.{name}')
        return None

    def type_named(self, crate, name, hint=()):
        """The type or trait of a name that a crate declares or passes on."""
        found = [source for source in self.sources.get(crate, ()) if name in source.types]
        best = [source for source in found if source.stem in hint] or found
        if best:
            return best[0].types[name]
        for source in self.sources.get(crate, ()):
            if source.stem in ('lib', 'main') and name in source.uses and source.uses[name][0] != crate:
                return self.type_named(*source.uses[name])
        return None

    def rust_name(self, source, name):
        """What a type's name stands for in a file of src/."""
        if name in source.types:
            return source.types[name]
        if name in source.uses:
            return self.type_named(*source.uses[name], hint=self.hint(source, name))
        return None

    @staticmethod
    def hint(source, name):
        text = '\n'.join(source.lines)
        return re.findall(r'\w+', ' '.join(re.findall(rf'^use (crate[^;]*\b{name}\b[^;]*);', text, re.M)))

    # -- what a thing names

    def resolved(self, names, scopes, source=None):
        """What some names stand for, by imports and aliases from the inner ones outward, and where these end by the types of a file of src/."""
        for first, *rest in names:
            target = self.in_scopes(first, rest, scopes)
            if target is None and source is not None and first[0].isupper() and first not in PRIMITIVES:
                target = self.rust_name(source, first)
            if target is not None:
                yield target

    def in_scopes(self, first, rest, scopes):
        for imports, aliases in scopes:
            if first in imports:
                return self.named(*imports[first])
            if first in aliases and rest:
                return self.named(aliases[first], rest[0])
        return None

    def of_definition(self, definition):
        """What a definition names: others of its file, and what the file imports."""
        source, names = definition.source, definition.names()
        own = [source.own[first] for first, *_ in names if first in source.own]
        operators = self.operators(source, names)
        others = [parts for parts in names if parts[0] not in source.own]
        return [*own, *operators, *self.resolved(others, [(source.imports, source.aliases)])]

    def operators(self, source, names):
        """The operators of the project that stand between other words, and that which a `do` takes."""
        words = {parts[0] for parts in names}
        for name in [*source.own, *source.imports]:
            signs = [sign for sign in name.split('◌') if sign]
            if '◌' in name and all(sign in words or sign == '>>=' and 'do' in words for sign in signs):
                target = source.own.get(name) or self.named(*source.imports[name])
                if target is not None:
                    yield target

    def scopes_of(self, item):
        inner = [(item.imports, item.aliases)]
        if item.owner is not None:
            inner.append((item.owner.imports, item.owner.aliases))
        return [*inner, (item.source.imports, item.source.aliases)]

    def of_text(self, item, texts, bound=frozenset()):
        """What some texts name that stand at an item of src/."""
        names, members = contracts.names_of_clauses(texts, bound)
        yield from self.resolved(names, self.scopes_of(item), item.source)
        for owner, trait, member in members:
            yield from self.of_member(item, owner, trait, member)

    def of_member(self, item, owner, trait, name):
        declared = self.rust_name(item.source, trait)
        if declared is not None:
            yield declared
        for sources in self.sources.values():
            for source in sources:
                if (owner, trait, name) in source.members:
                    yield source.members[(owner, trait, name)]

    def of_item(self, item, is_in_signature=False):
        """What a type, a trait or a member of src/ names."""
        if item.kind == 'member':
            return list(self.of_text(item, [item.text]))
        if item.kind == 'trait':
            texts = [' '.join(lines) for _, lines in contracts.ghosts_of(item.lines)]
            return list(self.of_text(item, texts, {name for name, _ in contracts.ghosts_of(item.lines)}))
        if item.kind == 'const':
            return []
        return [*self.of_declaration(item, is_in_signature), *self.of_view(item, is_in_signature)]

    def of_declaration(self, item, is_in_signature):
        """The types of the fields of a type, where it has no view; and what its own ghost fields say."""
        ghosts = [line for line in item.lines if line.strip().startswith('ghost ')]
        if is_in_signature:
            yield from self.of_text(item, ghosts)
        if item.view is None:
            plain = [re.sub(r'".*"|//.*', '', line) for line in item.lines[:1] + contracts.shown_fields(item)]
            for name in contracts.UPPER.findall(' '.join(plain)):
                target = self.rust_name(item.source, name)
                if target is not None and target is not item:
                    yield target

    def of_view(self, item, is_in_signature):
        if item.view is None:
            return
        wanted = {'Value', 'view'} | ({'invariant'} if is_in_signature else set())
        texts = [' '.join(lines) for name, lines in contracts.ghosts_of(item.view.lines) if name in wanted]
        yield from self.of_text(item.view, [re.sub(r'^ *ghost \w+ =', '', text) for text in texts])

    # -- what a promise names

    def function(self, name):
        crate, _, path = name.partition('::')
        for source in self.sources.get(crate, ()):
            if path in source.functions:
                return source.functions[path]
        raise SystemExit(f'there is no function {name}')

    def of_function(self, name, wanted):
        """The text of a function with the clauses that are meant, how many lines these have, what they name, and the types of which they speak."""
        function = self.function(name)
        chosen = [(kind, lines) for kind, clause, lines in contracts.clauses_of(function) if kind == 'requires' or not wanted or clause in wanted]
        texts = [contracts.clause_text(lines) for _, lines in chosen]
        generic, parameters = contracts.parameters_of(contracts.signature_of(function))
        bounds = contracts.bounds_of(generic) | self.owner_bounds(function)
        bound = set(parameters) | set(bounds) | {'self', 'result'}
        named = list(self.of_text(function, texts, bound))
        types = list(self.signature_types(function, parameters, bounds, ' '.join(texts)))
        shown = [f'// {name}', contracts.signature_of(function), *(line for _, lines in chosen for line in lines)]
        return Clauses('\n'.join(shown), sum(len(lines) for _, lines in chosen), named, types)

    @staticmethod
    def owner_bounds(function):
        head = function.owner.lines[0] if function.owner is not None else ''
        found = re.match(r'(?:pub )?(?:unsafe )?impl<', head)
        return contracts.bounds_of(head[found.end():contracts.matching(head[found.end() - 1:], '<', '>') + found.end() - 1]) if found else {}

    def signature_types(self, function, parameters, bounds, text):
        """The types of the parameters of which the clauses speak, and the traits of these."""
        spoken = {name for name in parameters if re.search(rf'\b{re.escape(name)}\b', text)}
        kinds = ' '.join(parameters[name] for name in spoken if name not in ('self', '&self', '&mut self'))
        names = set(contracts.UPPER.findall(kinds))
        names |= {bound for kind, traits in bounds.items() if kind in names or re.search(rf'\b{kind}\.', text) for bound in traits}
        if re.search(r'\bself\b', text) and function.owner is not None:
            names.add(function.owner.name.rpartition(' for ')[2])
        if 'Self' in names and function.owner is not None:
            names.add(function.owner.name.rpartition(' for ')[2])
        for name in sorted(names):
            target = self.rust_name(function.source, name)
            if target is not None:
                yield target

    def reached_from(self, functions):
        """The clauses of some functions, and what these rest on. A law is proved, and not followed."""
        found = [self.of_function(name, wanted) for name, wanted in functions]
        waiting = [target for clauses in found for target in clauses.named + clauses.types]
        in_signature = {target for clauses in found for target in clauses.types}
        reached = set()
        while waiting:
            target = waiting.pop()
            if target in reached or is_law(target):
                continue
            reached.add(target)
            waiting += self.of_definition(target) if is_definition(target) else self.of_item(target, target in in_signature)
        return found, reached


class Clauses(typing.NamedTuple):
    """The clauses of a function: their text and its lines, what they name, and the types of which they speak."""

    text: str
    lines: int
    named: list
    types: list


def is_definition(target):
    return isinstance(target, definitions.Definition)


def is_law(target):
    return is_definition(target) and target.is_law
