"""docs/DEFINITIONS.md: what has to be believed of each promise. And the same by definition."""

PAGE = '''# What has to be believed

All that is proved is proved from definitions, so a promise is worth what these say. They are the files of `specs/` below, lower crates first.
`tools/believed 3` prints what the third promise asks to believe, in the order in which it is read: its clauses, the types and the definitions.

`tools/believed --write` makes this page, and the gate refuses another one. It follows the names in [the clauses of each
promise](PROOFS.md#the-clauses-of-each-promise) through the definitions of `specs/` and the types of `src/`, and not into the kit, of which {kit}
names are used.

| promise | lines of clauses | definitions | their lines | files | types | their lines |
| --- | --- | --- | --- | --- | --- | --- |
{promises}

A definition counts with its comment. What two promises ask for is counted once in the last row.

## Definitions

How many definitions of a file the promises ask for, how many lines these have, and which promises ask for them.

|file below `crates/`|what it says|definitions|lines|promises|
|---|---|---|---|---|
{files}

## Definitions of other clauses

The clauses that PROOFS lists beside those of the promises need these as well. Files of the table above are described there.

|file below `crates/`|what it says|definitions|lines|
|---|---|---|---|
{others}

## Types of the code

Of a type with an `impl Model` its view is read as well, of one that a clause takes or gives its invariant, and of a trait its ghost members.

|file below `crates/`|types|promises|
|---|---|---|
{types}
'''


def promise_row(promise):
    title = f'{promise.number}. {promise.name}' if promise.number != 'all' else promise.name
    counts = (promise.clause_lines, len(promise.definitions), promise.lines, len(promise.files), len(promise.types), promise.type_lines)
    return f'| {title} | ' + ' | '.join(f'{count:,}' for count in counts) + ' |'


def ranges(numbers):
    """Numbers in order, three and more in a row as the first and the last: 1,3-5."""
    runs = []
    for value in sorted(numbers):
        if runs and runs[-1][-1] == value - 1:
            runs[-1].append(value)
        else:
            runs.append([value])
    return ','.join(f'{run[0]}-{run[-1]}' if len(run) > 2 else ','.join(map(str, run)) for run in runs)


def in_table(text):
    return text.replace('|', '\\|')


def chosen(source, reached):
    return [definition for definition in source.definitions if definition in reached]


def file_rows(promises, reached, has_promises):
    """A row for each file with definitions that are reached: what it says, how many these are, and their lines."""
    for source in promises.sources:
        found = chosen(source, reached)
        if found:
            said = '' if not has_promises and chosen(source, promises.whole.reached) else in_table(source.head)
            cells = [f'`{source.where}`', said, str(len(found)), str(sum(definition.size for definition in found))]
            yield '|' + '|'.join(cells + [ranges(promises.resting_on(found))] * has_promises) + '|'


def type_rows(promises):
    found = {}
    for target in promises.whole.types:
        found.setdefault(target.source.where, []).append(target)
    for where in sorted(found):
        targets = sorted(found[where], key=lambda target: target.first)
        yield f'|`{where}`|' + ', '.join(f'`{target.name}`' for target in targets) + f'|{ranges(promises.resting_on(targets))}|'


def page_of(promises):
    whole = promises.whole
    return PAGE.format(
        kit=promises.kit,
        promises='\n'.join(map(promise_row, [*promises.numbered, whole])),
        files='\n'.join(file_rows(promises, whole.reached, True)),
        others='\n'.join(file_rows(promises, promises.others, False)),
        types='\n'.join(type_rows(promises)))


# -- by definition

def grouped(source, reached):
    """The definitions of a file that are reached, each with those behind it that have no comment of their own."""
    groups, comment = [], ''
    for definition in source.definitions:
        comment = definition.comment or comment
        if definition in reached and groups and groups[-1][0] == comment:
            groups[-1][1].append(definition)
        elif definition in reached:
            groups.append((comment, [definition]))
    return groups


def definition_table(promises):
    """A row for each definition: its comment, its name, its file and the promises that rest on it."""
    lines = ['| what it says | definition | file | promises |', '| --- | --- | --- | --- |']
    for source in promises.sources:
        for comment, group in grouped(source, promises.whole.reached):
            names = ', '.join(f'`{in_table(definition.name)}`' for definition in group)
            lines.append(f'| {in_table(comment)} | {names} | `{source.where}` | {ranges(promises.resting_on(group))} |')
    return '\n'.join(lines)
